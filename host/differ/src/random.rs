//! Random calls by seed: accepted and damaged ones, biased towards states in
//! which something happens; each is compared, accepted ones with the plain C
//! as well, and their clock events are cut and joined.

use crate::call::{Call, Lender, Outcome};
use crate::random_rows;
use crate::shrink;
use mfp_host::reference::image::at;
use mfp_host::reference::layout::{
    answer_at, kind, record_at, ANSWER_BYTES, IMAGE_BYTES, RECORD_BYTES, TAPE_MAX,
};
use mfp_host::reference::tape::encode_record;
use mfp_host::reference::timer::Timer;
use mfp_host::reference::{Device, Event};
use mfp_host::rng::Rng;

/// What a run has reached.
#[derive(Default)]
pub struct Reached {
    pub events: u64,
    pub refusals: [u64; 9],
    pub classes: [u64; 5],
    pub kinds: [u64; 8],
    pub timeouts: [u64; 4],
    /// Timeouts without a clock, of A and B.
    pub edge_timeouts: [u64; 2],
    pub irqs: u64,
    pub cuts: u64,
    pub joins: u64,
    pub rows: random_rows::Reached,
}

impl Reached {
    /// Everything by name, to be printed and to be more than nothing.
    pub fn named(&self) -> Vec<(String, u64)> {
        let mut all = Vec::new();
        let mut add = |name: &str, first: usize, counts: &[u64]| {
            for (i, count) in counts.iter().enumerate() {
                all.push((format!("{name} {}", first + i), *count));
            }
        };
        add("refusal", 1, &self.refusals);
        add("class", 0, &self.classes);
        add("kind", 0, &self.kinds);
        add("timeouts of timer", 0, &self.timeouts);
        add("timeouts by an edge of input", 0, &self.edge_timeouts);
        all.push(("answers with IRQ".to_string(), self.irqs));
        all.push(("spans cut".to_string(), self.cuts));
        all.push(("spans joined".to_string(), self.joins));
        all.extend(self.rows.named());
        all
    }

    fn count(&mut self, call: &Call, outcome: &Outcome) {
        if outcome.code != 0 {
            self.refusals[outcome.code as usize % 256 - 1] += 1;
            return;
        }
        let records = call.tape.chunks_exact(RECORD_BYTES);
        for (record, answer) in records.zip(outcome.answers.chunks_exact(ANSWER_BYTES)) {
            self.events += 1;
            self.kinds[record[record_at::KIND] as usize] += 1;
            self.classes[answer[answer_at::CLASS] as usize] += 1;
            self.irqs += u64::from(answer[answer_at::IRQ]);
            for (timer, made) in timeouts(answer).into_iter().enumerate() {
                self.timeouts[timer] += u64::from(made > 0);
                if record[record_at::KIND] != kind::CLOCKS && made > 0 {
                    self.edge_timeouts[timer] += 1;
                }
            }
        }
    }
}

/// Run that many random events by this seed.
pub fn run(lender: &mut Lender, seed: u64, events: u64, all: &mut Reached) -> Result<u64, String> {
    let mut rng = Rng::new(seed);
    let mut image = Device::fresh().save().to_vec();
    let enough = all.events + events;
    while all.events < enough {
        let mut call = accepted_call(&mut rng, &image);
        if rng.chance(1, 4) {
            damage(&mut rng, &mut call);
        }
        let outcome = lender
            .compare(&call)
            .map_err(|wrong| shrink::report(lender, &call, &wrong))?;
        all.count(&call, &outcome);
        if outcome.code == 0 {
            against_plain(&call)?;
            cut_and_join(lender, &mut rng, &call, all)?;
        }
        image = next_image(&mut rng, image, &outcome);
    }
    Ok(events)
}

/// Mostly the device as the last call left it, at times quite another.
fn next_image(rng: &mut Rng, before: Vec<u8>, outcome: &Outcome) -> Vec<u8> {
    if rng.chance(1, 6) {
        accepted_image(rng).to_vec()
    } else if outcome.code == 0 {
        outcome.image.clone()
    } else {
        before
    }
}

fn accepted_call(rng: &mut Rng, image: &[u8]) -> Call {
    let most = rng.pick(&[4, 24, 24, 24, 60]);
    let records = match rng.below(60) {
        0 => TAPE_MAX / RECORD_BYTES,
        _ => rng.below(most) as usize,
    };
    let tape: Vec<u8> = (0..records)
        .flat_map(|_| encode_record(&event(rng)))
        .collect();
    let mut call = Call::new(image, &tape);
    let spare = rng.pick(&[0, 0, 1, 21, 22, 100]);
    call.answers = (0..call.answers.len() + spare)
        .map(|_| rng.byte())
        .collect();
    call
}

/// A value with few bits, with many, or small: those that make things happen.
fn value(rng: &mut Rng) -> u8 {
    match rng.below(6) {
        0 => 1 << rng.below(8),
        1 => !(1 << rng.below(8)),
        2 => rng.byte() | rng.byte(),
        3 => rng.below(4) as u8,
        4 => rng.pick(&[0x00, 0xFF]),
        _ => rng.byte(),
    }
}

/// Any event that is accepted.
pub fn event(rng: &mut Rng) -> Event {
    let level = rng.chance(1, 2);
    match rng.below(100) {
        0 => Event::Reset,
        1..=12 => Event::Read(rng.below(19) as u8),
        13..=42 => write(rng),
        43..=54 => Event::Line(rng.below(8) as u8, level),
        55..=66 => Event::Input(rng.below(2) as u8, level),
        67..=83 => Event::Clocks(clocks(rng)),
        84..=94 => Event::Acknowledge(rng.chance(7, 8)),
        _ => Event::Raise(9 + rng.below(4) as u8),
    }
}

/// A write that tends to leave interrupts enabled and timers running.
fn write(rng: &mut Rng) -> Event {
    let rs = rng.below(19) as u8;
    let many = rng.byte() | rng.byte() | rng.byte();
    let written = match rs {
        // IER, IPR and IMR keep most of their bits.
        3..=6 | 9 | 10 if rng.chance(3, 4) => many,
        // An end of service clears one bit or all.
        7 | 8 if rng.chance(1, 4) => 0,
        7 | 8 => !(1 << rng.below(8)),
        // S is mostly set.
        11 => rng.byte() | if rng.chance(3, 4) { 8 } else { 0 },
        // Every mode, event count more often, and bit 4 now and then.
        12 | 13 if rng.chance(1, 3) => 8,
        12 | 13 => rng.below(16) as u8 | if rng.chance(1, 4) { 16 } else { 0 },
        15..=18 if rng.chance(3, 4) => rng.below(4) as u8,
        _ => value(rng),
    };
    Event::Write(rs, written)
}

/// None, few, about a divisor, about a period, and as many as there are.
fn clocks(rng: &mut Rng) -> u32 {
    let divisor = rng.pick(&[4, 10, 16, 50, 64, 100, 200]);
    let near = rng.below(3) as u32;
    match rng.below(12) {
        0 => 0,
        1..=4 => rng.below(20) as u32,
        5..=6 => divisor + near - 1,
        7 => divisor * rng.below(257) as u32 + near,
        8 => rng.below(700) as u32,
        9 => rng.below(200_000) as u32,
        10 => rng.word() as u32,
        _ => u32::MAX - near,
    }
}

/// An image that keeps the image rule, with much enabled and little in service.
pub fn accepted_image(rng: &mut Rng) -> [u8; IMAGE_BYTES] {
    let mut image = Device::fresh().save();
    for byte in &mut image[at::GPDR..at::VR] {
        *byte = value(rng);
    }
    for half in 0..2 {
        image[at::IERA + half] |= rng.byte();
        image[at::IPRA + half] = rng.byte() & image[at::IERA + half];
        image[at::ISRA + half] &= rng.byte() & rng.byte();
    }
    image[at::VR] = rng.byte() & 0xF8;
    if image[at::VR] & 8 == 0 {
        image[at::ISRA..at::IMRA].fill(0);
    }
    image[at::LEVELS] = rng.byte();
    image[at::INPUTS] = rng.byte() & 3;
    image[at::OUTPUTS] = rng.byte() & 15;
    accepted_timers(rng, &mut image);
    image
}

fn accepted_timers(rng: &mut Rng, image: &mut [u8]) {
    let modes = [16, 16, 8, 8].map(|most| rng.below(most) as u8);
    image[at::MODE_A] = modes[0];
    image[at::MODE_B] = modes[1];
    image[at::TCDCR] = 16 * modes[2] + modes[3];
    for (t, mode) in modes.into_iter().enumerate() {
        let timer = Timer {
            mode,
            ..Timer::default()
        };
        image[at::DATA + t] = value(rng);
        image[at::COUNTER + t] = value(rng);
        let positions = timer.divisor().unwrap_or(1);
        image[at::POSITION + t] = rng.below(positions.into()) as u8;
    }
}

/// One to three faults of any kind, each of which may also miss.
fn damage(rng: &mut Rng, call: &mut Call) {
    for _ in 0..1 + rng.below(3) {
        match rng.below(10) {
            0 => {
                let length = rng.pick(&[0, 1, 2, 31, 33, 64]);
                call.image.resize(length, 0);
            }
            1 => spoil(rng, &mut call.image, 0, 2),
            2 => spoil(rng, &mut call.image, 2, IMAGE_BYTES),
            3 => damage_length(rng, &mut call.tape),
            4 => {
                let room = rng.below(call.answers.len() as u64 + 1) as usize;
                call.answers.truncate(room);
            }
            5 => call.answers.truncate(call.answers.len().saturating_sub(1)),
            _ => damage_record(rng, &mut call.tape),
        }
    }
}

/// One of these bytes becomes another, where the buffer has it.
pub fn spoil(rng: &mut Rng, bytes: &mut [u8], from: usize, to: usize) {
    let at = from + rng.below((to - from) as u64) as usize;
    let near = rng.pick(&[1, 255]);
    let byte = rng.byte();
    let just_beside = rng.chance(1, 2);
    if let Some(place) = bytes.get_mut(at) {
        *place = if just_beside {
            place.wrapping_add(near)
        } else {
            byte
        };
    }
}

fn damage_length(rng: &mut Rng, tape: &mut Vec<u8>) {
    let length = match rng.below(3) {
        0 => rng.below(tape.len() as u64 + 9) as usize,
        1 => tape.len() + 1,
        _ => rng.pick(&[TAPE_MAX + 1, TAPE_MAX + 8, TAPE_MAX + 64]),
    };
    tape.resize(length, 0x4D);
}

/// A serial register, or any byte of any record as something else.
fn damage_record(rng: &mut Rng, tape: &mut [u8]) {
    let records = (tape.len() / RECORD_BYTES) as u64;
    if records == 0 {
        return;
    }
    let record = rng.below(records) as usize * RECORD_BYTES;
    if rng.chance(1, 3) {
        let serial = Event::Read(19 + rng.below(5) as u8);
        tape[record..record + RECORD_BYTES].copy_from_slice(&encode_record(&serial));
    } else {
        spoil(rng, tape, record, record + RECORD_BYTES);
    }
}

/// The plain C is measured against, so it must do the same work.
fn against_plain(call: &Call) -> Result<(), String> {
    let differs = |call: &Call| {
        let expected = call.by_reference();
        expected.code == 0 && call.by_plain() != expected
    };
    if !differs(call) {
        return Ok(());
    }
    let small = shrink::smallest(call, differs);
    let expected = shrink::outcome_lines("second implementation", &small, &small.by_reference());
    let found = shrink::outcome_lines("plain C", &small, &small.by_plain());
    Err(format!(
        "the plain C differs\n{}{expected}{found}",
        shrink::shown(&small)
    ))
}

/// Demand 3: cut one clock event, and join one pair, wherever the tape has them.
fn cut_and_join(
    lender: &mut Lender,
    rng: &mut Rng,
    call: &Call,
    all: &mut Reached,
) -> Result<(), String> {
    let spans = spans(&call.tape);
    if neighbours(&spans).is_some() {
        all.joins += 1;
        joins_well(lender, call)?;
    }
    if spans.is_empty() || call.tape.len() == TAPE_MAX {
        return Ok(());
    }
    let (at, n) = rng.pick(&spans);
    let first = rng.below(u64::from(n) + 1) as u32;
    all.cuts += 1;
    joins_well(lender, &with_spans(call, at, 1, &[first, n - first]))
}

/// The first pair of neighbouring clock events of this call may be joined.
fn joins_well(lender: &mut Lender, call: &Call) -> Result<(), String> {
    if joins(lender, call) {
        return Ok(());
    }
    let small = shrink::smallest(call, |smaller| !joins(lender, smaller));
    let mut said = format!("joined clocks differ\n{}", shrink::shown(&small));
    if let Ok(outcome) = lender.by_library(&small) {
        said += &shrink::outcome_lines("library", &small, &outcome);
    }
    Err(said)
}

fn joins(lender: &mut Lender, call: &Call) -> bool {
    // Room for the answers and no more, so that only answers are compared.
    let Ok(parts) = lender.by_library(&Call::new(&call.image, &call.tape)) else {
        return false;
    };
    if parts.code != 0 {
        return true;
    }
    let Some((at, sum)) = neighbours(&spans(&call.tape)) else {
        return true;
    };
    let whole = lender.by_library(&with_spans(call, at, 2, &[sum]));
    whole.is_ok_and(|whole| same_but_cut(&whole, &parts, at))
}

/// Index and clocks of the clock events of an accepted tape.
fn spans(tape: &[u8]) -> Vec<(usize, u32)> {
    let records = tape.chunks_exact(RECORD_BYTES).enumerate();
    records
        .filter(|(_, record)| record[record_at::KIND] == kind::CLOCKS)
        .map(|(at, record)| (at, number(&record[record_at::N..])))
        .collect()
}

fn number(bytes: &[u8]) -> u32 {
    u32::from_be_bytes(bytes.try_into().expect("four bytes"))
}

/// The first pair of neighbours whose sum stays within the limit.
fn neighbours(spans: &[(usize, u32)]) -> Option<(usize, u32)> {
    spans.windows(2).find_map(|pair| {
        let sum = pair[0].1.checked_add(pair[1].1)?;
        (pair[0].0 + 1 == pair[1].0).then_some((pair[0].0, sum))
    })
}

/// The call with `old` records from `at` on replaced by these clock events.
fn with_spans(call: &Call, at: usize, old: usize, new: &[u32]) -> Call {
    let mut tape = call.tape.clone();
    let records = new.iter().flat_map(|&n| encode_record(&Event::Clocks(n)));
    let range = at * RECORD_BYTES..(at + old) * RECORD_BYTES;
    tape.splice(range, records);
    Call::new(&call.image, &tape)
}

/// The same device, the same answers to other events, the same request and
/// outputs after the span, and counts that add up.
fn same_but_cut(whole: &Outcome, parts: &Outcome, at: usize) -> bool {
    let joined: Vec<&[u8]> = whole.answers.chunks(ANSWER_BYTES).collect();
    let cut: Vec<&[u8]> = parts.answers.chunks(ANSWER_BYTES).collect();
    let (span, first, second) = (joined[at], cut[at], cut[at + 1]);
    let sums = (0..4).all(|t| {
        let made = |answer: &[u8]| u64::from(timeouts(answer)[t]);
        made(first) + made(second) == made(span)
    });
    let others = joined[..at] == cut[..at] && joined[at + 1..] == cut[at + 2..];
    let after = span[..answer_at::TIMEOUTS] == second[..answer_at::TIMEOUTS];
    whole.code == 0 && whole.image == parts.image && sums && others && after
}

/// The four counts of an answer.
fn timeouts(answer: &[u8]) -> [u32; 4] {
    std::array::from_fn(|t| {
        number(&answer[answer_at::TIMEOUTS + 4 * t..answer_at::TIMEOUTS + 4 * t + 4])
    })
}
