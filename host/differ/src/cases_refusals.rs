//! The nine refusals of image and tape: every boundary of every condition and
//! the order between them, with the expected number worked out here from the
//! paper's words.

use crate::call::Call;
use crate::trial::{Case, Trial};
use mfp_host::reference::image::at;
use mfp_host::reference::tape::raw_record;
use mfp_host::reference::Device;

pub const CASES: &[Case] = &[
    ("refusal 1: image length", image_length),
    ("refusal 1: fresh image length", fresh_length),
    ("refusal 2: image mark", image_mark),
    ("refusal 3: modes A and B", modes),
    ("refusal 3: unused bits", unused_bits),
    ("refusal 3: pending only where enabled", pending),
    ("refusal 3: in-service only with S", in_service),
    ("refusal 3: positions of every mode", positions),
    ("refusal 3: bytes without a rule", free_bytes),
    ("refusal 4: tape length", tape_length),
    ("refusal 5: record mark", record_mark),
    ("refusal 6: kind", kinds),
    ("refusal 7: operands of every kind", operands),
    ("refusal 8: serial registers", serial),
    ("refusal 9: answer length", answer_length),
    ("order: every set of faults in one record", fault_sets),
    ("order: faults in two records", two_records),
    ("an accepted image, loaded and saved", load_and_save),
];

const RECORD: [u8; 2] = [0x4D, 0x45];
const RESET: [u8; 8] = [0x4D, 0x45, 0, 0, 0, 0, 0, 0];

impl Trial<'_> {
    /// An image with an empty tape: accepted or refused by its number.
    fn image(&mut self, image: &[u8], code: u32) {
        self.gives(&Call::new(image, &[]), code);
    }

    /// A tape on a fresh device.
    fn tape(&mut self, tape: &[u8], code: u32) {
        self.gives(&Call::new(&fresh(), tape), code);
    }
}

fn fresh() -> [u8; 32] {
    Device::fresh().save()
}

/// A fresh image with one byte changed.
fn with(at: usize, byte: u8) -> [u8; 32] {
    let mut image = fresh();
    image[at] = byte;
    image
}

/// 0 where it is accepted, else the number.
fn unless(accepted: bool, number: u32) -> u32 {
    if accepted {
        0
    } else {
        number
    }
}

fn image_length(t: &mut Trial) {
    let long = [fresh().to_vec(), vec![0; 4064]].concat();
    for length in (0..=100).chain([255, 256, 4096]) {
        t.image(&long[..length], unless(length == 32, 1));
    }
}

fn fresh_length(t: &mut Trial) {
    for length in (0..=100).chain([255, 256, 4096]) {
        let before = vec![0xA5; length];
        let (code, expected) = match length {
            32 => (0, fresh().to_vec()),
            _ => (1, before.clone()),
        };
        t.tried += 1;
        let found = t.lender.fresh(&before);
        if found != Ok((code, expected)) {
            t.wrong = Some(format!("length {length}: {found:?}"));
        }
    }
}

fn image_mark(t: &mut Trial) {
    for mark in 0..=u16::MAX {
        let mut image = fresh();
        image[..2].copy_from_slice(&mark.to_be_bytes());
        t.image(&image, unless(mark == 0x4D31, 2));
    }
}

fn modes(t: &mut Trial) {
    for mode in 0..=255 {
        t.image(&with(at::MODE_A, mode), unless(mode <= 15, 3));
        t.image(&with(at::MODE_B, mode), unless(mode <= 15, 3));
    }
}

fn unused_bits(t: &mut Trial) {
    for byte in 0..=255 {
        t.image(&with(at::VR, byte), unless(byte % 8 == 0, 3));
        let modes_only = byte / 16 < 8 && byte % 16 < 8;
        t.image(&with(at::TCDCR, byte), unless(modes_only, 3));
        t.image(&with(at::OUTPUTS, byte), unless(byte < 16, 3));
        t.image(&with(at::INPUTS, byte), unless(byte < 4, 3));
    }
}

fn pending(t: &mut Trial) {
    for half in 0..2 {
        for enabled in 0..=255u8 {
            for bit in 0..8 {
                let mut image = with(at::IERA + half, enabled);
                image[at::IPRA + half] = 1 << bit;
                t.image(&image, unless(enabled >> bit & 1 == 1, 3));
            }
            let mut image = with(at::IERA + half, enabled);
            image[at::IPRA + half] = enabled;
            t.image(&image, 0);
            image[at::IPRA + half] = 0;
            image[at::IPRA + 1 - half] = enabled;
            t.image(&image, unless(enabled == 0, 3));
        }
    }
}

fn in_service(t: &mut Trial) {
    for half in 0..2 {
        for set in 0..=255 {
            for vr in [0x00, 0x08, 0xF0, 0xF8] {
                let mut image = with(at::ISRA + half, set);
                image[at::VR] = vr;
                t.image(&image, unless(vr & 8 == 8 || set == 0, 3));
            }
        }
    }
}

/// "A position below its divisor, and 0 in modes 0 and 8": the positions that
/// modes 0 to 7 allow, and 8 to 15 again.
const POSITIONS: [u8; 8] = [1, 4, 10, 16, 50, 64, 100, 200];

fn positions(t: &mut Trial) {
    for mode in 0..16u8 {
        for position in 0..=255 {
            let code = unless(position < POSITIONS[mode as usize % 8], 3);
            for timer in 0..4 {
                if timer >= 2 && mode >= 8 {
                    continue;
                }
                let at = [at::MODE_A, at::MODE_B, at::TCDCR, at::TCDCR][timer];
                let mut image = with(at, if timer == 2 { 16 * mode } else { mode });
                image[at::POSITION + timer] = position;
                t.image(&image, code);
            }
        }
    }
}

fn free_bytes(t: &mut Trial) {
    let free = [at::GPDR, at::AER, at::DDR, at::IERA, at::IERA + 1, at::IMRA];
    let more = [at::IMRA + 1, at::LEVELS].into_iter();
    for at in free.into_iter().chain(more).chain(at::DATA..at::POSITION) {
        for byte in 0..=255 {
            t.image(&with(at, byte), 0);
        }
    }
}

fn tape_length(t: &mut Trial) {
    let long = RESET.repeat(700);
    for length in (0..=64).chain([4080, 4088, 4089, 4095, 4096, 4097, 4104, 4112, 5600]) {
        let accepted = length % 8 == 0 && length <= 4096;
        t.tape(&long[..length], unless(accepted, 4));
    }
    t.tape(&vec![0; 4104], 4);
    t.tape(&[0; 7], 4);
}

fn record_mark(t: &mut Trial) {
    for mark in 0..=u16::MAX {
        let record = raw_record(mark.to_be_bytes(), 0, 0, 0);
        t.tape(&record, unless(mark == 0x4D45, 5));
    }
    for index in [0, 1, 255, 256, 511] {
        let mut tape = RESET.repeat(512);
        tape[8 * index] = 0;
        t.tape(&tape, 256 * index as u32 + 5);
    }
}

fn kinds(t: &mut Trial) {
    for kind in 0..=255 {
        let a = if kind == 7 { 9 } else { 0 };
        t.tape(&raw_record(RECORD, kind, a, 0), unless(kind <= 7, 6));
    }
    let last = raw_record(RECORD, 8, 255, u32::MAX);
    t.tape(&[RESET.repeat(511), last.to_vec()].concat(), 256 * 511 + 6);
}

/// Whether the operands of a kind are in range; serial registers among them.
fn in_range(kind: u8, a: u8, n: u32) -> bool {
    match kind {
        0 => a == 0 && n == 0,
        1 => a < 24 && n == 0,
        2 => a < 24 && n < 256,
        3 => a < 8 && n < 2,
        4 => a < 2 && n < 2,
        5 => a == 0,
        6 => a < 2 && n == 0,
        _ => (9..13).contains(&a) && n == 0,
    }
}

fn operands(t: &mut Trial) {
    let numbers = [
        0,
        1,
        2,
        3,
        7,
        8,
        9,
        12,
        254,
        255,
        256,
        257,
        511,
        512,
        65535,
        65536,
        65537,
        1 << 24,
        (1 << 24) + 1,
        1 << 31,
        u32::MAX - 1,
        u32::MAX,
    ];
    for kind in 0..8 {
        for (a, n) in (0..=255).flat_map(|a| numbers.map(|n| (a, n))) {
            let serial = (kind == 1 || kind == 2) && a >= 19;
            let code = match in_range(kind, a, n) {
                false => 7,
                true => unless(!serial, 8),
            };
            t.tape(&raw_record(RECORD, kind, a, n), code);
        }
    }
}

fn serial(t: &mut Trial) {
    for rs in 0..=23 {
        for value in 0..=255 {
            let code = unless(rs < 19, 8);
            t.tape(&raw_record(RECORD, 2, rs, value), code);
        }
        t.tape(&raw_record(RECORD, 1, rs, 0), unless(rs < 19, 8));
        t.tape(&raw_record(RECORD, 1, rs, 1), 7);
        t.tape(&raw_record(RECORD, 2, rs, 256), 7);
    }
}

fn answer_length(t: &mut Trial) {
    for records in [0usize, 1, 2, 3, 20, 511, 512] {
        let needed = 22 * records;
        let around = [0, 1, 21, 22, 23, 8 * records];
        for room in (needed.saturating_sub(23)..=needed + 23).chain(around) {
            let mut call = Call::new(&fresh(), &RESET.repeat(records));
            call.answers = vec![0x5A; room];
            t.gives(&call, unless(room >= needed, 9));
        }
    }
}

/// Put the fault of a refusal into a call, those of a record into this one.
fn break_call(call: &mut Call, refusal: u32, record: usize) {
    let at = 8 * record;
    match refusal {
        1 => call.image.truncate(31),
        2 => call.image[1] = 0x32,
        3 => call.image[at::OUTPUTS] = 0x10,
        4 => call.tape.push(0x4D),
        5 => call.tape[at] = 0,
        6 => call.tape[at + 2] = 8,
        7 => call.tape[at + 4] = 1,
        8 => call.tape[at + 2..at + 4].copy_from_slice(&[1, 19]),
        _ => call.answers.truncate(call.answers.len() - 1),
    }
}

/// All 512 sets of faults: the lowest number wins, with the record's index
/// for 5 to 8 and with 0 for the others.
fn fault_sets(t: &mut Trial) {
    for set in 0..512u32 {
        for record in 0..3 {
            let mut call = Call::new(&fresh(), &RESET.repeat(3));
            let faults = (1..=9).filter(|k| set >> (k - 1) & 1 == 1);
            let mut lowest_first: Vec<u32> = faults.collect();
            // The fault of 8 is written first: that of 6 overwrites its kind.
            lowest_first.sort_by_key(|&k| if k == 8 { 0 } else { k });
            for &k in &lowest_first {
                break_call(&mut call, k, record);
            }
            let code = match lowest_first.iter().min() {
                None => 0,
                Some(&k @ 5..=8) => 256 * record as u32 + k,
                Some(&k) => k,
            };
            t.gives(&call, code);
        }
    }
}

/// Of faults in two records the earlier record's is given, be it the higher.
fn two_records(t: &mut Trial) {
    for (first, second) in (5..=8).flat_map(|p| (5..=8).map(move |q| (p, q))) {
        for (early, late) in [(0, 1), (0, 2), (1, 2)] {
            let mut call = Call::new(&fresh(), &RESET.repeat(3));
            break_call(&mut call, first, early);
            break_call(&mut call, second, late);
            t.gives(&call, 256 * early as u32 + first);
        }
    }
}

fn load_and_save(t: &mut Trial) {
    let mut rng = mfp_host::rng::Rng::new(5);
    for _ in 0..20_000 {
        let image = crate::random::accepted_image(&mut rng);
        let outcome = t.lender.compare(&Call::new(&image, &[]));
        t.tried += 1;
        if !outcome.is_ok_and(|o| o.code == 0 && o.image == image) {
            t.wrong = Some(format!("image {image:02X?}"));
        }
    }
}
