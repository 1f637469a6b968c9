//! Request 1, an acknowledge over a row: its refusals and their order, who
//! gives the vector, and what a row leaves alone, each as a named case with
//! the expected row worked out here from the request's words.

use crate::call::Call;
use crate::random::accepted_image;
use crate::row::{self, Outcome};
use crate::trial::{Case, Trial};
use mfp_host::reference::image::at;
use mfp_host::reference::layout::{answer_at, IMAGE_BYTES, ROW_MAX};
use mfp_host::reference::tape::encode_record;
use mfp_host::reference::{Class, Device, Event};
use mfp_host::rng::Rng;

pub const CASES: &[Case] = &[
    ("row: refusal 10, none or more than eight", row_length),
    ("row: refusal 1, no multiple of an image", half_image),
    ("row: refusal 2, a mark in each place", marks),
    ("row: refusal 3, the image rule in each place", rules),
    ("row: the first broken image counts", first_broken),
    ("row: order of the refusals", order),
    ("row: a refused row keeps every byte", refused),
    ("row: a requester in each place", each_place),
    ("row: of two requesters the upper gives", two_requesters),
    ("row: none requests", none_requests),
    ("row: in service above holds nothing back", service_above),
    ("row: a request that its own service blocks", own_service),
    ("row: a masked request is passed on", masked),
    ("row: S set and S clear", s_set_and_clear),
    ("row: no device depends on those after it", tails),
    ("row: acknowledged until all pass on", until_passed_on),
    ("row: a row of one is an acknowledge", row_of_one),
    ("row: each device as by a record of its own", by_records),
    ("hard: chained parts", chained),
];

type Image = [u8; IMAGE_BYTES];

/// VR of the device in a place: vectors from 10, 20 and so on, S set.
fn vr(place: usize) -> u8 {
    16 * place as u8 + 0x18
}

/// A device with all channels enabled and unmasked, and these pending and in
/// service, bit c being channel c. Its other bytes tell it from its neighbours.
fn device(vr: u8, pending: u16, in_service: u16) -> Image {
    let mut image = Device::fresh().save();
    image[at::GPDR] = vr;
    image[at::DATA] = !vr;
    image[at::IERA..at::IPRA].fill(0xFF);
    image[at::IPRA..at::ISRA].copy_from_slice(&pending.to_be_bytes());
    image[at::ISRA..at::IMRA].copy_from_slice(&in_service.to_be_bytes());
    image[at::IMRA..at::VR].fill(0xFF);
    image[at::VR] = vr;
    image
}

/// A row by what is pending and in service in each place.
fn row_of(sets: &[(u16, u16)]) -> Vec<Image> {
    let places = sets.iter().enumerate();
    places
        .map(|(place, &(pending, in_service))| device(vr(place), pending, in_service))
        .collect()
}

/// That many devices, each of which requests.
fn requesting(length: usize) -> Vec<Image> {
    row_of(&vec![(0x0120, 0); length])
}

/// Every length of a row and every place in it.
fn places() -> impl Iterator<Item = (usize, usize)> {
    (1..=ROW_MAX).flat_map(|length| (0..length).map(move |place| (length, place)))
}

impl Trial<'_> {
    /// The outcome on which both implementations agree.
    fn row(&mut self, images: &[u8]) -> Option<Outcome> {
        self.tried += 1;
        if self.wrong.is_some() {
            return None;
        }
        match row::compare(self.lender, images) {
            Ok(outcome) => Some(outcome),
            Err(wrong) => {
                self.wrong = Some(row::report(self.lender, images, &wrong));
                None
            }
        }
    }

    /// The first thing that does not hold is told, with the row.
    fn holds(&mut self, what: &str, images: &[u8], holds: bool) {
        if !holds && self.wrong.is_none() {
            self.wrong = Some(format!("{what}: {images:02X?}"));
        }
    }

    /// This row is refused so, and stays.
    fn refuses(&mut self, images: &[u8], code: u32) {
        if let Some(outcome) = self.row(images) {
            let same = outcome.result == u64::from(code) && outcome.images == images;
            self.holds(&format!("not refused with {code}"), images, same);
        }
    }

    /// Of this row so many pass on, this is told as the vector, and this is left.
    fn tells(&mut self, before: &[Image], passed: usize, vector: u8, after: &[Image]) {
        let images = before.concat();
        if let Some(outcome) = self.row(&images) {
            let result = (256 * passed as u64 + u64::from(vector)) << 32;
            let same = outcome.result == result && outcome.images == after.concat();
            let what = format!("expected {passed} passed on and vector {vector:02X}");
            self.holds(&what, &images, same);
        }
    }

    /// The device in this place gives its channel's vector; all others stay.
    fn gives_in(&mut self, sets: &[(u16, u16)], place: usize, channel: u8) {
        let mut after = sets.to_vec();
        after[place].0 &= !(1 << channel);
        after[place].1 |= 1 << channel;
        let vector = (vr(place) & 0xF0) + channel;
        self.tells(&row_of(sets), place, vector, &row_of(&after));
    }

    /// All devices pass on and stay.
    fn all_pass(&mut self, row: &[Image]) {
        self.tells(row, row.len(), 0, row);
    }
}

fn row_length(t: &mut Trial) {
    let long = requesting(ROW_MAX).concat().repeat(25);
    for images in 0..=9 {
        match images {
            1..=8 => t.gives_in(&vec![(0x0120, 0); images], 0, 8),
            _ => t.refuses(&long[..IMAGE_BYTES * images], 10),
        }
    }
    for length in (257..=320).chain([512, 4096, 6400]) {
        t.refuses(&long[..length], 10);
    }
}

fn half_image(t: &mut Trial) {
    let long = requesting(ROW_MAX).concat();
    for length in (1..=256).filter(|length| length % 32 != 0) {
        t.refuses(&long[..length], 1);
    }
}

fn marks(t: &mut Trial) {
    for (length, place) in places() {
        for mark in [0x0000, 0x4D32, 0x4C31, 0x314D, 0x4D45, 0x4D41] {
            let mut row = requesting(length);
            row[place][..2].copy_from_slice(&u16::to_be_bytes(mark));
            t.refuses(&row.concat(), 256 * place as u32 + 2);
        }
    }
}

/// Each sentence of the image rule, broken.
const BROKEN: [fn(&mut Image); 11] = [
    |image| image[at::MODE_A] = 16,
    |image| image[at::MODE_B] = 255,
    |image| image[at::VR] |= 1,
    |image| image[at::TCDCR] = 0x08,
    |image| image[at::TCDCR] = 0x80,
    |image| image[at::OUTPUTS] = 0x10,
    |image| image[at::INPUTS] = 4,
    |image| image[at::IERA] = 0,
    |image| (image[at::VR], image[at::ISRA]) = (0x40, 1),
    |image| image[at::POSITION] = 1,
    |image| (image[at::TCDCR], image[at::POSITION + 3]) = (1, 4),
];

fn rules(t: &mut Trial) {
    for (length, place) in places() {
        for broken in BROKEN {
            let mut row = requesting(length);
            broken(&mut row[place]);
            t.refuses(&row.concat(), 256 * place as u32 + 3);
        }
    }
}

/// Put the fault of refusal 2 or 3 into an image.
fn break_image(image: &mut Image, refusal: u32) {
    match refusal {
        2 => image[1] = 0x32,
        _ => image[at::OUTPUTS] = 0x10,
    }
}

/// Of broken images the first is told, be its number the higher; of two
/// faults in one image the mark.
fn first_broken(t: &mut Trial) {
    for (length, late) in places() {
        for (first, second) in [(2, 2), (2, 3), (3, 2), (3, 3)] {
            for early in 0..late {
                let mut row = requesting(length);
                break_image(&mut row[early], first);
                break_image(&mut row[late], second);
                t.refuses(&row.concat(), 256 * early as u32 + first);
            }
        }
        let mut row = requesting(length);
        break_image(&mut row[late], 2);
        break_image(&mut row[late], 3);
        t.refuses(&row.concat(), 256 * late as u32 + 2);
    }
}

/// All sets of faults: 10 is told before 1, and 1 before 2 and 3.
fn order(t: &mut Trial) {
    for (set, place) in (1..16).flat_map(|set| (0..ROW_MAX - 1).map(move |p| (set, p))) {
        let has = |bit: u32| set >> bit & 1 == 1;
        let mut row = requesting(ROW_MAX);
        for refusal in (2..=3).filter(|&refusal| has(refusal)) {
            break_image(&mut row[place], refusal);
        }
        let mut images = row.concat();
        if has(0) {
            images.extend(row[0]);
        }
        if has(1) {
            images.pop();
        }
        let code = match (has(0), has(1)) {
            (true, _) => 10,
            (_, true) => 1,
            _ => 256 * place as u32 + if has(2) { 2 } else { 3 },
        };
        t.refuses(&images, code);
    }
    t.refuses(&[], 10);
    t.refuses(&[0; 1], 1);
    t.refuses(&[0; 32], 2);
}

/// Devices that would change stand before and after the broken one.
fn refused(t: &mut Trial) {
    let mut rng = Rng::new(11);
    for (length, place) in places().flat_map(|at| [at; 40]) {
        let mut row: Vec<Image> = (0..length).map(|_| accepted_image(&mut rng)).collect();
        let refusal = rng.pick(&[2, 3]);
        break_image(&mut row[place], refusal);
        t.refuses(&row.concat(), 256 * place as u32 + refusal);
    }
}

fn each_place(t: &mut Trial) {
    for (length, place) in places() {
        for channel in 0..16 {
            let mut sets = vec![(0, 0); length];
            sets[place].0 = 1 << channel;
            t.gives_in(&sets, place, channel);
            sets[place].0 |= (1 << channel) - 1;
            t.gives_in(&sets, place, channel);
        }
    }
}

/// Priority goes by place and not by channel.
fn two_requesters(t: &mut Trial) {
    for (length, lower) in places() {
        for upper in 0..lower {
            for (above, below) in [(0, 15), (15, 0), (7, 7), (8, 7)] {
                let mut sets = vec![(0, 0); length];
                sets[upper].0 = 1 << above;
                sets[lower].0 = 1 << below;
                t.gives_in(&sets, upper, above);
            }
        }
    }
    t.gives_in(&[(0xFFFF, 0); ROW_MAX], 0, 15);
}

fn none_requests(t: &mut Trial) {
    for length in 1..=ROW_MAX {
        t.all_pass(&row_of(&vec![(0, 0); length]));
        t.all_pass(&row_of(&vec![(0, 0xFFFF); length]));
        t.all_pass(&row_of(&vec![(0xFFFF, 0x8000); length]));
        t.all_pass(&vec![Device::fresh().save(); length]);
    }
}

/// "An in-service bit alone does not hold back IEO."
fn service_above(t: &mut Trial) {
    for (length, place) in places() {
        for service in 0..16 {
            for channel in [0, 7, 8, 15] {
                let mut sets = vec![(0, 1 << service); length];
                sets[place] = (1 << channel, 0);
                t.gives_in(&sets, place, channel);
            }
        }
    }
}

/// A channel requests above its own device's service only; else the next gives.
fn own_service(t: &mut Trial) {
    for (pending, service) in (0..16).flat_map(|p| (0..16).map(move |s| (p, s))) {
        let sets = [(0, 0), (1 << pending, 1 << service), (1 << 3, 0), (1, 0)];
        if pending > service {
            t.gives_in(&sets, 1, pending);
        } else {
            t.gives_in(&sets, 2, 3);
        }
    }
}

fn masked(t: &mut Trial) {
    for channel in 0..16u8 {
        let mut row = row_of(&[(1 << channel, 0), (1 << 9, 0), (1 << 9, 0)]);
        row[0][at::IMRA..at::VR].copy_from_slice(&(!(1u16 << channel)).to_be_bytes());
        let mut after = row.clone();
        after[1] = device(vr(1), 0, 1 << 9);
        t.tells(&row, 1, 0x29, &after);
        row[1][at::IMRA] = 0;
        after = row.clone();
        after[2] = device(vr(2), 0, 1 << 9);
        t.tells(&row, 2, 0x39, &after);
    }
}

/// The in-service bit is set by the giver's own S.
fn s_set_and_clear(t: &mut Trial) {
    for (length, place) in places() {
        for (giver, others) in [(0x58, 0x60), (0x50, 0x68)] {
            let mut row = vec![device(others, 0, 0); length];
            row[place] = device(giver, 1 << 12 | 1 << 5, 0);
            let service = if giver == 0x58 { 1 << 12 } else { 0 };
            let mut after = row.clone();
            after[place] = device(giver, 1 << 5, service);
            t.tells(&row, place, 0x5C, &after);
        }
    }
}

/// What the first devices of a row answered and are: how many of them passed
/// on, the vector if one of them gave it, their images.
fn head_of(outcome: &Outcome, length: usize) -> (usize, Option<u8>, Vec<u8>) {
    let passed = outcome.passed().min(length);
    let vector = (passed < length).then(|| outcome.vector());
    (passed, vector, outcome.devices()[..length].concat())
}

/// "In an accepted row the answer and state of a device never depend on any
/// device after it": one head, and every tail in either order.
fn tails(t: &mut Trial) {
    let mut rng = Rng::new(12);
    for _ in 0..400 {
        let mut any = |length: usize| -> Vec<Image> {
            (0..length).map(|_| accepted_image(&mut rng)).collect()
        };
        for length in 1..ROW_MAX {
            let head = any(length);
            let tail = any(ROW_MAX - length);
            let swapped: Vec<Image> = tail.iter().rev().copied().collect();
            let other = requesting(ROW_MAX - length);
            let alone = t.row(&head.concat());
            for tail in [&tail[..], &tail[..1], &swapped, &other] {
                let images = [head.concat(), tail.concat()].concat();
                if let (Some(alone), Some(whole)) = (&alone, t.row(&images)) {
                    let same = head_of(&whole, length) == head_of(alone, length);
                    t.holds("the head depends on the tail", &images, same);
                }
            }
        }
    }
}

/// S clear: all channels of a device, then those of the next. S set: the
/// highest of each device, whose service then blocks its others.
fn until_passed_on(t: &mut Trial) {
    let pending = [0x8001, 0, 0x0180, 0x0001, 0x1248, 0xFFFF, 0, 0x4000];
    for s in [0, 8] {
        let part = |place: usize, pending: u16, in_service: u16| {
            device(vr(place) & 0xF0 | s, pending, in_service)
        };
        let mut row: [Image; ROW_MAX] = std::array::from_fn(|i| part(i, pending[i], 0));
        for place in 0..ROW_MAX {
            for channel in (0..16u8).rev().filter(|c| pending[place] >> c & 1 == 1) {
                let mut after = row;
                let left = pending[place] & ((1 << channel) - 1);
                let service = if s == 8 { 1 << channel } else { 0 };
                after[place] = part(place, left, service);
                t.tells(&row, place, vr(place) & 0xF0 | channel, &after);
                row = after;
                if s == 8 {
                    break;
                }
            }
        }
        t.all_pass(&row);
    }
}

/// The outcome of one acknowledge record on an image: class, value and image.
fn acknowledged(t: &mut Trial, image: &[u8], iei: bool) -> Option<(u8, u8, Vec<u8>)> {
    let call = Call::new(image, &encode_record(&Event::Acknowledge(iei)));
    t.gives(&call, 0);
    let outcome = t.lender.compare(&call).ok()?;
    let at = |at: usize| outcome.answers[at];
    Some((at(answer_at::CLASS), at(answer_at::VALUE), outcome.image))
}

fn row_of_one(t: &mut Trial) {
    let mut rng = Rng::new(13);
    for _ in 0..5_000 {
        let image = accepted_image(&mut rng);
        let Some((class, value, after)) = acknowledged(t, &image, true) else {
            return;
        };
        if let Some(outcome) = t.row(&image) {
            let passed = usize::from(class == Class::PassedOn as u8);
            let told = (outcome.passed(), outcome.vector()) == (passed, value);
            t.holds("not as mfp_run", &image, told && outcome.images == after);
        }
    }
}

/// A row is acknowledged as its devices one by one, IEI going along the chain.
fn by_records(t: &mut Trial) {
    let mut rng = Rng::new(14);
    for _ in 0..1_000 {
        let length = 1 + rng.below(ROW_MAX as u64) as usize;
        let row: Vec<Image> = (0..length).map(|_| accepted_image(&mut rng)).collect();
        let (mut iei, mut passed, mut vector) = (true, 0, 0);
        let mut images = Vec::new();
        for image in &row {
            let Some((class, value, after)) = acknowledged(t, image, iei) else {
                return;
            };
            iei = class == Class::PassedOn as u8;
            passed += usize::from(iei);
            vector += value;
            images.extend(after);
        }
        if let Some(outcome) = t.row(&row.concat()) {
            let told = (outcome.passed(), outcome.vector()) == (passed, vector);
            t.holds(
                "not as mfp_run",
                &row.concat(),
                told && outcome.images == images,
            );
        }
    }
}

/// A service above holds nothing back, and of two requesters the lower one waits.
fn chained(t: &mut Trial) {
    t.gives_in(&[(0, 0x8000), (0x0120, 0), (0x0120, 0)], 1, 8);
    t.gives_in(&[(0, 0x8000), (0x0020, 0x0100), (0x0120, 0)], 2, 8);
}
