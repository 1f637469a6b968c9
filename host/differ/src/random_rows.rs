//! Random rows by seed: accepted and damaged ones, biased so that every place
//! gives; each is compared, and acknowledged again as it then is.

use crate::call::Lender;
use crate::random::{accepted_image, spoil};
use crate::row::{self, Outcome};
use mfp_host::reference::image::at;
use mfp_host::reference::layout::{IMAGE_BYTES, ROW_MAX};
use mfp_host::rng::Rng;

/// What the rows of a run have reached.
#[derive(Default)]
pub struct Reached {
    /// Refusals 1, 2 and 3.
    images: [u64; 3],
    /// Refusal 10.
    lengths: u64,
    passed: [u64; ROW_MAX + 1],
    givers: [u64; ROW_MAX],
}

impl Reached {
    /// Everything by name, as of the events.
    pub fn named(&self) -> Vec<(String, u64)> {
        let mut all = vec![("refusal 10".to_string(), self.lengths)];
        let mut add = |name: &str, first: usize, counts: &[u64]| {
            for (i, count) in counts.iter().enumerate() {
                all.push((format!("{name} {}", first + i), *count));
            }
        };
        add("a row's refusal", 1, &self.images);
        add("rows in which passed on", 0, &self.passed);
        add("vectors given in place", 0, &self.givers);
        all
    }

    fn count(&mut self, outcome: &Outcome) {
        match outcome.code() % 256 {
            0 => self.passed[outcome.passed()] += 1,
            10 => self.lengths += 1,
            number => self.images[number as usize - 1] += 1,
        }
        if outcome.gave() {
            self.givers[outcome.passed()] += 1;
        }
    }
}

/// Acknowledge that many random rows by this seed, some of them several times.
pub fn run(lender: &mut Lender, seed: u64, rows: u64, all: &mut Reached) -> Result<u64, String> {
    // Other numbers than those of the seed's events.
    let mut rng = Rng::new(!seed);
    let mut images = any_row(&mut rng);
    for _ in 0..rows {
        let outcome =
            row::compare(lender, &images).map_err(|wrong| row::report(lender, &images, &wrong))?;
        all.count(&outcome);
        images = if outcome.gave() && rng.chance(2, 3) {
            outcome.images
        } else {
            any_row(&mut rng)
        };
    }
    Ok(rows)
}

/// A row of any length whose head, of any length, requests nothing.
fn any_row(rng: &mut Rng) -> Vec<u8> {
    let length = match rng.chance(1, 2) {
        true => ROW_MAX,
        false => 1 + rng.below(ROW_MAX as u64) as usize,
    };
    let quiet = rng.below(length as u64 + 1) as usize;
    let mut images = Vec::new();
    for place in 0..length {
        let mut image = accepted_image(rng);
        if place < quiet {
            silence(rng, &mut image);
        }
        images.extend(image);
    }
    if rng.chance(1, 3) {
        damage(rng, &mut images);
    }
    images
}

/// Nothing pending, all masked, or the highest channel in service.
fn silence(rng: &mut Rng, image: &mut [u8; IMAGE_BYTES]) {
    match rng.below(3) {
        0 => image[at::IPRA..at::ISRA].fill(0),
        1 => image[at::IMRA..at::VR].fill(0),
        _ => {
            image[at::VR] |= 8;
            image[at::ISRA] |= 128;
        }
    }
}

/// One to three faults: a length, or a byte of an image, which may also miss.
fn damage(rng: &mut Rng, images: &mut Vec<u8>) {
    for _ in 0..1 + rng.below(3) {
        let image = IMAGE_BYTES * rng.below(ROW_MAX as u64) as usize;
        match rng.below(6) {
            0 => {
                let length = rng.pick(&[0, 1, 31, 33, 63, 255, 257, 287, 288, 320]);
                images.resize(length, 0x4D);
            }
            1 => spoil(rng, images, image, image + 2),
            _ => spoil(rng, images, image + 2, image + IMAGE_BYTES),
        }
    }
}
