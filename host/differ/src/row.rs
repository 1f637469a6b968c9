//! An acknowledge over a row on both sides, and what must hold of every one
//! by itself.

use crate::call::Lender;
use crate::shrink;
use mfp_host::reference::image::at;
use mfp_host::reference::layout::IMAGE_BYTES;
use mfp_host::reference::{row, Device};
use mfp_host::replay;

/// What the call gave back and left of the images.
#[derive(Clone, PartialEq)]
pub struct Outcome {
    pub result: u64,
    pub images: Vec<u8>,
}

impl Outcome {
    /// The code, in the low 32 bits.
    pub fn code(&self) -> u32 {
        self.result as u32
    }

    /// How many devices passed on.
    pub fn passed(&self) -> usize {
        (self.result >> 40) as usize
    }

    /// The vector, or 0.
    pub fn vector(&self) -> u8 {
        (self.result >> 32) as u8
    }

    /// The images one by one.
    pub fn devices(&self) -> Vec<&[u8]> {
        self.images.chunks(IMAGE_BYTES).collect()
    }

    /// Whether there is a device after those that passed on.
    pub fn gave(&self) -> bool {
        self.code() == 0 && self.passed() < self.images.len() / IMAGE_BYTES
    }
}

/// The outcome that both agree on, or in which way they do not.
pub fn compare(lender: &mut Lender, images: &[u8]) -> Result<Outcome, String> {
    let outcome = by_library(lender, images)?;
    if !writes_only_its_own(images, &outcome) {
        return Err("bytes were written that should have stayed".to_string());
    }
    if outcome != by_reference(images) {
        return Err("library and second implementation differ".to_string());
    }
    Ok(outcome)
}

fn by_library(lender: &mut Lender, images: &[u8]) -> Result<Outcome, String> {
    let (result, images) = lender.row(images)?;
    Ok(Outcome { result, images })
}

fn by_reference(images: &[u8]) -> Outcome {
    let mut images = images.to_vec();
    let result = row::acknowledge(&mut images);
    Outcome { result, images }
}

/// "A refusal leaves the whole row unchanged", and tells nothing. Success
/// writes pending and in-service bits of the device that gave the vector.
fn writes_only_its_own(before: &[u8], outcome: &Outcome) -> bool {
    let giver = IMAGE_BYTES * outcome.passed();
    let written = match outcome.gave() {
        true => giver + at::IPRA..giver + at::IMRA,
        false => 0..0,
    };
    let mut bytes = before.iter().zip(&outcome.images).enumerate();
    let stay = bytes.all(|(at, (old, new))| old == new || written.contains(&at));
    stay && (outcome.code() == 0 || outcome.result >> 32 == 0)
}

/// The report of a row on which they do not agree, made as small as was found.
pub fn report(lender: &mut Lender, images: &[u8], wrong: &str) -> String {
    let still = |smaller: &Vec<u8>| compare(lender, smaller).is_err();
    let small = shrink::descend(&images.to_vec(), |images| smaller_rows(images), still);
    let why = compare(lender, &small).err();
    let mut said = format!("{}\n", why.as_deref().unwrap_or(wrong)) + &lines(&small);
    said += &outcome_lines("second implementation", &by_reference(&small));
    if let Ok(got) = by_library(lender, &small) {
        said += &outcome_lines("library", &got);
    }
    said
}

/// One image less, or one byte as in a fresh device.
fn smaller_rows(images: &[u8]) -> Box<dyn Iterator<Item = Vec<u8>> + '_> {
    let fresh = Device::fresh().save();
    let fewer = (0..images.len() / IMAGE_BYTES).rev().map(|i| {
        let at = IMAGE_BYTES * i;
        [&images[..at], &images[at + IMAGE_BYTES..]].concat()
    });
    let differs = move |at: &usize| images[*at] != fresh[at % IMAGE_BYTES];
    let fresher = (0..images.len()).filter(differs).map(move |at| {
        let mut smaller = images.to_vec();
        smaller[at] = fresh[at % IMAGE_BYTES];
        smaller
    });
    Box::new(fewer.chain(fresher))
}

/// A line an image.
fn lines(images: &[u8]) -> String {
    let images = images.chunks(IMAGE_BYTES);
    images
        .map(|image| format!("  image {}\n", shrink::hex(image)))
        .collect()
}

fn outcome_lines(who: &str, outcome: &Outcome) -> String {
    let told = match outcome.code() {
        0 => format!(
            "passed {}, vector {:02X}\n",
            outcome.passed(),
            outcome.vector()
        ),
        code => replay::refused(code),
    };
    format!("  {who}: {told}{}", lines(&outcome.images))
}
