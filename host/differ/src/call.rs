//! One call on both sides: the second implementation on plain buffers, the
//! library on guarded ones; and what must hold of every call by itself.

use crate::ffi;
use crate::guard::{Guarded, Side};
use mfp_host::reference;
use mfp_host::reference::layout::{ANSWER_BYTES, RECORD_BYTES};
use mfp_host::rng::Rng;

/// The three lent buffers as they come.
#[derive(Clone, PartialEq)]
pub struct Call {
    pub image: Vec<u8>,
    pub tape: Vec<u8>,
    pub answers: Vec<u8>,
}

/// What a call gave back and left in the two buffers it may write.
#[derive(Clone, PartialEq)]
pub struct Outcome {
    pub code: u32,
    pub image: Vec<u8>,
    pub answers: Vec<u8>,
}

impl Call {
    /// A call with exactly the room that its answers need.
    pub fn new(image: &[u8], tape: &[u8]) -> Call {
        Call {
            image: image.to_vec(),
            tape: tape.to_vec(),
            answers: vec![0xA5; tape.len() / RECORD_BYTES * ANSWER_BYTES],
        }
    }

    /// The second implementation's outcome.
    pub fn by_reference(&self) -> Outcome {
        self.by(reference::run)
    }

    /// The plain C's outcome, for an accepted call.
    pub fn by_plain(&self) -> Outcome {
        self.by(|image, tape, answers| {
            ffi::plain(image, tape, answers);
            0
        })
    }

    fn by(&self, run: impl Fn(&mut [u8], &[u8], &mut [u8]) -> u32) -> Outcome {
        let (mut image, mut answers) = (self.image.clone(), self.answers.clone());
        let code = run(&mut image, &self.tape, &mut answers);
        Outcome {
            code,
            image,
            answers,
        }
    }

    /// "Every refusal leaves image and answer buffer unchanged. Success writes
    /// the image and the first 22 × records answer bytes only."
    fn writes_only_its_own(&self, outcome: &Outcome) -> bool {
        if outcome.code != 0 {
            return outcome.image == self.image && outcome.answers == self.answers;
        }
        let written = self.tape.len() / RECORD_BYTES * ANSWER_BYTES;
        outcome.answers[written..] == self.answers[written..]
    }
}

/// The guarded memory that the library's buffers are lent from.
pub struct Lender {
    image: Guarded,
    tape: Guarded,
    answers: Guarded,
    rng: Rng,
}

impl Lender {
    pub fn new() -> Lender {
        let mut rng = Rng::new(0x4D46_5031);
        Lender {
            image: Guarded::new(&mut rng),
            tape: Guarded::new(&mut rng),
            answers: Guarded::new(&mut rng),
            rng,
        }
    }

    fn side(&mut self) -> Side {
        self.rng.pick(&[Side::Left, Side::Right])
    }

    /// The library's outcome, each buffer against one guard or the other.
    pub fn by_library(&mut self, call: &Call) -> Result<Outcome, String> {
        let sides = [self.side(), self.side(), self.side()];
        let code = ffi::run(
            self.image.lend(&call.image, sides[0]),
            self.tape.lend(&call.tape, sides[1]),
            self.answers.lend(&call.answers, sides[2]),
        );
        let beside = "a byte beside the buffer was written: ";
        let image = self.image.take_back().ok_or(format!("{beside}image"))?;
        let tape = self.tape.take_back().ok_or(format!("{beside}tape"))?;
        let answers = self.answers.take_back().ok_or(format!("{beside}answers"))?;
        if tape != call.tape {
            return Err("the tape was written".to_string());
        }
        Ok(Outcome {
            code,
            image,
            answers,
        })
    }

    /// The outcome that both agree on, or in which way they do not.
    pub fn compare(&mut self, call: &Call) -> Result<Outcome, String> {
        let outcome = self.by_library(call)?;
        if !call.writes_only_its_own(&outcome) {
            return Err("bytes were written that should have stayed".to_string());
        }
        if outcome != call.by_reference() {
            return Err("library and second implementation differ".to_string());
        }
        Ok(outcome)
    }

    /// The library's fresh image in a buffer that held these bytes.
    pub fn fresh(&mut self, before: &[u8]) -> Result<(u32, Vec<u8>), String> {
        let side = self.side();
        let code = ffi::fresh(self.image.lend(before, side));
        let after = self.image.take_back();
        after
            .map(|image| (code, image))
            .ok_or_else(|| "a byte beside the buffer was written: fresh image".to_string())
    }

    /// The library's number for a row of these images, and what it left of them.
    pub fn row(&mut self, images: &[u8]) -> Result<(u64, Vec<u8>), String> {
        let side = self.side();
        let result = ffi::row_acknowledge(self.image.lend(images, side));
        let after = self.image.take_back();
        after
            .map(|images| (result, images))
            .ok_or_else(|| "a byte beside the buffer was written: row".to_string())
    }
}
