//! A device on the bench: events in the tape's text form, played one by one
//! on the library and on the second implementation, with the lines that the
//! paper's rules give them, written by hand.

use crate::call::{Call, Lender};
use crate::shrink;
use mfp_host::reference::tape::encode_record;
use mfp_host::reference::Device;
use mfp_host::{replay, text};

/// One device, what was played on it, and what went wrong so far.
pub struct Rig<'a> {
    lender: &'a mut Lender,
    start: Vec<u8>,
    /// The image as the library left it.
    pub image: Vec<u8>,
    played: Vec<u8>,
    wrong: Vec<String>,
    checks: u64,
}

impl Rig<'_> {
    /// A fresh device.
    pub fn new(lender: &mut Lender) -> Rig<'_> {
        let fresh = Device::fresh().save().to_vec();
        Rig {
            lender,
            start: fresh.clone(),
            image: fresh,
            played: Vec::new(),
            wrong: Vec::new(),
            checks: 0,
        }
    }

    /// Go on from this image.
    pub fn load(&mut self, image: &[u8]) {
        self.settle();
        self.start = image.to_vec();
        self.image = image.to_vec();
        self.played.clear();
    }

    /// Go on from a fresh device.
    pub fn fresh(&mut self) {
        self.load(&Device::fresh().save());
    }

    /// Play events that are set apart by semicolons.
    pub fn play(&mut self, events: &str) {
        for event in events.split(';') {
            self.event(event);
        }
    }

    /// Play one event; its line must be this, without the index.
    pub fn says(&mut self, event: &str, line: &str) {
        let said = self.event(event);
        self.check(event, said.as_str(), line);
    }

    /// A register reads so, whatever IRQ and outputs are.
    pub fn reads(&mut self, register: &str, value: u8) {
        let said = self.event(&format!("read {register}"));
        let start = format!("R {value:02X} ");
        self.check(register, said.get(..start.len()), Some(start.as_str()));
    }

    /// One byte of the image is so.
    pub fn byte(&mut self, at: usize, value: u8) {
        let found = self.image[at];
        self.check(&format!("image byte {at}"), found, value);
    }

    /// The event leaves every byte of the image as it is, and says this.
    pub fn changes_nothing(&mut self, event: &str, line: &str) {
        let before = self.image.clone();
        self.says(event, line);
        self.image_is(event, &before);
    }

    /// The image is this, byte for byte.
    pub fn image_is(&mut self, what: &str, expected: &[u8]) {
        self.check(what, shrink::hex(&self.image), shrink::hex(expected));
    }

    /// Two values that must be equal.
    pub fn check<T: PartialEq + std::fmt::Debug>(&mut self, what: &str, found: T, expected: T) {
        self.checks += 1;
        if found != expected {
            self.wrong
                .push(format!("{what}: expected {expected:?}, found {found:?}"));
        }
    }

    /// One event on both sides; the line of its answer, without the index.
    fn event(&mut self, event: &str) -> String {
        let parsed = text::parse(event).expect("events of the cases can be read");
        let record = encode_record(&parsed.expect("and are not blank"));
        self.played.extend(record);
        let call = Call::new(&self.image, &record);
        self.checks += 1;
        match self.lender.compare(&call) {
            Ok(outcome) => {
                self.image = outcome.image;
                let line = replay::line(0, &outcome.answers);
                line.strip_prefix("0 ").unwrap_or(&line).to_string()
            }
            Err(wrong) => {
                let report = shrink::report(self.lender, &call, &wrong);
                self.wrong.push(report);
                String::new()
            }
        }
    }

    /// What was played one by one, as one tape, leaves the same device.
    fn settle(&mut self) {
        let call = Call::new(&self.start, &self.played);
        match self.lender.compare(&call) {
            Ok(outcome) => self.image_is("all in one tape", &outcome.image),
            Err(wrong) => {
                let report = shrink::report(self.lender, &call, &wrong);
                self.wrong.push(report);
            }
        }
    }

    /// The end of a case: the number of checks, or what went wrong.
    pub fn finish(mut self) -> Result<u64, String> {
        self.settle();
        if self.wrong.is_empty() {
            Ok(self.checks)
        } else {
            Err(self.wrong.join("\n"))
        }
    }
}
