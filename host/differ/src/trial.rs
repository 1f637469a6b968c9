//! Calls tried one after another, each with the outcome that the papers'
//! words give it.

use crate::call::{Call, Lender};
use crate::shrink;

/// Calls that were tried, and the first that went wrong.
pub struct Trial<'a> {
    pub lender: &'a mut Lender,
    pub tried: u64,
    pub wrong: Option<String>,
}

/// A name and the calls it tries.
pub type Case = (&'static str, fn(&mut Trial));

/// Run one case; the number of calls, or what went wrong.
pub fn run(lender: &mut Lender, case: fn(&mut Trial)) -> Result<u64, String> {
    let mut trial = Trial {
        lender,
        tried: 0,
        wrong: None,
    };
    case(&mut trial);
    trial.wrong.map_or(Ok(trial.tried), Err)
}

impl Trial<'_> {
    /// This call gives this code, and both implementations agree on all of it.
    pub fn gives(&mut self, call: &Call, code: u32) {
        self.tried += 1;
        if self.wrong.is_some() {
            return;
        }
        match self.lender.compare(call) {
            Ok(outcome) if outcome.code == code => {}
            Ok(outcome) => {
                let said = format!("expected code {code}, found {}", outcome.code);
                self.wrong = Some(said);
            }
            Err(wrong) => self.wrong = Some(shrink::report(self.lender, call, &wrong)),
        }
    }
}
