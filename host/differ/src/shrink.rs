//! From a call that goes wrong to a small one that still does, and its report.

use crate::call::{Call, Lender, Outcome};
use mfp_host::reference::layout::{record_at, ANSWER_BYTES, RECORD_BYTES};
use mfp_host::{reference, replay, text};

/// How many calls the search for a smaller one may cost.
const TRIES: usize = 20_000;

/// The report of a call on which library and second implementation do not
/// agree, made as small as was found.
pub fn report(lender: &mut Lender, call: &Call, wrong: &str) -> String {
    let small = smallest(call, |smaller| lender.compare(smaller).is_err());
    let why = lender.compare(&small).err();
    let mut said = format!("{}\n", why.as_deref().unwrap_or(wrong)) + &shown(&small);
    said += &outcome_lines("second implementation", &small, &small.by_reference());
    if let Ok(got) = lender.by_library(&small) {
        said += &outcome_lines("library", &small, &got);
    }
    said
}

/// The smallest call that was found and is still wrong.
pub fn smallest(call: &Call, wrong: impl FnMut(&Call) -> bool) -> Call {
    descend(call, smaller_calls, wrong)
}

/// What is a little smaller, in the order in which it is tried.
pub type Smaller<T> = for<'a> fn(&'a T) -> Box<dyn Iterator<Item = T> + 'a>;

/// Take anything smaller that is still wrong, until there is none.
pub fn descend<T: Clone>(start: &T, smaller: Smaller<T>, mut wrong: impl FnMut(&T) -> bool) -> T {
    let mut found = start.clone();
    let mut tries = 0;
    loop {
        let next = smaller(&found).find(|next| {
            tries += 1;
            tries > TRIES || wrong(next)
        });
        match next {
            Some(next) if tries <= TRIES => found = next,
            _ => return found,
        }
    }
}

/// One record less, a smaller operand, or one image byte as in a fresh device.
fn smaller_calls(call: &Call) -> Box<dyn Iterator<Item = Call> + '_> {
    let records = 0..call.tape.len() / RECORD_BYTES;
    let fewer = records.clone().rev().map(|i| without(call, i));
    let fresher = (0..call.image.len()).filter_map(|i| fresher(call, i));
    let lower = records.flat_map(|i| lower_operands(call, i));
    Box::new(fewer.chain(fresher).chain(lower))
}

fn without(call: &Call, record: usize) -> Call {
    let mut smaller = call.clone();
    let at = record * RECORD_BYTES;
    smaller.tape.drain(at..at + RECORD_BYTES);
    let room = smaller.answers.len().saturating_sub(ANSWER_BYTES);
    smaller.answers.truncate(room);
    smaller
}

fn lower_operands(call: &Call, record: usize) -> Vec<Call> {
    let at = record * RECORD_BYTES + record_at::N;
    let n = u32::from_be_bytes(call.tape[at..at + 4].try_into().expect("four bytes"));
    // 0, then half, three quarters and so on up to one less.
    let steps = (0..32).map(|k| n - (n >> k));
    steps
        .filter(|&m| m < n)
        .map(|m| {
            let mut smaller = call.clone();
            smaller.tape[at..at + 4].copy_from_slice(&m.to_be_bytes());
            smaller
        })
        .collect()
}

fn fresher(call: &Call, at: usize) -> Option<Call> {
    let fresh = reference::Device::fresh().save();
    let byte = *fresh.get(at)?;
    if call.image[at] == byte {
        return None;
    }
    let mut smaller = call.clone();
    smaller.image[at] = byte;
    Some(smaller)
}

/// Bytes as they stand in the papers.
pub fn hex(bytes: &[u8]) -> String {
    let digits: Vec<String> = bytes.iter().map(|b| format!("{b:02X}")).collect();
    digits.join(" ")
}

/// The three buffers of a call.
pub fn shown(call: &Call) -> String {
    let image = format!("  image   {}\n", hex(&call.image));
    let room = format!("  answers {} bytes\n", call.answers.len());
    image + &tape_lines(&call.tape) + &room
}

/// The tape in its text form, or as bytes where it has none.
fn tape_lines(tape: &[u8]) -> String {
    match text::decode(tape) {
        Ok(lines) => lines.lines().map(|l| format!("  tape    {l}\n")).collect(),
        Err(_) => format!("  tape    {}\n", hex(tape)),
    }
}

/// The code, the replay lines and the image of an outcome.
pub fn outcome_lines(who: &str, call: &Call, outcome: &Outcome) -> String {
    let mut said = format!("  {who}:\n");
    if outcome.code != 0 {
        said += &format!("    {}", replay::refused(outcome.code));
    } else {
        let written = call.tape.len() / RECORD_BYTES * ANSWER_BYTES;
        for line in replay::lines(&outcome.answers[..written]).lines() {
            said += &format!("    {line}\n");
        }
    }
    said + &format!("    image {}\n", hex(&outcome.image))
}
