//! Records and answers as bytes, and refusals 4 to 8.

use super::device::{byte, Answer, Event};
use super::layout::{
    kind, record_at, Refusal, ANSWER_BYTES, ANSWER_MARK, FIRST_SERIAL, RAISABLE, RECORD_BYTES,
    RECORD_MARK, REGISTERS, TAPE_MAX,
};

/// The events of a tape, or the first refusal and the index it is given with.
pub fn decode(tape: &[u8]) -> Result<Vec<Event>, (usize, Refusal)> {
    if !length_is_right(tape) {
        return Err((0, Refusal::TapeLength));
    }
    tape.chunks_exact(RECORD_BYTES)
        .enumerate()
        .map(|(index, record)| accepted(record).map_err(|refusal| (index, refusal)))
        .collect()
}

/// "Tape length not a multiple of 8, or above 4,096" is refused.
pub fn length_is_right(tape: &[u8]) -> bool {
    tape.chunks_exact(RECORD_BYTES).remainder().is_empty() && tape.len() <= TAPE_MAX
}

/// The event of one record: its form, then refusal 8.
fn accepted(record: &[u8]) -> Result<Event, Refusal> {
    let event = decode_record(record)?;
    match event {
        Event::Read(rs) | Event::Write(rs, _) if rs >= FIRST_SERIAL => Err(Refusal::SerialRegister),
        _ => Ok(event),
    }
}

/// The event of one record of 8 bytes, serial registers among them, or
/// refusal 5, 6 or 7. "An operand not named is 0."
pub fn decode_record(record: &[u8]) -> Result<Event, Refusal> {
    if !record.starts_with(&RECORD_MARK) {
        return Err(Refusal::RecordMark);
    }
    let (a, n) = (record[record_at::A], number(&record[record_at::N..]));
    let level = n == 1;
    let (event, in_range) = match record[record_at::KIND] {
        kind::RESET => (Event::Reset, a == 0 && n == 0),
        kind::READ => (Event::Read(a), select(a) && n == 0),
        kind::WRITE => (Event::Write(a, n as u8), select(a) && n <= 255),
        kind::LINE => (Event::Line(a, level), a <= 7 && n <= 1),
        kind::INPUT => (Event::Input(a, level), a <= 1 && n <= 1),
        kind::CLOCKS => (Event::Clocks(n), a == 0),
        kind::ACKNOWLEDGE => (Event::Acknowledge(a == 1), a <= 1 && n == 0),
        kind::RAISE => (Event::Raise(a), RAISABLE.contains(&a) && n == 0),
        _ => return Err(Refusal::Kind),
    };
    if in_range {
        Ok(event)
    } else {
        Err(Refusal::Operand)
    }
}

/// "Register select rs is 0 to 23."
fn select(a: u8) -> bool {
    usize::from(a) < REGISTERS.len()
}

/// Four bytes, high byte first.
fn number(bytes: &[u8]) -> u32 {
    bytes.iter().fold(0, |sum, &b| 256 * sum + u32::from(b))
}

/// The record of an event.
pub fn encode_record(event: &Event) -> [u8; RECORD_BYTES] {
    let (kind, a, n) = match *event {
        Event::Reset => (kind::RESET, 0, 0),
        Event::Read(rs) => (kind::READ, rs, 0),
        Event::Write(rs, value) => (kind::WRITE, rs, u32::from(value)),
        Event::Line(line, level) => (kind::LINE, line, u32::from(level)),
        Event::Input(input, level) => (kind::INPUT, input, u32::from(level)),
        Event::Clocks(n) => (kind::CLOCKS, 0, n),
        Event::Acknowledge(iei) => (kind::ACKNOWLEDGE, u8::from(iei), 0),
        Event::Raise(channel) => (kind::RAISE, channel, 0),
    };
    raw_record(RECORD_MARK, kind, a, n)
}

/// A record from its parts, whether they are in range or not.
pub fn raw_record(mark: [u8; 2], kind: u8, a: u8, n: u32) -> [u8; RECORD_BYTES] {
    let n = n.to_be_bytes();
    [mark[0], mark[1], kind, a, n[0], n[1], n[2], n[3]]
}

/// The answer as bytes, field by field.
pub fn encode_answer(answer: &Answer) -> [u8; ANSWER_BYTES] {
    let mut bytes = Vec::with_capacity(ANSWER_BYTES);
    bytes.extend(ANSWER_MARK);
    bytes.push(answer.class as u8);
    bytes.push(answer.value);
    bytes.push(u8::from(answer.irq));
    bytes.push(byte(&answer.outputs));
    for count in answer.timeouts {
        bytes.extend(count.to_be_bytes());
    }
    bytes.try_into().expect("the fields fill an answer")
}
