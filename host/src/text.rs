//! The text form of a tape: one event a line, `#` starts a comment.
//! `docs/TAPE.md` has the grammar.
//!
//! ```text
//! reset             read IPRB         write VR 48 (hex)
//! line 5 1          input TAI 0       clocks 12 (decimal)
//! ack               ack iei=0         raise 12
//! ```

use crate::reference::layout::{RAISABLE, RECORD_BYTES, REGISTERS, TAPE_MAX};
use crate::reference::tape::{decode_record, encode_record, length_is_right};
use crate::reference::{Event, Refusal};

const INPUTS: [&str; 2] = ["TAI", "TBI"];
const VERBS: &str = "reset, read, write, line, input, clocks, ack or raise";
const BYTE_ORDER_MARK: [u8; 3] = [0xEF, 0xBB, 0xBF];

/// The tape of a text, or what is wrong in which line.
pub fn encode(text: &str) -> Result<Vec<u8>, String> {
    encode_bytes(text.as_bytes())
}

/// The tape of bytes that should be a text, or what is wrong in which line.
pub fn encode_bytes(input: &[u8]) -> Result<Vec<u8>, String> {
    let mut tape = Vec::new();
    for (index, line) in input.split(|byte| *byte == b'\n').enumerate() {
        let said = |wrong: String| format!("line {}: {wrong}", index + 1);
        // Also within a text, where files were put together.
        if line.starts_with(&BYTE_ORDER_MARK) {
            let wrong = "the line opens with a byte order mark (EF BB BF): save it without one";
            return Err(said(wrong.to_string()));
        }
        if let Some(event) = text_of(line).and_then(parse).map_err(said)? {
            tape.extend(encode_record(&event));
        }
        if tape.len() > TAPE_MAX {
            let most = TAPE_MAX / RECORD_BYTES;
            return Err(said(format!("a tape holds at most {most} events")));
        }
    }
    Ok(tape)
}

/// The text of a tape, or what is wrong in which record.
pub fn decode(tape: &[u8]) -> Result<String, String> {
    if !length_is_right(tape) {
        return Err(format!("{} bytes: {}", tape.len(), Refusal::TapeLength));
    }
    let mut text = String::new();
    for (index, record) in tape.chunks_exact(RECORD_BYTES).enumerate() {
        let event =
            decode_record(record).map_err(|refusal| format!("record {index}: {refusal}"))?;
        text += &format(&event);
        text.push('\n');
    }
    Ok(text)
}

/// The line of an event.
pub fn format(event: &Event) -> String {
    match *event {
        Event::Reset => "reset".to_string(),
        Event::Read(rs) => format!("read {}", REGISTERS[rs as usize]),
        Event::Write(rs, value) => format!("write {} {value:02X}", REGISTERS[rs as usize]),
        Event::Line(line, level) => format!("line {line} {}", u8::from(level)),
        Event::Input(input, level) => {
            format!("input {} {}", INPUTS[input as usize], u8::from(level))
        }
        Event::Clocks(n) => format!("clocks {n}"),
        Event::Acknowledge(true) => "ack".to_string(),
        Event::Acknowledge(false) => "ack iei=0".to_string(),
        Event::Raise(channel) => format!("raise {channel}"),
    }
}

/// A line's bytes as text: UTF-8, and of the control characters tab and carriage return alone.
fn text_of(line: &[u8]) -> Result<&str, String> {
    let text = std::str::from_utf8(line)
        .map_err(|error| format!("the byte {:02X} is no text", line[error.valid_up_to()]))?;
    let control = |c: &char| c.is_control() && !"\t\r".contains(*c);
    match text.chars().find(control) {
        None => Ok(text),
        Some(c) if c.is_ascii() => Err(format!("the byte {:02X} is no text", u32::from(c))),
        Some(c) => Err(format!("the character U+{:04X} is no text", u32::from(c))),
    }
}

/// The event of a line; none if it is blank or a comment.
pub fn parse(line: &str) -> Result<Option<Event>, String> {
    let said = line.split('#').next().unwrap_or("");
    let mut words = Words(said.split_whitespace());
    let Some(verb) = words.0.next() else {
        return Ok(None);
    };
    let event = match verb {
        "reset" => Event::Reset,
        "read" => Event::Read(words.register()?),
        "write" => Event::Write(words.register()?, words.hex()?),
        "line" => Event::Line(words.line()?, words.level()?),
        "input" => Event::Input(words.input()?, words.level()?),
        "clocks" => Event::Clocks(words.clocks()?),
        "ack" => Event::Acknowledge(words.iei()?),
        "raise" => Event::Raise(words.channel()?),
        other => return Err(unread(other, VERBS)),
    };
    words.end().map(|()| Some(event))
}

/// What could not be read, and what was expected in its place.
fn unread(word: &str, expected: &str) -> String {
    format!("`{word}`: expected {expected}")
}

/// The words of a line that are still to be read.
struct Words<'a>(std::str::SplitWhitespace<'a>);

impl Words<'_> {
    /// The next word as `read` takes it.
    fn next<T>(&mut self, expected: &str, read: fn(&str) -> Option<T>) -> Result<T, String> {
        let word = self
            .0
            .next()
            .ok_or_else(|| format!("the line ends: expected {expected}"))?;
        read(word).ok_or_else(|| unread(word, expected))
    }

    fn register(&mut self) -> Result<u8, String> {
        let expected = format!("a register ({})", REGISTERS.join(", "));
        self.next(&expected, |word| place(&REGISTERS, word))
    }

    fn input(&mut self) -> Result<u8, String> {
        self.next("an input (TAI or TBI)", |word| place(&INPUTS, word))
    }

    fn hex(&mut self) -> Result<u8, String> {
        self.next("a value in one or two hex digits", |word| {
            digits(word, 16)
                .filter(|_| word.len() <= 2)
                .map(|value| value as u8)
        })
    }

    fn line(&mut self) -> Result<u8, String> {
        self.next("a line (0 to 7)", |word| {
            digits(word, 10)
                .filter(|&line| line <= 7)
                .map(|line| line as u8)
        })
    }

    fn level(&mut self) -> Result<bool, String> {
        self.next("a level (0 or 1)", |word| match word {
            "0" => Some(false),
            "1" => Some(true),
            _ => None,
        })
    }

    fn clocks(&mut self) -> Result<u32, String> {
        self.next("a number of clocks (0 to 4294967295)", |word| {
            digits(word, 10)
        })
    }

    fn channel(&mut self) -> Result<u8, String> {
        self.next("a serial channel (9 to 12)", |word| {
            let channel = digits(word, 10).and_then(|channel| u8::try_from(channel).ok());
            channel.filter(|channel| RAISABLE.contains(channel))
        })
    }

    /// IEI is asserted unless the line says otherwise.
    fn iei(&mut self) -> Result<bool, String> {
        match self.0.next() {
            None | Some("iei=1") => Ok(true),
            Some("iei=0") => Ok(false),
            Some(word) => Err(unread(word, "iei=0, iei=1 or the end of the line")),
        }
    }

    fn end(&mut self) -> Result<(), String> {
        match self.0.next() {
            None => Ok(()),
            Some(word) => Err(unread(word, "the end of the line")),
        }
    }
}

/// The place of a word in a row of names.
fn place(names: &[&str], word: &str) -> Option<u8> {
    names
        .iter()
        .position(|name| *name == word)
        .map(|at| at as u8)
}

/// A number of digits only: no sign, no prefix.
fn digits(word: &str, radix: u32) -> Option<u32> {
    if !word.chars().all(|c| c.is_digit(radix)) {
        return None;
    }
    u32::from_str_radix(word, radix).ok()
}
