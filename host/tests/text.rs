//! The text form: what it says, what it cannot read, and both ways round.
#![deny(warnings)]

use mfp_host::reference::layout::REGISTERS;
use mfp_host::reference::tape::encode_record;
use mfp_host::reference::Event;
use mfp_host::rng::Rng;
use mfp_host::text::{decode, encode, encode_bytes};

/// One line and the eight bytes the paper gives it.
fn is(line: &str, record: [u8; 8]) {
    assert_eq!(encode(line), Ok(record.to_vec()), "{line}");
    assert_eq!(decode(&record), Ok(format!("{line}\n")), "{line}");
}

fn wrong(text: &str, message: &str) {
    assert_eq!(encode(text), Err(message.to_string()), "{text:?}");
}

#[test]
fn each_kind_of_line() {
    is("reset", [0x4D, 0x45, 0, 0, 0, 0, 0, 0]);
    is("read IPRB", [0x4D, 0x45, 1, 6, 0, 0, 0, 0]);
    is("write VR 48", [0x4D, 0x45, 2, 11, 0, 0, 0, 0x48]);
    is("line 5 1", [0x4D, 0x45, 3, 5, 0, 0, 0, 1]);
    is("input TAI 0", [0x4D, 0x45, 4, 0, 0, 0, 0, 0]);
    is("input TBI 1", [0x4D, 0x45, 4, 1, 0, 0, 0, 1]);
    is("clocks 12", [0x4D, 0x45, 5, 0, 0, 0, 0, 12]);
    is(
        "clocks 4294967295",
        [0x4D, 0x45, 5, 0, 0xFF, 0xFF, 0xFF, 0xFF],
    );
    is("clocks 16909060", [0x4D, 0x45, 5, 0, 1, 2, 3, 4]);
    is("ack", [0x4D, 0x45, 6, 1, 0, 0, 0, 0]);
    is("ack iei=0", [0x4D, 0x45, 6, 0, 0, 0, 0, 0]);
    is("raise 12", [0x4D, 0x45, 7, 12, 0, 0, 0, 0]);
}

#[test]
fn registers_by_name_serial_ones_too() {
    for (rs, name) in REGISTERS.iter().enumerate() {
        is(
            &format!("read {name}"),
            [0x4D, 0x45, 1, rs as u8, 0, 0, 0, 0],
        );
    }
    is("write UDR FF", [0x4D, 0x45, 2, 23, 0, 0, 0, 0xFF]);
}

#[test]
fn comments_blanks_and_spaces() {
    let text = "# a comment\n\n   \n\treset  # and one behind\r\nack iei=1\n";
    let plain = encode("reset\nack").expect("a readable text");
    assert_eq!(encode(text), Ok(plain));
    assert_eq!(encode(""), Ok(vec![]));
    assert_eq!(decode(&[]), Ok(String::new()));
}

#[test]
fn values_may_be_short_and_small() {
    assert_eq!(encode("write AER a"), encode("write AER 0A"));
}

#[test]
fn lines_it_cannot_read() {
    let verbs = "reset, read, write, line, input, clocks, ack or raise";
    let value = "a value in one or two hex digits";
    let clocks = "a number of clocks (0 to 4294967295)";
    let cases = [
        ("halt", "halt", verbs),
        ("Reset", "Reset", verbs),
        ("write VR 100", "100", value),
        ("write VR 048", "048", value),
        ("write VR 0x48", "0x48", value),
        ("write VR +8", "+8", value),
        ("line 8 1", "8", "a line (0 to 7)"),
        ("line 5 2", "2", "a level (0 or 1)"),
        ("input TCI 1", "TCI", "an input (TAI or TBI)"),
        ("clocks 4294967296", "4294967296", clocks),
        ("clocks 0C", "0C", clocks),
        ("clocks -1", "-1", clocks),
        ("ack 1", "1", "iei=0, iei=1 or the end of the line"),
        ("raise 8", "8", "a serial channel (9 to 12)"),
        ("raise 13", "13", "a serial channel (9 to 12)"),
        ("raise 268", "268", "a serial channel (9 to 12)"),
        ("reset now", "now", "the end of the line"),
        ("ack iei=0 now", "now", "the end of the line"),
    ];
    for (line, word, expected) in cases {
        wrong(line, &format!("line 1: `{word}`: expected {expected}"));
    }
}

#[test]
fn errors_name_the_line_and_what_is_missing() {
    wrong(
        "reset\n\n# x\nclocks",
        "line 4: the line ends: expected a number of clocks (0 to 4294967295)",
    );
    wrong("line 5", "line 1: the line ends: expected a level (0 or 1)");
    let registers = REGISTERS.join(", ");
    wrong(
        "reset\nread IPRC",
        &format!("line 2: `IPRC`: expected a register ({registers})"),
    );
}

#[test]
fn bytes_that_are_no_text() {
    let wrong = |input: &[u8], message: &str| {
        assert_eq!(encode_bytes(input), Err(message.to_string()), "{input:?}");
    };
    let mark = "line 1: the line opens with a byte order mark (EF BB BF): save it without one";
    wrong(b"\xEF\xBB\xBFreset\n", mark);
    wrong(b"\xEF\xBB\xBF", mark);
    wrong(b"reset\n\n# \xFF\nack", "line 3: the byte FF is no text");
    wrong(b"reset\nack # \xC3", "line 2: the byte C3 is no text");
    wrong(b"r\0e\0", "line 1: the byte 00 is no text");
    wrong(b"reset\x0C", "line 1: the byte 0C is no text");
    wrong(b"reset \x7F", "line 1: the byte 7F is no text");
    wrong(
        b"ack\nreset \xC2\x85",
        "line 2: the character U+0085 is no text",
    );
    wrong(b"reset\n\xEF\xBB\xBFreset", &mark.replace('1', "2"));
    // The first wrong line is named, whatever is wrong with it.
    let expected = "expected reset, read, write, line, input, clocks, ack or raise";
    wrong(b"halt\n\xFF", &format!("line 1: `halt`: {expected}"));
    wrong(b"\xFE\xFF\nhalt", "line 1: the byte FE is no text");
    let comment = "reset # ein Gru\u{DF}\n";
    assert_eq!(encode_bytes(comment.as_bytes()), encode("reset"));
}

#[test]
fn white_space_and_leading_zeros() {
    assert_eq!(encode("\u{A0}line\t05  1\r\n"), encode("line 5 1"));
    assert_eq!(encode("clocks 0000000000012"), encode("clocks 12"));
    assert_eq!(encode("raise 012"), encode("raise 12"));
    wrong("line 5 01", "line 1: `01`: expected a level (0 or 1)");
}

/// The rows of a table of docs/TAPE.md, by its heading's first cell: the cells of each.
fn rows(first: &str) -> Vec<Vec<&'static str>> {
    let grammar = include_str!("../../docs/TAPE.md");
    let table = grammar.lines().skip_while(|line| !line.starts_with(first));
    let rows: Vec<_> = table
        .skip(2)
        .take_while(|line| line.starts_with("| "))
        .map(|line| line.trim_matches(['|', ' ']).split(" | ").collect())
        .collect();
    assert!(rows.len() > 5, "{first}: {} rows", rows.len());
    rows
}

/// The first text between backquotes.
fn quoted(cell: &str) -> &str {
    cell.split('`').nth(1).expect("a text between backquotes")
}

#[test]
fn the_grammar_is_true() {
    let mut kinds = [0; 8];
    for row in rows("| Line | Operands |") {
        let [form, _, kind, example, record] = row[..] else {
            panic!("{row:?}");
        };
        let bytes: Vec<u8> = record
            .split(' ')
            .map(|byte| u8::from_str_radix(byte, 16).expect("two hex digits"))
            .collect();
        let line = quoted(example);
        assert_eq!(encode(line), Ok(bytes.clone()), "{line}");
        assert_eq!(decode(&bytes), Ok(format!("{line}\n")), "{line}");
        assert!(line.starts_with(quoted(form)), "{line}");
        assert_eq!(bytes[2].to_string(), kind, "{line}");
        kinds[usize::from(bytes[2])] += 1;
    }
    assert!(kinds.iter().all(|count| *count > 0), "{kinds:?}");
    let grammar = include_str!("../../docs/TAPE.md");
    let named = grammar
        .lines()
        .find_map(|line| line.strip_prefix("Registers: "))
        .expect("the registers");
    let names: Vec<&str> = named
        .split(|c: char| !c.is_ascii_alphanumeric())
        .filter(|word| word.len() > 1 && word.chars().all(|c| c.is_ascii_uppercase()))
        .collect();
    assert_eq!(names, REGISTERS);
}

#[test]
fn what_the_grammar_turns_away() {
    for row in rows("| Text | Message |") {
        let [text, message] = row[..] else {
            panic!("{row:?}");
        };
        wrong(quoted(text), message);
    }
}

#[test]
fn a_tape_holds_512_events() {
    assert_eq!(
        encode(&"reset\n".repeat(512)).map(|tape| tape.len()),
        Ok(4096)
    );
    wrong(
        &"reset\n".repeat(513),
        "line 513: a tape holds at most 512 events",
    );
}

#[test]
fn tapes_it_cannot_write_out() {
    let reset = encode("reset").expect("a readable text");
    let broken = |at: usize, byte: u8| {
        let mut tape = reset.repeat(3);
        tape[8 + at] = byte;
        decode(&tape)
    };
    assert_eq!(broken(0, 0), Err("record 1: record mark wrong".to_string()));
    assert_eq!(broken(2, 8), Err("record 1: kind above 7".to_string()));
    assert_eq!(
        broken(3, 1),
        Err("record 1: operand out of range".to_string())
    );
    let length = |n: usize| format!("{n} bytes: tape length not a multiple of 8, or above 4,096");
    assert_eq!(decode(&reset[..7]), Err(length(7)));
    assert_eq!(decode(&reset.repeat(513)), Err(length(4104)));
}

#[test]
fn random_tapes_go_there_and_back() {
    let mut rng = Rng::new(1);
    for _ in 0..2000 {
        let tape: Vec<u8> = (0..rng.below(40))
            .flat_map(|_| encode_record(&event(&mut rng)))
            .collect();
        let text = decode(&tape).expect("records in range");
        assert_eq!(encode(&text), Ok(tape));
    }
}

fn event(rng: &mut Rng) -> Event {
    let level = rng.chance(1, 2);
    match rng.below(8) {
        0 => Event::Reset,
        1 => Event::Read(rng.below(24) as u8),
        2 => Event::Write(rng.below(24) as u8, rng.byte()),
        3 => Event::Line(rng.below(8) as u8, level),
        4 => Event::Input(rng.below(2) as u8, level),
        5 => Event::Clocks(rng.word() as u32),
        6 => Event::Acknowledge(level),
        _ => Event::Raise(9 + rng.below(4) as u8),
    }
}
