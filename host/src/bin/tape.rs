//! `tape encode < in.txt > out.tape` and `tape decode < in.tape > out.txt`.
//! What cannot be read is named on standard error, nothing is written to
//! standard output, and the exit status is 1 (2 for a wrong call). It is 1 too
//! where the output could not be written: status 0 means that all of it was.
#![deny(warnings)]
#![forbid(unsafe_code)]

use mfp_host::text;
use std::fs::File;
use std::io::{Read, Write};
use std::os::fd::AsFd;
use std::process::ExitCode;

/// The longest input. A tape has at most 4,096 bytes; a text may have comments.
const MOST: usize = 1 << 20;

const USAGE: &str = "\
usage: tape encode < in.txt > out.tape
       tape decode < in.tape > out.txt
       tape --help
";

const HELP: &str = "
encode makes a tape of a text, decode a text of a tape. A text has one event a
line, and # starts a comment:

reset             the reset line
read IPRB         read a register
write VR 48       write a register, the value in hex
line 5 1          line 5 to level 1
input TAI 0       timer input TAI or TBI to level 0
clocks 12         so many clocks of the timers, in decimal
ack               acknowledge with IEI asserted
ack iei=0         acknowledge with IEI not asserted
raise 12          raise a serial channel, 9 to 12

Status 0: all of the output was written. 1: the input could not be read or the
output not be written; standard error says why. 2: wrong usage.
docs/TAPE.md has the whole grammar.
";

fn main() -> ExitCode {
    let arguments: Vec<_> = std::env::args_os().skip(1).collect();
    let words: Vec<_> = arguments.iter().map(|word| word.to_str()).collect();
    let done = match words.as_slice() {
        [Some("encode")] => read_input().and_then(encode).and_then(write_output),
        [Some("decode")] => read_input().and_then(decode).and_then(write_output),
        [Some("--help")] => write_output(format!("{USAGE}{HELP}").into_bytes()),
        _ => {
            say(USAGE);
            return ExitCode::from(2);
        }
    };
    match done {
        Ok(()) => ExitCode::SUCCESS,
        Err(wrong) => {
            say(&format!("tape: {wrong}\n"));
            ExitCode::FAILURE
        }
    }
}

fn encode(input: Vec<u8>) -> Result<Vec<u8>, String> {
    text::encode_bytes(&input)
}

fn decode(input: Vec<u8>) -> Result<Vec<u8>, String> {
    text::decode(&input).map(String::into_bytes)
}

/// By the descriptor: one that is not open for reading is an empty input to `Stdin`.
fn read_input() -> Result<Vec<u8>, String> {
    let mut input = Vec::new();
    file(std::io::stdin())
        .and_then(|stdin| stdin.take(MOST as u64 + 1).read_to_end(&mut input))
        .map_err(|error| format!("the input could not be read: {error}"))?;
    if input.len() > MOST {
        return Err(format!("the input is longer than {MOST} bytes"));
    }
    Ok(input)
}

/// By the descriptor: one that is not open for writing takes everything from `Stdout`. A file keeps no bytes
/// back, so a write tells whether they got through.
fn write_output(output: Vec<u8>) -> Result<(), String> {
    file(std::io::stdout())
        .and_then(|mut stdout| stdout.write_all(&output))
        .map_err(|error| format!("the output could not be written: {error}"))
}

fn file(stream: impl AsFd) -> std::io::Result<File> {
    stream.as_fd().try_clone_to_owned().map(File::from)
}

/// A message that cannot be written is lost; the status still tells.
fn say(message: &str) {
    let _ = std::io::stderr().write_all(message.as_bytes());
}
