//! The replay program as a process, against the lines of the second
//! implementation: tapes that run, tapes that are refused, and the limits.

use mfp_host::reference::layout::{RECORD_BYTES, TAPE_MAX};
use mfp_host::reference::tape::encode_record;
use mfp_host::rng::Rng;
use mfp_host::{replay, text};
use std::ffi::OsStr;
use std::io::Write;
use std::process::{Command, Stdio};

/// Compare the program's lines on every input; each group is a named case.
pub fn replays(mut case: impl FnMut(&str, &mut dyn FnMut() -> Result<u64, String>), program: &str) {
    for (name, inputs) in groups() {
        case(name, &mut || {
            for input in &inputs {
                same_lines(program, input)?;
            }
            Ok(inputs.len() as u64)
        });
    }
}

/// The inputs, by name.
fn groups() -> Vec<(&'static str, Vec<Vec<u8>>)> {
    let reset = [0x4D, 0x45, 0, 0, 0, 0, 0, 0];
    let sample = text::encode(include_str!("../../../examples/sample.txt"));
    let lengths = [0, 7, 8, 9, 4088, 4095, 4096, 4097, 4104, 9000];
    let long = reset.repeat(1200);
    let refused = (0..RECORD_BYTES).flat_map(|at| [8u8, 255].map(|byte| spoiled(at, byte)));
    let mut rng = Rng::new(7);
    vec![
        (
            "replay: the sample tape",
            vec![sample.expect("the sample can be read")],
        ),
        (
            "replay: input lengths",
            lengths.map(|n| long[..n].to_vec()).to_vec(),
        ),
        ("replay: refused records", refused.collect()),
        (
            "replay: random tapes",
            (0..200).map(|_| any_tape(&mut rng)).collect(),
        ),
    ]
}

/// Three resets, one byte of the last as something else.
fn spoiled(at: usize, byte: u8) -> Vec<u8> {
    let mut tape = [0x4D, 0x45, 0, 0, 0, 0, 0, 0].repeat(3);
    tape[2 * RECORD_BYTES + at] = byte;
    tape
}

fn any_tape(rng: &mut Rng) -> Vec<u8> {
    let records = rng.below(80).min((TAPE_MAX / RECORD_BYTES) as u64);
    (0..records)
        .flat_map(|_| encode_record(&crate::random::event(rng)))
        .collect()
}

fn same_lines(program: &str, input: &[u8]) -> Result<(), String> {
    let printed = lines_of(program, input).map_err(|error| error.to_string())?;
    let expected = replay::replay(input);
    if printed == expected.as_bytes() {
        return Ok(());
    }
    let printed = String::from_utf8_lossy(&printed);
    Err(format!(
        "input {input:02X?}\nexpected\n{expected}found\n{printed}"
    ))
}

/// A process of a program for x86-64: where the machine is another, under the
/// emulator that MFP_EMULATOR names.
pub fn process(program: impl AsRef<OsStr>) -> Command {
    match std::env::var_os("MFP_EMULATOR") {
        Some(emulator) if !emulator.is_empty() => {
            let mut command = Command::new(emulator);
            command.arg(program);
            command
        }
        _ => Command::new(program),
    }
}

fn lines_of(program: &str, input: &[u8]) -> std::io::Result<Vec<u8>> {
    let mut child = process(program)
        .stdin(Stdio::piped())
        .stdout(Stdio::piped())
        .spawn()?;
    let mut stdin = child.stdin.take().expect("it is piped");
    // A program may stop reading once the input is too long for it.
    let written = stdin.write_all(input);
    drop(stdin);
    let output = child.wait_with_output()?;
    match written {
        Err(error) if error.kind() != std::io::ErrorKind::BrokenPipe => Err(error),
        _ => Ok(output.stdout),
    }
}
