//! The lines of the replay program: what a tape answers on a fresh device.

use crate::reference::layout::{answer_at, ANSWER_BYTES, IMAGE_BYTES, RECORD_BYTES, TIMERS};
use crate::reference::{fresh, run};

/// What the replay program prints for this input.
pub fn replay(input: &[u8]) -> String {
    let mut image = [0; IMAGE_BYTES];
    fresh(&mut image);
    let mut answers = vec![0; input.len() / RECORD_BYTES * ANSWER_BYTES];
    match run(&mut image, input, &mut answers) {
        0 => lines(&answers),
        code => refused(code),
    }
}

/// The line of a refused tape: number and index, in decimal.
pub fn refused(code: u32) -> String {
    format!("refused {} {}\n", code % 256, code / 256)
}

/// A line for each answer.
pub fn lines(answers: &[u8]) -> String {
    answers
        .chunks_exact(ANSWER_BYTES)
        .enumerate()
        .map(|(index, answer)| line(index, answer) + "\n")
        .collect()
}

/// "Index, class (D R V P H), value in two capital hex digits for R and V,
/// else --, IRQ, outputs in order A B C D, four counts A to D."
pub fn line(index: usize, answer: &[u8]) -> String {
    let class = "DRVPH"
        .chars()
        .nth(answer[answer_at::CLASS].into())
        .unwrap_or('?');
    let value = match class {
        'R' | 'V' => format!("{:02X}", answer[answer_at::VALUE]),
        _ => "--".to_string(),
    };
    let outputs: String = (0..TIMERS)
        .map(|t| digit(answer[answer_at::OUTPUTS] >> t & 1))
        .collect();
    let counts: Vec<String> = answer[answer_at::TIMEOUTS..]
        .chunks(4)
        .take(TIMERS)
        .map(count)
        .collect();
    format!(
        "{index} {class} {value} {} {outputs} {}",
        digit(answer[answer_at::IRQ]),
        counts.join(" ")
    )
}

/// A bit as a digit; anything else shows that the answer is broken.
fn digit(bit: u8) -> char {
    match bit {
        0 => '0',
        1 => '1',
        _ => '?',
    }
}

/// Four bytes, high byte first, in decimal.
fn count(bytes: &[u8]) -> String {
    let count = bytes.iter().fold(0u64, |sum, &b| 256 * sum + u64::from(b));
    count.to_string()
}
