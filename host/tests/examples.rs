//! The tapes under examples/, with the lines the paper's rules give them.
#![deny(warnings)]

use mfp_host::{replay::replay, text};

/// Each example goes to a tape and back, and prints these lines.
fn shows(source: &str, lines: &str) {
    let tape = text::encode(source).expect("the example can be read");
    let again = text::decode(&tape).expect("its tape can be written out");
    assert_eq!(text::encode(&again), Ok(tape.clone()));
    assert_eq!(replay(&tape), lines);
}

/// The first `n` lines of a set-up during which nothing shows.
fn quiet(n: usize) -> String {
    (0..n)
        .map(|i| format!("{i} D -- 0 0000 0 0 0 0\n"))
        .collect()
}

#[test]
fn sample() {
    let lines = "5 D -- 1 0010 0 0 1 0
6 V 45 0 0010 0 0 0 0
7 D -- 0 0010 0 0 2 0
8 D -- 1 0010 0 0 0 0
9 R 20 1 0010 0 0 0 0
";
    shows(
        include_str!("../../examples/sample.txt"),
        &(quiet(5) + lines),
    );
}

#[test]
fn timer_c_neighbour() {
    let lines = "8 D -- 1 0011 0 0 1 1
9 R 10 1 0011 0 0 0 0
10 R 30 1 0011 0 0 0 0
11 V 45 0 0011 0 0 0 0
12 R 10 0 0011 0 0 0 0
13 R 10 0 0011 0 0 0 0
14 D -- 0 0011 0 0 0 0
15 D -- 1 0011 0 0 0 0
16 V 4C 0 0011 0 0 0 0
";
    let source = include_str!("../../examples/timer-c-neighbour.txt");
    shows(source, &(quiet(8) + lines));
}

#[test]
fn pulse_width() {
    let lines = "7 R 64 0 0000 0 0 0 0
8 D -- 0 0000 0 0 0 0
9 D -- 0 0000 0 0 0 0
10 D -- 0 0000 0 0 0 0
11 D -- 1 0000 0 0 0 0
12 D -- 1 0000 0 0 0 0
13 R 5A 1 0000 0 0 0 0
14 V 46 0 0000 0 0 0 0
";
    let source = include_str!("../../examples/pulse-width.txt");
    shows(source, &(quiet(7) + lines));
}

#[test]
fn event_count() {
    let lines = "7 R 02 0 0000 0 0 0 0
8 D -- 0 0000 0 0 0 0
9 D -- 0 0000 0 0 0 0
10 D -- 0 0000 0 0 0 0
11 D -- 0 0000 0 0 0 0
12 D -- 1 0100 0 1 0 0
13 R 03 1 0100 0 0 0 0
14 V 48 0 0100 0 0 0 0
";
    let source = include_str!("../../examples/event-count.txt");
    shows(source, &(quiet(7) + lines));
}
