//! The replay lines beside the sample: classes, refusals, limits.
#![deny(warnings)]

use mfp_host::{replay::replay, text};

fn of_text(source: &str) -> String {
    replay(&text::encode(source).expect("a readable text"))
}

#[test]
fn an_empty_input_prints_nothing() {
    assert_eq!(replay(&[]), "");
}

#[test]
fn passed_on_and_held_have_no_value() {
    let lines = "0 P -- 0 0000 0 0 0 0\n1 H -- 0 0000 0 0 0 0\n";
    assert_eq!(of_text("ack\nack iei=0"), lines);
}

#[test]
fn values_are_two_capital_hex_digits() {
    let lines = "0 D -- 0 0000 0 0 0 0\n1 R 0A 0 0000 0 0 0 0\n";
    assert_eq!(of_text("write AER 0A\nread AER"), lines);
}

#[test]
fn outputs_stand_in_the_order_a_b_c_d() {
    let one = |data: &str, control: &str| {
        let shown = of_text(&format!("write {data} 01\nwrite {control}\nclocks 4"));
        shown.lines().last().expect("three lines").to_string()
    };
    assert_eq!(one("TADR", "TACR 01"), "2 D -- 0 1000 1 0 0 0");
    assert_eq!(one("TBDR", "TBCR 01"), "2 D -- 0 0100 0 1 0 0");
    assert_eq!(one("TCDR", "TCDCR 10"), "2 D -- 0 0010 0 0 1 0");
    assert_eq!(one("TDDR", "TCDCR 01"), "2 D -- 0 0001 0 0 0 1");
}

#[test]
fn a_refused_tape_prints_one_line() {
    assert_eq!(of_text("reset\nread UDR"), "refused 8 1\n");
    assert_eq!(replay(&[0; 8]), "refused 5 0\n");
    assert_eq!(replay(&[0x4D, 0x45, 8, 0, 0, 0, 0, 0]), "refused 6 0\n");
    assert_eq!(replay(&[0x4D, 0x45, 0, 1, 0, 0, 0, 0]), "refused 7 0\n");
}

#[test]
fn the_length_of_a_tape() {
    let reset = [0x4D, 0x45, 0, 0, 0, 0, 0, 0];
    assert_eq!(replay(&reset[..7]), "refused 4 0\n");
    assert_eq!(replay(&reset.repeat(512)).lines().count(), 512);
    assert_eq!(replay(&reset.repeat(513)), "refused 4 0\n");
}
