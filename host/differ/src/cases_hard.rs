//! Where emulations of this part are known to go wrong: one named case each,
//! with lines written by hand from the paper's rules.

use crate::cases_paper::Case;
use crate::rig::Rig;
use mfp_host::reference::image::at;
use mfp_host::reference::layout::{FIRST_SERIAL, IMAGE_BYTES, REGISTERS};
use mfp_host::reference::Device;

pub const CASES: &[Case] = &[
    ("hard: same control mode written again", same_mode),
    ("hard: TACR/TBCR bit 4", bit_four),
    ("hard: reading timer data", reading),
    ("hard: several periods inside one step", periods),
    ("hard: divisor 200 x 256", longest_period),
    ("hard: counter 0", counter_zero),
    ("hard: stopping a timer near its end", stopping),
    ("hard: pulse-width mode", pulse_width),
    ("hard: event count", event_count),
    ("hard: AER write", aer_write),
    ("hard: output lines", output_lines),
    ("hard: IMR write", imr_write),
    ("hard: in-service", in_service),
    ("hard: acknowledge with nothing to give", nothing_to_give),
    ("hard: IER cleared between IRQ and acknowledge", ier_cleared),
    ("hard: choosing the channel", choosing),
    ("hard: reset", reset),
    ("hard: saved state", saved_state),
    ("hard: unused bits", unused_bits),
    (
        "hard: timer C acknowledged, its neighbours wait",
        neighbours,
    ),
];

fn positions(r: &mut Rig, expected: [u8; 4]) {
    for (timer, position) in expected.into_iter().enumerate() {
        r.byte(at::POSITION + timer, position);
    }
}

fn counters(r: &mut Rig, expected: [u8; 4]) {
    for (timer, counter) in expected.into_iter().enumerate() {
        r.byte(at::COUNTER + timer, counter);
    }
}

fn same_mode(r: &mut Rig) {
    r.play("write TADR 05; write TBDR 05; write TCDR 05; write TDDR 05");
    r.play("write TACR 01; write TBCR 01; write TCDCR 11; clocks 3");
    r.play("write TACR 01; write TBCR 01; write TCDCR 11");
    positions(r, [3, 3, 3, 3]);
    r.play("clocks 1");
    counters(r, [4, 4, 4, 4]);
    r.play("clocks 2; write TCDCR 21");
    positions(r, [2, 2, 0, 2]);
    r.play("clocks 1; write TCDCR 22");
    positions(r, [3, 3, 1, 0]);
    r.play("write TACR 02");
    positions(r, [0, 3, 1, 0]);
    r.play("write TBCR 09");
    positions(r, [0, 0, 1, 0]);
    counters(r, [4, 4, 4, 4]);
}

fn bit_four(r: &mut Rig) {
    r.play("write TADR 01; write TBDR 01; write TACR 01; write TBCR 01");
    r.says("clocks 6", "D -- 0 1100 1 1 0 0");
    r.says("write TBCR 11", "D -- 0 1000 0 0 0 0");
    r.says("read TBCR", "R 01 0 1000 0 0 0 0");
    positions(r, [2, 2, 0, 0]);
    r.says("clocks 4", "D -- 0 0100 1 1 0 0");
    r.says("write TACR 11", "D -- 0 0100 0 0 0 0");
    r.says("clocks 4", "D -- 0 1000 1 1 0 0");
    r.says("write TACR F1", "D -- 0 0000 0 0 0 0");
    r.says("read TACR", "R 01 0 0000 0 0 0 0");
    counters(r, [1, 1, 0, 0]);
    positions(r, [2, 2, 0, 0]);
    r.says("clocks 4", "D -- 0 1100 1 1 0 0");
    r.says("write TACR E1", "D -- 0 1100 0 0 0 0");
    r.says("write TACR 10", "D -- 0 0100 0 0 0 0");
    r.says("read TACR", "R 00 0 0100 0 0 0 0");
}

fn reading(r: &mut Rig) {
    r.play("write TADR 05; write TBDR 06; write TCDR 07; write TDDR 08");
    r.play("write TACR 01; write TBCR 02; write TCDCR 34; clocks 13");
    for (timer, value) in ["2", "5", "7", "8"].into_iter().enumerate() {
        let event = format!("read {}", ["TADR", "TBDR", "TCDR", "TDDR"][timer]);
        let line = format!("R 0{value} 0 0000 0 0 0 0");
        r.changes_nothing(&event, &line);
        r.changes_nothing(&event, &line);
    }
    for register in &REGISTERS[..FIRST_SERIAL as usize] {
        let before = r.image.clone();
        r.play(&format!("read {register}"));
        r.image_is(register, &before);
    }
    positions(r, [1, 3, 13, 13]);
}

fn periods(r: &mut Rig) {
    r.play("write TDDR 02; write TCDCR 01");
    r.says("clocks 8003", "D -- 0 0000 0 0 0 1000");
    r.byte(at::POSITION + 3, 3);
    r.byte(at::COUNTER + 3, 2);
    r.says("clocks 5", "D -- 0 0001 0 0 0 1");
    r.fresh();
    r.play("write TADR 01; write TBDR 02; write TCDR 03; write TDDR 04");
    r.play("write TACR 01; write TBCR 02; write TCDCR 34");
    r.says("clocks 100000", "D -- 0 0010 25000 5000 2083 500");
    counters(r, [1, 2, 2, 4]);
    positions(r, [0, 0, 0, 0]);
}

fn longest_period(r: &mut Rig) {
    r.play("write TADR 00; write TACR 07");
    r.says("clocks 51199", "D -- 0 0000 0 0 0 0");
    r.says("clocks 1", "D -- 0 1000 1 0 0 0");
    r.fresh();
    r.play("write TADR 00; write TACR 07");
    r.says("clocks 4294967295", "D -- 0 0000 83886 0 0 0");
    r.byte(at::COUNTER, 236);
    r.byte(at::POSITION, 95);
}

fn counter_zero(r: &mut Rig) {
    r.play("write TCDR 00; write TCDCR 10");
    r.says("clocks 4", "D -- 0 0000 0 0 0 0");
    r.reads("TCDR", 0xFF);
    r.says("clocks 1016", "D -- 0 0000 0 0 0 0");
    r.reads("TCDR", 0x01);
    r.says("clocks 4", "D -- 0 0010 0 0 1 0");
    r.reads("TCDR", 0x00);
    r.fresh();
    r.play("write TCDR 01; write TCDCR 10; write TCDR 00");
    r.says("clocks 4", "D -- 0 0010 0 0 1 0");
    r.reads("TCDR", 0x00);
    r.says("clocks 1023", "D -- 0 0010 0 0 0 0");
    r.says("clocks 1", "D -- 0 0000 0 0 1 0");
}

fn stopping(r: &mut Rig) {
    r.play("write IERA 20; write TADR 02; write TACR 01; clocks 7");
    r.says("write TACR 00", "D -- 0 0000 0 0 0 0");
    r.reads("TADR", 0x01);
    r.byte(at::POSITION, 0);
    r.changes_nothing("clocks 1000", "D -- 0 0000 0 0 0 0");
    r.play("write TACR 01");
    r.says("clocks 3", "D -- 0 0000 0 0 0 0");
    r.says("clocks 1", "D -- 0 1000 1 0 0 0");
    r.reads("TADR", 0x02);
    r.reads("IPRA", 0x20);
}

fn pulse_width(r: &mut Rig) {
    width_of_a(r);
    width_of_b(r);
    r.fresh();
    r.play("write AER 10; write IERA 20; write IERB 48; write TADR 02; write TACR 09");
    r.changes_nothing("clocks 4294967295", "D -- 0 0000 0 0 0 0");
    r.play("input TAI 1; clocks 2; input TAI 0");
    r.byte(at::POSITION, 2);
    r.changes_nothing("clocks 100", "D -- 0 0000 0 0 0 0");
    r.play("input TAI 1");
    r.says("clocks 6", "D -- 0 1000 1 0 0 0");
    r.reads("IPRA", 0x20);
}

fn width_of_a(r: &mut Rig) {
    r.play("write AER 18; write IERB 48; write TACR 0F; line 4 1; line 4 0");
    r.reads("IPRB", 0x00);
    r.play("line 3 1");
    r.reads("IPRB", 0x08);
    r.play("input TAI 1");
    r.reads("IPRB", 0x08);
    r.play("input TAI 0; write IPRB F7");
    r.reads("IPRB", 0x40);
    r.play("write IPRB 00; input TBI 1; input TBI 0");
    r.reads("IPRB", 0x00);
    r.play("write TACR 07; line 4 1");
    r.reads("IPRB", 0x40);
}

fn width_of_b(r: &mut Rig) {
    r.fresh();
    r.play("write AER 18; write IERB 48; write TBCR 09; line 3 1; line 3 0");
    r.reads("IPRB", 0x00);
    r.play("line 4 1");
    r.reads("IPRB", 0x40);
    r.play("write IPRB 00; input TBI 1");
    r.reads("IPRB", 0x00);
    r.play("input TBI 0");
    r.reads("IPRB", 0x08);
    r.play("write IPRB 00; input TAI 1; input TAI 0");
    r.reads("IPRB", 0x00);
}

fn event_count(r: &mut Rig) {
    r.play("write AER 18; write IERA 21; write TADR 02; write TACR 08; write TADR 07");
    r.reads("TADR", 2);
    r.changes_nothing("clocks 1000", "D -- 0 0000 0 0 0 0");
    r.says("input TAI 1", "D -- 0 0000 0 0 0 0");
    r.reads("TADR", 1);
    r.says("input TAI 1", "D -- 0 0000 0 0 0 0");
    r.reads("TADR", 1);
    r.says("input TAI 0", "D -- 0 0000 0 0 0 0");
    r.reads("TADR", 1);
    r.says("input TAI 1", "D -- 0 1000 1 0 0 0");
    r.reads("TADR", 7);
    r.reads("IPRA", 0x20);
    r.play("write TBDR 01; write TBCR 08");
    r.says("input TBI 1", "D -- 0 1100 0 1 0 0");
    r.reads("IPRA", 0x21);
    r.play("write TBCR 00; input TBI 0; input TBI 1");
    r.reads("TBDR", 1);
    r.fresh();
    r.play("write TBDR 00; write TBCR 08; input TBI 1; input TBI 0");
    r.reads("TBDR", 0xFF);
}

fn aer_write(r: &mut Rig) {
    r.play("write IERA FF; write IERB FF; line 0 1; line 3 1; line 6 1; line 7 1");
    r.play("write AER 49");
    r.reads("IPRA", 0x40);
    r.reads("IPRB", 0x09);
    r.play("write IPRA 00; write IPRB 00; write AER 49");
    r.reads("IPRA", 0x00);
    r.reads("IPRB", 0x00);
    r.play("write AER 36");
    r.reads("IPRB", 0x00);
    r.play("write AER 00");
    r.reads("IPRB", 0xC6);
    r.fresh();
    r.play("write IERA FF; write TADR 01; write TBDR 01; write TACR 08; write TBCR 08");
    r.says("write AER 18", "D -- 0 0000 0 0 0 0");
    r.says("write AER 00", "D -- 0 1100 1 1 0 0");
    r.reads("IPRA", 0x21);
    r.fresh();
    r.play("write IERB FF; write TACR 09; write TBCR 09; write AER 18");
    r.reads("IPRB", 0x48);
    r.play("write IPRB 00; write AER 00");
    r.reads("IPRB", 0x00);
}

fn output_lines(r: &mut Rig) {
    r.play("write DDR FF; write IERA FF; write IERB FF; write IMRA FF; write IMRB FF");
    for line in 0..8 {
        r.says(&format!("line {line} 1"), "D -- 0 0000 0 0 0 0");
        r.says(&format!("line {line} 0"), "D -- 0 0000 0 0 0 0");
    }
    r.play("line 2 1; line 7 1");
    r.says("write AER 84", "D -- 0 0000 0 0 0 0");
    r.says("write AER 00", "D -- 0 0000 0 0 0 0");
    r.reads("GPDR", 0x00);
    r.says("write DDR 00", "D -- 0 0000 0 0 0 0");
    r.reads("GPDR", 0x84);
    r.says("line 7 0", "D -- 1 0000 0 0 0 0");
    r.reads("IPRA", 0x80);
}

fn imr_write(r: &mut Rig) {
    r.play("write VR 48; write IERA 18; write IMRA 18; raise 12; ack; raise 11");
    r.play("write IMRA 00; write IMRB FF");
    r.reads("ISRA", 0x10);
    r.reads("IPRA", 0x08);
    r.reads("IERA", 0x18);
    r.reads("IMRB", 0xFF);
}

fn in_service(r: &mut Rig) {
    r.play("write VR 48; write IERA 3E; write IMRA 3E; write TADR 01; raise 11");
    r.says("ack", "V 4B 0 0000 0 0 0 0");
    r.says("raise 11", "D -- 0 0000 0 0 0 0");
    r.changes_nothing("ack", "P -- 0 0000 0 0 0 0");
    r.says("raise 10", "D -- 0 0000 0 0 0 0");
    r.changes_nothing("ack", "P -- 0 0000 0 0 0 0");
    r.says("raise 12", "D -- 1 0000 0 0 0 0");
    r.says("ack", "V 4C 0 0000 0 0 0 0");
    r.reads("ISRA", 0x18);
    r.says("write ISRA EF", "D -- 0 0000 0 0 0 0");
    r.says("write ISRA F7", "D -- 1 0000 0 0 0 0");
    r.says("ack", "V 4B 0 0000 0 0 0 0");
    r.says("write ISRA 00", "D -- 1 0000 0 0 0 0");
    r.says("ack", "V 4A 0 0000 0 0 0 0");
}

fn nothing_to_give(r: &mut Rig) {
    r.play("write VR 48; write IERA 10; write IMRA 10; raise 12; ack; write ISRA 00");
    r.changes_nothing("ack", "P -- 0 0000 0 0 0 0");
    r.changes_nothing("ack iei=0", "H -- 0 0000 0 0 0 0");
    r.play("raise 12");
    r.changes_nothing("ack iei=0", "H -- 1 0000 0 0 0 0");
    r.play("write IMRA 00");
    r.changes_nothing("ack", "P -- 0 0000 0 0 0 0");
    r.load(&all_pending());
    r.changes_nothing("ack iei=0", "H -- 1 0000 0 0 0 0");
}

/// All sixteen channels enabled, pending and unmasked, vectors from A0, no S.
fn all_pending() -> [u8; IMAGE_BYTES] {
    let mut image = Device::fresh().save();
    image[at::VR] = 0xA0;
    for register in [at::IERA, at::IPRA, at::IMRA] {
        image[register] = 0xFF;
        image[register + 1] = 0xFF;
    }
    image
}

fn ier_cleared(r: &mut Rig) {
    r.play("write VR 48; write IERA 10; write IMRA 10");
    r.says("raise 12", "D -- 1 0000 0 0 0 0");
    r.says("write IERA 00", "D -- 0 0000 0 0 0 0");
    r.changes_nothing("ack", "P -- 0 0000 0 0 0 0");
    r.says("write IERA 10", "D -- 0 0000 0 0 0 0");
}

fn choosing(r: &mut Rig) {
    r.load(&all_pending());
    for channel in (0..16).rev() {
        let irq = u8::from(channel > 0);
        r.says("ack", &format!("V A{channel:X} {irq} 0000 0 0 0 0"));
    }
    r.changes_nothing("ack", "P -- 0 0000 0 0 0 0");
    r.fresh();
    r.play("write VR A8; write IERA C0; write IERB CF; write IMRA C0; write IMRB CF");
    r.play("write AER FF; write AER 00");
    r.reads("IPRA", 0xC0);
    r.reads("IPRB", 0xCF);
    r.says("ack", "V AF 0 0000 0 0 0 0");
    r.reads("ISRA", 0x80);
    r.reads("IPRA", 0x40);
}

fn reset(r: &mut Rig) {
    let mut image = Device::fresh().save();
    for (at, value) in image.iter_mut().enumerate().skip(2) {
        *value = at as u8 * 7;
    }
    for register in [at::IERA, at::IERA + 1, at::IMRA, at::IMRA + 1, at::LEVELS] {
        image[register] = 0xFF;
    }
    image[at::VR] = 0x48;
    image[at::MODE_A] = 0x0F;
    image[at::MODE_B] = 0x07;
    image[at::TCDCR] = 0x77;
    image[at::POSITION..at::OUTPUTS].copy_from_slice(&[199, 1, 2, 3]);
    image[at::OUTPUTS] = 0x0F;
    image[at::INPUTS] = 0x03;
    r.load(&image);
    r.says("reset", "D -- 0 0000 0 0 0 0");
    let mut expected = Device::fresh().save();
    expected[at::DATA..at::POSITION].copy_from_slice(&image[at::DATA..at::POSITION]);
    expected[at::LEVELS] = 0xFF;
    expected[at::INPUTS] = 0x03;
    r.image_is("after reset", &expected);
    r.reads("GPDR", 0xFF);
    r.reads("TADR", image[at::COUNTER]);
}

fn saved_state(r: &mut Rig) {
    r.play("input TAI 1");
    r.byte(at::INPUTS, 0x01);
    r.play("input TBI 1");
    r.byte(at::INPUTS, 0x03);
    r.play("input TAI 0");
    r.byte(at::INPUTS, 0x02);
    r.play("line 0 1; line 7 1");
    r.byte(at::LEVELS, 0x81);
    r.play("write TADR 02; write TACR 01; clocks 11");
    r.byte(at::DATA, 2);
    r.byte(at::COUNTER, 2);
    r.byte(at::POSITION, 3);
    r.byte(at::OUTPUTS, 0x01);
    r.byte(at::MODE_A, 0x01);
}

fn unused_bits(r: &mut Rig) {
    for (register, value) in [
        ("VR", 0xF8),
        ("TCDCR", 0x77),
        ("TACR", 0x0F),
        ("TBCR", 0x0F),
    ] {
        r.play(&format!("write {register} FF"));
        r.reads(register, value);
    }
    r.play("write TCDCR 88");
    r.reads("TCDCR", 0x00);
    r.play("write VR 07");
    r.reads("VR", 0x00);
    r.play("write TACR F0; write TBCR E3");
    r.reads("TACR", 0x00);
    r.reads("TBCR", 0x03);
}

fn neighbours(r: &mut Rig) {
    r.play("write VR 48; write IERA 10; write IERB F0; write IMRB 20");
    r.play("write TCDR 02; write TDDR 02; write TCDCR 11; raise 12");
    r.play("line 4 1; line 4 0; line 5 1; line 5 0");
    r.says("clocks 8", "D -- 1 0011 0 0 1 1");
    r.reads("IPRB", 0xF0);
    r.says("ack", "V 45 0 0011 0 0 0 0");
    r.reads("IPRA", 0x10);
    r.reads("IPRB", 0xD0);
    r.says("write IMRA 10", "D -- 1 0011 0 0 0 0");
    r.says("ack", "V 4C 0 0011 0 0 0 0");
}
