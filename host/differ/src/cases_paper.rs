//! The paper's bench examples, the slips it wants ruled out, its sample tape,
//! and the tables it fixes, each as a named case with lines written by hand.

use crate::call::{Call, Lender};
use crate::rig::Rig;
use mfp_host::reference::image::at;
use mfp_host::reference::Device;
use mfp_host::{replay, text};

/// A name and what is done on the bench.
pub type Case = (&'static str, fn(&mut Rig));

pub const CASES: &[Case] = &[
    ("P1 fresh, acknowledge with IEI", p1),
    ("P2 a request, IEI not asserted", p2),
    ("P3 divisor 4, counter 1", p3),
    ("P4 divisor 200, counter 0", p4),
    ("P5 no clocks", p5),
    ("P6 the longest span", p6),
    ("P7 IER bit cleared", p7),
    ("P8 pending and masked", p8),
    ("P9 IPRA written", p9),
    ("P10 in service below a request", p10),
    ("P11 AER write makes line 5 active", p11),
    ("P12 pulse mode A, TAI ceases", p12),
    ("data written to a running timer", data_while_running),
    ("counter read after four clocks", counter_read),
    ("slip: storing the byte written to IPR", slip_ipr),
    ("slip: line number for channel number", slip_line),
    ("slip: counter 0 as a timeout", slip_counter),
    ("slip: position cleared by bit 4 of TACR", slip_position),
    ("slip: a mask hides the pending bit", slip_mask),
    ("table: sixteen channels", channels),
    ("table: seven divisors of four timers", divisors),
    ("registers keep what they store", registers),
    ("GPDR mixes stored bits and levels", gpdr),
    ("VR without S clears in-service", vr),
    ("a raise on a disabled channel", disabled),
    ("S clear: an acknowledge leaves no service", no_service),
    ("line 4 raises in event count mode", line_in_event_count),
    (
        "the end of a pulse raises though line 4 is an output",
        width_and_output,
    ),
];

fn p1(r: &mut Rig) {
    r.changes_nothing("ack", "P -- 0 0000 0 0 0 0");
}

fn p2(r: &mut Rig) {
    r.play("write VR 48; write IERA 10; write IMRA 10");
    r.says("raise 12", "D -- 1 0000 0 0 0 0");
    r.changes_nothing("ack iei=0", "H -- 1 0000 0 0 0 0");
    r.says("ack", "V 4C 0 0000 0 0 0 0");
    r.fresh();
    r.changes_nothing("ack iei=0", "H -- 0 0000 0 0 0 0");
}

fn p3(r: &mut Rig) {
    for (data, control, four) in [
        ("TADR", "TACR 01", "D -- 0 1000 1 0 0 0"),
        ("TBDR", "TBCR 01", "D -- 0 0100 0 1 0 0"),
        ("TCDR", "TCDCR 10", "D -- 0 0010 0 0 1 0"),
        ("TDDR", "TCDCR 01", "D -- 0 0001 0 0 0 1"),
    ] {
        let set_up = format!("write {data} 01; write {control}");
        r.fresh();
        r.play(&set_up);
        r.says("clocks 3", "D -- 0 0000 0 0 0 0");
        r.fresh();
        r.play(&set_up);
        r.says("clocks 4", four);
    }
}

fn p4(r: &mut Rig) {
    r.play("write TADR 00; write TACR 07");
    r.says("clocks 51199", "D -- 0 0000 0 0 0 0");
    r.fresh();
    r.play("write TADR 00; write TACR 07");
    r.says("clocks 51200", "D -- 0 1000 1 0 0 0");
    r.byte(at::COUNTER, 0);
    r.byte(at::POSITION, 0);
}

fn p5(r: &mut Rig) {
    r.play("write TADR 01; write TACR 01; write TCDR 01; write TCDCR 17; clocks 3");
    r.changes_nothing("clocks 0", "D -- 0 0000 0 0 0 0");
    r.says("clocks 1", "D -- 0 1010 1 0 1 0");
    r.changes_nothing("clocks 0", "D -- 0 1010 0 0 0 0");
}

fn p6(r: &mut Rig) {
    r.play("write TADR 01; write TACR 01");
    r.says("clocks 4294967295", "D -- 0 1000 1073741823 0 0 0");
    r.byte(at::POSITION, 3);
    r.byte(at::COUNTER, 1);
    r.says("clocks 4294967295", "D -- 0 1000 1073741824 0 0 0");
    r.byte(at::POSITION, 2);
    r.says("clocks 2", "D -- 0 0000 1 0 0 0");
}

fn p7(r: &mut Rig) {
    r.play("write VR 48; write IERA 18; write IMRA 18; raise 12; raise 11; ack; raise 12");
    r.reads("IPRA", 0x18);
    r.reads("ISRA", 0x10);
    r.says("write IERA 00", "D -- 0 0000 0 0 0 0");
    r.reads("IPRA", 0x00);
    r.reads("ISRA", 0x10);
    r.fresh();
    r.play("write VR 48; write IERB C0; write IMRB C0; line 5 1; line 5 0; ack");
    r.play("line 5 1; line 5 0; line 4 1; line 4 0");
    r.reads("IPRB", 0xC0);
    r.play("write IERB 40");
    r.reads("IPRB", 0x40);
    r.reads("ISRB", 0x80);
}

fn p8(r: &mut Rig) {
    r.play("write IERA 10");
    r.says("raise 12", "D -- 0 0000 0 0 0 0");
    r.reads("IPRA", 0x10);
    r.says("write IMRA EF", "D -- 0 0000 0 0 0 0");
    r.says("write IMRA 10", "D -- 1 0000 0 0 0 0");
    r.says("write IMRA 00", "D -- 0 0000 0 0 0 0");
}

fn p9(r: &mut Rig) {
    let mut image = Device::fresh().save();
    image[at::IERA] = 0x21;
    image[at::IPRA] = 0x21;
    r.load(&image);
    r.play("write IPRA FF");
    r.reads("IPRA", 0x21);
    r.play("write IPRA DF");
    r.reads("IPRA", 0x01);
}

fn p10(r: &mut Rig) {
    let mut image = Device::fresh().save();
    image[at::VR] = 0x48;
    image[at::IERA] = 0x21;
    image[at::IPRA] = 0x21;
    image[at::IMRA] = 0x21;
    image[at::ISRA] = 0x01;
    r.load(&image);
    r.says("ack", "V 4D 0 0000 0 0 0 0");
    r.byte(at::ISRA, 0x21);
    r.byte(at::IPRA, 0x01);
    r.says("write ISRA DF", "D -- 0 0000 0 0 0 0");
    r.changes_nothing("ack", "P -- 0 0000 0 0 0 0");
    r.says("write ISRA FE", "D -- 1 0000 0 0 0 0");
    r.says("ack", "V 48 0 0000 0 0 0 0");
}

fn p11(r: &mut Rig) {
    r.play("line 5 1; write IERB 80");
    r.reads("IPRB", 0x00);
    r.play("write AER 20");
    r.reads("IPRB", 0x80);
}

fn p12(r: &mut Rig) {
    r.play("write AER 10; write IERB 40; write TACR 09; input TAI 1");
    r.reads("IPRB", 0x00);
    r.play("input TAI 0");
    r.reads("IPRB", 0x40);
    r.play("write IPRB 00; input TAI 1");
    r.reads("IPRB", 0x00);
}

fn data_while_running(r: &mut Rig) {
    r.play("write TCDR 03; write TCDCR 10; write TCDR 09");
    r.reads("TCDR", 3);
    r.byte(at::DATA + 2, 9);
    r.says("clocks 12", "D -- 0 0010 0 0 1 0");
    r.reads("TCDR", 9);
}

fn counter_read(r: &mut Rig) {
    r.play("write TCDR 03; write TCDCR 10; clocks 4");
    r.reads("TCDR", 2);
}

fn slip_ipr(r: &mut Rig) {
    r.play("write IERA FF; write IERB FF; raise 12; write IPRA FF; write IPRB FF");
    r.reads("IPRA", 0x10);
    r.reads("IPRB", 0x00);
    r.play("write IPRB 00");
    r.reads("IPRA", 0x10);
    r.play("write IPRA EF");
    r.reads("IPRA", 0x00);
}

fn slip_line(r: &mut Rig) {
    r.play("write IERA FF; write IERB FF; line 5 1; line 5 0");
    r.reads("IPRB", 0x80);
    r.reads("IPRA", 0x00);
}

fn slip_counter(r: &mut Rig) {
    r.play("write TADR 00; write TACR 01");
    r.says("clocks 4", "D -- 0 0000 0 0 0 0");
    r.reads("TADR", 0xFF);
}

fn slip_position(r: &mut Rig) {
    r.play("write TADR 05; write TACR 01; clocks 3; write TACR 11; clocks 1");
    r.reads("TADR", 4);
    r.byte(at::POSITION, 0);
}

fn slip_mask(r: &mut Rig) {
    r.play("write IERA 10; write IMRA 10; raise 12; write IMRA 00");
    r.reads("IPRA", 0x10);
    r.says("write IMRA 10", "D -- 1 0000 0 0 0 0");
}

/// What makes each channel pending, from 0 to 15.
const CAUSES: [&str; 16] = [
    "line 0 1; line 0 0",
    "line 1 1; line 1 0",
    "line 2 1; line 2 0",
    "line 3 1; line 3 0",
    "write TDDR 01; write TCDCR 01; clocks 4",
    "write TCDR 01; write TCDCR 10; clocks 4",
    "line 4 1; line 4 0",
    "line 5 1; line 5 0",
    "write TBDR 01; write TBCR 01; clocks 4",
    "raise 9",
    "raise 10",
    "raise 11",
    "raise 12",
    "write TADR 01; write TACR 01; clocks 4",
    "line 6 1; line 6 0",
    "line 7 1; line 7 0",
];

fn channels(r: &mut Rig) {
    for (channel, cause) in CAUSES.iter().enumerate() {
        let bit = 1u16 << channel;
        r.fresh();
        r.play("write VR 70; write IERA FF; write IERB FF");
        r.play(cause);
        r.reads("IPRA", (bit >> 8) as u8);
        r.reads("IPRB", bit as u8);
        r.play("write IMRA FF; write IMRB FF; ack");
        r.reads("IPRA", 0);
        r.reads("IPRB", 0);
    }
}

fn divisors(r: &mut Rig) {
    let timers = [
        ("TADR", "TACR", 1),
        ("TBDR", "TBCR", 1),
        ("TCDR", "TCDCR", 16),
        ("TDDR", "TCDCR", 1),
    ];
    for (timer, (data, control, shift)) in timers.into_iter().enumerate() {
        for (i, divisor) in [4u8, 10, 16, 50, 64, 100, 200].into_iter().enumerate() {
            let mode = (i + 1) * shift;
            r.fresh();
            r.play(&format!("write {data} 07; write {control} {mode:02X}"));
            r.play(&format!("clocks {}", divisor - 1));
            r.reads(data, 7);
            r.byte(at::POSITION + timer, divisor - 1);
            r.play("clocks 1");
            r.reads(data, 6);
            r.byte(at::POSITION + timer, 0);
        }
    }
}

fn registers(r: &mut Rig) {
    for value in [0x00u8, 0x5A, 0xA5, 0xFF] {
        for name in ["AER", "DDR", "IERA", "IERB", "IMRA", "IMRB"] {
            r.play(&format!("write {name} {value:02X}"));
            r.reads(name, value);
        }
        for name in ["TADR", "TBDR", "TCDR", "TDDR"] {
            r.play(&format!("write {name} {value:02X}"));
            r.reads(name, value);
        }
    }
    r.play("write GPDR 3C");
    r.byte(at::GPDR, 0x3C);
}

fn gpdr(r: &mut Rig) {
    r.play("line 0 1; line 2 1; line 4 1; line 6 1; write GPDR CC");
    r.reads("GPDR", 0x55);
    r.play("write DDR F0");
    r.reads("GPDR", 0xC5);
    r.play("write DDR FF");
    r.reads("GPDR", 0xCC);
    r.play("write DDR 0F");
    r.reads("GPDR", 0x5C);
}

fn vr(r: &mut Rig) {
    r.play("write VR 48; write IERA 1E; write IMRA 1E; raise 9; ack; raise 12; ack");
    r.reads("ISRA", 0x12);
    r.play("write VR F8");
    r.reads("ISRA", 0x12);
    r.play("write VR F0");
    r.reads("ISRA", 0x00);
    r.reads("VR", 0xF0);
    r.play("write VR F8");
    r.reads("ISRA", 0x00);
}

fn disabled(r: &mut Rig) {
    r.play("write IMRA FF; write IERA EF");
    r.changes_nothing("raise 12", "D -- 0 0000 0 0 0 0");
    r.play("write IERA 10");
    r.reads("IPRA", 0x00);
    r.says("raise 12", "D -- 1 0000 0 0 0 0");
}

fn no_service(r: &mut Rig) {
    r.play("write VR 40; write IERA 12; write IMRA 12; raise 9; raise 12");
    r.says("ack", "V 4C 1 0000 0 0 0 0");
    r.says("ack", "V 49 0 0000 0 0 0 0");
    r.reads("ISRA", 0x00);
}

fn line_in_event_count(r: &mut Rig) {
    r.play("write IERB 48; write TACR 08; write TBCR 08; line 4 1; line 4 0");
    r.reads("IPRB", 0x40);
    r.play("line 3 1; line 3 0");
    r.reads("IPRB", 0x48);
}

/// The end of a pulse raises channel 6 whatever the direction of line 4 is.
fn width_and_output(r: &mut Rig) {
    r.play("write DDR 10; write IERB 40; write TACR 0F; input TAI 1");
    r.reads("IPRB", 0x40);
}

/// The sample tape in one call, against the ten lines of the paper.
pub fn sample(lender: &mut Lender) -> Result<u64, String> {
    let source = include_str!("../../../examples/sample.txt");
    let tape = text::encode(source)?;
    let outcome = lender.compare(&Call::new(&Device::fresh().save(), &tape))?;
    let lines = replay::lines(&outcome.answers);
    if lines == SAMPLE_LINES {
        Ok(1)
    } else {
        Err(format!("expected\n{SAMPLE_LINES}found\n{lines}"))
    }
}

const SAMPLE_LINES: &str = "0 D -- 0 0000 0 0 0 0
1 D -- 0 0000 0 0 0 0
2 D -- 0 0000 0 0 0 0
3 D -- 0 0000 0 0 0 0
4 D -- 0 0000 0 0 0 0
5 D -- 1 0010 0 0 1 0
6 V 45 0 0010 0 0 0 0
7 D -- 0 0010 0 0 2 0
8 D -- 1 0010 0 0 0 0
9 R 20 1 0010 0 0 0 0
";
