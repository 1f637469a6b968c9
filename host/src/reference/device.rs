//! The device: eight lines, sixteen channels, four timers, two inputs; and
//! what each event does to them, in the order of the paper.

use super::layout::REGISTERS;
use super::timer::{Timer, EVENT_COUNT};

/// Lines, and edge and direction bits, by line number.
pub type Lines = [bool; 8];
/// One bit a channel, by channel number.
pub type Channels = [bool; 16];

/// "Channels 15 down to 0: I7, I6, timer A, .., timer B, I5, I4, timer C,
/// timer D, I3, I2, I1, I0": the channel of each line.
const LINE_CHANNEL: [usize; 8] = [0, 1, 2, 3, 6, 7, 14, 15];
/// The channel of each timer, A to D.
const TIMER_CHANNEL: [usize; 4] = [13, 8, 5, 4];
/// The line whose edge bit and channel TAI and TBI share.
const INPUT_LINE: [usize; 2] = [4, 3];
/// Up to here a span is walked clock by clock, beyond in closed form.
const WALKED_CLOCKS: u32 = 5000;

/// The device as it stands between two events.
#[derive(Clone, Debug, Default, PartialEq, Eq)]
pub struct Device {
    /// The stored bits of GPDR.
    pub stored: Lines,
    /// AER.
    pub edge: Lines,
    /// DDR; true is an output.
    pub output: Lines,
    /// The outside levels, kept for all lines.
    pub level: Lines,
    /// The levels of TAI and TBI.
    pub input: [bool; 2],
    /// IERA and IERB.
    pub enabled: Channels,
    /// IPRA and IPRB.
    pub pending: Channels,
    /// ISRA and ISRB.
    pub in_service: Channels,
    /// IMRA and IMRB.
    pub unmasked: Channels,
    /// VR bits 7 to 4.
    pub vector_base: u8,
    /// VR bit 3.
    pub s: bool,
    /// Timers A to D.
    pub timers: [Timer; 4],
}

/// What can happen to a device.
#[derive(Clone, Copy, Debug, PartialEq, Eq)]
pub enum Event {
    /// The reset line.
    Reset,
    /// A read of the register with this select.
    Read(u8),
    /// A write of a value to the register with this select.
    Write(u8, u8),
    /// A line to a level.
    Line(u8, bool),
    /// TAI (0) or TBI (1) to a level.
    Input(u8, bool),
    /// That many clocks of the timers.
    Clocks(u32),
    /// An acknowledge; true if IEI is asserted.
    Acknowledge(bool),
    /// A raise of a serial channel.
    Raise(u8),
}

/// The class of an answer, by the numbers of the paper.
#[derive(Clone, Copy, Debug, PartialEq, Eq)]
pub enum Class {
    /// The event is done and has no value.
    Done = 0,
    /// The value read.
    Data = 1,
    /// The vector given.
    Vector = 2,
    /// No request: IEO is asserted.
    PassedOn = 3,
    /// IEI was not asserted.
    Held = 4,
}

/// What an event answers.
#[derive(Clone, Copy, Debug, PartialEq, Eq)]
pub struct Answer {
    /// What kind of answer it is.
    pub class: Class,
    /// The value, 0 if none.
    pub value: u8,
    /// IRQ after the event.
    pub irq: bool,
    /// The outputs A to D after the event.
    pub outputs: [bool; 4],
    /// The timeouts of A to D that the event made.
    pub timeouts: [u32; 4],
}

/// A byte as eight bools, bit 0 first.
pub fn bits(byte: u8) -> [bool; 8] {
    std::array::from_fn(|i| byte >> i & 1 == 1)
}

/// Up to eight bools, bit 0 first, as a byte.
pub fn byte(bits: &[bool]) -> u8 {
    bits.iter().rev().fold(0, |sum, &b| 2 * sum + u8::from(b))
}

/// Register A of a set of channels: 15 to 8 in bits 7 to 0.
pub fn half_a(set: &mut Channels) -> &mut [bool] {
    &mut set[8..]
}

/// Register B of a set of channels: 7 to 0.
pub fn half_b(set: &mut Channels) -> &mut [bool] {
    &mut set[..8]
}

/// The name of a register by its select.
fn name(rs: u8) -> &'static str {
    REGISTERS[rs as usize]
}

impl Device {
    /// "A fresh device is all zero."
    pub fn fresh() -> Device {
        Device::default()
    }

    /// One event: the device changes, the answer says how it then is.
    pub fn step(&mut self, event: Event) -> Answer {
        let mut timeouts = [0; 4];
        let (class, value) = match event {
            Event::Read(rs) => (Class::Data, self.read(rs)),
            Event::Acknowledge(iei) => self.acknowledge(iei),
            other => {
                self.change(other, &mut timeouts);
                (Class::Done, 0)
            }
        };
        Answer {
            class,
            value,
            irq: self.requesting().is_some(),
            outputs: self.timers.map(|timer| timer.output),
            timeouts,
        }
    }

    /// The events that are simply done.
    fn change(&mut self, event: Event, timeouts: &mut [u32; 4]) {
        match event {
            Event::Reset => self.reset(),
            Event::Write(rs, value) => self.write(rs, value, timeouts),
            Event::Line(line, level) => {
                self.signals(timeouts, |d| d.level[line as usize] = level);
            }
            Event::Input(input, level) => {
                self.signals(timeouts, |d| d.input[input as usize] = level);
            }
            Event::Clocks(n) => self.clocks(n, timeouts),
            Event::Raise(channel) => self.raise(channel as usize),
            Event::Read(_) | Event::Acknowledge(_) => unreachable!("they have values"),
        }
    }

    /// "Reset clears GPDR, AER, DDR, IER, IPR, ISR, IMR, VR, modes, positions
    /// and outputs; data values, counters and levels stay."
    fn reset(&mut self) {
        let mut timers = self.timers;
        timers.iter_mut().for_each(Timer::reset);
        *self = Device {
            timers,
            level: self.level,
            input: self.input,
            ..Device::fresh()
        };
    }

    /// "No read changes anything."
    fn read(&self, rs: u8) -> u8 {
        match name(rs) {
            "GPDR" => self.read_lines(),
            "AER" => byte(&self.edge),
            "DDR" => byte(&self.output),
            "IERA" => byte(&self.enabled[8..]),
            "IERB" => byte(&self.enabled[..8]),
            "IPRA" => byte(&self.pending[8..]),
            "IPRB" => byte(&self.pending[..8]),
            "ISRA" => byte(&self.in_service[8..]),
            "ISRB" => byte(&self.in_service[..8]),
            "IMRA" => byte(&self.unmasked[8..]),
            "IMRB" => byte(&self.unmasked[..8]),
            "VR" => self.vr(),
            "TACR" => self.timers[0].mode,
            "TBCR" => self.timers[1].mode,
            "TCDCR" => self.tcdcr(),
            "TADR" => self.timers[0].counter,
            "TBDR" => self.timers[1].counter,
            "TCDR" => self.timers[2].counter,
            "TDDR" => self.timers[3].counter,
            serial => unreachable!("{serial} is refused before"),
        }
    }

    /// "Stored bits where DDR is 1 and outside levels where it is 0."
    fn read_lines(&self) -> u8 {
        let seen: Lines = std::array::from_fn(|i| {
            if self.output[i] {
                self.stored[i]
            } else {
                self.level[i]
            }
        });
        byte(&seen)
    }

    /// VR with its bits 2 to 0 reading 0.
    pub fn vr(&self) -> u8 {
        self.vector_base * 16 + if self.s { 8 } else { 0 }
    }

    /// C's mode in bits 6 to 4, D's in 2 to 0.
    pub fn tcdcr(&self) -> u8 {
        self.timers[2].mode * 16 + self.timers[3].mode
    }

    /// A write; an AER write may make a timeout in event count mode.
    fn write(&mut self, rs: u8, value: u8, timeouts: &mut [u32; 4]) {
        match name(rs) {
            "GPDR" => self.stored = bits(value),
            "AER" => self.signals(timeouts, |d| d.edge = bits(value)),
            "DDR" => self.output = bits(value),
            "IERA" => self.enable(8, value),
            "IERB" => self.enable(0, value),
            "IPRA" => clear_zeros(half_a(&mut self.pending), value),
            "IPRB" => clear_zeros(half_b(&mut self.pending), value),
            "ISRA" => clear_zeros(half_a(&mut self.in_service), value),
            "ISRB" => clear_zeros(half_b(&mut self.in_service), value),
            "IMRA" => half_a(&mut self.unmasked).copy_from_slice(&bits(value)),
            "IMRB" => half_b(&mut self.unmasked).copy_from_slice(&bits(value)),
            "VR" => self.write_vr(value),
            "TACR" => self.write_control(0, value),
            "TBCR" => self.write_control(1, value),
            "TCDCR" => {
                self.timers[2].control(value / 16 % 8);
                self.timers[3].control(value % 8);
            }
            "TADR" => self.timers[0].load(value),
            "TBDR" => self.timers[1].load(value),
            "TCDR" => self.timers[2].load(value),
            "TDDR" => self.timers[3].load(value),
            serial => unreachable!("{serial} is refused before"),
        }
    }

    /// IER: "a write stores and clears the pending bits where it wrote 0;
    /// in-service bits stay." `first` is the lowest channel of the register.
    fn enable(&mut self, first: usize, value: u8) {
        for (i, bit) in bits(value).into_iter().enumerate() {
            self.enabled[first + i] = bit;
            if !bit {
                self.pending[first + i] = false;
            }
        }
    }

    /// "Bits 7 to 3 are stored; writing S as 0 clears ISRA and ISRB."
    fn write_vr(&mut self, value: u8) {
        self.vector_base = value / 16;
        self.s = bits(value)[3];
        if !self.s {
            self.in_service = [false; 16];
        }
    }

    /// "Bits 3 to 0 are the mode; bit 4 written 1 forces the timer's output low."
    fn write_control(&mut self, timer: usize, value: u8) {
        self.timers[timer].control(value % 16);
        if bits(value)[4] {
            self.timers[timer].output = false;
        }
    }

    /// "A raise on an enabled channel sets its pending bit; on a disabled one
    /// it does nothing."
    fn raise(&mut self, channel: usize) {
        if self.enabled[channel] {
            self.pending[channel] = true;
        }
    }

    /// "A channel requests if it is pending, its mask bit is 1 and no channel
    /// equal to or above it is in service."
    fn requests(&self, channel: usize) -> bool {
        self.pending[channel]
            && self.unmasked[channel]
            && !self.in_service[channel..].contains(&true)
    }

    /// The highest requesting channel; IRQ is asserted exactly if there is one.
    pub fn requesting(&self) -> Option<usize> {
        (0..16).rev().find(|&channel| self.requests(channel))
    }

    /// An acknowledge; without a vector nothing changes.
    fn acknowledge(&mut self, iei: bool) -> (Class, u8) {
        if !iei {
            return (Class::Held, 0);
        }
        let Some(channel) = self.requesting() else {
            return (Class::PassedOn, 0);
        };
        self.pending[channel] = false;
        self.in_service[channel] = self.s;
        (Class::Vector, self.vector_base * 16 + channel as u8)
    }

    /// "A signal is active if its level equals its edge bit."
    fn active_lines(&self) -> Lines {
        std::array::from_fn(|line| self.level[line] == self.edge[line])
    }

    /// The same for TAI and TBI, by AER bits 4 and 3.
    fn active_inputs(&self) -> [bool; 2] {
        std::array::from_fn(|i| self.input[i] == self.edge[INPUT_LINE[i]])
    }

    /// A change of a level or of AER, and what follows from the signals that
    /// became active or ceased to be.
    fn signals(&mut self, timeouts: &mut [u32; 4], change: impl FnOnce(&mut Device)) {
        let (lines, inputs) = (self.active_lines(), self.active_inputs());
        change(self);
        let (lines_now, inputs_now) = (self.active_lines(), self.active_inputs());
        for line in 0..8 {
            if !lines[line] && lines_now[line] {
                self.line_active(line);
            }
        }
        for input in 0..2 {
            match (inputs[input], inputs_now[input]) {
                (false, true) => self.input_active(input, timeouts),
                (true, false) => self.input_ceased(input),
                _ => {}
            }
        }
    }

    /// An input line raises its channel; an output line never, nor line 4 or
    /// 3 while its timer is in a pulse-width mode.
    fn line_active(&mut self, line: usize) {
        let muted = (0..2).any(|i| INPUT_LINE[i] == line && self.timers[i].measures_width());
        if !self.output[line] && !muted {
            self.raise(LINE_CHANNEL[line]);
        }
    }

    /// "In event count mode each time TAI or TBI becomes active gives one
    /// count pulse."
    fn input_active(&mut self, input: usize, timeouts: &mut [u32; 4]) {
        if self.timers[input].mode == EVENT_COUNT && self.timers[input].pulse() {
            timeouts[input] += 1;
            self.raise(TIMER_CHANNEL[input]);
        }
    }

    /// "In timer A's pulse-width modes channel 6 is raised by TAI ceasing to
    /// be active; for B likewise channel 3 and TBI."
    fn input_ceased(&mut self, input: usize) {
        if self.timers[input].measures_width() {
            self.raise(LINE_CHANNEL[INPUT_LINE[input]]);
        }
    }

    /// `n` clocks: short spans are walked, long ones go by the closed form.
    fn clocks(&mut self, n: u32, timeouts: &mut [u32; 4]) {
        if n > WALKED_CLOCKS {
            return self.span(n, timeouts);
        }
        for _ in 0..n {
            self.clock(timeouts);
        }
    }

    /// Whether clocks may run a timer that waits for an input: C and D have none.
    fn gates(&self) -> [bool; 4] {
        let [tai, tbi] = self.active_inputs();
        [tai, tbi, false, false]
    }

    /// One clock of the device: one clock of each timer.
    pub fn clock(&mut self, timeouts: &mut [u32; 4]) {
        let gates = self.gates();
        for t in 0..4 {
            if self.timers[t].clock(gates[t]) {
                timeouts[t] += 1;
                self.raise(TIMER_CHANNEL[t]);
            }
        }
    }

    /// Many clocks at once: no level changes within a span, so the timers go
    /// each its own way, and a channel is raised if its timer timed out.
    pub fn span(&mut self, n: u32, timeouts: &mut [u32; 4]) {
        let gates = self.gates();
        for t in 0..4 {
            timeouts[t] = self.timers[t].span(n, gates[t]);
            if timeouts[t] > 0 {
                self.raise(TIMER_CHANNEL[t]);
            }
        }
    }
}

/// IPR and ISR: "a bit written 0 is cleared, a bit written 1 stays as it was."
fn clear_zeros(half: &mut [bool], value: u8) {
    for (bit, written) in half.iter_mut().zip(bits(value)) {
        *bit = *bit && written;
    }
}
