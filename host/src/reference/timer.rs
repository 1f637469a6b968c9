//! One timer: the count pulse, the single clock, and a closed form for long
//! spans that a test holds against the single clocks.

/// A timer as it stands between two events.
#[derive(Clone, Copy, Debug, Default, PartialEq, Eq)]
pub struct Timer {
    /// 0 stopped, 1 to 7 delay, 8 event count, 9 to 15 pulse width.
    pub mode: u8,
    /// The data value, from which the counter is reloaded.
    pub data: u8,
    /// The main counter.
    pub counter: u8,
    /// How many clocks of the present count pulse have gone by.
    pub position: u8,
    /// The output; true is high.
    pub output: bool,
}

/// "Modes 0 to 7: stopped, then divisors 4, 10, 16, 50, 64, 100, 200."
const DIVISORS: [u8; 8] = [0, 4, 10, 16, 50, 64, 100, 200];

/// The mode in which each active edge of the input is a count pulse.
pub const EVENT_COUNT: u8 = 8;

impl Timer {
    /// Pulse width modes are 9 to 15.
    pub fn measures_width(&self) -> bool {
        self.mode > EVENT_COUNT
    }

    /// The divisor, or none in modes 0 and 8, which know no clocks.
    pub fn divisor(&self) -> Option<u8> {
        let divisor = DIVISORS[self.mode as usize % 8];
        (divisor != 0).then_some(divisor)
    }

    /// "A position below its divisor, and 0 in modes 0 and 8."
    pub fn keeps_rule(&self) -> bool {
        match self.divisor() {
            Some(divisor) => self.position < divisor,
            None => self.position == 0,
        }
    }

    /// One count pulse; true if it made a timeout.
    pub fn pulse(&mut self) -> bool {
        if self.counter == 1 {
            self.counter = self.data;
            self.output = !self.output;
            return true;
        }
        self.counter = if self.counter == 0 {
            255
        } else {
            self.counter - 1
        };
        false
    }

    /// One clock, with the timer's input active or not; true if it made a timeout.
    pub fn clock(&mut self, active: bool) -> bool {
        let Some(divisor) = self.running(active) else {
            return false;
        };
        self.position += 1;
        if self.position < divisor {
            return false;
        }
        self.position = 0;
        self.pulse()
    }

    /// The divisor by which clocks count now: in a delay mode, or in a pulse
    /// width mode whose input is active.
    fn running(&self, active: bool) -> Option<u8> {
        if self.measures_width() && !active {
            return None;
        }
        self.divisor()
    }

    /// `n` clocks at once; the number of timeouts. It reckons in clocks from
    /// timeout to timeout; what is left after the last is walked back into
    /// counter and position.
    pub fn span(&mut self, n: u32, active: bool) -> u32 {
        let Some(divisor) = self.running(active) else {
            return 0;
        };
        let divisor = u64::from(divisor);
        let gone = u64::from(self.position);
        let until_first = steps(self.counter) * divisor - gone;
        let clocks = u64::from(n);
        if clocks < until_first {
            self.settle(self.counter, gone + clocks, divisor);
            return 0;
        }
        let after_first = clocks - until_first;
        let period = steps(self.data) * divisor;
        let timeouts = 1 + after_first / period;
        self.settle(self.data, after_first % period, divisor);
        self.output ^= timeouts % 2 == 1;
        timeouts as u32
    }

    /// The timer `clocks` after its counter held `start` at position 0, no
    /// timeout having come between.
    fn settle(&mut self, start: u8, clocks: u64, divisor: u64) {
        self.counter = (steps(start) - clocks / divisor) as u8;
        self.position = (clocks % divisor) as u8;
    }

    /// "A control write that changes the mode sets the position to 0; the
    /// same mode again keeps it. The counter stays."
    pub fn control(&mut self, mode: u8) {
        if mode != self.mode {
            self.position = 0;
        }
        self.mode = mode;
    }

    /// "A write stores the data value, and the counter too if the mode is 0."
    pub fn load(&mut self, value: u8) {
        self.data = value;
        if self.mode == 0 {
            self.counter = value;
        }
    }

    /// Reset: modes, positions and outputs; data value and counter stay.
    pub fn reset(&mut self) {
        self.mode = 0;
        self.position = 0;
        self.output = false;
    }
}

/// Count pulses from a counter to its timeout: 0 goes to 255 and so takes 256.
fn steps(counter: u8) -> u64 {
    if counter == 0 {
        256
    } else {
        u64::from(counter)
    }
}
