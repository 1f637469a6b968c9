//! The image: 32 bytes of a device, the image rule, load and save.

use super::device::{bits, byte, half_a, half_b, Channels, Device};
use super::layout::{Refusal, IMAGE_BYTES, IMAGE_MARK};
use super::timer::Timer;

/// Where each field of the image stands.
pub mod at {
    #![allow(missing_docs)]
    pub const MARK: usize = 0;
    pub const GPDR: usize = 2;
    pub const AER: usize = 3;
    pub const DDR: usize = 4;
    pub const IERA: usize = 5;
    pub const IPRA: usize = 7;
    pub const ISRA: usize = 9;
    pub const IMRA: usize = 11;
    pub const VR: usize = 13;
    pub const MODE_A: usize = 14;
    pub const MODE_B: usize = 15;
    pub const TCDCR: usize = 16;
    pub const DATA: usize = 17;
    pub const COUNTER: usize = 21;
    pub const POSITION: usize = 25;
    pub const OUTPUTS: usize = 29;
    pub const LEVELS: usize = 30;
    pub const INPUTS: usize = 31;
}

impl Device {
    /// The device of an image, or refusal 1, 2 or 3.
    pub fn load(image: &[u8]) -> Result<Device, Refusal> {
        if image.len() != IMAGE_BYTES {
            return Err(Refusal::ImageLength);
        }
        if !image.starts_with(&IMAGE_MARK) {
            return Err(Refusal::ImageMark);
        }
        if !unused_bits_are_zero(image) {
            return Err(Refusal::ImageRule);
        }
        let device = fields(image);
        if device.keeps_rule() {
            Ok(device)
        } else {
            Err(Refusal::ImageRule)
        }
    }

    /// The image of the device.
    pub fn save(&self) -> [u8; IMAGE_BYTES] {
        let mut image = [0; IMAGE_BYTES];
        image[at::MARK..at::MARK + IMAGE_MARK.len()].copy_from_slice(&IMAGE_MARK);
        image[at::GPDR] = byte(&self.stored);
        image[at::AER] = byte(&self.edge);
        image[at::DDR] = byte(&self.output);
        put_channels(&mut image, at::IERA, &self.enabled);
        put_channels(&mut image, at::IPRA, &self.pending);
        put_channels(&mut image, at::ISRA, &self.in_service);
        put_channels(&mut image, at::IMRA, &self.unmasked);
        image[at::VR] = self.vr();
        image[at::MODE_A] = self.timers[0].mode;
        image[at::MODE_B] = self.timers[1].mode;
        image[at::TCDCR] = self.tcdcr();
        for (t, timer) in self.timers.iter().enumerate() {
            image[at::DATA + t] = timer.data;
            image[at::COUNTER + t] = timer.counter;
            image[at::POSITION + t] = timer.position;
        }
        image[at::OUTPUTS] = byte(&self.timers.map(|timer| timer.output));
        image[at::LEVELS] = byte(&self.level);
        image[at::INPUTS] = byte(&self.input);
        image
    }

    /// "Pending only where enabled; in-service all zero where S is 0; a
    /// position below its divisor, and 0 in modes 0 and 8."
    fn keeps_rule(&self) -> bool {
        let pending_enabled = (0..16).all(|c| self.enabled[c] || !self.pending[c]);
        let service_by_s = self.s || !self.in_service.contains(&true);
        pending_enabled && service_by_s && self.timers.iter().all(Timer::keeps_rule)
    }
}

/// "Modes A and B at most 15; unused bits of 13, 16, 29, 31 zero."
fn unused_bits_are_zero(image: &[u8]) -> bool {
    let unused = |at: usize, bit: std::ops::Range<usize>| bits(image[at])[bit].contains(&true);
    !(unused(at::MODE_A, 4..8)
        || unused(at::MODE_B, 4..8)
        || unused(at::VR, 0..3)
        || unused(at::TCDCR, 3..4)
        || unused(at::TCDCR, 7..8)
        || unused(at::OUTPUTS, 4..8)
        || unused(at::INPUTS, 2..8))
}

/// The fields of an image whose unused bits are zero.
fn fields(image: &[u8]) -> Device {
    let modes = [
        image[at::MODE_A],
        image[at::MODE_B],
        image[at::TCDCR] / 16,
        image[at::TCDCR] % 16,
    ];
    Device {
        stored: bits(image[at::GPDR]),
        edge: bits(image[at::AER]),
        output: bits(image[at::DDR]),
        level: bits(image[at::LEVELS]),
        input: [bits(image[at::INPUTS])[0], bits(image[at::INPUTS])[1]],
        enabled: get_channels(image, at::IERA),
        pending: get_channels(image, at::IPRA),
        in_service: get_channels(image, at::ISRA),
        unmasked: get_channels(image, at::IMRA),
        vector_base: image[at::VR] / 16,
        s: bits(image[at::VR])[3],
        timers: std::array::from_fn(|t| Timer {
            mode: modes[t],
            data: image[at::DATA + t],
            counter: image[at::COUNTER + t],
            position: image[at::POSITION + t],
            output: bits(image[at::OUTPUTS])[t],
        }),
    }
}

/// Registers A and B of a set of channels, A first.
fn get_channels(image: &[u8], at: usize) -> Channels {
    let mut set = [false; 16];
    half_a(&mut set).copy_from_slice(&bits(image[at]));
    half_b(&mut set).copy_from_slice(&bits(image[at + 1]));
    set
}

/// The same the other way.
fn put_channels(image: &mut [u8], at: usize, set: &Channels) {
    image[at] = byte(&set[8..]);
    image[at + 1] = byte(&set[..8]);
}
