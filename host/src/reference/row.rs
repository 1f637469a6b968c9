//! The row of request 1: devices chained by IEI and IEO, lent together as
//! images one after another, the highest priority first.

use super::code;
use super::device::{Class, Device, Event};
use super::layout::{Refusal, IMAGE_BYTES, ROW_MAX};

/// The call the C face offers, with the very same meaning: the code in the
/// low 32 bits; in the high 32, of an accepted row, 256 × the devices that
/// passed on + the vector.
pub fn acknowledge(images: &mut [u8]) -> u64 {
    match checked(images) {
        Err((index, refusal)) => code(index, refusal).into(),
        Ok(mut devices) => {
            let told = chained(&mut devices);
            for (device, image) in devices.iter().zip(images.chunks_exact_mut(IMAGE_BYTES)) {
                image.copy_from_slice(&device.save());
            }
            told << 32
        }
    }
}

/// "10 for a row of none or more than eight, checked first"; then 1 for half
/// an image; then 2 and 3 for the first image that is broken, with its index.
fn checked(images: &[u8]) -> Result<Vec<Device>, (usize, Refusal)> {
    if images.is_empty() || images.len() > ROW_MAX * IMAGE_BYTES {
        return Err((0, Refusal::RowLength));
    }
    let row = images.chunks_exact(IMAGE_BYTES);
    if !row.remainder().is_empty() {
        return Err((0, Refusal::ImageLength));
    }
    row.enumerate()
        .map(|(index, image)| Device::load(image).map_err(|refusal| (index, refusal)))
        .collect()
}

/// "The first with IEI asserted": each device is acknowledged, and the IEO of
/// one that passes on is the IEI of the next. What the row tells of it.
fn chained(devices: &mut [Device]) -> u64 {
    let (mut iei, mut passed, mut vector) = (true, 0, 0);
    for device in devices {
        let answer = device.step(Event::Acknowledge(iei));
        iei = answer.class == Class::PassedOn;
        passed += u64::from(iei);
        // No other class has a value.
        vector += u64::from(answer.value);
    }
    256 * passed + vector
}
