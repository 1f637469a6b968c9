//! The chain of the second implementation against the sentences of request 1.
#![deny(warnings)]

use mfp_host::reference::layout::{IMAGE_BYTES, IMAGE_MARK, ROW_MAX};
use mfp_host::reference::{row, Device, Event};
use mfp_host::rng::Rng;

/// Few channels pending and fewer in service, so that about half the devices request.
fn any_device(rng: &mut Rng) -> Device {
    let mut device = Device::fresh();
    device.enabled = [true; 16];
    device.pending = std::array::from_fn(|_| rng.chance(1, 12));
    device.unmasked = std::array::from_fn(|_| rng.chance(3, 4));
    device.s = rng.chance(1, 2);
    device.in_service = std::array::from_fn(|_| device.s && rng.chance(1, 12));
    device.vector_base = rng.below(16) as u8;
    device
}

fn images_of(devices: &[Device]) -> Vec<u8> {
    devices.iter().flat_map(Device::save).collect()
}

/// "The first device that requests gives its vector and changes as in document 01; those above it pass
/// on and those below are held, all unchanged. Where none requests, all pass on unchanged."
#[test]
fn the_first_that_requests_gives() {
    let mut rng = Rng::new(1);
    let mut givers = [0; ROW_MAX + 1];
    for _ in 0..20_000 {
        let length = 1 + rng.below(ROW_MAX as u64) as usize;
        let mut devices: Vec<Device> = (0..length).map(|_| any_device(&mut rng)).collect();
        let mut images = images_of(&devices);
        let result = row::acknowledge(&mut images);
        let requests = |device: &Device| device.requesting().is_some();
        let passed = devices.iter().position(requests).unwrap_or(length);
        let vector = match devices.get_mut(passed) {
            Some(giver) => giver.step(Event::Acknowledge(true)).value,
            None => 0,
        };
        assert_eq!(result, (256 * passed as u64 + u64::from(vector)) << 32);
        assert_eq!(images, images_of(&devices), "{devices:?}");
        givers[passed] += 1;
    }
    assert!(givers.iter().all(|&count| count > 0), "{givers:?}");
}

#[test]
fn lengths_come_first() {
    for length in 0..=10 * IMAGE_BYTES {
        let mut images = vec![0; length];
        let code = match length {
            0 | 257.. => 10,
            _ if length % 32 != 0 => 1,
            _ => 2,
        };
        assert_eq!(row::acknowledge(&mut images), code, "{length} bytes");
        assert_eq!(images, vec![0; length]);
    }
}

/// The first broken image counts, by 2 before 3, with its index, and all stay as they came.
#[test]
fn the_first_broken_image_counts() {
    let mut rng = Rng::new(2);
    let last_byte = IMAGE_BYTES - 1;
    for _ in 0..5_000 {
        let mut images: Vec<u8> = images_of(&vec![any_device(&mut rng); ROW_MAX]);
        let mut expected = None;
        for (index, image) in images.chunks_exact_mut(IMAGE_BYTES).enumerate() {
            let fault = rng.pick(&[0, 0, 2, 3, 23]);
            if fault == 2 || fault == 23 {
                image[..2].copy_from_slice(&[IMAGE_MARK[1], IMAGE_MARK[0]]);
            }
            if fault == 3 || fault == 23 {
                image[last_byte] = 4;
            }
            if fault != 0 && expected.is_none() {
                expected = Some(256 * index as u64 + if fault == 3 { 3 } else { 2 });
            }
        }
        let before = images.clone();
        let result = row::acknowledge(&mut images);
        if let Some(code) = expected {
            assert_eq!((result, images), (code, before));
        }
    }
}
