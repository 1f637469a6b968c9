//! The second implementation of the rules: written from the papers, with
//! channels and lines as rows of bools. It takes no code from the proved
//! library; its tables are its own copies of the papers'. Short spans go one
//! clock at a time, long ones by a closed form of its own. It is in no hurry.

pub mod device;
pub mod image;
pub mod layout;
pub mod row;
pub mod tape;
pub mod timer;

pub use device::{Answer, Class, Device, Event};
pub use layout::Refusal;

/// The call the C face offers, with the very same meaning: 0, or 256 × index
/// of the bad record + the number of the refusal.
pub fn run(image: &mut [u8], tape: &[u8], answers: &mut [u8]) -> u32 {
    match checked(image, tape, answers.len()) {
        Err((index, refusal)) => code(index, refusal),
        Ok((device, events)) => {
            play(device, &events, image, answers);
            0
        }
    }
}

/// The image of a fresh device, or refusal 1 where the length is wrong.
pub fn fresh(image: &mut [u8]) -> u32 {
    if image.len() != layout::IMAGE_BYTES {
        return code(0, Refusal::ImageLength);
    }
    image.copy_from_slice(&Device::fresh().save());
    0
}

/// The number a refusal is returned as; the index is that of the bad record,
/// in a row of the bad image.
pub fn code(index: usize, refusal: Refusal) -> u32 {
    256 * index as u32 + refusal as u32
}

/// "Checks run 1 to 4, then 5 to 8 for each record in tape order, then 9."
fn checked(
    image: &[u8],
    tape: &[u8],
    room: usize,
) -> Result<(Device, Vec<Event>), (usize, Refusal)> {
    let device = Device::load(image).map_err(|refusal| (0, refusal))?;
    let events = tape::decode(tape)?;
    if room < layout::ANSWER_BYTES * events.len() {
        return Err((0, Refusal::AnswerLength));
    }
    Ok((device, events))
}

/// "Success writes the image and the first 22 × records answer bytes only."
fn play(mut device: Device, events: &[Event], image: &mut [u8], answers: &mut [u8]) {
    for (event, place) in events
        .iter()
        .zip(answers.chunks_exact_mut(layout::ANSWER_BYTES))
    {
        place.copy_from_slice(&tape::encode_answer(&device.step(*event)));
    }
    image.copy_from_slice(&device.save());
}
