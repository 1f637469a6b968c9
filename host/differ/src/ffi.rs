//! The C calls, as include/mfp.h and bench/plain.h declare them, behind safe
//! functions: slices are valid for their lengths and never overlap.

use mfp_host::reference::layout::RECORD_BYTES;

extern "C" {
    fn mfp_run(
        image: *mut u8,
        image_len: usize,
        tape: *const u8,
        tape_len: usize,
        answers: *mut u8,
        answers_len: usize,
    ) -> u32;
    fn mfp_fresh(image: *mut u8, image_len: usize) -> u32;
    fn mfp_row_acknowledge(images: *mut u8, images_len: usize) -> u64;
    fn plain_run(image: *mut u8, tape: *const u8, records: usize, answers: *mut u8);
}

/// The library's run.
pub fn run(image: &mut [u8], tape: &[u8], answers: &mut [u8]) -> u32 {
    // SAFETY: three slices, each valid for its length, none overlapping.
    unsafe {
        mfp_run(
            image.as_mut_ptr(),
            image.len(),
            tape.as_ptr(),
            tape.len(),
            answers.as_mut_ptr(),
            answers.len(),
        )
    }
}

/// The library's fresh image.
pub fn fresh(image: &mut [u8]) -> u32 {
    // SAFETY: the slice is valid for its length.
    unsafe { mfp_fresh(image.as_mut_ptr(), image.len()) }
}

/// The library's acknowledge over a row.
pub fn row_acknowledge(images: &mut [u8]) -> u64 {
    // SAFETY: the slice is valid for its length.
    unsafe { mfp_row_acknowledge(images.as_mut_ptr(), images.len()) }
}

/// The plain C's run, for calls that are known to be accepted.
pub fn plain(image: &mut [u8], tape: &[u8], answers: &mut [u8]) {
    // SAFETY: as above; the caller has seen the call accepted, so that the
    // image and the records are in range and the answers have room.
    unsafe {
        plain_run(
            image.as_mut_ptr(),
            tape.as_ptr(),
            tape.len() / RECORD_BYTES,
            answers.as_mut_ptr(),
        )
    }
}
