//! Memory that tells when a byte outside a lent buffer is touched. Pages with
//! no access lie on both sides; a buffer stands against one of them, and the
//! rest of its own pages holds random bytes that must stay.

use mfp_host::rng::Rng;
use std::ffi::{c_int, c_long, c_void};
use std::ops::Range;
use std::sync::Mutex;

extern "C" {
    fn mmap(
        at: *mut c_void,
        len: usize,
        prot: c_int,
        flags: c_int,
        fd: c_int,
        offset: i64,
    ) -> *mut c_void;
    fn mprotect(at: *mut c_void, len: usize, prot: c_int) -> c_int;
    fn sysconf(name: c_int) -> c_long;
    fn signal(number: c_int, handler: extern "C" fn(c_int)) -> usize;
    fn _exit(status: c_int) -> !;
}

const PROT_NONE: c_int = 0;
const PROT_READ_WRITE: c_int = 1 | 2;
const MAP_PRIVATE_ANONYMOUS: c_int = 0x02 | 0x20;
const SC_PAGESIZE: c_int = 30;
const SIGBUS: c_int = 7;
const SIGSEGV: c_int = 11;
/// The exit status after a byte outside was touched.
pub const FAULT_STATUS: i32 = 3;

/// Room for every buffer of the tests: an answer buffer of a whole tape, and more.
const ROOM: usize = 4 * 4096;

/// Which of the two pages without access a buffer stands against.
#[derive(Clone, Copy)]
pub enum Side {
    /// The buffer begins right behind the lower one.
    Left,
    /// The buffer ends right before the upper one.
    Right,
}

/// One stretch of such memory, kept for the life of the program.
pub struct Guarded {
    bytes: &'static mut [u8],
    kept: Vec<u8>,
    lent: Range<usize>,
}

impl Guarded {
    /// A new stretch, its pages filled with random bytes.
    pub fn new(rng: &mut Rng) -> Guarded {
        let bytes = map();
        bytes.fill_with(|| rng.byte());
        let kept = bytes.to_vec();
        Guarded {
            bytes,
            kept,
            lent: 0..0,
        }
    }

    /// A buffer with these contents against that side.
    pub fn lend(&mut self, contents: &[u8], side: Side) -> &mut [u8] {
        let length = contents.len();
        self.lent = match side {
            Side::Left => 0..length,
            Side::Right => ROOM - length..ROOM,
        };
        let buffer = &mut self.bytes[self.lent.clone()];
        buffer.copy_from_slice(contents);
        buffer
    }

    /// What the buffer then holds, or none if a byte beside it has changed.
    pub fn take_back(&mut self) -> Option<Vec<u8>> {
        let contents = self.bytes[self.lent.clone()].to_vec();
        self.bytes[self.lent.clone()].copy_from_slice(&self.kept[self.lent.clone()]);
        if *self.bytes == *self.kept {
            return Some(contents);
        }
        self.bytes.copy_from_slice(&self.kept);
        None
    }
}

/// Pages to read and write between two that may not be touched.
fn map() -> &'static mut [u8] {
    // SAFETY: a fresh private mapping that nobody else knows and that is
    // never unmapped; the slice covers just the pages made accessible.
    unsafe {
        let page = sysconf(SC_PAGESIZE) as usize;
        assert!(
            page > 0 && ROOM / page * page == ROOM,
            "pages of {page} bytes"
        );
        let none = std::ptr::null_mut();
        let length = ROOM + 2 * page;
        let base = mmap(none, length, PROT_NONE, MAP_PRIVATE_ANONYMOUS, -1, 0);
        assert!(base as isize != -1, "mmap failed");
        let inner = base.cast::<u8>().add(page);
        let opened = mprotect(inner.cast(), ROOM, PROT_READ_WRITE);
        assert!(opened == 0, "mprotect failed");
        std::slice::from_raw_parts_mut(inner, ROOM)
    }
}

/// What is being run, for the message of a fault.
static RUNNING: Mutex<String> = Mutex::new(String::new());

/// Say what is being run from now on.
pub fn now_running(name: &str) {
    *RUNNING.lock().expect("no panic while it is held") = name.to_string();
}

/// From now on a touched page without access ends the program with a message.
pub fn report_faults() {
    // SAFETY: the handler only reports and ends the program.
    unsafe {
        signal(SIGSEGV, fault);
        signal(SIGBUS, fault);
    }
}

/// The fault comes from within a library call, never from within the printing
/// or the lock, so both may be used here.
extern "C" fn fault(_: c_int) {
    let name = RUNNING
        .try_lock()
        .map_or(String::new(), |name| name.clone());
    println!("a byte outside a lent buffer was touched in: {name}");
    println!("0 passed, 1 failed");
    // SAFETY: ends the process at once.
    unsafe { _exit(FAULT_STATUS) }
}

/// Touch the byte just outside a buffer of that length, which must not return.
pub fn touch_outside(side: Side, length: usize) {
    let mut guarded = Guarded::new(&mut Rng::new(0));
    let buffer = guarded.lend(&vec![0; length], side).as_ptr_range();
    let outside = match side {
        Side::Left => buffer.start.wrapping_sub(1),
        Side::Right => buffer.end,
    };
    // SAFETY: it is the point of this function that this read faults.
    let byte = unsafe { std::ptr::read_volatile(outside) };
    println!("read {byte} outside a lent buffer");
}
