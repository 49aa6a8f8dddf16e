//! Memory between inaccessible pages, so that a read or write beyond a lent slice ends the program (Linux).
use std::ptr;
use std::slice;
use std::sync::atomic::{AtomicU8, Ordering};

extern "C" {
    fn mmap(address: *mut u8, length: usize, protection: i32, flags: i32, file: i32, offset: i64) -> *mut u8;
    fn munmap(address: *mut u8, length: usize) -> i32;
    fn mprotect(address: *mut u8, length: usize, protection: i32) -> i32;
    fn signal(number: i32, handler: usize) -> usize;
    fn write(file: i32, bytes: *const u8, length: usize) -> isize;
    fn _exit(status: i32) -> !;
}

const NO_ACCESS: i32 = 0;
const READ_WRITE: i32 = 1 | 2;
const PRIVATE_ANONYMOUS: i32 = 0x02 | 0x20;
const SIGBUS: i32 = 7;
const SIGSEGV: i32 = 11;
const STANDARD_OUTPUT: i32 = 1;

/// A multiple of each usual page size.
const GUARD: usize = 65_536;

/// The most bytes that are placed in one region.
pub const ROOM: usize = 524_288;

const WHOLE: usize = GUARD + ROOM + GUARD;

/// Which end of its region a slice touches.
#[derive(Clone, Copy)]
pub enum Side {
    Start,
    End,
}

/// `ROOM` bytes with an inaccessible page before and behind them.
pub struct Region {
    start: *mut u8,
}

impl Region {
    pub fn new() -> Region {
        // SAFETY: a new mapping at a free address, of which the part between the two guards is opened.
        let start = unsafe {
            let whole = mmap(ptr::null_mut(), WHOLE, NO_ACCESS, PRIVATE_ANONYMOUS, -1, 0);
            assert!(whole as isize != -1, "no memory for a guarded region");
            let start = whole.add(GUARD);
            assert_eq!(mprotect(start, ROOM, READ_WRITE), 0, "the region is opened");
            start
        };
        Region { start }
    }

    /// A copy of at most `ROOM` bytes at one end of the region.
    pub fn place(&mut self, bytes: &[u8], side: Side) -> &mut [u8] {
        let at = self.at(bytes.len(), side);
        // SAFETY: `at` is the start of so many bytes of the region, which is borrowed while they are.
        let placed = unsafe { slice::from_raw_parts_mut(at, bytes.len()) };
        placed.copy_from_slice(bytes);
        placed
    }

    /// A copy of times of at most `ROOM` bytes at one end of the region.
    pub fn place_times(&mut self, times: &[u64], side: Side) -> &mut [u64] {
        let at = self.at(8 * times.len(), side);
        // SAFETY: as in `place`; both ends of the region stand at multiples of 8, and the length in bytes is one.
        let placed = unsafe { slice::from_raw_parts_mut(at.cast::<u64>(), times.len()) };
        placed.copy_from_slice(times);
        placed
    }

    /// Where a slice of so many bytes starts.
    fn at(&self, length: usize, side: Side) -> *mut u8 {
        assert!(length <= ROOM);
        let skipped = match side {
            Side::Start => 0,
            Side::End => ROOM - length,
        };
        // SAFETY: at most `ROOM` bytes behind the start.
        unsafe { self.start.add(skipped) }
    }
}

impl Drop for Region {
    fn drop(&mut self) {
        // SAFETY: the mapping that `new` made; no slice of it outlives the region.
        unsafe { munmap(self.start.sub(GUARD), WHOLE) };
    }
}

#[allow(clippy::declare_interior_mutable_const)] // It is only copied, to fill the array.
const NO_BYTE: AtomicU8 = AtomicU8::new(0);
/// What is printed when a guard page is touched: the case that runs.
static TEXT: [AtomicU8; 1024] = [NO_BYTE; 1024];

/// Says what to print when a guard page is touched.
pub fn set_text(text: &str) {
    let bytes = text.bytes().chain(std::iter::repeat(0));
    for (place, byte) in TEXT.iter().zip(bytes) {
        place.store(byte, Ordering::Relaxed);
    }
}

/// From now on a touched guard page prints the text and ends the program with 1.
pub fn watch() {
    let handler = touched as extern "C" fn(i32) as usize;
    // SAFETY: the handler only copies bytes, writes and ends the program.
    unsafe {
        signal(SIGSEGV, handler);
        signal(SIGBUS, handler);
    }
}

extern "C" fn touched(_number: i32) {
    let mut text = [0; 1024];
    let mut length = 0;
    for place in &TEXT {
        text[length] = place.load(Ordering::Relaxed);
        if text[length] == 0 {
            break;
        }
        length += 1;
    }
    // SAFETY: `length` bytes of `text`.
    unsafe {
        write(STANDARD_OUTPUT, text.as_ptr(), length);
        _exit(1)
    }
}

/// For the self-check alone, in a process of its own: touches the byte before or behind a slice.
pub fn touch_beyond(bytes: &[u8], side: Side) {
    let at = match side {
        Side::Start => bytes.as_ptr().wrapping_sub(1),
        Side::End => bytes.as_ptr().wrapping_add(bytes.len()),
    };
    // SAFETY: none; the slice lies at this end of a region, and the process is meant to end here.
    unsafe { ptr::read_volatile(at) };
}
