//! Slices lent between two unreadable pages: a call that reads or writes one byte before or behind what it is lent, or writes what
//! it may only read, gets no further.

use std::ffi::c_void;
use std::mem::{size_of, size_of_val};
use std::{ptr, slice};

extern "C" {
    fn mmap(at: *mut c_void, length: usize, access: i32, flags: i32, file: i32, from: i64) -> *mut c_void;
    fn mprotect(at: *mut c_void, length: usize, access: i32) -> i32;
    fn munmap(at: *mut c_void, length: usize) -> i32;
}

const PAGE: usize = 4096;
const NO_ACCESS: i32 = 0;
const READ: i32 = 1;
const WRITE: i32 = 2;
/// private, and of no file
const FLAGS: i32 = 0x02 | 0x20;
/// What the rest of a slice's pages holds. It must stay.
const REST: u8 = 0xa5;

/// What is to be lent: bytes, how many of them an entry has, and whether the call may write them.
#[derive(Clone)]
pub struct Slice {
    bytes: Vec<u8>,
    width: usize,
    written: bool,
}

/// A slice that the call only reads.
pub fn reads<T: Copy>(entries: &[T]) -> Slice {
    // SAFETY: the bytes of numbers without padding.
    let bytes = unsafe { slice::from_raw_parts(entries.as_ptr().cast::<u8>(), size_of_val(entries)) };
    Slice { bytes: bytes.to_vec(), width: size_of::<T>(), written: false }
}

/// A slice that the call may write.
pub fn writes<T: Copy>(entries: &[T]) -> Slice {
    Slice { written: true, ..reads(entries) }
}

impl Slice {
    pub fn emptied(&self) -> Slice {
        Slice { bytes: Vec::new(), ..*self }
    }
}

/// Where a slice is lent.
#[derive(Clone, Copy, Debug, PartialEq, Eq)]
pub enum Place {
    /// on the heap
    Ordinary,
    /// its end is the start of an unreadable page
    BeforeFence,
    /// its start is the end of an unreadable page
    BehindFence,
    /// NULL if it is empty, else before a fence
    Null,
}

/// A slice as it is lent.
pub struct Lent {
    at: *mut u8,
    bytes: usize,
    width: usize,
    memory: Memory,
}

enum Memory {
    Heap(#[allow(dead_code)] Vec<u64>),
    /// the unreadable page, so many bytes, the other unreadable page
    Fenced(*mut u8, usize),
    Null,
}

impl Lent {
    pub fn new(slice: &Slice, place: Place) -> Lent {
        let bytes = slice.bytes.len();
        let (at, memory) = match place {
            Place::Ordinary => {
                let mut heap = vec![0; bytes.div_ceil(size_of::<u64>())];
                (heap.as_mut_ptr().cast::<u8>(), Memory::Heap(heap))
            }
            Place::Null if bytes == 0 => (ptr::null_mut(), Memory::Null),
            Place::BeforeFence | Place::BehindFence | Place::Null => {
                let room = bytes.div_ceil(PAGE) * PAGE;
                let pages = fenced(room);
                // SAFETY: both are within the room, or at its end.
                let at = unsafe { pages.add(PAGE + if place == Place::BehindFence { 0 } else { room - bytes }) };
                (at, Memory::Fenced(pages, room))
            }
        };
        if bytes > 0 {
            // SAFETY: the memory has room for the bytes, from there on.
            unsafe { ptr::copy_nonoverlapping(slice.bytes.as_ptr(), at, bytes) };
        }
        let lent = Lent { at, bytes, width: slice.width, memory };
        if !slice.written {
            lent.protect();
        }
        lent
    }

    /// Allows reading alone.
    fn protect(&self) {
        if let Memory::Fenced(pages, room) = self.memory {
            // SAFETY: the pages are this slice's.
            let done = unsafe { mprotect(pages.add(PAGE).cast(), room, READ) };
            assert!(done == 0, "pages can be protected");
        }
    }

    pub fn at<T>(&self) -> *mut T {
        self.at.cast()
    }

    pub fn entries(&self) -> usize {
        self.bytes / self.width
    }

    pub fn is_null(&self) -> bool {
        self.at.is_null()
    }

    /// What it holds now.
    pub fn held(&self) -> &[u8] {
        if self.bytes == 0 {
            return &[];
        }
        // SAFETY: the memory is there as long as this is.
        unsafe { slice::from_raw_parts(self.at, self.bytes) }
    }

    /// Whether the rest of its pages is as it was.
    pub fn rest_stays(&self) -> bool {
        let Memory::Fenced(pages, room) = self.memory else { return true };
        // SAFETY: the pages are there as long as this is.
        let room = unsafe { slice::from_raw_parts(pages.add(PAGE), room) };
        let from = self.at as usize - room.as_ptr() as usize;
        room[..from].iter().chain(&room[from + self.bytes..]).all(|&byte| byte == REST)
    }
}

impl Drop for Lent {
    fn drop(&mut self) {
        if let Memory::Fenced(pages, room) = self.memory {
            // SAFETY: nothing keeps an address of these pages.
            unsafe { munmap(pages.cast(), room + 2 * PAGE) };
        }
    }
}

/// So many bytes of room, full of `REST`, with an unreadable page before and one behind.
fn fenced(room: usize) -> *mut u8 {
    // SAFETY: new pages, which nothing else has; then those between the first and the last.
    unsafe {
        let pages = mmap(ptr::null_mut(), room + 2 * PAGE, NO_ACCESS, FLAGS, -1, 0);
        assert!(pages as isize != -1, "pages can be mapped");
        let pages = pages.cast::<u8>();
        if room > 0 {
            let done = mprotect(pages.add(PAGE).cast(), room, READ | WRITE);
            assert!(done == 0, "pages can be protected");
            ptr::write_bytes(pages.add(PAGE), REST, room);
        }
        pages
    }
}

#[cfg(test)]
mod tests {
    use super::*;
    use std::env;
    use std::os::unix::process::ExitStatusExt;
    use std::process::{Command, ExitStatus};

    const WRONG_TURN: &str = "BIMTSURE_WRONG_TURN";

    /// Each is run in a process of its own, which must then end by the signal of a memory fault.
    const WRONG_TURNS: [(&str, fn()); 5] = [
        ("reads behind", || read(Place::BeforeFence, 3)),
        ("reads before", || read(Place::BehindFence, -1)),
        ("reads where nothing is lent", || {
            let lent = Lent::new(&reads::<u16>(&[]), Place::BeforeFence);
            // SAFETY: none: this must not get through.
            let _ = unsafe { lent.at::<u16>().read_volatile() };
        }),
        ("writes behind", || write(writes(&[7_u16, 8, 9]), 3)),
        ("writes what is only read", || write(reads(&[7_u16, 8, 9]), 1)),
    ];

    fn read(place: Place, entry: isize) {
        let lent = Lent::new(&reads(&[7_u16, 8, 9]), place);
        // SAFETY: none: this must not get through.
        let _ = unsafe { lent.at::<u16>().offset(entry).read_volatile() };
    }

    fn write(slice: Slice, entry: isize) {
        let lent = Lent::new(&slice, Place::BeforeFence);
        // SAFETY: none: this must not get through.
        unsafe { lent.at::<u16>().offset(entry).write_volatile(1) }
    }

    #[test]
    fn wrong_turns_are_stopped() {
        if let Ok(name) = env::var(WRONG_TURN) {
            WRONG_TURNS.iter().filter(|turn| turn.0 == name).for_each(|turn| turn.1());
            return;
        }
        for (name, _) in WRONG_TURNS {
            let status = ended(name);
            assert_eq!(status.signal(), Some(11), "{name}: {status}");
        }
        assert!(ended("none of them").success());
    }

    /// How this test ends in a process of its own that takes the wrong turn.
    fn ended(wrong_turn: &str) -> ExitStatus {
        let mut again = Command::new(env::current_exe().expect("a test has a file"));
        again.args(["--exact", "fence::tests::wrong_turns_are_stopped"]).env(WRONG_TURN, wrong_turn);
        again.output().expect("a test can be run").status
    }

    #[test]
    fn what_is_lent_can_be_read_and_written() {
        for place in [Place::Ordinary, Place::BeforeFence, Place::BehindFence] {
            let lent = Lent::new(&writes(&[7_u16, 8, 9]), place);
            assert_eq!((lent.entries(), lent.at::<u16>() as usize % 2), (3, 0));
            // SAFETY: three entries are lent.
            unsafe { lent.at::<u16>().add(2).write_volatile(0x0102) };
            assert_eq!(lent.held(), [7, 0, 8, 0, 2, 1]);
            assert!(lent.rest_stays());
        }
    }

    /// Behind a fence a write past the end stays on the page, and is seen there.
    #[test]
    fn the_rest_of_a_page_is_watched() {
        let lent = Lent::new(&writes(&[7_u16, 8, 9]), Place::BehindFence);
        // SAFETY: the page goes on.
        unsafe { lent.at::<u16>().add(3).write_volatile(1) };
        assert!(!lent.rest_stays());
    }
}
