//! The exported calls of the crate bimtsure_c, as host/include/bimtsure.h declares and explains them, each behind a function on
//! slices. A program of your own can take this file as it is: it uses nothing beside it, and needs the folder of
//! libbimtsure_c.a among those that the linker searches.
//!
//! A list has two ends for each appointment; an end that isn't known is `BLANK`. Ends and P are cut to 16 bits by `as u16`: use
//! `u16::try_from`.

// A program may use some of the calls only.
#![allow(dead_code)]

/// Marks a blank end.
pub const BLANK: u16 = 65535;
pub const MOST_PARTIES: u16 = 1024;
pub const MOST_APPOINTMENTS: usize = 4096;
/// The most that D·P may come to.
pub const MOST_CELLS: usize = 8192;
/// Scratch that is enough for every list: 128·(8192 + 1024) words.
pub const SCRATCH_WORDS: usize = 1179648;
/// The most parties that can be asked for together.
pub const MOST_ASKED: usize = 64;

/// The calls as they are linked: a slice passes as its address and its number of entries, and a struct of numbers comes back.
pub mod c {
    use super::*;

    #[link(name = "bimtsure_c", kind = "static")]
    extern "C" {
        pub fn bimtsure_plan(
            p: u16,
            list: *const u16,
            list_len: usize,
            slots: *mut u16,
            slots_len: usize,
            scratch: *mut u32,
            scratch_len: usize,
        ) -> Plan;
        pub fn bimtsure_needs(p: u16, list: *const u16, list_len: usize) -> Needs;
        pub fn bimtsure_waiting(
            p: u16,
            list: *const u16,
            list_len: usize,
            slots: *const u16,
            slots_len: usize,
            party: u16,
        ) -> Waiting;
        pub fn bimtsure_ask_many(
            p: u16,
            list: *const u16,
            list_len: usize,
            slots: *const u16,
            slots_len: usize,
            parties: *const u16,
            parties_len: usize,
            output: *mut u16,
            output_len: usize,
        ) -> Many;
        pub fn bimtsure_file_plan(
            p: u16,
            list: *const u16,
            list_len: usize,
            slots: *const u16,
            slots_len: usize,
            output: *mut u8,
            output_len: usize,
        ) -> Filed;
        pub fn bimtsure_read_plan(
            bytes: *const u8,
            bytes_len: usize,
            list: *mut u16,
            list_len: usize,
            slots: *mut u16,
            slots_len: usize,
        ) -> Read;
        pub fn bimtsure_view(
            list: *const u16,
            list_len: usize,
            slots: *const u16,
            slots_len: usize,
            party: u16,
            from: usize,
        ) -> View;
    }
}

/// Number 0 and D, or the number of a refusal and its place.
#[repr(C)]
#[derive(Clone, Copy, Debug, PartialEq, Eq)]
pub struct Plan {
    pub number: u32,
    pub place: u32,
    pub d: u32,
}

/// Number 0, D and the words that scratch needs, or the number of a refusal and its place.
#[repr(C)]
#[derive(Clone, Copy, Debug, PartialEq, Eq)]
pub struct Needs {
    pub number: u32,
    pub place: u32,
    pub d: u32,
    pub words: u32,
}

#[repr(C)]
#[derive(Clone, Copy, Debug, PartialEq, Eq)]
pub struct Waiting {
    pub number: u32,
    pub place: u32,
    pub waiting: u32,
}

/// What was asked for is in the output.
#[repr(C)]
#[derive(Clone, Copy, Debug, PartialEq, Eq)]
pub struct Many {
    pub number: u32,
    pub place: u32,
}

#[repr(C)]
#[derive(Clone, Copy, Debug, PartialEq, Eq)]
pub struct Filed {
    pub number: u32,
    pub place: u32,
    pub length: u32,
}

#[repr(C)]
#[derive(Clone, Copy, Debug, PartialEq, Eq)]
pub struct Read {
    pub number: u32,
    pub place: u32,
    pub parties: u32,
    pub appointments: u32,
}

#[repr(C)]
#[derive(Clone, Copy, Debug, PartialEq, Eq)]
pub struct View {
    pub number: u32,
    pub place: u32,
    pub found: u32,
    pub position: usize,
    pub slot: u32,
    pub next: usize,
}

/// The planning call.
pub fn plan(p: u16, list: &[u16], slots: &mut [u16], scratch: &mut [u32]) -> Plan {
    // SAFETY: the call reads the list and writes slots and scratch, all within their lengths, and asks nothing.
    unsafe {
        c::bimtsure_plan(
            p,
            list.as_ptr(),
            list.len(),
            slots.as_mut_ptr(),
            slots.len(),
            scratch.as_mut_ptr(),
            scratch.len(),
        )
    }
}

/// How much scratch a list needs.
pub fn needs(p: u16, list: &[u16]) -> Needs {
    // SAFETY: the call reads the list within its length, and asks nothing.
    unsafe { c::bimtsure_needs(p, list.as_ptr(), list.len()) }
}

/// How many slots a party waits in the hall, between its lowest and its highest.
pub fn waiting(p: u16, list: &[u16], slots: &[u16], party: u16) -> Waiting {
    // SAFETY: the call reads list and slots within their lengths, and asks nothing.
    unsafe { c::bimtsure_waiting(p, list.as_ptr(), list.len(), slots.as_ptr(), slots.len(), party) }
}

/// Load, lowest slot and highest slot of each of the parties, three entries of the output in that order.
pub fn ask_many(p: u16, list: &[u16], slots: &[u16], parties: &[u16], output: &mut [u16]) -> Many {
    // SAFETY: the call reads list, slots and parties and writes output, all within their lengths, and asks nothing.
    unsafe {
        c::bimtsure_ask_many(
            p,
            list.as_ptr(),
            list.len(),
            slots.as_ptr(),
            slots.len(),
            parties.as_ptr(),
            parties.len(),
            output.as_mut_ptr(),
            output.len(),
        )
    }
}

pub fn file_plan(p: u16, list: &[u16], slots: &[u16], output: &mut [u8]) -> Filed {
    // SAFETY: the call reads list and slots and writes output, all within their lengths, and asks nothing.
    unsafe {
        c::bimtsure_file_plan(
            p,
            list.as_ptr(),
            list.len(),
            slots.as_ptr(),
            slots.len(),
            output.as_mut_ptr(),
            output.len(),
        )
    }
}

pub fn read_plan(bytes: &[u8], list: &mut [u16], slots: &mut [u16]) -> Read {
    // SAFETY: the call reads the bytes and writes list and slots, all within their lengths, and asks nothing.
    unsafe {
        c::bimtsure_read_plan(
            bytes.as_ptr(),
            bytes.len(),
            list.as_mut_ptr(),
            list.len(),
            slots.as_mut_ptr(),
            slots.len(),
        )
    }
}

pub fn view(list: &[u16], slots: &[u16], party: u16, from: usize) -> View {
    // SAFETY: the call reads list and slots within their lengths, and asks nothing.
    unsafe { c::bimtsure_view(list.as_ptr(), list.len(), slots.as_ptr(), slots.len(), party, from) }
}
