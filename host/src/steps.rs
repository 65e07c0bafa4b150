//! The exported calls of the crate steps_c, two_color and one split, each behind a function on slices.

mod c {
    use super::*;

    #[link(name = "steps_c", kind = "static")]
    extern "C" {
        pub fn bimtsure_two_color(
            p: u16,
            list: *const u16,
            list_len: usize,
            scratch: *mut u32,
            scratch_len: usize,
        ) -> TwoColorAnswer;
        pub fn bimtsure_split(
            scratch: *mut u32,
            scratch_len: usize,
            used: usize,
            ends: usize,
            g: usize,
            n: usize,
            width: usize,
        ) -> usize;
    }
}

/// Number 0 and how many parties stand on the left, or the number of a refusal.
#[repr(C)]
#[derive(Clone, Copy, Debug, PartialEq, Eq)]
pub struct TwoColorAnswer {
    pub number: u32,
    pub left: u32,
}

/// Checks 1 to 8 without a slot buffer, then `two_color`: the left parties stand in the first words of scratch, the right ones
/// from word P on.
pub fn two_color(p: u16, list: &[u16], scratch: &mut [u32]) -> TwoColorAnswer {
    // SAFETY: the call reads the list and writes scratch, both within their lengths, and keeps neither.
    unsafe { c::bimtsure_two_color(p, list.as_ptr(), list.len(), scratch.as_mut_ptr(), scratch.len()) }
}

/// One split of the graph at word g, with n parties a side, none of them in more than `width` pairs. The halves stand at word
/// `used` and 2·n·(width + 1) words above it. Gives the new mark.
///
/// # Safety
///
/// What the split asks (`Splits` in crates/euler/specs/Room.antt) must hold: regular of even degree, and room above the mark.
pub unsafe fn split(scratch: &mut [u32], used: usize, ends: usize, g: usize, n: usize, width: usize) -> usize {
    c::bimtsure_split(scratch.as_mut_ptr(), scratch.len(), used, ends, g, n, width)
}
