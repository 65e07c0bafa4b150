//! The exported calls of the crate calendar_c, as host/include/bimtsure_calendar.h declares and explains them, each behind a safe
//! function. A program of your own can take this file as it is: it uses nothing beside it, and needs the folder of
//! libcalendar_c.a among those that the linker searches.
//!
//! Hours and minutes are packed decimal, going in and coming out: 16:30 is 0x16 and 0x30. Slots and days are cut to 16 bits by
//! `as u16`, hours and minutes to 8 by `as u8`: use `try_from`.

// A program may use one of the calls only.
#![allow(dead_code)]

pub const SLOTS_A_DAY: u16 = 16;
pub const LAST_SLOT: u16 = 4095;
pub const LAST_DAY: u16 = 255;

/// The calls as they are linked: a struct of numbers comes back.
pub mod c {
    use super::*;

    #[link(name = "calendar_c", kind = "static")]
    extern "C" {
        pub fn bimtsure_clock(slot: u16) -> Clock;
        pub fn bimtsure_slot(day: u16, hours: u8, minutes: u8) -> Slot;
    }
}

/// Number 0, the day, and packed hours and minutes, or the number of a refusal.
#[repr(C)]
#[derive(Clone, Copy, Debug, PartialEq, Eq)]
pub struct Clock {
    pub number: u32,
    pub place: u32,
    pub day: u32,
    pub hours: u32,
    pub minutes: u32,
}

/// Number 0 and the slot, or the number of a refusal.
#[repr(C)]
#[derive(Clone, Copy, Debug, PartialEq, Eq)]
pub struct Slot {
    pub number: u32,
    pub place: u32,
    pub slot: u32,
}

/// The day and the time of a slot.
pub fn clock(slot: u16) -> Clock {
    // SAFETY: the call is lent no memory, and asks nothing.
    unsafe { c::bimtsure_clock(slot) }
}

/// The slot of a day at a time, by its packed hours and minutes.
pub fn slot(day: u16, hours: u8, minutes: u8) -> Slot {
    // SAFETY: the call is lent no memory, and asks nothing.
    unsafe { c::bimtsure_slot(day, hours, minutes) }
}
