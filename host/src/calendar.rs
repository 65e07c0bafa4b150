//! The hall's calendar, written from document 02's words alone: half-hours are counted from 08:00 and from 13:00, and a time is
//! packed by writing its digits. Compares `bimtsure_clock` with it on every slot that can be asked, and `bimtsure_slot` on all
//! bytes of hours and minutes on the good days and some more, and on the sixteen times of every day that can be asked. What is
//! accepted goes back by the other call, which must give what was asked.

use crate::bimtsure_calendar::{self, Clock, Slot};
use std::fmt::Debug;

/// The first and the last time of a day's two halves, in minutes from midnight; and the minutes from a time to the next.
const HALVES: [(u32, u32); 2] = [(8 * 60, 11 * 60 + 30), (13 * 60, 16 * 60 + 30)];
const HALF_HOUR: usize = 30;
/// How many times a day has, and so slots.
const A_DAY: u16 = 16;
const LAST_SLOT: u16 = 4_095;
const LAST_DAY: u16 = 255;
/// The last day on which all bytes are asked.
const LAST_ASKED: u16 = 300;

/// The sixteen times of a day in order: packed hours and minutes.
struct Calendar {
    times: Vec<(u8, u8)>,
}

impl Calendar {
    fn new() -> Calendar {
        let minutes = HALVES.into_iter().flat_map(|(first, last)| (first..=last).step_by(HALF_HOUR));
        Calendar { times: minutes.map(|minutes| (packed(minutes / 60), packed(minutes % 60))).collect() }
    }

    /// Day and time of a slot. The figures of a refusal are 0, here and below.
    fn clock(&self, slot: u16) -> Clock {
        if slot > LAST_SLOT {
            return Clock { number: 23, place: 0, day: 0, hours: 0, minutes: 0 };
        }
        let (hours, minutes) = self.times[usize::from(slot % A_DAY)];
        Clock { number: 0, place: 0, day: (slot / A_DAY).into(), hours: hours.into(), minutes: minutes.into() }
    }

    /// The slot of a time on a day.
    fn slot(&self, day: u16, hours: u8, minutes: u8) -> Slot {
        match self.times.iter().position(|&time| time == (hours, minutes)) {
            Some(at) if day <= LAST_DAY => Slot { number: 0, place: 0, slot: u32::from(day * A_DAY) + at as u32 },
            _ => Slot { number: 24, place: 0, slot: 0 },
        }
    }
}

/// One decimal digit in each four bits: those that are written, read as hexadecimal ones.
fn packed(number: u32) -> u8 {
    u8::from_str_radix(&number.to_string(), 16).expect("hours and minutes have two digits")
}

/// Compares. An error names the first question that is answered otherwise, or a number that never came.
pub fn compare() -> Result<(), String> {
    let mut caller = Caller::new();
    (0..=u16::MAX).try_for_each(|slot| caller.clock(slot))?;
    let times = caller.calendar.times.clone();
    for day in 0..=u16::MAX {
        times.iter().try_for_each(|&(hours, minutes)| caller.slot(day, hours, minutes))?;
    }
    for day in 0..=LAST_ASKED {
        for hours in 0..=u8::MAX {
            (0..=u8::MAX).try_for_each(|minutes| caller.slot(day, hours, minutes))?;
        }
    }
    caller.print();
    caller.check()?;
    Ok(println!("no difference"))
}

/// Compares one answer after the other, and counts them: how often each call accepted, and how often it refused.
struct Caller {
    calendar: Calendar,
    clocks: [usize; 2],
    slots: [usize; 2],
}

impl Caller {
    fn new() -> Caller {
        Caller { calendar: Calendar::new(), clocks: [0; 2], slots: [0; 2] }
    }

    /// One slot. An error begins with it.
    fn clock(&mut self, slot: u16) -> Result<(), String> {
        let told = |error| format!("slot {slot}: {error}");
        let answered = bimtsure_calendar::clock(slot);
        expect(&self.calendar.clock(slot), &answered).map_err(told)?;
        self.clocks[usize::from(answered.number != 0)] += 1;
        if answered.number != 0 {
            return Ok(());
        }
        // the second version's figures, so nothing is cut
        let Clock { day, hours, minutes, .. } = answered;
        let back = bimtsure_calendar::slot(day as u16, hours as u8, minutes as u8);
        expect(&Slot { number: 0, place: 0, slot: slot.into() }, &back).map_err(told)
    }

    /// One time of a day. An error begins with them.
    fn slot(&mut self, day: u16, hours: u8, minutes: u8) -> Result<(), String> {
        let told = |error| format!("day {day}, {hours:#04x} {minutes:#04x}: {error}");
        let answered = bimtsure_calendar::slot(day, hours, minutes);
        expect(&self.calendar.slot(day, hours, minutes), &answered).map_err(told)?;
        self.slots[usize::from(answered.number != 0)] += 1;
        if answered.number != 0 {
            return Ok(());
        }
        let forth = bimtsure_calendar::clock(answered.slot as u16);
        let asked = Clock { number: 0, place: 0, day: day.into(), hours: hours.into(), minutes: minutes.into() };
        expect(&asked, &forth).map_err(told)
    }

    fn print(&self) {
        for (call, refusal, [accepted, refused]) in self.counts() {
            println!("{call}: {} calls, which say 0 {accepted} times, {refusal} {refused} times", accepted + refused);
        }
        println!("what was accepted gave what was asked, by the other call");
    }

    /// Whether each number came.
    fn check(&self) -> Result<(), String> {
        for (call, refusal, counts) in self.counts() {
            if let Some(at) = counts.iter().position(|&times| times == 0) {
                return Err(format!("{call} never said {}", [0, refusal][at]));
            }
        }
        Ok(())
    }

    /// Each call with the number that it refuses by, and how often it accepted and refused.
    fn counts(&self) -> [(&'static str, u32, [usize; 2]); 2] {
        [("bimtsure_clock", 23, self.clocks), ("bimtsure_slot", 24, self.slots)]
    }
}

fn expect<T: Debug + PartialEq>(expected: &T, answered: &T) -> Result<(), String> {
    if expected == answered {
        return Ok(());
    }
    Err(format!("expected {expected:?}, answered {answered:?}"))
}

#[cfg(test)]
mod tests {
    use super::*;

    /// Slots with their days and times, from document 02's words.
    const KNOWN: [(u16, u16, u8, u8); 9] = [
        (0, 0, 0x08, 0x00),
        (1, 0, 0x08, 0x30),
        (7, 0, 0x11, 0x30),
        (8, 0, 0x13, 0x00),
        (13, 0, 0x15, 0x30),
        (15, 0, 0x16, 0x30),
        (16, 1, 0x08, 0x00),
        (4_080, 255, 0x08, 0x00),
        (4_095, 255, 0x16, 0x30),
    ];

    /// What both versions say to a slot, and to a day and a time.
    fn clocks(slot: u16) -> [Clock; 2] {
        [Calendar::new().clock(slot), bimtsure_calendar::clock(slot)]
    }

    fn slots(day: u16, hours: u8, minutes: u8) -> [Slot; 2] {
        [Calendar::new().slot(day, hours, minutes), bimtsure_calendar::slot(day, hours, minutes)]
    }

    #[test]
    fn known_slots_and_times() {
        for (slot, day, hours, minutes) in KNOWN {
            let clock = Clock { number: 0, place: 0, day: day.into(), hours: hours.into(), minutes: minutes.into() };
            assert_eq!(clocks(slot), [clock; 2], "slot {slot}");
            assert_eq!(slots(day, hours, minutes), [Slot { number: 0, place: 0, slot: slot.into() }; 2], "slot {slot}");
        }
    }

    #[test]
    fn a_late_slot_is_refused() {
        for slot in [4_096, u16::MAX] {
            assert_eq!(clocks(slot), [Clock { number: 23, place: 0, day: 0, hours: 0, minutes: 0 }; 2], "slot {slot}");
        }
    }

    /// A good time on a late day and a late day without one; the hour between the halves, and what lies around a day; minutes
    /// between two times; and digits that only add up to a time, 07:60.
    #[test]
    fn a_late_day_and_a_time_that_is_none_are_refused() {
        let late = [(256, 0x08, 0x00), (u16::MAX, 0x16, 0x30), (256, 0x12, 0x00)];
        let none = [(0, 0x12, 0x00), (0, 0x12, 0x30), (0, 0x07, 0x30), (0, 0x17, 0x00), (255, 0x00, 0x00)];
        let between = [(0, 0x08, 0x01), (0, 0x08, 0x29), (0, 0x16, 0x31), (0, 0x07, 0x60)];
        for (day, hours, minutes) in late.into_iter().chain(none).chain(between) {
            let refused = Slot { number: 24, place: 0, slot: 0 };
            assert_eq!(slots(day, hours, minutes), [refused; 2], "day {day}, {hours:#04x} {minutes:#04x}");
        }
    }

    /// 16 and 30 are no time. But 16 and 0 are 10:00, the fifth time of a day: not every such caller is told.
    #[test]
    fn a_time_that_is_not_packed() {
        assert_eq!(slots(0, 16, 30), [Slot { number: 24, place: 0, slot: 0 }; 2]);
        assert_eq!(slots(0, 16, 0), [Slot { number: 0, place: 0, slot: 4 }; 2]);
    }

    /// With two times exchanged in one of the versions both calls differ.
    #[test]
    fn a_difference_is_told() {
        let mut caller = Caller::new();
        caller.calendar.times.swap(8, 9);
        for told in [caller.clock(8), caller.slot(0, 0x13, 0x00)] {
            assert!(told.is_err_and(|error| error.contains("expected")));
        }
    }

    #[test]
    fn a_number_that_never_came_is_told() {
        let mut caller = Caller::new();
        caller.clock(0).unwrap();
        assert_eq!(caller.check(), Err("bimtsure_clock never said 23".to_string()));
        caller.clock(u16::MAX).unwrap();
        assert_eq!(caller.check(), Err("bimtsure_slot never said 0".to_string()));
    }

    #[test]
    fn all_that_can_be_asked_is_answered_alike() {
        assert_eq!(compare(), Ok(()));
    }
}
