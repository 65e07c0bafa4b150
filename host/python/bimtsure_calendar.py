"""The day and the time of a slot, and the way back, by the proved calls of libbimtsure_calendar.so
(host/include/bimtsure_calendar.h explains them).

    import bimtsure_calendar
    day, time = bimtsure_calendar.clock(13)    # 0 and datetime.time(15, 30)
    bimtsure_calendar.slot(day, time)          # 13

Days and slots count from 0, and a day has sixteen times. A refusal is the exception bimtsure.Refused. The packed decimal of the
calls is this module's business: here a time is a datetime.time, and what is none is a TypeError. One with seconds, with
microseconds or with a time zone equals none of the sixteen, and is refused by 24.

What is no whole number is a TypeError, and a number below 0 a ValueError, before anything is called. A number that is too large
for 16 bits is never cut: as a slot it is refused by 23, as a day by 24.

Needs bimtsure.py, with its library. Its own is the file that BIMTSURE_CALENDAR_LIBRARY names, or else libbimtsure_calendar.so
beside this file, or in target/staticlib, where host/library writes it.
"""

import datetime
from ctypes import Structure, c_uint8, c_uint16, c_uint32
from typing import NamedTuple

from bimtsure import Refused, _accept, _load, _natural

SLOTS_A_DAY = 16
LAST_SLOT = 4095
LAST_DAY = 255


class Moment(NamedTuple):
    """A day, and the time at which a slot begins."""

    day: int
    time: datetime.time


# The calls as the header declares them: fields and parameters by name, in order.


class _Clock(Structure):
    _fields_ = [
        ("number", c_uint32),
        ("place", c_uint32),
        ("day", c_uint32),
        ("hours", c_uint32),
        ("minutes", c_uint32),
    ]


class _Slot(Structure):
    _fields_ = [("number", c_uint32), ("place", c_uint32), ("slot", c_uint32)]


_CALLS = {
    "bimtsure_clock": (_Clock, [("slot", c_uint16)]),
    "bimtsure_slot": (_Slot, [("day", c_uint16), ("hours", c_uint8), ("minutes", c_uint8)]),
}

_library = _load("libbimtsure_calendar.so", "BIMTSURE_CALENDAR_LIBRARY", _CALLS)


def clock(slot):
    """Day and time of a slot. Refuses by 23."""
    # the first that is refused stands for those above it, here and below
    answer = _library.bimtsure_clock(min(_natural(slot, "the slot"), LAST_SLOT + 1))
    _accept(answer)
    return Moment(answer.day, datetime.time(_unpacked(answer.hours), _unpacked(answer.minutes)))


def slot(day, time):
    """The slot of a day at a time. Refuses by 24."""
    asked = min(_natural(day, "the day"), LAST_DAY + 1)
    if not isinstance(time, datetime.time):
        raise TypeError(f"the time is {time!r}, not a datetime.time")
    # seconds, microseconds and time zones can't be told to the call, so it must not be asked without them
    if time != datetime.time(time.hour, time.minute):
        raise Refused(24, 0)
    answer = _library.bimtsure_slot(asked, _packed(time.hour), _packed(time.minute))
    _accept(answer)
    return answer.slot


def _packed(number):
    """One decimal digit in each four bits: 30 becomes 0x30."""
    return int(str(number), 16)


def _unpacked(byte):
    return int(f"{byte:x}")
