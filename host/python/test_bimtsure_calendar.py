"""Tests of bimtsure_calendar.py: every slot beside datetime's arithmetic, every minute of a day, and mistakes, which must be
refused or impossible. Run by host/setup."""

import datetime
import os
import subprocess
import sys
import unittest
from pathlib import Path

import bimtsure_calendar
from bimtsure_calendar import Moment
from test_bimtsure import Trying

HERE = Path(__file__).resolve().parent
WRITTEN = HERE.parents[1] / "target/staticlib"


def moment(slot):
    """Sixteen half-hours a day from 08:00 on, with an hour off after eight of them."""
    day, number = divmod(slot, 16)
    off = datetime.timedelta(hours=1 if number >= 8 else 0)
    start = datetime.datetime(2000, 1, 1, hour=8) + number * datetime.timedelta(minutes=30) + off
    return Moment(day, start.time())


class Answers(Trying):
    def test_every_slot(self):
        for slot in range(4096):
            self.assertEqual(bimtsure_calendar.clock(slot), moment(slot))
            self.assertEqual(bimtsure_calendar.slot(*moment(slot)), slot)

    def test_every_minute_of_a_day(self):
        numbers = {moment(slot).time: slot for slot in range(16)}
        met = 0
        for day in [0, 1, 255]:
            for minute in range(24 * 60):
                time = datetime.time(*divmod(minute, 60))
                if time in numbers:
                    self.assertEqual(bimtsure_calendar.slot(day, time), 16 * day + numbers[time])
                    met += 1
                else:
                    self.refused(24, 0, bimtsure_calendar.slot, day, time)
        self.assertEqual(met, 3 * 16)

    def test_known_slots(self):
        for slot, day, text in [(0, 0, "08:00"), (7, 0, "11:30"), (8, 0, "13:00"), (13, 0, "15:30"), (4095, 255, "16:30")]:
            time = datetime.time.fromisoformat(text)
            self.assertEqual(bimtsure_calendar.clock(slot), (day, time))
            # the same time for datetime too: `fold` tells two apart only where clocks are put back
            self.assertEqual(bimtsure_calendar.slot(day, time.replace(fold=1)), slot)

    def test_refusals(self):
        self.assertEqual(self.refused(23, 0, bimtsure_calendar.clock, 4096), "a slot above 4,095")
        noon, eight = datetime.time(12), datetime.time(8)
        said = "a time that is none of the sixteen, or a day above 255"
        self.assertEqual(self.refused(24, 0, bimtsure_calendar.slot, 0, noon), said)
        self.assertEqual(self.refused(24, 0, bimtsure_calendar.slot, 256, eight), said)


class Mistakes(Trying):
    """What an honest script could do wrong. None of it may be answered."""

    def test_numbers_that_16_bits_would_cut(self):
        for number in [65535, 65536, 65536 + 13, 1 << 32, 1 << 64, 10**30]:
            self.refused(23, 0, bimtsure_calendar.clock, number)
            self.refused(24, 0, bimtsure_calendar.slot, number, datetime.time(8))

    def test_numbers_below_0(self):
        self.wrong(ValueError, bimtsure_calendar.clock, -1)
        self.wrong(ValueError, bimtsure_calendar.slot, -1, datetime.time(8))

    def test_what_is_no_whole_number(self):
        for value in [True, False, 1.0, float("nan"), "13", b"13", None, [13], object()]:
            self.wrong(TypeError, bimtsure_calendar.clock, value)
            self.wrong(TypeError, bimtsure_calendar.slot, value, datetime.time(8))

    def test_what_is_no_time(self):
        eight = datetime.datetime(2026, 1, 5, 8, 0)
        for value in ["08:00", 800, 8, 0x0800, (8, 0), b"\x08\x00", None, eight, datetime.timedelta(hours=8)]:
            self.wrong(TypeError, bimtsure_calendar.slot, 0, value)

    def test_a_time_with_more_than_hours_and_minutes(self):
        for more in [{"second": 1}, {"microsecond": 1}, {"tzinfo": datetime.timezone.utc}]:
            self.refused(24, 0, bimtsure_calendar.slot, 0, datetime.time(15, 30, **more))


class Libraries(unittest.TestCase):
    """Each module loads the file that its own variable names."""

    def import_by(self, module, variable, file):
        """What is said to standard error."""
        command = [sys.executable, "-B", "-c", f"import {module}"]
        environment = {**os.environ, variable: str(file)}
        return subprocess.run(command, cwd=HERE, env=environment, capture_output=True, text=True).stderr

    def test_a_named_library(self):
        for module, variable, file in [
            ("bimtsure", "BIMTSURE_LIBRARY", "libbimtsure.so"),
            ("bimtsure_calendar", "BIMTSURE_CALENDAR_LIBRARY", "libbimtsure_calendar.so"),
        ]:
            self.assertEqual(self.import_by(module, variable, WRITTEN / file), "")
            missing = f"ImportError: {file} is not at /nowhere: host/library writes it"
            self.assertIn(missing, self.import_by(module, variable, "/nowhere"))


if __name__ == "__main__":
    unittest.main()
