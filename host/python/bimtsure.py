"""Slots for a customs hall's examinations, by the proved calls of libbimtsure.so (host/include/bimtsure.h explains them).

    import bimtsure
    d, slots = bimtsure.plan(3, [(0, 1), (1, 2)])

Parties are the numbers from 0 to parties - 1. An appointment is a pair of parties; an end that isn't known is None, and never 0,
-1 or ''. A refusal is the exception Refused, with the number and place of documents 01 and 02 and the cause in words.

Names become numbers by a dict's get, which gives None for a name that isn't there:

    number = {name: n for n, name in enumerate(["Smith", "Jones", "bay 1", "bay 2"])}
    asked = [("Smith", "bay 1"), ("Jones", "bay 1"), ("", "bay 2")]
    bimtsure.plan(len(number), [(number.get(a), number.get(b)) for a, b in asked])    # Refused: appointment 2: an end is blank

What is no whole number is a TypeError, and a number below 0 a ValueError, before anything is called. A number that is too large
for 16 bits is never cut: it is refused by 1, 5 or 15, as these papers say, or where they ask nothing of it a ValueError.

The library is the file that BIMTSURE_LIBRARY names, or else libbimtsure.so beside this file, or in target/staticlib, where
host/library writes it.
"""

import ctypes
import operator
import os
from collections.abc import Mapping, Set
from ctypes import POINTER, Structure, c_size_t, c_uint8, c_uint16, c_uint32
from typing import NamedTuple, Optional

BLANK = 65535
MOST_PARTIES = 1024
MOST_APPOINTMENTS = 4096
MOST_CELLS = 8192
SCRATCH_WORDS = 1179648
MOST_ASKED = 64

CAUSES = {
    1: "more than 1,024 parties",
    2: "the list's length is odd",
    3: "more than 4,096 appointments",
    4: "an end is blank",
    5: "an end is not below the number of parties",
    6: "D times the number of parties is above 8,192",
    7: "fewer slot entries than appointments",
    8: "fewer than 128*P*(D+1) scratch words",
    9: "a closed round of odd length: there are no two sides",
    12: "a filed plan has the wrong length",
    13: "an output is too short",
    14: "more than 64 parties asked for",
    15: "a party asked for is not below the number of parties",
    # by bimtsure_calendar.py
    23: "a slot above 4,095",
    24: "a time that is none of the sixteen, or a day above 255",
}


class Refused(Exception):
    """A refusal: its number and place, and the cause in words. Positions of appointments and of parties asked for count from 0."""

    def __init__(self, number, place, cause=None):
        if cause is None:
            cause = CAUSES[number]
            if number in (4, 5):
                cause = f"appointment {place}: {cause}"
            if number == 15:
                cause = f"query {place}: {cause}"
        super().__init__(number, place, cause)
        self.number = number
        self.place = place
        self.cause = cause

    def __str__(self):
        return self.cause


class GraphNotBipartite(Refused):
    """Refusal 9, by rustworkx's name."""


class Plan(NamedTuple):
    """D, the number of slots, and the slot of each appointment."""

    d: int
    slots: list


class Needs(NamedTuple):
    """D, and the words of scratch that planning needs."""

    d: int
    words: int


class Asked(NamedTuple):
    """A party's load, and its lowest and its highest slot, which are None for a load of 0."""

    load: int
    lowest: Optional[int]
    highest: Optional[int]


class Filed(NamedTuple):
    """What a filed plan holds. A blank end is None."""

    parties: int
    appointments: list
    slots: list


# The calls as the header declares them: fields and parameters by name, in order.


class _Answer(Structure):
    _fields_ = [("number", c_uint32), ("place", c_uint32), ("d", c_uint32)]


class _Needs(Structure):
    _fields_ = [("number", c_uint32), ("place", c_uint32), ("d", c_uint32), ("words", c_uint32)]


class _Waiting(Structure):
    _fields_ = [("number", c_uint32), ("place", c_uint32), ("waiting", c_uint32)]


class _Many(Structure):
    _fields_ = [("number", c_uint32), ("place", c_uint32)]


class _Filed(Structure):
    _fields_ = [("number", c_uint32), ("place", c_uint32), ("length", c_uint32)]


class _Read(Structure):
    _fields_ = [("number", c_uint32), ("place", c_uint32), ("parties", c_uint32), ("appointments", c_uint32)]


class _Seen(Structure):
    _fields_ = [
        ("number", c_uint32),
        ("place", c_uint32),
        ("found", c_uint32),
        ("position", c_size_t),
        ("slot", c_uint32),
        ("next", c_size_t),
    ]


_CALLS = {
    "bimtsure_plan": (
        _Answer,
        [
            ("p", c_uint16),
            ("list", POINTER(c_uint16)),
            ("list_len", c_size_t),
            ("slots", POINTER(c_uint16)),
            ("slots_len", c_size_t),
            ("scratch", POINTER(c_uint32)),
            ("scratch_len", c_size_t),
        ],
    ),
    "bimtsure_needs": (
        _Needs,
        [("p", c_uint16), ("list", POINTER(c_uint16)), ("list_len", c_size_t)],
    ),
    "bimtsure_waiting": (
        _Waiting,
        [
            ("p", c_uint16),
            ("list", POINTER(c_uint16)),
            ("list_len", c_size_t),
            ("slots", POINTER(c_uint16)),
            ("slots_len", c_size_t),
            ("party", c_uint16),
        ],
    ),
    "bimtsure_ask_many": (
        _Many,
        [
            ("p", c_uint16),
            ("list", POINTER(c_uint16)),
            ("list_len", c_size_t),
            ("slots", POINTER(c_uint16)),
            ("slots_len", c_size_t),
            ("parties", POINTER(c_uint16)),
            ("parties_len", c_size_t),
            ("output", POINTER(c_uint16)),
            ("output_len", c_size_t),
        ],
    ),
    "bimtsure_file_plan": (
        _Filed,
        [
            ("p", c_uint16),
            ("list", POINTER(c_uint16)),
            ("list_len", c_size_t),
            ("slots", POINTER(c_uint16)),
            ("slots_len", c_size_t),
            ("output", POINTER(c_uint8)),
            ("output_len", c_size_t),
        ],
    ),
    "bimtsure_read_plan": (
        _Read,
        [
            ("bytes", POINTER(c_uint8)),
            ("bytes_len", c_size_t),
            ("list", POINTER(c_uint16)),
            ("list_len", c_size_t),
            ("slots", POINTER(c_uint16)),
            ("slots_len", c_size_t),
        ],
    ),
    "bimtsure_view": (
        _Seen,
        [
            ("list", POINTER(c_uint16)),
            ("list_len", c_size_t),
            ("slots", POINTER(c_uint16)),
            ("slots_len", c_size_t),
            ("party", c_uint16),
            ("from", c_size_t),
        ],
    ),
}


def _load(file, variable, calls):
    """The library of that name, with its calls declared; or the one that a variable of the environment names."""
    here = os.path.dirname(os.path.abspath(__file__))
    places = [os.path.join(here, file), os.path.join(here, "..", "..", "target", "staticlib", file)]
    named = os.environ.get(variable)
    if named:
        places = [named]
    path = next((place for place in places if os.path.exists(place)), None)
    if path is None:
        raise ImportError(f"{file} is not at {' or '.join(places)}: host/library writes it")
    library = ctypes.CDLL(path)
    for name, (answer, parameters) in calls.items():
        function = getattr(library, name)
        function.restype = answer
        function.argtypes = [kind for _, kind in parameters]
    return library


_library = _load("libbimtsure.so", "BIMTSURE_LIBRARY", _CALLS)


def plan(parties, appointments):
    """The plan of a list: D and the slots. Refuses by 1, 3 to 6 and 9."""
    p, ends = _checked_p(parties), _checked_list(appointments)
    needed = _library.bimtsure_needs(p, ends, len(ends))
    _accept(needed)
    slots = (c_uint16 * (len(ends) // 2))()
    scratch = (c_uint32 * needed.words)()
    answer = _library.bimtsure_plan(p, ends, len(ends), slots, len(slots), scratch, len(scratch))
    _accept(answer)
    return Plan(answer.d, list(slots))


def needs(parties, appointments):
    """D, and the words of scratch that planning needs. Refuses by 1 and 3 to 6."""
    ends = _checked_list(appointments)
    answer = _library.bimtsure_needs(_checked_p(parties), ends, len(ends))
    _accept(answer)
    return Needs(answer.d, answer.words)


def waiting(parties, appointments, slots, party):
    """Waiting of a party: how many whole numbers strictly between its lowest and its highest slot are the slot of none of its
    appointments; so 0 for a load of 0 or 1. Any slots will do, and entries past the appointments don't count. Refuses by 1, 3 to
    5 and 7, and then by 5 for a party that is not below the number of parties."""
    p, ends, entries = _checked_p(parties), _checked_list(appointments), _slots(slots)
    asked = _capped(_natural(party, "the party"))
    answer = _library.bimtsure_waiting(p, ends, len(ends), entries, len(entries), asked)
    # 5 with place 0 may be the list's or the party's: it is the party's if every end of the list is below P
    if answer.number == 5 and all(end < p for end in ends):
        raise Refused(answer.number, answer.place, f"party {party} is not below the number of parties")
    _accept(answer)
    return answer.waiting


def ask_many(parties, appointments, slots, asked):
    """Load, lowest slot and highest slot of each party asked for, in their order, by one walk of the list. Up to 64 can be asked
    for, and one that is asked for twice comes twice. Any slots will do, and entries past the appointments don't count. Refuses by
    1, 3 to 5, 7, 14 and 15."""
    p, ends, entries = _checked_p(parties), _checked_list(appointments), _slots(slots)
    queries = _queries(asked)
    output = (c_uint16 * (3 * len(queries)))()
    answer = _library.bimtsure_ask_many(
        p, ends, len(ends), entries, len(entries), queries, len(queries), output, len(output)
    )
    _accept(answer)
    answers = zip(output[::3], output[1::3], output[2::3])
    # 65535 is no slot where the load is 0, else it is one
    return [Asked(load, lowest, highest) if load else Asked(0, None, None) for load, lowest, highest in answers]


def view(appointments, slots, party):
    """The party's appointments, one after the other: position and slot. None looks for blank ends. Refuses by 7."""
    ends, entries = _kept_list(appointments), _slots(slots)
    asked = _kept_end(party, "the party")

    def step(start):
        return _library.bimtsure_view(ends, len(ends), entries, len(entries), asked, start)

    def steps(seen):
        while seen.found:
            yield seen.position, seen.slot
            seen = step(seen.next)

    first = step(0)
    _accept(first)
    return steps(first)


def file_plan(parties, appointments, slots):
    """The filed plan's bytes. Refuses by 1, 3 and 7."""
    ends, entries = _kept_list(appointments), _slots(slots)
    output = (c_uint8 * (4 + 3 * len(ends)))()
    answer = _library.bimtsure_file_plan(
        _checked_p(parties), ends, len(ends), entries, len(entries), output, len(output)
    )
    _accept(answer)
    return bytes(output[: answer.length])


def read_plan(filed):
    """What the bytes of a filed plan hold: parties, appointments and slots. Refuses by 12, 1 and 3."""
    if not isinstance(filed, (bytes, bytearray, memoryview)):
        raise TypeError(f"a filed plan is bytes, not {type(filed).__name__}")
    data = bytes(filed)
    count = max(0, len(data) - 4) // 6
    ends, slots = (c_uint16 * (2 * count))(), (c_uint16 * count)()
    answer = _library.bimtsure_read_plan(
        (c_uint8 * len(data)).from_buffer_copy(data), len(data), ends, len(ends), slots, len(slots)
    )
    _accept(answer)
    read = [None if end == BLANK else end for end in ends]
    return Filed(answer.parties, list(zip(read[::2], read[1::2])), list(slots))


def graph_bipartite_edge_color(num_nodes, edges):
    """The colours of a graph's edges, by edge index, as rustworkx gives them: its nodes are the parties, its edges the
    appointments, the colours the slots. GraphNotBipartite if it has an odd cycle."""
    return dict(enumerate(plan(num_nodes, edges).slots))


def _accept(answer):
    if answer.number == 9:
        raise GraphNotBipartite(answer.number, answer.place)
    if answer.number != 0:
        raise Refused(answer.number, answer.place)


def _natural(value, what):
    """A whole number from 0 on. A bool is none, and no text or fraction is turned into one."""
    try:
        number = None if isinstance(value, bool) else operator.index(value)
    except TypeError:
        number = None
    if number is None:
        raise TypeError(f"{what} is {value!r}, not a whole number")
    if number < 0:
        raise ValueError(f"{what} is {number}, below 0")
    return number


def _checked_p(parties):
    """P for a call that refuses more than 1,024 by 1: more than 16 bits hold is more than that."""
    return min(_natural(parties, "the number of parties"), BLANK)


def _capped(number):
    """An end or a party for a call that refuses every one from P on by 5 or 15. The largest that isn't blank stands for those
    above it: P is at most 1,024 there."""
    return min(number, BLANK - 1)


def _kept_end(end, what):
    """An end for a call that takes every one as it is."""
    if end is None:
        return BLANK
    number = _natural(end, what)
    if number >= BLANK:
        raise ValueError(f"{what} is {number}, above 65534")
    return number


def _pairs(appointments):
    """Both ends of each appointment with its position."""
    if isinstance(appointments, (Set, Mapping)):
        raise TypeError(f"appointments come in order, not as {type(appointments).__name__}")
    for position, pair in enumerate(appointments):
        if isinstance(pair, (str, bytes, bytearray, Set, Mapping)):
            raise TypeError(f"appointment {position} is {pair!r}, not a pair")
        try:
            first, second = pair
        except (TypeError, ValueError):
            raise ValueError(f"appointment {position} is {pair!r}, not a pair") from None
        yield position, (first, second)


def _list(appointments, end_of):
    ends = []
    for position, pair in _pairs(appointments):
        what = f"appointment {position}: an end"
        ends.extend(end_of(end, what) for end in pair)
    return (c_uint16 * len(ends))(*ends)


def _checked_list(appointments):
    return _list(appointments, lambda end, what: BLANK if end is None else _capped(_natural(end, what)))


def _kept_list(appointments):
    return _list(appointments, _kept_end)


def _slots(slots):
    if isinstance(slots, (Set, Mapping)):
        raise TypeError(f"slots come in order, not as {type(slots).__name__}")
    entries = []
    for position, slot in enumerate(slots):
        number = _natural(slot, f"slot {position}")
        if number > 65535:
            raise ValueError(f"slot {position} is {number}, above 65535")
        entries.append(number)
    return (c_uint16 * len(entries))(*entries)


def _queries(asked):
    if isinstance(asked, (Set, Mapping)):
        raise TypeError(f"parties are asked for in order, not as {type(asked).__name__}")
    queries = [_capped(_natural(party, f"query {position}")) for position, party in enumerate(asked)]
    return (c_uint16 * len(queries))(*queries)
