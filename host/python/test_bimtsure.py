"""Tests of bimtsure.py: stored answers of the Rust, random lists beside the host's answers, the desk's calls beside the few lines
of documents 01 and 02 that say what they give, and mistakes, which must be refused or impossible. Run by host/setup, which builds
the host first."""

import enum
import pickle
import random
import struct
import subprocess
import unittest
from pathlib import Path

import bimtsure
from bimtsure import Asked, GraphNotBipartite, Plan, Refused

ROOT = Path(__file__).resolve().parents[2]
STORED = ROOT / "crates/replay/stdin"
HOST = ROOT / "target/host/release/bimtsure-host"

EXAMPLE = [(0, 1), (1, 2)]


def read_list(text):
    """P and the appointments of `P first-second ..`. 65535 and an empty end are blank; a last end may have no partner."""
    parties, *pairs = text.split()
    ends = [[None if end in ("", "65535") else int(end) for end in pair.split("-")] for pair in pairs]
    return int(parties), [tuple(pair) for pair in ends]


def answer_to(parties, appointments):
    """In the host's words: `planned D s0 s1 ..` or `refused N PLACE`."""
    try:
        d, slots = bimtsure.plan(parties, appointments)
    except Refused as refusal:
        return f"refused {refusal.number} {refusal.place}"
    return " ".join(map(str, ["planned", d, *slots]))


def load(appointments, party):
    return sum(pair.count(party) for pair in appointments)


def waits(appointments, slots, party):
    """Document 02: the number of whole numbers strictly between a party's lowest and highest slot that are the slot of none of its
    appointments; load 0 or 1 gives 0."""
    if load(appointments, party) <= 1:
        return 0
    own = {slot for pair, slot in zip(appointments, slots) if party in pair}
    return sum(number not in own for number in range(min(own) + 1, max(own)))


def asked_for(appointments, slots, party):
    """Document 02: load, lowest slot and highest slot. A party with load 0 has none."""
    own = [slot for pair, slot in zip(appointments, slots) if party in pair]
    return load(appointments, party), min(own, default=None), max(own, default=None)


class Answers(unittest.TestCase):
    def hold(self, text, expected):
        """A list as a line of text. Returns what it was answered, or None where Python can't say the list."""
        parties, appointments = read_list(text)
        if any(len(pair) != 2 for pair in appointments):
            with self.assertRaises(ValueError):
                bimtsure.plan(parties, appointments)
            return None
        answered = answer_to(parties, appointments)
        self.assertEqual(answered, expected, text)
        return answered

    def test_stored_answers_of_the_rust(self):
        lines = STORED.read_text().splitlines()
        for line in lines:
            text, expected = line.split("#")[0].split(" = ")
            self.hold(text, expected.strip())
        self.assertGreater(len(lines), 200)

    def test_random_lists_beside_the_hosts_answers(self):
        lists = subprocess.run([HOST, "lists", "1000", "7"], check=True, capture_output=True).stdout
        answers = subprocess.run([HOST, "answer", "--second"], input=lists, check=True, capture_output=True).stdout
        lists, answers = lists.decode().splitlines(), answers.decode().splitlines()
        self.assertEqual((len(lists), len(answers)), (1000, 1000))
        answered = [self.hold(text, expected) for text, expected in zip(lists, answers)]
        met = {text.split()[1] for text in answered if text and text.startswith("refused")}
        self.assertEqual(met, {"1", "3", "4", "5", "6", "9"})
        self.assertGreater(sum(bool(text and text.startswith("planned")) for text in answered), 500)

    def test_desk_calls_on_random_lists(self):
        chance = random.Random(7)
        met, loads = set(), set()
        lists = subprocess.run([HOST, "lists", "300", "8", "200"], check=True, capture_output=True).stdout
        for text in lists.decode().splitlines():
            parties, appointments = read_list(text)
            if parties > 1024 or any(len(pair) != 2 for pair in appointments):
                continue
            # few slots, so that a party has some of them twice; near ones; any
            bound = chance.choice([3, len(appointments) + 1, 65536])
            slots = [chance.randrange(bound) for _ in appointments]
            self.hold_filed(parties, appointments, slots)
            named = [end for pair in appointments for end in pair]
            party = chance.choice(named + [0])
            expected = [(at, slots[at]) for at, pair in enumerate(appointments) if party in pair]
            self.assertEqual(list(bimtsure.view(appointments, slots, party)), expected)
            if all(end is not None and end < parties for end in named) and parties > 0:
                largest = max((load(appointments, other) for other in set(named)), default=0)
                if largest * parties <= 8192:
                    self.assertEqual(bimtsure.needs(parties, appointments), (largest, 128 * parties * (largest + 1)))
                for party in [chance.randrange(parties), chance.choice(named or [0])]:
                    expected = waits(appointments, slots, party)
                    self.assertEqual(bimtsure.waiting(parties, appointments, slots, party), expected)
                    met.add(expected > 0)
                asked = [chance.choice(named + [0, parties - 1]) for _ in range(chance.choice([0, 1, 30, 64]))]
                expected = [asked_for(appointments, slots, party) for party in asked]
                self.assertEqual(bimtsure.ask_many(parties, appointments, slots, asked), expected)
                loads.update(min(answer[0], 3) for answer in expected)
        self.assertEqual((met, loads), ({False, True}, {0, 1, 2, 3}))

    def hold_filed(self, parties, appointments, slots):
        numbers = [parties, len(appointments)]
        for (first, second), slot in zip(appointments, slots):
            numbers += [65535 if first is None else first, 65535 if second is None else second, slot]
        filed = struct.pack(f"<{len(numbers)}H", *numbers)
        self.assertEqual(bimtsure.file_plan(parties, appointments, slots), filed)
        self.assertEqual(bimtsure.read_plan(filed), (parties, appointments, slots))


class Trying(unittest.TestCase):
    def refused(self, number, place, call, *arguments):
        """Must be refused so. Returns the cause in words."""
        with self.assertRaises(Refused) as caught:
            call(*arguments)
        self.assertEqual((caught.exception.number, caught.exception.place), (number, place))
        return str(caught.exception)

    def wrong(self, kind, call, *arguments):
        """Must be an error of that kind, and no refusal."""
        with self.assertRaises(kind) as caught:
            call(*arguments)
        self.assertNotIsInstance(caught.exception, Refused)


class Calls(Trying):
    """Document 01's example, and each call's refusals."""

    def test_the_example(self):
        self.assertEqual(bimtsure.plan(3, EXAMPLE), Plan(2, [0, 1]))
        self.assertEqual(bimtsure.needs(3, EXAMPLE), (2, 128 * 3 * 3))
        self.assertEqual([bimtsure.waiting(3, EXAMPLE, [0, 1], party) for party in range(3)], [0, 0, 0])
        self.assertEqual(list(bimtsure.view(EXAMPLE, [0, 1], 1)), [(0, 0), (1, 1)])
        filed = bytes([3, 0, 2, 0, 0, 0, 1, 0, 0, 0, 1, 0, 2, 0, 1, 0])
        self.assertEqual(bimtsure.file_plan(3, EXAMPLE, [0, 1]), filed)
        self.assertEqual(bimtsure.read_plan(filed), (3, EXAMPLE, [0, 1]))
        self.assertEqual(bimtsure.read_plan(bytearray(filed)), (3, EXAMPLE, [0, 1]))

    def test_waiting_is_between_the_first_slot_and_the_last(self):
        both = [(0, 1), (0, 1)]
        self.assertEqual(bimtsure.waiting(2, both, [0, 65535], 0), 65534)
        self.assertEqual(bimtsure.waiting(2, both, (65535, 0), 1), 65534)
        self.assertEqual(bimtsure.waiting(2, both, [65535, 65535], 0), 0)
        self.assertEqual(bimtsure.waiting(1, [(0, 0)], [3], 0), 0)
        self.assertEqual(bimtsure.waiting(3, [(0, 1)], [9], 2), 0)
        # 5 and 9, however often: 6, 7 and 8 are between
        self.assertEqual(bimtsure.waiting(2, [(0, 1)] * 4, [9, 5, 5, 9], 0), 3)
        # 0 and 3 are party 1's, 2 is another's; what stands behind the appointments is nobody's
        three = [(0, 1), (1, 2), (0, 2)]
        self.assertEqual(bimtsure.waiting(3, three, [0, 3, 2], 1), 2)
        self.assertEqual(bimtsure.waiting(3, three, iter([0, 3, 2, 1, 65535]), 1), 2)

    def test_many_are_asked_for_together(self):
        self.assertEqual(bimtsure.ask_many(3, EXAMPLE, [0, 1], range(3)), [(1, 0, 0), (2, 0, 1), (1, 1, 1)])
        self.assertEqual(bimtsure.ask_many(3, EXAMPLE, [0, 1], iter([1]))[0], Asked(load=2, lowest=0, highest=1))
        # any slots, clashes too; what stands behind the appointments is nobody's
        self.assertEqual(bimtsure.ask_many(3, [(0, 1), (2, 0)], (9, 5, 0, 65535), [0, 2]), [(2, 5, 9), (1, 5, 5)])
        self.assertEqual(bimtsure.ask_many(3, [(0, 1), (0, 2)], [5, 5], [0]), [(2, 5, 5)])
        # one with itself, one with load 0, and one that is asked for twice
        self.assertEqual(bimtsure.ask_many(2, [(0, 0)], [5], [0, 1, 0]), [(2, 5, 5), (0, None, None), (2, 5, 5)])
        # a slot like any other
        self.assertEqual(bimtsure.ask_many(2, [(0, 1)], [65535], [0]), [(1, 65535, 65535)])
        self.assertEqual(bimtsure.ask_many(1, [(0, 0)] * 4096, [7] * 4096, [0] * 64), [(8192, 7, 7)] * 64)
        self.assertEqual(bimtsure.ask_many(1024, [], [], [1023]), [(0, None, None)])
        self.assertEqual(bimtsure.ask_many(0, [], [], []), [])

    def test_the_shape_of_rustworkx(self):
        edges = [(0, 1), (1, 2), (2, 3), (3, 0)]
        self.assertEqual(bimtsure.graph_bipartite_edge_color(4, edges), {0: 0, 1: 1, 2: 0, 3: 1})
        self.assertEqual(bimtsure.graph_bipartite_edge_color(0, []), {})
        with self.assertRaises(GraphNotBipartite):
            bimtsure.graph_bipartite_edge_color(3, [(0, 1), (1, 2), (2, 0)])

    def test_refusals_of_the_planning_call_and_of_needs(self):
        for call in [bimtsure.plan, bimtsure.needs]:
            self.refused(1, 0, call, 1025, [])
            self.refused(3, 0, call, 2, [(0, 1)] * 4097)
            said = self.refused(4, 6, call, 2, [(0, 1)] * 6 + [(0, None)])
            self.assertEqual(said, "appointment 6: an end is blank")
            said = self.refused(5, 1, call, 2, [(0, 1), (2, 1)])
            self.assertEqual(said, "appointment 1: an end is not below the number of parties")
            self.refused(6, 0, call, 3, [(0, 1)] * 2731)
            self.assertEqual(call(3, [(0, 1)] * 2730)[0], 2730)
        self.refused(9, 0, bimtsure.plan, 1, [(0, 0)])

    def test_refusals_of_the_desks_calls(self):
        self.refused(7, 0, bimtsure.view, EXAMPLE, [0], 1)
        self.refused(1, 0, bimtsure.file_plan, 1025, EXAMPLE, [0, 1])
        self.refused(3, 0, bimtsure.file_plan, 3, [(0, 1)] * 4097, [0] * 4097)
        self.refused(7, 0, bimtsure.file_plan, 3, EXAMPLE, [0])
        self.refused(12, 0, bimtsure.read_plan, b"\3\0\1\0")
        self.refused(12, 0, bimtsure.read_plan, b"")
        self.refused(1, 0, bimtsure.read_plan, b"\1\4\0\0")
        self.refused(3, 0, bimtsure.read_plan, struct.pack("<2H", 2, 4097) + bytes(6 * 4097))

    def test_refusals_of_waiting(self):
        said = self.refused(5, 0, bimtsure.waiting, 3, EXAMPLE, [0, 1], 3)
        self.assertEqual(said, "party 3 is not below the number of parties")
        said = self.refused(5, 0, bimtsure.waiting, 0, [], [], 0)
        self.assertEqual(said, "party 0 is not below the number of parties")
        # the list's 5 is told of the list, also at position 0
        for party in [0, 3]:
            said = self.refused(5, 0, bimtsure.waiting, 3, [(0, 9)], [0], party)
            self.assertEqual(said, "appointment 0: an end is not below the number of parties")
        said = self.refused(7, 0, bimtsure.waiting, 3, EXAMPLE, [0], 1)
        self.assertEqual(said, "fewer slot entries than appointments")
        # 7 before the party's 5, and behind all that the list is refused by
        self.refused(7, 0, bimtsure.waiting, 2, [(0, 1)], [], 9)
        self.refused(5, 0, bimtsure.waiting, 2, [(0, 1)], [0], 9)
        self.refused(1, 0, bimtsure.waiting, 1025, EXAMPLE, [], 9999)
        self.refused(3, 0, bimtsure.waiting, 2, [(0, 1)] * 4097, [], 9)
        self.refused(4, 1, bimtsure.waiting, 3, [(0, 1), (None, 2)], [], 9)
        self.refused(5, 1, bimtsure.waiting, 2, EXAMPLE, [], 9)

    def test_refusals_of_asking_for_many(self):
        said = self.refused(14, 0, bimtsure.ask_many, 3, EXAMPLE, [0, 1], [0] * 65)
        self.assertEqual(said, "more than 64 parties asked for")
        said = self.refused(15, 1, bimtsure.ask_many, 3, EXAMPLE, [0, 1], [2, 3, 0, 9])
        self.assertEqual(said, "query 1: a party asked for is not below the number of parties")
        self.refused(15, 0, bimtsure.ask_many, 0, [], [], [0])
        # 15 behind 14, 14 behind 7, and 7 behind all that the list is refused by
        self.refused(14, 0, bimtsure.ask_many, 3, EXAMPLE, [0, 1], [9] * 65)
        self.refused(7, 0, bimtsure.ask_many, 3, EXAMPLE, [0], [9] * 65)
        self.refused(1, 0, bimtsure.ask_many, 1025, EXAMPLE, [], [9999] * 65)
        self.refused(3, 0, bimtsure.ask_many, 2, [(0, 1)] * 4097, [], [9] * 65)
        self.refused(4, 1, bimtsure.ask_many, 3, [(0, 3), (None, 2)], [], [9] * 65)
        self.refused(5, 1, bimtsure.ask_many, 2, EXAMPLE, [], [9] * 65)

    def test_a_refusal_can_be_pickled(self):
        for refusal in [Refused(4, 6), Refused(5, 0, "party 3"), Refused(15, 2), GraphNotBipartite(9, 0)]:
            again = pickle.loads(pickle.dumps(refusal))
            self.assertEqual((type(again), again.number, again.place, str(again)),
                             (type(refusal), refusal.number, refusal.place, str(refusal)))


class Mistakes(Trying):
    """What an honest script could do wrong. None of it may be planned."""

    def test_a_zeroed_buffer(self):
        # there is none to forget ends in: what isn't given isn't there, and what isn't known is None
        self.wrong(ValueError, bimtsure.plan, 2, [(0, 1), ()])
        self.wrong(ValueError, bimtsure.plan, 2, [(0, 1), None])
        self.refused(4, 1, bimtsure.plan, 2, [(0, 1), (None, None)])

    def test_an_empty_name_numbered_like_a_name(self):
        for text in ["", "0", "1", "bay 1"]:
            self.wrong(TypeError, bimtsure.plan, 2, [(0, 1), (0, text)])
            self.wrong(TypeError, bimtsure.plan, 2, [(0, 1), (text, 1)])
        self.wrong(TypeError, bimtsure.plan, 2, ["01"])
        self.wrong(TypeError, bimtsure.plan, 2, [b"\0\1"])
        self.wrong(TypeError, bimtsure.plan, 2, "01")

    def test_names_by_get(self):
        number = {name: n for n, name in enumerate(["Smith", "Jones", "bay 1", "bay 2"])}
        asked = [("Smith", "bay 1"), ("Jones", "bay 1"), ("", "bay 2")]
        numbered = [(number.get(a), number.get(b)) for a, b in asked]
        self.assertEqual(self.refused(4, 2, bimtsure.plan, 4, numbered), "appointment 2: an end is blank")

    def test_ends_that_16_bits_would_cut(self):
        for end in [65534, 65535, 65536, 65537, 1 << 32, 1 << 64, 10**30]:
            self.refused(5, 1, bimtsure.plan, 2, [(0, 1), (0, end), (0, end)])
            self.refused(5, 1, bimtsure.plan, 2, [(0, 1), (end, 0)])
            self.refused(5, 1, bimtsure.needs, 2, [(0, 1), (end, 0)])
            self.refused(4, 2, bimtsure.plan, 2, [(0, 1), (0, end), (0, None)])
            self.refused(1, 0, bimtsure.plan, 1025, [(0, 1), (0, end)])
            self.refused(5, 1, bimtsure.waiting, 2, [(0, 1), (0, end)], [0, 1], 0)
            self.refused(5, 0, bimtsure.waiting, 2, EXAMPLE[:1], [0], end)
            self.refused(5, 1, bimtsure.ask_many, 2, [(0, 1), (0, end)], [0, 1], [0])
            self.refused(15, 1, bimtsure.ask_many, 2, EXAMPLE[:1], [0], [0, end])
        for end in [65535, 65536, 65537, 1 << 32]:
            self.wrong(ValueError, bimtsure.file_plan, 2, [(0, end)], [0])
            self.wrong(ValueError, bimtsure.view, [(0, end)], [0], 0)
            self.wrong(ValueError, bimtsure.view, [(0, 1)], [0], end)

    def test_parties_that_16_bits_would_cut(self):
        for parties in [1025, 65535, 65536, 65537, 65538, 1 << 32, (1 << 64) + 2]:
            self.refused(1, 0, bimtsure.plan, parties, EXAMPLE[:1])
            self.refused(1, 0, bimtsure.needs, parties, EXAMPLE[:1])
            self.refused(1, 0, bimtsure.waiting, parties, EXAMPLE[:1], [0], 0)
            self.refused(1, 0, bimtsure.ask_many, parties, EXAMPLE[:1], [0], [0])
            self.refused(1, 0, bimtsure.file_plan, parties, EXAMPLE[:1], [0])
            self.refused(1, 0, bimtsure.graph_bipartite_edge_color, parties, EXAMPLE[:1])

    def test_slots_that_16_bits_would_cut(self):
        self.wrong(ValueError, bimtsure.file_plan, 3, EXAMPLE, [0, 65536])
        self.wrong(ValueError, bimtsure.view, EXAMPLE, [0, -1], 0)
        for slot in [-1, 65536, 65537, 1 << 32, 10**30]:
            self.wrong(ValueError, bimtsure.waiting, 3, EXAMPLE, [0, slot], 1)
            # behind the appointments too, and whatever the list is
            self.wrong(ValueError, bimtsure.waiting, 3, EXAMPLE, [0, 1, slot], 1)
            self.wrong(ValueError, bimtsure.waiting, 1025, EXAMPLE, [0, slot], 1)
            self.wrong(ValueError, bimtsure.ask_many, 3, EXAMPLE, [0, slot], [1])
            self.wrong(ValueError, bimtsure.ask_many, 3, EXAMPLE, [0, 1, slot], [])
        self.assertEqual(bimtsure.read_plan(bimtsure.file_plan(3, EXAMPLE, [0, 65535])).slots, [0, 65535])

    def test_more_asked_for_than_16_bits_count(self):
        for count in [65, 65535, 65536, 65537, 65600]:
            self.refused(14, 0, bimtsure.ask_many, 3, EXAMPLE, [0, 1], [0] * count)

    def test_numbers_below_0(self):
        for call in [bimtsure.plan, bimtsure.graph_bipartite_edge_color]:
            self.wrong(ValueError, call, -1, [])
            self.wrong(ValueError, call, 2, [(0, 1), (0, -1)])
        self.wrong(ValueError, bimtsure.waiting, 2, EXAMPLE[:1], [0], -1)
        self.wrong(ValueError, bimtsure.ask_many, 2, EXAMPLE[:1], [0], [0, -1])
        self.wrong(ValueError, bimtsure.view, EXAMPLE, [0, 1], -1)
        self.wrong(ValueError, bimtsure.file_plan, 2, [(0, -1)], [0])

    def test_what_is_no_whole_number(self):
        for value in [True, False, 1.0, 0.5, float("nan"), "1", "", b"1", [1], (0, 1), object()]:
            self.wrong(TypeError, bimtsure.plan, value, [])
            self.wrong(TypeError, bimtsure.plan, 2, [(0, value)])
            self.wrong(TypeError, bimtsure.needs, value, [])
            self.wrong(TypeError, bimtsure.waiting, 2, EXAMPLE[:1], [0], value)
            self.wrong(TypeError, bimtsure.waiting, 3, EXAMPLE, [0, value], 1)
            self.wrong(TypeError, bimtsure.ask_many, 3, EXAMPLE, [0, 1], [0, value])
            self.wrong(TypeError, bimtsure.ask_many, 3, EXAMPLE, [0, value], [0])
            self.wrong(TypeError, bimtsure.view, EXAMPLE, [0, value], 1)
            self.wrong(TypeError, bimtsure.view, EXAMPLE, [0, 1], value)
            self.wrong(TypeError, bimtsure.file_plan, 3, EXAMPLE, [0, value])
        for call in [bimtsure.plan, bimtsure.graph_bipartite_edge_color]:
            self.wrong(TypeError, call, None, [])
        self.wrong(TypeError, bimtsure.waiting, 2, EXAMPLE[:1], [0], None)
        self.wrong(TypeError, bimtsure.waiting, 3, EXAMPLE, [0, None], 1)
        # a name that isn't there, and a party where parties are asked for
        self.wrong(TypeError, bimtsure.ask_many, 3, EXAMPLE, [0, 1], [0, None])
        self.wrong(TypeError, bimtsure.ask_many, 3, EXAMPLE, [0, 1], 1)
        self.wrong(TypeError, bimtsure.ask_many, 3, EXAMPLE, [0, 1], "01")
        # as it was called before it needed the slots; and a plan is more than its slots
        self.wrong(TypeError, bimtsure.waiting, 3, EXAMPLE, 1)
        self.wrong(TypeError, bimtsure.waiting, 3, EXAMPLE, 1, 1)
        self.wrong(TypeError, bimtsure.waiting, 3, EXAMPLE, Plan(2, [0, 1]), 1)
        self.wrong(TypeError, bimtsure.file_plan, 3, EXAMPLE, [0, None])

    def test_a_blank_is_not_party_0(self):
        self.assertEqual(list(bimtsure.view([(0, 1), (None, 1)], [3, 4], 0)), [(0, 3)])
        self.assertEqual(list(bimtsure.view([(0, 1), (None, 1)], [3, 4], None)), [(1, 4)])

    def test_what_is_no_pair(self):
        for pair in [(), (0,), (0, 1, 2), 0, None]:
            for call in [bimtsure.plan, bimtsure.graph_bipartite_edge_color]:
                self.wrong(ValueError, call, 3, [(0, 1), pair])
            self.wrong(ValueError, bimtsure.view, [pair], [0], 0)
        for pair in [{0, 1}, {0: 1, 1: 2}]:
            self.wrong(TypeError, bimtsure.plan, 3, [pair])

    def test_what_has_no_order(self):
        self.wrong(TypeError, bimtsure.plan, 3, set(EXAMPLE))
        self.wrong(TypeError, bimtsure.plan, 3, dict(enumerate(EXAMPLE)))
        self.wrong(TypeError, bimtsure.view, EXAMPLE, {0, 1}, 0)
        self.wrong(TypeError, bimtsure.file_plan, 3, EXAMPLE, {0: 0, 1: 1})
        self.wrong(TypeError, bimtsure.waiting, 3, EXAMPLE, {0, 1}, 1)
        self.wrong(TypeError, bimtsure.waiting, 3, EXAMPLE, {0: 0, 1: 1}, 1)
        self.wrong(TypeError, bimtsure.ask_many, 3, EXAMPLE, {0, 1}, [1])
        self.wrong(TypeError, bimtsure.ask_many, 3, EXAMPLE, [0, 1], {0, 1})
        self.wrong(TypeError, bimtsure.ask_many, 3, EXAMPLE, [0, 1], {0: 0, 1: 1})

    def test_a_number_of_bytes_is_no_filed_plan(self):
        for value in [4, "abcd", [3, 0, 0, 0], None]:
            self.wrong(TypeError, bimtsure.read_plan, value)

    def test_lists_that_are_taken(self):
        forwarder = enum.IntEnum("Forwarder", {"SMITH": 0, "JONES": 2})
        self.assertEqual(bimtsure.plan(3, [[forwarder.SMITH, 1], [1, forwarder.JONES]]).slots, [0, 1])
        self.assertEqual(bimtsure.plan(3, iter(EXAMPLE)).slots, [0, 1])


if __name__ == "__main__":
    unittest.main()
