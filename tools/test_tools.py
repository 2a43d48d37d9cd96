#!/usr/bin/env python3
"""Tests of the tools: python3 tools/test_tools.py"""

import itertools
import pathlib
import re
import subprocess
import sys
import types
import unittest
from unittest import mock
from xml.dom import minidom

import channel
import checks
import draw
import listing
import make_records
import reports
import second_report
import second_router
import three_pin_channels
from second_board import Board
from second_channel import MANY_PIN, THREE_PIN, TWO_PIN, density, family, refusal, span
from second_checker import check
from second_record import canonical, read_record, renumbered
from second_steps import Sweep
from second_sweep import need, route, route_number
from second_widest import widest

HERE = pathlib.Path(__file__).resolve().parent
CRATES = HERE.parent / "crates"
DOCS = HERE.parent / "docs"

CASE_D = bytes.fromhex("0C 00 01 00 02 00 01 00 02 00 02 00 01 00")
LISTING_D = "density 2 tracks 2 width 3\n1: 2 0 1 | 2 1\n2: 1 2 2 | 1 1\n3: 0 1 0 | 0 0\n"


def small_channels(n, pins):
    """The channels of n columns with nets numbered in the order of their first pin, of at most as many pins each."""
    for terminals in itertools.product(range(n + 1), repeat=2 * n):
        top, bottom = list(terminals[::2]), list(terminals[1::2])
        if not refusal(top, bottom) and renumbered(top, bottom) == (top, bottom) and all(terminals.count(net) <= pins for net in range(1, n + 1)):
            yield top, bottom


def terminals(top, bottom, net):
    """The terminals of a net: columns, from 1, and sides, 0 for top and 1 for bottom."""
    return [(column, side) for side, pins in enumerate((top, bottom)) for column, number in enumerate(pins, 1) if number == net]


class Channel(unittest.TestCase):
    def test_case_d(self):
        rows = channel.rows_of_text("# case D\ntop 1 2\nbottom 2 1\n")
        self.assertEqual(rows, ([1, 2], [2, 1]))
        self.assertEqual(channel.record_of_rows(*rows), CASE_D)
        self.assertEqual(channel.rows_of_record(CASE_D), rows)

    def test_back_and_forth(self):
        for top, bottom in [([], []), ([0], [0]), ([256, 0, 7], [7, 256, 0])]:
            text = channel.text_of_rows(top, bottom)
            self.assertEqual(channel.rows_of_text(text), (top, bottom))
            record = channel.record_of_rows(top, bottom)
            self.assertEqual(channel.rows_of_record(record), (top, bottom))

    def test_refused(self):
        for text in ["top 1 1\n", "top 1\ntop 1\n", "top x\nbottom 1\n", "top 65536\nbottom 0\n", "top -1\nbottom 0\n"]:
            with self.assertRaises(ValueError):
                channel.rows_of_text(text)
        with self.assertRaisesRegex(ValueError, "bottom row: '1_0' is not a number"):
            channel.rows_of_text("top 1\nbottom 1_0\n")
        for top, bottom in [([1], [1, 1]), ([0] * 16383, [0] * 16383)]:
            with self.assertRaises(ValueError):
                channel.record_of_rows(top, bottom)
        for record in [b"", CASE_D[:-1], CASE_D[:-2], CASE_D + b"\0\0"]:
            with self.assertRaises(ValueError):
                channel.rows_of_record(record)

    def called(self, words, given):
        """Status, output and errors of a call of the tool."""
        command = [sys.executable, HERE / "channel.py", *words.split()]
        run = subprocess.run(command, input=given, capture_output=True, timeout=60)
        return run.returncode, run.stdout, run.stderr

    def test_canonical(self):
        text, record = b"top 9 4\nbottom 4 9\n", channel.record_of_rows([9, 4], [4, 9])
        self.assertEqual(self.called("", text), (0, record, b""))
        self.assertEqual(self.called("--back", record), (0, b"top    9 4\nbottom 4 9\n", b""))
        self.assertEqual(self.called("--canonical", text), (0, CASE_D, b""))
        self.assertEqual(self.called("--canonical --hex", text), (0, CASE_D.hex(" ").upper().encode() + b"\n", b""))
        self.assertEqual(self.called("--canonical --back", record), (0, b"top    1 2\nbottom 2 1\n", b""))

    def test_canonical_refused(self):
        wide = "top" + " 0" * 257 + "\nbottom" + " 0" * 257
        for text, number in [("top 1\nbottom", 4), (wide, 5), ("top 257 257\nbottom 0 0", 6), ("top 1\nbottom 0", 7)]:
            self.assertEqual(self.called("--canonical", text.encode()), (1, b"", b"channel.py: refused %d\n" % number))


class Listing(unittest.TestCase):
    def test_case_d(self):
        drawing = listing.read(LISTING_D)
        self.assertEqual((drawing.density, drawing.tracks, drawing.width), (2, 2, 3))
        self.assertEqual(len(list(drawing.edges())), 10)
        self.assertEqual(sorted(drawing.pins()), [(1, (1, 3)), (1, (2, 0)), (2, (1, 0)), (2, (2, 3))])

    def test_refused(self):
        for text in ["", "refused 7\n", LISTING_D[:-20], LISTING_D.replace("|", "")]:
            with self.assertRaises(ValueError):
                listing.read(text)


class Stored(unittest.TestCase):
    """The input and the expected output of each program are what its maker makes, byte for byte."""

    def held(self, program, made):
        for name, content in zip(("stdin", "stdout"), made):
            content = content if isinstance(content, bytes) else content.encode()
            stored = (CRATES / program / name).read_bytes()
            self.assertTrue(stored == content, f"crates/{program}/{name} is not what its maker makes")

    def test_knee(self):
        self.held("knee", (CASE_D, LISTING_D))

    def test_listing_cases(self):
        self.held("listing_cases", make_records.stored())

    def test_report_cases(self):
        self.assertEqual((len(list(reports.worked())), len(list(reports.made()))), (1279, 53))
        self.held("report_cases", reports.stored())

    def test_check_cases(self):
        self.assertEqual((len(list(checks.worked())), len(list(checks.made()))), (2298, 202))
        self.held("check_cases", checks.stored())

    def test_no_program_without_a_maker(self):
        self.assertEqual({path.parent.name for path in CRATES.glob("*/stdout")}, {"knee", "listing_cases", "report_cases", "check_cases"})


class Routes(unittest.TestCase):
    """The second router, on the worked cases of job3-7-routes.txt, job3-7-listings.txt and job5-needs.txt and on other channels."""

    def parts(self, name):
        return second_router.blocks(HERE / "cases" / name)

    def test_worked_routes(self):
        parts = self.parts("job3-7-routes.txt")
        self.assertEqual([part for part in parts if not second_router.same_route(part)], [])
        drawn = [(second_router.row(part[0]), second_router.row(part[1])) for part in parts if not part[2].startswith("refused")]
        counts = [sum(family(*rows) == one for rows in drawn) for one in (TWO_PIN, THREE_PIN, MANY_PIN)]
        self.assertEqual((counts, len(parts) - len(drawn)), ([737, 340, 123], 35))

    def test_worked_listings(self):
        parts = self.parts("job3-7-listings.txt")
        self.assertEqual([part for part in parts if not second_router.same_listing(part)], [])
        self.assertEqual((len(parts), sum(part[1].startswith("refused") for part in parts)), (361, 33))

    def test_worked_needs(self):
        parts = self.parts("job5-needs.txt")
        self.assertEqual([part for part in parts if not second_router.same_need(part)], [])
        numbers = [second_router.figures(line)[1] for part in parts for line in part[3:]]
        self.assertEqual((len(parts), sum(part[2].startswith("refused") for part in parts)), (1670, 139))
        self.assertEqual((len(numbers), numbers.count(8), numbers.count(0)), (6882, 2737, 3867))

    def test_need_without_added_columns(self):
        top, bottom = [1, 1], [2, 2]  # on 2 tracks in 2 columns, where document 01's formula has 15 entries
        self.assertEqual((need(top, bottom), route_number(top, bottom, 9), route_number(top, bottom, 10)), (10, 8, 0))

    def test_another_need_differs(self):
        stated = ["top 1 1", "bottom 2 2", "need 10", "slice 9 number 8", "slice 10 number 0"]
        refused = ["top 1", "bottom 0", "refused 7", "slice 0 number 7"]
        self.assertTrue(second_router.same_need(stated) and second_router.same_need(refused))
        for place, line in [(2, "need 15"), (2, "refused 7"), (3, "slice 9 number 0"), (4, "slice 10 number 8")]:
            self.assertFalse(second_router.same_need(stated[:place] + [line] + stated[place + 1 :]))
        for other in (stated[:3], refused[:3], refused[:2] + ["refused 6"] + refused[3:], refused[:3] + ["slice 0 number 8"], refused[:2] + stated[2:]):
            self.assertFalse(second_router.same_need(other))

    def test_another_answer_differs(self):
        drawn = ["top 1 2 1", "bottom 2 1 2", "density 2 tracks 3 width 4", "sum 401", "layout 2 0 1 1 2 1 0 1 2 2 2 1 1 2 2 1 1 1 2 0 2 0 2 2 0 0 0 0"]
        refused = ["top 1", "bottom 0", "refused 7"]
        self.assertTrue(second_router.same_route(drawn) and second_router.same_route(drawn[:4]) and second_router.same_route(refused))
        for place, line in [(2, "density 3 tracks 3 width 4"), (2, "density 2 tracks 2 width 4"), (2, "density 2 tracks 3 width 3"), (3, "sum 400")]:
            self.assertFalse(second_router.same_route(drawn[:place] + [line] + drawn[place + 1 :]))
        for other in (drawn[:4] + [drawn[4][:-1] + "1"], drawn[:3], drawn[:2] + ["refused 7"], refused[:2] + ["refused 6"], refused[:2] + drawn[2:]):
            self.assertFalse(second_router.same_route(other))

    def test_families(self):
        families = [family(*rows) for rows in three_pin_channels.channels()]
        self.assertEqual(families, [THREE_PIN] * 65 + [MANY_PIN] * 2 + [THREE_PIN] + [MANY_PIN])
        self.assertEqual(family([], []), TWO_PIN)
        self.assertEqual([family(top, bottom) for top, bottom in make_records.CASES[5:8]], [THREE_PIN] * 3)

    def test_third_sweep_draws_solutions(self):
        for top, bottom in three_pin_channels.channels():
            d, t, w, layout = route(top, bottom)
            self.assertEqual((refusal(top, bottom), check(top, bottom, w, t, layout)), (0, (0, 0, 0, 0)))
            self.assertEqual(t, 3 * d // 2 if family(top, bottom) == THREE_PIN else 2 * d - 1)
            self.assertLessEqual(w, len(top) + t // 2)

    def test_empty_columns(self):
        families = [family(*rows) for rows in make_records.EMPTY_COLUMNS]
        self.assertEqual(families, [TWO_PIN] * 5 + [THREE_PIN] * 6 + [MANY_PIN] * 6)
        drawn = []
        for top, bottom in make_records.EMPTY_COLUMNS:
            _, t, w, layout = route(top, bottom)
            self.assertEqual(check(top, bottom, w, t, layout), (0, 0, 0, 0))
            self.assertLessEqual(w, len(top) + t // 2)
            verticals = [layout[c * (2 * t + 1) : c * (2 * t + 1) + t + 1] for c in range(len(top)) if not top[c] and not bottom[c]]
            drawn.append((w, [max(column) for column in verticals]))
        # The widths, and the net that is joined in each empty column.
        self.assertEqual(drawn[:5], [(7, [1]), (3, [2]), (5, [1]), (6, [1, 5]), (6, [3])])
        self.assertEqual(drawn[5:11], [(4, [5]), (6, [4, 0]), (7, [3, 0]), (6, [4]), (7, [4]), (10, [0, 4])])
        self.assertEqual(drawn[11:], [(4, [2]), (5, [0]), (9, [0, 5]), (5, [3]), (7, [2]), (8, [2])])

    def test_examples_of_the_rules(self):
        shown = re.findall("```\\n(top.*?\\n)\\n(density.*?)```", (DOCS / "THREE-PIN.md").read_text(), re.DOTALL)
        self.assertEqual(len(shown), 4)
        for rows, text in shown:
            self.assertEqual(second_router.listing(channel.record_of_rows(*channel.rows_of_text(rows))), text)


class Beginnings(unittest.TestCase):
    """The first columns of two drawings, by the second router, on the worked cases of job9-pairs.txt and on other channels."""

    def test_worked_pairs(self):
        parts = second_router.blocks(HERE / "cases" / "job9-pairs.txt")
        self.assertEqual([part for part in parts if not second_router.same_pair(part)], [])
        agreed = [second_router.row(part[4])[0] for part in parts]
        self.assertEqual((len(parts), sum(k > 0 for k in agreed), max(agreed)), (1808, 1486, 40))

    def test_another_pair_differs(self):
        pair = ["top 1 2", "bottom 2 1", "top 1 2 0 3", "bottom 2 1 0 3", "same 2", "sum 73"]
        self.assertTrue(second_router.same_pair(pair))
        for place, line in [(0, "top 2 1"), (0, "top 1 4"), (2, "top 1 2 3 3"), (3, "bottom 2 1 0 4"), (4, "same 1"), (4, "same 3"), (5, "sum 74")]:
            self.assertFalse(second_router.same_pair(pair[:place] + [line] + pair[place + 1 :]))

    def test_pairs(self):
        alike = []
        for one, other, k in make_records.BEGINNINGS:
            self.assertEqual([pins[:k] for pins in one], [pins[:k] for pins in other])
            (d, first), (other_d, other_first) = second_router.first_columns(*one, k), second_router.first_columns(*other, k)
            self.assertEqual((family(*one), d, len(first)), (family(*other), other_d, len(other_first)))
            alike.append((family(*one), first == other_first))
        self.assertEqual(alike, [(TWO_PIN, True)] * 2 + [(THREE_PIN, False), (MANY_PIN, False)])

    def test_other_density(self):
        one, other = ([1, 1], [0, 0]), ([1, 2, 1], [0, 0, 2])  # the first column agrees
        self.assertEqual((second_router.first_columns(*one, 1), second_router.first_columns(*other, 1)), ((1, [0, 1, 1]), (2, [0, 1, 1, 1, 0])))

    def beginnings(self, pins):
        """For each density and first columns of the small channels, how many different first columns their drawings have."""
        drawn = {}
        for n in range(5):
            for top, bottom in small_channels(n, pins):
                for k in range(n + 1):
                    d, first = second_router.first_columns(top, bottom, k)
                    drawn.setdefault((d, tuple(top[:k]), tuple(bottom[:k])), set()).add(tuple(first))
        return [len(firsts) for firsts in drawn.values()]

    def test_all_small_channels(self):
        self.assertEqual(self.beginnings(2), [1] * 1233)
        self.assertGreater(max(self.beginnings(3)), 1)


class Driven:
    """A sweep of a channel that is accepted, with a slice of just the length that it needs."""

    def __init__(self, top, bottom):
        self.sweep = Sweep()
        _, _, length = self.sweep.start(top, bottom)
        self.layout = [-1] * length

    def step(self, k):
        """What a step with the slice answers."""
        return self.sweep.step(self.layout, k)

    def drawing(self):
        """Tracks, width and entries of the drawing."""
        return self.sweep.tracks, self.sweep.drawn, self.layout[: self.sweep.drawn * (2 * self.sweep.tracks + 1)]


# Faults that the worked cases find: what a text has, and what it has instead. First those in the placing of a net, which sweep and board share.
PLACING_FAULTS = [
    ("1 <= net", "0 <= net"),
    ("<= LARGEST", "<= LARGEST + 1"),
    ("rows[0] + rows[1]", "rows[0]"),
    ("one == other or ", ""),
    (" or not allowed(rows, drawn, other)", ""),
    ("drawn < column", "drawn + 1 < column"),
    ("<= len(rows[0])", "< len(rows[0])"),
    (" and rows[side][column - 1] == 0", ""),
]
SWEEP_FAULTS = [
    ("count != 2", "count < 2"),  # nets of three pins
    ("            self.begin([], [])\n", ""),  # a refused start leaves what was
    ("t // 2", "(t + 1) // 2"),
    ("t // 2", "0"),
    ("if len(layout)", "if k and len(layout)"),
    ("if len(layout)", "if not self.finished() and len(layout)"),
    ("< self.length()", "< self.length() - 1"),
    ("return 8, 0, False", "return 8, self.drawn, self.finished()"),
    (" and not any(self.strands.values())", ""),  # no added columns
    ("layout[self.drawn * len(entries) : (self.drawn + 1) * len(entries)] = entries", "layout[: len(entries)] = entries"),
    ("k -= 1", "k -= 2"),
    ("two_pin_column if pins.here() else empty_column", "two_pin_column if pins.here() else lambda *_: None"),
    ("if number == 0", "if number in (0, 23)"),  # a refused net stays
    ("if used(rows, net)", "if used((rows[0][drawn:], rows[1][drawn:]), net)"),  # the number of a net that is drawn
    ("drawn < column", "drawn <= column"),
    ("> self.tracks", "> self.tracks + 1"),
    ("> self.tracks", ">= self.tracks"),
    ("return 23", "return 0"),
]
BOARD_FAULTS = [
    ("columns > LARGEST", "columns > LARGEST + 1"),
    ("            columns = 0\n", "            return number\n"),  # a refused start leaves what was
    ("number == 0", "number in (0, 21)"),  # a refused net stays
    ("if not numbered(net):\n            return 6\n        ", ""),
    ("return 24", "return 0"),
    ("drawn < column", "-len(rows[0]) < column"),  # column 0
    ("for pins in self.rows)", "for pins in self.rows[:1]) + self.rows[1:]"),  # a bottom pin stays
    ("0 if number == net else number for", "0 if number >= net else number for"),  # other nets dropped too
    ("density(*self.rows)", "density(*self.rows) + 1"),
    ("density(*self.rows)", "density(self.rows[0][1:], self.rows[1][1:])"),  # no gap 1
    ("density(*self.rows)", "max(map(self.count, range(1, len(self.rows[0]) - 1)), default=0)"),  # no last gap
    ("top[:gap] + bottom[:gap]", "top[: gap + 1] + bottom[: gap + 1]"),
    ("top[gap:] + bottom[gap:]", "top[gap + 1 :] + bottom[gap + 1 :]"),
    ("top[:gap] + bottom[:gap]", "top[:gap]"),
    (" - {0}", ""),
]
WIDEST_FAULTS = [
    ("refused_lengths(top, bottom)", "(5 if len(top) > 256 else refused_lengths(top, bottom))"),  # 5 before 4
    ("refused_lengths(top, bottom)", "refused_lengths(top, bottom, 257)"),
    ("refused_lengths(top, bottom)", "refused_lengths(top, bottom, 255)"),
    ("import refused_lengths", "import refusal as refused_lengths"),  # what the rows hold is read
    ("return number, 0", "return number, len(top) // 2"),
    ("    if number:\n", "    top[:1] = [0]\n    if number:\n"),  # a refused row is written
    ("n // 2", "(n + 1) // 2"),
    ("range(1, n, 2)", "range(1, n - 2, 2)"),  # a pair of nets fewer
    ("(net + 1, net)", "(net, net + 1)"),  # just as wide, but another channel
    ("(below, above) for", "(above, below) for"),  # not crossed
    ("[(0, 0)] * (n % 2) + begun + [(below, above) for above, below in begun]", "begun + [(below, above) for above, below in begun] + [(0, 0)] * (n % 2)"),
    ("top[column], bottom[column] = pins", "top[column] = pins[0]"),
]


def planted(user, there, instead):
    """The names of a module, with a fault in its text or in that of the placing of nets."""
    placing, text = ((HERE / name).read_text() for name in ("second_placing.py", user))
    if (placing + text).count(there) != 1:
        raise AssertionError("not once in the texts: " + there)
    faulty, names = types.ModuleType("second_placing"), {}
    exec(placing.replace(there, instead), vars(faulty))
    with mock.patch.dict(sys.modules, second_placing=faulty):
        exec(text.replace(there, instead), names)
    return names


class Steps(unittest.TestCase):
    """The sweep column by column, with late nets, on the worked cases of job10-steps.txt and job10-13-short.txt and on other channels."""

    steps = second_router.blocks(HERE / "cases" / "job10-steps.txt")
    short = second_router.blocks(HERE / "cases" / "job10-13-short.txt")

    def numbers(self, parts, word):
        """The numbers that the calls of a word answer: the one after the word `start`, else the last one."""
        lines = [line.split(" ") for part in parts for line in part if line.startswith(word)]
        return [int(line[1 if word == "start " else -1]) for line in lines]

    def test_worked_steps(self):
        self.assertEqual([part for part in self.steps if not second_router.same_steps(part)], [])
        starts, places = self.numbers(self.steps, "start "), self.numbers(self.steps, "place ")
        self.assertEqual(([starts.count(number) for number in (0, 4, 5, 6, 7)], len(starts)), ([605, 8, 1, 7, 20], 641))
        self.assertEqual(([places.count(number) for number in (0, 6, 21, 22, 23)], len(places)), ([412, 346, 37, 1056, 65], 1916))
        self.assertEqual(len(self.numbers(self.steps, "step ")), 2787)

    def test_worked_short_slices(self):
        parts = [part for part in self.short if not second_router.is_game(part)]
        self.assertEqual([part for part in parts if not second_router.same_steps(part)], [])
        self.assertEqual((len(parts), len(self.short) - len(parts)), (83, 100))
        self.assertEqual((len(self.numbers(parts, "step ")), self.numbers(parts, "short step ")), (457, [8] * 195))

    def test_late_nets_change_the_width(self):
        accepted = [part for part in self.steps if part[2].startswith("start 0 ")]
        widths = [(route(second_router.row(part[0]), second_router.row(part[1]))[2], self.numbers([part], "finished ")[0]) for part in accepted]
        self.assertEqual(sum(first != last for first, last in widths), 22)

    def test_faults_are_found(self):
        parts = [part for part in self.steps + self.short if not second_router.is_game(part)]
        for there, instead in PLACING_FAULTS + SWEEP_FAULTS:
            with self.subTest(there=there, instead=instead):
                faulty = planted("second_steps.py", there, instead)["Sweep"]
                self.assertFalse(all(second_router.same_steps(part, faulty) for part in parts))

    def test_another_case_differs(self):
        # Nets 1 and 2 of case D, then a late net 3.
        case = ["top 1 2 0 0", "bottom 2 1 0 0", "start 0 tracks 2 slice 25", "step 0 drawn 0", "short step 1 number 8", "place 2 3 0 4 0 number 21"]
        case += ["step 2 drawn 2", "place 3 3 1 4 0 number 0", "place 3 3 0 4 1 number 21", "place 4 2 0 4 1 number 22", "step 9 drawn 4"]
        case += ["finished width 4", "top 1 2 0 3", "bottom 2 1 3 0", "sum 265", "layout 2 0 1 2 1 1 2 2 1 1 3 1 0 3 0 0 3 3 0 0"]
        refused = ["top 1 1 1", "bottom 0 0 0", "start 7 tracks 0 slice 0"]
        self.assertTrue(second_router.same_steps(case) and second_router.same_steps(case[:-1]) and second_router.same_steps(refused))
        others = [(2, "start 7 tracks 0 slice 0"), (2, "start 0 tracks 3 slice 25"), (2, "start 0 tracks 2 slice 20"), (3, "step 1 drawn 0"), (3, "step 0 drawn 1")]
        others += [(4, "step 1 drawn 0"), (4, "short step 1 number 0"), (5, "place 2 3 0 4 0 number 22"), (6, "step 2 drawn 3"), (6, "step 3 drawn 3")]
        others += [(7, "place 3 3 1 4 1 number 0"), (7, "place 3 3 1 4 0 number 23"), (9, "place 4 3 0 4 1 number 22"), (10, "step 1 drawn 3")]
        others += [(11, "finished width 3"), (11, "finished width 5"), (12, "top 1 2 0 0"), (13, "bottom 2 1 0 0"), (14, "sum 266")]
        others += [(15, case[15][:-1] + "1"), (15, case[15] + " 0")]
        for place, line in others:
            with self.subTest(line):
                self.assertFalse(second_router.same_steps(case[:place] + [line] + case[place + 1 :]))
        for other in (case[:11], case[:10] + case[11:], case[:14], refused[:2] + ["start 6 tracks 0 slice 0"], refused + case[3:], refused[:2] + case[2:]):
            self.assertFalse(second_router.same_steps(other))

    def test_refused_start(self):
        wide = [0] * 257
        for top, bottom, number in [([1], [1, 1], 4), (wide, wide, 5), ([257, 257], [0, 0], 6), ([1], [0], 7), ([1, 1, 1], [0, 0, 0], 7)]:
            driven = Driven([1, 2], [2, 1])
            sweep = driven.sweep
            self.assertEqual((driven.step(1), sweep.start(top, bottom)), ((0, 1, False), (number, 0, 0)))
            self.assertEqual((sweep.finished(), sweep.step([], 3)), (True, (0, 0, True)))
            self.assertEqual((sweep.place(0, (1, 0), (1, 1)), sweep.place(1, (1, 0), (1, 1))), (6, 22))

    def test_short_slice(self):
        driven = Driven([1, 2], [2, 1])
        for drawn in range(5):
            lent = driven.layout[:-1]
            answers = [driven.sweep.step(lent, k) for k in (0, 1, 9)]
            self.assertEqual((answers, lent), ([(8, 0, False)] * 3, driven.layout[:-1]))
            self.assertEqual((driven.step(0), driven.step(1)), ((0, min(drawn, 3), drawn > 2), (0, min(drawn + 1, 3), drawn > 1)))

    def test_longer_slice(self):
        layout = [-1] * 17
        self.assertEqual((Driven([1, 2], [2, 1]).sweep.step(layout, 9), layout[15:]), ((0, 3, True), [-1, -1]))

    def test_order_of_refusals(self):
        driven = Driven([1, 0, 1, 0], [0, 0, 0, 0])
        place = driven.sweep.place
        driven.step(1)
        self.assertEqual([place(net, (0, 7), (0, 7)) for net in (0, 257, 65535, 1, 2)], [6, 6, 6, 21, 22])
        for terminal in [(0, 0), (1, 1), (3, 0), (5, 0), (65536, 1), (2, 2), (2, 65536)]:  # outside, drawn, not free, or on no side
            self.assertEqual((place(2, terminal, (4, 0)), place(256, (4, 0), terminal)), (22, 22))
        self.assertEqual((place(2, (4, 0), (4, 0)), place(2, (2, 0), (4, 0)), driven.sweep.rows), (22, 23, ([1, 0, 1, 0], [0, 0, 0, 0])))
        self.assertEqual((place(256, (4, 1), (3, 1)), place(2, (2, 1), (2, 0)), driven.sweep.rows), (0, 0, ([1, 2, 1, 0], [0, 2, 256, 256])))
        self.assertEqual((driven.step(3), place(1, (4, 0), (4, 0)), place(5, (4, 0), (4, 0))), ((0, 4, True), 21, 22))
        self.assertEqual(driven.drawing(), route(*driven.sweep.rows)[1:])

    def test_all_small_channels(self):
        channels = [rows for n in range(5) for rows in small_channels(n, 2)]
        for top, bottom in channels:
            for group in [(1, 1, 1, 1, 1, 1), (0, 2, 1, 0, 3), (3, 3), (9,)]:
                driven = Driven(top, bottom)
                answers = [driven.step(k) for k in group]
                self.assertEqual(driven.drawing(), route(top, bottom)[1:])
                self.assertEqual(answers, [(0, drawn, drawn == driven.sweep.drawn) for _, drawn, _ in answers])
        self.assertEqual(len(channels), 853)

    def late(self, top, bottom, nets, latest):
        """The sweep of a channel, some nets of which are late, all placed before the first column or each just before that of its first pin; the last number."""
        driven, ends = Driven(*([0 if net in nets else net for net in pins] for pins in (top, bottom))), span(top, bottom)
        for net in sorted(nets, key=ends.get):
            driven.step(ends[net][0] - 1 - driven.sweep.drawn if latest else 0)
            number = driven.sweep.place(net, *terminals(top, bottom, net))
            if number:
                return driven, number
        driven.step(9)
        return driven, 0

    def test_all_small_late_nets(self):
        numbers = []
        for top, bottom in (rows for n in range(5) for rows in small_channels(n, 2)):
            used = span(top, bottom)
            for nets in (nets for count in range(1, len(used) + 1) for nets in itertools.combinations(used, count)):
                for latest in (False, True):
                    driven, number = self.late(top, bottom, nets, latest)
                    self.assertEqual(number == 0, driven.sweep.tracks == density(top, bottom))
                    if number == 0:
                        self.assertEqual((driven.sweep.rows, driven.sweep.finished(), driven.drawing()), ((top, bottom), True, route(top, bottom)[1:]))
                    numbers.append(number)
        self.assertEqual(([numbers.count(number) for number in (0, 23)], len(numbers)), ([2800, 8088], 10888))


class Boards(unittest.TestCase):
    """The channel on the drawing board, on the worked cases of job11-boards.txt and on other changes."""

    parts = second_router.blocks(HERE / "cases" / "job11-boards.txt")

    def numbers(self, word):
        """The numbers that the calls of a word answer."""
        return [int(line.split(" ")[-1]) for part in self.parts for line in part if line.startswith(word)]

    def test_worked_boards(self):
        self.assertEqual([part for part in self.parts if not second_router.same_board(part)], [])
        boards, added, dropped = self.numbers("board "), self.numbers("add "), self.numbers("drop ")
        self.assertEqual(([boards.count(number) for number in (0, 5)], len(boards)), ([102, 2], 104))
        self.assertEqual(([added.count(number) for number in (0, 6, 21, 22)], len(added)), ([1315, 373, 693, 1748], 4129))
        self.assertEqual(([dropped.count(number) for number in (0, 6, 24)], len(dropped)), ([1009, 98, 1034], 2141))
        self.assertEqual((len(self.numbers("density ")), len(self.numbers("count "))), (6270, 6678))

    def test_faults_are_found(self):
        for there, instead in PLACING_FAULTS + BOARD_FAULTS:
            with self.subTest(there=there, instead=instead):
                faulty = planted("second_board.py", there, instead)["Board"]
                self.assertFalse(all(second_router.same_board(part, faulty) for part in self.parts))

    def test_another_case_differs(self):
        case = ["board 3 number 0", "density 0", "add 7 1 0 3 1 number 0", "count 2 1", "add 7 2 0 2 1 number 21", "add 8 2 1 2 0 number 0", "density 1"]
        case += ["drop 9 number 24", "drop 7 number 0", "count 2 0", "add 7 3 1 2 1 number 22"]
        refused = ["board 257 number 5", "density 0", "count 1 0", "add 1 1 0 1 1 number 22"]
        self.assertTrue(second_router.same_board(case) and second_router.same_board(refused))
        others = [(0, "board 2 number 0"), (0, "board 3 number 5"), (1, "density 1"), (1, "count 1 1"), (2, "add 7 1 0 3 1 number 21")]
        others += [(2, "add 8 1 0 3 1 number 0"), (2, "add 7 1 0 1 1 number 0"), (3, "count 3 1"), (3, "count 2 2"), (4, "add 7 2 0 2 1 number 22")]
        others += [(5, "add 8 2 1 3 0 number 0"), (6, "density 2"), (7, "drop 9 number 0"), (7, "drop 8 number 0"), (8, "drop 7 number 24"), (8, "drop 8 number 0")]
        others += [(9, "count 2 1"), (9, "")]
        for place, line in others:
            with self.subTest(line):
                self.assertFalse(second_router.same_board(case[:place] + [line] + case[place + 1 :]))
        for other in (case[:8] + case[9:], ["board 257 number 0"], ["board 256 number 5"], refused[:1] + case[1:]):
            self.assertFalse(second_router.same_board(other))

    def test_start(self):
        board = Board()
        for columns, number in [(0, 0), (2, 0), (256, 0), (257, 5), (65536, 5), (3, 0)]:
            self.assertEqual((board.start(columns), board.density()), (number, 0))
            n = 0 if number else columns
            self.assertEqual(board.rows, ([0] * n, [0] * n))
            self.assertEqual(board.add(1, (1, 0), (2, 1)), 0 if n > 1 else 22)
            self.assertEqual([board.count(gap) for gap in (0, 1, 2, 255, 256, 65536)], [0, int(n > 1), 0, 0, 0, 0])

    def test_order_of_refusals(self):
        board = Board()
        board.start(4)
        self.assertEqual((board.add(1, (1, 0), (3, 0)), board.drop(2), board.drop(0), board.drop(257), board.drop(65536)), (0, 24, 6, 6, 6))
        self.assertEqual([board.add(net, (0, 7), (0, 7)) for net in (0, 257, 65536, 1, 2)], [6, 6, 6, 21, 22])
        for terminal in [(0, 0), (1, 0), (3, 0), (5, 0), (65536, 1), (2, 2), (2, 65536), (4, 0)]:  # outside, not free, on no side, or the other one
            self.assertEqual((board.add(2, terminal, (4, 0)), board.add(256, (4, 0), terminal)), (22, 22))
        self.assertEqual((board.rows, board.density()), (([1, 0, 1, 0], [0, 0, 0, 0]), 1))
        self.assertEqual((board.add(256, (4, 1), (1, 1)), board.drop(1), board.drop(1), board.add(1, (3, 1), (3, 0))), (0, 0, 24, 0))
        self.assertEqual((board.rows, board.density()), (([0, 0, 1, 0], [256, 0, 1, 256]), 1))

    def test_all_small_channels(self):
        channels = [rows for n in range(5) for rows in small_channels(n, 2)]
        for top, bottom in channels:
            for order in itertools.permutations(span(top, bottom)):
                board, densities = Board(), [0]
                board.start(len(top))
                for net in order:
                    self.assertEqual(board.add(net, *terminals(top, bottom, net)), 0)
                    densities.append(board.density())
                    self.assertEqual(densities[-1], max(board.count(gap) for gap in range(len(top) + 2)))
                self.assertEqual((board.rows, densities[-1]), ((top, bottom), density(top, bottom)))
                for net in reversed(order):
                    self.assertEqual((board.density(), board.drop(net)), (densities.pop(), 0))
                self.assertEqual(board.rows, ([0] * len(top), [0] * len(top)))
        self.assertEqual(len(channels), 853)


class Widest(unittest.TestCase):
    """The channel with the widest drawing, on the worked cases of job12-widest.txt, for all numbers of columns, and beside all small channels."""

    parts = second_router.blocks(HERE / "cases" / "job12-widest.txt")

    def test_worked_channels(self):
        self.assertEqual([part for part in self.parts if not second_router.same_widest(part)], [])
        numbers = [int(part[0].split(" ")[-1]) for part in self.parts if len(part) == 1]
        self.assertEqual(([numbers.count(number) for number in (0, 4, 5)], len(self.parts) - len(numbers)), ([2, 5, 2], 45))

    def test_faults_are_found(self):
        for there, instead in WIDEST_FAULTS:
            with self.subTest(there=there, instead=instead):
                faulty = planted("second_widest.py", there, instead)["widest"]
                self.assertFalse(all(second_router.same_widest(part, faulty) for part in self.parts))

    def test_another_case_differs(self):
        case = ["columns 3", "top 0 2 1", "bottom 0 1 2", "width 4"]
        self.assertTrue(second_router.same_widest(case) and second_router.same_widest(["rows 3 3 number 0"]))
        others = [(0, "columns 2"), (0, "columns 4"), (1, "top 0 1 2"), (1, "top 2 1 0"), (1, "top 0 2 2"), (2, "bottom 0 1 1"), (2, "bottom 0 1"), (3, "width 5")]
        for place, line in others + [(3, "width 3")]:
            with self.subTest(line):
                self.assertFalse(second_router.same_widest(case[:place] + [line] + case[place + 1 :]))
        for line in ("rows 3 3 number 5", "rows 3 4 number 0", "rows 3 4 number 5", "rows 257 257 number 0", "rows 257 257 number 4", "rows 257 258 number 5"):
            self.assertFalse(second_router.same_widest([line]))

    def test_such_channels_alone_add_half(self):
        self.assertTrue(second_router.adds_half([0, 2, 1], [0, 1, 2], 4) and second_router.adds_half([0, 9, 4], [0, 4, 9], 4))
        others = [([0, 2, 1], [0, 1, 2], 3), ([2, 0, 1], [1, 0, 2], 4), ([2, 1, 0], [1, 2, 0], 4), ([0, 1, 2], [0, 1, 2], 3), ([0, 1, 1], [0, 0, 0], 3)]
        others += [([1, 2, 1], [2, 1, 2], 4), ([0, 1, 0], [0, 0, 0], 4), ([0, 2, 1], [0, 1], 4)]
        for top, bottom, width in others:
            self.assertFalse(second_router.adds_half(top, bottom, width))

    def test_every_number_of_columns(self):
        for n in range(257):
            top, bottom = [65535] * n, list(range(n))
            self.assertEqual(widest(top, bottom), (0, n // 2))
            self.assertTrue(second_router.adds_half(top, bottom, n + n // 2))
            # The checker takes long: up to 64 columns, and some more. In Rust it checks them all.
            if n <= 64 or n in (127, 128, 255, 256):
                _, t, w, layout = route(top, bottom)
                self.assertEqual((t, check(top, bottom, w, t, layout)), (n // 2 * 2, (0, 0, 0, 0)))

    def test_no_small_channel_adds_more(self):
        for n in range(5):
            added = set()
            for top, bottom in small_channels(n, 2):
                # Which stretched net is joined goes by the numbers: under all of them.
                for names in itertools.permutations(span(top, bottom)):
                    above, below = ([net and names[net - 1] for net in pins] for pins in (top, bottom))
                    added.add(route(above, below)[2] - n)
            self.assertEqual(added, set(range(n // 2 + 1)))


class Records(unittest.TestCase):
    """The canonical record, on the worked cases of job6-records.txt."""

    parts = second_router.blocks(HERE / "cases" / "job6-records.txt")

    def written(self, top, bottom):
        """The canonical record, in a slice of just its length."""
        output = bytearray(6 + 4 * len(top))
        self.assertEqual(canonical(top, bottom, output), (0, len(output)))
        return output

    def channels(self):
        """The accepted channels: top row, bottom row, record."""
        rows = [(second_router.row(part[0]), second_router.row(part[1])) for part in self.parts if len(part) == 5]
        return [(top, bottom, self.written(top, bottom)) for top, bottom in rows]

    def test_worked_records(self):
        self.assertEqual([part for part in self.parts if not second_router.same_record(part)], [])
        numbers = [second_router.row(part[3])[0] for part in self.parts]
        self.assertEqual([numbers.count(number) for number in (0, 4, 5, 6, 7, 18)], [707, 36, 3, 34, 17, 288])
        self.assertEqual(len(numbers), 1085)

    def test_another_record_differs(self):
        written = ["top 9 4", "bottom 4 9", "slice 15", "number 0", "bytes " + CASE_D.hex()]
        refused = ["top 9 4", "bottom 4 9", "slice 13", "number 18"]
        self.assertTrue(second_router.same_record(written) and second_router.same_record(refused))
        for place, line in [(2, "slice 13"), (3, "number 18"), (4, "bytes " + CASE_D.hex()[:-2]), (4, "bytes " + CASE_D.hex() + "a5"), (1, "bottom 4 4")]:
            self.assertFalse(second_router.same_record(written[:place] + [line] + written[place + 1 :]))
        for other in (written[:4], refused + written[4:], refused[:3] + ["number 7"], refused[:2] + written[2:4]):
            self.assertFalse(second_router.same_record(other))

    def test_equal_bytes_precisely_for_a_renaming(self):
        channels = [one for one in self.channels() if len(one[0]) < 12]
        equal = set()
        for top, bottom, record in channels:
            for above, below, other in channels:
                if len(above) == len(top):
                    # The numbers that stand in one place, 0 with 0 among them: one to one if there are as many of them on either side.
                    met = {(0, 0), *zip(top + bottom, above + below)}
                    renamed = len(met) == len({a for a, _ in met}) == len({b for _, b in met})
                    self.assertEqual(record == other, renamed)
                    equal.add((renamed, (top, bottom) == (above, below)))
        self.assertEqual(equal, {(True, True), (True, False), (False, False)})

    def test_read_back_and_written_again(self):
        for top, bottom, record in self.channels():
            rows = renumbered(top, bottom)
            self.assertEqual((read_record(record), self.written(*rows)), ((0, *rows), record))


class Reports(unittest.TestCase):
    def test_case_d(self):
        table = [(9, 9, 9, 9)] * 257
        layout = [2, 0, 1, 2, 1, 1, 2, 2, 1, 1, 0, 1, 0, 0, 0]
        self.assertEqual(second_report.report([1, 2], [2, 1], table, (3, 2, layout)), (0, 0, 0, 0))
        self.assertEqual(table, [(1, 2, 2, 6), (1, 2, 2, 4)] + [(0, 0, 0, 0)] * 254 + [(9, 9, 9, 9)])

    def test_lengths_add_up(self):
        for top, bottom, drawing in reports.made():
            if drawing:
                w, t, layout = drawing
                self.assertEqual(sum(second_report.lengths(layout, t).values()), sum(entry > 0 for entry in layout))

    def test_longer_than_16_bits(self):
        answers = [second_router.same_report(part) for part in second_router.blocks(HERE / "cases" / "job2-long.txt")]
        self.assertEqual(answers, [True, True])


class Draw(unittest.TestCase):
    def test_chains_cover_each_edge_once(self):
        drawing = listing.read(LISTING_D)
        for net in (1, 2):
            edges = [(a, b) for other, a, b in drawing.edges() if other == net]
            walked = [frozenset(pair) for chain in draw.chains(edges) for pair in zip(chain, chain[1:])]
            self.assertEqual(len(walked), len(set(walked)))
            self.assertEqual(set(walked), {frozenset(edge) for edge in edges})

    def test_ring(self):
        ring = [((1, 1), (2, 1)), ((2, 1), (2, 2)), ((1, 2), (2, 2)), ((1, 1), (1, 2))]
        self.assertEqual([len(chain) for chain in draw.chains(ring)], [5])

    def test_pictures_of_the_docs(self):
        for name in ("example", "example-three", "example-many"):
            record = channel.record_of_rows(*channel.rows_of_text((DOCS / f"{name}.txt").read_text()))
            picture = draw.Picture(listing.read(second_router.listing(record))).svg()
            self.assertEqual((DOCS / f"{name}.svg").read_text(), picture)

    def test_pictures_are_xml(self):
        for text in [LISTING_D, "density 0 tracks 0 width 0\n", "density 0 tracks 0 width 1\n1: 5 |\n"]:
            minidom.parseString(draw.Picture(listing.read(text)).svg())


if __name__ == "__main__":
    unittest.main()
