#!/usr/bin/env python3
"""Makes the cases of the program `report_cases`, crates/report_cases/stdin, and the answers expected of it, crates/report_cases/stdout.

The cases are channels that are made here, without a drawing and with that of the second router, and those of tools/cases/job2-reports.txt, worked by an
independent model of documents 01 and 02. The program's table always has 256 records, so those with a shorter one are left out and 9 does not occur. A
case is 16-bit words, low byte first: the lengths of the two rows, 1 with a drawing and 0 without, width, tracks, the layout's length (two words, low
word first), the rows, the layout; without a drawing its measures are 0. The program answers each case by a line `number N place P column C row R` and, if
it is accepted, a line `net V: FIRST LAST PINS LENGTH` for each record that is not all zeros. The answers are the second report's, which is held to the
worked ones.
"""
import pathlib
import random

from checks import measures, packed
from second_channel import LARGEST, refusal
from second_report import NO_RECORD, report
from second_router import blocks, report_case, same_report
from second_sweep import route

ROOT = pathlib.Path(__file__).resolve().parent.parent
WORKED = ROOT / 'tools' / 'cases' / 'job2-reports.txt'
MOST_ENTRIES = 8000  # of a made channel's drawing


def drawn_by_lot(lot, n, nets, pins, empty):
    """A channel of n columns: pins of some nets at places drawn by lot, each net with at least two."""
    places = [(row, c) for row in (0, 1) for c in range(n)]
    lot.shuffle(places)
    rows = [[0] * n, [0] * n]
    numbers = lot.sample(range(1, 257), nets)
    taken = 0
    for k, net in enumerate(numbers):
        for _ in range(lot.randint(2, pins)):
            if taken + 2 * (nets - k) + empty <= len(places):
                row, c = places[taken]
                rows[row][c] = net
                taken += 1
    # a net that got one pin loses it
    for net in numbers:
        if (rows[0] + rows[1]).count(net) == 1:
            rows = [[0 if v == net else v for v in row] for row in rows]
    return rows


def channels():
    cases = [
        ([], []),                                   # A
        ([5], [5]),                                 # B
        ([1, 1], [0, 0]),                           # C
        ([1, 2], [2, 1]),                           # D
        ([1, 1, 0], [0, 2, 2]),                     # E
        ([1, 1, 1], [0, 0, 0]),                     # F
        ([1, 1, 1], [2, 2, 2]),                     # G
        ([1, 2, 1], [2, 1, 2]),                     # H
        ([1], [0]),                                 # I
        ([257, 257], [0, 0]),                       # J
        ([256, 256], [0, 0]),                       # J: "256 twice is drawn"
        ([0, 0, 0], [0, 0, 0]),
        ([0, 3, 0, 0, 7], [0, 0, 7, 0, 3]),
        ([1, 256, 0, 1], [256, 0, 255, 255]),
        ([9, 9, 9, 9], [9, 9, 9, 9]),
        ([1, 1], [1]),                              # 4
        ([1], [257, 257]),                          # 4 before 6 and 7
        ([0] * 257, [0] * 257),                     # 5
        ([0] * 256, [0] * 256),
        ([300] + [0] * 256, [0] * 256 + [1]),       # 5 before 6 and 7
        ([0] * 258, [0] * 257),                     # 4 before 5
        ([1, 65000], [0, 0]),                       # 6 before 7
        ([0, 0], [0, 256]),                         # 7 in the last place of the bottom row
        ([2, 0, 2], [0, 4, 0]),                     # 7 beside a net of two pins
        (list(range(1, 257)), list(range(256, 0, -1))),
        ([1] * 256, [2] * 256),
        ([17] * 256, [17] * 256),
    ]
    lot = random.Random(1)
    cases += [drawn_by_lot(lot, 8, 3, 2, 4), drawn_by_lot(lot, 16, 6, 4, 6), drawn_by_lot(lot, 64, 40, 3, 10), drawn_by_lot(lot, 64, 20, 7, 20)]
    cases += [drawn_by_lot(lot, 256, 200, 3, 12), drawn_by_lot(lot, 256, 90, 6, 40)]
    return cases


def made():
    """Each channel without a drawing and, where it has one that is not too large, with the second router's."""
    for top, bottom in channels():
        yield top, bottom, None
        if refusal(top, bottom) == 0:
            _, t, w, layout = route(top, bottom)
            if len(layout) <= MOST_ENTRIES:
                yield top, bottom, (w, t, layout)


def worked():
    """The worked cases, on which the second report agrees, but for those whose table is too short."""
    for part in blocks(WORKED):
        if not same_report(part):
            raise AssertionError('the second report differs from %s: %s' % (WORKED.name, part))
        top, bottom, drawing, records = report_case(part)
        if records >= LARGEST:
            yield top, bottom, drawing


def words(top, bottom, drawing):
    w, t, layout = drawing or (0, 0, [])
    return packed([len(top), len(bottom), int(drawing is not None), *measures(w, t, layout), *top, *bottom, *layout])


def lines(top, bottom, drawing):
    """The program's answer."""
    table = [NO_RECORD] * LARGEST
    yield 'number %d place %d column %d row %d\n' % report(top, bottom, table, drawing)
    for net, record in enumerate(table, 1):
        if record != NO_RECORD:
            yield 'net %d: %d %d %d %d\n' % (net, *record)


def stored():
    """The bytes of the program's standard input, and the text expected of it."""
    cases = [*made(), *worked()]
    return b''.join(words(*case) for case in cases), ''.join(line for case in cases for line in lines(*case))


if __name__ == '__main__':
    cases, answers = stored()
    (ROOT / 'crates/report_cases/stdin').write_bytes(cases)
    (ROOT / 'crates/report_cases/stdout').write_bytes(answers.encode())
