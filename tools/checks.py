#!/usr/bin/env python3
"""The cases of the program `check_cases`: its standard input and the answers expected of it.

  checks.py                             makes crates/check_cases/stdin and crates/check_cases/stdout
  checks.py --large SHAPE N STDIN       one drawing of N columns and N tracks, SHAPE one of spiral, zigzag, comb, ladders, hairpins, rings; the answer
                                        goes to standard output

The cases are those of tools/cases and some that are made here. Of the first, checks.txt was worked by the customer before Jobs 1 and 8, and
job1-8-checks.txt by an independent model of documents 01 and 02. A case in text is five lines, `top ..`, `bottom ..`, `width W tracks T`, `layout ..`, `number N place P`, from
Job 1 on with `column C row R`, and cases are parted by an empty line. For the program it is 16-bit words, low byte first: the lengths of the two rows,
width, tracks, the layout's length (two words, low word first), the rows, the layout. A width of -1 becomes 65535, which is refused alike. The program
answers each case by a line `N P C R`. The answers are the second checker's, which is held to those of tools/cases.
"""
import pathlib
import struct
import sys

from second_checker import check
from second_router import blocks, check_case, same_check

ROOT = pathlib.Path(__file__).resolve().parent.parent
WORKED = [ROOT / 'tools' / 'cases' / name for name in ('checks.txt', 'job1-8-checks.txt')]


class Drawing:
    """An empty drawing, whose edges are set by column, row or track."""

    def __init__(self, w, t):
        self.w, self.t, self.layout = w, t, [0] * (w * (2 * t + 1))

    def up(self, x, y, net=1):
        self.layout[x * (2 * self.t + 1) + y] = net

    def right(self, x, track, net=1):
        self.layout[x * (2 * self.t + 1) + self.t + track] = net

    def line(self, x, y, x2, y2, net=1):
        for k in range(min(y, y2), max(y, y2)):
            self.up(x, k, net)
        for k in range(min(x, x2), max(x, x2)):
            self.right(k, y, net)


def spiral(w, t):
    """One net of two pins that winds inwards and stops in the middle."""
    d = Drawing(w, t)
    d.up(0, t)
    d.up(0, 0)
    left, low, wide, high = 0, 1, w - 1, t
    while left < wide and low < high:
        d.line(left, low, wide, low)
        d.line(wide, low, wide, high)
        d.line(left + 2 if left else 0, high, wide, high)
        left, low, wide, high = left + 2, low + 2, wide - 2, high - 2
        if left < wide and low < high:
            d.line(left, low, left, high + 2)
    return [1], [1], d


def zigzag(w, t):
    """One net that runs up and down through every column; the last joint closes it."""
    d = Drawing(w, t)
    d.up(0, 0)
    d.line(0, 1, 0, t)
    for x in range(w - 1):
        d.right(x, t if x % 2 == 0 else 1)
        d.line(x + 1, 1, x + 1, t)
    d.up(0, t)
    return [1], [1], d


def comb(w, t):
    """One net: teeth on every other track that meet only in the last column."""
    d = Drawing(w, t)
    for y in [*range(1, t, 2), t]:
        d.line(0, y, w - 1, y)
    d.line(w - 1, 1, w - 1, t)
    d.up(0, 0)
    d.up(0, t)
    return [1], [1], d


def ladders(w, t):
    """One net: ladders side by side, joined by their lowest rails; each rung meets a new rail, so labels meet at every second point."""
    d = Drawing(w, t)
    for x in range(w):
        if x % 2:
            d.line(x, 1, x, t)
        for y in range(1, t + 1 if x % 2 == 0 else 2):
            if x < w - 1:
                d.right(x, y)
    if w % 2:
        d.line(w - 1, 1, w - 1, t)
    d.up(0, 0)
    d.up(0, t)
    return [1], [1], d


def hairpins(w, t):
    """One net without loose ends: hairpins, bent in column 1, that meet only in the last column."""
    d = Drawing(w, t)
    for y in range(1, t, 3):
        d.line(0, y, 0, y + 1)
        d.line(0, y, w - 1, y)
        d.line(0, y + 1, w - 1, y + 1)
    d.line(0, t, w - 1, t)
    d.line(w - 1, 1, w - 1, t)
    d.up(0, 0)
    d.up(0, t)
    return [1], [1], d


def rings(w, t):
    """One net without loose ends: rings inside one another, each joined to the next by two edges, on the left and on the right in turn."""
    d = Drawing(w, t)
    left, low, wide, high = 0, 1, w - 1, t
    on_left = True
    while left < wide and low < high:
        d.line(left, low, left, high)
        d.line(wide, low, wide, high)
        d.line(left, low, wide, low)
        d.line(left, high, wide, high)
        if left + 2 < wide - 2 and low + 2 < high - 2:
            x = left if on_left else wide - 2
            d.line(x, low + 2, x + 2, low + 2)
        on_left = not on_left
        left, low, wide, high = left + 2, low + 2, wide - 2, high - 2
    d.up(0, 0)
    d.up(0, t)
    return [1], [1], d


SHAPES = {'spiral': spiral, 'zigzag': zigzag, 'comb': comb, 'ladders': ladders, 'hairpins': hairpins, 'rings': rings}


def wired(top, bottom, w, t, *lines):
    """A case whose drawing has the pins' own edges and some lines, as `Drawing.line` takes them."""
    d = Drawing(w, t)
    for x, (above, below) in enumerate(zip(top, bottom)):
        d.up(x, 0, below)
        d.up(x, t, above)
    for line in lines:
        d.line(*line)
    return top, bottom, w, t, d.layout


def ends():
    """Cases with loose ends, and close to such."""
    # One stub: at column 1 and column w, on row 1 and row t.
    above, below = ([1, 1], [0, 0]), ([0, 0], [1, 1])
    yield wired(*above, 2, 2, (0, 2, 1, 2), (0, 1, 0, 2))
    yield wired(*above, 2, 2, (0, 2, 1, 2), (1, 1, 1, 2))
    yield wired(*below, 2, 3, (0, 1, 1, 1), (0, 1, 0, 3))
    yield wired(*below, 2, 3, (0, 1, 1, 1), (1, 1, 1, 3))
    yield wired(*above, 4, 2, (0, 2, 3, 2))
    yield wired(*below, 4, 2, (0, 1, 3, 1))
    yield wired([0, 0, 1, 1], [0, 0, 0, 0], 4, 1, (0, 1, 3, 1))
    # One stub inside, with a bend; at the largest column and row.
    yield wired(*above, 5, 4, (0, 4, 2, 4), (2, 3, 2, 4), (2, 3, 3, 3))
    yield wired([0, 0], [256, 256], 511, 1, (0, 1, 510, 1, 256))
    yield wired(*below, 2, 511, (0, 1, 1, 1), (1, 1, 1, 511))
    # Loops: beside the wire, at the end of a stub, every edge that there is.
    yield wired(*above, 2, 3, (0, 3, 1, 3), (0, 2, 0, 3), (1, 2, 1, 3), (0, 2, 1, 2))
    yield wired(*above, 5, 3, (0, 3, 3, 3), (3, 2, 3, 3), (3, 2, 4, 2), (4, 1, 4, 2), (3, 1, 4, 1), (3, 1, 3, 2))
    yield wired([1, 1, 1], [1, 1, 1], 4, 3, *((x, 1, x, 3) for x in range(4)), *((0, y, 3, y) for y in (1, 2, 3)))
    # Several at once: the first by column and then row.
    fork = [0, 0, 0, 0], [0, 1, 1, 0], 4, 3, (1, 1, 1, 2), (2, 1, 2, 2), (1, 2, 2, 2)
    yield wired(*fork, (2, 2, 3, 2), (1, 2, 1, 3), (2, 2, 2, 3))
    yield wired(*fork, (2, 2, 3, 2), (3, 1, 3, 3))
    yield wired(*fork, (1, 2, 1, 3), (0, 2, 1, 2), (2, 2, 2, 3))
    yield wired(*fork, (2, 1, 3, 1), (2, 2, 2, 3))
    # Two nets: the lower one, though it is the later; both at one point; at a point that the other passes.
    yield wired([2, 2, 1, 1], [0, 0, 0, 0], 4, 2, (0, 2, 1, 2, 2), (0, 1, 0, 2, 2), (2, 2, 3, 2), (3, 1, 3, 2))
    yield wired([0, 1, 1], [2, 2, 0], 3, 3, (1, 3, 2, 3), (1, 2, 1, 3), (0, 1, 1, 1, 2), (0, 1, 0, 2, 2), (0, 2, 1, 2, 2))
    yield wired([2, 1], [2, 1], 2, 1, (0, 1, 1, 1, 2))
    # 15 and 16 come first: an edge beyond column w, a net split and loose, split by a loop of its own, loose beside a higher one that is split.
    yield wired(*above, 2, 2, (0, 2, 1, 2), (0, 1, 0, 2), (1, 1, 2, 1))
    yield wired(*above, 2, 2)
    yield wired(*above, 2, 2, (0, 2, 1, 2), (0, 1, 1, 1))
    yield wired(*above, 4, 2, (0, 2, 1, 2), (2, 1, 2, 2), (2, 1, 3, 1), (2, 2, 3, 2), (3, 1, 3, 2))
    yield wired([1, 1, 2, 2], [0, 0, 0, 0], 4, 2, (0, 2, 1, 2), (0, 1, 0, 2))
    # No grid point on a track, or no edge at any.
    yield [], [], 0, 0, []
    yield [], [], 0, 1, []
    yield [], [], 0, 511, []
    yield [], [], 3, 2, [0] * 15
    yield [5, 0, 7], [5, 0, 7], 5, 0, [5, 0, 7, 0, 0]


def pin_edges():
    """Cases with wrong pin edges, and close to such: one net in column 1, another in column 2, no pins in column 3 and, past the channel, column 4."""
    row, w = [1, 2, 0], 4
    for t in (0, 1, 3):
        top, bottom, *_, layout = wired(row, row, w, t, (0, 0, 0, t + 1), (1, 0, 1, t + 1, 2))
        places = sorted({x * (2 * t + 1) + y for x in range(w) for y in (0, t)})
        for place in places:
            for entry in (0, 1, 2, 3):
                yield top, bottom, w, t, [*layout[:place], entry, *layout[place + 1 :]]
        # A later position with another fault.
        for place, later in zip(places, places[1:]):
            for entry, other in ((0, 1), (1, 0), (2, 0), (2, 1)):
                faulty = list(layout)
                faulty[place], faulty[later] = entry, other
                yield top, bottom, w, t, faulty


def made():
    """Cases beside those of tools/cases: rows refused, wrong pin edges, loose ends, and large drawings, whole and with one edge gone."""
    yield [1, 1], [0], 2, 1, []
    yield [0] * 257, [0] * 257, 257, 0, [0] * 257
    yield [257, 257], [0, 0], 2, 1, [0] * 6
    yield [256, 256], [0, 0], 2, 1, [0, 256, 256, 0, 256, 0]
    yield [1], [0], 1, 0, [0]
    yield [1, 2, 3], [1, 2, 65535], 0, 0, []
    yield from pin_edges()
    yield from ends()
    for shape in SHAPES.values():
        top, bottom, d = shape(40, 41)
        yield top, bottom, d.w, d.t, d.layout
        inner = [p for p, v in enumerate(d.layout) if v and p % (2 * d.t + 1) not in (0, d.t)]
        for p in (inner[len(inner) // 3], inner[2 * len(inner) // 3]):
            broken = list(d.layout)
            broken[p] = 0
            yield top, bottom, d.w, d.t, broken


def worked():
    """The cases of tools/cases, on which the second checker agrees."""
    for path in WORKED:
        for part in blocks(path):
            if not same_check(part):
                raise AssertionError('the second checker differs from %s: %s' % (path.name, part))
            yield check_case(part)


def packed(numbers):
    """Numbers as 16-bit words, low byte first."""
    return struct.pack('<%dH' % len(numbers), *numbers)


def measures(w, t, layout):
    """Width, tracks and the layout's length, low word first."""
    return [w % 65536, t, len(layout) % 65536, len(layout) // 65536]


def words(top, bottom, w, t, layout):
    return packed([len(top), len(bottom), *measures(w, t, layout), *top, *bottom, *layout])


def stored():
    """The bytes of the program's standard input, and the text expected of it."""
    cases = [*worked(), *made()]
    return b''.join(words(*case) for case in cases), ''.join('%d %d %d %d\n' % check(*case) for case in cases)


def main(arguments):
    if len(arguments) == 4 and arguments[0] == '--large' and arguments[1] in SHAPES:
        top, bottom, d = SHAPES[arguments[1]](int(arguments[2]), int(arguments[2]))
        pathlib.Path(arguments[3]).write_bytes(words(top, bottom, d.w, d.t, d.layout))
        print('%d %d %d %d' % check(top, bottom, d.w, d.t, d.layout))
    elif not arguments:
        cases, answers = stored()
        (ROOT / 'crates/check_cases/stdin').write_bytes(cases)
        (ROOT / 'crates/check_cases/stdout').write_bytes(answers.encode())
    else:
        sys.exit(__doc__)


if __name__ == '__main__':
    main(sys.argv[1:])
