#!/usr/bin/env python3
"""Records to try and the listings they must give.

    make_records.py                        make crates/listing_cases/stdin and crates/listing_cases/stdout
    make_records.py STREAM TEXT [COUNT]    write the records and the text expected for them

STREAM is one record after another, each after a two-byte count of its bytes, little-endian;
the count stands outside the record, so that damaged and empty records can be among them.
TEXT is their listings, one after another. The same COUNT gives the same files.
"""

import pathlib
import random
import sys

from second_record import write_record
from second_router import LARGEST, LISTED, listing
from three_pin_channels import channels as three_pin_channels

COUNT = 240  # records drawn by lot, beside the others

CASES = (  # the channels to try of the scope paper
    ([], []),
    ([5], [5]),
    ([1, 1], [0, 0]),
    ([1, 2], [2, 1]),
    ([1, 1, 0], [0, 2, 2]),
    ([1, 1, 1], [0, 0, 0]),
    ([1, 1, 1], [2, 2, 2]),
    ([1, 2, 1], [2, 1, 2]),
    ([1], [0]),
    ([257, 257], [0, 0]),
    ([256, 256], [0, 0]),
)

EMPTY_COLUMNS = (  # a net is stretched, or has three strands, left of a column without pins
    # Two-pin nets.
    ([3, 1, 2, 0, 4, 4], [2, 0, 1, 0, 0, 3]),  # net 1 is joined, and the drawing is one column wider than if it ran straight
    ([2, 4, 0], [4, 2, 0]),  # one narrower
    ([1, 3, 0, 2, 0], [3, 1, 0, 0, 2]),  # the tracks are free for the next net
    ([4, 1, 3, 4, 0, 0], [3, 5, 5, 1, 0, 0]),  # two nets in two columns
    ([4, 3, 2, 6, 0], [2, 6, 4, 3, 0]),  # the lower-numbered of two nets
    # The third sweep.
    ([4, 4, 5, 0], [5, 0, 4, 0]),  # one narrower
    ([3, 4, 0, 1, 0, 1], [4, 3, 0, 0, 0, 1]),  # the joined net is no longer a double one
    ([4, 2, 4, 3, 0, 4, 0], [3, 1, 2, 1, 0, 2, 0]),  # beside a pair
    ([1, 3, 5, 3, 3, 0], [5, 4, 4, 1, 4, 0]),  # three strands
    ([2, 5, 0, 1, 2, 0], [1, 4, 5, 4, 5, 0]),  # the lower-numbered of two nets
    ([5, 3, 0, 1, 4, 0, 6, 5, 6], [4, 4, 0, 5, 1, 0, 0, 0, 3]),  # one wider; the first empty column has no stretched net
    # Other channels.
    ([1, 2, 1, 0], [0, 2, 2, 0]),  # one narrower
    ([2, 1, 1, 0, 2], [1, 2, 2, 0, 0]),  # an open net of three strands runs straight
    ([3, 4, 0, 1, 5, 4, 5, 0, 3], [4, 3, 0, 0, 1, 1, 3, 0, 3]),  # a stretched net beside a lower-numbered open one of three strands
    ([2, 3, 2, 4, 0], [2, 4, 3, 3, 0]),  # three strands
    ([3, 4, 1, 3, 4, 0], [2, 0, 1, 1, 2, 0]),  # the lower-numbered of two nets
    ([2, 6, 1, 0, 6, 5, 5], [1, 2, 2, 0, 4, 5, 4]),  # one wider
)

BEGINNINGS = (  # two channels of one family and one density whose first columns agree, and how many do
    # Two-pin nets: these columns are drawn alike.
    (([1, 2], [2, 1]), ([1, 2, 0, 3], [2, 1, 0, 3]), 2),  # a net is joined in a column added, or in an empty one
    (([1, 3, 2, 5, 5], [2, 4, 1, 4, 3]), ([1, 3, 2, 0, 4], [2, 4, 1, 3, 0]), 3),  # a net is stretched after them
    # The third sweep, and other channels: they are not, as net 1 goes on after them or has ended.
    (([1, 0, 1], [2, 1, 2]), ([1, 0, 2], [2, 1, 2]), 2),
    (([1, 1, 1], [2, 2, 1]), ([1, 1, 2], [2, 2, 2]), 2),
)


def split(terminals):
    """Rows from a list of terminals, bottom and top in turn."""
    return terminals[1::2], terminals[0::2]


def two_pins(chance, n, fill):
    """A channel of two-pin nets with about a share of its terminals in use."""
    nets = int(n * fill)
    numbers = chance.sample(range(1, LARGEST + 1), nets)
    terminals = numbers * 2 + [0] * (2 * n - 2 * nets)
    chance.shuffle(terminals)
    return split(terminals)


def many_pins(chance, n, fill, nets):
    """A channel of a few nets with any number of pins from two up."""
    used = min(int(2 * n * fill), 2 * n)
    nets = min(nets, used // 2)
    numbers = chance.sample(range(1, LARGEST + 1), nets)
    terminals = numbers * 2
    if nets:
        terminals += [chance.choice(numbers) for _ in range(used - 2 * nets)]
    terminals += [0] * (2 * n - len(terminals))
    chance.shuffle(terminals)
    return split(terminals)


def small_nets(chance, n, fill, share):
    """A channel of nets of two pins and, about a share of them, three, with about a share of its terminals in use."""
    terminals, used = [], int(2 * n * fill)
    for number in chance.sample(range(1, LARGEST + 1), used // 2):
        pins = 3 if chance.random() < share else 2
        if len(terminals) + pins <= used:
            terminals += [number] * pins
    terminals += [0] * (2 * n - len(terminals))
    chance.shuffle(terminals)
    return split(terminals)


def thirds(chance, n):
    """Every net starts in the left third, continues in the middle one and ends in the right one: as dense as n columns with nets of three pins can be."""
    left = chance.sample(range(1, LARGEST + 1), 2 * (n // 3))
    middle, right = left[:], left[:]
    chance.shuffle(middle)
    chance.shuffle(right)
    return split(left + [0] * (2 * (n % 3)) + middle + right)


def crossing(chance, n):
    """Every net starts in the left half and ends in the right half: as dense as n columns can be."""
    left = chance.sample(range(1, LARGEST + 1), 2 * (n // 2))
    right = left[:]
    chance.shuffle(right)
    return split(left + [0] * (2 * (n % 2)) + right)


def dense_many(chance, n, pins):
    """As dense as n columns can be, with one net of three or four pins."""
    top, bottom = crossing(chance, n)
    if n > 2:
        place = n // 2 if n % 2 else chance.randrange(n // 2, n)
        top[place] = top[0]
        if pins > 3:
            bottom[place] = top[0]
        counts = {number: (top + bottom).count(number) for number in top + bottom}
        top = [number if counts[number] > 1 else 0 for number in top]
        bottom = [number if counts[number] > 1 else 0 for number in bottom]
    return top, bottom


def channel(chance, n):
    """Some channel of n columns."""
    kind = chance.randrange(9)
    if kind == 0:
        return two_pins(chance, n, chance.random())
    if kind == 1:
        return two_pins(chance, n, 1)
    if kind == 2:
        return many_pins(chance, n, chance.random(), chance.randrange(1, 2 * n + 2))
    if kind == 3:
        return many_pins(chance, n, 1, chance.randrange(1, n + 2))
    if kind == 4:
        return many_pins(chance, n, 1, chance.randrange(1, n // 2 + 2))
    if kind == 5:
        return crossing(chance, n)
    if kind == 6:
        return dense_many(chance, n, chance.choice((3, 4)))
    if kind == 7:
        return small_nets(chance, n, chance.choice((chance.random(), 1)), chance.random())
    return thirds(chance, n)


def sparse(chance, n):
    """A channel with few pins, so that its listing is short."""
    kind = chance.randrange(3)
    if kind == 0:
        return two_pins(chance, n, 0.2 * chance.random())
    if kind == 1:
        return small_nets(chance, n, 0.2 * chance.random(), 0.7)
    return many_pins(chance, n, 0.3 * chance.random(), chance.randrange(1, 6))


def refused_rows(chance):
    """A whole record of rows that are refused: 5, 6 or 7."""
    kind = chance.randrange(3)
    if kind == 0:
        return write_record(*channel(chance, chance.randrange(LISTED + 1, LARGEST + 1)))
    top, bottom = channel(chance, chance.randrange(1, LISTED + 1))
    rows = chance.choice((top, bottom))
    place = chance.randrange(len(rows))
    if kind == 1:
        rows[place] = chance.choice((257, 258, 511, 512, 4096, 32768, 65535))
    else:
        rows[place] = chance.choice([net for net in range(1, LARGEST + 1) if net not in top + bottom])
    return write_record(top, bottom)


def damaged(chance):
    """A record whose bytes are not those of a channel, or perhaps are by chance."""
    data = bytearray(write_record(*channel(chance, chance.randrange(0, 12))))
    kind = chance.randrange(7)
    if kind == 0:
        return bytes(data[: chance.randrange(len(data))])
    if kind == 1:
        return bytes(data) + bytes(chance.randrange(1, 5))
    if kind == 2:
        data[chance.randrange(2)] ^= chance.randrange(1, 256)
    elif kind == 3:
        data[chance.choice((2, 3))] ^= chance.randrange(1, 256)
    elif kind == 4:
        data[chance.choice((4, 5))] ^= chance.randrange(1, 256)
    elif kind == 5:
        size = chance.choice((1028, 1029, 1030, 1031, 1032))
        return (size - 2).to_bytes(2, "little") + b"\x01\x00" + (256).to_bytes(2, "little") + bytes(size - 6)
    else:
        body = bytes(chance.randrange(2) for _ in range(chance.randrange(8)))
        return (len(body) + 2).to_bytes(2, "little") + chance.choice((b"\x01\x00", b"\x02\x00")) + body
    return bytes(data)


def records(count):
    """The cases of the paper, every n from 0 to 64, the densest, those of the third sweep, with empty columns and with the same beginning, then as many
    others as asked for."""
    chance = random.Random(count)
    made = [write_record(top, bottom) for top, bottom in CASES]
    made += [write_record(*(channel if n < 24 else sparse)(chance, n)) for n in range(LISTED + 1)]
    made += [write_record(*crossing(chance, LISTED)), write_record(*thirds(chance, LISTED))]
    made += [write_record(*dense_many(chance, LISTED, pins)) for pins in (3, 4)]
    made += [write_record(top, bottom) for top, bottom in (*three_pin_channels(), *EMPTY_COLUMNS)]
    made += [write_record(*rows) for *pair, _ in BEGINNINGS for rows in pair]
    for _ in range(count):
        kind = chance.randrange(4)
        if kind < 2:
            made.append(write_record(*channel(chance, chance.randrange(20))))
        elif kind == 2:
            made.append(refused_rows(chance))
        else:
            made.append(damaged(chance))
    return made


def stored(count=COUNT):
    """The bytes of the stream of records, and their listings."""
    made = records(count)
    return b"".join(len(data).to_bytes(2, "little") + data for data in made), "".join(map(listing, made))


def main(stream, text, count=COUNT):
    made, expected = stored(int(count))
    pathlib.Path(stream).write_bytes(made)
    pathlib.Path(text).write_bytes(expected.encode())


if __name__ == "__main__":
    if len(sys.argv) not in (1, 3, 4):
        sys.exit(__doc__)
    folder = pathlib.Path(__file__).resolve().parent.parent / "crates" / "listing_cases"
    main(*(sys.argv[1:] or (folder / "stdin", folder / "stdout")))
