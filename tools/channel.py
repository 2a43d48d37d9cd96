#!/usr/bin/env python3
"""Turns the text of a channel into a record for `knee`, and back.

    tools/channel.py < channel.txt > channel.bin     text to record
    tools/channel.py --back < channel.bin            record to text
    tools/channel.py --hex < channel.txt             record in hexadecimal
    tools/channel.py --canonical < channel.txt       canonical record; also with --hex or --back

The text has a line `top 1 2` and a line `bottom 2 1`: a number for each
column, 0 (or `.`) for no pin. Empty lines and lines that begin with `#` are
skipped.

The canonical record has the nets renumbered 1, 2, 3 ... in the order of their
first pin, column by column, top before bottom: channels that differ in their net
numbers alone give the same bytes. Rows that the library refuses are refused here
with the same number, as `refused 7`.
"""

import argparse
import re
import struct
import sys

from second_channel import refusal
from second_record import renumbered

KIND = 1
MOST = (65535 - 4) // 4  # columns that the length field can count


def row_of_words(name, words):
    """The numbers of a row; a word that is none is a ValueError that names it."""
    row = []
    for word in words:
        digits = "0" if word == "." else word
        if not re.fullmatch("0*[0-9]{1,5}", digits) or int(digits[-5:]) > 65535:
            raise ValueError(f"{name} row: {word!r} is not a number 0 to 65535")
        row.append(int(digits[-5:]))
    return row


def rows_of_text(text):
    """The rows (top, bottom) that a text describes."""
    rows = {}
    for line in text.splitlines():
        words = line.split()
        if not words or words[0].startswith("#"):
            continue
        name = words[0].rstrip(":")
        if name not in ("top", "bottom") or name in rows:
            raise ValueError(f"one line `top ..` and one line `bottom ..`, not {line!r}")
        rows[name] = row_of_words(name, words[1:])
    if len(rows) < 2:
        raise ValueError("a line `top ..` and a line `bottom ..` are needed")
    return rows["top"], rows["bottom"]


def text_of_rows(top, bottom):
    """The text of a channel, its columns aligned."""
    width = max((len(str(number)) for number in top + bottom), default=1)
    lines = [("top   ", top), ("bottom", bottom)]
    return "".join(name + "".join(f" {x:{width}}" for x in row) + "\n" for name, row in lines)


def record_of_rows(top, bottom):
    """The record: length of what follows, kind, columns, top row, bottom row. It has one count of columns and a length of 16 bits."""
    if len(top) != len(bottom):
        raise ValueError(f"the rows differ in length, which a record cannot say: top {len(top)}, bottom {len(bottom)}")
    if len(top) > MOST:
        raise ValueError(f"{len(top)} columns, where a record can say at most {MOST}")
    words = [4 + 4 * len(top), KIND, len(top), *top, *bottom]
    return struct.pack(f"<{len(words)}H", *words)


def rows_of_record(record):
    """The rows of a record; only the record's form is checked."""
    if len(record) < 6 or len(record) % 2:
        raise ValueError("not the length of a channel's record")
    length, kind, n, *numbers = struct.unpack(f"<{len(record) // 2}H", record)
    if length != len(record) - 2 or kind != KIND or len(numbers) != 2 * n:
        raise ValueError("not the record of a channel")
    return numbers[:n], numbers[n:]


def canonical_rows(top, bottom):
    """The rows of the canonical record; a ValueError says the number of a refusal."""
    number = refusal(top, bottom)
    if number:
        raise ValueError(f"refused {number}")
    return renumbered(top, bottom)


def main():
    parser = argparse.ArgumentParser(description=__doc__.splitlines()[0])
    parser.add_argument("--back", action="store_true", help="record to text")
    parser.add_argument("--hex", action="store_true", help="write the record in hexadecimal")
    parser.add_argument("--canonical", action="store_true", help="renumber the nets in the order of their first pin")
    options = parser.parse_args()
    try:
        rows = rows_of_record(sys.stdin.buffer.read()) if options.back else rows_of_text(sys.stdin.read())
        rows = canonical_rows(*rows) if options.canonical else rows
        if options.back:
            sys.stdout.write(text_of_rows(*rows))
            return 0
        record = record_of_rows(*rows)
    except ValueError as error:
        print(f"channel.py: {error}", file=sys.stderr)
        return 1
    if options.hex:
        print(record.hex(" ").upper())
    else:
        sys.stdout.buffer.write(record)
    return 0


if __name__ == "__main__":
    sys.exit(main())
