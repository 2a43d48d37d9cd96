"""Reads the listing that `knee` writes."""


class Listing:
    """A drawing: its figures and, by column, its vertical and horizontal entries."""

    def __init__(self, density, tracks, width, columns):
        self.density, self.tracks, self.width, self.columns = density, tracks, width, columns

    def edges(self):
        """All edges as (net, point, point); a point is (column, row), columns from 1."""
        for c, (vertical, horizontal) in enumerate(self.columns, 1):
            for y, net in enumerate(vertical):
                if net:
                    yield net, (c, y), (c, y + 1)
            for track, net in enumerate(horizontal, 1):
                if net:
                    yield net, (c, track), (c + 1, track)

    def pins(self):
        """All pins as (net, point)."""
        for c, (vertical, _) in enumerate(self.columns, 1):
            if vertical[0]:
                yield vertical[0], (c, 0)
            if vertical[-1]:
                yield vertical[-1], (c, self.tracks + 1)


def read(text):
    """The listing of a text; a refusal or a malformed line is a ValueError."""
    head, *lines = text.splitlines() or [""]
    words = head.split()
    if words[::2] != ["density", "tracks", "width"] or len(words) != 6:
        raise ValueError(f"no listing: {head!r}")
    density, tracks, width = map(int, words[1::2])
    columns = []
    for c, line in enumerate(lines, 1):
        number, _, entries = line.partition(":")
        vertical, bar, horizontal = (part.split() for part in entries.partition("|"))
        if number != str(c) or not bar or (len(vertical), len(horizontal)) != (tracks + 1, tracks):
            raise ValueError(f"not the line of column {c}: {line!r}")
        columns.append(([int(x) for x in vertical], [int(x) for x in horizontal]))
    if len(columns) != width:
        raise ValueError(f"{len(columns)} columns, where the width is {width}")
    return Listing(density, tracks, width, columns)
