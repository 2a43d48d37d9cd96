"""One column of the second router's sweeps: the tracks beside it, its wires, its pins, and what rules of more than one sweep do in it."""


class Column:
    """One column of the sweep: the tracks in the gap left of it, the wires it draws, the tracks right of it."""

    def __init__(self, strands, t):
        self.left = {net: sorted(own) for net, own in strands.items() if own}
        self.right = {net: set(own) for net, own in self.left.items()}
        self.up = [0] * (t + 1)
        self.t = t
        self.top_row = t + 1

    def free(self):
        """Free tracks of the left gap, from the lowest."""
        taken = {track for own in self.left.values() for track in own}
        return [track for track in range(1, self.t + 1) if track not in taken]

    def wire(self, net, low, high):
        """A vertical of a net between two rows."""
        for row in range(low, high):
            if self.up[row] not in (0, net):
                raise AssertionError("two nets on one vertical edge")
            self.up[row] = net

    def from_top(self, net, row):
        """The top pin's wire down to a row."""
        self.wire(net, row, self.top_row)

    def from_bottom(self, net, row):
        """The bottom pin's wire up to a row."""
        self.wire(net, 0, row)

    def leaves_on(self, net, own):
        """The tracks a net has right of the column."""
        self.right[net] = set(own)

    def adds(self, net, track):
        """One more track for a net right of the column."""
        self.right.setdefault(net, set()).add(track)

    def moves(self, net, track, other):
        """Another track in place of one that a net has."""
        self.right[net].remove(track)
        self.right[net].add(other)

    def entries(self):
        """The column's 2t + 1 entries."""
        across = [0] * self.t
        for net, own in self.right.items():
            for track in own:
                if across[track - 1]:
                    raise AssertionError("two nets on one track")
                across[track - 1] = net
        return self.up + across


class Pins:
    """The pins of one column with their kinds; a column that is added has none."""

    def __init__(self, top, bottom, column, ends):
        self.top, self.bottom = (top[column - 1], bottom[column - 1]) if column <= len(top) else (0, 0)
        self.column, self.ends = column, ends

    def here(self):
        """The nets with a pin in the column."""
        return [net for net in (self.top, self.bottom) if net]

    def starts(self, net):
        return bool(net) and self.ends[net][0] == self.column

    def ends_here(self, net):
        return bool(net) and self.ends[net][1] == self.column

    def follow(self, net):
        return self.ends[net][1] > self.column

    def open(self, net):
        return self.ends[net][0] < self.column <= self.ends[net][1]

    def stretched(self, net):
        return self.ends[net][1] < self.column

    def last(self, net):
        return self.ends[net][1]


def stretched_net(place, pins):
    """The lowest-numbered stretched net, or 0."""
    return min((net for net in place.left if pins.stretched(net)), default=0)


def close_net(place, pins, net):
    """A stretched net is joined; a top pin takes its highest track, a bottom pin its lowest."""
    a, b = place.left[net][0], place.left[net][-1]
    place.wire(net, a, b)
    place.leaves_on(net, ())
    if pins.top:
        place.from_top(pins.top, b)
        place.adds(pins.top, b)
    if pins.bottom:
        place.from_bottom(pins.bottom, a)
        place.adds(pins.bottom, a)


def new_tracks(place, pins):
    """Starting pins on the lowest free tracks, the higher one for the top pin."""
    chosen = iter(place.free())
    if pins.bottom:
        track = next(chosen)
        place.from_bottom(pins.bottom, track)
        place.adds(pins.bottom, track)
    if pins.top:
        track = next(chosen)
        place.from_top(pins.top, track)
        place.adds(pins.top, track)


def can_both_end(place, pins):
    """Whether both pins end their nets and the bottom net lies below the top net."""
    top, bottom = pins.top, pins.bottom
    return pins.ends_here(top) and pins.ends_here(bottom) and place.left[bottom][-1] < place.left[top][0]


def both_end(place, pins):
    """Both nets are joined, each up to its pin."""
    place.from_top(pins.top, place.left[pins.top][0])
    place.from_bottom(pins.bottom, place.left[pins.bottom][-1])
    place.leaves_on(pins.top, ())
    place.leaves_on(pins.bottom, ())


def top_ends(place, pins):
    """The top net ends and leaves its lowest track to the bottom pin."""
    low = place.left[pins.top][0]
    place.from_top(pins.top, low)
    place.leaves_on(pins.top, ())
    if pins.bottom:
        place.from_bottom(pins.bottom, low)
        place.adds(pins.bottom, low)


def bottom_ends(place, pins):
    """The bottom net ends and leaves its highest track to the top pin."""
    high = place.left[pins.bottom][-1]
    place.from_bottom(pins.bottom, high)
    place.leaves_on(pins.bottom, ())
    if pins.top:
        place.from_top(pins.top, high)
        place.adds(pins.top, high)


def bottom_adds(place, pins):
    """Opposite a continuing top net the bottom net has a track more: the lowest free one if that lies below, else the top net's highest, which moves."""
    top, bottom, free = pins.top, pins.bottom, place.free()[0]
    m = place.left[top][-1]
    place.from_top(top, m)
    if free > m:
        place.moves(top, m, free)
    place.from_bottom(bottom, min(free, m))
    place.adds(bottom, min(free, m))


def top_adds(place, pins):
    """Opposite a continuing bottom net the top net has a track more: the lowest free one if that lies above, else the bottom net's lowest, which moves."""
    top, bottom, free = pins.top, pins.bottom, place.free()[0]
    low = place.left[bottom][0]
    place.from_bottom(bottom, low)
    if free < low:
        place.moves(bottom, low, free)
    place.from_top(top, max(free, low))
    place.adds(top, max(free, low))


def go_direct(place, pins):
    """Continuing pins reach their nets: the top pin the highest strand, the bottom pin the lowest."""
    if pins.top:
        place.from_top(pins.top, place.left[pins.top][-1])
    if pins.bottom:
        place.from_bottom(pins.bottom, place.left[pins.bottom][0])
