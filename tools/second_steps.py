"""The second sweep that is driven column by column, for channels of two-pin nets with late nets, from documents 01 and 02 alone.

Each column is drawn when its turn comes, by the rules of such channels, from the rows as they are by then and the tracks that the column before it left.
"""

from second_channel import density, pin_counts, refusal, span
from second_column import Column, Pins
from second_placing import refused_net, with_net
from second_sweep import empty_column, two_pin_column


class Sweep:
    """The rows with the late nets so far, top and bottom; the tracks; the columns drawn; and the tracks of each net right of them.

    A new one is that of the channel without columns.
    """

    def __init__(self):
        self.begin([], [])

    def begin(self, top, bottom):
        """The sweep of a channel that is not refused, with nothing drawn."""
        self.rows = list(top), list(bottom)
        self.tracks = density(top, bottom)
        self.drawn = 0
        self.strands = {}

    def start(self, top, bottom):
        """Begins the sweep of a channel: number, tracks and slice length. Refused rows leave the channel without columns."""
        number = refusal(top, bottom) or (7 if any(count != 2 for count in pin_counts(top, bottom).values()) else 0)
        if number:
            self.begin([], [])
            return number, 0, 0
        self.begin(top, bottom)
        return 0, self.tracks, self.length()

    def columns(self):
        """The columns of the channel."""
        return len(self.rows[0])

    def length(self):
        """The slice length of document 01's own formula."""
        t = self.tracks
        return (self.columns() + t // 2) * (2 * t + 1)

    def finished(self):
        """Whether all columns are drawn, those added too."""
        return self.drawn >= self.columns() and not any(self.strands.values())

    def step(self, layout, k):
        """Draws the next k columns into their places, or those that are left: number, columns drawn so far, whether the sweep is finished."""
        if len(layout) < self.length():
            return 8, 0, False
        while k > 0 and not self.finished():
            entries = self.next_column()
            layout[self.drawn * len(entries) : (self.drawn + 1) * len(entries)] = entries
            self.drawn += 1
            k -= 1
        return 0, self.drawn, self.finished()

    def next_column(self):
        """The entries of the next column, one of the channel or one that joins a stretched net after it."""
        place, pins = Column(self.strands, self.tracks), Pins(*self.rows, self.drawn + 1, span(*self.rows))
        (two_pin_column if pins.here() else empty_column)(place, pins)
        self.strands = {net: own for net, own in place.right.items() if own}
        return place.entries()

    def place(self, net, one, other):
        """Places a late net at two terminals, unless it is refused; the number."""
        number = refused_net(self.rows, self.drawn, net, one, other) or self.too_dense(net, one, other)
        if number == 0:
            self.rows = with_net(self.rows, net, one, other)
        return number

    def too_dense(self, net, one, other):
        """23 if the tracks are too few with a net more, else 0."""
        return 23 if density(*with_net(self.rows, net, one, other)) > self.tracks else 0
