"""The second channel on the drawing board: just the rows are kept, and the nets at a gap counted each time.

Written from documents 01 and 02; the definitions of crates/board/specs were at hand.
"""

from second_channel import LARGEST, density
from second_placing import numbered, refused_net, used, with_net


class Board:
    """The rows, top and bottom; a new board is that of the channel without columns."""

    def __init__(self):
        self.rows = [], []

    def start(self, columns):
        """Begins a channel without nets; the number. A refused one has no columns."""
        number = 5 if columns > LARGEST else 0
        if number:
            columns = 0
        self.rows = [0] * columns, [0] * columns
        return number

    def add(self, net, one, other):
        """Adds a net at two terminals, unless it is refused; the number."""
        number = refused_net(self.rows, 0, net, one, other)
        if number == 0:
            self.rows = with_net(self.rows, net, one, other)
        return number

    def drop(self, net):
        """Drops a net, unless it is refused; the number."""
        if not numbered(net):
            return 6
        if not used(self.rows, net):
            return 24
        self.rows = tuple([0 if number == net else number for number in pins] for pins in self.rows)
        return 0

    def density(self):
        """The largest count."""
        return density(*self.rows)

    def count(self, gap):
        """The nets with a pin in the columns up to a gap and one after it."""
        top, bottom = self.rows
        return len(set(top[:gap] + bottom[:gap]) & set(top[gap:] + bottom[gap:]) - {0})
