"""Nets that are placed into a channel of two-pin nets, for the second driven sweep and the second board, from document 02 alone.

The rows are top and bottom. A terminal is a column, from 1, and a side, 0 for top and 1 for bottom.
"""

from second_channel import LARGEST


def refused_net(rows, drawn, net, one, other):
    """The first of 6, 21 and 22 that applies to a net more at two terminals, where some columns are drawn; 0 if none does."""
    if not numbered(net):
        return 6
    if used(rows, net):
        return 21
    return 22 if one == other or not allowed(rows, drawn, one) or not allowed(rows, drawn, other) else 0


def numbered(net):
    """Whether a net may have the number."""
    return 1 <= net <= LARGEST


def used(rows, net):
    """Whether the rows have a net of the number."""
    return net in rows[0] + rows[1]


def allowed(rows, drawn, terminal):
    """Whether a terminal is free, within the channel and right of the last drawn column."""
    column, side = terminal
    return drawn < column <= len(rows[0]) and side in (0, 1) and rows[side][column - 1] == 0


def with_net(rows, net, *terminals):
    """The rows with a net more."""
    more = list(rows[0]), list(rows[1])
    for column, side in terminals:
        more[side][column - 1] = net
    return more
