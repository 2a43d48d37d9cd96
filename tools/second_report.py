"""The second net report, without and with a drawing, from documents 01 and 02 alone.

A table is a list of records, each of first column, last column, pin count and length. The length of a net is the number of its edges: half of what they
are when counted at each of its grid points.
"""

from second_channel import LARGEST, pin_counts, refusal, span
from second_checker import check, wires

NO_RECORD = (0, 0, 0, 0)  # of an unused number


def lengths(layout, t):
    """The length of each net of a drawing."""
    return {net: sum(map(len, points.values())) // 2 for net, points in wires(layout, t).items()}


def answer(top, bottom, records, drawing):
    """Number, place, column and row: the rows' refusal comes first, then that of the table, then the checker's where there is a drawing."""
    number = refusal(top, bottom) or (9 if records < LARGEST else 0)
    if number or drawing is None:
        return number, 0, 0, 0
    return check(top, bottom, *drawing)


def report(top, bottom, table, drawing=None):
    """Fills a table for a channel, with lengths where a drawing is given, as width, tracks and layout; number, place, column and row of the answer."""
    answered = answer(top, bottom, len(table), drawing)
    if answered[0] == 0:
        ends, pins = span(top, bottom), pin_counts(top, bottom)
        length = lengths(drawing[2], drawing[1]) if drawing else {}
        table[:LARGEST] = [(*ends[net], pins[net], length.get(net, 0)) if net in pins else NO_RECORD for net in range(1, LARGEST + 1)]
    return answered
