"""The second checker: whether a drawing is a solution of its channel, from documents 01 and 02 alone.

A grid point is (column, row), columns counted from 1. The edges of each net are kept as a map from its grid points to their neighbours.
"""

from second_channel import pin_counts, refusal

WIDEST = 511  # width and tracks of a drawing that is checked


def ends(position, t):
    """The two grid points that the edge of an entry joins."""
    column, entry = divmod(position, 2 * t + 1)
    if entry <= t:
        return (column + 1, entry), (column + 1, entry + 1)
    return (column + 1, entry - t), (column + 2, entry - t)


def wires(layout, t):
    """For each net its grid points, each with the points to which its edges lead."""
    nets = {}
    for position, net in enumerate(layout):
        if net:
            points = nets.setdefault(net, {})
            one, other = ends(position, t)
            points.setdefault(one, []).append(other)
            points.setdefault(other, []).append(one)
    return nets


def in_one_piece(points):
    """Whether a net's edges hang together at shared points: a flood from one point reaches all."""
    seen, todo = set(), [next(iter(points))]
    while todo:
        point = todo.pop()
        if point not in seen:
            seen.add(point)
            todo += points[point]
    return len(seen) == len(points)


def loose_ends(points, t):
    """The grid points on rows 1 to t where a net has one edge, by column and then row."""
    return sorted(point for point, others in points.items() if len(others) == 1 and 1 <= point[1] <= t)


def terminal_fault(pin, edge):
    """The number of the edge at a terminal with a pin, 0 for none: 0 if it is the pin's."""
    if edge == pin:
        return 0
    if pin == 0:
        return 20
    return 19 if edge else 14


def check(top, bottom, w, t, layout):
    """Number, place, column and row of the first row of the table that applies to a drawing of a channel."""
    number = refusal(top, bottom)
    if number:
        return number, 0, 0, 0
    n, size = len(top), 2 * t + 1
    if not n <= w <= WIDEST:
        return 10, 0, 0, 0
    if t > WIDEST:
        return 11, 0, 0, 0
    if len(layout) != w * size:
        return 12, 0, 0, 0
    pins = pin_counts(top, bottom)
    for position, entry in enumerate(layout):
        if entry and entry not in pins:
            return 13, position, 0, 0
    for column in range(w):
        above, below = (top[column], bottom[column]) if column < n else (0, 0)
        for position, pin in (column * size, below), (column * size + t, above):
            number = terminal_fault(pin, layout[position])
            if number:
                return number, position, 0, 0
    for position in range(max(len(layout) - t, 0), len(layout)):
        if layout[position]:
            return 15, position, 0, 0
    nets = wires(layout, t)
    for net in sorted(nets):
        if not in_one_piece(nets[net]):
            return 16, net, 0, 0
    for net in sorted(nets):
        for column, row in loose_ends(nets[net], t):
            return 17, net, column, row
    return 0, 0, 0, 0
