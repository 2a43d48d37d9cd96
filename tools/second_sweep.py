"""The sweeps of the second router and the slice length that they need, from documents 01 and 02 alone.

Two-pin and many-pin channels are drawn here, and the columns without pins of all sweeps; the rules of the third sweep are in second_three_pin.py.
"""

from second_channel import MANY_PIN, THREE_PIN, TWO_PIN, density, family, refusal, span, tracks
from second_column import Column, Pins, both_end, bottom_adds, bottom_ends, can_both_end, close_net, go_direct, new_tracks, stretched_net, top_adds, top_ends
from second_three_pin import ThreePinSweep


def empty_column(place, pins):
    """A column without pins, of any sweep or added after it: the lowest-numbered stretched net is joined."""
    net = stretched_net(place, pins)
    if net:
        close_net(place, pins, net)


def two_pin_column(place, pins):
    """One column with pins, of a channel whose nets have two pins each."""
    top, bottom = pins.top, pins.bottom
    here = pins.here()
    if top == bottom:
        place.from_bottom(bottom, place.top_row)
    elif all(pins.starts(net) for net in here):
        start_pair(place, pins)
    elif pins.ends_here(top) and pins.ends_here(bottom):
        end_pair(place, top, bottom)
    else:
        end_one(place, pins, here)


def start_pair(place, pins):
    """Rule 2: only starting pins, on the tracks of a stretched net or on free ones."""
    net = stretched_net(place, pins)
    if net:
        close_net(place, pins, net)
    else:
        new_tracks(place, pins)


def end_one(place, pins, here):
    """Rule 3: one ending pin, alone or with a starting one opposite."""
    ended = pins.top if pins.ends_here(pins.top) else pins.bottom
    (track,) = place.left[ended]
    place.leaves_on(ended, ())
    if pins.top:
        place.from_top(pins.top, track)
    if pins.bottom:
        place.from_bottom(pins.bottom, track)
    for net in here:
        if net != ended:
            place.adds(net, track)


def end_pair(place, top, bottom):
    """Rule 4: two ending pins."""
    (r,), (s,) = place.left[top], place.left[bottom]
    place.from_top(top, r)
    place.leaves_on(top, ())
    if s < r:
        place.from_bottom(bottom, s)
        place.leaves_on(bottom, ())
    else:
        place.from_bottom(bottom, r)
        place.leaves_on(bottom, (r, s))


def many_pin_column(place, pins):
    """One column with pins, of another channel with a net of three or more pins."""
    top, bottom = pins.top, pins.bottom
    both = top == bottom
    if both and (place.left.get(top) or not pins.follow(top)):
        place.from_bottom(top, place.top_row)
        place.leaves_on(top, place.left[top][:1] if pins.follow(top) else ())
        return
    if reduce_net(place, pins):
        return
    if both:
        place.from_bottom(top, place.top_row)
        place.adds(top, place.free()[0])
    elif pins.ends_here(top) or pins.ends_here(bottom):
        end_net(place, pins)
    elif pins.starts(top) or pins.starts(bottom):
        start_net(place, pins)
    else:
        continue_nets(place, pins)


def reduce_net(place, pins):
    """Rule 2: a stretched net, or an open one with three or more strands, gives up its tracks."""
    net = stretched_net(place, pins) or min(
        (net for net, own in place.left.items() if pins.open(net) and len(own) > 2), default=0
    )
    if not net:
        return False
    own = place.left[net]
    a, b = own[0], own[-1]
    place.wire(net, a, b)
    place.leaves_on(net, own[1:2] if pins.follow(net) else ())
    if pins.top:
        place.from_top(pins.top, b)
        if pins.top != net:
            place.adds(pins.top, b)
    if pins.bottom:
        place.from_bottom(pins.bottom, a)
        if pins.bottom != net:
            place.adds(pins.bottom, a)
    return True


def end_net(place, pins):
    """Rule 3: a net ends and leaves a track to the pin opposite."""
    if can_both_end(place, pins):
        both_end(place, pins)
    elif pins.ends_here(pins.top):
        top_ends(place, pins)
    else:
        bottom_ends(place, pins)


def start_net(place, pins):
    """Rule 4: a net starts, alone, beside another or beside one that continues."""
    if all(map(pins.starts, pins.here())):
        new_tracks(place, pins)
    elif pins.starts(pins.bottom):
        bottom_adds(place, pins)
    else:
        top_adds(place, pins)


def continue_nets(place, pins):
    """Rule 5: nothing starts or ends."""
    top, bottom = pins.top, pins.bottom
    above, below = place.left.get(top), place.left.get(bottom)
    if not top or not bottom or below[0] < above[-1]:
        go_direct(place, pins)
    elif len(above) == 2:
        place.from_top(top, above[0])
        place.leaves_on(top, above[1:])
        place.from_bottom(bottom, above[0])
        place.adds(bottom, above[0])
    elif len(below) == 2:
        place.from_bottom(bottom, below[1])
        place.leaves_on(bottom, below[:1])
        place.from_top(top, below[1])
        place.adds(top, below[1])
    else:
        bottom_adds(place, pins)


def route(top, bottom):
    """Density, tracks, width and entries of the sweep's drawing of a channel that is not refused."""
    t, ends = tracks(top, bottom), span(top, bottom)
    draw = {TWO_PIN: two_pin_column, THREE_PIN: ThreePinSweep().column, MANY_PIN: many_pin_column}[family(top, bottom)]
    strands, layout, width = {}, [], 0
    while width < len(top) or any(strands.values()):
        width += 1
        place, pins = Column(strands, t), Pins(top, bottom, width, ends)
        (draw if pins.here() else empty_column)(place, pins)
        layout += place.entries()
        strands = place.right
    return density(top, bottom), t, width, layout


def need(top, bottom):
    """The slice length that routing a channel that is not refused calls for."""
    _, t, w, _ = route(top, bottom)
    return w * (2 * t + 1)


def route_number(top, bottom, length):
    """The number that routing answers with a slice of a length: the rows' refusal, 8 for a slice that is too short, else 0."""
    return refusal(top, bottom) or (8 if length < need(top, bottom) else 0)
