"""The third sweep of the second router: no net over three pins, and none of three with its first two pins in one column.

By document 02, Job 3, and part (b) of source document 000, with the definitions of crates/sweep/specs at hand; docs/THREE-PIN.md has the rules in
words.
"""

from second_column import both_end, bottom_adds, bottom_ends, can_both_end, close_net, go_direct, new_tracks, stretched_net, top_adds, top_ends


class ThreePinSweep:
    """The sweep, with the pairs in the gap left of its column: of each pair the double net, then the single one."""

    def __init__(self):
        self.pairs = set()

    def column(self, place, pins):
        """One column with pins; then a pair is over if one of its nets is."""
        if pins.top == pins.bottom:
            full_vertical(place, pins)
        elif any(map(pins.ends_here, pins.here())):
            end_net(place, pins)
        else:
            self.go_on(place, pins)
        self.pairs = {pair for pair in self.pairs if all(map(pins.follow, pair))}

    def go_on(self, place, pins):
        """Rules 2 and 3: no pin ends its net."""
        net = stretched_net(place, pins)
        starting = list(map(pins.starts, pins.here()))
        if net:
            close_net(place, pins, net)
        elif all(starting):
            self.start_nets(place, pins)
        elif any(starting):
            self.start_beside(place, pins)
        else:
            self.continue_nets(place, pins)

    def unpaired(self, place, pins):
        """Of the unpaired double nets the one that ends last and the lowest-numbered other one, 0 where there is none."""
        paired = {net for pair in self.pairs for net in pair}
        nets = sorted(net for net, own in place.left.items() if len(own) == 2 and net not in paired)
        latest = max(nets, key=pins.last, default=0)  # the first of several
        return latest, next((net for net in nets if net != latest), 0)

    def start_nets(self, place, pins):
        """Rule 3: only starting pins."""
        latest, other = self.unpaired(place, pins)
        if not latest:
            new_tracks(place, pins)
            return
        reduce_net(place, pins, latest)
        if other:
            self.pairs.add((other, latest))

    def start_beside(self, place, pins):
        """Rule 3: one pin starts, the other continues its net, which is paired with an unpaired double net."""
        latest, other = self.unpaired(place, pins)
        double = other or latest
        going = pins.bottom if pins.starts(pins.top) else pins.top
        if double and pins.last(going) < pins.last(double):
            reduce_net(place, pins, double)
            self.pairs.add((going, double))
            return
        (top_adds if going == pins.bottom else bottom_adds)(place, pins)
        if double:
            self.pairs.add((double, going))

    def continue_nets(self, place, pins):
        """Rule 3: only continuing pins."""
        here = pins.here()
        if len(here) == 1 or place.left[pins.bottom][0] < place.left[pins.top][-1]:
            go_direct(place, pins)
            return
        short, long = sorted(here, key=lambda net: (pins.last(net), net))
        (top_adds if short == pins.top else bottom_adds)(place, pins)
        self.pairs.add((short, long))


def full_vertical(place, pins):
    """Rule 1: both pins of one net, which ends with them."""
    place.from_bottom(pins.bottom, place.top_row)
    place.leaves_on(pins.top, ())


def reduce_net(place, pins, net):
    """A double net is joined and keeps one track. Its other one, and the lowest free track where there are two pins, go to the pins: the bottom pin takes
    the lowest of these tracks, the top pin the highest, and the net stays between them."""
    own = place.left[net]
    place.wire(net, own[0], own[1])
    tracks = sorted(own + place.free()[: len(pins.here()) - 1])
    if pins.bottom:
        place.from_bottom(pins.bottom, tracks[0])
        place.adds(pins.bottom, tracks.pop(0))
    if pins.top:
        place.from_top(pins.top, tracks[-1])
        place.adds(pins.top, tracks.pop())
    place.leaves_on(net, tracks)


def end_net(place, pins):
    """Rule 4: a net ends and leaves a track to the pin opposite; of two that cannot both be joined the one with more strands, then the lower number."""
    ending = [net for net in pins.here() if pins.ends_here(net)]
    if can_both_end(place, pins):
        both_end(place, pins)
    elif min(ending, key=lambda net: (-len(place.left[net]), net)) == pins.top:
        top_ends(place, pins)
    else:
        bottom_ends(place, pins)
