#!/usr/bin/env python3
"""Draws a listing of `knee` as an SVG picture.

    tools/channel.py < channel.txt | knee | tools/draw.py > channel.svg

Each net has its colour. Bends are round, so that two nets that bend at one
grid point (a knock-knee) do not seem to cross; where nets do cross, the upper
one has a white border. A dot shows where three or four edges of a net meet.
"""

import colorsys
import sys

import listing

CELL = 30           # distance of grid lines
BEND = 12           # radius of a bend
LINE = 4.6          # width of a net
BORDER = 2.4        # white border on each side of a net
DOT = 6.2           # radius of a joint
PIN = 10.5          # half the side of a pin
MARGIN = 34         # left and right of the outermost columns
NARROWEST = 240     # room for the title
HEAD, FOOT = 30, 30  # above the top pins, below the bottom pins

COLOURS = [
    "#1f6fb4", "#d6561b", "#2a9134", "#8a4fbe", "#c21f3a", "#0f8f8f", "#b8860b", "#d1479b",
    "#4a5b6c", "#6b8e00", "#7a4a2b", "#3d4ed0", "#e07b91", "#00a0d6", "#a03c78", "#5f9e6e",
    "#f0a30a", "#00594c", "#b3a2d8", "#8b8000", "#ff6f61", "#26323d",
]


def colour(index):
    """The colour of the index-th net, counted from 0."""
    if index < len(COLOURS):
        return COLOURS[index]
    hue = (0.11 + index * 0.618034) % 1
    light = (0.36, 0.48, 0.42)[index % 3]
    red, green, blue = colorsys.hls_to_rgb(hue, light, 0.62)
    return "#%02x%02x%02x" % (round(255 * red), round(255 * green), round(255 * blue))


def links_of(edges):
    """For each point of a net, the points to which its edges lead."""
    links = {}
    for a, b in edges:
        links.setdefault(a, []).append(b)
        links.setdefault(b, []).append(a)
    return links


def chains(edges):
    """The edges of a net as lists of points that run from joint or end to joint or end."""
    links = links_of(edges)
    left = {frozenset(edge) for edge in edges}

    def walk(a, b):
        chain = [a, b]
        left.discard(frozenset((a, b)))
        while len(links[chain[-1]]) == 2:
            ahead = [p for p in links[chain[-1]] if frozenset((chain[-1], p)) in left]
            if not ahead:
                break
            left.discard(frozenset((chain[-1], ahead[0])))
            chain.append(ahead[0])
        return chain

    found = []
    for point in sorted(links):
        for other in sorted(links[point]):
            if len(links[point]) != 2 and frozenset((point, other)) in left:
                found.append(walk(point, other))
    while left:  # rings without a joint
        a, b = sorted(min(left, key=sorted))
        found.append(walk(a, b))
    return found


class Picture:
    def __init__(self, drawing):
        self.drawing = drawing
        self.width = max(2 * MARGIN + CELL * (drawing.width - 1), NARROWEST)
        self.height = HEAD + FOOT + 2 * PIN + CELL * (drawing.tracks + 1)
        self.parts = []

    def at(self, point):
        """The place of a grid point in the picture."""
        column, row = point
        x = MARGIN + CELL * (column - 1)
        y = HEAD + PIN + CELL * (self.drawing.tracks + 1 - row)
        return x, y

    def add(self, text):
        self.parts.append(text)

    def path(self, chain):
        """The path of a chain of points, its bends rounded."""
        points = [self.at(point) for point in chain]
        words = ["M%g %g" % points[0]]
        for (ax, ay), (x, y), (bx, by) in zip(points, points[1:], points[2:]):
            if ax != bx and ay != by:
                into = (x + (ax > x) * BEND - (ax < x) * BEND, y + (ay > y) * BEND - (ay < y) * BEND)
                out = (x + (bx > x) * BEND - (bx < x) * BEND, y + (by > y) * BEND - (by < y) * BEND)
                turn = (x - ax) * (by - y) - (y - ay) * (bx - x) > 0
                words.append("L%g %gA%d %d 0 0 %d %g %g" % (*into, BEND, BEND, turn, *out))
        words.append("L%g %g" % points[-1])
        return "".join(words)

    def grid(self):
        """Faint tracks, and the ends of the channel."""
        last = self.drawing.width
        for track in range(1, self.drawing.tracks + 1):
            (x1, y), (x2, _) = self.at((1, track)), self.at((last, track))
            self.add(f'<path d="M{x1 - CELL / 2:g} {y:g}H{x2 + CELL / 2:g}" class="track"/>')
            self.add(f'<text x="{x1 - MARGIN + 9:g}" y="{y:g}" dy=".35em" class="note">{track}</text>')

    def net(self, edges, ink):
        paths = [self.path(chain) for chain in chains(edges)]
        joined = "".join(paths)
        self.add(f'<path d="{joined}" class="border"/>')
        self.add(f'<path d="{joined}" class="net" stroke="{ink}"/>')
        for point, others in sorted(links_of(edges).items()):
            if len(others) > 2:
                x, y = self.at(point)
                self.add(f'<circle cx="{x:g}" cy="{y:g}" r="{DOT:g}" fill="{ink}"/>')

    def pin(self, net, point, ink):
        x, y = self.at(point)
        self.add(
            f'<rect x="{x - PIN:g}" y="{y - PIN:g}" width="{2 * PIN:g}" height="{2 * PIN:g}" '
            f'rx="3" fill="{ink}"/><text x="{x:g}" y="{y:g}" dy=".36em" class="pin">{net}</text>'
        )

    def columns(self):
        """Column numbers below the bottom pins."""
        for column in range(1, self.drawing.width + 1):
            x, y = self.at((column, 0))
            self.add(f'<text x="{x:g}" y="{y + PIN + 12:g}" dy=".35em" class="note">{column}</text>')

    def svg(self):
        drawing = self.drawing
        nets = {}
        for net, a, b in drawing.edges():
            nets.setdefault(net, []).append((a, b))
        inks = {net: colour(i) for i, net in enumerate(sorted(nets))}
        self.grid()
        for net in sorted(nets):
            self.net(nets[net], inks[net])
        for net, point in drawing.pins():
            self.pin(net, point, inks[net])
        self.columns()
        title = f"density {drawing.density}, {drawing.tracks} tracks, width {drawing.width}"
        return "\n".join([
            f'<svg xmlns="http://www.w3.org/2000/svg" viewBox="0 0 {self.width:g} {self.height:g}" '
            f'width="{self.width:g}" height="{self.height:g}" font-family="Helvetica, Arial, sans-serif">',
            f"<title>Channel: {title}</title>",
            "<style>",
            f".net{{fill:none;stroke-width:{LINE};stroke-linecap:round;stroke-linejoin:round}}",
            f".border{{fill:none;stroke:#fff;stroke-width:{LINE + 2 * BORDER:g}}}",
            ".track{stroke:#e4e4ea;stroke-width:1;fill:none}",
            ".pin{fill:#fff;font-size:11px;font-weight:bold;text-anchor:middle}",
            ".note{fill:#9a9aa6;font-size:9px;text-anchor:middle}",
            ".title{fill:#44444f;font-size:12px}",
            "</style>",
            f'<rect width="{self.width:g}" height="{self.height:g}" fill="#fff"/>',
            f'<text x="{MARGIN - PIN:g}" y="{HEAD / 2:g}" dy=".35em" class="title">{title}</text>',
            *self.parts,
            "</svg>",
            "",
        ])


def main():
    try:
        drawing = listing.read(sys.stdin.read())
    except ValueError as error:
        print(f"draw.py: {error}", file=sys.stderr)
        return 1
    sys.stdout.write(Picture(drawing).svg())
    return 0


if __name__ == "__main__":
    sys.exit(main())
