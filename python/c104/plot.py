"""A network at fixed places, as SVG: plain, with marked ways, with loads as heat, or as it stands.

Each wire is a line of its own. Where its two ways are told apart each has a lane, on the right of its way. The pictures of one
network, whatever they show, have the same places. Lengths are in pixels.
"""

from __future__ import annotations

import math
import textwrap
from collections.abc import Iterable, Mapping, Sequence
from dataclasses import dataclass, field
from html import escape

from c104.layout import Layout, Point
from c104.network import Network, Peer, Port

MARGIN, LINE = 30, 16
GRAY, DARK = "#b8b8b8", "#333333"
#: The colours of loads, from none to the largest.
HEAT = ((0xDE, 0xDE, 0xDE), (0xFD, 0xCC, 0x8A), (0xFC, 0x8D, 0x59), (0xE3, 0x4A, 0x33), (0xA5, 0x0F, 0x15))
FONT = "Helvetica, Arial, sans-serif"


@dataclass(frozen=True)
class Lane:
    """How a way is drawn: what goes out of a port."""

    color: str = DARK
    width: float = 2
    dash: str = ""
    double: bool = False
    label: str = ""
    told: str = ""  # shown by browsers
    tokens_out: int = 0
    tokens_in: int = 0
    arrow: str = "full"  # or empty, diamond, none


@dataclass(frozen=True)
class Want:
    """A dotted arrow through a switch, from an input to an output that its packet wants."""

    input: Port
    output: Port
    color: str
    wide: bool
    told: str


@dataclass(frozen=True)
class Figure:
    """What a picture shows besides the network. A key of `legend` is a colour, a dash, or one of both."""

    title: Sequence[str] = ()
    lanes: Mapping[Peer, Lane] = field(default_factory=dict)
    wants: Sequence[Want] = ()
    owner: str | None = None
    legend: Sequence[tuple[Lane, str]] = ()
    heat: tuple[str, Sequence[str]] | None = None  # what is counted, and the numbers along the scale
    quiet: bool = False  # wires are pale, so that lanes stand out
    gap: float = 2.6  # from the middle of a wire to each of its lanes


def heat_color(share: float) -> str:
    """The colour of a share, 0 to 1, of the largest load."""
    at = min(max(share, 0.0), 1.0) * (len(HEAT) - 1)
    low = min(int(at), len(HEAT) - 2)
    mixed = (round(one + (other - one) * (at - low)) for one, other in zip(HEAT[low], HEAT[low + 1]))
    return "#" + "".join(f"{it:02x}" for it in mixed)


@dataclass(frozen=True)
class Track:
    """A curve from one point to another by way of a third, which is in the middle where it is straight."""

    start: Point
    middle: Point
    end: Point

    def at(self, share: float) -> Point:
        rest = 1 - share
        weights = (rest * rest, 2 * rest * share, share * share)
        points = (self.start, self.middle, self.end)
        return sum(w * p[0] for w, p in zip(weights, points)), sum(w * p[1] for w, p in zip(weights, points))

    def path(self) -> str:
        (x, y), (mx, my), (ex, ey) = self.start, self.middle, self.end
        return f"M{x:.1f} {y:.1f}Q{mx:.1f} {my:.1f} {ex:.1f} {ey:.1f}"

    def reversed(self) -> Track:
        return Track(self.end, self.middle, self.start)


class Plot:
    """A picture of a network, which is made part by part."""

    def __init__(self, net: Network, layout: Layout, figure: Figure) -> None:
        self.net, self.layout, self.figure = net, layout, figure
        self.has_lanes = bool(figure.lanes)
        self.tracks = self._tracks()

    def center(self, node: str) -> Point:
        return self.layout.switches[node] if node in self.layout.switches else self.layout.terminals[node]

    def half(self, node: str) -> Point:
        """Half the width and half the height of a node. Dotted arrows lead round the name of a switch, which needs room."""
        if node not in self.layout.switches:
            return max(15.0, 3.4 * len(node) + 6), 14.0
        return (max(20.0, 3.4 * len(node) + 12), 17.0) if self.figure.wants else (max(15.0, 3.4 * len(node) + 6), 12.0)

    def all_wires(self) -> list[tuple[Peer, Peer]]:
        """The ends of all wires, those of terminals first."""
        wires: list[tuple[Peer, Peer]] = [(it.name, it.port) for it in self.net.terminals.values()]
        return wires + [*self.net.wires]

    def _tracks(self) -> dict[Peer, Track]:
        """The way that goes out of each port. Wires of the same two nodes lie side by side."""
        beside: dict[frozenset[str], list[tuple[Peer, Peer]]] = {}
        for here, there in self.all_wires():
            beside.setdefault(frozenset((node_of(here), node_of(there))), []).append((here, there))
        step = 4.2 * self.figure.gap if self.has_lanes else 5
        found: dict[Peer, Track] = {}
        for nodes, ends in beside.items():
            first = min(nodes)
            for number, (here, there) in enumerate(ends):
                offset = (number - (len(ends) - 1) / 2) * step
                offset = offset if node_of(here) == first else -offset
                lane = self.figure.gap if self.has_lanes else 0
                found[here] = self._track(node_of(here), node_of(there), offset + lane)
                found[there] = self._track(node_of(there), node_of(here), -offset + lane)
        return found

    def _track(self, start: str, end: str, offset: float) -> Track:
        """A way between two nodes, so far to the right of the line between their centres."""
        one, other = self.center(start), self.center(end)
        length = math.dist(one, other) or 1
        right = ((one[1] - other[1]) / length, (other[0] - one[0]) / length)
        bend = 0.0
        if frozenset((start, end)) in self.layout.bent:
            # to the left of vertical wires, and above others
            is_left = right[0] < 0 if abs(right[0]) > 0.9 else right[1] < 0
            bend = (30 + 0.08 * length) * (1 if is_left else -1)
        mx = (one[0] + other[0]) / 2 + right[0] * (offset + 2 * bend)
        my = (one[1] + other[1]) / 2 + right[1] * (offset + 2 * bend)
        ends = []
        for node, centre in ((start, one), (end, other)):
            at = (centre[0] + right[0] * offset, centre[1] + right[1] * offset)
            ends.append(self._trimmed(node, at, (mx, my)))
        return Track(ends[0], (mx, my) if bend else ((ends[0][0] + ends[1][0]) / 2, (ends[0][1] + ends[1][1]) / 2), ends[1])

    def _trimmed(self, node: str, at: Point, to: Point) -> Point:
        """Where a line from near the centre of a node leaves it."""
        length = math.dist(at, to) or 1
        way = ((to[0] - at[0]) / length, (to[1] - at[1]) / length)
        centre, (wide, high) = self.center(node), self.half(node)
        far = 0.0
        while far < length / 2:
            x, y = at[0] + way[0] * far - centre[0], at[1] + way[1] * far - centre[1]
            is_box = node in self.layout.switches
            if not (abs(x) <= wide and abs(y) <= high if is_box else (x / wide) ** 2 + (y / high) ** 2 <= 1):
                break
            far += 1
        return at[0] + way[0] * far, at[1] + way[1] * far

    def _repr_svg_(self) -> str:
        """What a notebook shows."""
        return self.text()

    # The parts

    def text(self) -> str:
        body = [*self.wires(), *self.lanes(), *self.nodes(), *self.wants(), *self.tops()]
        points = [*self.layout.switches.values(), *self.layout.terminals.values(), *(it.at(0.5) for it in self.tracks.values())]
        left = min((x for x, _ in points), default=0) - MARGIN - 16
        right = max((x for x, _ in points), default=0) + MARGIN + 16
        top = min((y for _, y in points), default=0) - MARGIN
        bottom = max((y for _, y in points), default=0) + MARGIN
        title = [part for line in self.figure.title for part in textwrap.wrap(line, max(50, int((right - left) / 8)))]
        wide = max([right - left, *(7.4 * len(line) + 2 * MARGIN for line in title), 380 if self.figure.heat else 0])
        left -= (wide - (right - left)) / 2
        top -= 22 * len(title)
        parts = [middle_text(left + wide / 2, top + 24 + 22 * it, line, 14) for it, line in enumerate(title)]
        legend, high = self.legend(left + MARGIN, bottom + 10, wide - 2 * MARGIN)
        bottom += high
        size = f"{left:.1f} {top:.1f} {wide:.1f} {bottom - top:.1f}"
        head = (f'<svg xmlns="http://www.w3.org/2000/svg" width="{wide:.0f}" height="{bottom - top:.0f}" viewBox="{size}" '
                f'font-family="{FONT}" font-size="10">\n<rect x="{left:.1f}" y="{top:.1f}" width="{wide:.1f}" '
                f'height="{bottom - top:.1f}" fill="white"/>')
        return "\n".join([head, *parts, *body, *legend, "</svg>", ""])

    def wires(self) -> Iterable[str]:
        """All wires, and the numbers of their links, where there is room."""
        color = "#dddddd" if self.figure.quiet else GRAY if self.has_lanes else DARK
        for number, (here, there) in enumerate(self.all_wires()):
            if not (here in self.figure.lanes and there in self.figure.lanes):
                track = self.tracks[here]
                yield f'<path id="e{number}" d="{track.path()}" fill="none" stroke="{color}" stroke-width="1.3"/>'
        bundles: dict[tuple[str, str], list[Port]] = {}
        for port in self.net.ports:
            bundles.setdefault((port.switch, node_of(self.net.peers[port])), []).append(port)
        for (switch, peer), ports in bundles.items():
            yield self.link_numbers(ports, switch < peer)

    def link_numbers(self, ports: Sequence[Port], is_onward: bool) -> str:
        """The numbers of the links of a switch to one other node, beside the outermost wire."""
        track = self.tracks[ports[-1] if is_onward else ports[0]]
        length = math.dist(track.start, track.end) or 1
        shown = ",".join(str(port.link) for port in ports)
        x, y = track.at(min(9 / length, 0.3))
        near = track.at(min(14 / length, 0.4))
        step = math.dist((x, y), near) or 1
        way = ((near[0] - x) / step, (near[1] - y) / step)
        side = (5 + self.figure.gap if self.has_lanes else 5.5) + 1.6 * abs(way[1]) * len(shown)
        x, y = x - way[1] * side, y + way[0] * side
        return f'<text x="{x:.1f}" y="{y + 3:.1f}" font-size="8" fill="#777777" text-anchor="middle">{shown}</text>'

    def lanes(self) -> Iterable[str]:
        """The ways that are told apart, the widest on top."""
        for port, lane in sorted(self.figure.lanes.items(), key=lambda it: it[1].width):
            track = self.tracks.get(port)
            if track is None:
                continue
            dash = f' stroke-dasharray="{lane.dash}"' if lane.dash else ""
            line = f'fill="none" stroke-width="{lane.width:.1f}"'
            yield f"<g><title>{escape(lane.told or lane.label or str(port))}</title>"
            yield f'<path d="{track.path()}" {line} stroke="{lane.color}"{dash}/>'
            if lane.double:
                yield f'<path d="{track.path()}" fill="none" stroke-width="{lane.width / 3:.1f}" stroke="white"/>'
            yield self.head(track, lane.color, lane.arrow, max(3.2, lane.width)) + "</g>"

    def head(self, track: Track, color: str, arrow: str, size: float) -> str:
        """The head of an arrow at the end of a track."""
        if arrow == "none":
            return ""
        x, y = track.end
        bx, by = track.at(0.97) if math.dist(track.start, track.end) > 0 else track.start
        length = math.dist((x, y), (bx, by)) or 1
        dx, dy = (x - bx) / length * size, (y - by) / length * size
        back = [(x - 2.6 * dx - 1.1 * dy, y - 2.6 * dy + 1.1 * dx), (x - 2.6 * dx + 1.1 * dy, y - 2.6 * dy - 1.1 * dx)]
        corners = [(x, y), back[0], back[1]]
        if arrow == "diamond":
            corners = [(x, y), back[0], (x - 5.2 * dx, y - 5.2 * dy), back[1]]
        points = " ".join(f"{px:.1f},{py:.1f}" for px, py in corners)
        fill = "white" if arrow == "empty" else color
        return f'<polygon points="{points}" fill="{fill}" stroke="{color}" stroke-width="1"/>'

    def nodes(self) -> Iterable[str]:
        for name, (x, y) in self.layout.switches.items():
            wide, high = self.half(name)
            yield (f'<rect x="{x - wide:.1f}" y="{y - high:.1f}" width="{2 * wide:.1f}" height="{2 * high:.1f}" rx="3" '
                   f'fill="#e8e8e8" stroke="{DARK}"/>' + middle_text(x, y + 4, name, 11))
        for name, (x, y) in self.layout.terminals.items():
            wide, high = self.half(name)
            labels = self.net.terminals[name].labels
            shown = f"{labels[0]}-{labels[-1]}" if len(labels) > 1 else f"{labels.start}"
            fill = "gold" if name == self.figure.owner else "white"
            yield (f'<ellipse cx="{x:.1f}" cy="{y:.1f}" rx="{wide:.1f}" ry="{high:.1f}" fill="{fill}" stroke="{DARK}"/>'
                   + middle_text(x, y - 1, name, 10) + middle_text(x, y + 9, shown, 8, "#666666"))

    def wants(self) -> Iterable[str]:
        """The dotted arrows, over the edge of their switch."""
        for want in self.figure.wants:
            before = self.tracks.get(self.net.peers.get(want.input))  # type: ignore[arg-type]
            behind = self.tracks.get(want.output)
            if before is None or behind is None:
                continue
            track = self.track_in(want.output.switch, before.end, behind.start)
            width = 3 if want.wide else 1.8
            yield (f'<g><title>{escape(want.told)}</title><path d="{track.path()}" fill="none" stroke="{want.color}" '
                   f'stroke-width="{width}" stroke-dasharray="1.5 3" stroke-linecap="round"/>'
                   + self.head(track, want.color, "empty", 3) + "</g>")

    def track_in(self, switch: str, start: Point, end: Point) -> Track:
        """The shortest of some curves through a switch that don't cross its name."""
        (x, y), (wide, high) = self.center(switch), self.half(switch)
        name = 3.3 * len(switch) + 3

        def cost(track: Track) -> tuple[int, float]:
            points = [track.at(it / 20) for it in range(1, 20)]
            crossed = sum(abs(px - x) < name and abs(py - y) < 9 or abs(px - x) > wide or abs(py - y) > high for px, py in points)
            return crossed, math.dist(start, track.middle) + math.dist(track.middle, end)

        middles = [(x + wide * right / 4, y + high * down / 4) for right in range(-6, 7) for down in range(-6, 7)]
        return min((Track(start, middle, end) for middle in middles), key=cost)

    def tops(self) -> Iterable[str]:
        """The names of lanes, and how many tokens wait at their ends, over all lines."""
        for port, lane in self.figure.lanes.items():
            track = self.tracks.get(port)
            if track is None:
                continue
            length = math.dist(track.start, track.end) or 1
            if lane.label and length > 6 * len(lane.label) + 40:
                x, y = track.at(0.36)  # that of the other way is nearer to the other end
                yield (f'<text x="{x:.1f}" y="{y + 3:.1f}" font-size="10" font-weight="bold" text-anchor="middle" '
                       f'fill="{lane.color}" stroke="white" stroke-width="3" paint-order="stroke" stroke-linejoin="round">'
                       f"{escape(lane.label)}</text>")
            near = min(10 / length, 0.3)
            for count, share in ((lane.tokens_out, near), (lane.tokens_in, 1 - near)):
                if count:
                    x, y = track.at(share)
                    half = 3.2 + 2 * len(str(count))
                    yield (f'<rect x="{x - half:.1f}" y="{y - 5.2:.1f}" width="{2 * half:.1f}" height="10.4" rx="5.2" fill="white" '
                           f'stroke="{lane.color}"/>' + middle_text(x, y + 2.5, str(count), 7))

    def legend(self, left: float, top: float, wide: float) -> tuple[list[str], float]:
        """What is below the picture, and how high it is."""
        parts: list[str] = []
        x, y = left, top
        for lane, told in self.figure.legend:
            room = 34 + 5.6 * len(told) + 18
            if x > left and x + room > left + wide:
                x, y = left, y + LINE
            dash = f' stroke-dasharray="{lane.dash}"' if lane.dash else ""
            track = Track((x, y), (x + 13, y), (x + 26, y))
            parts.append(f'<path d="{track.path()}" stroke="{lane.color}" stroke-width="{lane.width:.1f}"{dash}/>')
            parts.append(self.head(track, lane.color, lane.arrow, max(3, min(lane.width, 3))))
            parts.append(f'<text x="{x + 32:.1f}" y="{y + 3.5:.1f}">{escape(told)}</text>')
            x += room
        y += LINE if self.figure.legend else 0
        if self.figure.heat:
            told, numbers = self.figure.heat
            parts.append(f'<text x="{left:.1f}" y="{y + 4:.1f}">{escape(told)}</text>')
            y += 10
            span = min(wide, 320.0)
            for it in range(40):
                parts.append(f'<rect x="{left + span * it / 40:.1f}" y="{y:.1f}" width="{span / 40 + 0.5:.1f}" height="9" '
                             f'fill="{heat_color(it / 39)}"/>')
            for it, number in enumerate(numbers):
                parts.append(middle_text(left + span * it / max(len(numbers) - 1, 1), y + 21, number, 9))
            y += 30
        return parts, y - top + 14


def node_of(port: Peer) -> str:
    return port.switch if isinstance(port, Port) else port


def middle_text(x: float, y: float, text: str, size: int, color: str = "black") -> str:
    return f'<text x="{x:.1f}" y="{y:.1f}" font-size="{size}" text-anchor="middle" fill="{color}">{escape(text)}</text>'
