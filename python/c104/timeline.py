"""A run over its rounds, as SVG (`c104-draw DESC SCRIPT --over-time`).

All that a picture shows is in the table `holds` of `c104 rows`. A column is a round, and a row is one way over a wire. Lengths are
in pixels.
"""

from __future__ import annotations

import csv
from collections.abc import Iterable, Mapping, Sequence
from dataclasses import dataclass, replace
from html import escape
from itertools import groupby

#: The colours of packets, by the number of the terminal that sent them; a packet without a name is black.
COLORS = ("blue", "darkorange", "forestgreen", "purple", "deepskyblue", "saddlebrown")
UNNAMED = "black"
#: The patterns of each colour: name, path, and whether the path is filled or drawn.
PATTERNS = (
    ("1", "M0 0h6v14H0z", "fill"),
    ("2", "M0 0h8v6H0zM0 8h8v6H0z", "fill"),
    ("3", "M0 0h6v6H0zM0 8h6v6H0z", "fill"),
    ("idle", "M0 14L8 0M0 2.5H8M0 11.5H8", "stroke"),
)
#: What a picture may have, unless any size is allowed.
MOST_BYTES, MOST_PIXELS = 1_048_576, 32_767
PLAIN_SCALE = 8
LINE, LETTER, MARGIN, LEAST_WIDTH, MOST_LETTERS = 14, 6, 4, 480, 32
HATCHED = "; hatched: a packet holds the wire, and nothing crosses"


@dataclass(frozen=True)
class Packet:
    """A packet by the terminal that sent it, and its number there, from 0."""

    sender: str
    number: int

    def __str__(self) -> str:
        return f"{self.sender} {self.number}"


@dataclass(frozen=True)
class Bar:
    """Rounds of a packet on one way of a wire: a row of the program's table. `crossing` is its number among the packets that
    crossed there, which tells apart those without a name."""

    port: str
    to: str
    crossing: int
    packet: Packet | None
    first: int
    last: int
    moves: bool

    def clipped(self, period: Period) -> Bar | None:
        first, last = max(self.first, period.first), min(self.last, period.last)
        return replace(self, first=first, last=last) if first <= last else None


@dataclass(frozen=True)
class Period:
    """The rounds from the first to the last, both of them."""

    first: int
    last: int


@dataclass(frozen=True)
class Names:
    """The names of a network, each in the order of the description."""

    switches: Sequence[str]
    terminals: Sequence[str]

    def longest(self) -> int:
        return max(map(len, (*self.switches, *self.terminals)), default=0)


def packet_of(row: Mapping[str, str]) -> Packet | None:
    return Packet(row["sender"], int(row["number"])) if row["sender"] else None


def read_holds(table: str) -> tuple[list[Bar], int]:
    """The rows of the table `holds`, and the last round that is shown."""
    *rows, end = csv.DictReader(table.splitlines())
    return [read_bar(row) for row in rows], int(end["last"])


def read_bar(row: Mapping[str, str]) -> Bar:
    """What a row says."""
    first, last = int(row["first"]), int(row["last"])
    return Bar(row["port"], row["to"], int(row["packet"]), packet_of(row), first, last, row["state"] == "moves")


def held_on(bars: Iterable[Bar], end: int, last: int) -> list[Bar]:
    """The bars of which those that hold a wire in the last round that is shown go on to the last of the run: behind that round
    nothing is done any more."""
    return [replace(bar, last=last) if bar.last == end and not bar.moves else bar for bar in bars]


def clip(bars: Iterable[Bar], period: Period) -> list[Bar]:
    """What is drawn of these rounds."""
    return [part for bar in bars if (part := bar.clipped(period))]


def at_switches(bars: Iterable[Bar], switches: set[str]) -> list[Bar]:
    """The bars of wires at one of these switches."""
    return [bar for bar in bars if {end.partition(".")[0] for end in (bar.port, bar.to) if "." in end} & switches]


def color_of(packet: Packet | None, names: Names) -> str:
    return COLORS[names.terminals.index(packet.sender) % 6] if packet else UNNAMED


def pattern_of(packet: Packet | None, names: Names) -> int:
    """0 plain, 1 dashed, 2 double, 3 both: it differs from that of the packet that its terminal sent before."""
    return (names.terminals.index(packet.sender) + packet.number) % 4 if packet else 0


def fill_of(packet: Packet | None, names: Names) -> str:
    color, pattern = color_of(packet, names), pattern_of(packet, names)
    return f"url(#{color}-{pattern})" if pattern else color


def name_of(packet: Packet | None) -> str:
    return str(packet) if packet else "?"


@dataclass(frozen=True)
class Layout:
    """Where the parts of a picture stand, with x 0 at the first round."""

    names: Names
    period: Period
    scale: int
    rows: int

    @property
    def width(self) -> int:
        return max(self.scale * (self.period.last - self.period.first + 1), LEAST_WIDTH)

    @property
    def left(self) -> int:
        return LETTER * (2 * self.letters + 10) + 16

    @property
    def letters(self) -> int:
        return min(self.names.longest(), MOST_LETTERS)

    @property
    def entry_width(self) -> int:
        return LETTER * (self.letters + 8) + 32

    @property
    def columns(self) -> int:
        return max(self.width // self.entry_width, 1)

    @property
    def tick_step(self) -> int:
        """How many rounds there are from a number above the rows to the next."""
        return (7 // self.scale + 1) * 10 * (self.width // 8000 + 1)

    def ticks(self) -> list[tuple[int, int]]:
        """Where the numbers above the rows stand, and the round of each."""
        rounds = self.period.last - self.period.first
        return [(self.scale * it, self.period.first + it) for it in range(0, rounds + 1, self.tick_step)]

    @property
    def total_width(self) -> int:
        x, number = self.ticks()[-1]
        title = len(f"rounds {self.period.first} to {self.period.last}{HATCHED}")
        right = (self.width + 2 * MARGIN, x + LETTER * len(str(number)) + MARGIN, LETTER * title + MARGIN)
        return self.left + max(right)

    def height(self, packets: int) -> int:
        return LINE * (self.rows + packets // self.columns + 5)

    def entry(self, number: int) -> tuple[int, int]:
        """Where a packet of the list stands."""
        return self.entry_width * (number % self.columns), LINE * (self.rows + number // self.columns + 4)

    def span(self, bar: Bar) -> tuple[int, int]:
        return self.scale * (bar.first - self.period.first), self.scale * (bar.last - bar.first + 1)


def packets_of(bars: Sequence[Bar], names: Names) -> list[Packet | None]:
    """The packets that are shown: first those of the terminals' own wires, each by the wire where it is met first."""
    ports = {name: number for number, name in enumerate(names.terminals)}
    ordered = sorted(bars, key=lambda bar: ports.get(bar.port, len(ports)))
    return list(dict.fromkeys(bar.packet for bar in ordered))


def rows_of(bars: Sequence[Bar]) -> list[str | list[Bar]]:
    """The rows of a picture: the name of each switch, and then the bars of each way at its wires."""
    rows: list[str | list[Bar]] = []
    last = None
    for port, group in groupby(bars, key=lambda bar: bar.port):
        ways = list(group)
        switch = (port if "." in port else ways[0].to).partition(".")[0]
        if switch != last:
            rows.append(switch)
            last = switch
        rows.append(ways)
    return rows


def stretches(bars: Sequence[Bar]) -> list[list[Bar]]:
    """Bars of one way, those together of which one holds the wire before the other moves."""
    found: list[list[Bar]] = []
    for bar in bars:
        before = found[-1][-1] if found else None
        if before and not before.moves and bar.moves and before.crossing == bar.crossing and before.last + 1 == bar.first:
            found[-1].append(bar)
        else:
            found.append([bar])
    return found


def svg_text(bars: Sequence[Bar], names: Names, period: Period, scale: int = PLAIN_SCALE, labels: bool = False) -> str:
    """The picture of these rounds, of which the bars are clipped to them; with `labels` long bars have names in them."""
    rows = rows_of(bars)
    packets = packets_of(bars, names)
    layout = Layout(names, period, scale, len(rows))
    parts = [head_text(layout, len(packets))]
    for number, row in enumerate(rows):
        parts.append(row_text(layout, LINE * (number + 2), row, labels))
    parts.append(tail_text(layout, packets))
    return "".join(parts)


def head_text(layout: Layout, packets: int) -> str:
    width, height, left = layout.total_width, layout.height(packets), layout.left
    bottom = LINE * (layout.rows + 2)
    patterns = "".join(
        f'<pattern id="{color}-{name}" width="8" height="14" patternUnits="userSpaceOnUse">'
        f'<path d="{path}" {part}="{color}"/></pattern>\n'
        for color in (UNNAMED, *COLORS) for name, path, part in PATTERNS)
    ticks = "".join(
        f'<path d="M{x} 28V{bottom}" stroke="gainsboro"/><text x="{x}" y="24">{number}</text>\n'
        for x, number in layout.ticks())
    return (
        f'<svg xmlns="http://www.w3.org/2000/svg" width="{width}" height="{height}" '
        f'viewBox="-{left} 0 {width} {height}" font-family="monospace" font-size="10">\n'
        f'<rect x="-{left}" width="{width}" height="{height}" fill="white"/>\n'
        f"<defs>\n{patterns}</defs>\n"
        f'<text x="0" y="10">rounds {layout.period.first} to {layout.period.last}{HATCHED}</text>\n{ticks}')


def row_text(layout: Layout, top: int, row: str | list[Bar], labels: bool) -> str:
    if isinstance(row, str):
        return name_text(layout, top, "gray", ' font-weight="bold"', row)
    name = f"{row[0].port} to {row[0].to}" if row[0].to else row[0].port
    parts = [name_text(layout, top, "gainsboro", "", name)]
    for group in stretches(row):
        parts.append(f"<g><title>{name_of(group[0].packet)}</title>\n")
        for bar in group:
            x, width = layout.span(bar)
            color = f"url(#{color_of(bar.packet, layout.names)}-idle)"
            fill = fill_of(bar.packet, layout.names) if bar.moves else color
            parts.append(rect_text(x, top, width, fill) + "\n")
        parts.append(label_text(layout, top, group) if labels else "")
        parts.append("</g>\n")
    return "".join(parts)


def label_text(layout: Layout, top: int, group: Sequence[Bar]) -> str:
    """A packet's name in the middle of its bars, where there is room."""
    name = name_of(group[0].packet)
    x, _ = layout.span(group[0])
    width = sum(layout.span(bar)[1] for bar in group)
    if width < LETTER * len(name) + 6:
        return ""
    return (f'<text x="{x + width // 2}" y="{top + 10}" font-size="9" text-anchor="middle" stroke="white" stroke-width="3" '
            f'stroke-linejoin="round" paint-order="stroke">{escape(name)}</text>\n')


def name_text(layout: Layout, top: int, color: str, weight: str, name: str) -> str:
    return (f'<path d="M0 {top}h{layout.width}" stroke="{color}"/>'
            f'<text x="-8" y="{top + 10}" text-anchor="end"{weight}>{name}</text>\n')


def rect_text(x: int, top: int, width: int, fill: str) -> str:
    return f'<rect x="{x}" y="{top + 2}" width="{width}" height="10" fill="{fill}"/>'


def tail_text(layout: Layout, packets: Sequence[Packet | None]) -> str:
    parts = [f'<text x="0" y="{LINE * (layout.rows + 3) + 10}">packets:</text>\n']
    for number, packet in enumerate(packets):
        x, top = layout.entry(number)
        fill = fill_of(packet, layout.names)
        parts.append(rect_text(x, top, 24, fill) + f'<text x="{x + 30}" y="{top + 10}">{name_of(packet)}</text>\n')
    return "".join(parts) + "</svg>\n"


class TooLarge(Exception):
    """A picture has more bytes or pixels than it may; `fits` are the most rounds from the same on that fit, if one does."""

    def __init__(self, fits: Period | None):
        self.fits = fits
        more = f": --from {fits.first} --to {fits.last} fits" if fits else ""
        super().__init__(f"draw 1 TooLarge{more}")


def fitting_text(bars: Sequence[Bar], names: Names, period: Period, scale: int = PLAIN_SCALE, labels: bool = False) -> str:
    """The picture of these rounds, if it isn't too large."""

    def drawn(rounds: Period) -> str | None:
        shown = clip(bars, rounds)
        layout = Layout(names, rounds, scale, len(rows_of(shown)))
        packets = len(packets_of(shown, names))
        if max(layout.total_width, layout.height(packets)) > MOST_PIXELS or 60 * len(shown) > MOST_BYTES:
            return None
        text = svg_text(shown, names, rounds, scale, labels)
        return text if len(text) <= MOST_BYTES else None

    text = drawn(period)
    if text is not None:
        return text
    best, end = period.first, period.last
    if end <= best or drawn(Period(best, best)) is None:
        raise TooLarge(None)
    while best + 1 < end:
        middle = best + (end - best) // 2
        if drawn(Period(period.first, middle)) is not None:
            best = middle
        else:
            end = middle
    raise TooLarge(Period(period.first, best))
