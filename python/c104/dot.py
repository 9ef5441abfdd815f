"""The picture of a network as text for Graphviz, line by line.

A mesh of `mesh w h p` stands on its grid and a cube of `cube d p` on its drawn cube, at fixed places; all else hangs from
the root of its labels, or else from the first switch. Lengths are in points.
"""

from __future__ import annotations

from collections.abc import Iterable, Sequence
from dataclasses import dataclass
from functools import cached_property

from c104.marks import DrawnWire, Marks, Stroke, drawn_wires, edges_of, is_used
from c104.network import Network, Peer, Port, Terminal

HEAD = """digraph "c104" {
  graph [outputorder=edgesfirst, fontname="Helvetica", fontsize=14, labelloc=t, ranksep=0.6, nodesep=0.3]
  node [fontname="Helvetica", fontsize=11, height=0.25, width=0.35, margin="0.02,0.02", style=filled, fillcolor=white]
  edge [fontname="Helvetica", fontsize=9, dir=none, arrowsize=0.7, labeldistance=1.5]
"""
LEGEND = r"\ndashed: as a random header, up to a diamond"
GRID = "  graph [layout=neato, inputscale=72, splines=line]\n"
CUBE = '  graph [layout=neato, inputscale=72, splines=true, esep="+3"]\n'
CROWDED = GRID + "  edge [labeldistance=6, labelangle=-8]\n"
#: How far each of 32 directions goes to the right, from 0 to 200, where 100 is no way at all; from the right on, anticlockwise.
DIRECTIONS = (
    200, 198, 192, 183, 171, 156, 138, 120, 100, 80, 62, 44, 29, 17, 8, 2,
    0, 2, 8, 17, 29, 44, 62, 80, 100, 120, 138, 156, 171, 183, 192, 198,
)  # fmt: skip
#: How far a bit of a corner's number moves it to the right and upwards, in hundredths of an edge.
CORNERS = ((100, 0), (0, 100), (25, 35), (235, 70), (70, 270), (490, 330))
Place = tuple[int, int]


@dataclass(frozen=True)
class Shape:
    """How a description gives its network: its word (`mesh`, `cube`, `tree`, or none of them), numbers, and the root."""

    word: str = ""
    numbers: tuple[int, ...] = ()
    root: str | None = None

    @classmethod
    def of(cls, words: Sequence[str]) -> Shape:
        """The shape that `c104 label DESC --rows` tells in these words."""
        match words:
            case ["mesh", _, _, _] | ["cube", _, _]:
                return cls(words[0], tuple(map(int, words[1:])))
            case ["tree", root]:
                return cls("tree", (), root)
            case ["up-down", root]:
                return cls("", (), root)
        return cls()


class Frame:
    """How the nodes of a picture are placed: by Graphviz, downwards."""

    layout = ""
    hangs = True

    def __init__(self, net: Network) -> None:
        self.net, self.shape = net, Shape.of(net.shape)

    def switch_place(self, number: int) -> Place | None:
        return None

    def terminal_place(self, number: int) -> Place | None:
        return None

    def is_lower(self, port: Peer, other: Peer) -> bool:
        """Whether a port hangs lower than another. A terminal hangs lower than its switch."""
        if not isinstance(port, Port):
            return self.hangs
        return isinstance(other, Port) and self.hangs and self.depths[other.switch] < self.depths[port.switch]

    def is_level(self, port: Peer, other: Peer) -> bool:
        return self.hangs and not self.is_lower(port, other) and not self.is_lower(other, port)

    def edge_layout(self, port: Peer, other: Peer) -> str:
        return ", constraint=false" if self.is_level(port, other) else ""

    @cached_property
    def depths(self) -> dict[str, int]:
        """By how many wires each switch hangs from the root, or from the first switch of its own part of the network."""
        roots = [self.shape.root] if self.shape.root else []
        found: dict[str, int] = {}
        for root in (*roots, *self.net.switches):
            if root not in found:
                found.update(self.net.distances(root))
        return found


class Fixed(Frame):
    """Nodes at places that are given: terminals stand in a circle round their switch."""

    hangs = False
    count = 0  # of the terminals at each switch

    def corner(self, switch: int) -> tuple[Place, int]:
        """The lower left corner of what is drawn of a switch, and how far its terminals stand from it."""
        raise NotImplementedError

    def first_directions(self) -> tuple[int, ...]:
        raise NotImplementedError

    def switch_place(self, number: int) -> Place | None:
        corner, radius = self.corner(number)
        return moved(corner, radius, (100, 100))

    def terminal_place(self, number: int) -> Place | None:
        corner, radius = self.corner(number // max(self.count, 1))
        return moved(corner, radius, self.direction(number % max(self.count, 1)))

    def direction(self, number: int) -> Place:
        """How far a terminal's direction goes to the right and upwards."""
        slots = next((most for most in (4, 8, 16) if self.count <= most), 28)
        if slots == 4:
            turn = self.first_directions()[number]
        else:
            step = (2 * min(number, 27) + 1) * 14 // slots
            turn = step + step // 7 + 1
        return DIRECTIONS[turn % 32], DIRECTIONS[(turn + 24) % 32]


class Grid(Fixed):
    """The switches of a mesh."""

    def __init__(self, net: Network) -> None:
        super().__init__(net)
        self.columns, self.lines, self.count = self.shape.numbers
        self.layout = GRID if self.count <= 8 else CROWDED

    def first_directions(self) -> tuple[int, ...]:
        return 20, 28, 12, 4

    def corner(self, switch: int) -> tuple[Place, int]:
        radius = 50 if self.count <= 4 else 65 if self.count <= 8 else 120 if self.count <= 16 else 240
        edge = 2 * radius + 70
        return (switch % self.columns * edge, (self.lines - 1 - switch // self.columns) * edge), radius

    def edge_layout(self, port: Peer, other: Peer) -> str:
        return ""


class Cube(Fixed):
    """The switches of a cube, on its corners."""

    def __init__(self, net: Network) -> None:
        super().__init__(net)
        self.count = self.shape.numbers[1]
        self.layout = CUBE if self.count <= 8 else CROWDED

    def first_directions(self) -> tuple[int, ...]:
        return (28, 12) if self.count <= 2 else (26, 10, 30, 14)

    def corner(self, switch: int) -> tuple[Place, int]:
        limits = ((2, 50), (4, 70), (8, 90), (16, 120), (32, 240))
        radius = next(radius for most, radius in limits if self.count <= most)
        edge = 3 * radius + 70
        bits = [way for bit, way in enumerate(CORNERS) if switch >> bit & 1]
        return (sum(edge * right // 100 for right, _ in bits), sum(edge * up // 100 for _, up in bits)), radius

    def edge_layout(self, port: Peer, other: Peer) -> str:
        if not (isinstance(port, Port) and isinstance(other, Port)) or self.count > 8:
            return ""
        if self.count <= 2 and port.link == 0:
            return ", labeldistance=3.5, labelangle=-12"
        if self.count >= 3 and port.link == 3:
            return ", labeldistance=5, labelangle=12"
        return ", labeldistance=4.5, labelangle=7" if port.link == 5 else ", labeldistance=3.5, labelangle=12"


def frame_of(net: Network) -> Frame:
    return {"mesh": Grid, "cube": Cube}.get(Shape.of(net.shape).word, Frame)(net)


def moved(corner: Place, radius: int, way: Place) -> Place:
    return corner[0] + radius * way[0] // 100, corner[1] + radius * way[1] // 100


def node_name(port: Peer) -> str:
    return port.switch if isinstance(port, Port) else port


def dot_text(frame: Frame, marks: Marks, more: Iterable[str] = ()) -> str:
    """The whole text, with further lines behind those of the edges."""
    wires = drawn_wires(frame.net, marks)
    has_random = any(stroke.is_random for wire in wires for stroke in (wire.onward, wire.back))
    title = f'  label="{marks.title}{LEGEND if has_random else ""}"\n' if marks.title else ""
    edges = [edge_line(frame, edge, bool(marks.title)) for edge in edges_of(frame.net, wires)]
    return "".join([HEAD, frame.layout, title, *node_lines(frame, marks.owner), *edges, *more, "}\n"])


def node_lines(frame: Frame, owner: str | None) -> Iterable[str]:
    for number, name in enumerate(frame.net.switches):
        yield f'  "{name}" [shape=box, fillcolor=gray90{place_text(frame.switch_place(number))}]\n'
    for number, terminal in enumerate(frame.net.terminals.values()):
        filled = ", fillcolor=gold" if terminal.name == owner else ""
        place = place_text(frame.terminal_place(number))
        yield f'  "{terminal.name}" [label="{terminal.name}\\n{labels_text(terminal)}"{filled}{place}]\n'


def labels_text(terminal: Terminal) -> str:
    """The first and the last label of a terminal."""
    labels = terminal.labels
    return f"{labels[0]}-{labels[-1]}" if len(labels) > 1 else f"{labels.start}"


def place_text(place: Place | None) -> str:
    return f', pos="{place[0]},{place[1]}!"' if place else ""


def edge_line(frame: Frame, edge: list[DrawnWire], is_marked: bool) -> str:
    """The line of an edge, from the end that hangs higher to the other."""
    first = edge[0]
    here, there = [wire.here for wire in edge], [wire.there for wire in edge]
    onward, back = first.onward, first.back
    ends: tuple[list[Peer], list[Peer]] = (list(here), list(there))
    if frame.is_lower(first.here, first.there):
        ends, onward, back = (ends[1], ends[0]), back, onward
    tail, head = ends[0][0], ends[1][0]
    parts = [f'  "{node_name(tail)}" -> "{node_name(head)}" [{links_text(frame, *ends)}']
    parts.append(style(onward, back) or plain_style(frame, first, is_marked))
    if (onward.is_random or back.is_random) and not (onward.is_own or back.is_own):
        parts.append(", style=dashed")
    for word, stroke in (("arrowhead", onward), ("arrowtail", back)):
        arrow = arrow_shape(stroke)
        parts.append(f", {word}={arrow}" if arrow else "")
    return "".join([*parts, frame.edge_layout(tail, head), "]\n"])


def links_text(frame: Frame, tails: list[Peer], heads: list[Peer]) -> str:
    """The links of an edge at its two ends. Where nodes hang they stand in its middle, the upper one above the other."""
    tail, head = (",".join(str(end.link) for end in ends if isinstance(end, Port)) for ends in (tails, heads))
    if not frame.hangs:
        return f'taillabel="{tail}", headlabel="{head}"'
    if not head:
        return f'label=" {tail} "'
    if frame.is_level(tails[0], heads[0]):
        return f'label=" {node_name(tails[0])}.{tail} \\n {node_name(heads[0])}.{head} "'
    return f'label=" {tail} \\n {head} "'


def style(onward: Stroke, back: Stroke) -> str:
    """How an edge is drawn with marked ways: wide, with an arrow, and red for those of a refused walk. Empty if none is."""
    match onward.is_marked, back.is_marked:
        case False, False:
            return ""
        case True, False:
            return ", dir=forward, penwidth=3" + (", color=red" if onward.red else "")
        case False, True:
            return ", dir=back, penwidth=3" + (", color=red" if back.red else "")
    colors = {(True, True): "red", (True, False): '"black;0.5:red"', (False, True): '"red;0.5:black"'}
    color = colors.get((onward.red, back.red))
    return ", dir=both, penwidth=3" + (f", color={color}" if color else "")


def plain_style(frame: Frame, wire: DrawnWire, is_marked: bool) -> str:
    """How an edge is drawn of which no way is marked: of a labelled tree the wires are wide over which its labels lead."""
    is_tree = frame.shape.word == "tree"
    if is_tree and is_used(frame.net, wire):
        return ", penwidth=2, color=gray60" if is_marked else ", penwidth=2"
    return ", color=gray60" if is_marked else ", color=gray50" if is_tree else ""


def arrow_shape(stroke: Stroke) -> str | None:
    """The shape of a way's arrow, where it isn't that of an own header alone: a portal is a diamond, a random way's empty."""
    if stroke.portal:
        return "diamondnormal" if stroke.bold else "diamond"
    if stroke.dashed:
        return "normalonormal" if stroke.bold else "onormal"
    return None
