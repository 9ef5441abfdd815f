"""How a network stands: which packets hold its links, where tokens wait, and who wants what, as the tables `ways` and `wishes` of
`c104 rows` have it; and the lines of its arrows, for Graphviz.
"""

from __future__ import annotations

import csv
from collections.abc import Iterator, Mapping
from dataclasses import dataclass

from c104.dot import Frame, node_name
from c104.network import Peer, Port
from c104.timeline import Names, Packet, color_of, name_of, packet_of, pattern_of

TITLE = r"in brackets: tokens that wait\ndotted: an output that is wanted"
TITLE_OF_LOCKED = TITLE + r"\nred: these wait for one another, and nothing moves"


@dataclass(frozen=True)
class Way:
    """What goes out of a port. `held` tells whether a packet holds the link, and `packet` which, if it is known."""

    port: Peer
    to: Peer | None
    held: bool
    packet: Packet | None
    locked: bool
    tokens_out: int
    tokens_in: int


@dataclass(frozen=True)
class Wish:
    """An output that an input wants for a header."""

    input: Port
    output: Port
    to: Peer | None
    packet: Packet | None
    locked: bool


@dataclass(frozen=True)
class State:
    """All of it."""

    ways: tuple[Way, ...] = ()
    wishes: tuple[Wish, ...] = ()

    @property
    def is_locked(self) -> bool:
        return any(way.locked for way in self.ways) or any(wish.locked for wish in self.wishes)


def read_state(ways: str, wishes: str) -> State:
    """What the two tables say."""
    way_rows, wish_rows = (csv.DictReader(table.splitlines()) for table in (ways, wishes))
    return State(tuple(map(read_way, way_rows)), tuple(map(read_wish, wish_rows)))


def read_way(row: Mapping[str, str]) -> Way:
    return Way(port_of(row["port"]), port_of(row["to"]) if row["to"] else None, row["holds"] == "1", packet_of(row),
               row["locked"] == "1", int(row["out"]), int(row["in"]))


def read_wish(row: Mapping[str, str]) -> Wish:
    return Wish(Port.parse(row["input"]), Port.parse(row["output"]), port_of(row["to"]) if row["to"] else None, packet_of(row),
                row["locked"] == "1")


def port_of(word: str) -> Peer:
    return Port.parse(word) if "." in word else word


def state_lines(state: State, frame: Frame, names: Names) -> Iterator[str]:
    """The lines of the arrows, for Graphviz."""
    for way in state.ways:
        label = f"{name_of(way.packet)} \\n " if way.held else ""
        label += end_text(way.port, way.tokens_out)
        label += f" to {end_text(way.to, way.tokens_in)}" if way.to is not None else ""
        yield f'{arrow_text(frame, way.port, way.to, label)}{stroke_text(way, names)}{layout_text(frame, way.port, way.to)}]\n'
    for wish in state.wishes:
        label = f"{name_of(wish.packet)} \\n {wish.input} wants {wish.output}"
        end = "arrowtail" if is_upward(frame, wish.output, wish.to) else "arrowhead"
        color = "red" if wish.locked else color_of(wish.packet, names)
        style = f', {end}=onormal, style=dotted, color="{color}", penwidth={4 if wish.locked else 2}'
        yield f"{arrow_text(frame, wish.output, wish.to, label)}{style}{layout_text(frame, wish.output, wish.to)}]\n"


def arrow_text(frame: Frame, port: Peer, to: Peer | None, label: str) -> str:
    """An arrow up to its label. What hangs higher comes first. A port without a wire leads to a node of its own."""
    ends, way = (node_name(port), node_name(to) if to is not None else str(port)), "forward"
    if is_upward(frame, port, to):
        ends, way = (ends[1], ends[0]), "back"
    return f'  "{ends[0]}" -> "{ends[1]}" [dir={way}, label=" {label} "'


def is_upward(frame: Frame, port: Peer, to: Peer | None) -> bool:
    return to is not None and frame.is_lower(port, to)


def layout_text(frame: Frame, port: Peer, to: Peer | None) -> str:
    return frame.edge_layout(port, to) if to is not None else ""


def end_text(port: Peer, tokens: int) -> str:
    return f"{port} [{tokens}]" if tokens else str(port)


def stroke_text(way: Way, names: Names) -> str:
    if not way.held:
        return ', color="gray50", style=solid, penwidth=1'
    color = "red" if way.locked else color_of(way.packet, names)
    pattern = pattern_of(way.packet, names)
    shown = f"{color}:white:{color}" if pattern >= 2 else color
    return f', color="{shown}", style={"dashed" if pattern % 2 else "solid"}, penwidth={4 if way.locked else 2}'
