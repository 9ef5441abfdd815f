"""What is marked in the picture of a network: the ways of a header, a refused walk, a cycle, and which wires are one edge.

Where a header may come is what `c104 check DESC --header N --rows` prints, and a cycle what `c104 cycles` does.
"""

from __future__ import annotations

import csv
from collections.abc import Sequence
from dataclasses import dataclass

from c104.network import Network, Peer, Port


@dataclass(frozen=True)
class Stroke:
    """How one of the two ways over a wire is drawn."""

    bold: bool = False  # the header may take it as the own one of packets
    dashed: bool = False  # or as a random one, on its way to a portal
    red: bool = False  # it leads to an input of the refused walk, or of the cycle
    portal: bool = False  # it leads to an input at which the header may be discarded as a random one

    @property
    def is_random(self) -> bool:
        return self.dashed or self.portal

    @property
    def is_own(self) -> bool:
        return self.bold or (self.red and not self.is_random)

    @property
    def is_marked(self) -> bool:
        return self.bold or self.red or self.is_random


PLAIN = Stroke()


@dataclass(frozen=True)
class DrawnWire:
    """A wire from its terminal, or else from the switch that has the lower number, and its two ways."""

    here: Peer
    there: Port
    onward: Stroke = PLAIN
    back: Stroke = PLAIN


@dataclass(frozen=True)
class Marks:
    """What is marked, with the title that tells it. `taken` and `random` are outputs, the others inputs."""

    title: str = ""
    owner: str | None = None
    taken: frozenset[Port] = frozenset()
    random: frozenset[Port] = frozenset()
    portals: frozenset[Port] = frozenset()
    red: frozenset[Port] = frozenset()

    def stroke(self, start: Peer, end: Peer) -> Stroke:
        return Stroke(start in self.taken, start in self.random, end in self.red, end in self.portals)


def drawn_wires(net: Network, marks: Marks) -> list[DrawnWire]:
    """Each wire once: those of the terminals, and then those between switches."""
    wires: list[tuple[Peer, Port]] = [(terminal.name, terminal.port) for terminal in net.terminals.values()]
    for here, there in net.wires:
        is_backward = net.numbers[there.switch] < net.numbers[here.switch]
        wires.append((there, here) if is_backward else (here, there))
    return [DrawnWire(here, there, marks.stroke(here, there), marks.stroke(there, here)) for here, there in wires]


def edges_of(net: Network, wires: Sequence[DrawnWire]) -> list[list[DrawnWire]]:
    """The wires of each edge: those that are on links of one group at both ends, and whose ways are marked alike."""
    edges: dict[tuple[object, ...], list[DrawnWire]] = {}
    for wire in wires:
        here, there = (net.group(end)[0] if isinstance(end, Port) else end for end in (wire.here, wire.there))
        edges.setdefault((here, there, wire.onward, wire.back), []).append(wire)
    return list(edges.values())


def is_used(net: Network, wire: DrawnWire) -> bool:
    """Whether labels of a tree lead over a wire: whether a row of a link at an end leads back to it, or to its group."""
    return any(_leads_back(net, end) for end in (wire.here, wire.there) if isinstance(end, Port))


def _leads_back(net: Network, port: Port) -> bool:
    table = net.tables.get(port)
    links = {output.link for output in net.group(port)}
    return table is not None and any(select in links for _, select in table.rows)


def cycle_marks(line: str) -> Marks:
    """The marks of what `c104 cycles` prints: `acyclic`, a cycle, or a fault, of which nothing is marked."""
    words = line.split()
    inputs = words[1:] if words[:1] == ["cycle"] else []
    return Marks(title=line, red=frozenset(Port.parse(word.partition("(")[0]) for word in inputs))


def header_marks(net: Network, header: int, text: str) -> Marks:
    """The marks of what `c104 check DESC --header N --rows` prints: the ways of a header, and behind them if it is refused the
    fault, which is the title then, with the walk that shows it. The header's owner is marked too."""
    lines = text.splitlines()
    faults = [line for line in lines if line.startswith("refused ")]
    rows = list(csv.DictReader(line for line in lines if line not in faults))
    columns = ("own", "random", "portal")
    taken, random, portals = (frozenset(Port.parse(row["port"]) for row in rows if row[it] == "1") for it in columns)
    walk = faults[0].partition(" walk ")[2].split() if faults else []
    owner = net.owners.get(header)
    return Marks(faults[0] if faults else f"header {header}", owner.name if owner else None, taken, random, portals,
                 frozenset(map(Port.parse, walk)))
