"""Which pairs of a terminal and a label lose their ways if wires break, and which still come.

    losses = Losses(Ways(Network.load(program, "network.txt")))
    left = without(program, Description("network.txt"), net.wires[0])     # what is left, as the program makes it
    for loss in losses.of(Network.parse(left)): print(loss.sender, loss.labels, loss.receiver, loss.is_whole)

The labels of the whole network are taken to be accepted. Where a wire breaks, its links are taken out of their groups: a row
that selects such a group selects the links below the broken one, or else those above; where nothing is left of the group,
packets that select it don't come. All this is exact.
"""

from __future__ import annotations

from collections.abc import Iterable, Iterator
from dataclasses import dataclass
from functools import partial, reduce
from operator import or_

from c104.network import DISCARD, Network, Port, Wire, ended
from c104.program import Program, Source
from c104.ways import Uses, Ways

HOME, LOST = 1, 2
"""How ways of a header end, as bits: some at its owner, some elsewhere."""


def without(program: Program, description: Source, *cut: Wire) -> str:
    """The network of a description without some wires, as plain lines. They are taken away one after the other: by link, so
    that of a group with several broken ones the lowest that are left are selected."""
    ports = sorted((wire[0] for wire in cut), key=lambda port: port.link)
    return program.rows(description, ports)


@dataclass(frozen=True)
class Loss:
    """A terminal and labels of another one: some ways by each of these labels don't come, or if it is whole none does."""

    sender: str
    labels: range
    receiver: str
    is_whole: bool


class Losses:
    """What is lost in a network of accepted labels where wires break."""

    def __init__(self, ways: Ways) -> None:
        self.ways = ways
        self.net = ways.net
        self.randoms = {name: reduce(or_, (use.can for use in uses)) for name, uses in ways.random_uses}
        self.users = [(labels, self._users(uses)) for labels, uses in ways.own_uses]

    def _users(self, uses: dict[str, Uses]) -> dict[int, list[str]]:
        """The terminals by the links that their packets can use."""
        users: dict[int, list[str]] = {}
        for name, use in uses.items():
            users.setdefault(use.can | self.randoms.get(name, 0), []).append(name)
        return users

    def of(self, left: Network) -> Iterator[Loss]:
        """The pairs that don't always come in what is left of the network, by label and then by sender."""
        gone = {port for port in self.net.between if port not in left.peers}
        # where a link of a group is left, rows select that, and packets go on as some did before
        links = sum(self.ways.bits[port] for port in gone & selected(left, {port.switch for port in gone}))
        if links == 0:
            return
        begins = {name: random_ends(left, name) for name in self.randoms}
        for labels, users in self.users:
            home = self.net.owners[labels.start].name
            senders = [name for mask, names in users.items() if mask & links for name in names if name != home]
            ends = self._ends(left, labels.start, senders, begins)
            yield from (Loss(name, labels, home, not ends[name] & HOME) for name in self.net.terminals if ends.get(name, 0) & LOST)

    def _ends(self, left: Network, label: int, senders: list[str], begins: dict[str, tuple[list[Port], int]]) -> dict[str, int]:
        """How the ways of a label end from some senders."""
        starts = {name: begins.get(name, (self.ways.begins[name], 0)) for name in senders}
        found = own_ends(left, label, dict.fromkeys(port for ports, _ in starts.values() for port in ports))
        return {name: reduce(or_, (found[port] for port in ports), lost) for name, (ports, lost) in starts.items()}

    def pairs(self) -> int:
        """How many pairs of a terminal and a label of another there are in all."""
        return self.ways.hops().total()


def selected(net: Network, switches: set[str]) -> set[Port]:
    """The outputs that rows of these switches select."""
    rows = ((port.switch, select) for port, table in net.tables.items() for _, select in table.rows)
    return {Port(switch, select) for switch, select in rows if switch in switches and isinstance(select, int)}


def following(net: Network, header: int, port: Port) -> tuple[Port, ...]:
    """The inputs of other switches to which a packet with a header may go on."""
    return net.next_inputs(port, header)


def own_ends(left: Network, label: int, starts: Iterable[Port]) -> dict[Port, int]:
    """How the ways of a label end from inputs on: from these, and all to which it comes. The labels of the whole network were
    accepted, so no way is a loop, and a link without a wire is a broken one."""
    found: dict[Port, int] = {}
    for port in ended(starts, partial(following, left, label)):
        ends = 0
        for output in left.outputs(port, label):
            peer = left.peers.get(output)
            ends |= LOST if peer is None else found[peer] if isinstance(peer, Port) else HOME
        found[port] = ends
    return found


def random_ends(left: Network, name: str) -> tuple[list[Port], int]:
    """The portals to which packets of a terminal still come by random headers, and LOST if some are lost before."""
    entry = left.terminals[name].port
    portals: dict[Port, None] = {}
    lost = 0
    for header in left.random_headers(entry):
        for port in ended([entry], partial(following, left, header)):
            if left.select(port, header) == DISCARD:
                portals[port] = None
            elif not all(output in left.peers for output in left.outputs(port, header)):
                lost = LOST
    return list(portals), lost
