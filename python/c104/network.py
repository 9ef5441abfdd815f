"""A network with its labels, as `c104 label DESC --rows` prints it.

    from c104.network import Network, Port
    from c104.program import Program

    net = Network.load(Program.find(), "network.txt")
    a = net.terminals["a"]                      # Terminal(name='a', port=Port('A', 0), labels=range(0, 1))
    net.select(a.port, 1)                       # what label 1 selects at the input A.0: a link, SINK or DISCARD
    net.outputs(a.port, 1)                      # the links of that group, by which the packet may leave
    [net.peers[o] for o in net.outputs(a.port, 1)]    # what they are wired to: an input (a Port) or a terminal (a str)
    net.next_inputs(a.port, 1)                  # those of them that are inputs of switches
    for step in net.walk([a.port], 1): ...      # each input to which a packet with label 1 may come from a
    net.dependencies()                          # the graph of channel dependencies: (input, input) -> highest header
    print(net.without(net.wires[0]).text())     # a description of what is left if that wire breaks

A Port is an input or an output: link `l` of switch `S`, in text `S.l`. A header is a number, 0 to 255, or to 65535 if
`header_bytes` is 2. Everything here is exact; nothing is checked: `Program.check` does that.
"""

from __future__ import annotations

from bisect import bisect_right
from collections import Counter, deque
from collections.abc import Callable, Iterable, Iterator
from dataclasses import dataclass, field, replace
from functools import cached_property
from typing import NamedTuple

from c104.parts import DISCARD, LINKS, SINK, Peer, Port, RandomHeaders, Select, Table, Terminal, Wire
from c104.program import Program, Source
from c104.reading import Reader

__all__ = ["DISCARD", "LINKS", "SINK", "Network", "Peer", "Port", "RandomHeaders", "Select", "Table", "Terminal", "Wire", "ended"]


class _Way(NamedTuple):
    """The links that a header may take, and the inputs of switches to which they lead."""

    outputs: tuple[Port, ...]
    inputs: tuple[Port, ...]


@dataclass(frozen=True)
class Network:
    """Switches, terminals, wires and tables. Networks aren't changed: `without` and `replace` give others."""

    header_bytes: int = 1
    buffer_tokens: int = 16
    switches: tuple[str, ...] = ()
    terminals: dict[str, Terminal] = field(default_factory=dict)
    wires: tuple[Wire, ...] = ()
    tables: dict[Port, Table] = field(default_factory=dict)
    randoms: dict[Port, RandomHeaders] = field(default_factory=dict)
    continued: frozenset[Port] = frozenset()
    deleted: frozenset[str] = frozenset()
    shape: tuple[str, ...] = ("hand",)

    @classmethod
    def load(cls, program: Program, description: Source, without: Iterable[Port] = ()) -> Network:
        """The labelled network of a description, of whatever kind it is, without the wires at some ports."""
        return cls.parse(program.rows(description, without))

    @classmethod
    def parse(cls, text: str) -> Network:
        """The network of a description without `label`, `mesh`, `cube`, `torus` and `clos` lines, which has no fault."""
        reader = Reader().read(text)
        return cls(
            reader.header_bytes,
            reader.buffer_tokens,
            tuple(reader.switches),
            reader.terminals,
            tuple(reader.wires),
            reader.tables(),
            reader.randoms,
            frozenset(reader.continued),
            frozenset(reader.deleted),
            reader.shape,
        )

    # What it consists of

    @cached_property
    def headers(self) -> int:
        """How many headers there are: 256 or 65536."""
        return 65536 if self.header_bytes == 2 else 256

    @cached_property
    def numbers(self) -> dict[str, int]:
        """The number of each switch."""
        return {name: number for number, name in enumerate(self.switches)}

    @cached_property
    def peers(self) -> dict[Port, Peer]:
        """What each wired link is wired to."""
        peers: dict[Port, Peer] = {}
        for one, other in self.wires:
            peers[one], peers[other] = other, one
        for terminal in self.terminals.values():
            peers[terminal.port] = terminal.name
        return peers

    @cached_property
    def ports(self) -> list[Port]:
        """All wired links, by switch and then by link."""
        return sorted(self.peers, key=self.place)

    def place(self, port: Port) -> int:
        """Where a link is among all links, by switch and then by link."""
        return self.numbers[port.switch] * LINKS + port.link

    @cached_property
    def between(self) -> list[Port]:
        """The links of wires between switches, by switch and then by link."""
        return [port for port in self.ports if isinstance(self.peers[port], Port)]

    @cached_property
    def neighbours(self) -> dict[str, list[str]]:
        """The switches to which each switch has wires, in the order of its links; one for each wire."""
        found: dict[str, list[str]] = {switch: [] for switch in self.switches}
        for port in self.between:
            peer = self.peers[port]
            assert isinstance(peer, Port)
            found[port.switch].append(peer.switch)
        return found

    def distances(self, start: str) -> dict[str, int]:
        """Over how many wires each switch can be reached from one, by wires alone. Unreachable ones aren't there."""
        far, queue = {start: 0}, deque([start])
        while queue:
            switch = queue.popleft()
            for other in self.neighbours[switch]:
                if other not in far:
                    far[other] = far[switch] + 1
                    queue.append(other)
        return far

    # Labels

    @cached_property
    def owners(self) -> dict[int, Terminal]:
        """The terminal that has each label; of two the first."""
        owners: dict[int, Terminal] = {}
        for terminal in self.terminals.values():
            for label in terminal.labels:
                owners.setdefault(label, terminal)
        return owners

    @cached_property
    def classes(self) -> list[range]:
        """The headers, in ranges whose headers no table and no terminal tells apart: what holds of one, holds of all."""
        bounds = {0, self.headers}
        for table in set(self.tables.values()):
            bounds.update(bound for bound in table.bounds if bound < self.headers)
        for terminal in self.terminals.values():
            bounds.update(bound for bound in (terminal.labels.start, terminal.labels.stop) if bound < self.headers)
        ordered = sorted(bounds)
        return [range(low, high) for low, high in zip(ordered, ordered[1:])]

    @cached_property
    def label_classes(self) -> list[range]:
        """Those of them that a terminal has."""
        return [same for same in self.classes if same.start in self.owners]

    def select(self, port: Port, header: int) -> Select:
        """What a header selects at an input: a link, SINK or DISCARD."""
        table = self.tables.get(port)
        return SINK if table is None else table.select(header)

    @cached_property
    def _groups(self) -> dict[Port, tuple[Port, ...]]:
        groups: dict[Port, tuple[Port, ...]] = {}
        for switch in self.switches:
            group: list[Port] = []
            for port in (Port(switch, link) for link in range(LINKS)):
                if port not in self.continued:
                    group = []
                group.append(port)
                for member in group:
                    groups[member] = tuple(group)
        return groups

    def group(self, output: Port) -> tuple[Port, ...]:
        """The links of the group of a link, in ascending order, with itself."""
        return self._groups[output]

    @cached_property
    def _ways(self) -> dict[Port, tuple[list[int], list[_Way]]]:
        """For each input with a table the bounds of its headers, and what is done with those from each bound on."""
        made = {group: _Way(group, self._inputs_behind(group)) for group in set(self._groups.values())}
        nowhere = _Way((), ())
        return {
            port: (table.bounds, [
                made[self._groups[Port(port.switch, select)]] if isinstance(select, int) else nowhere
                for select in table.selects
            ])
            for port, table in self.tables.items()
        }

    def _inputs_behind(self, outputs: tuple[Port, ...]) -> tuple[Port, ...]:
        peers = (self.peers.get(output) for output in outputs)
        return tuple(peer for peer in peers if isinstance(peer, Port))

    def _way(self, port: Port, header: int) -> _Way:
        if port not in self._ways:
            return _Way((), ())
        bounds, ways = self._ways[port]
        return ways[bisect_right(bounds, header) - 1]

    def outputs(self, port: Port, header: int) -> tuple[Port, ...]:
        """The links by which a packet may leave that comes in at a port with a header; none if it is sunk or discarded."""
        return self._way(port, header).outputs

    def next_inputs(self, port: Port, header: int) -> tuple[Port, ...]:
        """The inputs of other switches to which it may go."""
        return self._way(port, header).inputs

    def random_words(self, port: Port) -> dict[int, int]:
        """The random headers that an input puts before packets, in ascending order, and by how many of the words below its
        range each is chosen; none if it puts none."""
        random = self.randoms.get(port)
        if random is None:
            return {}
        count = max(random.count, 1)
        words = range(min(count, self.headers))
        return dict(sorted(((random.base + it) % self.headers, -(-(count - it) // self.headers)) for it in words))

    def random_headers(self, port: Port) -> list[int]:
        """Those headers."""
        return list(self.random_words(port))

    def portals(self, terminal: Terminal) -> list[Port]:
        """Where the own headers of its packets begin: the inputs that discard its random headers, in the order in which
        those come there; its own input if none are put before its packets."""
        headers = self.random_headers(terminal.port)
        if not headers:
            return [terminal.port]
        ends = ((port, header) for header in headers for port in self.walk([terminal.port], header))
        return list(dict.fromkeys(port for port, header in ends if self.select(port, header) == DISCARD))

    def walk(self, starts: Iterable[Port], header: int) -> Iterator[Port]:
        """Each input to which a packet may come with a header from any of these inputs, once, these first; everything
        behind one link before the next link."""
        met = set()
        stack = list(starts)[::-1]
        while stack:
            port = stack.pop()
            if port not in met:
                met.add(port)
                yield port
                stack.extend(reversed(self.next_inputs(port, header)))

    def reached(self) -> Iterator[tuple[Port, range]]:
        """Each input and headers that may come there, of which the graphs below and `c104 cycles` are: those that terminals
        have, from terminals or portals, and random ones up to portals. A pair may come twice."""
        starts = list(dict.fromkeys(port for terminal in self.terminals.values() for port in self.portals(terminal)))
        for same in self.label_classes:
            for port in self.walk(starts, same.start):
                yield port, same
        for entry in self.randoms:
            for header in self.random_headers(entry):
                for port in self.walk([entry], header):
                    yield port, range(header, header + 1)

    def dependencies(self) -> dict[tuple[Port, Port], int]:
        """The graph of channel dependencies of accepted labels: a packet at the one input may have to wait until the other
        has room. With each the highest header by which it is so; in the order of `c104 cycles --all`."""
        found: dict[tuple[Port, Port], int] = {}
        for port, same in self.reached():
            for after in self.next_inputs(port, same.start):
                found[port, after] = max(found.get((port, after), 0), same[-1])
        order = sorted(found, key=lambda pair: (self.place(pair[0]), self.place(self._link_to(*pair))))
        return {pair: found[pair] for pair in order}

    def _link_to(self, port: Port, after: Port) -> Port:
        """The link of the switch of a port that is wired to an input."""
        peer = self.peers[after]
        assert isinstance(peer, Port) and peer.switch == port.switch
        return peer

    # Others made of it

    def without(self, *cut: Wire) -> Network:
        """What is left without some wires: a row that selects the group of a cut link selects the links of that group
        below it that are left, or else those above."""
        gone = {port for wire in cut for port in wire}
        left = frozenset(self.continued - gone - {Port(port.switch, port.link + 1) for port in gone})
        wires = tuple(wire for wire in self.wires if wire[0] not in gone)
        switches = {port.switch for port in gone}
        changed = {port: self._left_table(port, gone) for port in self.tables if port.switch in switches}
        return replace(self, wires=wires, continued=left, tables={**self.tables, **changed})

    def _left_table(self, port: Port, gone: set[Port]) -> Table:
        table = self.tables[port]
        rows = ((limit, self._left_select(port.switch, select, gone)) for limit, select in table.rows)
        return replace(table, rows=tuple(rows))

    def _left_select(self, switch: str, select: Select, gone: set[Port]) -> Select:
        """What a row selects where links are gone: the first link of its group that is left, if there is one."""
        if not isinstance(select, int) or gone.isdisjoint(self.group(Port(switch, select))):
            return select
        left = [port.link for port in self.group(Port(switch, select)) if port not in gone]
        return left[0] if left else select

    def text(self, label: str | None = None) -> str:
        """A description of it with its tables; or with labels made anew by `label up-down` or `label tree S`, in words
        behind `label`, and then without tables, groups and random headers."""
        lines = [f"header {self.header_bytes}", f"buffer {self.buffer_tokens}"]
        lines += [f"switch {switch}" for switch in self.switches]
        for terminal in self.terminals.values():
            labels = terminal.labels
            first = f" from {labels.start}" if label is None else ""
            lines.append(f"terminal {terminal.name} {terminal.port} labels {len(labels)}{first}")
        lines += [f"wire {one} {other}" for one, other in self.wires]
        lines += [f"delete {name}" for name in self.terminals if name in self.deleted]
        if label is not None:
            return "\n".join([*lines, f"label {label}", ""])
        lines += [f"continue {port}" for port in sorted(self.continued, key=self.place)]
        for at, table in self._said_tables().items():
            lines += [f"base {at} {table.base}"] if table.base else []
            lines += [f"row {at} {limit} {select}" for limit, select in table.rows]
        lines += [f"random {port} {random.base} {random.count}" for port, random in self.randoms.items()]
        return "\n".join([*lines, ""])

    def _said_tables(self) -> dict[str, Table]:
        """The tables as lines say them: a switch's own where two of its inputs share one, and all with a wire have rows."""
        said: dict[str, Table] = {}
        for switch in self.switches:
            ports = [Port(switch, link) for link in range(LINKS)]
            wired = [self.tables.get(port, Table()) for port in ports if port in self.peers]
            shared, count = max(Counter(wired).items(), key=lambda pair: pair[1], default=(Table(), 0))
            is_shared = count > 1 and all(table.rows for table in wired)
            said |= {switch: shared} if is_shared else {}
            own = (port for port in ports if port in self.tables)
            said |= {str(p): self.tables[p] for p in own if not (is_shared and p in self.peers and self.tables[p] == shared)}
        return said


def ended(starts: Iterable[Port], following: Callable[[Port], Iterable[Port]]) -> Iterator[Port]:
    """The inputs to which these lead, each after all that follow it on a way; of ways without loops."""
    met: set[Port] = set()
    for start in starts:
        stack = [] if start in met else [(start, iter(following(start)))]
        met.add(start)
        while stack:
            port, after = stack[-1]
            for other in after:
                if other not in met:
                    met.add(other)
                    stack.append((other, iter(following(other))))
                    break
            else:
                stack.pop()
                yield port
