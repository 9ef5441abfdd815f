"""Where headers go in a network, and which terminals' packets come to an input.

    routes = Routes(net)
    far = routes.distances(Port("B", 2), 1, set())      # over how many wires header 1 comes to B.2 from other inputs
    for sender in routes.senders(1, set(), far, 1): print(sender.terminal.name, sender.hops)
"""

from __future__ import annotations

from collections.abc import Iterator
from dataclasses import dataclass

from c104.network import DISCARD, Network, Port, Terminal

MOST_WORDS = 8
"""By how many words at most random headers are looked at."""

Distances = dict[Port, int]
"""Over how many wires a packet comes to its goal from each input, as far as it does."""


@dataclass(frozen=True)
class Sender:
    """A terminal, and how its packet has to be for it to come to an input."""

    terminal: Terminal
    label: int
    hops: int
    word: int | None = None
    """The word by which a random header is put before it, if its terminal's input does so; and that header."""
    random: int | None = None


@dataclass(frozen=True)
class Hop:
    """From an input over the wire of a link to the next input."""

    port: Port
    link: int
    after: Port


class Routes:
    """Where headers go in a network."""

    def __init__(self, net: Network) -> None:
        self.net = net
        self._hops: dict[int, list[tuple[Port, list[Hop]]]] = {}

    def hops(self, port: Port, header: int) -> list[Hop]:
        """The hops by which a header goes on from an input, by links."""
        found = []
        for output in self.net.outputs(port, header):
            peer = self.net.peers.get(output)
            if isinstance(peer, Port):
                found.append(Hop(port, output.link, peer))
        return found

    def all_hops(self, header: int) -> list[tuple[Port, list[Hop]]]:
        """Those of every wired input from which a header goes on to another, by switch and link."""
        if header not in self._hops:
            every = ((port, self.hops(port, header)) for port in self.net.ports)
            self._hops[header] = [(port, hops) for port, hops in every if hops]
        return self._hops[header]

    def spread(self, header: int, blocked: set[Port], far: Distances) -> Distances:
        """Distances to inputs that have one already, past none that is blocked. Inputs are gone through in order until no
        further one gets a distance, as the program does it: so they needn't be shortest."""
        more = True
        while more:
            more = False
            for port, hops in self.all_hops(header):
                if port not in far and port not in blocked:
                    least = min((far[hop.after] for hop in hops if hop.after in far), default=None)
                    if least is not None:
                        far[port], more = least + 1, True
        return far

    def distances(self, goal: Port, header: int, blocked: set[Port]) -> Distances:
        """Those to an input by a header."""
        return self.spread(header, blocked, {goal: 0})

    def by_portals(self, random: int, blocked: set[Port], far: Distances) -> Distances:
        """Those by a random header to a portal, and from there on by the others."""
        start = {port: hops for port, hops in far.items() if self.net.select(port, random) == DISCARD}
        return self.spread(random, blocked, start)

    def random_header(self, port: Port, word: int) -> int:
        """The random header that an input puts before a packet by a word."""
        random = self.net.randoms[port]
        return (random.base + (word % random.count if random.count else 0)) % self.net.headers

    def words(self, port: Port, most: int) -> range:
        """The words that are tried at an input that puts random headers."""
        return range(min(most, max(min(self.net.randoms[port].count, MOST_WORDS), 1)))

    def senders(self, header: int, blocked: set[Port], far: Distances, words: int) -> Iterator[Sender]:
        """The terminals whose packets come to a goal by a header, each with the nearest way."""
        tables: dict[int, Distances] = {}
        for terminal in self.net.terminals.values():
            if terminal.port not in self.net.randoms:
                if terminal.port in far and header in self.net.owners:
                    yield Sender(terminal, header, far[terminal.port])
                continue
            found = []
            for word in self.words(terminal.port, words):
                random = self.random_header(terminal.port, word)
                if random not in tables:
                    tables[random] = self.by_portals(random, blocked, far)
                sender = self.random_sender(terminal, header, far, tables[random], word, random)
                found += [sender] if sender else []
            if found:
                yield min(found, key=lambda sender: sender.hops)

    def random_sender(
        self, terminal: Terminal, header: int, far: Distances, by_portals: Distances, word: int, random: int
    ) -> Sender | None:
        """The terminal as a sender by one of its random headers, if its packets come there."""
        first = next(iter(self.net.terminals.values())).labels.start
        if random == header:
            hops, label = far.get(terminal.port), first
        else:
            hops, label = by_portals.get(terminal.port) if header in self.net.owners else None, header
        return None if hops is None else Sender(terminal, label, hops, word, random)
