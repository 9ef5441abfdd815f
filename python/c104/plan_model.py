"""A model of queues that predicts at which load a network saturates, from its tables alone.

Each input is a queue: its first packet waits for the link that its header selects, and all behind it wait too. A packet holds
a link for as long as its tokens take and its successor input is kept by the packet before. So an input's time for a packet is

    time(i) = tokens + sum over outputs o of share(i, o) * wait(i, o)
    wait(i, o) = (1 - flow(i, o) / flow(o)) * busy(o) * time(o) / (2 * (1 - busy(o)))
    busy(o) = flow(o) * load * time(o)

where time(o) is that of the input to which o leads, or the tokens alone if that is a terminal. Without a cycle of channel
dependencies these are found one after another. The network is saturated at the load at which some input or link is busy all
the time. That is a model, not a law: packets are taken to come by chance, and buffers to hold one of them.
"""

from __future__ import annotations

from collections.abc import Hashable
from dataclasses import dataclass, field
from math import sqrt

Node = Hashable
TOKENS = 17.0
"""How many tokens a packet has."""
Matrix = dict[tuple[str, str], float]
"""How much each terminal sends to each other, by their names."""


@dataclass
class Flows:
    """How many packets go from each input by each output, and to which input that leads; None to a terminal."""

    packets: dict[tuple[Node, Node], float] = field(default_factory=dict)
    leads_to: dict[Node, Node | None] = field(default_factory=dict)
    sources: int = 1
    """How many terminals send."""

    def add(self, node: Node, output: Node, leads_to: Node | None, count: float) -> None:
        if count:
            self.packets[node, output] = self.packets.get((node, output), 0.0) + count
            self.leads_to[output] = leads_to


class Queues:
    """The queues of a network, in an order in which each comes behind those to which its packets go on."""

    def __init__(self, flows: Flows, tokens: float = TOKENS) -> None:
        self.tokens = tokens
        self.flow: dict[Node, float] = {}
        self.onward: dict[Node, list[tuple[Node, float]]] = {}
        into: dict[Node, float] = {}
        for (node, output), count in flows.packets.items():
            self.flow[output] = self.flow.get(output, 0.0) + count
            into[node] = into.get(node, 0.0) + count
            self.onward.setdefault(node, []).append((output, count))
        self.into = into
        self.leads_to = flows.leads_to
        later = set(flows.leads_to.values())
        self.sent = sum(into[node] for node in into if node not in later)
        self.sources = max(flows.sources, 1)
        self.order = self._ordered()

    def _ordered(self) -> list[Node]:
        """The inputs, each behind those to which its packets go on."""
        found: dict[Node, None] = {}
        met = set()
        for start in self.onward:
            stack: list[tuple[Node, bool]] = [(start, False)]
            while stack:
                node, is_done = stack.pop()
                if is_done:
                    found[node] = None
                elif node not in met:
                    met.add(node)
                    stack.append((node, True))
                    after = (self.leads_to[output] for output, _ in self.onward.get(node, ()))
                    stack += [(it, False) for it in after if it is not None and it not in met]
        return list(found)

    def times(self, load: float) -> dict[Node, float] | None:
        """How long each input takes for a packet at a load; None if something is busy all the time. The load is in tokens a
        round and sending terminal."""
        if not self.sent:
            return {}
        rate = load / self.tokens * self.sources / self.sent
        time: dict[Node, float] = {}
        for node in self.order:
            all_of = self.into[node]
            taken = self.tokens
            for output, count in self.onward[node]:
                after = self.leads_to[output]
                holding = self.tokens if after is None else time.get(after, self.tokens)
                busy = self.flow[output] * rate * holding
                if busy >= 1.0:
                    return None
                taken += count / all_of * (1.0 - count / self.flow[output]) * busy * holding / (2.0 * (1.0 - busy))
            if all_of * rate * taken >= 1.0:
                return None
            time[node] = taken
        return time

    def saturation(self, steps: int = 24) -> float:
        """The least load, in tokens a round and terminal, at which some queue is busy all the time."""
        low, high = 0.0, 1.0
        for _ in range(steps):
            middle = (low + high) / 2.0
            if self.times(middle) is None:
                high = middle
            else:
                low = middle
        return low

    def depth(self) -> float:
        """How many queues packets may have to wait for one after another, on average over all queues that they pass: the rank
        of a queue is one more than the highest of those to which its packets go on."""
        rank: dict[Node, int] = {}
        for node in self.order:
            after = (self.leads_to[output] for output, _ in self.onward[node])
            rank[node] = 1 + max((rank.get(it, 1) for it in after if it is not None), default=0)
        return sum(self.into[node] * rank[node] for node in self.order) / (sum(self.into.values()) or 1.0)


@dataclass(frozen=True)
class Outlook:
    """What ways come to without a run."""

    largest: float
    """The most packets that go over a link between switches."""
    hops: float
    """Over how many of them a packet goes on average."""
    depth: float
    """How many queues packets may have to wait for one after another, on average."""
    saturation: float
    """At which load, in tokens a round and terminal, the model of queues is saturated."""

    @property
    def blocking(self) -> float:
        """The figure that orders labellings most as their rounds from all to all do. The mean of its rank correlations is 0.71
        over 131 labellings of six networks, on which it was found, and 0.55 over the measured candidates of 56 cases, which this
        figure helped to pick; that of the largest load alone is 0.12, and 0.33."""
        return self.largest * sqrt(self.depth)

    @property
    def work(self) -> float:
        """The figure whose least labelling is nearest to the best. In those 56 cases it took 1.18 times the fewest rounds on
        average, that of `blocking` 1.21 times, and that with the least largest load 1.37 times."""
        return sqrt(self.largest) * self.hops**4

    @property
    def worths(self) -> tuple[float, float, float]:
        """Three figures, each least for what may be the best labelling: none of them always tells it."""
        return self.work, -self.saturation, self.blocking
