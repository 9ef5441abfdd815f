"""Ways by a rule of turns that load links evenly.

Packets for a unit, which is some of a switch's terminals, go by one table: from each channel one turn. From each terminal
they begin with a channel of its own choice. Unit by unit the ways are chosen anew, the cheapest if a packet pays at each
channel what the others that go over it make it cost; again and again, the dearer the load the later. Loads count packets if
each terminal sends as many to each other as the traffic says.
"""

from __future__ import annotations

import random
from collections.abc import Iterable
from dataclasses import dataclass, field
from typing import NamedTuple

from c104.network import Terminal
from c104.plan_model import TOKENS, Flows, Matrix, Outlook, Queues
from c104.plan_rules import Channels, Rule, Turn, cheapest

FAR = float("inf")


@dataclass(frozen=True)
class Unit:
    """Terminals of one switch that packets reach by the same ways, up to that switch."""

    switch: int
    terminals: tuple[Terminal, ...]


def units_of(channels: Channels) -> list[Unit]:
    """A unit for each switch with terminals."""
    at: dict[int, list[Terminal]] = {}
    for terminal in channels.net.terminals.values():
        at.setdefault(channels.net.numbers[terminal.port.switch], []).append(terminal)
    return [Unit(switch, tuple(sorted(all_of, key=lambda it: it.port.link))) for switch, all_of in at.items()]


def sent_to(unit: Unit, name: str, traffic: Matrix | None) -> float:
    """How many packets a terminal sends to a unit: one to each of its terminals, or what the traffic says."""
    if traffic is None:
        return float(len(unit.terminals))
    return sum(traffic.get((name, terminal.name), 0.0) for terminal in unit.terminals)


@dataclass
class UnitWays:
    """For each unit, by its number: the channel behind each channel, and the first one from each terminal."""

    rule: Rule
    units: list[Unit]
    traffic: Matrix | None = None
    """How much each terminal sends to each other; None if all send alike."""
    after: list[list[int]] = field(default_factory=list)
    first: list[dict[str, int]] = field(default_factory=list)
    loads: list[float] = field(default_factory=list)
    stretch: list[float] = field(default_factory=list)
    """By how much the model says that packets hold each channel longer near saturation than if they were alone."""
    outlook: Outlook | None = None

    def __post_init__(self) -> None:
        channels = self.rule.channels
        self.loads = [0.0] * len(channels)
        self.stretch = [1.0] * len(channels)
        self.after = [[-1] * len(channels) for _ in self.units]
        self.first = [{} for _ in self.units]
        numbers = channels.net.numbers
        sources = [(t.name, numbers[t.port.switch]) for t in channels.net.terminals.values()]
        self.demands = [
            [(name, switch, sent_to(unit, name, self.traffic)) for name, switch in sources if switch != unit.switch]
            for unit in self.units
        ]
        """From which terminals at which switches packets come to each unit, and how many."""

    @property
    def largest(self) -> float:
        """The load of the busiest channel."""
        return max(self.loads, default=0.0)

    @property
    def busiest(self) -> float:
        """The most that a channel is held: its load, times by how much packets hold it longer."""
        return max((load * slow for load, slow in zip(self.loads, self.stretch)), default=0.0)

    @property
    def total(self) -> float:
        """The loads of all channels together: packets times wires."""
        return sum(self.loads)

    def costs(self, number: int, price: list[float], onwards: list[int]) -> tuple[list[float], list[float]]:
        """What a packet for a unit pays from each channel on, and as a toll there; and which turns it takes for that."""
        heads, target, rule = self.rule.channels.heads, self.units[number].switch, self.rule
        cost, paid = [FAR] * len(price), [0.0] * len(price)
        for channel in reversed(rule.order):
            if heads[channel] == target:
                cost[channel], onwards[channel] = price[channel], -1
                continue
            best, least = -1, FAR
            for then, toll in zip(rule.after[channel], rule.tolls[channel]):
                if cost[then] + toll < least:
                    best, least, paid[channel] = then, cost[then] + toll, toll
            cost[channel], onwards[channel] = price[channel] + least, best
        return cost, paid

    def add(self, number: int, sign: float) -> None:
        """Adds the packets of a unit to the loads, or takes them away."""
        flow = [0.0] * len(self.loads)
        first, after, loads = self.first[number], self.after[number], self.loads
        for name, _, sent in self.demands[number]:
            if name in first:
                flow[first[name]] += sent
        for channel in self.rule.order:
            sent = flow[channel]
            if sent:
                loads[channel] += sign * sent
                if after[channel] >= 0:
                    flow[after[channel]] += sent

    def way(self, number: int, channel: int) -> Iterable[int]:
        """The channels from one on to the unit's switch."""
        while channel >= 0:
            yield channel
            channel = self.after[number][channel]

    def choose(self, number: int, pricing: Pricing) -> bool:
        """Chooses the ways of a unit anew, the cheapest; whether there are ways from all terminals."""
        self.add(number, -1.0)
        loads, after, first = self.loads, self.after[number], self.first[number]
        stretch, (largest, power, wire) = self.stretch, pricing
        price = pricing.prices(loads, stretch)
        cost, paid = self.costs(number, price, after)
        out_of = self.rule.channels.out_of
        first.clear()
        for name, switch, sent in self.demands[number]:
            best, least = -1, FAR
            for channel in out_of[switch]:
                if cost[channel] < FAR:
                    # of several terminals each pays for those before
                    at, total = channel, 0.0
                    while at >= 0:
                        total += price[at] + paid[at]
                        at = after[at]
                    if total < least:
                        best, least = channel, total
            if best < 0:
                return False
            first[name] = best
            while best >= 0:
                loads[best] += sent
                price[best] = wire + (loads[best] * stretch[best] / largest) ** power
                best = after[best]
        return True

    def balance(self, sweeps: int, seed: int = 1) -> bool:
        """Chooses the ways of all units anew, so often; those are kept by which the model saturates latest. Whether there are
        ways at all."""
        chance = random.Random(seed)
        numbers = list(range(len(self.units)))
        even = self._shortest() / max(len(self.loads), 1)
        best: tuple[float, list[list[int]], list[dict[str, int]]] | None = None
        for sweep in range(sweeps):
            chance.shuffle(numbers)
            pricing = Pricing(self.busiest or even or 1.0, 2.0 + 6.0 * sweep / max(sweeps - 1, 1))
            if not all(self.choose(number, pricing) for number in numbers):
                return False
            queues = Queues(self.flows())
            figure = queues.saturation(12)
            times = queues.times(0.95 * figure) or {}
            self.stretch = [times.get(channel, TOKENS) / TOKENS for channel in range(len(self.loads))]
            if best is None or figure > best[0]:
                best = (figure, [list(it) for it in self.after], [dict(it) for it in self.first])
        if best is not None:
            saturation, self.after, self.first = best
            self.recount()
            depth = Queues(self.flows()).depth()
            self.outlook = Outlook(self.largest, self.total / self._packets(), depth, saturation)
        return True

    def _packets(self) -> float:
        return sum(sent for demands in self.demands for _, _, sent in demands) or 1.0

    def _shortest(self) -> float:
        """The loads of all channels together if all went by shortest ways."""
        found = 0.0
        for unit, demands in zip(self.units, self.demands):
            far = self.rule.channels.distances(unit.switch)
            found += sum(sent * far[switch] for _, switch, sent in demands)
        return found

    def recount(self) -> None:
        """Counts the loads anew."""
        self.loads = [0.0] * len(self.loads)
        for number in range(len(self.units)):
            self.add(number, 1.0)

    def flows(self) -> Flows:
        """How many packets go from each channel, and each terminal, to each channel, for the model of queues."""
        senders = {name for demands in self.demands for name, _, sent in demands if sent}
        found = Flows(sources=len(senders))
        for number, unit in enumerate(self.units):
            flow = [0.0] * len(self.loads)
            for name, _, sent in self.demands[number]:
                first = self.first[number][name]
                flow[first] += sent
                found.add(name, first, first, sent)
            for channel in self.rule.order:
                then = self.after[number][channel]
                if flow[channel] and then >= 0:
                    flow[then] += flow[channel]
                    found.add(channel, then, then, flow[channel])
                elif flow[channel]:
                    for terminal in unit.terminals:
                        found.add(channel, (terminal.name,), None, flow[channel] / len(unit.terminals))
        return found


class Pricing(NamedTuple):
    """What a packet pays at a channel: a little for the wire, and the more the nearer its load comes to the largest."""

    largest: float
    power: float
    wire: float = 0.05

    def prices(self, loads: list[float], stretch: list[float]) -> list[float]:
        """The prices of all channels, which packets hold so much longer."""
        largest, power, wire = self
        return [wire + (max(load, 0.0) * slow / largest) ** power for load, slow in zip(loads, stretch)]


def wanted(ways: UnitWays) -> dict[Turn, float]:
    """How many packets would take each turn if all turns were allowed, by the prices at which ways came to rest."""
    channels, found = ways.rule.channels, dict[Turn, float]()
    price = Pricing(ways.busiest or 1.0, 6.0).prices(ways.loads, ways.stretch)
    for unit, demands in zip(ways.units, ways.demands):
        free = cheapest(channels, unit.switch, price)
        flow = [0.0] * len(price)
        for _, switch, sent in demands:
            flow[min(channels.out_of[switch], key=free.cost.__getitem__)] += sent
        for channel in reversed(free.settled):
            then = free.onward[channel]
            if flow[channel] and then >= 0:
                flow[then] += flow[channel]
                found[channel, then] = found.get((channel, then), 0.0) + flow[channel]
    return found


def free_demand(channels: Channels, units: list[Unit], traffic: Matrix | None) -> dict[Turn, float]:
    """How many packets would take each turn on shortest ways without a rule, where each switch spreads them evenly."""
    found: dict[Turn, float] = {}
    numbers = channels.net.numbers
    for unit in units:
        far = channels.distances(unit.switch)
        flow = [0.0] * len(channels)
        own = dict.fromkeys(far, 0.0)
        for terminal in channels.net.terminals.values():
            own[numbers[terminal.port.switch]] += sent_to(unit, terminal.name, traffic)
        for switch in reversed(list(far)[1:]):
            on = [channel for channel in channels.out_of[switch] if far[channels.heads[channel]] == far[switch] - 1]
            shares = [(channel, flow[channel]) for channel in channels.into[switch] if flow[channel]]
            for after in on:
                flow[after] += (own[switch] + sum(sent for _, sent in shares)) / len(on)
                for channel, sent in shares:
                    found[channel, after] = found.get((channel, after), 0.0) + sent / len(on)
    return found
