"""Rules of turns for a network: which wire a packet may take behind which, so that channels never depend on one another in
a cycle.

A channel is a wire in one direction. A turn leads from a channel to one that leaves the switch where the first one ends. A
`Rule` is a set of turns without a cycle: whatever ways labels take by these turns alone, their network has no cycle of
channel dependencies. A rule is made from a list of turns: each is taken unless it would close a cycle with those before. So
every rule is as large as it can be, and the list says which turns matter most.
"""

from __future__ import annotations

from collections import deque
from collections.abc import Callable, Iterable, Iterator
from dataclasses import dataclass, replace
from functools import cached_property
from heapq import heapify, heappop, heappush

from c104.network import Network, Port

MOST_MENDS = 6
"""How often turns are looked for that join what a rule doesn't join."""
NEW_TURN = 4.0
"""How many wires farther packets would go for one such turn less."""
Turn = tuple[int, int]
Preference = Callable[[int, int], bool]
"""Whether a turn, as two channels, is one of those that come first."""


class Channels:
    """The channels of a network, by numbers; switches are numbered as in the network."""

    def __init__(self, net: Network) -> None:
        self.net = net
        self.outputs = net.between
        """The output of each channel."""
        self.number = {port: channel for channel, port in enumerate(self.outputs)}
        self.inputs = [self._peer(port) for port in self.outputs]
        """The input where each channel ends."""
        self.tails = [net.numbers[port.switch] for port in self.outputs]
        self.heads = [net.numbers[port.switch] for port in self.inputs]
        self.out_of: list[list[int]] = [[] for _ in net.switches]
        """The channels that leave each switch."""
        for channel, tail in enumerate(self.tails):
            self.out_of[tail].append(channel)

    def _peer(self, port: Port) -> Port:
        peer = self.net.peers[port]
        assert isinstance(peer, Port)
        return peer

    @cached_property
    def turns(self) -> list[Turn]:
        """All turns but those back to the switch where a packet comes from."""
        return [
            (channel, after)
            for channel, head in enumerate(self.heads)
            for after in self.out_of[head]
            if self.heads[after] != self.tails[channel]
        ]

    @cached_property
    def before(self) -> list[list[int]]:
        """The channels from which turns lead to each."""
        found: list[list[int]] = [[] for _ in self.outputs]
        for channel, after in self.turns:
            found[after].append(channel)
        return found

    @cached_property
    def into(self) -> list[list[int]]:
        """The channels that end at each switch."""
        found: list[list[int]] = [[] for _ in self.out_of]
        for channel, head in enumerate(self.heads):
            found[head].append(channel)
        return found

    def distances(self, target: int) -> dict[int, int]:
        """Over how many wires a switch can be reached from each, the nearest first."""
        far, queue = {target: 0}, deque([target])
        while queue:
            switch = queue.popleft()
            for channel in self.into[switch]:
                tail = self.tails[channel]
                if tail not in far:
                    far[tail] = far[switch] + 1
                    queue.append(tail)
        return far

    def __len__(self) -> int:
        return len(self.outputs)


@dataclass(frozen=True)
class Rule:
    """Turns without a cycle."""

    name: str
    channels: Channels
    after: list[list[int]]
    """The channels that packets may take behind each."""
    order: list[int]
    """The channels in an order in which every turn leads to a later one."""
    tolls: list[list[float]]
    """What a packet pays besides for each of these turns, in wires of the busiest channel."""

    def __contains__(self, turn: Turn) -> bool:
        return turn[1] in self.after[turn[0]]

    def joins(self, switches: set[int]) -> bool:
        """Whether packets come from each of these switches to each other by turns of the rule."""
        return not any(self.missing(target, switches) for target in switches)

    def missing(self, target: int, switches: set[int]) -> set[int]:
        """The switches of these from which packets don't come to a target."""
        return switches - self._sources(target)

    def _sources(self, target: int) -> set[int]:
        """The switches from which packets come to one."""
        found, reaches = {target}, [False] * len(self.channels)
        for channel in reversed(self.order):
            is_last = self.channels.heads[channel] == target
            reaches[channel] = is_last or any(reaches[after] for after in self.after[channel])
            if reaches[channel]:
                found.add(self.channels.tails[channel])
        return found


class _Order:
    """A topological order of channels, to which turns are added one by one (Pearce and Kelly)."""

    def __init__(self, count: int) -> None:
        self.after: list[list[int]] = [[] for _ in range(count)]
        self.before: list[list[int]] = [[] for _ in range(count)]
        self.place = list(range(count))

    def add(self, turn: Turn) -> bool:
        """Adds a turn unless it closes a cycle."""
        first, second = turn
        low, high = self.place[second], self.place[first]
        if low < high:
            ahead = self._reached(second, self.after, lambda channel: self.place[channel] <= high)
            if first in ahead:
                return False
            behind = self._reached(first, self.before, lambda channel: self.place[channel] >= low)
            moved = sorted(behind, key=self.place.__getitem__) + sorted(ahead, key=self.place.__getitem__)
            places = sorted(self.place[channel] for channel in moved)
            for channel, place in zip(moved, places):
                self.place[channel] = place
        self.after[first].append(second)
        self.before[second].append(first)
        return True

    @staticmethod
    def _reached(start: int, edges: list[list[int]], within: Callable[[int], bool]) -> set[int]:
        met, stack = {start}, [start]
        while stack:
            for channel in edges[stack.pop()]:
                if channel not in met and within(channel):
                    met.add(channel)
                    stack.append(channel)
        return met


def rule_of(name: str, channels: Channels, turns: Iterable[Turn]) -> Rule:
    """The rule of a list of turns, without tolls: each is taken that closes no cycle with those before."""
    order = _Order(len(channels))
    for turn in dict.fromkeys(turns):
        order.add(turn)
    places = sorted(range(len(channels)), key=order.place.__getitem__)
    return Rule(name, channels, order.after, places, [[0.0] * len(after) for after in order.after])


def by_preference(
    name: str,
    channels: Channels,
    preferred: Preference,
    demand: dict[Turn, float],
    toll: float = 0.0,
    switches: set[int] | None = None,
) -> Rule:
    """The rule whose first turns are those that are preferred; among these, and among others, those with more demand. For
    others there may be a toll: then packets take them only where that saves much. If such turns don't join these switches,
    those of others that would are put before all, as far as that helps."""
    turns = sorted(channels.turns, key=lambda turn: (not preferred(*turn), -demand.get(turn, 0.0)))
    rule = rule_of(name, channels, turns)
    first: list[Turn] = []
    for _ in range(MOST_MENDS):
        more = joining_turns(rule, switches or set())
        if not more:
            break
        first += more
        rule = rule_of(name, channels, first + turns)
    tolls = [
        [0.0 if preferred(channel, then) else toll for then in after] for channel, after in enumerate(rule.after)
    ]
    return replace(rule, tolls=tolls)


def joining_turns(rule: Rule, switches: set[int]) -> list[Turn]:
    """Turns that aren't of a rule, by which packets would come where by the rule they don't, with as few of them as may be."""
    channels, found = rule.channels, dict[Turn, None]()
    price = [1.0] * len(channels)
    taken = {(channel, then) for channel, after in enumerate(rule.after) for then in after}
    for target in sorted(switches):
        missing = rule.missing(target, switches)
        if missing:
            ways = cheapest(channels, target, price, lambda turn: 0.0 if turn in taken else NEW_TURN)
            for source in sorted(missing):
                channel = min(channels.out_of[source], key=ways.cost.__getitem__)
                while ways.onward[channel] >= 0:
                    turn = (channel, ways.onward[channel])
                    if turn not in taken:
                        found[turn] = None
                    channel = turn[1]
    return list(found)


@dataclass(frozen=True)
class Cheapest:
    """The cheapest ways to a switch from each channel, over any turns: what they cost, the next channel, -1 at the end, and the
    channels from the nearest on."""

    cost: list[float]
    onward: list[int]
    settled: list[int]


def cheapest(channels: Channels, target: int, price: list[float], toll: Callable[[Turn], float] | None = None) -> Cheapest:
    """The cheapest ways to a switch, where each channel and each turn has a price (Dijkstra)."""
    cost, onward, settled = [float("inf")] * len(price), [-1] * len(price), list[int]()
    queue = [(price[channel], channel) for channel in channels.into[target]]
    for paid, channel in queue:
        cost[channel] = paid
    heapify(queue)
    while queue:
        paid, channel = heappop(queue)
        if paid > cost[channel]:
            continue
        settled.append(channel)
        for before in channels.before[channel]:
            total = paid + price[before] + (toll((before, channel)) if toll else 0.0)
            if total < cost[before] and channels.heads[before] != target:
                cost[before], onward[before] = total, channel
                heappush(queue, (total, before))
    return Cheapest(cost, onward, settled)


# Up and down


def visit(channels: Channels, root: int, depth_first: bool) -> list[int]:
    """The place of each switch in a visit from a root, by links."""
    places = {root: 0}
    queue = deque([root])
    if depth_first:
        stack, met = [root], []
        while stack:
            switch = stack.pop()
            if switch not in met:
                met.append(switch)
                stack += reversed([channels.heads[channel] for channel in channels.out_of[switch]])
        places = {switch: place for place, switch in enumerate(met)}
    while queue and not depth_first:
        for channel in channels.out_of[queue.popleft()]:
            head = channels.heads[channel]
            if head not in places:
                places[head] = len(places)
                queue.append(head)
    return [places.get(switch, len(places)) for switch in range(len(channels.out_of))]


def up_down(channels: Channels, places: list[int]) -> Preference:
    """Packets go up, to switches with lower places, and then down: not up behind a way down."""

    def is_down(channel: int) -> bool:
        return places[channels.heads[channel]] > places[channels.tails[channel]]

    return lambda channel, after: not is_down(channel) or is_down(after)


def tree_turns(channels: Channels, root: int) -> Preference:
    """The turns over the wires of a tree of shortest ways from a root: by these alone packets come everywhere."""
    places = visit(channels, root, False)
    parent: dict[int, int] = {}
    for switch in sorted(range(len(places)), key=places.__getitem__):
        for channel in channels.out_of[switch]:
            parent.setdefault(channels.heads[channel], channel)
    parent.pop(root, None)
    downwards = {channels.outputs[channel] for channel in parent.values()}
    of_tree = [out in downwards or back in downwards for out, back in zip(channels.outputs, channels.inputs)]
    return lambda channel, after: of_tree[channel] and of_tree[after]


def centres(channels: Channels) -> list[int]:
    """The switches by how far the farthest other one is, and then by how far all are together."""
    far = [channels.distances(switch).values() for switch in range(len(channels.out_of))]
    return sorted(range(len(far)), key=lambda switch: (max(far[switch]), sum(far[switch])))


# Turn models of grids


@dataclass(frozen=True)
class Grid:
    """Coordinates of switches by name; `sizes` of the dimensions that close to a ring, else 0."""

    places: dict[str, tuple[int, ...]]
    sizes: tuple[int, ...]

    def move(self, one: str, other: str) -> tuple[int, int, bool]:
        """The dimension and the sign of a wire, and whether it closes a ring."""
        here, there = self.places[one], self.places[other]
        axis = next(axis for axis, (a, b) in enumerate(zip(here, there)) if a != b)
        step = there[axis] - here[axis]
        closes = abs(step) > 1
        return axis, (1 if (step > 0) != closes else -1), closes


def grid_of(words: list[str]) -> Grid | None:
    """The coordinates of a shape's line; None where the shape has none."""
    match words:
        case ["mesh" | "torus" as shape, width, height, _, *_]:
            w, h = int(width), int(height)
            places: dict[str, tuple[int, ...]] = {f"s{s}": (s % w, s // w) for s in range(w * h)}
            return Grid(places, (w, h) if shape == "torus" else (0, 0))
        case ["cube", count, _, *_]:
            dimensions = int(count)
            places = {f"s{s}": tuple(s >> bit & 1 for bit in range(dimensions)) for s in range(1 << dimensions)}
            return Grid(places, (0,) * dimensions)
    return None


Allowed = Callable[[int, int, int, int], bool]
"""Whether a turn is allowed, from a dimension and a sign to others."""


def not_into(way: tuple[int, int]) -> Allowed:
    """No turn into a dimension and a sign."""
    return lambda axis, sign, then, side: (then, side) != way


def not_out_of(way: tuple[int, int]) -> Allowed:
    """No turn out of a dimension and a sign."""
    return lambda axis, sign, then, side: (axis, sign) != way


def turn_models(channels: Channels, grid: Grid) -> Iterator[tuple[str, Preference]]:
    """The turn models of a grid, by name: which turns they allow. Wires that close a ring turn into nothing."""
    moves = [grid.move(a.switch, b.switch) for a, b in zip(channels.outputs, channels.inputs)]
    axes = len(grid.sizes)

    def model(allowed: Allowed) -> Preference:
        def preferred(channel: int, after: int) -> bool:
            (axis, sign, closes), (then, side, ends) = moves[channel], moves[after]
            if closes or ends:
                return False
            return (axis == then and sign == side) or allowed(axis, sign, then, side)

        return preferred

    yield "lowest-dimension-first", model(lambda axis, sign, then, side: axis < then)
    yield "highest-dimension-first", model(lambda axis, sign, then, side: axis > then)
    yield "negative-first", model(lambda axis, sign, then, side: sign < 0 or side > 0)
    yield "positive-first", model(lambda axis, sign, then, side: sign > 0 or side < 0)
    if axes == 2:
        names = {(0, -1): "west", (0, 1): "east", (1, -1): "north", (1, 1): "south"}
        for way, name in names.items():
            yield f"{name}-first", model(not_into(way))
            yield f"{name}-last", model(not_out_of(way))
        for axis in range(2):
            yield f"odd-even-{'xy'[axis]}", _odd_even(channels, grid, moves, axis)


def _odd_even(
    channels: Channels, grid: Grid, moves: list[tuple[int, int, bool]], along: int
) -> Preference:
    """Which turns are allowed depends on whether the column is odd: none out of the positive way at even ones, and none
    into the negative way at odd ones."""

    def preferred(channel: int, after: int) -> bool:
        (axis, sign, closes), (then, side, ends) = moves[channel], moves[after]
        if closes or ends:
            return False
        if axis == then:
            return sign == side
        is_odd = grid.places[channels.inputs[channel].switch][along] % 2 == 1
        return is_odd or sign < 0 if axis == along else not is_odd or side > 0

    return preferred
