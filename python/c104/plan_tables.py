"""Interval tables for ways: labels in an order by which inputs need few rows, and the description with these rows.

Terminals of a unit have neighbouring labels. Units are put in an order in which neighbours leave as many inputs as they can
by the same link: that is a shortest tour, which is begun at the nearest and improved by turning parts of it round. A header
that can't come to an input may have any row there.
"""

from __future__ import annotations

from collections import Counter
from dataclasses import dataclass, replace

from c104.network import Network, Port, Table
from c104.plan_ways import FAR, Pricing, UnitWays

MOST_ROWS = 36


@dataclass(frozen=True)
class Selections:
    """By which link each unit leaves each input to which its packets come; at its own switch each label has its own."""

    ways: UnitWays
    links: dict[Port, list[int | None]]
    """For each input, by units: a link, or None where none of its packets come."""

    @classmethod
    def of(cls, ways: UnitWays) -> Selections:
        channels = ways.rule.channels
        entries = {terminal.name: terminal.port for terminal in channels.net.terminals.values()}
        count = len(ways.units)
        links: dict[Port, list[int | None]] = {port: [None] * count for port in entries.values()}
        links |= {port: [None] * count for port in channels.inputs}
        for number in range(count):
            met = set()
            for name, first in ways.first[number].items():
                links[entries[name]][number] = channels.outputs[first].link
                for channel in ways.way(number, first):
                    if channel in met:
                        break
                    met.add(channel)
                    then = ways.after[number][channel]
                    if then >= 0:
                        links[channels.inputs[channel]][number] = channels.outputs[then].link
        return cls(ways, links)

    def labels(self, port: Port, order: list[int]) -> list[int | None]:
        """The links for all labels at an input, in the order of the units."""
        found: list[int | None] = []
        own = self.ways.rule.channels.net.numbers[port.switch]
        for number in order:
            unit = self.ways.units[number]
            for terminal in unit.terminals:
                link = terminal.port.link if unit.switch == own else self.links[port][number]
                found += [link] * len(terminal.labels)
        return found


def rows_of(links: list[int | None]) -> list[tuple[int, int]]:
    """The fewest rows, as limits and links, by which labels leave so. Where none is wanted any row will do."""
    rows: list[tuple[int, int]] = []
    for label, link in enumerate(links):
        if link is not None:
            if rows and rows[-1][1] == link:
                rows[-1] = (label + 1, link)
            else:
                if rows:
                    rows[-1] = (label, rows[-1][1])
                rows.append((label + 1, link))
    return rows


# The order of the labels


def order_of(selections: Selections) -> list[int]:
    """An order of the units in which few neighbours leave an input by different links."""
    count = len(selections.ways.units)
    far = [[0] * count for _ in range(count)]
    # units of the same ways needn't be told apart
    columns = [tuple(links) for links in selections.links.values()]
    for links, weight in Counter(columns).items():
        for one in range(count):
            first = links[one]
            if first is None:
                continue
            row = far[one]
            for other in range(count):
                second = links[other]
                if second is not None and second != first:
                    row[other] += weight
    return improved(nearest(far), far)


def nearest(far: list[list[int]]) -> list[int]:
    """A tour that always goes on to the nearest one."""
    left = list(range(1, len(far)))
    tour = [0] if far else []
    while left:
        here = far[tour[-1]]
        best = min(left, key=here.__getitem__)
        left.remove(best)
        tour.append(best)
    return tour


def improved(tour: list[int], far: list[list[int]], most: int = 12) -> list[int]:
    """A tour whose parts are turned round as long as that makes it shorter. It is open: its ends aren't neighbours."""
    count = len(tour)
    for _ in range(most):
        better = False
        for low in range(count - 1):
            for high in range(low + 1, count):
                before = far[tour[low - 1]][tour[low]] if low else 0
                before += far[tour[high]][tour[high + 1]] if high + 1 < count else 0
                after = far[tour[low - 1]][tour[high]] if low else 0
                after += far[tour[low]][tour[high + 1]] if high + 1 < count else 0
                if after < before:
                    tour[low : high + 1] = reversed(tour[low : high + 1])
                    better = True
        if not better:
            break
    return tour


# Tables that have room


def most_rows(selections: Selections, order: list[int]) -> int:
    """The most rows of an input."""
    return max((len(rows_of(selections.labels(port, order))) for port in selections.links), default=0)


def fitted(ways: UnitWays, order: list[int], most: int = MOST_ROWS, tries: int = 40) -> Selections | None:
    """The selections of ways whose inputs have no more rows than that. Where one has too many, units go on by the link of a
    neighbour, those with the fewest packets first: their way is a longer one, but one by the rule. None if that fails."""
    for _ in range(tries):
        selections = Selections.of(ways)
        full = [port for port in selections.links if len(rows_of(selections.labels(port, order))) > most]
        if not full:
            ways.recount()
            return selections
        price = Pricing(ways.largest or 1.0, 8.0).prices(ways.loads, [1.0] * len(ways.loads))
        costs = [ways.costs(number, price, [-1] * len(price))[0] for number in range(len(ways.units))]
        for port in full:
            merge(ways, selections, port, order, most, costs)
    return None


def merge(
    ways: UnitWays, selections: Selections, port: Port, order: list[int], most: int, costs: list[list[float]]
) -> None:
    """Units leave an input by the link of a unit beside them, the one that costs least each time, until rows suffice."""
    channels = ways.rule.channels
    peer = channels.net.peers[port]
    entry = peer if isinstance(peer, str) else None
    inward = None if entry else channels.inputs.index(port)
    allowed = channels.out_of[channels.net.numbers[port.switch]] if inward is None else ways.rule.after[inward]
    channel_at = {channels.outputs[channel].link: channel for channel in allowed}
    links = selections.links[port]
    for _ in range(4 * len(order)):
        runs = runs_of([(number, links[number]) for number in order if links[number] is not None])
        if len(rows_of(selections.labels(port, order))) <= most:
            return
        best: tuple[float, list[int], int] | None = None
        for place, (link, members) in enumerate(runs):
            for beside in (place - 1, place + 1):
                if 0 <= beside < len(runs):
                    channel = channel_at[runs[beside][0]]
                    cost = sum(costs[number][channel] - costs[number][channel_at[link]] for number in members)
                    if cost < FAR and (best is None or cost < best[0]):
                        best = (cost, members, channel)
        if best is None:
            return
        _, members, channel = best
        for number in members:
            links[number] = channels.outputs[channel].link
            if entry:
                ways.first[number][entry] = channel
            elif inward is not None:
                ways.after[number][inward] = channel


def runs_of(pairs: list[tuple[int, int | None]]) -> list[tuple[int, list[int]]]:
    """Neighbours with the same link, with that link."""
    runs: list[tuple[int, list[int]]] = []
    for number, link in pairs:
        if link is None:
            continue
        if runs and runs[-1][0] == link:
            runs[-1][1].append(number)
        else:
            runs.append((link, [number]))
    return runs


# The description


def labelled(selections: Selections, order: list[int]) -> Network:
    """The network with these labels and tables."""
    net = selections.ways.rule.channels.net
    start = 0
    labels: dict[str, range] = {}
    for number in order:
        for terminal in selections.ways.units[number].terminals:
            labels[terminal.name] = range(start, start + len(terminal.labels))
            start += len(terminal.labels)
    terminals = {name: replace(terminal, labels=labels[name]) for name, terminal in net.terminals.items()}
    tables = {port: Table(0, tuple(rows_of(selections.labels(port, order)))) for port in selections.links}
    return replace(net, terminals=terminals, tables=tables, randoms={}, continued=frozenset())
