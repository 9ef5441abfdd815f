"""Which rows of interval tables decide for headers that can come to their inputs, and why others can't.

    for row in row_uses(ways): print(row.port, row.number, row.labels, row.idle, why_idle(ways.net, row))
    input_uses(ways)[Port("A", 1)].deciding     # how many rows of the input A.1 decide for a header that can come

All counts are exact. The labels are taken to be accepted.
"""

from __future__ import annotations

from collections.abc import Iterator
from dataclasses import dataclass
from functools import cached_property

from c104.network import LINKS, SINK, Network, Port, Select
from c104.ways import Ways


@dataclass(frozen=True)
class InputUse:
    """Of an input: the rows that are set, those that decide for some header that can come, and how many labels and random
    headers can."""

    set: int
    deciding: int
    labels: int
    random: int


@dataclass(frozen=True)
class RowUse:
    """A row of an input: it covers the headers from `first` up to, but not including, `limit`, and decides for
    `headers` of them, of which `labels` can come as labels and `random` as random headers.

    `idle` names why it can never decide, if it can't: `Empty`, its limit isn't above where it begins; `PastLast`, it begins past
    the last header; `Covered`, rows before it have all its headers; or `NeverMet`, it sinks nothing, and none of the headers
    that are left to it comes there, or to an input of the switch with such a row. `why_idle` says it in words.
    """

    port: Port
    number: int
    first: int
    limit: int
    select: Select
    headers: int
    labels: int
    random: int
    idle: str | None


@dataclass
class _Counts:
    """Of an input or of a row: how many headers come as labels, and how many as random ones."""

    labels: int = 0
    random: int = 0


class _Arrivals:
    """The headers that come to inputs, and to the rows that decide for them."""

    def __init__(self, ways: Ways) -> None:
        self.net = ways.net
        self.ports: dict[Port, _Counts] = {}
        self.rows: dict[tuple[Port, int | None], _Counts] = {}
        for labels, comes in ways.own:
            for port in comes:
                for counts in self._counts(port, labels.start):
                    counts.labels += len(labels)
        for header, comes in ways.random:
            for port in comes:
                for counts in self._counts(port, header):
                    counts.random += 1

    def _counts(self, port: Port, header: int) -> tuple[_Counts, _Counts]:
        table = self.net.tables.get(port)
        row = None if table is None else table.row(header)
        return self.ports.setdefault(port, _Counts()), self.rows.setdefault((port, row), _Counts())

    @cached_property
    def useful(self) -> set[tuple[str, int, Select]]:
        """The limits and selects of rows of a switch of which one decides for some header that comes."""
        rows = ((port, number) for port, number in self.rows if number is not None)
        return {(port.switch, *self.net.tables[port].rows[number]) for port, number in rows}

    def decides(self, port: Port, number: int) -> bool:
        """Whether a row decides for some header that comes."""
        return (port, number) in self.rows


def input_uses(ways: Ways) -> dict[Port, InputUse]:
    """What each input has and gets that has a wire or rows, by switch and link."""
    arrivals = _Arrivals(ways)
    inputs = set(ways.net.ports) | {port for port in ways.net.tables if _set_rows(ways.net, port)}
    return {port: _input_use(ways.net, arrivals, port) for port in sorted(inputs, key=ways.net.place)}


def _input_use(net: Network, arrivals: _Arrivals, port: Port) -> InputUse:
    rows = len(net.tables[port].rows) if port in net.tables else 0
    deciding = sum(arrivals.decides(port, number) for number in range(rows))
    comes = arrivals.ports.get(port, _Counts())
    return InputUse(_set_rows(net, port), deciding, comes.labels, comes.random)


def _set_rows(net: Network, port: Port) -> int:
    """How many rows aren't as after a reset."""
    return sum(row != (0, SINK) for row in net.tables[port].rows) if port in net.tables else 0


def row_uses(ways: Ways) -> Iterator[RowUse]:
    """All rows that lines of a description say, by switch, link and row."""
    arrivals = _Arrivals(ways)
    for port in sorted(ways.net.tables, key=ways.net.place):
        low = ways.net.tables[port].base
        for number, (limit, select) in enumerate(ways.net.tables[port].rows):
            comes = arrivals.rows.get((port, number), _Counts())
            headers = _decided(ways.net, port, number)
            idle = _idle(ways.net, arrivals, port, number, low, headers)
            yield RowUse(port, number, low, limit, select, headers, comes.labels, comes.random, idle)
            low = limit


def _decided(net: Network, port: Port, number: int) -> int:
    """For how many headers a row decides, whether they come or not."""
    table = net.tables[port]
    bounds = [min(bound, net.headers) for bound in [*table.bounds, net.headers]]
    return sum(end - start for start, end, row in zip(bounds, bounds[1:], table.deciding) if row == number)


def _idle(net: Network, arrivals: _Arrivals, port: Port, number: int, low: int, headers: int) -> str | None:
    limit, select = net.tables[port].rows[number]
    if limit <= low:
        return "Empty"
    if low >= net.headers:
        return "PastLast"
    if headers == 0:
        return "Covered"
    if select == SINK:
        return None
    return None if (port.switch, limit, select) in arrivals.useful else "NeverMet"


def why_idle(net: Network, row: RowUse) -> str | None:
    """Why a row can never decide, if it can't, in words."""
    match row.idle:
        case "Empty":
            return f"its limit isn't above {row.first}, {'that of the row before' if row.number else 'the base'}"
        case "PastLast":
            return f"no header is {row.first} or above"
        case "Covered":
            return "rows before it have all its headers"
        case "NeverMet":
            others = (Port(row.port.switch, link) for link in range(LINKS) if link != row.port.link)
            is_elsewhere = any((row.limit, row.select) in net.tables[port].rows for port in others if port in net.tables)
            elsewhere = f", or to another input of {row.port.switch} with this row" if is_elsewhere else ""
            return f"no header that is left to it comes to {row.port}{elsewhere}"
    return None


def row_lines(text: str) -> dict[str, list[int]]:
    """The lines of a description, from 1, that say the rows of each input and switch, by how they name it."""
    lines: dict[str, list[int]] = {}
    for number, line in enumerate(text.split("\n"), 1):
        words = line.partition("#")[0].split()
        if words == ["script"]:
            break
        if words[:1] == ["row"]:
            lines.setdefault(words[1], []).append(number)
    return lines
