"""What each link carries under a given matrix of traffic.

The matrix is CSV. Either a row for each stream, under the names `sender,receiver,load`, or `sender,label,load` where a
terminal has several labels; or a row for each sender and a column for each receiver, whose names stand in the first row. A load
is a decimal number, 0 or more, in any unit, as tokens a round; a receiver's first label is meant.

Of each link three loads are told, in that unit, exact and rounded down to thousandths:

  least  what crosses it whatever links of groups, and random headers, are taken
  even   what crosses it on average, if each group's links share evenly and all words of random headers are as frequent
  most   what can cross it

With loads in tokens a round, a link can carry at most 1: if `even` is more, packets come to wait longer and longer.
"""

from __future__ import annotations

import csv
import io
import re
from collections import defaultdict
from collections.abc import Iterator, Mapping
from dataclasses import dataclass, field
from fractions import Fraction
from functools import reduce

from c104.network import DISCARD, Network, Port
from c104.program import Refused
from c104.rows import Rows, thousandths
from c104.ways import Uses, Ways

DEMAND = "port to least even most".split()
Demands = dict[tuple[str, int], Fraction]
"""The load of each sender and label."""
Loads = defaultdict[Port, Fraction]
"""The load of each link."""


def read_demands(net: Network, text: str) -> Demands:
    """The loads of a matrix. A fault in it is refused with its line."""
    rows = list(_csv_rows(text))
    if not rows:
        raise Refused("demand 1: a first row with names is wanted")
    head = rows[0][1]
    is_list = head in (["sender", "receiver", "load"], ["sender", "label", "load"])
    demands: Demands = {}
    for number, sender, receiver, load in _cells(rows, is_list):
        key = sender, _label(net, number, receiver, is_list and head[1] == "label")
        if sender not in net.terminals:
            raise Refused(f"demand {number}: no terminal {sender}")
        demands[key] = demands.get(key, Fraction(0)) + _load(number, load)
    return demands


def _csv_rows(text: str) -> Iterator[tuple[int, list[str]]]:
    """The rows that aren't empty, with their lines."""
    reader = csv.reader(io.StringIO(text.removeprefix("\ufeff"), newline=""))
    try:
        yield from ((reader.line_num, row) for row in reader if row)
    except csv.Error as error:
        raise Refused(f"demand {reader.line_num}: no CSV: {error}") from error


def _cells(rows: list[tuple[int, list[str]]], is_list: bool) -> Iterator[tuple[int, str, str, str]]:
    """The line, the sender, the receiver and the load of each cell with a load."""
    names = rows[0][1]
    for number, row in rows[1:]:
        if len(row) != len(names):
            raise Refused(f"demand {number}: {len(names)} cells are wanted, as in the first row")
        if is_list:
            yield number, row[0], row[1], row[2]
        else:
            yield from ((number, row[0], receiver, load) for receiver, load in zip(names[1:], row[1:]) if load)


def _label(net: Network, number: int, word: str, is_label: bool) -> int:
    if is_label and word.isdecimal() and len(word) <= 5 and int(word) in net.owners:
        return int(word)
    if not is_label and word in net.terminals:
        return net.terminals[word].labels.start
    raise Refused(f"demand {number}: no {'label' if is_label else 'terminal'} {word}")


def _load(number: int, word: str) -> Fraction:
    """A load: digits with or without a point, and a power of ten of two digits at most."""
    if not re.fullmatch(r"[0-9]{1,20}(\.[0-9]{0,20})?(e[-+]?[0-9]{1,2})?", word):
        raise Refused(f"demand {number}: a load is a number, 0 or more: {word}")
    return Fraction(word)


def no_loads() -> Loads:
    """No load on any link."""
    return defaultdict(Fraction)


@dataclass
class Carried:
    """What links carry on average, what terminals send into their wires, and what surely or possibly crosses the links that
    are the bits of a mask."""

    even: Loads = field(default_factory=no_loads)
    sent: defaultdict[str, Fraction] = field(default_factory=lambda: defaultdict(Fraction))
    always: defaultdict[int, Fraction] = field(default_factory=lambda: defaultdict(Fraction))
    can: defaultdict[int, Fraction] = field(default_factory=lambda: defaultdict(Fraction))

    def add(self, uses: Uses, load: Fraction) -> None:
        """Adds what goes these ways."""
        self.can[uses.can] += load
        self.always[uses.always] += load

    def add_even(self, even: Loads, load: Fraction = Fraction(1)) -> None:
        """Adds what crosses links on average, `load` times."""
        for port, part in even.items():
            self.even[port] += part * load

    def bounds(self, ways: Ways) -> tuple[Loads, Loads]:
        """The least and the most that links carry."""
        least, most = no_loads(), no_loads()
        for loads, masks in ((least, self.always), (most, self.can)):
            for mask, load in masks.items():
                for port in ways.links(mask):
                    loads[port] += load
            # all that is for a terminal crosses its link
            for terminal in ways.net.terminals.values():
                loads[terminal.port] = self.even[terminal.port]
        return least, most


def carried(ways: Ways, demands: Demands) -> Carried:
    """What the links of a network carry under these loads."""
    found = Carried()
    by_label: dict[int, dict[str, Fraction]] = {}
    for (name, label), load in demands.items():
        by_label.setdefault(label, {})[name] = load
        found.sent[name] += load
    firsts = _add_random(ways, found)
    for labels, uses in ways.own_uses:
        for label in by_label.keys() & set(labels):
            begins = no_loads()
            for name, load in by_label[label].items():
                found.add(uses[name], load)
                for port, part in firsts[name].items():
                    begins[port] += part * load
            found.add_even(share(ways, label, begins)[0])
    return found


def _add_random(ways: Ways, found: Carried) -> dict[str, Loads]:
    """Adds what terminals send by random headers. Returns which share of a terminal's load begins by its own header where."""
    firsts: dict[str, Loads] = {name: defaultdict(Fraction, {ports[0]: Fraction(1)}) for name, ports in ways.begins.items()}
    for name, uses in ways.random_uses:
        entry, load = ways.net.terminals[name].port, found.sent[name]
        words = ways.net.random_words(entry)
        found.add(reduce(Uses.joined, uses), load)
        firsts[name] = no_loads()
        for header, count in words.items():
            even, ends = share(ways, header, {entry: Fraction(count, sum(words.values()))})
            found.add_even(even, load)
            for port, part in ends.items():
                firsts[name][port] += part
    return firsts


def share(ways: Ways, header: int, begins: Mapping[Port, Fraction]) -> tuple[Loads, Loads]:
    """Lets loads go on from inputs with a header, each group's links sharing evenly. Returns the loads of links, and what
    comes to portals."""
    even, ends = no_loads(), no_loads()
    comes: Loads = defaultdict(Fraction, begins)
    for port in reversed(list(ways.ended(header, list(begins)))):
        outputs = ways.net.outputs(port, header)
        part = comes[port] / max(len(outputs), 1)
        for output in outputs:
            even[output] += part
        for after in ways.net.next_inputs(port, header):
            comes[after] += part
        if ways.net.select(port, header) == DISCARD:
            ends[port] += part
    return even, ends


def uniform_rate(ways: Ways) -> Fraction | None:
    """How many tokens a round each terminal may send evenly to all others, to their first labels, until some link between
    switches carries one a round, if each group's links share evenly; at most 1, which its own link carries. A bound: it
    leaves out that packets wait for one another. None of fewer than two terminals."""
    names = list(ways.net.terminals)
    if len(names) < 2:
        return None
    labels = [terminal.labels.start for terminal in ways.net.terminals.values()]
    part = Fraction(1, len(names) - 1)
    found = carried(ways, {(one, label): part for one in names for label in labels if ways.net.owners[label].name != one})
    return 1 / max([Fraction(1), *(found.even[port] for port in ways.net.between)])


def demand_table(ways: Ways, demands: Demands, format_name: str) -> Rows:
    """A row for each link with a wire, by switch and link, and then for each terminal."""
    found = carried(ways, demands)
    least, most = found.bounds(ways)
    rows = Rows(format_name, DEMAND)
    for port in ways.net.ports:
        loads = (thousandths(loads[port]) for loads in (least, found.even, most))
        rows.add([str(port), str(ways.net.peers[port]), *loads])
    for terminal in ways.net.terminals.values():
        sent = thousandths(found.sent[terminal.name])
        rows.add([terminal.name, str(terminal.port), sent, sent, sent])
    return rows
