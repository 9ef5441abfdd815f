"""The exact rows of a run, for scripts and notebooks.

    from c104.runs import Run

    run = Run.of("network.txt", "events.txt")
    run.packets[0].latency              # named tuples: run.packets, run.links, run.rounds
    run.packets.frame()                 # the same as a pandas frame, where pandas is installed
    run.length, run.refused, run.still  # and what holds of the run as a whole

The network may also be a `Network`, and the script the lines of one: `Run.of(network, packet_lines(schedule, 1000))`. All tables
are of one run of the program, which is done when the first of them is used. Time is counted in rounds: what happens outside of
rounds counts to the round before, and what happens before the first round to round 0. All numbers are exact.
"""

from __future__ import annotations

import csv
import re
from collections.abc import Callable, Iterable
from dataclasses import dataclass, field, replace
from fractions import Fraction
from functools import cached_property
from pathlib import Path
from typing import Any, Generic, NamedTuple, TypeVar

from c104.network import Network
from c104.program import Answer, Description, Program, Source

STILL = re.compile(r"c104: (?:.*: )?(?=stands still after round )")


class Packet(NamedTuple):
    """A packet that a terminal sent."""

    sender: str
    number: int  # among those of its sender, from 0
    receiver: str | None  # where its terminator arrived
    bytes: int  # with its header
    wires: int  # that its terminator has crossed
    sent: int  # the round
    left: int | None  # the round in which its first token left its sender
    arrived: int | None  # the round in which its terminator arrived
    latency: int | None  # rounds from `sent` to `arrived`
    idle: int  # rounds in which it held a link and moved nothing there, summed over the links that its terminator crossed
    ending: str  # arrived, unfinished, short or sunk

    @property
    def tokens(self) -> int:
        """Its bytes and its terminator."""
        return self.bytes + 1


class Link(NamedTuple):
    """A port with a wire, from which tokens cross it: a switch's link, or a terminal."""

    port: str
    tokens: int
    busy: int  # in how many rounds from 1 to the run's length a token crossed
    packets: int  # terminators that crossed
    longest: int  # the most rounds for which a packet held the link
    waiting: int  # the most tokens that waited there where a round was over


class Round(NamedTuple):
    """A round in which anything was done, or the rounds of a line in which nothing was, by the number of the last."""

    round: int
    waiting: int  # tokens that waited to leave their senders where it was over
    inside: int  # tokens in switches and in the inputs of terminals
    moved: int  # tokens that crossed a wire in it
    arrived: int  # tokens that arrived in it
    held: int  # outputs that belonged to an input at its end


class End(NamedTuple):
    """What holds of a run as a whole."""

    length: int  # the last round in which anything was done
    refused: int  # lines of the script
    still: int  # 1 if the network stands still with tokens in it


Row = TypeVar("Row", bound=tuple[Any, ...])


class Table(list[Row], Generic[Row]):
    """Rows, which are named tuples of one kind."""

    def __init__(self, kind: type[Row], rows: Iterable[Row] = ()) -> None:
        super().__init__(rows)
        self.kind = kind

    @property
    def columns(self) -> tuple[str, ...]:
        """The names of the columns."""
        names: tuple[str, ...] = getattr(self.kind, "_fields")
        return names

    def frame(self) -> Any:
        """The table as a pandas frame, with floats for fractions. ImportError where pandas isn't installed."""
        import pandas

        rows = [tuple(float(cell) if isinstance(cell, Fraction) else cell for cell in row) for row in self]
        return pandas.DataFrame(rows, columns=list(self.columns))


def optional(read: Callable[[str], Any]) -> Callable[[str], Any]:
    """What reads a cell that is empty where there is nothing."""
    return lambda cell: read(cell) if cell else None


READERS: dict[type, tuple[Callable[[str], Any], ...]] = {
    Packet: (str, int, optional(str), int, int, int, optional(int), optional(int), optional(int), int, str),
    Link: (str, int, int, int, int, int),
    Round: (int,) * 6,
    End: (int,) * 3,
}


def read_table(kind: type[Row], text: str) -> Table[Row]:
    """The table that the program wrote as CSV."""
    readers = READERS[kind]
    lines = csv.reader(text.splitlines()[1:])
    return Table(kind, (kind(*(read(cell) for read, cell in zip(readers, line))) for line in lines))


@dataclass
class Run:
    """A run of a script on a network, by what it is of. It isn't changed; the same files give the same run."""

    program: Program
    sources: list[Source]  # the description, and the script if it isn't the description's own
    texts: dict[str, str] = field(default_factory=dict)
    answer: Answer | None = None  # of the program

    @classmethod
    def of(cls, network: Source | Network, script: Source | Iterable[str] | None = None, program: Program | None = None) -> Run:
        """The run of a script, by its path or its lines, on a network, by its path or itself. Without a script the
        description's own is run."""
        program = program or Program.find()
        description = Description.of_text(network.text()) if isinstance(network, Network) else Description.of(network)
        if script is None:
            return cls(program, [description])
        if isinstance(script, (str, Path, Description)):
            return cls(program, [description, Description.of(script)])
        return cls(program, [description, Description.of_text("".join(line.rstrip("\n") + "\n" for line in script))])

    def read(self, *names: str) -> Answer:
        """Runs it for these tables, as the program names them, and returns what that answered. Tables that aren't named have to be
        read before they are used."""
        found = self.program.tables(self.sources, *names)
        self.texts.update(found.texts)
        self.answer = found.answer
        return found.answer

    def table(self, name: str, kind: type[Row]) -> Table[Row]:
        """A table. Without any that is read yet, all are."""
        if not self.texts:
            self.read("packets", "links", "rounds", "run")
        return read_table(kind, self.texts[name])

    @cached_property
    def packets(self) -> Table[Packet]:
        """All packets, by sender and number."""
        return self.table("packets", Packet)

    @cached_property
    def links(self) -> Table[Link]:
        """The ports with a wire: those of switches, by switch and link, and then terminals."""
        return self.table("links", Link)

    @cached_property
    def rounds(self) -> Table[Round]:
        """The rounds, from number 0, which is what came before the first."""
        return self.table("rounds", Round)

    @cached_property
    def end(self) -> End:
        """What holds of the run as a whole."""
        return self.table("run", End)[0]

    @property
    def length(self) -> int:
        """The last round in which anything was done."""
        return self.end.length

    @property
    def refused(self) -> int:
        """How many lines of the script were refused."""
        return self.end.refused

    @property
    def still(self) -> int | None:
        """The run's length, if the network stands still with tokens in it."""
        return self.end.length if self.end.still else None

    @cached_property
    def terminals(self) -> int:
        """How many terminals the network has: each has a wire, and a name without a link."""
        return sum("." not in link.port for link in self.links)

    def share(self, link: Link) -> Fraction:
        """The share of the rounds from 1 to the run's length in which a token crossed there; 0 if there are none."""
        return Fraction(link.busy, self.length or 1)

    def told(self) -> tuple[list[str], list[str]]:
        """The lines that the program told of the run on standard error, but for those that say what stands still, and these
        without what is ahead of them."""
        lines = self.answer.errors.splitlines() if self.answer else []
        first = next((place for place, line in enumerate(lines) if STILL.match(line)), len(lines))
        count = len(lines) - first
        if count and self.program.is_explaining:
            plain = Run(replace(self.program, is_explaining=False), self.sources)
            plain.read("run")
            count = len(plain.told()[1])
        begin = STILL.match(lines[first]) if count else None
        still = [line.removeprefix(begin[0]) for line in lines[first : first + count] if begin]
        return lines[:first] + lines[first + count :], still
