"""One measured point of a saturation curve: a network under a load, by a seed.

Terminals send by chance (Bernoulli), as many tokens in a round each as the load says. They send in the warm-up, in the window,
whose packets are measured, and as long as the warm-up behind it, so that the last of these packets meet others too. 10,000 rounds
more bring home what is on its way.

A row says where it comes from: the program's version, the SHA-256 of the description (its first 16 digits), the options and the
seed. Rows of the same words are the same everywhere, so rows of several machines can be joined.
"""

from __future__ import annotations

import argparse
import csv
import hashlib
import io
import re
import shlex
from collections.abc import Iterator
from dataclasses import dataclass, fields, replace
from pathlib import Path
from typing import Any, NamedTuple

from c104.network import Network
from c104.patterns import Load, Traffic, pattern_of
from c104.program import REFUSED, USAGE, Description, Program, encoded, fault
from c104.runs import Run
from c104.stats import Measures, Window, arriving, cell_of, mean, measured, measures_of, tokens
from c104.traffic import Schedule, find_hot_spot, rounds_lines, script_lines
from c104.words import Parser, number

DRAIN = 10_000  # rounds behind the last packet
MAX_SCRIPT = 16 << 20  # bytes
SUMMED = ("sent", "arrived", "unfinished", "lost", "latency_least", "latency_median", "latency_95", "latency_99", "latency_most",
          "latency_mean", "latency_deviation", "network_mean")


NUMBERS = ("seed", "tokens_sent", "tokens_arrived", "still", "cut", "sent", "arrived", "unfinished", "lost")


@dataclass(frozen=True)
class Options:
    """How a point is measured. Rounds are numbered from 1; 0 is before the first."""

    pattern: str = "uniform"
    target: str | None = None
    share: int = 100
    bytes: int = 15
    own: bool = False
    words: int | None = None
    rounds: str = "fair"  # or plain: then lower links go first, and may starve others
    warm_up: int = 1000
    window: int = 5000
    parts: int = 10  # of the window, for batch means

    def text(self) -> str:
        """The options as words of a command line: those that differ from what is usual."""
        words = []
        for option in fields(self):
            value, name = getattr(self, option.name), option.name.replace("_", "-")
            if value != option.default:
                words += [f"--{name}"] if value is True else [f"--{name}", str(value)]
        return shlex.join(words)

    def sent_rounds(self) -> int:
        """For how many rounds terminals send."""
        return 2 * self.warm_up + self.window

    def measured(self) -> Window:
        """The rounds in which packets are sent that are measured: as many as the window has, behind the warm-up."""
        return Window(self.warm_up, self.warm_up + self.window - 1)

    def traffic(self, load: str, seed: int) -> Traffic:
        """What terminals send at a load, in tokens a round of each, by a seed."""
        return Traffic(pattern_of(self.pattern), self.bytes, seed, Load.tokens(load), True, self.words, self.rounds == "fair",
                       self.own, share=self.share)


class Point(NamedTuple):
    """A network, by the path of its description, under a load, by a seed."""

    network: str
    load: str
    seed: int


class PointRow(NamedTuple):
    """What was measured, and where it comes from. All cells are as in the file; an empty one says nothing."""

    network: str  # the name of its file, without .txt
    load: str  # tokens in a round of each terminal that sends
    seed: int
    version: str
    digest: str
    options: str
    tokens_sent: int  # of the packets that were sent in the window
    tokens_arrived: int  # of the packets that arrived in it, whenever they were sent
    still: int  # 1 if the network stands still with tokens in it
    cut: int  # 1 if the run ended since a trace or an inbox is full
    sent: int  # and further of the packets that were sent in the window
    arrived: int
    unfinished: int
    lost: int
    latency_least: str
    latency_median: str
    latency_95: str
    latency_99: str
    latency_most: str
    latency_mean: str  # thousandths, rounded down
    latency_deviation: str
    network_mean: str
    part_means: str  # the mean latencies of the window's parts, with a space between two

    @classmethod
    def read(cls, cells: dict[str, str]) -> PointRow:
        """A row of a file."""
        known: dict[str, Any] = {name: int(cell) if name in NUMBERS else cell for name, cell in cells.items()}
        return cls(**known)

    def parts(self) -> list[float]:
        """The mean latencies of the parts in which packets arrived that were sent in them."""
        return [float(word) for word in self.part_means.split()]


def name_of(path: str) -> str:
    """The name of a network: that of its file, without .txt."""
    return Path(path).name.removesuffix(".txt")


def digest_of(path: str) -> str:
    """The beginning of the SHA-256 of a description."""
    return hashlib.sha256(encoded(Description(path).read())).hexdigest()[:16]


def point_script(network: Network, options: Options, load: str, seed: int) -> Iterator[str]:
    """The script of a point. ProgramError where it would be longer than the program takes; TrafficError as of traffic."""
    traffic = find_hot_spot(network, options.traffic(load, seed), options.target)
    rounds, size = options.sent_rounds(), 0
    for line in script_lines(Schedule.of(network, traffic), until=rounds):
        size += len(line)
        yield line
    yield from rounds_lines(traffic, rounds, rounds + DRAIN)
    if size > MAX_SCRIPT - 64:
        raise fault("the script of a point is longer than 16 MiB: take fewer rounds", USAGE)


def measure(point: Point, options: Options, version: str) -> PointRow:
    """Runs a point."""
    program = Program.find()
    network = Network.load(program, point.network)
    run = Run.of(point.network, point_script(network, options, point.load, point.seed), program)
    answer = run.read("packets", "run")
    window = options.measured()
    sent, within = measured(run.packets, window), arriving(run.packets, window)
    found = measures_of(window, sent, within, options.window * len(network.terminals))
    return PointRow(
        name_of(point.network), point.load, point.seed, version, digest_of(point.network), options.text(),
        tokens(sent), tokens(within), run.end.still, int(answer.status == REFUSED),
        part_means=part_means(run, options), **summed(found))


def summed(found: Measures) -> dict[str, Any]:
    """The cells of what is measured of packets."""
    cells = {name: cell_of(getattr(found, name)) for name in SUMMED}
    return {name: cell if name in NUMBERS else "" if cell is None else str(cell) for name, cell in cells.items()}


def part_means(run: Run, options: Options) -> str:
    """The mean latencies of the packets that were sent in each part of the window, where any of them arrived."""
    last = options.measured().end
    windows = [options.measured().part(last, part, options.parts) for part in range(options.parts)]
    means = (mean([packet.latency for packet in measured(run.packets, window) if packet.latency is not None])
             for window in windows)
    return " ".join(f"{float(value):.3f}" for value in means if value is not None)


def csv_text(rows: list[PointRow], header: bool) -> str:
    """Rows as a file has them."""
    text = io.StringIO(newline="")
    writer = csv.writer(text)
    if header:
        writer.writerow(PointRow._fields)
    writer.writerows(rows)
    return text.getvalue()


def read_rows(path: Path) -> list[PointRow]:
    """The rows of a file; none where there is no such file. A last row that wasn't written to its end is left out."""
    if not path.is_file():
        return []
    with open(path, encoding="utf-8", newline="") as file:
        lines = file.read().splitlines(keepends=True)
    rows = csv.reader([line for line in lines if line.endswith("\n")])
    if tuple(next(rows, ())) != PointRow._fields:
        raise fault(f"{path} has other columns than the points of this version: take another folder by --out")
    return [PointRow.read(dict(zip(PointRow._fields, cells))) for cells in rows if len(cells) == len(PointRow._fields)]


def add_options(parser: Parser) -> None:
    """The options of a point."""
    usual = Options()
    parser.add_argument("--pattern", default=usual.pattern, metavar="P", help="as of c104-traffic; by default uniform")
    parser.add_argument("--target", metavar="T", help="the terminal that is the hot spot")
    parser.add_argument("--share", type=number(1, 100), default=100, metavar="C", help="how many of 100 packets go there")
    parser.add_argument("--bytes", type=number(0, 4094), default=usual.bytes, metavar="B", help="behind headers, by default 15")
    parser.add_argument("--own", action="store_true", help="let terminals send to themselves, too")
    parser.add_argument("--words", type=number(0, 2**64 - 1), metavar="W", help="where the seeds of `rounds` lines begin")
    parser.add_argument("--rounds", choices=["fair", "plain"], default=usual.rounds, help="by default fair")
    parser.add_argument("--warm-up", type=number(1, 999_999), default=usual.warm_up, metavar="R", help="rounds, by default 1000")
    parser.add_argument("--window", type=number(1, 999_999), default=usual.window, metavar="R", help="rounds, by default 5000")
    parser.add_argument("--parts", type=number(2, 1000), default=usual.parts, metavar="K", help="of the window, by default 10")


def options_of(parser: Parser, given: argparse.Namespace) -> Options:
    """The options that are given. Words that don't go together are wrong usage."""
    if (given.pattern == "hot-spot") != (given.target is not None):
        parser.error("--pattern hot-spot wants --target, and no other does")
    try:
        pattern_of(given.pattern)
    except ValueError as error:
        parser.error(str(error))
    return replace(Options(), **{option.name: getattr(given, option.name) for option in fields(Options)})


def version_of(program: Program) -> str:
    """The program's version, in a word."""
    return re.sub(r"\s+", " ", program.get("--version")).strip()
