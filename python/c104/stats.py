"""`c104-stats`: how the packets, links and rounds of a run fared, in numbers; its `--help` says what each means.

In a script or a notebook:

    from c104.runs import Run
    from c104.stats import Window, batches, summary

    run = Run.of("network.txt", "events.txt")
    summary(run).latency_mean                       # a Fraction: exact
    batches(run, Window(1000, 5999), 10).frame()    # ten parts of these rounds

Numbers are exact; the tool prints those with a point rounded down to thousandths. Percentiles are nearest ranks.
"""

from __future__ import annotations

import argparse
import sys
from bisect import bisect_left, bisect_right
from collections import Counter
from collections.abc import Iterable, Sequence
from dataclasses import dataclass
from fractions import Fraction
from math import isqrt
from typing import NamedTuple

from c104.enough import rounds_enough
from c104.program import Program, exit_status, save, sources_of, write
from c104.rows import FORMATS, Cell, Rows, Thousandths
from c104.runs import Packet, Round, Run, Table
from c104.words import Parser, add_explain, add_sources, number

MAX_ROUND = 2**32 - 1
MAX_BATCHES = 1_000


class Latency(NamedTuple):
    """How many of the packets that arrived have a latency, in rounds."""

    latency: int
    packets: int


class LinkShare(NamedTuple):
    """A port with a wire, as it is printed: `c104.runs.Link`, with the share of the run's rounds in which a token crossed."""

    port: str
    tokens: int
    share: Fraction
    packets: int
    longest: int
    waiting: int


class Window(NamedTuple):
    """The rounds in which packets are sent that are measured, both ends counted; round 0 is before the first."""

    start: int = 0
    end: int = MAX_ROUND

    def rounds(self, length: int) -> int:
        """How many of them are rounds of a run of this length, from 1 on."""
        return max(min(self.end, length) + 1 - max(self.start, 1), 0)

    def part(self, length: int, number: int, parts: int) -> Window:
        """Part `number`, from 0, of as many parts, as alike as can be, of those rounds."""
        first, rounds = max(self.start, 1), self.rounds(length)
        return Window(min(first + rounds * number // parts, MAX_ROUND), min(first + rounds * (number + 1) // parts - 1, MAX_ROUND))


class Measures(NamedTuple):
    """What is measured of the packets that were sent in a window. Latencies are in rounds; none where no packet arrived."""

    start: int  # of the window
    end: int
    sent: int  # packets
    arrived: int
    unfinished: int
    lost: int  # short or sunk
    latency_least: int | None
    latency_median: int | None
    latency_95: int | None
    latency_99: int | None
    latency_most: int | None
    latency_mean: Fraction | None
    latency_deviation: Fraction | None  # in thousandths, rounded down: it is a root
    network_mean: Fraction | None  # of the rounds from `left` to `arrived`
    offered: Fraction  # tokens of the packets for each round of the window and each terminal
    accepted: Fraction  # the same of all packets that arrived in the window, whenever they were sent


@dataclass(frozen=True)
class Summary:
    """What the rows of a run come to."""

    rounds: int  # the run's length
    measures: Measures
    refused: int  # lines of the script
    still: int | None  # the run's length, if the network stands still with tokens in it
    tokens_a_round: Fraction  # that crossed wires
    busiest: list[tuple[str, Fraction]]  # the three ports with the largest shares of rounds in which a token crossed
    rounds_enough: int | None  # behind the last packet, for all that were sent; none where that isn't known


def measured(packets: Iterable[Packet], window: Window) -> list[Packet]:
    """The packets that were sent in the window."""
    return [packet for packet in packets if window.start <= packet.sent <= window.end]


def latencies(packets: Iterable[Packet]) -> Table[Latency]:
    """The latencies of the packets that arrived, from the least on, with how many have each."""
    counts = Counter(packet.latency for packet in packets if packet.latency is not None)
    return Table(Latency, (Latency(*pair) for pair in sorted(counts.items())))


def ranked(percent: int, ascending: Sequence[int]) -> int | None:
    """The least number that at least this percentage of all don't exceed."""
    if not ascending:
        return None
    return ascending[max(-(-len(ascending) * percent // 100) - 1, 0)]


def mean(numbers: Sequence[int]) -> Fraction | None:
    """Their mean."""
    return Fraction(sum(numbers), len(numbers)) if numbers else None


def deviation(numbers: Sequence[int]) -> Fraction | None:
    """Their standard deviation, the root of the mean of their squares less the square of their mean, in thousandths."""
    count = len(numbers)
    if not count:
        return None
    spread = count * sum(number * number for number in numbers) - sum(numbers) ** 2
    return Fraction(isqrt(spread * 1_000_000) // count, 1000)


def tokens(packets: Iterable[Packet]) -> int:
    """How many tokens the packets have, with their terminators."""
    return sum(packet.bytes + 1 for packet in packets)


def arriving(packets: Iterable[Packet], window: Window) -> list[Packet]:
    """The packets that arrived in the window, whenever they were sent."""
    return [packet for packet in packets if packet.arrived is not None and window.start <= packet.arrived <= window.end]


def measures(run: Run, window: Window = Window()) -> Measures:
    """What is measured of the packets that were sent in a window of a run."""
    places = window.rounds(run.length) * run.terminals
    return measures_of(window, measured(run.packets, window), arriving(run.packets, window), places)


def measures_of(window: Window, packets: Sequence[Packet], accepted: Sequence[Packet], places: int) -> Measures:
    """The same of the packets that were sent in the window, and those that arrived in it. Rates are tokens for each of these
    places, which are rounds times terminals."""
    arrived = [packet for packet in packets if packet.latency is not None]
    ascending = sorted(packet.latency for packet in arrived if packet.latency is not None)
    endings = Counter(packet.ending for packet in packets)
    return Measures(
        start=window.start,
        end=window.end,
        sent=len(packets),
        arrived=len(arrived),
        unfinished=endings["unfinished"],
        lost=endings["short"] + endings["sunk"],
        latency_least=ascending[0] if ascending else None,
        latency_median=ranked(50, ascending),
        latency_95=ranked(95, ascending),
        latency_99=ranked(99, ascending),
        latency_most=ascending[-1] if ascending else None,
        latency_mean=mean(ascending),
        latency_deviation=deviation(ascending),
        network_mean=mean([packet.arrived - packet.left for packet in arrived
                           if packet.arrived is not None and packet.left is not None]),
        offered=Fraction(tokens(packets), places) if places else Fraction(0),
        accepted=Fraction(tokens(accepted), places) if places else Fraction(0),
    )


def summary(run: Run, window: Window = Window()) -> Summary:
    """What the rows of a run come to, where packets are measured that were sent in a window."""
    moved = sum(link.tokens for link in run.links)
    length = run.length
    # Sorting is stable: of links with one share the first comes first.
    busiest = sorted((link for link in run.links if link.busy), key=lambda link: -link.busy)[:3]
    return Summary(
        rounds=length,
        measures=measures(run, window),
        refused=run.refused,
        still=run.still,
        tokens_a_round=Fraction(moved, length) if length else Fraction(0),
        busiest=[(link.port, run.share(link)) for link in busiest],
        rounds_enough=rounds_enough(run),
    )


def batches(run: Run, window: Window, parts: int) -> Table[Measures]:
    """What is measured in as many parts of a window."""
    sent = sorted(run.packets, key=lambda packet: packet.sent)
    arrived = sorted((packet for packet in run.packets if packet.arrived is not None), key=lambda packet: packet.arrived or 0)
    table = Table(Measures)
    for part in (window.part(run.length, number, parts) for number in range(parts)):
        packets = sent[bisect_left(sent, part.start, key=lambda packet: packet.sent):
                       bisect_right(sent, part.end, key=lambda packet: packet.sent)]
        accepted = arrived[bisect_left(arrived, part.start, key=lambda packet: packet.arrived or 0):
                           bisect_right(arrived, part.end, key=lambda packet: packet.arrived or 0)]
        table.append(measures_of(part, packets, accepted, part.rounds(run.length) * run.terminals))
    return table


# How all that is printed

ENDINGS = ("sent", "arrived", "unfinished", "lost")
LATENCIES = ("latency_least", "latency_median", "latency_95", "latency_99", "latency_most", "latency_mean", "latency_deviation",
             "network_mean")
RATES = ("offered", "accepted")
BUSIEST = ("busiest", "busiest_share", "second", "second_share", "third", "third_share")
SUMMARY = ("rounds", *ENDINGS, "refused", "still", *LATENCIES, *RATES, "tokens_a_round", *BUSIEST, "rounds_enough")
BATCH = ("from", "to", *ENDINGS, *LATENCIES, *RATES)
TABLES = ("packets", "latencies", "links", "rounds")


def cell_of(value: object) -> Cell:
    """A cell: fractions are printed in thousandths, rounded down."""
    if isinstance(value, Fraction):
        return Thousandths(value.numerator * 1000 // value.denominator)
    assert value is None or isinstance(value, (int, str))
    return value


def cells_of(record: object, names: Iterable[str]) -> list[Cell]:
    """The cells of these members."""
    return [cell_of(getattr(record, name)) for name in names]


def summary_cells(found: Summary) -> list[Cell]:
    """The row of a summary."""
    busiest = [cell for port, share in found.busiest for cell in (port, cell_of(share))]
    return [found.rounds, *cells_of(found.measures, ENDINGS), found.refused, found.still,
            *cells_of(found.measures, LATENCIES + RATES), cell_of(found.tokens_a_round),
            *busiest, *[None] * (len(BUSIEST) - len(busiest)), found.rounds_enough]


def table_of(run: Run, window: Window, what: str) -> Table[Packet] | Table[Latency] | Table[LinkShare] | Table[Round]:
    """A table of a run, by its word."""
    match what:
        case "packets":
            return Table(Packet, measured(run.packets, window))
        case "latencies":
            return latencies(measured(run.packets, window))
        case "links":
            return Table(LinkShare, (LinkShare(it.port, it.tokens, run.share(it), *it[3:]) for it in run.links))
        case _:
            return run.rounds


def text_of(run: Run, window: Window, what: str, form: str, parts: int | None) -> str:
    """A table of a run, its summary or its batches."""
    if what == "summary":
        rows = Rows(form, SUMMARY, beside=True)
        rows.add(summary_cells(summary(run, window)))
        return rows.text()
    table = batches(run, window, parts or 1) if what == "batches" else table_of(run, window, what)
    rows = Rows(form, BATCH if what == "batches" else table.columns)
    for row in table:
        rows.add([cell_of(cell) for cell in row])
    return rows.text()


# The command

PAGE = """\
Runs a script, and prints numbers in place of the answers and of what arrived. Time is counted in rounds; what happens outside
of rounds counts to the round before. With --what it prints a table with a row for each

  packets    that was sent, as `c104 rows` has them
  latencies  latency that measured packets had: how many of them
  links      port with a wire, as `c104 rows` has them, but with `share` for `busy`: the share of the run's rounds
  rounds     in which anything was done, as `c104 rows` has them

and else a summary:

  rounds             the run's length, the last round in which anything was done
  sent .. lost       how many packets are measured, and how many of them arrived, are unfinished, or are short or sunk
  refused            how many lines were refused, those that are answered `refused register` among them
  still              the run's length, if the network stands still with tokens in it
  latency_ ..        rounds from being sent to arriving, of measured packets: the least, the median, those that 95 and 99 of
                     100 packets don't exceed, the most, the mean and the standard deviation
  network_mean       the mean of their rounds from leaving the sender to arriving
  offered            tokens of measured packets, with terminators, for each terminal and each measured round from 1 on
  accepted           the same of the packets that arrived in these rounds, whenever they were sent
  tokens_a_round     how many tokens crossed wires in a round
  busiest .. third   the links in which a token crossed in the most rounds, each with its share of the run's rounds
  rounds_enough      how many rounds behind the last packet are enough: for each packet its tokens and one, and for each byte of
                     a header one more than the rank of the input that its sender's wire leads to. A rank is 1 if the input
                     depends on no other, else one more than the highest of those: so 4 tokens by one switch need 4 + 1 + 2
                     rounds. Of accepted labels without a cycle and random headers; it is tested, not proved

With --batches there is a row for each of K parts of the measured rounds. Of n rounds part i, from 0, begins i * n / K rounds
behind the first, rounded down; a part without rounds ends in the round before its first. If a network stands still with tokens
in it, people are told who waits for what, behind the table or, with csv and json, on standard error."""
EXAMPLES = (
    "c104-stats network.txt events.txt",
    "c104-stats --what links --format csv network.txt events.txt > links.csv",
    "c104-stats --from 1000 --to 2999 network.txt events.txt",
    "c104-stats --what packets --what links --out run network.txt events.txt",
)
NEEDED = {
    "summary": ("packets", "links", "run"), "batches": ("packets", "links", "run"), "packets": ("packets",),
    "latencies": ("packets",), "links": ("links", "run"), "rounds": ("rounds",),
}
"""Which tables of the program each of them wants."""


def arguments() -> Parser:
    """The command line."""
    parser = Parser("c104-stats", PAGE, EXAMPLES)
    add_sources(parser)
    parser.add_argument("--format", choices=FORMATS, default="table", help="how they are printed; by default table")
    parser.add_argument("--what", choices=TABLES, action="append", default=[], help="which are; by default a summary")
    parser.add_argument("--out", metavar="PREFIX",
                        help="write each table to a file of its own, PREFIX-W.txt, .csv or .json, so there may be several")
    parser.add_argument("--from", dest="start", type=number(0, MAX_ROUND), metavar="R",
                        help="the first round in which packets are sent that are measured; by default all are")
    parser.add_argument("--to", dest="end", type=number(0, MAX_ROUND), metavar="R", help="the last one")
    parser.add_argument("--batches", type=number(1, MAX_BATCHES), metavar="K",
                        help="tell of K equal parts of these rounds, in place of a summary")
    add_explain(parser)
    return parser


def window_of(parser: Parser, given: argparse.Namespace) -> Window:
    """The window that is asked for. Words that don't go together are wrong usage."""
    if len(given.what) > len(set(given.what)):
        parser.error("a table is named twice")
    if len(given.what) > 1 and given.out is None:
        parser.error("several tables want --out PREFIX, since each goes to a file of its own")
    if given.what and given.batches is not None:
        parser.error("--batches tells in place of a summary, and not beside --what")
    if given.start is None and given.end is None:
        return Window()
    if given.what and not {"packets", "latencies"}.intersection(given.what):
        parser.error("--from and --to choose packets, for the summary, packets and latencies")
    window = Window(given.start or 0, MAX_ROUND if given.end is None else given.end)
    if window.start > window.end:
        parser.error("--from comes after --to, so no packet is measured")
    return window


def main() -> int:
    """The command `c104-stats`."""
    parser = arguments()
    given = parser.parse_args()
    window = window_of(parser, given)
    wanted = given.what or ["summary" if given.batches is None else "batches"]
    run = Run(Program.find(given.explain), sources_of(given.network, given.script))
    answer = run.read(*dict.fromkeys(name for what in wanted for name in NEEDED[what]))
    is_table = given.format == "table"
    told, still = run.told()
    for what in wanted:
        text = text_of(run, window, what, given.format, given.batches)
        text += "".join(line + "\n" for line in still if is_table)
        if given.out is None:
            write(text)
        else:
            save(f"{given.out}-{what}.{'txt' if is_table else given.format}", text)
    sys.stderr.write("".join(line + "\n" for line in told) if is_table else answer.errors)
    return answer.status


if __name__ == "__main__":
    sys.exit(exit_status(main))
