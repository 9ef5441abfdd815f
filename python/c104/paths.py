"""c104-paths: how far packets go by the labels of a description, over which links, by which rows.

Prints a summary of one description, or its pairs, links, inputs or rows, the fewest wires between two halves of its
terminals, or what traffic its links carry; or the summaries of several descriptions side by side. What the numbers are is
said in `ways`, `deciding`, `bisection` and `demand`.

    checked(program, description)                       # raises ProgramError unless the labels are accepted
    ways = accepted(program, Description.of("network.txt"))
    Rows("csv", LINKS, rows=list(link_rows(ways))).text()
"""

from __future__ import annotations

import argparse
import sys
from collections import Counter
from collections.abc import Iterable, Iterator
from fractions import Fraction

from c104.bisection import bisect
from c104.deciding import input_uses, row_lines, row_uses, why_idle
from c104.demand import demand_table, read_demands, uniform_rate
from c104.network import Network, Port
from c104.program import DONE, Description, Program, ProgramError, Refused, exit_status, write
from c104.rows import FORMATS, Cell, Rows, Thousandths, thousandths
from c104.ways import Span, Ways
from c104.words import Parser, add_explain

SUMMARY = (
    "pairs mean_hops largest_hops mean_stretch largest_stretch largest_load load_link most_rows rows_input "
    "random_mean random_largest random_load random_link cycle"
).split()
WIRING = ["switches", "terminals", "wires", "bisection", "bisection_exact", "uniform_rate"]
PAIRS = "sender label receiver least most distance stretch random_least random_most".split()
LINKS = "port to can always random_can random_always".split()
INPUTS = "port set deciding labels random".split()
ROWS = "port row line first limit select headers labels random idle why".split()
WHAT = "pairs links inputs rows bisection demand".split()
MOST_FILES = 16


PAGE = """\
Prints how far packets go by the labels of a description, over which links, by which rows.

Wires between switches are counted, whatever links of groups are taken, and those of terminals aren't. A pair is a terminal and a
label of another terminal. The summary:

  pairs                          how many there are
  mean_hops, largest_hops        the most wires on the ways of a pair: the mean over pairs, and the largest
  mean_stretch, largest_stretch  these wires over those of a shortest path, of pairs that aren't at one switch
  largest_load, load_link        the most pairs that can use a link between switches, and the first such link
  most_rows, rows_input          the most rows that an input with a wire has, and the first such input
  random_mean, random_largest    the most wires on the ways of a terminal's random header to portals: the mean over pairs of a
                                 terminal and one of its random headers, and the largest
  random_load, random_link       the most such pairs that can use a link between switches, and the first such link
  cycle                          how many inputs the cycle has that `c104 cycles` finds

With --what a table is printed of each

  pairs      pair, by label and then sender: the least and the most wires, the distance of the switches, the stretch, and the
             least and the most wires to portals before, if there are random headers
  links      link with a wire: how many pairs can use it and always do, and how many pairs of a terminal and a random header
  inputs     input with a wire or a row: how many rows are set; how many of them decide, since a header can come that is theirs;
             and how many headers can come, labels and random ones. `A.1  3  2  2  0`: the third row is never used
  rows       row of an input: its line, the headers from `first` on below its limit, for how many it decides, and how many of
             these can come as labels and random headers; why it never decides, if so, as a name and in words: Empty,
             PastLast, Covered by rows before it, or NeverMet
  demand     link with a wire, under the traffic of --demand: what must cross it, what does if each group shares evenly, and
             what can at most

or of

  bisection  the fewest wires found between two halves of the terminals, whether fewer are ruled out, how many terminals each
             half has, the largest load of the links between, and the switches of one half

Summaries of several descriptions are rows. One with other switches, terminals or wires than the first is `refused OtherWiring:
FILE`, but with --any-wiring, which tells also the bisection and at which rate of even traffic the busiest link carries one token
a round. Descriptions are tried in turn, so of several that are refused the first is told."""
EXAMPLES = [
    "c104-paths --what links --format csv network.txt > links.csv",
    "c104-paths --what rows network.txt | grep -v -- '-$'    rows that never decide",
    "c104-paths tree.txt up-down.txt                         two ways to label the same network",
    "c104-paths --any-wiring mesh.txt torus.txt              two networks",
    "c104-paths --what demand --demand matrix.csv network.txt",
]
STATUS_1 = "a description, its labels or the traffic was refused, or a description has other wires than the first"


def parser() -> Parser:
    """The command line."""
    words = Parser("c104-paths", PAGE, EXAMPLES, STATUS_1)
    words.add_argument("descriptions", metavar="DESC", nargs="+", help="a file, or - for standard input; or several, to compare")
    words.add_argument("--what", choices=WHAT, help="which table; by default a summary")
    words.add_argument("--format", choices=FORMATS, default="table", help="how it is printed; by default table")
    words.add_argument("--any-wiring", action="store_true", help="compare descriptions with different wires, too")
    words.add_argument("--demand", metavar="FILE", help="a matrix of traffic as CSV: sender,receiver,load")
    add_explain(words)
    return words


def checked(program: Program, description: Description, explain: bool = False) -> None:
    """Raises ProgramError unless the labels of a description are accepted, which tells the fault as `c104 check` does."""
    answer = program.ask(*(["--explain"] if explain else []), "check", description)
    if answer.status != DONE:
        raise ProgramError(answer)


def accepted(program: Program, description: Description, explain: bool = False) -> Ways:
    """The ways of a description whose labels are accepted."""
    checked(program, description, explain)
    return Ways(Network.load(program, description))


def summary(program: Program, description: Description, ways: Ways) -> list[Cell]:
    """The cells of SUMMARY."""
    cycle = program.cycles(description)
    return [*hop_cells(ways.hops()), *_place_cells(ways), *_random_cells(ways), len(cycle.split()) if cycle else None]


def hop_cells(counts: Counter[tuple[int, int]]) -> list[Cell]:
    """What pairs come to: how many of them have these wires and distances."""
    total = sum(counts.values())
    apart = {key: count for key, count in counts.items() if key[1]}
    stretches = sum(Fraction(most * count, far) for (most, far), count in apart.items())
    return [
        total,
        thousandths(sum(most * count for (most, _), count in counts.items()), total),
        max((most for most, _ in counts), default=None),
        thousandths(stretches, sum(apart.values())),
        thousandths(max((Fraction(most, far) for most, far in apart), default=0), 1) if apart else None,
    ]


def _place_cells(ways: Ways) -> list[Cell]:
    """The link with the largest load, and the input with the most rows: the first of them."""
    loads = ways.loads()
    return [
        *largest((port, loads[port].can) for port in ways.net.between),
        *largest((port, use.set) for port, use in input_uses(ways).items() if port in ways.net.peers),
    ]


def _random_cells(ways: Ways) -> list[Cell]:
    mosts = [use.span.most for _, uses in ways.random_uses for use in uses]
    if not mosts:
        return [None, None, None, None]
    loads = ways.loads()
    return [
        thousandths(sum(mosts), len(mosts)),
        max(mosts),
        *largest((port, loads[port].random_can) for port in ways.net.between),
    ]


def largest(counts: Iterable[tuple[Port, int]]) -> list[Cell]:
    """The largest count, and the first port that has it; 0 and none where no port has one."""
    port, count = max(counts, key=lambda pair: pair[1], default=(None, 0))
    return [count, str(port) if count else None]


def pair_rows(ways: Ways) -> Iterator[list[Cell]]:
    """The rows of PAIRS."""
    stretches: dict[tuple[int, int], Thousandths | None] = {}
    for pair in ways.pairs():
        key = pair.own.most, pair.distance
        if key not in stretches:
            stretches[key] = thousandths(*key)
        spans: list[Cell] = [pair.own.least, pair.own.most, pair.distance, stretches[key], *_span_cells(pair.random)]
        yield [pair.sender, pair.label, pair.receiver, *spans]


def _span_cells(span: Span | None) -> list[Cell]:
    return [None, None] if span is None else [span.least, span.most]


def link_rows(ways: Ways) -> Iterator[list[Cell]]:
    """The rows of LINKS."""
    for port, load in ways.loads().items():
        yield [str(port), str(ways.net.peers[port]), load.can, load.always, load.random_can, load.random_always]


def input_rows(ways: Ways) -> Iterator[list[Cell]]:
    """The rows of INPUTS."""
    for port, use in input_uses(ways).items():
        yield [str(port), use.set, use.deciding, use.labels, use.random]


def row_rows(ways: Ways, lines: dict[str, list[int]]) -> Iterator[list[Cell]]:
    """The rows of ROWS. `lines` are those of the description that say rows, if it does."""
    for row in row_uses(ways):
        said = lines.get(str(row.port)) or lines.get(row.port.switch)
        covered: list[Cell] = [str(row.port), row.number, said[row.number] if said else None, row.first, row.limit, str(row.select)]
        yield [*covered, row.headers, row.labels, row.random, row.idle, why_idle(ways.net, row)]


def bisection_table(ways: Ways, format_name: str) -> Rows:
    """`--what bisection`: how the halves are cut, and the links from one to the other with their loads."""
    found = bisect(ways.net)
    loads = ways.loads()
    across = [port for port in ways.net.between if found.is_across(ways.net, port)]
    cells: list[Cell] = [found.wires, "yes" if found.is_exact else "no", *found.terminals]
    cells += largest((port, loads[port].can) for port in across)
    cells += [" ".join(sorted(found.half, key=ways.net.numbers.__getitem__))]
    columns = ["wires", "exact", "terminals", "others", "largest_load", "load_link", "half"]
    return Rows(format_name, columns, beside=True, rows=[cells])


def one_table(program: Program, words: argparse.Namespace) -> Rows:
    """What is printed of one description."""
    description = Description.of(words.descriptions[0])
    ways = accepted(program, description, words.explain)
    match words.what:
        case "pairs":
            return Rows(words.format, PAIRS, rows=list(pair_rows(ways)))
        case "links":
            return Rows(words.format, LINKS, rows=list(link_rows(ways)))
        case "inputs":
            return Rows(words.format, INPUTS, rows=list(input_rows(ways)))
        case "rows":
            return Rows(words.format, ROWS, rows=list(row_rows(ways, row_lines(description.read()))))
        case "bisection":
            return bisection_table(ways, words.format)
        case "demand":
            return demand_table(ways, read_demands(ways.net, Description.of(words.demand).read()), words.format)
    return Rows(words.format, SUMMARY, beside=True, rows=[summary(program, description, ways)])


def several_table(program: Program, words: argparse.Namespace) -> Rows:
    """What is printed of several: a row for each."""
    columns = ["file", *(WIRING if words.any_wiring else []), *SUMMARY]
    rows = Rows(words.format, columns)
    first = None
    for path in words.descriptions:
        description = Description.of(path)
        ways = accepted(program, description, words.explain)
        first = first or ways.net
        other = None if words.any_wiring else other_wiring(first, ways.net)
        if other:
            raise Refused(f"refused OtherWiring: {path}", f"c104: {path}: {other}\n" if words.explain else "")
        wiring = wiring_cells(ways) if words.any_wiring else []
        rows.add([path, *wiring, *summary(program, description, ways)])
    return rows


def other_wiring(one: Network, other: Network) -> str | None:
    """What another network has that isn't as in one: switches, terminals or wires, in any order. None if all is the same."""
    if set(one.switches) != set(other.switches):
        return "its switches aren't those of the first description"
    if {name: t.port for name, t in one.terminals.items()} != {name: t.port for name, t in other.terminals.items()}:
        return "its terminals aren't those of the first description, on the same links"
    return None if one.peers == other.peers else "its wires aren't those of the first description"


def wiring_cells(ways: Ways) -> list[Cell]:
    """The cells of WIRING."""
    halves, rate = bisect(ways.net), uniform_rate(ways)
    counts = [len(ways.net.switches), len(ways.net.terminals), len(ways.net.wires)]
    return [*counts, halves.wires, "yes" if halves.is_exact else "no", None if rate is None else thousandths(rate)]


def main(arguments: list[str] | None = None) -> int:
    """Does what the command line asks for."""
    given = parser()
    words = given.parse_args(arguments)
    if len(words.descriptions) > MOST_FILES:
        given.error(f"at most {MOST_FILES} descriptions are compared")
    is_compared = len(words.descriptions) > 1 or words.any_wiring
    if is_compared and words.what:
        given.error("what is compared are summaries, without --what")
    if (words.what == "demand") != (words.demand is not None):
        given.error("--what demand wants --demand FILE, and nothing else does")
    table = several_table if is_compared else one_table
    write(table(Program.find(), words).text())
    return DONE


if __name__ == "__main__":
    sys.exit(exit_status(main))
