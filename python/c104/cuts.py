"""c104-cuts: whether packets still come where a wire between switches breaks.

Without an option it prints which wires may not break, with what `c104 check` says of the labels without each. `--what cuts`
and `--what pairs` tell for each wire, or with `--at-once N` for each N of them, which pairs of a terminal and a label of
another terminal lose their ways, and with `--relabel` what `label up-down` would make of the rest. What is left of the
network is `c104 label DESC --rows --without S.l ..`. Several processes ask `c104` at once.
"""

from __future__ import annotations

import os
import sys
import time
from collections.abc import Iterator
from concurrent.futures import ProcessPoolExecutor
from dataclasses import dataclass
from itertools import combinations

from c104.losses import Loss, Losses, without
from c104.network import Network, Wire
from c104.paths import checked, hop_cells, largest
from c104.program import DONE, REFUSED, Description, Program, ProgramError, exit_status, write
from c104.rows import FORMATS, Cell, Rows
from c104.ways import Ways
from c104.words import Parser, add_description, add_explain, number

CUTS = "wire to check still some lost".split()
RELABELLED = "labels mean_hops largest_hops largest_load load_link".split()
PAIRS = "wire to sender label receiver ways".split()
Wires = tuple[Wire, ...]
"""Wires that break at once."""

PAGE = """\
Checks the labels of a description without each wire between switches, one after the other, as `c104 label --rows --without`
leaves them. Each that may not break is printed, `cut S.l S.l: ` and the first fault without it, in the order and with the ends of
the wire lines (of a whole network of those that `c104 label --rows` prints); and then `all N wires may break`, or `M of N
wires may not break`. With --what a table is printed of

  cuts    the whole network, and each cut, a wire or several: its links; what `c104 check` answers; how many pairs of a
          terminal and a label of another come `still` whatever links of groups are taken, in `some` cases, or are `lost`; and
          with --relabel whether labels made anew by `label up-down` are accepted, their mean and largest number of wires, and
          the most pairs that can use a link, and that link
  pairs   each pair that is lost by a cut: the ways that are, all or some

Rows that select a link that breaks select the links of its group below it, or else those above. Labels made anew
are without groups and random headers of the description. Labels that take more than 1 MiB as rows aren't cut."""
EXAMPLES = [
    "c104-cuts network.txt",
    "c104-cuts --what cuts --relabel --format csv network.txt > cuts.csv",
    "c104-cuts --what cuts --at-once 2 network.txt            any two wires",
]
STATUS_1 = "the labels are refused without some wire, or as they stand"
MOST_WORKERS, MOST_AT_ONCE = 256, 64


def parser() -> Parser:
    """The command line."""
    words = Parser("c104-cuts", PAGE, EXAMPLES, STATUS_1)
    add_description(words)
    words.add_argument("--what", choices=["cuts", "pairs"], help="which table; by default the wires that may not break")
    words.add_argument("--format", choices=FORMATS, default="table", help="how it is printed; by default table")
    words.add_argument("--relabel", action="store_true", help="with --what cuts, try `label up-down` on what is left")
    told = "with --what, how many wires break; by default 1"
    words.add_argument("--at-once", type=number(1, MOST_AT_ONCE), default=1, metavar="N", help=told)
    told = "how many processes; by default as many as there are processors"
    words.add_argument("--workers", type=number(1, MOST_WORKERS), default=os.cpu_count() or 1, metavar="N", help=told)
    words.add_argument("--progress", action="store_true", help="tell on standard error how far it is; the default on a terminal")
    add_explain(words)
    return words


@dataclass(frozen=True)
class Relabelled:
    """What `label up-down` makes of a network: `accepted`, or why not, and the cells of RELABELLED behind that."""

    answer: str
    cells: tuple[Cell, ...] = (None, None, None, None)


@dataclass(frozen=True)
class Cut:
    """What comes of a network without some wires: the check's answer, how many pairs come sometimes, and never, and if they
    were asked for these pairs."""

    wires: Wires
    answer: str
    some: int
    lost: int
    losses: tuple[Loss, ...]
    relabelled: Relabelled | None

    @property
    def is_accepted(self) -> bool:
        """Whether the labels are still accepted."""
        return self.answer == "accepted"

    @property
    def ends(self) -> tuple[Cell, Cell]:
        """The links of the wires at their two ends."""
        ones, others = (" ".join(str(wire[end]) for wire in self.wires) for end in (0, 1))
        return ones or None, others or None


@dataclass(frozen=True)
class Task:
    """What is asked of each cut of a network, whose labels are given by rows. It is handed to each process once."""

    program: Program
    rows: Description
    losses: Losses | None
    are_listed: bool
    is_relabelled: bool

    def done(self, wires: Wires) -> Cut:
        """Tries the network without some wires."""
        left = without(self.program, self.rows, *wires)
        answer = self.program.ask("check", Description.of_text(left))
        if not answer.output.startswith(("accepted", "refused ")):
            raise ProgramError(answer)
        losses = list(self.losses.of(Network.parse(left))) if self.losses else []
        lost = sum(len(loss.labels) for loss in losses if loss.is_whole)
        some = sum(len(loss.labels) for loss in losses) - lost
        relabelled = relabel(self.program, Network.parse(left)) if self.is_relabelled else None
        return Cut(wires, answer.first_line, some, lost, tuple(losses) if self.are_listed else (), relabelled)


def relabel(program: Program, net: Network) -> Relabelled:
    """Labels the switches, terminals and wires of a network anew."""
    made = program.ask("label", "--rows", Description.of_text(net.text(label="up-down")))
    if made.status != DONE:
        return Relabelled(made.first_line)
    answer = program.ask("check", Description.of_text(made.output))
    if answer.status != DONE:
        return Relabelled(answer.first_line)
    ways = Ways(Network.parse(made.output))
    loads = ways.loads()
    hops = hop_cells(ways.hops())[1:3]
    return Relabelled("accepted", (*hops, *largest((port, loads[port].can) for port in ways.net.between)))


_task: list[Task] = []


def _begin(task: Task) -> None:
    """What a process does first."""
    _task[:] = [task]


def _do(wires: Wires) -> Cut:
    return _task[0].done(wires)


def all_cuts(task: Task, cuts: list[Wires], workers: int) -> Iterator[Cut]:
    """What comes of each of these, in their order, by some processes."""
    if workers <= 1 or len(cuts) <= 1:
        yield from map(task.done, cuts)
        return
    with ProcessPoolExecutor(min(workers, len(cuts)), initializer=_begin, initargs=(task,)) as pool:
        yield from pool.map(_do, cuts)


def told(cuts: Iterator[Cut], count: int, path: str, is_wanted: bool) -> Iterator[Cut]:
    """The same, and about once a second a line on standard error."""
    last = time.monotonic()
    for number, cut in enumerate(cuts, 1):
        yield cut
        if is_wanted and time.monotonic() - last >= 1:
            last = time.monotonic()
            print(f"c104: {path}: {number} of {count} cuts are tried", file=sys.stderr, flush=True)


def plain_text(cuts: list[Cut]) -> str:
    """What `c104 check --each-cut` prints."""
    broken = [cut for cut in cuts if not cut.is_accepted]
    lines = [f"cut {cut.ends[0]} {cut.ends[1]}: {cut.answer}\n" for cut in broken]
    count = len(cuts)
    last = f"{len(broken)} of {count} wires may not break" if broken else f"all {count} wires may break"
    return "".join(lines) + last + "\n"


def cuts_table(cuts: list[Cut], pairs: int, format_name: str, is_relabelled: bool) -> Rows:
    """`--what cuts`."""
    rows = Rows(format_name, CUTS + (RELABELLED if is_relabelled else []))
    for cut in cuts:
        counts = [pairs - cut.some - cut.lost, cut.some, cut.lost]
        labels = [cut.relabelled.answer, *cut.relabelled.cells] if cut.relabelled else []
        rows.add([*cut.ends, short(cut.answer), *counts, *labels])
    return rows


def short(answer: str) -> str:
    """The name of a fault, of `refused 6 DeadEnd: from a ..`, or `accepted`."""
    return answer.partition(":")[0].removeprefix("refused ").partition(" ")[2] or answer


def pairs_table(cuts: list[Cut], format_name: str) -> Rows:
    """`--what pairs`."""
    rows = Rows(format_name, PAIRS)
    for cut in cuts:
        for loss in cut.losses:
            ways = "all" if loss.is_whole else "some"
            for label in loss.labels:
                rows.add([*cut.ends, loss.sender, label, loss.receiver, ways])
    return rows


def main(arguments: list[str] | None = None) -> int:
    """Does what the command line asks for."""
    given = parser()
    words = given.parse_args(arguments)
    if words.relabel and words.what != "cuts":
        given.error("--relabel wants --what cuts")
    if words.at_once > 1 and not words.what:
        given.error("--at-once wants --what")
    program, description = Program.find(), Description.of(words.network)
    checked(program, description, words.explain)
    rows = program.rows(description)
    net = Network.parse(rows)
    losses = Losses(Ways(net)) if words.what else None
    task = Task(program, Description.of_text(rows), losses, words.what == "pairs", words.relabel)
    wanted: list[Wires] = [()] if words.what == "cuts" else []
    wanted += combinations(net.wires, words.at_once)
    is_told = sys.stderr is not None and (words.progress or sys.stderr.isatty())
    cuts = list(told(all_cuts(task, wanted, words.workers), len(wanted), words.network, is_told))
    if words.what == "cuts" and losses:
        text = cuts_table(cuts, losses.pairs(), words.format, words.relabel).text()
    else:
        text = pairs_table(cuts, words.format).text() if words.what else plain_text(cuts)
    write(text)
    return DONE if all(cut.is_accepted for cut in cuts) else REFUSED


if __name__ == "__main__":
    sys.exit(exit_status(main))
