"""`c104-sweep`: at which load each network is saturated, and how its latency grows up to there (`PAGE`)."""

from __future__ import annotations

import argparse
import os
import shlex
import shutil
import sys
import time
from collections.abc import Callable, Iterable, Sequence
from concurrent.futures import Future, ProcessPoolExecutor, as_completed
from concurrent.futures.process import BrokenProcessPool
from dataclasses import dataclass, field
from pathlib import Path
from signal import SIG_IGN, SIGINT, SIGTERM, default_int_handler, signal

from c104.curves import CARRIED, CROSSED, CurveRow, complaint, curve_row, curves_text, draw, interval_of, word_of
from c104.network import Network
from c104.points import (
    Options, Point, PointRow, add_options, csv_text, digest_of, measure, name_of, options_of, point_script, read_rows, version_of,
)
from c104.patterns import TrafficError
from c104.program import DONE, REFUSED, Program, ProgramError, exit_status, fault, is_read_once, save, write
from c104.words import Parser, decimal, number

PERCENTS = (10, 20, 35, 50, 65, 80, 90, 100, 110, 120)  # of the saturation, where the curve has points
UNIT = 10_000  # loads are counted in ten-thousandths


class Wanted(Exception):
    """With --commands: these points have to be run before it can go on."""

    def __init__(self, points: list[Point]) -> None:
        super().__init__(points)
        self.points = points


@dataclass
class Lab:
    """Runs points, and keeps their rows in a file."""

    options: Options
    version: str
    path: Path
    workers: int
    runs_nothing: bool = False
    tell: Callable[[str], None] = lambda line: None
    rows: dict[tuple[str, str, int], PointRow] = field(default_factory=dict)  # by digest, load and seed
    digests: dict[str, str] = field(default_factory=dict)
    done: int = 0

    def load(self) -> None:
        """Reads the rows of earlier sweeps with the same version and options, and ends the file behind the last of all rows."""
        rows = read_rows(self.path)
        for row in rows:
            if (row.version, row.options) == (self.version, self.options.text()):
                self.rows[row.digest, row.load, row.seed] = row
        save(self.path, csv_text(rows, header=True))

    def key(self, point: Point) -> tuple[str, str, int]:
        """What a row is found by."""
        if point.network not in self.digests:
            self.digests[point.network] = digest_of(point.network)
        return self.digests[point.network], point.load, point.seed

    def measure(self, points: Iterable[Point], what: str) -> None:
        """Runs those of the points that have no row yet. Wanted where nothing may be run."""
        missing = [point for point in dict.fromkeys(points) if self.key(point) not in self.rows]
        if missing and self.runs_nothing:
            raise Wanted(missing)
        if not missing:
            return
        began = time.monotonic()
        with ProcessPoolExecutor(min(self.workers, len(missing)), initializer=signal, initargs=(SIGINT, SIG_IGN)) as pool:
            running: dict[Future[PointRow], Point] = {
                pool.submit(measure, point, self.options, self.version): point for point in missing}
            try:
                for count, future in enumerate(as_completed(running), 1):
                    self.keep(running[future], future.result())
                    self.progress(what, count, len(missing), began)
            except BrokenProcessPool as error:
                raise fault("a worker was ended") from error
            finally:
                pool.shutdown(cancel_futures=True)

    def keep(self, point: Point, row: PointRow) -> None:
        """A row joins the file at once, so that no run is lost."""
        self.rows[self.key(point)] = row
        with open(self.path, "a", encoding="utf-8", newline="") as file:
            file.write(csv_text([row], header=False))

    def progress(self, what: str, count: int, among: int, began: float) -> None:
        """Tells how many runs of a step are done, and how long the others may take."""
        self.done += 1
        left = (time.monotonic() - began) / count * (among - count)
        self.tell(f"{what}: {count} of {among} runs, {left:.0f} s left of them; {self.done} runs in all")

    def rows_at(self, network: str, load: str) -> list[PointRow]:
        """The rows of a network under a load, by seed."""
        digest = self.key(Point(network, load, 0))[0]
        found = [row for (of, at, _), row in self.rows.items() if (of, at) == (digest, load)]
        return sorted(found, key=lambda row: row.seed)


def load_text(units: int) -> str:
    """A load that is counted in ten-thousandths."""
    return f"{units // UNIT}.{units % UNIT:04d}"


def points_of(loads: Iterable[tuple[str, str]], seeds: int) -> list[Point]:
    """The points of networks under loads, by the seeds from 1 on."""
    return [Point(network, load, seed) for network, load in loads for seed in range(1, seeds + 1)]


def saturations(lab: Lab, networks: Sequence[str], seeds: int) -> dict[str, int]:
    """The saturation of each network, in ten-thousandths; 0 where it carries no load at all."""
    low, high = dict.fromkeys(networks, 0), dict.fromkeys(networks, UNIT + 1)
    for step in range(1, 64):
        between = {network: (low[network] + high[network]) // 2 for network in networks
                   if high[network] - low[network] > 1 and 100 * (high[network] - low[network]) > low[network]}
        if not between:
            break
        lab.measure(points_of([(network, load_text(units)) for network, units in between.items()], seeds), f"bisection {step}")
        for network, units in between.items():
            is_carried = word_of(first_rows(lab, network, load_text(units), seeds)) == CARRIED
            (low if is_carried else high)[network] = units
    return low


def first_rows(lab: Lab, network: str, load: str, seeds: int) -> list[PointRow]:
    """The rows of the first seeds. What is decided by them doesn't depend on what else was run."""
    return [row for row in lab.rows_at(network, load) if row.seed <= seeds]


def saturation_of_loads(lab: Lab, network: str, loads: Sequence[str], seeds: int) -> str:
    """The largest of some loads up to which, and with which, all are carried; 0 where none is."""
    found = "0"
    for load in sorted(loads, key=float):
        if word_of(first_rows(lab, network, load, seeds)) != CARRIED:
            break
        found = load
    return found


def narrow(lab: Lab, points: Sequence[tuple[str, str]], precision: float, seeds: int, most: int) -> None:
    """Runs more seeds where the interval is wider than the precision, and all packets arrive."""
    for count in range(seeds + 1, most + 1):
        rows_of = {point: first_rows(lab, *point, count - 1) for point in points}
        wide = [point for point, rows in rows_of.items() if is_wide(rows, count - 1, precision)]
        if not wide:
            return
        lab.measure([Point(network, load, count) for network, load in wide], f"seed {count}")


def is_wide(rows: Sequence[PointRow], wanted: int, precision: float) -> bool:
    """Whether a further run is wanted: `wanted` runs are there, all packets arrive, and the interval is too wide."""
    found = interval_of(rows)
    if len(rows) < wanted or word_of(rows) in CROSSED or found is None:
        return False
    return not found.is_within(precision)


def usable(program: Program, network: str, options: Options) -> bool:
    """Whether a network can be measured: its labels are accepted, and it can have the traffic. Otherwise it says why not."""
    try:
        program.check(network)
        next(point_script(Network.load(program, network), options, "0.001", 1))
    except ProgramError as error:
        if error.status != REFUSED:
            raise
        say(f"{network} is left out: check says {error.first_line}")
        return False
    except TrafficError as error:
        say(f"{network} is left out: {error}")
        return False
    cycle = program.cycles(network)
    if cycle is not None:
        say(f"{network} may lock up: cycles says {cycle}")
    return True


def curves_of(lab: Lab, networks: Sequence[str], given: argparse.Namespace) -> list[list[CurveRow]]:
    """The curves of networks, with all runs that they want."""
    if given.loads:
        loads = dict.fromkeys(networks, given.loads)
    else:
        units = saturations(lab, networks, given.seeds)
        loads = {network: curve_loads(units[network]) for network in networks}
    points = [(network, load) for network in networks for load in loads[network]]
    lab.measure(points_of(points, given.seeds), "curve")
    narrow(lab, points, given.precision, given.seeds, given.most_seeds)
    curves = []
    for network in networks:
        saturation = saturation_of_loads(lab, network, given.loads, given.seeds) if given.loads else load_text(units[network])
        curves.append([curve_row(name_of(network), first_rows(lab, network, load, given.most_seeds), saturation)
                       for load in loads[network]])
    return curves


def curve_loads(saturation: int) -> list[str]:
    """The loads of the points of a curve, ascending; none where the network carries no load at all."""
    units = sorted({saturation * percent // 100 for percent in PERCENTS})
    return [load_text(load) for load in units if 0 < load <= UNIT]


def say(line: str) -> None:
    """Tells something on standard error."""
    sys.stderr.write(f"c104-sweep: {line}\n")


def report(curves: Sequence[Sequence[CurveRow]]) -> None:
    """Prints what was found of each network at its saturation."""
    lines = ["saturation  arrived  latency   95 %     runs  network\n"]
    for rows in curves:
        trouble = complaint(rows)
        if trouble:
            say(trouble)
        for row in rows:
            if row.load == row.saturation and row.latency is not None:
                half = "" if row.high is None else f"±{row.high - row.latency:.1f}"
                lines.append(f"{row.load:>10} {row.share:7.1f}% {row.latency:8.1f}  {half:>7} {row.runs:5}  {row.network}\n")
    write("".join(lines))


def progress_teller() -> Callable[[str], None]:
    """What tells of progress on standard error: in one line of a terminal, and else a line every ten seconds."""
    last = [time.monotonic()]

    def tell(line: str) -> None:
        if sys.stderr.isatty():
            sys.stderr.write(f"\r{line:<79}"[:80] + ("\n" if ", 0 s left" in line else ""))
        elif time.monotonic() - last[0] >= 10:
            last[0] = time.monotonic()
            say(line)
        sys.stderr.flush()

    return tell


# The command

PAGE = """\
Finds at which load networks are saturated, prints it, and draws how their latency grows.

A load is how many tokens each terminal that sends sends in a round, by chance. The
saturation is the largest load at which all measured packets arrive, and in the window
at least 95 tokens for 100 that are sent in it. Without --loads it is found by
bisection, to a hundredth of it, or to 0.0001, and the curve has points from a tenth of
it to a fifth above it.

Each point is run by --seeds seeds, from 1 on. At the points of the curve where all
packets arrive runs by further seeds follow, one at a time, until the confidence
interval of the mean latency (95 %; of runs, or for one seed of parts of its window) is
at most --precision of the mean to each side, or there are --most-seeds runs.

Files in the folder --out: points.csv has a row for each run, curve.csv one for each
point, and curve.svg is the picture, where gnuplot is there. Rows of points.csv are used
again where version, description, options, load and seed are the same, so a sweep that
was ended goes on where it was. With --commands nothing is run: it prints the commands
of the runs that are wanted next, for other machines or GNU parallel."""
EXAMPLES = (
    "c104-sweep mesh.txt tree.txt",
    "c104-sweep --pattern transpose --loads 0.1,0.2,0.3 mesh.txt",
    "while c104-sweep DESC .. --commands > next && [ -s next ]; do",
    "    parallel --sshlogin 4/host,: < next >> points.csv; done; c104-sweep DESC ..",
)


def loads_word(word: str) -> list[str]:
    """The loads of a word, in ascending order."""
    loads = word.split(",")
    for load in loads:
        decimal(1, 6)(load)
    return sorted(dict.fromkeys(loads), key=float)


def precision_word(word: str) -> float:
    """The share of a mean that a word says, which may be 0."""
    return 0.0 if word == "0" else float(decimal(1, 6)(word))


def arguments() -> Parser:
    """The command line."""
    parser = Parser("c104-sweep", PAGE, EXAMPLES, "the labels of a network were refused, or it can't have the pattern")
    parser.add_argument("networks", metavar="DESC", nargs="+", help="descriptions")
    parser.add_argument("--loads", type=loads_word, metavar="L,L ..", help="measure these loads, and don't search")
    parser.add_argument("--seeds", type=number(1, 9999), default=3, metavar="N", help="runs of each point, by default 3")
    parser.add_argument("--precision", type=precision_word, default=0.05, metavar="P", help="by default 0.05; 0 adds all seeds")
    parser.add_argument("--most-seeds", type=number(1, 9999), default=10, metavar="N", help="of a point at most, by default 10")
    parser.add_argument("--workers", type=number(1, 1024), default=os.cpu_count() or 1, metavar="N", help="processes at a time")
    parser.add_argument("--out", type=Path, default=Path("."), metavar="FOLDER", help="where the files are; by default here")
    parser.add_argument("--commands", action="store_true", help="print the commands of the runs wanted next")
    parser.add_argument("--point", nargs=2, metavar=("LOAD", "SEED"), help="run one point, and print its row of points.csv")
    add_options(parser)
    return parser


def command_of(point: Point, options: Options) -> str:
    """The command of a run, for a shell."""
    words = [os.path.abspath(sys.argv[0]), os.path.abspath(point.network), "--point", point.load, str(point.seed)]
    return shlex.join(words) + (" " + options.text() if options.text() else "")


def print_point(parser: Parser, given: argparse.Namespace, options: Options, program: Program) -> int:
    """Runs one point, and prints its row."""
    if len(given.networks) > 1:
        parser.error("--point is of one network")
    try:
        load, seed = given.point
        decimal(1, 6)(load)
        row = measure(Point(given.networks[0], load, number(0, 2**64 - 1)(seed)), options, version_of(program))
    except argparse.ArgumentTypeError as error:
        parser.error(f"argument --point: {error}")
    except TrafficError as error:
        write(f"{error}\n")
        return REFUSED
    write(csv_text([row], header=False))
    return DONE


def main() -> int:
    """The command `c104-sweep`."""
    parser = arguments()
    given = parser.parse_args()
    options, program = options_of(parser, given), Program.find()
    if given.point:
        return print_point(parser, given, options, program)
    given.most_seeds = max(given.most_seeds, given.seeds)
    for path in filter(is_read_once, given.networks):
        parser.error(f"{path} can be read but once, and a sweep reads each description again and again")
    names = [name_of(path) for path in given.networks]
    if len(set(names)) < len(names):
        parser.error("two networks would have the same name")
    networks = [path for path in given.networks if usable(program, path, options)]
    if networks:
        lab = Lab(options, version_of(program), given.out / "points.csv", given.workers, given.commands, progress_teller())
        sweep(lab, networks, given)
    return DONE if len(networks) == len(given.networks) else REFUSED


def sweep(lab: Lab, networks: Sequence[str], given: argparse.Namespace) -> None:
    """Measures networks, and tells what was found, or with --commands which runs are wanted first."""
    signal(SIGTERM, default_int_handler)  # so that workers end, too
    lab.load()
    try:
        curves = curves_of(lab, networks, given)
    except Wanted as wanted:
        write("".join(command_of(point, lab.options) + "\n" for point in wanted.points))
        return
    if not given.commands:
        finish(networks, curves, given)


def finish(networks: Sequence[str], curves: list[list[CurveRow]], given: argparse.Namespace) -> None:
    """Writes the curves, draws them, and reports the saturations."""
    save(given.out / "curve.csv", curves_text([row for rows in curves for row in rows]))
    for network, rows in zip(networks, curves):
        if not rows:
            say(f"{name_of(network)} carries no load at all")
    drawn = [rows for rows in curves if any(row.latency is not None for row in rows)]
    if drawn and shutil.which("gnuplot"):
        draw(str(given.out / "curve.svg"), drawn)
    else:
        say("no picture: " + ("there is no gnuplot" if drawn else "there is no curve"))
    report(curves)


if __name__ == "__main__":
    sys.exit(exit_status(main))
