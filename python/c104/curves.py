"""Saturation curves: what the runs of one network under one load come to, and a picture of that.

A file of curves has a row for each network and load (`CurveRow`). The picture is SVG, by gnuplot: the mean latency over the load,
with its confidence interval, a dotted line at the saturation, and a cross where not all packets arrive.
"""

from __future__ import annotations

import subprocess
from collections.abc import Iterable, Sequence
from typing import NamedTuple

from c104.intervals import Interval, latency_interval
from c104.points import PointRow
from c104.program import fault
from c104.rows import Rows

CARRIED, OVERLOADED, MISSING, STILL, CUT = "carried", "overloaded", "missing", "still", "refused"
CROSSED = (MISSING, STILL, CUT)
REASONS = {MISSING: "", STILL: ", and the network stands still", CUT: ", and the run ends, since a trace or an inbox is full"}
IN_TIME = 95  # of 100 tokens that are sent in the window at least as many arrive in it where the load is carried


class CurveRow(NamedTuple):
    """What the runs of one network under one load come to. Latencies are in rounds."""

    network: str
    load: str
    word: str
    latency: float | None  # the mean of the runs' mean latencies
    low: float | None  # its confidence interval, at 95 %
    high: float | None
    rule: str  # of the interval: replications, batches or none
    runs: int
    tokens_sent: int
    tokens_arrived: int
    measured: int  # packets
    missing: int  # of them
    saturation: str
    version: str
    digest: str
    options: str
    seeds: str

    @property
    def share(self) -> float:
        """How many of 100 tokens that were sent in the window arrived in time."""
        return 100 * self.tokens_arrived / self.tokens_sent if self.tokens_sent else 100.0


def word_of(rows: Sequence[PointRow]) -> str:
    """What is said of the runs of one point: the last that holds of one of them.

    carried: all measured packets arrived, and in the window at least 95 tokens for 100 that were sent in it; overloaded: fewer
    tokens; missing: not all packets; still: the network stands still with tokens in it; refused: a run ended since a trace or an
    inbox is full.
    """
    if any(row.cut for row in rows):
        return CUT
    if any(row.still for row in rows):
        return STILL
    if any(row.unfinished + row.lost for row in rows):
        return MISSING
    arrived, sent = sum(row.tokens_arrived for row in rows), sum(row.tokens_sent for row in rows)
    return OVERLOADED if 100 * arrived < IN_TIME * sent else CARRIED


def interval_of(rows: Sequence[PointRow]) -> Interval | None:
    """The confidence interval of the mean latency at a point, where packets arrived."""
    rows = [row for row in rows if row.latency_mean]
    return latency_interval([float(row.latency_mean) for row in rows], [row.parts() for row in rows])


def curve_row(network: str, rows: Sequence[PointRow], saturation: str) -> CurveRow:
    """The row of a point of a network of this name, of the rows of its runs."""
    first, found = rows[0], interval_of(rows)
    mean = half = None
    if found is not None:
        mean, half = found.mean, found.half
    return CurveRow(
        network, first.load, word_of(rows), mean,
        None if mean is None or half is None else mean - half, None if mean is None or half is None else mean + half,
        found.rule if found else "none", len(rows), sum(row.tokens_sent for row in rows), sum(row.tokens_arrived for row in rows),
        sum(row.sent for row in rows), sum(row.unfinished + row.lost for row in rows), saturation,
        first.version, first.digest, first.options, " ".join(str(row.seed) for row in rows))


def cell_text(cell: object) -> str:
    """A cell of the file: numbers with a point have three decimals."""
    return "" if cell is None else f"{cell:.3f}" if isinstance(cell, float) else str(cell)


def curves_text(rows: Iterable[CurveRow]) -> str:
    """The file of curves, as CSV."""
    table = Rows("csv", CurveRow._fields)
    for row in rows:
        table.add([cell_text(cell) for cell in row])
    return table.text()


def complaint(rows: Sequence[CurveRow]) -> str | None:
    """Where not all packets of a network arrive: from which load on, and why."""
    complete = "0"
    for row in rows:
        if row.word in CROSSED:
            return (f"{row.network}: up to a load of {complete} all packets arrive, behind it not: at {row.load} {row.missing} of "
                    f"{row.measured} measured ones are missing{REASONS[row.word]}")
        complete = row.load
    return None


GNUPLOT = """set terminal svg size 720,480 noenhanced background rgb 'white'
set output '{path}'
set datafile missing '-'
set key left top
set xlabel 'tokens that each terminal sends in a round'
set ylabel 'mean latency in rounds'
set logscale y
set grid
set xrange [0:]
"""


def gnuplot_text(path: str, curves: Sequence[Sequence[CurveRow]]) -> str:
    """What draws the curves with gnuplot: their rows, and a plot."""
    data, plots, marked = [], [], False
    for number, rows in enumerate(curves):
        drawn = [row for row in rows if row.latency is not None]
        lines = [f"{row.load} {row.latency:.3f} {row.low or row.latency:.3f} {row.high or row.latency:.3f} {row.saturation} "
                 f"{'1' if row.word in CROSSED else '-'}" for row in drawn]
        data.append("\n".join([f"$curve{number} << EOD", *lines, "EOD", ""]))
        title = f"{rows[0].network}, saturated at {rows[0].saturation}".replace("'", "''")
        plots += [f"$curve{number} using 1:2:3:4 with yerrorlines lt {number + 1} pt 7 ps 0.5 title '{title}'",
                  f"$curve{number} using 5:2 with lines lt {number + 1} dt 3 notitle"]
        if any(row.word in CROSSED for row in drawn):
            marked = True
            plots.append(f"$curve{number} using ($6 == 1 ? $1 : NaN):2 with points lt {number + 1} pt 2 ps 2 notitle")
    if marked:
        plots.append("NaN with points pt 2 ps 2 lc 'black' title 'not all packets arrive'")
    return GNUPLOT.format(path=path.replace("'", "''")) + "".join(data) + "plot " + ", \\\n    ".join(plots) + "\n"


def draw(path: str, curves: Sequence[Sequence[CurveRow]]) -> None:
    """Draws curves, each of at least one row, as SVG."""
    if subprocess.run(["gnuplot"], input=gnuplot_text(path, curves), text=True, check=False).returncode:
        raise fault(f"gnuplot can't draw {path}")
