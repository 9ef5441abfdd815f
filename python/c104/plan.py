"""c104-plan: plans the labels of a network.

It takes faulty wires and switches away, with the terminals of dead switches, lets `plan_candidates` make labels in many ways,
and prints the best of those that `c104 check` accepts and in which `c104 cycles` finds no cycle, as a plain description. A
table of all candidates goes to standard error.
"""

from __future__ import annotations

import argparse
import sys
from collections.abc import Iterator, Sequence

from c104.demand import read_demands
from c104.network import Network
from c104.plan_candidates import KINDS, Candidate, Planner
from c104.plan_model import Matrix
from c104.program import DONE, Description, Program, Refused, exit_status, write
from c104.words import Parser, add_description, decimal, number

MOST_MEASURED = 64
UNIFORM = "uniform"
PAGE = """\
Plans the labels of a network without its faulty parts. Labels are made in many ways; the best of those that `c104 check`
accepts and in which `c104 cycles` finds no cycle are printed as a description. A table of all candidates goes to standard
error: the largest load of a link between switches if each terminal sends a packet to each other, the mean number of these
links on a way, the most rows of an input, how many queues packets may have to wait for one after another, and at which load,
in tokens a round and terminal, some queue is busy all the time. The last two are those of a model, and no figure always tells
the best labels: with --measure the best by each of three figures are run, and the best by these runs is printed.

  own        the description's own labels, where nothing is taken away
  up-down    the line `label up-down`, without a root, and with some
  detours    ways by the turns of the description's own labels, and others where these are missing
  shape      ways by the turn models of a mesh, a torus or a cube
  tree       ways by the turns of a tree, and those that shortest ways would take most
  roots      ways by going up and down from some switch

Labels of a description with random headers aren't planned, and no groups are made: so a Clos network isn't labelled better
than by `up-down`. A network of 64 switches takes up to 40 seconds, and with --measure some 80."""
EXAMPLES = [
    "c104-plan network.txt > labelled.txt",
    "c104-plan --without s27.2 --without s9 --measure mesh.txt > labelled.txt     a broken wire and a dead switch",
    "c104-plan --try shape,roots --traffic matrix.csv mesh.txt > labelled.txt",
]


def table(candidates: Sequence[Candidate]) -> Iterator[str]:
    """The lines of a table of candidates, the best first, and why others are refused."""
    names = f"{'candidate':<36} {'largest':>8} {'hops':>6} {'rows':>4} {'depth':>6} {'saturates':>9}"
    yield names + f" {'rounds':>7} carried overloaded"
    for candidate in sorted(candidates, key=lambda candidate: candidate.order):
        found = candidate.figures
        if found is None:
            yield f"{candidate.name:<36} {candidate.fault}"
            continue
        runs = candidate.runs
        told = f" {runs.rounds or '-':>7} {runs.carried:7.3f} {runs.overloaded:10.3f}" if runs else ""
        yield (
            f"{candidate.name:<36} {found.largest:8.6g} {found.hops:6.3f} {found.rows:4d} {found.depth:6.1f}"
            f" {found.saturation:9.4f}{told}"
        )


def comment(candidate: Candidate, description: str, without: Sequence[str]) -> str:
    """The lines above a description that say how it was found."""
    found = candidate.figures
    assert found is not None
    taken = f" without {' '.join(without)}" if without else ""
    lines = [
        f"# c104-plan: {description}{taken}, labelled by {candidate.name}; accepted, acyclic",
        f"# largest load {found.largest:.6g}, mean hops {found.hops:.3f}, most rows {found.rows},"
        f" saturates at {found.saturation:.4f} tokens a round and terminal by the model",
    ]
    if candidate.runs is not None:
        runs = candidate.runs
        lines.append(f"# measured: all to all in {runs.rounds} rounds; {runs.carried:.3f} tokens a round and terminal carried,")
        lines.append(f"# and {runs.overloaded:.3f} under three times that load")
    return "\n".join([*lines, ""])


def parser() -> Parser:
    """The command line."""
    words = Parser("c104-plan", PAGE, EXAMPLES, "the description or the traffic was refused, or no labels were found")
    add_description(words)
    told = "a faulty wire, by one of its ends, or switch"
    words.add_argument("--without", action="append", default=[], metavar="S.l|S", help=told)
    words.add_argument("--try", dest="kinds", default=",".join(KINDS), metavar="KINDS", help="of " + ",".join(KINDS))
    told = "what terminals send: uniform, or a file of sender,receiver,load as CSV"
    words.add_argument("--traffic", default=UNIFORM, metavar="uniform|FILE", help=told)
    told = "run the best N by each of three figures, by default 2"
    words.add_argument("--measure", type=number(0, MOST_MEASURED), nargs="?", const=2, default=0, metavar="N", help=told)
    told = "tokens a round and terminal of uniform traffic in that run; by default as many as saturate the best by the model"
    words.add_argument("--load", type=decimal(1, 6), metavar="L", help=told)
    return words


def kinds_of(given: Parser, words: argparse.Namespace) -> list[str]:
    """The kinds of candidates that are tried."""
    kinds: list[str] = words.kinds.split(",")
    for kind in kinds:
        if kind not in KINDS:
            given.error(f"argument --try: no such kind: {kind} (choose from {', '.join(KINDS)})")
    return kinds


def read_traffic(program: Program, description: Description, path: str) -> Matrix | None:
    """The loads of a file of traffic; None if it is uniform."""
    if path == UNIFORM:
        return None
    net = Network.load(program, description)
    demands = read_demands(net, Description.of(path).read())
    loads: Matrix = {}
    for (sender, label), load in demands.items():
        pair = sender, net.owners[label].name
        loads[pair] = loads.get(pair, 0.0) + float(load)
    return loads


def main(arguments: list[str] | None = None) -> int:
    """Does what the command line asks for."""
    given = parser()
    words = given.parse_args(arguments)
    kinds, load = kinds_of(given, words), words.load
    program, description = Program.find(), Description.of(words.network)
    traffic = read_traffic(program, description, words.traffic)
    planner = Planner.of(program, description, words.without, traffic)
    found = sorted(planner.candidates(kinds), key=lambda candidate: candidate.order)
    if words.measure:
        found = planner.with_runs(found, words.measure, None if load is None else float(load))
    if sys.stderr is not None:
        print(*table(found), sep="\n", file=sys.stderr)
    best = min(found, key=lambda candidate: candidate.order, default=None)
    if best is None or best.figures is None:
        raise Refused("plan 5 NoLabels")
    write(comment(best, words.network, words.without) + best.text)
    return DONE


if __name__ == "__main__":
    sys.exit(exit_status(main))
