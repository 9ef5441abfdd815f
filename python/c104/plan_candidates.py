"""Candidates for the labels of a network without its faulty parts: labels made in many ways, each judged by the program.

    planner = Planner.of(Program.find(), Description.of_text("mesh 8 8 4\\n"), without=["s27.2"])
    for candidate in planner.candidates(["up-down", "shape"]): print(candidate.name, candidate.figures)

Nothing has to be believed of how labels are found: a candidate has figures only if `c104 check` accepts it and `c104 cycles`
finds no cycle.
"""

from __future__ import annotations

from collections.abc import Iterator, Sequence
from dataclasses import dataclass, replace

from c104.network import Network, Port, Wire
from c104.plan_measure import Figures, accepted, all_to_all_rounds, figures
from c104.plan_model import Matrix
from c104.plan_rules import Channels, Grid, Preference, Rule, Turn, by_preference, centres, grid_of
from c104.plan_rules import tree_turns, turn_models, up_down, visit
from c104.plan_tables import Selections, fitted, labelled, order_of
from c104.plan_ways import UnitWays, free_demand, units_of, wanted
from c104.program import Description, Program, ProgramError, Refused

KINDS = ("own", "up-down", "detours", "shape", "tree", "roots")
"""Which candidates there are: the description's own labels; the line `label up-down`, without a root, and with some; ways by
the turns of the description's own labels, and others where they are missing; by the turn models of its shape; by the turns of
a tree and those that shortest ways would take most; and by going up and down. Those by rules of turns are made freely, and but
for trees also strictly, so that other turns than those of the rule are taken only where packets would go far round."""
MOST_ROOTS = 4
"""How many roots are tried of a kind that has them: half of them those in the middle, the others those at the edge."""
FIRST_SWEEPS, SWEEPS = 3, 12
"""How often the ways of all units are chosen anew, for a first look and for labels."""
KEPT = 2
"""How many rules are kept after a first look by each of three figures."""
LEAST_LOAD = 0.001
"""At which load candidates are run at least, in tokens a round and terminal."""
TOLL = 4.0
"""What a turn costs that isn't preferred where a rule is kept strictly: as much as this number of wires of the busiest channel."""


@dataclass(frozen=True)
class Runs:
    """What three short runs came to."""

    rounds: int | None
    """Until all have arrived, if each terminal sends a packet of eight bytes to each other at once; None if they didn't."""
    carried: float
    """Tokens a round and terminal that arrive at a load."""
    overloaded: float
    """The same at three times that load: where it is less, queues block one another."""

    @property
    def cost(self) -> float:
        """The less, the better: all three count alike."""
        return (self.rounds or 1e9) / max(self.carried * self.overloaded, 1e-9)


@dataclass(frozen=True)
class Candidate:
    """Labels, and what they come to; or why they are none."""

    name: str
    text: str
    figures: Figures | None
    fault: str = ""
    runs: Runs | None = None

    @property
    def order(self) -> tuple[float, float]:
        """The best candidate has the least: measured ones by all of their runs alike, others by their figures."""
        if self.figures is None:
            return 2.0, 0.0
        return (1.0, self.figures.work) if self.runs is None else (0.0, self.runs.cost)


@dataclass(frozen=True)
class Planner:
    """A network without what is faulty, and what is known of it."""

    program: Program
    whole: Network
    """The description's network with its own labels."""
    left: Network
    """What is left of it, without labels."""
    grid: Grid | None
    traffic: Matrix | None = None
    roots: int = MOST_ROOTS

    @classmethod
    def of(
        cls, program: Program, description: Description, without: Sequence[str] = (), traffic: Matrix | None = None
    ) -> Planner:
        """The planner for a description, without wires and switches by their names."""
        whole = Network.load(program, description)
        if whole.randoms:
            raise Refused("plan 1 RandomHeaders: " + str(next(iter(whole.randoms))))
        left = cut(whole, without)
        if left.switches and len(left.distances(left.switches[0])) < len(left.switches):
            raise Refused("plan 3 NotConnected")
        if sum(len(terminal.labels) for terminal in left.terminals.values()) > left.headers:
            raise Refused("plan 4 TooManyLabels")
        return cls(program, whole, left, grid_of(shape_words(description)), traffic)

    def candidates(self, kinds: Sequence[str]) -> Iterator[Candidate]:
        """The candidates of these kinds, each with its figures, or with why it is refused or was left out."""
        if "own" in kinds:
            yield from self.own()
        if "up-down" in kinds:
            yield from self.up_downs()
        yield from self.by_rules([kind for kind in kinds if kind not in ("own", "up-down")])

    def judged(self, name: str, net: Network | None, text: str | None = None) -> Candidate:
        """Labels with their figures, if the program accepts them and finds no cycle."""
        if net is None:
            return Candidate(name, "", None, "no rows")
        text = net.text() if text is None else text
        source = Description.of_text(text)
        try:
            self.program.check(source)
            cycle = self.program.cycles(source)
        except ProgramError as error:
            return Candidate(name, text, None, error.first_line)
        if cycle is not None:
            return Candidate(name, text, None, "cycle")
        return Candidate(name, text, figures(net, self.traffic))

    # The program's own labels

    def own(self) -> Iterator[Candidate]:
        """The description's own labels, where nothing was taken away."""
        if len(self.left.wires) == len(self.whole.wires) and len(self.left.terminals) == len(self.whole.terminals):
            yield self.judged("own", self.whole)

    def up_downs(self) -> Iterator[Candidate]:
        """Those of the line `label up-down`, without a root and with some."""
        for root in ["", *(" " + self.left.switches[root] for root in self.some_roots(Channels(self.left)))]:
            yield self.up_down(root)

    def up_down(self, root: str) -> Candidate:
        """Those with a root, behind a space, or without one."""
        try:
            rows = self.program.rows(Description.of_text(self.left.text("up-down" + root)))
        except ProgramError as error:
            return Candidate("up-down" + root, "", None, error.first_line)
        return self.judged("up-down" + root, Network.parse(rows))

    def some_roots(self, channels: Channels) -> list[int]:
        """Switches in the middle and at the edge."""
        by_distance = centres(channels)
        half = (self.roots + 1) // 2
        return list(dict.fromkeys(by_distance[:half] + by_distance[max(len(by_distance) - self.roots + half, 0) :]))

    # By rules of turns

    def by_rules(self, kinds: Sequence[str]) -> Iterator[Candidate]:
        """The candidates by rules of turns: labels by the best after a first look, and what the others came to."""
        channels = Channels(self.left)
        units = units_of(channels)
        demand, switches = free_demand(channels, units, self.traffic), {unit.switch for unit in units}
        looks: list[tuple[UnitWays, Preference]] = []
        for name, preferred in (it for kind in kinds for it in self.preferences(kind, channels)):
            for toll in (0.0,) if name.startswith("tree ") else (0.0, TOLL):
                called = name + " strictly" * (toll > 0)
                rule = by_preference(called, channels, preferred, demand, toll, switches)
                ways = self.ways(rule, FIRST_SWEEPS)
                if toll and ways and ways.after == looks[-1][0].after:
                    continue
                if ways is None:
                    yield Candidate(name, "", None, "not joined")
                    break
                looks.append((ways, preferred))
        kept = self.best_of(looks)
        for ways, _ in looks:
            if all(ways is not other for other, _ in kept):
                outlook = ways.outlook
                told = f"left out: largest load {outlook.largest:.6g}, saturates at {outlook.saturation:.4f}" if outlook else ""
                yield Candidate(ways.rule.name, "", None, told)
        for ways, preferred in kept:
            yield from self.sharpened(ways, preferred)

    @staticmethod
    def best_of(looks: list[tuple[UnitWays, Preference]]) -> list[tuple[UnitWays, Preference]]:
        """The best after a first look by each of three figures."""
        kept: list[tuple[UnitWays, Preference]] = []
        for number in range(3):
            ranked = sorted(looks, key=lambda look: look[0].outlook.worths[number] if look[0].outlook else 0.0)
            kept += [look for look in ranked[:KEPT] if all(look[0] is not other for other, _ in kept)]
        return kept

    def preferences(self, kind: str, channels: Channels) -> Iterator[tuple[str, Preference]]:
        """Which turns come first, by names."""
        names = self.left.switches
        if kind == "detours":
            own = own_turns(self.whole, channels)
            yield "detours", lambda channel, after: (channel, after) in own
        elif kind == "shape" and self.grid is not None:
            yield from turn_models(channels, self.grid)
        elif kind == "tree":
            yield from ((f"tree {names[root]}", tree_turns(channels, root)) for root in self.some_roots(channels))
        elif kind == "roots":
            for root in self.some_roots(channels):
                yield f"roots {names[root]}", up_down(channels, visit(channels, root, False))

    def sharpened(self, first: UnitWays, preferred: Preference) -> Iterator[Candidate]:
        """Labels by a rule; and by the same preferred turns with those behind them that packets want most by its prices."""
        name, channels = first.rule.name, first.rule.channels
        yield self.by_rule(first.rule)
        toll = max((toll for tolls in first.rule.tolls for toll in tolls), default=0.0)
        switches = {unit.switch for unit in first.units}
        rule = by_preference(name + " again", channels, preferred, wanted(first), toll, switches)
        again = self.ways(rule, FIRST_SWEEPS)
        if again is not None and again.outlook is not None and first.outlook is not None:
            if again.outlook.saturation > first.outlook.saturation:
                yield self.by_rule(again.rule)

    def by_rule(self, rule: Rule) -> Candidate:
        """Labels whose ways go by a rule."""
        ways = self.ways(rule, SWEEPS)
        if ways is None:
            return Candidate(rule.name, "", None, "not joined")
        order = order_of(Selections.of(ways))
        selections = fitted(ways, order)
        return self.judged(rule.name, labelled(selections, order) if selections else None)

    def ways(self, rule: Rule, sweeps: int) -> UnitWays | None:
        """Balanced ways by a rule; None if some switch can't be reached."""
        ways = UnitWays(rule, units_of(rule.channels), self.traffic)
        if not rule.joins({unit.switch for unit in ways.units}) or not ways.balance(sweeps):
            return None
        return ways

    # Runs

    def with_runs(self, found: Sequence[Candidate], most: int, load: float | None) -> list[Candidate]:
        """Candidates, some of them measured: the best by each of three figures, and those that the program makes; at a load,
        or at that of the best by the model."""
        fit = [(candidate, candidate.figures.worths) for candidate in found if candidate.figures is not None]
        chosen = {"own", "up-down"}
        for number in range(3):
            ranked = sorted(fit, key=lambda pair: pair[1][number])
            chosen |= {candidate.name for candidate, _ in ranked[:most]}
        if len(self.left.terminals) < 2:
            return list(found)
        if load is None:
            load = max([LEAST_LOAD, *(-worths[1] for _, worths in fit)])
        return [self.measured(it, load) if it.figures is not None and it.name in chosen else it for it in found]

    def measured(self, candidate: Candidate, load: float) -> Candidate:
        """A candidate with what three short runs came to."""
        net, text = Network.parse(candidate.text), Description.of_text(candidate.text)
        rounds = all_to_all_rounds(self.program, text, net)
        carried = accepted(self.program, text, net, load)
        overloaded = accepted(self.program, text, net, min(3.0 * load, 1.0))
        return replace(candidate, runs=Runs(rounds, carried, overloaded))


def cut(net: Network, without: Sequence[str]) -> Network:
    """A network without labels, and without some wires, each by one of its ends, and switches."""
    gone: set[Port] = set()
    dead: set[str] = set()
    wired = {str(port): port for port in net.between}
    for word in without:
        if word in net.switches:
            dead.add(word)
        elif word in wired:
            gone.add(wired[word])
        else:
            raise Refused(f"plan 2 NoSuchPart: {word}")

    def stays(wire: Wire) -> bool:
        return not gone.intersection(wire) and all(port.switch not in dead for port in wire)

    terminals = {name: terminal for name, terminal in net.terminals.items() if terminal.port.switch not in dead}
    return replace(
        net,
        switches=tuple(switch for switch in net.switches if switch not in dead),
        terminals=terminals,
        wires=tuple(wire for wire in net.wires if stays(wire)),
        tables={},
        continued=frozenset(),
        deleted=net.deleted & terminals.keys(),
    )


def own_turns(whole: Network, channels: Channels) -> set[Turn]:
    """The turns that packets take by a description's own labels, as far as their channels are left."""
    number = {port: channel for channel, port in enumerate(channels.inputs)}
    return {
        (number[before], number[after])
        for before, after in whole.dependencies()
        if before in number and after in number
    }


def shape_words(description: Description) -> list[str]:
    """The words of a line of a shape, if the description has one."""
    for line in description.read().splitlines():
        words = line.partition("#")[0].split()
        if words and words[0] in ("mesh", "cube", "torus", "clos"):
            return words
        if words == ["script"]:
            break
    return []
