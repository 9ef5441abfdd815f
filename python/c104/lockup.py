"""c104-lockup: a script after which a network stands still.

If channels depend on one another in a cycle, packets can wait for one another for ever. The program finds the cycles
(`c104 cycles --all`), this module makes scripts that may bring one about, and `c104 run` tells whether one does: a script
is printed only if it was run and the network stood still behind it. That none is found says nothing of the network.

First come scripts of `send` and `rounds` lines: a packet for each input of a cycle, so long that its end is still at its
terminal; all sent at once, or so that they come to their inputs in the same round. Then packets are brought to the inputs
one by one, by single events, each as long as the wire into its input has room for, and each claims the link to the next.

    from c104.lockup import search
    is_cyclic, script = search(Program.find(), "ring.txt")     # None if none is found, or there is no cycle
"""

from __future__ import annotations

import sys
from collections.abc import Iterator
from dataclasses import dataclass

from c104.lockup_routes import MOST_WORDS, Distances, Hop, Routes, Sender
from c104.network import Network, Port
from c104.program import DONE, REFUSED, Description, Program, ProgramError, Source, exit_status, write
from c104.words import Parser, add_description, add_explain

GRANT = 8
OUTPUT_ROOM = 8
"""How many tokens a grant is of, and how many an output buffer of a switch holds."""
MOST_PACKET_BYTES = 4096
MEETING_ROUND = 512
"""The round in which packets come to their inputs, if none goes over more wires."""
MOST_RINGS = 17
MOST_SCRIPT_BYTES = 16 * 2**20
LAST_ROUNDS = "rounds 10000"
STILL = "stands still 0"
"""What `settle` answers behind a script that has locked the network up."""


@dataclass(frozen=True)
class Step:
    """A step of a cycle: what came in at an input with a header waits for room at the next one."""

    port: Port
    header: int
    after: Port


@dataclass(frozen=True)
class Path:
    """The way of a packet to the input where it is to wait."""

    sender: Sender
    hops: list[Hop]
    portal: int | None
    """Behind how many hops its random header is discarded: never, if there is none or it is the one that waits."""


def rings_of(cycle: list[tuple[Port, int]], edges: dict[Port, list[Step]], net: Network) -> list[list[Step]]:
    """The cycle that the program found, and the shortest through each input and others behind it, up to a few."""
    ring = [Step(port, header, after) for (port, header), (after, _) in zip(cycle, cycle[1:] + cycle[:1])]
    rings = [ring]
    for start in edges:
        if len(rings) >= MOST_RINGS:
            break
        ring = shortest_ring(start, edges, net)
        rings += [ring] if ring else []
    return rings


def shortest_ring(start: Port, edges: dict[Port, list[Step]], net: Network) -> list[Step]:
    """The shortest cycle through an input and others behind it, from its last step to its first; empty without one."""
    by: dict[Port, Step] = {}
    order = [start]
    for port in order:
        for step in edges.get(port, ()):
            if step.after == start:
                ring = [step]
                while ring[-1].port in by:
                    ring.append(by[ring[-1].port])
                return ring
            if net.place(step.after) > net.place(start) and step.after not in by:
                by[step.after] = step
                order.append(step.after)
    return []


def send_line(net: Network, sender: Sender, count: int) -> str:
    """The `send` line of a packet of this number of bytes: its header, and zeros."""
    header = [sender.label >> 8 * place & 255 for place in range(net.header_bytes)]
    data = header + [0] * (count - len(header))
    return f"send {sender.terminal.name} {' '.join(f'{byte:02x}' for byte in data)} eop"


def sending_script(routes: Routes, ring: list[Step], together: bool) -> list[str]:
    """The lines that send a packet to each input of a cycle: all at once, or so that they come there together."""
    net, list_of, used = routes.net, [], set()
    for step in ring:
        far = routes.distances(step.port, step.header, set())
        senders = list(routes.senders(step.header, set(), far, 1))
        free = [sender for sender in senders if sender.terminal.name not in used]
        sender = min(free or senders, key=lambda sender: sender.hops, default=None)
        if sender:
            used.add(sender.terminal.name)
            arrival = sender.hops * net.header_bytes + (sender.word is not None)
            list_of.append((max(MEETING_ROUND - arrival, 0) if together else 0, sender))
    list_of.sort(key=lambda pair: pair[0])
    lines: list[str] = []
    before = None
    for at, sender in list_of:
        if before is not None and before < at:
            lines.append(f"rounds {at - before}")
        count = min((sender.hops + 2) * (net.buffer_tokens + OUTPUT_ROOM), MOST_PACKET_BYTES)
        lines.append(send_line(net, sender, count))
        before = at
    return [*lines, LAST_ROUNDS]


def backward_paths(routes: Routes, ring: list[Step]) -> list[Path] | None:
    """The ways of packets to the inputs of a cycle, past none that stands; the last one first.

    What can come to its input past all others is the last: that takes no choice from the others. So an order is found if
    there is one.
    """
    headers = {step.port: step.header for step in ring}
    paths: list[Path] = []
    while headers:
        before = len(paths)
        for port in sorted(headers, key=routes.net.place):
            path = find_path(routes, port, headers[port], set(headers) - {port})
            if path:
                del headers[port]
                paths.append(path)
        if len(paths) == before:
            return None
    return paths


def find_path(routes: Routes, goal: Port, header: int, blocked: set[Port]) -> Path | None:
    """The nearest sender's way to an input by a header, past none that is blocked."""
    far = routes.distances(goal, header, blocked)
    sender = min(routes.senders(header, blocked, far, MOST_WORDS), key=lambda sender: sender.hops, default=None)
    if sender is None:
        return None
    hops: list[Hop] = []
    portal = None
    at = sender.terminal.port
    if sender.random is not None and sender.random != header:
        at = add_hops(routes, sender.random, routes.by_portals(sender.random, blocked, far), at, hops)
        portal = len(hops)
    add_hops(routes, header, far, at, hops)
    return Path(sender, hops, portal)


def add_hops(routes: Routes, header: int, far: Distances, at: Port, hops: list[Hop]) -> Port:
    """Adds the hops along which distances fall, up to where a header goes no further, and tells where that is."""
    while at in far:
        on = [hop for hop in routes.hops(at, header) if far.get(hop.after) == far[at] - 1]
        if not on:
            break
        hops.append(on[0])
        at = on[0].after
    return at


def placing_script(routes: Routes, paths: list[Path], ring: list[Step]) -> list[str]:
    """The lines that bring packets to the inputs of a cycle, event by event, and claim the links from each to the next."""
    lines: list[str] = []
    passed: dict[Port, int] = {}
    for path in reversed(paths):
        if path.hops:
            lines += placing_lines(routes.net, path, passed)
    for step in ring:
        into = [hop for hop in routes.hops(step.port, step.header) if hop.after == step.after]
        lines += [f"claim {hop.port.switch} {hop.port.link} {hop.link}" for hop in into[:1]]
    return [*lines, LAST_ROUNDS]


def placing_lines(net: Network, path: Path, passed: dict[Port, int]) -> list[str]:
    """The lines that send a packet and move it on to its input; how many tokens passed into each input is kept."""
    goal, rides = path.hops[-1].after, path.sender.word is not None
    tokens = tokens_of(net, path, passed.get(goal, 0))
    for number, hop in enumerate(path.hops):
        random = net.header_bytes if rides and (path.portal is None or number < path.portal) else 0
        passed[hop.after] = passed.get(hop.after, 0) + tokens + random
    sweep = [f"input {goal}"]
    for number, hop in reversed(list(enumerate(path.hops))):
        word = f" {path.sender.word}" if number == 0 and rides else ""
        sweep += [f"credit {hop.after}", f"cross {hop.port.switch}.{hop.link}", f"input {hop.port}{word}"]
        sweep += [f"claim {hop.port.switch} {hop.port.link} {hop.link}"]
    sweep += [f"credit {path.sender.terminal.port}", f"cross {path.sender.terminal.name}"]
    return [send_line(net, path.sender, tokens - 1), *sweep * (tokens + 6 * len(path.hops) + 16)]


def tokens_of(net: Network, path: Path, passed: int) -> int:
    """How many tokens a packet has that fills the last wire of its way but for a header: what its input was granted, what
    that is granted once its header is read, and what an output holds."""
    hops, header = len(path.hops), net.header_bytes
    rides = path.sender.word is not None and (path.portal is None or path.portal >= hops)
    read = 2 * header if path.portal == hops else header
    room = net.buffer_tokens - passed % GRANT
    if passed % GRANT + read >= GRANT:
        room += GRANT
    return max(room + OUTPUT_ROOM - header - (header if rides else 0), 1)


def attempts(routes: Routes, rings: list[list[Step]]) -> Iterator[list[str]]:
    """The scripts that are tried, in this order."""
    yield sending_script(routes, rings[0], together=False)
    for ring in rings:
        yield sending_script(routes, ring, together=True)
    for ring in rings:
        paths = backward_paths(routes, ring)
        if paths is not None:
            yield placing_script(routes, paths, ring)


def stands_still(program: Program, description: Source, lines: list[str]) -> list[str] | None:
    """The lines of a script but for those that were answered `not ready`, if the network stands still behind it."""
    text = "\n".join([*lines, "settle", ""])
    if len(text) > MOST_SCRIPT_BYTES:
        return None
    answer = program.ask("run", description, Description.of_text(text))
    answers = [line.partition(": ")[2] for line in answer.output.splitlines()[: len(lines) + 1]]
    if answer.status != DONE or len(answers) <= len(lines) or answers[-1] != STILL:
        return None
    return [line for line, told in zip(lines, answers) if told != "not ready"]


def verified(program: Program, description: Source, lines: list[str]) -> list[str] | None:
    """The lines of a script that are ready, if they leave the network standing still: run again, where some were not."""
    ready = stands_still(program, description, lines)
    return ready if ready is None or ready == lines else stands_still(program, description, ready)


def dependencies(
    program: Program, description: Source, explain: bool = False
) -> tuple[list[tuple[Port, int]], dict[Port, list[Step]]]:
    """The cycle that the program finds, empty without one, and all channel dependencies, as it prints them. Refused labels
    are told as `c104 check` tells them."""
    answer = program.ask(*(["--explain"] if explain else []), "cycles", "--all", description)
    edges: dict[Port, list[Step]] = {}
    cycle = None
    for line in answer.output.splitlines():
        words = line.split()
        if words == ["acyclic"]:
            cycle = []
        elif words[:1] == ["cycle"]:
            cycle = [parsed(word) for word in words[1:]]
        elif len(words) == 2 and words[0].endswith(")"):
            port, header = parsed(words[0])
            edges.setdefault(port, []).append(Step(port, header, Port.parse(words[1])))
    if cycle is None:
        raise ProgramError(answer)
    return cycle, edges


def parsed(word: str) -> tuple[Port, int]:
    """The input and the header of a word as `B.2(2)`."""
    port, _, header = word[:-1].partition("(")
    return Port.parse(port), int(header)


def search(program: Program, description: Source, explain: bool = False) -> tuple[bool, str | None]:
    """Whether there is a cycle, and a script that locks the network up, if one is found."""
    cycle, edges = dependencies(program, description, explain)
    if not cycle:
        return False, None
    routes = Routes(Network.load(program, description))
    for lines in attempts(routes, rings_of(cycle, edges, routes.net)):
        ready = verified(program, description, lines)
        if ready is not None:
            return True, "\n".join([*ready, ""])
    return True, None


PAGE = """\
Looks for a script after which the network of a description stands still for ever, if its channels depend on one another in a
cycle, and prints it. Behind it `c104 run` of the same description answered a `settle` by `stands still 0`. It commands no switch
and sets no register, its packets begin with labels of terminals, and no line of it is answered `not ready`.

Without a cycle `acyclic` is printed. `none found` says nothing of the network: 35 scripts at most are tried, of long packets, one
for each input of a cycle, and then of single events that bring packets to these inputs."""
EXAMPLES = [
    "c104-lockup ring.txt > lock.txt",
    "c104 --explain run ring.txt lock.txt            what waits for what",
]


def main(arguments: list[str] | None = None) -> int:
    """Does what the command line asks for."""
    parser = Parser("c104-lockup", PAGE, EXAMPLES, "there is a cycle, whether or not a script is found; or the labels are refused")
    add_description(parser)
    add_explain(parser)
    words = parser.parse_args(arguments)
    is_cyclic, script = search(Program.find(), Description.of(words.network), words.explain)
    write(script if script else "none found\n" if is_cyclic else "acyclic\n")
    return REFUSED if is_cyclic else DONE


if __name__ == "__main__":
    sys.exit(exit_status(main))
