"""What labels come to: figures of a labelled network, found by going along its tables, and figures of short runs.

Loads are packets if each terminal sends one to each other, or as many as the traffic says; the links of a group share alike.
They are exact up to the rounding of floating-point sums. Runs are exact too: each is one run of `c104`, with these sends.
"""

from __future__ import annotations

import csv
import io
from dataclasses import dataclass

from c104.network import Network, Port
from c104.plan_model import Flows, Matrix, Outlook, Queues
from c104.patterns import Load, Traffic
from c104.program import Description, Program, Source
from c104.traffic import Schedule, packet_lines


@dataclass(frozen=True)
class Figures(Outlook):
    """What labels come to without a run."""

    rows: int
    """The most rows of an input."""


def figures(net: Network, traffic: Matrix | None = None) -> Figures:
    """The figures of a network whose labels are accepted and which has no cycle."""
    loads: dict[Port, float] = dict.fromkeys(net.between, 0.0)
    senders = net.terminals if traffic is None else {sender for (sender, _), load in traffic.items() if load}
    flows = Flows(sources=len(senders))
    packets = sum(add_target(net, name, traffic, loads, flows) for name in net.terminals) or 1.0
    queues = Queues(flows)
    return Figures(
        max(loads.values(), default=0.0),
        sum(loads.values()) / packets,
        queues.depth(),
        queues.saturation(),
        max((len(table.rows) for port, table in net.tables.items() if port in net.peers), default=0),
    )


def add_target(net: Network, name: str, traffic: Matrix | None, loads: dict[Port, float], flows: Flows) -> float:
    """Adds how packets for a terminal go, by its first label, to loads and flows; and tells how many they are."""
    target = net.terminals[name]
    header = target.labels.start
    at: dict[Port, float] = {}
    for source in net.terminals.values():
        sent = 1.0 if traffic is None else traffic.get((source.name, name), 0.0)
        if source.name != name and sent:
            at[source.port] = sent
    packets = sum(at.values())
    for port, outputs in ordered(net, list(at), header):
        for output in outputs:
            peer, share = net.peers[output], at[port] / len(outputs)
            if isinstance(peer, Port):
                loads[output] += share
                at[peer] = at.get(peer, 0.0) + share
                flows.add(port, output, peer, share)
            else:
                flows.add(port, output, None, share)
    return packets


def ordered(net: Network, starts: list[Port], header: int) -> list[tuple[Port, tuple[Port, ...]]]:
    """The inputs to which a header comes, each before those behind it, with the wired links by which it goes on."""
    found: list[tuple[Port, tuple[Port, ...]]] = []
    outputs: dict[Port, tuple[Port, ...]] = {}
    for start in starts:
        stack: list[tuple[Port, bool]] = [(start, False)]
        while stack:
            port, is_done = stack.pop()
            if is_done:
                found.append((port, outputs[port]))
            elif port not in outputs:
                outputs[port] = tuple(output for output in net.outputs(port, header) if output in net.peers)
                stack.append((port, True))
                peers = (net.peers[output] for output in outputs[port])
                stack += [(peer, False) for peer in peers if isinstance(peer, Port) and peer not in outputs]
    return found[::-1]


# Runs


def all_to_all_rounds(program: Program, description: Source, net: Network, payload: int = 7) -> int | None:
    """How many rounds it takes until all have arrived, if each terminal sends a packet to each other at once; with one byte
    of header and seven more that is eight bytes. None if that doesn't settle."""
    count = len(net.terminals) * (len(net.terminals) - 1)
    if not count:
        return 0
    sends = packet_lines(Schedule.of(net, Traffic("all-to-all", bytes=payload, seed=1)), count)
    for line in program.lines("run", description, Description.of_text("\n".join([*sends, "settle", ""]))):
        answer = line.partition(": ")[2]
        if answer.startswith("done "):
            return int(answer.split()[1])
        if answer.startswith(("stands still", "moving", "refused")):
            return None
    return None


def accepted(
    program: Program, description: Source, net: Network, load: float, first: int = 1000, last: int = 5000, seed: int = 1
) -> float:
    """How many tokens a round and terminal arrive from one round to another, where each terminal sends `load` tokens a round
    to others by chance, in packets of 15 bytes behind the header, in fair rounds."""
    uniform = Traffic("uniform", bytes=15, seed=seed, load=Load.tokens(f"{load:.6f}"), is_bernoulli=True, is_fair=True)
    schedule = Schedule.of(net, uniform)
    # somewhat more than are sent up to the last round
    count = int(1.1 * last * load / schedule.tokens * len(schedule.senders)) + 1
    script = Description.of_text("\n".join([*packet_lines(schedule, count), ""]))
    rows = csv.DictReader(io.StringIO(program.run_rows(description, script, "packets")))
    tokens = sum(int(row["bytes"]) + 1 for row in rows if row["arrived"] and first <= int(row["arrived"]) <= last)
    return tokens / (last + 1 - first) / len(net.terminals)
