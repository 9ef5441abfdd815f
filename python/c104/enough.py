"""How many rounds behind the last packet are enough for all that a run sent.

    from c104.enough import rounds_enough

    rounds_enough(Run.of("network.txt", "events.txt"))      # None where nothing is known

The rank of an input is 1 if it depends on no other, else one more than the highest of those on which it depends. Each packet
counts its tokens and one, and for each byte of a header one more than the rank of the input that its sender's wire leads to. That
the sum is enough is proved of the program, of scripts that only send and do rounds (`docs/proof/DEADLOCK.md`); that it is
computed as this theorem has it isn't.
"""

from __future__ import annotations

from graphlib import CycleError, TopologicalSorter

from c104.network import Network, Port
from c104.program import DONE
from c104.runs import Run


def ranks_of(network: Network) -> dict[Port, int] | None:
    """The rank of each input that takes part in a dependency; none where there is a cycle. All other inputs have the rank 1."""
    graph: dict[Port, list[Port]] = {}
    for port, after in network.dependencies():
        graph.setdefault(port, []).append(after)
    ranks: dict[Port, int] = {}
    try:
        for port in TopologicalSorter(graph).static_order():
            ranks[port] = 1 + max((ranks[after] for after in graph.get(port, [])), default=0)
    except CycleError:
        return None
    return ranks


def rounds_enough(run: Run) -> int | None:
    """The number of a run: of accepted labels without a cycle of channel dependencies and without random headers."""
    if run.program.ask("check", run.sources[0]).status != DONE:
        return None
    network = Network.load(run.program, run.sources[0])
    ranks = None if network.randoms else ranks_of(network)
    if ranks is None:
        return None
    alone = {name: 1 + network.header_bytes * (1 + ranks.get(terminal.port, 1)) for name, terminal in network.terminals.items()}
    return sum(packet.tokens + alone[packet.sender] for packet in run.packets)
