"""How many rounds are enough for the packets that a script sends, by the definition and by no code of the program's.

The labels have to be accepted, as check_rules.py says, no link may put random headers before packets, and dependencies may
not lead in a cycle. Then each packet counts one for each of its tokens, one, and for each byte of a header the rank of the
input where it comes in, and one. A rank is how many inputs are on the longest chain of dependencies that begins there, so
each chain is walked to its end.
"""

from check_rules import Rules
from kinds.cycles import has_cycle


def dependencies(rules):
    """Pairs of an input, to which some label may come from a terminal, and one to which it may go on from there."""
    found = set()
    for header in rules.tried():
        reached, left = set(), [port for _, port, _ in rules.terminals if rules.owner(header)]
        while left:
            port = left.pop()
            if port in reached:
                continue
            reached.add(port)
            inputs = [rules.far[it] for it in rules.group(port, rules.select(port, header)) if '.' in rules.far[it]]
            found.update((port, it) for it in inputs)
            left += inputs
    return found


def rank_of(port, after, known):
    """How many inputs are on the longest chain of dependencies from this one."""
    if port not in known:
        known[port] = 1 + max((rank_of(it, after, known) for it in after.get(port, ())), default=0)
    return known[port]


def ranks_of(pairs):
    """The rank of any input, by its port, where dependencies don't lead in a cycle."""
    after, known = {}, {}
    for port, other in pairs:
        after.setdefault(port, set()).add(other)
    return lambda port: rank_of(port, after, known)


def sends_of(script):
    """Of each line that sends a packet by its bytes: the terminal, and how many tokens there are."""
    lines = [line.split() for line in script.decode(errors='replace').splitlines()]
    return [(line[1], len(line) - 2) for line in lines if line[:1] == ['send'] and line[-1] in ('eop', 'eom')]


def enough_of(description, script):
    """How many rounds are enough, or None where that isn't told. In the description no line labels the whole network."""
    rules = Rules(description)
    if rules.answer() != 'accepted' or rules.randoms:
        return None
    pairs = dependencies(rules)
    if has_cycle(pairs):
        return None
    rank, header = ranks_of(pairs), 2 if rules.headers > 256 else 1
    ports = {name: port for name, port, _ in rules.terminals}
    return sum(tokens + 1 + header * (rank(ports[name]) + 1) for name, tokens in sends_of(script) if name in ports)
