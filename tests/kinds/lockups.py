"""Runs the scripts that `c104-lockup` prints of networks that lock up, over networks that seeds give.

That a script locks its network up is told by running it: each of its events is ready, its packets begin with labels of
terminals, and at its end the network stands still. Whether a network has a cycle is found by the definition, as in the
kind `cycles`. That a script has to be found is known of rings round which all packets go one way, as their functions say:
so no search passes that finds none. Of other networks with a cycle it is known of none by itself, but each of them can be
locked up: an input that was given one link of a group waits there behind another packet.
"""

import os
import re
import tempfile

from case_runner import Runner
from kinds.cycles import REFUSED, Network, has_cycle, random_ring
from networks import row_lines, text_of
from random_networks import chance_of, network_of

TOOL = 'c104-lockup'
STANDS_STILL = re.compile(rb'^c104: -:\d+: stands still: ', re.MULTILINE)
NOT_DONE = re.compile(rb'^\d+: (?:not ready|refused|fault)\b.*', re.MULTILINE)
NONE_FOUND, ACYCLIC = b'none found\n', b'acyclic\n'
SETTINGS = (8, 16, 24, 64)


def ring_lines(chance, size, width, hosts):
    """Switches in a ring, each joined to the next by a group of wires, with some terminals on each. What is behind the
    terminals' links goes on to the next switch, and what comes from the one before stands behind that."""
    ahead = hosts + chance.randrange(4)
    back = ahead + width + chance.randrange(4)
    lines = ['buffer %d' % chance.choice(SETTINGS), *('switch s%d' % s for s in range(size))]
    lines += ['terminal t%d s%d.%d' % (s * hosts + h, s, h) for s in range(size) for h in range(hosts)]
    lines += ['wire s%d.%d s%d.%d' % (s, ahead + k, (s + 1) % size, back + k) for s in range(size) for k in range(width)]
    lines += ['continue s%d.%d' % (s, ahead + k) for s in range(size) for k in range(1, width)]
    return lines, ahead, [*range(hosts), *range(back, back + width)]


def one_way(chance, size, width, hosts):
    """All packets go round such a ring one way. Where there are three switches or more, for each wire there is a packet
    that comes over it from a terminal before it, and wants to go on: one for the next switch but one. If there is such a
    packet on each, each waits for a wire that another one holds, whichever of a group it may take."""
    lines, ahead, inputs = ring_lines(chance, size, width, hosts)
    for s in range(size):
        selects = [label % hosts if label // hosts == s else ahead for label in range(size * hosts)]
        lines += [line for link in inputs for line in row_lines('s%d.%d' % (s, link), selects)]
    return text_of(['header 2'] * chance.randrange(2) + lines)


def with_ways_out(chance, size, hosts):
    """A ring like that whose every group has another link too, to a hub that is joined to all switches: from there packets go
    on to their terminals. So no header waits at an input of the ring as long as its link to the hub is free. But it may
    have been given the other link, and stand behind the end of a packet that stands there."""
    ring, hub = chance.sample((hosts, hosts + 1), 2)
    back, owned = hosts + 2, range(size * hosts)
    lines = ['buffer %d' % chance.choice(SETTINGS), 'switch hub', *('switch s%d' % s for s in range(size))]
    lines += ['terminal t%d s%d.%d' % (s * hosts + h, s, h) for s in range(size) for h in range(hosts)]
    lines += ['wire s%d.%d s%d.%d' % (s, ring, (s + 1) % size, back) for s in range(size)]
    lines += ['wire s%d.%d hub.%d' % (s, hub, s) for s in range(size)]
    lines += ['continue s%d.%d' % (s, hosts + 1) for s in range(size)]
    for s in range(size):
        selects = [label % hosts if label // hosts == s else hosts for label in owned]
        lines += [line for link in (*range(hosts), back) for line in row_lines('s%d.%d' % (s, link), selects)]
        own = [label % hosts if label // hosts == s else 'sink' for label in owned]
        lines += row_lines('s%d.%d' % (s, hub), own) + row_lines('hub.%d' % s, [label // hosts for label in owned])
    return text_of(['header 2'] * chance.randrange(2) + lines)


def by_portals(chance, size, width):
    """The same with random headers, of which each switch is the portal of one: a packet that comes over a wire may have its
    portal there, and go on from it by its own header."""
    lines, ahead, inputs = ring_lines(chance, size, width, 1)
    lines += ['random s%d.0 %d %d' % (s, size, size) for s in range(size)]
    for s in range(size):
        owned = [0 if label == s else ahead for label in range(size)]
        random = ['discard' if place == s else ahead for place in range(size)]
        lines += [line for link in inputs for line in row_lines('s%d.%d' % (s, link), owned + random)]
    return text_of(lines)


def by_trees(seed):
    """Switches that are joined by chance, two by one wire or by a group. Packets for each terminal go by a tree of their
    own, so that the labels are accepted."""
    chance = chance_of(seed)
    size, hosts = chance.randint(3, 7), chance.randint(1, 2)
    width = chance.choice((1, 1, 2, 3))
    joined = {(chance.randrange(s), s) for s in range(1, size)}
    joined |= {tuple(sorted(chance.sample(range(size), 2))) for _ in range(chance.randint(2, 6))}
    lines = ['buffer %d' % chance.choice(SETTINGS), *('switch s%d' % s for s in range(size))]
    lines += ['terminal t%d s%d.%d' % (t, t // hosts, t % hosts) for t in range(size * hosts)]
    links = [{} for _ in range(size)]
    for one, other in sorted(joined):
        for here, there in ((one, other), (other, one)):
            links[here][there] = hosts + width * len(links[here])
        lines += ['wire s%d.%d s%d.%d' % (one, links[one][other] + k, other, links[other][one] + k) for k in range(width)]
    lines += ['continue s%d.%d' % (s, first + k) for s in range(size) for first in links[s].values() for k in range(1, width)]
    trees = [tree_to(chance, links, t // hosts) for t in range(size * hosts)]
    for s in range(size):
        selects = [t % hosts if t // hosts == s else links[s][trees[t][s]] for t in range(size * hosts)]
        for link in range(hosts + width * len(links[s])):
            lines += row_lines('s%d.%d' % (s, link), selects)
    return text_of(lines)


def tree_to(chance, links, root):
    """To which switch each other one sends what is for this one."""
    ahead, reached = {}, [root]
    while len(reached) < len(links):
        new = [(s, it) for it in reached for s in links[it] if s not in reached]
        switch, ahead_of_it = chance.choice(new)
        ahead[switch] = ahead_of_it
        reached.append(switch)
    return ahead


def rings():
    """Rings that lock up, by their names."""
    for seed in range(10):
        chance = chance_of(seed)
        yield 'a ring one way, %d' % seed, one_way(chance, chance.randint(3, 9), 1, chance.randint(1, 3))
    for seed in range(10):
        chance = chance_of(seed)
        yield 'a ring of groups, %d' % seed, one_way(chance, chance.randint(3, 6), chance.randint(2, 4), chance.randint(1, 2))
    for seed in range(10):
        chance = chance_of(seed)
        yield 'a ring with ways out, %d' % seed, with_ways_out(chance, chance.randint(3, 7), chance.randint(1, 3))
    for seed in range(6):
        chance = chance_of(seed)
        yield 'a ring of portals, %d' % seed, by_portals(chance, chance.randint(3, 7), 1)
    for seed in range(4):
        chance = chance_of(seed)
        yield 'a ring of groups and portals, %d' % seed, by_portals(chance, chance.randint(3, 5), 2)
    chance = chance_of(64)
    yield 'a ring of 64 switches', one_way(chance, 64, 1, 1)


def others():
    """Networks of which nothing is known but that their labels are accepted, by their names."""
    for seed in range(10):
        yield 'a ring both ways, %d' % seed, random_ring(seed)
    for seed in range(20):
        yield 'a network by trees, %d' % seed, by_trees(seed)


def core(runner):
    """A runner of the program that the tool asks."""
    return Runner([os.environ['C104']], runner.kind)


def wrong_script(runner, text, script):
    """What is wrong with a script that is to lock a network up, or None."""
    labels = {label for _, owned in Network(text).terminals for label in owned}
    wide = b'header 2\n' in text
    for line in script.splitlines():
        words = line.split()
        if words[0] == b'send' and int(words[2], 16) + (int(words[3], 16) << 8 if wide else 0) not in labels:
            return 'nobody owns the header of %.40r' % line
    with tempfile.TemporaryDirectory() as folder:
        path = os.path.join(folder, 'network')
        with open(path, 'wb') as file:
            file.write(text)
        found = core(runner).run(words=['--explain', 'run', path, '-'], data=script)
    if found is None:
        return 'no end'
    status, out, told = found
    if status or NOT_DONE.search(out):
        return 'exit status %d, %.80r' % (status, NOT_DONE.findall(out)[:2])
    return None if STANDS_STILL.search(told) else 'it does not stand still: %.200r' % told


def judge(runner, name, text, is_known):
    """Judges what is printed of a network, which locks up where that is known. Whether it has a cycle and is locked up, or
    None where that isn't looked at."""
    if not runner.wanted(name):
        return None
    is_cyclic = has_cycle(Network(text).dependencies())
    found = runner.run(words=['-'], data=text)
    wrong, is_locked = None, False
    if found is None or found[0] != int(is_cyclic) or found[2]:
        wrong = 'wanted status %d, found %.300r' % (is_cyclic, found)
    elif not is_cyclic:
        wrong = None if found[1] == ACYCLIC else 'found %.80r' % found[1]
    elif found[1] != NONE_FOUND:
        wrong, is_locked = wrong_script(runner, text, found[1]), True
    elif is_known:
        wrong = 'no script is found'
    runner.judge(name, wrong)
    return is_locked if is_cyclic else None


def lock_up(runner):
    for name, text in rings():
        judge(runner, name, text, True)


def may_lock_up(runner):
    """Some have a cycle and some have none, and the first are locked up."""
    found = [judge(runner, name, text, False) for name, text in others()]
    name = 'all with a cycle are locked up'
    if runner.wanted(name) and not runner.names:
        cyclic = [it for it in found if it is not None]
        is_right = 0 < len(cyclic) < len(found) and all(cyclic)
        runner.judge(name, None if is_right else '%d of %d with a cycle, of %d' % (sum(cyclic), len(cyclic), len(found)))


def have_no_cycle(runner):
    """The labels of a mesh, a tree and a cube have none."""
    for seed in range(6):
        network = network_of(chance_of(seed))
        runner.case('a network that labels itself, %d' % seed, ACYCLIC, 0, b'', words=['-'], data=network.description)


def refused(runner):
    """What is refused is told as by `cycles`, and explained; wrong usage in one line."""
    for name, (text, line) in list(REFUSED.items())[:3]:
        runner.case('refused, ' + name, line.encode() + b'\n', 1, b'', words=['-'], data=text)
        told = core(runner).run(words=['--explain', 'cycles', '-'], data=text)[2] if runner.wanted('explained, ' + name) else None
        runner.case('explained, ' + name, line.encode() + b'\n', 1, told, words=['-', '--explain'], data=text)
    runner.case('a file that is not there', b'', 3, b'c104: cannot read none/such\n', words=['none/such'])
    for words in ([], ['-', '-'], ['-', '--frob']):
        if runner.wanted('usage of c104-lockup %s' % ' '.join(words)):
            found = runner.run(words=words, data=b'')
            is_told = found[:2] == (2, b'') and found[2].startswith(b'c104-lockup: ') and found[2].count(b'\n') == 1
            runner.judge('usage of c104-lockup %s' % ' '.join(words), None if is_told else '%.300r' % (found,))


PARTS = [lock_up, may_lock_up, have_no_cycle, refused]
