"""Runs a program's labels by which packets go up and then down, and walks them over networks of many kinds, by every link of
a group. Which of two links at a switch is up, and how long the shortest ways are, is found here from the description alone;
of a root that the program takes, how few packets its busiest link may carry."""

import random
from fractions import Fraction

from case_runner import PLAN

FAR = 1000


class Network:
    """Switches by number, with wires between links, and terminals on links that are free after them, each with some labels.
    Other lines come first, and lines that group links last. Where a table can't have the rows of shortest ways, a way is only
    to come down no wire before it goes up."""

    def __init__(self, switches, joins, terminals, root=0, labels=1, lines=(), is_shortest=True, groups=()):
        self.free, self.root, self.labels, self.is_shortest = [0] * switches, root, labels, is_shortest
        self.groups = ['continue n%d.%d' % it for it in groups]
        self.peer, self.hosts, self.lines = {}, [], [*lines, *('switch n%d' % it for it in range(switches))]
        for here, there in joins:
            ends = self.take(here), self.take(there)
            self.peer[ends[0]], self.peer[ends[1]] = ends[1], ends[0]
            self.lines.append('wire n%d.%d n%d.%d' % (*ends[0], *ends[1]))
        for switch in range(switches):
            for _ in range(terminals(switch)):
                self.lines.append('terminal t%d n%d.%d labels %d' % (len(self.hosts), *self.host(switch), labels))

    def take(self, switch):
        self.free[switch] += 1
        return switch, self.free[switch] - 1

    def host(self, switch):
        port = self.take(switch)
        self.hosts.append(port)
        return port

    def text(self, style):
        root = '' if self.root is None else ' n%d' % self.root
        return '\n'.join([*self.lines, *self.groups, 'label %s%s' % (style, root)]).encode() + b'\n'

    def order(self):
        """The switches, as a depth-first visit meets them by ascending links."""
        met = []

        def visit(switch):
            met.append(switch)
            for link in range(self.free[switch]):
                if (switch, link) in self.peer and self.peer[switch, link][0] not in met:
                    visit(self.peer[switch, link][0])
        visit(self.root)
        return met

    def lengths(self, target):
        """How many wires the shortest way to a switch has from each, and from each to which packets came down."""
        place = {switch: at for at, switch in enumerate(self.order())}
        found, front = {(target, False): 0, (target, True): 0}, [(target, False), (target, True)]
        for there, down in front:
            for (here, _), (other, _) in self.peer.items():
                if other != there:
                    continue
                is_up = place[there] < place[here]
                # over a wire that goes up comes what may go up again, and before it packets had not come down
                befores = [(here, False)] if is_up and not down else [(here, False), (here, True)] if not is_up and down else []
                for before in befores:
                    if before not in found:
                        found[before] = found[there, down] + 1
                        front.append(before)
        return found


def ring(count):
    return [(it, (it + 1) % count) for it in range(count)]


def grid(width, height, is_torus):
    across = [(x + y * width, (x + 1) % width + y * width) for y in range(height) for x in range(width - (not is_torus))]
    down = [(x + y * width, x + (y + 1) % height * width) for y in range(height - (not is_torus)) for x in range(width)]
    return across + down


def cube(dimensions):
    return [(it, it ^ 1 << bit) for it in range(2 ** dimensions) for bit in range(dimensions) if not it >> bit & 1]


def clos(leaves, spines):
    return [(leaf, leaves + spine) for leaf in range(leaves) for spine in range(spines)]


def fat_tree(half):
    """Pods of as many edge switches as upper ones, and as many rows of cores: the edges first, then the upper ones."""
    edges = 2 * half * half
    pods = [(pod * half + edge, edges + pod * half + upper) for pod in range(2 * half) for edge in range(half) for upper in range(half)]
    return pods + [(edges + pod * half + upper, 2 * edges + upper * half + core)
                   for pod in range(2 * half) for upper in range(half) for core in range(half)]


def connected_cycles(dimensions):
    """A cube that has in place of each corner a ring, with a switch for each dimension."""
    corners, places = range(1 << dimensions), range(dimensions)
    near = [(corner * dimensions + it, corner * dimensions + (it + 1) % dimensions) for corner in corners for it in places]
    return near + [(corner * dimensions + it, (corner ^ 1 << it) * dimensions + it)
                   for corner in corners for it in places if not corner >> it & 1]


def dragonfly(switches, wires):
    """Groups whose switches are all joined, and each of which has so many wires to other groups that one joins every two."""
    groups = range(switches * wires + 1)
    near = [(group * switches + here, group * switches + there)
            for group in groups for there in range(switches) for here in range(there)]
    return near + [(here * switches + (there - 1) // wires, there * switches + here // wires)
                   for there in groups for here in range(there)]


def chance(count, wires, seed):
    """A tree of switches, and further wires by chance, some of them beside others."""
    by = random.Random(seed)
    joins = [(by.randrange(it), it) for it in range(1, count)]
    return joins + [tuple(by.sample(range(count), 2)) for _ in range(wires)]


NETWORKS = {
    'a ring': Network(9, ring(9), lambda s: 1),
    'a ring of threefold wires': Network(4, ring(4) * 3, lambda s: 2),
    'a ring of grouped wires': Network(4, [it for it in ring(4) for _ in range(3)], lambda s: 2),
    'a ring whose wires its lines group': Network(4, [it for it in ring(4) for _ in range(3)], lambda s: 2, groups=[(0, 1), (2, 5)]),
    'a mesh': Network(12, grid(4, 3, False), lambda s: 2),
    'a torus': Network(16, grid(4, 4, True), lambda s: 1, 5),
    'a cube': Network(16, cube(4), lambda s: 1),
    'a folded Clos network': Network(12, clos(8, 4), lambda s: 4 if s < 8 else 0, 8),
    'a single switch': Network(1, [], lambda s: 3),
    'two terminals with many labels': Network(9, ring(9), lambda s: 2, 0, 14),
    'headers of two bytes': Network(9, grid(3, 3, True), lambda s: 2, 4, 300, ['header 2']),
    'a cube with a crowded corner': Network(64, cube(6), lambda s: 26 if s == 20 else 1, is_shortest=False),
    **{'a network by chance, %d' % seed: Network(10, chance(10, 8, seed), lambda s: s % 3, seed) for seed in range(4)},
}


# Of networks without a root the most rows of a table, and the most packets that go over a link if each terminal sends one to
# each other: those that leave a switch with terminals, spread alike over its wires, or as many as by labels up and down that were
# made by hand.
BY_ITSELF = {
    'a folded Clos network of 4 leaves': (Network(8, clos(4, 4), lambda s: 4 if s < 4 else 0, None), 6, 12),
    'a folded Clos network of 8 leaves': (Network(16, clos(8, 8), lambda s: 8 if s < 8 else 0, None), 10, 56),
    'a fat tree': (Network(20, fat_tree(2), lambda s: 2 if s < 8 else 0, None), 4, 14),
    'two switches with four wires': (Network(2, [(0, 1)] * 4, lambda s: 4, None), 5, 4),
    'a cube of cycles': (Network(24, connected_cycles(3), lambda s: 1, None), 15, 77),
    'a dragonfly': (Network(36, dragonfly(4, 2), lambda s: 2, None), 36, 336),
}


def tables_of(output):
    """Of what `label` prints the ranges, and what is set at each link, by the offset of its register."""
    ranges, values = [], {}
    for words in (line.split() for line in output.decode().splitlines()):
        if words[0] == 'range':
            ranges.append(int(words[2]))
        else:
            address = int(words[1], 16)
            values[int(words[0][1:]), (address >> 8) - 1, address & 0xff] = int(words[2], 16)
    return ranges, values


def selected(values, port, header):
    """The link that a header selects at a port, or None."""
    low = 0
    for row in range(36):
        limit = values.get((*port, 0x40 + row), 0)
        if low <= header < limit:
            return values.get((*port, 0x80 + row))
        low = limit
    return None


def continues(values, port):
    return bool(values.get((*port, 0), 0) & 8)


def outs(values, at, label):
    """The ports by which a label may leave from a port: those of a group."""
    switch, first = at[0], selected(values, at, label)
    if first is None:
        return []
    while continues(values, (switch, first)):
        first -= 1
    last = first
    while continues(values, (switch, last + 1)):
        last += 1
    return [(switch, link) for link in range(first, last + 1)]


def wrong_between(network, values, place, sender, target, label, lengths):
    """What is wrong of a way of a label from a terminal to another, if anything is."""
    due = lengths[network.hosts[sender][0], False]
    front = [(network.hosts[sender], False, 0)]
    while front:
        at, went_down, wires = front.pop()
        ways = outs(values, at, label)
        if not ways or wires > len(place):
            return 'label %d from t%d: none from %r after %d wires' % (label, sender, at, wires)
        for out in ways:
            to = network.peer.get(out)
            if out == network.hosts[target]:
                if network.is_shortest and wires != due:
                    return 'label %d from t%d: %d wires, %d due' % (label, sender, wires, due)
                continue
            if to is None:
                return 'label %d from t%d: %r after %d wires' % (label, sender, out, wires)
            is_down = place[to[0]] > place[at[0]]
            if went_down and not is_down:
                return 'label %d from t%d: down and then up at %r' % (label, sender, out)
            front.append((to, is_down, wires + 1))
    return None


def wrong_way(network, ranges, values):
    """What is wrong of a way, if any is: each goes up and then down, and is a shortest such way."""
    place = {switch: at for at, switch in enumerate(network.order())}
    for target, first in enumerate(ranges):
        lengths = network.lengths(network.hosts[target][0])
        for sender in range(len(network.hosts)):
            for label in {first, first + network.labels - 1}:
                wrong = wrong_between(network, values, place, sender, target, label, lengths)
                if wrong:
                    return wrong
    return None


def wrong_load(network, most_rows, most, ranges, values):
    """What is wrong of labels from a root that the program takes, if anything is: a way, a table or a link."""
    rows = {}
    for switch, link, offset in values:
        if 0x40 <= offset < 0x80:
            rows[switch, link] = rows.get((switch, link), 0) + 1
    if max(rows.values()) > most_rows:
        return '%d rows, %d due' % (max(rows.values()), most_rows)
    loads = {}
    for target, first in enumerate(ranges):
        for sender in range(len(network.hosts)):
            front = [(network.hosts[sender], Fraction(sender != target), 0)]
            while front:
                at, share, wires = front.pop()
                ways = outs(values, at, first)
                if not ways or wires > len(network.free):
                    return 'label %d from t%d: none from %r' % (first, sender, at)
                for out in ways:
                    if out in network.peer:
                        loads[out] = loads.get(out, 0) + share / len(ways)
                        front.append((network.peer[out], share / len(ways), wires + 1))
                    elif out != network.hosts[target]:
                        return 'label %d from t%d: %r' % (first, sender, out)
    if max(loads.values()) > most:
        return '%s packets over a link, at most %d due' % (max(loads.values()), most)
    return None


def by_itself(runner):
    for name, (network, rows, most) in BY_ITSELF.items():
        text = network.text('up-down')
        if runner.wanted(name):
            status, output, _ = runner.run(words=['label', '-'], data=text)
            runner.judge(name, 'status %d' % status if status else wrong_load(network, rows, most, *tables_of(output)))
        for command, line in (('check', b'accepted\n'), ('cycles', b'acyclic\n')):
            runner.case('%s, by %s' % (name, command), line, words=[command, '-'], data=text)
    told = ('c104: -: labelled from n0, depth first: packets go up and then down by the shortest ways\n'
            'c104: -: on average over 0.57 wires; if each terminal sends a packet to each other, at most 4 go over a link; '
            'at most 5 rows\n')
    runner.case('what is told', None, 0, told.encode(), words=['--explain', 'label', '-'],
                data=BY_ITSELF['two switches with four wires'][0].text('up-down'))


def groups(runner):
    for name, due in (('a ring of grouped wires', {(switch, link) for switch in range(4) for link in (1, 2, 4, 5)}),
                      ('a ring whose wires its lines group', {(0, 1), (2, 5), *((switch, link) for switch in (1, 3) for link in (1, 2, 4, 5))})):
        if runner.wanted(name + ', groups'):
            _, output, _ = runner.run(words=['label', '-'], data=NETWORKS[name].text('up-down'))
            _, values = tables_of(output)
            found = {(switch, link) for switch, link, offset in values if offset == 0 and continues(values, (switch, link))}
            runner.judge(name + ', groups', None if found == due else 'groups %s' % sorted(found))


def ways(runner):
    for name, network in NETWORKS.items():
        if runner.wanted(name):
            status, output, _ = runner.run(words=['label', '-'], data=network.text('up-down'))
            wrong = 'status %d' % status if status else wrong_way(network, *tables_of(output))
            runner.judge(name, wrong)


def labels(runner):
    for name, network in NETWORKS.items():
        if network.groups:
            continue
        _, tree, _ = runner.run(words=['label', '-'], data=network.text('tree'))
        name += ', as the tree'
        if runner.wanted(name):
            _, output, _ = runner.run(words=['label', '-'], data=network.text('up-down'))
            runner.judge(name, None if tables_of(output)[0] == tables_of(tree)[0] else 'other labels')


def checks(runner):
    for name, network in NETWORKS.items():
        for command, line in (('check', b'accepted\n'), ('cycles', b'acyclic\n')):
            runner.case('%s, by %s' % (name, command), line, words=[command, '-'], data=network.text('up-down'))


def refused(runner):
    runner.case('no wire', b'label 1 NotConnected\n', 1, words=['label', '-'], data=b'switch A\nswitch B\nlabel up-down A\n')
    runner.case('too many labels', b'label 2 TooManyLabels\n', 1, words=['label', '-'],
                data=b'switch A\nterminal a A.0 labels 257\nlabel up-down A\n')
    runner.case('beside rows', b'description 8: 12 MixedStyle\n', 1, words=['check', '-'], data=PLAN + b'label up-down A\n')
    runner.case('asked for twice', b'description 3: 11 Twice\n', 1, words=['check', '-'],
                data=b'switch A\nlabel tree A\nlabel up-down A\n')
    runner.case('no switch', b'label 1 NotConnected\n', 1, words=['label', '-'], data=b'label up-down\n')
    runner.case('no wire and no root', b'label 1 NotConnected\n', 1, words=['label', '-'], data=b'label up-down\nswitch A\nswitch B\n')
    # a's label would also leave over the wire, and come back
    runner.case('a group of a terminal and a wire', b'label 5 BadGroups\n', 1, words=['label', '-'],
                data=b'switch A\nswitch B\nwire A.1 B.1\nterminal a A.0\nterminal b B.0\ncontinue A.1\nlabel up-down A\n')


PARTS = [ways, labels, checks, by_itself, groups, refused]
