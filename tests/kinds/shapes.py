"""Runs a program's labels of the whole networks that are labelled up and down: tori, folded Clos networks, and meshes and
cubes whose wires are several. Which links are joined, and by which links a packet may go on, is found here by the rules of
the format alone; the way of each label from each terminal is walked over the tables."""

from kinds.up_down import selected, tables_of


class Grid:
    """Rows and columns of switches. Links are for the row above, the columns before and after, and the row below, with
    `span` wires for each."""

    def __init__(self, width, height, is_torus, span):
        self.width, self.height, self.is_torus, self.span = width, height, is_torus, span
        self.switches = self.hosts = width * height
        self.first = 4 * span

    def step(self, size, place, by):
        if self.is_torus and size > 1:
            return (place + by) % size
        return place + by if 0 <= place + by < size else None

    def joined(self, switch, link):
        row, column = divmod(switch, self.width)
        if link > 3:
            return None
        if link in (0, 3):
            row = self.step(self.height, row, 1 if link else -1)
        else:
            column = self.step(self.width, column, 1 if link == 2 else -1)
        return None if row is None or column is None else (row * self.width + column, 3 - link)

    def near(self, size, here, there):
        """How many wires the nearer way along a row or a column has."""
        return min((there - here) % size, (here - there) % size) if self.is_torus else abs(there - here)

    def wires(self, switch, target):
        """How many wires a way has, that goes along the column first, or in a torus along the row."""
        (row, column), (to_row, to_column) = divmod(switch, self.width), divmod(target, self.width)
        return self.near(self.height, row, to_row) + self.near(self.width, column, to_column)

    def may_leave(self, switch, target, link):
        here, there = divmod(switch, self.width), divmod(target, self.width)
        across = here[1] != there[1] and (self.is_torus or here[0] == there[0])
        return link // self.span in ((1, 2) if across else (0, 3))


class Cube:
    def __init__(self, dimensions, span):
        self.switches = self.hosts = 1 << dimensions
        self.first, self.span = dimensions * span, span
        self.dimensions = dimensions

    def joined(self, switch, link):
        return (switch ^ 1 << link, link) if link < self.dimensions else None

    def wires(self, switch, target):
        return bin(switch ^ target).count('1')

    def may_leave(self, switch, target, link):
        return link // self.span == (switch ^ target).bit_length() - 1


class Clos:
    def __init__(self, leaves, spines, span):
        self.switches, self.hosts, self.first, self.span = leaves + spines, leaves, spines * span, span
        self.spines = spines

    def joined(self, switch, link):
        if switch < self.hosts:
            return (self.hosts + link, switch) if link < self.spines else None
        return (link, switch - self.hosts) if link < self.hosts else None

    def wires(self, switch, target):
        return 0 if switch == target else 2

    def may_leave(self, switch, target, link):
        return link < self.first if switch < self.hosts else link // self.span == target


# A line, its network, how many terminals each switch of it has that has any, and how many rows a table has at most, where
# that is known of the same network with labels by hand.
NETWORKS = {
    'torus 4 4 1': (Grid(4, 4, True, 2), 1, 7),
    'torus 4 4 4': (Grid(4, 4, True, 2), 4, 10),
    'torus 8 8 1': (Grid(8, 8, True, 2), 1, 7),
    'torus 8 1 1': (Grid(8, 1, True, 2), 1, 4),
    'torus 1 5 2': (Grid(1, 5, True, 2), 2, 36),
    'torus 2 3 2': (Grid(2, 3, True, 2), 2, 36),
    'torus 1 1 3': (Grid(1, 1, True, 2), 3, 3),
    'torus 3 3 2 3': (Grid(3, 3, True, 6), 2, 36),
    'clos 4 4 4': (Clos(4, 4, 1), 4, 6),
    'clos 8 8 8': (Clos(8, 8, 1), 8, 10),
    'clos 16 16 16': (Clos(16, 16, 1), 16, 18),
    'clos 3 2 2 4': (Clos(3, 2, 4), 2, 36),
    'clos 1 3 2': (Clos(1, 3, 1), 2, 2),
    'mesh 4 3 2 2': (Grid(4, 3, False, 2), 2, 36),
    'mesh 8 8 4 2': (Grid(8, 8, False, 2), 4, 36),
    'mesh 1 1 4 7': (Grid(1, 1, False, 7), 4, 4),
    'cube 3 1 2': (Cube(3, 2), 1, 36),
    'cube 6 2 5': (Cube(6, 5), 2, 36),
}


def next_at(network, switch, link):
    """The switch and its link to which a link leads, or None."""
    there = network.joined(switch, link // network.span)
    return None if there is None else (there[0], there[1] * network.span + link % network.span)


def wrong_between(network, count, values, sender, target, label):
    """What is wrong of the way of a label from a terminal to another, if anything is."""
    switch, link = sender // count, network.first + sender % count
    owner, due = (target // count, network.first + target % count), network.wires(sender // count, target // count)
    for wires in range(due + 1):
        out = selected(values, (switch, link), label)
        if (switch, out) == owner:
            return None if wires == due else 'label %d from t%d: %d wires, %d due' % (label, sender, wires, due)
        there = None if out is None else next_at(network, switch, out)
        if there is None or not network.may_leave(switch, owner[0], out):
            return 'label %d from t%d: %r of s%d' % (label, sender, out, switch)
        switch, link = there
    return 'label %d from t%d: more than %d wires' % (label, sender, due)


def rows_of(values):
    """How many rows the input with the most has."""
    counts = {}
    for switch, link, place in values:
        if 0x40 <= place < 0x64:
            counts[switch, link] = counts.get((switch, link), 0) + 1
    return max(counts.values())


def wrong_ways(network, count, most, output):
    ranges, values = tables_of(output)
    if sorted(ranges) != list(range(network.hosts * count)):
        return 'labels %r' % ranges
    if rows_of(values) > most:
        return '%d rows' % rows_of(values)
    for target, label in enumerate(ranges):
        for sender in range(len(ranges)):
            wrong = wrong_between(network, count, values, sender, target, label)
            if wrong:
                return wrong
    return None


def ways(runner):
    for line, (network, count, most) in NETWORKS.items():
        if runner.wanted(line):
            status, output, _ = runner.run(words=['label', '-'], data=line.encode() + b'\n')
            runner.judge(line, 'status %d' % status if status else wrong_ways(network, count, most, output))


def wires(runner):
    """The description that is printed has the wires that a line gives, from the lower numbers to the higher."""
    for line, (network, count, _) in NETWORKS.items():
        name = line + ', line by line'
        if runner.wanted(name):
            status, output, _ = runner.run(words=['label', '--rows', '-'], data=line.encode() + b'\n')
            joins = sorted('wire s%d.%d s%d.%d' % (s, link, *there) for s in range(network.switches) for link in range(32)
                           for there in [next_at(network, s, link)] if there and (s, link) < there)
            hosts = ['terminal t%d s%d.%d' % (t, t // count, network.first + t % count) for t in range(network.hosts * count)]
            shown = output.decode().splitlines()
            is_wire = sorted(turned(it) for it in shown if it.startswith('wire'))
            is_host = [it.partition(' labels')[0] for it in shown if it.startswith('terminal')]
            runner.judge(name, None if (status, is_wire, is_host) == (0, joins, hosts) else 'other wires or terminals')


def turned(line):
    """A line of a wire, from the lower port on."""
    ends = sorted(line.split()[1:], key=lambda it: [int(word) for word in it[1:].split('.')])
    return 'wire %s %s' % tuple(ends)


def checks(runner):
    for line in NETWORKS:
        for command, answer in (('check', b'accepted\n'), ('cycles', b'acyclic\n')):
            runner.case('%s, by %s' % (line, command), answer, words=[command, '-'], data=line.encode() + b'\n')


PARTS = [ways, wires, checks]
