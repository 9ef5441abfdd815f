"""Runs a program's search for cycles of channel dependencies over descriptions.

Some answers were found by hand. For others the dependencies are found here, by their definition and by no code of the
program's: where a header may come to an input, as one that some terminal owns or as a random one, and go on over a
wire to another. What is listed has to be these, what is told as a cycle has to be one of them, and `acyclic` has to be
told where they have none.
"""

import os
import random
import re

from case_runner import CANNOT_READ, CANNOT_WRITE, EXAMPLES, PLAN
from kinds.check import CHANGE, mended
from networks import chain, mesh
from two_bytes import hand_mesh

INPUT = re.compile(r'([\w-]+\.\d+)\((\d+)\)')
LINKS = range(32)

SWITCHES = 'ABCD'
RING = (b''.join(b'switch %c\nterminal %c %c.0\n' % (it, it + 32, it) for it in SWITCHES.encode())
        + b'wire A.1 B.2\nwire B.1 C.2\nwire C.1 D.2\nwire D.1 A.2\n')


def rows_round(places):
    """The rows of a ring in which all packets go round the same way: at each of these inputs of each switch the
    switch's own label goes out to its terminal, and all others to the next switch."""
    lines = []
    for number, switch in enumerate(SWITCHES):
        for link in places:
            lines += ['row %s.%d %d %d' % (switch, link, limit, select)
                      for limit, select in [(number, 1), (number + 1, 0), (4, 1)] if limit]
    return b''.join(it.encode() + b'\n' for it in lines)


# All packets go round one way: what comes in from the switch before may have to wait for what came in at the next.
ROUND = RING + rows_round((0, 2))
# No packet goes on from D to A: those for a and b that come to C or D go back by the other links.
CUT = (RING + b'base B.2 1\nbase C.2 2\nbase D.2 3\nrow A.0 1 0\nrow A.0 4 1\nrow B.0 1 2\nrow B.0 2 0\nrow B.0 4 1\n'
       b'row C.0 2 2\nrow C.0 3 0\nrow C.0 4 1\nrow D.0 3 2\nrow D.0 4 0\nrow B.2 2 0\nrow B.2 4 1\nrow C.2 3 0\n'
       b'row C.2 4 1\nrow D.2 4 0\nrow A.1 1 0\nrow B.1 1 2\nrow B.1 2 0\nrow C.1 2 2\nrow C.1 3 0\n')
PAIR = b'switch A\nswitch B\nterminal a A.0\nterminal b B.0\nwire A.1 B.1\n'
PAIR_ROWS = (b'row A.0 1 0\nrow A.0 2 1\nrow A.1 1 0\nrow B.0 1 1\nrow B.0 2 0\nbase B.1 1\nrow B.1 2 0\n')
# Two wires, and each terminal's packets come in over both, which are a group at both switches.
GROUP = (PAIR + b'wire A.2 B.2\ncontinue A.2\ncontinue B.2\n' + PAIR_ROWS + b'row A.2 1 0\nbase B.2 1\nrow B.2 2 0\n')

# Packets for the first and the third terminal go round one way, by links 9, and those for the others round the other, by
# links 10; and the switches aren't in the order of their names.
TWO_ROUNDS = (b'switch D\nswitch B\nswitch C\nswitch A\nterminal d D.0\nterminal b B.0\nterminal c C.0\nterminal a A.0\n'
              b'wire D.9 B.10\nwire B.9 C.10\nwire C.9 A.10\nwire A.9 D.10\n'
              + b''.join(b'row %c.%d %d %d\n' % (switch, link, limit, select)
                         for switch, selects in zip(b'DBCA', ((0, 10, 9, 10), (9, 0, 9, 10), (9, 10, 0, 10), (9, 10, 9, 0)))
                         for link in (0, 9, 10) for limit, select in zip((1, 2, 3, 4), selects)))

# Packets of a go by 3 or 4 to B or to C, over wires that nothing takes behind these portals but to go back.
DETOUR = (b'switch A\nswitch B\nswitch C\nwire A.1 B.1\nwire A.2 C.1\nwire B.2 C.2\nterminal a A.0\nterminal b B.0\n'
          b'terminal c C.0\nrandom A.0 3 2\nbase A.0 3\nrow A.0 4 1\nrow A.0 5 2\nrow A.1 1 0\nrow A.2 1 0\n'
          b'row B.0 1 1\nrow B.0 2 0\nrow B.0 3 2\nrow B.1 1 1\nrow B.1 2 0\nrow B.1 3 2\nrow B.1 4 discard\n'
          b'base B.2 1\nrow B.2 2 0\nrow C.0 1 1\nrow C.0 2 2\nrow C.0 3 0\nrow C.1 1 1\nrow C.1 2 2\nrow C.1 3 0\n'
          b'row C.1 4 sink\nrow C.1 5 discard\nbase C.2 2\nrow C.2 3 0\n')
# Packets of a go by 3 round a ring to C, and from there by their own on round it, so that those for b come to the wire
# that 3 takes: neither phase alone has a cycle.
ONE_WAY_ROUND = (b'switch A\nswitch B\nswitch C\nwire A.1 B.2\nwire B.1 C.2\nwire C.1 A.2\nterminal a A.0\nterminal b B.0\n'
                 b'terminal c C.0\nrandom A.0 3 1\nbase A.0 3\nrow A.0 4 1\nbase B.2 1\nrow B.2 2 0\nrow B.2 3 sink\n'
                 b'row B.2 4 1\nrow C.2 2 1\nrow C.2 3 0\nrow C.2 4 discard\nrow A.2 1 0\nrow A.2 2 1\nrow B.0 1 1\n'
                 b'row B.0 2 0\nrow B.0 3 1\nrow C.0 2 1\nrow C.0 3 0\n')

# A description and what is printed of it, found by hand.
BY_HAND = {
    'nothing': (b'', 'acyclic'),
    'one switch': (PLAN, 'acyclic'),
    'one wire': (PAIR + PAIR_ROWS, 'acyclic'),
    'a group of two wires': (GROUP, 'acyclic'),
    'a ring that is cut': (CUT, 'acyclic'),
    'a tree': (RING + b'label tree B\n', 'acyclic'),
    'a mesh': (b'mesh 3 3 1\n', 'acyclic'),
    'a cube': (b'cube 3 2\n', 'acyclic'),
    'one wire, two bytes': (PAIR + PAIR_ROWS + b'header 2\n', 'acyclic'),
    'a tree, two bytes': (RING + b'label tree B\nheader 2\n', 'acyclic'),
    'a mesh, two bytes': (b'mesh 3 3 1\nheader 2\n', 'acyclic'),
    'a cube, two bytes': (b'header 2\ncube 3 2\n', 'acyclic'),
    'random headers': (DETOUR, 'acyclic'),
}
# The same with all dependencies, each with its highest header.
ALL_BY_HAND = {
    'one switch': (PLAN, ['acyclic']),
    'one wire': (PAIR + PAIR_ROWS, ['A.0(1) B.1', 'B.0(0) A.1', 'acyclic']),
    'a group of two wires': (GROUP, ['A.0(1) B.1', 'A.0(1) B.2', 'B.0(0) A.1', 'B.0(0) A.2', 'acyclic']),
    'a ring that is cut': (CUT, ['A.0(3) B.2', 'B.0(3) C.2', 'B.0(0) A.1', 'B.1(0) A.1', 'B.2(3) C.2', 'C.0(3) D.2',
                                 'C.0(1) B.1', 'C.1(1) B.1', 'C.2(3) D.2', 'D.0(2) C.1', 'acyclic']),
    'random headers': (DETOUR, ['A.0(3) B.1', 'A.0(4) C.1', 'B.0(0) A.1', 'B.0(2) C.2', 'B.1(0) A.1', 'B.1(2) C.2',
                                'C.0(0) A.2', 'C.0(1) B.2', 'C.1(0) A.2', 'C.1(1) B.2', 'acyclic']),
}
# Networks with a cycle: all dependencies, by input and then by link, each with its highest header; and the cycle to which
# they lead from the first input from which they lead to one, over the lowest links. The highest header of each goes
# furthest: from the switch before, all that isn't for this switch's terminal.
CYCLES_BY_HAND = {
    'a ring in which all packets go round one way': (ROUND, [
        'A.0(3) B.2', 'A.2(2) B.2', 'B.0(3) C.2', 'B.2(3) C.2', 'C.0(3) D.2', 'C.2(3) D.2', 'D.0(2) A.2', 'D.2(1) A.2',
        'cycle B.2(3) C.2(3) D.2(1) A.2(2)']),
    'a ring that random headers close': (ONE_WAY_ROUND, [
        'A.0(3) B.2', 'A.2(1) B.2', 'B.0(2) C.2', 'B.2(3) C.2', 'C.0(1) A.2', 'C.2(1) A.2',
        'cycle B.2(3) C.2(1) A.2(1)']),
    'a ring with a cycle either way round': (TWO_ROUNDS, [
        'D.0(2) B.10', 'D.0(3) A.9', 'D.9(3) A.9', 'D.10(2) B.10', 'B.0(2) C.10', 'B.0(3) D.9', 'B.9(3) D.9', 'B.10(2) C.10',
        'C.0(0) A.10', 'C.0(3) B.9', 'C.9(1) B.9', 'C.10(0) A.10', 'A.0(2) D.10', 'A.0(1) C.9', 'A.9(1) C.9', 'A.10(0) D.10',
        'cycle B.10(2) C.10(0) A.10(0) D.10(2)']),
}

# What `check` refuses, `cycles` refuses in the same words.
REFUSED = {
    'refused labels': (PLAN + b'continue A.2\n', 'refused 6 DeadEnd: from a header 1 walk A.0'),
    'refused labels of a ring': (ROUND.replace(b'row C.2 4 1\n', b'row C.2 4 0\n'),
                                 'refused 5 WrongEnd: from a header 3 walk A.0 B.2 C.2'),
    'ranges that overlap': (b'switch A\nterminal a A.0\nterminal b A.1 from 0\n', 'refused 1 RangesOverlap: a b'),
    'a faulty description': (b'switch A\nwire A.0 A.1\n', 'description 2: 8 SelfWire'),
    'a network that is not labelled': (b'switch A\nswitch B\nlabel tree A\n', 'label 1 NotConnected'),
    'a line that begins with script': (PLAN + b'script of b\n', 'description 8: 2 UnknownWord'),
}


class Network:
    """A description of switches, terminals, wires, groups and rows, as its lines say."""

    def __init__(self, text):
        self.terminals, self.far, self.continues, self.bases, self.rows, self.randoms = [], {}, set(), {}, {}, {}
        self.switches = []
        end = 0
        for line in text.decode().splitlines():
            words = line.split('#')[0].split()
            if words[:1] == ['switch']:
                self.switches.append(words[1])
            elif words[:1] == ['terminal']:
                given = dict(zip(words[3::2], map(int, words[4::2])))
                first = given.get('from', end)
                end = first + given.get('labels', 1)
                self.terminals.append((words[2], range(first, end)))
            elif words[:1] == ['wire']:
                self.far[words[1]], self.far[words[2]] = words[2], words[1]
            elif words[:1] == ['continue']:
                self.continues.add(words[1])
            elif words[:1] == ['base']:
                self.bases[words[1]] = int(words[2])
            elif words[:1] == ['row']:
                self.rows.setdefault(words[1], []).append((int(words[2]), words[3]))
            elif words[:1] == ['random']:
                self.randoms[words[1]] = range(int(words[2]), int(words[2]) + int(words[3]))

    def group(self, switch, link):
        """The links of a group: those that continue one another."""
        first = link
        while '%s.%d' % (switch, first) in self.continues:
            first -= 1
        last = link
        while '%s.%d' % (switch, last + 1) in self.continues:
            last += 1
        return range(first, last + 1)

    def selected(self, port, header):
        """What a header selects at an input, or None."""
        low = self.bases.get(port, 0)
        for limit, select in self.rows.get(port, []):
            if low <= header < limit:
                return select
            low = limit
        return None

    def ways(self, port, header):
        """The inputs to which a header may go on from an input."""
        select = self.selected(port, header)
        if select in (None, 'sink', 'discard'):
            return []
        switch = port.split('.')[0]
        outputs = ['%s.%d' % (switch, link) for link in self.group(switch, int(select))]
        return [self.far[it] for it in outputs if it in self.far]

    def reached(self, starts, header):
        """The inputs to which a header may come from some."""
        reached, left = set(), [*starts]
        while left:
            port = left.pop()
            if port not in reached:
                reached.add(port)
                left += self.ways(port, header)
        return reached

    def entries_of(self, header):
        """The inputs of terminals where a header is put before packets as a random one."""
        return [port for port, _ in self.terminals if header in self.randoms.get(port, ())]

    def begun(self):
        """The inputs from which packets go by their own headers: a terminal's, or each that discards a random one which was
        put before them."""
        found = {port for port, _ in self.terminals if port not in self.randoms}
        for header in {it for headers in self.randoms.values() for it in headers}:
            reached = self.reached(self.entries_of(header), header)
            found.update(port for port in reached if self.selected(port, header) == 'discard')
        return found

    def in_order(self, pairs):
        """Pairs of an input and another, by the first's switch and link, and then by the link that leads to the other."""
        def key(pair):
            switch, link = pair[0].split('.')
            return self.switches.index(switch), int(link), int(self.far[pair[1]].split('.')[1])
        return sorted(pairs, key=key)

    def dependencies(self):
        """Each pair of an input and one that it depends on, with the highest header by which it does."""
        found, begun = {}, self.begun()
        owned = {label for _, labels in self.terminals for label in labels}
        for header in sorted(owned.union(*self.randoms.values())):
            starts = [*(begun if header in owned else ()), *self.entries_of(header)]
            for port in self.reached(starts, header):
                found.update(((port, other), header) for other in self.ways(port, header))
        return found


def has_cycle(pairs):
    """Whether some input depends on itself, over any others: what is left where none that nothing left depends on,
    or that depends on nothing left, is taken away again and again."""
    pairs = set(pairs)
    while True:
        inner = {(p, q) for p, q in pairs if any(q == r for r, _ in pairs)}
        if inner == pairs:
            return bool(pairs)
        pairs = inner


def wrong_cycle(line, found):
    """What is wrong with the line of a cycle, or None."""
    word, *told = line.split(' ')
    inputs = [INPUT.fullmatch(it) for it in told]
    if word != 'cycle' or not inputs or not all(inputs):
        return 'no cycle: %.200r' % line
    steps = [(it[1], int(it[2])) for it in inputs]
    for (port, header), (other, _) in zip(steps, steps[1:] + steps[:1]):
        if found.get((port, other)) != header:
            return '%s(%d) does not depend on %s' % (port, header, other)
    return None if len({port for port, _ in steps}) == len(steps) else 'an input comes twice: %.200r' % line


def wrong_answer(runner, text):
    """What is wrong with what is told of an accepted description, or None."""
    found = Network(text).dependencies()
    cyclic = has_cycle(found)
    plain, listed = (runner.run(words=words, data=text) for words in (['cycles', '-'], ['cycles', '--all', '-']))
    if plain is None or listed is None:
        return 'no end'
    if plain[0] != listed[0] or plain[0] != int(cyclic) or plain[2] or listed[2]:
        return 'exit status %d, wanted %d; %.200r' % (plain[0], cyclic, plain[1])
    *lines, last = listed[1].decode().splitlines()
    wanted = ['%s(%d) %s' % (port, found[port, other], other) for port, other in Network(text).in_order(found)]
    if plain[1].decode() != last + '\n' or lines != wanted:
        return 'wanted %.200r, found %.200r' % (wanted, lines)
    return wrong_cycle(last, found) if cyclic else None if last == 'acyclic' else 'found %.200r' % last


def by_hand(runner):
    for name, (text, line) in BY_HAND.items():
        runner.case(name, line.encode() + b'\n', 0, b'', words=['cycles', '-'], data=text)
    for name, (text, lines) in ALL_BY_HAND.items():
        runner.case('all of ' + name, '\n'.join(lines).encode() + b'\n', 0, b'', words=['cycles', '-', '--all'], data=text)
    for name, (text, lines) in CYCLES_BY_HAND.items():
        runner.case(name, lines[-1].encode() + b'\n', 1, b'', words=['cycles', '-'], data=text)
        runner.case('all of ' + name, '\n'.join(lines).encode() + b'\n', 1, b'', words=['cycles', '--all', '-'], data=text)


def without_spelling(told):
    """What is told of labels, but for what `check` alone tells: the numbers and the spelling of lines that a fix takes out."""
    status, answer, errors = told
    return status, answer, re.sub(rb'replace(?: line \d+)?: .*', b'replace', errors).replace(b' labels 1 ', b' ')


def refused(runner):
    for name, (text, line) in REFUSED.items():
        for words in (['check', '-'], ['cycles', '-'], ['cycles', '--all', '-']):
            runner.case(name, line.encode() + b'\n', 1, b'', words=words, data=text)
        if runner.wanted(name):
            told = [runner.run(words=['--explain', word, '-'], data=text) for word in ('check', 'cycles')]
            runner.judge(name + ', explained', None if without_spelling(told[0]) == without_spelling(told[1]) else '%.300r' % (told,))


def example(runner):
    """The ring of the examples, and the row that breaks its cycle."""
    with open(os.path.join(EXAMPLES, 'ring.txt'), 'rb') as file:
        text = file.read()
    with open(os.path.join(EXAMPLES, 'ring-packets.txt'), 'rb') as file:
        script = file.read()
    runner.case('the ring of the examples', b'accepted\n', words=['check', '-'], data=text)
    runner.case('the ring of the examples has a cycle', b'cycle B.2(2) C.2(3) D.2(0) A.2(1)\n', 1, words=['cycles', '-'],
                data=text)
    mended = text.replace(b'\nrow C.0 1 1\n', b'\nrow C.0 1 2\n')
    runner.case('the ring of the examples, mended', b'accepted\n', words=['check', '-'], data=mended)
    runner.case('the ring of the examples, mended, has none', b'acyclic\n', words=['cycles', '-'], data=mended)
    done = b''.join(b'%d: done\n' % line for line in range(2, 7))
    runner.case('the ring of the examples locks up', done, words=[], data=text + b'script\n' + script)
    body = bytes(range(1, 24)).hex(' ').encode()
    arrived = b''.join(b'%c: %02x %s eop from %c 0\n' % (it + 97, it, body, (it + 2) % 4 + 97) for it in range(4))
    runner.case('the ring of the examples, mended, does not', done + arrived, words=[], data=mended + b'script\n' + script)


def random_ring(seed, labels=1):
    """Switches in a ring, each with a terminal that has `labels` labels. For each pair of terminals packets go round
    one way or the other, and every input has all rows, so that the labels are accepted."""
    pick = random.Random(seed)
    size = pick.randrange(3, 9)
    lines = ['header %d' % (1 if size * labels <= 256 else 2), *('switch s%d' % s for s in range(size))]
    lines += ['terminal t%d s%d.0 labels %d' % (s, s, labels) for s in range(size)]
    lines += ['wire s%d.1 s%d.2' % (s, (s + 1) % size) for s in range(size)]
    for s in range(size):
        for link, step in ((0, None), (1, 2), (2, 1)):
            selects = [0 if t == s else step or pick.choice((1, 2)) for t in range(size)]
            lines += ['row s%d.%d %d %d' % (s, link, (t + 1) * labels, select) for t, select in enumerate(selects)]
    return b''.join(it.encode() + b'\n' for it in lines)


def by_definition(runner):
    """Networks whose dependencies are found here."""
    texts = {'ring %d' % seed: random_ring(seed) for seed in range(40)}
    texts.update({'ring %d, two bytes' % seed: random_ring(seed, 100) for seed in range(40, 60)})
    texts.update({'a ring one way': ROUND, 'a ring that is cut': CUT, 'a group': GROUP,
                  'a mesh by rows': mesh(4, 3, 2), 'a chain of groups': chain(8, 4, [0, 3, 7]),
                  'a mesh by rows, two bytes': hand_mesh(3, 2, 2, 40), 'random headers': DETOUR,
                  'a ring that random headers close': ONE_WAY_ROUND, 'a ring both ways': TWO_ROUNDS})
    with open(os.path.join(EXAMPLES, 'universal-routing.txt'), 'rb') as file:
        texts['the universal routing of the examples'] = file.read().partition(b'\nscript\n')[0] + b'\n'
    kinds = set()
    for name, text in texts.items():
        if runner.wanted('by definition: ' + name):
            runner.judge('by definition: ' + name, wrong_answer(runner, text))
            kinds.add(has_cycle(Network(text).dependencies()))
    if runner.wanted('by definition'):
        runner.judge('by definition: with cycles and without', None if len(kinds) == 2 else '%r' % kinds)


def breaks(runner):
    """What is told to break a cycle breaks it."""
    with open(os.path.join(EXAMPLES, 'ring.txt'), 'rb') as file:
        text = file.read()
    if not runner.wanted('what breaks a cycle'):
        return
    told = runner.run(words=['check', '-', '--explain'], data=text)
    lines = [line.removeprefix(b'c104: -: ') for line in told[2].splitlines()]
    changes = [line for line in lines if CHANGE.fullmatch(line)]
    broken = mended(text, changes) if changes else None
    is_told = told[:2] == (0, b'accepted\n') and broken is not None
    runner.judge('what breaks a cycle is told', None if is_told else '%.300r' % (told,))
    if is_told:
        runner.case('what breaks a cycle', b'acyclic\n', words=['cycles', '-'], data=broken)
        runner.case('what breaks a cycle is accepted', b'accepted\n', words=['check', '-'], data=broken)
    told = runner.run(words=['check', '-', '--explain'], data=ROUND)
    is_told = b'packets can wait for one another' in told[2] and b'replace' not in told[2]
    runner.judge('what breaks a cycle is not known', None if told[:2] == (0, b'accepted\n') and is_told else '%r' % (told,))


def devices(runner):
    runner.case('no such file', b'', 3, b'c104: cannot read none/such\n', words=['cycles', 'none/such'])
    runner.case('no file', b'', 2, None, words=['cycles'])
    runner.case('a script too', b'', 2, None, words=['cycles', '-', '-'], data=PLAN)
    with open('/proc/self/mem', 'rb') as unreadable:
        runner.case('a reader that fails', b'', 3, CANNOT_READ, words=['cycles', '-'], stdin=unreadable)
    with open('/dev/full', 'wb') as full:
        for name, text in (('acyclic', PLAN), ('a cycle', ROUND), ('a refusal', PLAN + b'continue A.2\n')):
            runner.case('a writer that fails at ' + name, None, 3, CANNOT_WRITE, words=['cycles', '-'], data=text,
                        stdout=full)


PARTS = [by_hand, refused, example, by_definition, breaks, devices]
