"""Runs rounds, plain and fair, with seeds and without, and the same events line by line, as docs/FORMATS.md says which these
are: they bring the same tokens to the same terminals, and leave the same credit, levels and owners at every link. So does `settle`,
and as many rounds as it counts.
"""

import os
from itertools import islice

from case_runner import EXAMPLES
from kinds.stats import Files, labels_of
from random_networks import chance_of, network_of, packets_of
from sends import words

SEEDS = range(8)
LINKS = 32
# A number of a script has at most seven digits. Of a word counts what is left over by the range of random headers, which is 2 here.
SHORTER = 10 ** 6
# Three terminals share the two links of a group, and one of them waits where claims go by their numbers.
GROUP = (b'switch A\nswitch B\nwire A.1 B.1\nwire A.2 B.2\ncontinue A.2\ncontinue B.2\nterminal d B.0\n'
         + b''.join(b'terminal %s A.%d\nrow A.%d 1 1\n' % (name, link, link) for link, name in ((7, b'a'), (4, b'b'), (9, b'c')))
         + b'row B.1 1 0\nrow B.2 1 0\n')


class Ports:
    """The switches, the terminals, and the wired links of each switch, of a description line by line."""

    def __init__(self, lines):
        lines = [line.split() for line in lines.decode().splitlines()]
        self.switches, self.terminals = ([it[1] for it in lines if it[0] == kind] for kind in ('switch', 'terminal'))
        ends = [end.split('.') for it in lines for end in {'wire': it[1:3], 'terminal': it[2:3]}.get(it[0], ())]
        self.links = [sorted(int(link) for name, link in ends if name == switch) for switch in self.switches]
        joined = {it[1] for it in lines if it[0] == 'terminal' and len(it) > 2 and '.' in it[2]}
        self.ports = ['%s.%d' % it for it in self.inputs()] + [it for it in self.terminals if it in joined]

    def inputs(self):
        return [(name, link) for name, links in zip(self.switches, self.links) for link in links]


class Turns:
    """Whose turn it is: the inputs and the outputs of each switch, those that were served longest ago first."""

    def __init__(self, ports, is_fair):
        self.ports, self.is_fair = ports, is_fair
        self.orders = [(list(range(LINKS)), list(range(LINKS))) for _ in ports.switches]

    def claims(self):
        """The claims of a round: number of the switch, input and output."""
        return [(s, i, o) for s, (inputs, outputs) in enumerate(self.orders) for i in inputs if i in self.ports.links[s]
                for o in outputs if o in self.ports.links[s]]

    def told(self, claim):
        """A claim was done."""
        if self.is_fair:
            for order, link in zip(self.orders[claim[0]], claim[1:]):
                order.remove(link)
                order.append(link)


def round_of(ports, claims, handed):
    """The lines of a round whose inputs are handed these words, or 0."""
    lines = ['%s %s' % (verb, port) for verb in ('credit', 'cross') for port in ports.ports]
    numbers = {name: s for s, name in enumerate(ports.switches)}
    lines += ['input %s.%d %d' % (name, link, (handed[LINKS * numbers[name] + link] >> 32) % SHORTER if handed else 0)
              for name, link in ports.inputs()]
    lines += ['claim %s %d %d' % (ports.switches[s], i, o) for s, i, o in claims]
    return lines + ['drain %s' % it for it in ports.terminals]


def text_of(lines):
    return ''.join(line + '\n' for line in lines).encode()


def answers_of(runner, path, script):
    """What is answered to each line, and what is told behind the lines."""
    out = runner.run(words=['run', path, '-'], data=script)[1].decode().splitlines()
    count = script.count(b'\n')
    return [line.split(': ', 1)[1] for line in out[:count]], out[count:]


def events_of(runner, path, ports, sends, count, is_fair, seed):
    """The lines of this many rounds behind what is sent: those of a fair round go by what the rounds before it did."""
    turns, lines = Turns(ports, is_fair), []
    handed = None if seed is None else words(seed)
    for _ in range(count):
        claims = turns.claims()
        lines += round_of(ports, claims, handed and list(islice(handed, LINKS * len(ports.switches))))
        answers = answers_of(runner, path, sends + text_of(lines))[0]
        behind = len(answers) - len(ports.terminals)
        for claim, answer in zip(claims, answers[behind - len(claims):behind]):
            if answer == 'done':
                turns.told(claim)
    return text_of(lines)


def alike(runner, name, description, sends, count, is_fair, seed):
    """Rounds do what their events do."""
    if not runner.wanted(name):
        return
    with Files(description) as path:
        ports = Ports(runner.run(words=['label', path, '--rows'])[1])
        line = 'rounds %d%s%s' % (count, ' fair' if is_fair else '', '' if seed is None else ' seed %d' % seed)
        status = text_of('link %s.%d' % it for it in ports.inputs())
        events = events_of(runner, path, ports, sends, count, is_fair, seed)
        (all_told, arrived), (told, due) = (answers_of(runner, path, sends + it + status) for it in (text_of([line]), events))
        links = len(ports.inputs())
        good = links and (all_told[-links:], arrived) == (told[-links:], due)
        runner.judge(name, None if good else '%r leaves other links, or brings others: %.300r' % (line, (all_told[-links:], arrived)))


def settled(runner, name, description, sends):
    """What `settle` does is what as many rounds do, and no number less than its own will do."""
    if not runner.wanted(name):
        return
    with Files(description) as path:
        ports = Ports(runner.run(words=['label', path, '--rows'])[1])
        status = text_of('link %s.%d' % it for it in ports.inputs())
        answers, arrived = answers_of(runner, path, sends + b'settle\n' + status)
        sent = sends.count(b'\n')
        ending, count = answers[sent].rsplit(' ', 1)
        count = int(count)
        wrong = None if count else 'no round'
        for less in range(min(count, 2)):
            rounds = b'rounds %d\n' % (count - less) if count > less else b''
            told, due = answers_of(runner, path, sends + rounds + b'settle\n' + status)
            if (told[-len(status.splitlines()) - 1:], due) != (['%s %d' % (ending, less), *answers[sent + 1:]], arrived):
                wrong = '%r, and behind %r %.300r' % (answers[sent], rounds, told)
        runner.judge(name, wrong)


def random_rounds(runner):
    for seed in SEEDS:
        chance = chance_of(seed)
        network = network_of(chance)
        with Files(network.description) as path:
            sends = packets_of(chance, network, labels_of(runner, path))
        settled(runner, 'seed %d, until nothing is done' % seed, network.description, sends)
        count = chance.randint(4, 12)
        for is_fair in (False, True):
            alike(runner, 'seed %d, %s' % (seed, 'fair' if is_fair else 'plain'), network.description, sends, count, is_fair, None)


def rounds_with_words(runner):
    """Where an input puts random headers, so that words decide."""
    with open(os.path.join(EXAMPLES, 'universal-routing.txt'), 'rb') as file:
        description = file.read().split(b'\nscript')[0] + b'\n'
    sends = b''.join(b'send a 01 %02x eop\nsend b 00 %02x eop\n' % (k, k) for k in range(8))
    for seed in (0, 7, 2 ** 64 - 1):
        for is_fair in (False, True):
            alike(runner, 'words from %d, %s' % (seed, 'fair' if is_fair else 'plain'), description, sends, 40, is_fair, seed)


def rounds_of_a_group(runner):
    """Where three send they wait for each other, and where one does it finds both links free."""
    for names in ((b'a', b'b', b'c'), (b'a',)):
        sends = b''.join(b'send %s 00 %02x %02x eop\n' % (name, k, k) for k in range(6) for name in names)
        for is_fair in (False, True):
            name = 'a group for %d, %s' % (len(names), 'fair' if is_fair else 'plain')
            alike(runner, name, GROUP, sends, 31, is_fair, None)


PARTS = [random_rounds, rounds_with_words, rounds_of_a_group]
