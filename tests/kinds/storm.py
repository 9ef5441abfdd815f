"""Runs storms over a program: packets that worker threads carry.

What is printed of a storm doesn't depend on the threads where no packets can wait for one another: it is told here by
hand, or found from a plain run of the same sends, whose packets are sorted here.
"""

import os
import tempfile

from case_runner import EXAMPLES, PLAN, SCRIPT_LIMIT, comments
from random_networks import chance_of, network_of, packets_of
from tools import Tool

WORKERS = (1, 2, 3, 8, 64)
# The workers on random networks, and the seeds of those that are tried here: tests/storms tries more.
RANDOM_WORKERS = (1, 2, 4, 8)
SEEDS = range(5)
# Enough for every packet of these cases.
ROUNDS = b'rounds 3000\n'
MESH = b'mesh 3 2 1\n'
# A packet for a leaves A; one for b goes to a link that nothing leads on from.
STUCK = PLAN.replace(b'row A.0 2 1', b'row A.0 2 7')
NO_ROWS = PLAN[:PLAN.index(b'row')]
NO_SEND = b'a line begins with `send`: in a storm workers do all the rest'
FULL = (b'the worker stopped: a switch or a terminal has done 1048576 acts, or a worker as many events, and no more can '
        b'be kept')


def all_pairs(count):
    """A packet from each terminal to each, with the sender behind the header."""
    return b''.join(b'send t%d %02x %02x eop\n' % (i, j, i) for i in range(count) for j in range(count))


def long_packets(count, size, stride):
    """Two packets of each terminal to others."""
    return b''.join(b'send t%d %02x %s%s\n' % (i, (i + stride * k) % count, b'%02x ' % i * size, mark)
                    for i in range(count) for k, mark in ((1, b'eop'), (3, b'eom')))


# A description, its sends, and the number of its terminals; no packets can wait for one another forever there.
CALM = {
    'a mesh': (MESH, all_pairs(6)),
    'a cube': (b'cube 3 2\n', all_pairs(16)),
    'long packets in a mesh': (b'mesh 4 4 1\nbuffer 8\n', long_packets(16, 40, 5)),
    'a header deleted': (MESH + b'delete t1\n', all_pairs(6)),
    'nothing sent': (MESH, b''),
    'no network': (b'', b''),
    'packets dropped': (NO_ROWS, b'send a 01 68 eop\nsend b 00 eop\n'),
}

# A description, a script, what is printed, the exit status, and what `--explain` tells.
BY_HAND = {
    'other lines than sends': (PLAN, b'drain b\n\nsend a 01 68 eop\nrounds 5\npeek A 0\n# send b 00 eop\nsend z 01 eop\n'
        b'send A 01 eop\nsend a.0 01 eop\nsend a 01\nsend\nfrob\nsend b 00 69 eom\nsettle\n',
        b'1: fault 2 UnknownWord\n3: done\n4: fault 2 UnknownWord\n5: fault 2 UnknownWord\n7: refused 1 NoNode\n'
        b'8: refused 1 NoNode\n9: refused 2 NoLink\n10: fault 6 NoEnd\n11: fault 3 BadShape\n12: fault 2 UnknownWord\n'
        b'13: done\n14: fault 2 UnknownWord\naudit ok\na: 00 69 eom from b 0\nb: 01 68 eop from a 0\n', 1, None),
    'packets to terminals': (b'mesh 3 2 1\n', b'send t0 to t5 "x" 79 eop\nsend t5 to t0 length 2 eom\nsend t1 to b eop\n',
        b'1: done\n2: done\n3: refused 1 NoNode\naudit ok\nt0: 00 00 00 eom from t5 0\nt5: 05 78 79 eop from t0 0\n', 0, None),
    'refused sends alone': (PLAN, b'send z 01 eop\n', b'1: refused 1 NoNode\naudit ok\n', 0, None),
    'a line too long': (PLAN, b'drain b' + b' ' * 16384 + b'\n', b'1: fault 1 LineTooLong\naudit ok\n', 1, None),
    'an unknown word told': (PLAN, b'drain b\n', b'1: fault 2 UnknownWord\naudit ok\n', 1,
        b'c104: -:1: ' + NO_SEND + b'\n'),
    'a packet that goes nowhere': (STUCK, b'send a 01 68 eop\nsend b 00 eop\n', b'1: done\n2: done\nnot quiet\n', 1,
        b'c104: stands still: 3 tokens wait in 1 packet\nc104: A.7, which has no wire, holds 3 tokens\n'
        b'c104: 3 tokens wait at output A.7; no wire leads on from there\n'),
    'a packet dropped': (NO_ROWS, b'send a 01 68 eop\n', b'1: done\naudit ok\n', 0,
        b'c104: input A.0 has dropped 1 packet, since no row covers their header, or a row sinks it\n'),
    'sorted by sender and number': (PLAN, b'send b 01 03 eop\nsend a 01 01 eop\nsend a 01 02 eop\n',
        b'1: done\n2: done\n3: done\naudit ok\nb: 01 01 eop from a 0\nb: 01 02 eop from a 1\nb: 01 03 eop from b 0\n',
        0, b''),
    'a faulty description': (b'switch A\nwire A.0 A.1\n', b'send a 01 eop\n', b'description 2: 8 SelfWire\n', 1, None),
    'no labels': (b'switch A\nswitch B\nlabel tree A\n', b'', b'label 1 NotConnected\n', 1, None),
    'a script too long': (PLAN, b'send a 01 eop\n' + comments(SCRIPT_LIMIT - 14) + b'send a 01 eop\n',
        b'1: done\naudit ok\nscript too long\n', 1, None),
}


# An input that puts random headers before packets: it discards the first, so that the packet goes on, and sinks the second
# with the packet.
DROPPING = b"""switch A
terminal a A.0
terminal b A.1
random A.0 10 2
row A.0 1 0
row A.0 2 1
row A.0 10 sink
row A.0 11 discard
row A.0 12 sink
row A.1 1 0
row A.1 2 1
"""
DROPPED_OF = 200
SEEDS_OF_HEADERS = (0, 1, 2 ** 64 - 1)


# More tokens than a worker may have calls for.
CROWD = (b'mesh 1 1 6\n', b''.join(b'send t%d 00 %seop\n' % (i, b'55 ' * 4000) for i in range(6) for _ in range(16)))


class Files:
    """A description in a file of its own, and a script that comes from standard input."""

    def __init__(self, description):
        self.room = tempfile.TemporaryDirectory()
        self.description = os.path.join(self.room.name, 'network')
        with open(self.description, 'wb') as file:
            file.write(description)

    def __enter__(self):
        return self.description

    def __exit__(self, *_):
        self.room.cleanup()


def sorted_summary(description, lines):
    """The lines of a summary, sorted by the terminals in the order of the description, then by sender and number."""
    order = names_of(description)

    def place(line):
        terminal, rest = line.split(b': ')
        sender, number = rest.split(b' from ')[1].split()
        return order.index(terminal), order.index(sender), int(number)

    return sorted(lines, key=place)


def names_of(description):
    words = [line.split() for line in description.splitlines()]
    named = [it[1] for it in words if it[:1] == [b'terminal']]
    return named or [b't%d' % t for t in range(256)]


def due_of(runner, path, description, sends, rounds=ROUNDS):
    """What a storm has to print, by a run of the same packets."""
    _, out, _ = runner.run(words=['run', path, '-'], data=sends + rounds)
    lines = out.splitlines(True)
    answers = lines[:sends.count(b'\n')]
    return b''.join([*answers, b'audit ok\n', *sorted_summary(description, lines[len(answers) + 1:])])


def as_a_run(runner):
    """By any number of workers the packets arrive that arrive in a run."""
    for name, (description, sends) in CALM.items():
        with Files(description) as path:
            due = due_of(runner, path, description, sends)
            for workers in WORKERS:
                runner.case('%s by %d' % (name, workers), due, words=['storm', path, '-', '--workers', str(workers)],
                            data=sends)
            runner.case(name, due, words=['storm', path, '-'], data=sends)


def labels_of(runner, path):
    """All labels of a network's terminals."""
    _, out, _ = runner.run(words=['label', path])
    ranges = [line.split()[2:] for line in out.splitlines() if line.startswith(b'range ')]
    return [label for first, count in ranges for label in range(int(first), int(first) + int(count))]


def storms_of(runner, seed):
    """Storms over a random network by different numbers of workers: all packets arrive, as they do in a run."""
    chance = chance_of(seed)
    network = network_of(chance)
    with Files(network.description) as path:
        sends = packets_of(chance, network, labels_of(runner, path))
        due = due_of(runner, path, network.description, sends)
        all_arrive = due.count(b' from ') == sends.count(b'\n')
        runner.judge('a run of seed %d' % seed, None if all_arrive else 'not all packets arrive')
        for workers in RANDOM_WORKERS:
            words = ['storm', path, '-', '--workers', str(workers)]
            runner.case('seed %d by %d' % (seed, workers), due, words=words, data=sends)
            runner.case('seed %d by %d, lean' % (seed, workers), due, words=[*words, '--lean'], data=sends)


def at_random(runner):
    """Random networks: the same packets arrive as in a plain run."""
    for seed in SEEDS:
        storms_of(runner, seed)


def by_hand(runner):
    """What was found by hand, and that messages change nothing of it."""
    for name, (description, script, due, status, told) in BY_HAND.items():
        with Files(description) as path:
            runner.case(name, due, status, words=['storm', path, '-'], data=script)
            if told is not None:
                runner.case(name + ': told', due, status, told, words=['--explain', 'storm', path, '-'], data=script)


def full_traces(runner):
    """A worker stops where a trace is full, and which one is told."""
    name = 'a full trace stops worker 0'
    if not runner.wanted(name):
        return
    with Files(CROWD[0]) as path:
        found = runner.run(words=['--explain', 'storm', path, '-', '--workers', '1'], data=CROWD[1])
    runner.judge(name, wrong_of_stop(found))


def wrong_of_stop(found):
    if found is None:
        return 'no end'
    status, out, errors = found
    good = status == 1 and out.endswith(b'\nworker 0 7 TraceFull\n') and FULL in errors
    return None if good else '%d, %.80r, %.200r' % (status, out[-80:], errors)


def rings(runner):
    """Where packets can wait for one another, a storm ends either way, and tells only what it may."""
    ring, packets = (os.path.join(EXAMPLES, it) for it in ('ring.txt', 'ring-packets.txt'))
    with open(packets, 'rb') as file:
        sends = b''.join(it for it in file.readlines() if it.startswith(b'send'))
    answers = b'1: done\n2: done\n3: done\n4: done\n'
    for workers in WORKERS:
        name = 'a ring by %d' % workers
        if not runner.wanted(name):
            continue
        status, out, _ = runner.run(words=['storm', ring, '-', '--workers', str(workers)], data=sends)
        stuck = (status, out) == (1, answers + b'not quiet\n')
        through = status == 0 and out.startswith(answers + b'audit ok\na: 00') and out.count(b' from ') == 4
        runner.judge(name, None if stuck or through else '%d, %.300r' % (status, out))


def random_headers(runner):
    """Without a seed each input puts its first random header before packets. With one, sometimes another."""
    sends = b''.join(b'send a 01 %02x eop\n' % i for i in range(DROPPED_OF))
    with Files(DROPPING) as path:
        due = due_of(runner, path, DROPPING, sends)
        all_arrive = due.count(b' from ') == DROPPED_OF
        runner.judge('a run of random headers', None if all_arrive else 'not all packets arrive')
        for workers in WORKERS:
            words = ['storm', path, '-', '--workers', str(workers)]
            runner.case('first random headers by %d' % workers, due, words=words, data=sends)
            for seed in SEEDS_OF_HEADERS:
                judge_headers(runner, '%d by %d' % (seed, workers), [*words, '--seed', str(seed)], sends, due)
        one = ['storm', path, '-', '--workers', '1', '--seed', '1']
        _, out, _ = runner.run(words=one, data=sends)
        runner.case('one worker picks again what it picked', out, words=one, data=sends)


def judge_headers(runner, name, words, sends, due):
    """Of the packets many arrive, and many don't: which do differs from storm to storm."""
    name = 'random headers of seed ' + name
    if not runner.wanted(name):
        return
    status, out, _ = runner.run(words=words, data=sends)
    found, all_lines = out.splitlines(), due.splitlines()
    answers = len(sends.splitlines()) + 1
    arrived = len(found) - answers
    good = (status == 0 and found[:answers] == all_lines[:answers] and set(found) <= set(all_lines)
            and DROPPED_OF / 4 < arrived < DROPPED_OF * 3 / 4)
    runner.judge(name, None if good else '%d, %d arrived, %.200r' % (status, arrived, out[-200:]))


def universal(runner):
    """Whichever way packets go, they arrive as they were sent."""
    with open(os.path.join(EXAMPLES, 'universal-routing.txt'), 'rb') as file:
        text = file.read()
    description = text[:text.index(b'\nscript\n') + 1]
    sends = b''.join(b'send a %02x %02x eop\n' % (i % 2, i) for i in range(DROPPED_OF))
    with Files(description) as path:
        due = due_of(runner, path, description, sends)
        for workers in WORKERS:
            runner.case('universal routing by %d' % workers, due,
                        words=['storm', path, '-', '--workers', str(workers), '--seed', '1'], data=sends)


def past_a_list(runner):
    """A worker stops that has done as many events as a seat of a fabric lists, and goes on where it is lean."""
    mesh = b'mesh 8 8 4\n'
    with Files(mesh) as path:
        _, sends, _ = Tool(runner, 'traffic').run(words=[path, '--pattern', 'uniform', '--packets', '512', '--bytes', '200',
                                                         '--seed', '1'])
        due = due_of(runner, path, mesh, sends, b'rounds 10000\n')
        answers = b''.join(due.splitlines(True)[:512])
        words = ['storm', path, '-', '--workers', '1']
        runner.case('a worker past its list', answers + b'worker 0 7 TraceFull\n', 1, words=words, data=sends)
        runner.case('a lean worker past it', due, words=[*words, '--lean'], data=sends)


def usage(runner):
    """Words that a storm doesn't take."""
    for words in ([], ['a', 'b', 'c'], ['a', 'b', '--workers'], ['a', 'b', '--workers', '0'],
                  ['a', 'b', '--workers', '65'], ['a', 'b', '--workers', 'x'], ['a', 'b', '--workers', '-1'],
                  ['a', 'b', '--lean', 'x'], ['a', 'b', '--seed'], ['a', 'b', '--seed', 'x'], ['a', 'b', '--seed', str(2 ** 64)]):
        runner.case('usage of storm %s' % ' '.join(words), b'', 2, words=['storm', *words])


def files(runner):
    """Files that can't be read."""
    with tempfile.TemporaryDirectory() as folder:
        missing = os.path.join(folder, 'none')
        plan = os.path.join(folder, 'plan')
        with open(plan, 'wb') as file:
            file.write(PLAN)
        for name, words, path in (('no description', [missing, plan], missing), ('no script', [plan, missing], missing),
                                  ('a folder as script', [plan, folder], folder)):
            runner.case(name, b'', 3, b'c104: cannot read %s\n' % path.encode(), words=['storm', *words])


PARTS = [as_a_run, at_random, by_hand, full_traces, rings, random_headers, universal, past_a_list, usage, files]
