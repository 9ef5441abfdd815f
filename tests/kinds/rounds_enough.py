"""Runs `c104-stats` over descriptions and scripts, for how many rounds are enough, and `run` with as many.

Some numbers are counted by hand, and all are found by enough.py, of random networks by the rows that `label --rows` gives
them. So many rounds behind the last packet print each packet.
"""

import os
import re

from case_runner import EXAMPLES, PLAN
from conservation import records
from enough import enough_of
from kinds.cycles import CUT, DETOUR, ROUND
from kinds.stats import Files, labels_of, words_of
from networks import chain, mesh
from random_networks import chance_of, network_of, packets_of
from sends import rounds
from tools import Tool
from two_bytes import hand_mesh

SEEDS = range(8)
SENDERS = range(4)
# Each of four terminals sends four tokens to each other.
ALL = b''.join(b'send t%d %02x 68 69 eop\n' % (s, t) for s in SENDERS for t in SENDERS if s != t)
SQUARE = mesh(2, 2, 1)
# The same with headers of two bytes, for packets of five tokens. Each terminal has three labels.
WIDE = hand_mesh(2, 2, 1, 3)
ALL_WIDE = b''.join(b'send t%d %02x 00 68 69 eop\n' % (s, 3 * t) for s in SENDERS for t in SENDERS if s != t)
ROW = chain(3, 1, (0, 1, 2))

# A description, a script, and how many rounds are enough, counted by hand.
BY_HAND = {
    # A packet of t0 goes down, and then to the right: t0's input depends on s2's from above, since labels 2 and 3 go there,
    # and that on s3's from the left, where 3 comes in. These three are the longest chain, and so it is from each terminal. A
    # packet counts 4 + 1 + 1 * (3 + 1).
    'a mesh': (SQUARE, ALL, 12 * 9),
    # 5 + 1 + 2 * (3 + 1)
    'two-byte headers': (WIDE, ALL_WIDE, 12 * 14),
    # From an end of the row a chain has three inputs, and from its middle two.
    'a row': (ROW, b'send t0 02 68 eop\nsend t1 00 eop\nsend t2 02 eom\n', (3 + 1 + 4) + (2 + 1 + 3) + (2 + 1 + 4)),
    # From A over B and C to D.
    'a ring that is cut': (CUT, b'send a 03 eop\n', 2 + 1 + 5),
    'one switch': (PLAN, b'send a 01 68 eop\n', 3 + 1 + 2),
    # No terminal owns its header, or it has none.
    'packets that are dropped': (PLAN, b'send a 09 68 eop\nsend a eop\n', (3 + 1 + 2) + (1 + 1 + 2)),
    'nothing is sent': (SQUARE, b'rounds 9\n', 0),
    'lines that send nothing': (SQUARE, b'send z 00 eop\nsend t0 00\n', 0),
    'lines that change the network': (SQUARE, ALL + b'rounds 3\ncontrol s0 02\npoke s1.0 base 9\n', 12 * 9),
    'a ring with a cycle': (ROUND, b'send a 01 eop\n', None),
    'random headers': (DETOUR, b'send b 00 eop\n', None),
    'refused labels': (PLAN + b'continue A.2\n', b'send b 00 eop\n', None),
}


def lines_of(count, is_fair=False):
    """Lines that do this many rounds."""
    return ''.join(line + '\n' for line in rounds(0, count, None, is_fair)).encode()


def told(runner, path, script):
    """How many rounds are enough, as the summary tells it."""
    return records(Tool(runner, 'stats').run(words=words_of(path, form='csv'), data=script)[1])[0].get('rounds_enough')


def judge_number(runner, name, description, script, due):
    """Compares the number that is told with one that is due and with what is found of the description."""
    if runner.wanted(name):
        with Files(description) as path:
            found = told(runner, path, script), enough_of(description, script)
        runner.judge(name, None if found == (due, due) else 'wanted %s, told and found %s' % (due, found))


def by_hand(runner):
    for name, (description, script, due) in BY_HAND.items():
        judge_number(runner, name, description, script, due)


def examples(runner):
    """The ring of the examples, which locks up, and the same with its cycle broken as its comment says."""
    with open(os.path.join(EXAMPLES, 'ring.txt'), 'rb') as file:
        ring = file.read()
    with open(os.path.join(EXAMPLES, 'ring-packets.txt'), 'rb') as file:
        script = file.read()
    mended = ring.replace(b'\nrow C.0 1 1\n', b'\nrow C.0 1 2\n')
    judge_number(runner, 'the ring of the examples', ring, script, None)
    # Each packet has 25 tokens. Chains from the terminals are A.0 B.2 C.2 D.2, B.0 C.2 D.2, C.0 B.1 A.1 and D.0 A.2 B.2 C.2 D.2.
    judge_number(runner, 'the ring of the examples, mended', mended, script, 4 * (25 + 1) + 5 + 4 + 4 + 6)


def all_arrive(runner):
    """Behind the sends stand as many rounds as are enough, plain, fair, or each a line of its own: all packets are printed."""
    packets = [b't%d: %02x 68 69 eop from t%d %d' % (t, t, s, [it for it in SENDERS if it != s].index(t))
               for s in SENDERS for t in SENDERS if s != t]
    count = BY_HAND['a mesh'][2]
    for name, lines in {'plain': lines_of(count), 'fair': lines_of(count, True), 'one by one': b'rounds 1\n' * count}.items():
        if not runner.wanted('all arrive: ' + name):
            continue
        script = ALL + lines
        with Files(SQUARE) as path:
            status, out, _ = runner.run(words=['run', path, '-'], data=script)
        answers = [b'%d: done' % number for number in range(1, script.count(b'\n') + 1)]
        found = out.splitlines()
        good = status == 0 and found[:len(answers)] == answers and sorted(found[len(answers):]) == sorted(packets)
        runner.judge('all arrive: ' + name, None if good else '%.400r' % found[len(answers):])


def random(runner, seed):
    """Over a random network the number is the one that is found by its rows, and as many rounds print each packet."""
    name = 'random network %d' % seed
    if not runner.wanted(name):
        return
    chance = chance_of(seed)
    network = network_of(chance)
    with Files(network.description) as path:
        sends = packets_of(chance, network, labels_of(runner, path))
        found, due = told(runner, path, sends), enough_of(runner.run(words=['label', '--rows', path])[1], sends)
        out = runner.run(words=['run', path, '-'], data=sends + lines_of(due))[1]
    arrived, sent = len(re.findall(rb' from \S+ \d+$', out, re.MULTILINE)), sends.count(b'\n')
    wrong = 'wanted %s, told %s' % (due, found) if found != due else '%d of %d arrive' % (arrived, sent)
    runner.judge(name, None if (found, arrived) == (due, sent) else wrong)


def randoms(runner):
    for seed in SEEDS:
        random(runner, seed)


PARTS = [by_hand, examples, all_arrive, randoms]
