"""Runs a program for the rows of runs: by hand over the first run's events, and over networks that seeds give, where rows of
each round have to come to those of the script up to that round.
"""

import csv
import os
import tempfile

from case_runner import EXAMPLES, FIRST_RUN, PLAN
from random_networks import chance_of, network_of, packets_of

HEADS = {
    'packets': b'sender,number,receiver,bytes,wires,sent,left,arrived,latency,idle,ending',
    'links': b'port,tokens,busy,packets,longest,waiting',
    'rounds': b'round,waiting,inside,moved,arrived,held',
    'run': b'length,refused,still',
    'holds': b'port,to,packet,sender,number,first,last,state',
    'ways': b'port,to,holds,sender,number,locked,out,in',
    'wishes': b'input,output,to,sender,number,locked',
}

# The first run has no rounds, so all of it counts to what comes before the first.
WHOLE = {
    'packets': [b'a,0,b,2,2,0,0,0,0,0,arrived'],
    'links': [b'A.0,0,0,0,0,0', b'A.1,3,0,1,1,0', b'a,3,0,1,1,0', b'b,0,0,0,0,0'],
    'rounds': [b'0,0,0,6,3,0'],
    'run': [b'0,0,0'],
    'holds': [b'a,A.0,0,a,0,0,0,moves', b'A.1,b,0,a,0,0,0,moves', b',,,,,0,0,ends'],
    'ways': [],
    'wishes': [],
}

# Its packet, up to where its header wants link 1: the terminator is still at a, and the header and a byte are in the switch.
BEGUN = [line for line, _ in FIRST_RUN[:4] + FIRST_RUN[5:6]]
WANTS = {
    'packets': [b'a,0,,2,0,0,0,,,0,unfinished'],
    'links': [b'A.0,0,0,0,0,0', b'A.1,0,0,0,0,0', b'a,2,0,0,1,1', b'b,0,0,0,0,0'],
    'rounds': [b'0,1,2,2,0,0'],
    'run': [b'0,0,0'],
    'holds': [b'a,A.0,0,a,0,0,0,moves', b',,,,,0,0,ends'],
    'ways': [b'a,A.0,1,a,0,0,1,2'],
    'wishes': [b'A.0,A.1,b,a,0,0'],
}

SEEDS = range(8)
MOST_SEEN = 12


def table_of(name, rows, first=b''):
    return b''.join(line + b'\r\n' for line in [first + HEADS[name], *rows])


def by_hand(runner):
    """All tables of the first run, and of its beginning; alone, and in files of one run."""
    for name, script, tables in (('first run', [line for line, _ in FIRST_RUN], WHOLE), ('header that waits', BEGUN, WANTS)):
        text = PLAN + b'script\n' + '\n'.join(script).encode() + b'\n'
        for table, rows in tables.items():
            runner.case('%s: %s' % (name, table), table_of(table, rows), words=['rows', '-', '--what', table], data=text)
        with tempfile.TemporaryDirectory() as folder:
            runner.case('%s: files' % name, b'', words=['rows', '-', '--out', 'run'], data=text, folder=folder)
            for table, rows in tables.items():
                path = os.path.join(folder, 'run-%s.csv' % table)
                found = open(path, 'rb').read() if os.path.exists(path) else None
                runner.judge('%s: file of %s' % (name, table), None if found == table_of(table, rows) else 'found %.300r' % found)


def of_each_round(runner):
    """What `--each` tells is what differs: the packet is at its sender before round 1, where it wants a link, and then has none."""
    text = PLAN + b'script\nsend a 01 aa eop\ncredit A.0\ncross a\nrounds 1\nrounds 9\n'
    found = runner.run(words=['rows', '-', '--what', 'ways', '--each'], data=text)
    rows = found and found[1].split(b'\r\n')
    first = [b'round,' + HEADS['ways'], b'0,a,A.0,1,a,0,0,2,1']
    is_right = rows and rows[:2] == first and rows[-2].endswith(b',0,,,0,0,0')
    runner.judge('each round, by hand', None if is_right else 'found %.300r' % (found,))


def rows_in(text):
    return list(csv.DictReader(text.decode().splitlines()))


def key_of(table, row):
    return row['port' if table == 'ways' else 'input']


def is_gone(table, row):
    return row['holds'] == '0' and row['out'] == row['in'] == '0' if table == 'ways' else not row['output']


def seen_behind(table, changes, last):
    """The rows of a table behind a round, by those of each: of each port or input what was told of it last."""
    known = {}
    for number in sorted({int(row['round']) for row in changes}):
        if number > last:
            break
        now = [row for row in changes if int(row['round']) == number]
        for key in {key_of(table, row) for row in now}:
            known[key] = [row for row in now if key_of(table, row) == key]
    rows = [row for rows in known.values() for row in rows if not is_gone(table, row)]
    return sorted(tuple(value for name, value in row.items() if name != 'round') for row in rows)


def over_seeds(runner):
    """The changes up to a round are the rows of the script that ends there, and the run's length and end are those of its rounds."""
    for seed in SEEDS:
        name = 'each round of seed %d' % seed
        if runner.wanted(name):
            runner.judge(name, wrong_of(runner, chance_of(seed)))


def wrong_of(runner, chance):
    network = network_of(chance)
    begun = network.description + b'script\n' + packets_of(chance, network, range(network.terminals))
    rounds = chance.randint(1, MOST_SEEN)
    for table in ('ways', 'wishes'):
        each = rows_in(runner.run(words=['rows', '-', '--what', table, '--each'], data=begun + b'rounds %d\n' % rounds)[1])
        for count in range(rounds + 1):
            found = runner.run(words=['rows', '-', '--what', table], data=begun + b'rounds %d\n' % count * bool(count))
            due = sorted(tuple(row.values()) for row in rows_in(found[1]))
            if seen_behind(table, each, count) != due:
                return '%s of round %d of %d: %.200r, and of each %.200r' % (table, count, rounds, due, seen_behind(table, each, count))
    return None


def locked(runner):
    """Of the ring that is locked four links wait for one another, and the run's row says that it stands still."""
    files = [os.path.join(EXAMPLES, it) for it in ('ring.txt', 'ring-packets.txt')]
    for table, column, count in (('ways', 'locked', 4), ('wishes', 'locked', 4), ('run', 'still', 1)):
        found = runner.run(words=['rows', *files, '--what', table])
        rows = rows_in(found[1]) if found else []
        runner.judge('locked ring: %s' % table, None if sum(row[column] == '1' for row in rows) == count else 'found %.300r' % (found,))


PARTS = [by_hand, of_each_round, over_seeds, locked]
