"""Runs `c104-stats` over descriptions and scripts, and what it prints.

The numbers are worked out by hand, round by round, from docs/FORMATS.md. What programs read is read by Python's own readers
of CSV and of JSON, and has to be what the table for people says. Of each run the tables are read once more, by conservation.py:
no token and no packet is lost in them. How many rounds are enough is found by enough.py.
"""

import csv
import io
import json
import os
import re
import tempfile

from case_runner import CANNOT_WRITE, EXAMPLE_FILES, EXAMPLES, PLAN, SCRIPT_LIMIT, SCRIPT_LINE, comments
from conservation import wrong_of
from enough import enough_of
from random_networks import chance_of, network_of, packets_of
from tools import Tool, tool_parts

# In rounds 1 to 3 a's tokens cross to A.0, in 2 to 4 from A.1 to b, and each arrives in the round in which it crosses. 5 is
# the first round in which nothing is done.
FIRST = b'send a 01 68 eop\nrounds 9\n'
# A packet for b goes to a link that nothing leads on from.
STUCK = PLAN.replace(b'row A.0 2 1', b'row A.0 2 7')
NO_ROWS = PLAN[:PLAN.index(b'row')]
# Names that are wider than columns are at least, and links of two digits. Two packets cross one behind the other, in rounds 1 to 6 to the
# switch and in 2 to 7 from it, and one the other way, in 1 and 2, and in 2 and 3.
WIDE = b'''switch crossroads
terminal westernmost crossroads.10
terminal easternmost crossroads.31
row crossroads.10 1 10
row crossroads.10 2 31
row crossroads.31 1 10
row crossroads.31 2 31
'''
THREE = b'send westernmost 01 68 eop\nsend westernmost 01 69 eop\nsend easternmost 00 eop\nrounds 9\n'
# The second packet is sent in round 3. Its tokens cross to the switch in rounds 4 and 5, and from it in 5 and 6.
APART = b'send a 01 68 eop\nrounds 3\nsend a 01 eop\nrounds 9\n'
# Of a's packet 68 is in A, behind 01, when A is reset in round 2; its terminator leaves a in round 3. Once its row is set and
# it is started, A finds a packet without a header in that.
RESET = b'send a 01 68 eop\nrounds 2\ncontrol A 02\n'
RESTART = RESET + b'control A 05 40 01 02 00 00 00\ncontrol A 05 80 01 01 00 00 00\ncontrol A 01\n'
# Each of four packets holds the link to the next switch from round 2 on, up to the end, and round 24 is the last in which
# anything is done. Of its 25 tokens 8 cross that link, and one stays at the terminal.
RING_ROWS = tuple(row for it in 'ABCD' for row in ('%s.0 0 0.000 0 0 0' % it, '%s.1 8 0.333 0 23 8' % it, '%s.2 0 0.000 0 0 0' % it))
RING_ROWS += tuple('%s 24 1.000 0 24 25' % it for it in 'abcd')
# The table of the links of WIDE, whose first column is as wide as its widest name.
WIDE_TABLE = b'''port           tokens    share     packets   longest   waiting
crossroads.10  2         0.285     1         2         1
crossroads.31  6         0.857     2         3         1
westernmost    6         0.857     2         3         6
easternmost    2         0.285     1         2         2
'''
# A `table` asks 73 acts and a `peek` one, so A has two left of all that it may do. In round 1 it grants at both links, and in
# round 2 it would again.
NEARLY_FULL = b'peek A 7fff\npeek A 0000\n' + b'table A.0\n' * 14364
ENDS = (b'c104: -:14368: a switch or a terminal would do more than 1048576 acts; so the run ends here, in round 2\n')
SEEDS = range(5)
WHATS = ('packets', 'latencies', 'links', 'rounds')

PACKETS = ('sender', 'number', 'receiver', 'bytes', 'wires', 'sent', 'left', 'arrived', 'latency', 'idle', 'ending')
LATENCIES = ('latency', 'packets')
LINKS = ('port', 'tokens', 'share', 'packets', 'longest', 'waiting')
ROUNDS = ('round', 'waiting', 'inside', 'moved', 'arrived', 'held')
COLUMNS = {'packets': PACKETS, 'latencies': LATENCIES, 'links': LINKS, 'rounds': ROUNDS}
SUMMARY = ('rounds', 'sent', 'arrived', 'unfinished', 'lost', 'refused', 'still', 'latency_least', 'latency_median', 'latency_95',
           'latency_99', 'latency_most', 'latency_mean', 'latency_deviation', 'network_mean', 'offered', 'accepted',
           'tokens_a_round', 'busiest', 'busiest_share', 'second', 'second_share', 'third', 'third_share', 'rounds_enough')
# What stands for people, and in CSV, where there is nothing: in JSON it is null.
NOTHING = {'table': '-', 'csv': ''}

# A description, a script, a table, and its rows.
BY_HAND = {
    'the packet of the first run': (PLAN, FIRST, 'packets', ('a 0 b 2 2 0 1 4 4 0 arrived',)),
    'its links': (PLAN, FIRST, 'links',
        ('A.0 0 0.000 0 0 0', 'A.1 3 0.750 1 3 1', 'a 3 0.750 1 3 3', 'b 0 0.000 0 0 0')),
    'its latency': (PLAN, FIRST, 'latencies', ('4 1',)),
    'two packets of one latency': (PLAN, FIRST + FIRST, 'latencies', ('4 2',)),
    'three latencies': (WIDE, THREE, 'latencies', ('3 1', '4 1', '7 1')),
    'no latency, since no packet arrives': (STUCK, FIRST, 'latencies', ()),
    'its rounds': (PLAN, FIRST, 'rounds',
        ('0 3 0 0 0 0', '1 2 1 1 0 1', '2 1 1 2 1 1', '3 0 1 2 1 0', '4 0 0 1 1 0', '9 0 0 0 0 0')),
    'its rounds up to the last in which anything is done': (PLAN, b'send a 01 68 eop\nsettle\n', 'rounds',
        ('0 3 0 0 0 0', '1 2 1 1 0 1', '2 1 1 2 1 1', '3 0 1 2 1 0', '4 0 0 1 1 0')),
    'a packet behind the rounds of another': (PLAN, b'send a 01 68 eop\nsettle\nsettle\nsend a 01 eop\nsettle\n', 'packets',
        ('a 0 b 2 2 0 1 4 4 0 arrived', 'a 1 b 1 2 4 5 7 3 0 arrived')),
    'rounds up to a standstill': (STUCK, b'send a 01 68 eop\nsettle\n', 'packets', ('a 0 - 2 1 0 1 - - 0 unfinished',)),
    'events between rounds count to the round before': (PLAN,
        b'send a 01 68 eop\nrounds 1\ncross a\nsend a 01 eop\nrounds 1\n', 'packets',
        ('a 0 - 2 1 0 1 - - 0 unfinished', 'a 1 - 1 0 1 - - - 0 unfinished')),
    'a token before the first round crosses in none': (PLAN, b'send a 01 68 eop\ncredit A.0\ncross a\nrounds 1\n', 'links',
        ('A.0 0 0.000 0 0 0', 'A.1 0 0.000 0 0 1', 'a 2 1.000 0 2 2', 'b 0 0.000 0 0 0')),
    'a Reset ends how long links were held': (PLAN, RESET + b'rounds 9\nsend b 00 eop\n', 'links',
        ('A.0 0 0.000 0 0 0', 'A.1 1 0.090 0 1 1', 'a 3 0.272 1 3 3', 'b 0 0.000 0 0 2')),
    'a packet behind a Reset': (PLAN, RESTART + b'send a 01 69 eop\nrounds 9\n', 'packets',
        ('a 0 - 2 1 0 1 - - 0 sunk', 'a 1 b 2 2 2 4 7 5 0 arrived')),
    'packets that are lost': (NO_ROWS, b'send a 01 68 eop\nsend b eop\nrounds 9\n', 'packets',
        ('a 0 - 2 1 0 1 - - 0 sunk', 'b 0 - 0 1 0 1 - - 0 short')),
    'a packet that goes nowhere': (STUCK, FIRST, 'packets', ('a 0 - 2 1 0 1 - - 0 unfinished',)),
    'a line between rounds counts to the round that is over where the next begins': (PLAN,
        b'rounds 3\nsend a 01 eop\nrounds 1\n', 'rounds',
        ('0 0 0 0 0 0', '1 0 0 0 0 0', '2 0 0 0 0 0', '3 2 0 0 0 0', '4 1 1 1 0 1')),
    'names wider than a column': (WIDE, THREE, 'packets',
        ('westernmost 0 easternmost 2 2 0 1 4 4 0 arrived', 'westernmost 1 easternmost 2 2 0 4 7 7 0 arrived',
         'easternmost 0 westernmost 1 2 0 1 3 3 0 arrived')),
    'links of two digits': (WIDE, THREE, 'links',
        ('crossroads.10 2 0.285 1 2 1', 'crossroads.31 6 0.857 2 3 1', 'westernmost 6 0.857 2 3 6', 'easternmost 2 0.285 1 2 2')),
    'nothing is asked': (PLAN, b'', 'packets', ()),
    'the round before the first': (PLAN, b'', 'rounds', ('0 0 0 0 0 0',)),
    'no network': (b'', b'send a 01 eop\nrounds 3\n', 'links', ()),
}

# Of four tokens three cross before the first round.
BEFORE = b'send a 01 aa bb eop\ncredit A.0\n' + b'cross a\n' * 3
# A description, a script, and the values of its summary but for the last.
COUNTED = {
    'the first run': (PLAN, FIRST,
        '4 1 1 0 0 0 - 4 4 4 4 4 4.000 0.000 3.000 0.375 0.375 1.500 A.1 0.750 a 0.750 - -'),
    'the first run, with a packet behind it': (PLAN, FIRST + b'send b 00 eop\n',
        '9 2 1 1 0 0 - 4 4 4 4 4 4.000 0.000 3.000 0.277 0.166 0.666 A.1 0.333 a 0.333 - -'),
    # In the network they were for 2, 3 and 3 rounds.
    'three packets, each of another latency': (WIDE, THREE,
        '7 3 3 0 0 0 - 3 4 7 7 7 4.666 1.699 2.666 0.571 0.571 2.285 crossroads.31 0.857 westernmost 0.857 crossroads.10 0.285'),
    'two packets apart': (PLAN, APART,
        '6 2 2 0 0 0 - 3 3 4 4 4 3.500 0.500 2.500 0.416 0.416 1.666 A.1 0.833 a 0.833 - -'),
    'nothing is asked': (PLAN, b'', '0 0 0 0 0 0 - - - - - - - - - 0.000 0.000 0.000 - - - - - -'),
    'lost packets': (NO_ROWS, b'send a 01 68 eop\nsend b eop\nrounds 9\n',
        '3 2 0 0 2 0 - - - - - - - - - 0.666 0.000 1.333 a 1.000 b 0.333 - -'),
    # In rounds 1 and 2 A grants what it has room for.
    'a command behind the last event': (PLAN, b'rounds 9\ncontrol A 04 00 00\n',
        '9 0 0 0 0 0 - - - - - - - - - 0.000 0.000 0.000 - - - - - -'),
    'a register that is read': (PLAN, b'rounds 9\npeek A 0000\n',
        '2 0 0 0 0 0 - - - - - - - - - 0.000 0.000 0.000 - - - - - -'),
    'a register that is set': (PLAN, b'rounds 9\npoke A 0181 7\n',
        '2 0 0 0 0 0 - - - - - - - - - 0.000 0.000 0.000 - - - - - -'),
    'tokens before the first round': (PLAN, BEFORE + b'rounds 1\n',
        '1 1 0 1 0 0 - - - - - - - - - 2.000 0.000 4.000 a 1.000 - - - -'),
    'no rounds': (PLAN, BEFORE, '0 1 0 1 0 0 - - - - - - - - - 0.000 0.000 0.000 - - - - - -'),
    'an empty network': (b'', b'', '0 0 0 0 0 0 - - - - - - - - - 0.000 0.000 0.000 - - - - - -'),
}


def with_enough(description, script, values):
    """The values of a summary with the last: how many rounds are enough."""
    enough = enough_of(description, script)
    return '%s %s' % (values, '-' if enough is None else enough)


SUMMARIES = {name: (*it[:2], with_enough(*it)) for name, it in COUNTED.items()}

# Of runs that a Reset cuts, how many tokens are gone. 01 has come to b, and 68 is cleared. The terminator that comes behind it
# waits in A, or once A is started is dropped there as a packet without a header.
GONE = {'a Reset ends how long links were held': 1, 'a packet behind a Reset': 2}

# The same of STUCK, in which a packet never ends.
STUCK_VALUES = with_enough(STUCK, FIRST, '3 1 0 1 0 0 3 - - - - - - - - 0.500 0.000 1.000 a 1.000 - - - -')
STILL = b'stands still after round 3\nA.7, which has no wire, holds 3 tokens\n'

WRONG = (['--format', 'xml'], ['--format'], ['--what', 'switches'], ['--what'], ['--format', 'csv', '--format', 'json'], ['third'],
         ['--from', '2', '--to', '1'], ['--from'], ['--to', 'x'], ['--to', '4294967296'], ['--from', '1', '--from', '1'],
         ['--what', 'links', '--from', '0'], ['--what', 'rounds', '--to', '9'], ['--what', 'packets', '--batches', '2'],
         ['--batches', '0'], ['--batches', '1001'], ['--out'], ['--out', 'a', '--out', 'b'])


class Files:
    """A description in a file of its own; the script comes from standard input."""

    def __init__(self, description):
        self.room = tempfile.TemporaryDirectory()
        self.description = os.path.join(self.room.name, 'network')
        with open(self.description, 'wb') as file:
            file.write(description)

    def __enter__(self):
        return self.description

    def __exit__(self, *_):
        self.room.cleanup()


def words_of(path, what=None, form=None, window=()):
    return [path, '-', *(['--what', what] if what else []), *(['--format', form] if form else []), *window]


def cells_of(rows):
    return [row.split() for row in rows]


def table_text(columns, rows):
    """Cells in columns as wide as the widest, and at least 8, two spaces apart; the last isn't padded."""
    lines = [columns, *cells_of(rows)]
    widths = [max(8, *(len(line[place]) for line in lines)) for place in range(len(columns) - 1)]
    return ''.join('  '.join([*(it.ljust(width) for it, width in zip(line, widths)), line[-1]]) + '\n' for line in lines).encode()


def csv_text(columns, rows):
    lines = [columns, *cells_of(rows)]
    return ''.join(','.join(NOTHING['csv'] if it == '-' else it for it in line) + '\r\n' for line in lines).encode()


def value_of(column, cell):
    """What JSON has for a cell: words are those of names, of ports, of endings and of states."""
    if cell == '-':
        return None
    if column in ('sender', 'receiver', 'ending', 'port', 'to', 'state', 'busiest', 'second', 'third'):
        return cell
    return float(cell) if '.' in cell else int(cell)


def objects_of(columns, rows):
    return [{name: value_of(name, it) for name, it in zip(columns, line)} for line in cells_of(rows)]


def json_text(columns, rows):
    """Objects, each a line of its own. A share has its three places, as in the table."""
    lines = []
    for line in cells_of(rows):
        values = ['null' if it == '-' else '"%s"' % it if isinstance(value_of(name, it), str) else it
                  for name, it in zip(columns, line)]
        lines.append('{%s}' % ', '.join('"%s": %s' % pair for pair in zip(columns, values)))
    return ('[' + ','.join('\n' + it for it in lines) + '\n]\n').encode()


def by_hand(runner):
    for name, (description, script, what, rows) in BY_HAND.items():
        columns = COLUMNS[what]
        with Files(description) as path:
            still = STILL if description == STUCK else b''
            runner.case(name, table_text(columns, rows) + still, words=words_of(path, what), data=script)
            runner.case(name + ': csv', csv_text(columns, rows), words=words_of(path, what, 'csv'), data=script)
            runner.case(name + ': json', json_text(columns, rows), words=words_of(path, what, 'json'), data=script)
            read(runner, name + ': json, read', words_of(path, what, 'json'), script, objects_of(columns, rows))


def summary_text(values):
    """A line for each column, whose cell stands two spaces behind the longest name."""
    return ''.join('%-19s%s\n' % pair for pair in zip(SUMMARY, values.split())).encode()


def summaries(runner):
    for name, (description, script, values) in SUMMARIES.items():
        title = 'summary of ' + name
        lines = summary_text(values)
        with Files(description) as path:
            runner.case(title, lines, words=words_of(path), data=script)
            runner.case(title + ': csv', csv_text(SUMMARY, [values]), words=words_of(path, form='csv'), data=script)
            runner.case(title + ': json', json_text(SUMMARY, [values]), words=words_of(path, form='json'), data=script)
            read(runner, title + ': json, read', words_of(path, form='json'), script, objects_of(SUMMARY, [values]))


def read(runner, name, words, script, due):
    """What JSON's reader makes of it."""
    if not runner.wanted(name):
        return
    found = runner.run(words=words, data=script)
    good = found is not None and found[0] == 0 and json.loads(found[1]) == due
    runner.judge(name, None if good else '%.400r' % (found,))


def wide(runner):
    """Columns whose cells are long, byte by byte."""
    with Files(WIDE) as path:
        runner.case('a table with wide cells', WIDE_TABLE, words=words_of(path, 'links'), data=THREE)


def held(runner):
    """A packet that holds a link at the end holds it up to the run's length, though the script has 200 rounds."""
    ring = os.path.join(EXAMPLES, 'ring.txt')
    with open(os.path.join(EXAMPLES, 'ring-packets.txt'), 'rb') as file:
        runner.case('links that are held at the end', csv_text(LINKS, RING_ROWS), words=words_of(ring, 'links', 'csv'), data=file.read())


def standing(runner):
    """Behind a table or a summary for people that is written; for programs it is told, whoever reads it."""
    told = b''.join(b'c104: ' + line + b'\n' for line in STILL.splitlines())
    with Files(STUCK) as path:
        for form, errors in (('table', b''), ('csv', told), ('json', told)):
            name = 'stands still: ' + form
            if runner.wanted(name):
                found = runner.run(words=words_of(path, form=form), data=FIRST)
                due = {'table': summary_text(STUCK_VALUES) + STILL, 'csv': csv_text(SUMMARY, [STUCK_VALUES]),
                       'json': json_text(SUMMARY, [STUCK_VALUES])}
                good = found == (0, due[form], errors)
                runner.judge(name, None if good else '%.400r' % (found,))


def rows_of(out, form):
    """The rows of what is printed, as lists of words, by a reader of its format."""
    text = out.decode()
    if form == 'json':
        return [['-' if it is None else it for it in row.values()] for row in json.loads(text)]
    if form == 'csv':
        return [[it or '-' for it in row] for row in csv.reader(io.StringIO(text, newline=''))][1:]
    return [line.split() for line in text.splitlines()[1:]]


def same(rows, others):
    return [[str(it) for it in row] for row in rows] == [[str(it) for it in row] for row in others]


def thousandths(rows):
    """Shares as JSON's reader gives them have no trailing zeros."""
    return [['%.3f' % it if isinstance(it, float) else it for it in row] for row in rows]


def labels_of(runner, path):
    """All labels of a network's terminals."""
    _, out, _ = runner.run(words=['label', path])
    ranges = [line.split()[2:] for line in out.splitlines() if line.startswith(b'range ')]
    return [label for first, count in ranges for label in range(int(first), int(first) + int(count))]


def random(runner, seed):
    """Over a random network every format has the same rows; what arrived is what a run says, and no token is lost."""
    name = 'random network %d' % seed
    if not runner.wanted(name):
        return
    tool, chance = Tool(runner, 'stats'), chance_of(seed)
    network = network_of(chance)
    with Files(network.description) as path:
        script = packets_of(chance, network, labels_of(runner, path)) + b'rounds 3000\n'
        wrong = None
        tables = {}
        for what in WHATS:
            found = {form: rows_of(tool.run(words=words_of(path, what, form), data=script)[1], form)
                     for form in ('csv', 'json')}
            if not same(found['csv'], thousandths(found['json'])):
                wrong = '%s: csv and json differ' % what
            tables[what] = found['csv']
        _, out, _ = runner.run(words=['run', path, '-'], data=script)
        arrived = len(re.findall(rb' from \S+ \d+$', out, re.MULTILINE))
        if arrived != sum(row[-1] == 'arrived' for row in tables['packets']):
            wrong = 'other packets arrived'
        wrong = wrong or wrong_of(lambda what: tool.run(words=words_of(path, what, 'csv'), data=script)[1],
                                  network.description, script)
        runner.judge(name, wrong)


def randoms(runner):
    for seed in SEEDS:
        random(runner, seed)


def runs_of_examples():
    """The examples that are a description and a script in one text, and the ring with its packets."""
    found = {}
    for name in EXAMPLE_FILES:
        with open(os.path.join(EXAMPLES, name), 'rb') as file:
            found[name] = SCRIPT_LINE.split(file.read(), 1)
    found['ring.txt'] += found['ring-packets.txt']
    return {name: parts for name, parts in found.items() if len(parts) == 2}


def conserved(runner):
    """No token and no packet is lost in what is told of the runs above, and of the examples."""
    by_hand = {name: it[:2] for name, it in [*BY_HAND.items(), *SUMMARIES.items()]}
    for name, (description, script) in {**by_hand, **runs_of_examples()}.items():
        if not runner.wanted('conservation of ' + name):
            continue
        with Files(description) as path:
            wrong = wrong_of(lambda what: runner.run(words=words_of(path, what, 'csv'), data=script)[1],
                             description, script, GONE.get(name))
        runner.judge('conservation of ' + name, wrong)


def usage(runner):
    with Files(PLAN) as path:
        for words in WRONG:
            runner.case('usage of stats %s' % ' '.join(words), b'', 2, words=[path, '-', *words], data=b'')
        runner.case('usage of stats without a script', b'', 2, words=[path], data=b'')


def failures(runner):
    """Faults of what is read and written, and what is refused."""
    with Files(PLAN) as path:
        runner.case('no script', b'', 3, b'c104: cannot read none\n', words=[path, 'none'])
        runner.case('no description', b'', 3, b'c104: cannot read none\n', words=['none', '-'], data=b'')
        runner.case('a faulty line', table_text(PACKETS, ['a 0 - 1 0 0 - - - 0 unfinished']), 1,
                    words=words_of(path, 'packets'), data=b'frob\nsend a 01 eop\n')
        runner.case('a script too long', table_text(PACKETS, ['a 0 - 1 0 0 - - - 0 unfinished']), 1,
                    words=words_of(path, 'packets'), data=b'send a 01 eop\n' + comments(SCRIPT_LIMIT - 14) + b'send a 01 eop\n')
        if os.path.exists('/dev/full'):
            with open('/dev/full', 'wb') as full:
                runner.case('an output that is full', None, 3, CANNOT_WRITE, words=words_of(path), data=FIRST, stdout=full)
    with Files(b'switch A\nwire A.0 A.1\n') as path:
        runner.case('a faulty description', b'description 2: 8 SelfWire\n', 1, words=words_of(path), data=FIRST)


def ended(runner):
    """A run ends with the first line that is refused since a trace is full."""
    script = b'send c eop\n' + NEARLY_FULL + b'rounds 20\nsend a 01 eop\nrounds 4\nfrob\n'
    with Files(PLAN) as path:
        runner.case('rounds until nothing is done, up to a full trace', table_text(ROUNDS, ['0 0 0 0 0 0', '1 0 0 0 0 0', '2 0 0 0 0 0']), 1, ENDS,
                    words=words_of(path, 'rounds'), data=script.replace(b'rounds 20', b'settle'))
        runner.case('rounds up to a full trace', table_text(ROUNDS, ['0 0 0 0 0 0', '1 0 0 0 0 0', '2 0 0 0 0 0']), 1, ENDS,
                    words=words_of(path, 'rounds'), data=script)
        runner.case('lines that are refused', summary_text('1 0 0 0 0 3 - - - - - - - - - 0.000 0.000 0.000 - - - - - - 0'), 1, ENDS,
                    words=words_of(path), data=script)


PARTS = [randoms, *tool_parts('stats', [by_hand, summaries, wide, held, standing, conserved, usage, failures, ended])]
