"""Runs `c104-paths` over descriptions: its tables, its summary, and summaries side by side; and which rows never decide, and why.

Some tables were counted by hand. Others are counted by path_counts.py over all ways of each header: networks of all kinds whose
labels are accepted, those that label themselves by the rows that `label --rows` gives them.
"""

import csv
import io
import json
import os
import tempfile

from case_runner import CANNOT_READ, CANNOT_WRITE, PLAN
from check_rules import Rules
from kinds import check, cycles
from networks import chain, mesh
from path_counts import Ways, tables_of
from random_networks import chance_of, network_of
from tools import tool_parts
from two_bytes import hand_mesh

TABLES = {
    'pairs': 'sender,label,receiver,least,most,distance,stretch,random_least,random_most',
    'links': 'port,to,can,always,random_can,random_always',
    'inputs': 'port,set,deciding,labels,random',
}
SUMMARY = ['pairs', 'mean_hops', 'largest_hops', 'mean_stretch', 'largest_stretch', 'largest_load', 'load_link', 'most_rows',
           'rows_input', 'random_mean', 'random_largest', 'random_load', 'random_link', 'cycle']
MANY_RANDOM = 12
MOST_SEEDS = 400
MOST_LABELS = 2000

# Two terminals and one wire; its labels are taken at both ends, and one row of a can never decide.
WIRE = check.WIRE + check.A_ROWS + check.B_ROWS
# The way from a to b is over C, though a wire joins A and B; back it is the wire.
ROUND = (b'switch A\nswitch B\nswitch C\nterminal a A.0\nterminal b B.0\nwire A.1 B.1\nwire A.2 C.1\nwire B.2 C.2\n'
         b'row A.0 1 0\nrow A.0 2 2\nrow A.1 1 0\nrow B.0 1 1\nrow B.0 2 0\nbase B.2 1\nrow B.2 2 0\nbase C.1 1\nrow C.1 2 2\n')
# a's packets for b may go over B or over C and B, by a group of two links.
EITHER = (b'switch A\nswitch B\nswitch C\nterminal a A.0\nterminal b B.0\nwire A.1 B.1\nwire A.2 C.1\nwire B.2 C.2\n'
          b'continue A.2\nrow A.0 1 0\nrow A.0 2 1\nrow A.1 1 0\nrow B.0 1 1\nrow B.0 2 0\nbase B.1 1\nrow B.1 2 0\n'
          b'base B.2 1\nrow B.2 2 0\nbase C.1 1\nrow C.1 2 2\n')
# a has the labels 300 and 301, and b has 1000.
LONG = (b'header 2\nswitch A\nswitch B\nterminal a A.0 labels 2 from 300\nterminal b B.0 from 1000\nwire A.1 B.1\n'
        + b''.join(b'base %s 300\nrow %s 302 %d\nrow %s 1000 sink\nrow %s 1001 %d\n' % (port, port, a, port, port, b)
                   for port, a, b in ((b'A.0', 0, 1), (b'A.1', 0, 1), (b'B.0', 1, 0), (b'B.1', 1, 0))))

# A terminal that has the switch for itself. No packet comes in at A.5, which has two rows.
ALONE = b'switch A\nterminal a A.0\nrow A.0 1 0\nrow A.5 9 3\nrow A.5 10 4\n'

# A description, and its rows by table, counted by hand.
BY_HAND = {
    'nothing': (b'', {'pairs': [], 'links': [], 'inputs': []}),
    'one switch': (PLAN, {
        'pairs': ['b,0,a,0,0,0,,,', 'a,1,b,0,0,0,,,'],
        'links': ['A.0,a,1,1,0,0', 'A.1,b,1,1,0,0'],
        'inputs': ['A.0,2,2,2,0', 'A.1,2,2,2,0']}),
    'one wire': (WIRE, {
        'pairs': ['b,0,a,1,1,1,1.000,,', 'a,1,b,1,1,1,1.000,,'],
        'links': ['A.0,a,1,1,0,0', 'A.1,B.1,1,1,0,0', 'B.0,b,1,1,0,0', 'B.1,A.1,1,1,0,0'],
        'inputs': ['A.0,2,2,2,0', 'A.1,2,1,1,0', 'B.0,2,2,2,0', 'B.1,2,1,1,0']}),
    'a way that is longer than the shortest': (ROUND, {
        'pairs': ['b,0,a,1,1,1,1.000,,', 'a,1,b,2,2,1,2.000,,'],
        'links': ['A.0,a,1,1,0,0', 'A.1,B.1,0,0,0,0', 'A.2,C.1,1,1,0,0', 'B.0,b,1,1,0,0', 'B.1,A.1,1,1,0,0',
                  'B.2,C.2,0,0,0,0', 'C.1,A.2,0,0,0,0', 'C.2,B.2,1,1,0,0'],
        'inputs': ['A.0,2,2,2,0', 'A.1,1,1,1,0', 'A.2,0,0,0,0', 'B.0,2,2,2,0', 'B.1,0,0,0,0', 'B.2,1,1,1,0',
                   'C.1,1,1,1,0', 'C.2,0,0,0,0']}),
    'a group of two links with ways of different lengths': (EITHER, {
        'pairs': ['b,0,a,1,1,1,1.000,,', 'a,1,b,1,2,1,2.000,,'],
        'links': ['A.0,a,1,1,0,0', 'A.1,B.1,1,0,0,0', 'A.2,C.1,1,0,0,0', 'B.0,b,1,1,0,0', 'B.1,A.1,1,1,0,0',
                  'B.2,C.2,0,0,0,0', 'C.1,A.2,0,0,0,0', 'C.2,B.2,1,0,0,0'],
        'inputs': ['A.0,2,2,2,0', 'A.1,1,1,1,0', 'A.2,0,0,0,0', 'B.0,2,2,2,0', 'B.1,1,1,1,0', 'B.2,1,1,1,0',
                   'C.1,1,1,1,0', 'C.2,0,0,0,0']}),
    # From a the header 10 ends where it is put before packets, and 11 over the wire: so a label of b is on the wire by one of
    # the two portals, as 11 is before, and packets of a for a itself may come back over it.
    'random headers, with a portal at either end of a wire': (check.OVER_A_WIRE, {
        'pairs': ['b,0,a,1,1,1,1.000,,', 'a,1,b,0,1,1,1.000,0,1'],
        'links': ['A.0,a,1,1,0,0', 'A.1,B.1,1,0,1,1', 'B.0,b,1,1,0,0', 'B.1,A.1,1,1,0,0'],
        'inputs': ['A.0,5,4,2,2', 'A.1,2,1,1,0', 'B.0,2,2,2,0', 'B.1,4,3,2,1']}),
    'many labels, two bytes': (LONG, {
        'pairs': ['b,300,a,1,1,1,1.000,,', 'b,301,a,1,1,1,1.000,,', 'a,1000,b,1,1,1,1.000,,'],
        'links': ['A.0,a,2,2,0,0', 'A.1,B.1,1,1,0,0', 'B.0,b,1,1,0,0', 'B.1,A.1,2,2,0,0'],
        'inputs': ['A.0,3,2,3,0', 'A.1,3,1,2,0', 'B.0,3,2,3,0', 'B.1,3,1,1,0']}),
}

# The summaries of some of them, as people read them.
SUMMARIES = {
    'one switch': (PLAN, ['2', '0.000', '0', '-', '-', '0', '-', '2', 'A.0', '-', '-', '-', '-', '-']),
    'nothing': (b'', ['0', '-', '-', '-', '-', '0', '-', '0', '-', '-', '-', '-', '-', '-']),
    'one wire': (WIRE, ['2', '1.000', '1', '1.000', '1.000', '1', 'A.1', '2', 'A.0', '-', '-', '-', '-', '-']),
    'a way that is longer': (ROUND, ['2', '1.500', '2', '1.500', '2.000', '1', 'A.2', '2', 'A.0', '-', '-', '-', '-', '-']),
    'random headers': (check.OVER_A_WIRE,
                       ['2', '1.000', '1', '1.000', '1.000', '1', 'A.1', '5', 'A.0', '0.500', '1', '1', 'A.1', '-']),
    'an input without a wire that has most rows': (ALONE, ['0', '-', '-', '-', '-', '0', '-', '1', 'A.0', '-', '-', '-', '-', '-']),
    'a ring one way round': (cycles.ROUND,
                             ['12', '2.000', '3', '1.666', '3.000', '6', 'A.1', '3', 'B.0', '-', '-', '-', '-', '4']),
}


def csv_of(names, rows):
    return ''.join(','.join(map(str, it)) + '\r\n' for it in [names, *rows]).encode()


def by_hand(runner):
    for name, (text, tables) in BY_HAND.items():
        for table, rows in tables.items():
            wanted = csv_of([TABLES[table]], [[it] for it in rows])
            runner.case('%s of %s' % (table, name), wanted, 0, b'', words=['-', '--what', table, '--format', 'csv'],
                        data=text)
    for name, (text, cells) in SUMMARIES.items():
        wanted = ''.join('%-19s%s\n' % it for it in zip(SUMMARY, cells)).encode()
        runner.case('summary of %s' % name, wanted, 0, b'', words=['-'], data=text)


def forms(runner):
    """A table for people, and JSON."""
    wanted = (b'sender    label     receiver  least     most      distance  stretch   random_least  random_most\n'
              b'b         0         a         1         1         1         1.000     -             -\n'
              b'a         1         b         0         1         1         1.000     0             1\n')
    runner.case('a table for people', wanted, 0, b'', words=['--what', 'pairs', '-'], data=check.OVER_A_WIRE)
    wanted = [{'port': 'A.0', 'set': 2, 'deciding': 2, 'labels': 2, 'random': 0},
              {'port': 'A.1', 'set': 2, 'deciding': 2, 'labels': 2, 'random': 0}]
    text = '[\n%s\n]\n' % ',\n'.join(map(json.dumps, wanted))
    runner.case('JSON', text.encode(), 0, b'', words=['-', '--what', 'inputs', '--format', 'json'], data=PLAN)


def by_definition(runner):
    """Networks whose tables are counted here."""
    texts = {name: text for name, text in check.ACCEPTED.items() if b'label tree' not in text
             and 0 < len(Ways(text).labels) < MOST_LABELS}
    texts.update({'a mesh by rows': mesh(4, 3, 2), 'a chain of groups': chain(5, 4, [0, 3, 4]), 'a ring one way': cycles.ROUND,
                  'random headers over two ways': cycles.DETOUR, 'a ring that random headers close': cycles.ONE_WAY_ROUND,
                  'a ring both ways': cycles.TWO_ROUNDS, 'a mesh, two bytes': hand_mesh(3, 2, 1, 40),
                  'universal routing': hand_mesh(3, 2, 1, 3, True)})
    texts.update({'ring %d' % seed: cycles.random_ring(seed) for seed in range(6)})
    accepted = ((seed, check.random_chain(seed)) for seed in range(MOST_SEEDS))
    accepted = [(seed, text) for seed, text in accepted if Rules(text).answer() == 'accepted']
    texts.update({'chain %d' % seed: text for seed, text in accepted[:MANY_RANDOM]})
    whole = {'a mesh': b'mesh 2 3 2\n', 'a cube': b'cube 3 2\n', 'a tree': cycles.RING + b'label tree B\n',
             'up and down': cycles.RING + b'label up-down\n'}
    whole.update({'network %d' % seed: network_of(chance_of(seed)).description for seed in range(MANY_RANDOM)})
    for name, text in whole.items():
        if any(runner.wanted(case_of(name, it)) for it in (*TABLES, 'summary')):
            done = runner.runner.run(words=['label', '--rows', '-'], data=text)
            texts[name] = done[1] if done and done[0] == 0 else b''
            judge_tables(runner, name, text, texts.pop(name))
    for name, text in texts.items():
        judge_tables(runner, name, text, text)


def case_of(name, table):
    return '%s, %s' % (name, table)


def judge_tables(runner, name, text, rows_text):
    """Compares the tables and the summary of a description with what the ways of another one come to, which has its rows."""
    if not any(runner.wanted(case_of(name, it)) for it in (*TABLES, 'summary')):
        return
    rows, summary = tables_of(Ways(rows_text))
    for table, names in TABLES.items():
        runner.case(case_of(name, table), csv_of([names], rows[table]), 0, b'',
                    words=['--what', table, '--format', 'csv', '-'], data=text)
    if runner.wanted(case_of(name, 'summary')):
        found, cycle = runner.run(words=['--format', 'csv', '-'], data=text), runner.runner.run(words=['cycles', '-'], data=text)
        told = cycle[1].decode().split() if cycle else []
        length = str(len(told) - 1) if told[:1] == ['cycle'] else ''
        wanted = csv_of(SUMMARY, [[*summary, length]])
        wrong = None if found == (0, wanted, b'') else 'wanted %r, found %r' % (wanted, found)
        runner.judge(case_of(name, 'summary'), wrong)


# Words that aren't taken, each told in one line.
WRONG_USAGE = {
    'no description': [],
    'a table that there is not': ['-', '--what', 'rounds'],
    'a format that there is not': ['-', '--format', 'svg'],
    'a table of several': ['-', '-', '--what', 'links'],
    'a table beside other wirings': ['-', '--any-wiring', '--what', 'links'],
    'more than are compared': list('abcdefghijklmnopq'),
    'traffic for no table': ['-', '--demand', 'matrix.csv'],
    'a table without its traffic': ['-', '--what', 'demand'],
    'an option that there is not': ['-', '--frob'],
}


def refused(runner):
    """What `check` refuses, `c104-paths` refuses in the same words."""
    for name, (text, line) in cycles.REFUSED.items():
        for words in (['-'], ['-', '--what', 'links'], ['-', '-']):
            runner.case('refused, %s' % name, line.encode() + b'\n', 1, b'', words=words, data=text)
        if runner.wanted('explained, ' + name):
            told = [it.run(words=['--explain', *words, '-'], data=text) for it, words in ((runner.runner, ['check']), (runner, []))]
            is_same = cycles.without_spelling(told[0]) == cycles.without_spelling(told[1])
            runner.judge('explained, ' + name, None if is_same else '%.300r' % (told,))
    for name, words in WRONG_USAGE.items():
        if runner.wanted(name):
            found = runner.run(words=words, data=PLAN)
            is_told = found and found[:2] == (2, b'') and found[2].startswith(b'c104-paths: ') and found[2].count(b'\n') == 1
            runner.judge(name, None if is_told else '%.300r' % (found,))
    runner.case('a file that is not there', b'', 3, b'c104: cannot read no-file\n', words=['no-file'])


# A network that labels itself; what is compared with it, and what is told of that.
LABELLED = check.WIRE + b'label tree A\n'
OTHERS = {
    'a switch more': (LABELLED + b'switch C\nwire B.2 C.2\n', "its switches aren't those of the first description"),
    'a switch of another name': (LABELLED.replace(b'B', b'C'), "its switches aren't those of the first description"),
    'a terminal on another link': (LABELLED.replace(b'B.0', b'B.2'),
                                   "its terminals aren't those of the first description, on the same links"),
    'a terminal of another name': (LABELLED.replace(b'terminal b', b'terminal c'),
                                   "its terminals aren't those of the first description, on the same links"),
    'a wire on another link': (LABELLED.replace(b'B.1', b'B.2'), "its wires aren't those of the first description"),
    'a wire more': (LABELLED + b'wire A.2 B.2\n', "its wires aren't those of the first description"),
}


def several(runner):
    """Summaries side by side, of networks with the same switches, terminals and wires."""
    turned = b'switch B\nswitch A\nterminal b B.0 from 1\nterminal a A.0 from 0\nwire B.1 A.1\n' + check.A_ROWS + check.B_ROWS
    with tempfile.TemporaryDirectory() as folder:
        texts = {'wire.txt': WIRE, 'turned.txt': turned, 'a, "b".txt': WIRE}
        texts.update({'%d.txt' % number: text for number, (text, _) in enumerate(OTHERS.values())})
        for name, text in texts.items():
            with open(os.path.join(folder, name), 'wb') as file:
                file.write(text)
        wire, other = (SUMMARIES['one wire'][1][:6] + cells + ['', '', '', '', ''] for cells in (
            ['A.1', '2', 'A.0'], ['B.1', '2', 'B.0']))
        rows = [['wire.txt', *wire], ['turned.txt', *other], ['"a, ""b"".txt"', *wire]]
        runner.case('several', csv_of(['file', *SUMMARY], rows), 0, b'', folder=folder,
                    words=['--format', 'csv', 'wire.txt', 'turned.txt', 'a, "b".txt'])
        for number, (name, (_, why)) in enumerate(OTHERS.items()):
            path = '%d.txt' % number
            told = 'c104: %s: %s\n' % (path, why)
            runner.case(name, b'refused OtherWiring: %s\n' % path.encode(), 1, told.encode(), folder=folder,
                        words=['--explain', 'wire.txt', path])
        runner.case('a second file that is not there', b'', 3, b'c104: cannot read none.txt\n', folder=folder,
                    words=['wire.txt', 'none.txt'])


def devices(runner):
    with open('/dev/full', 'wb') as full:
        runner.case('an output that fails', None, 3, CANNOT_WRITE, words=['-'], data=PLAN, stdout=full)
    with open('/proc/self/mem', 'rb') as unreadable:
        runner.case('an input that fails', b'', 3, CANNOT_READ, words=['-'], stdin=unreadable)


# A description, and its rows that never decide, by line. What a labeller makes has no line.
LEFT = '%d: row A.%d %d 0 never decides: no header that is left to it comes to A.%d'
OR_ANOTHER = ', or to another input of A with this row'
IDLE = {
    'a limit that is the one before': (PLAN + b'row A.1 2 sink\n',
        ["8: row A.1 2 sink never decides: its limit isn't above 2, that of the row before"]),
    'a limit that is the base': (b'switch A\nterminal a A.0 from 7\n# from 7\nbase A.0 7\n\nrow A.0 7 sink\nrow A.0 8 0\n',
        ["6: row A.0 7 sink never decides: its limit isn't above 7, the base"]),
    'rows before that have all headers': (PLAN + b'row A.0 0 sink\nrow A.0 2 discard # again\n',
        ["8: row A.0 0 sink never decides: its limit isn't above 2, that of the row before",
         '9: row A.0 2 discard never decides: rows before it have all its headers']),
    'headers past the last': (PLAN + b'row A.0 256 sink\nrow A.0 300 sink\n',
        ['9: row A.0 300 sink never decides: no header is 256 or above']),
    'an input that nothing comes to': (PLAN + b'row A.5 256 0\n', [LEFT % (8, 5, 256, 5)]),
    'two inputs to which no such header comes': (check.TWO_WIRES + b'row A.2 9 0\nrow A.1 9 0\n',
        [LEFT % (20, 1, 9, 1) + OR_ANOTHER, LEFT % (19, 2, 9, 2) + OR_ANOTHER]),
    'a row of a switch': (check.TWO_SWITCHES + b'wire A.1 B.1\nwire A.2 B.2\nrow A.0 1 0\nrow A.0 2 1\nrow A 1 0\nrow A 2 1\nrow A 9 0\n'
        + check.rows_of(b'B', range(3), [1, 0]), [LEFT % (11, link, 9, link) + OR_ANOTHER for link in (1, 2)]),
    'a cycle': (cycles.ROUND,
        ["31: row D.0 4 1 never decides: its limit isn't above 4, that of the row before",
         "34: row D.2 4 1 never decides: its limit isn't above 4, that of the row before"]),
    'a row that decides at another input': (WIRE, []),
    'a row that sinks what should never come': (check.TWO_WIRES + b'row A.2 9 sink\n', []),
    'a random header': (PLAN + b'random A.0 2 1\nrow A.0 3 discard\n', []),
    'a whole network': (b'mesh 2 2 1\n', []),
    'labels of a tree': (check.WIRE + b'label tree A\n', []),
    'many': (PLAN + b''.join(b'row A.%d %d 0\n' % (k, k) for k in range(2, 23)), [LEFT % (6 + k, k, k, k) for k in range(2, 23)]),
}
NAMES = {'its limit': 'Empty', 'no header is': 'PastLast', 'rows before': 'Covered', 'no header that': 'NeverMet'}


def idle_lines(table):
    """The rows of a table that never decide, as lines, in whose words the name has to be that of the table."""
    lines = []
    for row in csv.DictReader(io.StringIO(table.decode())):
        name = next((name for begin, name in NAMES.items() if row['why'].startswith(begin)), '')
        said = '%(line)s: row %(port)s %(limit)s %(select)s never decides: %(why)s' % row
        if row['idle'] or row['why']:
            lines.append(said if row['idle'] == name else '%(idle)s: %(why)s' % row)
    return lines


def idle_rows(runner):
    """Rows that never decide what becomes of a header."""
    for name, (text, wanted) in IDLE.items():
        if runner.wanted('rows that never decide: ' + name):
            found = runner.run(words=['--what', 'rows', '--format', 'csv', '-'], data=text)
            is_due = found and found[0] == 0 and found[2] == b'' and idle_lines(found[1]) == wanted
            runner.judge('rows that never decide: ' + name, None if is_due else 'found %r' % (found and idle_lines(found[1]),))
    wanted = ['A.0,0,4,0,1,0,1,1,0,,', 'A.0,1,5,1,2,1,1,1,0,,', 'A.1,0,6,0,1,0,1,1,0,,', 'A.1,1,7,1,2,1,1,1,0,,',
              'A.5,0,8,0,9,0,9,0,0,NeverMet,no header that is left to it comes to A.5']
    names = 'port,row,line,first,limit,select,headers,labels,random,idle,why'
    runner.case('rows', csv_of([names], [[it] for it in wanted]), 0, b'', words=['--what', 'rows', '--format', 'csv', '-'],
                data=PLAN + b'row A.5 9 0\n')


PARTS = tool_parts('paths', [by_hand, forms, by_definition, idle_rows, refused, several, devices])
