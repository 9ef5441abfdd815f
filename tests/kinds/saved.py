"""Runs `c104-stats` with `--out`: each table goes to a file of its own, and nothing else but faults is told or made.

The tables are those that kinds/stats.py works out by hand.
"""

import os
import tempfile

from case_runner import PLAN, SCRIPT_LIMIT, comments
from kinds.stats import (APART, BY_HAND, ENDS, FIRST, LATENCIES, LINKS, NEARLY_FULL, PACKETS, ROUNDS, STILL, STUCK, SUMMARIES, SUMMARY,
                         csv_text, json_text, summary_text, table_text)
from tools import tool_parts

ROWS = {it: BY_HAND[name][3] for it, name in (('packets', 'the packet of the first run'), ('links', 'its links'),
                                              ('latencies', 'its latency'), ('rounds', 'its rounds'))}
COLUMNS = {'packets': PACKETS, 'latencies': LATENCIES, 'links': LINKS, 'rounds': ROUNDS}
FIRST_VALUES = SUMMARIES['the first run'][2]
TWO = ('--what', 'packets', '--what', 'links')
# The packet is sent in round 3 of six.
APART_LINKS = ('A.0 0 0.000 0 0 0', 'A.1 5 0.833 2 3 1', 'a 5 0.833 2 3 3', 'b 0 0.000 0 0 0')
FROB = b'c104: events:1: no line of a script begins with this word; see `c104 run --help`: frob\n'


def cannot_write(path):
    return b'c104: cannot write %s\n' % path.encode()


class Room:
    """A folder with a description and a script, in which the program runs."""

    def __init__(self, description, script):
        self.given = {'network': description, 'events': script}

    def __enter__(self):
        self.room = tempfile.TemporaryDirectory()
        for name, text in self.given.items():
            with open(self.path(name), 'wb') as file:
                file.write(text)
        return self

    def __exit__(self, *_):
        self.room.cleanup()

    def path(self, name):
        return os.path.join(self.room.name, name)

    def made(self):
        """The files that there are beside the two."""
        found = {}
        for it in os.scandir(self.room.name):
            if it.is_file() and it.name not in self.given:
                with open(it.path, 'rb') as file:
                    found[it.name] = file.read()
        return found


def case(runner, name, words, files, out=b'', status=0, errors=b'', description=PLAN, script=FIRST, paths=('network', 'events'),
         data=None, before=lambda room: None):
    """A run in a folder of its own, and the files that it makes there."""
    if not runner.wanted(name):
        return
    with Room(description, script) as room:
        before(room)
        found = runner.run(words=[*paths, *words], data=data, folder=room.room.name)
        made = room.made()
    wrong = None if found == (status, out, errors) else '%.400r' % (found,)
    runner.judge(name, wrong or (None if made == files else 'made %.400r' % made))


def csv_of(*names):
    return {'run-%s.csv' % it: csv_text(COLUMNS[it], ROWS[it]) for it in names}


def tables(runner):
    """One table and several, in each format, by their words."""
    form = ('--out', 'run', '--format', 'csv')
    case(runner, 'two tables', (*TWO, *form), csv_of('packets', 'links'))
    case(runner, 'all tables', (*form, *(word for it in ROWS for word in ('--what', it))), csv_of(*ROWS))
    case(runner, 'one table', ('--what', 'latencies', '--out', 'run'), {'run-latencies.txt': table_text(LATENCIES, ROWS['latencies'])})
    case(runner, 'json', ('--what', 'rounds', '--out=run', '--format', 'json'), {'run-rounds.json': json_text(ROUNDS, ROWS['rounds'])})
    case(runner, 'the summary', ('--out', 'run'), {'run-summary.txt': summary_text(FIRST_VALUES)})
    case(runner, 'batches', ('--out', 'run', '--format', 'csv', '--batches', '1'),
         {'run-batches.csv': csv_text(('from', 'to', *SUMMARY[1:5], *SUMMARY[7:17]), ['1 4 0 0 0 0 - - - - - - - - 0.000 0.375'])})
    case(runner, 'from a round on', (*TWO, *form, '--from', '3'),
         {'run-packets.csv': csv_text(PACKETS, ('a 1 b 1 2 3 4 6 3 0 arrived',)), 'run-links.csv': csv_text(LINKS, APART_LINKS)},
         script=APART)
    case(runner, 'files in place of others', (*TWO, *form), csv_of('packets', 'links'),
         before=lambda room: [shadow(room, 'run-packets.csv', b'x' * 10000), shadow(room, 'run-links.csv', b'')])


def shadow(room, name, text):
    with open(room.path(name), 'wb') as file:
        file.write(text)


def inputs(runner):
    """Both texts are read once, wherever they come from."""
    words = (*TWO, '--out', 'run', '--format', 'csv')
    due = csv_of('packets', 'links')
    case(runner, 'a script on standard input', words, due, paths=('network', '-'), data=FIRST)
    case(runner, 'a description on standard input', words, due, paths=('-', 'events'), data=PLAN)
    case(runner, 'a description through a pipe', words, due, paths=('/dev/stdin', 'events'), data=PLAN)
    unused = ['%s 0 0.000 0 0 0' % it for it in ('A.0', 'A.1', 'a', 'b')]
    empty = {'run-packets.csv': csv_text(PACKETS, ()), 'run-links.csv': csv_text(LINKS, unused)}
    case(runner, 'both on standard input', words, empty, paths=('-', '-'), data=PLAN)
    case(runner, 'a script too long', ('--what', 'packets', '--out', 'run'),
         {'run-packets.txt': table_text(PACKETS, ['a 0 - 1 0 0 - - - 0 unfinished'])}, status=1,
         script=b'send a 01 eop\n' + comments(SCRIPT_LIMIT - 14) + b'send a 01 eop\n')


def told(runner):
    """What is told of a run is told once."""
    still = b''.join(b'c104: ' + line + b'\n' for line in STILL.splitlines())
    latencies = {'run-latencies.csv': csv_text(LATENCIES, ())}
    stuck = {**latencies, 'run-packets.csv': csv_text(PACKETS, ('a 0 - 2 1 0 1 - - 0 unfinished',))}
    case(runner, 'stands still', ('--what', 'packets', '--what', 'latencies', '--out', 'run', '--format', 'csv'), stuck, errors=still,
         description=STUCK)
    case(runner, 'stands still, for people', ('--what', 'latencies', '--what', 'packets', '--out', 'run'),
         {'run-packets.txt': table_text(PACKETS, ('a 0 - 2 1 0 1 - - 0 unfinished',)) + STILL,
          'run-latencies.txt': table_text(LATENCIES, ()) + STILL}, description=STUCK)
    ended = {'run-rounds.csv': csv_text(ROUNDS, ['0 0 0 0 0 0', '1 0 0 0 0 0', '2 0 0 0 0 0']), **latencies}
    case(runner, 'a full trace', ('--what', 'rounds', '--what', 'latencies', '--out', 'run', '--format', 'csv'), ended, status=1,
         errors=ENDS.replace(b'-:', b'events:', 1), script=NEARLY_FULL + b'#\nrounds 20\n')
    empty = {'run-packets.txt': table_text(PACKETS, ()), 'run-latencies.txt': table_text(LATENCIES, ())}
    words = ('--what', 'packets', '--what', 'latencies', '--out', 'run')
    case(runner, 'a faulty line', words, empty, status=1, script=b'frob\n')
    case(runner, 'a faulty line, explained', ('--explain', *words), empty, status=1, script=b'frob\n', errors=FROB)


def faults(runner):
    """Files that can't be made or written, and what is refused before any is."""
    words = ('--what', 'packets', '--what', 'links', '--out')
    case(runner, 'a folder that is not there', (*words, 'none/run'), {}, status=3, errors=cannot_write('none/run-packets.txt'))
    case(runner, 'a file that is a folder', (*words, 'run'), {'run-packets.txt': table_text(PACKETS, ROWS['packets'])}, status=3,
         errors=cannot_write('run-links.txt'), before=lambda room: os.mkdir(room.path('run-links.txt')))
    if os.path.exists('/dev/full'):
        case(runner, 'a file that is full', (*words, 'run'), {}, status=3, errors=cannot_write('run-packets.txt'),
             before=lambda room: os.symlink('/dev/full', room.path('run-packets.txt')))
    case(runner, 'a faulty description', (*words, 'run'), {}, out=b'description 2: 8 SelfWire\n', status=1,
         description=b'switch A\nwire A.0 A.1\n')
    case(runner, 'no script', (*words, 'run'), {}, status=3, errors=b'c104: cannot read none\n', paths=('network', 'none'))
    case(runner, 'no description', (*words, 'run'), {}, status=3, errors=b'c104: cannot read none\n', paths=('none', 'events'))
    case(runner, 'a script that is a folder', (*words, 'run'), {}, status=3, errors=b'c104: cannot read .\n', paths=('network', '.'))


PARTS = tool_parts('stats', [tables, inputs, told, faults])
