"""Runs `c104-sweep`: a point by itself, a whole sweep, and the networks of examples/sweep.

What a point has to say is the summary of `c104-stats` over a script of `c104-traffic`, cut by hand. Of a sweep it is looked at whether
the saturation is where the points say it is, and whether files and picture say the same.
"""

import csv
import io
import os
import re
import shutil
import subprocess
import tempfile
import xml.etree.ElementTree

from case_runner import EXAMPLES
from tools import Tool, tool_parts

SWEEP = os.path.join(EXAMPLES, 'sweep')
MESH = os.path.join(SWEEP, 'mesh.txt')
# With this seed packets are sent in the rounds at both ends of the window, and beside them.
LOAD, SEED = '0.6', '214'
# What a summary tells of packets, as a point has it.
MEASURED = ('sent', 'arrived', 'unfinished', 'lost', 'latency_least', 'latency_median', 'latency_95', 'latency_99', 'latency_most',
            'latency_mean', 'latency_deviation', 'network_mean')
# A network in which two thirds of the packets cross the wire between its switches.
HALVES = b'mesh 2 1 2\n'
# One whose terminals aren't a square.
THREE = b'switch A\nterminal a A.0\nterminal b A.1\nterminal c A.2\nrow A 1 0\nrow A 2 1\nrow A 3 2\n'
WRONG = (['--seeds', '0'], ['--loads', '2'], ['--loads', '0.1,x'], ['--precision', '-1'], ['--pattern', 'frob'], ['--pattern', 'hot-spot'],
         ['--point', '0.5'], ['--point', '0', '1'], ['--point', '0.5', 'x'], ['--point', '0.5', '1', MESH], [MESH], ['--workers', '0'])


def rows_by_name(text):
    return list(csv.DictReader(io.StringIO(text, newline='')))


def script_of(runner):
    """The rounds of a point line by line, as far as terminals send, and those that bring home what is on its way."""
    words = ['--pattern', 'uniform', '--packets', '6000', '--bytes', '15', '--process', 'bernoulli']
    words += ['--seed', SEED, '--tokens', LOAD, '--fair']
    _, script, _ = Tool(runner, 'traffic').run(words=[MESH, *words])
    lines = re.sub(rb'rounds (\d+) fair', lambda it: b'\n'.join([b'rounds 1 fair'] * int(it[1])), script).split(b'\n')
    ends = [number for number, line in enumerate(lines) if line == b'rounds 1 fair']
    return b'\n'.join([*lines[:ends[6999] + 1], b'rounds 10000 fair', b''])


def means_of(packets):
    """The mean latencies of the packets that were sent in each of ten parts of the window."""
    found = [[int(it['latency']) for it in packets if it['latency'] and 1000 + 500 * part <= int(it['sent']) < 1500 + 500 * part]
             for part in range(10)]
    return ' '.join('%.3f' % (sum(it) / len(it)) for it in found if it)


def point(runner):
    """A point is the summary of the packets of its window, and the tokens that were sent and that arrived there."""
    if not runner.wanted('a point of the sweep'):
        return
    script, stats = script_of(runner), Tool(runner, 'stats')
    _, summary, _ = stats.run(words=[MESH, '-', '--format', 'csv', '--from', '1000', '--to', '5999'], data=script)
    packets = rows_by_name(stats.run(words=[MESH, '-', '--what', 'packets', '--format', 'csv'], data=script)[1].decode())
    tokens = [sum(int(it['bytes']) + 1 for it in packets if 1000 <= int(it[end] or 0) < 6000) for end in ('sent', 'arrived')]
    (told,) = rows_by_name(summary.decode())
    found = Tool(runner, 'sweep').run(words=[MESH, '--point', LOAD, SEED])
    cells = found[1].decode().strip().split(',')
    due = ['mesh', LOAD, SEED], [*map(str, tokens), '0', '0', *(told[it] for it in MEASURED), means_of(packets)]
    runner.judge('a point of the sweep', None if (found[0], cells[:3], cells[6:]) == (0, *due) else '%.400r' % (found,))


def cubes(runner):
    """Cubes for universal routing and for straight ways are accepted, and no channels depend on one another in a cycle."""
    for words in (['2', '3'], ['3', '2', '--plain'], ['1', '1'], ['6', '2']):
        made = subprocess.run([os.path.join(SWEEP, 'universal-cube'), *words], capture_output=True, check=True).stdout
        due = int(words[1]) << int(words[0])
        found = made.count(b'terminal '), made.count(b'random ')
        wrong = None if found == (due, 0 if '--plain' in words else due) else 'terminals and random headers: %r' % (found,)
        runner.judge('terminals of a cube %s' % ' '.join(words), wrong)
        for command, answer in (('check', b'accepted\n'), ('cycles', b'acyclic\n')):
            runner.case('%s of a cube %s' % (command, ' '.join(words)), answer, words=[command, '-'], data=made)


def carried_loads(points):
    """For each load of these points, whether the network carries it, over the first two seeds."""
    seeds = {}
    for row in points:
        if int(row['seed']) <= 2:
            seeds.setdefault(float(row['load']), []).append(row)
    return {load: all(row['sent'] == row['arrived'] and (row['still'], row['cut']) == ('0', '0') for row in rows)
            and 100 * sum(int(row['tokens_arrived']) for row in rows) >= 95 * sum(int(row['tokens_sent']) for row in rows)
            for load, rows in seeds.items()}


def wrong_of_curve(found, folder):
    """What is wrong with a sweep over two networks that are measured, of which the ring locks up, and one that is refused."""
    if found is None:
        return 'it has no end'
    status, out, told = found
    saturations = {line.split(maxsplit=5)[-1]: line.split()[0] for line in out.decode().splitlines()[1:]}
    if status != 1 or sorted(saturations) != ['ring', 'two halves']:
        return 'the networks are others'
    parts = (b'ring.txt may lock up: ', b'labels-that-loop.txt is left out: ', b' missing, and the network stands still\n')
    if [told.count(it) for it in parts] != [1, 1, 1]:
        return 'other things are told'
    with open(os.path.join(folder, 'points.csv'), newline='') as file:
        points = rows_by_name(file.read())
    for name, saturation in saturations.items():
        carried = carried_loads([row for row in points if row['network'] == name])
        above = min([load for load in carried if load > float(saturation)], default=1.0001)
        if not carried.get(float(saturation)) or carried.get(above) or above > 1.0101 * float(saturation) + 0.0001:
            return '%s is not saturated there' % name
    return wrong_of_picture(folder, saturations) if shutil.which('gnuplot') else None


def wrong_of_picture(folder, saturations):
    """What is wrong with the titles of a picture."""
    drawn = xml.etree.ElementTree.parse(os.path.join(folder, 'curve.svg'))
    titles = {it.text for it in drawn.iter('{http://www.w3.org/2000/svg}text')}
    wanted = {'not all packets arrive', *('%s, saturated at %s' % it for it in saturations.items())}
    return None if wanted <= {(it or '').strip() for it in titles} else 'the picture has %r' % titles


def sweep(tool):
    """A sweep from another folder, of files whose paths have spaces; once more over its own rows nothing is run."""
    if not tool.wanted('a sweep'):
        return
    with tempfile.TemporaryDirectory(prefix='a b') as folder:
        with open(os.path.join(folder, 'two halves.txt'), 'wb') as file:
            file.write(HALVES)
        shutil.copy(os.path.join(EXAMPLES, 'ring.txt'), folder)
        shutil.copy(os.path.join(EXAMPLES, 'labels-that-loop.txt'), folder)
        # The ring locks up within these rounds.
        words = ['--seeds', '2', '--most-seeds', '2', '--warm-up', '100', '--window', '2000', 'two halves.txt', 'ring.txt',
                 'labels-that-loop.txt']
        found = tool.run(words=words, folder=folder)
        wrong = wrong_of_curve(found, folder)
        tool.judge('a sweep', wrong and '%s: %.400r' % (wrong, found))
        tool.case('a sweep over its own rows: no run is wanted', b'', 1, words=[*words, '--commands'], folder=folder)


def faults(tool):
    """What is wrong with words and with files."""
    for words in WRONG:
        tool.case('usage of sweep %s' % ' '.join(words[:2]), b'', 2, words=[MESH, *words])
    tool.case('usage of sweep without a description', b'', 2)
    tool.case('a description that can be read but once', b'', 2, words=['-'], data=HALVES)
    tool.case('a description that is not there', b'', 3, b'c104: cannot read none.txt\n', words=[MESH, 'none.txt'])
    with tempfile.TemporaryDirectory() as folder:
        with open(os.path.join(folder, 'three.txt'), 'wb') as file:
            file.write(THREE)
        tool.case('a pattern that the network cannot have', b'', 1, b'c104-sweep: three.txt is left out: traffic 1 NotSquare\n',
                  words=['three.txt', '--pattern', 'transpose', '--loads', '0.1'], folder=folder)


PARTS = [point, cubes, *tool_parts('sweep', [sweep, faults])]
