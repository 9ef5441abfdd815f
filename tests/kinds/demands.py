"""Runs `c104-paths` for what links carry under a matrix of traffic, for the wires between two halves of a network, and over networks
with different wires. What is wanted is counted by hand, or known of meshes, cubes, tori and Clos networks.
"""

import csv
import io
import os
import tempfile

from case_runner import PLAN
from kinds.paths import EITHER, SUMMARIES, SUMMARY, WIRE, csv_of
from tools import tool_parts

# a sends one token a round to b, over a group of two links, and b half of one to a, in both forms of a matrix.
MATRICES = {
    'by rows': b'sender,receiver,load\na,b,1\nb,a,0.25\nb,a,2.5e-1\n',
    'by labels': b'\xef\xbb\xbfsender,label,load\r\na,1,1.0\r\nb,0,0.5\r\n',
    'by columns': b',a,b\n\na,,1\nb,0.5,\n',
}
CARRIED = ['A.0,a,0.500,0.500,0.500', 'A.1,B.1,0.000,0.500,1.000', 'A.2,C.1,0.000,0.500,1.000', 'B.0,b,1.000,1.000,1.000',
           'B.1,A.1,0.500,0.500,0.500', 'B.2,C.2,0.000,0.000,0.000', 'C.1,A.2,0.000,0.000,0.000', 'C.2,B.2,0.000,0.500,1.000',
           'a,A.0,1.000,1.000,1.000', 'b,B.0,0.500,0.500,0.500']
NAMES = b'sender,receiver,load\n'
FAULTS = {
    'no row': (b'\n\n', 'demand 1: a first row with names is wanted'),
    'a receiver that there is not': (NAMES + b'a,z,1\n', 'demand 2: no terminal z'),
    'a sender that there is not': (NAMES + b'\n\nz,a,1\n', 'demand 4: no terminal z'),
    'a label of nobody': (b'sender,label,load\na,7,1\n', 'demand 2: no label 7'),
    'no label': ('sender,label,load\na,\u00b2,1\n'.encode(), 'demand 2: no label \u00b2'),
    'a cell that is missing': (NAMES + b'a,b,1\na,b\n', 'demand 3: 3 cells are wanted, as in the first row'),
    'a cell too many': (b',a,b\na,1,1,1\n', 'demand 2: 3 cells are wanted, as in the first row'),
    'a load below 0': (NAMES + b'a,b,-1\n', 'demand 2: a load is a number, 0 or more: -1'),
    'a load that is none': (NAMES + b'a,b,much\n', 'demand 2: a load is a number, 0 or more: much'),
    'a load that is too large': (NAMES + b'a,b,1e999999999\n', 'demand 2: a load is a number, 0 or more: 1e999999999'),
}
# A whole network, the fewest wires between halves of its terminals, and how many terminals these have.
HALVES = {
    'mesh 4 4 1': (4, 8), 'cube 3 2': (4, 8), 'torus 4 4 1': (16, 8),
    'clos 4 3 2': (6, 4), 'mesh 2 2 2 3': (6, 4), 'mesh 1 1 2': (0, 0),
}
WIRING = ['switches', 'terminals', 'wires', 'bisection', 'bisection_exact', 'uniform_rate']


def write(folder, name, data):
    path = os.path.join(folder, name)
    with open(path, 'wb') as file:
        file.write(data)
    return path


def demands(runner):
    words = ['--what', 'demand', '--format', 'csv', '--demand']
    with tempfile.TemporaryDirectory() as folder:
        net = write(folder, 'net.txt', EITHER)
        for name, matrix in MATRICES.items():
            path = write(folder, 'matrix.csv', matrix)
            wanted = csv_of(['port', 'to', 'least', 'even', 'most'], [[it] for it in CARRIED])
            runner.case('what links carry, ' + name, wanted, 0, b'', words=[*words, path, net])
            runner.case('what links carry, %s, from standard input' % name, wanted, 0, b'', words=[*words, '-', net], data=matrix)
        for name, (matrix, line) in FAULTS.items():
            path = write(folder, 'matrix.csv', matrix)
            runner.case('traffic with ' + name, line.encode() + b'\n', 1, b'', words=[*words, path, net])
        path = write(folder, 'matrix.csv', NAMES + b'a,"' + b'b' * 200000)
        if runner.wanted('traffic that is no CSV'):
            found = runner.run(words=[*words, path, net])
            is_told = found[0] == 1 and found[1].startswith(b'demand 2: no CSV: ') and found[2] == b''
            runner.judge('traffic that is no CSV', None if is_told else '%.300r' % (found,))
        runner.case('traffic that is not there', b'', 3, b'c104: cannot read none.csv\n', words=[*words, 'none.csv', net])


def halves(runner):
    for shape, (wires, terminals) in HALVES.items():
        if runner.wanted('halves of ' + shape):
            found = runner.run(words=['--what', 'bisection', '--format', 'csv', '-'], data=shape.encode() + b'\n')
            row = next(csv.DictReader(io.StringIO(found[1].decode())), {})
            counts = [row.get(it) for it in ('wires', 'exact', 'terminals')]
            runner.judge('halves of ' + shape, None if counts == [str(wires), 'yes', str(terminals)] else '%.300r' % (found,))


def other_wires(runner):
    """Networks that have different wires, and one alone."""
    with tempfile.TemporaryDirectory() as folder:
        write(folder, 'wire.txt', WIRE)
        write(folder, 'plan.txt', PLAN)
        cells = {name: ['' if it == '-' else it for it in SUMMARIES[name][1]] for name in ('one wire', 'one switch')}
        rows = [
            ['wire.txt', 2, 2, 1, 1, 'yes', '1.000', *cells['one wire']],
            ['plan.txt', 1, 2, 0, 0, 'yes', '1.000', *cells['one switch']],
        ]
        for name, count in (('networks with other wires', 2), ('a network beside none', 1)):
            runner.case(name, csv_of(['file', *WIRING, *SUMMARY], rows[:count]), 0, b'', folder=folder,
                        words=['--any-wiring', '--format', 'csv', *(it[0] for it in rows[:count])])


PARTS = tool_parts('paths', [demands, halves, other_wires])
