"""Runs `c104-plan` over small networks without some of their parts.

Of labels it is known that `check` accepts them and `cycles` finds no cycle; that the network is the one without these parts; that
each terminal has as many labels as before, and no label has two; and that a table of candidates is told, the best first.
"""

import os
import re

from case_runner import CANNOT_READ, PLAN, Runner
from check_rules import Rules
from kinds import cycles
from kinds.check import OVER_A_WIRE

TOOL = 'c104-plan'
# A ring of four with a wire across, whose own labels go one way round, and terminals with several labels.
ACROSS = cycles.ROUND.replace(b'terminal b B.0\n', b'terminal b B.0 labels 2 from 4\n') + b'wire A.3 C.3\n'
# A description, the parts that are taken away, the kinds that are tried, and further words.
PLANNED = {
    'a mesh without a wire': (b'mesh 3 2 1\n', ['s1.3'], 'own,up-down,shape', []),
    'a cube without a switch': (b'cube 3 1\n', ['s5'], 'detours,roots', []),
    'a torus without a wire and a switch': (b'torus 3 3 1\n', ['s0.0', 's4'], 'up-down,tree', []),
    'a ring by hand without a wire, measured': (ACROSS, ['D.1'], 'up-down,roots', ['--measure', '1']),
}
OWN = b'candidate '
TOLD = re.compile(rb'^# c104-plan: - without (.*), labelled by (.*); accepted, acyclic\n')
REFUSED = {
    'a part that there is not': (PLAN, ['--without', 'A.1'], b'plan 2 NoSuchPart: A.1\n'),
    'no link of a switch': (PLAN, ['--without', 'A.\u00b2'], 'plan 2 NoSuchPart: A.\u00b2\n'.encode()),
    'parts that are not joined': (b'mesh 3 1 1\n', ['--without', 's1'], b'plan 3 NotConnected\n'),
    'random headers': (OVER_A_WIRE, [], b'plan 1 RandomHeaders: A.0\n'),
    'a faulty description': (b'frob\n', [], b'description 1: 2 UnknownWord\n'),
}
USAGE = ([], ['-', '--try', 'magic'], ['-', '--measure', 'x'], ['-', '--load', '2'], ['-', '--frob'])


def core(runner):
    """A runner of the program that the tool asks."""
    return Runner([os.environ['C104']], runner.kind)


def rows_of(runner, text):
    """A description with its labels as plain lines."""
    return Rules(core(runner).run(words=['label', '--rows', '-'], data=text)[1])


def left_of(rules, gone):
    """The wires and terminals that a network has without some parts."""
    dead = {it for it in gone if '.' not in it}
    cut = set(gone) | {rules.far[it] for it in gone if it in rules.far}
    far = {one: other for one, other in rules.far.items() if '.' in one and '.' in other and one not in cut}
    wires = {one: other for one, other in far.items() if not {one.split('.')[0], other.split('.')[0]} & dead}
    return wires, {name: (port, len(labels)) for name, port, labels in rules.terminals if port.split('.')[0] not in dead}


def wrong_plan(runner, text, gone, found):
    """What is wrong with what is printed of a network without some parts, or None."""
    status, out, told = found
    first = TOLD.match(out)
    if status or not first or first[1].decode().split() != gone:
        return '%.300r' % (found,)
    lines = told.splitlines()
    if not lines[0].startswith(OWN) or lines[1][:36].rstrip() != first[2]:
        return 'the table is %.300r' % told
    answers = [core(runner).run(words=[word, '-'], data=out)[1] for word in ('check', 'cycles')]
    if answers != [b'accepted\n', b'acyclic\n']:
        return 'it is %r' % answers
    rules = Rules(out)
    if left_of(rules, []) != left_of(rows_of(runner, text), gone):
        return 'it is another network'
    labels = [label for _, _, owned in rules.terminals for label in owned]
    return None if len(labels) == len(set(labels)) else 'a label has two owners'


def planned(runner):
    for name, (text, gone, kinds, words) in PLANNED.items():
        if runner.wanted(name):
            without = [word for it in gone for word in ('--without', it)]
            found = runner.run(words=['-', *without, '--try', kinds, *words], data=text)
            runner.judge(name, wrong_plan(runner, text, gone, found))


def refused(runner):
    for name, (text, words, line) in REFUSED.items():
        runner.case(name, line, 1, b'', words=['-', *words, '--try', 'up-down'], data=text)
    for words in USAGE:
        if runner.wanted('usage of c104-plan %s' % ' '.join(words)):
            found = runner.run(words=words, data=PLAN)
            is_told = found[:2] == (2, b'') and found[2].startswith(b'c104-plan: ') and found[2].count(b'\n') == 1
            runner.judge('usage of c104-plan %s' % ' '.join(words), None if is_told else '%.300r' % (found,))
    runner.case('a file that is not there', b'', 3, b'c104: cannot read none/such\n', words=['none/such'])
    with open('/proc/self/mem', 'rb') as unreadable:
        runner.case('an input that fails', b'', 3, CANNOT_READ, words=['-'], stdin=unreadable)


PARTS = [planned, refused]
