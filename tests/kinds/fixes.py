"""Follows the fixes that people are told of refused labels, one after another, until the labels are accepted. One fix may
change rows of several inputs: no more lines are told at once than a screen has.

The rows of a mesh are right but for 19, each of which sinks another terminal's packets, or gives them to a terminal that
they aren't for. All other rows lead each of these headers the shortest way, so a fix by the nearest group gives the least
hops that the wires allow.

Other descriptions have a table of a whole switch. A row that is wrong at all inputs that have it is told of the switch. Of
one input all rows have to be told, since it loses that table with the first row of its own.
"""

import os
import random

from case_runner import EXAMPLES
from check_rules import Rules
from kinds.check import A_ROWS, CHANGE, WIRE, mended
from networks import mesh, row_lines

BEGIN = b'c104: -: '
WRONG_ROWS = 19
MOST_FIXES = 100

# Header 0 comes to a by link 1, and by a detour over B too, which begins at a lower link.
DETOUR = (b'switch A\nswitch B\nterminal a A.1\nwire A.0 B.0\nwire A.2 B.1\nrow B.0 1 1\nrow A.2 1 1\n'
          b'row A.0 1 1\nrow B.1 1 1\n')

# The wire between A and B with the labels from 3 on, and the table of A from there on.
FROM_THREE = (WIRE.replace(b'a A.0', b'a A.0 from 3').replace(b'b B.0', b'b B.0 from 4')
              + b'base A 3\nrow A 4 0\nrow A 5 1\n')
# Descriptions by tables of whole switches, what `check` prints, what is wrong, what is told of one fix, and after how many the
# labels are accepted.
BY_SWITCHES = {
    'a row that is wrong': (WIRE + b'row A 1 0\nrow A 2 1\nrow B 1 1\nrow B 2 1\n',
        'refused 7 Loop: from a header 1 walk A.0 B.1 A.1 B.1',
        'header 01 (label 1) belongs to b, but A.1 may send it by link 1 to B.1, where it has been',
        ['replace line 9: row B 2 1', 'by: row B 2 0'], 1),
    'a row that is missing': (WIRE + A_ROWS + b'row B 1 1\n', 'refused 6 DeadEnd: from a header 1 walk A.0 B.1',
        'header 01 (label 1) belongs to b, but B.1 selects no link for it', ['add: row B 2 0'], 1),
    'an input with a row of its own': (WIRE + A_ROWS + b'row B 1 1\nrow B 2 0\nrow B.0 1 1\n',
        'refused 6 DeadEnd: from b header 1 walk B.0', 'header 01 (label 1) belongs to b, but B.0 selects no link for it',
        ['add: row B.0 2 0'], 1),
    'a base': (FROM_THREE + b'base B 3\nrow B 4 1\nrow B 5 1\n', 'refused 7 Loop: from a header 4 walk A.0 B.1 A.1 B.1',
        'header 04 (label 4) belongs to b, but A.1 may send it by link 1 to B.1, where it has been',
        ['replace line 11: row B 5 1', 'by: row B 5 0'], 1),
    'a base of its own': (FROM_THREE + b'base B 3\nbase B.1 2\nrow B 4 1\nrow B 5 1\n',
        'refused 7 Loop: from a header 4 walk A.0 B.1 A.1 B.1',
        'header 04 (label 4) belongs to b, but A.1 may send it by link 1 to B.1, where it has been',
        ['add: base B.0 3', 'add: row B.0 4 1', 'add: row B.0 5 0', 'add: row B.1 4 1', 'add: row B.1 5 0'], 1),
    'a base alone': (FROM_THREE + b'base B 3\n', 'refused 6 DeadEnd: from a header 4 walk A.0 B.1',
        'header 04 (label 4) belongs to b, but B.1 selects no link for it',
        ['add: row B 4 1', 'add: row B 5 0'], 1),
}
# Three switches in a row, with a terminal on each. The wire from B to C was moved from link 2 of B to link 3.
MOVED = (b'switch A\nswitch B\nswitch C\nterminal a A.0\nterminal b B.0\nterminal c C.0\nwire A.1 B.1\nwire B.3 C.1\n'
         b'row A.0 1 0\nrow A.0 3 1\nrow A.1 3 0\nrow B.0 1 1\nrow B.0 2 0\nrow B.0  3 2 # to C\nrow B.1 2 0\nrow B.1 3 2\n'
         b'row B.2 1 1\nrow B.2 2 0\nrow C.0 2 1\nrow C.0 3 0\nrow C.1 3 0\n')
# The same of descriptions in which one line or more are missing or wrong.
TOGETHER = {
    'an input without rows': (WIRE + A_ROWS + b'row B.0 1 1\nrow B.0 2 0\n', 'refused 6 DeadEnd: from a header 1 walk A.0 B.1',
        'header 01 (label 1) belongs to b, but B.1 selects no link for it', ['add: row B.1 2 0'], 1),
    'no rows': (WIRE, 'refused 6 DeadEnd: from a header 0 walk A.0',
        'header 00 (label 0) belongs to a, but A.0 selects no link for it',
        ['add: row A 1 0', 'add: row A 2 1', 'add: row B 1 1', 'add: row B 2 0'], 1),
    'a row of four headers': (WIRE.replace(b'b B.0', b'b B.0 labels 4') + b'row A.0 1 0\nrow A.0 5 0\nrow A.1 1 0\n'
        b'row B.0 1 1\nrow B.0 5 0\nrow B.1 5 0\n', 'refused 5 WrongEnd: from a header 1 walk A.0',
        'header 01 (label 1) belongs to b, but A.0 may send it by link 0 to a',
        ['replace line 7: row A.0 5 0', 'by: row A.0 5 1'], 1),
    'a wire that was moved': (MOVED, 'refused 6 DeadEnd: from a header 2 walk A.0 B.1',
        'header 02 (label 2) belongs to c, but B.1 may send it by link 2, which has no wire',
        ['replace line 14: row B.0 3 2', 'by: row B.0 3 3', 'replace line 16: row B.1 3 2', 'by: row B.1 3 3',
         'add: row B.3 1 1', 'add: row B.3 2 0'], 1),
}
# The row of examples/ring.txt that breaks its cycle, where it is one of a table of C that C.0 alone has.
RING_BREAK = ['add: row C.0 1 2', 'add: row C.0 2 2', 'add: row C.0 3 0', 'add: row C.0 4 1']


def selects_of(text):
    """What each input of a description with rows selects for each label, in the order of its rows."""
    rules = Rules(text)
    labels = range(len(rules.terminals))
    return {port: [rules.select(port, header) for header in labels] for port in rules.rows}


def with_selects(text, selects):
    """The description with these selects in place of its rows."""
    lines = [line for line in text.splitlines() if not line.startswith(b'row ')]
    lines += [line.encode() for port, its in selects.items() for line in row_lines(port, its)]
    return b''.join(line + b'\n' for line in lines)


def with_wrong_rows(text, chance):
    """The description with rows that are wrong for a header each, which is sunk or given to a wrong terminal at an input
    that it may come to."""
    rules, selects = Rules(text), selects_of(text)
    for header in chance.sample(range(len(rules.terminals)), WRONG_ROWS):
        _, port, _ = chance.choice([it for it in rules.terminals if header not in it[2]])
        walk = [port]
        while '.' in (after := rules.far['%s.%s' % (walk[-1].split('.')[0], rules.select(walk[-1], header))]):
            walk.append(after)
        wrong = chance.choice(walk)
        own = [end.split('.')[1] for _, end, labels in rules.terminals
               if end.split('.')[0] == wrong.split('.')[0] and header not in labels]
        selects[wrong][header] = chance.choice(['sink', *own])
    return with_selects(text, selects)


def changes_of(told):
    """The lines that are told of a fix."""
    lines = (line.removeprefix(BEGIN) for line in told.splitlines())
    return [line for line in lines if CHANGE.fullmatch(line)]


def fixed(text, told):
    """The description with the lines that were told put in, or None where there are none or they don't fit."""
    advice = changes_of(told)
    return mended(text, advice) if advice else None


def followed(runner, text):
    """The description once all fixes are followed, and how many there were; or what was told where none helps."""
    for count in range(MOST_FIXES):
        status, printed, told = runner.run(words=['check', '-', '--explain'], data=text)
        if (status, printed) == (0, b'accepted\n'):
            return text, count
        after = fixed(text, told)
        if after is None:
            return None, '%.400r' % ((status, printed, told),)
        text = after
    return None, 'not accepted after %d fixes' % MOST_FIXES


def hops(rules, port, header):
    """How many wires a header goes over from an input to its owner, where no group has two links."""
    other = rules.far['%s.%s' % (port.split('.')[0], rules.select(port, header))]
    return 1 + hops(rules, other, header) if '.' in other else 0


def least_hops(rules, start, goal):
    """The fewest wires from a switch to another."""
    front, count = {start}, 0
    while goal not in front:
        front |= {other.split('.')[0] for port, other in rules.far.items()
                  if '.' in other and port.split('.')[0] in front}
        count += 1
    return count


def wrong_of(runner, text):
    """What is wrong with the labels that come of following all fixes, or None."""
    accepted, told = followed(runner, text)
    if accepted is None:
        return told
    if not told:
        return 'nothing was wrong'
    rules = Rules(accepted)
    far = [(name, other) for name, port, _ in rules.terminals for other, end, labels in rules.terminals
           if hops(rules, port, labels.start) != least_hops(rules, port.split('.')[0], end.split('.')[0])]
    return 'after %d fixes there are shorter ways: %r' % (told, far) if far else None


def nearest(runner):
    """A fix that goes straight to the terminal."""
    told = b'c104: -: header 00 (label 0) belongs to a, but A.1 selects no link for it\nc104: -: add: row A.1 1 1\n'
    runner.case('no detour', b'refused 6 DeadEnd: from a header 0 walk A.1\n', 1, told,
                words=['check', '-', '--explain'], data=DETOUR)


def wrong_rows(runner):
    for seed in range(3):
        name = '19 wrong rows of a mesh, %d' % seed
        if runner.wanted(name):
            runner.judge(name, wrong_of(runner, with_wrong_rows(mesh(5, 4, 1), random.Random(seed))))


def by_switches(runner):
    cases = {'a table of a switch, ' + name: case for name, case in BY_SWITCHES.items()}
    for name, (description, printed, wrong, lines, fixes) in (cases | TOGETHER).items():
        told = ''.join('c104: -: %s\n' % it for it in [wrong, *lines]).encode()
        runner.case(name, printed.encode() + b'\n', 1, told, words=['check', '-', '--explain'], data=description)
        if runner.wanted(name):
            count = followed(runner, description)[1]
            runner.judge(name + ', followed', None if count == fixes else 'wanted %d fixes, found %r' % (fixes, count))


def broken_cycle(runner):
    """The row that breaks a cycle, told of an input that has its switch's table."""
    name = 'a table of a switch, a cycle'
    if not runner.wanted(name):
        return
    with open(os.path.join(EXAMPLES, 'ring.txt'), 'rb') as file:
        ring = file.read().replace(b'row C.0', b'row C')
    _, _, told = runner.run(words=['check', '-', '--explain'], data=ring)
    lines = [line.decode() for line in changes_of(told)]
    runner.judge(name, None if lines == RING_BREAK else '%r' % told)
    runner.case(name + ', followed', b'acyclic\n', 0, b'', words=['cycles', '-'], data=fixed(ring, told))


PARTS = [nearest, wrong_rows, by_switches, broken_cycle]
