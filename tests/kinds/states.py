"""Runs `c104-draw` over networks as they stand after a script.

Of a picture the arrows are read that show the state, each a line, and compared with what is known by hand. Every byte of
one is held by the cases that are folders.
"""

import os
import re
import tempfile

from case_runner import CANNOT_WRITE, EXAMPLES, FIRST_RUN, PLAN, SCRIPT_LIMIT, comments, lines_of

TOOL = 'c104-draw'

ARROW = re.compile(r'  "([\w-]+)" -> "([\w.-]+)" \[dir=(forward|back), label=" ([^"]*) "(, arrow(?:head|tail)=onormal, style=dotted)?, '
                   r'color="([^"]*)"(?:, style=(\w+))?, penwidth=(\d)(?:, constraint=false)?\]')
TITLE = re.compile(r'  label="(.*)"')
GREY = ', color=gray60'
CALM = r'in brackets: tokens that wait\ndotted: an output that is wanted'
LOCKED = CALM + r'\nred: these wait for one another, and nothing moves'

GRAY, WIDE = ('gray50', 'solid', '1'), '4'
A_0, A_1, B_0 = ('blue', 'solid', '2'), ('blue', 'dashed', '2'), ('darkorange', 'dashed', '2')

# Three switches in a row, with a terminal at each.
LINE = (b'buffer 8\nswitch A\nswitch B\nswitch C\nwire A.1 B.1\nwire B.2 C.1\nterminal a A.0\nterminal b B.0\n'
    b'terminal c C.0\nlabel tree A\n')
# Two switches, with a terminal at each. In round 3 the first byte of a's packet arrives, the second is in the output to b, and
# its end in that to B.
CUT = (b'switch A\nswitch B\nterminal a A.0\nterminal b B.0\nwire A.1 B.1\nrow A.0 2 1\nrow B.1 2 0\n')
CUT_PACKET = b'send a 01 aa eop\nrounds 3\ncontrol A 02\n'
# One link of a group leads nowhere.
NOWHERE = b'switch A\nterminal a A.0\nrow A.0 1 5\n'
TOO_LONG = b'c104: a script has at most 16777216 bytes; the lines that end within them were answered\n'
SENT = b'send a 01 aa bb eop\ncredit A.0\n' + b'cross a\n' * 3

# A description, a script, and the arrows: their ends' names, what they say, and how they are drawn.
DRAWN = {
    'nothing sent': (PLAN, b'', []),
    'a packet that waits to go out': (PLAN, b'send a 01 aa bb eop\n', [('a', 'A', 'a [4] to A.0', GRAY)]),
    'a packet of which some tokens have gone out': (PLAN, SENT, [('a', 'A', r'a 0\na [1] to A.0 [3]', A_0)]),
    'a header that wants an output': (PLAN, SENT + b'input A.0\n',
        [('a', 'A', r'a 0\na [1] to A.0 [3]', A_0), ('A', 'b', r'a 0\nA.0 wants A.1', ('blue', 'dotted', '2'))]),
    'a packet that holds two links': (PLAN, SENT + b'input A.0\nclaim A 0 1\ninput A.0\n',
        [('A', 'b', r'a 0\nA.1 [2] to b', A_0), ('a', 'A', r'a 0\na [1] to A.0 [1]', A_0)]),
    'a packet whose end is in the input': (PLAN, SENT + b'cross a\ninput A.0\nclaim A 0 1\n',
        [('A', 'b', r'a 0\nA.1 [1] to b', A_0), ('a', 'A', 'a to A.0 [3]', GRAY)]),
    'a packet that no link is held for': (PLAN, lines_of(FIRST_RUN[:11]), [('A', 'b', 'A.1 [2] to b [1]', GRAY)]),
    'a second packet behind the first': (PLAN, b'send a 01 eop\nsend a 01 aa eop\ncredit A.0\n' + b'cross a\n' * 3,
        [('a', 'A', r'a 1\na [2] to A.0 [3]', A_1)]),
    'a packet whose end is lost': (CUT, CUT_PACKET, [('B', 'b', r'?\nB.0 [1] to b', ('black', 'solid', '2'))]),
    'packets of two terminals': (PLAN, b'send b 00 aa eop\ncredit A.1\ncross b\n' + SENT,
        [('a', 'A', r'a 0\na [1] to A.0 [3]', A_0), ('b', 'A', r'b 0\nb [2] to A.1 [1]', B_0)]),
    'an output that leads nowhere': (NOWHERE, b'send a 00 aa eop\nrounds 9\n', [('A', 'A.5', 'A.5 [3]', GRAY)]),
    'a header that wants an output that leads nowhere': (NOWHERE, b'send a 00 aa eop\ncredit A.0\ncross a\ninput A.0\n',
        [('a', 'A', r'a 0\na [2] to A.0 [1]', A_0), ('A', 'A.5', r'a 0\nA.0 wants A.5', ('blue', 'dotted', '2'))]),
    'a packet that holds an output that leads nowhere': (NOWHERE, b'send a 00 aa eop\ncredit A.0\ncross a\ncross a\n'
        b'input A.0\nclaim A 0 5\n', [('A', 'A.5', r'a 0\nA.5 [1]', A_0), ('a', 'A', r'a 0\na [1] to A.0 [1]', A_0)]),
}


def arrows_of(text):
    """The arrows of a state, in order, each from where it begins."""
    found = []
    for it in filter(None, map(ARROW.fullmatch, text.decode().split('\n'))):
        tail, head, way, label, dotted, color, style, width = it.groups()
        ends = (tail, head) if way == 'forward' else (head, tail)
        assert dotted in (None, ', arrow%s=onormal, style=dotted' % ('head' if way == 'forward' else 'tail')), it[0]
        found.append((*ends, label.replace(r' \n ', r'\n'), (color, 'dotted' if dotted else style, width)))
    return found


def title_of(text):
    found = [it[1] for it in map(TITLE.fullmatch, text.decode().split('\n')) if it]
    return found[0] if len(found) == 1 else found


def compared(found, wanted):
    return None if found == wanted else 'wanted %s, found %s' % (wanted, found)


def drawn_after(runner, description, script, before=(), **fields):
    """What is printed of a description and a script, with the status."""
    with tempfile.NamedTemporaryFile() as file:
        file.write(description)
        file.flush()
        return runner.run(words=[*before, file.name, '-', '--state'], data=script, **fields)


def drawn(runner):
    for name, (description, script, arrows) in DRAWN.items():
        if runner.wanted(name):
            found = drawn_after(runner, description, script)
            runner.judge(name, compared((found[0], title_of(found[1]), arrows_of(found[1])), (0, CALM, arrows)))


def plain(runner):
    """But for its arrows, its title and that its edges are grey a picture is the network's own."""
    name = 'nothing but the network'
    if runner.wanted(name):
        own = runner.run(words=['-'], data=PLAN)[1].decode().split('\n')
        found = drawn_after(runner, PLAN, SENT)[1].decode().split('\n')
        left = [it.replace(GREY, '') for it in found if not ARROW.fullmatch(it) and not TITLE.fullmatch(it)]
        runner.judge(name, compared(left, own))


def ring(runner):
    """Four packets that wait for one another: each holds the way to the next switch and wants the one behind it."""
    name = 'a ring that is locked'
    if not runner.wanted(name):
        return
    with open(os.path.join(EXAMPLES, 'ring.txt'), 'rb') as file:
        description = file.read()
    with open(os.path.join(EXAMPLES, 'ring-packets.txt'), 'rb') as file:
        script = file.read()
    status, text, _ = drawn_after(runner, description, script)
    arrows = arrows_of(text)
    held = {it[:3] for it in arrows if it[3][0].startswith('red') and it[3][1:] in (('solid', WIDE), ('dashed', WIDE))}
    wanted = {it[:3] for it in arrows if it[3] == ('red', 'dotted', WIDE)}
    order = list(zip('ABCD', 'BCDA', 'dabc'))
    ways = {(here, there, r'%s 0\n%s.1 [8] to %s.2 [8]' % (here.lower(), here, there)) for here, there, _ in order}
    wishes = {(here, there, r'%s 0\n%s.2 wants %s.1' % (packet, here, here)) for here, there, packet in order}
    runner.judge(name, compared((status, title_of(text), held, wanted), (0, LOCKED, ways, wishes)))


def moving(runner):
    """Nothing is red while something moves, though packets wait for one another already."""
    name = 'a ring that moves yet'
    if runner.wanted(name):
        with open(os.path.join(EXAMPLES, 'ring.txt'), 'rb') as file:
            description = file.read()
        script = b'send a 02 01 eop\nsend b 03 01 eop\nrounds 2\n'
        _, text, _ = drawn_after(runner, description, script)
        runner.judge(name, compared((title_of(text), [it for it in arrows_of(text) if 'red' in it[3][0]]), (CALM, [])))


def worm(runner):
    """A packet of 40 bytes through three switches: once its head has come to c it holds each link on its way."""
    name = 'a worm'
    if runner.wanted(name):
        script = b'send a 02 ' + b'00 ' * 39 + b'eop\nrounds 12\n'
        _, text, _ = drawn_after(runner, LINE, script)
        found = [it[:2] for it in arrows_of(text) if it[2].startswith(r'a 0\n') and it[3] == A_0]
        runner.judge(name, compared(found, [('A', 'B'), ('B', 'C'), ('C', 'c'), ('a', 'A')]))


def refused(runner):
    """A faulty line is left out, and so is what isn't done; a description is answered as by `draw`."""
    for name, script, arrows in (
            ('a faulty line', b'frob\n' + SENT, [('a', 'A', r'a 0\na [1] to A.0 [3]', A_0)]),
            ('a script that is too long', b'send a 01 eop\n' + comments(SCRIPT_LIMIT), [('a', 'A', 'a [2] to A.0', GRAY)])):
        if runner.wanted(name):
            found = drawn_after(runner, PLAN, script)
            runner.judge(name, compared((found[0], arrows_of(found[1])), (1, arrows)))
    if runner.wanted('a script that is too long, explained'):
        found = drawn_after(runner, PLAN, comments(SCRIPT_LIMIT + 1), before=['--explain'])
        runner.judge('a script that is too long, explained', compared((found[0], found[2]), (1, TOO_LONG)))
    for name, description, text in (
            ('a faulty description', b'switch A\nwire A.0 A.1\n', b'description 2: 8 SelfWire\n'),
            ('a network that is not labelled', b'switch A\nswitch B\nlabel tree A\n', b'label 1 NotConnected\n')):
        if runner.wanted(name):
            runner.judge(name, compared(drawn_after(runner, description, b''), (1, text, b'')))
    if runner.wanted('a refused event'):
        found = drawn_after(runner, PLAN, b'send z 01 eop\n')
        runner.judge('a refused event', compared((found[0], arrows_of(found[1])), (0, [])))


def words(runner):
    for name, given in (('no script', ['--state']), ('no state', ['-']), ('a header too', ['-', '--state', '--header', '1']),
                        ('a cycle too', ['-', '--state', '--cycles'])):
        runner.case(name, b'', 2, words=['/dev/null', *given])


def devices(runner):
    runner.case('no such script', b'', 3, b'c104: cannot read none/such\n', words=['/dev/null', 'none/such', '--state'])
    runner.case('no such description', b'', 3, b'c104: cannot read none/such\n', words=['none/such', '-', '--state'])
    with open('/proc/self/mem', 'rb') as unreadable:
        runner.case('a script that fails', b'', 3, b'c104: cannot read -\n', words=['/dev/null', '-', '--state'],
                    stdin=unreadable)
    with open('/dev/full', 'wb') as full:
        runner.case('a writer that fails', None, 3, CANNOT_WRITE, words=['/dev/null', '-', '--state'], data=b'',
                    stdout=full)


PARTS = [drawn, plain, ring, moving, worm, refused, words, devices]
