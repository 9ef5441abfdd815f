"""Runs `c104-draw` over the rounds of runs.

A picture is read by Python's reader of XML: its rows with the rectangles in them, as rounds, and its list of packets. What
they are is worked out by hand, round by round, from docs/FORMATS.md. Every byte of a picture is held by the cases that are
folders and by the pictures of runs of docs/PICTURES.md, which were looked at; and every byte of a table by its rows.
"""

import csv
import io
import json
import os
import re
import xml.etree.ElementTree as xml

from case_runner import CANNOT_WRITE, EXAMPLES, MIB, PLAN, SCRIPT_LIMIT, SCRIPT_LINE, TOP, comments
from kinds.states import LINE
from kinds.stats import FIRST, Files, csv_text, json_text, table_text

TOOL = 'c104-draw'

SVG = '{http://www.w3.org/2000/svg}'
TITLE = re.compile(r'rounds (\d+) to (\d+); hatched: a packet holds the wire, and nothing crosses')
FITS = re.compile(rb'draw 1 TooLarge: --from (\d+) --to (\d+) fits\n')
CELL, ROW, FIRST_ROW = 8, 14, 2
# How wide a letter is at most: that of a browser's font is a little wider than what a picture reckons with.
LETTER = 6.02
LAST = 4294967295
COLUMNS = ('port', 'to', 'sender', 'number', 'first', 'last', 'state')
TEXT_OF = {'table': table_text, 'csv': csv_text, 'json': json_text}

# The fills of the packets 0 and 1 of a, and of 0 of b, and of one that has no name; those in which nothing crosses are hatched.
A_0, A_1, B_0, UNNAMED = 'blue', 'url(#blue-1)', 'url(#darkorange-1)', 'black'
A_IDLE, UNNAMED_IDLE = 'url(#blue-idle)', 'url(#black-idle)'

# The packet of the first run, and what is drawn of it.
FIRST_ROWS = ['A', ('a to A.0', ('a 0', A_0, 1, 3)), ('A.1 to b', ('a 0', A_0, 2, 4))]

# Two switches. Packets that come to the second go to a link that nothing leads on from.
STUCK = (b'buffer 8\nswitch A\nswitch B\nwire A.1 B.1\nterminal a A.0\nrow A.0 1 1\nrow B.1 1 7\n')
# Of a packet of 24 tokens 16 cross to B, up to round 17: as many as the input and the output there have room for. The other
# eight wait in A's output, so that the last comes to A in round 24.
STUCK_PACKET = b'send a 00' + b' 11' * 22 + b' eop\nrounds 30\n'
# Resets A, lets it send everything by link 1 again, and has B throw everything away.
# Behind it nothing is done for fifty rounds.
STUCK_LONG = STUCK_PACKET + b'rounds 50\n'
# 1,204 tokens, of which a's link takes one in each round from round 1 on, and the link to b one in each from round 2 on.
LONG_PACKET = b'send a 01' + b' 11' * 1200 + b' eop\nrounds 1001\n'
RESET = b'control A 02\npoke A 0140 1\npoke A 0180 1\ncontrol A 01\ncontrol B 02\ncontrol B 01\n'

# A description, a script, words, the first and the last round, and the rows: a name, or a name with what is drawn there, each
# the packet, its fill, and the first and the last round.
DRAWN = {
    'the packet of the first run': (PLAN, FIRST, [], 1, 9, FIRST_ROWS),
    'an event behind the last token': (PLAN, FIRST + b'rounds 11\nsend b 00 eop\n', [], 1, 20, FIRST_ROWS),
    'an event that is not done': (PLAN, FIRST + b'rounds 11\ncross a\nclaim A 0 9\n', [], 1, 9, FIRST_ROWS),
    'from a round to another': (PLAN, FIRST, ['--from', '2', '--to', '3'], 2, 3,
        ['A', ('a to A.0', ('a 0', A_0, 2, 3)), ('A.1 to b', ('a 0', A_0, 2, 3))]),
    'a round in which one wire is still': (PLAN, FIRST, ['--from', '4'], 4, 9, ['A', ('A.1 to b', ('a 0', A_0, 4, 4))]),
    'no more rounds than there are': (PLAN, FIRST, ['--to', '4000000000'], 1, 9,
        ['A', ('a to A.0', ('a 0', A_0, 1, 3)), ('A.1 to b', ('a 0', A_0, 2, 4))]),
    'rounds behind the last': (PLAN, FIRST, ['--from', '77'], 77, 77, []),
    'a packet that holds a wire, behind the last round that is drawn otherwise': (STUCK, STUCK_LONG, ['--from', '60'], 60, 60,
        ['A', ('A.1 to B.1', ('a 0', A_IDLE, 60, 60))]),
    'no more than the first round there': (STUCK, STUCK_LONG, ['--from', '60', '--to', '70'], 60, 60,
        ['A', ('A.1 to B.1', ('a 0', A_IDLE, 60, 60))]),
    'the last round of a run': (STUCK, STUCK_LONG, ['--from', '80'], 80, 80, ['A', ('A.1 to B.1', ('a 0', A_IDLE, 80, 80))]),
    'a round behind the end of a run': (STUCK, STUCK_LONG, ['--from', '81'], 81, 81, []),
    'rounds of ten digits': (PLAN, FIRST, ['--from', str(LAST), '--to', str(LAST)], LAST, LAST, []),
    'a number of four digits in the last column': (PLAN, LONG_PACKET, ['--from', '901'], 901, 1001,
        ['A', ('a to A.0', ('a 0', A_0, 901, 1001)), ('A.1 to b', ('a 0', A_0, 901, 1001))]),
    'a packet that has yet to leave': (PLAN, b'send a 01 eop\n', [], 0, 0, []),
    'nothing is asked': (PLAN, b'', [], 0, 0, []),
    'no network': (b'', b'rounds 3\n', [], 0, 3, []),
    'events before the first round': (PLAN, b'send a 01 68 eop\ncredit A.0\ncross a\ncross a\n', [], 0, 0,
        ['A', ('a to A.0', ('a 0', A_0, 0, 0))]),
    'packets one after the other': (PLAN, b'send a 01 eop\nsend a 01 eop\nrounds 9\n', ['--to', '4'], 1, 4,
        ['A', ('a to A.0', ('a 0', A_0, 1, 2), ('a 1', A_1, 3, 4)), ('A.1 to b', ('a 0', A_0, 2, 3), ('a 1', A_1, 4, 4))]),
    'packets that end outside of rounds': (PLAN, b'send a 01 eop\nsend a 01 eop\ncredit A.0\n' + b'cross a\n' * 3, [], 0, 0,
        ['A', ('a to A.0', ('a 0', A_0, 0, 0), ('a 1', A_1, 0, 0))]),
    'a token before the first round': (PLAN, b'send a 01 68 eop\ncredit A.0\ncross a\nrounds 3\n', ['--to', '1'], 0, 1,
        ['A', ('a to A.0', ('a 0', A_0, 0, 1))]),
    # Its end is in A's output at the Reset. Behind that the end of the next packet crosses from A to B in round 33, and then
    # nothing is left to do.
    'a packet that a reset cuts': (STUCK, STUCK_PACKET + RESET + b'send a 00 eop\nrounds 9\n', [], 1, 38,
        ['A', ('a to A.0', ('a 0', A_0, 1, 24), ('a 1', A_1, 31, 32)),
            ('A.1 to B.1', ('?', UNNAMED, 2, 17), ('?', UNNAMED_IDLE, 18, 30), ('a 1', A_1, 32, 33))]),
    'the end of a run behind a reset': (STUCK, STUCK_PACKET + b'control A 02\n', ['--from', '29'], 29, 30,
        ['A', ('A.1 to B.1', ('?', UNNAMED_IDLE, 29, 30))]),
    # The end of the packet comes to A behind the Reset, without a header.
    'a packet that is cut on its way in': (PLAN, b'send a 01 aa eop\nrounds 2\ncontrol A 02\npoke A 0140 2\npoke A 0180 1\n'
        b'control A 01\nsend a 01 cc eop\nrounds 9\n', ['--to', '8'], 1, 8,
        ['A', ('a to A.0', ('a 0', A_0, 1, 3), ('a 1', A_1, 4, 6)), ('A.1 to b', ('?', UNNAMED, 2, 2), ('a 1', A_1, 5, 7))]),
    'a reset behind the end of a packet': (PLAN, FIRST + b'control A 02\nrounds 9\n', ['--to', '9'], 1, 9, FIRST_ROWS),
    # What a sends isn't at B, and the rounds are those of all wires.
    'the wires at one switch': (STUCK, STUCK_PACKET, ['--only', 'B', '--to', '25'], 1, 25,
        ['A', ('A.1 to B.1', ('a 0', A_0, 2, 17), ('a 0', A_IDLE, 18, 25))]),
    'the wires at two switches': (STUCK, STUCK_PACKET, ['--only', 'B,A', '--to', '25'], 1, 25,
        ['A', ('a to A.0', ('a 0', A_0, 1, 24)), ('A.1 to B.1', ('a 0', A_0, 2, 17), ('a 0', A_IDLE, 18, 25))]),
    'two switches, one by one': (PLAN + b'switch Z\n', FIRST, ['--only', 'Z', '--only', 'A'], 1, 9, FIRST_ROWS),
    'a switch without wires': (PLAN + b'switch Z\n', FIRST, ['--only', 'Z'], 1, 9, []),
    'a packet of another terminal': (PLAN, b'send b 00 eop\nrounds 9\n', ['--to', '3'], 1, 3,
        ['A', ('A.0 to a', ('b 0', B_0, 2, 3)), ('b to A.1', ('b 0', B_0, 1, 2))]),
}

# Pictures of docs/pictures, with the example that each is of, and the script where that isn't in the same text.
LONG = bytes(range(1, 32)).hex(' ').encode() + b' eop\n'
PICTURED = {
    'all-to-all': ('mesh-all-to-all.txt', None),
    'commands': ('configured-by-commands.txt', None),
    'cube-corners': ('cube-corners.txt', None),
    'many-labels': ('many-labels.txt', None),
    'mended-table': ('mended-table.txt', None),
    'universal-routing': ('universal-routing.txt', None),
    'round': ('labels-that-loop.txt', b'send a 01 eop\nrounds 40\n'),
    'astray': ('label-without-a-way.txt', b'send a 02 11 eop\nrounds 12\nsend a 02 22 eop\ncross a\ninput A.0\n'
        b'claim A 0 2\nrounds 12\n'),
}
TURNS = b'send b 02 ' + LONG + b'rounds 2\nsend a 02 ' + LONG + b'rounds 16\nrounds 60\n'


def example(name):
    with open(os.path.join(EXAMPLES, name), 'rb') as file:
        return file.read()


def rows_of(picture, cell=CELL):
    """The rows, and what stands in each: the packet, its fill, and the first and the last round."""
    title = TITLE.fullmatch(next(picture.iter(SVG + 'text')).text)
    first, last = int(title[1]), int(title[2])
    names = [it for it in picture.findall(SVG + 'text') if it.get('text-anchor') == 'end']
    rows = {(int(it.get('y')) - 10) // ROW: (it.text, []) for it in names}
    for group in picture.findall(SVG + 'g'):
        packet = group.find(SVG + 'title').text
        for rect in group.findall(SVG + 'rect'):
            begin = int(rect.get('x')) // cell + first
            width = int(rect.get('width')) // cell
            rows[(int(rect.get('y')) - 2) // ROW][1].append((packet, rect.get('fill'), begin, begin + width - 1))
    assert sorted(rows) == list(range(FIRST_ROW, FIRST_ROW + len(rows))), 'rows are in order'
    return first, last, [(name, *drawn) if drawn else name for _, (name, drawn) in sorted(rows.items())]


def list_of(picture):
    """The list of packets."""
    texts = [it.text for it in picture.findall(SVG + 'text') if it.get('text-anchor') is None]
    return texts[texts.index('packets:') + 1:]


def cut_texts(picture):
    """Texts that don't fit between the edges of a picture."""
    left, width = (int(picture.get('viewBox').split()[place]) for place in (0, 2))
    found = []
    for it in picture.findall(SVG + 'text'):
        size = LETTER * len(it.text)
        begin = int(it.get('x')) - (size if it.get('text-anchor') == 'end' else 0)
        if begin < left or begin + size > left + width:
            found.append(it.text)
    return found


def unknown_fills(picture):
    """Fills that no pattern gives."""
    known = {'url(#%s)' % it.get('id') for it in picture.iter(SVG + 'pattern')}
    return {it.get('fill') for it in picture.iter(SVG + 'rect')} - known - {'white', 'black', 'blue', 'darkorange', 'forestgreen',
        'purple', 'deepskyblue', 'saddlebrown'}


def pictured(runner, description, script, words=()):
    """The status, what is printed, and the picture."""
    with Files(description) as path:
        status, out, _ = runner.run(words=[path, '-', '--over-time', *words], data=script)
    return status, out, xml.fromstring(out.decode()) if out.startswith(b'<svg') else None


def drawn(runner):
    for name, (description, script, words, first, last, rows) in DRAWN.items():
        if not runner.wanted(name):
            continue
        status, out, picture = pictured(runner, description, script, words)
        due = (0, first, last, rows)
        found = (status, *rows_of(picture)) if picture is not None else (status, out)
        wrong = None if found == due else 'wanted %s, found %s' % (due, found)
        if wrong is None and unknown_fills(picture):
            wrong = 'unknown fills: %s' % unknown_fills(picture)
        if wrong is None and cut_texts(picture):
            wrong = 'texts are cut off: %s' % cut_texts(picture)
        packets = {it[0] for row in rows if not isinstance(row, str) for it in row[1:]}
        if wrong is None and sorted(list_of(picture)) != sorted(packets):
            wrong = 'packets: %s' % list_of(picture)
        runner.judge(name, wrong)


def cells_of(picture):
    """The cells of the table that has the rectangles of a picture, in its order."""
    found = []
    for row in rows_of(picture)[2]:
        if not isinstance(row, str):
            for packet, fill, first, last in row[1:]:
                name = '- -' if packet == '?' else packet
                state = 'holds' if fill.endswith('-idle)') else 'moves'
                found.append('%s %s %d %d %s' % (row[0].replace(' to ', ' '), name, first, last, state))
    return found


# How wide a round is, how wide the picture, and the numbers above it: each with its place, 80 pixels or more behind the one before.
SCALES = {
    '1': (1, 88 + 1007 + 8, [(number * 80, 1 + number * 80) for number in range(13)]),
    '3': (3, 88 + 3021 + 8, [(number * 90, 1 + number * 30) for number in range(34)]),
    '8': (8, 88 + 8056 + 8, [(number * 160, 1 + number * 20) for number in range(51)]),
}


def scaled(runner):
    """Rounds are as wide as is asked, whatever else is drawn: here 1,007 of them."""
    script = b'send a 01 eop\nrounds 1000\nsend a 01 eop\nrounds 9\n'
    due = (1, 1007, ['A', ('a to A.0', ('a 0', A_0, 1, 2), ('a 1', A_1, 1001, 1002)),
                     ('A.1 to b', ('a 0', A_0, 2, 3), ('a 1', A_1, 1002, 1003))])
    for scale, (cell, width, ticks) in SCALES.items():
        name = 'a scale of %s' % scale
        if runner.wanted(name):
            status, _, picture = pictured(runner, PLAN, script, ['--scale', scale, '--to', '1007'])
            numbers = [(int(it.get('x')), int(it.text)) for it in picture.findall(SVG + 'text') if it.get('y') == '24']
            found = (status, rows_of(picture, cell), int(picture.get('width')), numbers, cut_texts(picture))
            runner.judge(name, None if found == (0, due, width, ticks, []) else 'found %s' % (found,))
    runner.case('a scale of a table', b'', 2, words=['/dev/null', '-', '--over-time', '--scale', '4', '--format', 'csv'], data=b'')


def tabled(runner):
    """A table has the rectangles of the picture, in its order, whatever its format; Python's readers find the same cells in
    those for programs."""
    for name, (description, script, words, *_) in DRAWN.items():
        if not runner.wanted('a table of ' + name):
            continue
        rows = cells_of(pictured(runner, description, script, words)[2])
        texts = {form: pictured(runner, description, script, [*words, '--format', form])[1] for form in TEXT_OF}
        wrong = next(('%s: %s' % (form, text) for form, text in texts.items() if text != TEXT_OF[form](COLUMNS, rows)), None)
        objects = [['' if it is None else str(it) for it in row.values()] for row in json.loads(texts['json'])]
        if wrong is None and list(csv.reader(io.StringIO(texts['csv'].decode())))[1:] != objects:
            wrong = 'the readers find other cells: %s' % objects
        runner.judge('a table of ' + name, wrong)


def pictures(runner):
    """The pictures of runs of the page are what the program writes."""
    runs = {'turns': (LINE, TURNS), 'ring-rounds': (example('ring.txt'), example('ring-packets.txt'))}
    for name, (file, script) in PICTURED.items():
        runs[name] = (example(file), script) if script else SCRIPT_LINE.split(example(file), 1)
    for name, (description, script) in runs.items():
        if runner.wanted('the picture ' + name):
            with open(os.path.join(TOP, 'docs', 'pictures', name + '.svg'), 'rb') as file:
                due = file.read()
            found = pictured(runner, description, script)[1]
            runner.judge('the picture ' + name, None if found == due else 'it differs: %.400r' % found)


def blocked(runner):
    """b's packet holds the link from B to C. a's waits for it in B, and what it holds behind is hatched once its buffers are
    full."""
    name = 'a packet that is blocked'
    if runner.wanted(name):
        script = (b'send b 02 ' + b'00 ' * 40 + b'eop\nrounds 2\nsend a 02 ' + b'00 ' * 40 + b'eop\nrounds 99\n')
        status, _, picture = pictured(runner, LINE, script)
        rows = {row[0]: row[1:] for row in rows_of(picture)[2] if isinstance(row, tuple)}
        idle = [it for it in rows['A.1 to B.1'] if it[1] == A_IDLE]
        order = list(dict.fromkeys(it[0] for it in rows['B.2 to C.1']))
        runner.judge(name, None if status == 0 and idle and order == ['b 0', 'a 0'] else '%s' % rows)


def ring(runner):
    """Four packets that wait for one another: what each holds is hatched up to the end."""
    name = 'a ring that is locked'
    if not runner.wanted(name):
        return
    status, _, picture = pictured(runner, example('ring.txt'), example('ring-packets.txt'))
    _, last, rows = rows_of(picture)
    ends = {row[0]: row[-1] for row in rows if isinstance(row, tuple)}
    held = {name: (packet, to) for name, (packet, fill, _, to) in ends.items() if fill.endswith('-idle)')}
    due = {'%s.1 to %s.2' % pair: (pair[0].lower() + ' 0', last) for pair in zip('ABCD', 'BCDA')}
    found = {name: it for name, it in held.items() if name in due}
    runner.judge(name, None if (status, found) == (0, due) and sorted(list_of(picture)) == ['a 0', 'b 0', 'c 0', 'd 0']
        else 'wanted %s, found %s' % (due, held))


def ring_later(runner):
    """The same ring at any round behind that, up to the last: each packet holds its terminal's wire too."""
    ends = list(zip('ABCD', 'BCDA', 'abcd', ('blue', 'darkorange', 'forestgreen', 'purple')))
    for number in (29, 30, 100, 200):
        name = 'a ring that is locked, in round %d' % number
        if not runner.wanted(name):
            continue
        words = ['--from', str(number), '--to', str(number)]
        _, _, picture = pictured(runner, example('ring.txt'), example('ring-packets.txt'), words)
        due = []
        for here, there, terminal, color in ends:
            idle = (terminal + ' 0', 'url(#%s-idle)' % color, number, number)
            due += [here, ('%s to %s.0' % (terminal, here), idle), ('%s.1 to %s.2' % (here, there), idle)]
        found = rows_of(picture)
        runner.judge(name, None if found == (number, number, due) else 'wanted %s, found %s' % (due, found))


def large(runner):
    """A picture that would be too large is refused by the most rounds that fit."""
    name = 'a picture that is too large'
    if not runner.wanted(name):
        return
    # Each packet is a group in each of two rows, of more than 80 bytes.
    script = b'send a 01 eop\nrounds 2\n' * 9000
    # so narrow that its length is what is too large
    scale = ['--scale', '1']
    status, out, _ = pictured(runner, PLAN, script, scale)
    told = FITS.fullmatch(out)
    if status != 1 or not told:
        runner.judge(name, 'found %d %.200r' % (status, out))
        return
    start, end = (int(it) for it in told.groups())
    fits = pictured(runner, PLAN, script, [*scale, '--from', str(start), '--to', str(end)])
    more = pictured(runner, PLAN, script, [*scale, '--from', str(start), '--to', str(end + 1)])
    good = fits[0] == 0 and MIB - 1000 < len(fits[1]) <= MIB and more[0] == 1 and more[1] == out
    runner.judge(name, None if good else 'found %d of %d bytes, %d %.200r' % (fits[0], len(fits[1]), more[0], more[1]))


# How wide a round is, and the last of the rounds from 1 on that fit in 32,767 pixels, of which 96 stand beside them.
WIDEST = {8: 4083, 20: 1633, 64: 510}


def wide(runner):
    """What is told to fit is at most 32,767 pixels wide, as Cairo draws it, and one round more isn't."""
    script = b'send a 01 eop\nrounds 5000\nsend a 01 eop\nrounds 9\n'
    for scale, last in WIDEST.items():
        name = 'a picture that is too wide at %d' % scale
        if not runner.wanted(name):
            continue
        refusal = b'draw 1 TooLarge: --from 1 --to %d fits\n' % last
        words = ['--scale', str(scale), '--to']
        refused = [pictured(runner, PLAN, script, [*words, str(to)])[:2] for to in (last + 1, 5000)]
        status, _, picture = pictured(runner, PLAN, script, [*words, str(last)])
        found = (refused, status, picture is not None and int(picture.get('width')))
        runner.judge(name, None if found == ([(1, refusal)] * 2, 0, 96 + scale * last) else 'found %s' % (found,))
    if runner.wanted('all rounds at a smaller scale'):
        status, _, picture = pictured(runner, PLAN, script, ['--scale', '4'])
        found = (status, picture is not None and picture.get('width'))
        runner.judge('all rounds at a smaller scale', None if found == (0, str(96 + 4 * 5008)) else 'found %s' % (found,))


def unknown(runner):
    """A name that no switch has is told, the first of several; a faulty description comes first."""
    for name, words, told in (('no such switch', ['Z'], b'Z'), ('a terminal', ['a'], b'a'), ('one of two switches', ['A,z'], b'z')):
        if runner.wanted(name):
            found = pictured(runner, PLAN, FIRST, ['--only', *words])[:2]
            runner.judge(name, None if found == (1, b'draw 2 NoSwitch: %s\n' % told) else 'found %s' % (found,))
    if runner.wanted('no such switch, explained'):
        with Files(PLAN) as path:
            found = runner.run(words=['--explain', path, '-', '--over-time', '--only', 'Z'], data=FIRST)
        due = (1, b'draw 2 NoSwitch: Z\n', b'c104: %s: no switch has the name Z\n' % path.encode())
        runner.judge('no such switch, explained', None if found == due else 'found %s' % (found,))
    if runner.wanted('no such switch of no network'):
        found = pictured(runner, b'switch A\nwire A.0 A.1\n', FIRST, ['--only', 'Z'])[:2]
        runner.judge('no such switch of no network', None if found == (1, b'description 2: 8 SelfWire\n') else 'found %s' % (found,))


def too_large_at_once(runner):
    """Where the first round alone would be too large, no rounds are told. More packets than fit cross before it, and A drops
    each."""
    name = 'a first round that is too large'
    crossed = b'cross a\ninput A.0\n'
    script = b''.join(b'send a 05 eop\n' + b'credit A.0\n' * (k % 4 == 0) + crossed * 2 for k in range(6000))
    if runner.wanted(name):
        status, out, _ = pictured(runner, PLAN, script)
        runner.judge(name, None if (status, out) == (1, b'draw 1 TooLarge\n') else 'found %d %.200r' % (status, out))


def refused(runner):
    """A faulty line is left out; a description is answered as by `draw`."""
    for name, script in (('a faulty line', b'frob\n' + FIRST), ('a script that is too long', FIRST + comments(SCRIPT_LIMIT))):
        if runner.wanted(name):
            status, _, picture = pictured(runner, PLAN, script)
            rows = DRAWN['the packet of the first run'][5]
            found = (status, rows_of(picture)[2])
            runner.judge(name, None if found == (1, rows) else 'found %s' % (found,))
    for name, description, text in (
            ('a faulty description', b'switch A\nwire A.0 A.1\n', b'description 2: 8 SelfWire\n'),
            ('a network that is not labelled', b'switch A\nswitch B\nlabel tree A\n', b'label 1 NotConnected\n')):
        if runner.wanted(name):
            found = pictured(runner, description, b'')[:2]
            runner.judge(name, None if found == (1, text) else 'found %s' % (found,))


def words(runner):
    for name, given in (('no script', ['--over-time']), ('no picture of the script', ['-']), ('a state too', ['-', '--over-time', '--state']),
                        ('a header too', ['-', '--over-time', '--header', '1']), ('a cycle too', ['-', '--over-time', '--cycles']),
                        ('rounds alone', ['--from', '1']), ('rounds of a state', ['-', '--state', '--to', '1']),
                        ('no number', ['-', '--over-time', '--from', 'x']), ('a round that is too large', ['-', '--over-time', '--to', str(LAST + 1)]),
                        ('no such format', ['-', '--over-time', '--format', 'xml']),
                        ('a scale alone', ['--scale', '4']), ('a scale of a state', ['-', '--state', '--scale', '4']),
                        ('no scale', ['-', '--over-time', '--scale', '0']), ('a scale that is too large', ['-', '--over-time', '--scale', '65']),
                        ('a switch alone', ['--only', 'A']), ('a switch of a state', ['-', '--state', '--only', 'A']),
                        ('a format alone', ['--format', 'csv']), ('a format of a state', ['-', '--state', '--format', 'csv']), ('a first round behind the last',
                        ['-', '--over-time', '--from', '2', '--to', '1'])):
        runner.case(name, b'', 2, words=['/dev/null', *given])


def devices(runner):
    runner.case('no such script', b'', 3, b'c104: cannot read none/such\n', words=['/dev/null', 'none/such', '--over-time'])
    runner.case('no such description', b'', 3, b'c104: cannot read none/such\n', words=['none/such', '-', '--over-time'])
    with open('/dev/full', 'wb') as full:
        runner.case('a writer that fails', None, 3, CANNOT_WRITE, words=['/dev/null', '-', '--over-time'], data=b'',
                    stdout=full)


PARTS = [drawn, scaled, tabled, pictures, blocked, ring, ring_later, large, wide, unknown, too_large_at_once, refused, words, devices]
