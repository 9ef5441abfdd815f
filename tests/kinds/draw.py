"""Runs `c104-draw` over descriptions.

A picture is read as a list of nodes and a list of edges, each a line, and compared with what the network has. Every byte of
one, with all that nodes, edges and a title may have, is held by the cases that are folders.
"""

import os
import re
import xml.etree.ElementTree as xml

from case_runner import CANNOT_READ, CANNOT_WRITE, EXAMPLES, PLAN
from kinds.saved import Room, shadow
from kinds.stats import FIRST

TOOL = 'c104-draw'
SVG = '{http://www.w3.org/2000/svg}'

NODE = re.compile(r'  "([\w-]+)" \[(.*)\]')
EDGE = re.compile(r'  "([\w-]+)" -> "([\w-]+)" \[taillabel="([\d,]*)", headlabel="([\d,]*)"(.*)\]')
# An edge whose numbers stand in the middle.
MIDDLE = re.compile(r'  "([\w-]+)" -> "([\w-]+)" \[label=" (?:([\w-]+)\.)?([\d,]+) (?:\\n (?:([\w-]+)\.)?([\d,]+) )?"(.*)\]')
PLACE = re.compile(r'pos="(\d+),(\d+)!"')
TITLE = re.compile(r'  label="(.*)"')

# The names are words of the language of pictures.
NAMES = b'switch node\nswitch edge\nwire node.0 edge.1\nterminal graph node.2\nterminal digraph edge.3 labels 4\n'

# Two wires are of one group at both ends, a third is of none, and one of the two is written from B.
GROUP = (b'switch A\nswitch B\nwire A.1 B.4\nwire B.5 A.2\nwire A.3 B.7\nterminal a A.0\nterminal b B.0\n'
    b'continue A.2\ncontinue B.5\nrow A.0 1 0\nrow A.0 2 1\nrow B.4 2 0\nrow B.5 2 0\nrow B.0 1 4\nrow B.0 2 0\n'
    b'row A.1 1 0\nrow A.2 1 0\n')

# Header 1 goes round, and comes to c from nowhere.
LOOP = (b'switch A\nswitch B\nswitch C\nwire A.1 B.2\nwire B.1 C.2\nwire C.1 A.2\nterminal a A.0\nterminal c C.0\n'
    b'row A.0 1 0\nrow A.0 2 1\nrow B.2 2 1\nrow C.2 1 0\nrow C.2 2 1\nrow A.2 2 1\nrow C.0 2 0\n')

TREE = (b'switch A\nswitch B\nswitch C\nwire B.0 A.1\nwire A.2 C.5\nterminal a A.3 labels 2\nterminal b B.4\n'
    b'terminal c C.0\nlabel tree A\n')

# A switch with nine terminals.
CROWD = b'switch A\n' + b''.join(b'terminal t%d A.%d\n' % (it, it) for it in range(9)) + b'label tree A\n'

# Ten wires between two switches.
FAN = (b'switch A\nswitch B\nterminal a A.0\nterminal b B.0\n' + b''.join(b'wire A.%d B.%d\n' % (it, 31 - it) for it in range(1, 11)))

# From A depth first: C hangs from B, so the wire from A to C carries nothing, nor does the second one from A to B.
RING = (b'switch A\nswitch B\nswitch C\nwire A.1 B.1\nwire A.2 C.2\nwire B.2 C.1\nwire A.4 B.4\nterminal a A.0\n'
    b'terminal c C.0\nlabel tree A\n')

# Where the corner of each dimension of a cube stands, where each has a terminal.
CORNERS = {'s0': (50, 50), 's1': (270, 50), 's2': (50, 270), 's4': (105, 127), 's8': (567, 204), 's16': (204, 644),
           's32': (1128, 776)}


class Picture:
    """A picture: its title, the attributes of its nodes, and its edges, each by its ends' names, their links and its
    attributes."""

    def __init__(self, text):
        lines = text.decode().split('\n')
        self.nodes, self.edges, self.middle, self.title = [], [], [], None
        for line in lines:
            if EDGE.fullmatch(line):
                self.edges.append(EDGE.fullmatch(line).groups())
            elif MIDDLE.fullmatch(line):
                tail, head, upper, behind, lower, before, style = MIDDLE.fullmatch(line).groups()
                # switches that hang equally low are named
                assert (upper, lower) == ((tail, head) if 'constraint=false' in style else (None, None)), line
                self.edges.append((tail, head, behind, before or '', style))
                self.middle.append(line)
            elif NODE.fullmatch(line):
                self.nodes.append(NODE.fullmatch(line).groups())
            elif TITLE.fullmatch(line):
                self.title = TITLE.fullmatch(line)[1]

    def wires(self):
        """Each wire, as its two ends in order."""
        return sorted(tuple(sorted(pair)) for edge in self.edges for pair in pairs_of(edge))

    def bold(self):
        """The links that are bold: the ends from which a bold way goes, but for the terminals'."""
        found = []
        for edge in self.edges:
            style = edge[4]
            for tail, head in pairs_of(edge):
                found += [tail] if 'dir=forward' in style or 'dir=both' in style else []
                found += [head] if 'dir=back' in style or 'dir=both' in style else []
        return sorted(end for end in found if '.' in end)

    def red(self):
        """The ends to which a red way goes."""
        found = []
        for edge in self.edges:
            style = edge[4]
            for tail, head in pairs_of(edge):
                is_whole = 'color=red' in style
                found += [head] if 'black;0.5:red' in style or is_whole and 'dir=back' not in style else []
                found += [tail] if 'red;0.5:black' in style or is_whole and 'dir=forward' not in style else []
        return sorted(found)

    def filled(self):
        return [name for name, attributes in self.nodes if 'gold' in attributes]

    def places(self):
        return {name: tuple(map(int, PLACE.search(it).groups())) for name, it in self.nodes if PLACE.search(it)}


def ends_of(name, links):
    return ['%s.%s' % (name, link) for link in links.split(',')] if links else [name]


def pairs_of(edge):
    """The wires of an edge, each from tail to head."""
    return list(zip(ends_of(edge[0], edge[2]), ends_of(edge[1], edge[3]), strict=True))


def mesh(width, height, count):
    """The names of a mesh's nodes and its wires."""
    size = width * height
    wires = [('s%d.2' % s, 's%d.1' % (s + 1)) for s in range(size) if (s + 1) % width]
    wires += [('s%d.3' % s, 's%d.0' % (s + width)) for s in range(size - width)]
    wires += [('t%d' % t, 's%d.%d' % (t // count, 4 + t % count)) for t in range(size * count)]
    names = ['s%d' % s for s in range(size)] + ['t%d' % t for t in range(size * count)]
    return names, sorted(tuple(sorted(it)) for it in wires)


def cube(size, count):
    """The same of a cube."""
    wires = [('s%d.%d' % (s, bit), 's%d.%d' % (s ^ 1 << bit, bit))
             for s in range(2 ** size) for bit in range(size) if not s >> bit & 1]
    wires += [('t%d' % t, 's%d.%d' % (t // count, size + t % count)) for t in range(2 ** size * count)]
    names = ['s%d' % s for s in range(2 ** size)] + ['t%d' % t for t in range(2 ** size * count)]
    return names, sorted(tuple(sorted(it)) for it in wires)


# A description, and the names of its nodes and its wires.
DRAWN = {
    'nothing': (b'', ([], [])),
    'one switch': (PLAN, (['A', 'a', 'b'], [('A.0', 'a'), ('A.1', 'b')])),
    'names of another language': (NAMES, (['node', 'edge', 'graph', 'digraph'],
        [('digraph', 'edge.3'), ('edge.1', 'node.0'), ('graph', 'node.2')])),
    'wires of one group': (GROUP, (['A', 'B', 'a', 'b'],
        [('A.0', 'a'), ('A.1', 'B.4'), ('A.2', 'B.5'), ('A.3', 'B.7'), ('B.0', 'b')])),
    'a tree': (TREE, (['A', 'B', 'C', 'a', 'b', 'c'],
        [('A.1', 'B.0'), ('A.2', 'C.5'), ('A.3', 'a'), ('B.4', 'b'), ('C.0', 'c')])),
    'a mesh': (b'mesh 4 3 2\n', mesh(4, 3, 2)),
    'a mesh with as many terminals as may be': (b'mesh 1 1 28\n', mesh(1, 1, 28)),
    'a mesh of all switches': (b'mesh 8 8 4\n', mesh(8, 8, 4)),
    'a cube': (b'cube 3 1\n', cube(3, 1)),
    'a cube of all switches': (b'cube 6 4\n', cube(6, 4)),
}

# A description, a header, the links that it may take, its owner and the title; and the ends to which red ways go.
MARKED = {
    'an owner on another link': (PLAN, 1, ['A.1'], ['b'], 'header 1', []),
    'a header that nobody owns': (PLAN, 2, [], [], 'header 2', []),
    'the last header of one byte': (PLAN, 255, [], [], 'header 255', []),
    'the last header of two bytes': (b'header 2\n' + PLAN, 65535, [], [], 'header 65535', []),
    'both links of a group': (GROUP, 1, ['A.1', 'A.2', 'B.0'], ['b'], 'header 1', []),
    'a loop': (LOOP, 1, ['A.1', 'B.1', 'C.0', 'C.1'], ['c'],
        'refused 7 Loop: from a header 1 walk A.0 B.2 C.2 A.2 B.2', ['A.0', 'A.2', 'B.2', 'C.2']),
    'a way to another terminal': (PLAN.replace(b'row A.1 1 0', b'row A.1 1 1'), 0, ['A.0', 'A.1'], ['a'],
        'refused 5 WrongEnd: from b header 0 walk A.1', ['A.1']),
    'a header that is not dropped': (PLAN.replace(b'row A.1 2 1', b'row A.1 3 1'), 2, ['A.1'], [],
        'refused 8 Stray: from b header 2 walk A.1', ['A.1']),
    'a mesh': (b'mesh 2 2 1\n', 3, ['s0.3', 's1.3', 's2.2', 's3.4'], ['t3'], 'header 3', []),
}


def picture_of(runner, words, data):
    found = runner.run(words=words, data=data)
    return Picture(found[1]) if found and not found[0] else None


def compared(found, wanted):
    return None if found == wanted else 'wanted %s, found %s' % (wanted, found)


def drawn(runner):
    for name, (text, (names, wires)) in DRAWN.items():
        if runner.wanted(name):
            picture = picture_of(runner, ['-'], text)
            found = ([it for it, _ in picture.nodes], picture.wires()) if picture else None
            runner.judge(name, compared(found, (names, wires)))


def marked(runner):
    for name, (text, header, bold, filled, title, red) in MARKED.items():
        if runner.wanted(name):
            picture = picture_of(runner, ['-', '--header', str(header)], text)
            found = (picture.bold(), picture.filled(), picture.title, picture.red()) if picture else None
            runner.judge(name + ', marked', compared(found, (bold, filled, title, red)))


def cyclic(runner):
    """The ways to the inputs of a cycle are red; where there is no cycle there are none, and the title says so."""
    with open(os.path.join(EXAMPLES, 'ring.txt'), 'rb') as file:
        ring = file.read()
    refused_labels = PLAN + b'continue A.2\n'
    for name, text, title, red in (
            ('a ring with a cycle', ring, 'cycle B.2(2) C.2(3) D.2(0) A.2(1)', ['A.2', 'B.2', 'C.2', 'D.2']),
            ('refused labels with a cycle', refused_labels, 'refused 6 DeadEnd: from a header 1 walk A.0', [])):
        if runner.wanted(name):
            picture = picture_of(runner, ['-', '--cycles'], text)
            found = (picture.title, picture.red(), picture.bold(), picture.filled()) if picture else None
            runner.judge(name, compared(found, (title, red, red_ends(red), [])))
    for name, text in (('one switch', PLAN), ('a tree', TREE), ('a mesh', b'mesh 3 2 1\n')):
        if runner.wanted(name + ' without a cycle'):
            picture = picture_of(runner, ['--cycles', '-'], text)
            found = (picture.title, picture.red(), picture.bold(), picture.filled()) if picture else None
            runner.judge(name + ' without a cycle', compared(found, ('acyclic', [], [], [])))
    runner.case('a header and a cycle', b'', 2, words=['-', '--cycles', '--header', '1'], data=PLAN)


def red_ends(red):
    """The ends from which the red ways of the ring go: link 1 of the switch before."""
    before = dict(zip('BCDA', 'ABCD', strict=True))
    return sorted('%s.1' % before[it[0]] for it in red)


def edges(runner):
    """Wires of one group are one edge, whose links stand in the same order at both ends."""
    name = 'edges of a group'
    if runner.wanted(name):
        picture = picture_of(runner, ['-'], GROUP)
        found = [it[:4] for it in picture.edges] if picture else None
        runner.judge(name, compared(found, [('A', 'a', '0', ''), ('B', 'b', '0', ''), ('A', 'B', '1,2', '4,5'),
                                            ('A', 'B', '3', '7')]))


def numbers(runner):
    """The numbers of links stand apart: in the middle of an edge where switches hang, and else at its ends."""
    for name, text, count in (('numbers below a crowded switch', CROWD, 9), ('numbers below one switch', PLAN, 2),
                              ('numbers of a ring', RING, 6), ('numbers of a fan', FAN, 12),
                              ('numbers of a mesh', b'mesh 2 2 1\n', 0), ('numbers of a cube', b'cube 2 1\n', 0)):
        if runner.wanted(name):
            picture = picture_of(runner, ['-'], text)
            runner.judge(name, compared((len(picture.middle), len(picture.edges) - count) if picture else None,
                                        (count, {'mesh': 8, 'cube': 8}.get(text[:4].decode(), 0))))
    near, far = 'labeldistance=3.5, labelangle=%d', 'labeldistance=%s, labelangle=%d'
    for name, text, layouts in (
            ('a cube with few terminals', b'cube 6 1\n', [near % -12, *[near % 12] * 4, far % ('4.5', 7)]),
            ('a cube with more terminals', b'cube 4 4\n', [*[near % 12] * 3, far % ('5', 12)]),
            ('a cube with many terminals', b'cube 1 9\n', ['']), ('a mesh with few', b'mesh 2 1 1\n', [''])):
        if runner.wanted('numbers of ' + name):
            picture = picture_of(runner, ['-'], text)
            found = sorted({(it[2], it[4].strip(', ')) for it in picture.edges if it[2] and it[3]}) if picture else None
            runner.judge('numbers of ' + name, compared([it[1] for it in found or []], layouts))


def trees(runner):
    """The wires over which the labels of a tree lead are wide, and all others gray."""
    for name, words, plain, wide in (
            ('wires of a tree', ['-'], 'color=gray50', 'penwidth=2'),
            ('wires of a tree that are not marked', ['-', '--header', '9'], 'color=gray60',
             'penwidth=2, color=gray60')):
        if runner.wanted(name):
            picture = picture_of(runner, words, RING)
            found = sorted((*pair, edge[4].replace(', constraint=false', '').strip(', '))
                           for edge in picture.edges for pair in pairs_of(edge)) if picture else None
            runner.judge(name, compared(found, [('A.0', 'a', wide), ('A.1', 'B.1', wide), ('A.2', 'C.2', plain),
                                                ('A.4', 'B.4', plain), ('B.2', 'C.1', wide), ('C.0', 'c', wide)]))


def places(runner):
    """No two nodes stand in one place, and the switches of a mesh stand on its grid."""
    for text in (b'mesh 4 4 2\n', b'mesh 3 2 9\n', b'mesh 1 1 28\n', b'cube 3 1\n', b'cube 5 2\n', b'cube 6 4\n'):
        name = 'places of %s' % text.decode().strip()
        if runner.wanted(name):
            picture = picture_of(runner, ['-'], text)
            places = picture.places() if picture else {}
            is_whole = picture and len(places) == len(picture.nodes) and len(set(places.values())) == len(places)
            runner.judge(name, None if is_whole else 'found %s' % places)
    if runner.wanted('corners'):
        picture = picture_of(runner, ['-'], b'cube 6 1\n')
        places = picture.places() if picture else {}
        runner.judge('corners', compared({name: places.get(name) for name in CORNERS}, CORNERS))
    if runner.wanted('a grid'):
        picture = picture_of(runner, ['-'], b'mesh 3 2 1\n')
        places = picture.places() if picture else {}
        first = {it: places.get('s%d' % it, (0, 0)) for it in range(6)}
        is_grid = (len({first[it][0] for it in (0, 3)}) == 1 and len({first[it][1] for it in (0, 1, 2)}) == 1
                   and first[0][0] < first[1][0] < first[2][0] and first[3][1] < first[0][1])
        runner.judge('a grid', None if is_grid else 'found %s' % first)


def refused(runner):
    for words in (['-'], ['-', '--header', '0']):
        runner.case('a faulty description', b'description 2: 8 SelfWire\n', 1, words=words,
                    data=b'switch A\nwire A.0 A.1\n')
        runner.case('a network that is not labelled', b'label 1 NotConnected\n', 1, words=words,
                    data=b'switch A\nswitch B\nlabel tree A\n')
    for word in ('-1', '65536', 'b', ''):
        runner.case('a header %s' % word, b'', 2, words=['-', '--header=' + word], data=PLAN)


# Pictures that are written to a file, by their words.
FORMS = ((), ('--header', '1'), ('--cycles',), ('events', '--state'), ('events', '--over-time'), ('events', '--over-time', '--format', 'csv'))


def files(runner):
    """With `-o` what else is printed goes to a file, and what stands in the place of a picture is printed."""
    for words in FORMS:
        for option in (('-o', 'made'), ('--out', 'made'), ('-o-',)):
            name = ' '.join(['to a file', *words, *option])
            if runner.wanted(name):
                with Room(PLAN, FIRST) as room:
                    due = runner.run(words=['network', *words], folder=room.room.name)[1]
                    shadow(room, 'made', b'x' * 10000)
                    found = runner.run(words=['network', *words, *option], folder=room.room.name), room.made()
                printed = (b'', {'made': due}) if 'made' in option else (due, {'made': b'x' * 10000})
                runner.judge(name, compared(found, ((0, printed[0], b''), printed[1])))
    wide = b'send a 01 eop\nrounds 5000\nsend a 01 eop\n' + b'rounds 9\n'
    for name, words, description, script, out, status in (
            ('a faulty description', (), b'switch A\nwire A.0 A.1\n', b'', b'description 2: 8 SelfWire\n', 1),
            ('a network that is not labelled', ('events', '--state'), b'switch A\nswitch B\nlabel tree A\n', b'', b'label 1 NotConnected\n', 1),
            ('too wide', ('events', '--over-time'), PLAN, wide, b'draw 1 TooLarge: --from 1 --to 4083 fits\n', 1),
            ('no such switch', ('events', '--over-time', '--only', 'Z'), PLAN, b'', b'draw 2 NoSwitch: Z\n', 1),
            ('no script', ('none', '--state'), PLAN, b'', b'', 3), ('no command', ('--header', 'x'), PLAN, b'', b'', 2)):
        if runner.wanted(name + ', to a file'):
            with Room(description, script) as room:
                shadow(room, 'made', b'before')
                found = runner.run(words=['network', *words, '-o', 'made'], folder=room.room.name), room.made()
            runner.judge(name + ', to a file', compared((found[0][:2], found[1]), ((status, out), {'made': b'before'})))
    if runner.wanted('a faulty line, to a file'):
        with Room(PLAN, FIRST + b'frob\n') as room:
            found = runner.run(words=['network', 'events', '--state', '-o', 'made'], folder=room.room.name), room.made()
        runner.judge('a faulty line, to a file', compared((found[0], list(found[1])), ((1, b'', b''), ['made'])))
    for name, path, why in (('a folder that is not there', 'none/made', b'No such file or directory (os error 2)'),
                            ('a full device', '/dev/full', b'No space left on device (os error 28)')):
        if runner.wanted(name):
            told = b'c104: cannot write %s\n' % path.encode()
            runner.case(name, b'', 3, told, words=['-', '-o', path], data=PLAN)
            runner.case(name + ', explained', b'', 3, told + b'c104: %s: %s\n' % (path.encode(), why),
                        words=['--explain', '-', '-o', path], data=PLAN)


def placed(runner):
    """A picture at fixed places has each node once, at a place of its own, and each wire; so has one of loads."""
    for name, (text, (names, wires)) in DRAWN.items():
        if not names or not runner.wanted(name + ', at fixed places'):
            continue
        with Room(text, b'') as room:
            found = runner.run(words=['network', '-o', 'made.svg'], folder=room.room.name)
            picture = xml.fromstring(room.made().get('made.svg', b'<svg/>').decode())
        texts = [it for it in picture.iter(SVG + 'text') if it.text in names]
        places = {(it.get('x'), it.get('y')) for it in texts}
        drawn = [it.get('id') for it in picture.iter(SVG + 'path') if it.get('id')]
        due = ((0, b'', b''), sorted(names), len(names), len(wires))
        runner.judge(name + ', at fixed places',
                     compared((found, sorted(it.text for it in texts), len(places), len(set(drawn))), due))
    if runner.wanted('loads'):
        with Room(b'mesh 2 2 1\n', b'') as room:
            found = runner.run(words=['network', '--load', '-o', 'made.svg'], folder=room.room.name)
            titles = [it.text for it in xml.fromstring(room.made()['made.svg'].decode()).iter(SVG + 'title')]
        # twelve pairs: three to each terminal, and eight of them cross a column and eight a row, two on each link
        counts = {key: int(value) for key, value in (it.split(': ') for it in titles)}
        sums = [sum(count for port, count in counts.items() if port.endswith(ends)) for ends in (('.4',), ('.0', '.3'), ('.1', '.2'))]
        runner.judge('loads', compared((found, sums), ((0, b'', b''), [12, 8, 8])))
    for name, words in (('a load of nothing', ['--load', '--header', '1']), ('a largest load alone', ['--most', '3']),
                        ('a state after no script', ['--at', '3']), ('loads by Graphviz', ['--load', '--layout', 'dot'])):
        runner.case(name, b'', 2, words=['-', *words], data=PLAN)


def devices(runner):
    runner.case('no such file', b'', 3, b'c104: cannot read none/such\n', words=['none/such'])
    with open('/proc/self/mem', 'rb') as unreadable:
        runner.case('a reader that fails', b'', 3, CANNOT_READ, words=['-'], stdin=unreadable)
    with open('/dev/full', 'wb') as full:
        runner.case('a writer that fails', None, 3, CANNOT_WRITE, words=['-'], data=PLAN, stdout=full)


PARTS = [drawn, marked, cyclic, edges, numbers, trees, places, refused, files, placed, devices]
