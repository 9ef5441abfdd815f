"""Runs a program's labelling over descriptions."""

import random

from case_runner import CANNOT_READ, CANNOT_WRITE, DESCRIPTION_LIMIT, PACKET_LIMIT, PLAN, comments
from random_networks import network_of
from two_bytes import hand_mesh

# A description, and what is shown of it. The registers of link l begin at 0x0100 * (l + 1): 00 is the mode, 3f
# the base, 40 the first limit and 80 the first select. A select of 64, in decimal, is the sink, which it has after a
# reset.
SHOWN = {
    'nothing': (b'', ''),
    'a switch alone': (b'switch A\n', ''),
    'a terminal without rows': (b'switch A\nterminal a A.3\n', 'range a 0 1'),
    'rows of one switch': (PLAN,
        'range a 0 1; range b 1 1;'
        'A 0140 00000001; A 0141 00000002; A 0180 00000000; A 0181 00000001;'
        'A 0240 00000001; A 0241 00000002; A 0280 00000000; A 0281 00000001'),
    'labels that are said': (b'switch A\nterminal a A.0 labels 300\nterminal b A.1 from 65535\nterminal c A.2 from 9\n'
        b'terminal d A.3\n', 'range a 0 300; range b 65535 1; range c 9 1; range d 10 1'),
    'all that is set at a link': (b'switch A\nterminal a A.31\ncontinue A.31\ndelete a\nbase A.31 65535\n'
        b'row A.31 65536 31\nrow A.31 255 sink\n',
        'range a 0 1; A 2000 0000000a; A 203f 0000ffff; A 2040 00010000; A 2041 000000ff; A 2080 0000001f'),
    'what is as after a reset': (b'switch A\nbase A.0 0\nrow A.0 0 sink\n', ''),
    'all that is set at a link, random headers too': (b'switch A\nterminal a A.31\ncontinue A.31\ndelete a\n'
        b'base A.31 65535\nrow A.31 65536 31\nrow A.31 255 discard\nrandom A.31 65534 65536\nheader 2\n',
        'range a 0 1; A 2000 0000000f; A 2001 0000fffe; A 2002 00010000; A 203f 0000ffff; A 2040 00010000;'
        'A 2041 000000ff; A 2080 0000001f; A 2081 00000020'),
    'two-byte headers at wired links alone': (b'header 2\nswitch A\nswitch B\nterminal a A.0\nwire A.1 B.31\n'
        b'continue A.2\nrow A.2 1 0\n',
        'range a 0 1; A 0100 00000001; A 0200 00000001; A 0300 00000008; A 0340 00000001; A 0380 00000000;'
        'B 2000 00000001'),
    'random headers of base and range 0': (b'switch A\nrandom A.3 0 0\n', 'A 0400 00000004'),
    'a packet\'s header that is discarded': (b'switch A\nrow A.0 0 discard\nrow A.0 2 discard\n',
        'A 0141 00000002; A 0180 00000020; A 0181 00000020'),
    'two switches': (b'switch B\nswitch A\nwire A.1 B.2\nrow A.0 7 1\nrow B.0 0 0\nterminal t A.0\nterminal s B.0\n'
        b'delete t\n',
        'range t 0 1; range s 1 1; B 0180 00000000; A 0100 00000002; A 0140 00000007; A 0180 00000001'),
}

# Bit 0 of a link's mode: headers have two bytes.
TWO_BYTES, TWO_BYTE_MODE = b'header 2\n', 1

TWO_IN_A_TREE = (b'switch A\nlabel tree A\nswitch B\nwire A.1 B.2\n'
    b'terminal a A.0\nterminal b B.0 labels 2\n')

def lines_of_labels(ranges, switches, mode=0):
    """What is shown of ranges, each by its terminal's name, its first label and how many it has; and of switches,
    each by its name, the links that have a wire, and the rows that they all have, by their limits and links. The
    mode is that of all wired links."""
    lines = ['range %s %d %d' % it for it in ranges]
    for name, links, rows in switches:
        for link in links:
            first = 0x0100 * (link + 1)
            lines += ['%s %04x %08x' % (name, first, mode)] if mode else []
            lines += ['%s %04x %08x' % (name, first + 0x40 + place, limit) for place, (limit, _) in enumerate(rows)]
            lines += ['%s %04x %08x' % (name, first + 0x80 + place, select) for place, (_, select) in enumerate(rows)]
    return ';'.join(lines)


def mesh(width, height, count, mode=0):
    """The same of a mesh, by the rule of each label: along the column first, and then along the row."""
    def link_of(label, switch):
        owner = label // count
        if owner == switch:
            return 4 + label % count
        if owner // width == switch // width:
            return 1 if owner < switch else 2
        return 0 if owner < switch else 3

    def is_wired(switch, link):
        row, column = divmod(switch, width)
        return [row > 0, column > 0, column + 1 < width, row + 1 < height][link]

    size, labels = width * height, width * height * count
    switches = []
    for switch in range(size):
        links = [link_of(label, switch) for label in range(labels)]
        ends = [label for label in range(1, labels) if links[label] != links[label - 1]] + [labels]
        wired = [link for link in range(4) if is_wired(switch, link)] + [4 + own for own in range(count)]
        switches.append(('s%d' % switch, wired, [(end, links[end - 1]) for end in ends]))
    text = b'mesh %d %d %d\n' % (width, height, count) + (TWO_BYTES if mode else b'')
    return text, lines_of_labels([('t%d' % label, label, 1) for label in range(labels)], switches, mode)


def cube(dimensions, count, mode=0):
    """The same of a cube, by the rule of each label: by the highest bit in which its owner differs."""
    def link_of(label, switch):
        owner = label // count
        if owner == switch:
            return dimensions + label % count
        return (owner ^ switch).bit_length() - 1

    size, labels = 2 ** dimensions, 2 ** dimensions * count
    switches = []
    for switch in range(size):
        links = [link_of(label, switch) for label in range(labels)]
        ends = [label for label in range(1, labels) if links[label] != links[label - 1]] + [labels]
        switches.append(('s%d' % switch, range(dimensions + count), [(end, links[end - 1]) for end in ends]))
    text = b'cube %d %d\n' % (dimensions, count) + (TWO_BYTES if mode else b'')
    return text, lines_of_labels([('t%d' % label, label, 1) for label in range(labels)], switches, mode)


# The root has two children. Terminals stand out of the order of their links, and two have several labels.
TWO_CHILDREN = (b'switch A\nswitch B\nswitch C\nwire A.1 B.0\nwire A.2 C.5\nterminal a A.3 labels 2\n'
    b'terminal b B.4\nterminal c B.2 labels 3\nterminal d C.0\nlabel tree A\n')

# C is behind a link of A too, but is visited from B: that wire's inputs have the rows of their switches.
RING = (b'switch A\nswitch B\nswitch C\nwire A.0 B.0\nwire B.1 C.1\nwire A.2 C.0\nterminal a A.1\n'
    b'terminal b B.2 labels 2\nterminal c C.2\nlabel tree A\n')

# The same of networks that are labelled by their shape.
LABELLED = {
    'a tree with two children': (TWO_CHILDREN, lines_of_labels(
        [('a', 0, 2), ('b', 5, 1), ('c', 2, 3), ('d', 6, 1)],
        [('A', [1, 2, 3], [(2, 3), (6, 1), (7, 2)]),
         ('B', [0, 2, 4], [(2, 0), (5, 2), (6, 4), (7, 0)]),
         ('C', [0, 5], [(6, 5), (7, 0)])])),
    'a tree of a ring': (RING, lines_of_labels(
        [('a', 0, 1), ('b', 1, 2), ('c', 3, 1)],
        [('A', [0, 1, 2], [(1, 1), (4, 0)]),
         ('B', [0, 1, 2], [(1, 0), (3, 2), (4, 1)]),
         ('C', [0, 1, 2], [(3, 1), (4, 2)])])),
    'a tree with two-byte headers': (TWO_CHILDREN + TWO_BYTES, lines_of_labels(
        [('a', 0, 2), ('b', 5, 1), ('c', 2, 3), ('d', 6, 1)],
        [('A', [1, 2, 3], [(2, 3), (6, 1), (7, 2)]),
         ('B', [0, 2, 4], [(2, 0), (5, 2), (6, 4), (7, 0)]),
         ('C', [0, 5], [(6, 5), (7, 0)])], TWO_BYTE_MODE)),
    'a tree of more labels than one byte has': (b'header 2\nswitch A\nterminal a A.0 labels 256\nterminal b A.1\n'
        b'label tree A\n', 'range a 0 256; range b 256 1;'
        'A 0100 00000001; A 0140 00000100; A 0141 00000101; A 0180 00000000; A 0181 00000001;'
        'A 0200 00000001; A 0240 00000100; A 0241 00000101; A 0280 00000000; A 0281 00000001'),
    'a tree of all labels that two bytes have': (b'switch A\nterminal a A.3 labels 65535\nterminal b A.2\n'
        b'label tree A\nheader 2\n', 'range a 1 65535; range b 0 1;'
        'A 0300 00000001; A 0340 00000001; A 0341 00010000; A 0380 00000002; A 0381 00000003;'
        'A 0400 00000001; A 0440 00000001; A 0441 00010000; A 0480 00000002; A 0481 00000003'),
    'a mesh with two-byte headers': mesh(3, 2, 1, TWO_BYTE_MODE),
    'the largest mesh, with two-byte headers': mesh(8, 8, 4, TWO_BYTE_MODE),
    'a cube with two-byte headers': cube(3, 1, TWO_BYTE_MODE),
    'a cube of two switches with two-byte headers, which are deleted at one': (b'cube 1 1\ndelete t1\nheader 2\n',
        'range t0 0 1; range t1 1 1;'
        's0 0100 00000001; s0 0140 00000001; s0 0141 00000002; s0 0180 00000001; s0 0181 00000000;'
        's0 0200 00000001; s0 0240 00000001; s0 0241 00000002; s0 0280 00000001; s0 0281 00000000;'
        's1 0100 00000001; s1 0140 00000001; s1 0141 00000002; s1 0180 00000000; s1 0181 00000001;'
        's1 0200 00000003; s1 0240 00000001; s1 0241 00000002; s1 0280 00000000; s1 0281 00000001'),
    'a cube of one switch': (b'cube 0 4\n', lines_of_labels(
        [('t%d' % label, label, 1) for label in range(4)],
        [('s0', [0, 1, 2, 3], [(1, 0), (2, 1), (3, 2), (4, 3)])])),
    'a mesh of one switch, with all terminals that it may have': mesh(1, 1, 28),
    'a mesh of one row, with all switches and terminals that it may have': mesh(64, 1, 4),
    'a mesh of one switch with two terminals': (b'mesh 1 1 2\n', 'range t0 0 1; range t1 1 1;'
        's0 0540 00000001; s0 0541 00000002; s0 0580 00000004; s0 0581 00000005;'
        's0 0640 00000001; s0 0641 00000002; s0 0680 00000004; s0 0681 00000005'),
    'a mesh of three columns and two rows': mesh(3, 2, 1),
    'a cube of three dimensions': cube(3, 1),
    'a switch with as many labels as headers': (b'switch A\nterminal a A.0 labels 256\nlabel tree A\n',
        'range a 0 256; A 0140 00000100; A 0180 00000000'),
    'a tree of two switches': (TWO_IN_A_TREE, 'range a 0 1; range b 1 2;'
        'A 0140 00000001; A 0141 00000003; A 0180 00000000; A 0181 00000001;'
        'A 0240 00000001; A 0241 00000003; A 0280 00000000; A 0281 00000001;'
        'B 0140 00000001; B 0141 00000003; B 0180 00000002; B 0181 00000000;'
        'B 0340 00000001; B 0341 00000003; B 0380 00000002; B 0381 00000000'),
    'a tree from the other switch': (TWO_IN_A_TREE.replace(b'tree A', b'tree B').replace(b'label tree B\nswitch B\n',
        b'switch B\nlabel tree B\n'), 'range a 2 1; range b 0 2;'
        'A 0140 00000002; A 0141 00000003; A 0180 00000001; A 0181 00000000;'
        'A 0240 00000002; A 0241 00000003; A 0280 00000001; A 0281 00000000;'
        'B 0140 00000002; B 0141 00000003; B 0180 00000000; B 0181 00000002;'
        'B 0340 00000002; B 0341 00000003; B 0380 00000000; B 0381 00000002'),
    'a mesh of two switches': (b'mesh 2 1 1\n', 'range t0 0 1; range t1 1 1;'
        's0 0340 00000001; s0 0341 00000002; s0 0380 00000004; s0 0381 00000002;'
        's0 0540 00000001; s0 0541 00000002; s0 0580 00000004; s0 0581 00000002;'
        's1 0240 00000001; s1 0241 00000002; s1 0280 00000001; s1 0281 00000004;'
        's1 0540 00000001; s1 0541 00000002; s1 0580 00000001; s1 0581 00000004'),
    'a cube of two switches, headers deleted at one': (b'cube 1 1\ndelete t1\n', 'range t0 0 1; range t1 1 1;'
        's0 0140 00000001; s0 0141 00000002; s0 0180 00000001; s0 0181 00000000;'
        's0 0240 00000001; s0 0241 00000002; s0 0280 00000001; s0 0281 00000000;'
        's1 0140 00000001; s1 0141 00000002; s1 0180 00000000; s1 0181 00000001;'
        's1 0200 00000002; s1 0240 00000001; s1 0241 00000002; s1 0280 00000000; s1 0281 00000001'),
}

# What is shown with the names of registers.
BY_NAMES = {
    'nothing': (b'', ''),
    'rows of one switch': (PLAN,
        'range a 0 1; range b 1 1;'
        'A.0 limit 0 00000001; A.0 limit 1 00000002; A.0 select 0 00000000; A.0 select 1 00000001;'
        'A.1 limit 0 00000001; A.1 limit 1 00000002; A.1 select 0 00000000; A.1 select 1 00000001'),
    'all that is set at a link': (b'switch A\nterminal a A.31\ncontinue A.31\ndelete a\nbase A.31 65535\n'
        b'row A.31 65536 31\nrow A.31 255 discard\nrandom A.31 65534 65536\nheader 2\n',
        'range a 0 1; A.31 mode 0000000f; A.31 random-base 0000fffe; A.31 random-range 00010000; A.31 base 0000ffff;'
        'A.31 limit 0 00010000; A.31 limit 1 000000ff; A.31 select 0 0000001f; A.31 select 1 00000020'),
    'the last row': (b'switch A\n' + b'row A.9 0 sink\n' * 35 + b'row A.9 8 9\n',
        'A.9 limit 35 00000008; A.9 select 35 00000009'),
    'two switches': (b'switch B\nswitch A\nwire A.1 B.2\nrow A.0 7 1\nrow B.0 0 0\nterminal t A.0\nterminal s B.0\n'
        b'delete t\n',
        'range t 0 1; range s 1 1; B.0 select 0 00000000; A.0 mode 00000002; A.0 limit 0 00000007; A.0 select 0 00000001'),
}

# What is shown of a description by `row` lines.
BY_ROWS = {
    'nothing': (b'', 'header 1; buffer 16'),
    'rows of one switch': (b'switch A\nterminal a A.0\nrow A.0 1 0\nrow A.0 0 sink\n', 'header 1; buffer 16; switch A;'
        'terminal a A.0 labels 1 from 0; row A 1 0'),
    'a row as after a reset before one that is not': (b'switch A\nrow A.3 0 sink\nrow A.3 5 7\nbase A.3 0\n',
        'header 1; buffer 16; switch A; row A.3 0 sink; row A.3 5 7'),
    'all that is set at links, and in another order': (b'buffer 64\nswitch A\nswitch B\nterminal b B.7 from 9\n'
        b'terminal a A.31 labels 3\nwire B.0 A.2\nrandom A.31 65534 65536\nrandom A.0 0 0\nbase A.31 65535\nrow B.0 9 discard\n'
        b'row A.31 65536 31\ncontinue B.2\ncontinue A.31\ndelete a\ndelete b\nheader 2\n',
        'header 2; buffer 64; switch A; switch B; terminal b B.7 labels 1 from 9; terminal a A.31 labels 3 from 10;'
        'wire B.0 A.2; continue A.31; continue B.2; delete b; delete a; base A.31 65535; row A.31 65536 31;'
        'row B.0 9 discard; random A.0 0 0; random A.31 65534 65536'),
    'a tree of two switches': (TWO_IN_A_TREE, 'header 1; buffer 16; switch A; switch B;'
        'terminal a A.0 labels 1 from 0; terminal b B.0 labels 2 from 1; wire A.1 B.2;'
        'row A 1 0; row A 3 1; row B 1 2; row B 3 0'),
    'a mesh of two switches, headers deleted at one': (b'mesh 2 1 1\ndelete t1\nbuffer 8\n', 'header 1; buffer 8; switch s0; switch s1;'
        'terminal t0 s0.4 labels 1 from 0; terminal t1 s1.4 labels 1 from 1; wire s0.2 s1.1; delete t1;'
        'row s0 1 4; row s0 2 2; row s1 1 1; row s1 2 4'),
    'rows of a switch before its wires and terminals, and an input with its own': (b'switch A\nbase A 1\nrow A 3 2\nswitch B\n'
        b'row B 2 0\nwire A.2 B.0\nrow A 2 1\nterminal a A.0\nterminal b A.1\nrow A.1 4 2\nbase A.0 0\n', 'header 1; buffer 16;'
        'switch A; switch B; terminal a A.0 labels 1 from 0; terminal b A.1 labels 1 from 1; wire A.2 B.0; base A.2 1; row A.0 3 2;'
        'row A.0 2 1; row A.1 4 2; row A.2 3 2; row A.2 2 1; row B.0 2 0'),
    'a base of a switch, and rows of an input without it': (b'switch A\nbase A 4\nterminal a A.3\nterminal b A.5 labels 2\nrow A.3 5 5\n',
        'header 1; buffer 16; switch A; terminal a A.3 labels 1 from 0; terminal b A.5 labels 2 from 1; base A.5 4; row A.3 5 5'),
    'one table written out': (b'switch A\nterminal a A.3\nterminal b A.5\nbase A.5 7\nrow A.3 9 sink\nrow A.5 9 sink\nbase A.3 7\n'
        b'row A.3 10 5\nrow A.5 10 5\n', 'header 1; buffer 16; switch A; terminal a A.3 labels 1 from 0;'
        'terminal b A.5 labels 1 from 1; base A 7; row A 9 sink; row A 10 5'),
    'the same at a link where nothing is': (b'switch A\nterminal a A.3\nterminal b A.5\nrow A.3 9 sink\nrow A.5 9 sink\nrow A.6 9 sink\n',
        'header 1; buffer 16; switch A; terminal a A.3 labels 1 from 0; terminal b A.5 labels 1 from 1; row A.3 9 sink;'
        'row A.5 9 sink; row A.6 9 sink'),
}

# What is printed of a description by control commands.
BY_COMMANDS = {
    'nothing': (b'', ''),
    'a switch alone': (b'switch A\n', 'control A 02; control A 01'),
    'rows of one switch': (PLAN, 'control A 02;'
        'control A 05 40 01 01 00 00 00; control A 05 41 01 02 00 00 00; control A 05 80 01 00 00 00 00;'
        'control A 05 81 01 01 00 00 00; control A 05 40 02 01 00 00 00; control A 05 41 02 02 00 00 00;'
        'control A 05 80 02 00 00 00 00; control A 05 81 02 01 00 00 00; control A 01'),
    'what is as after a reset': (b'switch A\nbase A.0 0\nrow A.0 0 sink\n', 'control A 02; control A 01'),
    'all that is set at a link, random headers too': (b'switch A\nterminal a A.31\ncontinue A.31\ndelete a\n'
        b'base A.31 65535\nrow A.31 65536 31\nrow A.31 255 discard\nrandom A.31 65534 65536\nheader 2\n', 'control A 02;'
        'control A 05 00 20 0f 00 00 00; control A 05 01 20 fe ff 00 00; control A 05 02 20 00 00 01 00;'
        'control A 05 3f 20 ff ff 00 00; control A 05 40 20 00 00 01 00; control A 05 41 20 ff 00 00 00;'
        'control A 05 80 20 1f 00 00 00; control A 05 81 20 20 00 00 00; control A 01'),
    'three switches, each started behind all that is set': (b'switch B\nswitch A\nswitch C\nwire A.1 B.2\nrow A.0 7 1\n'
        b'row B.0 0 0\nterminal t A.0\ndelete t\n', 'control B 02; control A 02; control C 02;'
        'control B 05 80 01 00 00 00 00; control A 05 00 01 02 00 00 00; control A 05 40 01 07 00 00 00;'
        'control A 05 80 01 01 00 00 00; control B 01; control A 01; control C 01'),
    'a mesh of two switches': (b'mesh 2 1 1\n', 'control s0 02; control s1 02;'
        'control s0 05 40 03 01 00 00 00; control s0 05 41 03 02 00 00 00; control s0 05 80 03 04 00 00 00;'
        'control s0 05 81 03 02 00 00 00; control s0 05 40 05 01 00 00 00; control s0 05 41 05 02 00 00 00;'
        'control s0 05 80 05 04 00 00 00; control s0 05 81 05 02 00 00 00; control s1 05 40 02 01 00 00 00;'
        'control s1 05 41 02 02 00 00 00; control s1 05 80 02 01 00 00 00; control s1 05 81 02 04 00 00 00;'
        'control s1 05 40 05 01 00 00 00; control s1 05 41 05 02 00 00 00; control s1 05 80 05 01 00 00 00;'
        'control s1 05 81 05 04 00 00 00; control s0 01; control s1 01'),
}

# A network that isn't labelled, by each command.
UNLABELLED = {
    'a switch without a wire': (b'switch A\nswitch B\nlabel tree A\n', '1 NotConnected'),
    'a switch without a wire, and a label too many': (
        b'switch A\nswitch B\nterminal a A.0 labels 257\nlabel tree A\n', '1 NotConnected'),
    'a label too many': (b'switch A\nterminal a A.0\nterminal b A.1 labels 256\nlabel tree A\n', '2 TooManyLabels'),
    'a label too many, at the second terminal': (
        b'switch A\nterminal a A.0 labels 256\nterminal b A.1\nlabel tree A\n', '2 TooManyLabels'),
}

# A faulty description is answered as a run answers it.
FAULTY = {
    'a wire to itself': (b'switch A\nwire A.0 A.1\n', '2: 8 SelfWire'),
    'a line that begins with script': (PLAN + b'script of b\n', '8: 2 UnknownWord'),
    'a text that is too long': (PLAN + comments(DESCRIPTION_LIMIT - len(PLAN) + 1), '0: 1 TooLong'),
}


def lines_of(text):
    """The lines that a table parts by semicolons."""
    return ''.join(line.strip() + '\n' for line in text.split(';') if line).encode()


def images(runner):
    for name, (text, lines) in {**SHOWN, **LABELLED}.items():
        runner.case(name, lines_of(lines), words=['label', '-'], data=text)


def shape_line(text):
    """The line of a description's shape, a comment, which stands before its rows."""
    named = ([b'mesh'], [b'cube'], [b'label'])
    shapes = [words[words[0] == b'label':] for words in map(bytes.split, text.splitlines()) if words[:1] in named]
    return b'# shape %s\n' % b' '.join(shapes[0] if shapes else [b'hand'])


def by_rows(runner):
    for name, (text, lines) in BY_ROWS.items():
        runner.case(name + ', by rows', shape_line(text) + lines_of(lines), words=['label', '-', '--rows'], data=text)
    for name, (text, line) in UNLABELLED.items():
        runner.case(name + ', by rows', b'label %s\n' % line.encode(), 1, words=['label', '--rows', '-'], data=text)
    for name, (text, line) in FAULTY.items():
        runner.case(name + ', by rows', b'description %s\n' % line.encode(), 1, words=['label', '--rows', '-'], data=text)
    # What is shown by `row` lines has the same labels, and is shown again as it is.
    for name, (text, lines) in {**SHOWN, **LABELLED}.items():
        if runner.wanted(name + ', read again'):
            _, shown, _ = runner.run(words=['label', '--rows', '-'], data=text)
            runner.case(name + ', read again', lines_of(lines), words=['label', '-'], data=shown)
            by_hand = shape_line(shown) + shown.partition(b'\n')[2]
            runner.case(name + ', read again by rows', by_hand, words=['label', '--rows', '-'], data=shown)


# Two wires, which are a group at A, and a row that selects it; what is left of it without the first, by either end, or without both.
GROUPED = (b'switch A\nswitch B\nterminal a A.0\nterminal b B.0\nwire A.1 B.1\nwire A.2 B.2\ncontinue A.2\n'
    b'row A.0 1 0\nrow A.0 2 1\nrow A.2 1 0\nrow B.0 1 2\nrow B.0 2 0\nrow B.1 2 0\nrow B.2 2 0\n')
LEFT = ('header 1; buffer 16; switch A; switch B; terminal a A.0 labels 1 from 0; terminal b B.0 labels 1 from 1;%s'
    'row A.0 1 0; row A.0 2 2; row A.2 1 0; row B.0 1 2; row B.0 2 0; row B.1 2 0; row B.2 2 0')
WITHOUT = {'A.1': 'wire A.2 B.2;', 'B.1': 'wire A.2 B.2;', 'A.1 B.2': ''}


def without_wires(runner):
    for ports, wires in WITHOUT.items():
        words = [word for port in ports.split() for word in ('--without', port)]
        runner.case('without %s' % ports, b'# shape hand\n' + lines_of(LEFT % wires), 0, b'', words=['label', '--rows', *words, '-'],
                    data=GROUPED)
    runner.case('a mesh without a wire, as by hand', b'refused 6 DeadEnd: from t0 header 1 walk s0.4\n', 1, words=['check', '-'],
                data=runner.run(words=['label', '-', '--rows', '--without', 's0.2'], data=b'mesh 2 1 1\n')[1])
    for port in ('A.0', 'A.9', 'A.32', 'C.1', 'a', 'A'):
        runner.case('no wire at ' + port, b'rows 2 NoWire: %s\n' % port.encode(), 1, b'c104: -: no wire between switches is at this port\n',
                    words=['label', '--rows', '--without', port, '-'], data=GROUPED)


def by_names(runner):
    for name, (text, lines) in BY_NAMES.items():
        runner.case(name + ', by names', lines_of(lines), words=['label', '-', '--names'], data=text)
    for name, (text, line) in UNLABELLED.items():
        runner.case(name + ', by names', b'label %s\n' % line.encode(), 1, words=['label', '--names', '-'], data=text)
    for name, (text, line) in FAULTY.items():
        runner.case(name + ', by names', b'description %s\n' % line.encode(), 1, words=['label', '--names', '-'], data=text)
    # Each line of a register, behind `poke`, sets it: after a reset they give what was loaded.
    for name, (text, _) in {**SHOWN, **LABELLED}.items():
        if not runner.wanted(name + ', set by names'):
            continue
        _, shown, _ = runner.run(words=['label', '--names', '-'], data=text)
        lines = [b'poke ' + line for line in shown.splitlines() if not line.startswith(b'range ')]
        switches = sorted({line.split()[1].partition(b'.')[0] for line in lines})
        lines = [b'control %s 02' % switch for switch in switches] + lines + [b'verify']
        answers = [b'control 82'] * len(switches) + [b'done'] * (len(lines) - len(switches) - 1) + [b'verified']
        runner.case(name + ', set by names', b''.join(b'%d: %s\n' % it for it in enumerate(answers, 1)),
                    data=text + b'script\n' + b'\n'.join(lines) + b'\n')


def by_commands(runner):
    for name, (text, lines) in BY_COMMANDS.items():
        runner.case(name + ', by commands', lines_of(lines), words=['label', '-', '--commands'], data=text)
    for name, (text, line) in UNLABELLED.items():
        runner.case(name + ', by commands', b'label %s\n' % line.encode(), 1, words=['label', '--commands', '-'], data=text)
    for name, (text, line) in FAULTY.items():
        runner.case(name + ', by commands', b'description %s\n' % line.encode(), 1, words=['label', '--commands', '-'], data=text)
    runner.case('by rows and by commands', b'', 2, words=['label', '--rows', '--commands', '-'], data=PLAN)
    for name, (text, lines) in {**SHOWN, **LABELLED}.items():
        by_commands_alone(runner, name, text, lines_of(lines))
    chance = random.Random(7)
    for number in range(12):
        network = network_of(chance)
        name = 'random network %d' % number
        if runner.wanted(name + ', by commands alone'):
            _, lines, _ = runner.run(words=['label', '-'], data=network.description)
            by_commands_alone(runner, name, network.description, lines)


def by_commands_alone(runner, name, text, lines):
    """The commands of a description are those of its registers, which these lines show. On the network itself they leave what
    `verify` wants, and on one with the same switches, terminals and wires but no labels all registers of its labels."""
    if not runner.wanted(name + ', by commands alone'):
        return
    _, script, _ = runner.run(words=['label', '--commands', '-'], data=text)
    _, shown, _ = runner.run(words=['label', '--rows', '-'], data=text)
    names = [line.split()[1] for line in shown.splitlines() if line.startswith(b'switch ')]
    values = [line.split() for line in lines.splitlines() if not line.startswith(b'range ')]
    pokes = [b'control %s 05 %s %s %s' % (switch, address[2:], address[:2], b' '.join(
        value[at:at + 2] for at in (6, 4, 2, 0))) for switch, address, value in values]
    expected = [b'control %s 02' % it for it in names] + pokes + [b'control %s 01' % it for it in names]
    runner.judge(name + ', by commands alone', None if script.splitlines() == expected else 'found %r' % script)
    answers = [b'82'] * len(names) + [b'85'] * len(pokes) + [b'81'] * len(names)
    answers = b''.join(b'%d: control %s\n' % it for it in enumerate(answers, 1))
    if len(expected) <= MOST_COMMANDS:
        runner.case(name + ', its commands verified', answers + b'%d: verified\n' % (len(expected) + 1),
                    data=text + b'\nscript\n' + script + b'verify\n')
    if len(names) <= MOST_PEEKED:
        bare = b''.join(line + b'\n' for line in shown.splitlines() if line.split()[0] in (b'switch', b'terminal', b'wire'))
        kept = {(switch, address): value for switch, address, value in values}
        peeks = [(switch, b'0001', b'00000001') for switch in names] + [
            (switch, b'%04x' % (256 * (link + 1) + offset), b'%08x' % after_reset)
            for switch in names for link in range(32) for offset, after_reset in WRITABLE]
        wanted = b''.join(b'%d: %s\n' % (number, kept.get((switch, address), reset))
                          for number, (switch, address, reset) in enumerate(peeks, len(expected) + 1))
        runner.case(name + ', its registers by commands alone', answers + wanted, data=bare + b'script\n' + script
                    + b''.join(b'peek %s %s\n' % it[:2] for it in peeks))


# The offsets of a link's registers that can be written, and their values after a reset.
WRITABLE = [(0, 0), (1, 0), (2, 0), (0x3f, 0)] + [(0x40 + k, 0) for k in range(36)] + [(0x80 + k, 64) for k in range(36)]

# The most commands of which a case has to look at each answer, and the most switches whose registers are read.
MOST_COMMANDS, MOST_PEEKED = 20000, 8


def labelled(runner):
    for name, (text, _) in LABELLED.items():
        runner.case(name + ', checked', b'accepted\n', words=['check', '-'], data=text)
    for name, (text, line) in UNLABELLED.items():
        expected = b'label %s\n' % line.encode()
        runner.case(name + ', labelled', expected, 1, words=['label', '-'], data=text)
        runner.case(name + ', checked', expected, 1, words=['check', '-'], data=text)
        runner.case(name + ', run', expected, 1, data=text + b'script\nrounds 1\n')
    runner.case('as many labels as headers', b'accepted\n', words=['check', '-'],
                data=b'switch A\nterminal a A.0\nterminal b A.1 labels 255\nlabel tree A\n')
    runner.case('a run with more labels than one byte has',
                b'1: done\n2: done\n3: done\n4: done\na: ff 00 eop from b 0\nb: 00 01 aa eop from a 0\n',
                data=LABELLED['a tree of more labels than one byte has'][0]
                    + b'script\nsend a 00 01 aa eop\nsend b ff 00 eop\nsend a 01 01 eop\nrounds 40\n')
    runner.case('a run on a mesh with two-byte headers', b'1: done\n2: done\nt3: 03 00 aa eop from t0 0\n',
                data=b'mesh 2 2 1\nheader 2\nscript\nsend t0 03 00 aa eop\nrounds 40\n')
    runner.case('a run on a mesh', b'1: done\n2: done\nt3: 03 aa eop from t0 0\n',
                data=b'mesh 2 2 1\nscript\nsend t0 03 aa eop\nrounds 40\n')
    runner.case('a run on a tree', b'1: done\n2: done\n3: done\na: 00 eop from b 0\nb: 02 aa eop from a 0\n',
                data=TWO_IN_A_TREE + b'script\nsend a 02 aa eop\nsend b 00 eop\nrounds 40\n')


# Three switches in a row, with the smallest buffers.
ROW_OF_THREE = (b'switch A\nswitch B\nswitch C\nwire A.1 B.0\nwire B.1 C.0\nterminal a A.0\nterminal b C.1\n'
    b'label tree A\nbuffer 8\n')


def runs(runner):
    body = b'01' + b' 55' * (PACKET_LIMIT - 1) + b' eop'
    runner.case('the largest packet over three switches', b'1: done\n2: done\nb: ' + body + b' from a 0\n',
                data=ROW_OF_THREE + b'script\nsend a ' + body + b'\nrounds 10000\n')
    runner.case('a packet of a byte too many over three switches', b'1: fault 8 PacketTooLong\n', 1,
                data=ROW_OF_THREE + b'script\nsend a 01' + b' 55' * PACKET_LIMIT + b' eop\n')
    body = b'01 00' + b' 55' * (PACKET_LIMIT - 2)
    runner.case('the largest packet with a two-byte header, over three switches',
                b'1: done\n2: fault 8 PacketTooLong\n3: done\nb: ' + body + b' eop from a 0\n', 1,
                data=ROW_OF_THREE + b'header 2\nscript\nsend a ' + body + b' eop\nsend a ' + body + b' 55 eop\n'
                    b'rounds 10000\n')
    all_to_all(runner, 'each terminal of a mesh to each', b'mesh 3 2 1\n', b'')
    all_to_all(runner, 'each terminal of a mesh to each, two bytes', b'mesh 3 2 1\nheader 2\n', b' 00')
    # Rounds pick the first random header, which is discarded at the first switch.
    universal = hand_mesh(3, 2, 1, 1, is_universal=True)
    all_to_all(runner, 'each terminal of a mesh to each, by the first switch', universal, b' 00')
    by_each_switch(runner, 'each terminal of a mesh to each, by another switch each time', universal)


SIX = [(sender, target) for sender in range(6) for target in range(6)]


def all_to_all(runner, name, description, second_byte):
    """Each of six terminals sends each a packet, and itself too. Which of them arrives first is not looked at."""
    if not runner.wanted(name):
        return
    lines = [b'send t%d %02x%s %02x eop' % (sender, target, second_byte, sender) for sender, target in SIX]
    answers = [b'%d: done' % number for number in range(1, len(SIX) + 2)]
    received = [b't%d: %02x%s %02x eop from t%d %d' % (target, target, second_byte, sender, sender, target)
                for sender, target in SIX]
    status, output, _ = runner.run(data=description + b'script\n' + b'\n'.join(lines) + b'\nrounds 1000\n')
    found = output.splitlines()
    is_well = status == 0 and found[:len(answers)] == answers and sorted(found[len(answers):]) == sorted(received)
    runner.judge(name, None if is_well else 'status %d, found %r' % (status, found))


def by_each_switch(runner, name, description):
    """The same, one packet after the other, with headers of two bytes. A word picks the random header."""
    lines, replies = [b'rounds 1'], [b'done']
    for sender, target in SIX:
        packet = b'%02x 00 %02x eop' % (target, sender)
        lines += [b'send t%d %s' % (sender, packet), *[b'cross t%d' % sender] * 4,
                  b'input s%d.0 %d' % (sender, sender + 5 * target), b'rounds 60']
        replies += [b'done', *(b'token ' + word for word in packet.split()), b'done', b'done']
    answers = b''.join(b'%d: %s\n' % it for it in enumerate(replies, 1))
    received = b''.join(b't%d: %02x 00 %02x eop from t%d %d\n' % (target, target, sender, sender, target)
                        for target in range(6) for sender in range(6))
    runner.case(name, answers + received, data=description + b'script\n' + b'\n'.join(lines) + b'\n')


def descriptions(runner):
    for name, (text, line) in FAULTY.items():
        runner.case(name, b'description %s\n' % line.encode(), 1, words=['label', '-'], data=text)


def devices(runner):
    runner.case('no such file', b'', 3, b'c104: cannot read none/such\n', words=['label', 'none/such'])
    with open('/proc/self/mem', 'rb') as unreadable:
        runner.case('a reader that fails', b'', 3, CANNOT_READ, words=['label', '-'], stdin=unreadable)
    with open('/dev/full', 'wb') as full:
        runner.case('a writer that fails', None, 3, CANNOT_WRITE, words=['label', '-'], data=PLAN, stdout=full)
        runner.case('a writer that fails at a refusal', None, 3, CANNOT_WRITE, words=['label', '-'],
                    data=b'frob\n', stdout=full)


PARTS = [images, by_names, by_rows, without_wires, by_commands, labelled, runs, descriptions, devices]
