"""Runs a program's check of labels over descriptions that are accepted or refused.

Some answers were found by hand. Those of networks that are made at random are found by check_rules.py, which has to
find those by hand too.
"""

import os
import random
import re

import case_runner
from case_runner import CANNOT_READ, CANNOT_WRITE, DESCRIPTION_LIMIT, PLAN, comments
from check_rules import Rules
from networks import chain, full_cube, mesh
from two_bytes import hand_mesh, labelled_tree

PAIR = b'switch A\nterminal a A.0\nterminal b A.1\n'
OWN_ROWS = b'row A.0 1 0\nrow A.0 2 1\nrow A.1 1 0\nrow A.1 2 1\n'
TWO_SWITCHES = b'switch A\nswitch B\nterminal a A.0\nterminal b B.0\n'
# Both ways between a and b over one wire.
WIRE = TWO_SWITCHES + b'wire A.1 B.1\n'
A_ROWS = b'row A.0 1 0\nrow A.0 2 1\nrow A.1 1 0\nrow A.1 2 1\n'
B_ROWS = b'row B.0 1 1\nrow B.0 2 0\nrow B.1 1 1\nrow B.1 2 0\n'
# Three switches in a row, joined by two groups of two wires.
GROUPS = (b'switch A\nswitch B\nswitch C\nterminal a A.0\nterminal b C.0\nterminal c B.0\n'
    b'wire A.1 B.1\nwire A.2 B.2\nwire B.3 C.3\nwire B.4 C.4\n'
    b'continue A.2\ncontinue B.4\ncontinue B.2\ncontinue C.4\n')
GROUP_ROWS = (b'row A.0 1 0\nrow A.0 3 1\nrow B.0 1 1\nrow B.0 2 3\nrow B.0 3 0\n'
    b'row C.0 1 3\nrow C.0 2 0\nrow C.0 3 3\nrow A.1 1 0\nrow A.2 1 0\n'
    b'row B.3 1 1\nrow B.3 2 3\nrow B.3 3 0\nrow B.4 1 1\nrow B.4 2 3\nrow B.4 3 0\n')
B_TO_C = b'row B.1 2 3\nrow B.1 3 0\nrow B.2 2 3\nrow B.2 3 0\n'
TWO_BYTES = b'header 2\n'
# Labels 0 to 299 are a's, and 300 to 599 b's.
MANY_LABELS = (TWO_BYTES + b'switch A\nterminal a A.0 labels 300\nterminal b A.1 labels 300\n'
    b'row A.0 300 0\nrow A.0 600 1\nrow A.1 300 0\nrow A.1 600 1\n')
# Of the random headers of a 10 is discarded where it is put before packets, and 11 over the wire.
OVER_A_WIRE = (WIRE + A_ROWS + b'random A.0 10 2\nrow A.0 10 sink\nrow A.0 11 discard\nrow A.0 12 1\n'
    b'row B.0 1 1\nrow B.0 2 0\nrow B.1 1 1\nrow B.1 2 0\nrow B.1 11 sink\nrow B.1 12 discard\n')
# Those of a are discarded at C and at B, and never where they are put before packets.
BY_A_THIRD = (TWO_BYTES + b'switch A\nswitch B\nswitch C\nterminal a A.0\nterminal b B.0\n'
    b'wire A.1 B.1\nwire A.2 C.1\nwire B.2 C.2\ndelete b\nrandom A.0 1000 2\n'
    b'row A.0 1000 sink\nrow A.0 1001 2\nrow A.0 1002 1\nrow A.1 1 0\nrow A.2 1 0\nrow B.0 1 1\nrow B.0 2 0\n'
    b'row B.1 1 1\nrow B.1 2 0\nrow B.1 1001 sink\nrow B.1 1002 discard\nrow B.2 2 0\n'
    b'row C.1 1 1\nrow C.1 2 2\nrow C.1 1000 sink\nrow C.1 1001 discard\n')
# One random header may take either wire of a group, and is discarded behind both.
BY_A_GROUP = (WIRE + b'wire A.2 B.2\ncontinue A.2\ncontinue B.2\nrandom A.0 10 1\nrow A.0 10 sink\nrow A.0 11 1\n'
    b'row A.1 1 0\nrow A.2 1 0\nrow B.0 1 1\nrow B.0 2 0\n'
    + b''.join(b'row B.%d 1 1\nrow B.%d 2 0\nrow B.%d 10 sink\nrow B.%d 11 discard\n' % (k, k, k, k) for k in (1, 2)))
AT_ONCE = PLAN + b'random A.0 2 1\nrow A.0 3 discard\n'


def rows_of(switch, inputs, links):
    """Rows by which these inputs of a switch select these links for headers 0, 1 and so on."""
    return b''.join(b'row %s.%d %d %d\n' % (switch, k, header + 1, link) for k in inputs for header, link in enumerate(links))


TWO_WIRES = (WIRE + b'wire A.2 B.2\n' + rows_of(b'A', range(3), [0, 1]) + rows_of(b'B', range(3), [1, 0]))

# A description whose labels are accepted.
ACCEPTED = {
    'nothing': b'',
    'switches alone': b'switch A\nswitch B\nwire A.0 B.0\n',
    'one switch': PLAN,
    'a terminal that no other knows': b'switch A\nterminal a A.0\nrow A.0 1 0\n',
    'headers deleted at a terminal': PLAN + b'delete b\n',
    'a link that continues nothing': PLAN + b'continue A.31\n',
    'rows of inputs that nothing comes to': PLAN + b'row A.5 256 0\n',
    'labels apart from one another': b'switch A\nterminal a A.0 labels 2 from 254\nterminal b A.1 from 7\n'
        b'base A.0 7\nrow A.0 8 1\nrow A.0 254 sink\nrow A.0 256 0\n'
        b'base A.1 7\nrow A.1 8 1\nrow A.1 254 sink\nrow A.1 256 0\n',
    'one wire': WIRE + A_ROWS + B_ROWS,
    'two groups on the way': GROUPS + GROUP_ROWS + B_TO_C + b'row C.3 2 0\nrow C.4 2 0\n',
    'a last line without a line feed': PLAN[:-1],
    'a mesh, headers deleted at one': b'mesh 3 2 1\ndelete t5\nbuffer 64\n',
    'a cube, headers deleted at two': b'cube 3 2\ndelete t0\ndelete t15\n',
    # Headers of two bytes.
    'labels at both ends of two bytes': TWO_BYTES + b'switch A\nterminal a A.0\nterminal b A.1 from 256\n'
        b'terminal c A.2 from 65535\ndelete c\n' + b''.join(b'row A.%d 1 0\nrow A.%d 256 sink\nrow A.%d 257 1\n'
        b'row A.%d 65535 sink\nrow A.%d 65536 2\n' % (k, k, k, k, k) for k in range(3)),
    'more labels than one byte has': MANY_LABELS,
    'one switch, two bytes': PLAN + TWO_BYTES,
    'one wire, two bytes': WIRE + A_ROWS + B_ROWS + TWO_BYTES,
    'two groups on the way, two bytes': TWO_BYTES + GROUPS + GROUP_ROWS + B_TO_C + b'row C.3 2 0\nrow C.4 2 0\n',
    'rows that change nothing': MANY_LABELS + b'row A.0 65536 sink\nrow A.1 7 0\nrow A.1 65000 sink\n',
    'all labels of two bytes': TWO_BYTES + b'switch A\nterminal a A.0 labels 65535\nterminal b A.1\nrow A.0 65535 0\n'
        b'row A.0 65536 1\nrow A.1 65535 0\nrow A.1 65536 1\n',
    'a mesh, two bytes, headers deleted at one': b'mesh 3 2 1\nheader 2\ndelete t5\nbuffer 64\n',
    'a cube, two bytes': b'header 2\ncube 6 4\n',
    # Random headers.
    'a random header that is discarded at once': AT_ONCE,
    'a range of 0, which is one random header': PLAN + b'random A.0 2 0\nrow A.0 3 discard\n',
    'a base past the last header': PLAN + b'random A.0 258 1\nrow A.0 3 discard\n',
    'all headers but the labels are random': PLAN + b'random A.0 2 254\nrow A.0 256 discard\n',
    'random headers before packets of both': AT_ONCE + b'random A.1 2 1\nrow A.1 3 discard\n',
    'random headers and a terminal whose headers are deleted': AT_ONCE + b'delete a\ndelete b\n',
    'a random header that is discarded over a wire': OVER_A_WIRE,
    'a random header that is discarded at a third switch': BY_A_THIRD,
    'a random header that is discarded behind a group': BY_A_GROUP,
    'random headers that begin again from 0': TWO_BYTES + b'switch A\nterminal a A.0 from 1\nterminal b A.1\n'
        b'random A.0 65535 2\nrow A.0 1 discard\nrow A.0 2 0\nrow A.0 3 1\nrow A.0 65535 sink\nrow A.0 65536 discard\n'
        b'base A.1 1\nrow A.1 2 0\nrow A.1 3 1\n',
    'a random header that another portal lets go on': OVER_A_WIRE.replace(b'row B.1 11 sink\n',
        b'row B.1 10 sink\nrow B.1 11 0\n'),
    'a portal that leads to a terminal by another switch': OVER_A_WIRE.replace(b'row A.0 1 0\n', b''),
    'a row that discards where nothing comes': PLAN + b'row A.7 65536 discard\n',
}

# A description, and the line that refuses its labels.
REFUSED = {
    # Labels, in the order of the tests.
    'a label of two': (PAIR.replace(b'A.0', b'A.0 labels 2 from 0').replace(b'A.1', b'A.1 from 1') + OWN_ROWS,
        '1 RangesOverlap: a b'),
    'labels inside those of another': (b'switch A\nterminal c A.2\nterminal a A.0 labels 9 from 3\n'
        b'terminal b A.1 from 7\n', '1 RangesOverlap: a b'),
    'the first two of three': (b'switch A\nterminal a A.0 from 9\nterminal b A.1 from 5\nterminal c A.2 from 9\n'
        b'terminal d A.3 from 5\n', '1 RangesOverlap: a c'),
    'a label that is no header': (PAIR.replace(b'A.1', b'A.1 from 256') + OWN_ROWS, '2 LabelTooLarge: b'),
    'a last label that is no header': (PAIR.replace(b'A.1', b'A.1 labels 2 from 255') + OWN_ROWS,
        '2 LabelTooLarge: b'),
    'a label of two that is no header': (PAIR.replace(b'A.0', b'A.0 from 256').replace(b'A.1', b'A.1 from 256'),
        '1 RangesOverlap: a b'),
    # At one switch.
    'a header of nobody goes to a terminal': (PLAN + b'row A.0 200 sink\nrow A.0 201 1\n',
        '8 Stray: from a header 200 walk A.0'),
    'the last header of nobody': (PLAN + b'row A.1 255 sink\nrow A.1 256 1\n', '8 Stray: from b header 255 walk A.1'),
    'no row': (b'switch A\nterminal a A.0\n', '6 DeadEnd: from a header 0 walk A.0'),
    'a link that is not wired': (b'switch A\nterminal a A.0\nrow A.0 1 1\n', '6 DeadEnd: from a header 0 walk A.0'),
    'a group over a link that is not wired': (PLAN + b'continue A.2\n', '6 DeadEnd: from a header 1 walk A.0'),
    'the wrong terminal': (PLAN.replace(b'row A.1 1 0', b'row A.1 1 1'), '5 WrongEnd: from b header 0 walk A.1'),
    'a group of two terminals': (PLAN + b'continue A.1\n', '5 WrongEnd: from a header 0 walk A.0'),
    'a link of the group before the one selected': (b'switch A\nterminal a A.1\nterminal b A.2\ncontinue A.1\n'
        b'row A.1 1 1\nrow A.1 2 2\nrow A.2 1 1\nrow A.2 2 2\n', '6 DeadEnd: from a header 0 walk A.1'),
    # The first by terminal, then by header, then depth first.
    'a later terminal has the lower header': (PAIR + b'row A.0 1 0\nrow A.0 2 0\nrow A.1 1 1\nrow A.1 2 1\n',
        '5 WrongEnd: from a header 1 walk A.0'),
    'a later terminal and a header of nobody': (PAIR + b'row A.0 1 0\nrow A.0 2 1\nrow A.0 3 0\nrow A.1 1 1\n'
        b'row A.1 2 1\n', '8 Stray: from a header 2 walk A.0'),
    'an unwired link behind a wrong one': (PAIR + b'continue A.1\ncontinue A.2\nrow A.0 2 0\nrow A.1 2 0\n',
        '5 WrongEnd: from a header 0 walk A.0'),
    # Headers of two bytes.
    'a header of nobody, two bytes': (PLAN + TWO_BYTES + b'row A.0 30000 sink\nrow A.0 30001 1\n',
        '8 Stray: from a header 30000 walk A.0'),
    'the last header of nobody, two bytes': (PLAN + TWO_BYTES + b'row A.1 65535 sink\nrow A.1 65536 1\n',
        '8 Stray: from b header 65535 walk A.1'),
    'the last of many labels': (MANY_LABELS.replace(b'row A.1 600 1', b'row A.1 599 1'),
        '6 DeadEnd: from b header 599 walk A.1'),
    'the first header past many labels': (MANY_LABELS.replace(b'row A.0 600 1', b'row A.0 601 1'),
        '8 Stray: from a header 600 walk A.0'),
    'one of many labels': (MANY_LABELS.replace(b'row A.0 600 1', b'row A.0 411 1\nrow A.0 412 0\nrow A.0 600 1'),
        '5 WrongEnd: from a header 411 walk A.0'),
    'the first of many labels': (MANY_LABELS.replace(b'row A.0 300 0', b'row A.0 1 1\nrow A.0 300 0'),
        '5 WrongEnd: from a header 0 walk A.0'),
    'a loop, two bytes': (TWO_BYTES + WIRE.replace(b'a A.0', b'a A.0 labels 256') + b'row A.0 256 0\nrow A.0 257 1\n'
        b'row A.1 256 0\nrow A.1 257 1\nrow B.0 256 1\nrow B.0 257 0\nrow B.1 257 1\n',
        '7 Loop: from a header 256 walk A.0 B.1 A.1 B.1'),
    # Over wires.
    'a loop back to the second input': (WIRE + A_ROWS + b'row B.1 2 1\nrow B.0 1 1\nrow B.0 2 0\n',
        '7 Loop: from a header 1 walk A.0 B.1 A.1 B.1'),
    'a loop back to the third input': (b'switch A\nswitch B\nswitch C\nterminal a A.0\nterminal b B.0\n'
        b'wire A.1 B.1\nwire B.2 C.2\nrow A.0 1 0\nrow A.0 2 1\nrow B.1 2 2\nrow C.2 2 2\nrow B.2 2 2\n',
        '7 Loop: from a header 1 walk A.0 B.1 C.2 B.2 C.2'),
    'no row behind the wire': (WIRE + A_ROWS + b'row B.0 1 1\nrow B.0 2 0\nrow B.1 1 1\n',
        '6 DeadEnd: from a header 1 walk A.0 B.1'),
    'a row that the other input lacks': (WIRE + A_ROWS.replace(b'row A.1 1 0\nrow A.1 2 1\n', b'row A.1 2 1\n')
        + B_ROWS, '7 Loop: from b header 0 walk B.0 A.1 B.1 A.1'),
    'rows that are right one by one': (b'switch A\nswitch B\nterminal a A.0\nterminal b B.0\n'
        b'wire A.1 B.1\nwire A.2 B.2\nrow A.0 1 0\nrow A.0 2 1\nrow A.1 2 2\nrow A.2 2 1\nrow B.0 2 0\n'
        b'row B.1 2 2\nrow B.2 2 1\n', '7 Loop: from a header 1 walk A.0 B.1 A.2 B.1'),
    'the second link of a second group': (GROUPS + GROUP_ROWS + B_TO_C + b'row C.3 2 0\nrow C.4 2 4\n',
        '7 Loop: from a header 1 walk A.0 B.1 C.4 B.3 C.4'),
    'the second link of a first group': (GROUPS + GROUP_ROWS + b'row B.1 2 3\nrow B.1 3 0\nrow B.2 1 0\n'
        b'row C.3 2 0\nrow C.4 2 0\n', '6 DeadEnd: from a header 1 walk A.0 B.2'),
}

# The same where random headers are put before packets.
REFUSED_RANDOM = {
    'random headers inside': (WIRE + b'row A.0 1 0\nrow A.0 2 1\nrow B.1 1 sink\nrow B.1 2 0\nrandom A.1 10 1\n',
        '10 RandomInside: A.1'),
    'random headers at a link without a wire': (PLAN + b'random A.31 2 1\n', '10 RandomInside: A.31'),
    'random headers inside at two links': (WIRE + A_ROWS + B_ROWS + b'random B.1 10 1\nrandom A.5 10 1\n'
        b'random A.1 10 1\n', '10 RandomInside: A.1'),
    'random headers inside, and labels of two': (PLAN.replace(b'A.1\n', b'A.1 from 0\n', 1) + b'random A.2 2 1\n',
        '1 RangesOverlap: a b'),
    'random headers inside, and a label that is no header': (PLAN.replace(b'A.1\n', b'A.1 from 256\n', 1)
        + b'random A.2 2 1\n', '2 LabelTooLarge: b'),
    'a random header without a row': (PLAN + b'random A.0 2 1\n', '6 DeadEnd: from a header 2 walk A.0'),
    'a random header that is sunk': (PLAN + b'random A.0 2 1\nrow A.0 3 sink\n', '6 DeadEnd: from a header 2 walk A.0'),
    'a random header that comes to a terminal': (PLAN + b'random A.0 1 1\n', '5 WrongEnd: from a header 1 walk A.0'),
    'a random header that comes to its sender': (PLAN + b'random A.0 256 1\n', '5 WrongEnd: from a header 0 walk A.0'),
    'a label that is a random header': (PLAN.replace(b'row A.0 2 1', b'row A.0 2 discard') + b'random A.0 1 1\n',
        '6 DeadEnd: from a header 1 walk A.0'),
    'a label among random headers': (AT_ONCE.replace(b'random A.0 2 1', b'random A.0 254 4').replace(
        b'row A.0 3 discard', b'row A.0 254 sink\nrow A.0 256 discard'), '5 WrongEnd: from a header 0 walk A.0'),
    'the second of random headers': (AT_ONCE.replace(b'random A.0 2 1', b'random A.0 2 2'),
        '6 DeadEnd: from a header 3 walk A.0'),
    'the last of random headers, two bytes': (AT_ONCE.replace(b'random A.0 2 1', b'random A.0 2 65534').replace(
        b'A.0 3 discard', b'A.0 65535 discard') + TWO_BYTES, '6 DeadEnd: from a header 65535 walk A.0'),
    'a random header that is sunk over a wire': (OVER_A_WIRE.replace(b'B.1 12 discard', b'B.1 12 sink'),
        '6 DeadEnd: from a header 11 walk A.0 B.1'),
    'a random header that comes to a terminal over a wire': (OVER_A_WIRE.replace(b'B.1 12 discard', b'B.1 12 0'),
        '5 WrongEnd: from a header 11 walk A.0 B.1'),
    'a random header that goes round': (OVER_A_WIRE.replace(b'B.1 12 discard', b'B.1 12 1') + b'row A.1 12 1\n',
        '7 Loop: from a header 11 walk A.0 B.1 A.1 B.1'),
    'a portal without a row for a label': (BY_A_THIRD.replace(b'row B.1 2 0\n', b''),
        '6 DeadEnd: from a header 1 walk B.1'),
    'a portal without a row for a label, met behind another': (OVER_A_WIRE.replace(b'row B.1 2 0\n', b''),
        '6 DeadEnd: from a header 1 walk A.0 B.1'),
    'a portal that leads to the wrong terminal': (OVER_A_WIRE.replace(b'row B.1 1 1\n', b''),
        '5 WrongEnd: from a header 0 walk B.1'),
    'a portal that lets a header of nobody go on': (OVER_A_WIRE.replace(b'row B.1 11 sink', b'row B.1 11 0'),
        '8 Stray: from a header 2 walk B.1'),
    'a portal that discards a header of nobody': (AT_ONCE.replace(b'A.0 3 discard', b'A.0 4 discard'),
        '8 Stray: from a header 3 walk A.0'),
    'a terminal without random headers that sends one': (OVER_A_WIRE + b'row B.0 10 sink\nrow B.0 11 0\n',
        '8 Stray: from b header 10 walk B.0'),
    # The lower random header comes to C, and what is wrong there is told, though it is wrong for a higher header, and C
    # comes after B in the description.
    'the portal that is met first': (BY_A_THIRD.replace(b'C.1 2 2', b'C.1 2 sink').replace(b'row B.1 1 1\n', b''),
        '6 DeadEnd: from a header 1 walk C.1'),
    'the other portal': (BY_A_THIRD.replace(b'row B.1 1 1\n', b''), '5 WrongEnd: from a header 0 walk B.1'),
    'a random header before a portal that is met before it': (OVER_A_WIRE.replace(b'row A.0 2 1', b'row A.0 2 sink')
        .replace(b'B.1 12 discard', b'B.1 12 sink'), '6 DeadEnd: from a header 11 walk A.0 B.1'),
    'a random header of a later terminal': (PLAN + b'random A.1 7 1\n', '6 DeadEnd: from b header 7 walk A.1'),
    'a terminal before a random header of a later one': (PLAN.replace(b'row A.0 1 0\n', b'') + b'random A.1 7 1\n',
        '5 WrongEnd: from a header 0 walk A.0'),
    'a random header behind the second link of a group': (BY_A_GROUP.replace(b'row B.2 11 discard\n', b''),
        '6 DeadEnd: from a header 10 walk A.0 B.2'),
    'a portal behind the second link of a group': (BY_A_GROUP.replace(b'row B.2 2 0\n', b''),
        '6 DeadEnd: from a header 1 walk B.2'),
    'a random header by a group over a link that is not wired': (BY_A_GROUP + b'continue A.3\n',
        '6 DeadEnd: from a header 10 walk A.0'),
}

ALL_REFUSED = {**REFUSED, **REFUSED_RANDOM}

# A faulty description is answered as a run answers it.
FAULTY = {
    'a wire to itself': (b'switch A\nwire A.0 A.1\n', '2: 8 SelfWire'),
    'a line that begins with script': (PLAN + b'script of b\n', '8: 2 UnknownWord'),
    'a text that is too long': (PLAN + comments(DESCRIPTION_LIMIT - len(PLAN) + 1), '0: 1 TooLong'),
    'a fault before the labels': (PLAN + b'row A.1 256 1\nfrob\n', '9: 2 UnknownWord'),
}

# An example, and what is said of it as it stands and after each change that it proposes, in turn.
EXAMPLES = {
    'labels-that-loop.txt': [
        (b'', b'', 'refused 7 Loop: from a header 1 walk A.0 B.1 A.1 B.1'),
        (b'\nrow B.1 2 1\n', b'\nrow B.1 1 1\nrow B.1 2 0\n', 'accepted'),
    ],
    'label-without-a-way.txt': [
        (b'', b'', 'refused 6 DeadEnd: from a header 2 walk A.0 B.2'),
        (b'#     row B.2', b'row B.2', 'refused 6 DeadEnd: from c header 0 walk B.3'),
        (b'#     row B.3', b'row B.3', 'accepted'),
    ],
}

# Cases of which some fault takes more than one row at one input: a group, a wire or several tables are wrong.
NOT_MENDED = {
    'a group over a link that is not wired',
    'a group of two terminals',
    'a link of the group before the one selected',
    'an unwired link behind a wrong one',
    # What is wrong is where random headers are put or which they are; or one may be discarded at no input of its walk.
    'random headers inside',
    'random headers at a link without a wire',
    'random headers inside at two links',
    'random headers inside, and labels of two',
    'random headers inside, and a label that is no header',
    'a random header that comes to a terminal',
    'a random header that comes to its sender',
    'a label that is a random header',
    'a label among random headers',
    'a random header before a portal that is met before it',
    'a random header by a group over a link that is not wired',
}

# A fault gives way to another so often at most.
MOST_MENDS = 40

# Networks with as many paths as no walk could take one by one.
LARGE = {
    'a mesh of 64 switches with 256 terminals': lambda: mesh(8, 8, 4),
    'a chain of 60 switches by groups of 8': lambda: chain(60, 8, [0, 59]),
    'a chain of 60 switches with a terminal each': lambda: chain(60, 8, range(60)),
    '64 switches with every link wired': full_cube,
    'a mesh of 64 switches with 51,200 labels': lambda: hand_mesh(8, 8, 4, 200),
    'a mesh of 64 switches in which routing is universal': lambda: hand_mesh(8, 8, 4, 200, is_universal=True),
    'a tree of 64 switches with all labels': lambda: labelled_tree(64, 4, 256),
}


def labels(runner):
    for name, text in ACCEPTED.items():
        runner.case(name, b'accepted\n', words=['check', '-'], data=text)
    for name, (text, line) in ALL_REFUSED.items():
        runner.case(name, b'refused %s\n' % line.encode(), 1, words=['check', '-'], data=text)


# Networks that are made at random.
MANY_CHAINS = 300
BACK, AHEAD = 1, 3


def random_chain(seed):
    """Switches in a row, each with a terminal on link 0 and joined to the next by a wire or a group of two. Behind the
    labels there is a random header for each switch, which is discarded there, and some terminals' links put some of
    these before packets. A few lines are changed, so that most such networks are refused."""
    pick = random.Random(seed)
    size, width, most = pick.randrange(1, 5), pick.randrange(1, 3), pick.choice((3, 400))
    counts = [pick.randrange(1, most) for _ in range(size)]
    ends = [sum(counts[:k + 1]) for k in range(size)]
    first = pick.choice((ends[-1], ends[-1] + 5, (256 if most == 3 else 65536) - size))
    lines = ['header 2'] if most > 3 else []
    lines += ['switch s%d' % k for k in range(size)]
    lines += ['terminal t%d s%d.0 labels %d' % (k, k, count) for k, count in enumerate(counts)]
    for k in range(size - 1):
        lines += ['wire s%d.%d s%d.%d' % (k, AHEAD + j, k + 1, BACK + j) for j in range(width)]
        lines += ['continue s%d.%d' % (k, AHEAD + 1), 'continue s%d.%d' % (k + 1, BACK + 1)] if width == 2 else []
    randomized = [k for k in range(size) if pick.random() < 0.6]
    for k in randomized:
        low = pick.randrange(size)
        lines.append('random s%d.0 %d %d' % (k, first + low, pick.randrange(size - low + 1)))
    for k in range(size):
        lines += rows_of_chain(k, size, width, ends, first, k in randomized)
    for _ in range(pick.choice((0, 1, 1, 2, 3))):
        place = pick.randrange(len(lines))
        lines[place] = changed_line(pick, lines[place], first + size)
    return '\n'.join(lines).encode() + b'\n'


def rows_of_chain(switch, size, width, ends, first, is_randomized):
    """The rows of a switch's inputs: the terminal's has those for random headers only if these are put there."""
    lines = []
    selects = [0 if k == switch else BACK if k < switch else AHEAD for k in range(size)]
    back, ahead = width * (switch > 0), width * (switch + 1 < size)
    for link in [0, *range(BACK, BACK + back), *range(AHEAD, AHEAD + ahead)]:
        rows = list(zip(ends, selects))
        if link or is_randomized:
            rows += [(first, 'sink')] if first > ends[-1] else []
            rows += [(first + k + 1, 'discard' if k == switch else selects[k]) for k in range(size)]
        lines += ['row s%d.%d %d %s' % (switch, link, *row) for row in rows]
    return lines


def changed_line(pick, line, end):
    """A line with another number, or none in its place; one that no table or random header rests on stays."""
    words = line.split() or ['']
    if words[0] == 'continue':
        return ''
    if words[0] == 'random':
        words[2 + pick.randrange(2)] = str(pick.randrange(end))
    if words[0] == 'row':
        change = pick.randrange(3)
        if change == 0:
            return ''
        if change == 1:
            words[2] = str(min(int(words[2]) + pick.choice((-1, 1)), 65536))
        else:
            words[3] = str(pick.choice((0, BACK, AHEAD, 5, 'sink', 'discard')))
    return ' '.join(words)


def by_rules(runner):
    """The rules say of the networks above what was found by hand, and the program says of others what they say."""
    by_hand = [(name, text, 'accepted') for name, text in ACCEPTED.items() if b'row' in text or b'terminal' not in text]
    by_hand += [(name, text, 'refused ' + line) for name, (text, line) in ALL_REFUSED.items()]
    for name, text, line in by_hand:
        if runner.wanted('by rules: ' + name):
            found = Rules(text).answer()
            runner.judge('by rules: ' + name, None if found == line else 'wanted %s, found %s' % (line, found))
    kinds = set()
    for seed in range(MANY_CHAINS):
        text = random_chain(seed)
        line = Rules(text).answer()
        kinds.add(' '.join(line.split()[:3]) if line != 'accepted' else line)
        runner.case('by rules: chain %d' % seed, line.encode() + b'\n', 0 if line == 'accepted' else 1,
                    words=['check', '-'], data=text)
    if runner.wanted('by rules'):
        runner.judge('by rules: each kind of answer', None if len(kinds) == 5 else '%r' % sorted(kinds))


def examples(runner):
    for name, changes in EXAMPLES.items():
        with open(os.path.join(case_runner.EXAMPLES, name), 'rb') as file:
            text = file.read()
        for number, (old, new, line) in enumerate(changes):
            text = text.replace(old, new)
            runner.case('%s, mended %d times' % (name, number), line.encode() + b'\n',
                        0 if line == 'accepted' else 1, words=['check', '-'], data=text)


def words_of(line):
    return line.split(b'#')[0].split()


def told_lines(errors):
    """What is told, line by line; None where a line of standard error isn't a message about the description."""
    lines = errors.splitlines()
    begin = b'c104: -: '
    if not lines or not all(line.startswith(begin) for line in lines):
        return None
    return [line[len(begin):] for line in lines]


CHANGE = re.compile(rb'(add|by|replace line (\d+)): (.*)')


def mended(text, advice):
    """The description with the lines of an advice; None where they can't be followed. The lines that it numbers are those of
    the description as it was."""
    lines = [[line] for line in text.splitlines()]
    added, place = [], None
    for line in advice:
        change = CHANGE.fullmatch(line)
        if change is None:
            return None
        word, number, told = change.groups()
        if word == b'add':
            added.append(told)
        elif number:
            place = int(number) - 1
            if place >= len(lines) or len(lines[place]) != 1 or words_of(lines[place][0]) != told.split():
                return None
            lines[place] = []
        elif place is None:
            return None
        else:
            lines[place].append(told)
    return b''.join(line + b'\n' for part in [*lines, added] for line in part)


def is_of_cycles(errors):
    """Whether what is told of labels that are accepted is about cycles of channel dependencies."""
    lines = told_lines(errors)
    return lines is not None and lines[0].startswith((b'no cycle of channel dependencies', b'packets can wait',
                                                      b'random headers are put before packets'))


def mend_once(runner, text):
    """What is wrong with what is told of a description; the fault, and the mended description if it is."""
    plain = runner.run(words=['check', '-'], data=text)
    told = runner.run(words=['check', '--explain', '-'], data=text)
    if plain is None or told is None:
        return 'no end', None, None
    if told[:2] != plain[:2]:
        return 'other answers are given where messages are', None, None
    if plain[0] == 0:
        return (None if is_of_cycles(told[2]) else 'of what is accepted it is told: %r' % told[2]), None, None
    lines = told_lines(told[2])
    if lines is None:
        return 'standard error is %.120r' % told[2], None, None
    change = None
    advice = [line for line in lines if CHANGE.fullmatch(line)]
    if lines.index(advice[0]) + len(advice) != len(lines) if advice else False:
        return 'lines are told behind those of the advice: %r' % lines, None, None
    if advice:
        change = mended(text, advice)
        if change is None:
            return 'nobody can follow %r' % lines, None, None
    return None, plain[1], change


def mends(runner):
    """Each fault goes where its advice is followed, and so in turn does each that shows then."""
    texts = {name: text for name, (text, _) in ALL_REFUSED.items()}
    for name in EXAMPLES:
        with open(os.path.join(case_runner.EXAMPLES, name), 'rb') as file:
            texts[name] = file.read()
    wrong = chain(20, 8, [0, 19]).replace(b'row s19.7 2 16\n', b'row s19.7 2 0\n')
    texts['a chain of 20 switches with one wrong row'] = wrong
    for name, text in texts.items():
        full_name = '%s, as advised' % name
        if runner.wanted(full_name):
            runner.judge(full_name, wrong_advice(runner, name, text))


def wrong_advice(runner, name, text):
    """What is wrong with the advice on a description, followed until nothing is refused or none is given."""
    seen = []
    for _ in range(MOST_MENDS):
        wrong, fault, text = mend_once(runner, text)
        if wrong is not None:
            return wrong
        if fault is None:
            return None if name not in NOT_MENDED else 'it is mended'
        if fault in seen:
            return 'the fault shows again: %r' % fault
        seen.append(fault)
        if text is None:
            return None if name in NOT_MENDED else 'no line mends %r' % fault
    return 'more than %d faults, one behind the other' % MOST_MENDS


def descriptions(runner):
    for name, (text, line) in FAULTY.items():
        runner.case(name, b'description %s\n' % line.encode(), 1, words=['check', '-'], data=text)
    runner.case('a text that fills its limit', b'accepted\n', words=['check', '-'],
                data=PLAN + comments(DESCRIPTION_LIMIT - len(PLAN)))


def large_networks(runner):
    for name, make in LARGE.items():
        if runner.wanted(name):
            runner.case(name, b'accepted\n', words=['check', '-'], data=make())
    # One input at the chain's end sends a header back, where it is met again behind inputs that were good.
    wrong = chain(60, 8, [0, 59]).replace(b'row s59.7 2 16\n', b'row s59.7 2 0\n')
    way = ' '.join('s%d.0' % s for s in range(1, 59))
    runner.case('a chain of 60 switches with one wrong row',
                b'refused 7 Loop: from t0 header 1 walk s0.16 %s s59.7 s58.8 s59.7\n' % way.encode(), 1,
                words=['check', '-'], data=wrong)


def devices(runner):
    runner.case('no such file', b'', 3, b'c104: cannot read none/such\n', words=['check', 'none/such'])
    with open('/proc/self/mem', 'rb') as unreadable:
        runner.case('a reader that fails', b'', 3, CANNOT_READ, words=['check', '-'], stdin=unreadable)
    with open('/dev/full', 'wb') as full:
        runner.case('a writer that fails', None, 3, CANNOT_WRITE, words=['check', '-'], data=PLAN, stdout=full)
        runner.case('a writer that fails at a refusal', None, 3, CANNOT_WRITE, words=['check', '-'],
                    data=PLAN + b'continue A.2\n', stdout=full)


PARTS = [labels, by_rules, examples, mends, descriptions, large_networks, devices]
