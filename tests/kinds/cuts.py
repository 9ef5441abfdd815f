"""Runs `c104-cuts` over descriptions: which wires may not break, and which pairs of a terminal and a label of another are lost.

All is found by hand, but for what labels made anew come to.
"""

from case_runner import PLAN
from kinds.check import ALL_REFUSED, TWO_WIRES, rows_of
from tools import tool_parts

THREE = b'switch A\nswitch B\nswitch C\nterminal a A.0\nterminal b B.0\nterminal c C.0\n'
# Packets for b go over a wire that may not break, and those for c over a group of two others.
WIRES_TO_B = (b'switch A\nswitch B\nterminal a A.0\nterminal b B.0\nterminal c B.7\nwire A.1 B.1\nwire A.2 B.2\nwire A.3 B.3\n'
    b'continue A.3\nrow A.0 1 0\nrow A.0 2 1\nrow A.0 3 2\nrow A.1 1 0\nrow A.2 1 0\nrow A.3 1 0\nrow B 1 2\nrow B 2 0\nrow B 3 7\n')
# Without each wire: b and c send to a over B.2 alone, which ends at A.2. Labels made anew go over the other two.
LOST = (b'wire,to,check,still,some,lost,labels,mean_hops,largest_hops,largest_load,load_link\r\n'
    b',,accepted,6,0,0,accepted,0.666,1,2,A.1\r\nA.1,B.1,DeadEnd,5,0,1,accepted,0.666,1,2,A.2\r\n'
    b'A.2,B.2,DeadEnd,4,0,2,accepted,0.666,1,2,A.3\r\nA.3,B.3,accepted,6,0,0,accepted,0.666,1,2,A.1\r\n')
LOST_PAIRS = (b'wire,to,sender,label,receiver,ways\r\nA.1 A.2,B.1 B.2,b,0,a,all\r\nA.1 A.2,B.1 B.2,c,0,a,all\r\n'
    b'A.1 A.2,B.1 B.2,a,1,b,all\r\nA.1 A.3,B.1 B.3,a,1,b,all\r\nA.2 A.3,B.2 B.3,b,0,a,all\r\nA.2 A.3,B.2 B.3,c,0,a,all\r\n'
    b'A.2 A.3,B.2 B.3,a,2,c,all\r\n')

USAGE = ([], ['-', '-'], ['-', '--what', 'wires'], ['-', '--at-once', '2'], ['-', '--what', 'cuts', '--at-once', '0'], ['-', '--relabel'],
         ['-', '--workers', '0'])

# A description, and what is told of it without each of its wires.
CUT = {
    'a ring, by the shortest ways': (THREE + b'wire A.1 B.2\nwire B.1 C.2\nwire C.1 A.2\n' + rows_of(b'A', range(3), [0, 1, 2])
        + rows_of(b'B', range(3), [2, 0, 1]) + rows_of(b'C', range(3), [1, 2, 0]),
        ['cut A.1 B.2: refused 6 DeadEnd: from a header 1 walk A.0', 'cut B.1 C.2: refused 6 DeadEnd: from b header 2 walk B.0',
         'cut C.1 A.2: refused 6 DeadEnd: from a header 2 walk A.0', '3 of 3 wires may not break']),
    'a row of three': (THREE + b'wire A.1 B.1\nwire B.2 C.1\n' + rows_of(b'A', range(2), [0, 1, 1])
        + rows_of(b'B', range(3), [1, 0, 2]) + rows_of(b'C', range(2), [1, 1, 0]),
        ['cut A.1 B.1: refused 6 DeadEnd: from a header 1 walk A.0', 'cut B.2 C.1: refused 6 DeadEnd: from a header 2 walk A.0 B.1',
         '2 of 2 wires may not break']),
    'a pair, two wires in a group': (TWO_WIRES + b'continue A.2\ncontinue B.2\n', ['all 2 wires may break']),
    'a pair, two wires of which one is taken': (TWO_WIRES,
        ['cut A.1 B.1: refused 6 DeadEnd: from a header 1 walk A.0', '1 of 2 wires may not break']),
    'one switch alone': (PLAN, ['all 0 wires may break']),
}


def cuts(runner):
    """What `c104-cuts` finds without each wire, in one process and by several; and what it tells of labels that are refused."""
    for number, (name, (text, lines)) in enumerate(CUT.items(), 1):
        runner.case(name, ''.join(it + '\n' for it in lines).encode(), int(lines[-1][:4] != 'all '), b'',
                    words=['--workers', str(number), '-'], data=text)
    for name, (text, line) in list(ALL_REFUSED.items())[:3]:
        runner.case('cut, ' + name, b'refused %s\n' % line.encode(), 1, b'', words=['-'], data=text)
        told = runner.runner.run(words=['--explain', 'check', '-'], data=text)[2] if runner.wanted('cut, ' + name) else None
        runner.case('cut and explained, ' + name, b'refused %s\n' % line.encode(), 1, told, words=['-', '--explain'], data=text)
    runner.case('a table of cuts', LOST, 1, b'', words=['-', '--what', 'cuts', '--relabel', '--format', 'csv'], data=WIRES_TO_B)
    runner.case('pairs that cuts lose', LOST_PAIRS, 1, b'', words=['-', '--what', 'pairs', '--at-once', '2', '--format', 'csv'],
                data=WIRES_TO_B)


def refused(runner):
    """Words that aren't taken, each told in one line, and a file that is not there."""
    for words in USAGE:
        if runner.wanted('usage of c104-cuts %s' % ' '.join(words)):
            found = runner.run(words=words, data=PLAN)
            is_told = found[:2] == (2, b'') and found[2].startswith(b'c104-cuts: ') and found[2].count(b'\n') == 1
            runner.judge('usage of c104-cuts %s' % ' '.join(words), None if is_told else '%.300r' % (found,))
    runner.case('a file that is not there', b'', 3, b'c104: cannot read none/such\n', words=['none/such'])


PARTS = tool_parts('cuts', [cuts, refused])
