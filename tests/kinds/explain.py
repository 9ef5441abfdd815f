"""Runs a program with its messages for people, which change nothing but standard error.

Each case of tests/cases, each description that is refused and each example is run plainly, with `--explain` before and
behind its words, and with a terminal as standard error: standard output and the exit status are the same. Then come
texts with a mistake, and what is told of it. Each sentence of the tables has to come of one of these.
"""

import os
import pty
import re
import shlex
import subprocess
import tempfile
import threading

from case_runner import CASES, EXAMPLES, EXAMPLE_FILES, PLAN, TESTS, TOP, CopiedCase
from kinds.descriptions import REFUSED_DESCRIPTIONS

TABLES = [os.path.join(TOP, 'crates', name, 'src') for name in ('c104_mistakes', 'c104_explain')]
SECONDS = 300
EXPLAIN = '--explain'
CLOCK = os.path.join(TESTS, 'later_clock.c')

TWO = b'switch A\nswitch B\n'
PAIR = b'switch A\nterminal a A.0\n'

NO_DESCRIPTIONS_WORD = 'no line of a description begins with this word; see `c104 run --help`'
MIXED_LABEL = '`label` goes with no `row`, `base`, `random` or `from`, and `label tree` with no `continue`: label'
MIXED_ROW = 'this goes with no earlier `label`, `mesh`, `cube`, `torus` or `clos`: '
MIXED_CONTINUE = 'this goes with no earlier `label tree`, `mesh`, `cube`, `torus` or `clos`: continue'
MIXED_SHAPE = '`mesh`, `cube`, `torus` and `clos` go with `header`, `buffer` and `delete` alone: '

# A description, the line of its message, and what is told.
DESCRIPTIONS = [
    (b'# ' + b'x' * 1048576, None, 'a description has at most 1048576 bytes'),
    (b'\xef\xbb\xbfswitch A\n', 1, 'the text begins with a byte order mark; save it without one'),
    (PLAN + b'send a 01 eop\n', 8, 'this is a word of scripts; a line `script` begins the script, or it is a file of its own: send'),
    (b'script now\n', 1, 'the line before a script has one word, `script`, and nothing after it: now'),
    (b'switch A\nterminl a A.0\n', 2, NO_DESCRIPTIONS_WORD + ': terminl; did you mean terminal?'),
    (b'switch A\nfrobnicate tree A\n', 2, NO_DESCRIPTIONS_WORD + ': frobnicate'),
    (PAIR + b'randm A.0 2 1\n', 3, NO_DESCRIPTIONS_WORD + ': randm; did you mean random?'),
    (b'switch A\nlabel A\n', 2, 'the line is `label tree SWITCH`, `label up-down SWITCH` or `label up-down`'),
    (b'mesh 2 2\n', 1, 'the line is `mesh COLUMNS ROWS TERMINALS [WIRES]`'),
    (b'cube 1\n', 1, 'the line is `cube DIMENSIONS TERMINALS [WIRES]`'),
    (b'torus 2 2\n', 1, 'the line is `torus COLUMNS ROWS TERMINALS [WIRES]`'),
    (b'clos 1\n', 1, 'the line is `clos LEAVES SPINES TERMINALS [WIRES]`'),
    (b'mesh 0 2 1\n', 1, 'a mesh has 1 to 64 columns: 0'),
    (b'cube 7 1\n', 1, 'a cube has 0 to 6 dimensions: 7'),
    (b'torus 2 2 25\n', 1, 'a torus has 1 to 24 terminals at each switch: 25'),
    (b'clos 2 2 32\n', 1, 'a folded Clos network has 1 to 31 terminals at each leaf: 32'),
    (b'mesh 64 64 1\n', 1, 'there are at most 64 switches and 256 terminals, and 32 links at a switch'),
    (b'switch A\nlabel tree B\n', 2, 'no earlier line defines a switch of this name: B'),
    (b'switch A\nrow A.0 1 0\nlabel tree A\n', 3, MIXED_LABEL),
    (b'switch A\ncontinue A.1\nlabel tree A\n', 3, MIXED_LABEL),
    (b'switch A\nlabel tree A\ncontinue A.1\n', 3, MIXED_CONTINUE),
    (b'mesh 2 1 1\ncontinue s0.1\n', 2, MIXED_CONTINUE),
    (b'mesh 2 1 1\nrandom s0.4 2 1\n', 2, MIXED_ROW + 'random'),
    (b'switch A\nlabel up-down\nbase A 3\n', 3, MIXED_ROW + 'base'),
    (b'switch A\nlabel up-down\nterminal a A.0 from 3\n', 3, MIXED_ROW + 'terminal'),
    (b'torus 2 2 1\nterminal a s0.9\n', 2, MIXED_SHAPE + 'terminal'),
    (b'clos 2 2 1\nswitch A\n', 2, MIXED_SHAPE + 'switch'),
    (b'clos 2 2 1\nlabel up-down\n', 2, MIXED_SHAPE + 'label'),
    (b'switch A\ncube 1 1\n', 2, MIXED_SHAPE + 'cube'),
    (b'switch \xc3\x84\n', 1,
        'outside of a comment a byte is printable ASCII, a space, a tab or a carriage return: ??'),
    (b'switch A B\n', 1, 'the line is `switch NAME`'),
    (b'switch A\nterminal a\n', 2, 'the line is `terminal NAME SWITCH.LINK [labels COUNT] [from FIRST]`'),
    (b'switch A\nterminal a A.0 label 2\n', 2, 'the line is `terminal NAME SWITCH.LINK [labels COUNT] [from FIRST]`'),
    (b'wire A.0\n', 1, 'the line is `wire SWITCH.LINK SWITCH.LINK`'),
    (b'header\n', 1, 'the line is `header 1` or `header 2`'),
    (b'buffer 8 8\n', 1, 'the line is `buffer SIZE`'),
    (b'continue A 1\n', 1, 'the line is `continue SWITCH.LINK`'),
    (b'delete\n', 1, 'the line is `delete TERMINAL`'),
    (b'base A.0\n', 1, 'the line is `base SWITCH.LINK FIRST` or `base SWITCH FIRST`'),
    (b'row A.0 1\n', 1, 'the line is `row SWITCH.LINK LIMIT SELECT` or `row SWITCH LIMIT SELECT`'),
    (b'random A.0 2\n', 1, 'the line is `random SWITCH.LINK BASE RANGE`'),
    (b'switch A\nrandom A 2 1\n', 2, 'a port is the name of a switch, a dot and a link, as A.0: A'),
    (b'switch A\nrandom A.32 2 1\n', 2, 'a link is 0 to 31: A.32'),
    (b'switch A\nterminal a A\n', 2, 'a port is the name of a switch, a dot and a link, as A.0: A'),
    (TWO + b'wire A.0 B.0.0\n', 3, 'a port is the name of a switch, a dot and a link, as A.0: B.0.0'),
    (PAIR + b'# a comment\nrow A.32 1 0\n', 4, 'a link is 0 to 31: A.32'),
    (b'\nrow A.32 1 0\n', 2, 'a link is 0 to 31: A.32'),
    (TWO + b'wire A.0 B.x\n', 3, 'a link is 0 to 31: B.x'),
    (b'switch A\ncontinue A.0\n', 2,
        'a link that continues the group of the link before it is 1 to 31: A.0'),
    (b'switch A\nterminal a A.0 labels 0\n', 2, 'a terminal has 1 to 65536 labels: 0'),
    (b'switch A\nterminal a A.0 from x\n', 2, 'the first label is 0 to 65535: x'),
    (b'switch A\nterminal a A.0 labels 2 from 65536\n', 2, 'the first label is 0 to 65535: 65536'),
    (b'header 3\n', 1, 'a header has 1 or 2 bytes: 3'),
    (b'buffer 10\n', 1, 'a buffer has room for 8, 16, 24, 32, 40, 48, 56 or 64 tokens: 10'),
    (b'switch A\nbase A.0 65536\n', 2, 'a base is 0 to 65535: 65536'),
    (b'switch A\nrow A.0 65537 0\n', 2, 'a limit is 0 to 65536: 65537'),
    (b'switch A\nrow A 65537 0\n', 2, 'a limit is 0 to 65536: 65537'),
    (b'switch A\nrow A.0 1 32\n', 2, 'a row selects a link, 0 to 31, `discard` or `sink`: 32'),
    (b'switch A\nrow A.0 1 discrad\n', 2,
        'a row selects a link, 0 to 31, `discard` or `sink`: discrad; did you mean discard?'),
    (b'switch A\nrandom A.0 65536 1\n', 2, 'random headers begin at 0 to 65535: 65536'),
    (b'switch A\nrandom A.0 2 65537\n', 2,
        'the range of random headers is 0 to 65536, and at 0 the base alone is one: 65537'),
    (b'switch 1st\n', 1, 'a name is a letter and then letters, digits, `_` and `-`, at most 32 in all: 1st'),
    (TWO + b'wire A.0 2.0\n', 3,
        'a name is a letter and then letters, digits, `_` and `-`, at most 32 in all: 2.0'),
    (b'switch A\nterminal A A.0\n', 2, 'a switch or a terminal has this name already: A'),
    (b'switch left\nterminal a Lefd.0\n', 2, 'no earlier line defines a switch of this name: Lefd.0; did you mean left?'),
    (b'terminal a A.0\nswitch A\n', 1, 'no earlier line defines a switch of this name: A.0'),
    (PAIR + b'row a.0 1 0\n', 3, 'this is a terminal, and a switch is wanted: a.0'),
    (PAIR + b'row a 1 0\n', 3, 'this is a terminal, and a switch is wanted: a'),
    (PAIR + b'delete b\n', 3, 'no earlier line defines a terminal of this name: b'),
    (PAIR + b'delete A\n', 3, 'this is a switch, and a terminal is wanted: A'),
    (b'switch A\nwire A.0 A.1\n', 2, "a wire joins two switches, and both its ends are at the same one: A.1"),
    (PAIR + b'terminal b A.0\n', 3, 'the link has a terminal already: A.0'),
    (TWO + b'wire A.0 B.0\nwire A.1 B.0\n', 4, 'the link has a wire already: B.0'),
    (b''.join(b'switch s%d\n' % k for k in range(65)), 65, 'there are at most 64 switches: s64'),
    (b''.join(b'switch S%d\n' % k for k in range(9))
        + b''.join(b'terminal t%d S%d.%d\n' % (k, k // 32, k % 32) for k in range(257)), 266,
        'there are at most 256 terminals: t256'),
    (b'switch A\nterminal a A.0 from 65535\nterminal b A.1\n', 3, 'labels end at 65535 at most; without `from` '
        'they begin where those of the terminal before end: b'),
    (b'switch A\n' + b'row A.0 1 0\n' * 37, 38, 'a table has at most 36 rows: A.0'),
    (b'switch A\n' + b'row A 1 0\n' * 37, 38, 'a table has at most 36 rows: A'),
    (b'header 1\nheader 1\n', 2, 'already given by an earlier line: header'),
    (b'switch A\nrandom A.0 2 1\nrandom A.1 2 1\nrandom A.0 3 1\n', 4,
        'an input has one `random` line, already given by an earlier line: A.0'),
    (PAIR + b'random a.0 2 1\n', 3, 'this is a terminal, and a switch is wanted: a.0'),
]

ROUNDS = 'the line is `rounds COUNT`, followed by an optional `fair`, and by an optional `seed NUMBER`'

PEEK = 'the line is `peek SWITCH ADDRESS`, as `peek A 0140`, or by name, as `peek A.0 limit 0`'
POKE = 'the line is `poke SWITCH ADDRESS VALUE`, as `poke A 0140 5`, or by name, as `poke A.0 limit 0 5`'
NO_ADDRESS = 'a register is a name or 1 to 4 hexadecimal digits'
NO_SCRIPTS_WORD = 'no line of a script begins with this word; see `c104 run --help`'
DESCRIPTIONS_WORD = 'this is a word of descriptions; the description ends before the line `script`'

# Lines of a script on the plan of the first run, and what is told of the last of them.
SCRIPTS = [
    (b'x' * 16385, 'a line has at most 16384 bytes'),
    (b'\xef\xbb\xbfdrain b', 'the text begins with a byte order mark; save it without one'),
    (b'switch B', DESCRIPTIONS_WORD + ': switch'),
    (b'random A.0 2 1', DESCRIPTIONS_WORD + ': random'),
    (b'script', 'the script has begun already: script'),
    (b'round 20', NO_SCRIPTS_WORD + ': round; did you mean rounds?'),
    (b'frob', NO_SCRIPTS_WORD + ': frob'),
    (b'drain b\x1b[1m', 'outside of a comment a byte is printable ASCII, a space, a tab or a carriage return: b?[1m'),
    (b'send', 'the line is `send TERMINAL to TERMINAL BYTES`, as `send a to b 68 eop`, or as `send a 01 68 eop`'),
    (b'drain', 'the line is `drain TERMINAL`'),
    (b'\ndrain', 'the line is `drain TERMINAL`'),
    (b'cross a b', 'the line is `cross TERMINAL` or `cross SWITCH.LINK`'),
    (b'credit', 'the line is `credit TERMINAL` or `credit SWITCH.LINK`'),
    (b'input', 'the line is `input SWITCH.LINK`, followed by an optional number, which picks a random header'),
    (b'claim A 0', 'the line is `claim SWITCH INPUT OUTPUT`, as `claim A 0 1`'),
    (b'control A 04 03 01 00 00 00 00 00 00', 'the line is `control SWITCH`, followed by at most 8 bytes'),
    (b'rounds', ROUNDS),
    (b'rounds 5 seed', ROUNDS),
    (b'rounds 5 sead 7', ROUNDS),
    (b'rounds 5 fare', ROUNDS),
    (b'rounds 5 seed 7 fair', ROUNDS),
    (b'rounds 5 fair seed 7 7', ROUNDS),
    (b'settle 5', 'the line is `settle` alone'),
    (b'peek A', PEEK),
    (b'peek A.0 limit', PEEK),
    (b'peek A.0 mode 0', PEEK),
    (b'poke A 0140', POKE),
    (b'poke A.0 limit 0', POKE),
    (b'poke A.0 mode 0 0', POKE),
    (b'link', 'the line is `link SWITCH.LINK`'),
    (b'table A.0 A.1', 'the line is `table SWITCH.LINK`'),
    (b'verify A', 'the line is `verify` or `verify all`'),
    (b'verify all A', 'the line is `verify` or `verify all`'),
    (b'dump', 'the line is `dump SWITCH`'),
    (b'dump A.0.0', 'a port has one dot, as A.0: A.0.0'),
    (b'dump A.0', 'the switch is named without a link here: A.0'),
    (b'dump a', 'this is a terminal, and a switch is wanted: a'),
    (b'peek A 00140', NO_ADDRESS + ': 00140'),
    (b'peek A.0 random-rang', NO_ADDRESS + ': random-rang; did you mean random-range?'),
    (b'peek A identify', NO_ADDRESS + ': identify; did you mean identity?'),
    (b'poke A 0140 x', 'a value is 1 to 8 hexadecimal digits: x'),
    (b'poke A 0x140 0x', 'a value is 1 to 8 hexadecimal digits: 0x'),
    (b'poke A.0 mode x', 'a value is 1 to 8 hexadecimal digits: x'),
    (b'poke A.0 limit 0 x', 'a value is 1 to 8 hexadecimal digits: x'),
    (b'peek A.0 limit 36', 'the number of a row is 0 to 35: 36'),
    (b'poke A.0 select x 0', 'the number of a row is 0 to 35: x'),
    (b'peek A.0.0 mode', 'a port has one dot, as A.0: A.0.0'),
    (b'peek A.x mode', 'a link is 0 to 31: A.x'),
    (b'peek A.32 limit 0', 'a link is 0 to 31: A.32'),
    (b'poke A mode 0', 'a link is wanted here: the switch, a dot and 0 to 31, as A.0: A'),
    (b'peek A.0 identity', 'the switch is named without a link here: A.0'),
    (b'peek A ffff', 'no register has this address: ffff'),
    (b'poke A 0000 1', 'the register tells what the switch does, and can\'t be set: 0000'),
    (b'poke A 0100 10', 'the register Mode takes 0 to f (hexadecimal): 10'),
    (b'poke A 201 10000', 'the register RandomBase takes 0 to ffff (hexadecimal): 10000'),
    (b'poke A 0102 10001', 'the register RandomRange takes 0 to 10000 (hexadecimal): 10001'),
    (b'poke A 013F 10000', 'the register Base takes 0 to ffff (hexadecimal): 10000'),
    (b'poke A 0140 10001', 'a register Limit takes 0 to 10000 (hexadecimal): 10001'),
    (b'poke A 0163 10001', 'a register Limit takes 0 to 10000 (hexadecimal): 10001'),
    (b'poke A.0 sunk 0', 'the register tells what the switch does, and can\'t be set: sunk'),
    (b'poke A.0 mode 10', 'the register Mode takes 0 to f (hexadecimal): 10'),
    (b'poke A.0 base 10000', 'the register Base takes 0 to ffff (hexadecimal): 10000'),
    (b'poke A.0 limit 35 10001', 'a register Limit takes 0 to 10000 (hexadecimal): 10001'),
    (b'poke A.0 select 35 21', 'a register Select takes a link, 0 to 1f, or 20 to discard, or 40 to sink (hexadecimal): 21'),
    (b'poke A 0180 21', 'a register Select takes a link, 0 to 1f, or 20 to discard, or 40 to sink (hexadecimal): 21'),
    (b'control A 05 40 01 01 00 01 00', 'a register Limit takes 0 to 10000 (hexadecimal)'),
    (b'control A 05 00 01 10 00 00 00', 'the register Mode takes 0 to f (hexadecimal)'),
    (b'control A 06', 'a command begins with 01 to start, 02 to reset, 03 to identify, 04 to peek or 05 to poke'),
    (b'control A', '01, 02 and 03 stand alone; 04 has an address of 2 bytes, and 05 a value of 4 too, low byte first'),
    (b'control A 01', 'the switch is started already'),
    (b'control A 04 ff ff', 'no register has this address'),
    (b'control A 05 00 00 01 00 00 00', 'the register tells what the switch does, and can\'t be set'),
    (b'send a 01 eop\ncredit A.0\ncross a\ninput A.0\ncontrol A 05 00 01 02 00 00 00',
        'the mode of a link can\'t change while a packet is on its way through the link'),
    (b'send a 01 68 eop\nrounds 1\ncredit A.0\ncross a\ninput A.0\nclaim A 0 1\nlink A.1',
        'output A.1 belongs to the packet of input A.0'),
    (b'send a 01 eop\ncredit A.0\ncross a\ninput A.0\npoke A 0100 2',
        'the mode of a link can\'t change while a packet is on its way through the link: 0100'),
    (b'cross A.0.1', 'a port has one dot, as A.0: A.0.1'),
    (b'cross A.x', 'a link is 0 to 31: A.x'),
    (b'input A.32', 'a link is 0 to 31: A.32'),
    (b'claim A 0 x', 'a number is 1 to 7 decimal digits: x'),
    (b'input A.0 x', 'a number is 1 to 7 decimal digits: x'),
    (b'rounds 10001', 'the count of rounds is 1 to 10000: 10001'),
    (b'rounds x', 'the count of rounds is 1 to 10000: x'),
    (b'rounds 0 seed x', 'the count of rounds is 1 to 10000: 0'),
    (b'rounds 5 seed x', 'a seed is 1 to 20 decimal digits, at most 18446744073709551615: x'),
    (b'rounds 0 fair', 'the count of rounds is 1 to 10000: 0'),
    (b'rounds 5 fair seed x', 'a seed is 1 to 20 decimal digits, at most 18446744073709551615: x'),
    (b'send a 1 eop', 'a byte of a packet is two hexadecimal digits, 00 to ff, and its end is `eop` or `eom`: 1'),
    (b'control A 3', 'a byte is two hexadecimal digits, 00 to ff: 3'),
    (b'send a 01 aa', 'a packet ends with `eop` or `eom`: aa'),
    (b'send a 01 eop aa', 'a packet ends at its first `eop` or `eom`, and a line sends one packet: aa'),
    (b'send a' + b' 01' * 4097 + b' eop', 'a packet has at most 4096 bytes'),
    (b'send a to b "hi" length 7 x "hi" eop', 'behind the receiver stand bytes, texts in quotes, '
        '`length` and a number, and `eop` or `eom`: x'),
    (b'send a to b 68 "hi you eop', 'a text goes on up to a word that ends in a double quote: "hi'),
    (b'send a to b.0.1 "hi', 'a port has one dot, as A.0: b.0.1'),
    (b'send a to b length 4 length 12345678 eop', 'a number is 1 to 7 decimal digits: 12345678'),
    (b'send a to b length', 'a packet ends with `eop` or `eom`: length'),
    (b'send a to b "it eop is" eop aa', 'a packet ends at its first `eop` or `eom`, and a line sends one packet: aa'),
    (b'send a to b length 4096 eop', 'a packet has at most 4096 bytes'),
    (b'send a to b.x length x', 'a link is 0 to 31: b.x'),
    (b'send a to b 68', 'a packet ends with `eop` or `eom`: 68'),
    (b'send a to b eop 68', 'a packet ends at its first `eop` or `eom`, and a line sends one packet: 68'),
    (b'send a to z eop', 'the description defines no such name: z'),
    (b'send z to b eop', 'the description defines no such name: z'),
    (b'send a to A eop', 'this is a switch, and a terminal is wanted: A'),
    (b'send a to b.0 eop', 'a terminal is named without a link: b.0'),
    (b'send a.0 to b eop', 'a terminal is named without a link: a.0'),
    (b'verify\n' * 432, 'a switch or a terminal would do more than 1048576 acts; this is told once'),
    (b'send z 01 eop', 'the description defines no such name: z'),
    (b'send a 05 eop\nrounds 9\ndrain c', 'the description defines no such name: c'),
    (b'send B 01 eop', 'the description defines no such name: B; did you mean b?'),
    (b'send A 01 eop', 'this is a switch, and a terminal is wanted: A'),
    (b'claim a 0 1', 'this is a terminal, and a switch is wanted: a'),
    (b'drain b.0', 'a terminal is named without a link: b.0'),
    (b'claim A.0 0 1', 'the switch is named without a link here: A.0'),
    (b'input A', 'a link is wanted here: the switch, a dot and 0 to 31, as A.0: A'),
    (b'claim A 0 32', 'inputs and outputs are 0 to 31: 32'),
    (b'cross A.5', 'the link has neither a terminal nor a wire: A.5'),
    ((b'send a' + b' 01' * 4000 + b' eop\n') * 16 + b'send a' + b' 01' * 4000 + b' eop',
        'at most 65536 tokens wait at a terminal; give them rounds before more is sent: a'),
    ((b'send a' + b' 01' * 4000 + b' eop\nrounds 5000\n') * 66,
        '262144 tokens have arrived at a terminal, the most it takes; this is told once'),
]

# Three switches in a row, with buffers of eight tokens, and two terminals that send by one output.
ROW = b'''buffer 8
switch A
switch B
terminal a A.0
terminal b A.2
terminal c B.1
wire A.1 B.0
row A.0 2 1
row A.2 2 1
row B.0 2 1
'''
NO_TOKEN = 'no token waits; `send` brings one, `cross` over a wire, and `input` or `claim` to an output'

# A script on that row, line by line, with why a line isn't ready.
UNREADY = [
    (b'cross a', 'a: ' + NO_TOKEN),
    (b'cross A.1', 'A.1: ' + NO_TOKEN),
    (b'input A.0', 'A.0: ' + NO_TOKEN),
    (b'drain c', 'c: ' + NO_TOKEN),
    (b'claim A 0 1', 'A.0: the input wants no output: its packet has one, or `input` has to read or make a header first'),
    (b'send a 01 02 03 04 05 06 07 eop', None),
    (b'cross a', 'a: a token waits without credit; `credit` grants some at the other end of the wire: A.0'),
    (b'credit A.0', None),
    (b'credit A.0', 'A.0: no room to grant eight more tokens'),
    *[(b'cross a', None)] * 8,
    (b'input A.0', None),
    (b'input A.0', 'A.0: the header waits for an output; `claim` gets it a free one of the group of this link: A.1'),
    (b'claim A 0 2', 'A.0: the header goes to another output, of the group of this link: A.1'),
    (b'claim A 0 1', None),
    *[(b'input A.0', None)] * 7,
    (b'cross A.1', 'A.1: a token waits without credit; `credit` grants some at the other end of the wire: B.0'),
    (b'send b 01 eop', None),
    (b'credit A.2', None),
    *[(b'cross b', None)] * 2,
    (b'input A.2', None),
    (b'claim A 2 1', 'A.1: the output has no room for the header; `cross` takes a token out of it'),
    (b'credit B.0', None),
    (b'cross A.1', None),
    (b'claim A 2 1', None),
    (b'input A.2', 'A.2: the output that the packet goes to is full; `cross` takes a token out of it: A.1'),
    (b'send a 01 eop', None),
    (b'credit A.0', None),
    (b'cross a', None),
    (b'input A.0', None),
    (b'claim A 0 1', "output A.1 belongs to A.2's packet until its terminator passes"),
    (b'control A 02', None),
    (b'credit A.2', 'A.2: the switch is not started; `control` with the byte 01 starts it'),
    (b'input A.0', 'A.0: the switch is not started; `control` with the byte 01 starts it'),
]

BY_CREDIT = '`credit` and `cross` or more `rounds` move %s on'
DROPPED = 'input A.0 has dropped 1 packet, since no row covers their header, or a row sinks it'

# Scripts on the plan of the first run, and all that is told at the end of what didn't arrive.
LEFTOVERS = [
    (b'send a 01 aa bb eop\ncredit A.0\ncross a\n', ['1 token waits at input A.0; `input` or more `rounds` move it on',
        '3 tokens wait at a; `cross` or more `rounds` move them on']),
    (b'send a 01 aa eop\nsend b 00 eop\n', ['3 tokens wait at a; ' + BY_CREDIT % 'them',
        '2 tokens wait at b; ' + BY_CREDIT % 'them']),
    (b'send a 01 aa eop\ncredit A.0\ncross a\ncross a\ncross a\ninput A.0\n',
        ['3 tokens wait at input A.0; `claim` or more `rounds` move them on']),
    (b'send a 01 aa eop\ncredit A.0\ncross a\ncross a\ncross a\ninput A.0\nclaim A 0 1\ncredit b\ncross A.1\n'
        b'input A.0\n', ['1 token waits at input A.0; `input` or more `rounds` move it on',
        '1 token waits at output A.1; `cross` or more `rounds` move it on',
        'b: 1 token came in; by `drain` or more `rounds` they arrive']),
    (b'send a 01 aa eop\ncredit A.0\ncross a\ncross a\ncross a\ninput A.0\nclaim A 0 1\ncredit b\ncross A.1\n'
        b'drain b\ninput A.0\ninput A.0\n', ['2 tokens wait at output A.1; `cross` or more `rounds` move them on',
        "b: 1 token of a packet whose terminator hasn't arrived"]),
    (b'send a 05 eop\nrounds 9\ndrain c\n', [DROPPED]),
    (b'send a ff aa eop\nsend b eop\nrounds 20\n', [DROPPED, '1 packet ended in the header at input A.1']),
    # a stopped switch, and an output without a wire
    (b'control A 02\nsend a 01 eop\nrounds 9\n',
        ['2 tokens wait at a; A.0: the switch is not started; `control` with the byte 01 starts it']),
    (b'poke A 0181 7\nsend a 01 aa bb eop\nrounds 20\n', ['4 tokens wait at output A.7; no wire leads on from there']),
    (b'poke A 0181 7\nsend a 01' + b' aa' * 9 + b' eop\nrounds 20\n', ['3 tokens wait at input A.0; output A.7 is full',
        '8 tokens wait at output A.7; no wire leads on from there']),
    (b'', ['the script is empty; in one text with the description it follows a line with the one word `script`']),
]

# Two switches with all packets over one wire, of which the far one is reset, so that nothing comes through.
STANDS = (b'buffer 8\nswitch A\nswitch B\nterminal a A.0\nterminal b B.0\nwire A.1 B.1\nrow A.0 2 1\nrow B.1 2 0\n')
# Scripts there, and what is told of their last lines where the network stands still: the first line, and how many
# more there are.
STANDSTILLS = [
    (b'send a 01 02 eop\nrounds 20\n', None),
    (b'send a 05 eop\nrounds 9\n', None),
    (b'send a 01 02 eop\nrounds 1\n', None),
    (b'control B 02\nsend a 01 02 eop\nrounds 20\n', 'stands still: 3 tokens wait'),
    (b'control B 02\nsend a 01 02 eop\nrounds 20\nrounds 1\n', 'stands still: 3 tokens wait'),
    (b'send a 01 02 eop\nsettle\n', None),
    (b'control B 02\nsend a 01 02 eop\nsettle\n', 'stands still: 3 tokens wait'),
    (b'control B 02\nsend a 01 02 eop\nrounds 20\nsettle\n', 'stands still: 3 tokens wait'),
]

# A packet that goes round in a ring of two switches for ever.
RING = (b'switch A\nswitch B\nwire A.0 B.0\nwire A.1 B.1\nterminal a A.2\n'
        b'row A.2 1 0\nrow B.0 1 1\nrow A.1 1 0\nscript\nsend a 00 eop\nrounds 1000\n')
TOLD_FIRST = b'c104: -:11: 128 of 1000 rounds are done\n'
PROGRESS = re.compile(rb'c104: -:11: \d+ of 1000 rounds are done\n')

# Reasons that a switch by itself has and none in a network: a link that it hasn't is refused there, at the two ends of a
# wire the credit of the one is what the other has granted, and whose packet an output belongs to is always known.
OF_NO_NETWORK = [
    'there is no such link',
    'no token may come in, since none is granted; `credit` grants some',
    'credit for 64 tokens, the most, is already there',
    'the output belongs to a packet until its terminator passes',
]

# What is told of a description that isn't cut at its line `script`, as the program cuts each.
OF_A_WHOLE_TEXT = [
    'this is to be a description alone; `c104 run` takes one with its script',
]

# What is told at a terminal alone, where `debug` is asked.
OF_A_TERMINAL = [
    'no line begins with this word; `help` lists those that do',
]


class Terminal:
    """A terminal as standard error, which is read as it is written."""

    def __init__(self):
        self.keep, self.end = pty.openpty()
        self.text = b''
        self.thread = threading.Thread(target=self.fill)
        self.thread.start()

    def fill(self):
        while True:
            try:
                piece = os.read(self.keep, 65536)
            except OSError:
                return
            self.text += piece

    def read(self):
        os.close(self.end)
        self.thread.join()
        os.close(self.keep)
        return self.text.replace(b'\r\n', b'\n')


def run_plain(program, words, folder, data):
    """Status, standard output and standard error."""
    done = subprocess.run(program + words, cwd=folder, input=data, capture_output=True, timeout=SECONDS)
    return done.returncode, done.stdout, done.stderr


def run_on_terminal(program, words, folder, data):
    """The same with a terminal as standard error."""
    terminal = Terminal()
    done = subprocess.run(program + words, cwd=folder, input=data, stdout=subprocess.PIPE, stderr=terminal.end,
                          timeout=SECONDS)
    return done.returncode, done.stdout, terminal.read()


def compare(program, words, folder, data):
    """What the messages change beside standard error, or None."""
    plain = run_plain(program, words, folder, data)
    if plain[0] in (0, 1) and plain[2]:
        return 'standard error without messages: %.80r' % plain[2]
    before = run_plain(program, [EXPLAIN] + words, folder, data)
    # what follows the word `help` is the name of a command
    behind = before if words[:1] == ['help'] else run_plain(program, words + [EXPLAIN], folder, data)
    shown = run_on_terminal(program, words, folder, data)
    for name, found in (('the option before the words', before), ('the option behind the words', behind),
                        ('a terminal', shown)):
        if found[:2] != plain[:2]:
            return '%s: status %d, wanted %d; %.80r' % (name, found[0], plain[0], found[1])
        # a wrong usage is told with the words that were used
        if plain[0] != 2 and re.sub(rb'c104: .*rounds are done\n', b'', found[2]) != before[2]:
            return '%s: %.200r, and before the words %.200r' % (name, found[2], before[2])
    return None


def all_cases(runner):
    """Each case, but for those whose own words ask for the messages."""
    for kind in sorted(os.listdir(CASES)):
        for name in sorted(os.listdir(os.path.join(CASES, kind))):
            if runner.wanted('%s/%s' % (kind, name)):
                with CopiedCase(os.path.join(CASES, kind, name)) as case:
                    if EXPLAIN in case.words:
                        continue
                    runner.judge('%s/%s' % (kind, name), compare(runner.program, case.words, case.folder, case.input))


def refused_descriptions(runner):
    for number, (text, _) in enumerate(REFUSED_DESCRIPTIONS, 1):
        name = 'refused description %d' % number
        if runner.wanted(name):
            runner.judge(name, compare(runner.program, [], TOP, text + b'script\ndrain b\n'))


def examples(runner):
    for name in EXAMPLE_FILES:
        if runner.wanted('example ' + name):
            path = os.path.join(EXAMPLES, name)
            with open(path, 'rb') as file:
                text = file.read()
            wrong = compare(runner.program, [], EXAMPLES, text) or compare(runner.program, ['check', path], EXAMPLES, b'')
            runner.judge('example ' + name, wrong)


def told(runner, name, words, files, data, wanted, seen):
    """A run with the option: the same but for standard error, of which this line is wanted, if one is."""
    if not runner.wanted(name):
        return
    with tempfile.TemporaryDirectory() as folder:
        for path, text in files.items():
            with open(os.path.join(folder, path), 'wb') as file:
                file.write(text)
        wrong = compare(runner.program, words, folder, data)
        errors = run_plain(runner.program, [EXPLAIN] + words, folder, data)[2].decode()
    seen.append(errors)
    if wrong is None and wanted is not None and wanted not in errors.splitlines():
        wrong = 'wanted %r, found %r' % (wanted, errors[-300:])
    runner.judge(name, wrong)


def mistakes(runner, seen):
    for number, (text, line, sentence) in enumerate(DESCRIPTIONS, 1):
        wanted = ('' if line is None else ':%d' % line) + ': ' + sentence
        name = 'description %d: %.40r' % (number, text[-40:])
        told(runner, name, [], {}, text, 'c104: -' + wanted, seen)
        told(runner, 'check of ' + name, ['check', 'd.txt'], {'d.txt': text}, b'', 'c104: d.txt' + wanted, seen)
    for number, (text, sentence) in enumerate(SCRIPTS, 1):
        line = len(text.rstrip(b'\n').split(b'\n'))
        name = 'script %d: %.40r' % (number, text[:40])
        told(runner, name, ['run', 'd.txt', '-'], {'d.txt': PLAN}, text, 'c104: -:%d: %s' % (line, sentence), seen)
        # In one text the script stands behind the description and the line `script`.
        line += len(PLAN.split(b'\n'))
        told(runner, 'one text, ' + name, [], {}, PLAN + b'script\n' + text, 'c104: -:%d: %s' % (line, sentence), seen)


def unready(runner, seen):
    """Each line that isn't ready is told of, and no other."""
    script = b''.join(line + b'\n' for line, _ in UNREADY)
    answered = run_plain(runner.program, ['run', '/dev/stdin', '/dev/null'], TOP, ROW)
    runner.judge('a row of switches', None if answered == (0, b'', b'') else '%.200r' % (answered,))
    wanted = ['c104: -:%d: %s' % (line, sentence) for line, (_, sentence) in enumerate(UNREADY, 1) if sentence]
    for line in wanted:
        told(runner, 'not ready: %.60s' % line, ['run', 'd.txt', '-'], {'d.txt': ROW}, script, line, seen)
    if runner.wanted('not ready'):
        told_lines = [line for line in seen[-1].splitlines() if re.match(r'c104: -:\d', line)]
        runner.judge('not ready: no other line', None if told_lines == wanted else '%r' % told_lines)


def leftovers(runner, seen):
    """At the end stands what didn't arrive, by port."""
    for number, (script, wanted) in enumerate(LEFTOVERS, 1):
        if not runner.wanted('left over'):
            return
        name = 'left over %d: %.60s' % (number, script.decode())
        told(runner, name, ['run', 'd.txt', '-'], {'d.txt': PLAN}, script, 'c104: ' + wanted[-1], seen)
        ends = [line for line in seen[-1].splitlines() if not line.startswith('c104: -:')]
        runner.judge(name + ': all of it', None if ends == ['c104: ' + line for line in wanted] else '%r' % ends)


def standstills(runner, seen):
    """Where rounds come to change nothing though tokens are there, it is told who waits for whom."""
    for number, (script, wanted) in enumerate(STANDSTILLS, 1):
        name = 'standstill %d: %.60s' % (number, script.decode())
        if not runner.wanted(name):
            continue
        begin = 'c104: -:%d: ' % script.count(b'\n')
        if wanted:
            told(runner, name, ['run', 'd.txt', '-'], {'d.txt': STANDS}, script, begin + wanted, seen)
        else:
            told(runner, name, ['run', 'd.txt', '-'], {'d.txt': STANDS}, script, None, seen)
            runner.judge(name + ': nothing', None if 'stands still' not in seen[-1] else seen[-1][:300])
    with open(os.path.join(EXAMPLES, 'ring.txt'), 'rb') as file:
        ring = file.read()
    with open(os.path.join(EXAMPLES, 'ring-packets.txt'), 'rb') as file:
        packets = file.read()
    if runner.wanted('standstill of a ring'):
        told(runner, 'standstill of a ring', ['run', 'd.txt', '-'], {'d.txt': ring}, packets,
             'c104: -:6: stands still: 100 tokens wait in 4 packets', seen)
        found = [line for line in seen[-1].splitlines() if line.startswith('c104: -:6: ')]
        wanted = ['c104: -:6: stands still: 100 tokens wait in 4 packets']
        for before, switch, after, header in zip('DABC', 'ABCD', 'BCDA', (1, 2, 3, 0), strict=True):
            wanted.append('c104: -:6: %s.0 holds %s.1, which leads to %s.2 and is full' % (switch, switch, after))
            wanted.append('c104: -:6: %s.2 wants %s.1 for the header %02x (label %d of %s), and %s.0 holds it'
                          % (switch, switch, header, header, 'abcd'[header], switch))
        runner.judge('standstill of a ring: all of it', None if found == wanted else '%r' % found)


def with_a_later_clock(program, folder):
    """The program with a preloaded clock, a library in this folder, that is a second later each time that it is read."""
    library = os.path.join(folder, 'clock.so')
    compiler = shlex.split(os.environ.get('CC') or 'cc')
    subprocess.run(compiler + ['-shared', '-fPIC', '-o', library, CLOCK], check=True)
    return ['env', 'LD_PRELOAD=' + library] + program


def progress(runner):
    """How far rounds are is told each second on a terminal, and there alone."""
    if not runner.wanted('progress'):
        return
    with tempfile.TemporaryDirectory() as folder:
        clocked = with_a_later_clock(runner.program, folder)
        plain = run_plain(clocked, [], TOP, RING)
        explained = run_plain(clocked, [EXPLAIN], TOP, RING)
        shown = run_on_terminal(clocked, [], TOP, RING)
    same = plain[:2] == explained[:2] == shown[:2] == (0, b'1: done\n2: done\n')
    runner.judge('progress: the same output', None if same else '%.200r' % (plain,))
    told = PROGRESS.findall(shown[2])
    runner.judge('progress: on a terminal', None if told[:1] == [TOLD_FIRST] and len(told) > 9 else '%.300r' % shown[2])
    left = PROGRESS.sub(b'', shown[2])
    runner.judge('progress: nowhere else', None if left == explained[2] else '%.300r' % left)


def special(runner, seen):
    told(runner, 'a receiver whose label is no header', ['run', 'd.txt', '-'],
         {'d.txt': b'switch A\nterminal a A.0\nterminal b A.1 from 256\n'}, b'send a to b eop\n',
         'c104: -:1: the first label of this terminal is 256 or more, and headers have one byte: b', seen)
    told(runner, 'a file in the place of a command', ['first.txt'], {'first.txt': PLAN}, b'',
         'c104: first.txt: this is a file, not a command; `c104 run first.txt` runs a description and a script that '
         'are one text, `c104 run first.txt SCRIPT` those of two, and `c104 check first.txt` checks the labels', seen)
    told(runner, 'two files in the place of a command', ['first.txt', 's.txt'], {'first.txt': PLAN, 's.txt': b''}, b'',
         'c104: first.txt: this is a file, not a command; `c104 run first.txt s.txt` runs a description and its script',
         seen)
    told(runner, 'a header in hexadecimal digits', ['check', 'first.txt', '--header', '0x1', '--rows'], {'first.txt': PLAN}, b'',
         'c104: a header is a decimal number, 0 to 65535', seen)
    told(runner, 'a faulty line of one text', ['run', 'first.txt'], {'first.txt': PLAN + b'script\nsend z 01 eop\n'}, b'',
         'c104: first.txt:9: the description defines no such name: z', seen)


def sentences(runner, seen):
    """Each sentence of the tables was told."""
    text = ''.join(seen)
    files = [os.path.join(folder, name) for folder in TABLES for name in sorted(os.listdir(folder))]
    for path in files:
        if not path.endswith('_mistakes.rt') and not path.endswith('_sentences.rt'):
            continue
        with open(path, encoding='utf-8') as file:
            code = file.read()
        for found in re.findall(r'=>?\s*\{?\s*"((?:[^"\\]|\\.|\\\n)*)"', code):
            sentence = re.sub(r'\\\n\s*', '', found)
            if runner.wanted('sentence'):
                is_told = sentence in text or sentence in OF_NO_NETWORK + OF_A_WHOLE_TEXT + OF_A_TERMINAL
                runner.judge('sentence: ' + sentence, None if is_told else 'never told')


def run_all(runner):
    seen = []
    all_cases(runner)
    refused_descriptions(runner)
    examples(runner)
    mistakes(runner, seen)
    unready(runner, seen)
    leftovers(runner, seen)
    standstills(runner, seen)
    special(runner, seen)
    progress(runner)
    sentences(runner, seen)


PARTS = [run_all]
