"""Runs a program with `--explain`, and compares all that it tells on standard error, byte by byte.

The kind `explain` sees that each sentence of the tables is told, and that nothing else changes; here stand whole texts, with
the sentences that are put together of parts: of labels, of what didn't arrive, of a storm, and of questions at a terminal.
"""

import tempfile

from case_runner import PLAN, TOP
from kinds.check import A_ROWS, B_ROWS, OVER_A_WIRE, WIRE
from kinds.cycles import ROUND
from kinds.debug import END_OF_INPUT, asked_by_person
from kinds.explain import STANDS, run_on_terminal, with_a_later_clock
from kinds.storm import STUCK, Files

def random_at_a(header, but):
    return ['header %02x (%d) is a random one, put before packets of a at A.0;' % (header, header),
            'every way of it has to end at an input that discards it,', 'but ' + but]

# How long a line that is told of labels, of a run or of what is asked may be.
COLUMNS = 120

# A description, what `check` prints, and what it tells.
CHECKS = {
    'a label of two terminals': (b'switch A\nterminal a A.0 labels 2\nterminal b A.1 from 1\n', 'refused 1 RangesOverlap: a b',
        ['label 1 belongs to a and to b', 'replace line 3: terminal b A.1 from 1', 'by: terminal b A.1 from 2']),
    'a label that is no header': (b'switch A\nterminal a A.0\nterminal b A.1 labels 2 from 255\n', 'refused 2 LabelTooLarge: b',
        ['label 256 of b is no header: headers are 0 to 255', 'replace line 3: terminal b A.1 labels 2 from 255',
         'by: terminal b A.1 labels 2 from 1']),
    'labels for which no others are free': (b'header 2\nswitch A\nterminal a A.0 labels 40000\nterminal b A.1 labels 40000 from 9\n',
        'refused 1 RangesOverlap: a b', ['label 9 belongs to a and to b']),
    'labels for which others are random headers': (b'switch A\nterminal a A.0 labels 2\nterminal b A.1 from 1\nrandom A.0 2 1\n',
        'refused 1 RangesOverlap: a b', ['label 1 belongs to a and to b']),
    'random headers at a link without a terminal': (PLAN + b'random A.31 2 1\n', 'refused 10 RandomInside: A.31',
        ['no terminal is on A.31, but random headers are put before packets there']),
    'a wrong terminal': (PLAN.replace(b'row A.1 1 0', b'row A.1 1 1'), 'refused 5 WrongEnd: from b header 0 walk A.1',
        ['header 00 (label 0) belongs to a, but A.1 may send it by link 1 to b', 'replace line 6: row A.1 1 1', 'by: row A.1 1 0']),
    'a link without a wire': (b'switch A\nterminal a A.0\nrow A.0 1 1\n', 'refused 6 DeadEnd: from a header 0 walk A.0',
        ['header 00 (label 0) belongs to a, but A.0 may send it by link 1, which has no wire', 'replace line 3: row A.0 1 1',
         'by: row A.0 1 0']),
    'a loop': (WIRE + A_ROWS + b'row B.1 2 1\nrow B.0 1 1\nrow B.0 2 0\n', 'refused 7 Loop: from a header 1 walk A.0 B.1 A.1 B.1',
        ['header 01 (label 1) belongs to b, but A.1 may send it by link 1 to B.1, where it has been',
         'replace line 10: row B.1 2 1', 'by: row B.1 2 0']),
    'a row that stands between others': (PLAN.replace(b'row A.0 2 1', b'row A.0 9 1'), 'refused 8 Stray: from a header 2 walk A.0',
        ['header 02 (2) belongs to no terminal, but A.0 may send it by link 1 to b', 'replace line 5: row A.0 9 1',
         'by: row A.0 2 1', 'by: row A.0 9 sink']),
    'a header of nobody that goes on': (WIRE + b'row A.0 1 0\nrow A.0 3 1\nrow A.1 1 0\n' + B_ROWS,
        'refused 8 Stray: from a header 2 walk A.0',
        ['header 02 (2) belongs to no terminal, but A.0 may send it by link 1 to B.1', 'replace line 7: row A.0 3 1',
         'by: row A.0 2 1', 'by: row A.0 3 sink']),
    'an input that has no room': (PLAN.replace(b'row A.0 1 0\nrow A.0 2 1\n', b'row A.0 2 1\n' + b'row A.0 2 sink\n' * 35),
        'refused 5 WrongEnd: from a header 0 walk A.0', ['header 00 (label 0) belongs to a, but A.0 may send it by link 1 to b']),
    'a portal that leads to the wrong terminal': (OVER_A_WIRE.replace(b'row B.1 1 1\n', b''),
        'refused 5 WrongEnd: from a header 0 walk B.1',
        ['header 00 (label 0) belongs to a, but behind a random header of a, which B.1 discards,',
         'B.1 may send it by link 0 to b', 'replace line 16: row B.1 2 0', 'by: row B.1 1 1', 'by: row B.1 2 0']),
    'a portal that lets a header of nobody go on': (OVER_A_WIRE.replace(b'row B.1 11 sink', b'row B.1 11 0'),
        'refused 8 Stray: from a header 2 walk B.1',
        ['header 02 (2) belongs to no terminal, but behind a random header of a, which B.1 discards,',
         'B.1 may send it by link 0 to b', 'replace line 18: row B.1 11 0', 'by: row B.1 10 sink', 'by: row B.1 11 0']),
    'a random header that comes to a terminal': (PLAN + b'random A.0 1 1\n', 'refused 5 WrongEnd: from a header 1 walk A.0',
        random_at_a(1, 'A.0 may send it by link 1 to terminal b, which takes packets')),
    'a random header that is sunk': (PLAN + b'random A.0 2 1\nrow A.0 3 sink\n', 'refused 6 DeadEnd: from a header 2 walk A.0',
        [*random_at_a(2, 'A.0 neither discards it nor selects a link for it'), 'replace line 9: row A.0 3 sink',
         'by: row A.0 3 discard']),
    'a cycle that no row breaks': (ROUND, 'accepted',
        ['packets can wait for one another forever:', 'cycle B.2(3) C.2(3) D.2(1) A.2(2)',
         'no single row was found that breaks it']),
    'no cycle': (WIRE + A_ROWS + B_ROWS, 'accepted', ['no cycle of channel dependencies: under rounds every packet with a whole header',
        'that a terminal owns arrives, as long as no inbox or trace is full and nothing is reset or set']),
    'a switch without a way': (b'switch A\nswitch B\nlabel tree A\n', 'label 1 NotConnected',
        ['wires do not lead from the root to each switch: none lead from A to B']),
    'more labels than headers': (b'switch A\nterminal a A.0 labels 257\nlabel tree A\n', 'label 2 TooManyLabels',
        ['there are more labels than headers']),
}

# a's packet holds the link to b, and one that comes in there wants to go back by it.
BACK = (b'send a 01 aa eop\ncredit A.0\ncross a\ninput A.0\nclaim A 0 1\n'
        b'send b 01 eop\ncredit A.1\ncross b\ncross b\ninput A.1\n')
# Two switches, and a packet whose header comes to the second before the first is reset, which throws its end away.
OVER_A = b'switch A\nswitch B\nterminal a A.0\nwire A.1 B.1\nrow A.0 3 1\n'
CUT = b'send a 02 eop\nrounds 2\ncontrol A 02\ncontrol A 01\nrounds 20\n'
# A description, a script, and what is told of its last line, and then of what didn't arrive.
RUNS = {
    'an input that waits for a header behind one that it discards': (OVER_A + b'row B.1 4 discard\n', CUT,
        ['stands still: 0 tokens wait', 'B.1 reads a header, and waits for the next token from A.1'], []),
    'an input that has the first byte of a header': (b'header 2\n' + OVER_A + b'row B.1 4 sink\n',
        CUT.replace(b'02 eop\nrounds 2', b'02 00 eop\nrounds 3'),
        ['stands still: 1 token waits', 'B.1 reads a header, and waits for the next token from A.1'],
        ['1 token waits at input B.1; more of its header has to come']),
    'an input that drops a packet without an end': (OVER_A + b'row B.1 4 sink\n', CUT,
        ['stands still: 0 tokens wait', 'B.1 drops its packet, and waits for the next token from A.1'],
        ['input B.1 has dropped 1 packet, since no row covers their header, or a row sinks it']),
    'a header that goes back by its own link': (PLAN, BACK, [],
        ['2 tokens wait at input A.1; output A.1 belongs to A.0\'s packet until its terminator passes',
         '1 token waits at output A.1; `credit` and `cross` or more `rounds` move it on',
         '2 tokens wait at a; `cross` or more `rounds` move them on']),
    'packets that are dropped behind a random header': (PLAN + b'random A.0 2 1\n', b'send a 01 eop\nsend a 00 eop\nrounds 9\n', [],
        ['input A.0 has dropped 2 packets, since a row sinks their random header or their own, or no row covers it']),
    'a switch that is not started': (STANDS, b'control B 02\nsend a 01 02 eop\nrounds 20\n',
        ['stands still: 3 tokens wait', 'B is not started; `control B 01` starts it'],
        ['3 tokens wait at output A.1; B.1: the switch is not started; `control` with the byte 01 starts it']),
    'an output that has no room': (PLAN, b'poke A 0181 7\nsend a 01 aa aa aa aa aa aa eop\nsend a 01 eop\nrounds 20\n',
        ['stands still: 10 tokens wait in 2 packets', 'A.0 wants A.7 for the header 01 (label 1 of b), which has no room for it',
         'A.7, which has no wire, holds 8 tokens'],
        ['2 tokens wait at input A.0; A.7: the output has no room for the header; `cross` takes a token out of it',
         '8 tokens wait at output A.7; no wire leads on from there']),
    'an output that has no wire': (PLAN, b'poke A 0181 7\nsend a 01' + b' aa' * 9 + b' eop\nrounds 20\n',
        ['stands still: 11 tokens wait in 1 packet', 'A.0 holds A.7, which has no wire and is full'],
        ['3 tokens wait at input A.0; output A.7 is full', '8 tokens wait at output A.7; no wire leads on from there']),
}

# What a storm by one worker tells on a terminal of a packet that goes to a link without a wire. Its first 64 turns do all that
# can be done; by two, one might be through with its turns before the other begins.
TURNS_DONE = ['64 of 262144 turns are done', 'stands still: 3 tokens wait in 1 packet', 'A.7, which has no wire, holds 3 tokens',
              '3 tokens wait at output A.7; no wire leads on from there']

# Switches in a line, and what the search for the root of their labels tells on a terminal.
LINE = b'switch A\nswitch B\nswitch C\nwire A.1 B.0\nwire B.1 C.0\nterminal a A.9\nterminal c C.9\nlabel up-down\n'
ROOTS_TRIED = ['1 of 3 roots are tried', '2 of 3 roots are tried',
               'labelled from A, depth first: packets go up and then down by the shortest ways',
               'on average over 2.00 wires; if each terminal sends a packet to each other, at most 1 go over a link; at most 2 rows']

# Descriptions, and lines typed on them, each with what a question is told.
RANDOM_AT_B = PLAN + b'random A.1 2 1\n'
TYPED = {
    'an input that puts random headers': (RANDOM_AT_B, [
        (b'show A.1', b'A.1, on a wire to b\n  input: holds 0 tokens, may take 0 more, waits for a packet, before which it puts a '
            b'random header\n  output: holds 0 tokens, may send 0, no input owns it\n'),
        (b'send b 00 eop', None), (b'rounds 9', None),
        (b'show A.1', b'A.1, on a wire to b\n  input: holds 0 tokens, may take 14 more, waits for a packet, before which it puts a '
            b'random header\n  output: holds 0 tokens, may send 16, no input owns it\n  dropped: 1 packet\n'),
    ]),
    'a switch that is not started': (PLAN, [
        (b'control A 02', None),
        (b'show waiting', b'A is not started; `control A 01` starts it\n'),
        (b'show A', b'A is not started; `control A 01` starts it\nA.0, on a wire to a\n  input: holds 0 tokens, may take 0 more, '
            b'waits for a packet\n  output: holds 0 tokens, may send 0, no input owns it\nA.1, on a wire to b\n  input: holds 0 '
            b'tokens, may take 0 more, waits for a packet\n  output: holds 0 tokens, may send 0, no input owns it\n'),
    ]),
    'tokens at an output without a wire': (PLAN, [
        (b'poke A 0181 7', None), (b'send a 01 aa eop', None), (b'rounds 9', None),
        (b'where a 0', b'packet 0 of a: 3 tokens at output A.7, which has no wire\n'),
        (b'show waiting', b'A.7, which has no wire, holds 3 tokens\n'),
    ]),
    'tokens that wait to arrive': (PLAN, [
        (b'send a 01 eop', None), (b'credit A.0', None), *[(b'cross a', None)] * 2, (b'input A.0', None), (b'claim A 0 1', None),
        (b'input A.0', None), (b'credit b', None), *[(b'cross A.1', None)] * 2,
        (b'where a 0', b'packet 0 of a: 2 tokens came in at b and wait to arrive\n'),
    ]),
}


def text_of(begin, lines):
    return ''.join('c104: %s%s\n' % (begin, it) for it in lines).encode()


def text_about(lines):
    """Lines that are told of a description on standard input."""
    return text_of('-: ', lines)


def checks(runner):
    for name, (description, printed, told) in CHECKS.items():
        runner.case('check of ' + name, printed.encode() + b'\n', 0 if printed == 'accepted' else 1, text_about(told),
                    words=['--explain', 'check', '-'], data=description)


def runs(runner):
    for name, (description, script, last, left) in RUNS.items():
        errors = text_of('-:%d: ' % script.count(b'\n'), last) + text_of('', left)
        with Files(description) as path:
            runner.case('run of ' + name, None, 0, errors, words=['--explain', 'run', path, '-'], data=script)


# A script that fills a switch's trace in round 3: a `verify` asks 2,432 acts of 1,048,576, so the last two are refused, and a
# run of which rows are printed ends at the first of these.
FULL = b'rounds 3\n' + b'verify\n' * 433
BEHIND = b'send a 01 eop\nrounds 9\n'
WHY = 'a switch or a terminal would do more than 1048576 acts; '
ENDS = text_of('-:433: ', [WHY + 'so the run ends here, in round 3'])

# One that fills an inbox: by 64 packets of 4,096 tokens, each of which has arrived within 4,200 rounds. The first token of the
# next packet crosses two wires in the second round.
FULL_INBOX = (b'send a 01' + b' 55' * 4094 + b' eop\nrounds 4200\n') * 64 + b'send a 01 eop\nrounds 9\n'
INBOX_ENDS = text_of('-:130: ', ['262144 tokens have arrived at a terminal, the most it takes; so the run ends here, in round 268802'])


def full(runner):
    with Files(PLAN) as path:
        told = text_of('-:433: ', [WHY + 'this is told once'])
        runner.case('full trace, told once', None, 0, told, words=['--explain', 'run', path, '-'], data=FULL)
        for name, words in (
            ('in rows', ['rows', path, '-', '--what', 'links']),
            ('in rows of rounds', ['rows', path, '-', '--what', 'holds']),
            ('in rows of all states', ['rows', path, '-', '--what', 'ways', '--each']),
            ('in rows and explained', ['--explain', 'rows', path, '-', '--what', 'run']),
        ):
            runner.case('full trace, %s' % name, None, 1, ENDS, words=words, data=FULL + BEHIND)
        runner.case('full inbox, in rows', None, 1, INBOX_ENDS, words=['rows', path, '-', '--what', 'run'], data=FULL_INBOX)


def storm_progress(runner):
    """How many turns are done is told each second, and a preloaded clock is a second later each time that it is read."""
    name = 'progress of a storm'
    if not runner.wanted(name):
        return
    with Files(STUCK) as path, tempfile.TemporaryDirectory() as folder:
        clocked = with_a_later_clock(runner.program, folder)
        found = run_on_terminal(clocked, ['storm', path, '-', '--workers', '1'], TOP, b'send a 01 68 eop\n')
    due = (1, b'1: done\nnot quiet\n', text_of('', TURNS_DONE))
    runner.judge(name, None if found == due else 'wanted %r, found %r' % (due, found))


def root_progress(runner):
    """The same of roots tried."""
    name = 'progress of the search for a root'
    if not runner.wanted(name):
        return
    with Files(LINE) as path, tempfile.TemporaryDirectory() as folder:
        clocked = with_a_later_clock(runner.program, folder)
        status, _, told = run_on_terminal(clocked, ['label', path], TOP, b'')
    due = (0, text_of(path + ': ', ROOTS_TRIED))
    runner.judge(name, None if (status, told) == due else 'wanted %r, found %r' % (due, told))


def wrong_of_typed(runner, path, lines):
    """What is wrong with what a person is told who types these lines, or None."""
    asked = asked_by_person(runner.program + ['debug', path], False)
    asked.read(asked.errors, b'1> ')
    wrong = None
    for number, (line, told) in enumerate(lines, 1):
        asked.send(line + b'\n')
        prompt = b'%d> ' % (number + 1)
        found = asked.read(asked.errors, prompt)
        if told is not None and found != told + prompt:
            wrong = wrong or 'line %d: wanted %r, found %r' % (number, told + prompt, found)
    asked.send(END_OF_INPUT)
    asked.read(asked.output, None)
    asked.end()
    return wrong


def questions(runner):
    for name, (description, lines) in TYPED.items():
        if runner.wanted('questions on ' + name):
            with Files(description) as path:
                runner.judge('questions on ' + name, wrong_of_typed(runner, path, lines))


def columns(runner):
    """None of the lines of these tables is longer than a screen is wide."""
    texts = [text_about(told) for _, _, told in CHECKS.values()]
    texts += [text_of('-:99: ', last) + text_of('', left) for _, _, last, left in RUNS.values()]
    texts += [told or b'' for _, lines in TYPED.values() for _, told in lines]
    long = [line for text in texts for line in text.splitlines() if len(line) > COLUMNS]
    runner.judge('columns', '%r' % long if long else None)


PARTS = [checks, runs, full, storm_progress, root_progress, questions, columns]
