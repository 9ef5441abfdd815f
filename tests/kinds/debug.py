"""Runs a program that is asked line by line: by another program through a pipe, and by a person at a terminal.

Each line is sent once the one before is answered.
"""

import os
import pty
import select
import subprocess
import tempfile
import termios
import tty

from case_runner import FIRST_RUN, PLAN, RECEIVED, answers_of, difference, lines_of

SECONDS = 60
END_OF_INPUT = b'\x04'
UNKNOWN = 'fault 2 UnknownWord'

HELP = b'''send TERMINAL to TERMINAL BYTES
                            a packet waits to go out, as `send a to b 68 "hi" length 9 eop`
send TERMINAL PACKET        the same by all its bytes, as `send a 01 68 eop`
drain TERMINAL              the first token that came in there arrives
cross PORT                  the first token that waits there crosses its wire
credit PORT                 the port grants eight more tokens to the far end
input SWITCH.LINK [NUMBER]  an input takes a turn with its first token
claim SWITCH INPUT OUTPUT   an input claims an output for its header
control SWITCH BYTE ..      a switch takes a command of at most 8 bytes
rounds COUNT [fair] [seed NUMBER]
                            run COUNT rounds, fair ones by turns, with random headers by a seed
settle                      run rounds until another would do nothing
peek SWITCH ADDRESS         the register's value, as `peek A 0140`; not an event
poke SWITCH ADDRESS VALUE   set a register
                            by name: `peek A.0 limit 0`, `poke A.0 mode 2`
link SWITCH.LINK            the status of a link
table SWITCH.LINK           the base and the rows of an input
verify [all]                compare all writable registers with the loaded values, up to the first that differs, or all
dump SWITCH                 the registers of a switch that aren't as after a reset, and its own two
help                        lists these lines
show SWITCH                 shows each wired link
show SWITCH.LINK            shows a link
show TERMINAL               shows a terminal
show waiting                shows which outputs inputs hold and want
where TERMINAL NUMBER       shows where a packet is: NUMBER is from 0 on, of those that the terminal sent
until TERMINAL NUMBER       runs rounds until that packet has arrived, or nothing moves, at most 10000
read FILE                   does the lines of a file
log FILE                    saves the lines so far, and those that come, in a new file
restart                     ends the run, reads the description again, and begins anew
quit                        ends the run, as Ctrl-D does
A PORT is a terminal, or a switch with a link, as A.0. A `#` begins a comment.
From `help` on these are words of the prompt alone: in a file they are faults.
'''


def tokens(count):
    return b'%d token%s' % (count, b'' if count == 1 else b's')


def wait(count):
    return tokens(count) + (b' waits' if count == 1 else b' wait')


def link(port, other, input_side, output_side):
    """How a link stands. Of the input side what it holds, may take and does; of the output side what it holds and
    may send, and its owner."""
    came_in, granted, phase = input_side
    to_go, credit, owner = output_side
    return (b'%s, on a wire to %s\n  input: holds %s, may take %d more, %s\n  output: holds %s, may send %d, %s\n'
            % (port, other, tokens(came_in), granted, phase, tokens(to_go), credit, owner))


def terminal(name, other, *counts):
    """How a terminal stands: how many tokens wait to go out and may, came in, may come in, and have arrived."""
    waiting, credit, came_in, granted, arrived = counts
    return (b'%s, on a wire to %s\n  sends: %s, %d may go\n  receives: %s to arrive, %d more may come in, %d arrived so far\n'
            % (name, other, wait(waiting), credit, wait(came_in), granted, arrived))


UNTIL_FORM = b'the line is `until TERMINAL NUMBER`, as `until a 0` of the first packet that `a` sent\n'
READ_FORM = b"the line is `read FILE`: the file's name is one word, in UTF-8\n"
LOG_FORM = b"the line is `log FILE`: the file's name is one word, in UTF-8\n"
IDLE = b'waits for a packet'
FREE = b'no input owns it'

# The first run with questions among its lines: each line, its answer if it has one, and what it is told.
TYPED = [
    ('help', None, HELP),
    ('where a 0', None, b'a has sent no packet\n'),
    *[(*line, b'') for line in FIRST_RUN[:1]],
    ('where a 0', None, b'packet 0 of a: 3 tokens wait at a to go out\n'),
    *[(*line, b'') for line in FIRST_RUN[1:3]],
    ('where a 0  # sent in part', None, b'packet 0 of a: 2 tokens wait at a to go out\n1 token at input A.0\n'),
    *[(*line, b'') for line in FIRST_RUN[3:5]],
    ('where a 0', None, b'packet 0 of a: 3 tokens at input A.0\n'),
    ('show A', None, link(b'A.0', b'a', (3, 5, IDLE), (0, 0, FREE)) + link(b'A.1', b'b', (0, 0, IDLE), (0, 0, FREE))),
    ('show A.1', None, link(b'A.1', b'b', (0, 0, IDLE), (0, 0, FREE))),
    ('show a  # the sender', None, terminal(b'a', b'A.0', 0, 5, 0, 0, 0)),
    (*FIRST_RUN[5], b''),
    ('show A', None, link(b'A.0', b'a', (2, 5, b'wants an output of the group of link 1 for the header 01 (label 1 of b)'), (0, 0, FREE))
        + link(b'A.1', b'b', (0, 0, IDLE), (0, 0, FREE))),
    ('show waiting', None, b'A.0 wants A.1 for the header 01 (label 1 of b), and it is free\n'),
    ('where a 0', None, b'packet 0 of a: 3 tokens at input A.0, which wants an output for its header\n'),
    *[(*line, b'') for line in FIRST_RUN[6:9]],
    ('\thelp me', None, HELP),
    (*FIRST_RUN[9], b''),
    ('show A', None, link(b'A.0', b'a', (1, 5, b'streams its packet to output 1'), (0, 0, FREE))
        + link(b'A.1', b'b', (0, 0, IDLE), (1, 7, b'input 0 owns it'))),
    ('show waiting  # for what', None, b'A.0 holds A.1, which leads to b\n'),
    ('where a 0', None, b'packet 0 of a: 1 token at input A.0\n1 token at output A.1, which leads to b\n'
        b'1 token came in at b and waits to arrive\n'),
    *[(*line, b'') for line in FIRST_RUN[10:15]],
    ('show b', None, terminal(b'b', b'A.1', 0, 0, 1, 5, 2)),
    ('where a 0', None, b'packet 0 of a: 1 token came in at b and waits to arrive\n2 tokens arrived at b\n'),
    (*FIRST_RUN[15], b''),
    ('where a 0', None, b'packet 0 of a: it arrived at b\n'),
    ('send a 09 eop', 'done', b''),
    ('rounds 1', 'done', b''),
    ('where a 1', None, b'packet 1 of a: 1 token waits at a to go out\n0 tokens at input A.0, which drops it\n'),
    ('rounds 1', 'done', b''),
    ('where a 1', None, b'packet 1 of a: its end is nowhere in the network: it was dropped, or cleared by a reset\n'),
    ('where a 2', None, b'a has sent only 2 packets\n'),
    ('where b 0', None, b'b has sent no packet\n'),
    ('where', None, b'the line is `where TERMINAL NUMBER`, as `where a 0` of the first packet that `a` sent\n'),
    ('where a', None, b'the line is `where TERMINAL NUMBER`, as `where a 0` of the first packet that `a` sent\n'),
    ('where a first', None, b'a number is 1 to 7 decimal digits: first\n'),
    ('where A 0', None, b'this is a switch, and a terminal is wanted: A\n'),
    ('where a.0 0', None, b'a terminal is named without a link: a.0\n'),
    ('where zz 0', None, b'the description defines no such name: zz\n'),
    ('show waiting', None, b'no input holds an output, and none wants one\n'),
    ('show', None, b'the line is `show SWITCH`, `show SWITCH.LINK`, `show TERMINAL` or `show waiting`\n'),
    ('show B', None, b'the description defines no such name: B; did you mean b?\n'),
    ('show A.5', None, b'the link has neither a terminal nor a wire\n'),
    ('show A.32', None, b'a link is 0 to 31: A.32\n'),
    ('show b.0', None, b'a terminal is named without a link: b.0\n'),
    ('show B.0', None, b'the description defines no such name: B.0\n'),
    # Ctrl-D within a line sends its first part
    ('wh\x04ere b 0', None, b'b has sent no packet\n'),
    ('until', None, UNTIL_FORM),
    ('until a 0', None, b'packet 0 of a: it arrived at b\n'),
    ('restart now', None, b'the line is `restart`\n'),
    ('frob', UNKNOWN, b'c104: -:59: no line begins with this word; `help` lists those that do: frob\n'),
    ('', None, b''),
]


class Asked:
    """A program that is asked line by line. What it writes and tells is read as it comes."""

    def __init__(self, words, stdin, stdout, stderr, given):
        self.input, self.output, self.errors = stdin, stdout, stderr
        self.texts = {stdout: b'', stderr: b''}
        self.process = subprocess.Popen(words, **given)

    def read(self, file, ends):
        """What comes from a file until it ends so, or all to its end. It is forgotten then."""
        while not (ends and self.texts[file].endswith(ends)):
            there, _, _ = select.select([file], [], [], SECONDS)
            try:
                piece = os.read(file, 65536) if there else b''
            except OSError:
                piece = b''
            if not piece:
                break
            self.texts[file] += piece
        text, self.texts[file] = self.texts[file].replace(b'\r\n', b'\n'), b''
        return text

    def send(self, text):
        os.write(self.input, text)

    def end(self):
        try:
            return self.process.wait(SECONDS)
        except subprocess.TimeoutExpired:
            self.process.kill()
            return self.process.wait()


def network(folder):
    path = os.path.join(folder, 'network.txt')
    with open(path, 'wb') as file:
        file.write(PLAN)
    return path


def asked_by_program(words):
    """The program, asked through pipes."""
    (near, send), (receive, far), (told, tell) = os.pipe(), os.pipe(), os.pipe()
    asked = Asked(words, send, receive, told, {'stdin': near, 'stdout': far, 'stderr': tell})
    for file in (near, far, tell):
        os.close(file)
    return asked


def asked_by_person(words, is_shown):
    """The program at a terminal that shows nothing of what is typed. What it writes goes there too, or to a pipe."""
    keep, end = pty.openpty()
    modes = termios.tcgetattr(end)
    modes[3] &= ~termios.ECHO
    termios.tcsetattr(end, termios.TCSANOW, modes)
    receive, far = (keep, end) if is_shown else os.pipe()
    asked = Asked(words, keep, receive, keep, {'stdin': end, 'stdout': far, 'stderr': end})
    os.close(end)
    if not is_shown:
        os.close(far)
    return asked


def through_a_pipe(runner):
    name = 'each line through a pipe is answered before the next'
    if not runner.wanted(name):
        return
    with tempfile.TemporaryDirectory() as folder:
        asked = asked_by_program(runner.program + ['debug', network(folder)])
        wrong = None
        for number, (line, answer) in enumerate(FIRST_RUN, 1):
            asked.send(line.encode() + b'\n')
            found = asked.read(asked.output, b'\n')
            if found != b'%d: %s\n' % (number, answer.encode()):
                wrong = wrong or 'line %d: %r' % (number, found)
        os.close(asked.input)
        found = asked.read(asked.output, None), asked.read(asked.errors, None)
        runner.judge(name, wrong or difference((asked.end(), *found), RECEIVED, 0, b''))


def no_questions(runner):
    """Through a pipe a question is a faulty line, also where standard error is a terminal or people are told."""
    with tempfile.TemporaryDirectory() as folder:
        path = network(folder)
        script = b'help\nshow A\ndrain b\n'
        answers = answers_of([('', UNKNOWN), ('', UNKNOWN), ('', 'not ready')])
        for name, words in [('questions through a pipe', ['debug', path]),
                            ('questions through a pipe, explained', ['--explain', 'debug', path])]:
            runner.case(name, answers, 1, words=words, data=script)
        runner.case('questions of a run', answers, 1, words=['run', path, '-'], data=script)
        name = 'questions through a pipe beside a terminal'
        if runner.wanted(name):
            keep, end = pty.openpty()
            done = subprocess.run(runner.program + ['debug', path], input=script, stdout=subprocess.PIPE, stderr=end,
                                  timeout=SECONDS)
            os.close(end)
            os.close(keep)
            runner.judge(name, difference((done.returncode, done.stdout, b''), answers, 1, None))


def same_as_run(runner):
    """What `run` shows of a description and a script, `debug` shows, whole and long scripts too."""
    with tempfile.TemporaryDirectory() as folder:
        path = network(folder)
        for name, script in [('first run', lines_of(FIRST_RUN)), ('no line', b''), ('last line without its end', b'drain b'),
                             ('two lines', b'send a 01 68 eop\nrounds 20\n')]:
            found = runner.run(words=['run', path, '-'], data=script)
            runner.case('debug as run: ' + name, found[1], found[0], found[2], words=['debug', path], data=script)
        fault = b'c104: cannot read missing\n'
        runner.case('debug of no file', b'', 3, fault, words=['debug', 'missing'])
        why = b'c104: missing: No such file or directory (os error 2)\n'
        runner.case('debug of no file, explained', b'', 3, fault + why, words=['debug', 'missing', '--explain'])
        runner.case('debug of standard input', b'', 0, b'', words=['debug', '-'], data=PLAN)
        runner.case('debug of a faulty description', b'description 1: 2 UnknownWord\n', 1, b'', words=['debug', '-'],
                    data=b'frob\n')


def typed(asked):
    """What is wrong where the lines are typed, or None: each prompt, and what was answered and told before it."""
    prompt = b'1> '
    found = asked.read(asked.errors, prompt)
    if found != prompt:
        return 'first prompt: %r' % found
    for number, (line, answer, told) in enumerate(TYPED, 1):
        asked.send(line.encode() + b'\n')
        prompt = b'%d> ' % (number + 1)
        found = asked.read(asked.errors, prompt)
        wanted = b'' if answer is None else b'%d: %s\n' % (number, answer.encode())
        if asked.output != asked.errors:
            there = asked.read(asked.output, b'\n') if wanted else b''
            if there != wanted:
                return 'line %d: wanted %r, found %r' % (number, wanted, there)
            wanted = b''
        is_told = found.startswith(wanted + told) if told.startswith(b'c104:') else found == wanted + told + prompt
        if not (is_told and found.endswith(prompt)):
            return 'line %d: wanted %r, found %r' % (number, wanted + told + prompt, found)
    return None


def at_a_terminal(runner):
    for name, is_shown in [('terminal for messages', False), ('terminal for all', True)]:
        if not runner.wanted(name):
            continue
        with tempfile.TemporaryDirectory() as folder:
            asked = asked_by_person(runner.program + ['debug', network(folder)], is_shown)
            wrong = typed(asked)
            asked.send(END_OF_INPUT)
            end = asked.read(asked.output, None)
            if not wrong and end != (b'\n' + RECEIVED if is_shown else RECEIVED) and not (is_shown and RECEIVED in end):
                wrong = 'at the end: %r' % end
            status = asked.end()
            runner.judge(name, wrong or (None if status == 1 else 'exit status: %d' % status))


def what_waits(runner):
    """`show waiting` tells which outputs inputs hold and want; of an input that drops, the next case."""
    name = 'what waits'
    if not runner.wanted(name):
        return
    with tempfile.TemporaryDirectory() as folder:
        path = os.path.join(folder, 'network.txt')
        with open(path, 'wb') as file:
            file.write(PLAN.replace(b'row A.1 2 1\n', b'row A.1 2 1\nbuffer 8\nterminal c A.2\nrow A.2 2 1\n'))
        asked = asked_by_person(runner.program + ['debug', path], False)
        told = asked.read(asked.errors, b'1> ')
        # a packet is left in its middle: its output isn't freed, and another header waits for it
        for line in (b'send a 01 02 eop', b'send c 01 eop', b'credit A.0', b'credit A.2', b'credit b', b'cross a', b'cross c',
                     b'input A.0', b'claim A 0 1', b'input A.2', b'show waiting'):
            asked.send(line + b'\n')
            told = asked.read(asked.errors, b'> ')
        wanted = b'A.0 holds A.1, which leads to b\nA.2 wants A.1 for the header 01 (label 1 of b), and A.0 holds it\n'
        asked.send(END_OF_INPUT)
        found = asked.read(asked.output, None)
        wrong = None if told.startswith(wanted) and found else 'wanted %r, found %r' % (wanted, told)
        runner.judge(name, wrong or (None if asked.end() == 0 else 'exit status'))


# Headers of two bytes, and the link of b puts the random header 300 before packets.
READS = (b'header 2\nswitch A\nterminal a A.0 labels 256\nterminal b A.1\nterminal c A.2\nrandom A.1 300 1\n'
         b'row A.0 256 0\nrow A.0 257 1\nrow A.1 300 sink\nrow A.1 301 0\n')


def reads_and_drops(runner):
    """`show` tells of an input that reads a header, and of one that drops its packet."""
    name = 'inputs that read a header and drop a packet'
    if not runner.wanted(name):
        return
    with tempfile.TemporaryDirectory() as folder:
        path = os.path.join(folder, 'network.txt')
        with open(path, 'wb') as file:
            file.write(READS)
        asked = asked_by_person(runner.program + ['debug', path], False)
        told = asked.read(asked.errors, b'1> ')
        for line in (b'send a 00 01 aa eop', b'send b 00 01 eop', b'send c 07 00 eop',
                     b'credit A.0', b'credit A.1', b'credit A.2', *[b'cross a'] * 2, b'cross b', *[b'cross c'] * 2,
                     b'input A.0', b'input A.1', *[b'input A.2'] * 2, b'show A'):
            asked.send(line + b'\n')
            told = asked.read(asked.errors, b'> ')
        wants = b'wants an output of the group of link 0 for the header 2c 01 (300)'
        wanted = (link(b'A.0', b'a', (1, 6, b'reads a header'), (0, 0, FREE))
                  + link(b'A.1', b'b', (1, 7, wants), (0, 0, FREE))
                  + link(b'A.2', b'c', (0, 6, b'drops its packet'), (0, 0, FREE)))
        wrong = None if told.startswith(wanted) else 'wanted %r, found %r' % (wanted, told)
        for line in (b'input A.0', b'show waiting'):
            asked.send(line + b'\n')
            told = asked.read(asked.errors, b'> ')
        wanted = (b'A.0 wants A.1 for the header 00 01 (label 256 of b), and it is free\nA.1 wants A.0 for the header 2c 01 (300), and it is free\n'
                  b'A.2 drops its packet, and waits for the next token from c\n')
        wrong = wrong or (None if told.startswith(wanted) else 'wanted %r, found %r' % (wanted, told))
        asked.send(END_OF_INPUT)
        asked.read(asked.output, None)
        runner.judge(name, wrong or (None if asked.end() == 0 else 'exit status'))


# What is typed, and what the questions among it are told, where packets wait in one another's way.
IN_PARTS = [
    ('send a 01 02 eop', None), ('send c 01 eop', None), ('credit A.0', None), ('credit A.2', None), ('credit b', None),
    ('cross a', None), ('cross c', None), ('input A.0', None), ('claim A 0 1', None), ('input A.2', None),
    ('where a 0', b'2 tokens wait at a to go out\n1 token at output A.1, which leads to b\n'),
    ('where c 0', b'1 token waits at c to go out\n1 token at input A.2, which wants an output for its header\n'),
    ('cross A.1', None),
    ('where a 0', b'2 tokens wait at a to go out\n1 token came in at b and waits to arrive\n'),
    ('cross a', None), ('cross a', None), ('send a 01 eop', None), ('cross a', None),
    ('where a 0', b'2 tokens at input A.0\n1 token came in at b and waits to arrive\n'),
    ('where a 1', b'1 token waits at a to go out\n1 token at input A.0, behind another packet\n'),
    ('drain b', None),
    ('where a 0', b'2 tokens at input A.0\n1 token arrived at b\n'),
    ('control A 02', None),
    ('where a 0', b'its end is nowhere in the network: it was dropped, or cleared by a reset\n'),
    ('where a 1', b'1 token waits at a to go out\n'),
]

# The same with headers of two bytes, of which one input has read a half, and another drops its packet.
IN_HEADERS = [
    ('send a 00 01 aa eop', None), ('send c 07 00 eop', None), ('credit A.0', None), ('credit A.2', None),
    *[('cross a', None)] * 2, *[('cross c', None)] * 2, ('input A.0', None), *[('input A.2', None)] * 2,
    ('where a 0', b'2 tokens wait at a to go out\n2 tokens at input A.0, which reads its header\n'),
    ('where c 0', b'1 token waits at c to go out\n0 tokens at input A.2, which drops it\n'),
]


def where_packets_are(runner):
    """`where` tells which places hold tokens of a packet, also of one that is behind another, or was cut by a reset."""
    three = PLAN.replace(b'row A.1 2 1\n', b'row A.1 2 1\nbuffer 8\nterminal c A.2\nrow A.2 2 1\n')
    for name, plan, lines in [('packets in parts', three, IN_PARTS), ('packets at their headers', READS, IN_HEADERS)]:
        if not runner.wanted(name):
            continue
        with tempfile.TemporaryDirectory() as folder:
            path = os.path.join(folder, 'network.txt')
            with open(path, 'wb') as file:
                file.write(plan)
            asked = asked_by_person(runner.program + ['debug', path], False)
            asked.read(asked.errors, b'1> ')
            wrong = None
            for number, (line, wanted) in enumerate(lines, 1):
                asked.send(line.encode() + b'\n')
                told = asked.read(asked.errors, b'%d> ' % (number + 1))
                packet = line.split()
                whole = b'' if wanted is None else b'packet %s of %s: %s' % (packet[2].encode(), packet[1].encode(), wanted)
                if wanted is not None and not told.startswith(whole):
                    wrong = wrong or 'line %d: wanted %r, found %r' % (number, whole, told)
            asked.send(END_OF_INPUT)
            asked.read(asked.output, None)
            runner.judge(name, wrong or (None if asked.end() == 0 else 'exit status'))


def a_node_of_that_name(runner):
    """`show waiting` shows a node where one has that name."""
    name = 'a switch whose name is waiting'
    if not runner.wanted(name):
        return
    with tempfile.TemporaryDirectory() as folder:
        path = os.path.join(folder, 'network.txt')
        with open(path, 'wb') as file:
            file.write(b'switch waiting\n')
        asked = asked_by_person(runner.program + ['debug', path], False)
        asked.read(asked.errors, b'1> ')
        asked.send(b'show waiting\n')
        told = asked.read(asked.errors, b'2> ')
        asked.send(END_OF_INPUT)
        wanted = b'no link of this switch has a wire\n2> '
        runner.judge(name, None if told == wanted and asked.end() == 0 else 'found %r' % told)


def questions_are_no_lines(runner):
    """What is typed gives the same bytes and exit status as a run of it without the questions."""
    asks = b'help\nshow A\nshow z\nwhere a 0\n'
    for name, script, typed, status in [('questions alone', b'', asks, 0), ('no questions', b'send a 01 68 eop\n', b'', 0),
                                        ('questions behind a fault', b'frob\n', asks, 1)]:
        judge_typed(runner, name, script, typed + END_OF_INPUT, status)


# Lines that are typed, with what is answered, what is told, and how many lines they make.
AT_THE_PROMPT = [
    (b'until a 0', b'', b'a has sent no packet\n', 1),
    (b'until zz 0', b'', b'the description defines no such name: zz\n', 1),
    (b'until A 0', b'', b'this is a switch, and a terminal is wanted: A\n', 1),
    (b'until a first', b'', b'a number is 1 to 7 decimal digits: first\n', 1),
    (b'until a 0 1', b'', UNTIL_FORM, 1),
    (b'send a 01 68 eop', b'6: done\n', b'', 1),
    # The header comes to the output in the first round, and each further token takes one.
    (b'until a 0  # at last', b'7: done\n', b'rounds 4\npacket 0 of a: it arrived at b\n', 1),
    (b'until a 0', b'', b'packet 0 of a: it arrived at b\n', 1),
    (b'log %(log)s', b'', b'', 1),
    (b'log %(log)s', b'', b'%(log)s: File exists (os error 17)\n', 1),
    (b'log', b'', LOG_FORM, 1),
    (b'log none/such', b'', b'none/such: No such file or directory (os error 2)\n', 1),
    (b'read %(log)s', b'', b'%(log)s: this is the log, which would grow as it is read\n', 1),
    (b'read', b'', READ_FORM, 1),
    (b'read one two', b'', READ_FORM, 1),
    (b'read \xff', b'', READ_FORM, 1),
    (b'read none/such', b'', b'none/such: No such file or directory (os error 2)\n', 1),
    (b'read .', b'', b'.: Is a directory (os error 21)\n', 1),
    # Of a file whose last line has no line feed. The words of the prompt are faults there.
    (b'read %(more)s', b'20: done\n21: fault 2 UnknownWord\n22: done\n', None, 4),
    (b'until a 1', b'23: done\n', b'rounds 3\npacket 1 of a: it arrived at b\n', 1),
    # A packet that an input drops never arrives.
    (b'send a 09 eop', b'24: done\n', b'', 1),
    (b'until a 2', b'25: done\n', b'rounds 2\npacket 2 of a: its end is nowhere in the network: it was dropped, or cleared '
        b'by a reset\n', 1),
    (b'frob', b'26: fault 2 UnknownWord\n', None, 1),
]

# What a file has that is read among them, and what arrives of all lines.
MORE = b'send a 01 69 eop\nwhere a 0\nrounds 1'
ARRIVED = b'b: 01 68 eop from a 0\nb: 01 69 eop from a 1\n'


def words_of_the_prompt(runner):
    """`until`, `log` and `read` are done at the prompt. The lines that are saved are a script of the same answers, packets and
    exit status."""
    name = 'words of the prompt'
    if not runner.wanted(name):
        return
    with tempfile.TemporaryDirectory() as folder:
        path = network(folder)
        names = {name.encode(): os.path.join(folder, name).encode() for name in ('log', 'more')}
        with open(names[b'more'], 'wb') as file:
            file.write(MORE)
        asked = asked_by_person(runner.program + ['debug', path], False)
        wrong, answers = answered(asked, [(line % names, answer, told and told % names, count)
                                          for line, answer, told, count in AT_THE_PROMPT])
        asked.send(b'quit\n')
        wrong = wrong or difference((asked.end(), asked.read(asked.output, None), b''), ARRIVED, 1, None)
        again = runner.run(words=['run', path, names[b'log'].decode()])
        runner.judge(name, wrong or difference(again, answers + ARRIVED, 1, b''))


def answered(asked, lines):
    """What is wrong with lines that are typed, or None, and all that was answered."""
    answers, number = b'', 1
    asked.read(asked.errors, b'1> ')
    for line, answer, told, count in lines:
        asked.send(line + b'\n')
        number += count
        prompt = b'%d> ' % number
        found = asked.read(asked.errors, prompt)
        there = asked.read(asked.output, answer) if answer else b''
        answers += answer
        if there != answer or (told is not None and found != told + prompt):
            return '%r: wanted %r and %r, found %r and %r' % (line, answer, told, there, found), answers
    return None, answers


def standing_still(runner):
    """`until` ends where nothing moves, and it is told what waits."""
    name = 'until nothing moves'
    if not runner.wanted(name):
        return
    with tempfile.TemporaryDirectory() as folder:
        asked = asked_by_person(runner.program + ['debug', network(folder)], False)
        # A switch that was reset takes no token.
        wrong, _ = answered(asked, [(b'send a 01 eop', b'1: done\n', b'', 1), (b'control A 02', b'2: control 82\n', b'', 1)])
        asked.send(b'until a 0\n')
        told = asked.read(asked.errors, b'4> ')
        asked.send(END_OF_INPUT)
        if not told.startswith(b'rounds ') or b'c104: -:3: stands still: 2 tokens wait' not in told:
            wrong = wrong or 'found %r' % told
        runner.judge(name, wrong or (None if asked.end() == 0 else 'exit status'))


def restarted(runner):
    """`restart` ends the run with its summary, and begins anew with what the description's file has then. Where that came
    from standard input it can't."""
    name = 'restart'
    if runner.wanted(name):
        with tempfile.TemporaryDirectory() as folder:
            path = network(folder)
            asked = asked_by_person(runner.program + ['debug', path], False)
            wrong, _ = answered(asked, [(b'send a 01 68 eop', b'1: done\n', b'', 1), (b'rounds 9', b'2: done\n', b'', 1),
                                        (b'frob', b'3: fault 2 UnknownWord\n', None, 1)])
            with open(path, 'ab') as file:
                file.write(b'script\nsend a 01 69 eop\n')
            asked.send(b'restart\n')
            told = asked.read(asked.errors, b'2> ')
            found = asked.read(asked.output, b'1: done\n')
            if told != b'2> ' or found != b'b: 01 68 eop from a 0\n1: done\n':
                wrong = wrong or 'found %r and %r' % (told, found)
            asked.send(b'until a 0\nquit\n')
            runner.judge(name, wrong or difference((asked.end(), asked.read(asked.output, None), b''),
                                                   b'2: done\nb: 01 69 eop from a 0\n', 0, None))
    name = 'restart of what was typed'
    if runner.wanted(name):
        asked = asked_by_person(runner.program + ['debug', '-'], False)
        asked.send(b'switch A\nscript\n')
        wrong, _ = answered(asked, [(b'restart', b'', b"the description came from standard input, so it can't be read again\n", 1)])
        asked.send(END_OF_INPUT)
        runner.judge(name, wrong or (None if asked.end() == 0 else 'exit status'))


def several_at_once(runner):
    """Lines that come in one read, as a program types them, are taken one by one, behind `restart` too."""
    name = 'several lines at once'
    if not runner.wanted(name):
        return
    with tempfile.TemporaryDirectory() as folder:
        asked = asked_by_person(runner.program + ['debug', network(folder)], False)
        tty.setraw(asked.input)
        asked.read(asked.errors, b'1> ')
        asked.send(b'send a 01 68 eop\nuntil a 0\nrestart\nsend a 01 69 eop\nrounds 9\nquit\n')
        answers = b'1: done\n2: done\nb: 01 %d eop from a 0\n'
        runner.judge(name, difference((asked.end(), asked.read(asked.output, None), b''), answers % 68 + answers % 69, 0, None))


def ended_by_a_word(runner):
    """A line `quit` or `exit` ends what is typed: what stands before it is the script, and nothing behind it is read. In a
    file and through a pipe these are unknown words."""
    done, faulty = b'send a 01 68 eop\nrounds 20\n', b'frob\nrounds 1\n'
    for name, script, line, status in [('quit at once', b'', b'quit\n', 0), ('quit', done, b'quit\n', 0),
                                       ('exit', done, b'\texit now  # and go\n', 0), ('quit after a fault', faulty, b'quit\n', 1),
                                       ('lines behind quit', done, b'quit\nfrob\n', 0)]:
        judge_typed(runner, name, script, line, status)
    for name, line in [('quit', b'quit\n'), ('exit', b'exit now\n')]:
        answers = answers_of([(line.decode(), UNKNOWN)])
        with tempfile.TemporaryDirectory() as folder:
            path = network(folder)
            runner.case('%s of a run' % name, answers, 1, words=['run', path, '-'], data=line)
            runner.case('%s through a pipe' % name, answers, 1, words=['debug', path], data=line)


def judge_typed(runner, name, script, end, status):
    """Whether a script that is typed, and what is behind it up to its end, give the bytes and the exit status of a run of the
    script, and this status."""
    if not runner.wanted(name):
        return
    with tempfile.TemporaryDirectory() as folder:
        path = network(folder)
        run = runner.run(words=['run', path, '-'], data=script)
        asked = asked_by_person(runner.program + ['debug', path], False)
        asked.read(asked.errors, b'1> ')
        asked.send(script)
        if script:
            asked.read(asked.errors, b'%d> ' % (script.count(b'\n') + 1))
        asked.send(end)
        found = asked.end(), asked.read(asked.output, None), b''
        runner.judge(name, difference(found, run[1], status, None) or (None if run[0] == status else 'run: %d' % run[0]))


def awaited(runner):
    """Without words at a terminal it is told that a text is awaited."""
    name = 'no words at a terminal'
    if not runner.wanted(name):
        return
    asked = asked_by_person(runner.program, False)
    told = asked.read(asked.errors, b'\n')
    # of the description, and of the script
    asked.send(END_OF_INPUT * 2)
    wanted = b'c104: reads a description and a script from standard input, up to Ctrl-D; `c104 --help` tells more\n'
    runner.judge(name, difference((asked.end(), asked.read(asked.output, None), told), b'', 0, wanted))


PARTS = [through_a_pipe, no_questions, same_as_run, at_a_terminal, what_waits, reads_and_drops,
         where_packets_are, a_node_of_that_name, questions_are_no_lines, words_of_the_prompt,
         standing_still, restarted, several_at_once, ended_by_a_word, awaited]
