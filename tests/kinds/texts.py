"""Runs each command over a text that is a description, a line `script` and a script, and over one without that line.

A command that wants no script shows of such a text what it shows of the description alone. One that wants a script, and is
given none, takes what follows the line. What these show is held by the cases of each command.
"""

import os
import pty
import re
import select
import subprocess
import tempfile

from case_runner import (CANNOT_READ, DESCRIPTION_LIMIT, DESCRIPTION_TOO_LONG, EXAMPLE_FILES, EXAMPLES, FIRST_RUN, FIRST_TEXT, PLAN,
    RECEIVED, SCRIPT_LINE, SECONDS, answers_of, comments, difference, lines_of)
from kinds.streams import failing_after

# Commands of a description alone: the words before its path, and those behind it.
ALONE = [
    (('check',), ()), (('check', '--header', '1'), ('--rows',)), (('cycles',), ('--all',)),
    (('label',), ()), (('label', '--rows'), ()),
]
TABLES = ('packets', 'links', 'rounds', 'run', 'holds', 'ways', 'wishes')
# Commands of a script: the words before the paths, and those behind them.
SCRIPTED = [(('run',), ()), *((('rows', '--what', it), ()) for it in TABLES),
            (('rows',), ('--what', 'ways', '--each'))]
# What `check` says of the examples, none of which but these is refused.
REFUSED = {'configured-by-commands.txt': b'refused 6 DeadEnd: from a header 0 walk A.0\n',
           'label-without-a-way.txt': b'refused 6 DeadEnd: from a header 2 walk A.0 B.2\n',
           'labels-that-loop.txt': b'refused 7 Loop: from a header 1 walk A.0 B.1 A.1 B.1\n'}
NO_DESCRIPTION = 'ring-packets.txt'
SENDS = b'send a 01 68 eop\nsend b 00 69 eop\n'
CARRIED = b'1: done\n2: done\naudit ok\na: 00 69 eop from b 0\nb: 01 68 eop from a 0\n'


def read(folder, name):
    with open(os.path.join(folder, name), 'rb') as file:
        return file.read()


def parts_of(text):
    """The description and the script of a text; no script where it has no line `script`."""
    found = SCRIPT_LINE.search(text)
    return (text[:found.start()], text[found.end():]) if found else (text, None)


def wanting(path):
    return b'error: %s has no line "script", so SCRIPT is wanted\n\nFor more information, try \'--help\'.\n' % path.encode()


class Folder:
    """A folder with files, in which the program runs."""

    def __init__(self, **files):
        self.room = tempfile.TemporaryDirectory()
        self.path = self.room.name
        for name, data in files.items():
            with open(os.path.join(self.path, name), 'wb') as file:
                file.write(data)

    def __enter__(self):
        return self.path

    def __exit__(self, *_):
        self.room.cleanup()


def same(runner, name, words, likewise, folder, **fields):
    """Two runs end the same, and have written the same."""
    if runner.wanted(name):
        status, out, errors = runner.run(words=likewise, folder=folder)
        runner.case(name, out, status, errors, words=words, folder=folder, **fields)


def descriptions(runner):
    """A command of a description alone takes each example, and leaves out its script, whatever that is."""
    for name in EXAMPLE_FILES:
        if name == NO_DESCRIPTION:
            continue
        text = read(EXAMPLES, name)
        runner.case('check of ' + name, REFUSED.get(name, b'accepted\n'), int(name in REFUSED),
                    words=['check', os.path.join(EXAMPLES, name)])
        with Folder(desc=parts_of(text)[0], text=text) as folder:
            for first, last in ALONE:
                same(runner, '%s of %s' % (' '.join(first), name), [*first, 'text', *last], [*first, 'desc', *last], folder)
    with Folder(text=PLAN + b' script\t# of b\nfrob \xff\n' + b'x' * 100000) as folder:
        runner.case('a script that is not read', b'accepted\n', 0, b'', words=['check', 'text'], folder=folder)
        runner.case('a script that is not read, of cycles', b'acyclic\n', 0, b'', words=['cycles', 'text'], folder=folder)
    with Folder(text=PLAN + b'script of b\n') as folder:
        runner.case('a line that begins with script', b'description 8: 2 UnknownWord\n', 1, b'', words=['check', 'text'], folder=folder)
    with failing_after(PLAN + b'script\ndrain b\n') as file:
        runner.case('a fault behind a description', b'accepted\n', 0, b'', words=['check', '-'], stdin=file)


def scripts(runner):
    """A command of a script takes what follows the line, if no other script is named."""
    for name in EXAMPLE_FILES:
        text = read(EXAMPLES, name)
        description, script = parts_of(text)
        if script is None:
            continue
        path = os.path.join(EXAMPLES, name)
        for words in (['run', path], ['run', '-'], ['run', '-', '-']):
            with open(path, 'rb') as file:
                status, out, errors = runner.run(data=text)
                runner.case('%s of %s' % (' '.join(words).replace(path, 'FILE'), name), out, status, errors, words=words, stdin=file)
        with Folder(desc=description, events=script, text=text) as folder:
            for first, last in SCRIPTED:
                words = ' '.join([*first, *last])
                same(runner, '%s of %s' % (words, name), [*first, 'text', *last], [*first, 'desc', 'events', *last], folder)
                same(runner, '%s of %s and a script' % (words, name), [*first, 'text', 'other', *last],
                     [*first, 'desc', 'other', *last], folder)
    with Folder(text=FIRST_TEXT, events=b'drain b\n', sends=PLAN + b'script\n' + SENDS, end=PLAN + b'script') as folder:
        runner.case('run', answers_of(FIRST_RUN) + RECEIVED, 0, b'', words=['run', 'text'], folder=folder)
        runner.case('run of another script', b'1: not ready\n', 0, b'', words=['run', 'text', 'events'], folder=folder)
        runner.case('run of another script, typed', b'1: not ready\n', 0, b'', words=['run', 'text', '-'], data=b'drain b', folder=folder)
        runner.case('run of an empty script', b'', 0, b'', words=['run', 'end'], folder=folder)
        runner.case('storm', CARRIED, 0, b'', words=['storm', 'sends'], folder=folder)
        runner.case('storm of standard input', CARRIED, 0, b'', words=['storm', '-', '--workers', '3'], data=PLAN + b'script\n' + SENDS)
        runner.case('tables in files', b'', 0, b'', words=['rows', 'sends', '--out', 'run'], folder=folder)
        for table in TABLES:
            if runner.wanted('%s in a file, as printed' % table):
                printed = read(folder, 'run-%s.csv' % table)
                runner.case('%s in a file, as printed' % table, printed, words=['rows', 'sends', '--what', table], folder=folder)


def wanted_scripts(runner):
    """Without the line, and a script, it is wrong usage: nothing is run."""
    with Folder(desc=PLAN, faulty=b'frob\n', empty=b'') as folder:
        for words in (['run'], ['storm'], ['rows', '--what', 'run'], ['rows', '--out', 'tables']):
            for path, data in (('desc', b''), ('faulty', b''), ('empty', b''), ('-', PLAN)):
                runner.case('%s without a script: %s' % (' '.join(words), path), b'', 2, wanting(path), words=[*words, path],
                            data=data, folder=folder)
        runner.case('no file', b'', 3, b'c104: cannot read missing\n', words=['run', 'missing'], folder=folder)
        runner.case('run of standard input twice', b'', 0, b'', words=['run', '-', '-'], data=PLAN)
        runner.case('a script that is not there', b'', 3, b'c104: cannot read missing\n', words=['run', 'desc', 'missing'], folder=folder)


def limits(runner):
    """The line has to end within the first 1 MiB, whatever follows it."""
    line, rest = b'script\n', b'drain b\n'
    fits = PLAN + comments(DESCRIPTION_LIMIT - len(PLAN) - len(line)) + line
    over = PLAN + comments(DESCRIPTION_LIMIT - len(PLAN) - len(line) + 1) + line
    for name, text, answer in (('that just fits', fits, b'1: not ready\n'), ('that is too long', over, DESCRIPTION_TOO_LONG)):
        with Folder(text=text + rest) as folder:
            runner.case('run of a text ' + name, answer, int(answer == DESCRIPTION_TOO_LONG), b'', words=['run', 'text'], folder=folder)
            answer = b'accepted\n' if text == fits else answer
            runner.case('check of a text ' + name, answer, int(answer == DESCRIPTION_TOO_LONG), b'', words=['check', 'text'], folder=folder)
    runner.case('a text without end', DESCRIPTION_TOO_LONG, 1, b'', words=['run', '/dev/zero'])


def faults(runner):
    """A fault behind the line is one of the script, and the message names the text."""
    for count in (0, 1, 16):
        with failing_after(PLAN + b'script\n' + lines_of(FIRST_RUN[:count])) as file:
            runner.case('input that fails after line %d' % count, answers_of(FIRST_RUN[:count]), 3, CANNOT_READ, words=['run', '-'], stdin=file)
    with failing_after(PLAN + b'script') as file:
        runner.case('input that fails in the line', b'', 3, CANNOT_READ, words=['run', '-'], stdin=file)


def debugged(runner):
    """The script of the text is done first, and then what standard input gives."""
    with Folder(text=PLAN + b'script\n' + lines_of(FIRST_RUN[:5]), open=PLAN + b'script\nsend a 01 68 eop\n# \nrounds 2',
                none=PLAN + b'script\n', end=PLAN + b'script', desc=PLAN, faulty=PLAN + b'script\nfrob\n') as folder:
        def case(name, answers, words, data, status=0, errors=b''):
            runner.case('debug: ' + name, answers, status, errors, words=words, data=data, folder=folder)
        case('lines behind a script', answers_of(FIRST_RUN) + RECEIVED, ['debug', 'text'], lines_of(FIRST_RUN[5:]))
        case('no lines behind a script', answers_of(FIRST_RUN[:5]), ['debug', 'text'], b'')
        arrived = b'1: done\n3: done\n4: done\nb: 01 68 eop from a 0\n'
        case('a last line without its end', arrived, ['debug', 'open'], b'rounds 18')
        case('an empty script', answers_of(FIRST_RUN) + RECEIVED, ['debug', 'none'], lines_of(FIRST_RUN))
        case('an empty script without its end', answers_of(FIRST_RUN) + RECEIVED, ['debug', 'end'], lines_of(FIRST_RUN))
        case('no script', answers_of(FIRST_RUN) + RECEIVED, ['debug', 'desc'], lines_of(FIRST_RUN))
        case('one text', answers_of(FIRST_RUN) + RECEIVED, ['debug', '-'], FIRST_TEXT)
        found = runner.run(words=['--explain', 'debug', 'faulty'], data=b'frob\n', folder=folder)
        lines = found[2].splitlines() if found else []
        places = [re.match(rb'c104: (\S+): ', it)[1] for it in lines]
        runner.judge('debug: where lines stand', None if places == [b'faulty:9', b'-:2'] else '%r' % lines)


def through_a_pipe(runner):
    """What follows the line is answered before standard input is asked for more."""
    name = 'debug: a script, and lines one by one'
    if not runner.wanted(name):
        return
    with Folder(text=PLAN + b'script\n' + lines_of(FIRST_RUN[:2])) as folder:
        asked = subprocess.Popen([*runner.program, 'debug', 'text'], cwd=folder, stdin=subprocess.PIPE, stdout=subprocess.PIPE, bufsize=0)
        wrong = None
        for number, (line, answer) in enumerate(FIRST_RUN, 1):
            if number > 2:
                asked.stdin.write(line.encode() + b'\n')
            there, _, _ = select.select([asked.stdout], [], [], SECONDS)
            found = asked.stdout.readline() if there else b''
            wrong = wrong or (None if found == b'%d: %s\n' % (number, answer.encode()) else 'line %d: %r' % (number, found))
        out, _ = asked.communicate(timeout=SECONDS)
        runner.judge(name, wrong or difference((asked.returncode, out, b''), RECEIVED, 0, None))


def at_a_terminal(runner):
    """The prompts go on where the script of the text ends."""
    name = 'debug: a script, and lines at a terminal'
    if not runner.wanted(name):
        return
    with Folder(text=PLAN + b'script\nsend a 01 68 eop\nfrob\nrounds 2') as folder:
        keep, end = pty.openpty()
        asked = subprocess.Popen([*runner.program, 'debug', 'text'], cwd=folder, stdin=end, stdout=subprocess.PIPE, stderr=end)
        os.close(end)
        wrong = None
        for prompt, line in ((b'\n4> ', b'frob\n'), (b'\n5> ', b'rounds 18\n'), (b'\n6> ', b'quit\n')):
            shown = until(keep, prompt)
            place = b'c104: text:10: ' if line == b'frob\n' else b'c104: -:4: ' if line == b'rounds 18\n' else b''
            if not shown.endswith(prompt) or place not in shown:
                wrong = wrong or 'before %r: %r' % (line, shown)
            os.write(keep, line)
        out, _ = asked.communicate(timeout=SECONDS)
        os.close(keep)
        answers = b'1: done\n2: fault 2 UnknownWord\n3: done\n4: fault 2 UnknownWord\n5: done\nb: 01 68 eop from a 0\n'
        runner.judge(name, wrong or difference((asked.returncode, out, b''), answers, 1, None))


def until(file, ends):
    """What a terminal shows until it ends so."""
    text = b''
    while not text.endswith(ends) and select.select([file], [], [], SECONDS)[0]:
        text += os.read(file, 65536).replace(b'\r\n', b'\n')
    return text


PARTS = [descriptions, scripts, wanted_scripts, limits, faults, debugged, through_a_pipe, at_a_terminal]
