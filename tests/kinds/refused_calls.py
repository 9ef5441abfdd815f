"""Runs a program with each of its allocations, reads, writes and openings of a file refused in turn.

A preloaded library refuses the calls: refused_calls.c, which $CC or else cc compiles. Wanted is, after a refused
  allocation    status 4, `c104: no memory`, and a prefix of the answers; or the run as it is without
  read          status 3, `c104: cannot read PATH`, the answers to the lines that had ended, and no summary
  write         status 3, `c104: cannot write`, and what was written before
  opening       status 3, `c104: cannot read PATH`, and no output
and never a signal. Where each read and each write moves one byte, the run is the same. Of a run that tells people
what is wrong, a message that meets a refusal is lost, and nothing else.
"""

import errno
import os
import re
import subprocess
import tempfile

from case_runner import CANNOT_WRITE, EXAMPLES, FIRST_RUN, FIRST_TEXT, PLAN, SCRIPT_LINE, TESTS, lines_of
from preloaded import build_library

LIBRARY = os.path.join(TESTS, 'refused_calls.c')
SECONDS = 60
NO_MEMORY = b'c104: no memory\n'
KINDS = ('alloc', 'read', 'write', 'open')


class Outcome:
    """How a run ended: its status, its two outputs, and how many calls of each kind it made."""

    def __init__(self, status, out, errors, calls):
        self.status, self.out, self.errors, self.calls = status, out, errors, calls

    def is_like(self, other):
        return (self.status, self.out, self.errors) == (other.status, other.out, other.errors)

    def __str__(self):
        return 'status %d, %d bytes of output, %.100r on standard error' % (self.status, len(self.out), self.errors)


class Run:
    """A run of the program: its words, its standard input, and the files that stand in its folder."""

    def __init__(self, name, words=(), text=b'', description=None, script=None):
        self.name, self.words, self.text = name, [*words], text
        self.files = {it: data for it, data in (('desc', description), ('events', script)) if data is not None}

    def sources(self):
        """What the run reads, in order: a path and its bytes."""
        paths = self.words[1:] + ['-'] * (self.words[:1] == ['debug'])
        return [(it, self.files.get(it, self.text)) for it in paths] or [('-', self.text)]

    def ended_lines(self, reads):
        """The path of the read that fails after `reads` reads of one byte, and how many lines of the script had
        ended by then; None where nothing of a script was read. The end of a source is a read too."""
        sources = self.sources()
        for number, (path, data) in enumerate(sources):
            if reads <= len(data):
                break
            reads -= len(data) + 1
        begun = SCRIPT_LINE.search(data)
        if len(sources) == 1:
            begin = begun.end() if begun else len(data) + 1
            return path, data[begin:reads].count(b'\n') if reads >= begin else None
        return path, data[:reads].count(b'\n') if number else None


def answers(out, lines):
    """Of an output, the answers to the first `lines` lines of the script, or to all of them."""
    numbers = (re.match(rb'(\d+): ', it) for it in out.splitlines(keepends=True))
    return b''.join(it.string for it in numbers if it and (lines is None or int(it[1]) <= lines))


class Sweep:
    """One run, with calls refused."""

    def __init__(self, runner, library, run):
        self.runner, self.library, self.run = runner, library, run
        self.whole = self.outcome()

    def outcome(self, **said):
        """Runs the program; `said` are the variables that the library reads."""
        with tempfile.TemporaryDirectory() as folder:
            for name, data in self.run.files.items():
                with open(os.path.join(folder, name), 'wb') as file:
                    file.write(data)
            counts = os.path.join(folder, 'calls')
            done = subprocess.run([*self.runner.program, *self.run.words], input=self.run.text, cwd=folder,
                                  env={'LD_PRELOAD': self.library, 'CALLS': counts, **said},
                                  capture_output=True, timeout=SECONDS)
            calls = {}
            if os.path.exists(counts):
                with open(counts) as file:
                    calls = {kind: int(number) for kind, number in map(str.split, file)}
        return Outcome(done.returncode, done.stdout, done.stderr, calls)

    def refuse_each(self, kind, judge, after='', **said):
        """Refuses each call of a kind in turn, and with `+` all after it too."""
        name = '%s: %s%s%s' % (self.run.name, kind, after, ''.join(' %s=%s' % it for it in said.items()))
        count = self.outcome(**said).calls.get(kind, 0)
        wrongs = []
        for number in range(1, count + 1):
            found = self.outcome(REFUSED='%s:%d%s' % (kind, number, after), **said)
            wrong = judge(number, found)
            if wrong:
                wrongs.append('%s after call %d of %d: %s' % (wrong, number, count, found))
        if not count:
            wrongs.append('no call was seen')
        self.runner.judge(name, wrongs[0] + ', and %d more' % (len(wrongs) - 1) if wrongs else None)

    # What is wrong after a refused call, or None.

    def judge_allocation(self, number, found):
        wanted = answers(self.whole.out, None) if self.run.text or self.run.files else self.whole.out
        if found.is_like(self.whole):
            return None
        return self.difference(found, 4, NO_MEMORY, found.out if wanted.startswith(found.out) else wanted)

    def judge_read(self, number, found):
        """After a refused read of whatever length."""
        paths = [b'c104: cannot read %s\n' % path.encode() for path, _ in self.run.sources()]
        told = found.errors if found.errors in paths else paths[0]
        whole = answers(self.whole.out, None)
        is_due = whole.startswith(found.out) and found.out[-1:] in (b'', b'\n')
        return self.difference(found, 3, told, found.out if is_due else whole)

    def judge_read_byte(self, number, found):
        path, lines = self.run.ended_lines(number - 1)
        wanted = b'' if lines is None else answers(self.whole.out, lines)
        return self.difference(found, 3, b'c104: cannot read %s\n' % path.encode(), wanted)

    def judge_write(self, number, found):
        wanted = found.out if self.whole.out.startswith(found.out) else self.whole.out
        return self.difference(found, 3, CANNOT_WRITE, wanted)

    def judge_write_byte(self, number, found):
        return self.difference(found, 3, CANNOT_WRITE, self.whole.out[:number - 1])

    def judge_opening(self, number, found):
        path = self.run.sources()[number - 1][0]
        return self.difference(found, 3, b'c104: cannot read %s\n' % path.encode(), b'')

    def difference(self, found, status, errors, out):
        """What of a run isn't as wanted, or None."""
        if found.status != status:
            return 'wanted status %d' % status
        if found.errors != errors:
            return 'wanted %r on standard error' % errors
        return None if found.out == out else 'wanted %d other bytes of output' % len(out)

    def same_in_single_bytes(self):
        """The run is as it is without, and the library has seen all that it wrote."""
        found = self.outcome(SINGLE_BYTES='1')
        is_same = found.is_like(self.whole) and found.calls['write'] >= len(found.out)
        self.runner.judge('%s: in single bytes' % self.run.name,
                          None if is_same else 'wanted %s, found %s' % (self.whole, found))


class ToldSweep(Sweep):
    """A run that tells people what is wrong with its lines. Which messages came isn't looked at."""

    def outcome(self, **said):
        found = super().outcome(**said)
        lines = found.errors.splitlines(keepends=True)
        found.errors = b''.join(it for it in lines if not it.startswith(b'c104: -:'))
        return found

    def judge_write(self, number, found):
        """The write of a message may have been refused."""
        return None if found.is_like(self.whole) else super().judge_write(number, found)


def judge_the_judges(runner, library):
    """Outcomes that are wrong: each has to be told, and each right one passed."""
    sweep = Sweep(runner, library, Run('first run', text=FIRST_TEXT))
    out = sweep.whole.out
    answered, line = answers(out, None), out.index(b'\n') + 1
    told = b'c104: cannot read -\n'
    cases = [
        (sweep.judge_allocation, True, [(4, answered[:9], NO_MEMORY), (0, out, b'')]),
        (sweep.judge_allocation, False, [(4, out, NO_MEMORY), (4, b'2', NO_MEMORY), (4, b'', b''), (-11, b'', b''),
                                         (0, answered, b''), (3, b'', NO_MEMORY)]),
        (sweep.judge_read, True, [(3, answered, told), (3, b'', told), (3, out[:line], told)]),
        (sweep.judge_read, False, [(3, out, told), (3, out[:line - 1], told), (0, out, b''), (3, b'', CANNOT_WRITE)]),
        (sweep.judge_read_byte, True, [(3, b'', told)]),
        (sweep.judge_read_byte, False, [(3, out[:line], told), (4, b'', NO_MEMORY), (-6, b'', b'')]),
        (sweep.judge_write, True, [(3, out[:7], CANNOT_WRITE)]),
        (sweep.judge_write, False, [(3, b'x', CANNOT_WRITE), (0, out[:7], b''), (-13, out[:7], b'')]),
        (sweep.judge_write_byte, True, [(3, out[:7], CANNOT_WRITE)]),
        (sweep.judge_write_byte, False, [(3, out[:8], CANNOT_WRITE), (3, out[:6], CANNOT_WRITE)]),
    ]
    wrongs = ['%s: %s' % (judge.__name__, outcome) for judge, is_right, outcomes in cases for outcome in outcomes
              if (judge(8, Outcome(*outcome, {})) is None) != is_right]
    runner.judge('the judges', wrongs and '; '.join(wrongs) or None)


def example(name):
    with open(os.path.join(EXAMPLES, name), 'rb') as file:
        return file.read()


def described(name):
    """The description of an example."""
    return example(name).split(b'\nscript\n')[0] + b'\n'


FILES = ['run', 'desc', 'events']
SHORT = PLAN + b'script\nsend a 01 eop\nfrob\nrounds 9\n'

# Runs of which each allocation is refused, and each read and write as it comes.
WHOLE_RUNS = [
    Run('first example', text=example('first-network.txt')),
    Run('second example', text=example('configured-by-commands.txt')),
    Run('two files', FILES, description=PLAN, script=lines_of(FIRST_RUN)),
    Run('one file', ['run', 'desc'], description=FIRST_TEXT),
    Run('faulty description', text=PLAN + b'frob\n'),
    Run('debug', ['debug', 'desc'], description=PLAN, text=lines_of(FIRST_RUN[:5])),
    Run('debug behind a script', ['debug', 'desc'], description=PLAN + b'script\n' + lines_of(FIRST_RUN[:3]), text=lines_of(FIRST_RUN[3:5])),
    Run('rows of one file', ['rows', 'desc', '--what', 'links'], description=FIRST_TEXT),
    Run('rows of states', ['rows', 'desc', '--what', 'ways', '--each'], description=FIRST_TEXT),
    Run('check', ['check', 'desc'], description=PLAN),
    Run('check of one file', ['check', 'desc'], description=FIRST_TEXT),
    Run('refused labels', ['check', 'desc'], description=PLAN + b'continue A.2\n'),
    Run('no cycle', ['cycles', 'desc'], description=PLAN),
    Run('a cycle', ['cycles', 'desc', '--all'], description=example('ring.txt')),
    Run('where a header goes', ['check', 'desc', '--header', '1', '--rows'], description=PLAN),
    Run('rows without a wire', ['label', 'desc', '--rows', '--without', 'A.1'], description=example('ring.txt')),
    Run('universal routing', text=example('universal-routing.txt')),
    Run('two-byte headers', text=example('many-labels.txt')),
    Run('check of two-byte headers', ['check', 'desc'], description=described('many-labels.txt')),
    Run('check of random headers', ['check', 'desc'], description=described('universal-routing.txt')),
    Run('refused random headers', ['check', 'desc'],
        description=described('universal-routing.txt').replace(b'row B.1 12 discard\n', b'')),
    Run('refused behind random headers', ['check', 'desc'],
        description=described('universal-routing.txt').replace(b'row B.1 2 0\n', b'')),
    Run('label of two-byte headers', ['label', 'desc'], description=described('many-labels.txt')),
]
# Runs of which each byte that is read or written is refused.
BYTE_RUNS = [
    Run('first run', text=FIRST_TEXT),
    Run('faulty line', text=SHORT),
    Run('files in bytes', FILES, description=PLAN, script=lines_of(FIRST_RUN[:5])),
    Run('file in bytes', ['run', 'desc'], description=PLAN + b'script\n' + lines_of(FIRST_RUN[:5])),
]
# Runs that tell people what is wrong.
EXPLAINED_RUNS = [
    Run('explained script', ['--explain'], text=PLAN + b'script\nsend a 01\nfrob\nsend z 01 eop\ncross a.0\nrounds 0\n'),
    Run('explained description', ['--explain'], text=PLAN + b'row A.32 1 0\n'),
]
# Runs that read nothing.
TOLD_RUNS = [Run('help', ['--help']), Run('version', ['--version'])]
WRONG_USAGE = [Run('wrong usage', ['frob']), Run('no script', ['run', 'desc'], description=PLAN)]


def sweep_all(runner, library):
    wanted = lambda runs: (Sweep(runner, library, it) for it in runs if runner.wanted(it.name))
    for it in wanted(WHOLE_RUNS):
        it.refuse_each('alloc', it.judge_allocation)
        it.refuse_each('alloc', it.judge_allocation, after='+')
        for number in (errno.EIO, errno.EINTR, errno.EAGAIN):
            it.refuse_each('read', it.judge_read, REFUSED_ERRNO=str(number))
        for number in (errno.EIO, errno.EINTR, errno.EAGAIN, 0):
            it.refuse_each('write', it.judge_write, REFUSED_ERRNO=str(number))
        if it.run.files:
            it.refuse_each('open', it.judge_opening)
        it.same_in_single_bytes()
    for run in EXPLAINED_RUNS:
        if runner.wanted(run.name):
            it = ToldSweep(runner, library, run)
            it.refuse_each('alloc', it.judge_allocation)
            it.refuse_each('alloc', it.judge_allocation, after='+')
            it.refuse_each('write', it.judge_write, REFUSED_ERRNO=str(errno.EIO))
    for it in wanted(BYTE_RUNS):
        it.refuse_each('read', it.judge_read_byte, SINGLE_BYTES='1')
        it.refuse_each('write', it.judge_write_byte, SINGLE_BYTES='1')
    for it in wanted(TOLD_RUNS):
        it.refuse_each('alloc', it.judge_allocation)
        it.refuse_each('write', it.judge_write)
        it.same_in_single_bytes()
    for it in wanted(WRONG_USAGE):
        it.refuse_each('alloc', it.judge_allocation)


def refused_calls(runner):
    with tempfile.TemporaryDirectory() as folder:
        library = build_library(LIBRARY, folder)
        judge_the_judges(runner, library)
        sweep_all(runner, library)


PARTS = [refused_calls]
