"""What the kinds of cases share: the runner, the folders of cases, and the text of the first run."""

import os
import re
import shutil
import subprocess
import sys
import tempfile

TESTS = os.path.dirname(os.path.abspath(__file__))
TOP = os.path.dirname(TESTS)
CASES, EXAMPLES = os.path.join(TESTS, 'cases'), os.path.join(TOP, 'examples')
EXAMPLE_FILES = sorted(it.name for it in os.scandir(EXAMPLES) if it.is_file())
# Networks that the benches make are cases too.
sys.path.insert(0, os.path.join(TESTS, 'bench'))

SECONDS = 300
MIB = 1024 * 1024
DESCRIPTION_LIMIT = MIB
SCRIPT_LIMIT = 16 * MIB
LINE_LIMIT = 16384
PACKET_LIMIT = 4096
OUTBOX_LIMIT = 65536
TRACE_LIMIT = 1048576
ARRIVED_LIMIT = 262144

PLAN = b"""switch A
terminal a A.0
terminal b A.1
row A.0 1 0
row A.0 2 1
row A.1 1 0
row A.1 2 1
"""

# The first run, line by line, with each line's answer, and what b has received by its end.
FIRST_RUN = [
    ('send a 01 aa eop', 'done'), ('credit A.0', 'done'), ('cross a', 'token 01'),
    ('cross a', 'token aa'), ('cross a', 'token eop'), ('input A.0', 'done'),
    ('claim A 0 1', 'done'), ('credit b', 'done'), ('cross A.1', 'token 01'),
    ('input A.0', 'done'), ('input A.0', 'done'), ('cross A.1', 'token aa'),
    ('cross A.1', 'token eop'), ('drain b', 'token 01'), ('drain b', 'token aa'),
    ('drain b', 'token eop'), ('drain b', 'not ready'),
]
DRAINS_TO_THE_TERMINATOR = 16
RECEIVED = b'b: 01 aa eop from a 0\n'


CANNOT_READ = b'c104: cannot read -\n'
CANNOT_WRITE = b'c104: cannot write\n'
DESCRIPTION_TOO_LONG = b'description 0: 1 TooLong\n'
SCRIPT_TOO_LONG = b'script too long\n'
# The line between a description and a script in one text.
SCRIPT_LINE = re.compile(rb'^[ \t\r]*script[ \t\r]*(?:#.*)?\n', re.MULTILINE)


def lines_of(pairs):
    return b''.join(line.encode() + b'\n' for line, _ in pairs)


def answers_of(pairs, first=1):
    return b''.join(b'%d: %s\n' % (number, reply.encode())
                    for number, (_, reply) in enumerate(pairs, first) if reply)


FIRST_TEXT = PLAN + b'script\n' + lines_of(FIRST_RUN)


def padded(line, size):
    """The line with blanks behind it, so that it has this size without its line feed."""
    return line + b' ' * (size - len(line))


def comments(size):
    """Lines of this size in all, each of which is a comment and not too long."""
    line = b'#' * (LINE_LIMIT - 1) + b'\n'
    last = size % len(line)
    return line * (size // len(line)) + (b'#' * (last - 1) + b'\n' if last else b'')


class Runner:
    """Runs the cases of one kind over a program: those whose names begin so, or all where no beginning is said."""

    def __init__(self, program, kind, names=()):
        self.program, self.kind, self.names = program, kind, names
        self.passed = self.failed = 0

    def wanted(self, name):
        return not self.names or any(name.startswith(begin) for begin in self.names)

    def judge(self, name, wrong):
        """Counts a case, if it is wanted."""
        if not self.wanted(name):
            return
        if wrong is None:
            self.passed += 1
        else:
            self.failed += 1
            print('FAILED %s/%s: %s' % (self.kind, name, wrong), flush=True)

    def run(self, words=(), data=None, stdin=None, stdout=None, signals=True, folder=None):
        """Status, standard output and standard error; None where there was no end."""
        fields = {'input': data or b''} if stdin is None else {'stdin': stdin}
        try:
            done = subprocess.run(self.program + list(words), stderr=subprocess.PIPE, cwd=folder,
                                  stdout=stdout or subprocess.PIPE, timeout=SECONDS,
                                  restore_signals=signals, **fields)
        except subprocess.TimeoutExpired:
            return None
        return done.returncode, done.stdout, done.stderr

    def case(self, name, expected, status=0, errors=None, **fields):
        """One run, compared. What is None is not looked at."""
        if not self.wanted(name):
            return
        found = self.run(**fields)
        self.judge(name, difference(found, expected, status, errors))

    def folders(self):
        """The cases of this kind that are folders."""
        for name in sorted(os.listdir(os.path.join(CASES, self.kind))):
            if self.wanted(name):
                self.judge(name, self.wrong_of_folder(os.path.join(CASES, self.kind, name)))

    def wrong_of_folder(self, folder):
        """What is wrong with a case that is a folder, or None."""
        with CopiedCase(folder) as case:
            if case.expected is None:
                return 'the case has no file `expected`'
            found = self.run(case.words, case.input, folder=case.folder)
        return difference(found, case.expected, case.status, case.errors)


class CopiedCase:
    """A case that is a folder, in a copy of it, so that a word can name a further file of the case."""

    def __init__(self, folder):
        self.room = tempfile.TemporaryDirectory()
        self.folder = os.path.join(self.room.name, 'case')
        shutil.copytree(folder, self.folder)
        self.words = (self.read('words') or b'').decode().splitlines()
        self.input, self.expected, self.errors = self.read('input') or b'', self.read('expected'), self.read('errors')
        self.status = int((self.read('status') or b'0').split()[0])

    def read(self, name):
        path = os.path.join(self.folder, name)
        if not os.path.exists(path):
            return None
        with open(path, 'rb') as file:
            return file.read()

    def __enter__(self):
        return self

    def __exit__(self, *_):
        self.room.cleanup()


def difference(found, expected, status, errors):
    """What is wrong with what was found, or None."""
    if found is None:
        return 'no end after %d seconds' % SECONDS
    code, out, err = found
    if expected is not None and out != expected:
        pairs = zip(expected.splitlines() + [None], out.splitlines() + [None])
        for number, (want, got) in enumerate(pairs, 1):
            if want != got:
                return 'output line %d: wanted %.120r, found %.120r' % (number, want, got)
        return 'wanted %d bytes, found %d' % (len(expected), len(out))
    if code != status:
        return 'exit status: wanted %d, found %d' % (status, code)
    if errors is not None and errors != err:
        return 'standard error: wanted %r, found %.120r' % (errors, err)
    return None
