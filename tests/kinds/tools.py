"""Runs each tool of bin over what goes wrong outside of it: the program, what is read, and what is written; and one over
the places where programs may be.

Each fault is told in one line on standard error, with the status that the program has for such faults, and no tool ends by a
trace of Python's.
"""

import os
import shutil
import subprocess
import tempfile

from case_runner import EXAMPLES, PLAN, TOP
from kinds.stats import FIRST
from kinds.saved import Room
from tools import Tool

RING, PACKETS = os.path.join(EXAMPLES, 'ring.txt'), os.path.join(EXAMPLES, 'ring-packets.txt')
SENT = ('--pattern', 'uniform', '--packets', '100000', '--bytes', '1', '--seed', '1')
# Each tool, and the words that follow the description.
TOOLS = {
    'stats': (PACKETS,), 'traffic': SENT, 'paths': (), 'cuts': (), 'lockup': (), 'draw': (),
    'page': (PACKETS,), 'sweep': (), 'plan': (),
}
SCRIPTED = ('stats', 'page')
# Programs in place of c104: one that knows neither `rows` nor a shape, and one that is ended.
OLDER = '''#!/bin/sh
case $1 in
label) printf 'header 1\\nbuffer 16\\nswitch A\\n' ;;
*) echo "error: unrecognized subcommand '$1'" >&2; exit 2 ;;
esac
'''
ENDED = '#!/bin/sh\nkill -9 $$\n'
# A program that says where it is, and places that have files: the programs that there are, and sources, each with its
# time. Then which program is asked, and whether it is told that it isn't proved.
PLACED = '#!/bin/sh\necho "asked $0" >&2\nexit 3\n'
PROVED, FAST, SOURCE, KEPT = 'build/c104', 'build/fast/c104', 'crates/c104_a/src/lib.rt', 'crates/c104_a/out/log'
PLACES = {
    'nothing is built': ({'crates.txt': 1}, 'path/c104', False),
    'the fast one is': ({FAST: 2, 'crates.txt': 1}, FAST, True),
    'the proved one is': ({PROVED: 2, 'crates.txt': 1}, PROVED, False),
    'both are, the proved one last': ({FAST: 1, PROVED: 2, SOURCE: 3, 'crates.txt': 1}, PROVED, False),
    'both are, of the same sources': ({PROVED: 2, FAST: 4, SOURCE: 1, KEPT: 3, 'crates.txt': 1}, PROVED, False),
    'both are, and a source is between': ({PROVED: 1, FAST: 3, SOURCE: 2, 'crates.txt': 1}, FAST, True),
    'both are, and the crates changed': ({PROVED: 1, FAST: 3, SOURCE: 1, 'crates.txt': 2}, FAST, True),
    'it is installed': ({'bin/c104': 1}, 'bin/c104', False),
}


def asked(word, program, words, **fields):
    """How a tool over a program ends: its status, its output, and what it tells."""
    made = Tool.command(word, program)
    done = subprocess.run([*made, *words], capture_output=True, stdin=subprocess.DEVNULL, check=False, **fields)
    return done.returncode, done.stdout, done.stderr


def judge(runner, name, found, told, status=3):
    good = found == (status, b'', b'c104: %s\n' % told)
    runner.judge(name, None if good else 'wanted %r, found %.400r' % (told, found))


def programs(runner):
    """A program that isn't there, that is a folder, of another version, and ended by a signal."""
    with tempfile.TemporaryDirectory() as folder:
        paths = {}
        for name, text in (('older', OLDER), ('ended', ENDED)):
            paths[name] = os.path.join(folder, name)
            with open(paths[name], 'w') as file:
                file.write(text)
            os.chmod(paths[name], 0o755)
        for word, words in TOOLS.items():
            if not runner.wanted(word):
                continue
            judge(runner, word + ': no program', asked(word, '/none', (RING, *words)), b'cannot run /none: No such file or directory')
            judge(runner, word + ': a folder', asked(word, folder, (RING, *words)), b'cannot run %s: Permission denied' % folder.encode())
            judge(runner, word + ': ended', asked(word, paths['ended'], (RING, *words)),
                  b'%s was ended by signal 9' % paths['ended'].encode())
            status, out, told = asked(word, paths['older'], (RING, *words))
            due = b'c104: %s is of another version than this tool: it has no `' % paths['older'].encode()
            good = (status, out, told[:len(due)], told.count(b'\n')) == (3, b'', due, 1)
            runner.judge(word + ': another version', None if good else '%.400r' % ((status, out, told),))


def inputs(runner):
    """Descriptions and scripts that can't be read, or not twice."""
    program = runner.program[0]
    for word, words in TOOLS.items():
        if not runner.wanted(word):
            continue
        judge(runner, word + ': no description', asked(word, program, ('none', *words)), b'cannot read none')
        judge(runner, word + ': a description that is a folder', asked(word, program, (EXAMPLES, *words)),
              b'cannot read %s' % EXAMPLES.encode())
    for word in SCRIPTED:
        if not runner.wanted(word):
            continue
        judge(runner, word + ': no script', asked(word, program, (RING, 'none')), b'cannot read none')
        judge(runner, word + ': a script that is a folder', asked(word, program, (RING, EXAMPLES)), b'cannot read %s' % EXAMPLES.encode())
        with Room(PLAN, FIRST) as room:
            os.mkfifo(room.path('pipe'))
            judge(runner, word + ': one pipe for both', asked(word, program, ('pipe', 'pipe'), cwd=room.room.name),
                  b"pipe can be read but once, and so can't be DESC and SCRIPT", 2)


def outputs(runner):
    """An output that nobody reads, or that is full."""
    program = runner.program[0]
    if runner.wanted('a broken pipe'):
        tool = subprocess.Popen([*Tool.command('traffic', program), RING, *SENT], stdout=subprocess.PIPE, stderr=subprocess.PIPE)
        tool.stdout.readline()
        tool.stdout.close()
        told = tool.stderr.read()
        found = tool.wait(), b'', told
        tool.stderr.close()
        judge(runner, 'a broken pipe', found, b'cannot write')
    if os.path.exists('/dev/full'):
        for word, words in TOOLS.items():
            if word != 'sweep' and runner.wanted(word):
                with open('/dev/full', 'wb') as full:
                    done = subprocess.run([*Tool.command(word, program), RING, *words], stdout=full, stderr=subprocess.PIPE, check=False)
                judge(runner, word + ': an output that is full', (done.returncode, b'', done.stderr.splitlines(True)[-1]), b'cannot write')


def places(runner):
    """Which program is asked where none is named."""
    for name, (files, due, is_told) in PLACES.items():
        with tempfile.TemporaryDirectory() as folder:
            top = os.path.realpath(folder)
            shutil.copytree(os.path.join(TOP, 'bin'), os.path.join(top, 'bin'))
            python = 'share/c104/python' if 'bin/c104' in files else 'python'
            shutil.copytree(os.path.join(TOP, 'python', 'c104'), os.path.join(top, python, 'c104'))
            for path, time in {**files, 'path/c104': 1}.items():
                place = os.path.join(top, path)
                os.makedirs(os.path.dirname(place), exist_ok=True)
                with open(place, 'w') as file:
                    file.write(PLACED)
                os.chmod(place, 0o755)
                os.utime(place, (time, time))
            told = 'c104: asks %s/%s, which is unproved: build/c104 is missing or older than its sources\n' % (top, FAST)
            variables = {**os.environ, 'C104': '', 'PATH': '%s/path:%s' % (top, os.environ['PATH'])}
            words = [os.path.join(top, 'bin', 'c104-paths'), RING]
            found = subprocess.run(words, env=variables, capture_output=True, text=True, check=False).stderr
            wanted = told * is_told + 'asked %s/%s\n' % (top, due)
            runner.judge('a program where ' + name, None if found == wanted else 'wanted %r, found %r' % (wanted, found))


PARTS = [programs, inputs, outputs, places]
