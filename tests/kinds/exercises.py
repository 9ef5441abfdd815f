"""Runs the exercises of examples/exercises and their answers: each shows what its text asks about, and each answer mends it.

An exercise and its answer have the same name. What is wanted of each is the last line that a command prints, with its exit
status. That a table, a cycle or a packet is as the answers tell is what these lines say.
"""

import csv
import os
import subprocess
import sys
import tempfile

from case_runner import EXAMPLES
from tools import Tool

FOLDER = os.path.join(EXAMPLES, 'exercises')
# By the name of a text: the command, what it prints last of the exercise, and of the answer; each with its status.
WANTED = {
    'row-too-high': ('check', ('refused 5 WrongEnd: from a header 3 walk A.0 B.2', 1), ('accepted', 0)),
    'label-that-loops': ('check', ('refused 7 Loop: from b header 0 walk B.0 C.2 B.1 C.2', 1), ('accepted', 0)),
    'ring-that-locks': ('cycles', ('cycle W.1(2) S.1(1) E.1(0) N.1(3)', 1), ('acyclic', 0)),
    'link-without-a-row': ('check', ('refused 6 DeadEnd: from c header 0 walk B.0', 1), ('accepted', 0)),
    'group-that-splits': ('check', ('refused 7 Loop: from a header 1 walk A.0 C.1 A.2 C.1', 1), ('accepted', 0)),
    'mesh-with-a-cut-cable': ('check', ('refused 6 DeadEnd: from t0 header 5 walk s0.4 s3.0 s4.1', 1), ('accepted', 0)),
    'universal-on-transpose': ('check', ('accepted', 0), ('accepted', 0)),
}
# Those that are run: what they print last.
RUN = {
    'ring-that-locks': ('5: stands still 24', 'w: 03' + ' 00' * 24 + ' eop from e 0'),
    'link-without-a-row': ('3: in 0 out 0 credit 16 granted 9 owner 0 sunk 1 short 0', 'a: 00 68 65 6c 6c 6f eop from c 0'),
    'boot-that-forgets': ('31: stands still 7', 'c: 01 68 65 6c 6c 6f eop from a 0'),
}


def text_of(name, folder):
    with open(os.path.join(FOLDER, folder, name + '.txt'), 'rb') as file:
        return file.read()


def judge_last(runner, label, words, text, line, status):
    """Judges the last line that a command prints."""
    if not runner.wanted(label):
        return
    found = runner.run(words=words, data=text)
    last = found[1].splitlines()[-1:] if found else []
    wrong = None if found and found[0] == status and last == [line.encode()] else 'found %.500r' % (found,)
    runner.judge(label, wrong)


def checked(runner):
    for name, (command, asked, mended) in WANTED.items():
        for folder, (line, status) in (('', asked), ('answers', mended)):
            judge_last(runner, '%s %s' % (command, os.path.join(folder, name)), [command, '-'], text_of(name, folder), line, status)


def run(runner):
    for name, lines in RUN.items():
        for folder, line in zip(('', 'answers'), lines):
            judge_last(runner, 'run ' + os.path.join(folder, name), ['run'], text_of(name, folder), line, 0)


def each_has_an_answer(runner):
    folders = FOLDER, os.path.join(FOLDER, 'answers')
    texts, answers = (sorted(it for it in os.listdir(folder) if it.endswith('.txt')) for folder in folders)
    due = sorted(it + '.txt' for it in {*WANTED, *RUN})
    runner.judge('each has an answer and a case', None if texts == answers == due else '%r, %r' % (texts, answers))


def accepted(runner, network, pattern):
    """How many tokens a round and terminal come through a network under heavy traffic of a pattern."""
    words = '--tokens 0.9 --process bernoulli --bytes 15 --seed 1 --packets 2000 --fair --words 1'.split()
    sends = subprocess.run([*Tool.command('traffic', runner.program[0]), network, '--pattern', pattern, *words],
                           check=True, capture_output=True).stdout
    told = subprocess.run([*Tool.command('stats', runner.program[0]), network, '-', '--from', '200', '--format', 'csv'],
                          check=True, capture_output=True, input=sends).stdout.decode()
    (row,) = csv.DictReader(told.splitlines())
    return float(row['accepted'])


def universal(runner):
    """By transpose detours by random switches bring more packets, and by even traffic fewer."""
    wanted = [it for it in ('transpose', 'uniform') if runner.wanted('universal routing, ' + it)]
    if not wanted:
        return
    with tempfile.TemporaryDirectory() as folder:
        networks = {name: os.path.join(folder, name) for name in ('universal', 'straight')}
        for name, path in networks.items():
            with open(path, 'wb') as file:
                words = ['6', '1', *['--plain'] * (name == 'straight')]
                subprocess.run([sys.executable, os.path.join(EXAMPLES, 'sweep', 'universal-cube'), *words], check=True, stdout=file)
        for pattern in wanted:
            rates = {name: accepted(runner, path, pattern) for name, path in networks.items()}
            is_right = (rates['universal'] > rates['straight']) == (pattern == 'transpose')
            runner.judge('universal routing, ' + pattern, None if is_right else '%r' % rates)


PARTS = [checked, run, universal, each_has_an_answer]
