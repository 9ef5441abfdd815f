"""Runs `label` and `check` over a description and a script: the labels that the script left in the registers."""

import os
import random
import tempfile

from case_runner import PLAN
from kinds.label import LABELLED, SHOWN, lines_of
from random_networks import network_of

RANGES = 'range a 0 1; range b 1 1;'
SECOND = 'A 0240 00000001; A 0241 00000002; A 0280 00000000; A 0281 00000001'
TERMINALS = 'header 1; buffer 16; switch A; terminal a A.0 labels 1 from 0; terminal b A.1 labels 1 from 1;'
TWO = b'mesh 2 1 1\n'
SHAPE = b'# shape hand\n'

# A description and a script, what each form prints after it, and whether that is refused.
AFTER = {
    'an empty script': (PLAN, b'', [
        ([], RANGES + 'A 0140 00000001; A 0141 00000002; A 0180 00000000; A 0181 00000001;' + SECOND, 0),
        (['--rows'], TERMINALS + 'row A 1 0; row A 2 1', 0),
        (['check'], 'accepted', 0)]),
    'a limit that is poked': (PLAN, b'poke A 0140 2\n', [
        ([], RANGES + 'A 0140 00000002; A 0141 00000002; A 0180 00000000; A 0181 00000001;' + SECOND, 0),
        (['--rows'], TERMINALS + 'row A.0 2 0; row A.0 2 1; row A.1 1 0; row A.1 2 1', 0),
        (['check'], 'refused 5 WrongEnd: from a header 1 walk A.0', 1)]),
    'the same by a command, and back again': (PLAN, b'control A 05 40 01 02 00 00 00\nrounds 3\nverify\npoke A 0140 1\n', [
        ([], RANGES + 'A 0140 00000001; A 0141 00000002; A 0180 00000000; A 0181 00000001;' + SECOND, 0),
        (['check'], 'accepted', 0)]),
    'a switch that is reset': (PLAN, b'control A 02\n', [
        ([], RANGES, 0), (['--rows'], TERMINALS, 0), (['check'], 'refused 6 DeadEnd: from a header 0 walk A.0', 1)]),
    'a refused line': (PLAN, b'poke A 0000 1\npoke B 0140 2\n', [(['check'], 'accepted', 0)]),
    'a faulty line': (PLAN, b'frob\npoke A 0140 2\n', [
        ([], RANGES + 'A 0140 00000002; A 0141 00000002; A 0180 00000000; A 0181 00000001;' + SECOND, 1),
        (['check'], 'refused 5 WrongEnd: from a header 1 walk A.0', 1)]),
    'a faulty line, and labels that are accepted': (PLAN, b'frob\n', [(['check'], 'accepted', 1)]),
    'headers of two bytes at one link': (PLAN, b'poke A 0100 1\n', [
        ([], RANGES + 'A 0100 00000001; A 0140 00000001; A 0141 00000002; A 0180 00000000; A 0181 00000001;' + SECOND, 0),
        (['--rows'], 'rows 1 NotSayable', 1), (['check'], 'refused 3 MixedHeaders: A.1', 1)]),
    'a mesh that is damaged': (TWO, b'poke s0 0380 2\n', [
        (['check'], 'refused 7 Loop: from t1 header 0 walk s1.4 s0.2 s1.1 s0.2', 1)]),
    'packets on their way, and a table that is set behind them': (PLAN, b'send a 01 68 eop\nrounds 2\npoke A 0181 0\n', [
        ([], RANGES + 'A 0140 00000001; A 0141 00000002; A 0180 00000000; A 0181 00000000;' + SECOND, 0),
        (['check'], 'refused 5 WrongEnd: from a header 1 walk A.0', 1)]),
}


def words_of(form, folder):
    """The words that ask for a form, of a description in a folder and a script from standard input."""
    command = ['check'] if form == ['check'] else ['label'] + form
    return command + [os.path.join(folder, 'net.txt'), '-']


def write(folder, name, text):
    with open(os.path.join(folder, name), 'wb') as file:
        file.write(text)


def saved(folder, description):
    write(folder, 'net.txt', description)


def after(runner):
    with tempfile.TemporaryDirectory() as folder:
        for name, (description, script, forms) in AFTER.items():
            saved(folder, description)
            for form, lines, status in forms:
                shape = SHAPE if lines.startswith('header') else b''
                runner.case('%s, %s' % (name, ' '.join(form) or 'registers'), shape + lines_of(lines), status, b'',
                            words=words_of(form, folder), data=script)


def read_again(runner):
    """The commands of a description, on one with the same switches, terminals and wires, leave what is printed of itself."""
    for name, (text, lines) in {**SHOWN, **LABELLED}.items():
        same(runner, name, text, lines_of(lines))
    chance = random.Random(9)
    for number in range(12):
        same(runner, 'random network %d' % number, network_of(chance).description, None)


KEPT = (b'header', b'buffer', b'switch', b'terminal', b'wire')


def same(runner, name, text, lines):
    if not runner.wanted(name):
        return
    _, script, _ = runner.run(words=['label', '--commands', '-'], data=text)
    _, shown, _ = runner.run(words=['label', '--rows', '-'], data=text)
    if lines is None:
        _, lines, _ = runner.run(words=['label', '-'], data=text)
    status, verdict, _ = runner.run(words=['check', '-'], data=text)
    with tempfile.TemporaryDirectory() as folder:
        saved(folder, b''.join(line + b'\n' for line in shown.splitlines() if line.split()[0] in KEPT))
        runner.case(name + ', read again', lines, 0, words=words_of([], folder), data=script)
        by_hand = SHAPE + shown.partition(b'\n')[2]
        runner.case(name + ', read again by rows', by_hand, 0, words=words_of(['--rows'], folder), data=script)
        runner.case(name + ', checked again', verdict, status, words=words_of(['check'], folder), data=script)


def words(runner):
    with tempfile.TemporaryDirectory() as folder:
        saved(folder, PLAN)
        path = os.path.join(folder, 'net.txt')
        write(folder, 'both', PLAN + b'script\npoke A 0140 2\n')
        write(folder, 'empty', b'')
        runner.case('as commands', b'', 2, words=['label', '--commands', path, '-'])
        runner.case('with names', b'', 2, words=['label', '--names', path, '-'])
        runner.case('of one text', SHAPE + lines_of(TERMINALS + 'row A.0 2 0; row A.0 2 1; row A.1 1 0; row A.1 2 1'), 0, b'',
                    words=['label', '--rows', '-', '-'], data=PLAN + b'script\npoke A 0140 2\n')
        runner.case('a script behind a description that is not its script', b'accepted\n', 0, b'', words=['check', 'both', 'empty'],
                    folder=folder)
        runner.case('no such script', b'', 3, b'c104: cannot read none/such\n', words=['check', path, 'none/such'])
        runner.case('no such description', b'', 3, b'c104: cannot read none/such\n', words=['label', 'none/such', '-'])
        runner.case('a faulty line is told', b'accepted\n', 1,
                    words=['--explain', 'check', path, '-'], data=b'peek A\n')
        saved(folder, b'frob\n')
        runner.case('a faulty description', b'description 1: 2 UnknownWord\n', 1, words=['label', path, '-'])


PARTS = [after, read_again, words]
