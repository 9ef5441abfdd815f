"""Runs a program with words of the command line: those that are folders, those that are refused, and further ones for
help and the version.
"""

from case_runner import FIRST_TEXT, difference

# Words whose fault the program itself tells, and what it tells; nothing is read then.
TOLD = [
    ((b'\xff',), b"error: a word isn't UTF-8\n\nFor more information, try '--help'.\n"),
]
# What other tools do now, with files or without: each is named in one line.
MOVED = [
    (('stats', 'a', 'b'), b'c104-stats'), (('stats', 'a', 'b', '--what', 'links', '--format', 'csv'), b'c104-stats'),
    (('traffic', 'a', '--pattern', 'uniform', '--packets', '1', '--bytes', '1', '--seed', '1'), b'c104-traffic'),
    (('paths', 'a'), b'c104-paths'), (('paths', 'a', 'b', '--format', 'json'), b'c104-paths'),
    (('draw', 'a'), b'c104-draw'), (('draw', 'a', 'b', '--over-time'), b'c104-draw'), (('draw', 'a', '--cycles'), b'c104-draw'),
    (('check', 'a', '--each-cut'), b'c104-cuts'), (('check', '--each-cut', '-'), b'c104-cuts'),
    (('cycles', '--script', 'a'), b'c104-lockup'), (('cycles', '-', '--script'), b'c104-lockup'),
]


def usage(runner):
    """Words are refused with a message on standard error, and nothing else is written."""
    for words in (['run', 'a', 'b', 'c'], ['run', '--frob'], ['--frob'], ['check'], ['check', 'a', 'b', 'c'],
                  ['label'], ['label', 'a', 'b', 'c'], ['label', 'a', '--without', 'A.1'], ['label', 'a', '--rows', '--without'],
                  ['debug'], ['debug', 'a', 'b'], ['storm'], ['paths'], ['draw'], ['stats'], ['traffic'],
                  ['rows'], ['rows', 'a'], ['rows', 'a', 'b'], ['rows', 'a', 'b', 'c', '--what', 'run'], ['rows', 'a', '--what', 'x'],
                  ['rows', 'a', '--what'], ['rows', 'a', '--out'], ['rows', 'a', '--what', 'run', '--what', 'links'],
                  ['rows', 'a', '--what', 'x', '--out', 'b'], ['check', 'a', '--rows'], ['check', 'a', '--header', '1'],
                  ['check', 'a', '--header', '65536', '--rows'], ['check', 'a', 'b', '--header', '1', '--rows'],
                  [''], ['-'], ['frob', 'frob'], ['x' * 100000], [b'\xff']):
        name = 'usage of %.20r' % words
        if not runner.wanted(name):
            continue
        found = runner.run(words=words, data=FIRST_TEXT)
        wrong = difference(found, b'', 2, None)
        if wrong is None and not found[2]:
            wrong = 'nothing on standard error'
        runner.judge(name, wrong)


def told(runner):
    """A word that the program itself refuses."""
    for words, errors in TOLD:
        runner.case('told of %.60r' % (words,), b'', 2, errors, words=list(words))


def moved(runner):
    """A command that left the program."""
    for words, tool in MOVED:
        name = 'moved: %s' % ' '.join(words)
        if runner.wanted(name):
            found = runner.run(words=list(words), data=FIRST_TEXT)
            is_told = found and found[:2] == (2, b'') and tool in found[2] and found[2].count(b'\n') == 1
            runner.judge(name, None if is_told else 'found %.300r' % (found,))


def other_words_for_help(runner):
    """Help and the version have several words, which do the same."""
    for words, long in ((['help'], ['--help']), (['-h'], ['--help']), (['help', 'run'], ['run', '--help']),
                        (['run', '-h'], ['run', '--help']), (['-V'], ['--version'])):
        name = 'words for %s: %s' % (' '.join(long), ' '.join(words))
        if runner.wanted(name):
            status, out, errors = runner.run(words=long)
            runner.case(name, out, status, errors, words=words)


PARTS = [usage, told, moved, other_words_for_help]
