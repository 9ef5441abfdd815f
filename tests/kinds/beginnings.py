"""Runs a program over every beginning of a text, cut at each byte: of the first run and of each example.

Each ends with status 0 or 1 and with nothing on standard error. The answers to the lines before the cut are those of the
whole text. Of the first run, which was worked out by hand, the answers are wanted themselves wherever a line ends.
"""

import os
import re
from concurrent.futures import ThreadPoolExecutor

from case_runner import (DRAINS_TO_THE_TERMINATOR, EXAMPLES, EXAMPLE_FILES, FIRST_RUN, FIRST_TEXT, PLAN, RECEIVED, SCRIPT_LINE,
    answers_of, difference, lines_of)

ANSWER = re.compile(rb'(\d+): .*\n')


def answers_before(out, line):
    """Of an output, the answers to the lines of a script before this one."""
    found = (ANSWER.fullmatch(it) for it in out.splitlines(keepends=True))
    return b''.join(it.string for it in found if it and int(it[1]) < line)


def halted(found):
    """Why a run wasn't answered, or None."""
    if found is None:
        return 'no end'
    status, out, errors = found
    if status not in (0, 1):
        return 'exit status %d' % status
    if errors:
        return '%r on standard error' % errors[:100]
    return 'refused without a line' if status and not out else None


def wrong_of_beginning(text, size, found, whole):
    """What is wrong with the answers to the first `size` bytes of a text, or None."""
    begun = SCRIPT_LINE.search(text, 0, size)
    if halted(found) or not begun:
        return halted(found)
    line = text.count(b'\n', begun.end(), size) + 1
    wanted = answers_before(whole[1], line)
    return None if answers_before(found[1], line) == wanted else 'other answers before line %d' % line


def each_beginning(runner, name, text, wrong_of):
    """Judges the runs of all beginnings of a text: `wrong_of` tells what is wrong with one, by its size."""
    if not runner.wanted(name):
        return
    with ThreadPoolExecutor(os.cpu_count()) as pool:
        sizes = range(len(text) + 1)
        wrongs = pool.map(lambda size: wrong_of(size, runner.run(data=text[:size])), sizes)
        wrong = next(('of %d bytes: %s' % it for it in zip(sizes, wrongs) if it[1]), None)
        if wrong:
            pool.shutdown(cancel_futures=True)
    runner.judge(name, wrong)


def first_run(runner):
    begin = len(PLAN) + len(b'script\n')
    ends = {begin + len(lines_of(FIRST_RUN[:count])): count for count in range(len(FIRST_RUN) + 1)}

    def wrong_of(size, found):
        # A line without its line feed counts, so the byte before a line's end gives the same.
        for count in {ends.get(size), ends.get(size + 1)} - {None}:
            expected = answers_of(FIRST_RUN[:count]) + (RECEIVED if count >= DRAINS_TO_THE_TERMINATOR else b'')
            wrong = difference(found, expected, 0, None)
            if wrong:
                return wrong
        return halted(found)

    each_beginning(runner, 'of the first run', FIRST_TEXT, wrong_of)


def examples(runner):
    for file in EXAMPLE_FILES:
        name = 'of %s' % file
        if not runner.wanted(name):
            continue
        with open(os.path.join(EXAMPLES, file), 'rb') as example:
            text = example.read()
        whole = runner.run(data=text)
        each_beginning(runner, name, text, lambda size, found: wrong_of_beginning(text, size, found, whole))


def judge_the_judges(runner):
    """Wrong answers to a beginning have to be told, and right ones passed."""
    text = PLAN + b'script\nsend a 01 eop\ncredit A.0\n'
    whole = (0, b'1: done\n2: done\n', b'')
    cut = len(text) - 3
    cases = [(True, whole), (True, (1, b'1: done\n2: fault 3 BadShape\n', b'')), (False, (1, b'1: not ready\n', b'')),
             (False, (0, b'', b'')), (False, (-6, b'1: done\n', b'')), (False, (0, b'1: done\n', b'halted')), (False, None)]
    wrongs = [found for is_right, found in cases if (wrong_of_beginning(text, cut, found, whole) is None) != is_right]
    runner.judge('the judges', repr(wrongs) if wrongs else None)


PARTS = [judge_the_judges, first_run, examples]
