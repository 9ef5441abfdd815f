"""Runs a program over inputs without end, slow and failing ones, and over failing outputs."""

import errno
import os
import socket
import subprocess
import tempfile
import time

from case_runner import (CANNOT_READ, CANNOT_WRITE, DESCRIPTION_TOO_LONG, FIRST_RUN, FIRST_TEXT,
    MIB, PLAN, RECEIVED, SCRIPT_LIMIT, SCRIPT_TOO_LONG, SECONDS, answers_of, comments,
    difference, lines_of)


def endless(runner, name, first, piece, expected):
    """The input goes on for as long as the program reads."""
    if not runner.wanted(name):
        return
    piece = piece * (65536 // len(piece) + 1)
    with tempfile.TemporaryFile() as out, tempfile.TemporaryFile() as err:
        process = subprocess.Popen(runner.program, stdin=subprocess.PIPE, stdout=out, stderr=err)
        written, end = 0, time.monotonic() + SECONDS
        try:
            process.stdin.write(first)
            while written < 16 * SCRIPT_LIMIT and time.monotonic() < end:
                written += process.stdin.write(piece)
            process.kill()
        except BrokenPipeError:
            written = None
        try:
            process.stdin.close()
        except BrokenPipeError:
            pass
        try:
            code = process.wait(SECONDS)
        except subprocess.TimeoutExpired:
            process.kill()
            code = process.wait()
        out.seek(0)
        err.seek(0)
        if written is not None:
            runner.judge(name, 'it still reads after %d bytes' % written)
        else:
            runner.judge(name, difference((code, out.read(), err.read()), expected, 1, None))


def endless_inputs(runner):
    with open('/dev/zero', 'rb') as zeros:
        runner.case('endless zeros', DESCRIPTION_TOO_LONG, 1, stdin=zeros)
    endless(runner, 'endless lines', b'', b'y\n', DESCRIPTION_TOO_LONG)
    endless(runner, 'endless empty lines', b'', b'\n', DESCRIPTION_TOO_LONG)
    endless(runner, 'endless comments after a description', PLAN, b'#' * 99 + b'\n',
            DESCRIPTION_TOO_LONG)
    endless(runner, 'endless script line', PLAN + b'script', b' ', DESCRIPTION_TOO_LONG)
    endless(runner, 'endless zeros in a script', PLAN + b'script\n', b'\x00', SCRIPT_TOO_LONG)
    endless(runner, 'endless comments in a script', FIRST_TEXT, b'#' * 99 + b'\n',
            answers_of(FIRST_RUN) + SCRIPT_TOO_LONG)


def in_pieces(runner):
    """A reader that gets one byte at a time gives the same output."""
    name = 'input in single bytes'
    if not runner.wanted(name):
        return
    process = subprocess.Popen(runner.program, stdin=subprocess.PIPE, stdout=subprocess.PIPE,
                               stderr=subprocess.PIPE, bufsize=0)
    try:
        for place in range(len(FIRST_TEXT)):
            process.stdin.write(FIRST_TEXT[place:place + 1])
            time.sleep(0.001)
    except BrokenPipeError:
        pass
    try:
        out, err = process.communicate(timeout=SECONDS)
        found = process.returncode, out, err
    except subprocess.TimeoutExpired:
        process.kill()
        process.communicate()
        found = None
    runner.judge(name, difference(found, answers_of(FIRST_RUN) + RECEIVED, 0, None))


def failing_after(data):
    """A socket that gives these bytes and then fails: its far end closed with a byte unread."""
    near, far = socket.socketpair()
    near.sendall(b'x')
    far.sendall(data)
    far.close()
    return near


def failing_inputs(runner):
    folder = os.open('/', os.O_RDONLY)
    memory = os.open('/proc/self/mem', os.O_RDONLY)
    written = os.open('/dev/null', os.O_WRONLY)
    for name, file, number in [('a folder', folder, errno.EISDIR), ('memory that is not there', memory, errno.EIO),
                               ('only written to', written, errno.EBADF)]:
        why = 'c104: -: %s (os error %d)\n' % (os.strerror(number), number)
        runner.case('input that is ' + name, b'', 3, CANNOT_READ, stdin=file)
        runner.case('input that is %s, explained' % name, b'', 3, CANNOT_READ + why.encode(), stdin=file,
                    words=['--explain'])
        os.close(file)
    cuts = [('at once', b'', 0), ('in a line of the description', PLAN[:-3], 0),
            ('in the description', PLAN, 0), ('in the script line', PLAN + b'scr', 0),
            ('before the script line has ended', PLAN + b'script', 0),
            ('before the first line', PLAN + b'script\n', 0)]
    # No summary follows, also where a packet has arrived.
    cuts += [('after line %d' % count, PLAN + b'script\n' + lines_of(FIRST_RUN[:count]), count)
             for count in (1, 2, 16, 17)]
    cuts += [('after a faulty line', PLAN + b'script\nfrob\n', None)]
    for where, data, count in cuts:
        expected = b'1: fault 2 UnknownWord\n' if count is None else answers_of(FIRST_RUN[:count])
        with failing_after(data) as file:
            runner.case('input that fails ' + where, expected, 3, CANNOT_READ, stdin=file)


def closed_input(runner):
    """Where standard input isn't open, no file that is opened takes its place."""
    with tempfile.TemporaryDirectory() as folder:
        path = os.path.join(folder, 'network.txt')
        with open(path, 'wb') as file:
            file.write(PLAN)
        for words in ([], ['run', path, '-'], ['run', '-', path], ['debug', path], ['check', '-']):
            name = ' '.join(['input that is closed:', *words]).replace(folder + '/', '')
            if runner.wanted(name):
                closed = ['sh', '-c', 'exec "$@" <&-', 'sh', *runner.program, *words]
                done = subprocess.run(closed, capture_output=True, timeout=SECONDS)
                runner.judge(name, difference((done.returncode, done.stdout, done.stderr), b'', 3, CANNOT_READ))


def failing_outputs(runner):
    with open('/dev/full', 'wb') as full:
        runner.case('output that is full', None, 3, CANNOT_WRITE, data=FIRST_TEXT, stdout=full)
        runner.case('output that is full for a refused description', None, 3, CANNOT_WRITE,
                    data=b'frob\n', stdout=full)
        runner.case('output that is full for too long a description', None, 3, CANNOT_WRITE,
                    data=b'\n' * (2 * MIB), stdout=full)
        runner.case('output that is full for a help text', None, 3, CANNOT_WRITE, words=['--help'], stdout=full)
        runner.case('output that is full for the version', None, 3, CANNOT_WRITE, words=['--version'], stdout=full)
        runner.case('output that is full and not needed', None, 2, words=['frob'], stdout=full)
    with open('/dev/null', 'rb') as only_read:
        runner.case('output that is only read', None, 3, CANNOT_WRITE, data=FIRST_TEXT, stdout=only_read)
    reading, writing = os.pipe()
    os.close(reading)
    # Python ignores the signal of a pipe that nobody reads, and so may its children.
    runner.case('output that nobody reads', None, 3, CANNOT_WRITE, data=FIRST_TEXT, stdout=writing,
                signals=False)
    os.close(writing)


PARTS = [in_pieces, endless_inputs, failing_inputs, closed_input, failing_outputs]
