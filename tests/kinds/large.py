"""Runs a program over scripts that are too large or too many for folders."""

import os

from case_runner import (ARRIVED_LIMIT, EXAMPLES, FIRST_RUN, LINE_LIMIT, OUTBOX_LIMIT, PACKET_LIMIT, PLAN, RECEIVED, SCRIPT_LIMIT,
    SCRIPT_TOO_LONG, TRACE_LIMIT, answers_of, comments, lines_of, padded)


def script_case(runner, name, lines, summary=b'', status=0, end=b'\n'):
    """`lines` are pairs of a line's bytes and its answer, None where it has none."""
    answers = b''.join(b'%d: %s\n' % (number, reply.encode())
                       for number, (_, reply) in enumerate(lines, 1) if reply)
    text = PLAN + b'script\n' + b'\n'.join(line for line, _ in lines) + end
    runner.case(name, answers + summary, status, data=text)


def long_lines(runner):
    too_long, fits = 'fault 1 LineTooLong', LINE_LIMIT
    lines = [
        (padded(b'drain b', fits), 'not ready'),
        (padded(b'drain b', fits + 1), too_long),
        (padded(b'drain b', fits - 1) + b'\r', 'not ready'),
        (padded(b'drain b', fits) + b'\r', too_long),
        (b'drain b #' + b'x' * (fits - 9), 'not ready'),
        (b'drain b #' + b'x' * (fits - 8), too_long),
        (b' ' * (fits - 7) + b'drain b', 'not ready'),
        (b' ' * (fits - 6) + b'drain b', too_long),
        # A line without words is told of where it is too long, and only there.
        (b'#' * fits, None),
        (b'#' * (fits + 1), too_long),
        (b' ' * fits, None),
        (b' ' * (fits + 1), too_long),
        (b'\r' * fits, None),
        (b'\r' * (fits + 1), too_long),
        # Before every other fault.
        (b'f' * fits, 'fault 2 UnknownWord'),
        (b'f' * (fits + 1), too_long),
        (b'drain b ' + b'b' * (fits - 8), 'fault 3 BadShape'),
        (b'drain b ' + b'b' * (fits - 7), too_long),
        (b'\x00' * (fits + 1), too_long),
        (b'\xff' * (4 * fits), too_long),
        (b'send a' + b' 00' * 6000 + b' eop', too_long),
        (b'drain b' * 200000, too_long),
        # The next line is read as ever.
        (b'drain b', 'not ready'),
    ]
    script_case(runner, 'long lines', lines, status=1)
    script_case(runner, 'longest last line without a line feed',
                [(padded(b'drain b', fits), 'not ready')], end=b'')
    script_case(runner, 'too long last line without a line feed',
                [(b'drain b', 'not ready'), (padded(b'drain b', fits + 1), too_long)], status=1,
                end=b'')


def faults_line_by_line(runner):
    """Faults of most kinds one behind the other, and then a line that is answered as ever."""
    lines = [
        (b'send a 01', 'fault 6 NoEnd'),
        (b'send a 0g eop', 'fault 5 BadHex'),
        (b'send a 01 eop 02', 'fault 7 AfterEnd'),
        (b'rounds 0', 'fault 4 BadNumber'),
        (b'rounds 10001', 'fault 4 BadNumber'),
        (b'input A', 'refused 2 NoLink'),
        (b'claim A 0', 'fault 3 BadShape'),
        (b'#' * (LINE_LIMIT + 1), 'fault 1 LineTooLong'),
        (b'drain b', 'not ready'),
    ]
    script_case(runner, 'faults line by line', lines, status=1)


def many_rounds(runner):
    """Three packets of as many tokens as may be, of which one crosses to the switch in each round, and to b in each behind the first."""
    packet = b'01' + b' 5a' * (PACKET_LIMIT - 1) + b' eop'
    tokens = 3 * (PACKET_LIMIT + 1)
    lines = [(b'send a ' + packet, 'done')] * 3
    lines += [(b'settle', 'done %d' % (tokens + 1)), (b'settle', 'done 0')]
    script_case(runner, 'more rounds than a line may ask for', lines, b''.join(b'b: %s from a %d\n' % (packet, k) for k in range(3)))


def rounds_without_end(runner):
    """Packets that go round for ever: then `settle` stops at one round more than the bound of the work that is left. By two
    switches each of the 24 tokens weighs 8 * (32 * 2 + 1) + 4 where it waits to leave its terminal, and 66 inputs have room for
    16 tokens each."""
    with open(os.path.join(EXAMPLES, 'labels-that-loop.txt'), 'rb') as file:
        script = file.read() + b'script\n' + b'send a 01 eop\n' * 12 + b'settle\n'
    sent = b''.join(b'%d: done\n' % number for number in range(1, 13))
    runner.case('rounds without end', sent + b'13: moving %d\n' % (24 * (8 * 65 + 4) + 66 * 16 + 1), 0, data=script)


def long_packets(runner):
    full = b' 5a' * PACKET_LIMIT
    lines = [
        (b'send a' + full + b' eop', 'done'),
        (b'send a' + full + b' eom', 'done'),
        (b'send a' + full + b' 5a eop', 'fault 8 PacketTooLong'),
        (b'send a' + full + b' 5A eom', 'fault 8 PacketTooLong'),
        # The first fault from the left. In the place after the last byte a byte is one too many,
        # and a word that is no byte is a bad one.
        (b'send a' + full, 'fault 6 NoEnd'),
        (b'send a' + full + b' 5a', 'fault 8 PacketTooLong'),
        (b'send a' + full + b' 5a 0g eop', 'fault 8 PacketTooLong'),
        (b'send a' + full + b' 5a EOP', 'fault 8 PacketTooLong'),
        (b'send a' + full + b' 0g eop', 'fault 5 BadHex'),
        (b'send a' + full + b' EOP', 'fault 5 BadHex'),
        (b'send a' + full + b' 5 eop', 'fault 5 BadHex'),
        (b'send a' + full + b' eop 5a', 'fault 7 AfterEnd'),
        (b'send a 0g' + full + b' 5a eop', 'fault 5 BadHex'),
        (b'send a eop' + full + b' 5a', 'fault 7 AfterEnd'),
        # Numbers and shapes come before it, refusals after.
        (b'send a.x' + full + b' 5a eop', 'fault 4 BadNumber'),
        (b'send a.0.0' + full + b' 5a eop', 'fault 3 BadShape'),
        (b'send a' + full + b' 5a \x01', 'fault 3 BadShape'),
        (b'send z' + full + b' 5a eop', 'fault 8 PacketTooLong'),
        (b'send a.0' + full + b' 5a eop', 'fault 8 PacketTooLong'),
        (b'send z' + full + b' eop', 'refused 1 NoNode'),
        (b'send a.0' + full + b' eop', 'refused 2 NoLink'),
        # Two packets were sent, and of the others nothing.
        (b'credit A.0', 'done'),
        (b'cross a', 'token 5a'),
    ]
    script_case(runner, 'long packets', lines, status=1)


def full_outbox(runner):
    whole = b'send a' + b' 00' * PACKET_LIMIT + b' eop'
    count = OUTBOX_LIMIT // (PACKET_LIMIT + 1)              # 15
    rest = OUTBOX_LIMIT - count * (PACKET_LIMIT + 1) - 1    # 4,080 bytes and a terminator
    lines = [(whole, 'done')] * count + [
        (whole, 'refused 5 OutboxFull'),
        (b'send a' + b' 00' * (PACKET_LIMIT + 1) + b' eop', 'fault 8 PacketTooLong'),
        (b'send a' + b' 00' * (rest + 1) + b' eop', 'refused 5 OutboxFull'),
        (b'send a' + b' 00' * rest + b' eop', 'done'),
        (b'send a eop', 'refused 5 OutboxFull'),
        # Another terminal has a list of its own.
        (b'send b 00 eop', 'done'),
        # One token that leaves makes room for one.
        (b'cross a', 'not ready'),
        (b'credit A.0', 'done'),
        (b'cross a', 'token 00'),
        (b'send a 00 eop', 'refused 5 OutboxFull'),
        (b'send a eop', 'done'),
        (b'send a eop', 'refused 5 OutboxFull'),
    ]
    script_case(runner, 'full outbox', lines, status=1)


def full_inbox(runner):
    """As many tokens as a terminal can take, one by one: the next is refused and stays."""
    tokens = ['01'] + ['55'] * (PACKET_LIMIT - 2) + ['eop']
    packet = ' '.join(tokens)
    pairs = []
    for place, token in enumerate(tokens):
        if place % 8 == 0:
            pairs += [('credit A.0', 'done'), ('credit b', 'done')]
        pairs += [('cross a', 'token ' + token), ('input A.0', 'done')]
        if place == 0:
            pairs += [('claim A 0 1', 'done')]
        pairs += [('cross A.1', 'token ' + token), ('drain b', 'token ' + token)]
    pairs = [('send a ' + packet, 'done')] + pairs
    count = ARRIVED_LIMIT // PACKET_LIMIT                   # 64 packets of 4,096 tokens
    assert count * PACKET_LIMIT == ARRIVED_LIMIT
    pairs = pairs * count + [
        ('drain b', 'not ready'), ('send a 01 eop', 'done'), ('credit A.0', 'done'),
        ('credit b', 'done'), ('cross a', 'token 01'), ('input A.0', 'done'),
        ('claim A 0 1', 'done'), ('cross A.1', 'token 01'), ('drain b', 'refused 6 InboxFull'),
        ('drain b', 'refused 6 InboxFull'), ('drain a', 'not ready'),
        # Rounds stop there, and what came before that in the round is done.
        ('rounds 2', 'refused 6 InboxFull'), ('cross A.1', 'token eop'),
        ('rounds 10000', 'refused 6 InboxFull'),
    ]
    received = b''.join(b'b: %s from a %d\n' % (packet.encode(), number) for number in range(count))
    runner.case('full inbox', answers_of(pairs) + received,
                data=PLAN + b'script\n' + lines_of(pairs))


def full_trace(runner):
    """A switch does 1,048,576 acts, of which a `verify` asks 2,432. Then every command of it is refused, and a register
    is read all the same."""
    full = 'refused 7 TraceFull'
    lines = [(b'verify', 'verified')] * 431 + [(line, full) for line in (
        b'verify', b'poke A ffff 0', b'link A.0', b'table A.0', b'verify', b'credit A.0')]
    script_case(runner, 'full trace', lines + [(b'peek A 0000', '0000c104'), (b'send a 01 eop', 'done')])


def last_entry(runner):
    """The 1,048,576th act of a switch is done, and the next is refused."""
    verified, asked = 431, 2432
    left = TRACE_LIMIT - verified * asked
    assert 0 < left < asked
    peek, reply = b'control A 04 00 00', 'control 84 04 c1 00 00'
    lines = [(b'verify', 'verified')] * verified + [(peek, reply)] * left + [(peek, 'refused 7 TraceFull')] * 2
    script_case(runner, 'last entry of a trace', lines)


def rounds_at_rest(runner):
    """A network at rest stays so, and rounds then cost nothing."""
    lines = [(b'send a 01 aa eop', 'done')] + [(b'rounds 10000', 'done')] * 1000
    script_case(runner, 'rounds at rest', lines, RECEIVED)


def script_lengths(runner):
    run, answers = lines_of(FIRST_RUN), answers_of(FIRST_RUN)
    drain = b'drain b\n'

    def answer(script_before):
        return b'%d: not ready\n' % (script_before.count(b'\n') + 1)

    def text(script):
        return PLAN + b'script\n' + script

    # Comments up to the limit, and the last line's line feed is the last byte within it.
    before = run + comments(SCRIPT_LIMIT - len(run) - len(drain))
    assert len(before + drain) == SCRIPT_LIMIT
    whole = answers + answer(before)
    runner.case('script that fills its limit', whole + RECEIVED, data=text(before + drain))
    runner.case('script with one byte past its limit', whole + SCRIPT_TOO_LONG, 1,
                data=text(before + drain + b'#'))
    runner.case('script with a line past its limit', whole + SCRIPT_TOO_LONG, 1,
                data=text(before + drain + drain))

    # One byte more: the last line ends at the limit without its line feed, or past it with one.
    before = run + comments(SCRIPT_LIMIT - len(run) - len(drain) + 1)
    runner.case('script that fills its limit without a line feed',
                answers + answer(before) + RECEIVED, data=text(before + drain[:-1]))
    runner.case('script whose last line feed is past its limit', answers + SCRIPT_TOO_LONG, 1,
                data=text(before + drain))
    runner.case('script of one line past its limit', SCRIPT_TOO_LONG, 1,
                data=text(b'#' * (SCRIPT_LIMIT + 1)))
    runner.case('script past its limit, explained', SCRIPT_TOO_LONG, 1,
                b'c104: a script has at most 16777216 bytes; the lines that end within them were answered\n',
                words=['--explain'], data=text(b'#' * (SCRIPT_LIMIT + 1)))
    runner.case('script of one line that fills its limit', b'1: fault 1 LineTooLong\n', 1,
                data=text(b'#' * SCRIPT_LIMIT))


def fair_rounds(runner):
    """Three terminals have 600 packets each for a fourth, whose wire carries a token in each round from round 2 on: so 1,802 rounds
    bring the ends of 600 packets, and these are of the three in turn."""
    switch = b'switch A\n' + b''.join(b'terminal %s A.%d\nrow A.%d 2 3\n' % (name, link, link) for link, name in enumerate((b'a', b'b', b'c')))
    sends = b''.join(b'send %s 01 %02x eop\n' % (name, k % 256) for k in range(600) for name in (b'a', b'b', b'c'))
    answers = b''.join(b'%d: done\n' % number for number in range(1, 1802))
    arrived = b''.join(b'd: 01 %02x eop from %s %d\n' % (k % 256, name, k) for k in range(200) for name in (b'a', b'b', b'c'))
    runner.case('fair rounds', answers + arrived, 0, data=switch + b'terminal d A.3\nscript\n' + sends + b'rounds 1802 fair\n')


PARTS = [long_lines, faults_line_by_line, many_rounds, rounds_without_end, long_packets, full_outbox,
         full_trace, last_entry, rounds_at_rest, script_lengths, full_inbox, fair_rounds]
