"""Runs `c104-traffic` over descriptions, and what it prints.

Each script is worked out by hand from docs/FORMATS.md: the first words of SplitMix64 from the seed 1234567 are those of
its reference, 6457827717110365317, 3203168211198807973, 9817491932198370423, 4593380528125082431 and
16408922859458223821, which leave 0, 1, 0, 1 and 2 when they are divided by 3. The first four leave 1, 1, 3 and 1 when they
are divided by 2, 3, 4 and 5: by them a list of five becomes 0 4 1 3 2. Their last two digits, which are below a share or not,
are 17, 73, 23, 31 and 21; those before them leave 1, 1, 0, 0 and 0 when they are divided by 2, and 1, 0, 1, 0 and 2 by 3.
Scripts of all kinds, and those by chance, are worked out by sends.py.
"""

import os
import random
import re

from case_runner import CANNOT_WRITE, PLAN
from sends import script
from tools import Tool, tool_parts

SQUARE = b'mesh 2 2 1\n'
LINE = b'mesh 3 1 1\n'
RING = b'mesh 5 1 1\n'
LONE = b'switch A\nterminal a A.0\n'
ALL = {'--pattern': 'neighbour', '--packets': '3', '--bytes': '1', '--seed': '1234567'}
# A send line of 4,096 bytes, the header's two among them.
LONGEST = re.compile(rb'send t0 01 00(?: [0-9a-f]{2}){4094} eop\n')
SENT = re.compile(rb'(send \w+(?: [0-9a-f]{2})+ eop\n|rounds [1-9][0-9]*( fair)?( seed [0-9]+)?\n)*')


def words_of(extra='', **said):
    """The words after the description: those of ALL, but for what is said instead, and further ones."""
    words = {**ALL, **{'--' + name: value for name, value in said.items()}}
    return [it for pair in words.items() if pair[1] is not None for it in pair] + extra.split()


PATTERNS = ('uniform', 'transpose', 'reverse', 'neighbour', 'hot-spot', 'all-to-all', 'complement', 'shuffle', 'tornado',
    'permutation')
# How many terminals there may be, where not any number may.
COUNTS = {'transpose': (1, 4, 9, 16), 'reverse': (1, 2, 4, 8, 16), 'shuffle': (1, 2, 4, 8, 16)}
# A description, the words, and the script.
SCRIPTS = {
    'to the next one': (SQUARE, words_of(packets='5'),
        b'send t0 01 01 eop\nsend t1 02 02 eop\nsend t2 03 03 eop\nsend t3 00 04 eop\nsend t0 01 05 eop\n'),
    'to any': (SQUARE, words_of(pattern='uniform', packets='5'),
        b'send t0 01 01 eop\nsend t1 03 02 eop\nsend t2 03 03 eop\nsend t3 01 04 eop\nsend t0 03 05 eop\n'),
    'to any, the first word of another seed': (LINE, words_of(pattern='uniform', packets='1', seed='0'),
        b'send t0 02 01 eop\n'),
    'to rows from columns': (SQUARE, words_of(pattern='transpose'),
        b'send t1 02 01 eop\nsend t2 01 02 eop\nsend t1 02 03 eop\n'),
    'to rows from columns, and to itself': (SQUARE, words_of('--own', pattern='transpose', packets='4'),
        b'send t0 00 01 eop\nsend t1 02 02 eop\nsend t2 01 03 eop\nsend t3 03 04 eop\n'),
    'to bits in reverse': (b'cube 3 1\n', words_of(pattern='reverse', packets='5'),
        b'send t1 04 01 eop\nsend t3 06 02 eop\nsend t4 01 03 eop\nsend t6 03 04 eop\nsend t1 04 05 eop\n'),
    'to one': (LINE, words_of(pattern='hot-spot', target='t1'),
        b'send t0 01 01 eop\nsend t2 01 02 eop\nsend t0 01 03 eop\n'),
    'to one, and from it': (LINE, words_of('--own', pattern='hot-spot', target='t1'),
        b'send t0 01 01 eop\nsend t1 01 02 eop\nsend t2 01 03 eop\n'),
    'a share to one, the others to any': (LINE, words_of('--share 25', pattern='hot-spot', target='t1', packets='5'),
        b'send t0 01 01 eop\nsend t2 01 02 eop\nsend t0 01 03 eop\nsend t2 00 04 eop\nsend t0 01 05 eop\n'),
    'a share to one, and from it': (LINE, words_of('--own --share 20', pattern='hot-spot', target='t1', packets='5'),
        b'send t0 01 01 eop\nsend t1 02 02 eop\nsend t2 01 03 eop\nsend t0 01 04 eop\nsend t1 01 05 eop\n'),
    'a share of all to one': (LINE, words_of('--share 100', pattern='hot-spot', target='t1'),
        b'send t0 01 01 eop\nsend t2 01 02 eop\nsend t0 01 03 eop\n'),
    'to all in turn': (LINE, words_of(pattern='all-to-all', packets='7'),
        b'send t0 01 01 eop\nsend t1 02 02 eop\nsend t2 00 03 eop\nsend t0 02 04 eop\nsend t1 00 05 eop\n'
        b'send t2 01 06 eop\nsend t0 01 07 eop\n'),
    'to all in turn, itself last': (PLAN, words_of('--own', pattern='all-to-all', packets='4'),
        b'send a 01 01 eop\nsend b 00 02 eop\nsend a 00 03 eop\nsend b 01 04 eop\n'),
    'to the complement': (LINE, words_of(pattern='complement'), b'send t0 02 01 eop\nsend t2 00 02 eop\nsend t0 02 03 eop\n'),
    'to bits one place up': (b'cube 3 1\n', words_of(pattern='shuffle', packets='7'),
        b'send t1 02 01 eop\nsend t2 04 02 eop\nsend t3 06 03 eop\nsend t4 01 04 eop\nsend t5 03 05 eop\nsend t6 05 06 eop\n'
        b'send t1 02 07 eop\n'),
    'to bits one place up, and to itself': (LONE, words_of('--own', pattern='shuffle', packets='1'), b'send a 00 01 eop\n'),
    'less than half of a ring ahead, of an odd one': (RING, words_of(pattern='tornado', packets='5'),
        b'send t0 02 01 eop\nsend t1 03 02 eop\nsend t2 04 03 eop\nsend t3 00 04 eop\nsend t4 01 05 eop\n'),
    'less than half of a ring ahead, of an even one': (b'cube 3 1\n', words_of(pattern='tornado', packets='6'),
        b'send t0 03 01 eop\nsend t1 04 02 eop\nsend t2 05 03 eop\nsend t3 06 04 eop\nsend t4 07 05 eop\nsend t5 00 06 eop\n'),
    'to another for each': (RING, words_of(pattern='permutation', packets='4'),
        b'send t1 02 01 eop\nsend t2 04 02 eop\nsend t4 01 03 eop\nsend t1 02 04 eop\n'),
    'to another for each, some to themselves': (RING, words_of('--own', pattern='permutation', packets='5'),
        b'send t0 00 01 eop\nsend t1 02 02 eop\nsend t2 04 03 eop\nsend t3 03 04 eop\nsend t4 01 05 eop\n'),
    'to itself alone': (LONE, words_of('--own', packets='2'), b'send a 00 01 eop\nsend a 00 02 eop\n'),
    'no bytes behind the header': (PLAN, words_of(bytes='0'), b'send a 01 eop\nsend b 00 eop\nsend a 01 eop\n'),
    'headers of two bytes': (b'header 2\n' + PLAN.replace(b'b A.1', b'b A.1 labels 9 from 258'), words_of(bytes='2'),
        b'send a 02 01 02 03 eop\nsend b 00 00 03 04 eop\nsend a 02 01 04 05 eop\n'),
    'labels of a tree': (b'switch A\nterminal a A.1 labels 7\nterminal b A.0\nlabel tree A\n', words_of(),
        b'send a 00 01 eop\nsend b 01 02 eop\nsend a 00 03 eop\n'),
    'two rounds between': (PLAN, words_of(load='250'),
        b'send a 01 01 eop\nrounds 2\nsend b 00 02 eop\nrounds 2\nsend a 01 03 eop\n'),
    'rounds that don\'t come out even': (LINE, words_of(packets='5', load='120'),
        b'send t0 01 01 eop\nrounds 2\nsend t1 02 02 eop\nrounds 3\nsend t2 00 03 eop\nrounds 3\nsend t0 01 04 eop\n'
        b'rounds 3\nsend t1 02 05 eop\n'),
    'rounds between some': (LINE, words_of(packets='5', load='700'),
        b'send t0 01 01 eop\nsend t1 02 02 eop\nsend t2 00 03 eop\nrounds 1\nsend t0 01 04 eop\nsend t1 02 05 eop\n'),
    'half a packet in 1,000 rounds': (LONE + b'terminal b A.1\n', words_of(pattern='hot-spot', target='b', load='0.5'),
        b'send a 01 01 eop\nrounds 2000\nsend a 01 02 eop\nrounds 2000\nsend a 01 03 eop\n'),
    'more rounds than a line has': (LONE + b'terminal b A.1\n', words_of(pattern='hot-spot', target='b', load='0.04'),
        b'send a 01 01 eop\nrounds 10000\nrounds 10000\nrounds 5000\nsend a 01 02 eop\nrounds 10000\nrounds 10000\n'
        b'rounds 5000\nsend a 01 03 eop\n'),
    'the least load': (LONE + b'terminal b A.1\n', words_of(pattern='hot-spot', target='b', load='0.001', packets='2'),
        b'send a 01 01 eop\n%ssend a 01 02 eop\n' % (b'rounds 10000\n' * 100)),
    'a load in tokens, three to a packet': (PLAN, words_of('--tokens 0.3'),
        b'send a 01 01 eop\nrounds 5\nsend b 00 02 eop\nrounds 5\nsend a 01 03 eop\n'),
    'tokens that don\'t come out even, four to a packet': (b'header 2\n' + PLAN, words_of('--tokens 0.35'),
        b'send a 01 00 02 eop\nrounds 5\nsend b 00 00 03 eop\nrounds 6\nsend a 01 00 04 eop\n'),
    'a token in each round': (PLAN, words_of('--tokens 1', bytes='0'),
        b'send a 01 eop\nrounds 1\nsend b 00 eop\nrounds 1\nsend a 01 eop\n'),
    'by chance': (LINE, words_of('--process bernoulli', load='400', packets='6'),
        b'send t1 02 01 eop\nrounds 1\nsend t0 01 02 eop\nrounds 1\nsend t1 02 03 eop\nsend t2 00 04 eop\nrounds 1\n'
        b'send t1 02 05 eop\nrounds 3\nsend t0 01 06 eop\n'),
    'by chance, all of the time': (LINE, words_of('--process bernoulli', load='1000', packets='5'),
        b'send t0 01 01 eop\nsend t1 02 02 eop\nsend t2 00 03 eop\nrounds 1\nsend t0 01 04 eop\nsend t1 02 05 eop\n'),
    'rounds with seeds': (LINE, words_of('--words 1000', packets='5', load='120'),
        b'send t0 01 01 eop\nrounds 2 seed 1000\nsend t1 02 02 eop\nrounds 3 seed 1002\nsend t2 00 03 eop\nrounds 3 seed 1005\n'
        b'send t0 01 04 eop\nrounds 3 seed 1008\nsend t1 02 05 eop\n'),
    'seeds from 0 on, of a load in tokens': (PLAN, words_of('--tokens 0.3 --words 0'),
        b'send a 01 01 eop\nrounds 5 seed 0\nsend b 00 02 eop\nrounds 5 seed 5\nsend a 01 03 eop\n'),
    'seeds by chance': (LINE, words_of('--process bernoulli --words 7', load='400', packets='6'),
        b'send t1 02 01 eop\nrounds 1 seed 7\nsend t0 01 02 eop\nrounds 1 seed 8\nsend t1 02 03 eop\nsend t2 00 04 eop\n'
        b'rounds 1 seed 9\nsend t1 02 05 eop\nrounds 3 seed 10\nsend t0 01 06 eop\n'),
    'seeds behind the largest': (PLAN, words_of('--words 18446744073709551615', load='250'),
        b'send a 01 01 eop\nrounds 2 seed 18446744073709551615\nsend b 00 02 eop\nrounds 2 seed 1\nsend a 01 03 eop\n'),
    'seeds of more rounds than a line has': (LONE + b'terminal b A.1\n',
        words_of('--words 3', pattern='hot-spot', target='b', load='0.04'),
        b'send a 01 01 eop\nrounds 10000 seed 3\nrounds 10000 seed 10003\nrounds 5000 seed 20003\nsend a 01 02 eop\n'
        b'rounds 10000 seed 25003\nrounds 10000 seed 35003\nrounds 5000 seed 45003\nsend a 01 03 eop\n'),
    'fair rounds': (PLAN, words_of('--fair', load='250'),
        b'send a 01 01 eop\nrounds 2 fair\nsend b 00 02 eop\nrounds 2 fair\nsend a 01 03 eop\n'),
    'fair rounds with seeds, a line of the most among them': (LONE + b'terminal b A.1\n',
        words_of('--fair --words 3', pattern='hot-spot', target='b', load='0.08', packets='2'),
        b'send a 01 01 eop\nrounds 10000 fair seed 3\nrounds 2500 fair seed 10003\nsend a 01 02 eop\n'),
    'no rounds, fair': (PLAN, words_of('--fair', load='1000', packets='2'), b'send a 01 01 eop\nsend b 00 02 eop\n'),
    'seeds of no rounds': (PLAN, words_of('--words 3', load='1000', packets='2'), b'send a 01 01 eop\nsend b 00 02 eop\n'),
    'regularly, as it is said': (PLAN, words_of('--process regular', packets='2'), b'send a 01 01 eop\nsend b 00 02 eop\n'),
    'the most rounds': (LONE + b'terminal b A.1\n', words_of(pattern='hot-spot', target='b', load='1'),
        b'send a 01 01 eop\nrounds 1000\nsend a 01 02 eop\nrounds 1000\nsend a 01 03 eop\n'),
}

# A description, the words, the line that tells why there is no script, and what is told of it.
REFUSED = {
    'no square': (LINE, words_of(pattern='transpose'), b'traffic 1 NotSquare\n',
        b'a transpose wants as many terminals as a square has fields: 1, 4, 9, 16, ..'),
    'no power of two': (LINE, words_of(pattern='reverse'), b'traffic 2 NotPowerOfTwo\n',
        b'a reverse or a shuffle wants 1, 2, 4, 8, .. terminals'),
    'no power of two, of a shuffle': (LINE, words_of(pattern='shuffle'), b'traffic 2 NotPowerOfTwo\n',
        b'a reverse or a shuffle wants 1, 2, 4, 8, .. terminals'),
    'a ring of two': (PLAN, words_of(pattern='tornado'), b'traffic 4 NoTarget\n',
        b'by this pattern no terminal has another one to send to'),
    'no such terminal': (PLAN, words_of(pattern='hot-spot', target='c'), b'traffic 3 NoTerminal\n',
        b'no terminal has the target\'s name'),
    'a switch as target': (PLAN, words_of(pattern='hot-spot', target='A'), b'traffic 3 NoTerminal\n',
        b'no terminal has the target\'s name'),
    'a terminal alone': (LONE, words_of(), b'traffic 4 NoTarget\n',
        b'by this pattern no terminal has another one to send to'),
    'a terminal alone, to any': (LONE, words_of(pattern='uniform'), b'traffic 4 NoTarget\n',
        b'by this pattern no terminal has another one to send to'),
    'no terminal': (b'switch A\n', words_of(pattern='transpose'), b'traffic 4 NoTarget\n',
        b'by this pattern no terminal has another one to send to'),
    'bits that are the same in reverse': (b'cube 1 1\n', words_of(pattern='reverse'), b'traffic 4 NoTarget\n',
        b'by this pattern no terminal has another one to send to'),
    'a label that is no header': (b'switch A\nterminal a A.0\nterminal b A.1 from 256\n', words_of(),
        b'traffic 5 NoLabel: b\n',
        b'the first label of a terminal is no header: headers of one byte are 0 to 255'),
    'a faulty description': (b'switch A\nwire A.0 A.1\n', words_of(), b'description 2: 8 SelfWire\n', None),
    'no labels': (b'switch A\nswitch B\nlabel tree A\n', words_of(), b'label 1 NotConnected\n', None),
}

# Words that aren't taken.
WRONG = (words_of(pattern='frob'), words_of(pattern=None), words_of(packets=None), words_of(bytes=None),
    words_of(seed=None), words_of(packets='0'), words_of(packets='1048577'), words_of(bytes='4095'), words_of(bytes='-1'),
    words_of(seed='18446744073709551616'), words_of(seed='x'), words_of(load='0'), words_of(load='1001'),
    words_of(load='0.0005'), words_of(load='1000.001'), words_of(load='1.'), words_of(load='.5'), words_of(load='1.x'),
    words_of(load='1.2345'), words_of('--tokens 0'), words_of('--tokens 1.000001'), words_of('--tokens 0.0000001'),
    words_of('--tokens 0.5', load='5'), words_of('--process bernoulli'), words_of('--process frob', load='5'),
    words_of('--fair'), words_of('--fair 1', load='5'), words_of('--words 1'), words_of('--words -1', load='5'), words_of('--words 18446744073709551616', load='5'),
    words_of(pattern='hot-spot'), words_of(target='a'),
    words_of('--share 5', pattern='hot-spot'), words_of('--share 5', target='a'),
    words_of('--share 0', pattern='hot-spot', target='a'), words_of('--share 101', pattern='hot-spot', target='a'),
    words_of('SCRIPT'))


def scripts(runner):
    for name, (description, words, script) in SCRIPTS.items():
        runner.case(name, script, words=['-', *words], data=description, errors=b'')


def worked_out(runner):
    """Scripts of all kinds."""
    source = random.Random(1)
    for number in range(120):
        runner.case('worked out %d' % number, **any_script(source))


def any_script(source):
    """A description, words, and what they have to print."""
    pattern = PATTERNS[source.randrange(len(PATTERNS))]
    count = source.choice(COUNTS.get(pattern, range(1, 17)))
    packets, size, seed, header = source.randint(1, 40), source.randint(0, 4), source.getrandbits(64), source.choice((1, 2))
    said = {'own': source.random() < 0.4}
    words = ['--own'] * said['own']
    if pattern == 'hot-spot':
        said['target'], said['share'] = source.randrange(count), source.randint(1, 100)
        words += ['--target', 't%d' % said['target'], '--share', str(said['share'])]
    load = source.choice(((), ('load', '0.25'), ('load', '33.333'), ('load', '1000'), ('tokens', '0.3'), ('tokens', '0.015625'),
                          ('tokens', '1')))
    if load:
        said[load[0]], said['chance'] = load[1], source.random() < 0.6
        words += ['--' + load[0], load[1], *['--process', 'bernoulli'] * said['chance']]
        if source.random() < 0.5:
            said['first'] = source.choice((source.getrandbits(64), 2 ** 64 - 1 - source.randrange(20)))
            words += ['--words', str(said['first'])]
        if source.random() < 0.3:
            said['fair'] = True
            words.append('--fair')
    text = script(count, pattern, packets, size, seed, header=header, **said)
    words = ['--pattern', pattern, '--packets', str(packets), '--bytes', str(size), '--seed', str(seed), *words]
    return {'expected': text or b'traffic 4 NoTarget\n', 'status': 0 if text else 1, 'words': ['-', *words],
            'data': b'header %d\nmesh %d 1 1\n' % (header, count)}


def refused(runner):
    for name, (description, words, line, told) in REFUSED.items():
        runner.case(name, line, 1, words=['-', *words], data=description)
        if told is not None:
            runner.case(name + ': told', line, 1, b'c104: -: %s\n' % told, words=['--explain', '-', *words],
                        data=description)


def usage(runner):
    for words in WRONG:
        runner.case('usage of traffic %s' % ' '.join(words), b'', 2, words=['-', *words], data=PLAN)
    runner.case('usage of traffic without a description', b'', 2, words=words_of())


def limits(runner):
    """The longest lines, and the most packets: each line is a `send` or `rounds`."""
    judge(runner, 'the longest packet', b'header 2\n' + PLAN.replace(b'a A.0', b't0 A.0'), words_of(bytes='4094', packets='1'),
          lambda out: LONGEST.fullmatch(out))
    judge(runner, 'the most packets', SQUARE, words_of(pattern='uniform', packets='1048576', load='1000'),
          lambda out: SENT.fullmatch(out) and out.count(b'send') == 1048576)


def judge(runner, name, description, words, is_good):
    if not runner.wanted(name):
        return
    found = runner.run(words=['-', *words], data=description)
    good = found is not None and found[0] == 0 and is_good(found[1])
    runner.judge(name, None if good else '%.200r' % (found,))


def arrivals(runner):
    """What a script sends is sent, and arrives."""
    name = 'all packets arrive'
    if not runner.wanted(name):
        return
    _, sends, _ = Tool(runner, 'traffic').run(words=['-', *words_of(pattern='uniform', packets='200', bytes='5', load='20')],
                             data=SQUARE)
    found = runner.run(data=SQUARE + b'script\n' + sends + b'rounds 1000\n')
    answers = sends.count(b'\n') + 1
    lines = found[1].splitlines() if found else []
    good = all(it.endswith(b': done') for it in lines[:answers]) and len(lines) == answers + 200
    runner.judge(name, None if good else '%d lines, %.200r' % (len(lines), lines[-3:]))


def failures(runner):
    """A description that can't be read, and an output that can't be written."""
    runner.case('no description', b'', 3, b'c104: cannot read none\n', words=['none', *words_of()])
    with open(os.devnull, 'rb') as folder:
        runner.case('nothing on standard input', b'traffic 4 NoTarget\n', 1, words=['-', *words_of()], stdin=folder)
    if os.path.exists('/dev/full'):
        with open('/dev/full', 'wb') as full:
            runner.case('an output that is full', None, 3, CANNOT_WRITE, words=['-', *words_of()], data=PLAN,
                        stdout=full)


PARTS = [*tool_parts('traffic', [scripts, worked_out, refused, usage, limits, failures]), arrivals]
