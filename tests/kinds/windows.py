"""Runs `c104-stats` of windows, whose packets alone are measured, and of their batches.

The numbers of one run are worked out by hand. In runs over random networks each number is worked out again, by conservation.py,
from the rows of the whole run.
"""

from collections import Counter

from case_runner import PLAN
from conservation import MEASURED, measured_of, records, terminals_of
from kinds.stats import APART, LATENCIES, PACKETS, SEEDS, SUMMARY, Files, csv_text, labels_of, table_text, words_of
from random_networks import chance_of, network_of, packets_of
from tools import Tool, tool_parts

# What is told of a batch, behind its rounds.
BATCH = SUMMARY[1:5] + SUMMARY[7:17]

# Words for a window of the run of APART, and what of the summary is of it: all but the run's length at the front, and the tokens
# in a round, the links and how many rounds are enough behind: 3 + 3 for the first packet and 2 + 3 for the other.
WINDOWS = {
    'the packet sent in round 3': ('--from 1 --to 3', '1 1 0 0 0 - 3 3 3 3 3 3.000 0.000 2.000 0.333 0.000'),
    'the same, with both ends on it': ('--from 3 --to 3', '1 1 0 0 0 - 3 3 3 3 3 3.000 0.000 2.000 1.000 0.000'),
    'the packet sent before the first round': ('--to 2', '1 1 0 0 0 - 4 4 4 4 4 4.000 0.000 3.000 0.750 0.000'),
    'no round': ('--to 0', '1 1 0 0 0 - 4 4 4 4 4 4.000 0.000 3.000 0.000 0.000'),
    'no packet, and the rounds in which both arrive': ('--from 4', '0 0 0 0 0 - - - - - - - - - 0.000 0.833'),
    'no packet, and the round in which one arrives': ('--from 4 --to 4', '0 0 0 0 0 - - - - - - - - - 0.000 1.500'),
    'rounds behind the last': ('--from 7', '0 0 0 0 0 - - - - - - - - - 0.000 0.000'),
    'all rounds': ('--from 0 --to 4294967295', '2 2 0 0 0 - 3 3 4 4 4 3.500 0.500 2.500 0.416 0.416'),
}


def windows(runner):
    """What is measured of a window, in a summary and in the tables of packets and of latencies."""
    of_packets = {'0': 'a 0 b 2 2 0 1 4 4 0 arrived', '3': 'a 1 b 1 2 3 4 6 3 0 arrived'}
    with Files(PLAN) as path:
        for name, (window, values) in WINDOWS.items():
            window = window.split()
            bounds = dict(zip(window[::2], map(int, window[1::2])))
            sent = [it for it in of_packets if bounds.get('--from', 0) <= int(it) <= bounds.get('--to', 9)]
            due = csv_text(SUMMARY, ['6 %s 1.666 A.1 0.833 a 0.833 - - 11' % values])
            runner.case('window of ' + name, due, words=words_of(path, form='csv', window=window), data=APART)
            runner.case('packets of ' + name, table_text(PACKETS, [of_packets[it] for it in sent]),
                        words=words_of(path, 'packets', window=window), data=APART)
            runner.case('latencies of ' + name, table_text(LATENCIES, ['3 1'] * ('3' in sent) + ['4 1'] * ('0' in sent)),
                        words=words_of(path, 'latencies', window=window), data=APART)


def apart(chance, script):
    """Lines of packets with rounds between them, so that they are sent in various rounds."""
    return b''.join(line + b'rounds %d\n' % chance.randint(1, 9) * (chance.random() < 0.4) for line in script.splitlines(keepends=True))


def wrong_window(run, packets, terminals, length, window):
    """What of a window isn't told as the rows of the whole run have it, or None. `run` gives the rows of a table, or of the
    summary, for words of the command line."""
    words = [word for name, it in (('--from', window.start), ('--to', window.stop - 1)) for word in (name, str(it))]
    if run('packets', words) != [it for it in packets if it['sent'] in window]:
        return 'packets of %s' % window
    due = measured_of(packets, terminals, length, window)
    if {name: it for name, it in run(None, words)[0].items() if name in MEASURED} != due:
        return 'summary of %s' % window
    came = [it['latency'] for it in packets if it['sent'] in window and 'latency' in it]
    if [(it['latency'], it['packets']) for it in run('latencies', words)] != sorted(Counter(came).items()):
        return 'latencies of %s' % window
    return None


def wrong_batches(run, length, window, count):
    """Which batch of a window isn't told as the summary of its rounds, or None."""
    words = [word for name, it in (('--from', window.start), ('--to', window.stop - 1)) for word in (name, str(it))]
    first, rounds = max(window.start, 1), len(range(max(window.start, 1), min(window.stop, length + 1)))
    ends = [first + rounds * it // count for it in range(count + 1)]
    rows = run(None, [*words, '--batches', str(count)])
    if [(it['from'], it['to']) for it in rows] != [(a, b - 1) for a, b in zip(ends, ends[1:])]:
        return 'rounds of %d batches of %s' % (count, window)
    for row in rows:
        begin, end = row.pop('from'), row.pop('to')
        if begin <= end:
            whole = run(None, ['--from', str(begin), '--to', str(end)])[0]
            if row != {name: it for name, it in whole.items() if name in BATCH}:
                return 'batch from %d to %d' % (begin, end)
    return None


def random_windows(runner, seed):
    """Packets of a random network, of which those of a window are measured."""
    name = 'windows of random network %d' % seed
    if not runner.wanted(name):
        return
    tool, chance = Tool(runner, 'stats'), chance_of(seed)
    network = network_of(chance)
    with Files(network.description) as path:
        script = apart(chance, packets_of(chance, network, labels_of(runner, path))) + b'rounds %d\n' % chance.choice((9, 3000))

        def run(what, words=()):
            return records(tool.run(words=words_of(path, what, 'csv', words), data=script)[1])
        packets, terminals, length = run('packets'), terminals_of(run('links')), run(None)[0]['rounds']
        wrong = None
        for _ in range(4):
            first, last = sorted(chance.randint(0, length + 2) for _ in range(2))
            window = range(first, last + 1)
            wrong = wrong or wrong_window(run, packets, terminals, length, window)
            wrong = wrong or wrong_batches(run, length, window, chance.randint(1, 5))
        runner.judge(name, wrong)


def randoms(runner):
    for seed in SEEDS:
        random_windows(runner, seed)


PARTS = [*tool_parts('stats', [windows]), randoms]
