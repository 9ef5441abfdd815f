"""Whether no token and no packet is lost or counted twice in what `stats` prints of a run, read by Python's own reader of CSV.

Each token that was sent has arrived, is in the network, or is gone: its header was deleted, an input dropped it, or a Reset
cleared it. Each row of packets says which of these holds of its packet, so the three tables have to tell the same, and where
each round was over too.
"""

import csv
import io
import math

TABLES = ('packets', 'links', 'rounds')


def records(out):
    """The rows of a table, each by the names of its columns. What is empty is left out, and digits are a number."""
    rows = csv.DictReader(io.StringIO(out.decode(), newline=''))
    return [{name: int(it) if it.isdigit() else it for name, it in row.items() if it} for row in rows]


class Network:
    """What of a description says how many tokens leave packets: the bytes of a header, the terminals whose packets come
    without theirs, where terminals are, and whether random headers are put before packets."""

    def __init__(self, description):
        lines = [line.split(b'#')[0].decode(errors='replace').split() for line in description.splitlines()]
        self.header = 2 if ['header', '2'] in lines else 1
        self.deletes = {it[1] for it in lines if it[:1] == ['delete']}
        self.puts_random = any(it[:1] == ['random'] for it in lines)


class Gone:
    """How many tokens are gone, at least and at most, by the packets' rows."""

    def __init__(self, network, packets, has_reset):
        self.least = self.most = 0
        for packet in packets:
            self.add(network, packet, has_reset)

    def add(self, network, packet, has_reset):
        tokens = packet['bytes'] + 1
        if packet['ending'] == 'arrived':
            deleted = network.header if packet['receiver'] in network.deletes else 0
            least, most = deleted, packet['bytes'] if has_reset else deleted
        elif packet['ending'] == 'unfinished':
            # its terminator is there, and of what is before it an input may drop or delete something
            least, most = 0, packet['bytes']
        else:
            # a part of it may have arrived before a Reset cleared its end
            least, most = 1 if has_reset else tokens, tokens
        if network.puts_random and packet['ending'] != 'arrived':
            # a random header that was put before it may be there, or be gone with it
            least, most = least - network.header, most + network.header
        self.least, self.most = self.least + least, self.most + most


def gains_a_token(network, packets, rounds):
    """Whether at the end of a round fewer tokens are gone than before, as if some had come from nowhere."""
    came = gone = 0
    for row in rounds:
        came += row['arrived']
        sent = sum(it['bytes'] + 1 for it in packets if it['sent'] <= row['round'])
        before, gone = gone, sent - came - row['waiting'] - row['inside']
        if gone < before and not network.puts_random:
            return True
    return False


def in_thousandths(number, among=1):
    """A share of a number of thousandths, as it is told."""
    return '%d.%03d' % divmod(number // among, 1000)


def latencies_of(packets):
    """What a summary tells of the latencies of packets, by its columns' names: ranks, each by its nearest one, the mean and the
    standard deviation, and the mean from the first token on. Nothing where nothing arrived."""
    came = [it for it in packets if 'latency' in it]
    found = sorted(it['latency'] for it in came)
    n = len(found)
    if not n:
        return {}
    shares = {'latency_least': 0, 'latency_median': 50, 'latency_95': 95, 'latency_99': 99, 'latency_most': 100}
    variance = n * sum(it * it for it in found) - sum(found) ** 2
    return {**{name: found[max(-(-n * share // 100), 1) - 1] for name, share in shares.items()},
            'latency_mean': in_thousandths(1000 * sum(found), n),
            'latency_deviation': in_thousandths(math.isqrt(10 ** 6 * variance), n),
            'network_mean': in_thousandths(1000 * sum(it['arrived'] - it.get('left', it['arrived']) for it in came), n)}


def tokens_of(packets):
    """How many tokens packets have, each with its terminator."""
    return sum(it['bytes'] + 1 for it in packets)


def measured_of(packets, terminals, length, window=range(1 << 32)):
    """What a summary tells of the packets that were sent in the rounds of a window, among all packets of a run of this length, by
    its columns' names."""
    sent = [it for it in packets if it['sent'] in window]
    came = [it for it in packets if it.get('arrived', -1) in window]
    endings = [it['ending'] for it in sent]
    places = terminals * len([it for it in range(1, length + 1) if it in window])
    return {'sent': len(sent), 'arrived': endings.count('arrived'), 'unfinished': endings.count('unfinished'),
            'lost': endings.count('sunk') + endings.count('short'), **latencies_of(sent),
            'offered': in_thousandths(1000 * tokens_of(sent), places) if places else '0.000',
            'accepted': in_thousandths(1000 * tokens_of(came), places) if places else '0.000'}


def terminals_of(links):
    """How many terminals there are: a terminal is a port of which the name has no link, and each has a wire."""
    return len([it for it in links if '.' not in it['port']])


# What a summary tells of its packets, and of nothing else.
MEASURED = ('sent', 'arrived', 'unfinished', 'lost', 'latency_least', 'latency_median', 'latency_95', 'latency_99', 'latency_most',
            'latency_mean', 'latency_deviation', 'network_mean', 'offered', 'accepted')


def wrong_counts(network, tables, summary, has_reset, gone):
    """What doesn't agree in the tables and the summary of a run, or None. `gone` is how many tokens are gone, where that is
    known by hand."""
    packets, links, rounds = (tables[it] for it in TABLES)
    last = rounds[-1]
    sent = tokens_of(packets)
    moved, came = (sum(it[name] for it in rounds) for name in ('moved', 'arrived'))
    left = sent - came - last['waiting'] - last['inside']
    due = Gone(network, packets, has_reset)
    # a terminal is the port of which the name has no link
    begun = sum(it['tokens'] for it in links if '.' not in it['port'])
    checks = {
        'tokens that are gone: %d, wanted %d to %d' % (left, due.least, due.most): due.least <= left <= due.most,
        'tokens that are gone: %d, wanted %s' % (left, gone): gone in (None, left),
        'tokens that left their senders': sent == begun + last['waiting'],
        'tokens that crossed': moved == sum(it['tokens'] for it in links),
        'terminators that crossed': sum(it['packets'] for it in links) == sum(it['wires'] for it in packets),
        'latencies': all(it['latency'] == it['arrived'] - it['sent'] for it in packets if 'latency' in it),
        'tokens of each round': not gains_a_token(network, packets, rounds),
        'packets of the summary': measured_of(packets, terminals_of(links), summary['rounds'])
            == {name: it for name, it in summary.items() if name in MEASURED},
    }
    return next((name for name, holds in checks.items() if not holds), None)


def wrong_of(run, description, script, gone=None):
    """The same of a description and a script. `run` gives what `stats` prints of them as CSV, of a table or None for the
    summary."""
    tables = {it: records(run(it)) for it in TABLES}
    if not description.split():
        return None if not any(tables[it] for it in TABLES[:2]) else 'there is no network, but a row'
    return wrong_counts(Network(description), tables, records(run(None))[0], b'control' in script, gone)
