"""Counts what `c104-paths` prints of a description whose labels are accepted, over all ways of each header, by the definitions
of docs/FORMATS.md and by no code of the tool's."""

import fractions

from check_rules import LINKS, Rules


class Ways:
    """All ways of headers in a description whose labels are accepted."""

    def __init__(self, text):
        self.rules = Rules(text)
        self.ports = ['%s.%d' % (switch, link) for switch in self.rules.switches for link in LINKS]
        self.labels = sorted(label for _, _, labels in self.rules.terminals for label in labels)

    def next_links(self, port, header):
        select = self.rules.select(port, header)
        return None if select in ('sink', 'discard') else self.rules.group(port, select)

    def lengths(self, port, header, known):
        """Over how many wires between switches a header may go on from an input to where it leaves them or is discarded."""
        if port not in known:
            lengths = set()
            for link in self.next_links(port, header) or ():
                other = self.rules.far[link]
                lengths |= {it + 1 for it in self.lengths(other, header, known)} if '.' in other else {0}
            known[port] = lengths or {0}
        return known[port]

    def uses(self, port, header, known):
        """The links that some way from an input takes, and those that all take."""
        if port not in known:
            ways = []
            for link in self.next_links(port, header) or ():
                other = self.rules.far[link]
                can, always = self.uses(other, header, known) if '.' in other else (set(), set())
                ways.append((can | {link}, always | {link}))
            known[port] = (set().union(*(it for it, _ in ways)), set.intersection(*(it for _, it in ways)) if ways else set())
        return known[port]

    def met(self, ports, header):
        """The inputs to which a header may come from some."""
        met, left = set(), list(ports)
        while left:
            port = left.pop()
            if port not in met:
                met.add(port)
                others = (self.rules.far[link] for link in self.next_links(port, header) or ())
                left += [it for it in others if '.' in it]
        return met

    def randoms(self, port):
        return self.rules.random_headers(port) if port in self.rules.randoms else []

    def begins(self, port):
        """Where own headers of the terminal at an input begin."""
        if port not in self.rules.randoms:
            return {port}
        met = {(it, header) for header in self.randoms(port) for it in self.met([port], header)}
        return {it for it, header in met if self.rules.select(it, header) == 'discard'}

    def distances(self, switch):
        """How many wires each switch is from one."""
        far, level, wires = {}, {switch}, 0
        while level:
            far.update((it, wires) for it in level)
            ends = {self.rules.far.get('%s.%d' % (it, link), '') for it in level for link in LINKS}
            level, wires = {it.split('.')[0] for it in ends if '.' in it} - far.keys(), wires + 1
        return far

    def pairs(self):
        """Of each label and each other terminal: both, the label's owner, the lengths of its ways and the distance."""
        found = []
        for label in self.labels:
            known = {}
            owner, home = next((name, port) for name, port, labels in self.rules.terminals if label in labels)
            far = self.distances(home.split('.')[0])
            for name, port, _ in self.rules.terminals:
                if name != owner:
                    lengths = set().union(*(self.lengths(it, label, known) for it in self.begins(port)))
                    found.append((name, label, owner, lengths, far[port.split('.')[0]]))
        return found

    def phases(self):
        """By terminal, the lengths of its ways by random headers."""
        return {name: set().union(*(self.lengths(port, header, {}) for header in self.randoms(port)))
                for name, port, _ in self.rules.terminals}

    def loads(self):
        """By link, how many pairs can use it and always do, and the same by random headers."""
        counts = {port: [0, 0, 0, 0] for port in self.ports}
        for label in self.labels:
            known = {}
            for _, port, labels in self.rules.terminals:
                if label not in labels:
                    uses = [self.uses(it, label, known) for it in self.begins(port)]
                    self.add(counts, 0, set().union(*(can for can, _ in uses)), set.intersection(*(it for _, it in uses)))
        for _, port, _ in self.rules.terminals:
            for header in self.randoms(port):
                self.add(counts, 2, *self.uses(port, header, {}))
        return counts

    @staticmethod
    def add(counts, place, can, always):
        for link in can:
            counts[link][place] += 1
        for link in always:
            counts[link][place + 1] += 1

    def inputs(self):
        """By input, the rows that are set, those that can decide, and the labels and random headers that come there."""
        begins = set().union(*(self.begins(port) for _, port, _ in self.rules.terminals))
        entries = {}
        for _, port, _ in self.rules.terminals:
            for header in self.randoms(port):
                entries.setdefault(header, set()).add(port)
        own = {label: self.met(begins, label) for label in self.labels}
        random = {header: self.met(ports, header) for header, ports in entries.items()}
        found = {}
        for port in self.ports:
            labels = {it for it, met in own.items() if port in met}
            randoms = {it for it, met in random.items() if port in met}
            rows = self.rules.rows.get(port, [])
            deciding = {self.first(port, header) for header in labels | randoms} - {None}
            found[port] = [sum(row != (0, 'sink') for row in rows), len(deciding), len(labels), len(randoms)]
        return found

    def first(self, port, header):
        """The first row of an input that covers a header."""
        low = self.rules.bases.get(port, 0)
        for number, (limit, _) in enumerate(self.rules.rows.get(port, [])):
            if low <= header < limit:
                return number
            low = limit
        return None


def thousandths(number):
    """A fraction with three digits behind the point, rounded down."""
    return '' if number is None else '%d.%03d' % divmod(int(number * 1000), 1000)


def mean(numbers):
    numbers = list(numbers)
    return fractions.Fraction(sum(numbers), len(numbers)) if numbers else None


def largest(counts):
    """The largest count and the first link that has it."""
    most = max(counts.values(), default=0)
    return [str(most), next(it for it, count in counts.items() if count == most)] if most else ['0', '']


def tables_of(ways):
    """The rows of each table, and those of the summary."""
    pairs, phases, loads, inputs = ways.pairs(), ways.phases(), ways.loads(), ways.inputs()
    stretches = [fractions.Fraction(max(lengths), far) for _, _, _, lengths, far in pairs if far]
    far_of = ways.rules.far
    inside = {it for it in ways.ports if '.' in far_of.get(it, '')}
    hops = [max(it[3]) for it in pairs]
    random = [max(ways.lengths(port, header, {})) for _, port, _ in ways.rules.terminals for header in ways.randoms(port)]
    rows = {
        'pairs': [[name, label, owner, min(lengths), max(lengths), far, thousandths(
            fractions.Fraction(max(lengths), far) if far else None), *((min(phases[name]), max(phases[name])) if phases[name]
            else ('', ''))] for name, label, owner, lengths, far in pairs],
        'links': [[it, far_of[it], *loads[it]] for it in ways.ports if it in far_of],
        'inputs': [[it, *inputs[it]] for it in ways.ports if it in far_of or inputs[it][0]],
    }
    load, random_load = (largest({it: counts[place] for it, counts in loads.items() if it in inside}) for place in (0, 2))
    summary = [len(pairs), thousandths(mean(hops)), max(hops, default=''), thousandths(mean(stretches)),
               thousandths(max(stretches, default=None)), *load,
               *largest({it: counts[0] for it, counts in inputs.items() if it in far_of}),
               thousandths(mean(random)), max(random, default=''), *(random_load if random else ('', ''))]
    return rows, [str(it) for it in summary]
