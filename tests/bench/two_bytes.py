"""Descriptions with headers of two bytes: networks as people have them, and the largest that a text has room for."""

import string

from grid import EAST, NORTH, SOUTH, WEST, Grid

TEXT_LIMIT = 1024 * 1024
HEADERS = 65536
LINKS = 32
ROWS = 36


def text_of(lines):
    return b''.join(line.encode() + b'\n' for line in lines)


def row_lines(port, rows):
    return ['row %s %d %s' % (port, *row) for row in rows]


# Networks as people have them

def labelled_tree(switches, count, labels):
    """A tree, with two switches below each and `count` terminals on it, which have `labels` labels each."""
    lines = ['header 2', *('switch s%d' % s for s in range(switches))]
    lines += ['terminal t%d s%d.%d labels %d' % (s * count + k, s, 3 + k, labels)
              for s in range(switches) for k in range(count)]
    lines += ['wire s%d.%d s%d.0' % ((s - 1) // 2, 2 - s % 2, s) for s in range(1, switches)]
    return text_of([*lines, 'label tree s0'])


def hand_mesh(width, height, count, labels, is_universal=False):
    """A mesh with all of its tables written out. Where routing is universal there is a random header for each switch,
    which goes the way of that switch's labels and is discarded at its inputs, and each terminal's link puts one of
    these before packets."""
    grid = Grid(width, height, count)
    first = grid.switches * count * labels
    lines = ['header 2']
    for line in grid.description():
        kind = line.split()[0]
        if kind != 'row':
            lines.append('%s labels %d' % (line, labels) if kind == 'terminal' else line)
    for s in range(grid.switches):
        links = grid.links(s)
        rows = [(limit * labels, link) for limit, link in grid.rows(s)]
        if is_universal:
            rows += [(first + end, select) for end, select in ways_of_switches(grid, s)]
            lines += ['random s%d.%d %d %d' % (s, k, first, grid.switches) for k in range(count)]
        for link in [*range(count), *links.values()]:
            lines += row_lines('s%d.%d' % (s, link), rows)
    return text_of(lines)


def ways_of_switches(grid, switch):
    """By which link random headers leave a switch of a grid, by number: as labels do, and its own is discarded."""
    links, y = grid.links(switch), switch // grid.width
    ends = [(y * grid.width, links.get(NORTH)), (switch, links.get(WEST)), (switch + 1, 'discard'),
            ((y + 1) * grid.width, links.get(EAST)), (grid.switches, links.get(SOUTH))]
    return [(end, select) for end, select in ends if select is not None]


# The largest. Names of one letter leave room for rows.

NAMES = [*string.ascii_letters, *(it + '0' for it in string.ascii_letters[:12])]
SWITCHES = len(NAMES)
LAST = SWITCHES - 1


class Chain:
    """64 switches in a row, each joined to the next by many wires: the links `ahead` of one lead to the links `back` of
    the next. Terminals, on the links `own`, have `labels` labels each. The first and the last switch are joined too, by
    wires that nothing takes, so that all links are wired. Labels go straight to their switch. `randoms` random
    headers, behind the labels, are put before packets of all terminals, and discarded at the last switch."""

    def __init__(self, back, ahead, own, labels, is_grouped=True, randoms=0):
        self.back, self.ahead, self.own, self.labels = back, ahead, own, labels
        self.is_grouped, self.randoms = is_grouped, randoms
        self.end = SWITCHES * len(own) * labels
        self.others = {group[turn]: group[1 - turn] for group in (back, ahead) for turn in (0, 1)}

    def lines(self):
        """All lines but for the rows."""
        lines = ['header 2', *('switch ' + name for name in NAMES)]
        for s, name in enumerate(NAMES):
            after = NAMES[(s + 1) % SWITCHES]
            lines += ['terminal t%d %s.%d labels %d' % (s * len(self.own) + k, name, link, self.labels)
                      for k, link in enumerate(self.own)]
            if self.is_grouped:
                lines += ['continue %s.%d' % (name, link) for group in (self.back, self.ahead) for link in group[1:]]
            if self.randoms:
                lines += ['random %s.%d %d %d' % (name, link, self.end, self.randoms) for link in self.own]
            lines += ['wire %s.%d %s.%d' % (name, out, after, into) for out, into in zip(self.ahead, self.back)]
        # names are given before they are used
        return sorted(lines, key=lambda line: line.startswith('wire'))

    def selects(self, switch):
        """What headers select at a switch, by those from which on they do."""
        first = switch * len(self.own) * self.labels
        selects = {0: self.back[0]}
        selects.update((first + k * self.labels, link) for k, link in enumerate(self.own))
        if switch < LAST:
            selects[first + len(self.own) * self.labels] = self.ahead[0]
        elif self.randoms:
            selects[self.end] = 'discard'
        return selects

    def rows(self, selects):
        starts = sorted(selects)
        return [(end, selects[low]) for low, end in zip(starts, [*starts[1:], self.end + self.randoms])]

    def text(self, changes):
        """The description with a row more for each change that an input has room for, up to the end of the text. A
        change is an input, by its number, and a header from which on it selects the other of two links that lead to
        the same switch; those of an input are in rising order."""
        tables = [self.selects(place // LINKS) for place in range(SWITCHES * LINKS)]
        ports = ['%s.%d' % (name, link) for name in NAMES for link in range(LINKS)]
        room = TEXT_LIMIT - len(self.text_with(ports, tables))
        for place, header in changes:
            table = tables[place]
            low = max(it for it in table if it <= header)
            other = self.others.get(table[low])
            if other is None or low == header or len(table) == ROWS:
                continue
            room -= len('row %s %d %s\n' % (ports[place], header, other))
            if room < 0:
                break
            table[header] = other
        return self.text_with(ports, tables)

    def text_with(self, ports, tables):
        rows = (line for port, table in zip(ports, tables) for line in row_lines(port, self.rows(table)))
        return text_of([*self.lines(), *rows])


GROUPED = range(14), range(14, 28), range(28, 32)


def all_rows():
    """36 rows at each of 2,048 inputs, each of which selects otherwise than the one before. The text has room for them
    where most limits have two digits, so that there are few headers, and selects one."""
    chain = Chain([*range(5), *range(10, 20)], [*range(5, 10), *range(20, 30)], [30, 31], 1, is_grouped=False)
    return chain.text((place, header) for place in range(SWITCHES * LINKS) for header in range(1, chain.end)
                      if (header + place) % 100 < 70)


def most_changes():
    """Rows by which as many headers as there is room for select at some input otherwise than the one before."""
    chain = Chain(*GROUPED, 256)
    return chain.text((header % (SWITCHES * LINKS), header) for header in range(1, HEADERS))


def most_random(count):
    """The same of `count` random headers, which all terminals' links put before packets."""
    chain = Chain(*GROUPED, 1, randoms=HEADERS - SWITCHES * 4)
    step = (HEADERS - chain.end) // count
    headers = range(chain.end + step, HEADERS, step)
    return chain.text((header // step % (LAST * LINKS), header) for header in headers)
