"""Descriptions and scripts of grids of switches, and how many events are done in them."""

BUFFER = 16
# Links: those of the terminals come first.
NORTH, WEST, EAST, SOUTH = 'north', 'west', 'east', 'south'


class Grid:
    """A grid of switches with this number of terminals each. Packets go along their column first, and then
    along their row; the label of terminal k is k."""

    def __init__(self, width, height, terminals):
        self.width = width
        self.height = height
        self.terminals = terminals
        self.switches = width * height

    def links(self, switch):
        """The links of a switch to its neighbours, by direction."""
        x, y = switch % self.width, switch // self.width
        there = {NORTH: y > 0, WEST: x > 0, EAST: x < self.width - 1, SOUTH: y < self.height - 1}
        return {way: self.terminals + k for k, way in enumerate(there) if there[way]}

    def rows(self, switch):
        """The interval table of each input of a switch: pairs of a limit and an output link."""
        links = self.links(switch)
        y = switch // self.width
        first, last = switch * self.terminals, (switch + 1) * self.terminals
        row, next_row = (at * self.width * self.terminals for at in (y, y + 1))
        rows = [(row, links.get(NORTH)), (first, links.get(WEST))]
        rows += [(first + k + 1, k) for k in range(self.terminals)]
        rows += [(next_row, links.get(EAST)), (self.switches * self.terminals, links.get(SOUTH))]
        return [(limit, link) for limit, link in rows if link is not None]

    def description(self):
        lines = ['buffer %d' % BUFFER]
        lines += ['switch s%d' % s for s in range(self.switches)]
        lines += ['terminal t%d s%d.%d' % (s * self.terminals + k, s, k)
                  for s in range(self.switches) for k in range(self.terminals)]
        for s in range(self.switches):
            links = self.links(s)
            if EAST in links:
                lines.append('wire s%d.%d s%d.%d' % (s, links[EAST], s + 1, self.links(s + 1)[WEST]))
            if SOUTH in links:
                below = s + self.width
                lines.append('wire s%d.%d s%d.%d' % (s, links[SOUTH], below, self.links(below)[NORTH]))
        for s in range(self.switches):
            for link in [*range(self.terminals), *self.links(s).values()]:
                lines += ['row s%d.%d %d %d' % (s, link, *row) for row in self.rows(s)]
        return lines

    def hops(self, source, target):
        """How many switches a packet goes through."""
        s, t = source // self.terminals, target // self.terminals
        return 1 + abs(s % self.width - t % self.width) + abs(s // self.width - t // self.width)

    def wire_ends(self):
        """How many ends of wires there are, each of which grants credit."""
        return sum(2 * self.terminals + len(self.links(s)) for s in range(self.switches))


def send(source, target, size):
    """A line that sends a packet of size bytes, including its header."""
    return 'send t%d %02x%s eop' % (source, target, ' 5a' * (size - 1))


def events_done(grid, packets):
    """How many events the rounds do until these packets have arrived and all is at rest: each packet
    is a source, a target and a size. No two of them may share a wire."""
    granted_at_rest = BUFFER // 8
    done = grid.wire_ends() * granted_at_rest
    tokens_of = {}
    for source, target, size in packets:
        hops = grid.hops(source, target)
        # A token crosses each wire, takes a turn in each switch and arrives. The header is claimed for.
        done += (size + 1) * (2 * hops + 2) + hops
        tokens_of[source, target] = tokens_of.get((source, target), 0) + size + 1
    for (source, target), tokens in tokens_of.items():
        done += tokens // 8 * (grid.hops(source, target) + 1)
    return done
