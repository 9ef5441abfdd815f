"""The rules of the check of labels, over a description of switches, by no code of the program's.

Of all headers those are tried at which anything may change, and each beside one: the limits and bases of tables, the
ends of ranges, and those of random headers. Any other fares as the one below it.
"""

LINKS = range(32)


def words_of(text):
    for line in text.decode().splitlines():
        words = line.split('#')[0].split()
        if words:
            yield words


class Walk(Exception):
    """A fault: its number and name, and the walk that shows it."""

    def __init__(self, fault, walk):
        super().__init__(fault)
        self.fault, self.walk = fault, walk


class Rules:
    """A description as its lines say, but for those that label a whole network."""

    def __init__(self, text):
        self.switches, self.terminals, self.far, self.continues = [], [], {}, set()
        self.bases, self.rows, self.randoms, self.headers = {}, {}, {}, 256
        end = 0
        for kind, *words in words_of(text):
            if kind == 'switch':
                self.switches.append(words[0])
            elif kind == 'terminal':
                said = dict(zip(words[2::2], map(int, words[3::2])))
                first = said.get('from', end)
                end = first + said.get('labels', 1)
                self.terminals.append((words[0], words[1], range(first, end)))
                self.far[words[0]], self.far[words[1]] = words[1], words[0]
            elif kind == 'wire':
                self.far[words[0]], self.far[words[1]] = words[1], words[0]
            elif kind == 'continue':
                self.continues.add(words[0])
            elif kind == 'base':
                self.bases[words[0]] = int(words[1])
            elif kind == 'row':
                self.rows.setdefault(words[0], []).append((int(words[1]), words[2]))
            elif kind == 'random':
                self.randoms[words[0]] = int(words[1]), int(words[2])
            elif kind == 'header':
                self.headers = 256 ** int(words[0])
        self.write_out()

    def write_out(self):
        """Lines that name a switch alone are of each of its inputs with a wire or a terminal that has no row of its own."""
        named = [{it: kept.pop(it, None) for it in self.switches} for kept in (self.rows, self.bases)]
        for port in [it for it in self.far if '.' in it and it not in self.rows]:
            rows, base = (it[port.split('.')[0]] for it in named)
            if rows:
                self.rows[port] = rows
            if base is not None:
                self.bases.setdefault(port, base)

    def random_headers(self, port):
        base, count = self.randoms[port]
        return sorted({(base + k) % self.headers for k in range(count or 1)})

    def tried(self):
        """The headers that are tried, in rising order."""
        places = {0, *self.bases.values()}
        places.update(limit for rows in self.rows.values() for limit, _ in rows)
        places.update(end for _, _, labels in self.terminals for end in (labels.start, labels.stop))
        places.update(end for base, count in self.randoms.values() for end in (base, base + (count or 1)))
        near = {(place + step) % self.headers for place in places for step in (-1, 0, 1)}
        return sorted(near)

    def select(self, port, header):
        low = self.bases.get(port, 0)
        for limit, select in self.rows.get(port, []):
            if low <= header < limit:
                return select
            low = limit
        return 'sink'

    def group(self, port, select):
        """The links of the group of the one that a row of this input selects."""
        switch, link = port.split('.')[0], int(select)
        first = last = link
        while '%s.%d' % (switch, first) in self.continues and first:
            first -= 1
        while '%s.%d' % (switch, last + 1) in self.continues:
            last += 1
        return ['%s.%d' % (switch, it) for it in range(first, last + 1)]

    def owner(self, header):
        return next((name for name, _, labels in self.terminals if header in labels), None)

    def walk(self, header, goal, walk, portals):
        """Walks on from the last input of a walk, depth first, to the terminal that is the goal; or, where there is
        none, to portals, which are listed as they are met."""
        port = walk[-1]
        select = self.select(port, header)
        if goal is None and select == 'discard':
            portals += [port] if port not in portals else []
            return
        if select in ('sink', 'discard'):
            raise Walk('6 DeadEnd', walk)
        for link in self.group(port, select):
            other = self.far.get(link)
            if other is None:
                raise Walk('6 DeadEnd', walk)
            if '.' not in other:
                if other != goal:
                    raise Walk('5 WrongEnd', walk)
            elif other in walk:
                raise Walk('7 Loop', [*walk, other])
            else:
                self.walk(header, goal, [*walk, other], portals)

    def enter(self, port, spared):
        """Walks each header from an input to its owner. One that nobody owns is sunk there, unless it is spared."""
        for header in self.tried():
            goal = self.owner(header)
            try:
                if goal is not None:
                    self.walk(header, goal, [port], [])
                elif header not in spared and self.select(port, header) != 'sink':
                    raise Walk('8 Stray', [port])
            except Walk as fault:
                return fault, header
        return None

    def enter_at_random(self, port, spared):
        """The same where random headers are put before packets: each comes to portals, and each portal is entered."""
        portals, tried = [], set(self.tried())
        for header in self.random_headers(port):
            if header in tried:
                try:
                    self.walk(header, None, [port], portals)
                except Walk as fault:
                    return fault, header
        return next((found for found in (self.enter(it, spared) for it in portals) if found), None)

    def answer(self):
        """What a check of the description prints."""
        for place, (name, _, labels) in enumerate(self.terminals):
            for other, _, others in self.terminals[place + 1:]:
                if max(labels.start, others.start) < min(labels.stop, others.stop):
                    return 'refused 1 RangesOverlap: %s %s' % (name, other)
        for name, _, labels in self.terminals:
            if labels.stop > self.headers:
                return 'refused 2 LabelTooLarge: %s' % name
        for port in ('%s.%d' % (switch, link) for switch in self.switches for link in LINKS):
            if port in self.randoms and '.' in self.far.get(port, '.'):
                return 'refused 10 RandomInside: %s' % port
        spared = {header for _, port, _ in self.terminals if port in self.randoms
                  for header in self.random_headers(port)}
        for name, port, _ in self.terminals:
            found = self.enter_at_random(port, spared) if port in self.randoms else self.enter(port, ())
            if found:
                fault, header = found
                return 'refused %s: from %s header %d walk %s' % (fault.fault, name, header, ' '.join(fault.walk))
        return 'accepted'
