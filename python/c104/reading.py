"""Reads the lines of a labelled network, as `c104 label DESC --rows` prints them."""

from __future__ import annotations

from dataclasses import dataclass, field

from c104.parts import LINKS, Port, RandomHeaders, Select, Table, Terminal, Wire


@dataclass
class Reader:
    """Takes the lines one by one. A line that is none of theirs is a ValueError."""

    header_bytes: int = 1
    buffer_tokens: int = 16
    switches: list[str] = field(default_factory=list)
    terminals: dict[str, Terminal] = field(default_factory=dict)
    wires: list[Wire] = field(default_factory=list)
    bases: dict[str, int] = field(default_factory=dict)
    rows: dict[str, list[tuple[int, Select]]] = field(default_factory=dict)
    randoms: dict[Port, RandomHeaders] = field(default_factory=dict)
    continued: set[Port] = field(default_factory=set)
    deleted: set[str] = field(default_factory=set)
    shape: tuple[str, ...] = ("hand",)
    next_label: int = 0
    made: dict[Table, Table] = field(default_factory=dict)

    def read(self, text: str) -> Reader:
        """Takes the lines of a text, up to a line `script`."""
        for line in text.split("\n"):
            if line.startswith("# shape "):
                self.shape = tuple(line.split()[2:])
            words = line.partition("#")[0].split()
            if words == ["script"]:
                break
            if words:
                self.take(words)
        return self

    def take(self, words: list[str]) -> None:
        """Takes a line, by its words."""
        match words:
            case ["header", count]:
                self.header_bytes = int(count)
            case ["buffer", tokens]:
                self.buffer_tokens = int(tokens)
            case ["switch", name]:
                self.switches.append(name)
            case ["terminal", name, port, *options]:
                self.take_terminal(name, Port.parse(port), dict(zip(options[::2], map(int, options[1::2]))))
            case ["wire", one, other]:
                self.wires.append((Port.parse(one), Port.parse(other)))
            case ["continue", port]:
                self.continued.add(Port.parse(port))
            case ["delete", name]:
                self.deleted.add(name)
            case ["base", at, label]:
                self.bases[at] = int(label)
            case ["row", at, limit, select]:
                self.rows.setdefault(at, []).append((int(limit), int(select) if select.isdigit() else select))
            case ["random", port, base, count]:
                self.randoms[Port.parse(port)] = RandomHeaders(int(base), int(count))
            case _:
                raise ValueError(f"no line of a labelled network: {' '.join(words)}")

    def take_terminal(self, name: str, port: Port, options: dict[str, int]) -> None:
        """Takes a terminal, whose labels begin where those of the one before ended, unless an option says where."""
        first = options.get("from", self.next_label)
        self.next_label = first + options.get("labels", 1)
        self.terminals[name] = Terminal(name, port, range(first, self.next_label))

    def table(self, port: Port, is_wired: bool) -> Table:
        """Its own rows, or those of its switch if it has none and is wired; and its own base, or that which goes with them."""
        own = self.rows.get(str(port))
        shared = () if own is not None or not is_wired else self.rows.get(port.switch, ())
        base = 0 if own is not None or not is_wired else self.bases.get(port.switch, 0)
        table = Table(self.bases.get(str(port), base), tuple(own if own is not None else shared))
        return self.made.setdefault(table, table)

    def tables(self) -> dict[Port, Table]:
        """The table of each input that has one."""
        wired = {port for wire in self.wires for port in wire} | {terminal.port for terminal in self.terminals.values()}
        ports = (Port(switch, link) for switch in self.switches for link in range(LINKS))
        tables = {port: self.table(port, port in wired) for port in ports}
        return {port: table for port, table in tables.items() if table != Table()}
