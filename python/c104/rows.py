"""Rows of cells as the program prints them: a table for people, CSV or JSON.

    rows = Rows("csv", ["port", "share"])
    rows.add(["A.0", thousandths(1, 2)])        # 0.500
    print(rows.text(), end="")

A cell is a text, an int, a `Thousandths`, or None where there is nothing.
"""

from __future__ import annotations

from collections.abc import Sequence
from dataclasses import dataclass, field
from fractions import Fraction
from typing import NamedTuple

FORMATS = ("table", "csv", "json")
LEAST_WIDTH = 8
GAP = 2
NAME_WIDTH = 19


class Thousandths(NamedTuple):
    """A number of thousandths, printed with three decimals."""

    number: int

    def __str__(self) -> str:
        return "%d.%03d" % divmod(self.number, 1000)


def thousandths(number: int | Fraction, among: int | Fraction = 1) -> Thousandths | None:
    """A quotient of two exact numbers, rounded down to thousandths; none among none."""
    return Thousandths(int(number * 1000 // among)) if among else None


Cell = str | int | Thousandths | None


@dataclass
class Rows:
    """Rows under the names of their columns. `beside`: a table's only row has a line for each cell, with its name."""

    format: str
    columns: Sequence[str]
    beside: bool = False
    rows: list[Sequence[Cell]] = field(default_factory=list)

    def add(self, cells: Sequence[Cell]) -> None:
        """Adds a row, which has a cell for each column."""
        self.rows.append(cells)

    def text(self) -> str:
        """All rows, with line ends as the format has them: RFC 4180 for CSV."""
        match self.format:
            case "csv":
                lines = [self.columns, *([_csv(cell) for cell in row] for row in self.rows)]
                return "".join(",".join(line) + "\r\n" for line in lines)
            case "json":
                return "[" + ",".join("\n{" + self._members(row) + "}" for row in self.rows) + "\n]\n"
        if not self.beside:
            return self._columns_text()
        cells = (zip(self.columns, map(_shown, row)) for row in self.rows)
        return "".join(f"{name:<{NAME_WIDTH}}{cell}\n" for row in cells for name, cell in row)

    def _members(self, row: Sequence[Cell]) -> str:
        return ", ".join(f'"{name}": {_json(cell)}' for name, cell in zip(self.columns, row))

    def _columns_text(self) -> str:
        lines = [list(self.columns), *([_shown(cell) for cell in row] for row in self.rows)]
        widths = [max(LEAST_WIDTH, *map(_width, cells)) + GAP for cells in zip(*lines)]
        return "".join(_padded(line, widths) + "\n" for line in lines)


def _padded(line: list[str], widths: list[int]) -> str:
    filled = (cell + " " * (width - _width(cell)) for cell, width in zip(line[:-1], widths))
    return "".join(filled) + line[-1]


def _width(text: str) -> int:
    """In bytes, as the program counts."""
    return len(text) if text.isascii() else len(text.encode("utf-8", "surrogateescape"))


def _shown(cell: Cell) -> str:
    if cell is None:
        return "-"
    text = str(cell)
    return text if text.isprintable() else "".join("?" if letter < " " else letter for letter in text)


def _csv(cell: Cell) -> str:
    text = "" if cell is None else str(cell)
    if text.isalnum() or not any(letter in text for letter in ',"\r\n'):
        return text
    return '"' + text.replace('"', '""') + '"'


def _json(cell: Cell) -> str:
    if cell is None:
        return "null"
    if isinstance(cell, str):
        return '"' + "".join(_json_letter(letter) for letter in cell) + '"'
    return str(cell)


def _json_letter(letter: str) -> str:
    if letter < " ":
        return f"\\u{ord(letter):04x}"
    return "\\" + letter if letter in '"\\' else letter
