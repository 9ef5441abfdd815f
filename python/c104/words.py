"""The command line of a tool: its page of help, what is wrong usage, and how numbers are read.

    parser = Parser("c104-stats", "Runs a script, and prints ..", examples=["c104-stats network.txt events.txt"])
    add_sources(parser)
    parser.add_argument("--to", type=number(0, 9), metavar="R", help="the last round")

Wrong usage ends the tool with status 2 and one line on standard error. An option that takes a value may be given once, but for
those of action `append`.
"""

from __future__ import annotations

import argparse
import re
import sys
from collections.abc import Callable, Sequence
from fractions import Fraction
from typing import Any, NoReturn

from c104.program import USAGE, write

REFUSED = "the description, its labels or a line of the script was refused"


class Once(argparse.Action):
    """Stores the value of an option, which may not be given again."""

    def __call__(self, parser: argparse.ArgumentParser, given: argparse.Namespace, values: Any, option: str | None = None) -> None:
        if option is not None and isinstance(parser, Parser):
            if self.dest in parser.given:
                parser.error(f"{option} is given twice")
            parser.given.add(self.dest)
        setattr(given, self.dest, values)


class Parser(argparse.ArgumentParser):
    """The words that a tool takes, and its page. `refused` says what status 1 means."""

    def __init__(self, name: str, page: str, examples: Sequence[str] = (), refused: str = REFUSED) -> None:
        super().__init__(prog=name, description=page, epilog=_epilog(examples, refused), allow_abbrev=False,
                         formatter_class=argparse.RawDescriptionHelpFormatter)
        self.register("action", None, Once)
        self.register("action", "store", Once)
        self.given: set[str] = set()

    def print_help(self, file: Any = None) -> None:
        """Prints the page. argparse itself passes over an output that can't be written."""
        write(self.format_help())

    def error(self, message: str) -> NoReturn:
        """Ends the tool, which was called in a wrong way."""
        self.exit(USAGE, f"{self.prog}: {message}; see `{self.prog} --help`\n")


def _epilog(examples: Sequence[str], refused: str) -> str:
    """What ends a page: examples and statuses."""
    shown = ["Examples:", *(f"  {it}" for it in examples), ""] if examples else []
    return "\n".join([
        *shown, "Exit status:", "  0  done", f"  1  {refused}", "  2  the command line is wrong",
        "  3  a file can't be read or written, or `c104` can't be run", "  4  out of memory", "",
        "The program `c104` is the one that the environment's C104 names, else build/c104 of this tree, or",
        "build/fast/c104 where that is missing or older than its sources, else that of PATH."])


def add_description(parser: argparse.ArgumentParser) -> None:
    """The word DESC."""
    parser.add_argument("network", metavar="DESC", help="the description: a file, or - for standard input")


def add_sources(parser: argparse.ArgumentParser) -> None:
    """The words DESC and SCRIPT."""
    add_description(parser)
    parser.add_argument("script", metavar="SCRIPT", nargs="?",
                        help="the script: a file, or -; by default what follows a line `script` in DESC")


def add_explain(parser: argparse.ArgumentParser) -> None:
    """The option --explain."""
    parser.add_argument("--explain", action="store_true", default=sys.stderr is not None and sys.stderr.isatty(),
                        help="explain on standard error what is wrong; the default on a terminal")


def number(least: int, most: int) -> Callable[[str], int]:
    """What reads a word of the command line as a number in a range."""

    def read(word: str) -> int:
        if not word.isascii() or not word.isdigit() or len(word) > 20 or not least <= int(word) <= most:
            raise argparse.ArgumentTypeError(f"{word} is no number from {least} to {most}")
        return int(word)

    return read


def decimal(most: int, places: int) -> Callable[[str], Fraction]:
    """What reads a word as a number above 0 with at most `places` digits behind its point."""

    def read(word: str) -> Fraction:
        if not re.fullmatch(rf"[0-9]{{1,20}}(\.[0-9]{{1,{places}}})?", word) or not 0 < Fraction(word) <= most:
            raise argparse.ArgumentTypeError(f"{word} is no number from {10 ** -places:.{places}f} to {most}")
        return Fraction(word)

    return read
