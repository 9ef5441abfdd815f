"""What is drawn: the network of a description, and the run of a script on it, as a command line names them."""

from __future__ import annotations

import argparse
import re
import sys
from collections.abc import Sequence
from functools import cached_property

from c104.network import Network
from c104.program import DONE, Description, Program, sources_of
from c104.runs import Run

MOST_IN_LINE = 10_000
SCRIPT_LINE = re.compile(r"^[ \t\r]*script[ \t\r]*(?:#.*)?$\n?", re.MULTILINE)


def halves(text: str) -> tuple[str, str | None]:
    """A description, and the script behind its line `script`, if it has one."""
    parts = SCRIPT_LINE.split(text, maxsplit=1)
    return parts[0], parts[1] if len(parts) > 1 else None


def first_rounds(script: str, count: int) -> str | None:
    """The lines of a script up to `count` rounds, the last line cut to fit; what comes behind the last round is left out. None
    if a line `settle` comes before, since how many rounds that does isn't known."""
    found: list[str] = []
    for line in script.split("\n"):
        words = line.partition("#")[0].split()
        if words[:1] == ["settle"]:
            return None
        rounds = rounds_of(words)
        if rounds > count:
            return "\n".join([*found, " ".join(["rounds", str(count), *words[2:]]), ""] if count else [*found, ""])
        found.append(line)
        count -= rounds
    return "\n".join(found)


def rounds_of(words: Sequence[str]) -> int:
    """How many rounds a line of these words does: up to 10,000."""
    is_line = len(words) > 1 and words[0] == "rounds" and words[1].isascii() and words[1].isdigit() and len(words[1]) < 20
    return int(words[1]) if is_line and int(words[1]) <= MOST_IN_LINE else 0


class Asked:
    """The network, and the run of the script if there is one. `status` is that of what was asked so far."""

    def __init__(self, program: Program, words: argparse.Namespace) -> None:
        self.program = program
        self.sources = [Description.of(source) for source in sources_of(words.network, words.script)]
        self.description = self.sources[0]
        self.net = Network.load(program, self.description)
        self.status = DONE

    @cached_property
    def script(self) -> str | None:
        """The text of the script, if there is one."""
        return self.sources[1].read() if len(self.sources) > 1 else halves(self.description.read())[1]

    @property
    def has_script(self) -> bool:
        return len(self.sources) > 1 or self.script is not None

    def cut(self, count: int) -> bool:
        """Leaves of the script what comes up to `count` rounds, if it is known which lines that are."""
        rest = first_rounds(self.script or "", count)
        if rest is not None and self.has_script:
            self.sources = [self.description, Description(self.sources[-1].path, rest)]
        return rest is not None

    def run(self, *tables: str, each: bool = False) -> Run:
        """The run, with these tables, the states among them behind each round or at its end. Of what is told of it only what
        ended it early is passed on, unless all is to be explained: a picture shows what stands still."""
        found = self.program.tables(self.sources, *tables, options=["--each"] if each else [])
        run = Run(self.program, [*self.sources], dict(found.texts), found.answer)
        self.status = max(self.status, found.answer.status)
        told = found.answer.errors if self.program.is_explaining else "".join(f"{line}\n" for line in run.told()[0])
        if sys.stderr is not None:
            sys.stderr.write(told)
        return run
