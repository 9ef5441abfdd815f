"""The tools, as commands: each asks the program `c104`, and ends with its status. `bin/c104-WORD` calls the one of that name."""

from __future__ import annotations

from functools import partial
from importlib import import_module

from c104.program import exit_status


def run(word: str) -> int:
    """The exit status of the tool `c104-WORD`."""

    def main() -> int | None:
        status: int | None = import_module(f"c104.{word}").main()
        return status

    return exit_status(main)


cuts = partial(run, "cuts")
draw = partial(run, "draw")
lockup = partial(run, "lockup")
page = partial(run, "page")
paths = partial(run, "paths")
plan = partial(run, "plan")
stats = partial(run, "stats")
sweep = partial(run, "sweep")
traffic = partial(run, "traffic")
