"""The tools of bin, which ask a program: a runner of the cases of one of them."""

import os

from case_runner import TOP, Runner


class Tool(Runner):
    """Runs `bin/c104-WORD` over the program of a runner, which counts its cases."""

    def __init__(self, runner, word):
        super().__init__(self.command(word, runner.program[0]), runner.kind, runner.names)
        self.runner = runner

    @staticmethod
    def command(word, program):
        """The tool over a program. A warning of Python's is an error."""
        return ['env', 'C104=' + program, 'PYTHONWARNINGS=error', os.path.join(TOP, 'bin', 'c104-' + word)]

    def judge(self, name, wrong):
        self.runner.judge(name, wrong)


def tool_parts(word, parts):
    """The parts of a kind whose cases are those of a tool."""
    return [lambda runner, part=part: part(Tool(runner, word)) for part in parts]
