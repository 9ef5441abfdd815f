"""Asks the program `c104`.

    from c104.program import Description, Program

    program = Program.find()
    rows = program.rows("network.txt")              # what `c104 label network.txt --rows` prints
    answer = program.ask("check", "network.txt")    # any command: its status, output and errors
    if answer.status == 1: print(answer.first_line)
    run = program.tables(["network.txt", "events.txt"], "packets", "links")     # tables of one run, as CSV
    print(run.texts["packets"])

A command that may not fail raises `ProgramError`, which carries the status and what was printed. `exit_status` runs a tool's
`main`, so that whatever fails ends it by one line on standard error, and the status that the program has for that.
"""

from __future__ import annotations

import os
import shutil
import stat
import subprocess
import sys
from collections.abc import Callable, Iterable, Iterator, Mapping, Sequence
from contextlib import contextmanager
from dataclasses import dataclass, replace
from functools import cache
from pathlib import Path
from tempfile import TemporaryDirectory

DONE, REFUSED, USAGE, UNREADABLE, NO_MEMORY = range(5)
"""The program's exit statuses."""
INTERRUPTED = 130
MOST_BYTES = 18 << 20  # that are read of a pipe: the program refuses more than 1 MiB of a description and 16 of a script
UNKNOWN = ("error: unrecognized subcommand ", "error: unexpected argument ")
"""What a program of another version says of words that it doesn't know."""


@dataclass(frozen=True)
class Answer:
    """What a command printed, and the status with which it ended."""

    status: int
    output: str
    errors: str

    @property
    def first_line(self) -> str:
        """The first line of the output, or else of the errors, without its line feed."""
        return (self.output or self.errors).partition("\n")[0]


class ProgramError(Exception):
    """A command failed, or the program wasn't found. `answer` is what it printed."""

    def __init__(self, answer: Answer) -> None:
        super().__init__(answer.first_line)
        self.answer = answer

    def __reduce__(self) -> tuple[type[ProgramError], tuple[Answer]]:
        # so it can come from another process
        return ProgramError, (self.answer,)

    @property
    def status(self) -> int:
        """The exit status: 1 refused, 2 usage, 3 a file, 4 memory."""
        return self.answer.status

    @property
    def first_line(self) -> str:
        """The first line that the command printed."""
        return self.answer.first_line


class Refused(ProgramError):
    """This package refuses something itself: a line for standard output, status 1, and what people are told."""

    def __init__(self, line: str, told: str = "") -> None:
        super().__init__(Answer(REFUSED, line + "\n", told))


def fault(line: str, status: int = UNREADABLE) -> ProgramError:
    """An error that is one line on standard error."""
    return ProgramError(Answer(status, "", f"c104: {line}\n"))


@dataclass(frozen=True)
class Description:
    """A description or a script: a file by its path, or where `text` is there a text, which the program reads in its place."""

    path: str
    text: str | None = None

    @classmethod
    def of(cls, source: str | Path | Description) -> Description:
        """A source as a user names it. Standard input, which is the path `-`, and a pipe are read now, once for all commands."""
        if isinstance(source, Description):
            return source
        path = str(source)
        return cls(path, cls(path).read() if is_read_once(path) else None)

    @classmethod
    def of_text(cls, text: str) -> Description:
        """A text that is in no file."""
        return cls("-", text)

    def read(self) -> str:
        """The text itself. An unreadable file is told as the program tells it."""
        if self.text is not None:
            return self.text
        try:
            with open(0 if self.path == "-" else self.path, "rb", closefd=self.path != "-") as file:
                return decoded(file.read(MOST_BYTES) if is_read_once(self.path) else file.read())
        except OSError as error:
            raise fault(f"cannot read {self.path}") from error


Source = str | Path | Description
"""What is taken where a description or a script is wanted."""


def is_read_once(path: str) -> bool:
    """Whether what a path names can be read but once: standard input, a pipe or a device."""
    try:
        return path == "-" or Path(path).is_fifo() or Path(path).is_char_device()
    except OSError:
        return False


def sources_of(network: str, script: str | None) -> list[Source]:
    """What a command line names: DESC, and SCRIPT unless that is in DESC. Of both only one can be a pipe, but `- -` is one text
    of both, whose script may be left out."""
    if network == script == "-":
        text = Description("-").read()
        return [Description("-", text if has_script(text) else f"{text}\nscript\n")]
    if script is None:
        return [Description.of(network)]
    if is_read_once(network) and is_read_once(script) and same_file(network, script):
        raise fault(f"{network} can be read but once, and so can't be DESC and SCRIPT", USAGE)
    return [Description.of(network), Description.of(script)]


def has_script(text: str) -> bool:
    """Whether a text has a line `script`, behind which its script is."""
    return any(line.partition("#")[0].split() == ["script"] for line in text.split("\n"))


def same_file(path: str, other: str) -> bool:
    """Whether two paths name one file."""
    try:
        one, two = (os.fstat(0) if it == "-" else os.stat(it) for it in (path, other))
    except OSError:
        return False
    return os.path.samestat(one, two) and not stat.S_ISREG(one.st_mode)


@dataclass(frozen=True)
class Tables:
    """Tables of one run, each as CSV, by the words that name them, and the program's answer: what it told of the run, and 1 as
    its status if the run ended early."""

    texts: Mapping[str, str]
    answer: Answer


@dataclass(frozen=True)
class Program:
    """The program `c104`, by its path, and whether it explains what is wrong on standard error."""

    path: str
    is_explaining: bool = False

    @classmethod
    def find(cls, is_explaining: bool = False) -> Program:
        """The one that the environment's C104 names, else `build/c104` of this package's tree, or `build/fast/c104` where
        that is missing or older than its sources, or the one beside an installed tool, else that of PATH."""
        named = os.environ.get("C104") or _nearest()
        if named is None:
            raise fault("not found: set C104 to its path, or put it on PATH")
        return cls(named, is_explaining)

    @contextmanager
    def command(self, words: Iterable[str | Source]) -> Iterator[tuple[list[str], dict[str, str]]]:
        """The words of a command line. Texts are in files meanwhile; with them the names that users know these by."""
        with TemporaryDirectory(prefix="c104-") as room:
            line = [self.path, *["--explain"] * self.is_explaining]
            names: dict[str, str] = {}
            for word in words:
                if isinstance(word, Description) and word.text is not None:
                    place = Path(room, str(len(names)))
                    place.write_bytes(encoded(word.text))
                    names[str(place)] = word.path
                    line.append(str(place))
                else:
                    line.append(_word(word))
            yield line, names

    def ask(self, *words: str | Source) -> Answer:
        """Runs a command, and returns its answer, whatever its status is."""
        with self.command(words) as (line, names):
            try:
                ended = subprocess.run(line, stdin=subprocess.DEVNULL, capture_output=True, check=False)
            except OSError as error:
                raise fault(f"cannot run {self.path}: {error.strerror}") from error
            errors = _renamed(decoded(ended.stderr), names)
            return self._judged(Answer(ended.returncode, decoded(ended.stdout), errors))

    def _judged(self, answer: Answer) -> Answer:
        """An answer, unless the program was ended by a signal, or is of a version that doesn't know what it was asked. Of wrong
        usage one line is enough."""
        if answer.status < 0:
            raise fault(f"{self.path} was ended by signal {-answer.status}")
        if answer.status == USAGE and answer.errors.startswith(UNKNOWN):
            raise self.other_version(answer.errors.split("'")[1])
        if answer.status == USAGE:
            return replace(answer, errors=answer.errors.partition("\n")[0].replace("error: ", "c104: ", 1) + "\n")
        return answer

    def other_version(self, word: str) -> ProgramError:
        """The error of a program that isn't of this package's version."""
        return fault(f"{self.path} is of another version than this tool: it has no `{word}`")

    def get(self, *words: str | Source) -> str:
        """Runs a command that has to be done, and returns its output."""
        answer = self.ask(*words)
        if answer.status != DONE:
            raise ProgramError(answer)
        return answer.output

    def lines(self, *words: str | Source) -> Iterator[str]:
        """The lines of such a command, one by one as it prints them: for output that is too long to be kept."""
        with self.command(words) as (line, names), subprocess.Popen(
            line, stdin=subprocess.DEVNULL, stdout=subprocess.PIPE, stderr=subprocess.PIPE, text=True, errors="surrogateescape"
        ) as process:
            assert process.stdout is not None and process.stderr is not None
            last = ""
            for last in process.stdout:
                yield last.rstrip("\n")
            errors = process.stderr.read()
            if process.wait() != DONE:
                raise ProgramError(self._judged(Answer(process.returncode, last, _renamed(errors, names))))

    def rows(self, description: Source, without: Iterable[object] = ()) -> str:
        """The network of a description with its labels, as plain lines below one of its shape: `label DESC --rows`, without the
        wires at some ports. Refused labels are there too."""
        text = self.get("label", "--rows", *(word for port in without for word in ("--without", str(port))), description)
        if not text.startswith("# shape "):
            raise self.other_version("rows")
        return text

    def check(self, description: Source) -> None:
        """Raises ProgramError, with the first fault, unless all labels lead home: `check DESC`."""
        self.get("check", description)

    def header_rows(self, description: Source, header: int) -> Answer:
        """By which links a header may leave, as CSV, and behind that the fault of a refused one, status 1:
        `check DESC --header N --rows`."""
        answer = self.ask("check", description, "--header", str(header), "--rows")
        if answer.status not in (DONE, REFUSED) or not answer.output.startswith("port,"):
            raise ProgramError(answer)
        return answer

    def cycles(self, description: Source) -> str | None:
        """The cycle of channel dependencies that is found, as inputs with headers, `B.2(2) C.2(3)`; or none."""
        answer = self.ask("cycles", description)
        if answer.output == "acyclic\n":
            return None
        if not answer.output.startswith("cycle "):
            raise ProgramError(answer)
        return answer.output.removeprefix("cycle ").rstrip("\n")

    def tables(self, sources: Sequence[Source], *names: str, options: Sequence[str] = ()) -> Tables:
        """Tables of one run, of a description and of a script unless that is in the description: `rows DESC [SCRIPT]`. Names are
        `packets`, `links`, `rounds`, `run`, `holds`, `ways` and `wishes`; an option is `--each`."""
        with TemporaryDirectory(prefix="c104-") as room:
            wanted = [word for name in names for word in ("--what", name)]
            answer = self.ask("rows", *sources, *wanted, "--out", f"{room}/run", *options)
            files = {name: Path(room, f"run-{name}.csv") for name in names}
            if not all(file.is_file() for file in files.values()) or answer.status not in (DONE, REFUSED):
                raise self.other_version("rows") if answer.status == DONE else ProgramError(answer)
            return Tables({name: decoded(file.read_bytes()) for name, file in files.items()}, answer)

    def run_rows(self, description: Source, script: Source, what: str) -> str:
        """One table of a run."""
        return self.tables([description, script], what).texts[what]


@cache
def _nearest() -> str | None:
    """The program that is found where none is named. It is looked for once, and told of once where it is unproved."""
    top = Path(__file__).resolve().parents[2]
    proved, fast = top / "build" / "c104", top / "build" / "fast" / "c104"
    if fast.is_file() and (not proved.is_file() or _is_outdated(proved, fast)):
        _tell(f"c104: asks {fast}, which is unproved: build/c104 is missing or older than its sources\n")
        return str(fast)
    if top.parts[-2:] == ("share", "c104"):  # installed
        proved = top.parents[1] / "bin" / "c104"
    return str(proved) if proved.is_file() else shutil.which("c104")


def _is_outdated(proved: Path, fast: Path) -> bool:
    """Whether a source is newer than the proved program. They are looked through only where the fast one was built later."""
    built, top = proved.stat().st_mtime, proved.parents[1]
    if fast.stat().st_mtime <= built:
        return False
    for folder, folders, files in os.walk(top / "crates"):
        folders[:] = [it for it in folders if it != "out"]
        if any(os.lstat(os.path.join(folder, it)).st_mtime > built for it in files):
            return True
    return os.stat(top / "crates.txt").st_mtime > built


def decoded(text: bytes) -> str:
    """A text in which bytes that aren't UTF-8 are kept."""
    return text.decode("utf-8", "surrogateescape")


def encoded(text: str) -> bytes:
    """The bytes of a text, as they were read."""
    return text.encode("utf-8", "surrogateescape")


def _word(word: str | Source) -> str:
    """A word of a command line. A path isn't taken for an option."""
    if isinstance(word, str):
        return word
    path = word.path if isinstance(word, Description) else str(word)
    return f"./{path}" if path.startswith("-") and path != "-" else path


def _renamed(text: str, names: Mapping[str, str]) -> str:
    """A text in which files are named as users know them."""
    for place, name in names.items():
        text = text.replace(place, name)
    return text


def write(text: str) -> None:
    """Writes to standard output, with line ends as they are, and bytes that aren't UTF-8 as they were read."""
    if sys.stdout is None:
        raise fault("cannot write")
    sys.stdout.flush()
    sys.stdout.buffer.write(encoded(text))
    sys.stdout.buffer.flush()


def save(path: str | Path, text: str) -> None:
    """Writes a file."""
    try:
        Path(path).write_bytes(encoded(text))
    except OSError as error:
        raise fault(f"cannot write {path}") from error


def exit_status(main: Callable[[], int | None]) -> int:
    """The exit status of a tool's `main`. What a failed command printed is passed on, as the program printed it, and what else
    fails is told in one line."""
    try:
        status = _run(main)
        if sys.stdout is not None:
            sys.stdout.flush()
        return status
    except KeyboardInterrupt:
        status = INTERRUPTED
    except OSError as error:
        status = UNREADABLE
        is_output = error.filename is None
        _tell("c104: cannot write\n" if is_output else f"c104: {error.filename}: {error.strerror}\n")
    if sys.stdout is not None:
        os.dup2(os.open(os.devnull, os.O_WRONLY), sys.stdout.fileno())
    return status


def _run(main: Callable[[], int | None]) -> int:
    """The status of `main`, or that of what failed."""
    for stream in (sys.stdout, sys.stderr):
        if stream is not None and hasattr(stream, "reconfigure"):
            stream.reconfigure(encoding="utf-8", errors="surrogateescape", newline="")
    try:
        return main() or DONE
    except SystemExit as end:  # argparse has printed a page, or what is wrong usage
        if not isinstance(end.code, int):
            raise
        return end.code
    except ProgramError as error:
        if error.answer.output:
            write(error.answer.output)
        _tell(error.answer.errors)
        return error.status
    except MemoryError:
        _tell("c104: no memory\n")
        return NO_MEMORY


def _tell(text: str) -> None:
    """Writes to standard error, if there is one."""
    if sys.stderr is not None:
        sys.stderr.write(text)
