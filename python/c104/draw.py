"""`c104-draw`: pictures of networks, of how they stand, and of runs over their rounds."""

from __future__ import annotations

import argparse
import os
import shutil
import subprocess
import sys
from collections.abc import Sequence
from pathlib import Path

from c104 import figures, layout, timeline
from c104.asked import Asked
from c104.dot import Frame, dot_text, frame_of
from c104.marks import Marks, cycle_marks, header_marks
from c104.plot import Figure
from c104.program import UNREADABLE, Answer, Program, ProgramError, Refused, exit_status, fault, write
from c104.rows import FORMATS, Rows
from c104.state import TITLE, TITLE_OF_LOCKED, State, read_state, state_lines
from c104.timeline import Bar, Names, Period
from c104.waves import vcd_text
from c104.ways import Ways
from c104.words import Parser, add_explain, add_sources, number

#: The endings of files that are pictures. Others are text for Graphviz, or of --over-time SVG.
PICTURES = (".svg", ".png", ".pdf")
MOST = 2**32 - 1
PAGE = """\
Draws the network of a description, as it is, as a script leaves it, or over the rounds of a script.

With -o x.svg, x.png or x.pdf a picture is made at fixed places, which depend on the wires alone: so all pictures of a network can
be laid side by side. PNG and PDF want rsvg-convert, and --layout dot wants Graphviz.

Without -o, or with another file than a picture, the text is printed that Graphviz draws: `c104-draw DESC | dot -Tsvg`. There
each switch is a box and each terminal an ellipse with its labels. Meshes and cubes have fixed places, and other networks hang
from the root of their labels or the first switch. Wires between links of one group at both ends are one edge; those of a labelled
tree are wide, and others gray.

  --header     the links that a header may take are bold, its owner is filled, and if it is refused the walk that shows
               why is red. As a random header its way is dashed, up to diamonds at portals
  --cycles     the inputs of a cycle of channel dependencies are red
  --state      each link that a packet holds is an arrow in the packet's colour and pattern, with its name and how many tokens
               wait at its ends; it is gray if no packet holds it, and black if the packet's end is nowhere. A dotted arrow leads
               to an output that a header wants. Red ones wait for one another
  --over-time  rounds from left to right, as SVG: a row for each way over a wire, in which a packet is hatched in rounds in
               which it holds the wire and nothing crosses; or its rows as a table, or as waves for GTKWave, where a round is a
               microsecond
  --load       links by how much they carry: with a script the share of its rounds in which a token crosses, and without
               one how many pairs of a terminal and a label of another can use them

A picture over time that is too large is answered `draw 1 TooLarge`, with rounds that fit, and a switch of --only that isn't there
`draw 2 NoSwitch: S`. Of what is refused FILE stays as it was."""
EXAMPLES = ("c104-draw network.txt --header 6 | dot -Tsvg > ways.svg", "c104-draw network.txt events.txt --state -o state.png",
            "c104-draw network.txt events.txt --over-time --from 100 --to 200 -o run.svg")
REFUSED = "the description, a line of the script or what is asked of them was refused"


def parser() -> Parser:
    words = Parser("c104-draw", PAGE, EXAMPLES, REFUSED)
    add_sources(words)
    kind = words.add_mutually_exclusive_group()
    kind.add_argument("--header", metavar="N", type=number(0, 65535), help="mark the ways of a header")
    kind.add_argument("--cycles", action="store_true", help="mark a cycle of channel dependencies")
    kind.add_argument("--state", action="store_true", help="show the packets under way at the end of the script")
    kind.add_argument("--over-time", action="store_true", help="show the packets round by round")
    kind.add_argument("--load", action="store_true", help="show loads as heat")
    words.add_argument("--layout", metavar="L", choices=("dot", *layout.KINDS),
        help="where nodes stand in a picture: auto (the default), or one of " + ", ".join(layout.KINDS[1:])
        + ", or as Graphviz makes it of the text, dot")
    words.add_argument("-o", "--out", metavar="FILE", help="write to a file")
    words.add_argument("--most", metavar="N", type=float, help="with --load: where the scale ends; by default at the largest load")
    words.add_argument("--at", metavar="R", type=number(0, MOST),
        help="with --state or --load: of the script's first R rounds alone; `settle` may not come before")
    rounds = words.add_argument_group("with --over-time")
    rounds.add_argument("--from", dest="first", metavar="R", type=number(0, MOST),
        help="the first round; by default that of the first token that crosses a wire")
    rounds.add_argument("--to", dest="last", metavar="R", type=number(0, MOST),
        help="the last round; by default the last one, or the fifth after the last in which anything was done")
    rounds.add_argument("--scale", metavar="N", type=number(1, 64), help="how many pixels a round is wide; by default 8")
    rounds.add_argument("--only", metavar="S", action="append", help="the wires at this switch alone, or at several: A,B")
    rounds.add_argument("--names", action="store_true", help="write packets' names in bars that are long enough")
    said = "only this packet, as a:0, or all that a terminal sent, as a"
    rounds.add_argument("--packet", metavar="P", action="append", help=said)
    rounds.add_argument("--any-size", action="store_true", help="draw more than 1 MiB, and more than 32,767 pixels, too")
    rounds.add_argument("--format", metavar="F", choices=("svg", *FORMATS, "vcd"),
        help="svg, a table: table, csv or json, or waves for viewers of hardware: vcd; by default svg")
    add_explain(words)
    return words


#: The options that go with some of the others alone, by where their values are, and those others.
GO_WITH = {
    "--from": ("first", ("over_time",)), "--to": ("last", ("over_time",)), "--scale": ("scale", ("over_time",)),
    "--only": ("only", ("over_time",)), "--names": ("names", ("over_time",)), "--packet": ("packet", ("over_time",)),
    "--any-size": ("any_size", ("over_time",)), "--format": ("format", ("over_time",)), "--most": ("most", ("load",)),
    "--at": ("at", ("state", "load")), "SCRIPT": ("script", ("state", "over_time", "load")),
}  # fmt: skip


def words_of(line: Sequence[str] | None) -> argparse.Namespace:
    """The words of the command line, if they go together."""
    command = parser()
    words = command.parse_args(line)
    for option, (value, others) in GO_WITH.items():
        if getattr(words, value) not in (None, False) and not any(getattr(words, other) for other in others):
            command.error(f"{option} goes with " + " or ".join("--" + other.replace("_", "-") for other in others))
    if words.first is not None and words.last is not None and words.first > words.last:
        command.error("--from comes after --to, so no round is shown")
    if words.format not in (None, "svg") and (words.scale or words.names or words.any_size):
        command.error("--scale, --names and --any-size are for pictures")
    if words.layout and words.over_time:
        command.error("--over-time has no --layout")
    if words.load and words.layout == "dot":
        command.error("--load is drawn at fixed places, not by --layout dot")
    if words.most is not None and not 0 < words.most < float("inf"):
        command.error("--most is a number above 0")
    return words


def asked_of(program: Program, words: argparse.Namespace) -> Asked:
    """What the words name. A script has to be there where one is shown."""
    asked = Asked(program, words)
    if (words.state or words.over_time) and not asked.has_script:
        parser().error(f'{words.network} has no line "script", so SCRIPT is wanted')
    if words.header is not None and words.header >= asked.net.headers:
        parser().error(f"the headers of this network have one byte, 0 to 255: {words.header}")
    if words.at is not None and not asked.cut(words.at):
        parser().error("how many rounds `settle` does isn't known before --at")
    return asked


def names_of(asked: Asked) -> Names:
    return Names(asked.net.switches, list(asked.net.terminals))


def marks_of(asked: Asked, words: argparse.Namespace) -> Marks:
    if words.header is not None:
        return header_marks(asked.net, words.header, asked.program.header_rows(asked.description, words.header).output)
    if words.cycles:
        answer = asked.program.ask("cycles", asked.description)
        if answer.status > 1:
            raise ProgramError(answer)
        return cycle_marks(answer.output.rstrip("\n"))
    return Marks()


def state_of(asked: Asked) -> State:
    tables = asked.run("ways", "wishes").texts
    return read_state(tables["ways"], tables["wishes"])


def graph_text(asked: Asked, words: argparse.Namespace) -> str:
    """The network as text for Graphviz."""
    if not words.state:
        return dot_text(frame_of(asked.net), marks_of(asked, words))
    state, frame = state_of(asked), Frame(asked.net)
    title = TITLE_OF_LOCKED if state.is_locked else TITLE
    return dot_text(frame, Marks(title), state_lines(state, frame, names_of(asked)))


def figure_of(asked: Asked, words: argparse.Namespace) -> Figure:
    """What a picture at fixed places shows."""
    if words.state:
        return figures.standing(state_of(asked), names_of(asked))
    if not words.load:
        return figures.marked(asked.net, marks_of(asked, words))
    if asked.has_script:
        return figures.busy(asked.net, asked.run("links", "run"), words.most)
    asked.program.check(asked.description)
    return figures.pairs(asked.net, Ways(asked.net), words.most)


def rounds_text(asked: Asked, words: argparse.Namespace) -> str:
    """A run over its rounds."""
    only = [name for names in words.only or () for name in names.split(",")]
    for name in only:
        if name not in asked.net.numbers:
            told = f"c104: {words.network}: no switch has the name {name}\n"
            raise Refused(f"draw 2 NoSwitch: {name}", told if asked.program.is_explaining else "")
    bars, period = bars_of(asked, words)
    shown = timeline.at_switches(bars, set(only)) if only else bars
    if words.packet:
        shown = [bar for bar in shown if is_named(bar, words.packet)]
    if words.format in FORMATS:
        return table_text(timeline.clip(shown, period), words.format)
    if words.format == "vcd":
        return vcd_text(timeline.clip(shown, period))
    scale = words.scale or timeline.PLAIN_SCALE
    if words.any_size:
        return timeline.svg_text(timeline.clip(shown, period), names_of(asked), period, scale, words.names)
    try:
        return timeline.fitting_text(shown, names_of(asked), period, scale, words.names)
    except timeline.TooLarge as error:
        raise Refused(str(error)) from error


def bars_of(asked: Asked, words: argparse.Namespace) -> tuple[list[Bar], Period]:
    """The bars of the run, and the rounds that are shown: those that are asked for, up to the last one that is."""
    run = asked.run("holds", *(["rounds"] if words.first else []))
    bars, end = timeline.read_holds(run.texts["holds"])
    if words.first is not None and words.first > end:
        bars = timeline.held_on(bars, end, max(it.round for it in run.rounds))
    first = min((bar.first for bar in bars), default=0) if words.first is None else words.first
    return bars, Period(first, max(first, min(end, MOST if words.last is None else words.last)))


def is_named(bar: Bar, names: Sequence[str]) -> bool:
    return bar.packet is not None and (bar.packet.sender in names or f"{bar.packet.sender}:{bar.packet.number}" in names)


def table_text(bars: Sequence[Bar], form: str) -> str:
    """The bars as a table."""
    rows = Rows(form, ["port", "to", "sender", "number", "first", "last", "state"])
    for bar in bars:
        packet = (bar.packet.sender, bar.packet.number) if bar.packet else (None, None)
        rows.add([bar.port, bar.to, *packet, bar.first, bar.last, "moves" if bar.moves else "holds"])
    return rows.text()


def made_by(command: Sequence[str], text: str, package: str) -> bytes:
    """What a program of the system makes of a text."""
    if shutil.which(command[0]) is None:
        raise fault(f"{command[0]} is not installed; it is a part of {package}")
    made = subprocess.run(command, input=text.encode(), capture_output=True, check=False)
    if made.returncode:
        told = made.stderr.decode(errors="replace").strip() or f"status {made.returncode}"
        raise fault(f"{command[0]}: " + " ".join(told.split()))
    return made.stdout


def graphviz(text: str, form: str) -> bytes:
    """A picture of a text for Graphviz."""
    return made_by(["dot", f"-T{form}"], text, "Graphviz")


def converted(text: str, ending: str) -> bytes:
    """An SVG, or what is made of it for another ending."""
    if ending not in (".png", ".pdf"):
        return text.encode()
    form = [f"--format={ending[1:]}", *(["--zoom=2"] if ending == ".png" else [])]
    return made_by(["rsvg-convert", *form], text, "librsvg")


def put(path: str | None, data: bytes, is_explained: bool) -> None:
    """Writes to a file, or to standard output."""
    if path in (None, "-"):
        write(data.decode())
        return
    try:
        Path(path or "").write_bytes(data)
    except OSError as error:
        why = f"c104: {path}: {error.strerror} (os error {error.errno})\n" if is_explained else ""
        raise ProgramError(Answer(UNREADABLE, "", f"c104: cannot write {path}\n{why}")) from error


def picture(asked: Asked, words: argparse.Namespace) -> bytes:
    """What is drawn, as the command line asks for it."""
    ending = os.path.splitext(words.out or "")[1]
    is_picture = ending in PICTURES
    if words.over_time:
        return converted(rounds_text(asked, words), ending if words.format in (None, "svg") else "")
    if words.layout == "dot" or words.layout is None and not is_picture and not words.load:
        text = graph_text(asked, words)
        return graphviz(text, ending[1:]) if is_picture else text.encode()
    places = layout.layout_of(asked.net, words.layout or "auto")
    return converted(figures.svg(asked.net, places, figure_of(asked, words)), ending)


def main(line: Sequence[str] | None = None) -> int:
    words = words_of(line)
    asked = asked_of(Program.find(words.explain), words)
    put(words.out, picture(asked, words), asked.program.is_explaining)
    return asked.status


if __name__ == "__main__":
    sys.exit(exit_status(main))
