"""`c104-page`: a page that plays a run, one HTML file which any browser shows offline.

All that it shows is in the tables of one run of `c104 rows`: `holds` and `packets`, and `ways` and `wishes` behind each round.
"""

from __future__ import annotations

import csv
import html
import json
import math
import os
import re
import sys
from collections.abc import Iterator, Mapping, Sequence
from itertools import groupby
from pathlib import Path
from typing import Any

from c104 import dot, layout
from c104.asked import Asked
from c104.draw import graphviz, put
from c104.marks import DrawnWire, Marks, drawn_wires, edges_of
from c104.network import Network, Peer
from c104.program import Program, exit_status
from c104.timeline import Bar, Period, clip, name_of, packet_of, read_holds
from c104.words import Parser, add_explain, add_sources

#: A run of more rounds is played up to here. How the network stands is left out where a run has more rounds times wires.
MOST_ROUNDS, MOST_READINGS = 10_000, 300_000
#: Room for what the page draws at the wires, if Graphviz places them. Networks with rings are drawn with these open.
ROOM = ('  graph [nodesep=0.8, ranksep=1.1, inputscale=45, sep="+14", esep="+10"]\n'
        "  node [width=0.8, height=0.6]\n  edge [len=2.1]\n")
OPEN = "  graph [layout=neato, overlap=scale]\n"
#: Terminals nearer to their switch than NEAR points are moved out, to this multiple of their distance.
NEAR, OUT = 60, 1.75
#: How much larger a layout is than in a picture that doesn't play, how much farther terminals stand from their switch, and
#: half the size of a node, in pixels.
LARGER, FARTHER, HALF = 1.45, 1.75, (27.0, 19.0)
Column = dict[str, list[list[int]]]
PAGE = """\
Writes a page that plays a run: one HTML file, which any browser shows offline.

Space plays and pauses, the arrows step, Page Up and Down take ten rounds, and Home and End lead to the ends. A packet is picked by
a click or from the list. The address may say where it begins: run.html#round=12&packet=a%200

A run is played up to round 10,000. In a run of more than 300,000 rounds times wires it isn't shown what waits and what is
wanted."""


class Roomy(dot.Frame):
    """A frame whose terminals stand further from their switches."""

    def __init__(self, frame: dot.Frame) -> None:
        super().__init__(frame.net)
        self.frame = frame

    def switch_place(self, number: int) -> dot.Place | None:
        return self.frame.switch_place(number)

    def terminal_place(self, number: int) -> dot.Place | None:
        place = self.frame.terminal_place(number)
        terminal = list(self.net.terminals.values())[number]
        centre = self.frame.switch_place(self.net.numbers[terminal.port.switch])
        if place is None or centre is None or math.dist(centre, place) >= NEAR:
            return place
        return round(centre[0] + OUT * (place[0] - centre[0])), round(centre[1] + OUT * (place[1] - centre[1]))


def wires_of(edges: Sequence[Sequence[DrawnWire]], frame: dot.Frame | None) -> list[list[Any]]:
    """Each wire: the number of its edge in the picture, and both ports, in a frame that which hangs higher first."""
    found = []
    for number, edge in enumerate(edges):
        for wire in edge:
            ends: tuple[Peer, Peer] = (wire.here, wire.there)
            if frame and frame.is_lower(edge[0].here, edge[0].there):
                ends = (wire.there, wire.here)
            found.append([number, *map(str, ends)])
    return found


def graphviz_picture(frame: dot.Frame, edges: Sequence[list[DrawnWire]]) -> str:
    """The network as Graphviz draws it."""
    nodes = [re.sub(r'^(  "[^"]+" \[label="[^"]*)"', r'\1\\n "', line) for line in dot.node_lines(Roomy(frame), None)]
    lines = []
    for number, edge in enumerate(edges):
        line = dot.edge_line(frame, edge, False)
        lines.append(re.sub(r'\[(?:taillabel="[^"]*", headlabel="[^"]*"|label="[^"]*")', f'[id="e{number}"', line, count=1))
    is_open = frame.hangs and len(frame.net.wires) >= len(frame.net.switches) > 1
    room = (ROOM + OPEN * is_open) if nodes else ""
    drawn = graphviz("".join([dot.HEAD, frame.layout, room, *nodes, *lines, "}\n"]), "svg").decode()
    return drawn[drawn.index("<svg"):]


def placed_picture(net: Network, places: layout.Layout, edges: Sequence[list[DrawnWire]]) -> str:
    """The network at fixed places, in the parts that the page looks for: nodes with titles, and a path for each edge."""
    points = {name: (x * LARGER, y * LARGER) for name, (x, y) in places.switches.items()}
    for terminal in net.terminals.values():
        (x, y), (u, v) = points[terminal.port.switch], places.switches[terminal.port.switch]
        px, py = places.terminals[terminal.name]
        points[terminal.name] = (x + FARTHER * (px - u), y + FARTHER * (py - v))
    left, top = (min((it[axis] for it in points.values()), default=0) - 60 for axis in (0, 1))
    wide, high = (max((it[axis] for it in points.values()), default=0) + 60 - least for axis, least in ((0, left), (1, top)))
    parts = [f'<svg width="{wide:.0f}pt" height="{high:.0f}pt" viewBox="{left:.1f} {top:.1f} {wide:.1f} {high:.1f}" '
             'xmlns="http://www.w3.org/2000/svg"><g class="graph">']
    for number, edge in enumerate(edges):
        parts.append(f'<g id="e{number}" class="edge">{edge_path(edge[0], edges, points, places)}</g>')
    for name, (x, y) in points.items():
        lines = [name, *labels_of(net, name)]
        if name in net.terminals:
            outline = f'<ellipse cx="{x:.1f}" cy="{y:.1f}" rx="{HALF[0]}" ry="{HALF[1]}"/>'
        else:
            corners = [(x + dx * HALF[0], y + dy * HALF[1]) for dx, dy in ((-1, -1), (1, -1), (1, 1), (-1, 1))]
            outline = '<polygon points="{}"/>'.format(" ".join(f"{px:.1f},{py:.1f}" for px, py in corners))
        texts = "".join(f'<text x="{x:.1f}" y="{y + 4 + 11 * (it - (len(lines) - 1) / 2):.1f}" text-anchor="middle" '
                        f'font-size="10">{line}</text>' for it, line in enumerate(lines))
        parts.append(f'<g class="node"><title>{name}</title>{outline}{texts}</g>')
    return "\n".join([*parts, "</g></svg>", ""])


def labels_of(net: Network, name: str) -> list[str]:
    """The lines below the name of a terminal: its labels, and one that the page fills."""
    if name not in net.terminals:
        return []
    return [dot.labels_text(net.terminals[name]), ""]


def edge_path(
    wire: DrawnWire, edges: Sequence[list[DrawnWire]], points: Mapping[str, layout.Point], places: layout.Layout
) -> str:
    """The path of an edge from its first end to the other; edges between the same nodes lie side by side."""
    ends = [dot.node_name(wire.here), dot.node_name(wire.there)]
    beside = [edge[0] for edge in edges if {dot.node_name(edge[0].here), dot.node_name(edge[0].there)} == {*ends}]
    (x, y), (u, v) = points[ends[0]], points[ends[1]]
    length = math.dist((x, y), (u, v)) or 1
    right, down = (y - v) / length, (u - x) / length
    shift = (beside.index(wire) - (len(beside) - 1) / 2) * 26
    bend = 2 * (34 + 0.1 * length) if frozenset(ends) in places.bent else 0
    near = min(HALF[0] * length / max(abs(u - x), 1), HALF[1] * length / max(abs(v - y), 1), length / 3)
    start = (x + (u - x) * near / length + right * shift, y + (v - y) * near / length + down * shift)
    end = (u - (u - x) * near / length + right * shift, v - (v - y) * near / length + down * shift)
    middle = ((x + u) / 2 + right * (shift + bend), (y + v) / 2 + down * (shift + bend))
    return (f'<path fill="none" stroke="black" d="M{start[0]:.1f} {start[1]:.1f}Q{middle[0]:.1f} {middle[1]:.1f} '
            f'{end[0]:.1f} {end[1]:.1f}"/>')


def rows_of(table: str, last: int) -> Iterator[dict[str, str]]:
    """The rows of a table with a column `round`, up to a round."""
    for row in csv.DictReader(table.splitlines()):
        if int(row["round"]) > last:
            break
        yield row


def note(column: Column, key: str, number: str, value: int) -> None:
    """Notes what a key has from a round on, if it had another value; at first that is 0."""
    if value != (column[key][-1][1] if key in column else 0):
        column.setdefault(key, []).append([int(number), value])


def stands(ways: str, wishes: str, last: int) -> dict[str, Column]:
    """By round: tokens that wait to go out at a port, and that came in, who wants what, and which links are in a cycle. A row of
    the tables says what there is from its round on; the rows of an input that wants outputs are all that it wants."""
    found: dict[str, Column] = {"waits": {}, "came": {}, "wants": {}, "locked": {}}
    for row in rows_of(ways, last):
        for name, port, cell in (("waits", "port", "out"), ("came", "to", "in"), ("locked", "port", "locked")):
            if row[port]:
                note(found[name], row[port], row["round"], int(row[cell]))
    wanted: dict[str, Mapping[str, int]] = {}
    for (number, port), rows in groupby(rows_of(wishes, last), lambda row: (row["round"], row["input"])):
        values = {f"{name_of(packet_of(row))}/{port}/{row['output']}": 1 + int(row["locked"]) for row in rows if row["output"]}
        for key in {**wanted.get(port, {}), **values}:
            note(found["wants"], key, number, values.get(key, 0))
        wanted[port] = values
    return found


def cells_of(bar: Bar) -> list[str | int | None]:
    """A bar as the page has it."""
    packet = (bar.packet.sender, bar.packet.number) if bar.packet else (None, None)
    return [bar.port, bar.to, *packet, bar.first, bar.last, "moves" if bar.moves else "holds"]


def collect(asked: Asked, name: str, kind: str) -> tuple[str, dict[str, Any]]:
    """The picture, and all else that the page shows."""
    net, frame = asked.net, dot.frame_of(asked.net)
    edges = edges_of(net, drawn_wires(net, Marks()))
    wires = wires_of(edges, frame if kind == "dot" else None)
    if kind == "dot":
        picture = graphviz_picture(frame, edges)
    else:
        picture = placed_picture(net, layout.layout_of(net, kind), edges)
    run = asked.run("holds", "packets", "run", "ways", "wishes", each=True)
    bars, end = read_holds(run.texts["holds"])
    bars = clip(bars, Period(0, min(MOST_ROUNDS, end)))
    last = min(MOST_ROUNDS, max([bar.last for bar in bars] + [run.length]))
    is_read = (last + 1) * len(wires) <= MOST_READINGS
    return picture, {
        "name": name, "terminals": list(net.terminals), "wires": wires, "last": last,
        "packets": [it._asdict() for it in run.packets],
        "isRead": is_read, "buffer": net.buffer_tokens, "bars": [cells_of(bar) for bar in bars],
        **stands(run.texts["ways"], run.texts["wishes"], last if is_read else -1), "still": run.told()[1],
    }  # fmt: skip


def page_text(picture: str, data: Mapping[str, Any]) -> str:
    page = Path(__file__).with_name("page.html").read_text("utf-8")
    text = json.dumps(data, separators=(",", ":")).replace("<", "\\u003c")
    for mark, part in (("@NAME@", html.escape(data["name"])), ("@PICTURE@", picture), ("@DATA@", text)):
        page = page.replace(mark, part)
    return page


def parser() -> Parser:
    words = Parser("c104-page", PAGE, ("c104-page network.txt events.txt -o run.html",))
    add_sources(words)
    words.add_argument("-o", "--out", metavar="FILE", help="write to a file")
    places = "auto (the default), or one of " + ", ".join(layout.KINDS[1:]) + ", or as Graphviz places them, dot"
    words.add_argument("--layout", metavar="L", choices=("dot", *layout.KINDS), default="auto", help="where nodes stand: " + places)
    add_explain(words)
    return words


def main(line: Sequence[str] | None = None) -> int:
    words = parser().parse_args(line)
    asked = Asked(Program.find(words.explain), words)
    if not asked.has_script:
        parser().error(f'{words.network} has no line "script", so SCRIPT is wanted')
    asked.cut(MOST_ROUNDS)
    name = ", ".join(os.path.basename(source) for source in (words.network, words.script) if source)
    put(words.out, page_text(*collect(asked, name, words.layout)).encode(), words.explain)
    return asked.status


if __name__ == "__main__":
    sys.exit(exit_status(main))
