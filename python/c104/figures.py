"""What the pictures at fixed places show: marked ways, a state, or loads."""

from __future__ import annotations

from collections.abc import Mapping
from fractions import Fraction

from c104.layout import Layout
from c104.marks import Marks, Stroke, drawn_wires
from c104.network import Network, Peer
from c104.plot import DARK, Figure, Lane, Plot, Want, heat_color
from c104.rows import thousandths
from c104.runs import Run
from c104.state import State, Way
from c104.timeline import Names, color_of, name_of, pattern_of
from c104.ways import Ways

RED = "#d62728"
OWN = Lane(DARK, 3.2, label="")
RANDOM = Lane("#4c78a8", 2.4, dash="5 3", arrow="empty")


def svg(net: Network, layout: Layout, figure: Figure) -> str:
    return Plot(net, layout, figure).text()


def marked(net: Network, marks: Marks) -> Figure:
    """The ways of a header, a refused walk, or a cycle; or nothing, where nothing is marked."""
    lanes: dict[Peer, Lane] = {}
    for wire in drawn_wires(net, marks):
        for port, stroke in ((wire.here, wire.onward), (wire.there, wire.back)):
            if stroke.is_marked:
                lanes[port] = marked_lane(stroke)
    legend: list[tuple[Lane, str]] = []
    if any(not lane.dash and lane.color != RED for lane in lanes.values()):
        legend.append((OWN, "ways of the header"))
    if any(lane.dash for lane in lanes.values()):
        legend.append((RANDOM, "as a random header, up to a diamond"))
    if any(lane.color == RED for lane in lanes.values()):
        legend.append((Lane(RED, 3.2), "the cycle" if marks.title.startswith("cycle") else "the walk that is refused"))
    return Figure([marks.title], lanes, owner=marks.owner, legend=legend, quiet=bool(lanes))


def marked_lane(stroke: Stroke) -> Lane:
    if stroke.red:
        return Lane(RED, 3.2)
    if stroke.bold:
        return OWN
    return Lane(RANDOM.color, RANDOM.width, RANDOM.dash, arrow="diamond" if stroke.portal else "empty")


def standing(state: State, names: Names) -> Figure:
    """The network as it stands."""
    lanes = {way.port: state_lane(way, names) for way in state.ways}
    wants = [Want(wish.input, wish.output, RED if wish.locked else color_of(wish.packet, names), wish.locked,
                  f"{name_of(wish.packet)}: {wish.input} wants {wish.output}") for wish in state.wishes]
    held = sum(way.held for way in state.ways)
    tokens = sum(way.tokens_out + way.tokens_in for way in state.ways)
    legend = [(Lane("#555555", 2), "a packet holds the link"), (Lane("#aaaaaa", 1), "none does, but tokens wait"),
              (Lane("#555555", 1.8, "1.5 3", arrow="empty"), "an output that is wanted")]
    if state.is_locked:
        legend.append((Lane(RED, 4), "these wait for one another, and nothing moves"))
    title = [f"{held} links held, {tokens} tokens at ends of links" + (", locked up" if state.is_locked else "")]
    return Figure(title, lanes, wants, legend=legend, quiet=True, gap=5)


def state_lane(way: Way, names: Names) -> Lane:
    told = f"{way.port} to {way.to}: " if way.to is not None else f"{way.port}: "
    told += f"{name_of(way.packet) if way.held else 'no packet'}, {way.tokens_out} to go out, {way.tokens_in} came in"
    if not way.held:
        return Lane("#aaaaaa", 1, told=told, tokens_out=way.tokens_out, tokens_in=way.tokens_in)
    pattern = pattern_of(way.packet, names)
    return Lane(RED if way.locked else color_of(way.packet, names), 4 if way.locked else 2.6, "7 3" if pattern % 2 else "",
                pattern >= 2, name_of(way.packet), told, way.tokens_out, way.tokens_in)


def busy(net: Network, run: Run, most: float | None = None) -> Figure:
    """The share of a run's rounds in which a token crosses each way."""
    return heated(net, {link.port: run.share(link) for link in run.links}, "share of the rounds in which a token crosses", most)


def pairs(net: Network, ways: Ways, most: float | None = None) -> Figure:
    """How many pairs of a terminal and a label of another can use each link."""
    loads = {str(port): load.can for port, load in ways.loads().items()}
    return heated(net, loads, "pairs of a terminal and a label that can use a link", most)


def heated(net: Network, loads: Mapping[str, Fraction | int], told: str, most: float | None) -> Figure:
    """Loads by port, as heat. The scale ends at `most`, so that pictures of several networks can be compared, or else at the
    largest load."""
    most = most or float(max(loads.values(), default=0)) or 1e-9
    lanes: dict[Peer, Lane] = {}
    ports: list[Peer] = [*net.ports, *net.terminals]
    for port in ports:
        load = loads.get(str(port))
        if load is not None:
            share = min(float(load) / most, 1.0)
            lanes[port] = Lane(heat_color(share), 1.2 + 3.6 * share, told=f"{port}: {load_text(load)}", arrow="none")
    busiest = max(net.between, key=lambda port: loads[str(port)], default=None)
    largest = loads[str(busiest)] if busiest else 0
    title = [f"between switches at most {load_text(largest)}, at {busiest}" if largest else ""]
    is_whole = all(isinstance(load, int) for load in loads.values())
    marks = [f"{most * it / 4:.0f}" if is_whole else f"{most * it / 4:.2f}" for it in range(5)]
    return Figure(title, lanes, heat=(told, marks))


def load_text(load: Fraction | int) -> str:
    return str(load) if isinstance(load, int) else str(thousandths(load))
