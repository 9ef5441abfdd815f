"""Where the switches and terminals of a network stand: a layout that depends on the wiring alone.

A mesh, torus or cube keeps its shape though some wires are cut or added, since it is recognized by the numbers of the
switches that its wires join. Otherwise a tree is drawn as a tree, a network with switches without terminals by levels, and
all else by stress: distances in the picture are as near as can be to distances in wires. Lengths are in pixels, y downwards.
"""

from __future__ import annotations

import math
from collections.abc import Callable
from dataclasses import dataclass

from c104.dot import CORNERS
from c104.network import Network

KINDS = ("auto", "grid", "cube", "ring", "tree", "levels", "stress")
#: The least shares of a network's wires that fit a shape, and of a shape's wires that are there.
FITTING, PRESENT = 0.85, 0.55
#: The directions of wires on a grid, in degrees, and on a flat cube those of bent ones too.
CROSS, BENT = (0, 90, 180, -90), (-115, 115, -25, -155)
Point = tuple[float, float]
Pair = tuple[int, int]


@dataclass(frozen=True)
class Layout:
    """The places of all nodes. Pairs of switches in `bent` are joined by bent wires, since straight ones would cross nodes."""

    kind: str
    switches: dict[str, Point]
    terminals: dict[str, Point]
    bent: frozenset[frozenset[str]] = frozenset()


def layout_of(net: Network, kind: str = "auto") -> Layout:
    """The layout of this kind. One that a network doesn't have, as a grid, is replaced by stress."""
    pairs = switch_pairs(net)
    size = len(net.switches)
    makers: dict[str, Callable[[], list[Point] | None]] = {
        "grid": lambda: grid(size, pairs),
        "cube": lambda: cube(size, pairs, 1.5 if most_terminals(net) <= 4 else 2.4),
        "ring": lambda: ring(size, pairs),
        "tree": lambda: tree(net, pairs),
        "levels": lambda: levels(net, pairs),
    }
    names = [kind] if kind in makers else [] if kind == "stress" else list(makers)
    for name in names:
        places = makers[name]()
        if places is not None:
            return placed(net, name, places, pairs)
    return placed(net, "stress", stress(size, pairs), pairs)


def switch_pairs(net: Network) -> list[Pair]:
    """The numbers of the switches that wires join, each pair once, the lower first."""
    ends = ((net.numbers[here.switch], net.numbers[there.switch]) for here, there in net.wires)
    return sorted({(min(pair), max(pair)) for pair in ends})


def edge_length(net: Network) -> float:
    """How far neighbours stand apart."""
    return 2 * radius(net) + 70


def radius(net: Network) -> float:
    """How far terminals stand from their switch."""
    return max(66, 13.5 * (most_terminals(net) - 1))


def most_terminals(net: Network) -> int:
    counts = {name: 0 for name in net.switches}
    for terminal in net.terminals.values():
        counts[terminal.port.switch] += 1
    return max(counts.values(), default=0)


# Shapes, in units of an edge


def grid(size: int, pairs: list[Pair]) -> list[Point] | None:
    """A mesh or a torus, whose switches are numbered row by row, with the width that most wires fit."""
    best: tuple[float, int] = (0.0, 0)
    for width in range(2, size // 2 + 1):
        if size % width:
            continue
        height = size // width
        near = sum(is_near(pair, width) for pair in pairs)
        fit = sum(is_near(pair, width) or is_wrapped(pair, width, height) for pair in pairs)
        present = near / (2 * size - width - height)
        if fit >= FITTING * len(pairs) and present >= PRESENT:
            best = max(best, (present, width))
    width = best[1]
    return [(number % width, number // width) for number in range(size)] if width else None


def is_near(pair: Pair, width: int) -> bool:
    low, high = pair
    return high - low == width or (high - low == 1 and low // width == high // width)


def is_wrapped(pair: Pair, width: int, height: int) -> bool:
    low, high = pair
    return high - low == width * (height - 1) or (high - low == width - 1 and low % width == 0)


def cube(size: int, pairs: list[Pair], edge: float) -> list[Point] | None:
    """A cube of three dimensions or more; from four on flat, since it is crowded otherwise: rows and columns in which
    neighbours differ in one bit, as by a Gray code."""
    bits = size.bit_length() - 1
    if size != 1 << bits or not 3 <= bits <= 6:
        return None
    fit = [pair for pair in pairs if (pair[0] ^ pair[1]).bit_count() == 1]
    if len(fit) < FITTING * len(pairs) or len(fit) < PRESENT * bits * size / 2:
        return None
    if bits > 3:
        right = bits - bits // 2
        return [(gray_place(number % (1 << right)), gray_place(number >> right)) for number in range(size)]
    found = []
    for number in range(size):
        ways = [way for bit, way in enumerate(CORNERS) if number >> bit & 1]
        found.append((edge * sum(right for right, _ in ways) / 100, -edge * sum(up for _, up in ways) / 100))
    return found


def gray_place(code: int) -> int:
    """The place of a number in the order in which each differs from the next in one bit."""
    place = 0
    while code:
        place ^= code
        code >>= 1
    return place


def ring(size: int, pairs: list[Pair]) -> list[Point] | None:
    """A ring, or one that is cut, in the order of its wires."""
    near = neighbours(size, pairs)
    if size < 3 or any(len(others) > 2 for others in near) or not is_connected(near):
        return None
    at = next((it for it in range(size) if len(near[it]) < 2), 0)
    order = [at]
    while len(order) < size:
        at = next(it for it in sorted(near[at], key=lambda it: (it != at + 1, it)) if it not in order)
        order.append(at)
    wide = 0.5 / math.sin(math.pi / size)
    turn = {number: 2 * math.pi * place / size for place, number in enumerate(order)}
    return [(wide * math.sin(turn[it]), -wide * math.cos(turn[it])) for it in range(size)]


def tree(net: Network, pairs: list[Pair]) -> list[Point] | None:
    """A tree, whose root is its centre."""
    size = len(net.switches)
    near = neighbours(size, pairs)
    if size < 2 or len(pairs) != size - 1 or not is_connected(near):
        return None
    root = min(range(size), key=lambda it: (max(hops(near, it)), it))
    places: dict[int, Point] = {}
    free = 0.0

    def place(at: int, parent: int, depth: int) -> float:
        nonlocal free
        below = [place(it, at, depth + 1) for it in sorted(near[at]) if it != parent]
        x = (below[0] + below[-1]) / 2 if below else free
        free += 0 if below else 0.8
        places[at] = (x, depth)
        return x

    place(root, -1, 0)
    return [places[it] for it in range(size)]


def levels(net: Network, pairs: list[Pair]) -> list[Point] | None:
    """By distance from the terminals, upwards, as a Clos network or a fat tree is drawn."""
    size = len(net.switches)
    near = neighbours(size, pairs)
    leaves = {net.numbers[terminal.port.switch] for terminal in net.terminals.values()}
    if not leaves or len(leaves) == size or not is_connected(near):
        return None
    from_leaf = {leaf: hops(near, leaf) for leaf in leaves}
    level = [min(from_leaf[leaf][it] for leaf in leaves) for it in range(size)]
    if sum(level[low] != level[high] for low, high in pairs) < FITTING * len(pairs):
        return None
    widest = max(level.count(it) for it in set(level))
    places: dict[int, Point] = {}
    for number in range(max(level) + 1):
        row = [it for it in range(size) if level[it] == number]
        step = widest / len(row)
        for index, it in enumerate(row):
            places[it] = ((index + 0.5) * step * 0.95, -1.6 * number)
    return [places[it] for it in range(size)]


def stress(size: int, pairs: list[Pair], rounds: int = 200) -> list[Point]:
    """By distances in wires, made alike by stress majorization (Gansner, Koren, North 2004), from two far switches on."""
    if size < 2:
        return [(0.0, 0.0)] * size
    near = neighbours(size, pairs)
    far = [hops(near, it) for it in range(size)]
    one = max(range(size), key=lambda it: far[0][it])
    other = max(range(size), key=lambda it: far[one][it])
    third = max(range(size), key=lambda it: min(far[one][it], far[other][it]))
    places = [(far[one][it] + 0.01 * it, far[third][it] + 0.013 * (it * 7 % size)) for it in range(size)]
    for _ in range(rounds):
        moved = []
        for it in range(size):
            x = y = total = 0.0
            for to in range(size):
                if to == it:
                    continue
                wanted = far[it][to]
                weight = 1 / (wanted * wanted)
                dx, dy = places[it][0] - places[to][0], places[it][1] - places[to][1]
                length = math.hypot(dx, dy) or 1e-9
                x += weight * (places[to][0] + wanted * dx / length)
                y += weight * (places[to][1] + wanted * dy / length)
                total += weight
            moved.append((x / total, y / total))
        farthest = max(math.dist(one, other) for one, other in zip(places, moved))
        places = moved
        if farthest < 0.01:
            break
    return upright(spread(places))


def upright(places: list[Point]) -> list[Point]:
    """Turned so that it is wider than high: the longest line between two places lies level."""
    ends = max(((one, other) for one in places for other in places), key=lambda it: math.dist(*it))
    turn = -math.atan2(ends[1][1] - ends[0][1], ends[1][0] - ends[0][0])
    return [(x * math.cos(turn) - y * math.sin(turn), x * math.sin(turn) + y * math.cos(turn)) for x, y in places]


def spread(places: list[Point]) -> list[Point]:
    """Made larger until no two places are much nearer than an edge."""
    nearest = min(math.dist(one, other) for number, one in enumerate(places) for other in places[:number])
    factor = min(max(0.8, 0.6 / max(nearest, 0.01)), 2.0)
    return [(x * factor, y * factor) for x, y in places]


# Graphs


def neighbours(size: int, pairs: list[Pair]) -> list[set[int]]:
    near: list[set[int]] = [set() for _ in range(size)]
    for one, other in pairs:
        near[one].add(other)
        near[other].add(one)
    return near


def hops(near: list[set[int]], start: int) -> list[int]:
    """The distances in wires from one switch; to what can't be reached, one more than any could be."""
    far = [len(near)] * len(near)
    far[start] = 0
    queue = [start]
    for at in queue:
        for it in near[at]:
            if far[it] > far[at] + 1:
                far[it] = far[at] + 1
                queue.append(it)
    return far if len(queue) == len(near) else [min(it, max(far[at] for at in queue) + 2) for it in far]


def is_connected(near: list[set[int]]) -> bool:
    return not near or max(hops(near, 0)) < len(near) and len(_part(near)) == len(near)


def _part(near: list[set[int]]) -> set[int]:
    met = {0}
    queue = [0]
    for at in queue:
        queue += [it for it in near[at] if it not in met and not met.add(it)]  # type: ignore[func-returns-value]
    return met


# Pixels


def placed(net: Network, kind: str, units: list[Point], pairs: list[Pair]) -> Layout:
    """The layout in pixels, with terminals where fewest wires lead, or below all switches of a network by levels."""
    edge = edge_length(net)
    places = {name: (x * edge, y * edge) for name, (x, y) in zip(net.switches, units)}
    bent = set()
    for low, high in pairs:
        one, other = net.switches[low], net.switches[high]
        if any(is_between(places[it], places[one], places[other]) for it in net.switches if it not in (one, other)):
            bent.add(frozenset((one, other)))
    terminals: dict[str, Point] = {}
    # on a cube also where a wire was cut, so that terminals stay
    whole = [(it, it | 1 << bit) for it in range(8) for bit in range(3) if not it >> bit & 1]
    is_cube = kind == "cube" and len(units) == 8
    lines = [(places[net.switches[low]], places[net.switches[high]]) for low, high in (whole if is_cube else pairs)]
    for switch in net.switches:
        own = sorted((it for it in net.terminals.values() if it.port.switch == switch), key=lambda it: it.port.link)
        if kind == "levels":
            points = [beside(places[switch], angle, radius(net)) for angle in fan(len(own))]
        elif kind == "stress" or is_cube:
            points = clear_points(places[switch], lines, [*places.values(), *terminals.values()], len(own), radius(net))
        else:
            angles = free_angles(wire_angles(kind, net, places, switch), len(own))
            points = [beside(places[switch], angle, radius(net)) for angle in angles]
        terminals.update(zip((terminal.name for terminal in own), points))
    return Layout(kind, places, terminals, frozenset(bent))


def beside(at: Point, angle: float, far: float) -> Point:
    return at[0] + far * math.cos(angle), at[1] + far * math.sin(angle)


def clear_points(at: Point, lines: list[tuple[Point, Point]], nodes: list[Point], count: int, far: float) -> list[Point]:
    """Places round a switch for its terminals, one by one as far as may be from wires and other nodes."""
    free = [beside(at, 2 * math.pi * it / 40, far) for it in range(40)]
    others = [node for node in nodes if node != at and math.dist(node, at) < 3 * far]
    lines = [line for line in lines if line_distance(at, *line) < 2 * far]
    found: list[Point] = []
    for _ in range(count):
        best = max(free, key=lambda it: min([
            *(line_distance(it, *line) for line in lines), *(math.dist(it, node) - 22 for node in (*others, *found)), far]))
        found.append(best)
    return found


def line_distance(point: Point, one: Point, other: Point) -> float:
    """How far a point is from the line between two others."""
    dx, dy = other[0] - one[0], other[1] - one[1]
    square = dx * dx + dy * dy or 1
    share = min(max(((point[0] - one[0]) * dx + (point[1] - one[1]) * dy) / square, 0), 1)
    return math.dist(point, (one[0] + share * dx, one[1] + share * dy))


def is_between(point: Point, one: Point, other: Point, room: float = 20) -> bool:
    """Whether a point is nearly on the line between two others."""
    length = math.dist(one, other)
    if not length:
        return False
    along = ((point[0] - one[0]) * (other[0] - one[0]) + (point[1] - one[1]) * (other[1] - one[1])) / length
    beside = abs((point[0] - one[0]) * (other[1] - one[1]) - (point[1] - one[1]) * (other[0] - one[0])) / length
    return 0 < along < length and beside < room


def fan(count: int) -> list[float]:
    """Directions downwards, from left to right."""
    wide = min(2.4, 0.55 * (count - 1))
    return [math.pi / 2 + (wide / 2 - wide * it / (count - 1) if count > 1 else 0) for it in range(count)]


def wire_angles(kind: str, net: Network, places: dict[str, Point], switch: str) -> list[float]:
    """The directions in which wires lead away; on a grid also those where one was cut, so that terminals stay."""
    if kind in ("grid", "cube"):
        return [math.radians(it) for it in (CROSS if kind == "grid" else CROSS + BENT)]
    x, y = places[switch]
    return [math.atan2(places[it][1] - y, places[it][0] - x) for it in net.neighbours[switch]]


def free_angles(wires: list[float], count: int) -> list[float]:
    """Directions for terminals round a switch: each in the widest gap that is left between those of its wires."""
    turns = sorted({round(it, 3) for it in wires}) or [-math.pi / 2]
    gaps = [(start, (end - start) or 2 * math.pi) for start, end in zip(turns, [*turns[1:], turns[0] + 2 * math.pi])]
    shares = [0] * len(gaps)
    for _ in range(count):
        widest = max(range(len(gaps)), key=lambda it: (round(gaps[it][1] / (shares[it] + 1), 2), -it))
        shares[widest] += 1
    return [start + wide * (it + 1) / (share + 1) for (start, wide), share in zip(gaps, shares) for it in range(share)]
