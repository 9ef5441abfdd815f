"""Descriptions of random meshes, trees and cubes, and packets for them: what a seed gives is always the same."""

import random

MOST_LINKS = 32
MOST_PACKETS = 60
MOST_BYTES = 20


class Network:
    """A description that labels itself, whether its headers have two bytes, and how many terminals it has, from t0 on."""

    def __init__(self, lines, terminals, is_wide):
        self.description = b''.join(line.encode() + b'\n' for line in lines)
        self.terminals, self.is_wide = terminals, is_wide

    def header(self, label):
        """The bytes of the header of a label: the low one comes first."""
        return [label & 255, label >> 8] if self.is_wide else [label]


def network_of(chance):
    """A mesh, a tree or a cube."""
    lines, terminals = chance.choice((mesh, tree, cube))(chance)
    is_wide = chance.random() < 0.25
    lines += ['header 2'] * is_wide + ['buffer %d' % chance.choice((8, 16, 32, 64))]
    lines += ['delete t%d' % t for t in range(terminals) if chance.random() < 0.1]
    return Network(lines, terminals, is_wide)


def mesh(chance):
    width, height, terminals = (chance.randint(1, most) for most in (4, 4, 3))
    return ['mesh %d %d %d' % (width, height, terminals)], width * height * terminals


def cube(chance):
    dimensions, terminals = chance.randint(0, 4), chance.randint(1, 2)
    return ['cube %d %d' % (dimensions, terminals)], terminals << dimensions


def tree(chance):
    """Switches of which each is joined to an earlier one, and some further wires, which labels don't use. Every switch has
    its links in an order of its own."""
    switches = range(chance.randint(1, 12))
    links = [chance.sample(range(MOST_LINKS), MOST_LINKS) for _ in switches]
    wires = [(s, chance.randrange(s)) for s in switches if s]
    wires += [chance.sample(switches, 2) for _ in range(chance.randint(0, 3)) if len(switches) > 1]
    hosts = [s for s in switches for _ in range(chance.randint(0, 3))] or [0]
    lines = ['switch s%d' % s for s in switches]
    lines += ['wire s%d.%d s%d.%d' % (s, links[s].pop(), other, links[other].pop()) for s, other in wires]
    lines += ['terminal t%d s%d.%d labels %d' % (t, s, links[s].pop(), chance.randint(1, 3))
              for t, s in enumerate(hosts)]
    return lines + ['label tree s%d' % chance.choice(switches)], len(hosts)


def packets_of(chance, network, labels):
    """Lines that send packets, each from some terminal to one of these labels."""
    lines = []
    for _ in range(chance.randint(1, MOST_PACKETS)):
        words = network.header(chance.choice(labels)) + chance.choices(range(256), k=chance.randint(0, MOST_BYTES))
        lines.append('send t%d %s %s\n' % (chance.randrange(network.terminals), ' '.join('%02x' % it for it in words),
                                           chance.choice(('eop', 'eom'))))
    return ''.join(lines).encode()


def chance_of(seed):
    return random.Random(seed)
