"""Descriptions of large networks with labels of their own: meshes, chains and a cube."""

import os
import sys

sys.path.insert(0, os.path.join(os.path.dirname(os.path.abspath(__file__)), 'bench'))
from grid import Grid


def row_lines(port, selects):
    """The rows of an input by which header h selects selects[h], from header 0 on."""
    ends = [h for h in range(1, len(selects)) if selects[h] != selects[h - 1]] + [len(selects)]
    return ['row %s %d %s' % (port, end, selects[end - 1]) for end in ends]


def text_of(lines):
    return b''.join(line.encode() + b'\n' for line in lines)


def mesh(width, height, count):
    """A mesh with `count` terminals on each switch, labelled row by row: the grid of the benches."""
    return text_of(Grid(width, height, count).description())


def chain(length, width, hosts):
    """Switches in a row, each joined to the next by a group of `width` links, with a terminal on each of
    these switches. The links from 0 on go back, the next as many go on, and then comes the terminal's."""
    back, ahead, own = 0, width, 2 * width
    lines = ['switch s%d' % s for s in range(length)]
    lines += ['terminal t%d s%d.%d' % (t, s, own) for t, s in enumerate(hosts)]
    for s in range(length - 1):
        lines += ['wire s%d.%d s%d.%d' % (s, ahead + k, s + 1, back + k) for k in range(width)]
    for s in range(length):
        lines += ['continue s%d.%d' % (s, first + k) for first in (back, ahead) for k in range(1, width)]
    for s in range(length):
        selects = [own if host == s else back if host < s else ahead for host in hosts]
        used = (list(range(back, ahead)) if s else []) + (list(range(ahead, own)) if s + 1 < length else [])
        for link in used + ([own] if s in hosts else []):
            lines += row_lines('s%d.%d' % (s, link), selects)
    return text_of(lines)


def full_cube():
    """64 switches with four terminals each, of which every link is wired: neighbours of a cube are joined by
    groups of five or four links. A packet goes to the highest bit in which its switch differs."""
    switches, count, widths = range(64), 4, (5, 5, 5, 5, 4, 4)
    first = [count + sum(widths[:bit]) for bit in range(len(widths))]
    lines = ['switch s%d' % s for s in switches]
    lines += ['terminal t%d s%d.%d' % (s * count + j, s, j) for s in switches for j in range(count)]
    for s in switches:
        for bit, width in enumerate(widths):
            if not s >> bit & 1:
                lines += ['wire s%d.%d s%d.%d' % (s, first[bit] + k, s | 1 << bit, first[bit] + k)
                          for k in range(width)]
    for s in switches:
        lines += ['continue s%d.%d' % (s, first[bit] + k)
                  for bit, width in enumerate(widths) for k in range(1, width)]
    for s in switches:
        selects = [label % count if label // count == s else first[(label // count ^ s).bit_length() - 1]
                   for label in range(64 * count)]
        for link in range(32):
            lines += row_lines('s%d.%d' % (s, link), selects)
    return text_of(lines)
