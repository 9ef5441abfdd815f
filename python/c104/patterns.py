"""Traffic patterns: to which terminal each terminal sends.

A pattern is a plain function of the sender's number (see `Pattern`), so another one is a function in a file of yours:

    # mine.py
    def other_pair(sender, traffic, terminals, turn, word):
        return sender ^ 2

    c104-traffic mesh.txt --pattern mine.py:other_pair ..

or, in a script, `Traffic(other_pair, bytes=15, seed=1)`; `PATTERNS["other-pair"] = other_pair` gives it a name, too.
"""

from __future__ import annotations

import importlib.util
import struct
from collections.abc import Callable, Iterator
from dataclasses import dataclass
from fractions import Fraction
from itertools import chain, islice
from pathlib import Path
from typing import cast

MASK = (1 << 64) - 1
STEP = 0x9E3779B97F4A7C15  # of the generator's state
BLOCK = 1024  # words
ONES = sum(1 << 128 * word for word in range(BLOCK))
LOWER = MASK * ONES
STEPS = sum(((word + 1) * STEP & MASK) << 128 * word for word in range(BLOCK))


def word_blocks(seed: int) -> Iterator[tuple[int, ...]]:
    """The words of the generator SplitMix64 from this seed, 64 bits each, in blocks of 1,024, without end.

    A block is computed at once, as one long integer with 128 bits for each word: the lower 64 are the word, and the product of a
    word and a multiplier has room in both halves.
    """
    while True:
        z = (STEPS + (seed & MASK) * ONES) & LOWER
        z = ((z ^ (z >> 30)) & LOWER) * 0xBF58476D1CE4E5B9 & LOWER
        z = ((z ^ (z >> 27)) & LOWER) * 0x94D049BB133111EB & LOWER
        z = (z ^ (z >> 31)) & LOWER
        yield struct.unpack(f"<{2 * BLOCK}Q", z.to_bytes(16 * BLOCK, "little"))[::2]
        seed += BLOCK * STEP


def split_mix_64(seed: int) -> Iterator[int]:
    """The same words one by one."""
    return chain.from_iterable(word_blocks(seed))


class TrafficError(Exception):
    """A network can't have the traffic that is asked for: the line that is printed, and what people are told."""

    def __init__(self, line: str, told: str) -> None:
        super().__init__(line)
        self.told = told


@dataclass(frozen=True)
class Load:
    """An offered load: how many packets, or how many tokens, each terminal that sends sends in a round, exactly."""

    amount: Fraction
    of_tokens: bool = False

    @classmethod
    def packets(cls, in_1000_rounds: str | int | Fraction) -> Load:
        """That many packets of each terminal in 1,000 rounds."""
        return cls(Fraction(in_1000_rounds) / 1000)

    @classmethod
    def tokens(cls, in_a_round: str | int | Fraction) -> Load:
        """That many tokens of each terminal in a round; headers and terminators are tokens, too."""
        return cls(Fraction(in_a_round), of_tokens=True)

    def packet_rate(self, tokens: int) -> Fraction:
        """How many packets of this number of tokens each terminal sends in a round."""
        return self.amount / tokens if self.of_tokens else self.amount


@dataclass(frozen=True)
class Traffic:
    """What is sent. Without a load all packets are sent before the first round, and the script has no `rounds` line."""

    pattern: str | Pattern
    bytes: int  # behind the header of each packet
    seed: int
    load: Load | None = None
    is_bernoulli: bool = False  # each terminal sends in each round by chance; otherwise regularly
    words: int | None = None  # where the seeds of `rounds` lines begin
    is_fair: bool = False  # `rounds` lines are fair
    own: bool = False  # a terminal may be its own target
    hot_spot: int | None = None  # the number of the terminal
    share: int = 100  # how many of 100 packets go to the hot spot

    def function(self) -> Pattern:
        """The pattern's function."""
        return PATTERNS[self.pattern] if isinstance(self.pattern, str) else self.pattern


Pattern = Callable[[int, Traffic, int, int, int], int]
"""To which terminal, by number, the sender of this number sends, among a number of terminals. The turn is how many packets each
sender sent before, and the word is one of the generator for this packet. A sender whose target in turn 0 by word 0 is itself
doesn't send at all, unless terminals may be their own targets. What a network must have a pattern may say by TrafficError."""


def another(sender: int, traffic: Traffic, terminals: int, number: int) -> int:
    """One of the other terminals, or of all where a terminal may be its own target, by any number."""
    choices = terminals if traffic.own else terminals - 1
    return (sender + 1 + (number % choices if choices else 0)) % terminals


def bits_of(terminals: int) -> int:
    """How many bits the numbers below a power of two have."""
    if terminals < 1 or terminals & (terminals - 1):
        raise TrafficError("traffic 2 NotPowerOfTwo", "a reverse or a shuffle wants 1, 2, 4, 8, .. terminals")
    return terminals.bit_length() - 1


def uniform(sender: int, traffic: Traffic, terminals: int, turn: int, word: int) -> int:
    """Any terminal, by chance."""
    return another(sender, traffic, terminals, word)


def transpose(sender: int, traffic: Traffic, terminals: int, turn: int, word: int) -> int:
    """The terminals are a square, and rows and columns change places."""
    side = next((side for side in range(17) if side * side >= terminals), 0)
    if side * side != terminals:
        raise TrafficError("traffic 1 NotSquare", "a transpose wants as many terminals as a square has fields: 1, 4, 9, 16, ..")
    return sender % side * side + sender // side


def reverse(sender: int, traffic: Traffic, terminals: int, turn: int, word: int) -> int:
    """The bits of the number in reverse."""
    bits = bits_of(terminals)
    return sum((sender >> bit & 1) << (bits - 1 - bit) for bit in range(bits))


def neighbour(sender: int, traffic: Traffic, terminals: int, turn: int, word: int) -> int:
    """The next terminal, and the last one to the first."""
    return (sender + 1) % terminals


def hot_spot(sender: int, traffic: Traffic, terminals: int, turn: int, word: int) -> int:
    """One terminal for a share of all packets, and any for the others."""
    if traffic.hot_spot is None:
        raise TrafficError("traffic 3 NoTerminal", "no terminal has the target's name")
    if word % 100 < traffic.share:
        return traffic.hot_spot
    return another(sender, traffic, terminals, word // 100)


def all_to_all(sender: int, traffic: Traffic, terminals: int, turn: int, word: int) -> int:
    """Each terminal in turn, from the next one on."""
    return another(sender, traffic, terminals, turn)


def complement(sender: int, traffic: Traffic, terminals: int, turn: int, word: int) -> int:
    """The terminal as far from the last as this one is from the first."""
    return terminals - 1 - sender


def shuffle(sender: int, traffic: Traffic, terminals: int, turn: int, word: int) -> int:
    """The bits of the number one place up, and the highest of them lowest."""
    bits_of(terminals)
    return 2 * sender % terminals + 2 * sender // terminals


def tornado(sender: int, traffic: Traffic, terminals: int, turn: int, word: int) -> int:
    """In a ring the farthest terminal ahead by less than half of it."""
    return (sender + (terminals + 1) // 2 - 1) % terminals


def permutation(sender: int, traffic: Traffic, terminals: int, turn: int, word: int) -> int:
    """Another one for each terminal, by a permutation that the seed gives."""
    place = sender
    for entry, drawn in enumerate(islice(split_mix_64(traffic.seed), terminals - 1), 1):
        other = drawn % (entry + 1)
        place = {entry: other, other: entry}.get(place, place)
    return place


PATTERNS: dict[str, Pattern] = {
    "uniform": uniform,
    "transpose": transpose,
    "reverse": reverse,
    "neighbour": neighbour,
    "hot-spot": hot_spot,
    "all-to-all": all_to_all,
    "complement": complement,
    "shuffle": shuffle,
    "tornado": tornado,
    "permutation": permutation,
}

FIXED: set[Pattern] = {transpose, reverse, neighbour, complement, shuffle, tornado, permutation}
"""Those by which all packets of a sender have the same target, so that it is computed once."""


def pattern_of(word: str) -> str | Pattern:
    """The pattern of this name, or FILE:NAME, a function of a Python file. ValueError where there is none."""
    path, colon, name = word.rpartition(":")
    if not colon:
        if word not in PATTERNS:
            raise ValueError(f"the patterns are {', '.join(PATTERNS)}, or FILE:NAME: {word}")
        return word
    function = getattr(module_of(path), name, None)
    if not callable(function):
        raise ValueError(f"{path} has no function {name}")
    return cast(Pattern, function)


def module_of(path: str) -> object:
    """The module of a Python file. ValueError where it can't be loaded."""
    spec = importlib.util.spec_from_file_location("c104_pattern", path)
    if spec is None or spec.loader is None or not Path(path).is_file():
        raise ValueError(f"{path} is no Python file")
    module = importlib.util.module_from_spec(spec)
    try:
        spec.loader.exec_module(module)
    except Exception as error:  # whatever a user's file may raise
        raise ValueError(f"{path} can't be loaded: {error!r}") from error
    return module
