"""`c104-traffic`: scripts in which the terminals of a network send packets in a pattern; its `--help` says which.

In a script or a notebook:

    from c104.traffic import Load, Schedule, Traffic, packet_lines

    traffic = Traffic("uniform", bytes=15, seed=1, load=Load.tokens("0.2"), is_bernoulli=True, is_fair=True)
    lines = list(packet_lines(Schedule.of(network, traffic), packets=1000))
"""

from __future__ import annotations

import argparse
import sys
from collections.abc import Iterator
from dataclasses import dataclass, replace
from itertools import islice

from c104.network import Network, Terminal
from c104.patterns import FIXED, MASK, PATTERNS, Load, Traffic, TrafficError, bits_of, pattern_of, split_mix_64, word_blocks
from c104.program import DONE, REFUSED, Description, Program, exit_status, write
from c104.words import Parser, add_description, add_explain, decimal, number

MAX_PACKETS = 1_048_576
MAX_BYTES = 4_094
MAX_ROUNDS = 10_000  # of one `rounds` line
CHUNK = 4096  # lines that are written at once


@dataclass(frozen=True)
class Schedule:
    """Who sends by a pattern, when, and to whom, in a network."""

    traffic: Traffic
    terminals: list[Terminal]
    header: int  # bytes of a header
    senders: list[int]

    @classmethod
    def of(cls, network: Network, traffic: Traffic) -> Schedule:
        """TrafficError where the network can't have the pattern, nobody sends, or a terminal has no label that is a header."""
        terminals = list(network.terminals.values())
        pattern, count = traffic.function(), len(terminals)
        check_size(traffic, count)
        senders = [sender for sender in range(count) if pattern(sender, traffic, count, 0, 0) != sender or traffic.own]
        if not senders:
            raise TrafficError("traffic 4 NoTarget", "by this pattern no terminal has another one to send to")
        for terminal in terminals:
            if terminal.labels.start >= network.headers:
                raise TrafficError(f"traffic 5 NoLabel: {terminal.name}",
                                   "the first label of a terminal is no header: headers of one byte are 0 to 255")
        return cls(traffic, terminals, network.header_bytes, senders)

    @property
    def tokens(self) -> int:
        """How many tokens each packet has."""
        return self.header + self.traffic.bytes + 1

    def turns(self) -> Iterator[int]:
        """In which turn each packet is sent; each round has a turn for each sender."""
        traffic = self.traffic
        if not traffic.is_bernoulli or traffic.load is None:
            yield from range(MASK)
            return
        # a load has at most six digits behind its point, of tokens or of packets, so this is exact
        limit = int(traffic.load.amount * 1_000_000)
        modulus = 1_000_000 * (self.tokens if traffic.load.of_tokens else 1)
        first = 0
        for block in word_blocks(next(split_mix_64(traffic.seed))):
            yield from [first + place for place, word in enumerate(block) if word % modulus < limit]
            first += len(block)

    def rounds(self, number: int, turn: int) -> int:
        """How many rounds are done before the packet of this number, which is sent in this turn."""
        if self.traffic.load is None:
            return 0
        if self.traffic.is_bernoulli:
            return turn // len(self.senders)
        rate = self.traffic.load.packet_rate(self.tokens)
        return number * rate.denominator // rate.numerator // len(self.senders)

    def packets(self) -> Iterator[tuple[int, int, int]]:
        """Of each packet how many rounds are done before it, the number of its sender, and that of its target; without end."""
        traffic, count = self.traffic, len(self.terminals)
        pattern = traffic.function()
        fixed = [pattern(sender, traffic, count, 0, 0) for sender in range(count)] if pattern in FIXED else None
        for number, (turn, word) in enumerate(zip(self.turns(), split_mix_64(traffic.seed))):
            before, place = divmod(turn, len(self.senders))
            sender = self.senders[place]
            target = fixed[sender] if fixed else checked(pattern(sender, traffic, count, before, word), count)
            yield self.rounds(number, turn), sender, target


def checked(target: int, count: int) -> int:
    """The number of a terminal among all, as a pattern gave it."""
    if not 0 <= target < count:
        raise TrafficError(f"traffic 6 WrongTarget: {target}", f"the pattern sends to a terminal that isn't one of {count}")
    return target


def check_size(traffic: Traffic, count: int) -> None:
    """Faults of a pattern come before those of its senders, also in a network without terminals."""
    if traffic.pattern in ("reverse", "shuffle"):
        bits_of(count)
    if traffic.pattern == "hot-spot" and traffic.hot_spot is None:
        raise TrafficError("traffic 3 NoTerminal", "no terminal has the target's name")


def rounds_lines(traffic: Traffic, done: int, due: int) -> Iterator[str]:
    """The lines that do the rounds from number `done` on up to `due`."""
    fair = " fair" if traffic.is_fair else ""
    while done < due:
        count = min(due - done, MAX_ROUNDS)
        seed = "" if traffic.words is None else f" seed {(traffic.words + done) & MASK}"
        yield f"rounds {count}{fair}{seed}\n"
        done += count


def send_heads(schedule: Schedule) -> tuple[list[str], list[str]]:
    """The beginnings of `send` lines by sender, and the headers by target."""
    senders = [f"send {terminal.name}" for terminal in schedule.terminals]
    headers = ["".join(f" {byte:02x}" for byte in terminal.labels.start.to_bytes(schedule.header, "little"))
               for terminal in schedule.terminals]
    return senders, headers


def script_lines(schedule: Schedule, until: int | None = None) -> Iterator[str]:
    """The lines of a script, without end unless it ends behind a number of rounds; each ends with a line feed."""
    senders, headers = send_heads(schedule)
    # the byte at place p of packet k is (k + p) mod 256, so there are 256 bodies
    places = range(schedule.header, schedule.header + schedule.traffic.bytes)
    bodies = ["".join(f" {(number + place) % 256:02x}" for place in places) + " eop\n" for number in range(256)]
    done = 0
    for number, (due, sender, target) in enumerate(schedule.packets()):
        if until is not None and due >= until:
            yield from rounds_lines(schedule.traffic, done, until)
            return
        if done < due:
            yield from rounds_lines(schedule.traffic, done, due)
            done = due
        yield senders[sender] + headers[target] + bodies[number & 255]


def packet_lines(schedule: Schedule, packets: int) -> Iterator[str]:
    """The lines of a script of this number of packets. It ends with the last one."""
    sent = 0
    for line in script_lines(schedule):
        yield line
        sent += line.startswith("send")
        if sent == packets:
            return


def find_hot_spot(network: Network, traffic: Traffic, name: str | None) -> Traffic:
    """The same traffic with the terminal of this name as its hot spot; none where no terminal has the name."""
    names = list(network.terminals)
    return replace(traffic, hot_spot=names.index(name) if name in names else None)


PAGE = """\
Prints a script: a `send` line for each packet, from the terminals that have a target in turn, and with --load or --tokens
`rounds` lines between them. The same words print the same script anywhere. It ends with the last packet: further rounds let it
arrive. Terminal s of T, counted from 0 in the order of the description, sends packet k to terminal

  uniform      (s + 1 + w mod D) mod T: any
  transpose    (s mod r) * r + s / r, where r * r = T: rows and columns of a square change places
  reverse      whose number has the bits of s in reverse
  neighbour    (s + 1) mod T
  hot-spot     --target, with --share C only if w mod 100 < C, and else (s + 1 + (w / 100) mod D) mod T
  all-to-all   (s + 1 + (k / S) mod D) mod T: each in turn
  complement   T - 1 - s
  shuffle      2 s mod T + 2 s / T: the bits of s one place up, the highest lowest
  tornado      (s + (T + 1) / 2 - 1) mod T: of a ring, the one farthest ahead by less than half
  permutation  at place s of 0, 1, .. T - 1, where for i from 1 on entries i and v mod (i + 1) changed places, v being word i - 1
  FILE:NAME    NAME(s, traffic, T, k / S, w), a function of a Python file

and to itself only with --own. D is T - 1, or with --own T; w is word k of the generator of --seed (docs/FORMATS.md); S terminals
have a target, and packet k, from 0, comes from number k mod S of them. A packet is the first label of its target, then at place
p, counted from the header's first byte, (k + p) mod 256, and `eop`.

With --load R k * 1000 / R / S rounds are done before packet k, and with --tokens L k * F / L / S, F being a packet's tokens
with its header and end; each quotient is rounded down. --process bernoulli has each terminal send by chance: in turn n, of
round n / S, number n mod S does if v mod (1000000 * X) < Y, v being word n of a second generator, whose seed is word 0 of the
first; with --load X is 1 and Y 1000 R, with --tokens X is F and Y 1000000 L. For the sender and for k / S n stands for k then.
A `rounds` line has at most 10,000; with --words W, behind r rounds in all, it has the seed (W + r) mod 2^64.

A network that can't have the pattern is answered `traffic 1 NotSquare`, `2 NotPowerOfTwo`, `3 NoTerminal`, `4 NoTarget`,
`5 NoLabel: T` (its first label takes two bytes, and headers have one) or `6 WrongTarget: N`."""
EXAMPLES = (
    "c104-traffic net.txt --pattern uniform --packets 100 --bytes 8 --seed 1 > sends.txt",
    "(cat sends.txt; echo rounds 1000) | c104 run net.txt -",
)


def arguments() -> Parser:
    """The command line."""
    parser = Parser("c104-traffic", PAGE, EXAMPLES, "the description or its labels were refused, or it can't have the pattern")
    add_description(parser)
    parser.add_argument("--pattern", required=True, metavar="P", help="where packets go")
    parser.add_argument("--target", metavar="T", help="the terminal that is the hot spot")
    parser.add_argument("--share", type=number(1, 100), metavar="C", help="how many of 100 packets go there, by default all")
    parser.add_argument("--packets", type=number(1, MAX_PACKETS), required=True, metavar="N", help="how many packets")
    parser.add_argument("--bytes", type=number(0, MAX_BYTES), required=True, metavar="B", help="bytes behind the header of each")
    parser.add_argument("--seed", type=number(0, MASK), required=True, metavar="S", help="where the generator begins")
    loads = parser.add_mutually_exclusive_group()
    loads.add_argument("--load", type=decimal(1000, 3), metavar="R", help="packets of each sender in 1,000 rounds")
    loads.add_argument("--tokens", type=decimal(1, 6), metavar="L", help="the load, as tokens of each sender in a round")
    parser.add_argument("--process", choices=["regular", "bernoulli"], default="regular", help="when terminals send")
    parser.add_argument("--words", type=number(0, MASK), metavar="W", help="where the seeds of `rounds` lines begin, with a load")
    parser.add_argument("--fair", action="store_true", help="let `rounds` lines be fair, with a load")
    parser.add_argument("--own", action="store_true", help="let terminals send to themselves, too")
    add_explain(parser)
    return parser


def traffic_of(parser: Parser, given: argparse.Namespace) -> Traffic:
    """What the command line asks for. Words that don't go together are wrong usage."""
    load = Load.packets(given.load) if given.load else Load.tokens(given.tokens) if given.tokens else None
    if (given.pattern == "hot-spot") != (given.target is not None):
        parser.error("--pattern hot-spot wants --target, and no other does")
    if given.share is not None and given.target is None:
        parser.error("--share wants --target")
    if load is None and (given.process == "bernoulli" or given.words is not None or given.fair):
        parser.error("--process bernoulli, --words and --fair want a load, --load or --tokens")
    try:
        pattern = pattern_of(given.pattern)
    except ValueError as error:
        parser.error(str(error))
    return Traffic(pattern, given.bytes, given.seed, load, given.process == "bernoulli", given.words, given.fair, given.own,
                   share=given.share or 100)


def main() -> int:
    """The command `c104-traffic`."""
    parser = arguments()
    given = parser.parse_args()
    traffic = traffic_of(parser, given)
    network = Network.load(Program.find(given.explain), Description.of(given.network))
    try:
        lines = packet_lines(Schedule.of(network, find_hot_spot(network, traffic, given.target)), given.packets)
        while chunk := "".join(islice(lines, CHUNK)):
            write(chunk)
    except TrafficError as error:
        write(f"{error}\n")
        if given.explain:
            sys.stderr.write(f"c104: {given.network}: {error.told}\n")
        return REFUSED
    return DONE


if __name__ == "__main__":
    sys.exit(exit_status(main))
