"""What `traffic` prints, worked out anew from docs/FORMATS.md: of terminals t0, t1, .. whose labels are 0, 1, .."""

from fractions import Fraction
from itertools import islice

LIMIT = 2 ** 64


def words(seed):
    """The words of SplitMix64."""
    while True:
        seed = (seed + 0x9e3779b97f4a7c15) % LIMIT
        z = (seed ^ seed >> 30) * 0xbf58476d1ce4e5b9 % LIMIT
        z = (z ^ z >> 27) * 0x94d049bb133111eb % LIMIT
        yield z ^ z >> 31


def bits_of(number, count):
    """The bits of a number below a power of two, as text."""
    return format(number, 'b').zfill(count.bit_length() - 1)[:count.bit_length() - 1]


def number_of(bits):
    return int(bits or '0', 2)


def permuted(count, seed):
    """The target of each terminal: where its number stands in a list that is mixed."""
    numbers = list(range(count))
    for i, word in zip(range(1, count), words(seed)):
        j = word % (i + 1)
        numbers[i], numbers[j] = numbers[j], numbers[i]
    return [numbers.index(s) for s in range(count)]


def targets(pattern, count, seed):
    """The target of each terminal, by a pattern by which it has but one."""
    if pattern == 'permutation':
        return permuted(count, seed)
    side = round(count ** 0.5)
    target = {
        'transpose': lambda s: s % side * side + s // side,
        'reverse': lambda s: number_of(bits_of(s, count)[::-1]),
        'neighbour': lambda s: (s + 1) % count,
        'complement': lambda s: count - 1 - s,
        'shuffle': lambda s: number_of(bits_of(s, count)[1:] + bits_of(s, count)[:1]),
        'tornado': lambda s: (s + -(-count // 2) - 1) % count,
    }[pattern]
    return [target(s) for s in range(count)]


def choices(pattern, count, seed, own, target, share):
    """Who sends, and to whom, as a function of the sender, how often it was its turn, and a word."""
    others = count if own else count - 1

    def picked(s, number):
        return (s + 1 + number % others) % count

    if pattern == 'uniform':
        return range(count if others else 0), lambda s, turn, word: picked(s, word)
    if pattern == 'all-to-all':
        return range(count if others else 0), lambda s, turn, word: picked(s, turn)
    if pattern == 'hot-spot':
        return ([s for s in range(count) if own or s != target],
                lambda s, turn, word: target if word % 100 < share else picked(s, word // 100))
    goals = targets(pattern, count, seed)
    return [s for s in range(count) if own or goals[s] != s], lambda s, turn, word: goals[s]


def drawn(seed, below, of):
    """The turns in which packets are sent by chance: their words are below the load."""
    return (turn for turn, word in enumerate(words(next(words(seed)))) if word % of < below)


def rounds(done, due, first, fair):
    """The lines that do the rounds between two counts, fair or not; from the first seed on, if there is one."""
    while done < due:
        count = min(due - done, 10000)
        yield 'rounds %d' % count + ' fair' * fair + ('' if first is None else ' seed %d' % ((first + done) % LIMIT))
        done += count


def script(count, pattern, packets, size, seed, load=None, tokens=None, chance=False, first=None, fair=False, own=False, target=None,
           share=100, header=1):
    """The script, or None where no terminal sends. The load, or its tokens, are decimal numbers, as text; `first` is from where on
    lines of rounds have seeds, and `fair` whether they are fair."""
    senders, target_of = choices(pattern, count, seed, own, target, share)
    if not senders:
        return None
    # A terminal sends a packet in `below` of `of` rounds.
    below = Fraction(load) * 1000 if load else Fraction(tokens or 0) * 1000000
    of = 1000000 * (1 if load else header + size + 1)
    lines, done = [], 0
    turns = drawn(seed, below, of) if chance else range(packets)
    for k, (turn, word) in enumerate(islice(zip(turns, words(seed)), packets)):
        due = turn // len(senders) if chance else k * of // below // len(senders) if below else 0
        s = senders[turn % len(senders)]
        label = target_of(s, turn // len(senders), word)
        data = [*label.to_bytes(header, 'little'), *((k + place) % 256 for place in range(header, header + size))]
        lines += [*rounds(done, due, first, fair), 'send t%d %s eop' % (s, ' '.join('%02x' % byte for byte in data))]
        done = due
    return ''.join(line + '\n' for line in lines).encode()
