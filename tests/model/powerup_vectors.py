"""Makes blocks for the power-up tests of document 02 §9: random, biased, and on every limit.

    python3 powerup_vectors.py OUTDIR [SEED]

writes pairs NAME.stdin, NAME.stdout (with --counts), the same bytes for the same seed:
    powerup_1, powerup_2     about a hundred blocks for that edition, then a short one
    powerup_3                two blocks and a short one, for an edition that is not there
    powerup_empty            no input, any edition

Each built block is held to what it was built for before it is written.
"""
import os
import sys

from powerup import BLOCK, LIMITS, count, run, test
from damage import Dice

SEED = 9
BITS = 8 * BLOCK

# About what a random block has: runs of length 1 to 5, and 6 or more.
TYPICAL_RUNS = [2500, 1250, 625, 312, 156, 156]


def built(name, data, edition, counts, verdicts):
    """The block, if its counts and verdicts are those named."""
    reply = test(data, edition)
    for field, wanted in counts.items():
        got = getattr(reply.counts, field)
        assert got == wanted, f"{name}: {field} is {got}, not {wanted}"
    for field, wanted in verdicts.items():
        got = getattr(reply.verdicts, field)
        assert got == wanted, f"{name}: {field} is {got}, not {wanted}"
    return name, data


def of_bits(list_of_bits):
    text = "".join(map(str, list_of_bits))
    return bytes(int(text[i:i + 8], 2) for i in range(0, len(text), 8))


def to_bits(data):
    return [int(bit) for byte in data for bit in f"{byte:08b}"]


# ---- random and plain blocks ----

def random_block(g):
    return bytes(g.draw(256) for _ in range(BLOCK))


def biased(g, ones_of_1000):
    return of_bits(int(g.draw(1000) < ones_of_1000) for _ in range(BITS))


def sticky(g, same_of_1000):
    """Each bit is the bit before it in so many cases of 1,000."""
    made = [g.draw(2)]
    while len(made) < BITS:
        made.append(made[-1] if g.draw(1000) < same_of_1000 else 1 - made[-1])
    return of_bits(made)


def plain(g):
    for _ in range(5):
        yield "random", random_block(g)
    for share in (450, 490, 510, 550):
        yield f"biased {share}", biased(g, share)
    for share in (470, 530):
        yield f"sticky {share}", sticky(g, share)
    # Twice, so that a run taken over from one block to the next would be seen.
    yield "zeros", bytes(BLOCK)
    yield "zeros", bytes(BLOCK)
    yield "ones", b"\xff" * BLOCK
    yield "ones but the first", b"\x7f" + b"\xff" * (BLOCK - 1)
    yield "zeros but the last", bytes(BLOCK - 1) + b"\x01"
    yield "alternating from 0", b"\x55" * BLOCK
    yield "alternating from 1", b"\xaa" * BLOCK
    yield "bytes by turns", b"\x00\xff" * (BLOCK // 2)
    yield "all bytes in turn", bytes(i % 256 for i in range(BLOCK))
    # Half-bytes as even as can be: 312 of eight of them, 313 of the others.
    yield "least poker sum", with_poker_sum(g, 1562504)


# ---- monobit ----

def with_ones(g, wanted):
    made = to_bits(random_block(g))
    while sum(made) != wanted:
        # No more than are lacking, so each is a step towards it.
        bit = int(sum(made) < wanted)
        for _ in range(abs(wanted - sum(made))):
            made[g.draw(BITS)] = bit
    return of_bits(made)


def monobit(g, edition):
    lowest, highest = LIMITS[edition].ones
    # The numbers of §9 are just outside: "strictly between".
    for ones in (lowest - 2, lowest - 1, lowest, highest, highest + 1, highest + 2):
        yield built(f"ones {ones}", with_ones(g, ones), edition,
                    {"ones": ones}, {"monobit": lowest <= ones <= highest})


# ---- poker ----

def with_poker_sum(g, wanted):
    """Half-bytes are moved from one value to another until the sum is there."""
    counts = [312, 313] * 8
    total = sum(n * n for n in counts)
    while total != wanted:
        a, b = g.draw(16), g.draw(16)
        # One half-byte a becomes b: with counts m and n, (m-1)² + (n+1)² is m² + n² + 2(n-m) + 2.
        change = 2 * (counts[b] - counts[a]) + 2
        # Nearer, or still near: where no single step fits exactly, it wanders until one does.
        if a != b and abs(total + change - wanted) <= max(abs(total - wanted), 200):
            counts[a] -= 1
            counts[b] += 1
            total += change
    halves = g.shuffled([half for half, n in enumerate(counts) for _ in range(n)])
    return bytes(16 * high + low for high, low in zip(halves[::2], halves[1::2]))


def poker(g, edition):
    lowest, highest = LIMITS[edition].poker
    # A sum is even, as 5,000 is. The lowest ones are even; the highest of edition 1 is odd.
    for near, sums in ((lowest, (-2, 0, 2)), (highest - highest % 2, (-2, 0, 2))):
        for step in sums:
            yield built(f"poker {near + step}", with_poker_sum(g, near + step), edition,
                        {"poker_sum": near + step}, {"poker": lowest <= near + step <= highest})


# ---- runs ----

def run_lengths(g, limits, how_many, chosen=None, value=None):
    """The lengths of so many runs, 10,000 bits in all. The chosen count is the value; every
    other one lies well inside its interval."""
    counts = list(TYPICAL_RUNS)
    if chosen is not None:
        counts[chosen] = value
    free = [i for i in range(6) if i != chosen]

    def room(i, step):
        low, high = limits.runs[i]
        return low + 5 <= counts[i] + step <= high - 5

    while sum(counts) != how_many:
        i, step = g.one_of(free), 1 if sum(counts) < how_many else -1
        if room(i, step):
            counts[i] += step
    # The bits that are left for the runs of 6 or more: about 7 each. Trade lengths until they fit.
    while True:
        left = BITS // 2 - sum(n * counts[n - 1] for n in range(1, 6))
        if 13 * counts[5] <= 2 * left <= 18 * counts[5]:
            break
        shorter, longer = sorted((g.one_of(free), g.one_of(free)))
        # Too few bits left: one of the longer runs becomes a shorter one. Else the reverse.
        step = 1 if 2 * left < 13 * counts[5] else -1
        if shorter != longer and room(shorter, step) and room(longer, -step):
            counts[shorter] += step
            counts[longer] -= step
    long_ones = [6] * counts[5]
    for _ in range(left - sum(long_ones)):
        long_ones[g.draw(len(long_ones))] += 1
    return g.shuffled([n for n in range(1, 6) for _ in range(counts[n - 1])] + long_ones)


def with_runs(g, limits, bit, chosen, value):
    # Half of what the chosen count has more or less is made up for by the other counts.
    how_many = sum(TYPICAL_RUNS) + (value - TYPICAL_RUNS[chosen]) // 2
    lengths = {bit: run_lengths(g, limits, how_many, chosen, value),
               1 - bit: run_lengths(g, limits, how_many)}
    first = g.draw(2)
    made = []
    for a, b in zip(lengths[first], lengths[1 - first]):
        made += [first] * a + [1 - first] * b
    return of_bits(made)


def runs(g, edition):
    """Each of the twelve counts on each limit and just outside; it alone decides the verdict."""
    limits = LIMITS[edition]
    for bit in (0, 1):
        for chosen, (low, high) in enumerate(limits.runs):
            for value in (low - 1, low, high, high + 1):
                name = f"runs of {bit}, length {chosen + 1}: {value}"
                data = with_runs(g, limits, bit, chosen, value)
                counts = test(data, edition).counts
                assert (counts.zeros_runs, counts.ones_runs)[bit][chosen] == value, name
                yield built(name, data, edition, {"ones": BITS // 2},
                            {"monobit": True, "runs": low <= value <= high, "long_run": True})


# ---- long run ----

def with_long_run(g, bit, length, start):
    data = random_block(g)
    while count(data).longest > 20:
        data = random_block(g)
    made = to_bits(data)
    end = start + length
    made[start:end] = [bit] * length
    if start > 0:
        made[start - 1] = 1 - bit
    if end < BITS:
        made[end] = 1 - bit
    return of_bits(made)


def long_run(g, edition):
    fails_at = LIMITS[edition].long_run
    # Places in the block: from the first bit of a byte; from and to the middle of a byte; up to
    # the last bit. The last and the first stand side by side: a run ends with its block.
    places = {
        "from a byte's start": lambda n: 8 * (100 + g.draw(2000)),
        "across bytes": lambda n: 8 * (100 + g.draw(2000)) + 3,
        "at the end": lambda n: BITS - n,
        "at the start": lambda n: 0,
    }
    for bit in (0, 1):
        for length in (25, 26, 33, 34):
            # The other edition's lengths at one place only.
            own = length in (fails_at - 1, fails_at)
            for place in places if own else ["across bytes"]:
                data = with_long_run(g, bit, length, places[place](length))
                yield built(f"long run of {bit}, {length} {place}", data, edition,
                            {"longest": length}, {"long_run": length < fails_at})


# ---- the files ----

def other_edition(g, edition):
    """On the other edition's numbers, which decide nothing here or decide otherwise."""
    other = LIMITS[3 - edition]
    for ones in other.ones:
        yield built(f"ones {ones}", with_ones(g, ones), edition, {"ones": ones}, {"monobit": edition == 1})
    for near in other.poker:
        even = near - near % 2
        yield built(f"poker {even}", with_poker_sum(g, even), edition,
                    {"poker_sum": even}, {"poker": edition == 1})


PARTS = [plain, monobit, poker, runs, long_run, other_edition]


def blocks(edition, seed):
    """Pairs (name, 2,500 bytes)."""
    for place, part in enumerate(PARTS):
        g = Dice(seed * 1000 + 100 * edition + place)
        yield from part(g) if part is plain else part(g, edition)


def files(seed):
    """Of each pair of files: its name, its edition, its input."""
    g = Dice(seed * 1000)
    for edition, short in ((1, BLOCK - 1), (2, 1)):
        made = [data for _, data in blocks(edition, seed)]
        yield f"powerup_{edition}", edition, b"".join(made) + random_block(g)[:short]
    yield "powerup_3", 3, random_block(g) + bytes(BLOCK) + random_block(g)[:1250]
    yield "powerup_empty", 1, b""


def main(outdir, seed=SEED):
    os.makedirs(outdir, exist_ok=True)
    for name, edition, data in files(int(seed)):
        out = run(data, edition, with_counts=True)
        for kind, content in ((".stdin", data), (".stdout", out)):
            with open(os.path.join(outdir, name + kind), "wb") as f:
                f.write(content)
        print(f"{name}\tedition {edition}\t{len(data)} bytes in\t{out.count(10)} lines out")


if __name__ == "__main__":
    main(*sys.argv[1:])
