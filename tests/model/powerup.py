"""The four old power-up tests of document 02 §9, two editions, and the program over them.

    python3 powerup.py EDITION [--counts] <bytes >lines
    python3 powerup.py        checks this model and its built blocks; prints 'ok'

Written from the words of §9 and of its issue alone.
"""
import sys
from collections import namedtuple

# "Input is 2,500 bytes, highest bit first."
BLOCK = 2500

# One table of numbers for each edition. An interval is (lowest, highest) and includes both.
Limits = namedtuple("Limits", "ones poker runs long_run")
LIMITS = {
    1: Limits(
        # "Ones must lie strictly between 9,654 and 10,346 in the first edition,"
        ones=(9655, 10345),
        # "The poker sum of the sixteen squared counts must be 1,562,822 to 1,580,437,"
        poker=(1562822, 1580437),
        # "first edition 2,267 to 2,733, 1,079 to 1,421, 502 to 748, 223 to 402, 90 to 223, 90 to 223;"
        runs=((2267, 2733), (1079, 1421), (502, 748), (223, 402), (90, 223), (90, 223)),
        # "A run of 34 or more, [..] equal bits fails."
        long_run=34),
    2: Limits(
        # "9,725 and 10,275 in the second."
        ones=(9726, 10274),
        # "respectively 1,563,176 to 1,576,928."
        poker=(1563176, 1576928),
        # "second 2,315 to 2,685, 1,114 to 1,386, 527 to 723, 240 to 384, 103 to 209, 103 to 209."
        runs=((2315, 2685), (1114, 1386), (527, 723), (240, 384), (103, 209), (103, 209)),
        # "respectively 26 or more,"
        long_run=26),
}

# Of any bytes. `zeros_runs` and `ones_runs`: how many maximal runs of that bit have length 1,
# 2, 3, 4, 5, and 6 or more.
Counts = namedtuple("Counts", "ones poker poker_sum zeros_runs ones_runs longest")
Verdicts = namedtuple("Verdicts", "monobit poker runs long_run")
# Where the answer is not 0 there are no counts and no verdicts.
Reply = namedtuple("Reply", "answer counts verdicts")


def bits(data):
    return "".join(f"{byte:08b}" for byte in data)


def by_length(runs):
    return [runs.count(n) for n in range(1, 6)] + [len([n for n in runs if n >= 6])]


def count(data):
    text = bits(data)
    poker = [0] * 16
    for byte in data:
        poker[byte // 16] += 1
        poker[byte % 16] += 1
    # A maximal run of zeros is what stands between two ones, or between a one and an end.
    zeros = [len(run) for run in text.split("1") if run]
    ones = [len(run) for run in text.split("0") if run]
    return Counts(text.count("1"), poker, sum(n * n for n in poker),
                  by_length(zeros), by_length(ones), max(zeros + ones, default=0))


def within(n, interval):
    lowest, highest = interval
    return lowest <= n <= highest


def judge(counts, limits):
    return Verdicts(
        within(counts.ones, limits.ones),
        within(counts.poker_sum, limits.poker),
        # "Intervals for runs of 1, 2, 3, 4, 5, and 6 or more, of zeros and of ones alike"
        all(within(n, interval)
            for runs in (counts.zeros_runs, counts.ones_runs)
            for n, interval in zip(runs, limits.runs)),
        counts.longest < limits.long_run)


def test(data, edition):
    # "Refusals: 16 for another length, 17 for an edition other than 1 or 2, in that order."
    if len(data) != BLOCK:
        return Reply(16, None, None)
    if edition not in LIMITS:
        return Reply(17, None, None)
    counts = count(data)
    return Reply(0, counts, judge(counts, LIMITS[edition]))


# ---- the program ----

def fields(reply, with_counts):
    """What follows the block number and the answer number."""
    if reply.answer != 0:
        return ["-"] * (35 if with_counts else 7)
    counts = reply.counts
    told = ["pass" if verdict else "fail" for verdict in reply.verdicts]
    told += [counts.ones, counts.poker_sum, counts.longest]
    if with_counts:
        told += counts.poker + counts.zeros_runs + counts.ones_runs
    return told


def run(data, edition, with_counts=False):
    """The program's standard output: one line for each block, none for an empty input."""
    out = []
    for start in range(0, len(data), BLOCK):
        reply = test(data[start:start + BLOCK], edition)
        line = [start // BLOCK + 1, reply.answer] + fields(reply, with_counts)
        out.append("\t".join(map(str, line)) + "\n")
    return "".join(out).encode("ascii")


def main(arguments):
    with_counts = "--counts" in arguments
    (text,) = [a for a in arguments if a != "--counts"]
    # Left open: how an edition is written. Chosen: just `1` or `2`; any other text is another edition.
    edition = {"1": 1, "2": 2}.get(text)
    sys.stdout.buffer.write(run(sys.stdin.buffer.read(), edition, with_counts))
    if edition is None:
        print("powerup: the edition is not 1 or 2 (answer 17)", file=sys.stderr)
        return 17
    return 0


# ---- the model's own checks ----

def same(name, got, wanted):
    if got != wanted:
        print(f"{name}: got {got}, wanted {wanted}")
        sys.exit(1)


def poker_of(**halves):
    """Sixteen counts, those not named are 0: poker_of(h0=2, hf=1)."""
    return [halves.get(f"h{n:x}", 0) for n in range(16)]


# Bytes in hexadecimal, then their counts, all worked out by hand.
BY_HAND = [
    ("", Counts(0, poker_of(), 0, [0] * 6, [0] * 6, 0)),
    ("00", Counts(0, poker_of(h0=2), 4, [0, 0, 0, 0, 0, 1], [0] * 6, 8)),
    # 1000 0000 0000 0001: one run of 14 zeros, across the bytes. Lowest bit first it would be two of 7.
    ("8001", Counts(2, poker_of(h8=1, h0=2, h1=1), 6, [0, 0, 0, 0, 0, 1], [2, 0, 0, 0, 0, 0], 14)),
    # 0000 1111 1111 0000
    ("0ff0", Counts(8, poker_of(h0=2, hf=2), 8, [0, 0, 0, 2, 0, 0], [0, 0, 0, 0, 0, 1], 8)),
    # 1010 0101
    ("a5", Counts(4, poker_of(ha=1, h5=1), 2, [2, 1, 0, 0, 0, 0], [4, 0, 0, 0, 0, 0], 2)),
    # 1101 0011 0111 1100: ones 2 1 2 5, zeros 1 2 1 2
    ("d37c", Counts(10, poker_of(hd=1, h3=1, h7=1, hc=1), 4, [2, 2, 0, 0, 0, 0], [1, 2, 0, 0, 1, 0], 5)),
    # 0001 0000 0111 1110 0000 0100: zeros 3 5 6 2, ones 1 6 1
    ("107e04", Counts(8, poker_of(h1=1, h0=2, h7=1, he=1, h4=1), 8,
                      [0, 1, 1, 0, 1, 1], [2, 0, 0, 0, 0, 1], 6)),
]


def counts_by_walking(data):
    """Counted a second way: bit by bit and half-byte by half-byte, with one run at a time."""
    ones, poker, runs, longest = 0, [0] * 16, ([0] * 6, [0] * 6), 0
    last, length = None, 0
    for half in data.hex():
        poker[int(half, 16)] += 1
    for place in range(8 * len(data)):
        bit = data[place // 8] >> (7 - place % 8) & 1
        ones += bit
        if bit != last:
            if last is not None:
                runs[last][min(length, 6) - 1] += 1
            last, length = bit, 0
        length += 1
        longest = max(longest, length)
    if last is not None:
        runs[last][min(length, 6) - 1] += 1
    return Counts(ones, poker, sum(n ** 2 for n in poker), runs[0], runs[1], longest)


def line_of(text):
    return (text.replace(" ", "\t") + "\n").encode("ascii")


def check_by_hand():
    for data, wanted in BY_HAND:
        same(data, count(bytes.fromhex(data)), wanted)
    none, dashes = " 0" * 15, " -" * 28
    zeros = bytes(BLOCK)
    # 0101 0101: 10,000 runs of one bit each way; it passes monobit and long run alone.
    same("alternating", run(b"\x55" * BLOCK, 2),
         line_of("1 0 pass fail fail pass 10000 25000000 1"))
    same("zeros", run(zeros, 1, True),
         line_of("1 0 fail fail fail fail 0 25000000 20000 5000" + none + " 0 0 0 0 0 1 0 0 0 0 0 0"))
    same("ones", run(b"\xff" * BLOCK, 1, True),
         line_of("1 0 fail fail fail fail 20000 25000000 20000" + none + " 5000 0 0 0 0 0 0 0 0 0 0 0 1"))
    # A last block that is short, and an edition that is not there: 16 before 17.
    for edition in (1, 2, 3):
        same("nothing", run(b"", edition, True), b"")
        same("short", run(bytes(BLOCK - 1), edition), line_of("1 16 - - - - - - -"))
        same("short", run(b"\0", edition, True), line_of("1 16 - - - - - - -" + dashes))
        same("too long", test(bytes(BLOCK + 1), edition).answer, 16)
    for edition in (0, 3, None):
        same("edition", run(zeros + b"\0", edition, True),
             line_of("1 17 - - - - - - -" + dashes) + line_of("2 16 - - - - - - -" + dashes))


def check_limits():
    # "The editions differ in numbers alone": the second is stricter in each of them.
    first, second = LIMITS[1], LIMITS[2]
    for (low, high), (lower, higher) in zip((first.ones, first.poker) + first.runs,
                                            (second.ones, second.poker) + second.runs):
        same("stricter", low < lower < higher < high, True)
    # The verdicts at each number, on made-up counts.
    for limits in LIMITS.values():
        middle = [(low + high) // 2 for low, high in limits.runs]
        good = Counts(10000, None, limits.poker[0], middle, middle, limits.long_run - 1)
        same("good", judge(good, limits), (True, True, True, True))
        same("long run", judge(good._replace(longest=limits.long_run), limits), (True, True, True, False))
        for field, place in (("ones", 0), ("poker_sum", 1)):
            low, high = limits[place]
            for n, passes in ((low - 1, False), (low, True), (high, True), (high + 1, False)):
                same(field, judge(good._replace(**{field: n}), limits)[place], passes)
        for field in ("zeros_runs", "ones_runs"):
            for length, (low, high) in enumerate(limits.runs):
                for n, passes in ((low - 1, False), (low, True), (high, True), (high + 1, False)):
                    runs = middle[:length] + [n] + middle[length + 1:]
                    same(field, judge(good._replace(**{field: runs}), limits), (True, True, passes, True))


def check_built_blocks():
    # Here and not above: that file is written over this one.
    import powerup_vectors
    for edition in (1, 2):
        for name, data in powerup_vectors.blocks(edition, powerup_vectors.SEED):
            counts = count(data)
            same(name, counts, counts_by_walking(data))
            same(name, sum(counts.poker), 5000)
            same(name, counts.poker_sum % 2, 0)
            # Runs of zeros and of ones take turns, and all runs together are the 20,000 bits.
            same(name, abs(sum(counts.zeros_runs) - sum(counts.ones_runs)) <= 1, True)
            runs = [len(run) for bit in "01" for run in bits(data).split(bit)]
            same(name, sum(runs), 20000)
            same(name, sum(counts.zeros_runs + counts.ones_runs), len([n for n in runs if n]))


def check():
    check_by_hand()
    check_limits()
    check_built_blocks()
    print("ok")


if __name__ == "__main__":
    sys.exit(main(sys.argv[1:]) if sys.argv[1:] else check())
