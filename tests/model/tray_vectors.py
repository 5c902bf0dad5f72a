"""Makes the vectors of the tray: NAME.args, NAME.stdin, NAME.stdout.

    python3 tray_vectors.py SEED OUTDIR

NAME.args holds W, C1 and C2, one to a line. The same seed gives the same bytes: each
file has its own dice, started with SEED and the file's place in the list below.
"""
import os
import sys

import tray
from damage import Dice


def line(seat, word):
    return f"{seat}\t{word}".encode()


def interleaved(g, streams):
    """The samples of several seats in one order; each seat's own order is kept."""
    seats = g.shuffled([seat for seat, words in streams.items() for _ in words])
    rest = {seat: iter(words) for seat, words in streams.items()}
    return [line(seat, next(rest[seat])) for seat in seats]


def window(g, width, word, count, last):
    """One whole window that has its first word count times, at its last place if last is 1."""
    length = tray.window_length(width)
    samples = [(word + 1 + g.below(2 ** width - 1)) % 2 ** width for _ in range(length)]
    places = g.shuffled(range(1, length - 1))[:count - 1 - last]
    for place in [0, *places] + [length - 1] * last:
        samples[place] = word
    return samples


def at_the_cutoff(g, width, word, c2):
    """Windows of one word that stop below the cutoff, reach it, or pass it, some of them
    at their last sample. The next window begins with the word too: its count starts anew."""
    made = []
    for count in range(c2 - 1, c2 + 2):
        made += window(g, width, word, count, 0) + window(g, width, word, count, 1)
    return made


def any_words(g, width, n):
    return [g.below(2 ** width) for _ in range(n)]


def leaning(g, width, n):
    """Two in three are the word of before or a favourite."""
    favourite = g.below(2 ** width)
    made = [favourite]
    while len(made) < n:
        made.append(g.one_of([made[-1], favourite, g.below(2 ** width)]))
    return made


def bits(g, c1, c2):
    """Seat 7 has nine windows; the last one is cut short."""
    return interleaved(g, {
        7: at_the_cutoff(g, 1, 0, c2) + [1] * 1100 + any_words(g, 1, 1500),
        0: [0] * 1030, 63: [g.draw(2)] + [1, 0] * 520,
    })


def bytes_(g, c1, c2):
    """Counts up to the whole window, and runs of the cutoff, longer than any window."""
    word = g.draw(256)
    other = (word + 1) % 256
    runs = []
    for n in (c1 - 1, c1, c1 + 1):
        runs += [word] * n + [other]
    return interleaved(g, {
        1: at_the_cutoff(g, 8, word, c2) + window(g, 8, word, 512, 1) + [word] * 700,
        62: any_words(g, 8, 300) + runs, 30: [255] * 515,
    })


def seats(g, c1, c2):
    """All 64 seats; each eighth of them crosses windows."""
    return interleaved(g, {seat: leaning(g, 4, 1060 if seat % 8 == 5 else 40 + g.draw(30))
                           for seat in range(64)})


def unread_line(g):
    seat, word = str(g.draw(64)).encode(), str(g.draw(32)).encode()
    good = seat + b"\t" + word
    n = g.one_of([63, 64, 65, 66, 127, 128, 129, 4096])
    return g.one_of([
        b"", b"\t", b"\r", b"\0", seat, seat + b"\t", b"\t" + word, seat + b" " + word, seat + word,
        seat + b"\t\t" + word, b"\t" + good, good + b"\t", good + b"\t" + word, good + b" ",
        b" " + good, seat + b" \t" + word, seat + b"\t " + word, good + b"\r", good + b"\0",
        b"0" + seat + b"\t" + word, seat + b"\t0" + word, b"00\t" + word, seat + b"\t00",
        b"-1\t" + word, seat + b"\t-1", b"+1\t" + word, seat + b"\t+1", b"1.0\t" + word,
        b"0x1\t" + word, seat + b"\t1e1", seat + b"\t:", b"/\t" + word, seat + b"\t\xb2",
        seat + b"\t\xd9\xa3", b"\xef\xbb\xbf" + good, seat + b"," + word, b"add\t" + word,
        b"4294967296\t" + word, seat + b"\t4294967296", seat + b"\t9999999999",
        seat + b"\t18446744073709551617", b"10000000000\t" + word, b"00000000001\t" + word,
        good + b" " * (n - len(good)), b"0" * (n - len(good)) + good, seat + b"\t" + b"1" * n,
        b"\t" * n, b"\xff" * n, b"x" * n + good, (good + b"\r") * 40,
    ])


def wild_line(g, width, word):
    """A line that is not read, or one that is refused for its word, its seat or both."""
    low, high = g.draw(64), g.one_of([64, 65, 128, 255, 256, 65536, 4294967295, 64 + g.draw(9999)])
    wide = g.one_of([2 ** width, 2 ** width + word, 65536 + word, 4294967295])
    return g.one_of([lambda: unread_line(g), lambda: unread_line(g), lambda: line(low, wide),
                     lambda: line(high, word), lambda: line(high, wide)])()


def wild(g, c1, c2):
    """Wild lines among samples of all seats, so that a line wrongly taken is seen later too."""
    made = []
    good = interleaved(g, {seat: leaning(g, 5, 20) for seat in (0, 1, 2, 31, 62, 63)}
                       | {9: leaning(g, 5, 600)})
    for one in good:
        made += [wild_line(g, 5, g.draw(32)) for _ in range(g.draw(3))] + [one]
    return made + [b"", line(63, 31), line(63, 31)]


def refused(width, words):
    """A few samples, repeated ones too, none of which is taken; unread lines stay 9."""
    def make(g, c1, c2):
        made = []
        for _ in range(40):
            seat = g.one_of([0, 5, 63, 63, 64, 4294967295])
            word = g.one_of(words)
            made += [line(seat, word)] * 3 + [wild_line(g, width, g.one_of(words))]
        return made
    return make


# Name, W, C1, C2, what makes its lines, whether the last line has its byte 10.
FILES = [
    ("tray_bits", 1, 5, 9, bits, True),
    ("tray_bytes", 8, 600, 510, bytes_, True),
    ("tray_seats", 4, 4, 40, seats, True),
    ("tray_wild", 5, 2, 2, wild, False),
    ("tray_cutoff_c1", 8, 1, 2, refused(8, [0, 7, 255, 256]), True),
    ("tray_cutoff_c2", 32, 2, 1, refused(32, [0, 2 ** 31, 4294967295]), False),
    ("tray_width_0", 0, 1, 1, refused(0, [0, 1, 4294967295]), True),
    ("tray_width_33", 33, 2, 2, refused(31, [0, 1, 4294967295]), False),
]


def made_by(seed):
    """Of each file, for a seed: its name, its three arguments and its input."""
    for place, (name, width, c1, c2, make, ended) in enumerate(FILES):
        made = make(Dice(seed * 1000 + 500 + place), c1, c2)
        yield name, (width, c1, c2), b"\n".join(made) + (b"\n" if ended else b"")


# ---- records that come as data ----

def near(g, *numbers):
    """One of these or a number beside it, of 32 bits."""
    return min(max(g.one_of(numbers) + g.one_of([-1, 0, 0, 1]), 0), tray.TOP)


def any_record(g):
    """A case whose record has each number drawn for itself, so that few are left by a sequence
    of samples. Places are near the ends of both windows, cutoffs near the counts."""
    width = g.one_of([1, 1, 2, 8, 31, 32])
    word = g.one_of([0, 1, 2 ** width - 1, g.below(2 ** width)])
    last, first = (g.one_of([word, word, word, 0, near(g, word), g.wild()]) for _ in range(2))
    run = near(g, 1, 2, 9, tray.TOP)
    place = near(g, 1, 3, 300, 511, 511, 1023, g.wild())
    count = near(g, 1, 2, place, place // 2, place // 2, g.wild())
    c1, c2 = (max(near(g, 2, n + 1, n + 1, tray.TOP), 2) for n in (run, count))
    length = g.one_of([1, 64])
    record = tray.Record(last, run, first, place, count)
    return tray.Case(length, length - 1, width, word, c1, c2, record)


def cases(seed):
    """One sample on each of many records, damaged ones too: lines for tray.run_records."""
    g = Dice(seed * 1000 + 500 + len(FILES))
    made = [case for case, _ in tray.fault_cases()] + [case for case, _ in tray.record_cases()]
    made += [any_record(g) for _ in range(800)]
    # A program's words have 32 bits: at W 32 and above none is too wide.
    return b"".join("\t".join(map(str, case[:6] + case.record)).encode() + b"\n"
                    for case in made if case.word <= tray.TOP)


def main(seed, outdir):
    os.makedirs(outdir, exist_ok=True)
    for name, arguments, data in made_by(seed):
        out = tray.run(data, *arguments)
        args = "".join(f"{a}\n" for a in arguments).encode()
        for kind, content in ((".args", args), (".stdin", data), (".stdout", out)):
            with open(os.path.join(outdir, name + kind), "wb") as f:
                f.write(content)
        print(f"{name}\t{len(data)} bytes in\t{len(out)} bytes out")


if __name__ == "__main__":
    main(int(sys.argv[1]), sys.argv[2])
