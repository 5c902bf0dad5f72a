"""Makes the vectors of the gate: for each program NAME its input, NAME/stdin, and what it must write, NAME/stdout.

    python3 vectors.py              writes them into crates/
    python3 vectors.py compare      compares them with those in crates/; exit status 1 if one differs
    python3 vectors.py DIR [SEED]   writes them into another folder, from another seed than 1

The same seed gives the same bytes: the only dice are damage.py's, started for each part with SEED, and the part's place in the list
below after it.
"""
import os
import sys

import example
import lines
import powerup
import powerup_vectors
import pretree
import raw
import tray
import tray_vectors
from damage import KINDS, Dice, tables


def op(word, *numbers):
    return "\t".join(map(str, (word,) + numbers)).encode()


def some_words(g, w, n, dense):
    """n words of width w (or all of them), dense or sparse, in increasing order."""
    top = 2 ** w
    if n >= top:
        return list(range(top))
    if dense:
        # Nearly every second number of one stretch, not always from 0.
        start = g.below(top - 2 * n + 1) if 2 * n < top else 0
        return sorted(g.shuffled(range(start, min(start + 2 * n, top)))[:n])
    found = set()
    while len(found) < n:
        found.add(g.below(top))
    return sorted(found)


def near(g, w, words):
    """A word to ask about: one of the words, one beside it, any word, or one too large."""
    p = g.draw(16)
    k = g.one_of(words)
    if p < 6:
        return k
    if p < 9:
        return min(k + 1, 4294967295)
    if p < 12:
        return max(k - 1, 0)
    if p < 14:
        return g.below(2 ** w)
    if p == 14:
        return g.one_of([0, 2 ** w - 1])
    return g.one_of([min(2 ** w, 4294967295), 4294967295, g.wild()])


MIX = ["has", "has", "next", "next", "prev", "prev", "gap", "gap", "add", "add", "add", "del", "del"]


def mixed(g, w, words, n, lists):
    """n random lines; about one in forty is a `list` if lists is true."""
    made = []
    for _ in range(n):
        p = g.draw(40)
        if p == 0 and lists:
            made.append(op("list"))
        elif p < 3:
            made.append(op(g.one_of(["first", "last", "audit"])))
        else:
            word, k = g.one_of(MIX), near(g, w, words)
            made.append(op(word, k, g.serial()) if word == "add" else op(word, k))
    return made


def adds(g, words):
    return [op("add", k, g.serial()) for k in words]


def dels(words):
    return [op("del", k) for k in words]


def serials(words):
    """Asks for the serial of each: only `has` shows it."""
    return [op("has", k) for k in words]


def again(g, words):
    """Brings words again that may be there (7), each with another serial, and asks for it."""
    return adds(g, words) + serials(words)


WHOLE = [op("list"), op("audit"), op("first"), op("last")]


def small(g, w, n):
    """Width w from before the first `new` to full and empty sets, with `list` often."""
    words = list(range(2 ** w))
    made = [op("add", 0, 1), op("has", 0), op("first"), op("list"), op("audit"), op("new", w)] + WHOLE
    while len(made) < n:
        made += adds(g, g.one_of([words, words[::-1], g.shuffled(words)])) + WHOLE + serials(words)
        made += mixed(g, w, words, 4 * len(words) + 10, True) + serials(words)
        made += dels(g.one_of([words, words[::-1], g.shuffled(words)])) + WHOLE
        made += mixed(g, w, words, 2 * len(words) + 4, True)
    return made[:n]


def width8(g):
    words = list(range(256))
    some = some_words(g, 8, 40, dense=False)
    made = [op("new", 8)] + adds(g, g.shuffled(words)) + WHOLE + serials(words)
    made += mixed(g, 8, words, 400, False) + again(g, g.shuffled(words)[:100])
    made += dels(g.shuffled(words)[:200]) + WHOLE + serials(words)
    made += mixed(g, 8, words, 300, False)
    made += [op("new", 8)] + adds(g, some[::-1]) + WHOLE + serials(some) + mixed(g, 8, some, 400, True)
    made += [op("new", 8)] + adds(g, words) + dels(words[::-1]) + WHOLE
    return made


def full(g, w, words, then):
    """5,000 adds in the order given, so the last 904 or so find the table full."""
    made = [op("new", w)] + adds(g, words) + WHOLE
    # The table is full, and 7 stores the serial all the same.
    made += again(g, g.shuffled(words)[:60])
    made += mixed(g, w, words, then, False)
    # Once more to full: `add` answers 0 a few times, then 5, and 7 for words there.
    made += dels(words[5:25]) + again(g, words[:40]) + [op("audit"), op("last")]
    return made + serials(g.shuffled(words)[:200])


def width31(g):
    return full(g, 31, some_words(g, 31, 5000, dense=True), 500)


def width32(g):
    return full(g, 32, g.shuffled(some_words(g, 32, 5000, dense=False)), 600)


def width32_reversed(g):
    """Reversed arrivals (every add pushes), erases in three orders."""
    sparse = some_words(g, 32, 500, dense=False)
    dense = list(range(4294967295, 4294967295 - 300, -1))
    made = [op("new", 32)] + adds(g, sparse[::-1]) + mixed(g, 32, sparse, 300, False) + WHOLE + serials(sparse[:200])
    made += dels(g.shuffled(sparse)[:300]) + WHOLE + serials(sparse[:200])
    made += adds(g, dense) + mixed(g, 32, dense, 300, False) + WHOLE
    made += dels(dense[:150]) + dels(sparse[:100]) + WHOLE + serials(dense[150:])
    return made


def new_in_the_middle(g):
    made = []
    while len(made) < 1100:
        w = g.one_of([1, 2, 3, 8, 31, 32])
        if g.draw(3) == 0:
            # Refused: the set of before stays as it is.
            made += [op("new", g.one_of([0, 33, 64, 4294967295, g.wild()])), op("list")]
        words = some_words(g, w, 1 + g.draw(30), dense=g.draw(2) == 0)
        arrivals = g.one_of([words, words[::-1], g.shuffled(words)])
        made += [op("new", w)] + adds(g, arrivals) + mixed(g, w, words, g.draw(40), True)
    return made


def wild_number(g, digits):
    """What stands where a number should, and is none."""
    return g.one_of([
        b"", b" " + digits, digits + b" ", digits + b"a", digits + b"\r", digits + b"\0", b"\0" + digits,
        digits[:1] + b"\0" + digits[1:], b"\t" + digits, digits + b"\t",
        b"0" + digits, b"00", b"0" * g.draw(12) + b"07", b"10000000000", b"00000000001", b"99999999999",
        b"18446744073709551617", b"4294967296", b"4294967300", b"9999999999", b"5000000000",
        b"-", b"-1", b"+1", b"1.0", b"0x1", b"1_0", b"1e1", b"1,000", b":", b"/", b"\r", b"\xb2", b"\xd9\xa3", b"\xff",
    ])


def wild_line(g):
    """A line that is not read, of every kind that we could think of."""
    word = g.one_of([b"new", b"add", b"add", b"del", b"has", b"next", b"prev", b"gap"])
    alone = g.one_of([b"first", b"last", b"list", b"audit"])
    digits = str(g.one_of([0, 5, g.draw(256), g.wild()])).encode()
    # Where `add` is broken at its word, its serial stands behind it all the same.
    rest = b"\t" + str(g.serial()).encode() if word == b"add" else b""
    good = word + b"\t" + digits + rest
    long_one = g.one_of([63, 64, 65, 66, 80, 127, 128, 129, 255, 256, 257, 4096, 5000])
    return g.one_of([
        lambda: b"",
        lambda: word, lambda: word + b"\t", lambda: b"\t" + digits, lambda: b"\t", lambda: digits,
        lambda: word + b" " + digits + rest, lambda: word + digits + rest,
        lambda: word + b"\t\t" + digits + rest, lambda: good + b"\t", lambda: good + b"\t" + digits,
        lambda: b"\t" + good, lambda: good + b" ", lambda: b" " + good,
        lambda: word + b" \t" + digits + rest,
        lambda: alone + b" ", lambda: b" " + alone, lambda: alone + b"\t",
        lambda: alone + b"\t" + digits, lambda: alone + b"\t0", lambda: alone + b"\t" + digits + b"\t5",
        # Every way to write a number wrongly, for the word and for the serial.
        lambda: word + b"\t" + wild_number(g, digits) + rest,
        lambda: word + b"\t" + wild_number(g, digits) + rest,
        lambda: word + b"\t" + wild_number(g, digits) + rest,
        lambda: word + b"\t" + wild_number(g, digits) + rest,
        lambda: b"add\t5\t" + wild_number(g, digits),
        lambda: b"add\t5\t" + wild_number(g, digits),
        lambda: b"add\t5\t" + wild_number(g, digits),
        # One number and three for `add`, two for the others; the two of `add` parted otherwise.
        lambda: b"add\t" + digits, lambda: b"add\t" + digits + b"\t5\t6",
        lambda: g.one_of([b"new", b"del", b"has", b"next", b"prev", b"gap"]) + b"\t" + digits + b"\t5",
        lambda: b"add\t" + digits + g.one_of([b" ", b",", b":", b"\0", b"\r", b"-", b"\t\t", b"\t ", b" \t"]) + b"5",
        lambda: g.one_of([b"size", b"insert", b"erase", b"adds", b"ad", b"dell", b"nex",
                          b"nextt", b"gaps", b"succ"]) + b"\t" + digits + rest,
        lambda: g.one_of([b"lists", b"lis", b"firs", b"lastt", b"audi", b"key", b"quit", b"#"]),
        lambda: word.upper() + b"\t" + digits + rest, lambda: word.capitalize() + b"\t" + digits + rest,
        lambda: alone.upper(), lambda: alone.capitalize(),
        lambda: good + b"\r", lambda: alone + b"\r", lambda: b"\r", lambda: word + b"\t\r",
        lambda: good + b"\0", lambda: b"\0" + good, lambda: b"\0", lambda: alone + b"\0",
        lambda: word + b"\0" + digits + rest,
        lambda: b"\xff", lambda: b"\xc3\xa4dd\t" + digits + rest,
        lambda: alone + b"\xa0", lambda: b"\xef\xbb\xbf" + good,
        lambda: bytes([word[0] + 128]) + word[1:] + b"\t" + digits + rest,
        lambda: good + b"\x0b", lambda: good + b"\x0c", lambda: b"\x7f" + alone,
        lambda: bytes(g.one_of([0, 9, 13, 32, 48, 97, 128, 255]) for _ in range(g.draw(70))),
        lambda: good + b" " * (long_one - len(good)),
        lambda: word + b"\t" + b"0" * (long_one - len(word) - 1 - len(digits + rest)) + digits + rest,
        lambda: good + b"\t" + b"0" * (long_one - len(good) - 2) + b"5",
        lambda: b"add\t5\t" + b"0" * (long_one - 7) + b"5",
        lambda: word + b"\t" + b"1" * (long_one - len(word) - 1),
        lambda: b"\t" * long_one, lambda: b"\0" * long_one, lambda: b"\xff" * long_one,
        # What is past byte 64 must not be read as another line.
        lambda: b"x" * g.one_of([63, 64, 65, 128]) + good,
        lambda: b" " * g.one_of([63, 64, 65, 128]) + alone,
        lambda: (good + b"\r") * 400,
    ])()


def wild(g):
    """Wild lines among readable ones, so that a line wrongly read is seen later too."""
    words = list(range(0, 256, 3))
    made = []
    for _ in range(500):
        made.append(wild_line(g))
    made.append(op("new", 8))
    for line in adds(g, g.shuffled(words)) + mixed(g, 8, words, 320, True):
        made += [wild_line(g) for _ in range(g.draw(3))] + [line]
    # Every wild line with its lengths, at the edge of the 64 bytes.
    for n in (0, 1, 13, 14, 15, 16, 24, 25, 26, 62, 63, 64, 65, 66, 5000):
        for byte in (b"\0", b" ", b"0", b"a", b"\xff"):
            made += [byte * n, b"add\t5\t6"[:n] + byte * (n - 7), op("list")]
    # The last line is empty, and a line all the same: it has its byte 10.
    return made + [b""]


def no_end(g):
    """A short file whose last line has no byte 10 and is read all the same."""
    return mixed(g, 8, [1, 2, 3], 20, True) + [op("new", 8), op("add", 7, 70), b"", op("list"), op("has", 7)]


HERE = os.path.dirname(os.path.abspath(__file__))
CRATES = os.path.join(HERE, "..", "..", "crates")


def edges(g):
    """The documents' examples, and lines of the runner at their edges; a line may have 256 bytes, and a comment more."""
    with open(os.path.join(HERE, "edges.txt"), "rb") as f:
        made = f.read().splitlines()
    for n in (254, 255, 256, 257, 258, 600):
        made += [b"word\t0" + b"\t4" * (n // 2 - 3) + b" " * (n % 2), b"table\t4" + b" " * (n - 7), b"#" * n, b"audit"]
    return made + [b"table\t125", b"word\t0" + b"\t4" * 125, b"audit"]


def setting(table):
    """Lines that set a table, five rows to each; six of wild words could have more than 256 bytes."""
    made = [op("table", len(table))]
    for at in range(0, len(table), 20):
        made.append(op("word", at, *table[at:at + 20]))
    return made


def telling(g, header, table, calls):
    """Leaves out most calls that answer 2 or 3: those answers are all alike, and the gate compares no more than 1 MiB."""
    refused = pretree.bad_header(table, header)
    made = []
    for call in calls:
        too_wide = not refused and len(call) > 1 and call[1] >= 2 ** header[0]
        if call[0] == "new" or g.draw(5 if refused else 3 if too_wide else 1) == 0:
            made.append(call)
    return made


def damaged(g):
    """Every call on tables of every kind of damage, and then some calls one after the other."""
    made = []
    for kind, header, table, room, apart, after in tables(g.wild(), 43 * KINDS):
        apart = telling(g, header, table, apart)
        made += [f"# damage of kind {kind}".encode(), op("header", *header)]
        made += setting(table) + [op("buffer", room)]
        made += [op("fresh")] + [op(*call) for call in apart]
        made += [op("keep")] + [op(*call) for call in after]
    return made


def documents_example(g):
    return example.tabs(example.GIVEN).splitlines()


def some_setting(g):
    """A line that sets something, with numbers that have a place and numbers that have none."""
    number = g.one_of([0, 1, 3, 4, 15, 16, 17, g.draw(40), 65536, 65537, 262145, g.wild()])
    few = [g.one_of([g.draw(16), g.draw(16), g.wild()]) for _ in range(1 + g.draw(9))]
    return op(*g.one_of([
        ["header", g.draw(34), g.draw(6)], ["header", 4, number], ["header", number], ["header"] + few,
        ["table", g.draw(40)], ["table", number], ["table", 16, number], ["table"],
        ["word", g.draw(16)] + few, ["word", number] + few, ["word", g.draw(16)], ["word"],
        ["buffer", g.draw(12)], ["buffer", number], ["buffer"], ["keep"], ["fresh"], ["keep", number], ["fresh", 0],
    ]))


def wild_settings(g):
    """Lines of the runner by chance, among them lines that are not read."""
    made = [op("table", 16), op("new", 4)]
    for _ in range(1000):
        p = g.draw(8)
        if p < 2:
            made.append(some_setting(g))
        elif p == 2:
            made.append(g.one_of([wild_line(g), b" " + some_setting(g), some_setting(g) + b"\t", some_setting(g).upper()]))
        else:
            made += mixed(g, 4, list(range(16)), 1, True)
    return made


# Name, the parts of which its lines are made, whether the last line has its byte 10, and the model that answers. A part begins with what
# the one before it left.
FILES = [
    ("vectors", [
        lambda g: small(g, 1, 400), lambda g: small(g, 3, 900), width8, lambda g: small(g, 2, 600),
        width31, width32, width32_reversed,
        new_in_the_middle, wild, no_end,
    ], False, lines.run),
    ("raw", [edges, damaged, wild_settings], False, raw.run),
    ("bench", [documents_example], True, lines.run),
]


# The programs of the tray, and which of tray_vectors.py's inputs each is run on.
TRAY = [("vectors_tray_bits", "tray_bits"), ("vectors_tray_words", "tray_wild")]


# The programs of the power-up tests, and which of powerup_vectors.py's inputs each is run on.
POWERUP = [("powerup_main", "powerup_2"), ("vectors_powerup", "powerup_1")]


def made_by(seed, wanted=lambda model: True):
    """Of each file whose model is wanted, for a seed: its name, its lines, what ends the last of them, and the model that answers."""
    place = 0
    for name, parts, ended, model in FILES:
        if wanted(model):
            made = []
            for i, make in enumerate(parts):
                made += make(Dice(seed * 1000 + place + i))
            yield name, made, b"\n" if ended else b"", model
        place += len(parts)


def contents(seed):
    """Each file's path, below the folder of the crates, and its bytes."""
    for name, made, end, model in made_by(seed):
        data = b"\n".join(made) + end
        yield os.path.join(name, "stdin"), data
        yield os.path.join(name, "stdout"), model(data)
    made = {name: (edition, data) for name, edition, data in powerup_vectors.files(9)}
    for name, part in POWERUP:
        edition, data = made[part]
        yield os.path.join(name, "args"), f"{edition}\n--counts\n".encode()
        yield os.path.join(name, "stdin"), data
        yield os.path.join(name, "stdout"), powerup.run(data, edition, True)
    made = {name: (arguments, data) for name, arguments, data in tray_vectors.made_by(seed)}
    for name, part in TRAY:
        arguments, data = made[part]
        yield os.path.join(name, "args"), "".join(f"{a}\n" for a in arguments).encode()
        yield os.path.join(name, "stdin"), data
        yield os.path.join(name, "stdout"), tray.run(data, *arguments)
    data = tray_vectors.cases(seed)
    yield os.path.join("vectors_tray_seats", "stdin"), data
    yield os.path.join("vectors_tray_seats", "stdout"), tray.run_records(data)


def write(folder, seed):
    for path, content in contents(seed):
        os.makedirs(os.path.dirname(os.path.join(folder, path)), exist_ok=True)
        with open(os.path.join(folder, path), "wb") as f:
            f.write(content)
        print(f"{path}\t{len(content)} bytes\t{len(lines.split_lines(content))} lines")


def compare(folder, seed):
    """How many files differ from what the model makes."""
    differing = 0
    for path, content in contents(seed):
        with open(os.path.join(folder, path), "rb") as f:
            same = f.read() == content
        print(f"{path}\t{'same' if same else 'DIFFERS'}")
        differing += not same
    return differing


if __name__ == "__main__":
    args = sys.argv[1:]
    if args == ["compare"]:
        sys.exit(min(compare(CRATES, 1), 1))
    write(args[0] if args else CRATES, int(args[1]) if len(args) > 1 else 1)
