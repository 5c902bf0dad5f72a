"""Document 02 §6, health tests for a whole tray, from its words and the standard's.

    python3 tray.py W C1 C2 <samples >replies     the program: lines of seat, tab, word
    python3 tray.py records <cases >replies       one sample on any record: see run_records
    python3 tray.py                               compares the parts below; prints 'ok'

The standard's procedures run over the plain list of one seat's samples. The records
are the document's. They share nothing but the length of a window.
"""
import sys
from collections import namedtuple
from itertools import product

from damage import Draw
from lines import number, split_lines

SEATS = 64


def window_length(width):
    # "the proportion window is 1,024 samples for one-bit words and 512 for wider ones"
    return 1024 if width == 1 else 512


# ---- the standard: NIST SP 800-90B, for each sample of a list whether it signals ----

def repetition_count(samples, cutoff):
    """4.4.1. A is the sample last begun with, B how often it came in a row."""
    signals = [0] * len(samples)
    a, b = None, 0
    for i, x in enumerate(samples):
        if i > 0 and x == a:
            b = b + 1
            # "counting goes on after it": B isn't begun again at a signal.
            if b >= cutoff:
                signals[i] = 1
        else:
            a, b = x, 1
    return signals


def adaptive_proportion(samples, cutoff, length):
    """4.4.2. A is the first sample of a window, B how often it came in the window."""
    signals = [0] * len(samples)
    for start in range(0, len(samples), length):
        a, b = samples[start], 1
        for i in range(start + 1, min(start + length, len(samples))):
            if samples[i] == a:
                b = b + 1
                # Only a sample that "lifts the standard's count" signals.
                if b >= cutoff:
                    signals[i] = 1
    return signals


# ---- the records ----

# "one for each chip, with the last word, its run, the proportion window's word, its place
# and its count"
Record = namedtuple("Record", "last run word place count")
# "A fresh record is all zeros"
FRESH = Record(0, 0, 0, 0, 0)
# "a run stays at 4,294,967,295 once it is there"
TOP = 4294967295


def refusal(tray, seat, width, word, c1, c2):
    """The number of the refusal, 0 if the sample is taken."""
    # "Refusals: 1 for a width of 0 or above 32, then 3 for a word of 2^W or more, 13 for a
    # seat that isn't in the tray or is 64 or more, 14 for either cutoff below 2, 4 for a
    # seat record whose place is the window's length or more or whose count is above its
    # place."
    if width == 0 or width > 32:
        return 1
    if word >= 2 ** width:
        return 3
    if seat >= len(tray) or seat >= 64:
        return 13
    if c1 < 2 or c2 < 2:
        return 14
    if tray[seat].place >= window_length(width) or tray[seat].count > tray[seat].place:
        return 4
    return 0


def after_run(record, word, c1, top):
    """The new last word and run, and the repetition alarm."""
    # "a run of 0 means no sample yet": then the last word says nothing.
    if record.run == 0 or record.last != word:
        return word, 1, 0
    # "[..] or repeats the word of a run at its top"
    if record.run == top:
        return word, top, 1
    return word, record.run + 1, 1 if record.run + 1 >= c1 else 0


def after_window(record, word, c2, length):
    """The new word, place and count of the window, and the proportion alarm."""
    # "The place is how many samples the present window has had": at 0 one begins.
    if record.place == 0:
        return word, 1, 1, 0
    lifted = record.word == word
    count = record.count + 1 if lifted else record.count
    alarm = 1 if lifted and count >= c2 else 0
    # "after a window's last sample its word, place and count are 0"
    if record.place + 1 == length:
        return 0, 0, 0, alarm
    return record.word, record.place + 1, count, alarm


def sample(tray, seat, width, word, c1, c2, top=TOP):
    """Answer number, repetition alarm, proportion alarm. Only tray[seat] may change."""
    answer = refusal(tray, seat, width, word, c1, c2)
    if answer != 0:
        return answer, 0, 0
    last, run, repetition = after_run(tray[seat], word, c1, top)
    first, place, count, proportion = after_window(tray[seat], word, c2, window_length(width))
    tray[seat] = Record(last, run, first, place, count)
    return 0, repetition, proportion


# ---- the program ----

def parse(line):
    """(seat, word), or None where the line is not read."""
    # No readable line is above 21 bytes, so the 64 bytes decide nothing by themselves.
    if len(line) > 64:
        return None
    seat, tab, word = line.partition(b"\t")
    if not tab or number(seat) is None or number(word) is None:
        return None
    return number(seat), number(word)


def run(data, width, c1, c2):
    tray = [FRESH] * SEATS
    out = []
    for line_number, line in enumerate(split_lines(data), 1):
        read = parse(line)
        # A line that isn't read is 9, before every other refusal, as in document 01.
        reply = (9, 0, 0) if read is None else sample(tray, read[0], width, read[1], c1, c2)
        out.append("\t".join(str(part) for part in (line_number, *reply)) + "\n")
    return "".join(out).encode("ascii")


# ---- any record ----

# One sample for a seat of a tray of this length, whose records are all the one given.
Case = namedtuple("Case", "length seat width word c1 c2 record")


def answered(case):
    """The reply, and the tray after it."""
    tray = [case.record] * case.length
    return sample(tray, *case[1:6]), tray


def run_records(data):
    """Lines of a case's eleven numbers, parted by tabs. The reply to each has the answer, both
    alarms and the seat's record after it; for a seat that isn't in the tray, the one given."""
    out = []
    for line in split_lines(data):
        given = [number(field) for field in line.split(b"\t")]
        case = Case(*given[:6], Record(*given[6:]))
        reply, tray = answered(case)
        record = tray[case.seat] if case.seat < case.length else case.record
        out.append("\t".join(str(part) for part in (*reply, *record)) + "\n")
    return "".join(out).encode("ascii")


# ---- the self-check ----

def same(name, got, wanted):
    if got != wanted:
        print(f"{name}: got {got}, wanted {wanted}")
        sys.exit(1)


def equal_at_end(samples):
    """How many equal samples end the list."""
    n = 0
    while n < len(samples) and samples[-1 - n] == samples[-1]:
        n += 1
    return n


def said_of_lists():
    """Each procedure signals just where a count of the list so far is the cutoff or more."""
    g = Draw(1)
    for _ in range(300):
        samples = [g.draw(2) for _ in range(g.draw(40))]
        cutoff, length = 2 + g.draw(5), 2 + g.draw(12)
        run_signals = repetition_count(samples, cutoff)
        window_signals = adaptive_proportion(samples, cutoff, length)
        for i, x in enumerate(samples):
            so_far = samples[:i + 1]
            present = so_far[i // length * length:]
            same("run", run_signals[i], int(equal_at_end(so_far) >= cutoff))
            same("window", window_signals[i],
                 int(x == present[0] and present.count(x) >= cutoff))


def next_word(g, width, before, still):
    """Often the word of before, so that runs cross windows; else one of a few or any."""
    if before and (g.draw(200) > 0 if still else g.draw(8) < 3):
        return before[-1]
    return g.wild() % 2 ** width if g.draw(6) == 0 else g.draw(min(3, 2 ** width))


def record_of(samples, length, top):
    """What the document says of the record after these samples."""
    if not samples:
        return FRESH
    place = len(samples) % length
    present = samples[len(samples) - place:]
    window = (present[0], place, present.count(present[0])) if present else (0, 0, 0)
    return Record(samples[-1], min(equal_at_end(samples), top), *window)


def one_sequence(g, width, seats, n, c1, c2, top):
    """n samples to seats drawn at random; yields the two alarms of each."""
    tray = [FRESH] * seats
    samples = [[] for _ in range(seats)]
    alarms = [[] for _ in range(seats)]
    still = g.draw(2)
    for _ in range(n):
        s = g.draw(seats)
        word = next_word(g, width, samples[s], still)
        before = list(tray)
        answer, *raised = sample(tray, s, width, word, c1, c2, top)
        same("answer", answer, 0)
        before[s] = tray[s]
        same("other seats", tray, before)
        samples[s].append(word)
        alarms[s].append(tuple(raised))
        yield tuple(raised)
    length = window_length(width)
    for s in range(seats):
        standard = zip(repetition_count(samples[s], c1),
                       adaptive_proportion(samples[s], c2, length))
        same(f"alarms at W {width} with {c1}, {c2}", alarms[s], list(standard))
        same("record", tray[s], record_of(samples[s], length, top))


def sequences():
    """The records' alarms are the standard's, on each seat's samples alone."""
    g = Draw(2)
    seen = {}
    for width in (1, 2, 4, 8, 31, 32):
        length = window_length(width)
        for seats, n in ((1, 4 * length + 9), (3, 6 * length), (64, 64 * 40)):
            for c1, c2 in ((2, 2), (3, length // 2), (6, length // 3), (2, length), (TOP, TOP)):
                # Also with a top so low that runs reach it. No cutoff is above the true top,
                # so none is above the low one.
                for top in (TOP, 5):
                    for pair in one_sequence(g, width, seats, n, min(c1, top), c2, top):
                        seen[pair] = seen.get(pair, 0) + 1
    for pair in ((0, 0), (0, 1), (1, 0), (1, 1)):
        same(f"alarms {pair} met often", seen[pair] > 1000, True)


def fault_cases():
    """Every set of faults at once, and the refusal that is wanted: the first in order."""
    order = [1, 3, 13, 14, 4]
    # For each, what is handed in without the fault and with it. A place is given by what it
    # is below the window's length.
    widths = [(1, 4, 32), (0, 33, 64)]
    words = [lambda width: 0, lambda width: 2 ** width]
    seats = [((2, 3), (63, 70)), ((3, 3), (64, 64), (64, 70), (TOP, 3))]
    cutoffs = [((2, 2), (TOP, 2)), ((1, 2), (2, 1), (0, 0))]
    windows = [((1, 0), (1, 500), (500, 0)), ((0, 0), (-1, 1), (500, 525), (512, 513))]
    for faults in product((0, 1), repeat=5):
        wanted = ([n for n, there in zip(order, faults) if there] + [0])[0]
        for width, (seat, length), cutoff, (left, count) in product(
                widths[faults[0]], seats[faults[2]], cutoffs[faults[3]], windows[faults[4]]):
            record = Record(0, 1, 0, window_length(width) - left, count)
            yield Case(length, seat, width, words[faults[1]](width), *cutoff, record), wanted
    # The window's length is that of the width handed in.
    yield Case(1, 0, 2, 0, 9, 9, Record(0, 1, 0, 512, 1)), 4
    yield Case(1, 0, 1, 0, 9, 9, Record(0, 1, 0, 512, 1)), 0


def refusals():
    """The refusal is the one that is wanted, and a refusal changes nothing."""
    for case, wanted in fault_cases():
        reply, tray = answered(case)
        same(f"{case}", reply[0], wanted)
        if wanted != 0:
            same(f"{case}", (reply, tray), ((wanted, 0, 0), [case.record] * case.length))


# A record, a word and cutoffs at W 8, what is answered and the record after it. Some of
# these records come from no sequence of samples; none is refused.
RECORDS = [
    (FRESH, 0, (2, 2), (0, 0, 0), Record(0, 1, 0, 1, 1)),
    (Record(5, 0, 5, 0, 0), 5, (2, 2), (0, 0, 0), Record(5, 1, 5, 1, 1)),
    (Record(0, 1, 0, 1, 1), 0, (2, 2), (0, 1, 1), Record(0, 2, 0, 2, 2)),
    (Record(7, 0, 7, 3, 1), 7, (2, 2), (0, 0, 1), Record(7, 1, 7, 4, 2)),
    (Record(7, 1, 9, 3, 3), 7, (2, 2), (0, 1, 0), Record(7, 2, 9, 4, 3)),
    (Record(7, 1, 7, 3, 0), 7, (2, 2), (0, 1, 0), Record(7, 2, 7, 4, 1)),
    (Record(7, 9, 7, 511, 2), 7, (9, 3), (0, 1, 1), Record(7, 10, 0, 0, 0)),
    (Record(7, 9, 7, 511, 2), 8, (9, 2), (0, 0, 0), Record(8, 1, 0, 0, 0)),
    (Record(7, 9, 3, 0, 0), 7, (10, 2), (0, 1, 0), Record(7, 10, 7, 1, 1)),
    (Record(7, TOP - 2, 3, 1, 1), 7, (TOP, 2), (0, 0, 0), Record(7, TOP - 1, 3, 2, 1)),
    (Record(7, TOP - 1, 3, 1, 1), 7, (TOP, 2), (0, 1, 0), Record(7, TOP, 3, 2, 1)),
    (Record(7, TOP, 3, 1, 1), 7, (TOP, 2), (0, 1, 0), Record(7, TOP, 3, 2, 1)),
    (Record(7, TOP, 3, 1, 1), 8, (TOP, 2), (0, 0, 0), Record(8, 1, 3, 2, 1)),
    (Record(300, 4, 400, 6, 5), 0, (2, 2), (0, 0, 0), Record(0, 1, 400, 7, 5)),
]


def record_cases():
    """The table's rows, and what is wanted of each."""
    for record, word, cutoffs, reply, after in RECORDS:
        yield Case(1, 0, 8, word, *cutoffs, record), (reply, after)


def records():
    for case, (reply, after) in record_cases():
        same(f"{case}", answered(case), (reply, [after]))
    data = b"3\t1\t8\t7\t2\t2\t7\t1\t7\t3\t0\n3\t3\t8\t7\t2\t2\t7\t1\t7\t3\t0\n"
    same("lines", run_records(data), b"0\t1\t0\t7\t2\t7\t4\t1\n13\t0\t0\t7\t1\t7\t3\t0\n")


def program():
    data = b"0\t3\n0\t3\n\n63\t3\n64\t3\n64\t4\n0 3\n00\t3\n0\t3\t\n" + b"0" * 65 + b"\n0\t3\n63\t3"
    replies = ["0 0 0", "0 1 0", "9 0 0", "0 0 0", "13 0 0", "3 0 0", "9 0 0", "9 0 0", "9 0 0",
               "9 0 0", "0 1 1", "0 1 0"]
    text = "".join(f"{i} {reply}\n" for i, reply in enumerate(replies, 1))
    same("program", run(data, 2, 2, 3), text.replace(" ", "\t").encode("ascii"))
    same("program", run(data + b"\n", 2, 2, 3), run(data, 2, 2, 3))
    same("program", run(b"", 2, 2, 3), b"")
    same("program", run(b"\n", 0, 0, 0), b"1\t9\t0\t0\n")


if __name__ == "__main__":
    if len(sys.argv) == 1:
        said_of_lists()
        sequences()
        refusals()
        records()
        program()
        print("ok")
    elif sys.argv[1:] == ["records"]:
        sys.stdout.buffer.write(run_records(sys.stdin.buffer.read()))
    else:
        # Left open: what the program does without three numbers. Chosen: it says so and stops.
        given = [number(a.encode()) for a in sys.argv[1:]]
        if len(given) != 3 or None in given:
            sys.exit("usage: tray.py W C1 C2, three numbers as document 01 has them")
        sys.stdout.buffer.write(run(sys.stdin.buffer.read(), *given))
