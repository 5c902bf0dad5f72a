"""Runs document 01's examples, with the serials of document 02 §1, on the model and compares pretree.py with dictionary.py.

    python3 check.py        prints counts and 'ok'; exit status 1 at a difference
"""
import sys

import damage
import dictionary
import example
import lines
import pretree
import raw
from damage import Draw
from dictionary import Dictionary
from example import tabs
from pretree import ROW, Reply, key_place, serial_place

counts = {}


def same(kind, name, got, wanted):
    counts[kind] = counts.get(kind, 0) + 1
    if got != wanted:
        print(f"{kind}: {name}: got {got}, wanted {wanted}")
        sys.exit(1)


# ---- document 01's examples ----

def serial_of(k):
    """The serial that the examples give a word: another for each, and none is a word or link of theirs."""
    return 100 + k


def made(w, words, rows):
    """A table of `rows` rows with these words, added in this order."""
    table = [7] * (ROW * rows)
    header = pretree.new(table, (0, 0), w).header
    for k in words:
        reply = pretree.add(table, header, k, serial_of(k))
        assert reply.answer == 0
        header = reply.header
    return table, header


def shape(table, row=0):
    """The tree as (key, left, right), () for none."""
    key, *links, serial = table[ROW * row:ROW * row + ROW]
    same("example", ("serial", key), serial, serial_of(key))
    return (key, *[shape(table, link) if link else () for link in links])


CALLS = {"new": pretree.new, "add": pretree.add, "del": pretree.del_, "has": pretree.has,
         "next": pretree.next_, "prev": pretree.prev, "gap": pretree.gap,
         "first": pretree.first, "last": pretree.last, "audit": pretree.audit,
         "list": pretree.list_}


def ask(table, header, call, *given):
    """The reply as text: answer, key or -, rows, moving count, serial or -."""
    reply = CALLS[call](table, header, *given)
    return " ".join("-" if part is None else str(part) for part in reply[:5])


A = (4, [4, 8, 11, 15])
B = (3, [0, 1, 2, 3, 4])
C = (1, [0, 1])
BENCH = [
    (A, "has", 11, "0 - 3 0 111"), (A, "prev", 4, "8 - 1 0 -"), (A, "next", 9, "0 11 3 0 -"),
    (A, "next", 15, "8 - 3 0 -"), (A, "prev", 9, "0 8 3 0 -"),
    (A, "gap", 9, "0 1 6 0 -"), (A, "gap", 0, "0 4 2 0 -"),
    (B, "prev", 4, "0 3 5 0 -"), (B, "next", 3, "0 4 5 0 -"), (B, "last", None, "0 4 2 0 -"),
    (C, "prev", 1, "0 0 2 0 -"), (C, "has", 1, "0 - 2 0 101"),
]


def examples():
    same("example", "lines", lines.run(tabs(example.GIVEN)), tabs(example.WRITTEN))
    same("example", "lines, last without byte 10",
         lines.run(tabs(example.GIVEN)[:-1]), tabs(example.WRITTEN))
    # Every arrival gives the same tree, so each example is asked of two.
    for backwards in (False, True):
        def table_of(members):
            w, words = members
            return made(w, words[::-1] if backwards else words, 8)
        same("example", "A", shape(table_of(A)[0]), (4, (), (8, (11, (), ()), (15, (), ()))))
        for members, call, k, wanted in BENCH:
            given = [] if k is None else [k]
            same("example", (call, k), ask(*table_of(members), call, *given), wanted)
    # "W 32 takes 4,294,967,295. W 4 takes 15, refuses 16." The serial may have 32 bits always.
    for w, k, answer in ((32, 4294967295, 0), (4, 15, 0), (4, 16, 3)):
        same("example", (w, k), pretree.add(*made(w, [], 2), k, 4294967295).answer, answer)
    # "Table of 3 words, W 4: `add` 5 answers 0, `add` 6 answers 5, `add` 5 answers 7."
    # §1: "The 3-word example table gets four." The 7 stores its serial, though the table is full.
    table, header = made(4, [], 1)
    for k, serial, answer, row in ((5, 21, 0, [5, 0, 0, 21]), (6, 22, 5, [5, 0, 0, 21]), (5, 23, 7, [5, 0, 0, 23])):
        reply = pretree.add(table, header, k, serial)
        same("example", ("add", k), reply.answer, answer)
        same("example", ("add", k, "row"), table, row)
        header = reply.header
    same("example", "header", header, (4, 1))
    # "One row 4, 0, 9 with W 4 and count 1: `has` 4 found, 1 row; `has` 8 answers 4;
    # `audit` answers 4." The damage is not on the way of 4, so `add` 4 answers 7.
    table, header = [4, 0, 9, 104], (4, 1)
    same("example", "has 4", ask(table, header, "has", 4), "0 - 1 0 104")
    same("example", "has 8", ask(table, header, "has", 8), "4 - 0 0 -")
    same("example", "audit", ask(table, header, "audit"), "4 - 0 0 -")
    same("example", "add 8", ask(table, header, "add", 8, 5), "4 - 0 0 -")
    same("example", "untouched", table, [4, 0, 9, 104])
    same("example", "add 4", ask(table, header, "add", 4, 5), "7 - 1 0 -")
    same("example", "its serial", table, [4, 0, 9, 5])


# ---- lines that are read, and lines that are not ----

READ = [b"new\t0", b"add\t0\t0", b"add\t4294967295\t4294967295", b"add\t5\t1000000000", b"del\t9", b"has\t10",
        b"next\t4294967295", b"prev\t1000000000", b"gap\t7", b"first", b"last", b"list", b"audit"]
BAD_NUMBERS = [b"", b"05", b"00", b"10000000000", b"00000000001", b"4294967296", b"9999999999", b"-1", b"+1",
               b" 5", b"5 ", b"5\r", b"5\0", b"\xb2", b"-"]
# One number, or three; two where one is asked for; and each number written wrongly.
NOT_READ = [b"", b"add", b"add 5 6", b"add5\t6", b"add\t5", b"add\t5\t6\t7", b"add\t5\t6\t", b"add\t\t5\t6",
            b"add\t5\t\t6", b"add\t5 6", b"add\t5,6", b"add 5\t6", b" add\t5\t6", b"ADD\t5\t6", b"adds\t5\t6",
            b"\t5\t6", b"has\t5\t6", b"del\t5\t6", b"new\t5\t6", b"next\t5\t6", b"prev\t5\t6", b"gap\t5\t6",
            b"has", b"has 5", b"has5", b"has\t5\t", b" has\t5", b"HAS\t5", b"list\r", b"list ", b"list\t",
            b"list\t5", b"list\t5\t6", b"LIST", b"\0", b"\xff", b"add\t5\t" + b"1" * 57,
            b"add\t5\t" + b"0" * 57 + b"5", b"add\t5\t6" + b" " * 57, b"add\t5\t6" + b" " * 58,
            b"x" * 5000, b"x" * 64 + b"list"]
NOT_READ += [form % number for form in (b"has\t%s", b"add\t%s", b"add\t5\t%s", b"add\t%s\t6") for number in BAD_NUMBERS]


def read_or_not():
    for line in READ:
        same("line", line, lines.parse(line) is not None, True)
    for line in NOT_READ:
        same("line", line, lines.parse(line), None)
    # A line not read leaves the set as it is and gives one reply line like any other.
    data = b"new\t4\nadd\t5\t3\n" + b"\n".join(NOT_READ) + b"\nhas\t5\nlist"
    wanted = ["1 0 - 0 0 -", "2 0 - 0 0 -"]
    wanted += [f"{n} 9 - 0 0 -" for n in range(3, 3 + len(NOT_READ))]
    wanted += [f"{3 + len(NOT_READ)} 0 - 1 0 3", f"{4 + len(NOT_READ)} 0 - 1 0 -", "key 5", ""]
    same("line", "all", lines.run(data), tabs("\n".join(wanted)))
    # "A line ends with byte 10, or at the end of input if bytes are left."
    same("line", "nothing", lines.run(b""), b"")
    same("line", "two empty lines", lines.run(b"\n\n"), tabs("1 9 - 0 0 -\n2 9 - 0 0 -\n"))
    same("line", "before new", lines.run(b"first"), tabs("1 2 - 0 0 -\n"))


# ---- damage by hand: one table for each thing that document 01 calls damage ----

FREE = [0, 0, 0, 0]     # one row not in use, so that the table is not full
BY_HAND = [
    # A link that the way follows is the count; calls that don't follow it don't see it.
    (3, 2, [1, 0, 2, 71, 5, 0, 0, 72] + FREE, {
        "has 4": "4 - 0 0 -", "has 0": "8 - 1 0 -", "has 1": "0 - 1 0 71", "next 0": "0 1 1 0 -", "next 1": "4 - 0 0 -",
        "prev 1": "8 - 1 0 -", "first": "0 1 1 0 -", "last": "4 - 0 0 -", "gap 0": "0 1 2 0 -",
        "gap 1": "0 0 1 0 -", "gap 2": "4 - 0 0 -", "add 2 9": "0 - 1 0 -", "add 1 9": "7 - 1 0 -", "del 1": "4 - 0 0 -",
        "audit": "4 - 0 0 -"}),
    # The same, and the row past the count holds the word that is sought.
    (3, 1, [1, 0, 1, 71, 5, 0, 0, 72], {"has 5": "4 - 0 0 -", "add 5 9": "4 - 0 0 -"}),
    # A key of 2^W.
    (3, 2, [1, 0, 1, 0, 8, 0, 0, 8] + FREE, {
        "has 1": "0 - 1 0 0", "has 2": "8 - 1 0 -", "has 4": "4 - 0 0 -", "next 1": "4 - 0 0 -",
        "add 1 9": "7 - 1 0 -", "add 2 9": "0 - 1 0 -", "last": "4 - 0 0 -"}),
    (3, 1, [8, 0, 0, 0], {"first": "4 - 0 0 -", "has 0": "4 - 0 0 -", "gap 0": "4 - 0 0 -", "add 0 9": "4 - 0 0 -"}),
    # A key not greater than the one above it; then a loop. The push of `add` 0 comes
    # to the loop, the way of `has` 2 stops before it.
    (3, 2, [1, 1, 0, 5, 1, 0, 0, 6], {"has 1": "0 - 1 0 5", "has 2": "4 - 0 0 -", "del 1": "4 - 0 0 -"}),
    (3, 2, [1, 1, 0, 4294967295, 2, 0, 1, 4294967294] + FREE, {
        "has 2": "0 - 2 0 4294967294", "has 3": "4 - 0 0 -", "next 2": "4 - 0 0 -", "last": "4 - 0 0 -",
        "del 1": "4 - 0 0 -", "add 0 9": "4 - 0 0 -", "add 2 9": "7 - 2 0 -", "prev 4": "4 - 0 0 -", "prev 2": "0 1 2 0 -"}),
    # A key without the bits of its path. `prev` and `gap` of 5 go where `next` doesn't.
    (3, 2, [1, 1, 0, 0, 5, 0, 0, 0], {
        "has 2": "4 - 0 0 -", "has 5": "8 - 1 0 -", "prev 5": "4 - 0 0 -", "gap 5": "4 - 0 0 -",
        "next 5": "8 - 1 0 -"}),
    # A damaged row above the word that is sought: row 1 is without the bits of its path, row 2 has them.
    (3, 3, [1, 1, 0, 71, 4, 0, 2, 72, 3, 0, 0, 73], {"has 3": "4 - 0 0 -", "add 3 9": "4 - 0 0 -", "add 1 9": "7 - 1 0 -"}),
    (3, 3, [1, 0, 1, 71, 2, 0, 2, 72, 6, 0, 0, 73], {"has 6": "4 - 0 0 -", "add 6 9": "4 - 0 0 -"}),
    # A row at depth W with a link, also where the way stops there for its key.
    (1, 2, [0, 0, 1, 71, 1, 1, 0, 72], {
        "has 1": "4 - 0 0 -", "has 0": "0 - 1 0 71", "next 0": "4 - 0 0 -", "last": "4 - 0 0 -",
        "first": "0 0 1 0 -", "del 0": "4 - 0 0 -", "add 1 9": "4 - 0 0 -", "add 0 9": "7 - 1 0 -"}),
    # A serial is no link: neither at depth W nor above.
    (1, 2, [0, 0, 1, 2, 1, 0, 0, 1], {"has 1": "0 - 2 0 1", "add 1 9": "7 - 2 0 -", "audit": "0 - 2 0 -"}),
    # The second way of `del` ends elsewhere: the last row is not linked, or its key is
    # met at another row before it, or its key is 2^W or more. `has` doesn't see it.
    (3, 3, [1, 1, 0, 71, 2, 0, 0, 72, 5, 0, 0, 73], {
        "has 2": "0 - 2 0 72", "del 2": "4 - 0 0 -", "has 5": "8 - 1 0 -", "del 5": "8 - 1 0 -"}),
    (3, 3, [1, 1, 0, 71, 2, 0, 0, 72, 2, 0, 0, 73], {"del 2": "4 - 0 0 -", "del 1": "4 - 0 0 -", "add 2 9": "7 - 2 0 -"}),
    (3, 3, [1, 1, 0, 71, 2, 0, 0, 72, 9, 0, 0, 73], {"del 2": "4 - 0 0 -"}),
    # The push is on the way, also when the table is full: 4 before 5, but 7 before 5.
    (3, 2, [4, 0, 1, 71, 6, 0, 0, 72], {"add 3 9": "5 - 0 0 -", "add 4 9": "7 - 1 0 -", "add 6 9": "7 - 2 0 -"}),
    (3, 2, [4, 0, 1, 71, 3, 0, 0, 72], {"add 3 9": "4 - 0 0 -", "add 4 9": "7 - 1 0 -"}),
    # Headers. A table of seven words has one row.
    (0, 0, FREE, {"has 1": "2 - 0 0 -", "first": "2 - 0 0 -", "audit": "2 - 0 0 -"}),
    (33, 0, FREE, {"has 1": "2 - 0 0 -", "last": "2 - 0 0 -", "gap 4000000000": "2 - 0 0 -"}),
    (3, 2, [1, 0, 0, 0, 0, 0, 0], {"has 9": "2 - 0 0 -", "add 1 9": "2 - 0 0 -"}),
    (3, 1, [1, 0, 0, 0, 0, 0, 0], {"has 1": "0 - 1 0 0", "add 1 9": "7 - 1 0 -", "add 2 9": "5 - 0 0 -", "audit": "0 - 1 0 -"}),
    (3, 1, [1, 0, 0], {"has 1": "2 - 0 0 -"}),
    (3, 0, [], {
        "add 1 9": "5 - 0 0 -", "add 8 9": "3 - 0 0 -", "audit": "0 - 0 0 -", "first": "8 - 0 0 -",
        "gap 3": "8 - 0 0 -", "has 3": "8 - 0 0 -", "next 3": "8 - 0 0 -", "prev 3": "8 - 0 0 -"}),
]

# What a call writes: width, count, table, call, count after it, table after it.
WRITES = [
    # A push takes the serial along with the key, through every row that it passes.
    (4, 1, [8, 0, 0, 81] + FREE, "add 4 41", 2, [4, 0, 1, 41, 8, 0, 0, 81]),
    (4, 3, [8, 0, 1, 81, 11, 0, 2, 111, 15, 0, 0, 151] + FREE, "add 4 41", 4,
     [4, 0, 1, 41, 8, 3, 2, 81, 15, 0, 0, 151, 11, 0, 0, 111]),
    # An erase takes it up with the key, and moves it with the last row. The freed row is four zeros.
    (4, 4, [4, 0, 1, 41, 8, 2, 3, 81, 11, 0, 0, 111, 15, 0, 0, 151], "del 8", 3,
     [4, 0, 1, 41, 11, 0, 2, 111, 15, 0, 0, 151, 0, 0, 0, 0]),
    (2, 3, [1, 0, 2, 11, 3, 0, 0, 31, 2, 0, 1, 21], "del 1", 2, [2, 0, 1, 21, 3, 0, 0, 31, 0, 0, 0, 0]),
    (4, 1, [5, 0, 0, 51] + FREE, "del 5", 0, FREE + FREE),
    # The new row takes the serial and clears both links, whatever the free row held.
    (4, 1, [5, 0, 0, 51, 6, 7, 8, 9], "add 9 0", 2, [5, 0, 1, 51, 9, 0, 0, 0]),
    # 7 stores the serial and nothing else; also 0, and also the serial that is there.
    (4, 2, [5, 0, 1, 51, 9, 0, 0, 91], "add 9 92", 2, [5, 0, 1, 51, 9, 0, 0, 92]),
    (4, 2, [5, 0, 1, 51, 9, 0, 0, 91] + FREE, "add 5 0", 2, [5, 0, 1, 0, 9, 0, 0, 91] + FREE),
    (4, 2, [5, 0, 1, 51, 9, 0, 0, 91], "add 9 91", 2, [5, 0, 1, 51, 9, 0, 0, 91]),
    # `new` clears whole rows, and no word past them.
    (4, 1, [1, 2, 3, 4, 5, 6, 7, 8, 9, 10, 11], "new 4", 0, FREE + FREE + [9, 10, 11]),
]


def largest_capacity():
    # "at most 65,535. Words past the last whole row, or past that limit, are never changed."
    table = [5] * (4 * 65537)
    same("by hand", "new", ask(table, (0, 0), "new", 32), "0 - 0 0 -")
    same("by hand", "past the limit", table, [0] * (4 * 65535) + [5] * 8)
    same("by hand", "count of 65,536", ask(table, (32, 65536), "first"), "2 - 0 0 -")
    same("by hand", "count of 65,535", ask(table, (32, 65535), "add", 0, 9), "7 - 1 0 -")
    same("by hand", "full", ask(table, (32, 65535), "add", 1, 9), "5 - 0 0 -")
    same("by hand", "its serial", table, [0, 0, 0, 9] + [0] * (4 * 65534) + [5] * 8)


def by_hand():
    largest_capacity()
    for w, count, table, questions in BY_HAND:
        for question, wanted in questions.items():
            call, *numbers = question.split()
            given = [int(number) for number in numbers]
            after = list(table)
            same("by hand", (w, count, table, question), ask(after, (w, count), call, *given), wanted)
            left_by("by hand", call, int(wanted[0]), table, (w, count), after, given)
    for w, count, table, question, count_after, wanted in WRITES:
        call, *numbers = question.split()
        after = list(table)
        reply = CALLS[call](after, (w, count), *map(int, numbers))
        same("by hand", (table, question), (reply.header, after), ((w, count_after), wanted))


# ---- laws of what a call leaves, on any table ----

def with_serial(table, row, serial):
    changed = list(table)
    changed[serial_place(row)] = serial
    return changed


def left_by(kind, call, answer, table, header, after, given):
    """Only a `new`, `add` or `del` with answer 0 changes keys, links or free rows; 7 stores its serial with its word."""
    if answer == 7:
        k, serial = given
        rows = [row for row in range(header[1]) if table[key_place(row)] == k]
        same(kind, (call, given, "stored"), after in [with_serial(table, row, serial) for row in rows], True)
        same(kind, (call, given, "found again"), pretree.has(after, header, k).serial, serial)
    elif answer != 0 or call not in ("add", "del", "new"):
        same(kind, (call, given, "untouched"), after, table)


def other_serials(table):
    """The table with another serial in every row."""
    changed = list(table)
    for row in range(pretree.capacity(table)):
        changed[serial_place(row)] = table[serial_place(row)] ^ 0xffffffff
    return changed


def serials_decide_nothing(kind, call, reply, table, header, after, given):
    """The same call with other serials: the same answer, counts and header, and the same keys and links.
    A `has` gives the other serial, and every serial that is moved or stored is the other one."""
    given = [given[0], given[1] ^ 0xffffffff] if call == "add" else given
    table = other_serials(table)
    again = CALLS[call](table, header, *given)
    same(kind, (call, given, "again"), again._replace(serial=None), reply._replace(serial=None))
    same(kind, (call, given, "serial"), again.serial, None if reply.serial is None else reply.serial ^ 0xffffffff)
    wanted = other_serials(after)
    # Cleared rows hold zeros both times.
    cleared = {"new": range(pretree.capacity(table)), "del": [header[1] - 1]}.get(call, []) if reply.answer == 0 else []
    for row in cleared:
        wanted[serial_place(row)] = 0
    same(kind, (call, given, "table"), table, wanted)


# ---- random runs: the table against the plain dictionary ----

SINGLE = ["has", "next", "prev", "gap", "add", "add", "add", "del", "del"]


def within_bounds(call, header, reply):
    w, count = header
    most = {"new": 0, "gap": 2 * w + 4, "next": w + 2, "prev": w + 2,
            "audit": count, "list": count}.get(call, w + 1)
    same("bound", (call, header, reply), reply.rows <= most, True)
    # "it is 0 where nothing moves, and in every other call"
    moved = w + 1 if call == "del" and reply.answer == 0 else 0
    same("bound", (call, header, reply), reply.moving <= moved, True)


def compare(table, header, d, call, given):
    """One call on both; returns the new header."""
    if call == "list":
        (length,) = given
        ours, theirs = [9] * length, [9] * length
        got = pretree.list_(table, header, ours)
        wanted = d.list(theirs)
        same("call", "buffer", ours, theirs)
    else:
        got = CALLS[call](table, header, *given)
        wanted = getattr(d, "del_" if call == "del" else call)(*given)
    same("call", (call, given, header), got, wanted)
    within_bounds(call, header, got)
    return got.header


def random_run(g, w, rows, calls, near):
    tail = [g.wild() for _ in range(g.draw(ROW))]
    table = [g.wild() for _ in range(ROW * rows)] + tail
    d = Dictionary(rows)
    header = pretree.new(table, (g.wild(), g.wild()), w).header
    d.new(w)
    erasing = False
    for _ in range(calls):
        # Sets grow until they are full and shrink until they are empty, by turns.
        if len(d.words) == rows or (d.words and len(d.words) == 2 ** w):
            erasing = True
        elif not d.words:
            erasing = False
        p = g.draw(32)
        if p == 0:
            call, given = "list", [max(0, len(d.words) + 1 - g.draw(3))]
        elif p < 4:
            call, given = ("first", "last", "audit")[p - 1], []
        elif p == 4 and g.draw(8) == 0:
            call, given = "new", [(0, w, w, 33, g.wild())[g.draw(5)]]
        else:
            call = SINGLE[g.draw(len(SINGLE))]
            if call in ("add", "del") and g.draw(4):
                call = "del" if erasing else "add"
            k = g.draw(min(2 ** w, 2 * rows)) if near else g.wild() // 2 ** (32 - w)
            if d.words and g.draw(3) == 0:
                k = d.words[g.draw(len(d.words))]
            if d.words and g.draw(3) == 0:
                k = (k + 2 ** 32 - 1 + g.draw(3)) % 2 ** 32
            given = [k, g.serial()] if call == "add" else [k]
        header = compare(table, header, d, call, given)
        # The whole table, so the set, its serials, the rows past the count, and the words past the rows.
        same("table", (call, given), table, d.rows() + tail)


def random_runs():
    g = Draw(2024)
    for w in (1, 2, 3, 8, 31, 32):
        for rows in (1, 3, 12, 40):
            for near in (True, False):
                random_run(g, w, rows, 200 + 20 * rows, near)


def every_small_set():
    """Every set of widths 1 to 3 and every word, for the calls that only read."""
    for w in (1, 2, 3):
        for members in range(2 ** 2 ** w):
            words = [k for k in range(2 ** w) if members >> k & 1]
            table, header = made(w, words[::-1], 8)
            d = Dictionary(8)
            d.w, d.words, d.serials = w, words, {k: serial_of(k) for k in words}
            for k in range(2 ** w + 1):
                for call in ("has", "next", "prev", "gap"):
                    compare(table, header, d, call, [k])
            for call in ("first", "last", "audit"):
                compare(table, header, d, call, [])


# ---- laws of damaged tables ----

def sound_by_the_tree(table, header):
    """Sound, said again: the rows in use are the sound tree of their keys, in some numbering; any serials will do."""
    w, count = header
    keys = [table[key_place(row)] for row in range(count)]
    words = sorted(set(keys))
    if len(words) != count or any(k >= 2 ** w for k in words):
        return None
    d = Dictionary(pretree.capacity(table))
    d.w, d.words = w, words
    d.serials = {k: table[serial_place(row)] for row, k in enumerate(keys)}
    d.number = {place: keys.index(k) for place, k in dictionary.places(words, w).items()}
    # The root is row 0, and the rows are just those of the tree.
    if count and (d.number[""] != 0 or d.rows()[:ROW * count] != table[:ROW * count]):
        return None
    return d


def add_and_del_on_sound(table, header, k, serial):
    """The rows in use, and the row that `del` frees, are the dictionary's; the rest stays."""
    for call, given in (("add", [k, serial]), ("del", [k])):
        copy = list(table)
        d = sound_by_the_tree(table, header)
        wanted = getattr(d, "del_" if call == "del" else call)(*given)
        same("damaged", call, CALLS[call](copy, header, *given), wanted)
        seen = ROW * max(header[1], wanted.header[1])
        same("damaged", (call, "rows"), copy, d.rows()[:seen] + table[seen:])


def watch(g, call, reply, before, after, given):
    table, header = before
    if reply.answer not in (0, 7, 8):
        same("damaged", "refusal", reply, Reply(reply.answer, None, 0, 0, None, header))
    same("damaged", (call, "serial given"), reply.serial is not None, call == "has" and reply.answer == 0)
    left_by("damaged", call, reply.answer, table, header, after, given)
    within_bounds(call, header, reply)
    if call == "audit" and reply.answer != 2:
        d = sound_by_the_tree(table, header)
        same("damaged", (table, header, "audit"), reply.answer, 4 if d is None else 0)
        if d is not None:
            # A sound table answers as the dictionary, whatever is past its rows in use.
            for k in {table[key_place(row)] for row in range(header[1])} | {0, 2 ** header[0] - 1}:
                for name in ("has", "next", "prev", "gap"):
                    same("damaged", name, CALLS[name](table, header, k), getattr(d, name)(k))
                add_and_del_on_sound(table, header, k, g.serial())
            same("damaged", "last", pretree.last(table, header), d.last())


def damaged_tables():
    g = Draw(2025)
    refused = set()
    for kind, header, table, room, apart, _ in damage.tables(7, 1500):
        for call, *given in apart:
            if call == "list":
                given = [[9] * room]
            after = list(table)
            reply = CALLS[call](after, header, *given)
            watch(g, call, reply, (table, header), after, given)
            serials_decide_nothing("damaged", call, reply, table, header, after, given)
            if reply.answer in (2, 4):
                refused.add(kind)
    # A sound table, and one with other words past its rows in use, is never refused for damage.
    same("damaged", "kinds", refused, set(range(damage.KINDS)) - {0, 10})


# ---- the runner for raw tables ----

def runner():
    # With nothing set it is the line program, with lines between the replies.
    data = tabs(example.GIVEN) + b"\n".join(NOT_READ[1:]) + b"\nlist"
    replies = [line for line in raw.run(data).splitlines() if line[:1].isdigit()]
    wanted = [line for line in lines.run(data).splitlines() if line[:1].isdigit()]
    same("raw", "as the line program", replies, wanted)
    same("raw", "one row", raw.run(tabs("header 4 1\ntable 4\nword 0 4 0 9 7\nhas 4\nhas 8\naudit\nadd 4 8\nadd 4\nadd 4 8 9")),
         tabs("4 0 - 1 0 7\nheader 4 1\n5 4 - 0 0 -\nheader 4 1\n6 4 - 0 0 -\nheader 4 1\n"
              "7 7 - 1 0 -\nheader 4 1\nword 3 8\n8 9 - 0 0 -\n9 9 - 0 0 -\n"))
    # What a call leaves is kept, or not; the buffer is blank before each call.
    same("raw", "keep and fresh", raw.run(tabs("table 5\nword 0 5 6\nbuffer 2\nfresh\nnew 1\nkeep\nnew 1\nadd 1 2\nlist\nlist\n")),
         tabs("5 0 - 0 0 -\nheader 1 0\nword 0 0\nword 1 0\n7 0 - 0 0 -\nheader 1 0\nword 0 0\nword 1 0\n"
              "8 0 - 0 0 -\nheader 1 1\nword 0 1\nword 3 2\n9 0 - 1 0 -\nheader 1 1\nkey 0 1\n"
              "10 0 - 1 0 -\nheader 1 1\nkey 0 1\n"))
    # Not read, and nothing changed; comments and empty lines say nothing.
    bad = ["table 262145", "buffer 65537", "table", "table 1 2", "header 1", "header 1 2 3", "word 0", "word 4 1",
           "word 3 1 2", "word 4294967295 1", "word 0 1 x", "word 0 1 01", "keep 1", "fresh ", "words 0 1", "x" * 257]
    same("raw", "not read", raw.run(tabs("header 4 0\ntable 4\n# note\n\n" + "\n".join(bad) + "\nnew 5")),
         tabs("".join(f"{n} 9 - 0 0 -\n" for n in range(5, 5 + len(bad))) + f"{5 + len(bad)} 0 - 0 0 -\nheader 5 0\n"))


def main():
    examples()
    read_or_not()
    by_hand()
    every_small_set()
    random_runs()
    damaged_tables()
    runner()
    print("\n".join(f"{kind}\t{n}" for kind, n in counts.items()))
    print("ok")


main()
