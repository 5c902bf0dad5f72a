"""The PreTree over a raw table, written from document 01 and document 02 §1 sentence by sentence.

A table is a list of 32-bit words of any content; a header is a pair (W, count)
of any two 32-bit numbers. Every call changes the table (or the list buffer) in
place and returns a Reply. The quotes are document 01's, or §1's where it says so.
"""
from collections import namedtuple

# "Every reply is a struct: the kind of answer with its key, and the two row
# counts beside it." / "Each call takes the header and hands the new header back"
# §1: "the serial for a `has` that found its word", else None.
Reply = namedtuple("Reply", "answer key rows moving serial header")

# A row that was read: where it is, how it was reached, and its entry: key and serial.
# `path` is the number made of the bits of the path, so it is below 2^depth.
Row = namedtuple("Row", "row depth path key serial")

# §1: "A row is then four words"
ROW = 4
LARGEST_CAPACITY = 65535


class Damage(Exception):
    """Something on the way is damage: answer 4."""


# ---- header and table ----

def capacity(table):
    # §1: "capacity the length divided by 4, at most 65,535"; "rounded down", as before.
    return min(len(table) // ROW, LARGEST_CAPACITY)


def bad_width(w):
    # "W 0 or above 32"
    return w == 0 or w > 32


def bad_header(table, header):
    # 2: "header W 0 or above 32, or count above capacity"
    w, count = header
    return bad_width(w) or count > capacity(table)


def bit(w, depth, k):
    # "At depth d, d below W, the bit that decides is bit W-1-d of the key, the
    # highest first. 0 goes left, 1 goes right."
    return (k >> (w - 1 - depth)) & 1


# "A row is three table words: key, left link, right link." §1: "Each row gets a fourth
# word, the serial handed in with `add`". So row i begins at table word 4i.

def key_place(row):
    return ROW * row


def link_place(row, side):
    # Side 0 is left, side 1 is right.
    return ROW * row + 1 + side


def serial_place(row):
    return ROW * row + 3


def put(table, row, entry):
    """Writes a row's entry, key and serial; the links stay."""
    table[key_place(row)], table[serial_place(row)] = entry


# ---- reading rows, with damage judged on the way only ----

def read(table, w, row, depth, path, above):
    """Read one row; `above` is the key of the row it was reached from."""
    key = table[key_place(row)]
    # "a row read has a key of 2^W or more,"
    if key >= 2 ** w:
        raise Damage
    # "or not greater than that of the row it was reached from,"
    if above is not None and key <= above:
        raise Damage
    # "or without the bits of the path to it;"
    if key >> (w - depth) != path:
        raise Damage
    # "a row read at depth W has a link other than 0;"
    if depth == w and (table[link_place(row, 0)] != 0 or table[link_place(row, 1)] != 0):
        raise Damage
    # No rule of damage speaks of the serial: "any 32-bit number" will do (§1).
    return Row(row, depth, path, key, table[serial_place(row)])


def read_root(table, w):
    # "The root is row 0 whenever the count is not 0" / "Depth of the root is 0."
    return read(table, w, 0, 0, 0, None)


def child(table, header, at, side):
    """Follow one link of a row that was read and read the row there; None at an empty link."""
    w, count = header
    link = table[link_place(at.row, side)]
    # "A link of 0 means none."
    if link == 0:
        return None
    # "a link that the way follows is count or more;"
    if link >= count:
        raise Damage
    return read(table, w, link, at.depth + 1, 2 * at.path + side, at.key)


def way_of(table, header, k, through_equal=False):
    """The way of k: a list of (row, turn); the turn is 0, 1, or None for no turn.

    "Way of k: from the root, follow k's bits; stop at an empty link, at depth W,
    or at the first row whose key is k or more. That last row counts."
    With through_equal, "rows equal to k are passed through" (`next`).
    """
    w, count = header
    # "with a count of 0 every way is empty"
    if count == 0:
        return []
    steps = []
    at = read_root(table, w)
    while at is not None:
        stops_for_key = at.key > k or (at.key == k and not through_equal)
        # "A way turns left or right at a row by the deciding bit, also where the
        # link on that side is empty; at depth W, and at a row where it stops for
        # its key, there is no turn."
        if stops_for_key or at.depth == w:
            steps.append((at, None))
            return steps
        turn = bit(w, at.depth, k)
        steps.append((at, turn))
        at = child(table, header, at, turn)
    return steps


def go_down(table, header, at, side):
    """The rows below `at`: by the link of `side`, else the other link, until both are none."""
    rows = []
    while True:
        # At depth W both links are 0, or reading the row was damage already.
        below = child(table, header, at, side)
        if below is None:
            below = child(table, header, at, 1 - side)
        if below is None:
            return rows
        rows.append(below)
        at = below


def ends_at(way, k):
    # "found if the way of k ends at k"
    return len(way) > 0 and way[-1][0].key == k


# ---- refusals ----

def refusal(answer, header):
    # "1 to 6 and 9 are refusals: counts 0, header, table and buffer untouched."
    return Reply(answer, None, 0, 0, None, header)


def judged(call):
    """The order of refusals of the calls on one word: "2, 3, 4, then 7 or 8, then 5".

    2 and 3 are here; the call itself gives 7, 8 and 5 after all damage is judged
    ("All of it is judged before anything is written."), so 4 may be caught here.
    The serial of `add` is not judged: it may be 2^W or more.
    """
    def guarded(table, header, k, *serial):
        if bad_header(table, header):
            return refusal(2, header)
        # 3: "k is 2^W or more"
        if k >= 2 ** header[0]:
            return refusal(3, header)
        try:
            return call(table, header, k, *serial)
        except Damage:
            return refusal(4, header)
    guarded.__name__ = call.__name__
    return guarded


# ---- the eleven calls ----

def new(table, header, w):
    # 1: "`new` with W 0 or above 32"
    # Left open: which header is "untouched" at a refused `new`. Chosen: the header
    # given to the call is handed back.
    if bad_width(w):
        return refusal(1, header)
    # "`new` makes no check but 1; it clears every row and hands back its W with a
    # count of 0." Every row is every row up to capacity: "Words past the last whole
    # row, or past that limit, are never changed." §1: "cleared rows hold four zeros".
    for place in range(ROW * capacity(table)):
        table[place] = 0
    # "`new` reads no row"
    return Reply(0, None, 0, 0, None, (w, 0))


@judged
def has(table, header, k):
    way = way_of(table, header, k)
    if not ends_at(way, k):
        return Reply(8, None, len(way), 0, None, header)
    # §1: "the serial for a `has` that found its word"
    return Reply(0, None, len(way), 0, way[-1][0].serial, header)


@judged
def next_(table, header, k):
    # "as the way of k, but rows equal to k are passed through."
    way = way_of(table, header, k, through_equal=True)
    # "If it meets a key greater than k, that is the answer."
    if way and way[-1][0].key > k:
        return Reply(0, way[-1][0].key, len(way), 0, None, header)
    # "Otherwise take the deepest row where the way went left and a right link
    # exists; its right child is read and is the answer."
    # "Went left" is read as "turned left", so also where the left link is empty.
    for at, turn in reversed(way):
        if turn == 0 and table[link_place(at.row, 1)] != 0:
            return Reply(0, child(table, header, at, 1).key, len(way) + 1, 0, None, header)
    return Reply(8, None, len(way), 0, None, header)


@judged
def prev(table, header, k):
    # "the way of k. Let p be its last row with key below k. No such row: none."
    way = way_of(table, header, k)
    smaller = [(at, turn) for at, turn in way if at.key < k]
    if not smaller:
        return Reply(8, None, len(way), 0, None, header)
    p, turn = smaller[-1]
    # "If the way turned right at p and p has a left child, go down from that child,
    # right link first, else left link, until both are none; that row is the answer."
    if turn == 1 and table[link_place(p.row, 0)] != 0:
        start = child(table, header, p, 0)
        rows = [start] + go_down(table, header, start, 1)
        # "All rows of both stretches count."
        return Reply(0, rows[-1].key, len(way) + len(rows), 0, None, header)
    # "Otherwise p."
    return Reply(0, p.key, len(way), 0, None, header)


@judged
def gap(table, header, k):
    # "distance 0 if k is present (count: the way of k)."
    way = way_of(table, header, k)
    if ends_at(way, k):
        return Reply(0, 0, len(way), 0, None, header)
    # "Else the smaller of the distances to `prev` and `next`, or the only one there
    # is; its count is the two counts added"
    before = prev(table, header, k)
    after = next_(table, header, k)
    # "`gap` answers 4 if any way it needs would."
    if before.answer == 4 or after.answer == 4:
        raise Damage
    distances = []
    if before.answer == 0:
        distances.append(k - before.key)
    if after.answer == 0:
        distances.append(after.key - k)
    rows = before.rows + after.rows
    # 8: "`gap`: empty set"
    if not distances:
        return Reply(8, None, rows, 0, None, header)
    return Reply(0, min(distances), rows, 0, None, header)


def first(table, header):
    # Left open: whether `first` and `last` are "single-word calls". Chosen: yes, as
    # all but `audit` and `list` are, so damage is judged on their way.
    if bad_header(table, header):
        return refusal(2, header)
    w, count = header
    # 8: "`next`, `prev`, `first`, `last`: no such word"
    if count == 0:
        return Reply(8, None, 0, 0, None, header)
    # "`first` reads the root."
    try:
        return Reply(0, read_root(table, w).key, 1, 0, None, header)
    except Damage:
        return refusal(4, header)


def last(table, header):
    if bad_header(table, header):
        return refusal(2, header)
    w, count = header
    if count == 0:
        return Reply(8, None, 0, 0, None, header)
    # "`last` goes down from the root by right link, else left link, until both are none."
    try:
        root = read_root(table, w)
        rows = [root] + go_down(table, header, root, 1)
        return Reply(0, rows[-1].key, len(rows), 0, None, header)
    except Damage:
        return refusal(4, header)


@judged
def add(table, header, k, serial):
    w, count = header
    # "the way of k."
    way = way_of(table, header, k)
    # 7: "`add` of a word already there". §1: it "still answers 7, but now stores the new
    # serial." "header, keys and links stay." All that can be damage here is on the way,
    # and that is judged. 7 comes before 5, so it is no matter whether the table is full.
    if ends_at(way, k):
        table[serial_place(way[-1][0].row)] = serial
        return Reply(7, None, len(way), 0, None, header)
    # "If it ends at a key greater than k, that row takes k and its old key is pushed
    # down by its own bits, taking each next row's place in turn, until a link is none."
    # A serial is that of its word, so it goes where the key goes.
    pushed = []
    link_to_set = None
    if way and way[-1][0].key > k:
        at = way[-1][0]
        while at is not None:
            # At depth W the key is the whole path. So neither the way of k nor a push
            # comes to a greater key there without damage, and there is a bit to decide.
            assert at.depth < w
            pushed.append(at)
            side = bit(w, at.depth, at.key)
            link_to_set = link_place(at.row, side)
            at = child(table, header, at, side)
    elif way:
        at, turn = way[-1]
        # At depth W a way without damage has found k, so the way ended at an empty link.
        assert turn is not None
        link_to_set = link_place(at.row, turn)
    # The row where the push begins is the last of the way; it counts once.
    rows = len(way) + max(len(pushed) - 1, 0)
    # 5: "`add` of an absent word with count = capacity". "The rows that a push or an
    # erase passes are on the way, also when the table is full." So 4 came before.
    if count == capacity(table):
        return refusal(5, header)
    # The writes. Document 01 gives no order for `add`; none can be seen, since the
    # rows of a way without damage are distinct and row `count` is none of them.
    entry = (k, serial)
    for at in pushed:
        put(table, at.row, entry)
        entry = (at.key, at.serial)
    # "The new row is row `count`, with both links 0, linked where the way or the push
    # ended; it isn't counted as read."
    put(table, count, entry)
    table[link_place(count, 0)] = 0
    table[link_place(count, 1)] = 0
    # With a count of 0 the new row is the root, and "no link names it".
    if link_to_set is not None:
        table[link_to_set] = count
    return Reply(0, None, rows, 0, None, (w, count + 1))


@judged
def del_(table, header, k):
    w, count = header
    # "the way of k,"
    way = way_of(table, header, k)
    # 8: "`has`, `del`: absent"
    if not ends_at(way, k):
        return Reply(8, None, len(way), 0, None, header)
    # "then from k's row down by left link, else right link,"
    stretch = [way[-1][0]] + go_down(table, header, way[-1][0], 0)
    rows = len(way) + len(stretch) - 1
    # "the last row of this stretch, the hole, is unlinked."
    hole = stretch[-1]
    if len(stretch) > 1:
        parent_of_hole = stretch[-2]
    elif len(way) > 1:
        parent_of_hole = way[-2][0]
    else:
        parent_of_hole = None
    # "If the hole is not row count-1, that last row is moved into it. For this a
    # second way, the way of the last row's key on the table as it was before the
    # call, gives the link to be set."
    last_row = count - 1
    second = []
    if hole.row != last_row:
        # The last row's key may be 2^W or more; its way then follows its low W bits,
        # and whatever it meets, it cannot end at that row without damage.
        last_key = table[key_place(last_row)]
        second = way_of(table, header, last_key)
        # "the second way of `del` doesn't end at row count-1 with its key."
        if second[-1][0].row != last_row or second[-1][0].key != last_key:
            raise Damage
    # All is judged. "The order is: keys up, unlink, move, set the link."
    # Keys up: "each row taking the key below", and its serial with it.
    for upper, lower in zip(stretch, stretch[1:]):
        put(table, upper.row, (lower.key, lower.serial))
    # Unlink. Only a hole at the root has no link to it.
    if parent_of_hole is not None:
        side = hole.path & 1
        table[link_place(parent_of_hole.row, side)] = 0
    if hole.row != last_row:
        # Move: the last row as it now is, after keys up and unlink.
        for word in range(ROW):
            table[ROW * hole.row + word] = table[ROW * last_row + word]
        # Set the link: the last one that the second way followed. There is one: the
        # last row is not the root here, or it would be the only row, and the hole.
        parent, turn = second[-2]
        table[link_place(parent.row, turn)] = hole.row
    # "Row count-1 is then three zeros." §1: "cleared rows hold four zeros"
    for word in range(ROW):
        table[ROW * last_row + word] = 0
    # "The rows of the second way are the moving count; it is 0 where nothing moves"
    return Reply(0, None, rows, len(second), None, (w, count - 1))


# ---- the whole table ----

def met_from(table, header, row, depth, path, met):
    """Rows "in the order row, left part, right part", as (row, key, depth, path).

    Gives up (False) at a row that is not in use, a row deeper than W, or one row
    more than the count: the table is then not sound whatever follows.
    """
    w, count = header
    if row >= count or depth > w or len(met) == count:
        return False
    met.append((row, table[key_place(row)], depth, path))
    for side in (0, 1):
        link = table[link_place(row, side)]
        if link != 0 and not met_from(table, header, link, depth + 1, 2 * path + side, met):
            return False
    return True


def sound_listing(table, header):
    """The keys in listing order if the table is sound, else None."""
    w, count = header
    # "A count of 0 is sound."
    if count == 0:
        return []
    # "A table is sound when the rows met from row 0 in the order row, left part,
    # right part are the rows 0 to count-1, each once," "and no row is deeper than W."
    met = []
    if not met_from(table, header, 0, 0, 0, met):
        return None
    if sorted(row for row, _, _, _ in met) != list(range(count)):
        return None
    # "their keys strictly increase in that order and are below 2^W,"
    keys = [key for _, key, _, _ in met]
    if any(a >= b for a, b in zip(keys, keys[1:])) or any(key >= 2 ** w for key in keys):
        return None
    # "each key has the bits of the path to its row,"
    if any(key >> (w - depth) != path for _, key, depth, path in met):
        return None
    return keys


def audit(table, header):
    # "Order: 9, 1, 2, 3, 4"
    if bad_header(table, header):
        return refusal(2, header)
    # "`audit` and `list` answer 4 exactly when the table is not sound."
    if sound_listing(table, header) is None:
        return refusal(4, header)
    # "Both count `count` rows."
    return Reply(0, None, header[1], 0, None, header)


def list_(table, header, buffer):
    # "For `list`: 2, 4, 6."
    if bad_header(table, header):
        return refusal(2, header)
    keys = sound_listing(table, header)
    if keys is None:
        return refusal(4, header)
    # 6: "`list` buffer shorter than count"
    if len(buffer) < header[1]:
        return refusal(6, header)
    # "`list` writes it to a lent buffer of 32-bit words and leaves the rest of the buffer."
    buffer[:len(keys)] = keys
    return Reply(0, None, header[1], 0, None, header)
