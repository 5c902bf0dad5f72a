"""The plain ordered dictionary of source document 004, with the calls of document 01 and the serials of document 02 §1.

It is a map from words to serials. The words are also kept as a sorted list, and
answers come from these two alone. Rows read are computed over
the sound tree of the set, never over a table: "The sound tree of a set is: its
least word at the root, the rest parted by the next bit, and so on down." A part of
that tree is a sorted list too, so its least word is part[0].

What a set cannot tell is which place of the tree has which row number. For that the
rows are numbered here by places (the path to a row as a text of 0 and 1): two sound
trees that differ by one word differ by exactly one place. The new place gets the
next number; at an erase the last number takes the number of the place that went.
"""
from bisect import bisect_left, bisect_right, insort

from pretree import Reply


def side_of(k, w, depth):
    # The deciding bit, here by arithmetic and not by shifts.
    return k // 2 ** (w - 1 - depth) % 2


def left_and_right(part, w, depth):
    rest = part[1:]
    if depth == w:
        assert not rest
        return [], []
    # The rest is sorted and agrees above the deciding bit: all 0 come before all 1.
    cut = len([k for k in rest if side_of(k, w, depth) == 0])
    return rest[:cut], rest[cut:]


def way(part, w, k, through_equal=False, depth=0):
    """The parts on the way of k, each as (part, depth, turn)."""
    if not part:
        return []
    least = part[0]
    if depth == w or least > k or (least == k and not through_equal):
        return [(part, depth, None)]
    turn = side_of(k, w, depth)
    below = left_and_right(part, w, depth)[turn]
    return [(part, depth, turn)] + way(below, w, k, through_equal, depth + 1)


def rows_down(part, w, depth, right_first):
    """How many rows from this part's root down, by one link, else the other."""
    if not part:
        return 0
    left, right = left_and_right(part, w, depth)
    below = (right or left) if right_first else (left or right)
    return 1 + rows_down(below, w, depth + 1, right_first)


def rows_pushed(part, w, depth):
    """How many rows a push passes, this part's root included: each key by its own bits."""
    if not part:
        return 0
    below = left_and_right(part, w, depth)[side_of(part[0], w, depth)]
    return 1 + rows_pushed(below, w, depth + 1)


def places(part, w, depth=0, path=""):
    """The places of the sound tree of a set, each with its word."""
    if not part:
        return {}
    left, right = left_and_right(part, w, depth)
    found = {path: part[0]}
    found.update(places(left, w, depth + 1, path + "0"))
    found.update(places(right, w, depth + 1, path + "1"))
    return found


class Dictionary:
    def __init__(self, capacity):
        self.capacity = capacity
        self.w = 0
        self.words = []
        self.serials = {}       # word -> serial
        self.number = {}        # place -> row number

    def header(self):
        return (self.w, len(self.words))

    def reply(self, answer, key=None, rows=0, moving=0, serial=None):
        return Reply(answer, key, rows, moving, serial, self.header())

    def refused(self, k=None):
        if not 1 <= self.w <= 32:
            return self.reply(2)
        if k is not None and k >= 2 ** self.w:
            return self.reply(3)
        return None

    def new(self, w):
        if not 1 <= w <= 32:
            return self.reply(1)
        self.w, self.words, self.serials, self.number = w, [], {}, {}
        return self.reply(0)

    def has(self, k):
        # Only a word that is there has a serial.
        return self.refused(k) or self.reply(
            0 if k in self.words else 8, None, len(way(self.words, self.w, k)), serial=self.serials.get(k))

    def next(self, k):
        if self.refused(k):
            return self.refused(k)
        steps = way(self.words, self.w, k, through_equal=True)
        rows = len(steps)
        if steps and steps[-1][0][0] <= k:
            # The right child is read if the way turned left anywhere beside a right part.
            rows += any(turn == 0 and left_and_right(part, self.w, depth)[1]
                        for part, depth, turn in steps)
        place = bisect_right(self.words, k)
        if place == len(self.words):
            return self.reply(8, None, rows)
        return self.reply(0, self.words[place], rows)

    def prev(self, k):
        if self.refused(k):
            return self.refused(k)
        steps = way(self.words, self.w, k)
        rows = len(steps)
        smaller = [step for step in steps if step[0][0] < k]
        if smaller and smaller[-1][2] == 1:
            part, depth, _ = smaller[-1]
            left = left_and_right(part, self.w, depth)[0]
            rows += rows_down(left, self.w, depth + 1, right_first=True)
        place = bisect_left(self.words, k)
        if place == 0:
            return self.reply(8, None, rows)
        return self.reply(0, self.words[place - 1], rows)

    def gap(self, k):
        if self.refused(k):
            return self.refused(k)
        if not self.words:
            return self.reply(8)
        distance = min(abs(word - k) for word in self.words)
        if distance == 0:
            return self.reply(0, 0, self.has(k).rows)
        return self.reply(0, distance, self.prev(k).rows + self.next(k).rows)

    def first(self):
        if self.refused():
            return self.refused()
        return self.reply(0, self.words[0], 1) if self.words else self.reply(8)

    def last(self):
        if self.refused():
            return self.refused()
        rows = rows_down(self.words, self.w, 0, right_first=True)
        return self.reply(0, self.words[-1], rows) if self.words else self.reply(8)

    def add(self, k, serial):
        if self.refused(k):
            return self.refused(k)
        steps = way(self.words, self.w, k)
        rows = len(steps)
        if k in self.words:
            self.serials[k] = serial
            return self.reply(7, None, rows)
        if len(self.words) == self.capacity:
            return self.reply(5)
        if steps and steps[-1][0][0] > k:
            part, depth, _ = steps[-1]
            rows += rows_pushed(part, self.w, depth) - 1
        before = places(self.words, self.w)
        insort(self.words, k)
        self.serials[k] = serial
        grown = [p for p in places(self.words, self.w) if p not in before]
        assert len(grown) == 1
        self.number[grown[0]] = len(self.words) - 1
        return self.reply(0, None, rows)

    def del_(self, k):
        if self.refused(k):
            return self.refused(k)
        steps = way(self.words, self.w, k)
        rows = len(steps)
        if k not in self.words:
            return self.reply(8, None, rows)
        part, depth, _ = steps[-1]
        rows += rows_down(part, self.w, depth, right_first=False) - 1
        before = places(self.words, self.w)
        self.words.remove(k)
        del self.serials[k]
        gone = [p for p in before if p not in places(self.words, self.w)]
        assert len(gone) == 1
        hole = self.number.pop(gone[0])
        moving = 0
        if hole != len(self.words):
            # The way to a word that is present has one row for each bit of its place,
            # and the root.
            moved = [p for p, n in self.number.items() if n == len(self.words)][0]
            moving = len(moved) + 1
            self.number[moved] = hole
        return self.reply(0, None, rows, moving)

    def audit(self):
        return self.refused() or self.reply(0, None, len(self.words))

    def list(self, buffer):
        if self.refused():
            return self.refused()
        if len(buffer) < len(self.words):
            return self.reply(6)
        buffer[:len(self.words)] = self.words
        return self.reply(0, None, len(self.words))

    def rows(self):
        """The table that the documents ask for, all rows up to capacity: key, left link, right link, serial."""
        table = [0] * (4 * self.capacity)
        for place, word in places(self.words, self.w).items():
            n = self.number[place]
            table[4 * n] = word
            table[4 * n + 1] = self.number.get(place + "0", 0)
            table[4 * n + 2] = self.number.get(place + "1", 0)
            table[4 * n + 3] = self.serials[word]
        return table
