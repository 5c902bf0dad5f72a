"""Damaged tables, of twelve kinds, and the calls that are tried on each.

`tables(seed, n)` gives n of them, the kinds by turns; the same seed gives the same tables.
The kinds:
  0        none; the table stays sound
  1, 2, 3  that many words of the rows in use are changed: to any word, to a small one, to
           one of the width, by 1, in one bit, or to 0
  4        every word of the table is any word
  5        every word of the table is a small one, so that most links lead to a row
  6        a link leads to any row in use (loops)
  7        a link is that of another row (shared rows)
  8        the count is another, up to capacity and a little above
  9        W is another, or any number; or the count is any number
  10       the rows that are not in use, and the words past the last row, are any words
  11       two rows have changed places, and the links are as they were
The serials of the rows in use are those that `Draw.serial` gives. A serial is never damage, so a
table of kind 1, 2 or 3 where only serials were changed is sound.
"""
from collections import namedtuple

import pretree
from pretree import ROW, key_place, link_place

KINDS = 12
WIDTHS = [1, 2, 3, 4, 5, 6, 7, 8, 32]
SINGLE = ["has", "next", "prev", "gap", "add", "del"]

# A table with its header and the length of a list buffer. Each call of `apart` is to be tried on
# a copy; those of `after` go on, one with what the one before left. A call is its name and then
# its numbers: two for `add`, none for some, one for the others.
Damaged = namedtuple("Damaged", "kind header table room apart after")


class Draw:
    """The dice; vectors.py has them too."""

    def __init__(self, seed):
        self.x = seed % 2 ** 32
        self.last_serial = 0

    def draw(self, n):
        """A number below n; n is 1 to 65,536."""
        self.x = (self.x * 1664525 + 1013904223) % 2 ** 32
        return (self.x // 65536) * n // 65536

    def wild(self):
        """Any word."""
        a = self.draw(65536)
        b = self.draw(65536)
        return a * 65536 + b

    def serial(self):
        """0, 1, the largest, a small one (so that it could be a link), the one drawn last or the one after it, or any."""
        p = self.draw(8)
        if p < 3:
            drawn = (0, 1, 2 ** 32 - 1)[p]
        elif p == 3:
            drawn = self.draw(20)
        elif p < 6:
            drawn = (self.last_serial + p - 4) % 2 ** 32
        else:
            drawn = self.wild()
        self.last_serial = drawn
        return drawn


class Dice(Draw):
    def one_of(self, things):
        return things[self.draw(len(things))]

    def below(self, n):
        """Any number below n, where n may be above 65,536."""
        return self.draw(n) if n <= 65536 else self.wild() * n // 2 ** 32

    def shuffled(self, things):
        things = list(things)
        for i in range(len(things) - 1, 0, -1):
            j = self.draw(i + 1)
            things[i], things[j] = things[j], things[i]
        return things


def change_one_word(g, word, table, c):
    # Mostly a key or a link, now and then a serial.
    p = ROW * g.draw(c) + (0, 0, 1, 1, 2, 2, 3)[g.draw(7)]
    v = g.draw(6)
    old = table[p]
    if v == 0:
        table[p] = g.wild()
    elif v == 1:
        table[p] = g.draw(c + 2)
    elif v == 2:
        table[p] = word()
    elif v == 3:
        table[p] = (old + 1) % 2 ** 32
    elif v == 4:
        table[p] = old ^ 2 ** g.draw(32)
    else:
        table[p] = 0


def damage(g, kind, word, table, header):
    """Damages the table; returns the header, damaged or not."""
    w, c = header
    cap = pretree.capacity(table)
    if kind in (1, 2, 3) and c != 0:
        for _ in range(kind):
            change_one_word(g, word, table, c)
    elif kind == 4:
        table[:] = [g.wild() for _ in table]
    elif kind == 5:
        table[:] = [g.draw(cap + 2) for _ in table]
    elif kind == 6 and c != 0:
        i, s, r = g.draw(c), g.draw(2), g.draw(c)
        table[link_place(i, s)] = r
    elif kind == 7 and c != 0:
        i, s, j, t = g.draw(c), g.draw(2), g.draw(c), g.draw(2)
        table[link_place(i, s)] = table[link_place(j, t)]
    elif kind == 8:
        header = (w, g.draw(cap + 3))
    elif kind == 9:
        v = g.draw(3)
        if v == 0:
            header = (g.draw(40), c)
        elif v == 1:
            header = (g.wild(), c)
        else:
            header = (w, g.wild())
    elif kind == 10:
        for p in range(ROW * c, len(table)):
            table[p] = g.wild()
    elif kind == 11 and c > 1:
        i, j = g.draw(c), g.draw(c)
        for p in range(ROW):
            table[ROW * i + p], table[ROW * j + p] = table[ROW * j + p], table[ROW * i + p]
    return header


def grown(g, w, word, table):
    """A sound table, after `new`, some adds and some dels; returns the header."""
    header = pretree.new(table, (g.wild(), g.wild()), w).header
    for _ in range(g.draw(24)):
        header = pretree.add(table, header, word(), g.serial()).header
    for _ in range(g.draw(4)):
        if header[1] > 2:
            header = pretree.del_(table, header, table[key_place(g.draw(header[1]))]).header
    return header


def one_table(g, kind):
    w = WIDTHS[g.draw(9)]
    cap = g.draw(17)
    extra = g.draw(4)
    near = g.draw(2)

    def word():
        return g.draw(min(2 ** w, 32)) if near == 1 else g.wild() // 2 ** (32 - w)

    table = [g.wild() for _ in range(ROW * cap + extra)]
    header = damage(g, kind, word, table, grown(g, w, word, table))

    def pick():
        return table[key_place(g.draw(header[1]))] if 0 < header[1] <= cap else word()

    def call(name, k):
        return (name, k, g.serial()) if name == "add" else (name, k)

    # Words of the table, those beside one of them, others of the width, and one too wide.
    k = pick()
    ks = [k, (k + 1) % 2 ** 32, (k + 2 ** 32 - 1) % 2 ** 32, pick(), pick(), word(), word(), 2 ** w % 2 ** 32]
    apart = [call(name, k) for k in ks for name in SINGLE]
    apart += [("first",), ("last",), ("audit",), ("list",), ("new", g.draw(40))]
    # The last `add` answers 7 where the one before it put the word in.
    after = [call(name, k) for k in (ks[0], ks[1], ks[3]) for name in ("del", "add")]
    after += [call("add", ks[1]), ("audit",)]
    return Damaged(kind, header, table, g.draw(20), apart, after)


def tables(seed, n):
    g = Draw(seed)
    for i in range(n):
        yield one_table(g, i % KINDS)
