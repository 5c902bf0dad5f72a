"""Document 01's example of the line program, with the serials of document 02 §1; space for tab.

The twelve lines are the document's. Each `add` has a serial, the number of the sample. Then follow three `has`, which show
the serials: 4 came twice, and 11 and 15 have changed their rows since.
"""
GIVEN = """new 4
add 8 1
add 4 2
add 11 3
add 15 4
prev 15
next 11
add 4 5
del 8
has 8
has 16
list
has 4
has 11
has 15
"""
WRITTEN = """1 0 - 0 0 -
2 0 - 0 0 -
3 0 - 1 0 -
4 0 - 2 0 -
5 0 - 2 0 -
6 0 11 4 0 -
7 0 15 4 0 -
8 7 - 1 0 -
9 0 - 3 3 -
10 8 - 2 0 -
11 3 - 0 0 -
12 0 - 3 0 -
key 4
key 11
key 15
13 0 - 1 0 5
14 0 - 2 0 3
15 0 - 3 0 4
"""


def tabs(text):
    return text.replace(" ", "\t").encode("ascii")
