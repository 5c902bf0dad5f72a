"""The line program of document 01 with the serials of document 02 §1: bytes in, bytes out.

    python3 lines.py <operations >replies
"""
import sys

import pretree

ROWS = 4096

CALLS = {
    b"new": pretree.new, b"add": pretree.add, b"del": pretree.del_, b"has": pretree.has,
    b"next": pretree.next_, b"prev": pretree.prev, b"gap": pretree.gap,
    b"first": pretree.first, b"last": pretree.last, b"audit": pretree.audit,
    b"list": pretree.list_,
}
# "One of `new`, `add`, `del`, `has`, `next`, `prev`, `gap`, then one tab and a number; or
# `first`, `last`, `list`, `audit` with nothing after." §1: "`add` takes a second number
# after a second tab".
NUMBERS = {b"first": 0, b"last": 0, b"audit": 0, b"list": 0, b"add": 2}


def split_lines(data):
    # "A line ends with byte 10, or at the end of input if bytes are left."
    lines = data.split(b"\n")
    if lines[-1] == b"":
        lines.pop()
    return lines


def number(digits):
    # "A number is 1 to 10 digits, no leading zero but for 0 itself, at most 4,294,967,295."
    if not 1 <= len(digits) <= 10 or any(byte not in b"0123456789" for byte in digits):
        return None
    if digits[:1] == b"0" and digits != b"0":
        return None
    value = int(digits)
    return value if value <= 4294967295 else None


def parse(line):
    """(operation, list of its numbers), or None where the line is not read."""
    # "Anything else, a line above 64 bytes (its byte 10 not counted) or an empty line
    # included, is answer 9." No readable line is above 25 bytes, so the 64 bytes
    # decide nothing that the rest does not; they are kept as the document's words.
    if len(line) > 64:
        return None
    word, *fields = line.split(b"\t")
    if word not in CALLS or len(fields) != NUMBERS.get(word, 1):
        return None
    # The serial is written by the same rule as the word.
    numbers = [number(field) for field in fields]
    return None if None in numbers else (word, numbers)


def reply_line(line_number, reply):
    # "Each line gives one reply line: line number from 1, answer number, key or `-`, rows
    # read, moving count, parted by tabs." §1: "every reply line ends with one more field:
    # the serial for a `has` that found its word, `-` elsewhere."
    # Left open: how a reply line ends. Chosen: each with byte 10, the last too.
    fields = [line_number, reply.answer, reply.key, reply.rows, reply.moving, reply.serial]
    return "\t".join("-" if field is None else str(field) for field in fields) + "\n"


def run(data):
    # "Table of 4,096 rows, all zeros, and a `list` buffer of 4,096 words. Header at
    # the start: W 0, count 0."
    # Left open: what the list buffer holds at the start; it can't be seen.
    table = [0] * (pretree.ROW * ROWS)
    buffer = [0] * ROWS
    header = (0, 0)
    out = []
    for line_number, line in enumerate(split_lines(data), 1):
        operation = parse(line)
        if operation is None:
            reply = pretree.refusal(9, header)
        else:
            word, numbers = operation
            given = [buffer] if word == b"list" else numbers
            reply = CALLS[word](table, header, *given)
        header = reply.header
        out.append(reply_line(line_number, reply))
        # "After a `list` with answer 0 come lines `key`, tab, word." These are no reply
        # lines: they have no line number, and get no further field.
        if operation == (b"list", []) and reply.answer == 0:
            out.extend(f"key\t{word}\n" for word in buffer[:header[1]])
    return "".join(out).encode("ascii")


if __name__ == "__main__":
    sys.stdout.buffer.write(run(sys.stdin.buffer.read()))
