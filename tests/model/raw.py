"""The runner for raw tables (README.md, "A raw table"): bytes in, bytes out.

    python3 raw.py <lines >replies
"""
import sys

import lines
import pretree

LONGEST_LINE = 256
# One row more than the largest capacity, so that words past that limit can be tried.
LARGEST_TABLE = pretree.ROW * 65536
LARGEST_BUFFER = 65536
BLANK = 2863311530


class Runner:
    def __init__(self):
        # It starts as the line program does.
        self.header = (0, 0)
        self.table = [0] * (pretree.ROW * lines.ROWS)
        self.room = lines.ROWS
        self.keep = True
        self.out = []

    def set(self, word, values):
        """Whether the line was read; if it was not, nothing is changed."""
        if word == b"header" and len(values) == 2:
            self.header = tuple(values)
        elif word == b"table" and len(values) == 1 and values[0] <= LARGEST_TABLE:
            self.table = [0] * values[0]
        elif word == b"word" and len(values) >= 2 and values[0] + len(values) - 1 <= len(self.table):
            self.table[values[0]:values[0] + len(values) - 1] = values[1:]
        elif word == b"buffer" and len(values) == 1 and values[0] <= LARGEST_BUFFER:
            self.room = values[0]
        elif word in (b"keep", b"fresh") and not values:
            self.keep = word == b"keep"
        else:
            return False
        return True

    def call(self, number, word, numbers):
        left, buffer = list(self.table), [BLANK] * self.room
        given = [buffer] if word == b"list" else numbers
        reply = lines.CALLS[word](left, self.header, *given)
        self.out.append(lines.reply_line(number, reply))
        self.out.append(f"header\t{reply.header[0]}\t{reply.header[1]}\n")
        for i in range(len(left)):
            if left[i] != self.table[i]:
                self.out.append(f"word\t{i}\t{left[i]}\n")
        for i in range(len(buffer)):
            if buffer[i] != BLANK:
                self.out.append(f"key\t{i}\t{buffer[i]}\n")
        if self.keep:
            self.header, self.table = reply.header, left

    def line(self, number, line):
        if line == b"" or line[:1] == b"#":
            return
        if len(line) <= LONGEST_LINE:
            word, *fields = line.split(b"\t")
            values = [lines.number(field) for field in fields]
            if None not in values and self.set(word, values):
                return
            if lines.parse(line) is not None:
                self.call(number, *lines.parse(line))
                return
        self.out.append(lines.reply_line(number, pretree.refusal(9, self.header)))


def run(data):
    runner = Runner()
    for number, line in enumerate(lines.split_lines(data), 1):
        runner.line(number, line)
    return "".join(runner.out).encode("ascii")


if __name__ == "__main__":
    sys.stdout.buffer.write(run(sys.stdin.buffer.read()))
