#!/usr/bin/env python3
"""Brings this repository's own definitions and lemmas to the spelling of today's Rattle. It ran once, right after the kit's port.py.

usage: tools/port_names.py            at the top of the repository: rewrites crates/*/{src,specs,proofs}, must-fail edits and the pages
       tools/port_names.py --table    prints each old name with its new one, and writes nothing

A name is turned if a file of specs/ or a lemma file of proofs/ declares it, or if a lemma file uses it and does not import it from outside.
Words go to snake case, types to upper camel case. OTHERS has the names whose plain spelling would fall together with another name.
Functions of src/, exported C names, strings, inputs and outputs keep their names.
"""

import collections
import os
import re
import sys

WORD = re.compile(r"[^\s(){}.;,@\"«»]+")
NAME = re.compile(r"[A-Za-z_][\w'-]*\Z")
HEAD = re.compile(
    r"\s*((?:(?:pub|abbrev|unfoldable|constructor|infix\w*|private)\s+)*)((?:data|record|ruleset|mod|module)\s+)?("
    + WORD.pattern
    + r")(?=\s|$)(.*)"
)
KEYWORDS = {"let", "use", "unfolding", "in", "elim", "λ", "record", "abbrev", "pub", "where"}

# Two old names that snake case would make one, in one file. The right side says which of the two is meant.
OTHERS = {
    "A-numbered": "a_numbered",
    "Wrong-header": "HasWrongHeader",
    "Wrong-width": "HasWrongWidth",
    "Too-wide": "IsTooWide",
    "add-outcome": "of_add_outcome",
    "del-outcome": "of_del_outcome",
    "end-bits": "end_bits_are",
    "end-part": "end_part_at",
    "end-rows": "end_rows_are",
    "end-side": "end_side_is",
    "ends-at": "way_ends_at",
    "gapBy": "gap_reply_by",
    "grown-outcome": "grown_outcome_is",
    "is-damaged": "damaged_is",
    "is_digit": "digit_is",
    "is-number": "number_is",
    "is-on": "on_is",
    "is-seat": "seat_is",
    "is-there": "there_is",
    "new-table": "new_table_is",
    "next-at": "next_at_is",
    "next-from": "next_found_from",
    "next-reply": "next_reply_is",
    "no-set": "without_set",
    "prev-reply": "prev_reply_is",
    "row_words": "row_words_of",
    "rowsRead": "rows_read_by",
    "side-place": "side_place_stands",
    "stage-here": "stage_here_is",
    "toCome": "way_to_come",
    "with-entry": "step_with_entry",
    "written-at-end": "written_at_end_is",
    "by-head": "by_head_is",
    "passes-down": "passes_down_is",
    "passes-push": "passes_push_is",
    "row-end": "row_end_is",
    "bitsLeft": "bits_left_by",
}


def spelled(word):
    if word in OTHERS:
        return OTHERS[word]
    if word[0].isupper():
        return "".join(p[:1].upper() + p[1:] for p in word.split("-")) if "-" in word else word
    word = word.replace("-", "_")
    return re.sub(r"(?<=[a-z0-9'])([A-Z])", lambda m: "_" + m.group(1).lower(), word)


def files(root, endings):
    for top in ("crates", "docs"):
        for folder, dirs, names in os.walk(os.path.join(root, top)):
            dirs[:] = sorted(d for d in dirs if d not in ("out", "target"))
            for f in sorted(names):
                if f.endswith(endings):
                    yield os.path.join(folder, f)


def is_law_file(path):
    parts = path.split(os.sep)
    return "specs" in parts or parts[-2] == "proofs"


def parts_of(text, mark):
    """The text as pieces: code, comment lines and quoted text, each with its kind."""
    at = 0
    quiet = re.compile(r'"(?:[^"\\\n]|\\.)*"|' + (r"//[^\n]*" if mark == "//" else r"(?:(?<=\s)|^)--[^\n]*"), re.M)
    for m in quiet.finditer(text):
        yield "code", text[at : m.start()]
        yield ("quoted" if m.group().startswith('"') else "comment"), m.group()
        at = m.end()
    yield "code", text[at:]


def imported_from_outside(code):
    found = set()
    for m in re.finditer(r"^\s*(?:pub )?use (\S+?)\.\{([^}]*)\}", code, re.M):
        outside = not re.match(r"Rattle\.(?:ordered|capture|tray|numbers|pretree|lines|demands|words|raw|bench|vectors\w*|tray_lines|tray_bench|powerup\w*|edges_capture)\.", m.group(1))
        if outside:
            for item in m.group(2).split(","):
                found.update(WORD.findall(item))
    return found


def table(root):
    names = collections.Counter()
    outside_of = {}
    for path in files(root, (".antt",)):
        if not is_law_file(path):
            continue
        text = open(path, encoding="utf-8").read()
        code = "".join(t if k == "code" else " " for k, t in parts_of(text, "--"))
        outside_of[path] = imported_from_outside(code)
        for line in code.splitlines():
            m = HEAD.match(line)
            if not m or m.group(3) in KEYWORDS:
                continue
            if m.group(2) or re.match(r"\s*(?:(?:" + WORD.pattern + r"\s+)*):(?:\s|$)", m.group(4)):
                names[m.group(3)] += 1
        for w in WORD.findall(code):
            if NAME.match(w) and ("-" in w or re.match(r"[a-z_].*[A-Z]", w)) and w not in outside_of[path]:
                names[w] += 1
    made = {}
    for w in names:
        if NAME.match(w) and (spelled(w) != w):
            made[w] = spelled(w)
    for w in ("ref-ptr", "ghost-name", "not-nil", "suc-suc"):  # the library's, behind a dot
        made.pop(w, None)
    return made


def turned(code, made, skip, laws=True):
    def one(m):
        w = m.group()
        if w not in made or w in skip:
            return w
        # In a function's own proof a name behind a dot may be that of a step, which is named after a function of src/.
        step = not laws and w in OTHERS and "-" in w and m.start() and code[m.start() - 1] == "."
        return w.replace("-", "_") if step else made[w]

    return WORD.sub(one, code)


def turned_rust(code, made):
    def one(m):
        w = m.group()
        return made[w] if w in made and ("-" in w or re.match(r"[a-z].*[A-Z]", w)) else w

    return re.sub(r"(?<![\w'-])[A-Za-z_][\w'-]*", one, code)


def turned_spans(text, made, known=frozenset()):
    """Code spans. `known` has the names of the code as it stands: port.py had turned some names in the code alone."""

    def name(m):
        w = m.group()
        if "-" not in w and not re.match(r"[a-z].*[A-Z]", w):
            return w
        return made[w] if w in made else spelled(w) if w not in known and spelled(w) in known else w

    return re.sub(r"`[^`\n]+`", lambda m: re.sub(r"(?<![\w'-])[A-Za-z_][\w'-]*(?<!-)", name, m.group()), text)


def names_in_code(root):
    known = set()
    for path in files(root, (".antt",)):
        text = open(path, encoding="utf-8").read()
        for k, t in parts_of(text, "--"):
            if k == "code":
                known.update(WORD.findall(t))
    return known


def main(argv):
    root = os.getcwd()
    if not os.path.isdir(os.path.join(root, "crates")):
        print(__doc__)
        return 2
    made = table(root)
    if argv == ["--table"]:
        for w in sorted(made):
            print(w + "\t" + made[w])
        return 0
    known = set()
    for path in list(files(root, (".antt", ".rt", ".edit"))) + list(files(root, (".md",))) + [os.path.join(root, "README.md")]:
        text = open(path, encoding="utf-8").read()
        if path.endswith(".md"):
            known = known or names_in_code(root)
            new = turned_spans(text, made, known)
        elif path.endswith(".edit"):
            new = "\n".join(turned(l, made, set()) if l.startswith(("old:", "new:")) else l for l in text.split("\n"))
        elif path.endswith(".rt"):
            new = "".join(turned_rust(t, made) if k == "code" else turned_spans(t, made) if k == "comment" else t for k, t in parts_of(text, "//"))
        else:
            code = "".join(t if k == "code" else " " for k, t in parts_of(text, "--"))
            skip = imported_from_outside(code)
            new = "".join(turned(t, made, skip, is_law_file(path)) if k == "code" else turned_spans(t, made) if k == "comment" else t for k, t in parts_of(text, "--"))
        if new != text:
            open(path, "w", encoding="utf-8").write(new)
    return 0


if __name__ == "__main__":
    raise SystemExit(main(sys.argv[1:]))
