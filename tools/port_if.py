#!/usr/bin/env python3
"""Takes `if◌then◌else◌` from the library's Prelude where a file took it from Rattle.ordered.specs.Such, which no longer has its own.

usage: tools/port_if.py [CRATE..]     at the top of the repository; with no name all crates
"""

import os
import re
import sys

NAME = "if◌then◌else◌"
OWN = re.compile(r"^(ghost )?use Rattle\.ordered\.specs\.Such\.\{([^}]*)\}(;?)\n", re.M)
LIBRARY = re.compile(r"^(ghost )?use Rattle\.std\.specs\.Prelude\.\{([^}]*)\}(;?)\n", re.M)


def turned(text):
    m = OWN.search(text)
    if not m:
        return text
    items = [it.strip() for it in m.group(2).split(",")]
    if NAME not in items:
        return text
    ghost, end = m.group(1) or "", m.group(3)
    items.remove(NAME)
    rest = f"{ghost}use Rattle.ordered.specs.Such.{{{', '.join(items)}}}{end}\n" if items else ""
    library = LIBRARY.search(text)
    if library:
        text = text[: m.start()] + rest + text[m.end() :]
        return LIBRARY.sub(lambda n: f"{ghost}use Rattle.std.specs.Prelude.{{{n.group(2)}, {NAME}}}{end}\n", text, count=1)
    return text[: m.start()] + f"{ghost}use Rattle.std.specs.Prelude.{{{NAME}}}{end}\n" + rest + text[m.end() :]


def main(only):
    for folder, dirs, names in os.walk("crates"):
        dirs[:] = sorted(d for d in dirs if d != "out")
        for name in sorted(names):
            path = os.path.join(folder, name)
            if not name.endswith((".antt", ".rt")) or only and path.split(os.sep)[1] not in only:
                continue
            with open(path, encoding="utf-8") as f:
                text = f.read()
            new = turned(text)
            if new != text:
                with open(path, "w", encoding="utf-8") as f:
                    f.write(new)
    return 0


if __name__ == "__main__":
    raise SystemExit(main(sys.argv[1:]))
