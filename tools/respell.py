#!/usr/bin/env python3
"""Respells the repository's own definitions and lemmas: words joined by `_`, facts in camel case, a dash only between two names.

usage: tools/respell.py [FOLDER]

Run once, at the top, right after the kit's port.py. The names are those of respelled.txt beside this file, old then new. A name is replaced
where it stands whole: in specs/ and proofs/, in the ghost text of src/ and in the edits; in comments and pages only between backticks.
"""

import os
import re
import sys

HERE = os.path.dirname(os.path.realpath(__file__))
NAME = re.compile(r"[^\s(){}\[\];,.@\"`⌜⌝]+")
TICKS = re.compile(r"`[^`\n]*`")


def table():
    with open(os.path.join(HERE, "respelled.txt"), encoding="utf-8") as f:
        return dict(line.split() for line in f)


def respelled(text, names):
    return NAME.sub(lambda m: names.get(m.group(0), m.group(0)), text)


def in_ticks(text, names):
    return TICKS.sub(lambda m: respelled(m.group(0), names), text)


def line_of_antt(line, names):
    code, dashes, comment = line.partition("-- ") if line.lstrip().startswith("-- ") or " -- " in line else (line, "", "")
    return respelled(code, names) + dashes + in_ticks(comment, names)


def line_of_code(line, names):
    """Of a .rt file or an edit: a Rust name has no dash, so only names with one, or in camel case behind `is`, are taken."""
    code, slashes, comment = line.partition("//")
    return respelled(code, names) + slashes + in_ticks(comment, names)


def turned(path, text, names):
    if path.endswith(".antt"):
        return "".join(line_of_antt(l, names) for l in text.splitlines(keepends=True))
    if path.endswith((".rt", ".edit")):
        dashed = {k: v for k, v in names.items() if "-" in k or not k.islower()}
        return "".join(line_of_code(l, dashed) for l in text.splitlines(keepends=True))
    return in_ticks(text, names)


def files(root):
    for top in ("crates", "docs", "README.md"):
        top = os.path.join(root, top)
        if os.path.isfile(top):
            yield top
        for folder, dirs, names in os.walk(top):
            dirs[:] = sorted(d for d in dirs if d not in ("out", ".git"))
            for name in sorted(names):
                if name.endswith((".antt", ".rt", ".edit", ".md")):
                    yield os.path.join(folder, name)


def main(argv):
    root = argv[0] if argv else "."
    names = table()
    changed = 0
    for path in files(root):
        with open(path, encoding="utf-8") as f:
            old = f.read()
        new = turned(path, old, names)
        if new != old:
            changed += 1
            with open(path, "w", encoding="utf-8") as f:
                f.write(new)
    print(f"respell: {changed} files changed")


if __name__ == "__main__":
    main(sys.argv[1:])
