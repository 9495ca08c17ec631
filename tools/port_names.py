#!/usr/bin/env python3
"""tools/port_names.py: brings the repository's own names to snake case, once.

usage: python3 tools/port_names.py [--check]

Run once at the top of the checkout, after /opt/rattle/port/port.py. Each definition, label and constructor of specs/, and each
definition or lemma of proofs/, that has a word in camel case (isDigit) gets that word in snake case (is_digit); a definition, label
or constructor of specs/ has no dash left (no-desk is no_desk). Types keep their capitals; in a lemma's name a dash joins the words.
A lemma that would meet a definition of that name is renamed as LEMMAS says. Names of src/ are in snake case already.
Files: .antt and .rt of crates/ (outside strings), must-fail edits, and what the pages have between backticks. --check prints the names and changes nothing.
"""

import os
import re
import sys

HEAD = re.compile(r"(?m)^( *)(?:(?:pub|abbrev|unfoldable|inductive|record|data) )*([^\s:(){}]+)((?:[ \n]+[({][^\n]*?[)}])*)\s+:\s")
TOKEN = re.compile(r"\"(?:[^\"\\\n]|\\.)*\"|[\w'′]+(?:[-+·][\w'′]+)*")
# Lemmas of proofs/ that had the snake-case form of a definition's name: they go back to a dash between their words.
LEMMAS = {
    "desk_log": {"has_room": "has-room"},
    "formula_moiety": {"term_of": "term-of"},
    "hydrogen_text": {"is_digit": "is-digit", "term_of": "term-of"},
    "hydrogen_right": {"is_right": "is-right"},
    "desk_entries": {"item_in": "item-in"},
    "rows_sheet": {"first_rows": "first-rows", "last_row": "last-row"},
    "reader_left": {"left_in": "left-in"},
    "reader_feed": {"left_in": "left-in"},
    "formula_terms": {"term_of": "term-of"},
    "theorem_hydrogen": {"is_right": "is-right"},
    "symmetry_operators": {"with_each": "with-each", "word_after": "word-after"},
}


def snake(word):
    return re.sub(r"(?<=[a-z0-9])[A-Z]", lambda it: "_" + it[0].lower(), word) if word[:1].islower() else word


def texts():
    for folder, dirs, files in os.walk("crates"):
        dirs[:] = sorted(d for d in dirs if d != "out")
        for f in sorted(files):
            if f.endswith((".antt", ".rt", ".edit")):
                yield os.path.join(folder, f)


def read(path):
    with open(path, encoding="utf-8") as f:
        return f.read()


def names():
    out = {}
    for path in texts():
        if not path.endswith(".antt"):
            continue
        for _, name, _ in HEAD.findall(read(path)):
            new = "-".join(snake(it) for it in name.split("-"))
            if "/specs/" in path and new[:1].islower():
                new = new.replace("-", "_")
            if new != name:
                out[name] = new
    return out


def turned(text, new):
    return TOKEN.sub(lambda it: new.get(it[0], it[0]), text)


def main():
    check = sys.argv[1:] == ["--check"]
    if sys.argv[1:] and not check:
        print(__doc__)
        return 0 if sys.argv[1:] == ["--help"] else 2
    new = names()
    if check:
        for it in sorted(new.items()):
            print(*it)
        return 0
    pages = ["README.md"] + [os.path.join(d, f) for d, _, fs in os.walk("docs") for f in fs if f.endswith(".md")]
    for path in [*texts(), *pages]:
        text = read(path)
        crate = path.split("/")[1] if path.startswith("crates/") else ""
        own = LEMMAS.get(crate, {}) if "/proofs/" in path else {}
        text2 = turned(turned(text, own), new) if path not in pages else re.sub(r"`[^`\n]+`", lambda it: turned(it[0], new), text)
        if text2 != text:
            with open(path, "w", encoding="utf-8") as f:
                f.write(text2)
    return 0


if __name__ == "__main__":
    sys.exit(main())
