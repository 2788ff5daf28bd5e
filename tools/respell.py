#!/usr/bin/env python3
"""Spells the definitions and lemmas of this repository in snake case: run once, at the top, straight after the kit's port.py.

A name that an .antt file declares and that has a capital behind a small letter (wantOf) or a dash (obstacle-is) gets underscores (want_of, obstacle_is), wherever it stands as a word in
crates/. Where two names would become one, the lemma gets the name that TOLD gives it. Types, variants and modules keep their capitals; Rust's names have no such letters and stay.
"""

import collections
import os
import re
import sys

MODIFIERS = r"(?:(?:unfoldable|abbrev|pub)\s+)*"
DECLARES = re.compile(r"^\s*" + MODIFIERS + r"([^\s(){}.;,@\"«»]+(?: [^\s(){}.;,@\"«»:]+)*)(?:\s*\{[^{}]*\})*(?:\s*\([^()]*\))*\s*:(?:\s|$)")
WORD = re.compile(r"[^\s(){}.;,@\"«»`]+")
STRING = re.compile(r'b?"(?:[^"\\\n]|\\.)*"')
# names that a record of the checker's holds: after these a name is the checker's
CHECKERS = ("tie.", "goal.")

# where the plain spelling of a lemma is a definition's already
TOLD = {
    "recordOf": "record_of_grant",
    "at-once": "at_once_done",
    "no-of": "no_line_of",
    "place-in": "place_in_is",
    "pool-at": "pool_offset",
    "T-ext": "t_ext",
}
# a lemma that has underscores already and would meet a definition: its name, the file that declares it, the new name
LEMMAS = [
    ("same_kind", "definition/specs/RowLaws.antt", "same_kind_equal"),
    ("not_found", "definition/specs/WithdrawLaws.antt", "not_found_when"),
    ("no_line", "sizer/proofs/SizeLaws.antt", "no_line_said"),
    ("goes_to", "door/proofs/DecideLaws.antt", "goes_to_use"),
    ("taken_out", "inplace/proofs/CutViews.antt", "taken_out_rows"),
    ("part_length", "replay/proofs/TakeLaws.antt", "part_length_is"),
    ("read_told", "numbers/proofs/FoundLaws.antt", "read_told_is"),
    ("row_told", "numbers/proofs/FoundLaws.antt", "row_told_is"),
    ("at_first", "text/proofs/SofarLaws.antt", "at_first_zero"),
]
# a library's lemma that one of ours is named as
LIBRARY = {"drop-nil": "replay/proofs/TakeLaws.antt"}


def files(root, *endings):
    for folder, dirs, names in os.walk(os.path.join(root, "crates")):
        dirs[:] = sorted(d for d in dirs if d not in ("out", "data"))
        for name in sorted(names):
            if name.endswith(endings):
                yield os.path.join(folder, name)


def read(path):
    with open(path, encoding="utf-8") as f:
        return f.read()


def write(path, text):
    if text != read(path):
        with open(path, "w", encoding="utf-8") as f:
            f.write(text)


def declared(root):
    names = set()
    for path in files(root, ".antt"):
        for line in read(path).split("\n"):
            m = None if line.lstrip().startswith("--") else DECLARES.match(line)
            names.update(m[1].split() if m else [])
    return names


def snake(name):
    return re.sub(r"(?<=[a-z0-9])[A-Z]", lambda m: "_" + m[0].lower(), name).replace("-", "_")


def spelled(name):
    turned = snake(name)
    return turned[0].lower() + turned[1:] if "-" in name else turned


def table(root):
    names = [n for n in declared(root) if re.search(r"[A-Za-z]", n) and ("-" in n or (n[0].islower() and re.search(r"[a-z0-9][A-Z]", n)))]
    new = collections.defaultdict(list)
    for n in names:
        new[TOLD.get(n, spelled(n))].append(n)
    to = {}
    for word, olds in new.items():
        for n in olds:
            to[n] = word + "_is" if len(olds) > 1 and "-" in n else word
    for n in declared(root):
        if re.fullmatch(r"◌[a-z]+(?:[A-Z][a-z]*)+◌", n):
            to[n], to[n.strip("◌")] = snake(n), snake(n.strip("◌"))
    return to


def turned(text, to, skip=()):
    def one(m):
        before = text[max(0, m.start() - 5) : m.start()]
        if before.endswith(CHECKERS) or m[0] in skip:
            return m[0]
        return to.get(m[0], m[0])

    return WORD.sub(one, text)


def outside_strings(text, turn):
    out, at = [], 0
    for m in STRING.finditer(text):
        out += [turn(text[at : m.start()]), m[0]]
        at = m.end()
    return "".join(out + [turn(text[at:])])


def rename_lemma(root, name, home, new):
    module = "Rattle." + home[: -len(".antt")].replace("/", ".")
    used = re.compile(r"use " + re.escape(module) + r"\.\{[^}]*(?<![\w'-])" + name + r"(?![\w'-])")
    for path in files(root, ".antt"):
        text = read(path)
        if path.endswith("crates/" + home) or used.search(text):
            write(path, re.sub(r"(?<![\w.'-])" + name + r"(?![\w'-])", new, text))


def main(argv):
    root = argv[0] if argv else "."
    for lemma in LEMMAS:
        rename_lemma(root, *lemma)
    to = table(root)
    for path in files(root, ".antt", ".rt", ".edit"):
        skip = [n for n, home in LIBRARY.items() if path.endswith(home)]
        text = read(path)
        write(path, outside_strings(text, lambda t: turned(t, to, skip)) if path.endswith(".rt") else turned(text, to, skip))
    print(f"{len(to)} names")


if __name__ == "__main__":
    main(sys.argv[1:])
