#!/usr/bin/env python3
"""Documents quote what is there: the checker's words in docs/PROMISES.md stand so in the crates; each must-fail edit that a document names is one, in the crate
named with it, as each that is one is named; the README counts the lines that an assessor reads as they are."""
import pathlib
import re
import sys

ROOT = pathlib.Path(__file__).resolve().parent.parent


def plain(text):
    """Without comments, and with one blank wherever there are any."""
    return re.sub(r"\s+", " ", re.sub(r"(?m)(^| ) *--.*$", "", text)).strip()


def statements(block):
    """What a quoted block says, line by line; a line that is set in goes on with the one before it."""
    return [plain(text) for text in re.split(r"\n(?! {4})", block) if text.strip()]


def counted(row):
    """The lines of the files of specs that a row of the README names."""
    named = [(crate, name) for crate, names in re.findall(r"`(\w+)`: ([\w, ]+)", row) for name in names.split(", ")]
    return sum(len((ROOT / f"crates/{crate}/specs/{name}.antt").read_text().splitlines()) for crate, name in named)


def no_edits(promises, edits):
    """What the last column of the calls in docs/PROMISES.md names in brackets that is no edit, or not one of the crate behind it."""
    columns = [row.rsplit("|", 2)[1] for row in promises.splitlines() if row.startswith("| `")]
    for brackets in re.findall(r"\(([^()]*)\)", " ".join(columns)):
        for names, crate in re.findall(r"((?:`\w+`(?:, | and )?)+)(?: of `(\w+)`)?", brackets):
            yield from (name for name in re.findall(r"\w+", names.replace(" and ", " ")) if crate not in edits.get(name, ()))


def main():
    sources = [path for ending in ("antt", "rt") for path in ROOT.glob(f"crates/**/*.{ending}") if "out" not in path.parts]
    said = plain("\n".join(path.read_text() for path in sources))
    promises, trace = ((ROOT / "docs" / name).read_text() for name in ("PROMISES.md", "TRACE.md"))
    quoted = [text for block in re.findall(r"```text\n(.*?)```", promises, re.DOTALL) for text in statements(block)]
    # two dots stand for what is left out
    wrong = [f"quoted, and nowhere said: {text}" for text in quoted if ".." not in text and text not in said]
    files = [*ROOT.glob("crates/*/must-fail/*.edit")]
    edits = {}
    for path in files:
        edits.setdefault(path.stem, {""}).add(path.parent.parent.name)
    named = {name for names in re.findall(r"must-fail ((?:`\w+`(?:, )?)+)", trace) for name in re.findall(r"\w+", names)}
    wrong += [f"named, and no edit: {name}" for name in sorted({*named.difference(edits), *no_edits(promises, edits)})]
    wrong += [f"named in no document: {name}" for name in sorted(edits) if f"`{name}`" not in promises + trace]
    told = re.findall(r"^\|[^|]*\| (`\w+`: [^|]*) \| (\d+) \|$", (ROOT / "README.md").read_text(), re.MULTILINE)
    wrong += [f"the README has {lines} lines of {row}" for row, lines in told if counted(row) != int(lines)]
    if wrong:
        sys.exit("tests/quotes.py: " + "\n".join(wrong))
    print(f"{len(quoted)} statements quoted as they stand, {len(files)} edits named, {len(told)} counts of lines")


main()
