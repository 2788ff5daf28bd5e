#!/usr/bin/env python3
"""Sizes, and the least LPI: each stands once in the definition and once in the proved code, which the checker ties to one another. Whatever else states one is held to them here,
and whatever else names refusals by their numbers to the definition's one table of them."""
import pathlib
import re
import sys

ROOT = pathlib.Path(__file__).resolve().parent.parent

# where the definition and the proved code state a size
STATED = {
    "rows of a pool table": ("crates/definition/specs/Tables.antt pool_limit", "crates/tables/src/lib.rt POOL_ROWS"),
    "rows of an owner table": ("crates/definition/specs/Tables.antt row_limit", "crates/tables/src/lib.rt ROWS"),
    "requests of a plan": ("crates/definition/specs/Tables.antt plan_limit", "crates/tables/src/lib.rt PLAN"),
    "numbers of a record": ("crates/definition/specs/Tables.antt record_size", "crates/tables/src/lib.rt RECORD"),
    "numbers of a request": ("crates/flat/specs/Flat.antt request_size", "crates/flat/src/lib.rt REQUEST"),
    "bytes of a text": ("crates/lines/specs/Base.antt text_limit", "crates/text/src/lib.rt TEXT"),
    "bytes of a line": ("crates/lines/specs/Base.antt line_limit", "crates/reader/src/read.rt LINE"),
    "least LPI": ("crates/definition/specs/Tables.antt first_lpi", "crates/table_tests/src/limits.rt FIRST_LPI"),
    "registers of a device": ("crates/definition/specs/Registers.antt register_count", "crates/registers/src/lib.rt REGISTERS"),
    "bytes of a device's line": ("crates/sizer/specs/Words.antt size_text_limit", "crates/sizer/src/line.rt TEXT"),
}
# where it is stated again: for other languages, and for the judge, which reads no file of ours
AGAIN = {
    "rows of a pool table": ("bindings/c/planner.h PLANNER_POOL_ROWS", "bindings/rust/src/sizes.rs POOL_ROWS", "oracle/src/added.rs POOL_ROWS"),
    "rows of an owner table": ("bindings/c/planner.h PLANNER_ROWS", "bindings/rust/src/sizes.rs ROWS", "oracle/src/added.rs HELD_ROWS"),
    "requests of a plan": ("bindings/c/planner.h PLANNER_MOST", "bindings/rust/src/sizes.rs MOST", "oracle/src/added.rs PLAN_REQUESTS", "tools/explain.py WANTS"),
    "numbers of a record": ("bindings/c/planner.h PLANNER_RECORD", "bindings/rust/src/sizes.rs RECORD", "oracle/src/added.rs RECORD"),
    "numbers of a request": ("bindings/c/planner.h PLANNER_REQUEST", "bindings/rust/src/sizes.rs REQUEST"),
    "bytes of a text": ("bindings/c/planner.h PLANNER_TEXT", "bindings/rust/src/sizes.rs TEXT", "oracle/src/text.rs TEXT", "tools/explain.py TEXT"),
    "bytes of a line": ("oracle/src/text.rs LINE", "tools/explain.py LONGEST"),
    "least LPI": ("bindings/c/planner.h PLANNER_FIRST_LPI", "bindings/rust/src/sizes.rs FIRST_LPI", "oracle/src/added.rs FIRST_LPI", "tools/explain.py FIRST_LPI"),
    "registers of a device": ("bindings/c/planner.h PLANNER_REGISTERS", "bindings/rust/src/sizes.rs REGISTERS"),
    "bytes of a device's line": (),
}
# the table of refusals, and where it is written down again: how a row has number and name there
TABLE = ("crates/definition/specs/Base.antt", r"^tell i \(?(?P<name>\w+).* = says i (?P<number>\d+) ")
TABLE_AGAIN = (
    ("tools/explain.py", r'^ {4}(?P<number>\d+): \("(?P<name>\w+)", '),
    ("bindings/c/planner.h", r"(?:^ \*| ) +(?P<number>\d+) (?P<name>[a-zA-Z ]+): "),
    ("bindings/rust/src/refusal.rs", r"^ +Refusal::(?P<name>\w+)(?: { \.\. })? => (?P<number>\d+),"),
    ("bindings/rust/src/refusal.rs", r"^ +(?P<number>\d+) => Refusal::(?P<name>\w+)"),
)


def refusals(path, row):
    """The names of refusals by their numbers, as a file has them: without blanks and underscores, and however they are capitalised."""
    rows = re.finditer(row, (ROOT / path).read_text(), re.MULTILINE)
    return {int(r["number"]): re.sub("[ _]", "", r["name"]).lower() for r in rows}


def number(place):
    """What a file says of a name, in whatever language: it says it once, as a plain number."""
    path, name = place.split()
    said = re.findall(rf"^(?:.*\s)?{name}(?:: u(?:size|32|64))?(?: =)? ([0-9_]+)u?(?![0-9A-Za-z_]| [*+])", (ROOT / path).read_text(), re.MULTILINE)
    if len(said) != 1:
        sys.exit(f"tests/sizes.py: {path} says {name} {len(said)} times")
    return int(said[0])


SIZES = {size: number(code) for size, (_, code) in STATED.items()}


def half(n):
    return (n + 1) // 2


def state(pool, rows):
    """The bytes of a state: two 32-bit numbers share a word."""
    ranges = 1 + half(3 * rows) + 2 * rows + half(rows)
    inputs = 1 + half(rows) + rows + half(3 * rows)
    return 8 * (14 * (1 + 3 * pool) + 2 * (6 * ranges + inputs) + 5)


def words():
    """What documents say of sizes, with the numbers as they are."""
    pool, rows, plan, text = (SIZES[size] for size in ("rows of a pool table", "rows of an owner table", "requests of a plan", "bytes of a text"))
    size = state(pool, rows)
    output = plan * (8 + 8 * 21) + 4 + 21
    yield "README.md", f"of each kind {pool} pool ranges for each of the two uses, {rows} reservations and {rows} owners; a plan has {plan} requests, its text {text:,} bytes"
    yield "bindings/rust/README.md", f"A state is {size:,} bytes"
    yield "docs/DECISIONS.md", f"The size is {size:,} bytes"
    yield "docs/DECISIONS.md", f"An output buffer shorter than {output:,} bytes is 11"
    yield "docs/DECISIONS.md", f"arrays of {rows} zeros"
    yield "docs/DIFFERENCES.md", f"has {pool} (C-14) | {pool} times `pool auto mmio i i+1`, then `pool auto mmio {pool} {pool + 1}`; of a domain: {pool} times"
    yield "docs/DIFFERENCES.md", f"a table it needs has {rows} rows (C-14; for a plan: could come to need more) | {rows} times `hold 1 mmio i i+1`, then `hold 1 mmio {rows} {rows + 1}`"
    yield "docs/DIFFERENCES.md", f"a plan of more than {plan} requests"
    yield "docs/SPEED.md", f"copying a state ({size} bytes) once"
    yield "oracle/cases/README.md", f"The longest text has {text + 1:,} bytes"
    yield "docs/TRACE.md", f"Each pool table (automatic and fixed; seven kinds) has {pool} rows"
    yield "docs/TRACE.md", f"Each of the seven reservation and seven owner tables has {rows} "
    yield "docs/TRACE.md", f"11 Short: plan over {plan} requests"
    yield "docs/TRACE.md", f"Standard input: at most {text:,} bytes"
    yield "docs/TRACE.md", f"a {plan + 1}th `want`"
    yield "docs/TRACE.md", f"(C-14: {rows}): arrays of {rows} zeros."


def main():
    for size, places in STATED.items():
        for place in (*places, *AGAIN[size]):
            if number(place) != SIZES[size]:
                sys.exit(f"tests/sizes.py: {size}: {number(place)} in {place}, {SIZES[size]} in {places[1]}")
    table = refusals(*TABLE)
    for path, row in TABLE_AGAIN:
        # what is read from an answer needs no row for 1: all that it does not know is Malformed
        if {1: table[1], **refusals(path, row)} != table:
            sys.exit(f"tests/sizes.py: {path} has the refusals {refusals(path, row)}, the definition {table}")
    for path, said in words():
        if said not in (ROOT / path).read_text():
            sys.exit(f"tests/sizes.py: {path} does not say: {said}")
    print(f"{len(STATED)} sizes and {len(table)} refusals, stated alike wherever they are")


if __name__ == "__main__":
    main()
