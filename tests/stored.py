#!/usr/bin/env python3
"""The stored texts with the original's answers (oracle/cases), for tests; with a folder named, lays each out there as a file, NUMBER.i, beside what the programs are to
print: NUMBER.planner and NUMBER.pinner."""
import pathlib
import sys

import pinned

CASES = pathlib.Path(__file__).resolve().parent.parent / "oracle/cases"


def parts(name):
    """The texts of a file of cases: a length in decimal and a newline before each."""
    left = (CASES / name).read_bytes()
    while left:
        size, _, left = left.partition(b"\n")
        yield left[: int(size)]
        left = left[int(size) :]


def texts():
    return list(zip(parts("cases.in"), parts("cases.out"), strict=True))


if __name__ == "__main__":
    folder = pathlib.Path(sys.argv[1])
    folder.mkdir(exist_ok=True)
    for number, (text, output) in enumerate(texts()):
        (folder / f"{number:03}.i").write_bytes(text)
        (folder / f"{number:03}.planner").write_bytes(output)
        (folder / f"{number:03}.pinner").write_bytes(pinned.pinned(text, output))
