#!/usr/bin/env python3
"""Writes the text that `textspeed` is timed on: as long as a text may be once it is pinned, with `pool` and `hold` lines, most pool lines repeated, and as many `want`
lines of all kinds as a plan has, half of them automatic.

Reservations in three quarters of the rows of four tables stand behind the last rows that an automatic request tries; with `crowded` they fill its first ones.
"""
import pathlib
import random
import sys

sys.path.insert(0, str(pathlib.Path(__file__).resolve().parent.parent / "tests"))
import sizes  # noqa: E402

CROWDED = "crowded" in sys.argv[1:]
LIMIT, WANTS = sizes.SIZES["bytes of a text"], sizes.SIZES["requests of a plan"]
HELD = sizes.SIZES["rows of an owner table"] * 3 // 4
GROWS = 200  # by no more bytes than these, once numbers stand for `auto`


def pools(use):
    for i in range(16):
        yield f"pool {use} mmio {i * 1048576 + 65536} {(i + 1) * 1048576}"
    for i in range(8):
        yield f"pool {use} pio {i * 4096} {(i + 1) * 4096}"
        yield f"pool {use} host {i * 512 + 32} {(i + 1) * 512}"
    for i in range(6):
        yield f"pool {use} input {i % 3} {i * 250} {(i + 1) * 250}"
        yield f"pool {use} msi {i % 2} {i // 2} 0 64 0 32 8192 9999"


def holds():
    mmio, pio, host = (65536, 0, 32) if CROWDED else (15 * 1048576 + 65536, 28672, 3632)
    for i in range(HELD):
        owner = i % 9 + 1
        yield f"hold {owner} mmio {mmio + i * 4096} {mmio + (i + 1) * 4096}"
        yield f"hold {owner} pio {pio + i * 16} {pio + (i + 1) * 16}"
        yield f"hold {owner} host {host + i} {host + i + 1}"
        yield f"hold {owner} input {i % 3} {i} 0 1" if CROWDED else f"hold {owner} input 2 {1250 + i} 0 1"


def wants():
    for i in range(WANTS):
        k = i // 10
        yield f"want {i % 7 + 1} {i} " + (
            "mmio 4096 4096 auto",
            f"mmio 4096 4096 {8 * 1048576 + 65536 + k * 4096}",
            "pio 16 16 auto",
            f"pio 16 16 {20480 + k * 16}",
            "input 1 0 1 auto",
            f"input 0 0 0 {750 + k}",
            "host auto",
            f"host {2080 + k}",
            "msi 0 0 4 auto",
            f"msi 1 0 4 {k} 0 {8192 + k * 8}",
        )[i % 10]


def size(lines):
    return sum(len(line) + 1 for line in lines)


random.seed(7)
ranges = [*pools("auto"), *pools("fixed")]
body, asked = [*ranges, *holds()], [*wants()]
left = LIMIT - GROWS - size(body) - size(asked)
while (line := random.choice(ranges)) and len(line) < left:
    body.append(line)
    left -= len(line) + 1
sys.stdout.write("".join(line.replace(" ", "\t") + "\n" for line in body + asked))
