#!/usr/bin/env python3
"""The table-level rules of 01 and 02, written down once more in Python, and the commands that try them.

Says whether tests/rows/commands (for bindings/rust/tests/rows.rs) and tests/rows/answers (what it must give) are what this model makes; with --write, lays them out so.
A command is a line of at most thirteen numbers, parted by single blanks; those left out are 0:
  0                                    a fresh state
  1 use kind numbers..                 add a pool range (use 0 automatic, 1 fixed; kind 1 mmio 2 pio 3 input 4 host 5 msi)
  2 owner kind numbers..               reserve (kind 1 mmio 2 pio 3 input 4 host 5 device 6 event 7 lpi 8 the pair call)
  3                                    start
  4 table kind column row value        store a number (table 0 automatic 1 fixed 2 held 3 owners; column 0 is the count)
  5                                    print every used row
  7 table kind n                       n sound rows, one behind the other
  8 requester slot kind a b c code n code n code n
                                       one request that writes its record into a list of nines (kind 1 mmio: size, alignment; 2 pio; 3 input:
                                       controller, trigger, sharing; 4 host; 5 msi: controller, its, count; code 0 automatic, 1 fixed, three for msi)
  9 length requester slot kind ..      the same with a list of that length
  6                                    print whether pools and reservations are sound, and whether all tables are
  10                                   print 1 if the last call left every number of all tables as it was, else 0
  11 requester                         withdraw everything granted to a requester
"""
import itertools
import pathlib
import random
import sys

import sizes

FILES = pathlib.Path(__file__).resolve().parent / "rows"
ROWS, POOL = sizes.SIZES["rows of an owner table"], sizes.SIZES["rows of a pool table"]
W16, W32, W64 = 2**16 - 1, 2**32 - 1, 2**64 - 1
TOP = {1: W64, 2: W16, 3: W64, 4: W64, 5: W32, 6: W32, 7: W32}
# the least number at which a kind's ranges start: LPIs begin there
FIRST = sizes.SIZES["least LPI"]
FLOOR = {k: FIRST if k == 7 else 0 for k in TOP}
# how many domain numbers a kind's rows use, and its pools
DOMAIN = {1: 0, 2: 0, 3: 1, 4: 0, 5: 2, 6: 3, 7: 1}
POOL_DOMAIN = {1: 0, 2: 0, 3: 1, 4: 0, 5: 2, 6: 2, 7: 1}
KINDS = range(1, 8)
# columns by number, from 1: a pool's, a range table's, an input table's
POOL_COLUMNS = ["controller", "its", "start", "end"]
RANGE_COLUMNS = ["controller", "its", "device", "start", "end", "owner"]
INPUT_COLUMNS = ["controller", "input", "trigger", "sharing", "owner"]


def columns(table, kind):
    if table < 2:
        return POOL_COLUMNS
    return INPUT_COLUMNS if kind == 3 else RANGE_COLUMNS


class Table:
    def __init__(self, table, kind):
        self.kind, self.names = kind, columns(table, kind)
        self.size = POOL if table < 2 else ROWS
        self.count = 0
        self.rows = [[0] * len(self.names) for _ in range(self.size)]

    def used(self):
        return [dict(zip(self.names, r)) for r in self.rows[: self.count]]

    def push(self, row):
        self.rows[self.count] = [row[n] for n in self.names]
        self.count += 1

    def copy_of(self, other):
        self.count, self.rows = other.count, [list(r) for r in other.rows]

    def tidy(self):
        if self.count > self.size:
            return False
        return all(x == 0 for r in self.rows[self.count :] for x in r)


def domain(row, kind, pool=False):
    n = (POOL_DOMAIN if pool else DOMAIN)[kind]
    return tuple(row.get(k, 0) for k in ("controller", "its", "device")[:n])


def unused_domain_zero(row, kind, pool=False):
    n = (POOL_DOMAIN if pool else DOMAIN)[kind]
    return all(row.get(k, 0) == 0 for k in ("controller", "its", "device")[n:])


class State:
    def __init__(self):
        self.t = {(a, k): Table(a, k) for a in range(4) for k in KINDS}
        self.said = [0, 0, 0, 0, 0]
        self.touched = False  # whether the last call changed a table

    # ---- soundness, in 01's words

    def pool_sound(self, a, k):
        t = self.t[a, k]
        if not t.tidy():
            return False
        rows = t.used()
        for r in rows:
            if not FLOOR[k] <= r["start"] < r["end"] <= TOP[k] or not unused_domain_zero(r, k, True):
                return False
        for j, b in enumerate(rows):
            for a_ in rows[:j]:
                if domain(a_, k, True) == domain(b, k, True):
                    if a_["start"] > b["start"] or (a_["start"], a_["end"]) == (b["start"], b["end"]):
                        return False
        return True

    def holders_sound(self, a, k):
        t = self.t[a, k]
        if not t.tidy():
            return False
        rows = t.used()
        for r in rows:
            if r["owner"] == 0 or not unused_domain_zero(r, k):
                return False
            if k == 3:
                if r["trigger"] > 3 or r["sharing"] > 1:
                    return False
            elif not FLOOR[k] <= r["start"] < r["end"] <= TOP[k]:
                return False
        for j, b in enumerate(rows):
            for c in rows[:j]:
                if domain(b, k) != domain(c, k):
                    continue
                if k == 3:
                    if b["input"] == c["input"]:
                        together = b["sharing"] == c["sharing"] == 1 and b["trigger"] == c["trigger"]
                        if a == 2 or not together:
                            return False
                elif b["start"] < c["end"] and c["start"] < b["end"]:
                    return False
        return True

    def given(self):
        return all(self.pool_sound(0, k) and self.pool_sound(1, k) and self.holders_sound(2, k) for k in KINDS)

    def sound(self):
        if not self.given() or not all(self.holders_sound(3, k) for k in KINDS):
            return False
        return all(self.t[3, k].used()[: self.t[2, k].count] == self.t[2, k].used() for k in KINDS)

    # ---- calls

    def say(self, number, owner=0):
        self.said = [number, 0, 0, owner, 0]

    def refused(self, use, ranges):
        """The number of the first test that a range does not pass, each tried on all of them: 4, 12, then 9 where a table needs a row and has none."""
        if any(not r["start"] < r["end"] for _, r in ranges):
            return 4
        if any(r["start"] < FLOOR[k] for k, r in ranges):
            return 12
        if any(r not in self.t[use, k].used() and self.t[use, k].count == POOL for k, r in ranges):
            return 9
        return 0

    def insert(self, use, k, row):
        t = self.t[use, k]
        rows = t.used()
        if row in rows:
            return
        at = t.count
        for j, r in enumerate(rows):
            if domain(r, k, True) == domain(row, k, True) and r["start"] > row["start"]:
                at = j
                break
        t.rows.insert(at, [row[n] for n in POOL_COLUMNS])
        t.rows.pop()
        t.count += 1
        self.touched = True

    def pool(self, use, k, x):
        if not self.given():
            return self.say(1)
        if k == 5 and any(n > W32 for n in x[:8]):
            return self.say(2)
        row = lambda c, i, s, e: dict(controller=c, its=i, start=s, end=e)
        if k == 5:
            c, i, ds, de, es, ee, ls, le = x[:8]
            ranges = [(5, row(c, i, ds, de)), (6, row(c, i, es, ee)), (7, row(c, 0, ls, le))]
        elif k == 3:
            ranges = [(3, row(x[0], 0, x[1], x[2]))]
        else:
            ranges = [(k, row(0, 0, x[0], x[1]))]
        number = self.refused(use, ranges)
        if not number:
            for kind, r in ranges:
                self.insert(use, kind, r)
        self.say(number)

    def hold(self, owner, k, x):
        if not self.given():
            return self.say(1)
        rng = lambda c, i, d, s, e: dict(controller=c, its=i, device=d, start=s, end=e, owner=owner)
        one = lambda c, n, t, s: dict(controller=c, input=n, trigger=t, sharing=s, owner=owner)
        if k in (1, 2, 4):
            rows = [(k, rng(0, 0, 0, x[0], x[1]))]
        elif k == 3:
            rows = [(3, one(*x[:4]))]
        elif k == 5:
            rows = [(5, rng(x[0], x[1], 0, x[2], x[3]))]
        elif k == 6:
            rows = [(6, rng(x[0], x[1], x[2], x[3], x[4]))]
        elif k == 7:
            rows = [(7, rng(x[0], 0, 0, x[1], x[2]))]
        else:
            rows = [(3, one(x[0], x[1], x[2], 0)), (4, rng(0, 0, 0, x[3], x[3] + 1))]
        for kind, r in rows:
            if kind == 3 and (r["trigger"] > 3 or r["sharing"] > 1):
                return self.say(2)
        if owner == 0:
            return self.say(3)
        for kind, r in rows:
            if kind != 3 and (not r["start"] < r["end"] or r["end"] > TOP[kind]):
                return self.say(4)
        if any(kind != 3 and r["start"] < FLOOR[kind] for kind, r in rows):
            return self.say(12)
        for kind, r in rows:
            for h in self.t[2, kind].used():
                if domain(h, kind) == domain(r, kind):
                    if kind == 3 and h["input"] == r["input"]:
                        return self.say(5, h["owner"])
                    if kind != 3 and h["start"] < r["end"] and r["start"] < h["end"]:
                        return self.say(5, h["owner"])
        if any(self.t[2, kind].count == ROWS for kind, _ in rows):
            return self.say(9)
        for kind, r in rows:
            self.t[2, kind].push(r)
            self.touched = True
        self.say(0)

    def start(self):
        if not self.given():
            return self.say(1)
        for k in KINDS:
            if (self.t[3, k].count, self.t[3, k].rows) != (self.t[2, k].count, self.t[2, k].rows):
                self.touched = True
            self.t[3, k].copy_of(self.t[2, k])
        self.say(0)

    def withdraw(self, q):
        if not self.sound():
            return self.say(1)
        if not 0 < q <= W32:
            return self.say(2)
        granted = {k: self.t[3, k].used()[self.t[2, k].count :] for k in KINDS}
        if not any(r["owner"] == q for rows in granted.values() for r in rows):
            return self.say(13)
        for k in KINDS:
            left = Table(3, k)
            for r in self.t[2, k].used() + [r for r in granted[k] if r["owner"] != q]:
                left.push(r)
            self.t[3, k] = left
        self.touched = True
        self.say(0)

    # ---- one request

    def find(self, k, dom, pool_dom, size, align):
        """The least aligned base whose range lies in one automatic pool and meets no owner row of the domain."""
        owners = [r for r in self.t[3, k].used() if domain(r, k) == dom]
        ends = lambda r: (r["input"], r["input"] + 1) if k == 3 else (r["start"], r["end"])
        best = None
        for p in self.t[0, k].used():
            if domain(p, k, True) != pool_dom:
                continue
            c = -(-p["start"] // align) * align
            while c + size <= p["end"]:
                hit = [ends(r)[1] for r in owners if ends(r)[0] < c + size and c < ends(r)[1]]
                if not hit:
                    best = c if best is None else min(best, c)
                    break
                c = -(-hit[0] // align) * align
        return best

    def place(self, k, dom, pool_dom, size, align, code, n, trigger=0, sharing=0):
        """A base, or the numbers of a refusal."""
        space = {1: 1, 2: 2, 3: 3, 4: 4, 5: 5, 6: 5, 7: 6}[k]
        if code == 0:
            b = self.find(k, dom, pool_dom, size, align)
            return (b, None) if b is not None else (None, [7, 0, space, 0, 0])
        inside = any(domain(p, k, True) == pool_dom and p["start"] <= n and n + size <= p["end"] for p in self.t[1, k].used())
        if n % align or n + size > TOP[k] or not inside:
            return None, [6, 0, space, 0, 0]
        for r in self.t[3, k].used():
            if domain(r, k) != dom:
                continue
            if k == 3:
                if r["input"] != n:
                    continue
                if r["sharing"] == sharing == 1 and r["trigger"] == trigger:
                    return n, None
                return None, [8, 0, 3, r["owner"], 2 if r["trigger"] != trigger else 3]
            if r["start"] < n + size and n < r["end"]:
                return None, [8, 0, space, r["owner"], {1: 1, 2: 1, 4: 4, 5: 5, 6: 6, 7: 7}[k]]
        return n, None

    def want(self, x, out):
        q, slot, kind, a, b, c = x[:6]
        choices = [(x[6], x[7]), (x[8], x[9]), (x[10], x[11])]
        if not self.sound():
            return self.say(1)
        if len(out) < 9:
            return self.say(11)
        good = q > 0
        if kind in (1, 2):
            good = good and a > 0 and bin(b).count("1") == 1
        if kind == 3:
            good = good and b <= 3 and c <= 1
        if kind == 5:
            good = good and c > 0
        if not good:
            return self.say(2)
        rng = lambda k, dom, s, n: (k, dict(zip(("controller", "its", "device"), dom), start=s, end=s + n, owner=q))
        if kind in (1, 2):
            base, no = self.place(kind, (), (), a, b, *choices[0])
            rows = [] if no else [rng(kind, (0, 0, 0), base, a)]
            rec = [base, a]
        elif kind == 3:
            base, no = self.place(3, (a,), (a,), 1, 1, *choices[0], b, c)
            rows = [] if no else [(3, dict(controller=a, input=base, trigger=b, sharing=c, owner=q))]
            rec = [a, base, b, c]
        elif kind == 4:
            base, no = self.place(4, (), (), 1, 1, *choices[0])
            rows = [] if no else [rng(4, (0, 0, 0), base, 1)]
            rec = [base]
        else:
            d, no = self.place(5, (a, b), (a, b), 1, 1, *choices[0])
            if not no:
                e, no = self.place(6, (a, b, d), (a, b), c, 1, *choices[1])
            if not no:
                l, no = self.place(7, (a,), (a,), c, 1, *choices[2])
            rows = [] if no else [rng(5, (a, b, 0), d, 1), rng(6, (a, b, d), e, c), rng(7, (a, 0, 0), l, c)]
            rec = [] if no else [a, b, d, e, l, c]
        if no:
            self.said = no
            return
        if any(self.t[3, k].count == ROWS for k, _ in rows):
            return self.say(9)
        for k, r in rows:
            self.t[3, k].push(r)
            self.touched = True
        self.say(0)
        rec = [kind, q, slot] + rec
        out[:9] = rec + [0] * (9 - len(rec))

    def poke(self, a, k, column, row, value):
        t = self.t[a, k]
        if column == 0:
            t.count = value
        else:
            t.rows[row][column - 1] = value


class Run:
    """Collects commands and what they print."""

    def __init__(self):
        self.commands, self.out, self.s = [], [], State()

    def do(self, *c):
        line = list(c)
        while len(line) > 1 and line[-1] == 0:
            line.pop()
        self.commands.append(" ".join(str(x) for x in line))
        c = list(c) + [0] * (14 - len(c))
        op, x = c[0], c[1:]
        s = self.s
        if op in (1, 2, 3, 8, 9, 11):
            s.touched = False
        if op == 0:
            self.s = State()
        elif op == 1:
            s.pool(x[0], x[1], x[2:])
            self.out.append(" ".join(map(str, s.said)))
        elif op == 2:
            s.hold(x[0], x[1], x[2:])
            self.out.append(" ".join(map(str, s.said)))
        elif op == 3:
            s.start()
            self.out.append(" ".join(map(str, s.said)))
        elif op == 11:
            s.withdraw(x[0])
            self.out.append(" ".join(map(str, s.said)))
        elif op == 4:
            s.poke(*x[:5])
        elif op == 5:
            for (a, k), t in s.t.items():
                for r in t.rows[: t.count]:
                    self.out.append("row %d %d " % (a, k) + " ".join(map(str, r)))
        elif op == 6:
            self.out.append("%d %d" % (s.given(), s.sound()))
        elif op == 10:
            self.out.append("%d" % (not s.touched))
        elif op == 8:
            out = [9] * 9
            s.want(x, out)
            self.out.append(" ".join(map(str, s.said + out)))
        elif op == 9:
            out = [9] * x[0]
            s.want(x[1:], out)
            self.out.append(" ".join(map(str, s.said + out)))
        elif op == 7:
            a, k, n = x[:3]
            for i in range(n):
                s.t[a, k].rows[i] = [good_row(a, k, i)[name] for name in columns(a, k)]
            s.t[a, k].count = n

    def checked(self, *c):
        """A command, and all rows behind it."""
        self.do(*c)
        self.do(5)


# ---- the cases

def pool_order(r):
    """Place of a new row: other domains between, equal starts, duplicates, the end of the whole table."""
    r.do(0)
    for c, s, e in [(2, 50, 60), (1, 30, 40), (2, 10, 20), (1, 30, 35), (1, 5, 90), (2, 50, 60), (1, 30, 41), (3, 1, 2), (2, 70, 71)]:
        r.do(1, 0, 3, c, s, e)
    r.do(5)
    r.do(1, 0, 3, 1, 7, 7)
    r.do(1, 0, 3, 1, 8, 7)
    r.do(5)


def pool_full(r):
    """A full table: a duplicate is accepted, another row is 9."""
    for use in (0, 1):
        for k in (1, 2, 3, 4):
            into = (1, use, k, *((5,) if k == 3 else ()))
            r.do(0)
            for i in range(POOL):
                r.do(*into, 2 * i, 2 * i + 1)
            r.do(*into, 0, 1)
            r.do(*into, 2 * POOL, 2 * POOL + 1)
            r.do(*into, 99, 99)
            r.do(6)
        r.do(5)


def domains(r):
    """An MSI domain is taken whole or not at all: a number too large is 2, any empty range 4, then low LPIs are 12, then a row that is lacking is 9. Each range is new, there
    already, empty, too large, of LPIs low as well; each of the three tables is full in turn, and none, and all."""
    new, there, empty, large = (90000, 90005), (10, 20), (13, 13), (0, W32 + 1)
    lpis = [(FIRST + start, FIRST + end) for start, end in (new, there, empty)]
    low = [(FIRST - 1, FIRST), (FIRST - 1, FIRST + 1), (0, W32), (5, 5), (9, 5), large]
    for use in (0, 1):
        for full in ((), (5,), (6,), (7,), (5, 6, 7)):
            def tables():
                r.do(0)
                for k in (5, 6, 7):
                    r.do(7, use, k, POOL if k in full else 1)

            tables()
            for d in (new, there, empty, large):
                for e in (new, there, empty, large):
                    for l in lpis + low:
                        if r.s.touched:
                            tables()
                        r.do(1, use, 5, 5, 6, *d, *e, *l)
                        r.do(10)
            r.do(5)
            # the other use has tables of its own, and another controller and ITS its own ranges in the same ones
            tables()
            r.do(1, 1 - use, 5, 5, 6, *new, *new, *lpis[0])
            r.do(1, use, 5, 5, 7, *there, *there, *lpis[1])
            r.checked(1, use, 5, 4, 6, *there, *there, *lpis[1])


def low_rows(r):
    """A row of LPIs that starts too low is unsound in each of the four tables, for the calls that judge the table: owners by requests and withdrawals alone. One at the
    least LPI is not."""
    calls = [
        (1, 0, 1, 0, 10), (1, 1, 5, 5, 6, 3, 4, 3, 4, FIRST + 90, FIRST + 99), (1, 0, 5, 5, 6, 3, 4, 3, 4, 0, 1), (2, 9, 1, 0, 10), (2, 9, 7, 5, FIRST + 90, FIRST + 99), (2, 9, 7, 5, 0, 1),
        (3,), (8, 9, 0, 4), (8, 9, 0, 5, 5, 6, 1), (9, 3, 9, 0, 4), (11, 3), (11, 9), (11, 0),
    ]
    for a in range(4):
        for start in (FIRST - 1, FIRST, 0):
            for call in calls:
                r.do(0)
                fill(r, a, 7, 2)
                for t in [2, 3] if a == 2 else [a]:
                    r.do(4, t, 7, columns(a, 7).index("start") + 1, 0, start)
                r.do(*call)
                r.do(10)
            r.do(6)


def holds(r):
    """Refusals 2, 3, 4, 12, 5 in their order; the owner named is the first in table order; other domains are free; the largest numbers."""
    r.do(0)
    for args in [
        (9, 1, 0x3000, 0x4000), (4, 1, 0x1000, 0x2000), (5, 1, 0x1000, 0x4000), (5, 1, 0x1800, 0x1900), (0, 1, 1, 2), (0, 1, 2, 1), (6, 1, 2, 2),
        (6, 1, W64 - 1, W64), (6, 1, 0, 1), (6, 2, W16 - 1, W16), (6, 2, W16, W16), (7, 4, 40, 42), (8, 4, 41, 43), (8, 4, 42, 43),
        (3, 3, 1, 5, 0, 1), (4, 3, 1, 5, 0, 1), (4, 3, 2, 5, 0, 1), (0, 3, 1, 1, 4, 0), (0, 3, 1, 1, 0, 2), (0, 3, 1, 1, 3, 1), (4, 3, 1, W64, 3, 0), (4, 3, 1, W64, 3, 0),
        (1, 5, 1, 2, 8, 10), (2, 5, 1, 2, 9, 11), (2, 5, 1, 3, 9, 11), (2, 5, 2, 2, 9, 11),
        (1, 6, 1, 2, 8, 0, 4), (2, 6, 1, 2, 9, 0, 4), (3, 6, 1, 2, 8, 3, 5), (3, 6, 1, 2, 8, 4, 5), (3, 6, W32, W32, W32, W32 - 1, W32),
        (1, 7, 1, 8192, 8200), (2, 7, 1, 8199, 8201), (2, 7, 2, 8199, 8201),
        (3, 7, 1, FIRST - 1, FIRST + 1), (3, 7, 3, FIRST - 1, FIRST), (3, 7, 3, 0, W32), (0, 7, 3, 5, 6), (0, 7, 3, 5, 5), (3, 7, 3, 5, 5), (3, 7, 3, 9, 5), (3, 7, W32, FIRST, W32),
        (3, 8, 1, 6, 0, 50), (3, 8, 1, 6, 0, 51), (3, 8, 1, 7, 0, 50), (3, 8, 1, 7, 4, 51), (0, 8, 1, 7, 0, 51), (3, 8, 1, 7, 0, W64), (3, 8, 1, 6, 0, W64), (3, 8, 9, 7, 3, W64 - 1),
    ]:
        r.do(2, *args)
    r.do(5)
    r.do(6)


def hold_full(r):
    """A full table: 9 comes last; the pair call needs a row in both tables."""
    for k in (1, 2, 4, 5, 6, 7):
        lead, first = {5: (1, 2), 6: (1, 2, 8), 7: (1,)}.get(k, ()), FLOOR[k]
        r.do(0)
        for i in range(ROWS):
            r.do(2, 1 + i, k, *lead, first + 2 * i, first + 2 * i + 1)
        r.do(2, 7, k, *lead, first + 2 * ROWS, first + 2 * ROWS + 1)
        r.do(2, 7, k, *lead, first, first + 2 * ROWS)
        r.do(6)
        if k == 4:
            r.checked(2, 7, 8, 1, 1, 0, 5000)
    r.do(0)
    for i in range(ROWS):
        r.do(2, 1 + i, 3, i % 3, i, i % 4, i % 2)
    r.do(2, 7, 3, 1, ROWS, 0, 0)
    r.do(2, 7, 3, 1, 1, 0, 0)
    r.do(2, 7, 8, 1, ROWS, 0, 40)
    r.checked(3)
    r.do(0)
    r.do(7, 2, 7, ROWS)
    for start, end in ((FIRST - 1, W32), (5, 5), (FIRST, W32), (W32 - 1, W32)):
        r.do(2, 7, 7, 5, start, end)
        r.do(10)


def started(r):
    """Start forgets grants; a reservation after a start makes the owners unsound unless they still begin with the reservations."""
    r.do(0)
    r.do(6)
    r.do(2, 4, 1, 10, 20)
    r.do(6)
    r.do(3)
    r.do(6)
    for column, value in ((4, 30), (5, 40), (6, 9)):
        r.do(4, 3, 1, column, 1, value)
    r.do(4, 3, 1, 0, 0, 2)
    r.do(6)
    r.do(1, 0, 1, 0, 100)
    r.do(6)
    r.do(2, 9, 1, 30, 40)
    r.do(6)
    r.do(2, 9, 1, 50, 60)
    r.do(6)
    r.do(5)
    r.checked(3)
    r.do(6)


def good_row(a, k, i=0):
    """Numbers of a sound row, apart from those of another i."""
    start = FLOOR[k] + 10 + 20 * i
    if a < 2:
        return dict(controller=5 if POOL_DOMAIN[k] else 0, its=6 if POOL_DOMAIN[k] > 1 else 0, start=start, end=start + 10)
    d = dict(controller=5 if DOMAIN[k] else 0, its=6 if DOMAIN[k] > 1 else 0, device=7 if DOMAIN[k] > 2 else 0)
    if k == 3:
        return dict(controller=5, input=10 + i, trigger=1, sharing=1, owner=3)
    return dict(d, start=start, end=start + 10, owner=3)


def fill(r, a, k, n=2):
    """n sound rows in a table, and in the owners behind the reservations."""
    for t in [2, 3] if a == 2 else [a]:
        r.do(7, t, k, n)


def broken(r):
    """Every clause of soundness, broken once on each table that it applies to; what is just within it, beside."""
    for a in range(4):
        for k in KINDS:
            size, names = (POOL if a < 2 else ROWS), columns(a, k)
            at = {n: j + 1 for j, n in enumerate(names)}

            def attempt(*pokes, a=a, k=k, n=2, both=False):
                r.do(0)
                fill(r, a, k, n)
                for name, row, value in pokes:
                    for t in ([2, 3] if both and a == 2 else [a]):
                        r.do(4, t, k, at[name] if name != "count" else 0, row, value)
                r.do(6)

            attempt()
            for c in (size + 1, 2**63, W64):
                attempt(("count", 0, c))
            for name in names:
                attempt((name, size - 1, 1))
                attempt((name, 2, 1))
            first, top = names[:3], TOP[k]
            used = (POOL_DOMAIN if a < 2 else DOMAIN)[k]
            for j, name in enumerate(("controller", "its", "device")):
                if name in names:
                    attempt((name, 1, 1), both=True)
                    attempt((name, 1, W32), both=True)
            if k == 3 and a >= 2:
                attempt(("trigger", 1, 3), both=True)
                attempt(("trigger", 1, 4), both=True)
                attempt(("sharing", 1, 0), both=True)
                attempt(("sharing", 1, 2), both=True)
                attempt(("owner", 1, 0), both=True)
                attempt(("input", 1, W64), both=True)
                attempt(("input", 1, 10), both=True)
                attempt(("input", 1, 10), ("trigger", 1, 2), both=True)
                attempt(("input", 1, 10), ("sharing", 1, 0), both=True)
                attempt(("input", 1, 10), ("controller", 1, 6), both=True)
                attempt(("owner", 1, 8))
                continue
            # the rows are 10..20 and 30..40 from the kind's least number on
            b = FLOOR[k]
            attempt(("start", 1, b + 40), both=True)
            attempt(("start", 1, b + 39), both=True)
            attempt(("end", 1, top), both=True)
            if top < W64:
                attempt(("end", 1, top + 1), both=True)
            for n in (b, b - 1, 0) if b else ():
                attempt(("start", 0, n), both=True)
            if a < 2:
                attempt(("start", 1, b + 10), both=True)
                attempt(("start", 1, b + 10), ("end", 1, b + 20), both=True)
                attempt(("start", 1, b + 9), both=True)
                if used:
                    attempt(("start", 1, b + 9), ("controller", 1, 4), both=True)
            else:
                attempt(("owner", 1, 0), both=True)
                attempt(("start", 1, b + 19), both=True)
                attempt(("start", 1, b + 20), both=True)
                attempt(("start", 1, b + 5), ("end", 1, b + 10), both=True)
                attempt(("start", 1, b + 5), ("end", 1, b + 11), both=True)
                if used:
                    attempt(("start", 1, b + 10), ("end", 1, b + 20), ("controller", 1, 4), both=True)
                attempt(("owner", 1, 8))
                attempt(("start", 1, b + 31))


def last_row(r):
    """The last row counts like every other."""
    for a in range(4):
        for k in KINDS:
            n = POOL if a < 2 else ROWS
            r.do(0)
            fill(r, a, k, n)
            r.do(6)
            names = columns(a, k)
            name = "end" if a < 2 else "owner"
            r.do(4, a, k, names.index(name) + 1, n - 1, 0)
            r.do(6)


def malformed(r):
    """An unsound table of any kind is 1 for every adding call and for start; owner tables are not judged there."""
    for k in KINDS:
        r.do(0)
        r.do(4, 2, k, 1, ROWS - 1, 1)
        r.do(1, 0, 1, 0, 10)
        r.do(2, 1, 1, 0, 10)
        r.do(2, 1, 8, 0, 0, 9, 10)
        r.do(3)
        r.do(0)
        r.do(4, 3, k, 1, ROWS - 1, 1)
        r.do(1, 0, 1, 0, 10)
        r.do(2, 1, 1, 0, 10)
        r.do(6)
        r.do(3)
        r.do(6)


AUTO = (0, 0)


def stand_cases(r):
    """P1 to P10."""
    def case(pools, held, *wants):
        r.do(0)
        for p in pools:
            r.do(1, *p)
        for h in held:
            r.do(2, *h)
        r.do(3)
        for w in wants:
            r.do(8, 3, 1, *w)
        r.do(5)

    t = 2**64
    case([(0, 1, 0x1000, 0x3000)], [(7, 1, 0x1000, 0x2000)], (1, 0x100, 0x100, 0))
    case([(0, 1, 0x1000, 0x2000), (0, 1, 0x2000, 0x3000)], [], (1, 0x1800, 0x1000, 0))
    case([(1, 1, 0, 0x8000)], [(9, 1, 0x3000, 0x4000), (4, 1, 0x1000, 0x2000)], (1, 0x3000, 0x1000, 0, 1, 0x1000))
    case([(0, 4, 40, 42)], [(7, 4, 40, 41)], (4,), (4,))
    for size, align in ((4095, 4096), (4096, 4096), (4095, 8192)):
        case([(0, 1, t - 4096, t - 1)], [], (1, size, align, 0))
    for base in (0xFFFE, 0xFFFF):
        case([(1, 2, 0xFFF0, 0xFFFF)], [], (2, 1, 1, 0, 1, base))
    case([(0, 3, 0, 32, 34)], [(7, 3, 0, 32, 0, 1)], (3, 0, 0, 1))
    for trigger in (1, 0):
        case([(1, 3, 0, 32, 33)], [(7, 3, 0, 32, 0, 1)], (3, 0, trigger, 0, 1, 32))
    msi = [(0, 5, 0, 0, 8, 10, 0, 4, 8192, 8200)]
    case(msi, [(7, 6, 0, 0, 8, 0, 4)], (5, 0, 0, 1))
    case(msi, [], (5, 0, 0, 2), (5, 0, 0, 2))


def request_bounds(r):
    """Each refusal number of one request at its boundary, for each kind."""
    for kind, most in ((1, W64), (2, W16)):
        r.do(0)
        r.do(1, 0, kind, 0x10, 0x40)
        r.do(1, 1, kind, 0x10, 0x40)
        r.do(1, 1, kind, most - 1, most)
        for a, b, code, n in [
            (1, 1, 0, 0), (0, 1, 0, 0), (1, 0, 0, 0), (1, 3, 0, 0), (1, most, 0, 0), (1, (most + 1) // 2, 0, 0), (1, 2, 0, 0), (0x20, 0x10, 0, 0), (0x30, 1, 0, 0), (0x1F, 1, 0, 0),
            (1, 1, 1, 0xF), (1, 1, 1, 0x10), (1, 1, 1, 0x3F), (2, 1, 1, 0x3F), (1, 1, 1, 0x40), (1, 2, 1, 0x31), (1, 1, 1, most - 1), (1, 1, 1, most), (2, 1, 1, most - 1), (most, 1, 1, 0), (most, 1, 0, 0),
        ]:
            r.do(8, 3, 1, kind, a, b, 0, code, n)
        r.do(8, 0, 1, kind, 1, 1)
        r.do(8, W32, W32, kind, 1, 1)
        r.do(5)
    r.do(0)
    r.do(1, 0, 3, 1, 5, 7)
    r.do(1, 1, 3, 1, 5, 7)
    r.do(1, 1, 3, 1, W64 - 1, W64)
    for a, b, c, code, n in [
        (1, 0, 1, 0, 0), (1, 4, 1, 0, 0), (1, 0, 2, 0, 0), (1, 3, 0, 0, 0), (1, 0, 0, 0, 0), (2, 0, 0, 0, 0), (1, 0, 1, 1, 5), (1, 1, 1, 1, 5), (1, 1, 0, 1, 5), (1, 0, 0, 1, 5), (1, 0, 1, 1, 6),
        (1, 3, 1, 1, 6), (1, 3, 0, 1, 6), (1, 0, 1, 1, 7), (2, 0, 1, 1, 5), (1, 0, 0, 1, W64 - 1), (1, 0, 0, 1, W64),
    ]:
        r.do(8, 4, 2, 3, a, b, c, code, n)
    r.do(8, 0, 2, 3, 1, 0, 0)
    r.do(5)
    r.do(0)
    r.do(1, 0, 4, 3, 5)
    r.do(1, 1, 4, 3, 5)
    r.do(1, 1, 4, W64 - 1, W64)
    for code, n in [(0, 0), (1, 3), (1, 2), (1, 5), (1, 4), (0, 0), (1, W64 - 1), (1, W64)]:
        r.do(8, 5, 0, 4, 0, 0, 0, code, n)
    r.do(8, 0, 0, 4)
    r.do(5)
    r.do(0)
    r.do(1, 0, 5, 1, 2, 8, 10, 0, 4, 8192, 8200)
    r.do(1, 1, 5, 1, 2, 8, 12, 0, 4, 8192, 8204)
    r.do(1, 1, 5, W32, W32, W32 - 1, W32, W32 - 1, W32, W32 - 1, W32)
    for a, b, c, d, e, l in [
        (1, 2, 0, AUTO, AUTO, AUTO), (1, 2, 5, AUTO, AUTO, AUTO), (1, 2, 4, AUTO, AUTO, AUTO), (1, 2, 1, AUTO, AUTO, (1, 8192)), (1, 2, 1, AUTO, (1, 4), AUTO), (1, 2, 1, (1, 8), AUTO, AUTO),
        (1, 2, 1, (1, 12), AUTO, AUTO), (1, 2, 2, (1, 10), (1, 3), AUTO), (1, 2, 2, (1, 10), (1, 2), (1, 8195)), (1, 2, 2, (1, 10), (1, 2), (1, 8203)), (1, 2, 2, (1, 10), (1, 2), (1, 8202)),
        (1, 2, 3, AUTO, AUTO, AUTO), (1, 2, 1, AUTO, AUTO, AUTO), (1, 3, 1, AUTO, AUTO, AUTO), (2, 2, 1, AUTO, AUTO, AUTO), (W32, W32, 1, (1, W32 - 1), (1, W32 - 1), (1, W32 - 1)),
        (W32, W32, 1, (1, W32), (1, W32 - 1), (1, W32 - 1)), (1, 2, W32, AUTO, AUTO, AUTO), (1, 2, W32, (1, 11), (1, 1), AUTO),
        # no request gets 12: a low LPI lies in no pool
        (1, 2, 1, (1, 11), (1, 0), (1, FIRST - 1)), (1, 2, 1, (1, 11), (1, 0), (1, 0)), (1, 2, 2, (1, 11), AUTO, (1, FIRST - 1)), (1, 2, 1, (1, 8), (1, 0), (1, FIRST - 1)),
    ]:
        r.do(8, 6, 3, 5, a, b, c, *d, *e, *l)
    r.do(8, 0, 0, 5, 1, 2, 1)
    r.do(5)


def request_full(r):
    """9 comes last: a full owner table of each kind, with what is refused before it; MSI needs a row in each of its three tables."""
    for k in KINDS:
        kind = {6: 5, 7: 5}.get(k, k)
        r.do(0)
        if kind == 5:
            r.do(1, 0, 5, 5, 6, 3000, 3010, 3000, 3010, FIRST + 3000, FIRST + 3010)
        elif kind == 3:
            r.do(1, 0, 3, 5, 3000, 3010)
        else:
            r.do(1, 0, kind, 3000, 3010)
        ask = {3: (5, 0, 0), 4: (0, 0, 0), 5: (5, 6, 1)}.get(kind, (1, 1, 0))
        r.do(7, 3, k, ROWS - 1)
        r.do(8, 3, 1, kind, *ask)
        r.do(8, 3, 1, kind, *ask)
        r.do(8, 3, 1, kind, *ask, 1, 9, 1, 9, 1, 9)
        r.do(6)


def blocks(r):
    """Wide reserved blocks before the first free number, for each kind of range: one behind the other in rising, falling and mixed order, with a gap of one number, and up to
    the last number but one. What is asked goes past each of them, and no further."""
    for k in (1, 2, 4, 5, 6, 7):
        wide = 7000 if k == 2 else 1_000_000
        low, most = FLOOR[k], TOP[k]
        cuts = [low + i * wide for i in range(9)]
        behind = list(zip(cuts, cuts[1:]))
        gap = [(a, b - (i == 3)) for i, (a, b) in enumerate(behind)]
        to_the_last = behind[:7] + [(cuts[7], most - 1)]
        for held in (behind, gap, to_the_last):
            for order in (range(8), range(7, -1, -1), (3, 6, 0, 5, 1, 7, 4, 2)):
                for end in (cuts[8], most):
                    r.do(0)
                    if k < 5:
                        r.do(1, 0, k, low, end)
                    else:
                        ranges = {5: (0, 9), 6: (0, 9), 7: (FIRST, FIRST + 9), k: (low, end)}
                        r.do(1, 0, 5, 1, 2, *ranges[5], *ranges[6], *ranges[7])
                    for i in order:
                        r.do(2, 9 + i, k, *{5: (1, 2), 6: (1, 2, 0), 7: (1,)}.get(k, ()), *held[i])
                    r.do(3)
                    for slot in range(2):
                        r.do(8, 3, slot, min(k, 5), *{4: (), 1: (1, 1), 2: (1, 1)}.get(k, (1, 2, 1)))
                    r.do(6)


def request_malformed(r):
    """1 before 11 before 2; a record list of every length up to nine and beyond; owner tables that no longer begin with the reservations."""
    for k in KINDS:
        for a in range(4):
            r.do(0)
            r.do(4, a, k, 1, POOL - 1 if a < 2 else ROWS - 1, 1)
            r.do(9, 3, 0, 0, 4)
    for n in range(12):
        r.do(0)
        r.do(1, 0, 4, 3, 5)
        r.do(9, n, 0, 0, 4)
        r.do(9, n, 3, 1, 4)
        r.do(5)
    r.do(0)
    r.do(1, 0, 1, 0, 100)
    r.do(3)
    r.do(8, 3, 1, 1, 10, 1)
    r.do(2, 4, 1, 50, 60)
    r.do(8, 3, 1, 1, 10, 1)
    r.do(3)
    r.do(8, 3, 1, 1, 10, 1)
    r.do(5)
    r.do(2, 3, 1, 0, 10)
    r.do(8, 3, 1, 1, 10, 1)
    r.checked(3)


def withdrawals(r):
    """Rows of two owners in every order behind a reservation, in each table alone; full tables; a requester in all seven tables, as a reservation alone, and none; what is
    free again is granted again; after a refused request, a reservation and a start."""
    for k in KINDS:
        owner = columns(3, k).index("owner") + 1

        def table(held, rows, others, k=k, owner=owner):
            r.do(0)
            r.do(7, 2, k, held)
            r.do(7, 3, k, rows)
            for i in others:
                r.do(4, 3, k, owner, i, 8)

        # the first row is a reservation of 3, who has none to all of the other rows
        for others in itertools.product((False, True), repeat=4):
            table(1, 5, [i for i, other in enumerate(others, 1) if other])
            r.checked(11, 3)
            r.do(10)
            r.do(11, 3)
            r.do(6)
        for q in (0, 9, W32, W32 + 1, W64):
            r.do(11, q)
            r.do(10)
        # a full table: the one row that goes, and the one that stays
        for i in (0, ROWS // 2, ROWS - 1):
            table(0, ROWS, [i])
            r.do(11, 8)
            r.do(6)
            table(0, ROWS, [i])
            r.checked(11, 3)
            r.do(6)
        # reservations alone, and a full table of them
        for rows in (2, ROWS):
            table(rows, rows, [])
            r.do(11, 3)
            r.do(10)
    # all seven tables, of rows of 3 and 8 by turns; the reservations are 3's
    r.do(0)
    for k in KINDS:
        r.do(7, 2, k, 2)
        r.do(7, 3, k, 6)
        for i in (3, 5):
            r.do(4, 3, k, columns(3, k).index("owner") + 1, i, 8)
    for q in (8, 8, 3, 3):
        r.checked(11, q)
        r.do(6)
    # what is free again is the least there is
    r.do(0)
    for use in (0, 1):
        for k in (1, 2, 4):
            r.do(1, use, k, 16, 48)
        r.do(1, use, 3, 1, 16, 20)
        r.do(1, use, 5, 1, 2, 8, 12, 0, 4, FIRST, FIRST + 8)
    wants = [(1, 8, 8), (2, 8, 8), (3, 1, 0, 1), (4,), (5, 1, 2, 2)]
    r.do(2, 4, 4, 17, 18)
    r.do(3)
    for q in (4, 5, 4):
        for w in wants:
            r.do(8, q, 0, *w)
    # refused: 5 holds the first of them
    r.do(8, 5, 1, 1, 8, 8, 0, 1, 16)
    for q in (4, 5):
        r.checked(11, q)
        for w in wants:
            r.do(8, 6, 1, *w)
        r.do(5)
    # a reservation since the start makes it 1 until the next, which forgets all grants
    r.do(2, 6, 4, 40, 41)
    for q in (6, 0):
        r.do(11, q)
        r.do(10)
    r.do(3)
    r.do(11, 6)
    r.do(5)


def random_requests(r, seed, rounds):
    g, h = random.Random(seed), random.Random(~seed)
    for _ in range(rounds):
        r.do(0)
        for use in (0, 1):
            for kind in (1, 2, 4):
                for _ in range(g.randrange(3)):
                    s = g.randrange(20)
                    r.do(1, use, kind, s, s + g.randrange(1, 20))
            for c in (0, 1):
                s = g.randrange(8)
                r.do(1, use, 3, c, s, s + g.randrange(1, 6))
                r.do(1, use, 5, c, g.randrange(2), 8, 8 + g.randrange(1, 4), 0, g.randrange(1, 8), FIRST + 20, FIRST + 20 + g.randrange(1, 12))
        if g.random() < 0.7:
            for kind in (1, 2, 4):
                r.do(1, 1, kind, 0, 41)
            r.do(1, 1, 3, 0, 0, 14)
            r.do(1, 1, 5, 0, 0, 6, 14, 0, 9, FIRST + 18, FIRST + 36)
        for _ in range(g.randrange(5)):
            k = g.choice([1, 2, 3, 4, 5, 6, 7])
            s = g.randrange(20)
            e = s + g.randrange(1, 6)
            c, i = g.randrange(2), g.randrange(2)
            x = {1: (s, e), 2: (s, e), 4: (s, e), 3: (c, g.randrange(12), g.randrange(4), g.randrange(2)), 5: (c, i, 8, 9), 6: (c, i, 8, 0, 2), 7: (c, FIRST + 20 + s, FIRST + 20 + e)}[k]
            r.do(2, g.randrange(1, 9), k, *x)
        r.do(3)
        for _ in range(g.randrange(4, 16)):
            kind = g.randrange(1, 6)
            ch = lambda top: (1, g.randrange(top)) if g.random() < 0.6 else AUTO
            if kind in (1, 2):
                x = (g.randrange(1, 6), g.choice([1, 1, 2, 4, 8]), 0) + ch(16)
            elif kind == 3:
                x = (g.randrange(2), g.randrange(2), g.randrange(2)) + ch(14)
            elif kind == 4:
                x = (0, 0, 0) + ch(16)
            else:
                x = (g.randrange(2), g.randrange(2), g.randrange(1, 4)) + ch(12) + ch(8) + ((1, FIRST + 20 + g.randrange(14)) if g.random() < 0.4 else AUTO)
            r.do(8, g.randrange(1, 9), g.randrange(3), kind, *x)
            if h.random() < 0.15:
                r.do(11, h.randrange(10))
                r.do(10)
        r.do(5)
        r.do(6)


def random_calls(r, seed, rounds):
    """Small numbers; those of LPIs mostly from the least one on, now and then just below it or as they are."""
    g, h = random.Random(seed), random.Random(~seed)
    small = lambda: g.choice([0, 1, 2, 3, 5, 8, g.randrange(40)])
    least = lambda: h.choice([FIRST] * 6 + [FIRST - 2, 0])
    for _ in range(rounds):
        r.do(0)
        for _ in range(g.randrange(5, 25)):
            p = g.random()
            if p < 0.4:
                k = g.choice([1, 2, 3, 4, 5])
                x = [small() for _ in range(8)]
                if k in (3, 5):
                    x[0] = g.randrange(2)
                if k == 5:
                    x[1] = g.randrange(2)
                    b = least()
                    x[6:8] = [x[6] + b, x[7] + b]
                r.do(1, g.randrange(2), k, *x)
            elif p < 0.9:
                k = g.randrange(1, 9)
                x = [small() for _ in range(5)]
                x[0] = x[0] if k in (1, 2, 4) else g.randrange(2)
                if k in (5, 6):
                    x[1] = g.randrange(2)
                if k == 7:
                    b = least()
                    x[1:3] = [x[1] + b, x[2] + b]
                r.do(2, g.randrange(5), k, *x)
            else:
                r.do(3)
        r.do(5)
        r.do(6)


def main():
    r = Run()
    for part in (pool_order, pool_full, domains, low_rows, holds, hold_full, started, last_row, malformed, broken, stand_cases, request_bounds, request_full, blocks, request_malformed, withdrawals):
        part(r)
    random_calls(r, 1, 30)
    random_requests(r, 2, 150)
    files = {"commands": "\n".join(r.commands) + "\n", "answers": "\n".join(r.out) + "\n"}
    for name, text in files.items():
        if "--write" in sys.argv:
            (FILES / name).write_text(text)
        if (FILES / name).read_text() != text:
            sys.exit(f"tests/rows/{name} is not what the model makes: tests/rows.py --write")
    print(f"{len(r.commands)} commands")


main()
