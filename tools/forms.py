#!/usr/bin/env python3
"""Counts the forms in crates/*/src that docs/DESIGN-PASS.md is about, in the tree as it stands or at a commit.
    tools/forms.py              counts
    tools/forms.py REV          .. at that commit
    tools/forms.py --list N     the places of point N"""
import collections
import pathlib
import re
import subprocess
import sys

ROOT = pathlib.Path(__file__).resolve().parent.parent
WORD = re.compile(r"[A-Za-z_]\w*|\d\w*")
KEEP = {"if", "else", "match", "while", "for", "return", "let", "mut", "in", "true", "false", "Some", "None", "Ok", "Err", "fn"}


def files(rev, pattern):
    if rev:
        names = subprocess.run(["git", "ls-tree", "-r", "--name-only", rev, "crates"], cwd=ROOT, capture_output=True, text=True, check=True).stdout.split()
    else:
        names = [str(p.relative_to(ROOT)) for p in ROOT.glob("crates/**/*") if p.is_file() and "out" not in p.relative_to(ROOT).parts]
    for name in sorted(names):
        if re.fullmatch(pattern, name):
            yield name, subprocess.run(["git", "show", f"{rev}:{name}"], cwd=ROOT, capture_output=True, text=True, check=True).stdout if rev else (ROOT / name).read_text()


def split(text):
    """What stands between commas, but for those in brackets."""
    out, depth, start = [], 0, 0
    for i, c in enumerate(text):
        depth += (c in "([{<") - (c in ")]}>" and text[i - 1 : i + 1] != "->")
        if c == "," and depth == 0:
            out.append(text[start:i])
            start = i + 1
    return [part.strip() for part in [*out, text[start:]] if part.strip()]


def functions(text):
    """Each function: its line, its name, its parameters, its body."""
    for m in re.finditer(r"^( *)(?:pub )?(?:extern \"C\" )?fn (\w+)", text, re.MULTILINE):
        at = text.index("(", m.end())
        if text[m.end() : m.end() + 1] == "<":  # past the type parameters
            depth = 0
            for at in range(m.end(), len(text)):
                depth += (text[at] == "<") - (text[at] == ">" and text[at - 1] != "-")
                if depth == 0:
                    break
            at = text.index("(", at)
        depth, end = 0, at
        for end in range(at, len(text)):
            depth += (text[end] == "(") - (text[end] == ")")
            if depth == 0:
                break
        body = re.search(r"^%s\{\n(.*?)^%s\}" % (m[1], m[1]), text[end:], re.MULTILINE | re.DOTALL) or re.search(r"\{\n(.*?)^%s\}" % m[1], text[end:], re.MULTILINE | re.DOTALL)
        if body and ";\n" in text[end : end + body.start()]:  # a trait's method has none
            body = None
        yield text[: m.start()].count("\n") + 1, m[2], split(text[at + 1 : end]), body[1] if body else ""


def enums(text):
    for m in re.finditer(r"^(?:pub )?enum (\w+)(?:<[^>]*>)? \{\n(.*?)^\}", text, re.MULTILINE | re.DOTALL):
        yield text[: m.start()].count("\n") + 1, m[1], [re.match(r"(\w+)(\W?)", v).groups() for v in split(re.sub(r"//.*", "", m[2]))]


def places(rev):
    found = collections.defaultdict(list)
    shapes = collections.defaultdict(list)
    for name, text in files(rev, r"crates/\w+/src/.*\.rt"):
        where = name.replace("crates/", "").replace("/src", "")
        for line, enum, cases in enums(text):
            bare = [c for c, held in cases if not held.strip()]
            if len(cases) == 2 and len(bare) < 2 or {"Nothing", "Nowhere", "Refused", "Bad"} & {c for c, _ in cases} and len(bare) < len(cases):
                found["1 enums of the shape of Option or Result"].append(f"{where}:{line} {enum}")
        for m in re.finditer(r"^    pub (\w+): (bool|isize),|^    pub (number): u64,", text, re.MULTILINE):
            found["1 flags and numbers of a refusal beside a value"].append(f"{where}:{text[: m.start()].count(chr(10)) + 1} {m[1] or m[3]}")
        for m in re.finditer(r"^ *(?:'\w+: )?(while|loop)\b.*", text, re.MULTILINE):
            found["3 loops that are no for"].append(f"{where}:{text[: m.start()].count(chr(10)) + 1} {m[0].strip()}")
        for m in re.finditer(r"\bas (?:u8|u16|u32|u64|usize)\b", re.sub(r"//.*", "", text)):
            found["4 casts"].append(f"{where}:{re.sub(r'//.*', '', text)[: m.start()].count(chr(10)) + 1}")
        for line, fn, params, body in functions(text):
            if re.match(r"same_|equal|\w+_number$", fn):
                found["4 equality and numbers written by hand"].append(f"{where}:{line} {fn}")
            if len(params) > 6:
                found["5 functions of seven parameters or more"].append(f"{where}:{line} {fn} {len(params)}")
            for param in params:
                if re.search(r": &(?:'a )?\[u(?:32|64); (?:POOL_)?ROWS\]", param):
                    found["5 columns lent one by one"].append(f"{where}:{line} {fn} {param}")
            if any(re.fullmatch(r"out: &mut \[u8\]", p) for p in params) and any(re.fullmatch(r"at: usize", p) for p in params):
                found["6 a buffer with its place beside"].append(f"{where}:{line} {fn}")
            if sum(bool(re.match(r"(?:mmio|pio|input|host|device|event|lpi): ", p)) for p in params) > 4:
                found["7 an answer for each of seven kinds handed on"].append(f"{where}:{line} {fn}")
            if body.count("\n") > 3 and name.split("/")[1] not in ("pool",):
                shapes[WORD.sub(lambda w: w[0] if w[0] in KEEP else "x", re.sub(r"//.*|\s+", " ", body))].append(f"{where}:{line} {fn}")
    for group in shapes.values():
        if len(group) > 1:
            found["2 functions with the same body but for names and numbers"] += group
    return found


def main():
    words = sys.argv[1:]
    listed = words.pop(words.index("--list") + 1) if "--list" in words else None
    words = [w for w in words if w != "--list"]
    rev = words[0] if words else None
    found = places(rev)
    for point in sorted(found):
        print(f"{len(found[point]):5} {point}")
        if listed and point.startswith(listed):
            print("\n".join("        " + place for place in found[point]))
    lines = sum(text.count("\n") for _, text in files(rev, r"crates/\w+/src/.*\.rt"))
    proofs = sum(text.count("\n") for _, text in files(rev, r"crates/\w+/proofs/.*/(?:Answers|Invariants)\.antt"))
    print(f"{lines:5} lines of src, {proofs} of Answers and Invariants, {sum(t.count(chr(10)) for _, t in files(rev, r'crates/.*[.](?:rt|antt)'))} of crates")


main()
