#!/usr/bin/env python3
"""The pinned plan made once more, from a plan and the planner's answer to it; and what such a text must be like. With a plan and its answer named as files, prints it."""
import pathlib
import re
import sys

import sizes

LIMIT = sizes.SIZES["bytes of a text"]
SHORT = b"no\t0\t11\t0\t0\t0\n"
# the fields of a `got` line that a want of the kind leaves to the planner
GRANTED = {b"mmio": slice(4, 5), b"pio": slice(4, 5), b"input": slice(5, 6), b"host": slice(4, 5), b"msi": slice(6, 9)}
NUMBER = rb"\t(?:0|[1-9][0-9]*)"


def lines(text):
    """The lines of a text that was accepted: each has its newline."""
    return text.split(b"\n")[:-1]


def automatic(line):
    return line.startswith(b"want\t") and line.endswith(b"\tauto")


def pinned(text, answer):
    """What the pinner prints for a plan that the planner answers so: the plan's own refusal, the pinned plan, or 11 at no line where that is too long to be read."""
    if answer.startswith(b"no\t"):
        return answer
    got = iter(lines(answer))
    written = []
    for line in lines(text):
        fields = line.split(b"\t")
        if fields[0] == b"want":
            granted = next(got).split(b"\t")
            if fields[-1] == b"auto":
                fields[-1:] = granted[GRANTED[fields[3]]]
        written.append(b"\t".join(fields) + b"\n")
    whole = b"".join(written)
    return whole if len(whole) <= LIMIT else SHORT


def differs_rightly(text, written):
    """Whether nothing but the `auto` at the end of a want was replaced, and each of these: by one number, or three where the want is of msi."""
    before, after = text.split(b"\n"), written.split(b"\n")

    def rightly(line, put):
        if not automatic(line):
            return line == put
        numbers = NUMBER * (3 if line.split(b"\t")[3] == b"msi" else 1)
        return re.fullmatch(re.escape(line.removesuffix(b"\tauto")) + numbers, put) is not None

    return len(before) == len(after) and all(map(rightly, before, after))


def ranges(line):
    """The ranges of a `pool` line, each with its table and domain."""
    fields = line.split(b"\t")
    kind, numbers = fields[2], [int(field) for field in fields[3:]]
    if kind == b"msi":
        controller, its, *bounds = numbers
        domains = (b"device", controller, its), (b"event", controller, its), (b"lpi", controller)
        return [(domain, bounds[2 * i], bounds[2 * i + 1]) for i, domain in enumerate(domains)]
    return [((kind, *numbers[:-2]), numbers[-2], numbers[-1])]


def held_by_fixed(text):
    """Whether each automatic pool range of a plan lies inside a fixed one: then the pinned plan is granted what the plan was."""
    auto, fixed = ([row for line in lines(text) if line.startswith(b"pool\t%s\t" % use) for row in ranges(line)] for use in (b"auto", b"fixed"))
    return all(any(domain == other and first <= start and end <= last for other, first, last in fixed) for domain, start, end in auto)


def refused_rightly(text, answer):
    """Whether the answer to a pinned plan is a refusal that its fixed pools may give: 6 at a want that was automatic in the plan."""
    fields = answer.split(b"\t")
    return fields[0] == b"no" and fields[2] == b"6" and automatic(lines(text)[int(fields[1]) - 1])


if __name__ == "__main__":
    plan, out = (pathlib.Path(name).read_bytes() for name in sys.argv[1:])
    sys.stdout.buffer.write(pinned(plan, out))
