"""Says a plan's refusal in words: the answer goes through unchanged, and below it stand the line, what was asked, and who is in the way.

Reads the answer, or the pinned plan, on standard input and the plan from the file that is named; no file is named where the answer is to a device's registers.
Every word comes from the tables below.
"""
import os
import sys

# sizes, as the proved code has them: wants of a plan; bytes of a line and of a text; the least LPI
WANTS = 256
LONGEST = 200
TEXT = 65536
FIRST_LPI = 8192
REFUSALS = {
    1: ("Malformed", "the tables handed in are not sound"),
    2: ("BadInput", "a number or a code of the line makes no sense: a size, count or requester of 0, an alignment that is no power of two, an unknown trigger or sharing"),
    3: ("BadOwner", "owner 0 cannot hold anything"),
    4: ("EmptyRange", "a range is empty: its start is not below its end"),
    5: ("Reserved", "the range overlaps a reservation of owner {owner}"),
    6: ("FixedNotAllowed", "no fixed pool of {namespace} allows these numbers, or they are not aligned as asked"),
    7: ("Exhausted", "no automatic pool of {namespace} has room for it"),
    8: ("Conflict", "{detail}; owner {owner} holds {namespace} there"),
    9: ("Full", "a table needs a row for it and has none free"),
    10: ("BadLine", "the line is not of a form that a plan can have"),
    11: ("Short", f"a plan has at most {WANTS} wants"),
    12: ("BadLpi", f"LPIs begin at {FIRST_LPI}, and a range of them starts below that"),
    13: ("NotFound", "nothing is granted to the requester that is to be withdrawn"),
    14: ("BadType", "a register asks for memory of a type that is neither 32-bit nor 64-bit"),
    15: ("BadPair", "a 64-bit register begins at the last word, so it has no high half"),
    16: ("BadMask", "the mask of a register is zero, or its ones are not contiguous from the top"),
    17: ("PortsTooLarge", "a register asks for 65,536 ports or more, which the 16 bits of PIO cannot hold"),
}
NAMESPACES = {0: "", 1: "MMIO", 2: "PIO", 3: "wired inputs", 4: "host IRQs", 5: "the ITS", 6: "LPIs"}
DETAILS = {
    0: "",
    1: "the address ranges overlap",
    2: "the input is held with another trigger",
    3: "the input is not shareable",
    4: "the host IRQ is taken",
    5: "the DeviceID is taken",
    6: "the events overlap",
    7: "the LPIs overlap",
}
# the words of the lines that can hold numbers of a namespace
HOLDERS = {1: ["mmio"], 2: ["pio"], 3: ["input"], 4: ["host"], 5: ["device", "event", "msi"], 6: ["lpi", "msi"]}
# what is refused at no line: the text as it is read, and as it would be written back
TOO_LONG = {10: f"the text is longer than {TEXT:,} bytes", 11: f"with what was granted in it the text is longer than {TEXT:,} bytes"}
OPEN = "the last line has no newline"
# what is refused of a device: a register's fault has its words above
DEVICE = {2: "the requester is 0, or a number is larger than 32 bits", 10: "the words are longer than the program reads"}


def shown(line):
    """A line of the plan, as a terminal may have it: tabs as blanks, what is no printable ASCII escaped, and no more than a line can have."""
    cut = " .." if len(line) > LONGEST else ""
    return "".join(" " if b == 9 else chr(b) if 32 <= b < 127 else f"\\x{b:02x}" for b in line[:LONGEST]) + cut


def kind(line):
    """The word of a `hold` or `want` line that names its kind."""
    fields = line.decode("ascii", "replace").split("\t")
    place = {"hold": 2, "want": 3}.get(fields[0], len(fields))
    return fields[place] if place < len(fields) else ""


def holders(lines, asked, owner, namespace):
    """The lines above the one asked in which the owner got or reserved numbers of the namespace (of the same kind, where none is named)."""
    kinds = HOLDERS.get(namespace, [kind(lines[asked - 1])])
    for number, line in enumerate(lines[: asked - 1], 1):
        if line.split(b"\t")[1:2] == [b"%d" % owner] and kind(line) in kinds:
            yield number, line


def explained(answer, text):
    fields = answer.split(b"\t")
    if fields[0] != b"no":
        return []
    line, number, namespace, owner, detail = (int(f) for f in fields[1:])
    name, words = REFUSALS[number]
    if line == 0:
        at_no_line = DEVICE if text is None else TOO_LONG
        return [f"refused with {number} ({name}): {at_no_line.get(number, words)}"]
    lines = text.split(b"\n")
    words = words.format(owner=owner, namespace=NAMESPACES[namespace], detail=DETAILS[detail])
    if number == 10 and line == len(lines):
        words = OPEN
    said = [f"line {line}: {shown(lines[line - 1])}", f"refused with {number} ({name}): {words}"]
    for at, held in holders(lines, line, owner, namespace) if owner else []:
        said.append(f"  line {at}: {shown(held)}")
    return said


def main():
    answer = sys.stdin.buffer.read()
    text = None
    if len(sys.argv) > 1:
        with open(sys.argv[1], "rb") as plan:
            text = plan.read()
    words = "".join(line + "\n" for line in explained(answer.rstrip(b"\n"), text))
    try:
        sys.stdout.buffer.write(answer + words.encode("ascii"))
        sys.stdout.flush()
    except OSError as error:
        os.dup2(os.open(os.devnull, os.O_WRONLY), 1)  # what is still in the buffer has nowhere to go
        sys.exit(f"explain: {error.strerror}")


if __name__ == "__main__":
    main()
