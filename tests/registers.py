#!/usr/bin/env python3
"""C-15's sentences written down once more in Python: what a device's base address registers ask for, a word as the list of its bits. Run, it tries 02's own words and
the boundaries of its rulings."""
import sizes

COUNT = sizes.SIZES["registers of a device"]
BAD_INPUT, SHORT, BAD_TYPE, BAD_PAIR, BAD_MASK, PORTS_TOO_LARGE = 2, 11, 14, 15, 16, 17
MMIO, PIO = 1, 2
WORDS = {MMIO: "mmio", PIO: "pio"}


class Refused(Exception):
    """The number of a refusal."""


def bits(word):
    """The 32 bits of a word, bit 0 first."""
    return [word // 2**place % 2 for place in range(32)]


def size(mask):
    """The mask inverted and one added, with what is carried out of the top left away. Zero, or a one with a zero above it, is a bad mask."""
    if 1 not in mask or any(low > high for low, high in zip(mask, mask[1:])):
        raise Refused(BAD_MASK)
    inverted = sum(2**place for place, bit in enumerate(mask) if not bit)
    return (inverted + 1) % 2 ** len(mask)


def ports(word):
    upper = word[16:] if 1 in word[16:] else [1] * 16
    asked = size([0, 0, *word[2:16], *upper])
    if asked >= 2**16:
        raise Refused(PORTS_TOO_LARGE)
    return asked


def memory(word, high):
    """Of one word, or of two where `high` is the second one's bits."""
    return size([0] * 4 + word[4:] + high)


def register(words, index):
    """What the register at an index asks for, as kind and size, or None; and the index of the next register."""
    word = bits(words[index])
    if 1 not in word:
        return None, index + 1
    if word[0]:
        return (PIO, ports(word)), index + 1
    if word[1]:
        raise Refused(BAD_TYPE)
    if not word[2]:
        return (MMIO, memory(word, [])), index + 1
    if index + 1 == COUNT:
        raise Refused(BAD_PAIR)
    return (MMIO, memory(word, bits(words[index + 1]))), index + 2


def in_order(words, requester):
    index = 0
    while index < COUNT:
        slot = index
        asked, index = register(words, index)
        if asked:
            kind, asked_size = asked
            yield kind, requester, slot, asked_size


def requests(words, requester, most=COUNT):
    """The requests of six words as (kind, requester, slot, size), the alignment being the size; or the number of a refusal. The list has room for `most`."""
    if not 0 < requester < 2**32 or any(word >= 2**32 for word in words):
        return BAD_INPUT
    try:
        made = list(in_order(words, requester))
    except Refused as refused:
        return refused.args[0]
    return made if len(made) <= most else SHORT


def output(words, requester):
    """What `./plan --registers` prints: a `want` line for each request, or the line `no`."""
    made = requests(words, requester)
    if isinstance(made, int):
        return b"no\t0\t%d\t0\t0\t0\n" % made
    lines = (f"want\t{asker}\t{slot}\t{WORDS[kind]}\t{asked}\t{asked}\tauto\n" for kind, asker, slot, asked in made)
    return "".join(lines).encode()


# ---- 02's own words and every boundary of them: words (the rest are zero), and what requester 3 gets: (kind, slot, size) of each request, or a number

TABLE = [
    # 02's own
    ([0xFFFFF000], [(MMIO, 0, 4096)]),
    ([0xFFFFFF01], [(PIO, 0, 256)]),
    ([0x00000001], 17),
    # nothing
    ([], []),
    # a word above 32 bits before any register
    ([2**32], 2),
    ([2, 0, 0, 0, 0, 2**32], 2),
    ([4, 2**64 - 1], 2),
    # ports: upper 16 bits that read zero are ones
    ([0x0000FF01], [(PIO, 0, 256)]),
    ([0x0000FFFD], [(PIO, 0, 4)]),
    ([0x0000FFFF], [(PIO, 0, 4)]),
    ([0xFFFFFFFD], [(PIO, 0, 4)]),
    ([0x00008001], [(PIO, 0, 32768)]),
    ([0xFFFF8001], [(PIO, 0, 32768)]),
    ([0xFFFF0001], 17),
    ([0xFFFE0001], 17),
    ([0x80000001], 17),
    ([0x00000003], 17),
    ([0x00010001], 16),
    ([0x0001FF01], 16),
    ([0x7FFFFF01], 16),
    ([0x0000FF05], 16),
    ([0x00004001], 16),
    # memory: bits 2 and 1 are the type, whatever else stands in the word; bit 3 means nothing
    ([0x00000002], 14),
    ([0x00000006], 14),
    ([0xFFFFF002], 14),
    ([0xFFFFF006], 14),
    ([0xFFFFFFFE], 14),
    ([0xFFFFFFF0], [(MMIO, 0, 16)]),
    ([0xFFFFFFF8], [(MMIO, 0, 16)]),
    ([0x80000000], [(MMIO, 0, 2**31)]),
    ([0x80000008], [(MMIO, 0, 2**31)]),
    ([0x00000008], 16),
    ([0x00000010], 16),
    ([0x7FFFFFF0], 16),
    ([0xFFFFF0F0], 16),
    # a pair is one number of 64 bits, and takes the next word whatever it holds
    ([0xFFFFFFF4, 0xFFFFFFFF], [(MMIO, 0, 16)]),
    ([0xFFFFFFFC, 0xFFFFFFFF], [(MMIO, 0, 16)]),
    ([0x80000004, 0xFFFFFFFF], [(MMIO, 0, 2**31)]),
    ([0x00000004, 0xFFFFFFFF], [(MMIO, 0, 2**32)]),
    ([0x00000004, 0xFFFFFFFE], [(MMIO, 0, 2**33)]),
    ([0x00000004, 0x80000000], [(MMIO, 0, 2**63)]),
    ([0xFFFFF004, 0], 16),
    ([0xFFFFF004, 0xFFFFFFFE], 16),
    ([0x00000004, 0], 16),
    ([0x00000004, 1], 16),
    ([0x00000004, 0x7FFFFFFF], 16),
    ([0x80000004, 0x80000000], 16),
    ([0x00000004, 0xFFFFFFF2], 16),
    ([0xFFFFFFF4, 0xFFFFFFFF, 0xFFFFFFFF], [(MMIO, 0, 16), (PIO, 2, 4)]),
    ([0x00000004, 0xFFFFFFF0, 0xFFFFFFF0], [(MMIO, 0, 2**36), (MMIO, 2, 16)]),
    # .. but behind the sixth there is none
    ([0, 0, 0, 0, 0, 0x00000004], 15),
    ([0, 0, 0, 0, 0, 0xFFFFFFF4], 15),
    ([0, 0, 0, 0, 0, 0x00000006], 14),
    ([0, 0, 0, 0, 0, 0x00000008], 16),
    ([0, 0, 0, 0, 0, 0x00000001], 17),
    ([0, 0, 0, 0, 0, 0xFFFFF000], [(MMIO, 5, 4096)]),
    ([0, 0, 0, 0, 0xFFFFFFF4, 0xFFFFFFFF], [(MMIO, 4, 16)]),
    ([0, 0, 0, 0xFFFFFFF4, 0xFFFFFFFF, 0xFFFFFFF4], 15),
    # registers in order: the first fault decides
    ([0x00000008, 0x00000002], 16),
    ([0x00000001, 0x00000008], 17),
    ([0xFFFFF000, 1, 4, 0, 2, 4], 17),
    # slots may have holes
    ([0, 0xFFFFF000, 0xFFFFF004, 0xFFFFFFFF, 0xFFFFFF01], [(MMIO, 1, 4096), (MMIO, 2, 4096), (PIO, 4, 256)]),
    ([4, 0xFFFFFFFF, 4, 0xFFFFFFFE, 4, 0x80000000], [(MMIO, 0, 2**32), (MMIO, 2, 2**33), (MMIO, 4, 2**63)]),
    ([0xFFFFFFFF] * COUNT, [(PIO, slot, 4) for slot in range(COUNT)]),
]


def six(words):
    return words + [0] * (COUNT - len(words))


def tabled():
    """Every row of the table; its requests need just so much room, a refused register's number comes before Short, and a requester that can be none is 2 before any word."""
    for words, due in TABLE:
        words = six(words)
        due = due if isinstance(due, int) else [(kind, 3, slot, asked) for kind, slot, asked in due]
        assert requests(words, 3) == due, words
        for most in range(COUNT):
            short = not isinstance(due, int) and most < len(due)
            assert requests(words, 3, most) == (SHORT if short else due), (words, most)
        for requester in (0, 2**32, 2**64 - 1):
            assert requests(words, requester, 0) == BAD_INPUT, (words, requester)
    assert requests(six([0xFFFFFFF0]), 2**32 - 1) == [(MMIO, 2**32 - 1, 0, 16)]


def printed():
    lines = b"want\t3\t0\tmmio\t4294967296\t4294967296\tauto\nwant\t3\t2\tpio\t256\t256\tauto\n"
    assert output(six([4, 0xFFFFFFFF, 0xFFFFFF01]), 3) == lines
    assert output(six([]), 3) == b""
    assert output(six([1]), 3) == b"no\t0\t17\t0\t0\t0\n"
    assert output(six([1]), 0) == b"no\t0\t2\t0\t0\t0\n"


if __name__ == "__main__":
    tabled()
    printed()
    print(f"{len(TABLE)} devices sized as 02 says")
