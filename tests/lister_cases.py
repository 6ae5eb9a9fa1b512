#!/usr/bin/env python3
"""Cases for the lister, and what it has to print: python3 tests/lister_cases.py writes crates/lister_cases/data/cases and its stdout.

A case is its length in four bytes, high byte first, and its bytes."""
import pathlib
import random
import re
import struct

from reference import ENDS, LAST, LIMIT, LINES, listing, pack, packet, sheet

HOME = pathlib.Path(__file__).resolve().parent.parent / "crates" / "lister_cases"
NUMBERS = (2, 3, 5, 6, 20, 7, 8, 9, 10, 11)
P = packet(0x45, 0x01, [0x10, 0x80])
E = packet(0x45, 0x01, [])
# User words enough that the first, the last and those between are told apart, and the most that there can be.
TWENTY = packet(0x61, 0x01, range(20))
LONGEST = packet(0x80, 0xFF, range(255))


def flipped(words, at, bit):
    out = list(words)
    out[at] ^= 1 << bit
    return out


def worked():
    """Document 01's own, and the refusals, with two faults at once so that the order shows."""
    yield pack(sheet(1, [(9, 0)], P))
    yield pack(sheet(1, [(9, 0)], E))
    yield pack(sheet(1, [(9, 0)], packet(0x45, 0x01, [0xB8])))
    yield pack(sheet(1, [(561, 3), (1125, 0), (0, 0), (583, 0)], P * 4))
    yield pack(sheet(2, [], []))
    yield pack(sheet(3, [(750, 0)], P))
    yield pack(sheet(1, [(1, 1)] * 512, E * 512))
    yield pack(sheet(1, [(1, 0)] * 513, E * 513))  # over the limit before request A6
    yield pack(sheet(2, [([0, *LINES[2]][k % 42], k % 4) for k in range(LIMIT)], E * LIMIT))
    yield pack(sheet(2, [(6, 2)] * 124, packet(0, 0x80, [7] * 255) * 124))
    yield pack(sheet(1, [(0, 0)] * 24, packet(0x61, 1, [1] * 255) * 23 + packet(0x61, 1, [2] * 160)))
    # 2
    yield b""
    yield pack(sheet(1, [(9, 0)], P)) + b"\0"
    yield pack([1])
    yield pack([1, 1, 0])
    yield pack([2, 1, *sheet(1, [(9, 0)], P)[2:]])
    yield pack(sheet(1, [(9, 0)], P) + [0])
    yield pack(sheet(1, [(9, 0)], P)[:-1])
    yield pack(sheet(4, [(9, 0)], P)[:-1])
    yield pack([0, 4, 0, 0])
    yield pack([1, 1, 65535, 0, 0])
    yield pack([1, 1, 0, 65535, 0])
    yield bytes(65537)
    yield b"\0\1" * 32768
    # 3
    yield pack(sheet(0, [(9, 0)], P))
    yield pack(sheet(4, [(2000, 9)], P))
    yield pack(sheet(65535, [(1, 0)] * (LIMIT + 1), []))
    # 5
    yield pack(sheet(1, [(1, 0)] * (LIMIT + 1), E * (LIMIT + 1)))
    yield pack(sheet(2, [(2000, 0)] * (LIMIT + 1), []))
    yield pack(sheet(3, [(1, 0)] * 2048, flipped(P, 0, 0)))
    # 6
    yield pack(sheet(3, [(751, 0)], P))
    yield pack(sheet(1, [(1125, 3), (1126, 0)], P))
    yield pack(sheet(1, [(1, 0), (1, 4), (1126, 0)], flipped(P, 8, 0)))
    yield pack(sheet(2, [(0, 65535)], []))
    yield pack(sheet(1, [(1125, 3)] * (LIMIT - 1) + [(1126, 3)], []))
    # 7
    yield pack(sheet(1, [(9, 0)], P[:6]))
    yield pack(sheet(1, [(9, 0), (9, 0)], P + flipped(flipped(P, 1, 9), 4, 0)))
    yield pack(sheet(1, [], [0]))
    yield pack(sheet(1, [(9, 0)], [0x1000, *P[1:]]))
    # 8
    yield pack(sheet(1, [(9, 0)], flipped(P, 3, 8)))
    yield pack(sheet(1, [(9, 0)], flipped(P[:8], 4, 9)))
    yield pack(sheet(1, [(9, 0)], flipped(flipped(P, 6, 3), 8, 1)))
    yield pack(sheet(1, [(9, 0), (9, 0)], P + flipped(P, 5, 10)))
    # 9
    yield pack(sheet(1, [(9, 0)], P[:8]))
    yield pack(sheet(1, [(9, 0)], flipped(packet(1, 2, [3] * 9)[:14], 8, 0)))
    yield pack(sheet(1, [(9, 0), (10, 0)], P + packet(1, 2, [3] * 200)[:206]))
    # 10
    yield pack(sheet(1, [(9, 0)], [*P[:8], 0x2D8]))
    yield pack(sheet(1, [(9, 0)], flipped(P, 8, 9)))
    yield pack(sheet(1, [], flipped(P, 8, 0)))
    yield pack(sheet(1, [(9, 0)], flipped(P, 8, 12)))
    yield pack(sheet(1, [], E * (LIMIT + 1) + flipped(E, 6, 0)))  # a packet behind as many as the limit, and no location
    # 11
    yield pack(sheet(1, [], P))
    yield pack(sheet(1, [(9, 0), (9, 0)], P))
    yield pack(sheet(3, [(9, 0)], P + P))
    yield pack(sheet(3, [(9, 0)] * LIMIT, P))


def picture_lines():
    """Request A3: every end of a run of lines in every system, and 20 beside every other fault of a sheet."""
    for system in (1, 2, 3):
        for line in (*ENDS, LAST[system] + 1):
            yield pack(sheet(system, [(line, line % 4)], E))
    # The first location is named, and 6 on any location comes before it.
    yield pack(sheet(1, [(9, 0), (300, 0), (127, 3)], P * 3))
    yield pack(sheet(1, [(300, 0), (9, 0), (1126, 0)], P * 3))
    yield pack(sheet(3, [(751, 0), (9, 0), (300, 0)], P * 3))
    yield pack(sheet(3, [(569, 0), (7, 4)], P * 2))
    yield pack(sheet(2, [(570, 4)], P))
    yield pack(sheet(2, [(9, 1)] * (LIMIT - 1) + [(584, 1)], []))
    # 2, 3 and 5 come before it too; 7 to 11 do not.
    yield pack(sheet(1, [(300, 0)], P)[:-1])
    yield pack(sheet(4, [(300, 0)], P))
    yield pack(sheet(2, [(300, 0)] * (LIMIT + 1), []))
    for words in (flipped(P, 1, 0), flipped(P, 4, 8), flipped(P, 7, 9), P[:8], flipped(P, 8, 0)):
        yield pack(sheet(1, [(300, 0)], words))
        yield pack(sheet(3, [(9, 0), (9, 1), (745, 0)], P + words + P))
    yield pack(sheet(1, [(300, 0)], []))
    yield pack(sheet(1, [(9, 0), (8, 0)], P * 3))


def wrong_words():
    """Whole packets with wrong words, alone and several together: the first in the order of the tests is named."""
    for at in (0, 1, 2, 3, 4, 5):
        for bit in (0, 8, 9, 10, 15):
            yield flipped(P, at, bit)
        yield flipped(flipped(P, at, 1), 6, 1)
        yield flipped(flipped(P, at, 2), 8, 2)
    for first, second in ((0, 1), (0, 2), (1, 2), (2, 3), (1, 8), (3, 4), (3, 5), (4, 5)):
        yield flipped(flipped(P, first, 3), second, 4)
    for words, places in ((packet(0x45, 0x01, [0xB8]), (6,)), (P, (6, 7)), (TWENTY, (6, 7, 15, 24, 25)), (LONGEST, (6, 133, 260))):
        for at in places:
            yield flipped(words, at, 8)
            yield flipped(flipped(words, at, 0), len(words) - 2, 11)
            yield flipped(flipped(words, at, 7), len(words) - 1, 0)
    for words in (E, P, TWENTY, LONGEST):
        for bit in (0, 8, 9, 10):
            yield flipped(words, len(words) - 1, bit)
    # CS as 001's clause 5 makes its upper bits, and the sum of bytes: its low nine bits are not the sum's.
    yield [*P[:8], 0x2D8]
    yield [*TWENTY[:-1], sum(w & 0xFF for w in TWENTY[3:-1]) & 0x1FF | 0x200]


def cut_packets():
    """Packets that end early: with wrong words in what is left, and without. A wrong user word is not looked at before the packet is whole."""
    for left in range(1, 7):
        yield P[:left]
        for at in range(left):
            yield flipped(P[:left], at, 9)
        if left > 2:
            yield flipped(flipped(P[:left], 1, 0), 2, 0)
    for words, lengths in ((P, (7, 8)), (TWENTY, range(7, 27)), (LONGEST, (7, 8, 128, 260, 261))):
        for left in lengths:
            yield words[:left]
        for at in (2, 3, 4, 5, 6):
            yield flipped(words[:8], at, 8)


def words_at_fault():
    """Request A2: every way to a word, in packet 0 and behind others; a whole packet before another too, whose words are not its own."""
    for words in wrong_words():
        yield pack(sheet(1, [(9, 0)], words))
        yield pack(sheet(2, [(9, 0), (0, 1), (561, 2), (9, 3)], P + E + words + P))
    for words in cut_packets():
        yield pack(sheet(3, [(9, 0)], words))
        yield pack(sheet(1, [(9, 0), (0, 1), (561, 2)], E + P + words))


def random_sheet(r):
    system = r.choice([1, 2, 3])
    count = r.choice([0, 1, 2, 3, 5, 9, 30])
    lines = LINES[system] if r.random() < 0.9 else range(1, LAST[system] + 1)
    locations, words = [], []
    for _ in range(count):
        line = 0 if r.random() < 0.3 else r.choice(lines)
        locations.append((line, r.randint(0, 3)))
        dc = r.choice([0, 1, 2, 3, 4, 5, 20, 254, 255]) if count < 9 else r.randint(0, 9)
        words += packet(r.randrange(256), r.randrange(256), [r.choice([0, 255, r.randrange(256)]) for _ in range(dc)])
    return sheet(system, locations, words)


def damaged(r):
    s = random_sheet(r)
    for _ in range(r.choice([1, 1, 2, 3])):
        kind = r.randrange(5)
        at = r.randrange(len(s))
        if kind == 0:
            s[at] ^= 1 << r.randrange(16)
        elif kind == 1:
            s[at] = r.choice([0, 1, 3, 4, 7, 0x3FF, LIMIT + 1, 569, 750, 751, 1125, 1126, 65535])
        elif kind == 2 and len(s) > 1:
            del s[at]
        elif kind == 3:
            s.insert(at, r.choice([0, 1, 0x3FF, r.randrange(1024)]))
        else:
            body = 4 + 2 * min(s[2], len(s)) if len(s) > 2 else len(s)
            if body < len(s):
                s[r.randrange(body, len(s))] ^= 1 << r.randrange(10)
        if not s:
            s = [1]
    return s


def assert_all_met(texts):
    """Each number, and each word by which a packet is refused: in packet 0 and in a later one. Other numbers have word 0."""
    refusals = [tuple(map(int, re.findall(r"\d+", t))) for t in texts if t.startswith("refused ")]
    for number in NUMBERS:
        assert sum(n == number for n, _, _ in refusals) >= 3, number
    shapes = [(7, w) for w in range(7)] + [(8, w) for w in (3, 4, 5, 6, 7, 15, 24, 25, 133, 260)]
    shapes += [(9, w) for w in (*range(7, 27), 128, 260, 261)] + [(10, w) for w in (6, 8, 26, 261)]
    for shape in shapes:
        assert {place > 0 for number, place, w in refusals if (number, w) == shape} == {False, True}, shape
    assert all(w == 0 for number, _, w in refusals if number not in (7, 8, 9, 10))
    assert {0, 1, 2, LIMIT - 1} <= {place for number, place, _ in refusals if number == 20}


def main():
    r = random.Random(291)
    cases = list(worked()) + list(picture_lines()) + list(words_at_fault())
    cases += [pack(random_sheet(r)) for _ in range(100)]
    cases += [pack(damaged(r)) for _ in range(500)]
    texts = [listing(c) for c in cases]
    assert_all_met(texts)
    (HOME / "data").mkdir(parents=True, exist_ok=True)
    (HOME / "data" / "cases").write_bytes(b"".join(struct.pack(">I", len(c)) + c for c in cases))
    (HOME / "stdout").write_text("".join(texts))
    print(len(cases), "cases,", sum(len(c) for c in cases), "bytes")
    for number in NUMBERS:
        print("refused", number, sum(t.startswith(f"refused {number} ") for t in texts))


main()
