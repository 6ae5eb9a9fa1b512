#!/usr/bin/env python3
"""Strings for the walker, and what has to come out: python3 tests/walker_cases.py writes crates/walker_cases/data/cases and its stdout.

A case is a system in one byte, the string's length in two, high byte first, and the string. Printed are of each answer its number, place and length,
and which answer it is (0 for the last that there is); then the same of steps from places of all sorts, and where the walker stands after each."""
import pathlib
import random

from reference import ENDS, LINES, LIMIT, danc, packet, walk

HOME = pathlib.Path(__file__).resolve().parent.parent / "crates" / "walker_cases"
LAST_ANSWER = 2**64 - 1


def answers(system, string):
    place, k = 0, 0
    while True:
        step = walk(system, string, place)
        yield (*step, k)
        if step[2] == 0:
            yield (*step, k + 1)
            yield (*step, 0)
            return
        place, k = place + step[2], k + 1


def places(system, string):
    for place in [*range(0, 60, 3), len(string), LAST_ANSWER]:
        step = walk(system, string, place)
        yield (*step, place + step[2])


def item(rng, lines, dc=None):
    user = [rng.choice([0, 0xFF, 0xE1, 0xE2, 0xE3, rng.randrange(256)]) for _ in range(rng.choice([0, 1, 2, 3, 4, 5, 20, 255]) if dc is None else dc)]
    line = rng.choice([0, lines[-1], rng.choice(lines), rng.choice(lines)])
    return list(danc(line, rng.randrange(4), packet(rng.randrange(256), rng.randrange(256), user)))


def strings(rng):
    """(system, string): sound of every length, cut at every place, damaged in every byte, of systems that there are not, and with every end of a run
    of lines between two packets."""
    p = list(danc(9, 0, packet(0x45, 0x01, [0x10, 0x80])))
    cue = list(danc(20, 0, packet(0x45, 0x01, [0xB8])))
    for system in range(5):
        yield system, []
        yield system, p
        yield system, p + cue
    for cut in range(len(p + cue + p)):
        yield 1, (p + cue + p)[:cut]
    for i in range(len(p + cue)):
        for bit in range(8):
            yield 1 + bit % 3, [b ^ (1 << bit) if j == i else b for j, b in enumerate(p + cue)]
    for line in (0, *ENDS, 751, 1126, 2047):
        for system in (1 + line % 2, 3):
            yield system, p + [0x80 | line & 0x7F, 0x60 | line >> 7, 0xFF, *p[3:]] + p
    for line in (0, 1, 300, 750, 751, 1125, 1126, 2047):
        for system in (1, 2, 3):
            yield system, [line & 0x7F, 0x60 | line >> 7, 0xFF, *p[3:]]
    for line in (0, 127, 1126):  # 20 beside 14 and 15, and 16 beside both
        on_line = [0x80 | line & 0x7F, 0x60 | line >> 7, 0xFF, *p[3:]]
        yield 1, p + on_line[:-1]
        yield 2, p + [*on_line[:-1], on_line[-1] ^ 1] + p
    for fill in range(1, 12):
        yield 2, p + [0xFF] * fill
    yield 1, [0xFF] * 300
    yield 1, [b for _ in range(600) for b in item(rng, LINES[1], 0)]
    yield 2, [b for _ in range(34) for b in item(rng, LINES[2], 255)]
    both = [line for line in LINES[1] if line in LINES[3]]
    for _ in range(80):
        lines = rng.choice([both, both, both, [*both, 561, 750, 1125, 300]])
        whole = [b for _ in range(rng.randrange(1, 9)) for b in item(rng, lines)]
        yield rng.randrange(1, 4), whole
        yield rng.randrange(1, 4), whole[: rng.randrange(len(whole) + 1)]
        i = rng.randrange(len(whole))
        yield rng.randrange(1, 4), [*whole[:i], rng.randrange(256), *whole[i + 1 :]]
    yield 2, [b for _ in range(LIMIT + 1) for b in item(rng, LINES[2], 0)]  # the walker has no limit of packets


def main():
    cases, lines = bytearray(), []
    for system, string in strings(random.Random(375)):
        cases += bytes([system, len(string) >> 8, len(string) & 0xFF, *string])
        for row in (*answers(system, string), *places(system, string)):
            lines.append(" ".join(map(str, row)))
    (HOME / "data").mkdir(parents=True, exist_ok=True)
    (HOME / "data" / "cases").write_bytes(cases)
    (HOME / "stdout").write_text("\n".join(lines) + "\n")


if __name__ == "__main__":
    main()
