"""Counts the instructions of a call of the library and of the baselines, case by case; `bench/run` calls it.

    table.py WORK TOOLCHAIN COMPILER [--growth]

WORK has the programs library, plain and tuned (bench/frames.c linked with each) and count.so.
"""
import math
import platform
import re
import shutil
import subprocess
import sys

WORK, TOOLCHAIN, COMPILER = sys.argv[1:4]
# The C compiler that the bars below are stated for: another one makes other baselines.
BARS_WITH = "12.2.0"
PROGRAMS = ["library", "plain", "tuned"]

# The bars: in every case, of the better of the two baselines, and in the geometric mean. That of time is wider, and nothing fails on it.
BETTER, MEAN_PLAIN, MEAN_TUNED, BETTER_IN_TIME = 1.00, 0.60, 0.85, 1.10

TYPICAL, FULL1, FULL2, MANY, MOST = "30x20", "23x255+1x160", "28x255+1x97", "512x2", "1275x0"
# The most packets of three user words that a frame holds, and some more, for which an element has room.
CUES, MORE_CUES = "892x3", "900x3"
# A call, the system, the packing (an element has none), the packets, and whether they are damaged. The most packets that a frame holds fit system 2
# in packing 2 alone.
CASES = [
    ("lay", 1, 1, TYPICAL, "sound"),
    ("lay", 1, 2, TYPICAL, "sound"),
    ("lay", 1, 1, FULL1, "sound"),
    ("lay", 1, 2, FULL2, "sound"),
    ("lay", 1, 1, MANY, "sound"),
    ("lay", 1, 2, MANY, "sound"),
    ("lay", 2, 2, CUES, "sound"),
    ("lay", 2, 2, MOST, "sound"),
    ("read", 1, 1, TYPICAL, "sound"),
    ("read", 1, 2, TYPICAL, "sound"),
    ("read", 1, 1, FULL1, "sound"),
    ("read", 1, 2, FULL2, "sound"),
    ("read", 1, 1, MANY, "sound"),
    ("read", 1, 2, MANY, "sound"),
    ("read", 2, 2, CUES, "sound"),
    ("read", 2, 2, MOST, "sound"),
    ("read", 1, 1, "0x0", "sound"),
    ("read", 1, 1, FULL1, "early"),
    ("read", 1, 2, FULL2, "early"),
    ("read", 1, 1, FULL1, "late"),
    ("read", 1, 2, FULL2, "late"),
    ("write-element", 2, 0, TYPICAL, "sound"),
    ("write-element", 2, 0, FULL2, "sound"),
    ("write-element", 2, 0, MORE_CUES, "sound"),
    ("write-element", 2, 0, MOST, "sound"),
    ("read-element", 2, 0, TYPICAL, "sound"),
    ("read-element", 2, 0, FULL2, "sound"),
    ("read-element", 2, 0, MORE_CUES, "sound"),
    ("read-element", 2, 0, MOST, "sound"),
    ("write-element10", 2, 0, TYPICAL, "sound"),
    ("write-element10", 2, 0, FULL2, "sound"),
    ("write-element10", 2, 0, MORE_CUES, "sound"),
    ("read-element10", 2, 0, TYPICAL, "sound"),
    ("read-element10", 2, 0, FULL2, "sound"),
    ("read-element10", 2, 0, MORE_CUES, "sound"),
]
# What is not within the bars yet, and what it has reached with the toolchain that TOOLCHAIN names: it may not get worse than that. A case that comes
# within its bar leaves this list.
HELD = {
    "lay 30 × 20, packing 2": 1.08,
    "lay 28 × 255 + 97, packing 2": 1.11,
    "lay 512 × 2, packing 1": 1.12,
    "lay 512 × 2, packing 2": 1.21,
    "lay 892 × 3, packing 2, system 2": 1.20,
    "lay 1,275 × 0, packing 2, system 2": 1.19,
    "read 30 × 20, packing 1": 1.14,
    "read 30 × 20, packing 2": 1.04,
    "read 23 × 255 + 160, packing 1": 1.05,
    "read 512 × 2, packing 1": 1.24,
    "read 512 × 2, packing 2": 1.05,
    "read 892 × 3, packing 2, system 2": 1.07,
    "read 1,275 × 0, packing 2, system 2": 1.10,
    "read an empty area": 1.13,
    "read 23 × 255 + 160, packing 1, damaged, refused early": 1.43,
    "read 28 × 255 + 97, packing 2, damaged, refused early": 1.15,
    "write element 30 × 20, system 2": 1.14,
    "write element 28 × 255 + 97, system 2": 1.07,
    "write element 900 × 3, system 2": 1.41,
    "write element 1,275 × 0, system 2": 1.58,
    "read element 30 × 20, system 2": 1.32,
    "read element 28 × 255 + 97, system 2": 1.14,
    "read element 900 × 3, system 2": 1.44,
    "read element 1,275 × 0, system 2": 1.53,
    "write element10 30 × 20, system 2": 1.04,
    "write element10 900 × 3, system 2": 1.51,
    "read element10 30 × 20, system 2": 1.34,
    "read element10 900 × 3, system 2": 1.35,
}
HELD_MEANS = {"plain C": 0.92, "tuned C": 1.13}
CALLS = 20


def run(program, case, times, before=(), after=()):
    """What the program says on standard output and standard error."""
    arguments = [*before, f"{WORK}/{program}", *map(str, case), str(times), *after]
    # Without an environment: its length moves the stack, and the C library's copies depend on how their bytes are aligned.
    done = subprocess.run(arguments, capture_output=True, text=True, env={})
    if done.returncode != 0:
        sys.exit(f"bench: {' '.join(arguments)}: {done.stderr}")
    return done.stdout, done.stderr


def instructions(program, case):
    """What a call answers, and its instructions: what CALLS calls more take, divided."""
    counting = (shutil.which("qemu-x86_64"), "-cpu", "Nehalem", "-plugin", f"{WORK}/count.so")
    first, once = run(program, case, 1, before=counting)
    answer, more = run(program, case, 1 + CALLS, before=counting)
    if first != answer:
        sys.exit(f"bench: {program} answers {case} in two ways")
    return answer, (int(more) - int(once)) / CALLS


def counted(case):
    """The three counts of a case. All three have to answer the same and write the same bytes."""
    answers = [instructions(program, case) for program in PROGRAMS]
    if len({answer for answer, _ in answers}) != 1:
        sys.exit(f"bench: different answers to {case}: {answers}")
    return [count for _, count in answers]


def timed(case):
    """Nanoseconds of a call, the least of several runs in turn."""
    runs = [[float(run(program, case, 2000, after=["time"])[0].splitlines()[-1]) for program in PROGRAMS] for _ in range(5)]
    return [min(column) for column in zip(*runs)]


def mean(ratios):
    return math.exp(sum(map(math.log, ratios)) / len(ratios))


def name(case):
    call, system, packing, packets, state = case
    if packets == "0x0":
        return f"{call} an empty area"
    counts = re.sub(r"\d+", lambda count: f"{int(count[0]):,}", re.sub(r"\b1x", "", packets))
    text = f"{call.replace('-', ' ')} {counts.replace('x', ' × ').replace('+', ' + ')}"
    text += f", packing {packing}" if packing else ""
    text += ", system 2" if system == 2 else ""
    return text if state == "sound" else f"{text}, damaged, refused {state}"


def print_table(measure):
    """A row for each case. Gives the ratios to plain C, to tuned C and to the better of the two, by the case's name."""
    ratios = {}
    print("| Call, packets × DC | Library | Plain C | Tuned C | Ratio to plain | Ratio to tuned | Ratio to the better |")
    print("|---|---:|---:|---:|---:|---:|---:|")
    for case in CASES:
        counts = measure(case)
        library, plain, tuned = counts
        ratios[name(case)] = library / plain, library / tuned, library / min(plain, tuned)
        print(f"| {name(case)} | " + " | ".join(f"{count:,.0f}" for count in counts) + " | " + cells(ratios[name(case)]) + " |")
    print(f"| geometric mean | | | | {cells(map(mean, zip(*ratios.values())))} |")
    print(f"| highest | | | | {cells(map(max, zip(*ratios.values())))} |")
    return ratios


def cells(ratios):
    return " | ".join(f"{ratio:.2f}" for ratio in ratios)


def over(ratios, bar):
    """The cases that are over a bar of the better of the two, with their ratios."""
    return [f"{case} ({digits(ratio, bar)})" for case, (_, _, ratio) in ratios.items() if ratio > bar]


def digits(ratio, bar):
    """As many digits as tell a ratio from the bar."""
    return f"{ratio:.2f}" if round(ratio, 2) > bar else f"{ratio:.6f}"


def mean_ratios(ratios):
    """Each mean, its bar, and what it is of."""
    plain, tuned, _ = map(mean, zip(*ratios.values()))
    return [(plain, MEAN_PLAIN, "plain C"), (tuned, MEAN_TUNED, "tuned C")]


def failures(ratios):
    """What is not within the bars of instructions: cases, and then means."""
    return over(ratios, BETTER) + [f"the mean ratio to {c} ({digits(ratio, bar)})" for ratio, bar, c in mean_ratios(ratios) if ratio > bar]


def worse(ratios):
    """What is over its bar and over what it had reached."""
    cases = [f"{case} ({digits(ratio, HELD.get(case, BETTER))})" for case, (_, _, ratio) in ratios.items() if ratio > HELD.get(case, BETTER)]
    return cases + [f"the mean ratio to {c} ({digits(ratio, HELD_MEANS[c])})" for ratio, _, c in mean_ratios(ratios) if ratio > HELD_MEANS[c]]


def print_growth():
    """By packets without user words, and by the user words of 23 packets."""
    print("| Packets × DC | Lay, packing 1 | Lay, packing 2 | Read, packing 1 | Read, packing 2 |")
    print("|---|---:|---:|---:|---:|")
    for packets in ["0x0", "1x0", "128x0", "256x0", "512x0", "23x0", "23x64", "23x128", "23x255"]:
        counts = [instructions("library", (call, 1, packing, packets, "sound"))[1] for call in ("lay", "read") for packing in (1, 2)]
        print(f"| {packets.replace('x', ' × ')} | " + " | ".join(f"{count:,.0f}" for count in counts) + " |")


def print_tables():
    print(f"x86-64 instructions of one call, system 1 where no other is named. Library: {TOOLCHAIN}. C: gcc {COMPILER} -O3.")
    print()
    ratios = print_table(counted)
    missed, failed = failures(ratios), worse(ratios)
    print()
    print(f"Bars of the instructions above: in every case at most {BETTER:.2f} of the better of the two baselines; in the mean")
    print(f"at most {MEAN_PLAIN:.2f} of plain C, and {MEAN_TUNED:.2f} of tuned C.")
    print(f"Over a bar: {'; '.join(missed)}." if missed else "Within the bars.")
    if missed:
        print(f"WORSE than had been reached: {'; '.join(failed)}." if failed else "Each of these is held at what it had reached.")
    if COMPILER != BARS_WITH:
        print(f"With gcc {COMPILER} that is no verdict: the bars are stated for gcc {BARS_WITH}.")
    if platform.machine() == "x86_64":
        print()
        print("Nanoseconds of one call on this machine.")
        print()
        slow = over(print_table(timed), BETTER_IN_TIME)
        print()
        print(f"Bar of the times above: in every case at most {BETTER_IN_TIME:.2f} of the better of the two baselines. Times differ from run")
        print("to run: nothing fails on it.")
        print(f"Over the bar: {'; '.join(slow)}." if slow else "Within the bar.")
    if failed and COMPILER == BARS_WITH:
        sys.exit(1)


if sys.argv[4:] == ["--growth"]:
    print_growth()
else:
    print_tables()
