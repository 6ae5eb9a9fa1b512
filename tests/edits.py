"""Edits that the prover must refuse, beside those that rt ci tries; `tests/edits.sh` says how to call it.

tests/edits/CRATE/NAME.edit has the form of rt's own must-fail edits: 'file: PATH' under the crate's src/, specs/ or proofs/, then pairs 'old: TEXT'
and 'new: TEXT', and words for the reader. rt ci tries each edit of crates/CRATE/must-fail in the gate; these are tried by `rt must-fail`, in a copy of
the repository in which they stand as such. It begins with what `rt check` or a build kept, proves with each edit only what the edit moves, and what it
has tried it tries again only where something has changed.

An edit fails if the crate is still proved with it, if its old text does not stand there once, if it is the compiler that refuses it, or if the proof
does not come so far as a fact.
"""
import glob
import os
import re
import shutil
import signal
import subprocess
import sys
import tempfile
import time

COUNT = "tests/edits/COUNT"
PARTS = ("src", "specs", "proofs")
CUT = 150
# How the prover says that the proof speaks of steps which the edited code does not have, or has at another place (the types of what is known after a
# step are in the module Lts; rt cuts a line, so that the name may end before that). Such an edit shows nothing of the facts. Where all that it says is
# that a proof names what is gone, rt says so itself.
OTHER_SHAPE = re.compile(
    r"is not admitted: rejected|was not checked|that can be named (from )?here|has no field"
    r"|the two types differ only where one has `[^`\s]*(\bLts\.[A-Z]|\.proofs\.[^`\s]*$)"
)
# What rt says of an edit: a label, and what came of it.
SAID = re.compile(r"rt: must-fail (\S+)\.edit: (.*)")


class BadEdit(Exception):
    pass


def of_rt(crate):
    return sorted(glob.glob(f"crates/{crate}/must-fail/*.edit"))


def ours(crate):
    return sorted(glob.glob(f"tests/edits/{crate}/*.edit"))


def label(edit):
    """CRATE/NAME of an edit's path."""
    parts = edit.split("/")
    crate = parts[1] if parts[0] == "crates" else parts[2]
    return f"{crate}/{os.path.basename(edit)[:-len('.edit')]}"


def lines_of():
    """The lines of crates.txt, by crate: 'NAME: DEP ..' or 'NAME staticlib: DEP ..'."""
    lines = {}
    for line in open("crates.txt", encoding="utf-8"):
        line = line.split("#")[0].strip()
        if ":" in line:
            lines[line.partition(":")[0].split()[0]] = line
    return lines


def dependencies():
    """The crates of crates.txt, each with the crates of the repository that it names."""
    lines = lines_of()
    return {crate: [d for d in line.partition(":")[2].split() if d in lines] for crate, line in lines.items()}


def below(crates):
    """All crates that these rest on."""
    named, reached, left = dependencies(), set(), list(crates)
    while left:
        more = set(named[left.pop()]) - reached
        reached |= more
        left += more
    return reached


def look_at(edit, home):
    """Whether the edit applies to the crate in `home`: rt's reading of an edit, line by line."""
    texts, was, place, old, pairs = {}, {}, None, "", 0
    for line in open(edit, encoding="utf-8").read().split("\n"):
        if line.startswith("file: "):
            place = line[len("file: "):]
        elif line.startswith("old: "):
            old = line[len("old: "):]
        elif line.startswith("new:"):
            new = line[len("new:"):].removeprefix(" ")
            if place is None or place.split("/")[0] not in PARTS or ".." in place.split("/") or not os.path.isfile(f"{home}/{place}"):
                raise BadEdit(f"'file: {place}' names no file of the crate")
            if place not in texts:
                texts[place] = was[place] = open(f"{home}/{place}", encoding="utf-8").read()
            stands = texts[place].count(old) if old else 0
            if stands != 1:
                raise BadEdit(f"its old text stands {stands} times in {place}, not once: {old}")
            texts[place] = texts[place].replace(old, new)
            old, pairs = "", pairs + 1
    if pairs == 0:
        raise BadEdit("it has no 'old:' and 'new:' pair")
    if texts == was:
        raise BadEdit("it changes nothing")


def wrong_counts():
    """An edit that is deleted is missed by nothing else: the count of each crate stands in a file, and is changed with the edits."""
    counted, wrong = {}, []
    for line in open(COUNT, encoding="utf-8"):
        words = line.split("#")[0].split()
        if words:
            counted[words[0]] = tuple(map(int, words[1:]))
    with_edits = {path.split("/")[1] for path in glob.glob("crates/*/must-fail")} | {path.split("/")[2] for path in glob.glob("tests/edits/*/")}
    for crate in sorted(with_edits | set(counted)):
        if crate not in dependencies():
            wrong.append(f"there are edits of '{crate}', which crates.txt does not list")
        wanted = counted.get(crate, (0, 0))
        for folder, count, edits in zip((f"crates/{crate}/must-fail", f"tests/edits/{crate}"), wanted, (of_rt(crate), ours(crate))):
            if len(edits) != count:
                wrong.append(f"{folder} has {len(edits)} edits, and {COUNT} says {count}: bring back what is missing, or change the count too")
            others = set(glob.glob(f"{folder}/*")) - set(edits)
            wrong += [f"{path} is no .edit file: nothing tries it" for path in sorted(others)]
        twice = {label(edit) for edit in of_rt(crate)} & {label(edit) for edit in ours(crate)}
        wrong += [f"there are two edits {name}" for name in sorted(twice)]
    return wrong


def stand():
    """What can be wrong with the edits before anything is proved."""
    wrong = wrong_counts()
    edits = sorted(glob.glob("crates/*/must-fail/*.edit") + glob.glob("tests/edits/*/*.edit"))
    for edit in edits:
        try:
            look_at(edit, f"crates/{label(edit).split('/')[0]}")
        except BadEdit as bad:
            wrong.append(f"{edit}: {bad}")
    for line in wrong:
        print(f"edits: {line}")
    print(f"edits: {len(edits)} stand, each with its text in its crate once" if not wrong else f"edits: {len(edits)} stand, faults: {len(wrong)}")
    return not wrong


def chosen(words):
    """The edits to try, by crate."""
    if not words:
        return {crate: ours(crate) for crate in dependencies() if ours(crate)}
    edits = {}
    for word in words:
        crate, _, name = word.partition("/")
        found = [edit for edit in of_rt(crate) + ours(crate) if not name or label(edit) == word]
        if not found:
            sys.exit(f"edits: there is no edit {word}")
        edits.setdefault(crate, []).extend(found)
    return edits


def copy(edits, work):
    """These crates and those that they rest on, with these edits alone."""
    lines = lines_of()
    crates = sorted(below(edits) | set(edits))
    for crate in crates:
        for part in PARTS:
            if os.path.isdir(f"crates/{crate}/{part}"):
                shutil.copytree(f"crates/{crate}/{part}", f"{work}/crates/{crate}/{part}")
    for crate, paths in edits.items():
        os.mkdir(f"{work}/crates/{crate}/must-fail")
        for path in paths:
            shutil.copy(path, f"{work}/crates/{crate}/must-fail")
    with open(f"{work}/crates.txt", "w", encoding="utf-8") as file:
        file.writelines(f"{lines[crate]}\n" for crate in crates)


def tried(edits, work):
    """What rt says of each edit, by its label, and all that it says."""
    process = subprocess.Popen(["rt", "must-fail", *sorted(edits)], cwd=work, stdin=subprocess.DEVNULL, stdout=subprocess.PIPE, stderr=subprocess.STDOUT,
                               text=True, errors="replace")
    try:
        said = process.communicate()[0]
    finally:
        if process.poll() is None:
            process.terminate()
            process.wait()
    return dict(SAID.findall(said)), said


def verdict(answer):
    """Whether the edit is refused for a fact, and how to say it."""
    if answer is None:
        return False, "NOT TRIED"
    refused, _, first = answer.partition("refused, as it must be")
    if refused:
        # rt's own words: NOT REFUSED, BAD EDIT, NOT TRIED.
        return False, answer
    if first.startswith(" (only because"):
        return False, f"BAD EDIT: refused for a name that is gone, not for a fact that no longer holds{first.partition(')')[2]}"
    if first.startswith(" (only by a limit"):
        return False, f"BAD EDIT: the prover came to a limit, and gave no verdict{first.partition(')')[2]}"
    first = first.removeprefix(": ")
    if not first:
        return False, "BAD EDIT: refused, and nothing is said that does not hold"
    if OTHER_SHAPE.search(first):
        return False, f"BAD EDIT: refused for the code's shape, not for a fact that no longer holds: {first}"
    return True, f"refused: {first[:CUT]}"


def main(words):
    if words == ["--stand"]:
        sys.exit(0 if stand() else 1)
    edits, began = chosen(words), time.time()

    def ended(number, _):
        sys.exit(128 + number)

    for number in (signal.SIGINT, signal.SIGTERM, signal.SIGHUP):
        signal.signal(number, ended)
    work = tempfile.mkdtemp(prefix="edits.")
    try:
        copy(edits, work)
        answers, said = tried(edits, work)
    finally:
        shutil.rmtree(work, ignore_errors=True)
    failed, total = [], 0
    for crate in edits:
        for name in map(label, edits[crate]):
            refused, how = verdict(answers.get(name))
            total += 1
            failed += [] if refused else [name]
            print(f"{name}: {how}")
    if not answers:
        print(said, end="")
    print(f"edits: {time.time() - began:.0f} s")
    if failed:
        print(f"edits: FAILED: {' '.join(failed)}")
    print(f"edits: {total - len(failed)} passed, {len(failed)} failed")
    sys.exit(1 if failed else 0)


if __name__ == "__main__":
    main(sys.argv[1:])
