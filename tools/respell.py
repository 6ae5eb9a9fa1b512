#!/usr/bin/env python3
"""Brings the repository's own definitions and lemmas to Rattle's spelling: words in snake case, facts and types in camel case, ' for a prime.

usage: python3 tools/respell.py [--dry]     at the top of a checkout, once, after Rattle's own port.py

A name is turned where a signature in specs/ or proofs/ declares it, in each place of the crates, the edits and the pages that writes it.
Functions and types of src/, C names, strings of programs, inputs and outputs keep their names: none of them has a hump in a small first word.
It says which names fall together with another, and in which files. With --clashes-read it writes all the same: a definition may have the name of the
function of src/ whose result it is, as a clause names no function.
"""
import os
import re
import sys

SIGNATURE = re.compile(r"^\s*(?:(?:abbrev|unfoldable|pub)\s+)*([^\s:(){}\[\],;.=λ]+(?:\s+[^\s:(){}\[\],;.=λ]+)*)\s+:(?:\s|$)")
KEYWORDS = {"abbrev", "pub", "record", "data", "module", "unfoldable", "let", "use", "in", "elim", "where", "ghost"}
# Names that would fall together with another: std's word for a text's bytes, and a lemma.
OTHERWISE = {"stringBytes": "string_byte_count", "isKnown": "is_known_system"}
# Lemmas that would have their definition's name, and the files that write them. The other names of these spellings are functions, or of other files.
LEMMAS = {
    "all_words": ["sheet/proofs/write/Written.antt"],
    "no_words": ["sheet/proofs/write/Written.antt", "sheet/proofs/write/write_words/Proof.antt"],
    "are_words": ["rules/proofs/Words.antt"],
    "is_word": ["rules/proofs/Words.antt"],
    "comes_back": ["mxf/proofs/Exporting.antt", "mxf/proofs/WritingLaws.antt", "mxf10/proofs/Ours.antt", "mxf10/proofs/WritingLaws.antt"],
    "front_bytes": ["rules/proofs/Packs.antt", "unpacking1/proofs/Packet.antt"],
    "in_frame": ["mxf/proofs/JudgingLaws.antt"],
    "in_order": ["unpacking1/proofs/Laws.antt"],
}
# a run of letters that may be a name, or a part of one beside a sign as in `a≤b`
RUN = re.compile(r"(?<![\w'′-])[^\W\d_][\w'′-]*")


def snake(part):
    """One part of a name between dashes: humps to underscores where it begins small."""
    if not part or not part[0].islower():
        return part
    return re.sub(r"(?<=[a-z0-9])([A-Z]+)", lambda m: "_" + m.group(1).lower(), part)


def turned(name):
    if name in OTHERWISE:
        return OTHERWISE[name]
    return "-".join(snake(part) for part in name.replace("′", "'").split("-"))


def antt_files(root):
    for folder, dirs, files in os.walk(os.path.join(root, "crates")):
        dirs[:] = sorted(d for d in dirs if d != "out")
        for f in sorted(files):
            if f.endswith(".antt"):
                yield os.path.join(folder, f)


def declared(root):
    names = set()
    for path in antt_files(root):
        with open(path, encoding="utf-8") as file:
            for line in file:
                if line.lstrip().startswith(("--", "let ", "use ", "λ", "elim", "in ")):
                    continue
                found = SIGNATURE.match(line)
                if found:
                    names.update(n for n in found.group(1).split() if n not in KEYWORDS)
    return names


def places(root):
    """Each text that may write a name."""
    tops = ["crates", "docs", "tests/edits", "tests/no_compile", "README.md"]
    for top in tops:
        top = os.path.join(root, top)
        if os.path.isfile(top):
            yield top
        for folder, dirs, files in os.walk(top):
            dirs[:] = sorted(d for d in dirs if d not in ("out", "data"))
            for f in sorted(files):
                if f.endswith((".antt", ".rt", ".edit", ".md")) and f != "PORT.md":
                    yield os.path.join(folder, f)


def main():
    root = "."
    names = declared(root)
    table = {n: turned(n) for n in names if turned(n) != n}
    # names inside others, as the humped word of a lemma's name that is declared with a sign
    runs = {}
    for old in table:
        for run in RUN.findall(old):
            if turned(run) != run:
                runs[run] = turned(run)
    clashes = [f"{old} and {new} are both declared" for old, new in sorted(runs.items()) if new in names and new not in LEMMAS]
    texts = {}
    for path in places(root):
        with open(path, encoding="utf-8") as file:
            before = text = file.read()
        for lemma, files in LEMMAS.items():
            if path.endswith(tuple("crates/" + f for f in files)):
                text = RUN.sub(lambda m: lemma + "_lem" if m.group(0) == lemma else m.group(0), text)
        here = set(RUN.findall(text))
        clashes += [f"{path}: {old} and {runs[old]} stand side by side" for old in sorted(here & runs.keys()) if runs[old] in here]
        new = RUN.sub(lambda m: runs.get(m.group(0), m.group(0)), text)
        if new != before:
            texts[path] = new
    for clash in clashes:
        print("respell: " + clash)
    print(f"respell: {len(runs)} names, {len(texts)} files")
    if "--dry" in sys.argv[1:]:
        for old, new in sorted(runs.items()):
            print(f"  {old} {new}")
        return 0
    if clashes and "--clashes-read" not in sys.argv[1:]:
        return 1
    for path, new in texts.items():
        with open(path, "w", encoding="utf-8") as file:
            file.write(new)
    return 0


if __name__ == "__main__":
    raise SystemExit(main())
