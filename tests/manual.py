#!/usr/bin/env python3
"""The manual pages say what include/vanc.h says: both its version; vanc.1 the words of the refusals; vanc.3 the calls, the structs, the constants,
and the numbers by name and in words.

    manual.py HEADER VANC.1 VANC.3 EXAMPLE      EXAMPLE is where the program that vanc.3 shows is written to

The comparison has to be able to fail: it is also made with pages that are wrong in one place each.
"""
import re
import sys

import header


def section(page, name):
    """What stands under a heading."""
    m = re.search(rf"^\.S[hs] {name}\n(.*?)(?=^\.S[hs] |\Z)", page, flags=re.M | re.S)
    return m.group(1) if m else ""


def plain(text):
    """Text as it is printed, where it is written with escapes."""
    return text.replace(r"\(aq", "'").replace(r"\e", "\\").replace(r"\&", "")


def version_differences(text, page, name):
    """Such a number in brackets is a clause of a standard."""
    said = []
    named, version = set(re.findall(r"(?<!\()\b\d+\.\d+\.\d+\b", page)), header.header_constant(text, "VANC_VERSION")
    if named != {version}:
        said.append(f"{name}: it names {sorted(named)}, the version is {version}")
    for number in re.findall(r"whose number is (\d+)", page):
        if number != header.header_constant(text, "VANC_VERSION_NUMBER"):
            said.append(f"{name}: the number {number} is not that of the version")
    return said


def command_differences(text, page):
    """vanc.1: a row of the table has number, place and words."""
    rows = re.findall(r"^\.It (\d+) Ta [^\n]*? Ta ([^\n]*)$", section(page, "Refusals by the rules"), flags=re.M)
    words = [(int(number), plain(words)) for number, words in rows]
    wanted = [row for row in header.header_words(text) if row[0] != 0]
    return [] if words == wanted else [f"words of vanc.1 and of the header: {header.alone(words, wanted)}"]


def page_calls(page):
    found = {}
    for result, name, arguments in re.findall(r'^\.Ft (\w+)\n\.Fo (\w+)\n((?:\.Fa "[^"]*"\n)*)\.Fc$', section(page, "SYNOPSIS"), flags=re.M):
        found[name] = (result, [header.header_argument(a) for a in re.findall(r'"(.*)"', arguments)])
    return found


def library_differences(text, page):
    """vanc.3. A number's words are the first line behind its name, with a full stop."""
    constants = dict(re.findall(r"^#define (VANC_\w+) (\d+)$", text, flags=re.M))
    del constants["VANC_VERSION_NUMBER"]
    rows = re.findall(r"^\.It Dv (VANC_\w+) No = (\d+)\n(.*)\.$", section(page, "RETURN VALUES"), flags=re.M)
    compared = {
        "calls": (page_calls(page), header.header_functions(text)),
        "structs": (header.header_structs(header.without_comments(page)), header.header_structs(text)),
        "constants": (dict(re.findall(r"\bDv (VANC_\w+) Ta (\d+)\b", page)), constants),
        "names": ([(name, int(number)) for name, number, _ in rows], header.header_names(text)),
        "words": ([(int(number), plain(words)) for _, number, words in rows], header.header_words(text)),
    }
    said = []
    for what, pair in compared.items():
        if pair[0] != pair[1]:
            here, there = [list(side.items()) if isinstance(side, dict) else side for side in pair]
            said.append(f"{what} of vanc.3 and of the header: {header.alone(here, there)}")
    return said


def differences(text, one, three):
    said = version_differences(text, one, "vanc.1") + version_differences(text, three, "vanc.3")
    return said + command_differences(text, one) + library_differences(text, three)


WRONG_ONE = [
    ("its stored checksum is wrong", "its checksum is wrong"),
    (".It 18 Ta packet", ".It 17 Ta packet"),
    (".It 20 Ta ", ".It 21 Ta "),
    (".It 11 Ta 0 Ta packets and locations differ in number\n", ""),
    ("of version ", "of version 1"),
]
WRONG_THREE = [
    ("VANC_REFUSED_CUT No = 9", "VANC_REFUSED_CUT No = 8"),
    ("VANC_REFUSED_CUT No = 9", "VANC_REFUSED_SHORT No = 9"),
    ("VANC_REFUSED_PICTURE_LINE No = 20", "VANC_REFUSED_PICTURE_LINE No = 21"),
    ("its stored checksum is wrong.", "its checksum is wrong."),
    ('.Fa "bool fi"\n', ""),
    ("uint64_t packs;", "uint32_t packs;"),
    ("    uint64_t place;\n    uint64_t word;", "    uint64_t word;\n    uint64_t place;"),
    ('.Fa "const uint16_t *words"', '.Fa "uint16_t *words"'),
    ("VANC_ELEMENT_MAX Ta ", "VANC_ELEMENT_MAX Ta 1"),
    ("VANC_ELEMENT10_MAX Ta ", "VANC_ELEMENT10_MAX Ta 1"),
    (".Fo vanc_mxf_read10", ".Fo vanc_mxf_read8"),
    ("of version ", "of version 1"),
    ("whose number is ", "whose number is 1"),
]


def example(page):
    return plain(re.search(r"^\.Bd -literal.*?\n(.*?)^\.Ed$", section(page, "EXAMPLES"), flags=re.M | re.S).group(1))


def main():
    text, one, three = [open(path).read() for path in sys.argv[1:4]]
    text = header.without_comments(text)
    said = differences(text, one, three)
    wrong = [((old, new), one.replace(old, new, 1), three) for old, new in WRONG_ONE]
    wrong += [((old, new), one, three.replace(old, new, 1)) for old, new in WRONG_THREE]
    for change, *pages in wrong:
        if pages == [one, three] or not differences(text, *pages):
            said.append(f"a page with '{change[1]}' for '{change[0]}' is not told from the header")
    for line in said:
        print(line)
    if said:
        sys.exit(1)
    open(sys.argv[4], "w").write(example(three))
    print(f"manual: {len(header.header_words(text)) - 1} refusals agree in both pages, {len(page_calls(three))} calls; {len(wrong)} wrong pages told")


if __name__ == "__main__":
    main()
