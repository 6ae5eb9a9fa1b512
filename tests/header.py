#!/usr/bin/env python3
"""include/vanc.h says what the library exports: the same functions, with the same arguments in the same order and widths, and structs of the same
fields. Compared are the header, the functions marked `extern "C"` with the shapes that they give back, and the symbols of the archive.

The names of the numbers are 0 and on without a gap, and its words are those of the table that the command prints from. Its version as a number is its
version in digits, its toolchain that of the file TOOLCHAIN.

    header.py HEADER SYMBOLS TOOLCHAIN REFUSALS FRAME RATTLE..

SYMBOLS is what `nm` prints of the archive, REFUSALS the Rattle file with the table of words, FRAME the one with the packet limit that stands in it.
The comparison has to be able to fail: it is also made with headers that are wrong in one place each.
"""
import re
import sys

C_NUMBERS = {"uint8_t": "u8", "uint16_t": "u16", "uint32_t": "u32", "uint64_t": "u64", "size_t": "usize", "bool": "bool"}

# The refusals that name a word of the packet.
WITH_WORD = [7, 8, 9, 10]


def without_comments(text):
    return re.sub(r"/\*.*?\*/|//[^\n]*", " ", text, flags=re.S)


def c_name(name):
    """Laid is vanc_laid, ReadBack is vanc_read_back."""
    return "vanc" + re.sub(r"[A-Z]", lambda m: "_" + m.group().lower(), name)


def parts(text):
    return [p.strip() for p in text.split(",") if p.strip()]


def header_structs(text):
    found = {}
    for body, name in re.findall(r"typedef struct \{(.*?)\}\s*(\w+);", text, flags=re.S):
        fields = re.findall(r"(\w+)\s+(\w+)\s*;", body)
        found[name] = [(field, C_NUMBERS[width]) for width, field in fields]
    return found


def header_argument(text):
    m = re.fullmatch(r"(const )?(\w+)\s*(\*?)\s*(\w+)", text)
    const, kind, star, name = m.groups()
    if star:
        return (name, ("const " if const else "mut ") + C_NUMBERS[kind])
    return (name, C_NUMBERS[kind])


def header_functions(text):
    found = {}
    for result, name, arguments in re.findall(r"(\w+)\s+(vanc_\w+)\(([^)]*)\);", text):
        found[name] = (result, [header_argument(a) for a in parts(arguments)])
    return found


def header_names(text):
    """The numbers by name, in the header's order."""
    return [(name, int(number)) for name, number in re.findall(r"\b(VANC_DONE|VANC_REFUSED_\w+) = (\d+)", text)]


def header_words(text):
    """What vanc_refusal_text says of each number that has a name."""
    numbers = dict(header_names(text))
    body = re.search(r"static inline const char \*vanc_refusal_text\(uint64_t number\)\s*\{(.*?)\n\}", text, flags=re.S)
    cases = re.findall(r'case (\w+):\s*return "([^"\\]*)";', body.group(1)) if body else []
    return [(numbers.get(name), words) for name, words in cases]


def header_constant(text, name):
    m = re.search(rf'^#define {name} (?:"([^"]*)"|(\d+))$', text, flags=re.M)
    return (m.group(1) or m.group(2)) if m else None


def rattle_limit(frame):
    return re.search(r"^pub const LIMIT: \w+ = (\d+);$", frame, flags=re.M).group(1)


def refusal_numbers(text):
    """The numbers of the refusals by their names."""
    body = re.search(r"^pub enum Refusal \{(.*?)^\}", without_comments(text), flags=re.M | re.S).group(1)
    return {name: int(number) for name, number in re.findall(r"(\w+) = (\d+),", body)}


def rattle_words(text, numbers, limit):
    """The arms of the table, to the last number that the command gives: a refusal, and its words, which may have the packet limit in them."""
    last = int(re.search(r"^pub const LAST: \w+ = (\d+);$", text, flags=re.M).group(1))
    arm = r'\bRefusal::(\w+) => (?:\{\s*|return write!\(f, )?"([^"\\]*)"'
    found = [(numbers[name], words.replace("{LIMIT}", limit)) for name, words in re.findall(arm, without_comments(text))]
    return [(number, words) for number, words in found if number <= last]


def rattle_structs(text):
    found = {}
    for name, body in re.findall(r"#\[repr\(C\)\]\s*(?:#\[derive\([^)]*\)\]\s*)*pub struct (\w+) \{(.*?)\}", text, flags=re.S):
        found[c_name(name)] = re.findall(r"pub (\w+): (\w+)", body)
    return found


def rattle_arguments(text):
    """A slice is two arguments in C: its start and its length."""
    found = []
    for argument in parts(text):
        name, kind = [p.strip() for p in argument.split(":")]
        m = re.fullmatch(r"&(mut )?\[(\w+)\]", kind)
        if m:
            found += [(name, ("mut " if m.group(1) else "const ") + m.group(2)), (name + "_len", "usize")]
        else:
            found.append((name, kind))
    return found


def rattle_functions(text):
    found = {}
    pattern = r"#\[unsafe\(no_mangle\)\]\s*pub extern \"C\" fn (\w+)\(([^)]*)\) -> (\w+)"
    for name, arguments, result in re.findall(pattern, text):
        found[name] = (c_name(result), rattle_arguments(arguments))
    return found


def alone(ours, theirs):
    """What each of two lists has that the other has not."""
    return f"only the first has {[x for x in ours if x not in theirs]}, only the second {[x for x in theirs if x not in ours]}"


def number_differences(header, words):
    """The names, the tables in the header's first comment (of all numbers, and of those that name a word of a packet), and the words."""
    text = without_comments(header)
    numbers = [number for _, number in header_names(text)]
    said = []
    if not numbers or numbers != list(range(len(numbers))):
        said.append(f"names: their numbers are {numbers}")
    rows = [[int(number) for number in re.findall(r"^ \* {3,4}(\d+)  \S", part, flags=re.M)] for part in header.split("\n *\n")]
    tables = [numbers_there for numbers_there in rows if numbers_there]
    if tables != [numbers[1:], WITH_WORD]:
        said.append(f"numbers: the tables in the header have {tables}, the names {numbers}, and {WITH_WORD} have a word")
    have, want = header_words(text), [(0, "done")] + words
    if have != want:
        said.append(f"words of the header and of the command's table: {alone(have, want)}")
    return said


def version_differences(header, toolchain):
    said = []
    version, number = header_constant(header, "VANC_VERSION"), header_constant(header, "VANC_VERSION_NUMBER")
    m = re.fullmatch(r"(\d+)\.(\d\d?)\.(\d\d?)", version or "")
    if not m or number != str(10000 * int(m.group(1)) + 100 * int(m.group(2)) + int(m.group(3))):
        said.append(f"version: the header has {version} and as a number {number}")
    if header_constant(header, "VANC_TOOLCHAIN") != toolchain:
        said.append(f"toolchain: the header has {header_constant(header, 'VANC_TOOLCHAIN')}, the project {toolchain}")
    return said


def differences(header, symbols, toolchain, words, rattle):
    text = without_comments(header)
    declared, exported = header_functions(text), rattle_functions(rattle)
    said = []
    if declared != exported:
        said.append(f"functions: the header has {declared}, the library {exported}")
    given_back = {result for result, _ in exported.values()}
    shapes = {name: fields for name, fields in rattle_structs(rattle).items() if name in given_back}
    if header_structs(text) != shapes:
        said.append(f"structs: the header has {header_structs(text)}, the library {shapes}")
    names = set(re.findall(r"^[0-9a-f]+ T (vanc_\w+)$", symbols, flags=re.M))
    if names != set(declared):
        said.append(f"symbols: the archive has {sorted(names)}, the header {sorted(declared)}")
    return said + number_differences(header, words) + version_differences(header, toolchain)


WRONG = [
    ("uint64_t packs;", "uint32_t packs;"),
    ("uint64_t place;\n    uint64_t word;  /*", "uint64_t word;\n    uint64_t place;  /*"),
    ("uint64_t place;\n    uint64_t word;    /*", "uint64_t word;\n    uint64_t place;    /*"),
    ("uint64_t word;   /*", "uint64_t place;   /*"),
    ("uint64_t kind;", "bool kind;"),
    ("vanc_test_packet(const uint16_t *words", "vanc_test_packet(uint16_t *words"),
    (" *   10  CS", " *   11  CS"),
    ("uint64_t place;\n    uint64_t length;", "uint64_t length;\n    uint64_t place;"),
    ("const uint8_t *string, size_t string_len, uint64_t place", "const uint8_t *string, uint64_t place, size_t string_len"),
    ("const uint16_t *sheet, size_t sheet_len, uint64_t packing", "const uint8_t *sheet, size_t sheet_len, uint64_t packing"),
    ("uint8_t *area, size_t area_len);", "const uint8_t *area, size_t area_len);"),
    ("vanc_step vanc_walk(", "vanc_step vanc_step_at("),
    ("bool fi, uint8_t *element", "uint8_t fi, uint8_t *element"),
    ("uint64_t system, bool fi, const uint8_t *element", "bool fi, uint64_t system, const uint8_t *element"),
    ("} vanc_element_read;", "    uint64_t bytes;\n} vanc_element_read;"),
    ("its checksum word is wrong", "its checksum is wrong"),
    ("the limit of ", "the limit of 1"),
    ("case VANC_REFUSED_LENGTH:", "case VANC_REFUSED_LINE:"),
    ("    case VANC_REFUSED_ELEMENT:\n", "    case VANC_REFUSED_ELEMENT + 1:\n"),
    ("VANC_REFUSED_PACKS = 13", "VANC_REFUSED_PACKS = 14"),
    ("VANC_REFUSED_START = 7,\n    VANC_REFUSED_WORD = 8", "VANC_REFUSED_WORD = 7,\n    VANC_REFUSED_START = 8"),
    (" *   19  the element", " *   20  the element"),
    (" *   20  a line of the frame", " *   21  a line of the frame"),
    ("    VANC_REFUSED_PICTURE_LINE = 20\n", "    VANC_REFUSED_PICTURE_LINE = 21\n"),
    ("kept free for switching (7, 8, 569, 570)", "kept free for switching (7, 8)"),
    ("#define VANC_VERSION_NUMBER ", "#define VANC_VERSION_NUMBER 1"),
    ('#define VANC_VERSION "', '#define VANC_VERSION "1'),
    ('#define VANC_TOOLCHAIN "', '#define VANC_TOOLCHAIN "another '),
]


def main():
    header, symbols, toolchain, refusals, frame = [open(path).read() for path in sys.argv[1:6]]
    rattle = "\n".join(open(path).read() for path in sys.argv[6:])
    toolchain = toolchain.rstrip("\n")
    words = rattle_words(refusals, refusal_numbers(rattle), rattle_limit(frame))
    said = differences(header, symbols, toolchain, words, rattle)
    for old, new in WRONG:
        wrong = header.replace(old, new, 1)
        if wrong == header or not differences(wrong, symbols, toolchain, words, rattle):
            said.append(f"a header with '{new}' for '{old}' is not told from the library")
    for line in said:
        print(line)
    if said:
        sys.exit(1)
    print(f"header: {len(rattle_functions(rattle))} functions and {len(words)} refusals agree; {len(WRONG)} wrong headers told")


if __name__ == "__main__":
    main()
