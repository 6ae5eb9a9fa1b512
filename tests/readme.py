"""readme.py COPY WORK: pastes the blocks of README.md that are marked `sh`, in the order of the page, into one shell; `tests/readme.sh` calls it.

The shell reads them as it reads what is typed, in the folder COPY, a copy of the repository as a reader has it, with a home of its own in WORK. A
command that ends with another status than 0 fails the test, unless the block itself asks for it (`||`, `if`). A block marked `text` right behind a
block marked `sh` is what that has to print on standard output; a line `...` in it stands for any lines. There are no other marks and no indented
blocks.
"""
import os
import re
import subprocess
import sys

PAGE = "README.md"
# The one block that is not pasted: it runs this test.
GATE = ["./test", "./test --long"]
# Words of blocks that link the library, which is for x86-64.
LINKING = re.compile(r"^(cc|gcc|rustc) |pkg-config", re.MULTILINE)
MARKS = ("sh", "text")


class Block:
    def __init__(self, mark, line, behind):
        self.mark = mark
        self.line = line
        self.lines = []
        # The block that this one follows with nothing between.
        self.behind = behind

    def text(self):
        return "".join(line + "\n" for line in self.lines)


def fail(line, words):
    sys.exit(f"readme: {PAGE}:{line}: {words}")


def blocks(page):
    """The blocks of a page, in its order."""
    found, inside, last, indent = [], None, None, ""
    for number, line in enumerate(page.splitlines(), 1):
        fence = re.fullmatch(r"( *)```(.*)", line)
        if inside and fence and not fence[2]:
            last, inside = inside, None
        elif inside:
            inside.lines.append(line.removeprefix(indent))
        elif fence:
            if fence[2] not in MARKS:
                fail(number, f"a block is marked {' or '.join(MARKS)}, not '{fence[2]}'")
            indent, inside = fence[1], Block(fence[2], number, last)
            found.append(inside)
        elif line.startswith("    "):
            fail(number, "an indented block, which no test looks at")
        elif line.strip():
            last = None
    if inside:
        fail(inside.line, "the block has no end")
    return found


def to_paste(found):
    """Those that a reader pastes, without the gate."""
    pasted = [block for block in found if block.mark == "sh"]
    gates = [block for block in pasted if block.lines == GATE]
    if len(gates) != 1:
        sys.exit(f"readme: {PAGE}: the block that is not pasted, {' and '.join(GATE)}, stands there {len(gates)} times, not once")
    pasted.remove(gates[0])
    for block in pasted:
        if "./test" in block.text().split():
            fail(block.line, "./test runs this test: it has a block of its own")
    return pasted


def complete(command):
    """A shell that read it would not wait for more."""
    return not subprocess.run(["bash", "-n"], input=command, text=True, capture_output=True, check=False).stderr


def commands(block):
    """The block's commands, most of them a line each, with the page's line on which each begins."""
    command, begin = "", block.line + 1
    for number, line in enumerate(block.lines, block.line + 1):
        command += line + "\n"
        if complete(command):
            yield command, begin
            command, begin = "", number + 1
    if command:
        fail(begin, "a command without its end, or no command")


def session(pasted, work):
    """What the shell reads: before each block where its words go, then its commands, and behind each the end where it failed."""
    text = f"set -o pipefail\ntrap 'printf \"%s\\n\" \"$BASH_COMMAND\" >>{work}/failed' ERR\n"
    for block in pasted:
        text += f"exec >{work}/{block.line}.out 2>{work}/{block.line}.err\n"
        for command, line in commands(block):
            text += f"{command}[ $? = 0 ] && [ ! -e {work}/failed ] || {{ echo {line} >{work}/line; exit 1; }}\n"
        text += f": >{work}/{block.line}.ended\n"
    return text


def paste(pasted, copy, work):
    """Runs the session, in one shell."""
    path = os.path.join(work, "session")
    with open(path, "w", encoding="utf-8") as file:
        file.write(session(pasted, work))
    home = os.path.join(work, "home")
    os.mkdir(home)
    others = {name: value for name, value in os.environ.items() if name not in ("DESTDIR", "MANPATH", "PKG_CONFIG_PATH")}
    with open(path, encoding="utf-8") as file:
        subprocess.run(["bash"], stdin=file, cwd=copy, env=dict(others, HOME=home), check=False)


def said(work, name):
    """A file of the session; nothing, where the session did not come so far."""
    try:
        with open(os.path.join(work, name), encoding="utf-8", errors="replace") as file:
            return file.read()
    except FileNotFoundError:
        return ""


def agree(expected, got):
    """The lines of a text block are those that were printed, `...` being any number of them."""
    pattern = "".join(r"(?:.*\n)*" if line == "..." else re.escape(line) + r"\n" for line in expected)
    return re.fullmatch(pattern, got) is not None


def judge(block, expected, work):
    """Fails where the block did not end, or printed something else than the text block behind it."""
    got = said(work, f"{block.line}.out")
    if not os.path.exists(os.path.join(work, f"{block.line}.ended")):
        fail(said(work, "line").strip() or block.line, f"the block ends here: {said(work, 'failed')}\n{got}{said(work, f'{block.line}.err')}")
    if expected and not agree(expected.lines, got):
        fail(expected.line, f"the block printed something else:\n{got}")


def main():
    copy, work = sys.argv[1:]
    with open(PAGE, encoding="utf-8") as file:
        found = blocks(file.read())
    pasted = to_paste(found)
    if os.uname().machine != "x86_64":
        for block in [block for block in pasted if LINKING.search(block.text())]:
            print(f"readme: {PAGE}:{block.line}: skipped, the block links the library, which is for x86-64")
            pasted.remove(block)
    outputs = {block.behind: block for block in found if block.mark == "text" and block.behind in pasted}
    paste(pasted, copy, work)
    for block in pasted:
        judge(block, outputs.get(block), work)
    print(f"readme: {len(pasted)} blocks pasted, what {len(outputs)} of them print compared")


main()
