"""command_folder.py: a witness of the folder in which it is started, for tests/command.sh. It reads one question a line, in words with tabs between,
and answers each with one line, which is empty where all is as it should be.

    keep                              what is here now is what the others ask for
    same                              all is as kept: kinds, modes, owners, bytes, where links point; none is another file with the same bytes
    untouched                         the same, and nothing was made or removed in a folder meanwhile
    became FILE RIGHT [MODE [OWNER]]  FILE has RIGHT's bytes, and its old mode and owner, or those of new files; the rest is as kept; it is put back
    beside FOLDER RIGHT MODE [SIZE]   the same, but for one file .vanc-?????? in FOLDER, which is removed: it has MODE (or "any"), and the first SIZE
                                      bytes of RIGHT (or some)
    killed FILE RIGHT MODE            "old" or "new": FILE is as kept, or has RIGHT's bytes and MODE; files .vanc-?????? may be there, and are removed
    socket FILE                       makes a socket"""
import os
import re
import socket
import stat
import sys

mask = os.umask(0)
os.umask(mask)


def contents(path, mode):
    """The bytes, also where only the owner's right to change the mode gives them."""
    try:
        with open(path, "rb") as f:
            return f.read()
    except PermissionError:
        os.chmod(path, 0o600)
        with open(path, "rb") as f:
            data = f.read()
        os.chmod(path, mode)
        return data


def entry(path):
    """What is compared: by name, as it is said where it differs."""
    s = os.lstat(path)
    mode = stat.S_IMODE(s.st_mode)
    found = {"kind": stat.S_IFMT(s.st_mode), "mode": oct(mode)[2:], "owner": f"{s.st_uid}:{s.st_gid}", "device": s.st_rdev}
    if stat.S_ISREG(s.st_mode):
        found |= {"bytes": contents(path, mode), "number": s.st_ino, "time": s.st_mtime_ns}
    elif stat.S_ISLNK(s.st_mode):
        found |= {"target": os.readlink(path), "number": s.st_ino}
    return found


def folders():
    return {folder: os.stat(folder).st_mtime_ns for folder, _, _ in os.walk(".")}


def everything():
    names = (os.path.normpath(os.path.join(folder, name)) for folder, dirs, files in os.walk(".") for name in dirs + files)
    return {name: entry(name) for name in names}


def show(value):
    return f"{len(value)} bytes" if isinstance(value, bytes) else str(value)


def differences(right, found):
    for path in sorted(right.keys() | found.keys()):
        if path not in found:
            yield f"{path} is gone"
        elif path not in right:
            yield f"{path} has come"
        else:
            for what in right[path]:
                if right[path][what] != found[path].get(what):
                    yield f"{path}: {what} {show(found[path].get(what))}, not {show(right[path][what])}"


def put_back(path, was):
    """A file as it was: bytes, mode, owner. What is kept of it is renewed."""
    os.unlink(path)
    if was is None:
        return
    with open(path, "wb") as f:
        f.write(was["bytes"])
    owner = tuple(map(int, was["owner"].split(":")))
    if (os.getuid(), os.getgid()) != owner:
        os.chown(path, *owner)
    os.chmod(path, int(was["mode"], 8))
    kept[path] = entry(path)


def became(path, right, mode=None, owner=None):
    path = os.path.normpath(path)
    was, found = kept.get(path), everything()
    with open(right, "rb") as f:
        data = f.read()
    new = {"mode": oct(0o666 & ~mask)[2:], "owner": f"{os.getuid()}:{os.getgid()}"} if was is None else was
    now = {"kind": stat.S_IFREG, "mode": mode or new["mode"], "owner": owner or new["owner"], "bytes": data}
    wrong = list(differences({**kept, path: now}, found))
    if path in found and found[path]["kind"] == stat.S_IFREG:
        put_back(path, was)
    return wrong


def left(found):
    return [path for path in found if path not in kept and re.fullmatch(r"\.vanc-[A-Za-z0-9]{6}", os.path.basename(path))]


def beside(folder, right, mode, size=None):
    found = everything()
    names = left(found)
    if len(names) != 1 or os.path.dirname(names[0]) != ("" if folder == "." else folder):
        return [f"not one file beside in {folder}: {names}"]
    it = found.pop(names[0])
    os.unlink(names[0])
    with open(right, "rb") as f:
        data = f.read()
    wrong = list(differences(kept, found))
    if mode not in ("any", it["mode"]):
        wrong.append(f"the file beside has the mode {it['mode']}, not {mode}")
    if it["bytes"] != data[: len(it["bytes"])] or size and len(it["bytes"]) != int(size):
        wrong.append(f"the file beside has {len(it['bytes'])} bytes, not the first {size or ''} of {right}")
    return wrong


def killed(path, right, mode):
    found = everything()
    for name in left(found):
        del found[name]
        os.unlink(name)
    with open(right, "rb") as f:
        data = f.read()
    new = path in found and found[path].get("bytes") == data and found[path].get("number") != kept.get(path, {}).get("number")
    if new:
        if found[path]["mode"] != mode:
            return [f"{path}: mode {found[path]['mode']}, not {mode}"]
        kept[path] = found[path]
    return list(differences(kept, found)) or ["new" if new else "old"]


def make_socket(path):
    socket.socket(socket.AF_UNIX).bind(path)
    return []


kept, times = {}, {}
for line in sys.stdin:
    question, *words = line.rstrip("\n").split("\t")
    if question == "keep":
        answer, kept = [], everything()
    elif question in ("same", "untouched"):
        answer = list(differences(kept, everything()))
        now = folders()
        if question == "untouched":
            answer += [f"in {folder} something was made or removed" for folder in times if now.get(folder) != times[folder]]
    else:
        answer = {"became": became, "beside": beside, "killed": killed, "socket": make_socket}[question](*words)
    times = folders()
    print("; ".join(answer)[:2000], flush=True)
