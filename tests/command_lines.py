"""command_lines.py STEP COMMAND..: every STEP-th line from 0 to 1,126, and the ends of all runs of lines, in each system, listed by the command. One
of three packets stands on it. Of each run the status, standard output and standard error are compared. Prints how many runs there were."""
import os
import sys

from reference import ENDS, LAST, LINES, listing, pack, packet, sheet

PACKET = packet(0x45, 0x01, [])
# Kept free for switching (RP 291-2, table 3a); in 720/60p lines 569 and 570 are in the picture.
SWITCHING = {1: (7, 8, 569, 570), 2: (7, 8, 569, 570), 3: (7, 8)}


def expected(system, line, place):
    """What stands on standard error: nothing, or what is wrong with the line."""
    if line == 0 or line in LINES[system]:
        return ""
    if line > LAST[system]:
        words = "the line is past the system's last, or the flags are over 3"
    elif line in SWITCHING[system]:
        words = f"line {line} is kept free for switching"
    else:
        words = f"line {line} is a picture line"
    return f"vanc: standard input: location {place} (line {line}, flags {line % 4}): {words}\n"


def put(file, data):
    """The file has these bytes, and is read from its start."""
    os.ftruncate(file, 0)
    os.pwrite(file, data, 0)
    os.lseek(file, 0, os.SEEK_SET)


def taken(file):
    """The text in the file, which is then empty."""
    text = os.pread(file, os.fstat(file).st_size, 0).decode()
    put(file, b"")
    return text


def main():
    step, command = int(sys.argv[1]), [*sys.argv[2:], "list"]
    # Streams that are files in memory, and no shell: a run takes about as long as the start of a program.
    streams = [os.memfd_create(name) for name in ("stdin", "stdout", "stderr")]
    actions = [(os.POSIX_SPAWN_DUP2, file, fd) for fd, file in enumerate(streams)]
    runs = 0
    for system in (1, 2, 3):
        for line in sorted({*range(0, 1127, step), *ENDS, LAST[system] + 1}):
            place = (line + system) % 3
            locations = [(9, 3), (0, 1), (6, 2)]
            locations[place] = (line, line % 4)
            data = pack(sheet(system, locations, PACKET * 3))
            put(streams[0], data)
            child = os.posix_spawnp(command[0], command, os.environ, file_actions=actions)
            status = os.waitstatus_to_exitcode(os.waitpid(child, 0)[1])
            said = expected(system, line, place)
            found, wanted = (status, taken(streams[1]), taken(streams[2])), (1 if said else 0, listing(data), said)
            if found != wanted:
                sys.exit(f"command: vanc list, system {system}, line {line}: {found}, not {wanted}")
            runs += 1
    print(runs)


main()
