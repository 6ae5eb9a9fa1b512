"""A second implementation of document 01's rules and of the requests A2, A3, A6 and A13, written from the documents and not from the Rattle code:
the tests' cases are made with it, and it says what has to come out."""
import struct

LAST = {1: 1125, 2: 1125, 3: 750}
# Request A3: the lines that RP 291-2, table 3a, has for systems 15 and 16 and for 3 to 7, less those that are kept free for switching.
LINES_1080 = sorted({1124, 1125, *range(1, 21), *range(561, 584)} - {7, 8, 569, 570})
LINES_720 = sorted({*range(746, 751), *range(1, 26)} - {7, 8})
LINES = {1: LINES_1080, 2: LINES_1080, 3: LINES_720}
ALLOWED = {system: frozenset([0, *lines]) for system, lines in LINES.items()}
# For cases: the ends of the runs of lines and what stands beside them, the lines between, and one whose header byte is FFh.
ENDS = (1, 6, 7, 8, 9, 20, 21, 25, 26, 127, 560, 561, 568, 569, 570, 571, 583, 584, 745, 746, 750, 1123, 1124, 1125)
# Request A6; document 01 had 512 wherever the packet limit stands.
LIMIT = 1275
FLAG = [0, 0x3FF, 0x3FF]


def word(byte):
    odd = bin(byte).count("1") % 2
    return byte | (0x100 if odd else 0x200)


def check(words):
    total = sum(w & 0x1FF for w in words) & 0x1FF
    return total | (0 if total & 0x100 else 0x200)


def packet(did, sdid, user):
    body = [word(b) for b in [did, sdid, len(user), *user]]
    return [*FLAG, *body, check(body)]


def sheet(system, locations, words, count=None, total=None):
    flat = [n for pair in locations for n in pair]
    return [1, system, len(locations) if count is None else count, *flat, len(words) if total is None else total, *words]


def first_wrong(words, places, found):
    """The first of these places whose word is not its byte with parity or, as found, is over 3FFh; nothing where there is none."""
    return next((i for i in places if (words[i] > 0x3FF if found else words[i] != word(words[i] & 0xFF))), None)


def first_fault(words, found=False):
    """7 to 10 of the packet in front and its first word at fault (request A2), which counts from 0 with the flag's; 0 and 0 for none. A packet as
    found (request A13) may have any ten bits, CS too."""
    for i, (flag, right) in enumerate(zip(words, FLAG)):
        if flag != right:
            return 7, i
    if len(words) < 7:
        return 7, len(words)
    wrong = first_wrong(words, range(3, 6), found)
    if wrong is not None:
        return 8, wrong
    cs = 6 + (words[5] & 0xFF)
    if len(words) <= cs:
        return 9, len(words)
    wrong = first_wrong(words, range(6, cs + 1 if found else cs), found)
    if wrong is not None:
        return 8, wrong
    return (0, 0) if found or words[cs] == check(words[3:cs]) else (10, cs)


def sheet_tests(s, as_found=False):
    """The tests 2, 3, 5, 6, 20, 7 to 11: (number, place, word, packets), where a packet is (line, flags, words)."""
    if len(s) < 4 or s[0] != 1:
        return 2, 0, 0, None
    count = s[2]
    if len(s) < 4 + 2 * count or len(s) != 4 + 2 * count + s[3 + 2 * count]:
        return 2, 0, 0, None
    if s[1] not in LAST:
        return 3, 0, 0, None
    if count > LIMIT:
        return 5, 0, 0, None
    locations = [(s[3 + 2 * k], s[4 + 2 * k]) for k in range(count)]
    for k, (line, flags) in enumerate(locations):
        if line > LAST[s[1]] or flags > 3:
            return 6, k, 0, None
    for k, (line, _) in enumerate(locations):
        if line not in ALLOWED[s[1]]:
            return 20, k, 0, None
    words, found, at = s[4 + 2 * count :], [], 0
    while at < len(words):
        fault, at_fault = first_fault(words[at:], as_found)
        if fault:
            return fault, len(found), at_fault, None
        size = (words[at + 5] & 0xFF) + 7
        found.append(words[at : at + size])
        at += size
    if len(found) != count:
        return 11, 0, 0, None
    return 0, 0, 0, [(line, flags, w) for (line, flags), w in zip(locations, found)]


def packs_of(w):
    return 2 + -(-(len(w) - 7) // 4)


def listing(data):
    """What the lister prints of a file."""
    if len(data) > 65536 or len(data) % 2:
        return "refused 2 at 0 0\n"
    s = list(struct.unpack(f">{len(data) // 2}H", data))
    number, place, at_fault, packets = sheet_tests(s)
    if number:
        return f"refused {number} at {place} {at_fault}\n"
    string_bytes, packs = sum(len(w) for _, _, w in packets), sum(packs_of(w) for _, _, w in packets)
    text = f"system {s[1]} packets {len(packets)} bytes {string_bytes} packs {packs}\n"
    for k, (line, flags, w) in enumerate(packets):
        text += f"{k} {line} {flags} {w[3] & 0xFF:02X} {w[4] & 0xFF:02X} {w[5] & 0xFF}\n"
    return text


def pack(numbers):
    return struct.pack(f">{len(numbers)}H", *numbers)


def ten_bits(samples, unused=lambda bits: "0" * bits):
    """Source document 004, 5.4.4: three samples in four bytes, from the high end. What is left of the four bytes is not used: two bits, and in the
    last four the room of the samples that are not there."""
    packed = b""
    for i in range(0, len(samples), 3):
        bits = "".join(f"{sample:010b}" for sample in samples[i : i + 3])
        packed += int(bits + unused(32 - len(bits)), 2).to_bytes(4, "big")
    return packed


# ---- blocks

SEQUENCES = {1: 10, 2: 12, 3: 10}


def runs(system):
    """(first byte, bytes) of each block's user bytes, in laying order."""
    n = SEQUENCES[system]
    for sequence in range(n):
        for block in range(3):
            for channel in range(4):
                start = 80 * (3 * (n * channel + sequence) + block)
                if block == 2 and sequence % 2 == 0:
                    yield start + 3, 45
                elif block == 0 and sequence % 2 == 1:
                    yield start + 33, 45
                else:
                    yield start + 3, 75


def area_size(system):
    return 80 * 3 * 4 * SEQUENCES[system]


# ---- laying

def danc(line, flags, words):
    low = [w & 0xFF for w in words[3:]]
    return [(0x80 if line else 0) | line & 0x7F, (flags & 1) << 7 | 0x60 | (flags & 2) << 3 | line >> 7, 0xFF, *low]


def packs_5(packets):
    for line, flags, words in packets:
        d = danc(line, flags, words)
        yield [0xE1, 0xFF, *d[:3]]
        rest = d[3:]
        while rest:
            yield [0xE2, *(rest[:4] + [0xFF] * 3)[:4]]
            rest = rest[4:]


def user_bytes(packing, system, packets):
    """(user bytes without the fill behind them, packs), or nothing where the list does not fit."""
    blocks = list(runs(system))
    string = [b for p in packets for b in danc(*p)]
    if packing == 1:
        laid = list(packs_5(packets))
        if 5 * len(laid) > sum(size for _, size in blocks):
            return None
        return [b for p in laid for b in p], len(laid)
    if len(string) > sum(size - 3 for _, size in blocks):
        return None
    user, packs = [], 0
    for _, size in blocks:
        if not string:
            break
        here, string = string[: size - 3], string[size - 3 :]
        user += [0xE3, 0xFF if string else 0xFE, 0xFF, *here, *[0xFF] * (size - 3 - len(here))]
        packs += 1
    return user, packs


def spread(system, user, area):
    """User bytes, and fill behind them, into an area."""
    user = user + [0xFF] * sum(size for _, size in runs(system))
    at = 0
    for start, size in runs(system):
        area[start : start + size] = bytes(user[at : at + size])
        at += size


def lay(packing, s, area):
    """(number, place, word, packs, bytes); the area is changed on success alone."""
    if packing not in (1, 2):
        return 1, 0, 0, 0, 0
    number, place, at_fault, packets = sheet_tests(s)
    if number in (2, 3):
        return number, place, at_fault, 0, 0
    if len(area) != area_size(s[1]):
        return 4, 0, 0, 0, 0
    if number:
        return number, place, at_fault, 0, 0
    fitting = user_bytes(packing, s[1], packets)
    if fitting is None:
        return 12, 0, 0, 0, 0
    spread(s[1], fitting[0], area)
    return 0, 0, 0, fitting[1], sum(len(w) for _, _, w in packets)


# ---- reading

class Refused(Exception):
    pass


def judged(system, k, d):
    """15, 16, 20, or the packet (line, flags, words) of DANC bytes."""
    low = d[3:-1]
    words = [word(b) for b in low]
    if d[-1] != sum(low) & 0xFF:
        raise Refused(15, k)
    line = d[0] & 0x7F | (d[1] & 0x0F) << 7
    if not d[0] & 0x80:
        line = 0
    elif line == 0 or line > LAST[system]:
        raise Refused(16, k)
    elif line not in ALLOWED[system]:
        raise Refused(20, k)
    return line, d[1] >> 7 | (d[1] >> 4 & 1) << 1, [*FLAG, *words, check(words)]


def read_5(system, user):
    packs = [user[i : i + 5] for i in range(0, len(user), 5)]
    groups, fill = [], False
    for p in packs:
        if p == [0xFF] * 5:
            fill = True
        elif fill or p[0] not in (0xE1, 0xE2):
            raise Refused(13, 0)
        elif p[0] == 0xE1:
            groups.append([p])
        elif not groups:
            raise Refused(13, 0)
        else:
            groups[-1].append(p)
    if any(len(g) < 2 for g in groups):
        raise Refused(13, 0)
    found = []
    for k, g in enumerate(groups):
        if k == LIMIT:
            raise Refused(5, LIMIT)
        carried = [b for p in g[1:] for b in p[1:]]
        dc = carried[2]
        if len(g) - 1 != 1 + -(-dc // 4) or set(carried[dc + 4 :]) - {0xFF}:
            raise Refused(14, k)
        found.append(judged(system, k, g[0][2:] + carried[: dc + 4]))
    return found


def read_long(system, user):
    string, at, room = [], 0, None
    for _, size in runs(system):
        block = user[at : at + size]
        at += size
        if room is None:
            if block[0] != 0xE3:
                raise Refused(13, 0)
            string += block[3:]
            if block[1] % 2 == 0:
                room = size - 3
        elif set(block) - {0xFF}:
            raise Refused(13, 0)
    if room is None:
        raise Refused(13, 0)
    found, at = [], 0
    while True:
        rest = string[at:]
        if len(rest) < room and not set(rest) - {0xFF}:
            return found
        k = len(found)
        if k == LIMIT:
            raise Refused(5, LIMIT)
        if len(rest) < 7 or len(rest) < rest[5] + 7:
            raise Refused(14, k)
        found.append(judged(system, k, rest[: rest[5] + 7]))
        at += rest[5] + 7


def read(system, area, buffer):
    """(number, place, packing, packets, numbers); the buffer is changed on success alone."""
    if system not in LAST:
        return 3, 0, 0, 0, 0
    if len(area) != area_size(system):
        return 4, 0, 0, 0, 0
    user = [b for start, size in runs(system) for b in area[start : start + size]]
    try:
        if user[0] == 0xFF:
            if set(user) - {0xFF}:
                raise Refused(13, 0)
            packing, found = 0, []
        elif user[0] == 0xE1:
            packing, found = 1, read_5(system, user)
        elif user[0] == 0xE3:
            packing, found = 2, read_long(system, user)
        else:
            raise Refused(13, 0)
        s = sheet(system, [(line, flags) for line, flags, _ in found], [w for _, _, words in found for w in words])
        if len(s) > len(buffer):
            raise Refused(17, 0)
    except Refused as r:
        return r.args[0], r.args[1], 0, 0, 0
    buffer[: len(s)] = s
    return 0, 0, packing, len(found), len(s)


# ---- walking

def walk(system, string, place):
    """(number, place, length) of one step: a packet, the end, or a refusal."""
    if system not in LAST:
        return 3, 0, 0
    if place >= len(string):
        return 0, place, 0
    rest = string[place:]
    if len(rest) < 7 or len(rest) < rest[5] + 7:
        return 14, place, 0
    try:
        judged(system, place, rest[: rest[5] + 7])
    except Refused as refused:
        return (*refused.args, 0)
    return 0, place, rest[5] + 7
