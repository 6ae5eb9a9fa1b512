#!/usr/bin/env python3
"""Cases for laying and reading, and what has to come out: python3 tests/vanc_cases.py writes crates/vanc_cases/data/cases and its stdout.

A case lays a sheet into an area that was filled with noise, damages the area byte by byte, and reads it into a buffer that was filled with noise.
Its head has six numbers of four bytes, high byte first: how many numbers the sheet has, how many bytes the area, what it is filled with (256 and
more: noise from this seed; less: this byte), how many numbers the buffer, how many damages; and packing * 65536 + the system that is read. Then come
the sheet and the damages, each a place of two bytes and a byte that is added bit by bit."""
import pathlib
import random
import struct

from reference import ENDS, LAST, LIMIT, LINES, area_size, danc, lay, packet, read, runs, sheet, sheet_tests, spread, user_bytes

HOME = pathlib.Path(__file__).resolve().parent.parent / "crates" / "vanc_cases"
P = packet(0x45, 0x01, [0x10, 0x80])


def noise(n, seed):
    out = bytearray(n)
    for i in range(n):
        seed = (seed * 1103515245 + 12345) % 2**31
        out[i] = seed // 65536 % 256
    return out


def filled(n, fill):
    return noise(n, fill) if fill >= 256 else bytearray([fill]) * n


def mixed(numbers):
    h = 0
    for n in numbers:
        h = (h * 31 + n) % 2**32
    return h


def run(case):
    packing, s, size, fill, damages, system, room = case
    area = filled(size, fill)
    laid = lay(packing, s, area)
    text = "laid %d %d %d %d %d %d" % (*laid, mixed(area))
    for at, flip in damages:
        if at < len(area):
            area[at] ^= flip
    buffer = list(noise(room, 256))
    back = read(system, area, buffer)
    return text + " read %d %d %d %d %d %d\n" % (*back, mixed(buffer)), laid, back


def packed(case):
    packing, s, size, fill, damages, system, room = case
    head = struct.pack(">6I", len(s), size, fill, room, len(damages), packing * 65536 + system)
    return head + struct.pack(f">{len(s)}H", *s) + b"".join(struct.pack(">HB", at, flip) for at, flip in damages)


def of(dcs, system=1, line=9, flags=0):
    words = [w for k, dc in enumerate(dcs) for w in packet(0x61, k % 256, [(7 * k + i) % 256 for i in range(dc)])]
    return sheet(system, [(line, flags)] * len(dcs), words)


def sound(packing, s, damages=(), room=None, fill=1000):
    system = s[1]
    return packing, s, area_size(system), fill, list(damages), system, len(s) if room is None else room


def worked():
    """Document 01's figures that are not starred, and each refusal."""
    for packing in (1, 2):
        yield sound(packing, of([2]))
        yield sound(packing, of([]))
        yield sound(packing, of([]), room=3)
        yield sound(packing, of([0] * 512))
        yield sound(packing, of([0] * 513))
        yield sound(packing, of([2], system=3, line=750))
        yield sound(packing, of([2], system=3, line=751))
        yield sound(packing, of([293 % 256, 0, 255]))
    yield sound(1, of([255] * 23 + [160]))
    yield sound(1, of([255] * 23 + [161]))
    yield sound(1, of([255] * 28 + [88], system=2))
    yield sound(1, of([255] * 28 + [89], system=2))
    yield sound(2, of([255] * 28 + [97]))
    yield sound(2, of([255] * 28 + [98]))
    yield sound(2, of([255] * 34 + [13], system=2))
    yield sound(2, of([255] * 34 + [14], system=2))
    yield sound(2, of([255, 31]))  # 300 bytes, as in 001's figure 8
    # a CS byte of FFh at the string's end, with fill behind it: the case that lost a second act
    second_act = sheet(1, [(9, 0)] * 2, P + packet(0x45, 0x01, [0xB8]))
    for packing in (1, 2):
        yield sound(packing, second_act)
    # 1 to 4, with two faults at once
    for packing in (0, 3, 65535):
        yield packing, of([2])[:-1], 9600, 7, [], 1, 100
    yield 1, of([2])[:-1], 9599, 7, [], 1, 100
    yield 2, [], 9600, 7, [], 1, 100
    yield 1, of([2], system=4), 9600, 7, [], 0, 100
    yield 1, of([2], system=0, line=2000), 9599, 7, [], 4, 100
    yield 1, sheet(1, [(9, 0)] * (LIMIT + 1), []), 9599, 7, [], 1, 100
    yield 1, of([2], line=2000), 11520, 7, [], 2, 100
    yield 1, of([2], system=2), 9600, 7, [], 2, 100
    # 11, and the area is as it was
    for packing in (1, 2):
        yield packing, sheet(1, [], P), 9600, 7000, [], 1, 100
        yield packing, sheet(2, [(9, 0), (9, 0)], P), 11520, 7000, [], 2, 100
    # areas of one byte
    for system in (1, 2, 3):
        for fill in (0xFF, 0x00, 0xE1, 0xE2, 0xE3, 0xFE):
            yield 0, [], area_size(system), fill, [], system, 20
    # reading: places in packing 2 of system 1, whose first pack stands at 3 of block 0, the next 2,400 bytes on
    lone = of([2])
    yield sound(2, lone, [(4, 1)])  # END 1 in the only pack: 13
    yield sound(2, lone, [(5, 0xFF)])  # the third byte is reserved
    yield sound(2, lone, [(4, 0xFE)])  # and so are the other bits of the second
    yield sound(2, lone, [(2403, 0xFF ^ 0xE3)])  # a pack behind the last: 13
    yield sound(2, lone, [(6, 0x89 ^ 0x80), (7, 0x0F)])  # LE 1 and line 0 or past the last
    yield sound(2, lone, [(6, 0x09)])  # LE 1, line 0: 16
    yield sound(2, lone, [(14, 1)])  # CS: 15
    yield sound(2, lone, [(11, 3 ^ 200)])  # DC: 14
    yield sound(2, lone, [(20, 1)])  # fill that is no fill: 14 at 1
    yield sound(2, lone, room=15)
    yield sound(1, lone, [(4, 0xFF)])  # the starter's reserved byte
    yield sound(1, lone, [(8, 0xE2 ^ 0xE1)])  # a starter in place of a carrier: 13
    yield sound(1, lone, [(18, 0xFF ^ 0xE1)])  # a starter behind the packet, and fill: 13
    yield sound(1, lone, [(18, 0xFF ^ 0xE2)])  # one carrier too many: 14
    yield sound(1, lone, [(17, 1)])  # an unused byte: 14
    yield sound(1, lone, [(13, 0xE2 ^ 0xFF)])
    yield sound(1, of([0]), [(8, 0xE2 ^ 0xFF)])
    # surplus packs of fill: 14, from 262 bytes of fill on 15
    for packs in (1, 2, 3, 4):
        places = [3 + 2400 * c for c in range(4)] + [83]
        damages = [(places[0] + 1, 1)]
        for k in range(1, packs + 1):
            damages += [(places[k], 0xFF ^ 0xE3)]
        damages += [(places[packs] + 1, 1)]
        yield sound(2, lone, damages)
    yield 0, [], 9600, 0xFF, [(3, 0xFF ^ 0xE3), (4, 1)], 1, 20  # E3h with END 0 and only fill: 14 at 0
    # 512 packets, and 513, which were over the limit before request A6; then with DC and CS of packet 507 changed: 14
    for packing in (1, 2):
        for count in (512, 513):
            yield made(packing, 1, [(9, 0, packet(0x45, 0x01, []))] * count)
    user, _ = user_bytes(2, 1, [(9, 0, packet(0x45, 0x01, []))] * 513)
    yield made_of(1, user[:-40] + [0x80] * 3 + user[-37:])
    yield from words_at_fault()
    yield from picture_lines()
    yield from faults_beside_picture_lines()
    yield from at_the_limit()
    yield from behind_the_last()
    yield from late()


def words_at_fault():
    """7 to 10 with the word that request A2 names, in the first packet and in a later one; the area is as it was."""
    twenty = packet(0x61, 0x01, range(20))
    wrong = [[*P[:at], P[at] ^ 0x100, *P[at + 1 :]] for at in range(len(P))]
    wrong += [[*twenty[:at], twenty[at] ^ 0x8000, *twenty[at + 1 :]] for at in (6, 15, 25, 26)]
    cut = [P[:left] for left in (1, 3, 6, 7, 8)] + [twenty[:left] for left in (7, 20, 26)]
    for packing in (1, 2):
        for words in wrong + cut:
            yield packing, sheet(1, [(9, 0)], words), 9600, 7000, [], 1, 100
            yield packing, sheet(2, [(9, 0)] * 4, P + twenty + P + words), 11520, 7000, [], 2, 100


def on_line(line):
    """The first two header bytes of a packet with this line and flags 0, as they differ from those of line 9."""
    return (0x80 | line & 0x7F) ^ 0x89, line >> 7


def picture_lines():
    """Request A3: every end of a run of lines in every system, laid into an area of fill, and read where the header of line 9 was changed to it."""
    for packing in (1, 2):
        header = 5 if packing == 1 else 6
        for system in (1, 2, 3):
            for line in (*ENDS, LAST[system] + 1):
                yield sound(packing, of([0], system, line), fill=0xFF)
                yield sound(packing, of([0], system), [(header + i, flip) for i, flip in enumerate(on_line(line))], fill=0xFF)
        yield sound(packing, of([0]), [(header + i, flip) for i, flip in enumerate(on_line(300))], room=3)


def faults_beside_picture_lines():
    """20 before and behind every other fault that a sheet or an area can have, in either order of the packets."""
    cut, cs, dc = P[:8], [*P[:8], P[8] ^ 1], [*P[:5], 0x1CA, *P[6:]]
    for packing in (1, 2):
        for locations, words in (
            ([(9, 0), (300, 0), (127, 0)], P * 3),
            ([(300, 0), (9, 0), (1126, 0)], P * 3),
            ([(1126, 0), (300, 0)], P * 2),
            ([(300, 0), (9, 4)], P * 2),
            ([(300, 4)], P),
            ([(9, 0), (300, 0)], [1, *P[1:]] + P),
            ([(9, 0), (300, 0)], [*P[:4], 0, *P[5:]] + P),
            ([(9, 0), (300, 0)], P + cut),
            ([(9, 0), (300, 0)], cs + P),
            ([(9, 0), (300, 0)], P),
        ):
            yield packing, sheet(1, locations, words), 9600, 7, [], 1, 100
        yield packing, sheet(1, [(300, 0)], P), 11520, 7, [], 2, 100
        faults = [(9, 0, P), (300, 0, P), (2000, 0, P), (9, 0, cs), (300, 0, cs), (9, 0, dc), (300, 0, dc)]
        for k, first in enumerate(faults):
            for other in faults:
                yield made(packing, 1 + k % 3, [(9, 0, P), first, other])
    # late locations, and late packets in packing 2, before bytes that are 5 or the end
    yield 1, sheet(1, [(9, 0)] * (LIMIT - 1) + [(300, 0)], []), 9600, 7, [], 1, 100
    for k in (0, 1023, 1024, LIMIT - 1):
        for fill in (0, 3):
            yield zeros(2, [(7 * k, 0xFF)] + [(8927 - i, 0xFF) for i in range(fill)])
    for at, byte in ((6, 1), (0, 0x80), (5, 200)):
        for first, second in ((1030, 1040), (1040, 1030)):
            yield zeros(2, [(7 * first, 0xFF), (7 * second + at, byte)])


def at_the_limit():
    """As many of the smallest packets as a frame holds, and one more; in system 2, packing 2 as many as the limit, with up to three user bytes."""
    for packing, system, most in ((1, 1, 780), (1, 2, 936), (2, 1, 1062), (2, 3, 1062)):
        yield sound(packing, of([0] * most, system))
        yield sound(packing, of([0] * (most + 1), system))
    yield sound(2, of([0] * LIMIT, 2))
    yield sound(2, of([1] * 3 + [0] * (LIMIT - 3), 2))
    yield sound(2, of([1] * 4 + [0] * (LIMIT - 4), 2))
    yield sound(2, of([0] * (LIMIT + 1), 2))
    # 5 comes before 6 and 20, and before 7 to 12
    for packing, system, location in ((1, 1, (2000, 9)), (2, 3, (300, 0))):
        yield sound(packing, sheet(system, [location] * (LIMIT + 1), P[:8]), room=100)


def zeros(system, changes, room=12000):
    """An area of long packs whose string bytes are 00h, but for changes: pairs of a string byte and what it is. Seven such bytes are a packet without
    a line."""
    blocks = list(runs(system))
    damages = [(start, 0xE3) for start, _ in blocks] + [(start + 1, 1) for start, _ in blocks[:-1]]
    string = [start + i for start, size in blocks for i in range(3, size)]
    return 0, [], area_size(system), 0, damages + [(string[at], byte) for at, byte in changes], system, room


def longer(k, user, shift=0):
    """Packet k with so many user bytes of 00h more, where those before it have `shift`: its DC and its CS."""
    return [(7 * k + shift + 5, user), (7 * k + shift + 6 + user, user)]


def behind_the_last():
    """As many packets as the limit, some with user bytes, and each byte behind them fill or not: the end, or 5. In systems 1 and 3 it is 14."""
    lists = [[], longer(0, 1), longer(LIMIT - 1, 1), longer(1024, 2), longer(7, 1) + longer(LIMIT - 1, 1, 1), longer(LIMIT - 2, 3)]
    for changes, left in zip(lists, (3, 2, 2, 1, 1, 0)):
        for which in range(2**left):
            yield zeros(2, changes + [(8927 - i, 0xFF) for i in range(left) if which >> i & 1])
    for room in (11481, 11482):
        yield zeros(2, lists[-1], room)
    for system in (1, 3):
        for fill in (6, 5, 0):
            yield zeros(system, [(7439 - i, 0xFF) for i in range(fill)])


def late():
    """Damaged packets about 1,024 and later, before bytes that are 5 or the end."""
    for k in (1023, 1024, 1025, LIMIT - 1):
        for at, byte in ((5, 200), (6, 1), (0, 0x80)):
            yield zeros(2, [(7 * k + at, byte)] + [(8927 - i, 0xFF) for i in range(3)])
    yield zeros(2, [(7 * (LIMIT - 1) + 6, 1)])
    yield zeros(1, [(7 * 1061 + 5, 1)])
    yield zeros(3, [(7 * 1061, 0x80)])


def made_of(system, user):
    """An area of FFh with these user bytes, whether or not a list gives them."""
    area = bytearray([0xFF]) * area_size(system)
    spread(system, user, area)
    return 0, [], len(area), 0xFF, [(at, b ^ 0xFF) for at, b in enumerate(area) if b != 0xFF], system, 12000


def made(packing, system, packets):
    return made_of(system, user_bytes(packing, system, packets)[0])


def random_list(r, system, most):
    dcs, total = [], 0
    while True:
        dc = r.choice([0, 1, 2, 3, 4, 5, 20, 60, 254, 255, r.randrange(256)])
        if total + dc + 7 > most or len(dcs) == LIMIT:
            return dcs
        total += dc + 7
        dcs.append(dc)


def random_sheet(r, system, most):
    locations, words = [], []
    for dc in random_list(r, system, most):
        line = 0 if r.random() < 0.3 else r.choice([1, LAST[system], r.choice(LINES[system]), r.choice(LINES[system])])
        locations.append((line, r.randrange(4)))
        words += packet(r.randrange(256), r.randrange(256), [r.choice([0, 255, 255, r.randrange(256)]) for _ in range(dc)])
    return sheet(system, locations, words)


def free_bits(r, packing, s):
    """Flips of bits that a reader disregards: reserved bits, and line bits where there is no line."""
    system, (_, _, _, packets) = s[1], sheet_tests(s)
    places = [start + i for start, size in runs(system) for i in range(size)]
    if packing == 1:
        at = 0
        for line, _, words in packets:
            yield places[at + 1], r.randrange(256)
            yield from header(r, places[at + 2 : at + 5], line)
            at += 5 * (2 + -(-(len(words) - 7) // 4))
    else:
        string, bytes_left = [], sum(len(w) for _, _, w in packets)
        at = 0
        for start, size in runs(system):
            if len(string) < bytes_left:
                yield start + 1, r.randrange(128) * 2
                yield start + 2, r.randrange(256)
            string += places[at + 3 : at + size]
            at += size
        at = 0
        for line, _, words in packets:
            yield from header(r, string[at : at + 3], line)
            at += len(words)


def header(r, places, line):
    if line == 0:
        yield places[0], r.randrange(128)
        yield places[1], r.randrange(16)
    yield places[1], r.choice([0, 0x20, 0x40, 0x60])
    yield places[2], r.randrange(256)


def random_cases(r):
    for _ in range(80):  # there and back
        system, packing = r.choice([1, 2, 3]), r.choice([1, 2])
        s = random_sheet(r, system, r.choice([0, 30, 300, 1500, 3000]))
        free = list(free_bits(r, packing, s))[:900] if r.random() < 0.7 else []
        yield sound(packing, s, free, room=len(s) + r.choice([0, 0, 1, 50]), fill=r.randrange(256, 2**31))
    for _ in range(250):  # damaged
        system, packing = r.choice([1, 2, 3]), r.choice([1, 2])
        s = random_sheet(r, system, r.choice([20, 60, 300, 1500]))
        used = [start + i for start, size in runs(system) for i in range(size)][: r.choice([10, 40, 400, 9360])]
        damages = [(r.choice(used), r.choice([1, 0x80, 0xFF, r.randrange(256)])) for _ in range(r.choice([1, 1, 2, 5]))]
        yield sound(packing, s, damages, room=len(s) + r.choice([-1, 0, 9, 300]), fill=r.randrange(256, 2**31))
    for _ in range(40):  # one bit of a header's line, or its LE
        system, packing = r.choice([1, 2, 3]), r.choice([1, 2])
        s, bit = sheet(system, [(r.choice(LINES[system]), 0), (9, 1)], P * 2), r.randrange(12)
        yield sound(packing, s, [((5 if packing == 1 else 6) + bit // 8, 1 << bit % 8)], fill=0xFF)
    for _ in range(8):  # over the room, or nearly
        system, packing = r.choice([1, 2, 3]), r.choice([1, 2])
        dcs = random_list(r, system, r.choice([6000, 7440, 8928, 9500]))
        yield sound(packing, of(dcs, system), room=12000 - r.randrange(9000))
    for k in range(30):  # noise
        system = r.choice([1, 2, 3])
        first = r.choice([0xE1, 0xE3, 0xFF, 0])
        area = noise(area_size(system), 5000 + k)
        yield 0, [], area_size(system), 5000 + k, [(3, area[3] ^ first)], system, 100
    for _ in range(120):  # damaged sheets
        system = r.choice([1, 2, 3])
        s = random_sheet(r, system, r.choice([20, 60, 300]))
        for _ in range(r.choice([1, 1, 2])):
            s[r.randrange(len(s))] ^= 1 << r.randrange(10)
        yield r.choice([1, 2]), s, area_size(system), 7, [], system, 10


def figure_8():
    """001, figure 8: a string of 300 bytes lies in VA 0,0, VA 0,1, VA 0,2, VA 0,3 and VA 1,0, END 0 in the last, and the next block is fill."""
    area, s = filled(9600, 1000), of([255, 31])
    assert lay(2, s, area) == (0, 0, 0, 5, 300)
    string, at = [], 0
    for block, channel in ((0, 0), (0, 1), (0, 2), (0, 3), (1, 0)):
        start = 80 * (3 * 10 * channel + block)
        pack = area[start + 3 : start + 78]
        assert pack[:3] == bytes([0xE3, 0xFE if (block, channel) == (1, 0) else 0xFF, 0xFF]), (block, channel)
        string += pack[3:]
    assert bytes(string[:300]) == bytes(b for p in sheet_tests(s)[3] for b in danc(*p)) and set(string[300:]) == {0xFF}
    assert set(area[80 * (30 + 1) + 3 : 80 * (30 + 1) + 78]) == {0xFF}


def main():
    figure_8()
    r = random.Random(469)
    cases = list(worked()) + list(random_cases(r))
    text, laid, back, words = "", {}, {}, set()
    for case in cases:
        assert len(case[1]) <= 16384 and case[2] <= 12000 and case[6] <= 12000, case[2:]
        line, a, b = run(case)
        text += line
        laid[a[0]] = laid.get(a[0], 0) + 1
        back[b[0]] = back.get(b[0], 0) + 1
        words.add((a[0], a[2], a[1] > 0))
    for number, at_fault in ((7, (0, 1, 2, 3, 6)), (8, (3, 4, 5, 6, 15, 25)), (9, (7, 8, 20, 26)), (10, (8, 26))):
        assert {(number, word, later) for word in at_fault for later in (False, True)} <= words, number
    assert laid[20] >= 90 and back[20] >= 90, (laid[20], back[20])
    data = b"".join(packed(c) for c in cases)
    (HOME / "data").mkdir(parents=True, exist_ok=True)
    (HOME / "data" / "cases").write_bytes(data)
    (HOME / "stdout").write_text(text)
    print(len(cases), "cases,", len(data), "bytes")
    print("laid", dict(sorted(laid.items())))
    print("read", dict(sorted(back.items())))


main()
