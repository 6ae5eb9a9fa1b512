"""command_files.py FOLDER: the files that tests/command.sh works on, at the limits of what the command takes, and what has to come out of each.

Y is the system, K the packing. Sheets: full_Y (65,536 bytes, of as many packets as the limit, with the longest text that is listed), less_Y and
over_Y (one number fewer, one more), fill_K_Y (many small packets that fill the frame; in system 2, packing 2 as many as the limit), spill_K_Y (one
byte or one pack more). Areas: noise_Y, and fill_K_Y, which is noise_Y with fill_K_Y.sheet laid. Elements: full_Y, less_Y and over_Y of these sheets;
long_Y (262,144 bytes, the packets of full_Y and padding), long_less_Y and long_over_Y (a byte of padding less, more), limit_Y (a packet over the
limit). other_3.sheet is full_3 with the other FI. Texts: full_Y and less_Y, their listings.

tail_U: as many packets as the limit in system 2, packing 2, of which U have a user byte: sheet, and noise_2 with it laid; 5_U.area has one byte of
the 3 - U behind them that is not fill. cues_D_Y: 900 cues of a lighting desk with DC D: sheet, listing and element, and noise_Y with them laid in
packing 2, where they have room.

Of the samples: laid_K.area, frame.area with cue.sheet laid; film.anc, film.sheet as an element with FI 0; film_0.sheet, that one read.

Refused, N being the number: N_NAME.sheet, and N_K.area, which is not read. NAME says for 7 to 10 whether the packet at fault has a location, which
names a line (line), or stands alone in a sheet without any (alone), and for 20 the line and the system. N_late.area is tail_0.area with its last
packet damaged. KIND_LINE_PLACE_Y.anc, and KIND_LINE_PLACE_Y_K.area: packet PLACE stands on that line, a picture line or one kept free for switching.

word_NAME_WHERE.sheet: packet 1, the last, has a word that is wrong or missing, as NAME says (see `words_at_fault`); WHERE is line or none, as its
location has it, or beyond, where it has no location. word_NAME_line.anc is its ten-bit element, where as found it has no fault.

Packets as found (request A13), in ten-bit elements. found.sheet: film.sheet with damaged packets; found.anc, those with FI 0, and found_0.sheet, that
one read; found_film.anc, film.sheet. damaged_Y.sheet: many packets with any ten bits; damaged_Y_F.anc, those that are served with FI F,
damaged_Y_F.sheet and damaged_Y_F.text, that one read and listed; noisy_Y_F.anc, with padding and with noise in all that is not used. full_ten_Y.anc:
full_Y.sheet, which is sound. wide_Y: the sheet file with the longest element: 65,536 bytes; wide_less_Y and wide_over_Y (one number fewer, one more);
wide_long_Y.anc (262,144 bytes, with padding) and wide_long_over_Y.anc; wide_limit_Y.anc (a packet over the limit, too many words); wide_words.anc,
of over 65,535 words. NAME_as_found.sheet: refused as found (see `faults_as_found`)."""
import os
import random
import sys

from reference import FLAG, LAST, LIMIT, LINES, area_size, lay, listing, pack, packet, packs_5, read, sheet, sheet_tests, spread, ten_bits, user_bytes

folder = sys.argv[1]
samples = os.path.join(os.path.dirname(os.path.abspath(__file__)), "..", "samples")
chance = random.Random(436)


def save(name, data):
    with open(os.path.join(folder, name), "wb") as f:
        f.write(bytes(data))


def load(name):
    with open(os.path.join(samples, name), "rb") as f:
        return f.read()


def load_sheet(name):
    data = load(name)
    return [data[i] << 8 | data[i + 1] for i in range(0, len(data), 2)]


def packets_of(system, sizes, flags, first_line=1):
    """A packet for each DC: (line, flags, words), on lines that have as many digits as can be, or on none and then on every other that is allowed."""
    long = [line for line in reversed(LINES[system]) if len(str(line)) == len(str(LAST[system]))]
    lines = long if first_line else [0, *LINES[system]]
    for k, dc in enumerate(sizes):
        yield lines[k % len(lines)], flags(k), packet(k % 256, 255 - k % 256, chance.randbytes(dc))


def sheet_of(system, packets):
    return sheet(system, [(line, flags) for line, flags, _ in packets], [w for _, _, words in packets for w in words])


def two(n):
    return n.to_bytes(2, "big")


def eight(words):
    """The coding of luma, the samples, their bytes: of eight bits, without CS."""
    return 4, words[3:-1], bytes(w & 0xFF for w in words[3:-1])


def ten(words):
    """Of ten bits, with CS."""
    return 7, words[3:], ten_bits(words[3:])


def noisy_ten(words):
    """The same, with noise in bits and samples that are not used."""
    return 7, words[3:], ten_bits(words[3:], lambda bits: f"{chance.getrandbits(bits):0{bits}b}")


def element(system, packets, padding=0, each=0, coded=eight):
    """ST 436-1, tables 5 to 7, with padding behind the last packet, or behind each."""
    value = two(len(packets))
    for k, (line, flags, words) in enumerate(packets):
        coding, samples, array = coded(words)
        behind = each + (padding if k + 1 == len(packets) else 0)
        value += two(line) + bytes([4 if system == 3 else 1, coding if flags & 2 else coding + 1]) + two(len(samples))
        value += (len(array) + behind).to_bytes(4, "big") + (1).to_bytes(4, "big") + array + chance.randbytes(behind)
    key = bytes.fromhex("060E2B34 01020101 0D010301 17010201")
    return key + b"\x83" + len(value).to_bytes(3, "big") + value


def full(system):
    """As many DCs of three digits as 65,536 bytes leave room for, the others of two."""
    user = 32768 - 4 - 9 * LIMIT
    three, rest = divmod(user - 10 * LIMIT, 90)
    for name, more in (("full", 0), ("less", -1), ("over", 1)):
        sizes = [100 + rest + more] + [100] * (three - 1) + [10] * (LIMIT - three)
        packets = list(packets_of(system, sizes, lambda k: k % 2 * 2))
        s = sheet_of(system, packets)
        assert len(s) == 32768 + more
        save(f"{name}_{system}.sheet", pack(s))
        save(f"{name}_{system}.anc", element(system, packets))
        if name == "full":
            save(f"full_ten_{system}.anc", element(system, packets, coded=ten))
            room = 262144 - len(element(system, packets))
            for long, padding in (("long", room), ("long_less", room - 1), ("long_over", room + 1)):
                save(f"{long}_{system}.anc", element(system, packets, padding))
        if name != "over":
            save(f"{name}_{system}.text", listing(pack(s)).encode())
        if system == 3 and name == "full":
            save("other_3.sheet", pack(sheet_of(3, [(line, flags + 1, words) for line, flags, words in packets])))


def fill(system, packing):
    """In packing 1 packets of two packs, but for twenty of three; in packing 2 as many as there can be, with a user byte in the first few."""
    if packing == 1:
        sizes = [4] * 20 + [0] * ({1: 1560, 2: 1872, 3: 1560}[system] // 2 - 30)
    else:
        count, user = divmod({1: 7440, 2: 8928, 3: 7440}[system], 7)
        sizes = [1] * user + [0] * (count - user)
    packets = list(packets_of(system, sizes, lambda k: k % 4, first_line=0))
    s = sheet_of(system, packets)
    save(f"fill_{packing}_{system}.sheet", pack(s))
    area = bytearray(noise[system])
    number, _, _, packs, string = lay(packing, s, area)
    assert (number, packs) == (0, [{1: 1560, 2: 1872, 3: 1560}, {1: 120, 2: 144, 3: 120}][packing - 1][system])
    save(f"fill_{packing}_{system}.area", area)
    save(f"fill_{packing}_{system}.laid", f"laid packs {packs} bytes {string}\n".encode())
    save(f"fill_{packing}_{system}.read", f"read packing {packing} packets {len(packets)} numbers {len(s)}\n".encode())
    sizes[-1] += 1
    spilled = sheet_of(system, list(packets_of(system, sizes, lambda k: 0)))
    assert lay(packing, spilled, area)[0] == 12
    save(f"spill_{packing}_{system}.sheet", pack(spilled))


def tails():
    """The last bytes of the last long pack are the last of the user bytes."""
    for user in (0, 1, 2):
        packets = list(packets_of(2, [0] * (LIMIT - user) + [1] * user, lambda k: k % 4, first_line=0))
        s, (bytes_laid, packs) = sheet_of(2, packets), user_bytes(2, 2, packets)
        assert packs == 144 and bytes_laid[user - 3 :] == [0xFF] * (3 - user)
        area = bytearray(noise[2])
        spread(2, bytes_laid, area)
        assert read(2, area, [0] * 32768) == (0, 0, 2, LIMIT, len(s))
        save(f"tail_{user}.sheet", pack(s))
        save(f"tail_{user}.area", area)
        refused_tail(5, LIMIT, user, bytes_laid, {user - 3: 0xFE})
    # The last packet's header, DC and CS, with the three bytes behind it.
    bytes_laid, _ = user_bytes(2, 2, list(packets_of(2, [0] * LIMIT, lambda k: k % 4, first_line=0)))
    no_bits = bytes_laid[-9] & 0xF0
    for number, changes in (
        (14, {-5: 200}),
        (15, {-4: bytes_laid[-4] ^ 1}),
        (16, {-10: 0x80, -9: no_bits}),
        (20, {-10: 0x87, -9: no_bits}),
    ):
        refused_tail(number, LIMIT - 1, "late", bytes_laid, changes)


def refused_tail(number, place, name, bytes_laid, changes):
    area, changed = bytearray(noise[2]), list(bytes_laid)
    for at, byte in changes.items():
        changed[at] = byte
    spread(2, changed, area)
    assert read(2, area, [0] * 32768)[:2] == (number, place), (number, name)
    save(f"{number}_{name}.area", area)


def cues(system, dc):
    """Each on a line, so that an element takes them, with FI 0."""
    packets = list(packets_of(system, [dc] * 900, lambda k: k % 2 * 2))
    s, name = sheet_of(system, packets), f"cues_{dc}_{system}"
    save(f"{name}.sheet", pack(s))
    save(f"{name}.text", listing(pack(s)).encode())
    save(f"{name}.anc", element(system, packets))
    area = bytearray(noise[system])
    if lay(2, s, area)[0] == 0:
        save(f"{name}.area", area)


def of_samples():
    cue = load_sheet("cue.sheet")
    for packing in (1, 2):
        area = bytearray(load("frame.area"))
        assert lay(packing, cue, area)[0] == 0
        save(f"laid_{packing}.area", area)
    film = [p for p in sheet_tests(load_sheet("film.sheet"))[3] if p[1] & 1 == 0]
    save("film.anc", element(3, film))
    save("film_0.sheet", pack(sheet_of(3, film)))


def refused_sheets():
    cue = load_sheet("cue.sheet")
    _, _, _, packets = sheet_tests(cue)
    locations, each = [(line, flags) for line, flags, _ in packets], [words for _, _, words in packets]

    def refused(number, place, name, s, at_fault=0):
        assert sheet_tests(s)[:3] == (number, place, at_fault), (name, sheet_tests(s)[:3])
        save(f"{number}_{name}.sheet", pack(s))

    def damaged(number, words):
        """A packet as the number says. With fewer than 7 words, or cut off, it is the last."""
        changed = list(words)
        if number == 7:
            changed[1] = 0
        elif number == 8:
            changed[4] ^= 0x100
        elif number == 9:
            changed.pop()
        else:
            changed[-1] ^= 1
        return changed

    refused(2, 0, "short", cue[:-1])
    refused(2, 0, "long", cue + [0])
    refused(2, 0, "first", [2] + cue[1:])
    refused(2, 0, "three", cue[:3])
    for system in (0, 4, 65535):
        refused(3, 0, f"system_{system}", [1, system] + cue[2:])
    for system in LAST:
        refused(5, 0, f"many_{system}", sheet_of(system, list(packets_of(system, [0] * (LIMIT + 1), lambda k: 0))))
        refused(6, 2, f"line_{system}", sheet(system, locations[:1] + [(20, 3), (LAST[system] + 1, 2)], [w for words in each for w in words]))
    together = [w for words in each for w in words]
    for system, lines in ((1, (7, 8, 127, 300, 569, 570, 1123)), (2, (7, 584)), (3, (8, 26, 569, 570, 745))):
        for line in lines:
            refused(20, 1, f"{line}_{system}", sheet(system, locations[:1] + [(line, 3), (300, 2)], together))
    # 6 on any location comes before 20, and 20 on any before 7 to 11.
    refused(6, 2, "behind", sheet(1, [(300, 0), (300, 3), (1126, 0)], together))
    refused(20, 2, "before_7", sheet(1, locations[:2] + [(21, 0)], [1, *together[1:]]))
    refused(20, 2, "before_10", sheet(1, locations[:2] + [(21, 0)], [*together[:-1], 0]))
    refused(20, 2, "before_11", sheet(1, locations[:2] + [(21, 0)], each[0]))
    refused(6, 1, "flags", sheet(1, [locations[0], (561, 4), locations[2]], [w for words in each for w in words]))
    refused(6, 2, "zero", sheet(1, locations[:2] + [(0, 4)], [w for words in each for w in words]))
    refused(6, 0, "both", sheet(1, [(65535, 65535), (65535, 4), locations[2]], [w for words in each for w in words]))
    refused(7, 2, "few", sheet(1, locations, (each[0] + each[1] + each[2])[:-2]), 6)
    for number, at_fault in ((7, 1), (8, 4), (9, 8), (10, 8)):
        behind = [] if number == 9 else each[1] + each[2]
        refused(number, 0, "line", sheet(1, locations, damaged(number, each[0]) + behind), at_fault)
        refused(number, 0, "alone", sheet(1, [], damaged(number, each[0])), at_fault)
    refused(11, 0, "more", sheet(1, locations, each[0] + each[1]))
    refused(11, 0, "fewer", sheet(1, locations[:2], each[0] + each[1] + each[2]))
    refused(11, 0, "nothing", sheet(1, locations[:1], []))


def with_word(words, at, other):
    return [*words[:at], other, *words[at + 1 :]]


def words_at_fault():
    """Each kind of word in a packet, wrong and missing: the name, the number, the word, and the packet's words."""
    two, none, dbn = packet(0x45, 0x01, [0x10, 0x80]), packet(0x45, 0x01, []), packet(0x80, 0x05, [1, 2, 3])
    twenty, longest = packet(0x7F, 0x02, range(20)), packet(0xFF, 0x01, range(255))
    for at, other in ((0, 0x3FF), (1, 0x000), (2, 0x3FE)):
        yield f"flag_{at}", 7, at, with_word(two, at, other)
    yield "flag_over", 7, 0, with_word(two, 0, 0x1000)
    yield "flag_few", 7, 1, [0x000, 0x001]
    for left, name in ((1, "flag_1"), (2, "flag_2"), (3, "did"), (4, "sdid"), (5, "dc"), (6, "user_0")):
        yield f"no_{name}", 7, left, two[:left]
    yield "no_dbn", 7, 4, dbn[:4]
    yield "no_cs_of_none", 7, 6, none[:6]
    # 7 comes before parity is looked at: the low bytes of DID and DC give the names.
    yield "no_dbn_of_did_over", 7, 4, [*two[:3], 0x4C0]
    yield "no_cs_of_dc_over", 7, 6, [*two[:5], 0xFF00]
    yield "no_user_of_dc_over", 7, 6, [*two[:5], 0x001]
    for words, left, name in ((two, 7, "user_1"), (two, 8, "cs"), (twenty, 23, "user_17"), (longest, 260, "user_254"), (longest, 261, "cs_of_255")):
        yield f"no_{name}", 9, left, words[:left]
    yield "no_user_3", 9, 9, with_word(two, 5, packet(0, 0, [0] * 255)[5])  # DC 255, and the words of DC 2
    yield "did", 8, 3, with_word(two, 3, 0x045)
    yield "did_over", 8, 3, with_word(dbn, 3, 0xFFFF)
    yield "sdid", 8, 4, with_word(two, 4, 0x301)
    yield "sdid_over", 8, 4, with_word(two, 4, 0xFFF)  # the largest of three digits; 1000h above has four
    yield "sdid_of_7f", 8, 4, with_word(twenty, 4, 0x002)
    yield "dbn_of_80", 8, 4, with_word(dbn, 4, 0x3FF)
    yield "dbn_of_ff", 8, 4, with_word(longest, 4, 0x201)
    yield "dc", 8, 5, with_word(two, 5, 0x202)
    yield "dc_over", 8, 5, with_word(two, 5, 0x502)
    for words, i, other in ((two, 0, 0x3FF), (two, 1, 0x1000), (twenty, 17, 0x3FF), (longest, 254, 0x000)):
        yield f"user_{i}", 8, 6 + i, with_word(words, 6 + i, other)
    yield "user_over", 8, 7, with_word(with_word(two, 7, 0xFFFF), 8, 0)
    for words, at, other, name in ((none, 6, 0x046, "cs_of_none"), (two, 8, 0x2D8, "cs"), (longest, 261, 0xFFFF, "cs_of_255")):
        yield name, 10, at, with_word(words, at, other)
    yield "cs_of_1", 10, 7, with_word(two, 5, 0x101)  # DC 1, and the words of DC 2: the last user word stands where CS is looked for
    # The least word of more than ten bits at each place; the other upper bits of DC; words of nothing but ones, or zeros.
    for words, at, name in ((two, 3, "did"), (two, 4, "sdid"), (dbn, 4, "dbn"), (two, 5, "dc"), (two, 6, "user"), (longest, 260, "last_user")):
        yield f"{name}_400", 8, at, with_word(words, at, 0x400 | words[at] & 0xFF)
    for words, at, name in ((none, 6, "cs_400_of_none"), (two, 8, "cs_400"), (longest, 261, "cs_400_of_255")):
        yield name, 10, at, with_word(words, at, 0x400)
    yield "dc_002", 8, 5, with_word(two, 5, 0x002)
    yield "dc_302", 8, 5, with_word(two, 5, 0x302)
    yield "ones", 8, 3, [*FLAG, *[0x3FF] * 259]
    yield "zeros", 8, 3, [*FLAG, *[0x000] * 4]
    yield "cs_ones", 10, 8, with_word(two, 8, 0x3FF)
    yield "flag_inside", 8, 6, [*packet(0x45, 0x01, [0, 0xFF, 0xFF])[:6], *FLAG, 0]


def sheets_with_words():
    before = packet(0x61, 0x01, [5])
    for name, number, at_fault, words in words_at_fault():
        for where, locations in (("line", [(561, 1), (9, 0)]), ("none", [(561, 1), (0, 2)]), ("beyond", [(561, 1)])):
            s = sheet(1, locations, before + words)
            assert sheet_tests(s)[:3] == (number, 1, at_fault), (name, sheet_tests(s)[:3])
            save(f"word_{name}_{where}.sheet", pack(s))
            fault, _, at_found, packets = sheet_tests(s, as_found=True)
            if where == "line" and not fault:
                save(f"word_{name}_line.anc", element(1, packets, coded=ten))
            elif where == "line" and name != "cs_of_1":
                assert (fault, at_found) == (8 if number == 10 else number, at_fault), name


def refused_areas():
    _, _, _, packets = sheet_tests(load_sheet("cue.sheet"))

    def refused(number, place, packing, user):
        area = bytearray(noise[1])
        spread(1, user, area)
        assert read(1, area, [0] * 32768)[:2] == (number, place), (number, packing)
        save(f"{number}_{packing}.area", area)

    def changed(user, at, byte):
        return user[:at] + [byte] + user[at + 1 :]

    packs = [b for p in packs_5(packets) for b in p]
    long, _ = user_bytes(2, 1, packets)
    # Packet 1 begins at the fourth pack, and in the string at byte 9; its third header byte is followed by DID, SDID, DC and its user bytes.
    refused(13, 0, 1, changed(packs, 15, 0xE2 + 2))
    refused(14, 1, 1, changed(packs, 23, 200))
    refused(15, 1, 1, changed(packs, 24, packs[24] ^ 1))
    refused(16, 1, 1, changed(changed(packs, 17, 0x80), 18, packs[18] & 0xF0))
    refused(13, 0, 2, changed(long, 75, 0))
    refused(14, 1, 2, changed(long, 3 + 9 + 5, 200))
    refused(15, 1, 2, changed(long, 3 + 9 + 6, long[3 + 9 + 6] ^ 1))
    refused(16, 1, 2, changed(changed(long, 3 + 9, 0xFF), 3 + 10, packs[18] | 0x0F))


def refused_lines():
    """Packets of many sizes, so that they begin at every place of packs and blocks, of which one stands where no packet may."""
    picture, switching = {1: (300,), 2: (1123,), 3: (26, 570)}, {1: (7, 570), 2: (8, 569), 3: (7,)}
    for system in LAST:
        for kind, line in [("picture", line) for line in picture[system]] + [("switching", line) for line in switching[system]]:
            for place in (0, 1, 8, 69):
                packets = list(packets_of(system, [k * 37 % 60 for k in range(70)], lambda k: k % 4))
                packets[place] = (line, *packets[place][1:])
                name = f"{kind}_{line}_{place}_{system}"
                for packing in (1, 2):
                    area = bytearray(noise[system])
                    spread(system, user_bytes(packing, system, packets)[0], area)
                    assert read(system, area, [0] * 32768)[:2] == (20, place), (name, packing)
                    save(f"{name}_{packing}.area", area)
                save(f"{name}.anc", element(system, packets, each=3))
        # The last packet of a frame full of packs of five, and one behind arrays whose count needs three bytes.
        sizes, line = [0] * ({1: 1560, 2: 1872, 3: 1560}[system] // 2), 26
        packets = list(packets_of(system, sizes, lambda k: k % 4))
        packets[-1] = (line, *packets[-1][1:])
        area = bytearray(noise[system])
        spread(system, user_bytes(1, system, packets)[0], area)
        assert read(system, area, [0] * 32768)[:2] == (20, len(sizes) - 1), system
        save(f"picture_{line}_{len(sizes) - 1}_{system}_1.area", area)
        save(f"picture_{line}_2_{system}.anc", element(system, [*packets[:2], packets[-1]], each=80000))


def served(system, fi, packets):
    """What is written of a sheet with this FI, and comes back with it: in 1080 all, with FI 0."""
    return [(line, flags & 2 | (fi if system == 3 else 0), words) for line, flags, words in packets if system != 3 or flags & 1 == fi]


def as_found(dc):
    """A packet of any ten bits with that DC."""
    words = [chance.getrandbits(10) for _ in range(dc + 4)]
    words[2] = words[2] & 0x300 | dc
    return [*FLAG, *words]


def found_film():
    """Of the two packets with FI 0 one has wrong parity in a user word, one a wrong CS; of the others one has a wrong DID."""
    film = sheet_tests(load_sheet("film.sheet"))[3]
    save("found_film.anc", element(3, served(3, 0, film), coded=ten))
    for k, at, other in ((0, 6, 0x3FF), (1, 3, 0x000), (2, 7, 0x000)):
        line, flags, words = film[k]
        film[k] = (line, flags, with_word(words, at, other))
    save("found.sheet", pack(sheet_of(3, film)))
    save("found.anc", element(3, served(3, 0, film), coded=ten))
    save("found_0.sheet", pack(sheet_of(3, served(3, 0, film))))


def damaged(system):
    """Packets of many sizes, with every number of samples that the last four bytes can have, and the longest."""
    sizes = [0, 1, 2, 3, 255, 254, 253, *(k * 37 % 60 for k in range(63))]
    packets = [(line, flags, as_found(dc)) for dc, (line, flags, _) in zip(sizes, packets_of(system, sizes, lambda k: k % 4))]
    save(f"damaged_{system}.sheet", pack(sheet_of(system, packets)))
    for fi in (0, 1):
        here = served(system, fi, packets)
        back = pack(sheet_of(system, here))
        save(f"damaged_{system}_{fi}.anc", element(system, here, coded=ten))
        save(f"noisy_{system}_{fi}.anc", element(system, here, each=3, coded=noisy_ten))
        save(f"damaged_{system}_{fi}.sheet", back)
        save(f"damaged_{system}_{fi}.text", listing(back).encode())


def wide(system):
    """An element has the most bytes where each DC is a multiple of three: then two samples of the last four bytes are not used."""
    threes, more = divmod(32768 - 4 - 9 * LIMIT, 3)
    assert more == 1
    each, rest = divmod(threes, LIMIT)
    for name, first in (("wide", 1), ("wide_less", 0), ("wide_over", 2)):
        sizes = [3 * each + 3] * rest + [3 * each] * (LIMIT - rest)
        sizes[0] += first
        packets = [(line, flags, as_found(dc)) for dc, (line, flags, _) in zip(sizes, packets_of(system, sizes, lambda k: k % 2 * 2))]
        s, whole = sheet_of(system, packets), element(system, packets, coded=ten)
        assert len(s) == 32767 + first and len(whole) == 56456
        save(f"{name}_{system}.sheet", pack(s))
        save(f"{name}_{system}.anc", whole)
        if name == "wide":
            for long, size in (("wide_long", 262144), ("wide_long_over", 262145)):
                save(f"{long}_{system}.anc", element(system, packets, size - len(whole), coded=ten))
    save(f"wide_limit_{system}.anc", element(system, list(packets_of(system, [30] * (LIMIT + 1), lambda k: 0)), coded=ten))


def faults_as_found():
    """Sheets with two faults: the name, the number, the packet, its word, the locations, the words. Wrong parity and a wrong CS are passed over; of
    the others the first in the order of the tests is named."""
    two = packet(0x45, 0x01, [0x10, 0x80])
    over = with_word(two, 7, 0x400)
    here, there = (561, 1), (9, 0)
    both = [here, there]
    yield "parity_then_over", 8, 1, 7, both, two + with_word(over, 3, 0x045)
    yield "cs_then_over", 8, 1, 4, both, with_word(two, 8, 0x000) + with_word(two, 4, 0x400)
    yield "parity_then_flag", 7, 1, 2, both, with_word(two, 6, 0x010) + with_word(two, 2, 0x000)
    yield "parity_then_cut", 9, 1, 8, both, two + with_word(two, 5, 0x3FF)[:8]
    yield "over_then_cut", 9, 1, 8, both, two + over[:8]
    yield "dc_over_then_cut", 8, 1, 5, both, two + with_word(two, 5, 0x5FF)
    yield "over_then_few", 7, 1, 5, both, two + with_word(two, 3, 0xFFFF)[:5]
    yield "over_then_cs_over", 8, 1, 7, both, two + with_word(over, 8, 0xFFFF)
    yield "over_then_flag", 8, 0, 7, both, over + with_word(two, 0, 0x3FF)
    # DC 1, and the words of DC 2: CS stands where the next flag is looked for.
    yield "dc_then_flag", 7, 1, 0, both, with_word(two, 5, 0x101) + two
    yield "parity_then_11", 11, 0, 0, [here, there, there], with_word(two, 3, 0x045) + with_word(two, 8, 0x000)
    yield "over_then_11", 8, 1, 7, [here], two + over
    yield "over_then_18", 8, 1, 7, [(0, 0), there], two + over
    yield "fewer_then_18", 11, 0, 0, [(0, 0)], with_word(two, 3, 0x045) + two


def sheets_as_found():
    for name, number, place, at_fault, locations, words in faults_as_found():
        s = sheet(1, locations, words)
        found = sheet_tests(s, as_found=True)[:3]
        assert found == (number, place, at_fault), (name, found)
        save(f"{name}_as_found.sheet", pack(s))
    # A packet that is passed over is tested all the same; that it has no line is no matter.
    film = sheet_tests(load_sheet("film.sheet"))[3]
    film[3] = (*film[3][:2], with_word(film[3][2], 6, 0x400))
    save("passed_over_as_found.sheet", pack(sheet_of(3, film)))


noise = {system: chance.randbytes(area_size(system)) for system in LAST}
for system in LAST:
    save(f"noise_{system}.area", noise[system])
    full(system)
    fill(system, 1)
    fill(system, 2)
    save(f"limit_{system}.anc", element(system, list(packets_of(system, [0] * (LIMIT + 1), lambda k: 0))))
for system, dc in ((1, 1), (1, 2), (2, 2), (2, 3), (3, 1), (3, 2)):
    cues(system, dc)
tails()
of_samples()
refused_sheets()
sheets_with_words()
refused_areas()
refused_lines()
found_film()
for system in LAST:
    damaged(system)
    wide(system)
packets = [(9, 2, as_found(96)) for _ in range(637)]
assert sum(len(words) for _, _, words in packets) == 65611
save("wide_words.anc", element(1, packets, coded=ten))
sheets_as_found()
