/*
 * Every line, one answer after the other: each number that a header has bits for, in the three systems and in numbers that are none, through every
 * call that takes a line. The packet stands alone or between two others, and what it is laid into, read from and written to is made here byte by
 * byte, so that a line may be any. What is right is SMPTE RP 291-2's table 3a, as it stands there. Prints how many answers there were, and the first
 * that are wrong.
 */
#include <stdio.h>
#include <string.h>

#include "vanc.h"

enum { LINES = 2048, SYSTEMS = 5, NOBODYS = 0x55, FILL = 0xFF, ROOM = 64, FEW = 200 };

/* A packet: its location, and which of document 01's two it is. */
typedef struct {
    unsigned line, flags, p;
} packet;

/* A run of lines, "Line No Inclusive". */
typedef struct {
    unsigned first, last;
} run;

/* Rows 15 and 16, and rows 3 to 7: "Vertical lines available on interface", and "excluded from use". */
static const run available_1080[3] = { { 1124, 1125 }, { 1, 20 }, { 561, 583 } }, excluded_1080[2] = { { 7, 8 }, { 569, 570 } };
static const run available_720[2] = { { 746, 750 }, { 1, 25 } }, excluded_720[1] = { { 7, 8 } };

/* The packet p of document 01, and the one of DC 0. */
static const uint16_t words_of[2][9] = {
    { 0x000, 0x3FF, 0x3FF, 0x145, 0x101, 0x200, 0x246 },
    { 0x000, 0x3FF, 0x3FF, 0x145, 0x101, 0x102, 0x110, 0x180, 0x1D8 },
};
static const size_t length_of[2] = { 7, 9 };

static packet packets[3];
static size_t count;
static unsigned system_number;
/* An area of each system without packets, the one that is tried, and a copy of what a call may not change. */
static uint8_t empty[SYSTEMS][VANC_AREA_1080_50I], area[VANC_AREA_1080_50I], other[VANC_AREA_1080_50I];
static uint16_t sheet[ROOM], back[ROOM], other_back[ROOM];
static uint8_t element[FEW], other_element[FEW], string[ROOM];
static unsigned long answers, wrong, lines_allowed[SYSTEMS];

static void expect(bool right, const char *what, uint64_t number, uint64_t place)
{
    answers++;
    if (!right && wrong++ < 20)
        printf("lines: %s, system %u, line %u, packet %lu of %lu: number %lu, place %lu\n", what, system_number, packets[count / 2].line,
               (unsigned long)(count / 2), (unsigned long)count, (unsigned long)number, (unsigned long)place);
}

static bool in(const run *runs, size_t n, unsigned line)
{
    for (size_t k = 0; k < n; k++)
        if (runs[k].first <= line && line <= runs[k].last)
            return true;
    return false;
}

static bool is_known(void)
{
    return system_number >= 1 && system_number <= 3;
}

static unsigned last_line(void)
{
    return system_number == 3 ? 750 : 1125;
}

static bool is_allowed(unsigned line)
{
    if (system_number == 3)
        return in(available_720, 2, line) && !in(excluded_720, 1, line);
    return in(available_1080, 3, line) && !in(excluded_1080, 2, line);
}

/* What a line is refused with, where a line outside the frame, or none, has these numbers. */
static uint64_t number_of(unsigned line, uint64_t outside, uint64_t none)
{
    if (!is_known())
        return VANC_REFUSED_SYSTEM;
    if (line == 0)
        return none;
    if (line > last_line())
        return outside;
    return is_allowed(line) ? VANC_DONE : VANC_REFUSED_PICTURE_LINE;
}

static size_t area_length(void)
{
    return system_number == 2 ? VANC_AREA_1080_50I : VANC_AREA_1080_60I;
}

/* The sheet of the packets; its length. */
static size_t make_sheet(uint16_t *to)
{
    size_t n = 0, words = 0;
    to[n++] = 1;
    to[n++] = (uint16_t)system_number;
    to[n++] = (uint16_t)count;
    for (size_t k = 0; k < count; k++) {
        to[n++] = (uint16_t)packets[k].line;
        to[n++] = (uint16_t)packets[k].flags;
        words += length_of[packets[k].p];
    }
    to[n++] = (uint16_t)words;
    for (size_t k = 0; k < count; k++) {
        memcpy(to + n, words_of[packets[k].p], length_of[packets[k].p] * sizeof *to);
        n += length_of[packets[k].p];
    }
    return n;
}

/* The header bytes of a packet; where `le` is false it has none, and its line bits are disregarded. */
static void put_header(uint8_t *to, packet of, bool le)
{
    to[0] = (uint8_t)((le ? 0x80 : 0x00) | (of.line & 0x7F));
    to[1] = (uint8_t)((of.flags & 1) << 7 | 0x60 | (of.flags & 2) << 3 | of.line >> 7);
    to[2] = 0xFF;
}

/* The string of the packets; the middle one has LE as `le` says. Its length. */
static size_t make_string(bool le)
{
    size_t n = 0;
    for (size_t k = 0; k < count; k++) {
        put_header(string + n, packets[k], k == count / 2 ? le : packets[k].line != 0);
        for (size_t i = 3; i < length_of[packets[k].p]; i++)
            string[n + i] = (uint8_t)words_of[packets[k].p][i];
        n += length_of[packets[k].p];
    }
    return n;
}

/* The string in the first block of an area: packs of five, or one long pack. The number of packs. */
static size_t make_area(uint8_t *to, uint64_t packing, bool le)
{
    size_t n = make_string(le), packs = 0, at = 0;
    memcpy(to, empty[system_number], VANC_AREA_1080_50I);
    uint8_t *user = to + 3;
    if (packing == 2) {
        user[0] = 0xE3;
        user[1] = 0xFE;
        memcpy(user + 3, string, n);
        return 1;
    }
    for (size_t k = 0; k < count; k++) {
        size_t size = length_of[packets[k].p];
        user[5 * packs] = 0xE1;
        memcpy(user + 5 * packs++ + 2, string + at, 3);
        for (size_t i = 3; i < size; i += 4) {
            user[5 * packs] = 0xE2;
            memcpy(user + 5 * packs++ + 1, string + at + i, size - i < 4 ? size - i : 4);
        }
        at += size;
    }
    return packs;
}

/* In 720 an element has the packets of one FI. */
static bool serves(packet of, bool fi)
{
    return system_number != 3 || (of.flags & 1) == fi;
}

/* A packet's structure, in 8 bits from DID to the last user word, in ten from DID to CS, three samples in four bytes. Its length. */
static size_t make_structure(uint8_t *to, packet of, bool ten)
{
    const uint16_t *word = words_of[of.p] + 3;
    size_t samples = length_of[of.p] - (ten ? 3 : 4), count = ten ? (samples + 2) / 3 * 4 : samples;
    const uint8_t coding = (uint8_t)((of.flags & 2 ? 4 : 5) + (ten ? 3 : 0));
    const uint8_t head[14] = {
        (uint8_t)(of.line >> 8), (uint8_t)of.line, system_number == 3 ? 4 : 1, coding, 0, (uint8_t)samples, 0, 0, 0, (uint8_t)count, 0, 0, 0, 1
    };
    memcpy(to, head, sizeof head);
    for (size_t i = 0; !ten && i < samples; i++)
        to[14 + i] = (uint8_t)word[i];
    for (size_t i = 0; ten && i < samples; i += 3) {
        uint32_t bits = (uint32_t)word[i] << 22;
        bits |= i + 1 < samples ? (uint32_t)word[i + 1] << 12 : 0;
        bits |= i + 2 < samples ? (uint32_t)word[i + 2] << 2 : 0;
        for (size_t byte = 0; byte < 4; byte++)
            to[14 + i / 3 * 4 + byte] = (uint8_t)(bits >> (24 - 8 * byte));
    }
    return 14 + count;
}

/* ST 436-1, tables 5 to 7; where `all` is true of all packets, else of those that are served. The element's length, and in `found` their number. */
static size_t make_element(uint8_t *to, bool fi, bool all, bool ten, size_t *found)
{
    static const uint8_t key[17] = { 0x06, 0x0E, 0x2B, 0x34, 0x01, 0x02, 0x01, 0x01, 0x0D, 0x01, 0x03, 0x01, 0x17, 0x01, 0x02, 0x01, 0x83 };
    size_t n = 22;
    *found = 0;
    for (size_t k = 0; k < count; k++) {
        if (!all && !serves(packets[k], fi))
            continue;
        n += make_structure(to + n, packets[k], ten);
        ++*found;
    }
    memcpy(to, key, sizeof key);
    const uint8_t behind[5] = { 0, 0, (uint8_t)(n - 20), 0, (uint8_t)*found };
    memcpy(to + sizeof key, behind, sizeof behind);
    return n;
}

/* A refusal's place: an unknown system's is 0. */
static size_t place_of(uint64_t number, size_t place)
{
    return number == VANC_DONE || number == VANC_REFUSED_SYSTEM ? 0 : place;
}

static void try_laying(size_t n, uint64_t packing)
{
    uint64_t number = number_of(packets[count / 2].line, VANC_REFUSED_LOCATION, VANC_DONE);
    memcpy(area, empty[system_number], sizeof area);
    memset(area + 3, NOBODYS, 75);
    memcpy(other, area, sizeof other);
    vanc_laid laid = vanc_lay(sheet, n, packing, area, area_length());
    bool right = laid.number == number && laid.place == place_of(number, count / 2) && laid.word == 0;
    if (number == VANC_DONE) {
        size_t packs = make_area(other, packing, packets[count / 2].line != 0);
        right = right && laid.packs == packs && laid.bytes == make_string(packets[count / 2].line != 0);
    } else {
        right = right && laid.packs == 0 && laid.bytes == 0;
    }
    expect(right && memcmp(area, other, sizeof area) == 0, packing == 1 ? "lay, packing 1" : "lay, packing 2", laid.number, laid.place);
}

/* Line 0 with LE 1 is no line that there is. With LE 0 there is none, whatever the bits. */
static void try_reading(uint64_t packing, bool le)
{
    unsigned line = packets[count / 2].line;
    uint64_t number = number_of(le ? line : 0, VANC_REFUSED_LINE, le ? VANC_REFUSED_LINE : VANC_DONE);
    make_area(area, packing, le);
    memcpy(other, area, sizeof other);
    memset(back, NOBODYS, sizeof back);
    memcpy(other_back, back, sizeof back);
    vanc_read_back read = vanc_read(system_number, area, area_length(), back, ROOM);
    bool right = read.number == number && read.place == place_of(number, count / 2) && memcmp(area, other, sizeof area) == 0;
    if (number == VANC_DONE) {
        packets[count / 2].line = le ? line : 0;
        size_t n = make_sheet(other_back);
        packets[count / 2].line = line;
        right = right && read.packing == packing && read.packets == count && read.numbers == n;
    } else {
        right = right && read.packing == 0 && read.packets == 0 && read.numbers == 0;
    }
    expect(right && memcmp(back, other_back, sizeof back) == 0, le ? "read, LE 1" : "read, LE 0", read.number, read.place);
}

static void try_walking(bool le)
{
    unsigned line = packets[count / 2].line;
    uint64_t number = number_of(le ? line : 0, VANC_REFUSED_LINE, le ? VANC_REFUSED_LINE : VANC_DONE);
    size_t n = make_string(le), start = count == 1 ? 0 : length_of[packets[0].p];
    vanc_step step = vanc_walk(system_number, string, n, start);
    uint64_t length = number == VANC_DONE ? length_of[packets[count / 2].p] : 0;
    expect(step.number == number && step.place == (is_known() ? start : 0) && step.length == length, le ? "walk, LE 1" : "walk, LE 0", step.number,
           step.place);
}

/* A picture line is refused also of a packet that is passed over; no line only of one that is served. */
static void try_writing(size_t n, bool fi, bool ten)
{
    bool served = serves(packets[count / 2], fi);
    uint64_t number = number_of(packets[count / 2].line, VANC_REFUSED_LOCATION, served ? VANC_REFUSED_NO_LINE : VANC_DONE);
    memset(element, NOBODYS, sizeof element);
    memcpy(other_element, element, sizeof element);
    vanc_element_written written =
        ten ? vanc_mxf_write10(sheet, n, fi, element, sizeof element) : vanc_mxf_write(sheet, n, fi, element, sizeof element);
    bool right = written.number == number && written.place == place_of(number, count / 2) && written.word == 0;
    if (number == VANC_DONE) {
        size_t found, bytes = make_element(other_element, fi, false, ten, &found);
        right = right && written.packets == found && written.bytes == bytes;
    } else {
        right = right && written.packets == 0 && written.bytes == 0;
    }
    expect(right && memcmp(element, other_element, sizeof element) == 0,
           ten ? (fi ? "mxf write10, FI 1" : "mxf write10, FI 0") : (fi ? "mxf write, FI 1" : "mxf write, FI 0"), written.number, written.place);
}

/* A line outside the frame is told by the byte where its structure starts, behind key, length, N and the structure before it. */
static void try_element(bool fi, bool ten)
{
    uint64_t number = number_of(packets[count / 2].line, VANC_REFUSED_ELEMENT, VANC_REFUSED_ELEMENT);
    size_t found, bytes = make_element(element, fi, true, ten, &found), before = count == 1 ? 0 : make_structure(other_element, packets[0], ten);
    size_t place = number == VANC_REFUSED_ELEMENT ? 22 + before : count / 2;
    memset(back, NOBODYS, sizeof back);
    memcpy(other_back, back, sizeof back);
    vanc_element_read read =
        ten ? vanc_mxf_read10(system_number, fi, element, bytes, back, ROOM) : vanc_mxf_read(system_number, fi, element, bytes, back, ROOM);
    bool right = read.number == number && read.place == place_of(number, place);
    if (number == VANC_DONE) {
        packet kept[3];
        memcpy(kept, packets, sizeof kept);
        for (size_t k = 0; k < count; k++)
            packets[k].flags = (packets[k].flags & 2) | (system_number == 3 && fi);
        size_t n = make_sheet(other_back);
        memcpy(packets, kept, sizeof kept);
        right = right && read.packets == count && read.numbers == n;
    } else {
        right = right && read.packets == 0 && read.numbers == 0;
    }
    expect(right && memcmp(back, other_back, sizeof back) == 0,
           ten ? (fi ? "mxf read10, FI 1" : "mxf read10, FI 0") : (fi ? "mxf read, FI 1" : "mxf read, FI 0"), read.number, read.place);
}

static void try_line(unsigned line)
{
    for (size_t k = 0; k < count; k++)
        packets[k] = k == count / 2 ? (packet){ line, (line / 3 + count) % 4, 1 } : (packet){ 9, (line + k) % 4, 0 };
    size_t n = make_sheet(sheet);
    for (unsigned one = 0; one < 2; one++) {
        try_laying(n, 1 + one);
        try_reading(1 + one, true);
        try_reading(1 + one, false);
        try_walking(one);
        for (unsigned ten = 0; ten < 2; ten++) {
            try_writing(n, one, ten);
            try_element(one, ten);
        }
    }
}

/* The user bytes of every block are fill, all other bytes nobody's. */
static void make_empty(void)
{
    size_t sequences = system_number == 2 ? 12 : 10;
    uint8_t *to = empty[system_number];
    memset(to, NOBODYS, VANC_AREA_1080_50I);
    for (size_t sequence = 0; sequence < sequences; sequence++)
        for (size_t block = 0; block < 3; block++)
            for (size_t channel = 0; channel < 4; channel++) {
                size_t from = sequence % 2 == 1 && block == 0 ? 33 : 3, end = sequence % 2 == 0 && block == 2 ? 48 : 78;
                memset(to + 80 * (3 * (sequences * channel + sequence) + block) + from, FILL, end - from);
            }
}

int main(void)
{
    for (system_number = 0; system_number < SYSTEMS; system_number++) {
        make_empty();
        for (unsigned line = 0; line < LINES; line++) {
            lines_allowed[system_number] += number_of(line, VANC_REFUSED_LINE, VANC_REFUSED_LINE) == VANC_DONE;
            for (count = 1; count <= 3; count += 2)
                try_line(line);
        }
    }
    printf("%lu answers about lines, %lu wrong; %lu, %lu and %lu lines are allowed\n", answers, wrong, lines_allowed[1], lines_allowed[2],
           lines_allowed[3]);
    return wrong != 0;
}
