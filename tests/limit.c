/*
 * The packet limit, one answer after the other, in rooms of the header's sizes: every number of the smallest packets up to some more than the
 * limit, in every system and call; every packet of a list at fault, since a place may take more than ten bits, with the word; the bytes behind as
 * many packets as the limit. Prints how many answers there were, and the first that are wrong.
 */
#include <stdio.h>
#include <string.h>

#include "vanc.h"

enum { LIMIT = 1275, MORE = 1400, STRING = 8928, MANY = 9362 };

static uint16_t sheet[4 + 2 * MORE + 7 * MANY];
static uint16_t back[VANC_ELEMENT_SHEET_MAX];
static uint8_t area[VANC_AREA_1080_50I];
static uint8_t element[VANC_ELEMENT10_MAX];
/* Where the string bytes of long packs stand in an area of 1080/50i. */
static size_t places[STRING];
static unsigned long answers, wrong;

/* An answer about `which`: a number of packets, a packet, or a byte. */
static void expect(bool right, const char *what, size_t which, uint64_t number, uint64_t place)
{
    answers++;
    if (!right && wrong++ < 20)
        printf("limit: %s %lu: number %lu, place %lu\n", what, (unsigned long)which, (unsigned long)number, (unsigned long)place);
}

static bool is_sheet(uint64_t number, uint64_t numbers, size_t n)
{
    return number == VANC_DONE && numbers == n && memcmp(back, sheet, n * sizeof *sheet) == 0;
}

/* A sheet of packets with DID 45h and SDID 01h; the first has up to three user bytes 00h, the others none. Its length is given back. */
static size_t make_sheet(unsigned system, size_t locations, size_t packets, size_t user)
{
    static const uint16_t flag_and_identifiers[5] = { 0x000, 0x3FF, 0x3FF, 0x145, 0x101 };
    static const uint16_t dc[4] = { 0x200, 0x101, 0x102, 0x203 }, cs[4] = { 0x246, 0x147, 0x148, 0x249 };
    size_t n = 0;
    sheet[n++] = 1;
    sheet[n++] = (uint16_t)system;
    sheet[n++] = (uint16_t)locations;
    for (size_t k = 0; k < locations; k++) {
        sheet[n++] = 9;
        sheet[n++] = 0;
    }
    sheet[n++] = (uint16_t)(7 * packets + user);
    for (size_t k = 0; k < packets; k++) {
        size_t words = k == 0 ? user : 0;
        memcpy(sheet + n, flag_and_identifiers, sizeof flag_and_identifiers);
        n += 5;
        sheet[n++] = dc[words];
        for (size_t i = 0; i < words; i++)
            sheet[n++] = 0x200;
        sheet[n++] = cs[words];
    }
    return n;
}

/* The element of such a sheet without user bytes, in 8 bits or ten, also where it has too many packets. Its length is given back. */
static size_t make_element(unsigned system, size_t packets, bool ten)
{
    static const uint8_t key[16] = { 0x06, 0x0E, 0x2B, 0x34, 0x01, 0x02, 0x01, 0x01, 0x0D, 0x01, 0x03, 0x01, 0x17, 0x01, 0x02, 0x01 };
    const uint8_t wrapping = system == 3 ? 4 : 1;
    const uint8_t of_8[17] = { 0, 9, wrapping, 5, 0, 3, 0, 0, 0, 3, 0, 0, 0, 1, 0x45, 0x01, 0x00 };
    /* 145 101 200, and 246 alone. */
    const uint8_t of_10[22] = { 0, 9, wrapping, 8, 0, 4, 0, 0, 0, 8, 0, 0, 0, 1, 0x51, 0x50, 0x18, 0x00, 0x91, 0x80, 0x00, 0x00 };
    size_t size = ten ? sizeof of_10 : sizeof of_8, value = 2 + size * packets;
    const uint8_t behind[6] = { 0x83, (uint8_t)(value >> 16), (uint8_t)(value >> 8), (uint8_t)value, (uint8_t)(packets >> 8), (uint8_t)packets };
    memcpy(element, key, sizeof key);
    memcpy(element + sizeof key, behind, sizeof behind);
    for (size_t k = 0; k < packets; k++)
        memcpy(element + 22 + size * k, ten ? of_10 : of_8, size);
    return 20 + value;
}

/* Written as an element and read from one, as far as the limit goes. */
static void try_element(unsigned system, size_t packets, size_t n, bool ten)
{
    bool few = packets <= LIMIT;
    vanc_element_written written =
        ten ? vanc_mxf_write10(sheet, n, false, element, VANC_ELEMENT10_MAX) : vanc_mxf_write(sheet, n, false, element, VANC_ELEMENT_MAX);
    expect(written.number == (few ? VANC_DONE : VANC_REFUSED_LIMIT) && written.place == 0 && written.word == 0, "mxf write", packets, written.number,
           written.place);
    size_t bytes = make_element(system, packets, ten);
    expect(written.bytes == (few ? bytes : 0), "mxf write, bytes", packets, written.number, written.place);
    vanc_element_read read = ten ? vanc_mxf_read10(system, false, element, bytes, back, VANC_ELEMENT_SHEET_MAX)
                                 : vanc_mxf_read(system, false, element, bytes, back, VANC_ELEMENT_SHEET_MAX);
    expect(few ? is_sheet(read.number, read.numbers, n) : read.number == VANC_REFUSED_LIMIT && read.place == LIMIT, "mxf read", packets, read.number,
           read.place);
}

/* Laid and read back, written and read back, as far as the room and the limit go. */
static void try_count(unsigned system, size_t packets)
{
    size_t n = make_sheet(system, packets, packets, 0), area_length = system == 2 ? VANC_AREA_1080_50I : VANC_AREA_1080_60I;
    for (uint64_t packing = 1; packing <= 2; packing++) {
        size_t room = packing == 1 ? (system == 2 ? 936 : 780) : (system == 2 ? LIMIT : 1062);
        uint64_t number = packets > LIMIT ? VANC_REFUSED_LIMIT : packets > room ? VANC_REFUSED_ROOM : VANC_DONE;
        vanc_laid laid = vanc_lay(sheet, n, packing, area, area_length);
        expect(laid.number == number && laid.place == 0 && laid.word == 0, "lay", packets, laid.number, laid.place);
        if (number == VANC_DONE) {
            vanc_read_back read = vanc_read(system, area, area_length, back, VANC_SHEET_MAX);
            expect(is_sheet(read.number, read.numbers, n), "read", packets, read.number, read.place);
        }
    }
    try_element(system, packets, n, false);
    try_element(system, packets, n, true);
}

/* One number of a sheet changed: both calls on it refuse packet or location k, and tell the word. An area takes packets without a line. */
static void try_number(size_t n, size_t at, uint16_t changed, uint64_t number, size_t k, uint64_t word)
{
    uint16_t was = sheet[at];
    sheet[at] = changed;
    if (number != VANC_REFUSED_NO_LINE) {
        vanc_laid laid = vanc_lay(sheet, n, 2, area, sizeof area);
        expect(laid.number == number && laid.place == k && laid.word == word, "lay, packet", k, laid.number, laid.place);
    }
    vanc_element_written written = vanc_mxf_write(sheet, n, false, element, VANC_ELEMENT_MAX);
    expect(written.number == number && written.place == k && written.word == word, "mxf write, packet", k, written.number, written.place);
    sheet[at] = was;
}

/* The same with the ten-bit element, which takes words of ten bits as they are found. */
static void try_number10(size_t n, size_t at, uint16_t changed, uint64_t number, size_t k, uint64_t word)
{
    uint16_t was = sheet[at];
    sheet[at] = changed;
    vanc_element_written written = vanc_mxf_write10(sheet, n, false, element, VANC_ELEMENT10_MAX);
    expect(written.number == number && written.place == k && written.word == word, "mxf write10, packet", k, written.number, written.place);
    sheet[at] = was;
}

/* One byte of a string changed: reading refuses packet k. */
static void try_byte(size_t at, uint8_t changed, uint64_t number, size_t k)
{
    uint8_t was = area[places[at]];
    area[places[at]] = changed;
    vanc_read_back read = vanc_read(2, area, sizeof area, back, VANC_SHEET_MAX);
    expect(read.number == number && read.place == k, "read, packet", k, read.number, read.place);
    area[places[at]] = was;
}

static void try_packets_at_fault(void)
{
    size_t n = make_sheet(2, LIMIT, LIMIT, 0);
    for (size_t k = 0; k < LIMIT; k++) {
        size_t location = 3 + 2 * k, packet = 4 + 2 * LIMIT + 7 * k;
        try_number(n, location, 1126, VANC_REFUSED_LOCATION, k, 0);
        try_number(n, location + 1, 4, VANC_REFUSED_LOCATION, k, 0);
        try_number(n, location, 584, VANC_REFUSED_PICTURE_LINE, k, 0);
        try_number(n, packet + 2, 0, VANC_REFUSED_START, k, 2);
        try_number(n, packet + 4, 0, VANC_REFUSED_WORD, k, 4);
        try_number(n, packet + 6, 0, VANC_REFUSED_CHECKSUM, k, 6);
        try_number(n, location, 0, VANC_REFUSED_NO_LINE, k, 0);
        try_number10(n, location, 1126, VANC_REFUSED_LOCATION, k, 0);
        try_number10(n, location, 584, VANC_REFUSED_PICTURE_LINE, k, 0);
        try_number10(n, packet + 2, 0, VANC_REFUSED_START, k, 2);
        try_number10(n, packet + 4, 0x400, VANC_REFUSED_WORD, k, 4);
        try_number10(n, packet + 6, 0x646, VANC_REFUSED_WORD, k, 6);
        try_number10(n, packet + 6, 0, VANC_DONE, 0, 0);
        try_number10(n, location, 0, VANC_REFUSED_NO_LINE, k, 0);
    }
    vanc_lay(sheet, n, 2, area, sizeof area);
    for (size_t k = 0; k < LIMIT; k++) {
        /* LE 1 and line 0; line 7 for line 9; CS; and a DC that is longer than what is left, or has for CS a byte of a later packet. */
        bool cut = 7 * k + 255 + 7 > STRING;
        try_byte(7 * k, 0x80, VANC_REFUSED_LINE, k);
        try_byte(7 * k, 0x87, VANC_REFUSED_PICTURE_LINE, k);
        try_byte(7 * k + 6, 0x45, VANC_REFUSED_STORED_CHECKSUM, k);
        try_byte(7 * k + 5, 0xFF, cut ? VANC_REFUSED_LENGTH : VANC_REFUSED_STORED_CHECKSUM, k);
    }
    /* All packets are tested before they are counted: there may be far more than locations. */
    n = make_sheet(2, LIMIT, MANY, 0);
    for (size_t k = 0; k < MANY; k += 61) {
        try_number(n, 4 + 2 * LIMIT + 7 * k + 6, 0, VANC_REFUSED_CHECKSUM, k, 6);
        try_number10(n, 4 + 2 * LIMIT + 7 * k + 6, 0x400, VANC_REFUSED_WORD, k, 6);
    }
}

/* The longest ten-bit element: 65,535 words in as many packets as there may be, each DC a multiple of three. All other words are 000h, as found. */
static void try_longest(void)
{
    size_t n = 4 + 2 * LIMIT, threes = (65535 - 7 * LIMIT) / 3;
    make_sheet(2, LIMIT, LIMIT, 0);
    sheet[n - 1] = 65535;
    for (size_t k = 0; k < LIMIT; k++) {
        size_t dc = 3 * (threes / LIMIT + (k < threes % LIMIT));
        memset(sheet + n, 0, (dc + 7) * sizeof *sheet);
        sheet[n + 1] = sheet[n + 2] = 0x3FF;
        sheet[n + 5] = (uint16_t)dc;
        n += dc + 7;
    }
    vanc_element_written written = vanc_mxf_write10(sheet, n, false, element, VANC_ELEMENT10_MAX);
    expect(written.number == VANC_DONE && written.bytes == VANC_ELEMENT10_MAX, "mxf write10, numbers", n, written.number, written.place);
    vanc_element_read read = vanc_mxf_read10(2, false, element, written.bytes, back, VANC_ELEMENT_SHEET_MAX);
    expect(n == VANC_ELEMENT_SHEET_MAX && is_sheet(read.number, read.numbers, n), "mxf read10, numbers", n, read.number, read.place);
    written = vanc_mxf_write10(sheet, n, false, element, VANC_ELEMENT10_MAX - 1);
    read = vanc_mxf_read10(2, false, element, VANC_ELEMENT10_MAX, back, VANC_ELEMENT_SHEET_MAX - 1);
    expect(written.number == VANC_REFUSED_BUFFER, "mxf write10, a byte less", n, written.number, written.place);
    expect(read.number == VANC_REFUSED_BUFFER, "mxf read10, a number less", n, read.number, read.place);
}

/* As many packets as the limit, and behind them three bytes but for the user bytes: all fill, or it is 5. */
static void try_bytes_behind(size_t user)
{
    size_t n = make_sheet(2, LIMIT, LIMIT, user), first = 7 * LIMIT + user;
    vanc_lay(sheet, n, 2, area, sizeof area);
    for (size_t at = first; at < STRING; at++)
        for (size_t other = at; other < STRING; other++)
            /* One byte with every value, two with some of all pairs; both steps end with fill, as it was. */
            for (unsigned bytes = 0; bytes <= 0xFFFF; bytes += at == other ? 0x101 : 0x11) {
                area[places[at]] = (uint8_t)(bytes >> 8);
                area[places[other]] = (uint8_t)bytes;
                vanc_read_back read = vanc_read(2, area, sizeof area, back, VANC_SHEET_MAX);
                bool refused = read.number == VANC_REFUSED_LIMIT && read.place == LIMIT && read.packing + read.packets + read.numbers == 0;
                expect(bytes == 0xFFFF ? is_sheet(read.number, read.numbers, n) : refused, "read, bytes behind", bytes, read.number, read.place);
            }
}

int main(void)
{
    size_t found = 0;
    for (size_t sequence = 0; sequence < 12; sequence++)
        for (size_t block = 0; block < 3; block++)
            for (size_t channel = 0; channel < 4; channel++) {
                size_t start = 80 * (3 * (12 * channel + sequence) + block);
                size_t from = sequence % 2 == 1 && block == 0 ? 33 : 3, to = sequence % 2 == 0 && block == 2 ? 47 : 77;
                for (size_t byte = from + 3; byte <= to; byte++)
                    places[found++] = start + byte;
            }
    for (unsigned system = 1; system <= 3; system++)
        for (size_t packets = 0; packets <= MORE; packets++)
            try_count(system, packets);
    try_packets_at_fault();
    try_longest();
    for (size_t user = 0; user < 3; user++)
        try_bytes_behind(user);
    /* With three user bytes the frame is full, and its sheet the longest of all. */
    size_t n = make_sheet(2, LIMIT, LIMIT, 3);
    vanc_lay(sheet, n, 2, area, sizeof area);
    vanc_read_back longest = vanc_read(2, area, sizeof area, back, VANC_SHEET_MAX), short_of_one = vanc_read(2, area, sizeof area, back, n - 1);
    expect(n == VANC_SHEET_MAX && is_sheet(longest.number, longest.numbers, n), "read, numbers", n, longest.number, longest.place);
    expect(short_of_one.number == VANC_REFUSED_BUFFER, "read, numbers", n - 1, short_of_one.number, short_of_one.place);
    printf("%lu answers about the packet limit, %lu wrong\n", answers, wrong);
    return wrong != 0;
}
