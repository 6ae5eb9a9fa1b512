/*
 * Lays or reads one frame, or writes or reads its element, TIMES times over:
 *
 *     frames CALL SYSTEM PACKING LIST sound|early|late TIMES [time]
 *
 * CALL     lay, read, write-element, read-element; write-element10, read-element10 for the ten-bit element
 * PACKING  of no effect on an element
 * LIST     the packets, as 23x255+1x160: 23 of 255 user words and one of 160; 0x0 is none
 * early    reading a frame: DID of the first packet is damaged in the area; late: that of the last
 *
 * Prints what the last call gave back and a hash of what it wrote; with `time`, then the nanoseconds of a call. Built with -DBASELINE it
 * calls a baseline, else the library.
 */
#include <stdbool.h>
#include <stdio.h>
#include <stdlib.h>
#include <string.h>
#include <time.h>

#include "baseline.h"

#ifdef BASELINE
#define LAY baseline_lay
#define READ baseline_read
#define WRITE_ELEMENT baseline_mxf_write
#define READ_ELEMENT baseline_mxf_read
#define WRITE_ELEMENT10 baseline_mxf_write10
#define READ_ELEMENT10 baseline_mxf_read10
#else
#define LAY vanc_lay
#define READ vanc_read
#define WRITE_ELEMENT vanc_mxf_write
#define READ_ELEMENT vanc_mxf_read
#define WRITE_ELEMENT10 vanc_mxf_write10
#define READ_ELEMENT10 vanc_mxf_read10
#endif

enum { AREA = VANC_AREA_1080_50I, SHEET = VANC_ELEMENT_SHEET_MAX, ELEMENT = VANC_ELEMENT10_MAX, NOBODYS = 0xA5 };
enum { LAYS, READS, WRITES_ELEMENT, READS_ELEMENT, WRITES_ELEMENT10, READS_ELEMENT10 };

static uint16_t sheet[SHEET], back[SHEET];
static uint8_t area[AREA], element[ELEMENT];
static size_t sequences, area_size, packets, words, last_packet, element_size;

static void fail(const char *why)
{
    fprintf(stderr, "frames: %s\n", why);
    exit(2);
}

/* The same bytes in every program and on every machine. */
static unsigned next_byte(void)
{
    static uint32_t state = 375;
    state = state * 1664525 + 1013904223;
    return state >> 24;
}

static uint16_t with_parity(unsigned byte)
{
    unsigned ones = 0;
    for (unsigned bits = byte; bits != 0; bits >>= 1)
        ones += bits & 1;
    return (uint16_t)(ones % 2 == 1 ? byte + 0x100 : byte + 0x200);
}

static void add_packet(uint16_t *to, unsigned count)
{
    unsigned sum = 0;
    uint16_t *word = to;
    *word++ = 0x000;
    *word++ = 0x3FF;
    *word++ = 0x3FF;
    *word++ = with_parity(0x61);
    *word++ = with_parity(0x01);
    *word++ = with_parity(count);
    for (unsigned k = 0; k < count; k++)
        *word++ = with_parity(next_byte());
    for (uint16_t *w = to + 3; w < word; w++)
        sum += *w % 512;
    *word = (uint16_t)(sum % 512 + (sum / 256 % 2 == 0 ? 512 : 0));
}

/* How many packets a list has: they are needed before the first word's place is known. */
static size_t packets_of(const char *list)
{
    size_t all = 0;
    for (const char *part = list; part != NULL; part = strchr(part, '+')) {
        part += *part == '+';
        all += strtoul(part, NULL, 10);
    }
    return all;
}

/* Packets are spread over all lines on which they may stand (RP 291-2, table 3a). The first has none in a frame; in an element each has one. */
static uint16_t line_of(uint64_t system, size_t packet, bool in_element)
{
    static const struct {
        size_t lines;
        uint16_t line[41];
    } allowed[] = {
        { 41, { 1,   2,   3,   4,   5,   6,   9,   10,  11,  12,  13,  14,  15,  16,  17,  18,  19,  20,  561,  562, 563,
                564, 565, 566, 567, 568, 571, 572, 573, 574, 575, 576, 577, 578, 579, 580, 581, 582, 583, 1124, 1125 } },
        { 28, { 1, 2, 3, 4, 5, 6, 9, 10, 11, 12, 13, 14, 15, 16, 17, 18, 19, 20, 21, 22, 23, 24, 25, 746, 747, 748, 749, 750 } },
    };
    size_t which = system == 3;
    return packet == 0 && !in_element ? 0 : allowed[which].line[packet * 37 % allowed[which].lines];
}

static void make_sheet(uint64_t system, const char *list, bool in_element)
{
    packets = packets_of(list);
    uint16_t *section = sheet + 3 + 2 * packets;
    for (const char *part = list; part != NULL; part = strchr(part, '+')) {
        unsigned many, count;
        part += *part == '+';
        if (sscanf(part, "%ux%u", &many, &count) != 2 || count > 255)
            fail("no such list");
        for (; many > 0; many--) {
            if ((size_t)(section + 1 - sheet) + words + count + 7 > SHEET)
                fail("the list is longer than a sheet");
            last_packet = words;
            add_packet(section + 1 + words, count);
            words += count + 7;
        }
    }
    sheet[0] = 1;
    sheet[1] = (uint16_t)system;
    sheet[2] = (uint16_t)packets;
    for (size_t k = 0; k < packets; k++) {
        sheet[3 + 2 * k] = line_of(system, k, in_element);
        sheet[4 + 2 * k] = (uint16_t)(k % 4);
    }
    *section = (uint16_t)words;
}

/* Where byte `place` of those that the blocks carry stands in the area; the first `skip` user bytes of each block are not counted. */
static size_t area_place(size_t place, size_t skip)
{
    for (size_t sequence = 0; sequence < sequences; sequence++)
        for (size_t block = 0; block < 3; block++)
            for (size_t channel = 0; channel < 4; channel++) {
                size_t odd = sequence % 2, half = block == (odd ? 0 : 2);
                size_t size = (half ? 45 : 75) - skip;
                if (place < size)
                    return 80 * (3 * (sequences * channel + sequence) + block) + (odd && half ? 33 : 3) + skip + place;
                place -= size;
            }
    fail("no such byte");
    return 0;
}

/* The packs of 5 in front of the packet whose words begin at `packet`. */
static size_t packs_before(size_t packet)
{
    size_t packs = 0;
    for (size_t at = 0; at < packet;) {
        size_t count = sheet[4 + 2 * packets + at + 5] % 256;
        packs += 2 + (count + 3) / 4;
        at += count + 7;
    }
    return packs;
}

static void damage(uint64_t packing, size_t packet)
{
    size_t did = packing == 1 ? area_place(5 * packs_before(packet) + 6, 0) : area_place(packet + 3, 3);
    area[did] ^= 1;
}

static uint64_t hash(const void *from, size_t size)
{
    uint64_t h = 14695981039346656037u;
    for (size_t i = 0; i < size; i++)
        h = (h ^ ((const uint8_t *)from)[i]) * 1099511628211u;
    return h;
}

static void lay_times(uint64_t packing, long times)
{
    vanc_laid r = { 0 };
    for (long k = 0; k < times; k++)
        r = LAY(sheet, 4 + 2 * packets + words, packing, area, area_size);
    printf("%lu %lu %lu %lu %lu %016lx\n", r.number, r.place, r.word, r.packs, r.bytes, hash(area, sizeof area));
}

static void read_times(uint64_t system, long times)
{
    vanc_read_back r = { 0 };
    for (long k = 0; k < times; k++)
        r = READ(system, area, area_size, back, SHEET);
    printf("%lu %lu %lu %lu %lu %016lx\n", r.number, r.place, r.packing, r.packets, r.numbers, hash(back, sizeof back));
}

static void print_written(vanc_element_written r)
{
    printf("%lu %lu %lu %lu %lu %016lx\n", r.number, r.place, r.word, r.packets, r.bytes, hash(element, sizeof element));
}

static void write_times(long times)
{
    vanc_element_written r = { 0 };
    for (long k = 0; k < times; k++)
        r = WRITE_ELEMENT(sheet, 4 + 2 * packets + words, false, element, ELEMENT);
    print_written(r);
}

static void write10_times(long times)
{
    vanc_element_written r = { 0 };
    for (long k = 0; k < times; k++)
        r = WRITE_ELEMENT10(sheet, 4 + 2 * packets + words, false, element, ELEMENT);
    print_written(r);
}

static void print_element_read(vanc_element_read r)
{
    printf("%lu %lu %lu %lu %016lx\n", r.number, r.place, r.packets, r.numbers, hash(back, sizeof back));
}

static void read_element_times(uint64_t system, long times)
{
    vanc_element_read r = { 0 };
    for (long k = 0; k < times; k++)
        r = READ_ELEMENT(system, false, element, element_size, back, SHEET);
    print_element_read(r);
}

static void read_element10_times(uint64_t system, long times)
{
    vanc_element_read r = { 0 };
    for (long k = 0; k < times; k++)
        r = READ_ELEMENT10(system, false, element, element_size, back, SHEET);
    print_element_read(r);
}

/* What reading reads: the area, damaged where that is asked for. */
static void make_area(uint64_t packing, const char *state)
{
    if (LAY(sheet, 4 + 2 * packets + words, packing, area, area_size).number != 0)
        fail("the list is not laid");
    if (strcmp(state, "sound") != 0)
        damage(packing, strcmp(state, "early") == 0 ? 0 : last_packet);
}

static void make_element(bool ten)
{
    size_t length = 4 + 2 * packets + words;
    vanc_element_written r = ten ? WRITE_ELEMENT10(sheet, length, false, element, ELEMENT) : WRITE_ELEMENT(sheet, length, false, element, ELEMENT);
    if (r.number != 0)
        fail("the list is not written");
    element_size = r.bytes;
}

static int call_of(const char *name)
{
    static const char *const names[] = { "lay", "read", "write-element", "read-element", "write-element10", "read-element10" };
    for (int call = LAYS; call <= READS_ELEMENT10; call++)
        if (strcmp(name, names[call]) == 0)
            return call;
    fail("no such call");
    return 0;
}

int main(int argc, char **argv)
{
    if (argc != 7 && argc != 8)
        fail("frames CALL SYSTEM PACKING LIST sound|early|late TIMES [time]");
    uint64_t system = strtoul(argv[2], NULL, 10), packing = strtoul(argv[3], NULL, 10);
    long times = strtol(argv[6], NULL, 10);
    int call = call_of(argv[1]);
    sequences = system == 2 ? 12 : 10;
    area_size = 960 * sequences;
    memset(area, NOBODYS, sizeof area);
    memset(element, NOBODYS, sizeof element);
    make_sheet(system, argv[4], call >= WRITES_ELEMENT);
    if (call == READS)
        make_area(packing, argv[5]);
    else if (call == READS_ELEMENT || call == READS_ELEMENT10)
        make_element(call == READS_ELEMENT10);

    clock_t begun = clock();
    if (call == LAYS)
        lay_times(packing, times);
    else if (call == READS)
        read_times(system, times);
    else if (call == WRITES_ELEMENT)
        write_times(times);
    else if (call == READS_ELEMENT)
        read_element_times(system, times);
    else if (call == WRITES_ELEMENT10)
        write10_times(times);
    else
        read_element10_times(system, times);
    if (argc == 8)
        printf("%.1f\n", 1e9 * (double)(clock() - begun) / CLOCKS_PER_SEC / (double)times);
    return 0;
}
