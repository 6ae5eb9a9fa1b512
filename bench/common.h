/*
 * What both baselines say alike. Where they differ, each has its own: the test of a packet, fill, sums and words of user bytes (declared below),
 * and how packs of 5 are laid and opened.
 */
#ifndef COMMON_H
#define COMMON_H

#include <stdbool.h>
#include <string.h>

#include "baseline.h"

/* For loops over packets, which in line would lack the registers that their caller keeps its own in, and for what sound or small packets pass by. */
#define OUT_OF_LINE __attribute__((noinline))

enum { LIMIT = 1275, STARTER = 0xE1, CARRIER = 0xE2, LONG = 0xE3, FILL = 0xFF, MOST = 9360 };

/* Each byte with even parity in bit 8 and its inverse in bit 9. */
static const uint16_t word_of[256] = {
    0x200, 0x101, 0x102, 0x203, 0x104, 0x205, 0x206, 0x107, 0x108, 0x209, 0x20A, 0x10B, 0x20C, 0x10D, 0x10E, 0x20F,
    0x110, 0x211, 0x212, 0x113, 0x214, 0x115, 0x116, 0x217, 0x218, 0x119, 0x11A, 0x21B, 0x11C, 0x21D, 0x21E, 0x11F,
    0x120, 0x221, 0x222, 0x123, 0x224, 0x125, 0x126, 0x227, 0x228, 0x129, 0x12A, 0x22B, 0x12C, 0x22D, 0x22E, 0x12F,
    0x230, 0x131, 0x132, 0x233, 0x134, 0x235, 0x236, 0x137, 0x138, 0x239, 0x23A, 0x13B, 0x23C, 0x13D, 0x13E, 0x23F,
    0x140, 0x241, 0x242, 0x143, 0x244, 0x145, 0x146, 0x247, 0x248, 0x149, 0x14A, 0x24B, 0x14C, 0x24D, 0x24E, 0x14F,
    0x250, 0x151, 0x152, 0x253, 0x154, 0x255, 0x256, 0x157, 0x158, 0x259, 0x25A, 0x15B, 0x25C, 0x15D, 0x15E, 0x25F,
    0x260, 0x161, 0x162, 0x263, 0x164, 0x265, 0x266, 0x167, 0x168, 0x269, 0x26A, 0x16B, 0x26C, 0x16D, 0x16E, 0x26F,
    0x170, 0x271, 0x272, 0x173, 0x274, 0x175, 0x176, 0x277, 0x278, 0x179, 0x17A, 0x27B, 0x17C, 0x27D, 0x27E, 0x17F,
    0x180, 0x281, 0x282, 0x183, 0x284, 0x185, 0x186, 0x287, 0x288, 0x189, 0x18A, 0x28B, 0x18C, 0x28D, 0x28E, 0x18F,
    0x290, 0x191, 0x192, 0x293, 0x194, 0x295, 0x296, 0x197, 0x198, 0x299, 0x29A, 0x19B, 0x29C, 0x19D, 0x19E, 0x29F,
    0x2A0, 0x1A1, 0x1A2, 0x2A3, 0x1A4, 0x2A5, 0x2A6, 0x1A7, 0x1A8, 0x2A9, 0x2AA, 0x1AB, 0x2AC, 0x1AD, 0x1AE, 0x2AF,
    0x1B0, 0x2B1, 0x2B2, 0x1B3, 0x2B4, 0x1B5, 0x1B6, 0x2B7, 0x2B8, 0x1B9, 0x1BA, 0x2BB, 0x1BC, 0x2BD, 0x2BE, 0x1BF,
    0x2C0, 0x1C1, 0x1C2, 0x2C3, 0x1C4, 0x2C5, 0x2C6, 0x1C7, 0x1C8, 0x2C9, 0x2CA, 0x1CB, 0x2CC, 0x1CD, 0x1CE, 0x2CF,
    0x1D0, 0x2D1, 0x2D2, 0x1D3, 0x2D4, 0x1D5, 0x1D6, 0x2D7, 0x2D8, 0x1D9, 0x1DA, 0x2DB, 0x1DC, 0x2DD, 0x2DE, 0x1DF,
    0x1E0, 0x2E1, 0x2E2, 0x1E3, 0x2E4, 0x1E5, 0x1E6, 0x2E7, 0x2E8, 0x1E9, 0x1EA, 0x2EB, 0x1EC, 0x2ED, 0x2EE, 0x1EF,
    0x2F0, 0x1F1, 0x1F2, 0x2F3, 0x1F4, 0x2F5, 0x2F6, 0x1F7, 0x1F8, 0x2F9, 0x2FA, 0x1FB, 0x2FC, 0x1FD, 0x1FE, 0x2FF,
};

/* By line, for every line that eleven bits can say: 20 for one on which no packet may stand (RP 291-2, table 3a), 16 for 0 and past the last. */
static const uint8_t lines_1080[2048] = {
    [0] = 16, [7 ... 8] = 20, [21 ... 560] = 20, [569 ... 570] = 20, [584 ... 1123] = 20, [1126 ... 2047] = 16,
};
static const uint8_t lines_720[2048] = { [0] = 16, [7 ... 8] = 20, [26 ... 745] = 20, [751 ... 2047] = 16 };

typedef struct {
    size_t sequences;
    uint16_t last_line;
    const uint8_t *line_fault;
    uint8_t wrapping; /* of an element's packets */
} frame_system;

static const frame_system systems[] = { { 0 }, { 10, 1125, lines_1080, 1 }, { 12, 1125, lines_1080, 1 }, { 10, 750, lines_720, 4 } };

/* Two sequences: where the user bytes of their six blocks start, and how many they are. */
static const struct {
    uint16_t start, size;
} row[6] = { { 3, 75 }, { 83, 75 }, { 163, 45 }, { 273, 45 }, { 323, 75 }, { 403, 75 } };

/* A sheet, taken apart. What is found out on the way: how many packs of 5 its packets take, and whether one has no line. */
typedef struct {
    const frame_system *system;
    const uint16_t *locations, *words;
    size_t packets, length, packs;
    bool lacks_line;
} list;

/* The first fault of the packet at the front of some words, 0 for none. */
static unsigned packet_fault(const uint16_t *words, size_t left);

/* Whether all bytes are fill, or there is none. */
static bool all_fill(const uint8_t *bytes, size_t size);

/* The sum of user bytes, to eight bits. */
static uint8_t user_sum(const uint8_t *bytes, size_t count);

/* The low bytes of user words. */
static void put_bytes(const uint16_t *restrict words, size_t count, uint8_t *restrict bytes);

/* The words of user bytes, and their sum, to nine bits or more. */
static unsigned put_words(const uint8_t *restrict bytes, size_t count, uint16_t *restrict words);

/* Whether a word is its byte with parity. */
static inline bool is_word(uint16_t word)
{
    return word == word_of[word & 0xFF];
}

/* CS of words with this sum. */
static inline uint16_t check_of(unsigned sum)
{
    return (uint16_t)(((sum & 0x1FF) ^ 0x100) + 0x100);
}

static vanc_laid lay_refusal(unsigned number, size_t place)
{
    return (vanc_laid){ .number = number, .place = place };
}

static vanc_read_back read_refusal(unsigned number, size_t place)
{
    return (vanc_read_back){ .number = number, .place = place };
}

/* The user bytes of all blocks, in the order of laying. */
static inline void collect(size_t n, const uint8_t *restrict area, uint8_t *restrict bytes)
{
    for (size_t from = 0; from < 240 * n; from += 480)
        for (size_t block = 0; block < 6; block++)
            for (size_t channel = 0; channel < 4; channel++) {
                const uint8_t *user = area + from + row[block].start + 240 * n * channel;
                if (row[block].size == 75)
                    memcpy(bytes, user, 75);
                else
                    memcpy(bytes, user, 45);
                bytes += row[block].size;
            }
}

static inline void spread(size_t n, const uint8_t *restrict bytes, uint8_t *restrict area)
{
    for (size_t from = 0; from < 240 * n; from += 480)
        for (size_t block = 0; block < 6; block++)
            for (size_t channel = 0; channel < 4; channel++) {
                uint8_t *user = area + from + row[block].start + 240 * n * channel;
                if (row[block].size == 75)
                    memcpy(user, bytes, 75);
                else
                    memcpy(user, bytes, 45);
                bytes += row[block].size;
            }
}

/* One long pack to a block's user bytes; `last` where the string ends in it. */
static inline void lay_pack(const uint8_t *restrict string, size_t size, bool last, uint8_t *restrict user)
{
    user[0] = LONG;
    user[1] = last ? 0xFE : 0xFF;
    user[2] = 0xFF;
    if (size == 75)
        memcpy(user + 3, string, 72);
    else
        memcpy(user + 3, string, 42);
}

/* The string in long packs, as many as are needed, and fill; fill stands behind the string too. Its length is at most 744 n. */
static inline size_t lay_long(size_t n, const uint8_t *restrict string, size_t length, uint8_t *restrict area)
{
    size_t packs = 0, done = 0;
    for (size_t from = 0; from < 240 * n; from += 480)
        for (size_t block = 0; block < 6; block++)
            for (size_t channel = 0; channel < 4; channel++) {
                uint8_t *user = area + from + row[block].start + 240 * n * channel;
                size_t size = row[block].size;
                if (done < length) {
                    lay_pack(string + done, size, length - done <= size - 3, user);
                    done += size - 3;
                    packs++;
                } else if (size == 75) {
                    memset(user, FILL, 75);
                } else {
                    memset(user, FILL, 45);
                }
            }
    return packs;
}

/* A block's user bytes, of which there are 75 or 45, without the first three where they are a pack's. */
static inline void copy_user(const uint8_t *restrict user, size_t size, bool is_pack, uint8_t *restrict to)
{
    if (is_pack && size == 75)
        memcpy(to, user + 3, 72);
    else if (is_pack)
        memcpy(to, user + 3, 42);
    else if (size == 75)
        memcpy(to, user, 75);
    else
        memcpy(to, user, 45);
}

/*
 * The string bytes of long packs: how many, and how many the last pack has; false where the packs are not as they should be. The user bytes
 * of the blocks behind the last pack are gathered behind the string, where they are tested for fill at once.
 */
static inline bool open_long(size_t n, const uint8_t *restrict area, uint8_t *restrict string, size_t *length, size_t *last)
{
    size_t done = 0;
    bool is_pack = true;
    for (size_t from = 0; from < 240 * n; from += 480)
        for (size_t block = 0; block < 6; block++)
            for (size_t channel = 0; channel < 4; channel++) {
                const uint8_t *user = area + from + row[block].start + 240 * n * channel;
                if (is_pack && user[0] != LONG)
                    return false;
                copy_user(user, row[block].size, is_pack, string + done);
                done += is_pack ? row[block].size - 3u : row[block].size;
                if (is_pack && (user[1] & 1) == 0) {
                    is_pack = false;
                    *length = done;
                    *last = row[block].size - 3u;
                }
            }
    return !is_pack && all_fill(string + *length, done - *length);
}

/* Takes a sheet apart: its fault, 2 or 3, or 0. */
static unsigned take_apart(const uint16_t *sheet, size_t sheet_len, list *found)
{
    if (sheet_len < 4 || sheet[0] != 1)
        return 2;
    size_t section = 3 + 2 * (size_t)sheet[2];
    if (sheet_len < section + 1 || sheet_len != section + 1 + sheet[section])
        return 2;
    if (sheet[1] < 1 || sheet[1] > 3)
        return 3;
    *found = (list){ &systems[sheet[1]], sheet + 3, sheet + section + 1, sheet[2], sheet[section], 0, false };
    return 0;
}

/*
 * 6 and 20 of the locations, in one pass: it finds out which faults of lines there are, and the first 20 is looked for only where there is one,
 * since a 6 behind it would come first. Line 0 is no line.
 */
static inline vanc_laid locations_refusal(list *sheet)
{
    const uint16_t *location = sheet->locations, *end = location + 2 * sheet->packets;
    uint16_t last_line = sheet->system->last_line;
    const uint8_t *line_fault = sheet->system->line_fault;
    uint8_t faults = 0;
    for (; location < end; location += 2) {
        if (location[0] > last_line || location[1] > 3)
            return lay_refusal(6, (size_t)(location - sheet->locations) / 2);
        faults |= line_fault[location[0]];
    }
    sheet->lacks_line = faults != 0;
    if (faults == 0 || faults == 16)
        return lay_refusal(0, 0);
    size_t place = 0;
    while (line_fault[sheet->locations[2 * place]] != 20)
        place++;
    return lay_refusal(20, place);
}

/* The first word at fault of the packet at the front of some words, which has this fault. */
static size_t word_at_fault(unsigned fault, const uint16_t *words, size_t left)
{
    static const uint16_t flag[3] = { 0x000, 0x3FF, 0x3FF };
    size_t word = 0;
    switch (fault) {
    case 7:
        while (word < 3 && word < left && words[word] == flag[word])
            word++;
        return word < 3 ? word : left;
    case 8:
        word = 3;
        while (is_word(words[word]))
            word++;
        return word;
    case 9:
        return left;
    default:
        return (words[5] & 0xFF) + 6u;
    }
}

/* The refusal of the packet at the front of some words. Out of line: a sound packet does not pay for the word, nor its loops for registers. */
OUT_OF_LINE static vanc_laid packet_refusal(unsigned fault, size_t place, const uint16_t *words, size_t left)
{
    return (vanc_laid){ .number = fault, .place = place, .word = word_at_fault(fault, words, left) };
}

/* 7 to 11; where there is no fault, the packs of 5 are counted. */
OUT_OF_LINE static vanc_laid packets_refusal(list *sheet)
{
    const uint16_t *words = sheet->words;
    size_t left = sheet->length, packets = 0, carriers = 0;
    for (; left > 0; packets++) {
        unsigned fault = packet_fault(words, left);
        if (fault != 0)
            return packet_refusal(fault, packets, words, left);
        size_t size = (words[5] & 0xFF) + 7u;
        carriers += size / 4;
        words += size;
        left -= size;
    }
    sheet->packs = packets + carriers;
    return lay_refusal(packets == sheet->packets ? 0 : 11, 0);
}

/* 5, 6, 20 and 7 to 11, the tests of a sheet whose counts agree. */
static vanc_laid list_refusal(list *sheet)
{
    if (sheet->packets > LIMIT)
        return lay_refusal(5, 0);
    vanc_laid refusal = locations_refusal(sheet);
    return refusal.number != 0 ? refusal : packets_refusal(sheet);
}

/* All tests of laying, in their order. */
static vanc_laid sheet_refusal(const uint16_t *numbers, size_t count, uint64_t packing, size_t area_len, list *sheet)
{
    if (packing != 1 && packing != 2)
        return lay_refusal(1, 0);
    unsigned fault = take_apart(numbers, count, sheet);
    if (fault != 0)
        return lay_refusal(fault, 0);
    if (area_len != 960 * sheet->system->sequences)
        return lay_refusal(4, 0);
    vanc_laid refusal = list_refusal(sheet);
    if (refusal.number != 0)
        return refusal;
    size_t n = sheet->system->sequences;
    return lay_refusal((packing == 1 ? sheet->packs > 156 * n : sheet->length > 744 * n) ? 12 : 0, 0);
}

/* The two header bytes of a packet on this line, with these flags; the third is FFh. */
static inline void put_header(uint16_t line, uint16_t flags, uint8_t *to)
{
    static const uint8_t flag_bits[4] = { 0x60, 0xE0, 0x70, 0xF0 };
    to[0] = (uint8_t)(line == 0 ? 0 : 0x80 | line);
    to[1] = (uint8_t)(flag_bits[flags] | line >> 7);
}

/* 15, 16 and 20 of the DANC packet at the front of some bytes; `line_fault` is the system's. */
static inline unsigned danc_fault(const uint8_t *packet, const uint8_t *line_fault)
{
    size_t user = packet[5];
    uint8_t sum = (uint8_t)(packet[3] + packet[4] + user + user_sum(packet + 6, user));
    if (sum != packet[6 + user])
        return 15;
    if ((packet[0] & 0x80) == 0)
        return 0;
    unsigned line = (packet[0] & 0x7Fu) | (packet[1] & 0x0Fu) << 7;
    return line_fault[line];
}

/* Where fill begins, if the packs of 5 are in order; 0 where they are not. One more byte of fill, behind the last pack, ends each run. */
static size_t packs_end(const uint8_t *bytes, size_t total)
{
    const uint8_t *pack = bytes;
    while (*pack == STARTER) {
        pack += 5;
        if (*pack != CARRIER)
            return 0;
        while (*pack == CARRIER)
            pack += 5;
    }
    size_t end = (size_t)(pack - bytes);
    return all_fill(pack, total - end) ? end : 0;
}

/* The string of long packs; `last` is how many string bytes the last pack has. Its packets and length, or a refusal. */
OUT_OF_LINE static vanc_read_back walk(const uint8_t *string, size_t length, size_t last, const uint8_t *line_fault)
{
    const uint8_t *packet = string;
    size_t packets = 0, left = length;
    for (; left >= last || !all_fill(packet, left); packets++) {
        if (packets == LIMIT)
            return read_refusal(5, LIMIT);
        if (left < 7 || left < packet[5] + 7u)
            return read_refusal(14, packets);
        unsigned fault = danc_fault(packet, line_fault);
        if (fault != 0)
            return read_refusal(fault, packets);
        left -= packet[5] + 7u;
        packet += packet[5] + 7u;
    }
    return (vanc_read_back){ .packing = 2, .packets = packets, .numbers = length - left };
}

/* The words of a packet from its bytes, DID to the last user byte: the flag, theirs, CS. How many they are. */
static inline size_t put_packet(const uint8_t *restrict bytes, uint16_t *restrict words)
{
    size_t user = bytes[2];
    words[0] = 0x000;
    words[1] = 0x3FF;
    words[2] = 0x3FF;
    words[3] = word_of[bytes[0]];
    words[4] = word_of[bytes[1]];
    words[5] = word_of[bytes[2]];
    unsigned sum = words[3] + words[4] + words[5];
    words[6 + user] = check_of(sum + put_words(bytes + 3, user, words + 6));
    return 7 + user;
}

/* The sheet of a string whose packets and length are in `found`. */
OUT_OF_LINE static vanc_read_back write_sheet(uint64_t system, const uint8_t *restrict string, vanc_read_back found, uint16_t *restrict sheet,
                                              size_t sheet_len)
{
    size_t length = found.numbers;
    found.numbers += 4 + 2 * found.packets;
    if (sheet_len < found.numbers)
        return read_refusal(17, 0);
    sheet[0] = 1;
    sheet[1] = (uint16_t)system;
    sheet[2] = (uint16_t)found.packets;
    uint16_t *location = sheet + 3, *words = sheet + 3 + 2 * found.packets;
    *words++ = (uint16_t)length;
    for (size_t k = 0; k < found.packets; k++) {
        location[0] = string[0] & 0x80 ? (uint16_t)((string[0] & 0x7F) | (string[1] & 0x0F) << 7) : 0;
        location[1] = (uint16_t)(string[1] >> 7 | (string[1] >> 3 & 2));
        location += 2;
        size_t size = put_packet(string + 3, words);
        words += size;
        string += size;
    }
    return found;
}

#endif
