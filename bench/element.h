/*
 * vanc_mxf_write and vanc_mxf_read (ST 436-1, tables 5 to 7), which both baselines say alike but for the user words. An element may have 65,535
 * words, too many to hold: so the whole of it is tested first, and written then.
 *
 * What the ten-bit element (element10.h) has in common with it stands here too; `ten` says which of the two is meant.
 */
#ifndef ELEMENT_H
#define ELEMENT_H

#include "common.h"

/* Key, length and number of packets; line, wrapping, coding, sample count, array count and array element length in front of a packet's bytes. */
enum { HEAD = 22, FRONT = 14, LONG_FORM = 0x83, LUMA = 4, COLOUR = 5, LUMA10 = 7, COLOUR10 = 8, MOST_WORDS = 65535 };

static const uint8_t key[16] = { 0x06, 0x0E, 0x2B, 0x34, 0x01, 0x02, 0x01, 0x01, 0x0D, 0x01, 0x03, 0x01, 0x17, 0x01, 0x02, 0x01 };

static inline void put_16(size_t number, uint8_t *to)
{
    to[0] = (uint8_t)(number >> 8);
    to[1] = (uint8_t)number;
}

static inline size_t get_16(const uint8_t *from)
{
    return (size_t)from[0] << 8 | from[1];
}

static inline size_t get_32(const uint8_t *from)
{
    return (size_t)from[0] << 24 | (size_t)from[1] << 16 | (size_t)from[2] << 8 | from[3];
}

/* Samples that a packet has beside its user words: DID, SDID and DC, and in ten bits CS. */
static inline size_t beside_user(bool ten)
{
    return ten ? 4 : 3;
}

/* The bytes of so many samples: one each, or four for each three (ST 436-1, 5.4.4). */
static inline size_t array_size(size_t samples, bool ten)
{
    return ten ? (samples + 2) / 3 * 4 : samples;
}

static vanc_element_written write_refusal(vanc_laid refusal)
{
    return (vanc_element_written){ .number = refusal.number, .place = refusal.place, .word = refusal.word };
}

static vanc_element_read element_refusal(unsigned number, size_t place)
{
    return (vanc_element_read){ .number = number, .place = place };
}

/* In 720 an element serves the packets with its FI, in 1080 all. */
static inline bool serves(const list *sheet, bool fi, uint16_t flags)
{
    return sheet->system->wrapping == 1 || (flags & 1) == fi;
}

/* 18: the first packet that is served and has no line, or how many packets there are. */
static size_t first_without_line(const list *sheet, bool fi)
{
    size_t k = 0;
    while (k < sheet->packets && !(sheet->locations[2 * k] == 0 && serves(sheet, fi, sheet->locations[2 * k + 1])))
        k++;
    return k;
}

/* How many packets are served, and the element's length: ten bytes more for a packet than it has words. */
static size_t count_served(const list *sheet, bool fi, size_t *bytes)
{
    *bytes = HEAD + sheet->length + 10 * sheet->packets;
    size_t served = sheet->packets;
    if (sheet->system->wrapping == 1)
        return served;
    const uint16_t *words = sheet->words;
    for (size_t k = 0; k < sheet->packets; k++) {
        size_t size = (words[5] & 0xFF) + 7u;
        if (!serves(sheet, fi, sheet->locations[2 * k + 1])) {
            *bytes -= size + 10;
            served--;
        }
        words += size;
    }
    return served;
}

/* A packet of an element; its length. */
static inline size_t put_structure(const uint16_t *location, uint8_t wrapping, const uint16_t *restrict words, uint8_t *restrict to)
{
    size_t user = words[5] & 0xFF;
    put_16(location[0], to);
    to[2] = wrapping;
    to[3] = location[1] & 2 ? LUMA : COLOUR;
    put_16(user + 3, to + 4);
    put_16(0, to + 6);
    put_16(user + 3, to + 8);
    put_16(0, to + 10);
    put_16(1, to + 12);
    to[FRONT] = (uint8_t)words[3];
    to[FRONT + 1] = (uint8_t)words[4];
    to[FRONT + 2] = (uint8_t)words[5];
    put_bytes(words + 6, user, to + FRONT + 3);
    return FRONT + 3 + user;
}

OUT_OF_LINE static void put_structures(const list *sheet, bool fi, uint8_t *to)
{
    const uint16_t *location = sheet->locations, *end = location + 2 * sheet->packets, *words = sheet->words;
    uint8_t wrapping = sheet->system->wrapping;
    for (; location < end; location += 2) {
        if (wrapping == 1 || (location[1] & 1) == fi)
            to += put_structure(location, wrapping, words, to);
        words += (words[5] & 0xFF) + 7;
    }
}

/* The head of an element of so many bytes and packets. */
static inline void put_head(size_t bytes, size_t packets, uint8_t *element)
{
    memcpy(element, key, 16);
    element[16] = LONG_FORM;
    element[17] = (uint8_t)((bytes - 20) >> 16);
    put_16(bytes - 20, element + 18);
    put_16(packets, element + 20);
}

vanc_element_written baseline_mxf_write(const uint16_t *numbers, size_t count, bool fi, uint8_t *element, size_t element_len)
{
    list sheet;
    unsigned fault = take_apart(numbers, count, &sheet);
    vanc_laid refusal = fault != 0 ? lay_refusal(fault, 0) : list_refusal(&sheet);
    if (refusal.number != 0)
        return write_refusal(refusal);
    size_t lacking = sheet.lacks_line ? first_without_line(&sheet, fi) : sheet.packets;
    if (lacking < sheet.packets)
        return write_refusal(lay_refusal(18, lacking));
    size_t bytes, served = count_served(&sheet, fi, &bytes);
    if (bytes > element_len)
        return write_refusal(lay_refusal(17, 0));
    put_head(bytes, served, element);
    put_structures(&sheet, fi, element + HEAD);
    return (vanc_element_written){ .packets = served, .bytes = bytes };
}

/* The first byte at fault of the head, or HEAD; where bytes are missing, the element's length. */
static size_t head_fault(const uint8_t *element, size_t length)
{
    for (size_t at = 0; at < 16; at++)
        if (at == length || element[at] != key[at])
            return at;
    if (length == 16 || element[16] != LONG_FORM)
        return 16;
    if (length < 20)
        return length;
    if (20 + ((size_t)element[17] << 16 | get_16(element + 18)) != length)
        return 17;
    return length < HEAD ? length : HEAD;
}

static inline bool is_coding(uint8_t coding, bool ten)
{
    return ten ? coding == LUMA10 || coding == COLOUR10 : coding == LUMA || coding == COLOUR;
}

/* Whether a packet of an element is of its form; `left` is how many bytes are left from its first. */
static inline bool is_structure(const uint8_t *at, size_t left, const frame_system *system)
{
    if (left < FRONT + 3)
        return false;
    size_t line = get_16(at), samples = get_16(at + 4), count = get_32(at + 6);
    return line - 1 < system->last_line && at[2] == system->wrapping && (at[3] & 0xFE) == LUMA && samples - 3 < 256 && count >= samples &&
           count <= left - FRONT && get_32(at + 10) == 1 && at[FRONT + 2] == samples - 3;
}

/* The first byte at fault of a packet of an element, which is not of its form, from its first byte; where bytes are missing, as many as are left. */
OUT_OF_LINE static size_t structure_fault(const uint8_t *at, size_t left, const frame_system *system, bool ten)
{
    if (left < 2 || get_16(at) == 0 || get_16(at) > system->last_line)
        return left < 2 ? left : 0;
    if (left == 2 || at[2] != system->wrapping)
        return 2;
    if (left == 3 || !is_coding(at[3], ten))
        return 3;
    if (left < 6 || get_16(at + 4) < beside_user(ten) || get_16(at + 4) > beside_user(ten) + 255)
        return left < 6 ? left : 4;
    if (left < 10 || get_32(at + 6) < array_size(get_16(at + 4), ten) || 14 + get_32(at + 6) > left)
        return left < 10 ? left : 6;
    return get_32(at + 10) != 1 ? 10 : FRONT + 2;
}

/* The first packet of an element on a line where none may stand. */
static size_t first_on_picture_line(const uint8_t *at, const uint8_t *line_fault)
{
    size_t place = 0;
    for (; line_fault[get_16(at)] == 0; place++)
        at += FRONT + get_32(at + 6);
    return place;
}

/* 20 and 5 of packets that are of their form, and have so many words; `faults` are those of their lines. Where there is none, what was found. */
static inline vanc_element_read packets_found(const uint8_t *element, size_t packets, size_t words, uint8_t faults, const frame_system *system)
{
    if (faults != 0)
        return element_refusal(20, first_on_picture_line(element + HEAD, system->line_fault));
    if (packets > LIMIT)
        return element_refusal(5, LIMIT);
    return (vanc_element_read){ .packets = packets, .numbers = words };
}

/* All tests of an element's packets but 17; where there is no fault, `numbers` is how many words they have. */
OUT_OF_LINE static vanc_element_read structures_refusal(const uint8_t *element, size_t length, const frame_system *system)
{
    const uint8_t *at = element + HEAD;
    size_t packets = get_16(element + 20), words = 0, left = length - HEAD;
    uint8_t faults = 0;
    for (size_t k = 0; k < packets; k++) {
        if (!is_structure(at, left, system))
            return element_refusal(19, length - left + structure_fault(at, left, system, false));
        faults |= system->line_fault[get_16(at)];
        words += get_16(at + 4) + 4;
        size_t size = FRONT + get_32(at + 6);
        at += size;
        left -= size;
    }
    return left > 0 ? element_refusal(19, length - left) : packets_found(element, packets, words, faults, system);
}

OUT_OF_LINE static void put_element_sheet(const uint8_t *restrict at, size_t packets, uint16_t fi, uint16_t *restrict location,
                                          uint16_t *restrict words)
{
    for (size_t k = 0; k < packets; k++, location += 2) {
        location[0] = (uint16_t)get_16(at);
        location[1] = (uint16_t)(fi | (at[3] == LUMA ? 2 : 0));
        words += put_packet(at + FRONT, words);
        at += FRONT + get_32(at + 6);
    }
}

/* All tests of an element, in their order; `structures` are those of its packets. In line, so that these are called as they stand. */
static inline __attribute__((always_inline)) vanc_element_read
element_tested(uint64_t system, const uint8_t *element, size_t length, size_t sheet_len,
               vanc_element_read (*structures)(const uint8_t *, size_t, const frame_system *))
{
    if (system < 1 || system > 3)
        return element_refusal(3, 0);
    size_t place = head_fault(element, length);
    if (place < HEAD)
        return element_refusal(19, place);
    vanc_element_read found = structures(element, length, &systems[system]);
    if (found.number != 0)
        return found;
    size_t words = found.numbers;
    found.numbers += 4 + 2 * found.packets;
    return words > MOST_WORDS || found.numbers > sheet_len ? element_refusal(17, 0) : found;
}

/* A sheet but for its locations and words. */
static inline void put_counts(uint64_t system, vanc_element_read found, uint16_t *sheet)
{
    sheet[0] = 1;
    sheet[1] = (uint16_t)system;
    sheet[2] = (uint16_t)found.packets;
    sheet[3 + 2 * found.packets] = (uint16_t)(found.numbers - 4 - 2 * found.packets);
}

vanc_element_read baseline_mxf_read(uint64_t system, bool fi, const uint8_t *element, size_t element_len, uint16_t *sheet, size_t sheet_len)
{
    vanc_element_read found = element_tested(system, element, element_len, sheet_len, structures_refusal);
    if (found.number != 0)
        return found;
    put_counts(system, found, sheet);
    put_element_sheet(element + HEAD, found.packets, system == 3 && fi, sheet + 3, sheet + 4 + 2 * found.packets);
    return found;
}

#endif
