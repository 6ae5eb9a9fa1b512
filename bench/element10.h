/*
 * vanc_mxf_write10 and vanc_mxf_read10: the element with 10-bit coding (ST 436-1, 5.4.4 and 7.2), which both baselines say alike. Packets are taken
 * as they are found, so no parity and no sum is looked at. What it has in common with the 8-bit element stands in element.h.
 */
#ifndef ELEMENT10_H
#define ELEMENT10_H

#include "element.h"

enum { TEN_BITS = 0x3FF };

/* The bits of some words, together: over 3FFh where one of them is. */
static inline unsigned bits_of(const uint16_t *words, size_t count)
{
    uint16_t bits = 0;
    for (size_t i = 0; i < count; i++)
        bits |= words[i];
    return bits;
}

/* The first fault of the packet at the front of some words, taken as found, 0 for none: 8 is for a word over 3FFh, CS too, and 9 goes by DC's low
 * byte. */
static unsigned found_fault(const uint16_t *words, size_t left)
{
    if (left < 7 || words[0] != 0x000 || words[1] != 0x3FF || words[2] != 0x3FF)
        return 7;
    if ((words[3] | words[4] | words[5]) > TEN_BITS)
        return 8;
    size_t count = words[5] & 0xFF;
    if (left < count + 7)
        return 9;
    return bits_of(words + 6, count + 1) > TEN_BITS ? 8 : 0;
}

/* The refusal of such a packet. The word of 8 is the first over 3FFh from DID on, those of 7 and 9 are as for a sound one. */
OUT_OF_LINE static vanc_laid found_refusal(unsigned fault, size_t place, const uint16_t *words, size_t left)
{
    if (fault != 8)
        return packet_refusal(fault, place, words, left);
    size_t word = 3;
    while (words[word] <= TEN_BITS)
        word++;
    return (vanc_laid){ .number = 8, .place = place, .word = word };
}

/* 7 to 9 and 11; where there is no fault, `bytes` is the length of the element of all packets. */
OUT_OF_LINE static vanc_laid found_packets_refusal(const list *sheet, size_t *bytes)
{
    const uint16_t *words = sheet->words;
    size_t left = sheet->length, packets = 0, arrays = 0;
    for (; left > 0; packets++) {
        unsigned fault = found_fault(words, left);
        if (fault != 0)
            return found_refusal(fault, packets, words, left);
        size_t user = words[5] & 0xFF;
        arrays += array_size(user + 4, true);
        words += user + 7;
        left -= user + 7;
    }
    *bytes = HEAD + FRONT * packets + arrays;
    return lay_refusal(packets == sheet->packets ? 0 : 11, 0);
}

/* The tests of a sheet, in their order. */
static vanc_laid found_sheet_refusal(const uint16_t *numbers, size_t count, list *sheet, size_t *bytes)
{
    unsigned fault = take_apart(numbers, count, sheet);
    if (fault != 0)
        return lay_refusal(fault, 0);
    if (sheet->packets > LIMIT)
        return lay_refusal(5, 0);
    vanc_laid refusal = locations_refusal(sheet);
    return refusal.number != 0 ? refusal : found_packets_refusal(sheet, bytes);
}

/* How many packets are served; those that are not are taken off the element's length. */
static size_t count_served10(const list *sheet, bool fi, size_t *bytes)
{
    size_t served = sheet->packets;
    if (sheet->system->wrapping == 1)
        return served;
    const uint16_t *words = sheet->words;
    for (size_t k = 0; k < sheet->packets; k++) {
        size_t user = words[5] & 0xFF;
        if (!serves(sheet, fi, sheet->locations[2 * k + 1])) {
            *bytes -= FRONT + array_size(user + 4, true);
            served--;
        }
        words += user + 7;
    }
    return served;
}

/* What stands in front of a packet's samples. */
static inline void put_front10(const uint16_t *location, uint8_t wrapping, size_t samples, uint8_t *restrict to)
{
    put_16(location[0], to);
    to[2] = wrapping;
    to[3] = location[1] & 2 ? LUMA10 : COLOUR10;
    put_16(samples, to + 4);
    put_16(0, to + 6);
    put_16(array_size(samples, true), to + 8);
    put_16(0, to + 10);
    put_16(1, to + 12);
}

/* Three samples in four bytes, high byte first: bits 31 to 22, 21 to 12 and 11 to 2. */
static inline void put_three(unsigned first, unsigned second, unsigned third, uint8_t *to)
{
    uint32_t bits = (uint32_t)first << 22 | (uint32_t)second << 12 | (uint32_t)third << 2;
    to[0] = (uint8_t)(bits >> 24);
    to[1] = (uint8_t)(bits >> 16);
    to[2] = (uint8_t)(bits >> 8);
    to[3] = (uint8_t)bits;
}

/* Samples that the last four bytes leave unused are 0. */
static inline void put_samples(const uint16_t *restrict words, size_t samples, uint8_t *restrict to)
{
    for (; samples >= 3; samples -= 3, words += 3, to += 4)
        put_three(words[0], words[1], words[2], to);
    if (samples > 0)
        put_three(words[0], samples == 2 ? words[1] : 0, 0, to);
}

OUT_OF_LINE static void put_structures10(const list *sheet, bool fi, uint8_t *to)
{
    const uint16_t *location = sheet->locations, *end = location + 2 * sheet->packets, *words = sheet->words;
    uint8_t wrapping = sheet->system->wrapping;
    for (; location < end; location += 2) {
        size_t samples = (words[5] & 0xFF) + 4u;
        if (wrapping == 1 || (location[1] & 1) == fi) {
            put_front10(location, wrapping, samples, to);
            put_samples(words + 3, samples, to + FRONT);
            to += FRONT + array_size(samples, true);
        }
        words += samples + 3;
    }
}

vanc_element_written baseline_mxf_write10(const uint16_t *numbers, size_t count, bool fi, uint8_t *element, size_t element_len)
{
    list sheet;
    size_t bytes = 0;
    vanc_laid refusal = found_sheet_refusal(numbers, count, &sheet, &bytes);
    if (refusal.number != 0)
        return write_refusal(refusal);
    size_t lacking = sheet.lacks_line ? first_without_line(&sheet, fi) : sheet.packets;
    if (lacking < sheet.packets)
        return write_refusal(lay_refusal(18, lacking));
    size_t served = count_served10(&sheet, fi, &bytes);
    if (bytes > element_len)
        return write_refusal(lay_refusal(17, 0));
    put_head(bytes, served, element);
    put_structures10(&sheet, fi, element + HEAD);
    return (vanc_element_written){ .packets = served, .bytes = bytes };
}

/* Whether a packet of an element is of its form, as is_structure. DC is the low byte of the third sample: bits 9 to 2 of two bytes. */
static inline bool is_structure10(const uint8_t *at, size_t left, const frame_system *system)
{
    if (left < FRONT + 8)
        return false;
    size_t line = get_16(at), samples = get_16(at + 4), count = get_32(at + 6);
    return line - 1 < system->last_line && at[2] == system->wrapping && (at[3] == LUMA10 || at[3] == COLOUR10) && samples - 4 < 256 &&
           count >= array_size(samples, true) && count <= left - FRONT && get_32(at + 10) == 1 &&
           (get_16(at + FRONT + 2) >> 2 & 0xFF) == samples - 4;
}

/* All tests of an element's packets but 17, as structures_refusal. */
OUT_OF_LINE static vanc_element_read structures10_refusal(const uint8_t *element, size_t length, const frame_system *system)
{
    const uint8_t *at = element + HEAD;
    size_t packets = get_16(element + 20), words = 0, left = length - HEAD;
    uint8_t faults = 0;
    for (size_t k = 0; k < packets; k++) {
        if (!is_structure10(at, left, system))
            return element_refusal(19, length - left + structure_fault(at, left, system, true));
        faults |= system->line_fault[get_16(at)];
        words += get_16(at + 4) + 3;
        size_t size = FRONT + get_32(at + 6);
        at += size;
        left -= size;
    }
    return left > 0 ? element_refusal(19, length - left) : packets_found(element, packets, words, faults, system);
}

/* The samples of an array; its low bits, and samples past the last, are disregarded. */
static inline void get_samples(const uint8_t *restrict from, size_t samples, uint16_t *restrict words)
{
    for (; samples >= 3; samples -= 3, words += 3, from += 4) {
        size_t bits = get_32(from);
        words[0] = (uint16_t)(bits >> 22);
        words[1] = bits >> 12 & TEN_BITS;
        words[2] = bits >> 2 & TEN_BITS;
    }
    if (samples > 0)
        words[0] = (uint16_t)(get_32(from) >> 22);
    if (samples == 2)
        words[1] = get_32(from) >> 12 & TEN_BITS;
}

OUT_OF_LINE static void put_element10_sheet(const uint8_t *restrict at, size_t packets, uint16_t fi, uint16_t *restrict location,
                                            uint16_t *restrict words)
{
    for (size_t k = 0; k < packets; k++, location += 2) {
        size_t samples = get_16(at + 4);
        location[0] = (uint16_t)get_16(at);
        location[1] = (uint16_t)(fi | (at[3] == LUMA10 ? 2 : 0));
        words[0] = 0x000;
        words[1] = 0x3FF;
        words[2] = 0x3FF;
        get_samples(at + FRONT, samples, words + 3);
        words += samples + 3;
        at += FRONT + get_32(at + 6);
    }
}

vanc_element_read baseline_mxf_read10(uint64_t system, bool fi, const uint8_t *element, size_t element_len, uint16_t *sheet, size_t sheet_len)
{
    vanc_element_read found = element_tested(system, element, element_len, sheet_len, structures10_refusal);
    if (found.number != 0)
        return found;
    put_counts(system, found, sheet);
    put_element10_sheet(element + HEAD, found.packets, system == 3 && fi, sheet + 3, sheet + 4 + 2 * found.packets);
    return found;
}

#endif
