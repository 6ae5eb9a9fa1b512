/*
 * Laying, reading and elements in C that is written for the compiler's vector code: many words or bytes in passes without a branch, over whole
 * vectors alone, and the few that are left over, or that a small packet has, one by one from a table. All the tests of the library.
 */
#include "element10.h"

/* From so many words or bytes on, a packet's are computed in vectors. NO_SUM is over all sums. */
enum { MANY = 16, NO_SUM = 1 << 20 };

/* A byte with even parity in bit 8 and its inverse in bit 9: folded, since a table cannot be looked up in vectors. */
static inline uint16_t folded(uint16_t byte)
{
    uint16_t x = byte ^ (byte >> 4);
    x ^= x >> 2;
    x = (x ^ (x >> 1)) & 1;
    return (uint16_t)(byte + 512 - (x << 8));
}

/* The sum of a multiple of eight words, or NO_SUM where one is not its byte with parity. */
OUT_OF_LINE static unsigned sum_of_eights(const uint16_t *words, size_t count)
{
    uint16_t wrong = 0, sum = 0;
    for (size_t i = 0; i < count; i++) {
        wrong |= words[i] ^ folded(words[i] & 0xFF);
        sum = (uint16_t)(sum + words[i]);
    }
    return wrong == 0 ? sum : NO_SUM;
}

static unsigned packet_fault(const uint16_t *words, size_t left)
{
    if (left < 7 || words[0] != 0x000 || words[1] != 0x3FF || words[2] != 0x3FF)
        return 7;
    if (!is_word(words[3]) || !is_word(words[4]) || !is_word(words[5]))
        return 8;
    size_t count = words[5] & 0xFF;
    if (left < count + 7)
        return 9;
    unsigned sum = words[3] + words[4] + words[5];
    const uint16_t *word = words + 6, *end = word + count;
    if (count >= MANY) {
        size_t whole = count / 8 * 8;
        sum += sum_of_eights(word, whole);
        if (sum >= NO_SUM)
            return 8;
        word += whole;
    }
    for (; word < end; word++) {
        if (!is_word(*word))
            return 8;
        sum += *word;
    }
    return *end == check_of(sum) ? 0 : 10;
}

OUT_OF_LINE static void put_many_bytes(const uint16_t *restrict words, size_t count, uint8_t *restrict bytes)
{
    for (size_t i = 0; i < count; i++)
        bytes[i] = (uint8_t)words[i];
}

/* The few are counted down: counted up, the compiler would make a vector loop of these too. Where there is none, that is said first. */
static inline void put_bytes(const uint16_t *restrict words, size_t count, uint8_t *restrict bytes)
{
    if (count == 0)
        return;
    if (count >= MANY)
        put_many_bytes(words, count, bytes);
    else
        while (count-- > 0)
            *bytes++ = (uint8_t)*words++;
}

/* The header bytes of all packets, in place of the low bytes of their flags, whose third is FFh already. */
OUT_OF_LINE static void put_headers(const list *sheet, uint8_t *restrict string)
{
    const uint16_t *location = sheet->locations, *end = location + 2 * sheet->packets;
    for (; location < end; location += 2) {
        put_header(location[0], location[1], string);
        string += string[5] + 7u;
    }
}

/* By how many bytes of the last carrier are a packet's, 0 for all: what is fill. */
static const uint8_t fill[4][4] = { { 0, 0, 0, 0 }, { 0, FILL, FILL, FILL }, { 0, 0, FILL, FILL }, { 0, 0, 0, FILL } };

/* Packs of 5: whole carriers, the last too, and then the fill of the last over what stands behind the packet. */
OUT_OF_LINE static void lay_fives(const list *sheet, const uint8_t *restrict string, uint8_t *restrict bytes)
{
    const uint16_t *location = sheet->locations, *last = location + 2 * sheet->packets;
    for (; location < last; location += 2) {
        size_t size = string[5] + 7u;
        const uint8_t *from = string + 3;
        uint8_t *stop = bytes + 5 + size / 4 * 5;
        uint32_t four, over;
        bytes[0] = STARTER;
        bytes[1] = 0xFF;
        put_header(location[0], location[1], bytes + 2);
        bytes[4] = 0xFF;
        for (bytes += 5; bytes < stop; bytes += 5, from += 4) {
            bytes[0] = CARRIER;
            memcpy(bytes + 1, from, 4);
        }
        memcpy(&four, stop - 4, 4);
        memcpy(&over, fill[(size - 3) % 4], 4);
        four |= over;
        memcpy(stop - 4, &four, 4);
        string += size;
    }
}

vanc_laid baseline_lay(const uint16_t *numbers, size_t count, uint64_t packing, uint8_t *area, size_t area_len)
{
    list sheet;
    vanc_laid refusal = sheet_refusal(numbers, count, packing, area_len, &sheet);
    if (refusal.number != 0)
        return refusal;
    size_t n = sheet.system->sequences;
    uint8_t bytes[MOST], string[MOST];
    put_many_bytes(sheet.words, sheet.length, string);
    memset(string + sheet.length, FILL, 72);
    if (packing == 1) {
        memset(bytes + 5 * sheet.packs, FILL, 780 * n - 5 * sheet.packs);
        lay_fives(&sheet, string, bytes);
        spread(n, bytes, area);
    } else {
        put_headers(&sheet, string);
        sheet.packs = lay_long(n, string, sheet.length, area);
    }
    return (vanc_laid){ .packs = sheet.packs, .bytes = sheet.length };
}

/* Four quarters at once, which takes a quarter of the loop's steps, and the few bytes behind them. */
OUT_OF_LINE static bool many_are_fill(const uint8_t *bytes, size_t size)
{
    size_t quarter = size / 4;
    uint8_t all = FILL;
    for (size_t i = 0; i < quarter; i++)
        all &= bytes[i] & bytes[quarter + i] & bytes[2 * quarter + i] & bytes[3 * quarter + i];
    for (size_t i = 0; i < size % 4; i++)
        all &= bytes[4 * quarter + i];
    return all == FILL;
}

/* The first byte says no to most packets that stand where fill may. */
static inline bool all_fill(const uint8_t *bytes, size_t size)
{
    return size == 0 || (bytes[0] == FILL && many_are_fill(bytes, size));
}

OUT_OF_LINE static uint8_t sum_of_many(const uint8_t *bytes, size_t count)
{
    uint8_t sum = 0;
    size_t whole = count / MANY * MANY;
    for (size_t i = 0; i < whole; i++)
        sum = (uint8_t)(sum + bytes[i]);
    for (size_t i = 0; i < count % MANY; i++)
        sum = (uint8_t)(sum + bytes[whole + i]);
    return sum;
}

static inline uint8_t user_sum(const uint8_t *bytes, size_t count)
{
    if (count >= MANY)
        return sum_of_many(bytes, count);
    uint8_t sum = 0;
    for (size_t i = 0; i < count; i++)
        sum = (uint8_t)(sum + bytes[i]);
    return sum;
}

/*
 * The string of packs of 5, with four bytes of fill behind them, which end each run; its length and its packets, or a refusal, and `end`, where
 * the last pack ends. That the packs are in order is found out on the way, where there is no refusal. Packets have at least two packs, so there
 * are at most 936: the limit is not reached.
 */
OUT_OF_LINE static vanc_read_back open_fives(const uint8_t *restrict bytes, const uint8_t *line_fault, uint8_t *restrict string, size_t *end)
{
    const uint8_t *pack = bytes;
    uint8_t *packet = string;
    size_t packets = 0;
    for (; *pack == STARTER; packets++) {
        const uint8_t *first = pack;
        size_t size = pack[8] + 7u;
        uint8_t *to = packet + 3;
        uint32_t four, over;
        memcpy(packet, pack + 2, 3);
        for (pack += 5; *pack == CARRIER; pack += 5, to += 4)
            memcpy(to, pack + 1, 4);
        memcpy(&four, pack - 4, 4);
        memcpy(&over, fill[(size - 3) % 4], 4);
        if ((size_t)(pack - first) != 5 + size / 4 * 5 || (four & over) != over)
            return read_refusal(14, packets);
        unsigned fault = danc_fault(packet, line_fault);
        if (fault != 0)
            return read_refusal(fault, packets);
        packet += size;
    }
    *end = (size_t)(pack - bytes);
    return (vanc_read_back){ .packing = 1, .packets = packets, .numbers = (size_t)(packet - string) };
}

static inline unsigned put_few_words(const uint8_t *restrict bytes, size_t count, uint16_t *restrict words)
{
    unsigned sum = 0;
    for (size_t i = 0; i < count; i++) {
        words[i] = word_of[bytes[i]];
        sum += words[i];
    }
    return sum;
}

OUT_OF_LINE static unsigned put_many_words(const uint8_t *restrict bytes, size_t count, uint16_t *restrict words)
{
    size_t whole = count / MANY * MANY;
    uint16_t sum = 0;
    for (size_t i = 0; i < whole; i++) {
        words[i] = folded(bytes[i]);
        sum = (uint16_t)(sum + words[i]);
    }
    return sum + put_few_words(bytes + whole, count % MANY, words + whole);
}

static inline unsigned put_words(const uint8_t *restrict bytes, size_t count, uint16_t *restrict words)
{
    if (count >= MANY)
        return put_many_words(bytes, count, words);
    return put_few_words(bytes, count, words);
}

vanc_read_back baseline_read(uint64_t system, const uint8_t *area, size_t area_len, uint16_t *sheet, size_t sheet_len)
{
    if (system < 1 || system > 3)
        return read_refusal(3, 0);
    size_t n = systems[system].sequences, total = 780 * n;
    if (area_len != 960 * n)
        return read_refusal(4, 0);
    uint8_t bytes[MOST + 4], string[MOST];
    vanc_read_back found = { 0 };
    if (area[3] == LONG) {
        size_t length = 0, last = 0;
        if (!open_long(n, area, string, &length, &last))
            return read_refusal(13, 0);
        found = walk(string, length, last, systems[system].line_fault);
    } else {
        size_t end = 0;
        collect(n, area, bytes);
        memset(bytes + total, FILL, 4);
        if (bytes[0] == STARTER)
            found = open_fives(bytes, systems[system].line_fault, string, &end);
        /* A refusal counts only where all packs are in order. */
        if (found.number != 0 ? packs_end(bytes, total) == 0 : !all_fill(bytes + end, total - end))
            return read_refusal(13, 0);
    }
    if (found.number != 0)
        return found;
    return write_sheet(system, string, found, sheet, sheet_len);
}
