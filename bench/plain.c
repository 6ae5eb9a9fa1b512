/*
 * Laying, reading and elements in plain C: each rule in the loop that says it most directly, with all the tests of the library.
 * One of the two baselines that the library's instructions are compared with.
 */
#include "element10.h"

static unsigned packet_fault(const uint16_t *words, size_t left)
{
    if (left < 7 || words[0] != 0x000 || words[1] != 0x3FF || words[2] != 0x3FF)
        return 7;
    if (!is_word(words[3]) || !is_word(words[4]) || !is_word(words[5]))
        return 8;
    size_t count = words[5] & 0xFF;
    if (left < count + 7)
        return 9;
    unsigned sum = words[3] + words[4] + words[5];
    const uint16_t *word = words + 6, *end = word + count;
    for (; word < end; word++) {
        if (!is_word(*word))
            return 8;
        sum += *word;
    }
    return *end == check_of(sum) ? 0 : 10;
}

static inline void put_carrier(uint8_t a, uint8_t b, uint8_t c, uint8_t d, uint8_t *bytes)
{
    bytes[0] = CARRIER;
    bytes[1] = a;
    bytes[2] = b;
    bytes[3] = c;
    bytes[4] = d;
}

OUT_OF_LINE static void lay_fives(const list *sheet, uint8_t *bytes)
{
    const uint16_t *location = sheet->locations, *word = sheet->words;
    for (size_t k = 0; k < sheet->packets; k++, location += 2) {
        bytes[0] = STARTER;
        put_header(location[0], location[1], bytes + 2);
        bytes += 5;
        const uint16_t *end = word + (word[5] & 0xFF) + 7;
        for (word += 3; end - word >= 4; word += 4, bytes += 5)
            put_carrier((uint8_t)word[0], (uint8_t)word[1], (uint8_t)word[2], (uint8_t)word[3], bytes);
        if (word < end) {
            put_carrier((uint8_t)word[0], word + 1 < end ? (uint8_t)word[1] : FILL, word + 2 < end ? (uint8_t)word[2] : FILL, FILL, bytes);
            bytes += 5;
        }
        word = end;
    }
}

static inline void put_bytes(const uint16_t *restrict words, size_t count, uint8_t *restrict bytes)
{
    for (size_t i = 0; i < count; i++)
        bytes[i] = (uint8_t)words[i];
}

OUT_OF_LINE static void make_string(const list *sheet, uint8_t *string)
{
    const uint16_t *location = sheet->locations, *words = sheet->words;
    for (size_t k = 0; k < sheet->packets; k++, location += 2) {
        size_t user = words[5] & 0xFF;
        put_header(location[0], location[1], string);
        string[2] = 0xFF;
        string[3] = (uint8_t)words[3];
        string[4] = (uint8_t)words[4];
        string[5] = (uint8_t)words[5];
        put_bytes(words + 6, user, string + 6);
        string[6 + user] = (uint8_t)words[6 + user];
        words += 7 + user;
        string += 7 + user;
    }
}

vanc_laid baseline_lay(const uint16_t *numbers, size_t count, uint64_t packing, uint8_t *area, size_t area_len)
{
    list sheet;
    vanc_laid refusal = sheet_refusal(numbers, count, packing, area_len, &sheet);
    if (refusal.number != 0)
        return refusal;
    size_t n = sheet.system->sequences;
    uint8_t bytes[MOST];
    memset(bytes, FILL, 780 * n);
    if (packing == 1) {
        lay_fives(&sheet, bytes);
        spread(n, bytes, area);
    } else {
        make_string(&sheet, bytes);
        sheet.packs = lay_long(n, bytes, sheet.length, area);
    }
    return (vanc_laid){ .packs = sheet.packs, .bytes = sheet.length };
}

/* All bytes are the first, which is fill. */
static bool all_fill(const uint8_t *bytes, size_t size)
{
    return size == 0 || (bytes[0] == FILL && memcmp(bytes, bytes + 1, size - 1) == 0);
}

static uint8_t user_sum(const uint8_t *bytes, size_t count)
{
    uint8_t sum = 0;
    for (size_t i = 0; i < count; i++)
        sum = (uint8_t)(sum + bytes[i]);
    return sum;
}

/*
 * The string of packs of 5, which are in order and have fill behind them; its length and its packets, or a refusal. Packets have at least two
 * packs, so there are at most 936: the limit is not reached.
 */
OUT_OF_LINE static vanc_read_back open_fives(const uint8_t *bytes, size_t total, const uint8_t *line_fault, uint8_t *string)
{
    const uint8_t *pack = bytes, *end = bytes + total;
    uint8_t *packet = string;
    size_t packets = 0;
    for (; pack < end; packets++) {
        uint8_t *to = packet + 3;
        memcpy(packet, pack + 2, 3);
        for (pack += 5; *pack == CARRIER; pack += 5, to += 4)
            memcpy(to, pack + 1, 4);
        size_t size = packet[5] + 7u;
        if ((size_t)(to - packet) != 3 + size / 4 * 4)
            return read_refusal(14, packets);
        for (uint8_t *fill = packet + size; fill < to; fill++)
            if (*fill != FILL)
                return read_refusal(14, packets);
        unsigned fault = danc_fault(packet, line_fault);
        if (fault != 0)
            return read_refusal(fault, packets);
        packet += size;
    }
    return (vanc_read_back){ .packing = 1, .packets = packets, .numbers = (size_t)(packet - string) };
}

static inline unsigned put_words(const uint8_t *restrict bytes, size_t count, uint16_t *restrict words)
{
    unsigned sum = 0;
    for (const uint8_t *end = bytes + count; bytes < end; bytes++, words++) {
        *words = word_of[*bytes];
        sum += *words;
    }
    return sum;
}

vanc_read_back baseline_read(uint64_t system, const uint8_t *area, size_t area_len, uint16_t *sheet, size_t sheet_len)
{
    if (system < 1 || system > 3)
        return read_refusal(3, 0);
    size_t n = systems[system].sequences, total = 780 * n;
    if (area_len != 960 * n)
        return read_refusal(4, 0);
    uint8_t bytes[MOST + 1], string[MOST];
    vanc_read_back found = { 0 };
    if (area[3] == LONG) {
        size_t length = 0, last = 0;
        if (!open_long(n, area, string, &length, &last))
            return read_refusal(13, 0);
        found = walk(string, length, last, systems[system].line_fault);
    } else {
        collect(n, area, bytes);
        bytes[total] = FILL;
        size_t end = bytes[0] == STARTER ? packs_end(bytes, total) : 0;
        if (end > 0)
            found = open_fives(bytes, end, systems[system].line_fault, string);
        else if (bytes[0] == STARTER || !all_fill(bytes, total))
            return read_refusal(13, 0);
    }
    if (found.number != 0)
        return found;
    return write_sheet(system, string, found, sheet, sheet_len);
}
