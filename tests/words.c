/*
 * The word at fault, one answer after the other, on packets that another program made:
 *
 *     words FILE
 *
 * FILE has one packet a line, its words in hex. Each packet is accepted, with its type. With one of the 16 bits of one of its words flipped it is
 * refused, and the word told is the word flipped, always. A flag word and CS have one right value each. From DID to the last user word, the words of
 * two bytes that differ in one bit differ in bits 8 and 9 too, so that one flipped bit never makes another byte's word; DC is among them, so its flip
 * is found as 8 at word 5 before its length is used. What a wrong length does is seen with every other DC that has its parity.
 *
 * Also: two flipped words, packets cut to every shorter length, and sheets whose second packet is so damaged, of which laying and the writing of
 * elements tell the same. The ten-bit element takes it as found, where each word has its ten bits, and gives back the same words, of which the test
 * tells the same. Prints how many answers there were, and the first that are wrong.
 */
#include <stdio.h>
#include <stdlib.h>
#include <string.h>

#include "vanc.h"

enum { PACKETS = 264, LONGEST = 262, LINE = 8 * LONGEST };

static uint16_t packets[PACKETS][LONGEST];
static size_t lengths[PACKETS];
/* The packet that is tried, and a copy of it that is damaged. */
static size_t which, length;
static uint16_t words[LONGEST];
static uint16_t sheet[4 + 2 * 3 + 3 * LONGEST];
static uint8_t area[VANC_AREA_1080_60I];
static uint16_t back[sizeof sheet / sizeof *sheet];
static uint8_t element[VANC_ELEMENT10_MAX];
static unsigned long answers, wrong;

static void stop(const char *why)
{
    fprintf(stderr, "words: %s\n", why);
    exit(2);
}

/* An answer about a packet that is damaged at word `at`. */
static void expect(bool right, const char *what, size_t at, uint64_t number, uint64_t word, uint64_t last)
{
    answers++;
    if (!right && wrong++ < 20)
        printf("words: packet %lu, %s %lu: number %lu, word %lu, then %lu\n", (unsigned long)which, what, (unsigned long)at,
               (unsigned long)number, (unsigned long)word, (unsigned long)last);
}

/* Of the first `left` words the test tells this number and word. */
static void refused(size_t left, uint64_t number, uint64_t word, const char *what, size_t at)
{
    vanc_judged judged = vanc_test_packet(words, left);
    expect(judged.number == number && judged.word == word && judged.kind == 0, what, at, judged.number, judged.word, judged.kind);
}

static void accepted(const char *what, size_t at)
{
    vanc_judged judged = vanc_test_packet(words, length);
    uint64_t kind = (words[3] & 0x80) != 0 ? 1 : 2;
    expect(judged.number == VANC_DONE && judged.word == 0 && judged.kind == kind, what, at, judged.number, judged.word, judged.kind);
}

/* A byte's word, and the CS of a packet with DC `dc`. */
static uint16_t word_of(unsigned byte)
{
    unsigned odd = 0;
    for (unsigned bit = 0; bit < 8; bit++)
        odd ^= byte >> bit & 1;
    return (uint16_t)(byte + (odd ? 0x100 : 0x200));
}

static uint16_t check_of(size_t dc)
{
    unsigned sum = 0;
    for (size_t i = 3; i < dc + 6; i++)
        sum += words[i] % 512;
    sum %= 512;
    return (uint16_t)(sum < 256 ? sum + 512 : sum);
}

/* What a flipped bit of a word is refused with. */
static uint64_t number_at(size_t at)
{
    return at < 3 ? VANC_REFUSED_START : at + 1 < length ? VANC_REFUSED_WORD : VANC_REFUSED_CHECKSUM;
}

static void try_one_word(void)
{
    for (size_t at = 0; at < length; at++)
        for (unsigned bit = 0; bit < 16; bit++) {
            words[at] ^= (uint16_t)(1u << bit);
            refused(length, number_at(at), at, "a bit flipped in word", at);
            words[at] ^= (uint16_t)(1u << bit);
        }
}

/* The first is told: words are tested in their order, and DC's length only once DC is sound. Of a long packet some of all pairs. */
static void try_two_words(void)
{
    for (size_t at = 0; at < length; at++)
        for (size_t other = at + 1; other < length; other += 1 + length / 16) {
            uint16_t first = (uint16_t)(1u << (at + other) % 16), second = (uint16_t)(1u << (at + 3 * other + which) % 16);
            words[at] ^= first;
            words[other] ^= second;
            refused(length, number_at(at), at, "a bit flipped in a later word too, and in word", at);
            words[at] ^= first;
            words[other] ^= second;
        }
}

/* 7 below seven words, 9 from there, and the first missing word; a wrong one of the first six comes before it, a wrong user word does not. */
static void try_cut(void)
{
    for (size_t left = 0; left < length; left++) {
        uint64_t number = left < 7 ? VANC_REFUSED_START : VANC_REFUSED_CUT;
        refused(left, number, left, "cut, words left", left);
        for (size_t at = 0; at < left && at < 8; at++) {
            bool told = at < 3 || (at < 6 && left >= 7);
            words[at] ^= 0x200;
            refused(left, told ? number_at(at) : number, told ? at : left, "cut, and a bit flipped, words left", left);
            words[at] ^= 0x200;
        }
    }
}

/* DC of another length, with its parity: the packet is cut, or a user word stands where CS is looked for, and is CS by chance. */
static void try_other_dc(void)
{
    uint16_t was = words[5];
    for (unsigned dc = 0; dc < 256; dc++) {
        words[5] = word_of(dc);
        if (dc + 7 > length)
            refused(length, VANC_REFUSED_CUT, length, "another DC", dc);
        else if (words[dc + 6] != check_of(dc))
            refused(length, VANC_REFUSED_CHECKSUM, dc + 6, "another DC", dc);
        else
            accepted("another DC, and CS by chance", dc);
    }
    words[5] = was;
}

/* Both calls on the sheet of `n` numbers refuse its second packet as the test of that packet does. */
static void same_in_sheet(size_t n, size_t second, size_t at)
{
    vanc_judged judged = vanc_test_packet(sheet + second, n - second);
    if (judged.number == VANC_DONE)
        return;
    vanc_laid laid = vanc_lay(sheet, n, 1 + at % 2, area, sizeof area);
    expect(laid.number == judged.number && laid.place == 1 && laid.word == judged.word, "lay, word", at, laid.number, laid.word, laid.place);
    vanc_element_written written = vanc_mxf_write(sheet, n, false, element, sizeof element);
    expect(written.number == judged.number && written.place == 1 && written.word == judged.word, "mxf write, word", at, written.number,
           written.word, written.place);
}

/* The sheet goes through a ten-bit element and comes back as it was. */
static void comes_back(size_t n, size_t second, size_t at)
{
    vanc_element_written written = vanc_mxf_write10(sheet, n, false, element, sizeof element);
    expect(written.number == VANC_DONE && written.packets == 3 && written.word == 0, "mxf write10, word", at, written.number, written.word,
           written.place);
    memset(back, 0xFF, sizeof back);
    vanc_element_read read = vanc_mxf_read10(1, false, element, written.bytes, back, n);
    bool same = read.number == VANC_DONE && read.packets == 3 && read.numbers == n && memcmp(back, sheet, n * sizeof *sheet) == 0;
    expect(same, "mxf read10, word", at, read.number, read.packets, read.place);
    vanc_judged before = vanc_test_packet(sheet + second, n - second), after = vanc_test_packet(back + second, n - second);
    expect(before.number == after.number && before.word == after.word && before.kind == after.kind, "tested again, word", at, after.number,
           after.word, after.kind);
}

/* A number of the second packet's words is refused by the ten-bit element, at this word. */
static void refused10(size_t n, uint64_t number, uint64_t word, const char *what, size_t at)
{
    vanc_element_written written = vanc_mxf_write10(sheet, n, false, element, sizeof element);
    expect(written.number == number && written.place == 1 && written.word == word && written.bytes == 0, what, at, written.number, written.word,
           written.place);
}

/* One of the bits above the tenth flipped is 8, also in CS; one of the ten is taken, but in the flag. DC's low byte is the packet's length. */
static void try_as_found(size_t n, size_t second)
{
    for (size_t at = 0; at < length; at++) {
        uint16_t was = sheet[second + at], over = (uint16_t)(0x400u << (at + which) % 6);
        sheet[second + at] = was | over;
        refused10(n, at < 3 ? VANC_REFUSED_START : VANC_REFUSED_WORD, at, "mxf write10, over 3FFh, word", at);
        sheet[second + at] = was ^ (uint16_t)(at == 5 ? 0x100u << which % 2 : 1u << (at + which) % 10);
        if (at < 3)
            refused10(n, VANC_REFUSED_START, at, "mxf write10, flag, word", at);
        else
            comes_back(n, second, at);
        sheet[second + at] = was;
    }
}

/* Three packets on line 9, this one second. Its place is given back, and the sheet's length in `n`. */
static size_t make_sheet(size_t *n)
{
    static const uint16_t head[9] = { 1, 1, 3, 9, 0, 9, 0, 9, 0 };
    size_t before = (which + 100) % PACKETS, behind = (which + 200) % PACKETS, second = 10 + lengths[before];
    memcpy(sheet, head, sizeof head);
    memcpy(sheet + 10, packets[before], lengths[before] * sizeof *words);
    memcpy(sheet + second, words, length * sizeof *words);
    memcpy(sheet + second + length, packets[behind], lengths[behind] * sizeof *words);
    *n = second + length + lengths[behind];
    sheet[9] = (uint16_t)(*n - 10);
    return second;
}

static void try_sheets(void)
{
    size_t n, second = make_sheet(&n);
    vanc_laid laid = vanc_lay(sheet, n, 1, area, sizeof area);
    vanc_element_written written = vanc_mxf_write(sheet, n, false, element, sizeof element);
    expect(laid.number == VANC_DONE && laid.place == 0 && laid.word == 0, "lay", 0, laid.number, laid.word, laid.place);
    expect(written.number == VANC_DONE && written.place == 0 && written.word == 0, "mxf write", 0, written.number, written.word, written.place);
    comes_back(n, second, 0);
    try_as_found(n, second);
    for (size_t at = 0; at < length; at++) {
        uint16_t was = sheet[second + at];
        sheet[second + at] ^= (uint16_t)(1u << (at + which) % 16);
        same_in_sheet(n, second, at);
        sheet[second + at] = was;
    }
    for (unsigned dc = which % 8; dc < 256; dc += 8) {
        sheet[second + 5] = word_of(dc);
        same_in_sheet(n, second, 5);
    }
    sheet[second + 5] = words[5];
    for (size_t left = 1; left < length; left++) {
        sheet[9] = (uint16_t)(second + left - 10);
        same_in_sheet(second + left, second, left);
        refused10(second + left, left < 7 ? VANC_REFUSED_START : VANC_REFUSED_CUT, left, "mxf write10, cut, words left", left);
    }
}

static void read_packets(const char *name)
{
    static char line[LINE];
    FILE *file = fopen(name, "r");
    if (file == NULL)
        stop("the file cannot be opened");
    for (size_t k = 0; k < PACKETS; k++) {
        if (fgets(line, sizeof line, file) == NULL)
            stop("the file ends early");
        char *from = line, *to;
        for (unsigned long word = strtoul(from, &to, 16); to != from; word = strtoul(from, &to, 16)) {
            if (lengths[k] == LONGEST || word > 0x3FF)
                stop("a line is no packet");
            packets[k][lengths[k]++] = (uint16_t)word;
            from = to;
        }
        if (lengths[k] < 7 || lengths[k] != (packets[k][5] & 0xFFu) + 7)
            stop("a line is no packet");
    }
    if (fgets(line, sizeof line, file) != NULL)
        stop("the file has more packets");
    fclose(file);
}

int main(int argc, char **argv)
{
    if (argc != 2)
        stop("words FILE");
    read_packets(argv[1]);
    for (which = 0; which < PACKETS; which++) {
        length = lengths[which];
        memcpy(words, packets[which], sizeof words);
        accepted("as it is, words", length);
        try_one_word();
        try_two_words();
        try_cut();
        try_other_dc();
        try_sheets();
    }
    printf("%lu answers about words at fault, %lu wrong\n", answers, wrong);
    return wrong != 0;
}
