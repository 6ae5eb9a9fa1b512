/*
 * Lays two packets into the area of a 1080/60i frame, reads them back, and walks over the same two packets as a string. Then it tests a packet, as it
 * is and with a wrong word.
 *
 *     ./build
 *     cc -I include examples/frame.c target/staticlib/libvanc.a -o frame
 */
#include "vanc.h"

#include <inttypes.h>
#include <stdio.h>
#include <string.h>

/* System 1; two locations: line 9, no flags, and line 561, flags 3; 16 words, the packets 45h 01h with 10h 80h, and 45h 01h with none. */
static const uint16_t sheet[] = {
    1, 1,
    2, 9, 0, 561, 3,
    16, 0x000, 0x3FF, 0x3FF, 0x145, 0x101, 0x102, 0x110, 0x180, 0x1D8,
        0x000, 0x3FF, 0x3FF, 0x145, 0x101, 0x200, 0x246,
};

#define SHEET_LEN (sizeof sheet / sizeof sheet[0])

/* The word is of the packet at that place, for 7 to 10, and else 0. */
static int lay_refused(vanc_laid laid)
{
    printf("refused %" PRIu64 " at %" PRIu64 " %" PRIu64 ": %s\n", laid.number, laid.place, laid.word, vanc_refusal_text(laid.number));
    return 1;
}

static int read_refused(vanc_read_back read)
{
    printf("refused %" PRIu64 " at %" PRIu64 ": %s\n", read.number, read.place, vanc_refusal_text(read.number));
    return 1;
}

static int lay_and_read(uint64_t packing)
{
    static uint8_t area[VANC_AREA_1080_60I];
    static uint16_t back[VANC_SHEET_MAX];

    vanc_laid laid = vanc_lay(sheet, SHEET_LEN, packing, area, sizeof area);
    if (laid.number != VANC_DONE) {
        return lay_refused(laid);
    }
    printf("laid packs %" PRIu64 " bytes %" PRIu64 "\n", laid.packs, laid.bytes);

    vanc_read_back read = vanc_read(1, area, sizeof area, back, VANC_SHEET_MAX);
    if (read.number != VANC_DONE) {
        return read_refused(read);
    }
    printf("read packing %" PRIu64 " packets %" PRIu64 " numbers %" PRIu64 "\n", read.packing, read.packets, read.numbers);
    return read.numbers != SHEET_LEN || memcmp(sheet, back, sizeof sheet) != 0;
}

static int walk(void)
{
    static const uint8_t string[] = {
        0x89, 0x60, 0xFF, 0x45, 0x01, 0x02, 0x10, 0x80, 0xD8,
        0xB1, 0xF4, 0xFF, 0x45, 0x01, 0x00, 0x46,
    };
    vanc_step step = vanc_walk(1, string, sizeof string, 0);
    while (step.length != 0) {
        printf("packet at %" PRIu64 " of %" PRIu64 " bytes\n", step.place, step.length);
        step = vanc_walk(1, string, sizeof string, step.place + step.length);
    }
    return step.number != VANC_DONE || step.place != sizeof string;
}

/* The sheet's first packet, and then one bit of its second user word, which is word 7 of the packet. */
static int test(void)
{
    uint16_t words[9];
    memcpy(words, sheet + 8, sizeof words);
    vanc_judged judged = vanc_test_packet(words, 9);
    printf("a packet of type %" PRIu64 "\n", judged.kind);
    words[7] ^= 0x001;
    judged = vanc_test_packet(words, 9);
    printf("refused %" PRIu64 ", word %" PRIu64 ": %s\n", judged.number, judged.word, vanc_refusal_text(judged.number));
    return judged.number != VANC_REFUSED_WORD || judged.word != 7;
}

int main(void)
{
    if (lay_and_read(1) || lay_and_read(2) || walk() || test()) {
        return 1;
    }
    puts("the same sheet came back, in both packings");
    return 0;
}
