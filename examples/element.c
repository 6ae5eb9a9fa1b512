/*
 * Writes the MXF ANC elements of the two frames of a 720/60p sheet, reads one back, and says what is wrong with a damaged one. Then keeps a damaged
 * packet as it is in an element of ten-bit samples.
 *
 *     ./build
 *     cc -I include examples/element.c target/staticlib/libvanc.a -o element
 */
#include "vanc.h"

#include <inttypes.h>
#include <stdio.h>
#include <string.h>

/* System 3; line 9, FI 0 and YCF 1 (luma), and line 12, FI 1 and YCF 0; the packets 45h 01h with 10h 80h, and 45h 01h with none. */
static const uint16_t sheet[] = {
    1, 3,
    2, 9, 2, 12, 1,
    16, 0x000, 0x3FF, 0x3FF, 0x145, 0x101, 0x102, 0x110, 0x180, 0x1D8,
        0x000, 0x3FF, 0x3FF, 0x145, 0x101, 0x200, 0x246,
};

/* What comes back of the packets with FI 0. */
static const uint16_t first[] = {
    1, 3,
    1, 9, 2,
    9, 0x000, 0x3FF, 0x3FF, 0x145, 0x101, 0x102, 0x110, 0x180, 0x1D8,
};

/* The same with a checksum word that sums wrong. */
static const uint16_t damaged[] = {
    1, 3,
    1, 9, 2,
    9, 0x000, 0x3FF, 0x3FF, 0x145, 0x101, 0x102, 0x110, 0x180, 0x101,
};

static uint8_t element[VANC_ELEMENT10_MAX]; /* also longer than VANC_ELEMENT_MAX */
static uint16_t back[VANC_ELEMENT_SHEET_MAX];

static size_t say_written(vanc_element_written written)
{
    if (written.number != VANC_DONE) {
        printf("refused %" PRIu64 " at %" PRIu64 " %" PRIu64 ": %s\n", written.number, written.place, written.word,
               vanc_refusal_text(written.number));
        return 0;
    }
    printf("written packets %" PRIu64 " bytes %" PRIu64 "\n", written.packets, written.bytes);
    return written.bytes;
}

static size_t write_element(bool fi)
{
    return say_written(vanc_mxf_write(sheet, sizeof sheet / sizeof sheet[0], fi, element, sizeof element));
}

/* Refused in 8-bit samples, which have no place for CS; in ten-bit samples it comes back word for word, and the test of a packet names its fault. */
static int keep_damaged(void)
{
    size_t numbers = sizeof damaged / sizeof damaged[0];
    if (say_written(vanc_mxf_write(damaged, numbers, false, element, sizeof element)) != 0) {
        return 1;
    }
    size_t bytes = say_written(vanc_mxf_write10(damaged, numbers, false, element, sizeof element));
    vanc_element_read read = vanc_mxf_read10(3, false, element, bytes, back, VANC_ELEMENT_SHEET_MAX);
    if (read.number != VANC_DONE || read.numbers != numbers || memcmp(damaged, back, sizeof damaged) != 0) {
        return 1;
    }
    vanc_judged judged = vanc_test_packet(back + 6, 9);
    printf("kept as it was: %s, word %" PRIu64 "\n", vanc_refusal_text(judged.number), judged.word);
    return judged.number != VANC_REFUSED_CHECKSUM;
}

int main(void)
{
    if (write_element(true) == 0) {
        return 1;
    }
    size_t bytes = write_element(false);
    vanc_element_read read = vanc_mxf_read(3, false, element, bytes, back, VANC_ELEMENT_SHEET_MAX);
    printf("read packets %" PRIu64 " numbers %" PRIu64 "\n", read.packets, read.numbers);
    if (read.number != VANC_DONE || read.numbers != sizeof first / sizeof first[0] || memcmp(first, back, sizeof first) != 0) {
        return 1;
    }
    element[15] = 0; /* the end of the key */
    read = vanc_mxf_read(3, false, element, bytes, back, VANC_ELEMENT_SHEET_MAX);
    printf("refused %" PRIu64 " at %" PRIu64 ": %s\n", read.number, read.place, vanc_refusal_text(read.number));
    if (read.number != VANC_REFUSED_ELEMENT || memcmp(first, back, sizeof first) != 0) {
        return 1;
    }
    return keep_damaged();
}
