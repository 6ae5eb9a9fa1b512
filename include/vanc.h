/*
 * Flettishum: the ancillary packets of a video frame, laid into the VAUX blocks of a 100 Mb/s DV frame (SMPTE 375M) and read out of
 * them again, or written as an ANC element of an MXF file (SMPTE ST 436-1) and read from it. Link with libvanc.a.
 *
 * Every call answers, whatever the numbers and bytes that it is given. `number` 0 is success; any other number is a refusal, and `place`
 * says where:
 *
 *    1  packing is neither 1 nor 2                                               0
 *    2  the sheet's counts do not agree with its length                          0
 *    3  system not 1 (1080/60i), 2 (1080/50i) or 3 (720/60p)                     0
 *    4  the area's length is not the system's                                    0
 *    5  more than 1,275 packets                                                  0 for a sheet, 1275 on reading
 *    6  line or flags out of range                                               the location
 *    7  fewer than 7 words left, or no 000h 3FFh 3FFh                            the packet
 *    8  a word from DID to the last user word is not its byte with parity;       the packet
 *       vanc_mxf_write10: a word from DID to CS is over 3FFh
 *    9  fewer than DC + 7 words left                                             the packet
 *   10  checksum word wrong                                                      the packet
 *   11  packets and locations differ in number                                   0
 *   12  more than the frame has room for in that packing                         0
 *   13  the packs are not laid by the rules                                      0
 *   14  a packet's length or its fill is wrong                                   the packet (walking: the string byte where it starts)
 *   15  a packet's stored checksum byte is wrong                                 the same
 *   16  a packet has a line that is 0 or past the last                           the same
 *   17  the sheet is longer than its buffer, or would have over 65,535 words;    0
 *       the element is longer than its buffer
 *   18  a packet that the element serves has no line                             the packet
 *   19  the element is not of its form, or a line in it is 0 or past the last    the element byte: the first at fault
 *   20  a line of the frame on which no packet may stand                         for a sheet the location; on reading as for 14
 *
 * Packets stand on no line (0) or on a line of the vertical interval that is not kept free for switching (SMPTE RP 291-2, table 3a): in 1080 on
 * lines 1 to 20, 561 to 583, 1124 and 1125, without 7, 8, 569 and 570; in 720 on lines 1 to 25 and 746 to 750, without 7 and 8.
 *
 * Packets and locations count from 0. Where several apply, the tests are made in a fixed order and the first is named.
 *
 * 7 to 10 also name a `word` of the packet: the first at fault. Words count from 0 too, the flag's included: 0 to 2 are 000h 3FFh 3FFh, 3 is
 * DID, 4 SDID or DBN, 5 DC, 6 + i user word i, and DC + 6 is CS.
 *
 *    7  the first of the flag's words that is wrong; where none is, the first word that is missing
 *    8  the word that is not its byte with parity; vanc_mxf_write10: the word that is over 3FFh
 *    9  the first word that is missing: as many as are left
 *   10  CS
 *
 * For every other number, and for 0, `word` is 0.
 *
 * No packets that fit a frame are more than 1,275. So 5 is given: for a sheet, where its P is over 1,275; for an element, where its number
 * of packets is; and of areas only for one of 1080/50i in packing 2 in which 1,275 packets, with at most two user words together, are
 * followed by one to three bytes that are not all FFh. It is never given for packing 1, nor for an area of 1080/60i or 720/60p.
 *
 * Pointers: each points to as many numbers or bytes as its length says, also where that is 0, so none is null; what a call writes
 * does not overlap what it reads. A call keeps no pointer, allocates nothing and has no state: calls may run side by side. It takes
 * less than 64 KB of stack.
 */
#ifndef VANC_H
#define VANC_H

#include <stdbool.h>
#include <stddef.h>
#include <stdint.h>

#ifdef __cplusplus
extern "C" {
#endif

/*
 * This version, and as one number for #if: 10000 x major + 100 x minor + patch.
 *
 * Since 0.6.0 there are vanc_mxf_write10 and vanc_mxf_read10, for elements of ten-bit samples; nothing else has changed.
 *
 * Since 0.5.0 a packet on a picture line is refused with 20, by every call that takes a line: a sheet, an area or an element that older versions
 * took is refused where it has one.
 *
 * Since 0.4.0 `word` stands behind `place` in vanc_laid and vanc_element_written, which have grown from 32 to 40 bytes: what was compiled with
 * an older header has to be compiled with this one before it is linked with this library.
 */
#define VANC_VERSION "0.6.0"
#define VANC_VERSION_NUMBER 600

/* The toolchain that all was proved with. */
#define VANC_TOOLCHAIN "rattle-kit-13f logic dac8208d650f15bf"

/* The VAUX blocks of a frame, in bytes. */
#define VANC_AREA_1080_60I 9600
#define VANC_AREA_1080_50I 11520
#define VANC_AREA_720_60P 9600

/* Numbers that the sheet of every frame has room in: 1,275 locations and 8,928 words. */
#define VANC_SHEET_MAX 11482

/* Bytes that the element of every sheet has room in: 22, and for 1,275 packets of 65,535 words together 10 more each than words. */
#define VANC_ELEMENT_MAX 78307

/* The same for ten-bit elements: 22, and for a packet 14 and 4 for each three samples or fewer, DID to CS. The longest has 1,275 packets of
 * 65,535 words, each DC a multiple of three. */
#define VANC_ELEMENT10_MAX 103552

/* Numbers that the sheet of every element has room in: 1,275 locations and 65,535 words. */
#define VANC_ELEMENT_SHEET_MAX 68089

/* The numbers by name. */
enum {
    VANC_DONE = 0,
    VANC_REFUSED_PACKING = 1,
    VANC_REFUSED_COUNTS = 2,
    VANC_REFUSED_SYSTEM = 3,
    VANC_REFUSED_AREA = 4,
    VANC_REFUSED_LIMIT = 5,
    VANC_REFUSED_LOCATION = 6,
    VANC_REFUSED_START = 7,
    VANC_REFUSED_WORD = 8,
    VANC_REFUSED_CUT = 9,
    VANC_REFUSED_CHECKSUM = 10,
    VANC_REFUSED_NUMBER = 11,
    VANC_REFUSED_ROOM = 12,
    VANC_REFUSED_PACKS = 13,
    VANC_REFUSED_LENGTH = 14,
    VANC_REFUSED_STORED_CHECKSUM = 15,
    VANC_REFUSED_LINE = 16,
    VANC_REFUSED_BUFFER = 17,
    VANC_REFUSED_NO_LINE = 18,
    VANC_REFUSED_ELEMENT = 19,
    VANC_REFUSED_PICTURE_LINE = 20
};

/* What a number says, in words: "done" for 0, "no number of a refusal" for one that no call gives. The command `vanc` says the same words; for 20
 * it names the line, and for 8 of a sheet that it takes as found, that a word is over 3FFh. */
static inline const char *vanc_refusal_text(uint64_t number)
{
    switch (number) {
    case VANC_DONE:
        return "done";
    case VANC_REFUSED_PACKING:
        return "the packing is neither 1 (packs of five) nor 2 (long packs)";
    case VANC_REFUSED_COUNTS:
        return "the sheet's counts do not agree with its length";
    case VANC_REFUSED_SYSTEM:
        return "the system is not 1 (1080/60i), 2 (1080/50i) or 3 (720/60p)";
    case VANC_REFUSED_AREA:
        return "the area is not as long as the system's: 9600 bytes, or 11520 in 1080/50i";
    case VANC_REFUSED_LIMIT:
        return "more packets than the limit of 1275";
    case VANC_REFUSED_LOCATION:
        return "the line is past the system's last, or the flags are over 3";
    case VANC_REFUSED_START:
        return "it does not begin with 000h 3FFh 3FFh, or has fewer than 7 words";
    case VANC_REFUSED_WORD:
        return "a word from DID to the last user word is not its byte with parity";
    case VANC_REFUSED_CUT:
        return "it is cut off: its DC asks for more words than are left";
    case VANC_REFUSED_CHECKSUM:
        return "its checksum word is wrong";
    case VANC_REFUSED_NUMBER:
        return "packets and locations differ in number";
    case VANC_REFUSED_ROOM:
        return "the frame has no room for all packets in this packing";
    case VANC_REFUSED_PACKS:
        return "the packs are not laid by the rules of SMPTE 375M";
    case VANC_REFUSED_LENGTH:
        return "its length or its fill is wrong";
    case VANC_REFUSED_STORED_CHECKSUM:
        return "its stored checksum is wrong";
    case VANC_REFUSED_LINE:
        return "its line is 0 or past the system's last";
    case VANC_REFUSED_BUFFER:
        return "the result is longer than the room for it";
    case VANC_REFUSED_NO_LINE:
        return "it has no line, which an element asks for";
    case VANC_REFUSED_ELEMENT:
        return "the element is not of the form of SMPTE ST 436-1 from here on";
    case VANC_REFUSED_PICTURE_LINE:
        return "its line is a picture line, or kept free for switching (7, 8, 569, 570)";
    default:
        return "no number of a refusal";
    }
}

/* What the test of a packet gives back. */
typedef struct {
    uint64_t number; /* 0, or 7 to 10 */
    uint64_t word;   /* the first word at fault; 0 where there is none */
    uint64_t kind;   /* the packet's type: 1 (DID 80h or above) or 2; on refusal 0 */
} vanc_judged;

/* What laying gives back. On refusal packs and bytes are 0. */
typedef struct {
    uint64_t number;
    uint64_t place;
    uint64_t word;  /* 7 to 10: the first word at fault of the packet; else 0 */
    uint64_t packs; /* packs laid */
    uint64_t bytes; /* string bytes: those of all packets */
} vanc_laid;

/* What reading gives back. On refusal packing, packets and numbers are 0. */
typedef struct {
    uint64_t number;
    uint64_t place;
    uint64_t packing; /* 1 or 2; 0 where there is no packet */
    uint64_t packets;
    uint64_t numbers; /* the sheet's length */
} vanc_read_back;

/* What a step gives back. A packet: 0, its place, its length. The end: 0, the place, 0. A refusal: its number, its place, 0. */
typedef struct {
    uint64_t number;
    uint64_t place;
    uint64_t length;
} vanc_step;

/* What writing an element gives back. On refusal packets and bytes are 0. */
typedef struct {
    uint64_t number;
    uint64_t place;
    uint64_t word;    /* 7 to 10: the first word at fault of the packet; else 0 */
    uint64_t packets; /* packets served */
    uint64_t bytes;   /* the element's length */
} vanc_element_written;

/* What reading an element gives back. On refusal packets and numbers are 0. */
typedef struct {
    uint64_t number;
    uint64_t place;
    uint64_t packets;
    uint64_t numbers; /* the sheet's length */
} vanc_element_read;

/*
 * Tests the packet that the words begin with: 000h 3FFh 3FFh, DID, SDID or DBN, DC, DC user words, CS. Words behind its CS are not looked at.
 *
 * Success: `kind` says whether the packet is of type 1, with DID 80h or above and a DBN, or of type 2, with an SDID. Refusal (7 to 10): `word`
 * is the first at fault. The words are only read.
 */
vanc_judged vanc_test_packet(const uint16_t *words, size_t words_len);

/*
 * Lays a sheet's packets into an area. The sheet is in the machine's own order of bytes: 1, system; P, then P pairs of line (0 for
 * none) and flags (bit 0 FI, bit 1 YCF); W, then W ten-bit words, packets back to back.
 *
 * packing   1: packs of five bytes; 2: one long pack per block.
 * area      the VAUX blocks of one frame, 80 bytes each, by channel, sequence and block.
 *
 * Success: the area's user bytes are the packets' and fill, every other byte is as it was. Refusal (1 to 6, 20, 7 to 12): the area is unchanged.
 * The sheet is only read.
 */
vanc_laid vanc_lay(const uint16_t *sheet, size_t sheet_len, uint64_t packing, uint8_t *area, size_t area_len);

/*
 * Reads an area's packets into a sheet, in either packing.
 *
 * Success: the first `numbers` numbers of `sheet` are the sheet, those behind it are as they were. Refusal (3, 4, 13, 5, 14 to 16, 20,
 * 17): the buffer is unchanged; 17 cannot come with VANC_SHEET_MAX numbers. The area is only read.
 */
vanc_read_back vanc_read(uint64_t system, const uint8_t *area, size_t area_len, uint16_t *sheet, size_t sheet_len);

/*
 * One step over a string of packets without fill: what stands at `place`, a number of bytes from the string's start. Begin with place
 * 0, and go on with place + length while length is not 0. Refusals: 3 (place 0), 14, 15, 16, 20. A place at the string's end or past it
 * is the end. The string is only read.
 */
vanc_step vanc_walk(uint64_t system, const uint8_t *string, size_t string_len, uint64_t place);

/*
 * Writes a sheet's packets as the ANC element of a frame: key, length (83h and three bytes), the number of packets, and the packets in
 * the sheet's order, with 8-bit coding, without checksum word and without padding. The sheet is as for laying.
 *
 * fi        720/60p: the element is of the frame with this FI, and packets of the other are passed over. 1080: of no effect, all
 *           packets are served.
 *
 * Success: the first `bytes` bytes of `element` are the element, those behind it are as they were. Refusal (2, 3, 5, 6, 20, 7 to 11 for
 * the whole sheet, then 18, then 17): the buffer is unchanged; 17 cannot come with VANC_ELEMENT_MAX bytes. The sheet is only read.
 */
vanc_element_written vanc_mxf_write(const uint16_t *sheet, size_t sheet_len, bool fi, uint8_t *element, size_t element_len);

/*
 * Reads an element's packets into a sheet. Padding behind a packet's samples may have any length and any values.
 *
 * fi        720/60p: the FI that the packets get. 1080: of no effect, they get 0.
 *
 * Success: the first `numbers` numbers of `sheet` are the sheet, those behind it are as they were. Refusal (3, 19, 20, 5, 17, in
 * this order): the buffer is unchanged; with VANC_ELEMENT_SHEET_MAX numbers 17 comes only for over 65,535 words. The element is only read.
 */
vanc_element_read vanc_mxf_read(uint64_t system, bool fi, const uint8_t *element, size_t element_len, uint16_t *sheet, size_t sheet_len);

/*
 * Writes a sheet's packets as vanc_mxf_write does, but as they are found, with 10-bit coding: all ten bits of every word from DID to CS, three
 * words in four bytes, without padding. Parity and CS are not tested and not mended, so damaged packets are kept as they are; DC's low byte says
 * how many user words a packet has.
 *
 * Success and `fi` are as for vanc_mxf_write. Refusal (2, 3, 5, 6, 20, 7 to 9 and 11 for the whole sheet, then 18, then 17): the buffer is
 * unchanged; 17 cannot come with VANC_ELEMENT10_MAX bytes. 8 is given only for a word over 3FFh, and for CS too (`word` DC + 6), 10 never. Packet by
 * packet the order is 7; 8 on DID, SDID and DC; 9; 8 on the user words and CS. The sheet is only read.
 */
vanc_element_written vanc_mxf_write10(const uint16_t *sheet, size_t sheet_len, bool fi, uint8_t *element, size_t element_len);

/*
 * Reads the packets of an element with 10-bit coding into a sheet: their words from DID to CS as they stand, with the parity and the CS that they
 * have, behind 000h 3FFh 3FFh. vanc_test_packet says which of them are sound. The two low bits of each four bytes, samples that the last four leave
 * unused, and padding of any length may have any values.
 *
 * Success, `fi` and the refusals (3, 19, 20, 5, 17, in this order) are as for vanc_mxf_read. An element with 8-bit coding is 19 here, and one with
 * 10-bit coding is 19 there, at the coding byte. A DC that does not agree with the number of samples is named by the first of the two bytes that it
 * stands in. The element is only read.
 */
vanc_element_read vanc_mxf_read10(uint64_t system, bool fi, const uint8_t *element, size_t element_len, uint16_t *sheet, size_t sheet_len);

#ifdef __cplusplus
}
#endif

#endif
