/*
 * Answers requests on standard input with calls of libvanc, on standard output, until the input ends.
 *
 * Request: five numbers (64 bits, low byte first): call (0 lay, 1 read, 2 walk, 3 mxf write, 4 mxf read, 5 test packet, 6 mxf write10, 7 mxf
 * read10), packing or system, place or FI, length of what the call reads, length of what it may write, both in bytes; then those bytes. A sheet's
 * numbers and a packet's words have their low byte first.
 * Answer: five numbers, the result's fields in the header's order and then 0; a sixth, 0 or the bits of what was changed that may not be
 * (see CHANGED_); then all bytes of what the call may write.
 *
 * answer            lends buffers with guard bytes on both sides
 * answer exact      lends buffers that are allocated to the byte, without guards: for valgrind
 * answer fence      lends buffers that end where memory ends: a read or write past the end stops the program at once
 */
#define _GNU_SOURCE
#include <stdio.h>
#include <stdlib.h>
#include <string.h>
#include <sys/mman.h>
#include <unistd.h>

#include "vanc.h"

enum { LAY, READ, WALK, MXF_WRITE, MXF_READ, TEST_PACKET, MXF_WRITE10, MXF_READ10 };
enum { GUARDED, EXACT, FENCED };
/* Guards of what a call reads; for what it writes two bits higher, 4 and 8. */
enum { CHANGED_BEFORE = 1, CHANGED_BEHIND = 2, CHANGED_READ_ONLY = 16 };
enum { GUARD = 64, GUARD_BYTE = 0xA7 };

/* A buffer that is lent to a call: `whole` with `room` bytes is its memory. */
typedef struct {
    uint8_t *whole;
    size_t room;
    uint8_t *bytes;
    size_t length;
} lent;

static int way = GUARDED;

static void fail(const char *why)
{
    fprintf(stderr, "answer: %s\n", why);
    exit(2);
}

static lent lend(size_t length)
{
    lent b = { NULL, length, NULL, length };
    if (way == FENCED) {
        size_t page = (size_t)sysconf(_SC_PAGESIZE);
        b.room = (length + page - 1) / page * page + page;
        b.whole = mmap(NULL, b.room, PROT_READ | PROT_WRITE, MAP_PRIVATE | MAP_ANONYMOUS, -1, 0);
        if (b.whole == MAP_FAILED || mprotect(b.whole + b.room - page, page, PROT_NONE) != 0)
            fail("no memory");
        b.bytes = b.whole + b.room - page - length;
        return b;
    }
    size_t guard = way == GUARDED ? GUARD : 0;
    b.room = length + 2 * guard;
    b.whole = malloc(b.room);
    if (b.whole == NULL)
        fail("no memory");
    b.bytes = b.whole + guard;
    memset(b.whole, GUARD_BYTE, guard);
    memset(b.bytes + length, GUARD_BYTE, guard);
    return b;
}

static void take_back(lent b)
{
    if (way == FENCED)
        munmap(b.whole, b.room);
    else
        free(b.whole);
}

/* Which of the guards around a buffer have changed. */
static uint64_t changed(lent b)
{
    uint64_t bits = 0;
    if (way == GUARDED)
        for (size_t k = 0; k < GUARD; k++) {
            if (b.whole[k] != GUARD_BYTE)
                bits |= CHANGED_BEFORE;
            if (b.bytes[b.length + k] != GUARD_BYTE)
                bits |= CHANGED_BEHIND;
        }
    return bits;
}

static void get(void *to, size_t length)
{
    if (fread(to, 1, length, stdin) != length)
        fail("the request ends early");
}

static void call(const uint64_t request[5], lent from, lent to, uint64_t answer[6])
{
    if (request[0] == LAY) {
        vanc_laid r = vanc_lay((const uint16_t *)from.bytes, from.length / 2, request[1], to.bytes, to.length);
        memcpy(answer, (uint64_t[]){ r.number, r.place, r.word, r.packs, r.bytes }, 5 * sizeof *answer);
    } else if (request[0] == READ) {
        vanc_read_back r = vanc_read(request[1], from.bytes, from.length, (uint16_t *)to.bytes, to.length / 2);
        memcpy(answer, (uint64_t[]){ r.number, r.place, r.packing, r.packets, r.numbers }, 5 * sizeof *answer);
    } else if (request[0] == WALK) {
        vanc_step r = vanc_walk(request[1], from.bytes, from.length, request[2]);
        memcpy(answer, (uint64_t[]){ r.number, r.place, r.length }, 3 * sizeof *answer);
    } else if (request[0] == TEST_PACKET) {
        vanc_judged r = vanc_test_packet((const uint16_t *)from.bytes, from.length / 2);
        memcpy(answer, (uint64_t[]){ r.number, r.word, r.kind }, 3 * sizeof *answer);
    } else if (request[0] == MXF_WRITE || request[0] == MXF_WRITE10) {
        vanc_element_written (*writer)(const uint16_t *, size_t, bool, uint8_t *, size_t) =
            request[0] == MXF_WRITE ? vanc_mxf_write : vanc_mxf_write10;
        vanc_element_written r = writer((const uint16_t *)from.bytes, from.length / 2, request[2] != 0, to.bytes, to.length);
        memcpy(answer, (uint64_t[]){ r.number, r.place, r.word, r.packets, r.bytes }, 5 * sizeof *answer);
    } else {
        vanc_element_read (*reader)(uint64_t, bool, const uint8_t *, size_t, uint16_t *, size_t) =
            request[0] == MXF_READ ? vanc_mxf_read : vanc_mxf_read10;
        vanc_element_read r = reader(request[1], request[2] != 0, from.bytes, from.length, (uint16_t *)to.bytes, to.length / 2);
        memcpy(answer, (uint64_t[]){ r.number, r.place, r.packets, r.numbers }, 4 * sizeof *answer);
    }
}

static void answer_request(const uint64_t request[5])
{
    uint64_t answer[6] = { 0 };
    lent from = lend(request[3]), to = lend(request[4]);
    get(from.bytes, from.length);
    get(to.bytes, to.length);
    uint8_t *copy = malloc(from.length + 1);
    if (copy == NULL)
        fail("no memory");
    memcpy(copy, from.bytes, from.length);

    call(request, from, to, answer);

    answer[5] = changed(from) | changed(to) << 2;
    if (memcmp(copy, from.bytes, from.length) != 0)
        answer[5] |= CHANGED_READ_ONLY;
    fwrite(answer, sizeof *answer, 6, stdout);
    fwrite(to.bytes, 1, to.length, stdout);
    fflush(stdout);
    free(copy);
    take_back(from);
    take_back(to);
}

int main(int argc, char **argv)
{
    if (argc > 1)
        way = strcmp(argv[1], "exact") == 0 ? EXACT : strcmp(argv[1], "fence") == 0 ? FENCED : GUARDED;
    uint64_t request[5];
    while (fread(request, sizeof *request, 5, stdin) == 5)
        answer_request(request);
    return 0;
}
