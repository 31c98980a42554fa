/* The fuzz target: bytes as a sheet, judged by plimdrong_judge and by the second program; word, order and both buffers
 * are compared, and so are the bytes around the buffers. The input's last three bytes may choose the buffers' lengths,
 * up to those that are enough for every sheet, so that 12 and 13 come up too, by one byte as well. Or the last two say that
 * a list stands before them: then plimdrong_check is compared as well. It accepts every order that the judge gives.
 * plimdrong_why is compared for every sheet, with the same scratch; the byte that chooses the order buffer's length chooses
 * that of the buffer for the bars. Its answer is the judge's own but for 13 and 26. */
#include "plimdrong.h"

#include <stdio.h>
#include <stdlib.h>
#include <string.h>

uint64_t second_judge(const uint8_t *, size_t, uint8_t *, size_t, uint8_t *, size_t);
uint64_t second_check(const uint8_t *, size_t, const uint8_t *, size_t);
uint64_t second_why(const uint8_t *, size_t, uint8_t *, size_t, uint8_t *, size_t);

enum { AROUND = 16, BARS = 255 }; /* 85 bars: far more than were ever kept, and 16 comes where they are not enough */
struct buffers {
    uint8_t scratch[AROUND + PLIMDRONG_MAX_SCRATCH + AROUND];
    uint8_t order[AROUND + PLIMDRONG_MAX_EVENTS + AROUND];
    uint8_t bars[AROUND + BARS + AROUND];
};

static void differ(const char *entry, uint64_t a, uint64_t b, const char *what) {
    fprintf(stderr, "%s %011llx, second program %011llx%s\n", entry, (unsigned long long)a, (unsigned long long)b, what);
    abort();
}

/* A copy of the exact length, so that a sanitizer sees reads past its end. */
static uint8_t *copied(const uint8_t *data, size_t length) {
    uint8_t *copy = (uint8_t *)malloc(length + (length == 0));
    memcpy(copy, data, length);
    return copy;
}

int LLVMFuzzerTestOneInput(const uint8_t *data, size_t size) {
    static struct buffers ours, theirs;
    size_t scratch = PLIMDRONG_MAX_SCRATCH, order = PLIMDRONG_MAX_EVENTS, bars = BARS, length = size, listed = 0;
    uint64_t a, b, w;
    uint8_t *sheet, *list;
    int none;
    if (size >= 3 && data[size - 1] == 0xfe) { /* a tag that never is: the three bytes are not part of the sheet */
        length = size - 3;
        scratch = ((size_t)1 << (data[size - 2] & 15)) - (data[size - 2] >> 7); /* 2^15 is the most */
        order = data[size - 3] % (PLIMDRONG_MAX_EVENTS + 1);
        bars = data[size - 3];
    }
    if (size >= 2 && data[size - 1] == 0xfd) { /* another: before it the length of a list, and before that the list */
        listed = data[size - 2];
        if (listed > size - 2) {
            listed = size - 2;
        }
        length = size - 2 - listed;
    }
    sheet = copied(data, length);
    list = copied(data + length, listed);
    memset(&ours, 0x5a, sizeof ours);
    memset(&theirs, 0x5a, sizeof theirs);
    a = plimdrong_judge(sheet, length, ours.scratch + AROUND, scratch, ours.order + AROUND, order);
    b = second_judge(sheet, length, theirs.scratch + AROUND, scratch, theirs.order + AROUND, order);
    if (a != b || memcmp(&ours, &theirs, sizeof ours) != 0) {
        differ("plimdrong_judge", a, b, a == b ? ", buffers differ" : "");
    }
    b = second_check(sheet, length, list, listed);
    if (plimdrong_check(sheet, length, list, listed) != b) {
        differ("plimdrong_check", plimdrong_check(sheet, length, list, listed), b, "");
    }
    /* the judge left the needed part of both scratches zero: something else, for it does not matter */
    memset(ours.scratch + AROUND, 0xa5, scratch);
    memset(theirs.scratch + AROUND, 0xa5, scratch);
    w = plimdrong_why(sheet, length, ours.scratch + AROUND, scratch, ours.bars + AROUND, bars);
    b = second_why(sheet, length, theirs.scratch + AROUND, scratch, theirs.bars + AROUND, bars);
    if (w != b || memcmp(&ours, &theirs, sizeof ours) != 0) {
        differ("plimdrong_why", w, b, w == b ? ", buffers differ" : "");
    }
    none = PLIMDRONG_KIND(w) == PLIMDRONG_KEPT || (PLIMDRONG_KIND(w) == PLIMDRONG_REFUSED && PLIMDRONG_NUMBER(w) == 16);
    if (PLIMDRONG_KIND(a) != PLIMDRONG_REFUSED || PLIMDRONG_NUMBER(a) != 13) {
        if (none != (PLIMDRONG_KIND(a) == PLIMDRONG_BROKEN && PLIMDRONG_NUMBER(a) == 26) || (!none && w != a)) {
            differ("plimdrong_why", w, a, " of plimdrong_judge");
        }
    }
    if (PLIMDRONG_KIND(a) == PLIMDRONG_CONSISTENT) {
        /* the order has a byte for each event, which the word does not count: one length is right */
        size_t events = 0;
        do {
            b = plimdrong_check(sheet, length, ours.order + AROUND, ++events);
        } while (events < order && PLIMDRONG_KIND(b) == PLIMDRONG_NOT_ACCEPTED &&
                 PLIMDRONG_NUMBER(b) == PLIMDRONG_LIST_LENGTH);
        if (PLIMDRONG_KIND(b) != PLIMDRONG_ACCEPTED) {
            differ("plimdrong_judge's order", a, b, " is not accepted");
        }
    }
    free(sheet);
    free(list);
    return 0;
}
