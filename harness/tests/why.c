/* Why no order exists, of a sheet in which three agents write a byte each and then read the next one's as it was, all sc:
 * the bars that are kept, a buffer that is too short, a scratch that is too short, and sheets that get the judge's own
 * answer. For the test in c.rs. */
#include "plimdrong.h"

#include <stdio.h>
#include <string.h>

static uint8_t sheet[] = {
    1, 0, 3, 1, 3, 3,                /* head: edition 1, 3 agents, 3 bytes of memory */
    2, 0, 8, 0, 2, 0, 0, 3, 0, 0, 0, /* event 0: init, bytes 0 to 2 are 0 */
    2, 0, 6, 1, 2, 2, 0, 1, 1,       /* event 1: agent 1 writes 1 to byte 0 */
    2, 0, 6, 1, 1, 2, 1, 1, 0,       /* event 2: agent 1 sees 0 in byte 1 */
    2, 0, 6, 2, 2, 2, 1, 1, 1,       /* event 3: agent 2 writes 1 to byte 1 */
    2, 0, 6, 2, 1, 2, 2, 1, 0,       /* event 4: agent 2 sees 0 in byte 2 */
    2, 0, 6, 3, 2, 2, 2, 1, 1,       /* event 5: agent 3 writes 1 to byte 2 */
    2, 0, 6, 3, 1, 2, 0, 1, 0,       /* event 6: agent 3 sees 0 in byte 0 */
    3, 0, 3, 2, 1, 0,                /* rows: all that was seen comes from the init */
    3, 0, 3, 4, 2, 0,                /**/
    3, 0, 3, 6, 0, 0                 /**/
};

enum { NEEDED = 8 }; /* of scratch, for six events that are no inits */

static uint8_t scratch[NEEDED + 1], bars[PLIMDRONG_MAX_BARS];

/* What is said, with buffers of these lengths, and how many bytes of each were changed: all are 9 before. */
static void say(size_t length, size_t scratch_len, size_t bars_len) {
    uint64_t word;
    uint32_t i;
    size_t at, cleared = 0, written = 0;
    memset(scratch, 9, sizeof scratch);
    memset(bars, 9, sizeof bars);
    word = plimdrong_why(sheet, length, scratch, scratch_len, bars, bars_len);
    switch (PLIMDRONG_KIND(word)) {
    case PLIMDRONG_REFUSED:
        printf("refused %u at %lu", PLIMDRONG_NUMBER(word), (unsigned long)PLIMDRONG_PLACE(word));
        break;
    case PLIMDRONG_BROKEN:
        printf("broken %u %u %u %u %u", PLIMDRONG_NUMBER(word), PLIMDRONG_NAME(word, 0), PLIMDRONG_NAME(word, 1),
               PLIMDRONG_NAME(word, 2), PLIMDRONG_NAME(word, 3));
        break;
    case PLIMDRONG_CONSISTENT:
        printf("consistent %u %u %u", PLIMDRONG_NUMBER(word), PLIMDRONG_NAME(word, 0), PLIMDRONG_NAME(word, 1));
        break;
    case PLIMDRONG_KEPT:
        printf("broken %u, kept", PLIMDRONG_NUMBER(word));
        for (i = 0; i < PLIMDRONG_BARS(word); i++) {
            printf(" (%u %u %u)", bars[3 * i], bars[3 * i + 1], bars[3 * i + 2]);
        }
    }
    for (at = 0; at < sizeof scratch; at++) {
        cleared += scratch[at] == 0;
    }
    for (at = 0; at < sizeof bars; at++) {
        written += bars[at] != 9;
    }
    printf(", %lu cleared, %lu written\n", (unsigned long)cleared, (unsigned long)written);
}

int main(void) {
    say(sizeof sheet, sizeof scratch, sizeof bars);
    say(sizeof sheet, NEEDED, 9);
    say(sizeof sheet, NEEDED, 8);
    say(sizeof sheet, NEEDED, 0);
    say(sizeof sheet, NEEDED - 1, 0);
    say(sizeof sheet - 1, NEEDED, 9);
    sheet[70] = 5; /* event 6 saw what event 1 did not write */
    say(sizeof sheet, NEEDED, 9);
    sheet[70] = 1; /* event 6 saw what event 1 wrote */
    sheet[sizeof sheet - 1] = 1;
    say(sizeof sheet, NEEDED, 0);
    return 0;
}
