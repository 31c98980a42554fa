/* Lists checked against a sheet in which agents 1 and 2 write byte 0 and agent 3 reads what agent 1 wrote, all sc: every
 * kind of answer and every fault. For the test in c.rs. */
#include "plimdrong.h"

#include <stdio.h>

static uint8_t sheet[] = {
    1, 0, 3, 1, 3, 1,          /* head: edition 1, 3 agents, 1 byte of memory */
    2, 0, 6, 0, 2, 0, 0, 1, 0, /* event 0: init, byte 0 is 0 */
    2, 0, 6, 1, 2, 2, 0, 1, 1, /* event 1: agent 1 writes 1 */
    2, 0, 6, 2, 2, 2, 0, 1, 2, /* event 2: agent 2 writes 2 */
    2, 0, 6, 3, 1, 2, 0, 1, 1, /* event 3: agent 3 sees 1 */
    3, 0, 3, 3, 0, 1           /* row: event 3 read byte 0 from event 1 */
};

static void say(uint64_t word) {
    switch (PLIMDRONG_KIND(word)) {
    case PLIMDRONG_REFUSED:
        printf("refused %u at %lu\n", PLIMDRONG_NUMBER(word), (unsigned long)PLIMDRONG_PLACE(word));
        break;
    case PLIMDRONG_BROKEN:
        printf("broken %u %u %u %u %u\n", PLIMDRONG_NUMBER(word), PLIMDRONG_NAME(word, 0), PLIMDRONG_NAME(word, 1),
               PLIMDRONG_NAME(word, 2), PLIMDRONG_NAME(word, 3));
        break;
    case PLIMDRONG_ACCEPTED:
        printf("accepted\n");
        break;
    case PLIMDRONG_NOT_ACCEPTED:
        switch (PLIMDRONG_NUMBER(word)) {
        case PLIMDRONG_LIST_LENGTH:
            printf("not accepted, length %lu\n", (unsigned long)PLIMDRONG_LENGTH(word));
            break;
        case PLIMDRONG_LIST_NUMBER:
            printf("not accepted, number at %lu\n", (unsigned long)PLIMDRONG_INDEX(word));
            break;
        case PLIMDRONG_LIST_EARLY:
            printf("not accepted, early at %lu\n", (unsigned long)PLIMDRONG_INDEX(word));
            break;
        case PLIMDRONG_LIST_BARRED:
            printf("not accepted, barred %u %u %u %u\n", PLIMDRONG_NAME(word, 0), PLIMDRONG_NAME(word, 1),
                   PLIMDRONG_NAME(word, 2), PLIMDRONG_NAME(word, 3));
            break;
        }
    }
}

int main(void) {
    static const uint8_t good[] = {0, 2, 1, 3}, unknown[] = {0, 2, 1, 4}, twice[] = {0, 1, 1, 3};
    static const uint8_t early[] = {0, 3, 2, 1}, barred[] = {0, 1, 2, 3};
    say(plimdrong_check(sheet, sizeof sheet, good, sizeof good));
    say(plimdrong_check(sheet, sizeof sheet, good, 3));
    say(plimdrong_check(sheet, sizeof sheet, good, 0));
    say(plimdrong_check(sheet, sizeof sheet, unknown, sizeof unknown));
    say(plimdrong_check(sheet, sizeof sheet, twice, sizeof twice));
    say(plimdrong_check(sheet, sizeof sheet, early, sizeof early));
    say(plimdrong_check(sheet, sizeof sheet, barred, sizeof barred));
    /* a sheet that is at fault is answered before the list is looked at */
    say(plimdrong_check(sheet, sizeof sheet - 1, good, 3));
    sheet[41] = 7; /* what event 3 saw */
    say(plimdrong_check(sheet, sizeof sheet, barred, sizeof barred));
    return 0;
}
