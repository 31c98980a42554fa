/* The header's macros on words from standard input: kind, number, place and the four names, then the length of a written
 * sheet, an index in a list, and a table's events, pairs, rows and data bytes, a line each. Before them the kinds, the
 * numbers of a list that is not accepted, and the sizes. For the test in c.rs. */
#include "plimdrong.h"

#include <stdio.h>

int main(void) {
    unsigned long long word;
    printf("%d %d %d %d %d %d %d\n", PLIMDRONG_REFUSED, PLIMDRONG_BROKEN, PLIMDRONG_CONSISTENT, PLIMDRONG_WRITTEN,
           PLIMDRONG_ACCEPTED, PLIMDRONG_NOT_ACCEPTED, PLIMDRONG_TABLE);
    printf("%d %d %d %d\n", PLIMDRONG_LIST_LENGTH, PLIMDRONG_LIST_NUMBER, PLIMDRONG_LIST_EARLY, PLIMDRONG_LIST_BARRED);
    printf("%d %d %d %d %d\n", PLIMDRONG_MAX_TABLE_HEAD, PLIMDRONG_MAX_TABLE_EVENTS, PLIMDRONG_MAX_TABLE_DATA,
           PLIMDRONG_MAX_TABLE_ROWS, PLIMDRONG_MAX_TABLE_PAIRS);
    while (scanf("%llu", &word) == 1) {
        uint64_t w = word;
        printf("%u %u %lu %u %u %u %u", PLIMDRONG_KIND(w), PLIMDRONG_NUMBER(w), (unsigned long)PLIMDRONG_PLACE(w),
               PLIMDRONG_NAME(w, 0), PLIMDRONG_NAME(w, 1), PLIMDRONG_NAME(w, 2), PLIMDRONG_NAME(w, 3));
        printf(" %lu %lu %u %u %u %u\n", (unsigned long)PLIMDRONG_LENGTH(w), (unsigned long)PLIMDRONG_INDEX(w),
               PLIMDRONG_TABLE_EVENTS(w), PLIMDRONG_TABLE_PAIRS(w), PLIMDRONG_TABLE_ROWS(w), PLIMDRONG_TABLE_DATA(w));
    }
    return 0;
}
