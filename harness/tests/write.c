/* The table of examples/first.sheet written, read back, and refused in four ways; and one of edition 2 written, read
 * back, judged, and refused for its tear bytes. For the test in c.rs. */
#include "plimdrong.h"

#include <stdio.h>
#include <string.h>

static const uint8_t head[] = {1, 1, 1};
static const uint8_t events[] = {0, 2, 0, 0, 1, 0, 0, 1, 1, 1, 1, 0, 1, 1, 0, 1};
static const uint8_t data[] = {0, 0};
static const uint8_t rows[] = {1, 0, 0};
static const uint8_t pairs[] = {0};

static void refused(uint64_t word, const char *what) {
    if (PLIMDRONG_KIND(word) == PLIMDRONG_REFUSED) {
        printf("refused %u %s %lu\n", PLIMDRONG_NUMBER(word), what, (unsigned long)PLIMDRONG_PLACE(word));
    }
}

/* Edition 2: two writes and a read of two bytes each, unordered at 0; the read saw a byte of each. */
static void edition_2(void) {
    static const uint8_t head_2[] = {2, 3, 2};
    static const uint8_t data_2[] = {0, 0, 1, 1, 2, 2, 1, 2};
    static const uint8_t rows_2[] = {3, 0, 1, 3, 1, 2};
    uint8_t events_2[] = {0, 2, 0, 0, 2, 0, 0, 2, 1, 2, 1, 0, 2, 1, 0, 2, 2, 2, 1, 0, 2, 1, 0, 2, 3, 1, 1, 0, 2, 0, 0, 2};
    uint8_t *tear = events_2 + 5; /* of the init; that of event i stands 8 * i further on */
    uint8_t sheet[PLIMDRONG_MAX_SHEET], scratch[1], order[4];
    uint8_t h[PLIMDRONG_MAX_TABLE_HEAD], e[PLIMDRONG_MAX_TABLE_EVENTS], d[PLIMDRONG_MAX_TABLE_DATA];
    uint8_t r[PLIMDRONG_MAX_TABLE_ROWS], p[PLIMDRONG_MAX_TABLE_PAIRS];
    uint8_t read_tear;
    for (read_tear = 0; read_tear < 3; read_tear++) {
        uint64_t word;
        tear[24] = read_tear;
        word = plimdrong_write(head_2, sizeof head_2, events_2, sizeof events_2, data_2, sizeof data_2, rows_2,
                               sizeof rows_2, pairs, 0, sheet, sizeof sheet);
        refused(word, "index");
        if (PLIMDRONG_KIND(word) == PLIMDRONG_WRITTEN) {
            size_t length = PLIMDRONG_LENGTH(word);
            printf("edition %u written %lu, tear byte %u", (unsigned)sheet[3], (unsigned long)length,
                   (unsigned)sheet[47]);
            word = plimdrong_table(sheet, length, h, sizeof h, e, sizeof e, d, sizeof d, r, sizeof r, p, sizeof p);
            if (PLIMDRONG_KIND(word) != PLIMDRONG_TABLE || memcmp(h, head_2, sizeof head_2) != 0 ||
                memcmp(e, events_2, sizeof events_2) != 0 || memcmp(d, data_2, sizeof data_2) != 0 ||
                memcmp(r, rows_2, sizeof rows_2) != 0) {
                printf(", and not read back");
            }
            word = plimdrong_judge(sheet, length, scratch, sizeof scratch, order, sizeof order);
            printf(", kind %u number %u\n", PLIMDRONG_KIND(word), PLIMDRONG_NUMBER(word));
        }
    }
    /* an init, and an sc write, with the wrong one */
    tear[24] = 0;
    tear[0] = 1;
    refused(plimdrong_write(head_2, sizeof head_2, events_2, sizeof events_2, data_2, sizeof data_2, rows_2,
                            sizeof rows_2, pairs, 0, sheet, sizeof sheet),
            "index");
    tear[0] = 0;
    events_2[10] = 2;
    tear[8] = 0;
    refused(plimdrong_write(head_2, sizeof head_2, events_2, sizeof events_2, data_2, sizeof data_2, rows_2,
                            sizeof rows_2, pairs, 0, sheet, sizeof sheet),
            "index");
}

int main(void) {
    uint8_t sheet[PLIMDRONG_MAX_SHEET];
    uint8_t h[PLIMDRONG_MAX_TABLE_HEAD], e[PLIMDRONG_MAX_TABLE_EVENTS], d[PLIMDRONG_MAX_TABLE_DATA];
    uint8_t r[PLIMDRONG_MAX_TABLE_ROWS], p[PLIMDRONG_MAX_TABLE_PAIRS];
    size_t length;
    uint64_t word = plimdrong_write(head, sizeof head, events, sizeof events, data, sizeof data, rows, sizeof rows,
                                    pairs, 0, sheet, sizeof sheet);
    if (PLIMDRONG_KIND(word) != PLIMDRONG_WRITTEN) {
        return 1;
    }
    length = PLIMDRONG_LENGTH(word);
    printf("written %lu\n", (unsigned long)length);
    word = plimdrong_table(sheet, length, h, sizeof h, e, sizeof e, d, sizeof d, r, sizeof r, p, sizeof p);
    if (PLIMDRONG_KIND(word) != PLIMDRONG_TABLE || memcmp(h, head, sizeof head) != 0 ||
        memcmp(e, events, sizeof events) != 0 || memcmp(d, data, sizeof data) != 0 || memcmp(r, rows, sizeof rows) != 0) {
        return 1;
    }
    printf("table %u events %u data %u rows %u pairs\n", PLIMDRONG_TABLE_EVENTS(word), PLIMDRONG_TABLE_DATA(word),
           PLIMDRONG_TABLE_ROWS(word), PLIMDRONG_TABLE_PAIRS(word));
    refused(plimdrong_write(head, sizeof head, events, sizeof events, data, sizeof data, rows, 2, pairs, 0, sheet,
                            sizeof sheet),
            "index");
    refused(plimdrong_write(head, sizeof head, events, sizeof events, data, sizeof data, rows, sizeof rows, pairs, 1,
                            sheet, length - 1),
            "index");
    refused(plimdrong_table(sheet, length, h, sizeof h, e, sizeof e, d, sizeof d, r, 2, p, 0), "buffer");
    refused(plimdrong_table(sheet, length - 1, h, sizeof h, e, sizeof e, d, sizeof d, r, 2, p, 0), "at");
    edition_2();
    return 0;
}
