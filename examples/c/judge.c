/* judge FILE..: judges the sheets in the files and prints for each the word and the line. Status: 0 all were printed; 2 a
 * file could not be read, or a line could not be written, and standard error says so.
 *
 *   harness/native.sh
 *   cc -Iinclude examples/c/judge.c target/native/libplimdrong.a -o target/judge
 *   target/judge examples/first.sheet
 */
#include "plimdrong.h"

#include <stdio.h>
#include <string.h>

static void print_line(uint64_t word, const uint8_t *order) {
    int i;
    switch (PLIMDRONG_KIND(word)) {
    case PLIMDRONG_REFUSED:
        printf("refused %u at %lu\n", PLIMDRONG_NUMBER(word), (unsigned long)PLIMDRONG_PLACE(word));
        break;
    case PLIMDRONG_BROKEN:
        printf("broken %u", PLIMDRONG_NUMBER(word));
        for (i = 0; i < 4; i++) {
            unsigned name = PLIMDRONG_NAME(word, i);
            if (name == PLIMDRONG_NONE) {
                printf(" -");
            } else {
                printf(" %u", name);
            }
        }
        printf("\n");
        break;
    case PLIMDRONG_CONSISTENT:
        if (PLIMDRONG_NUMBER(word) == PLIMDRONG_ORDERLY) {
            printf("consistent orderly then");
        } else {
            printf("consistent unsettled %u %u then", PLIMDRONG_NAME(word, 0), PLIMDRONG_NAME(word, 1));
        }
        for (i = 0; i < PLIMDRONG_MAX_EVENTS && order[i] != PLIMDRONG_NONE; i++) {
            printf(" %u", (unsigned)order[i]);
        }
        printf("\n");
        break;
    default:
        printf("an answer that this program does not know: kind %u\n", (unsigned)PLIMDRONG_KIND(word));
    }
}

int main(int count, char **names) {
    /* a byte more than a sheet may have tells an over-long one */
    static uint8_t sheet[PLIMDRONG_MAX_SHEET + 1];
    static uint8_t scratch[PLIMDRONG_MAX_SCRATCH];
    uint8_t order[PLIMDRONG_MAX_EVENTS];
    int i;
    if (count < 2) {
        fprintf(stderr, "usage: judge FILE..\n");
        return 2;
    }
    for (i = 1; i < count; i++) {
        size_t length;
        uint64_t word;
        FILE *file = fopen(names[i], "rb");
        if (file == NULL) {
            perror(names[i]);
            return 2;
        }
        length = fread(sheet, 1, sizeof sheet, file);
        /* a read that failed is no end of the file: what came before it is no sheet */
        if (ferror(file)) {
            perror(names[i]);
            fclose(file);
            return 2;
        }
        fclose(file);
        memset(order, PLIMDRONG_NONE, sizeof order);
        word = plimdrong_judge(sheet, length, scratch, sizeof scratch, order, sizeof order);
        printf("%011llx ", (unsigned long long)word);
        print_line(word, order);
    }
    if (fflush(stdout) != 0 || ferror(stdout)) {
        perror("standard output");
        return 2;
    }
    return 0;
}
