/*
 * Lowers a statement sheet from C: prints its plan, or says how it is refused.
 *
 *     example [FILE]          standard input if there is no FILE
 *
 * Exit status: 0 accepted, 1 refused, 2 input or output failed.
 */
#include "dresserhawk.h"

#include <stdio.h>
#include <stdlib.h>

enum { ACCEPTED, REFUSED, FAILED };

/* One byte more than a sheet may have, so that a longer one is refused. */
static uint8_t sheet[DRESSERHAWK_SHEET_BYTES + 1];

/* The work slices. They need not be cleared, and can be used again. */
static uint32_t work[4][DRESSERHAWK_WORK_WORDS];

static int lower(size_t length, uint8_t *plan, size_t room, size_t answer[DRESSERHAWK_VALUES])
{
    size_t words = DRESSERHAWK_WORK_WORDS;
    bool written = dresserhawk_lower(sheet, length, work[0], words, work[1], words, work[2], words,
                                     work[3], words, plan, room, answer, DRESSERHAWK_VALUES);
    return written ? (int)answer[DRESSERHAWK_NUMBER] : -1;
}

static int show(size_t length)
{
    size_t answer[DRESSERHAWK_VALUES];
    size_t room = 4096;
    uint8_t *plan = malloc(room);
    int number = DRESSERHAWK_NO_ROOM;
    while (plan != NULL && (number = lower(length, plan, room, answer)) == DRESSERHAWK_NO_ROOM) {
        /* The plan is longer than its slice, and the slice is as it was. */
        free(plan);
        room *= 2;
        plan = malloc(room);
    }
    if (plan == NULL) {
        perror("plan");
        return FAILED;
    }
    int status = ACCEPTED;
    if (number != DRESSERHAWK_ACCEPTED) {
        fprintf(stderr, "refused: number %zu, line %zu, span %zu to %zu, kind %zu\n",
                answer[DRESSERHAWK_NUMBER], answer[DRESSERHAWK_LINE], answer[DRESSERHAWK_START],
                answer[DRESSERHAWK_END], answer[DRESSERHAWK_KIND]);
        status = REFUSED;
    } else if (fwrite(plan, 1, answer[DRESSERHAWK_LENGTH], stdout) != answer[DRESSERHAWK_LENGTH]
               || fflush(stdout) != 0) {
        perror("standard output");
        status = FAILED;
    }
    free(plan);
    return status;
}

int main(int argc, char **argv)
{
    FILE *in = argc > 1 ? fopen(argv[1], "rb") : stdin;
    if (in == NULL) {
        perror(argv[1]);
        return FAILED;
    }
    size_t length = fread(sheet, 1, sizeof sheet, in);
    if (ferror(in)) {
        perror("sheet");
        return FAILED;
    }
    return show(length);
}
