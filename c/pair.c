/*
 * Lowers two statement sheets into one plan from C: prints it, or says which
 * sheet is refused and how. The plan has 1 MiB of room; example.c shows how to
 * make more.
 *
 *     pair LEFT RIGHT         the rows of both as one list, as UNION gives them
 *
 * Exit status: 0 accepted, 1 refused, 2 usage, or input or output failed.
 */
#include "dresserhawk.h"

#include <stdio.h>

enum { ACCEPTED, REFUSED, FAILED };

/* One byte more than a sheet may have, so that a longer one is refused. */
static uint8_t sheets[2][DRESSERHAWK_SHEET_BYTES + 1];
static size_t lengths[2];

/* The work slices, four for each side. */
static uint32_t work[8][DRESSERHAWK_WORK_WORDS];
static uint8_t plan[1 << 20];

/* Whether a file could be read as the sheet of this side. */
static bool take(int side, const char *name)
{
    FILE *in = fopen(name, "rb");
    if (in != NULL) {
        lengths[side] = fread(sheets[side], 1, sizeof sheets[side], in);
        if (!ferror(in))
            return fclose(in) == 0;
    }
    perror(name);
    return false;
}

/* Which side an answer speaks of: in refusal 7 the kind has the form besides. */
static const char *side_of(const size_t *answer)
{
    size_t kind = answer[DRESSERHAWK_KIND];
    size_t side = answer[DRESSERHAWK_NUMBER] == DRESSERHAWK_UNDESUGARED ? kind / 10 : kind;
    return side == DRESSERHAWK_LEFT ? "left" : side == DRESSERHAWK_RIGHT ? "right" : "both";
}

int main(int argc, char **argv)
{
    if (argc != 3) {
        fprintf(stderr, "pair LEFT RIGHT\n");
        return FAILED;
    }
    if (!take(0, argv[1]) || !take(1, argv[2]))
        return FAILED;
    /* The answer has room for its six values, so the call returns true. */
    size_t answer[DRESSERHAWK_VALUES], words = DRESSERHAWK_WORK_WORDS;
    bool all = false;
    dresserhawk_lower_pair(sheets[0], lengths[0], sheets[1], lengths[1], all, work[0], words,
                           work[1], words, work[2], words, work[3], words, work[4], words,
                           work[5], words, work[6], words, work[7], words, plan, sizeof plan,
                           answer, DRESSERHAWK_VALUES);
    if (answer[DRESSERHAWK_NUMBER] != DRESSERHAWK_ACCEPTED) {
        fprintf(stderr, "refused, %s: number %zu, line %zu, span %zu to %zu, kind %zu\n",
                side_of(answer), answer[DRESSERHAWK_NUMBER], answer[DRESSERHAWK_LINE],
                answer[DRESSERHAWK_START], answer[DRESSERHAWK_END], answer[DRESSERHAWK_KIND]);
        return REFUSED;
    }
    size_t length = answer[DRESSERHAWK_LENGTH];
    if (fwrite(plan, 1, length, stdout) != length || fflush(stdout) != 0) {
        perror("standard output");
        return FAILED;
    }
    return ACCEPTED;
}
