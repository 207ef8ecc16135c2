/*
 * How much stack the calls need. Each call runs on a stack of its own that was
 * painted before; the lowest byte that has changed tells how far it went. The
 * sheets are as deep as a sheet may be (64), each made of one or two kinds of
 * record in turn, below each kind of clause. The deepest record is one that is
 * accepted or one that is refused: the check walks down only to the latter.
 *
 * The call with two sheets is made with such a sheet on both sides, and with one
 * on the right behind an empty left one: where a left one is refused, the right
 * one is not walked.
 *
 *     stack         prints the most that each call took, and on which sheet
 */
#include "dresserhawk.h"

#include <stdio.h>
#include <string.h>
#include <ucontext.h>

enum { DEEPEST = 64, STACK = 1 << 18, PAINT = 0x5c };

/* Lines before a child and behind it, and how much deeper the child stands. */
struct shape {
    const char *name, *before, *behind;
    int deeper;
};

static const struct shape heads[] = {
    { "where", "stmt\t1\t0\nwhere\t0\t1\n", "", 3 },
    { "return item", "stmt\t1\t0\nreturn\t1\t0\t0\t0\t0\t0\t1\nitem\t-\n", "", 4 },
    { "aggregate",
      "stmt\t1\t0\nreturn\t2\t1\t0\t0\t0\t0\t1\nitem\t-\nfn\tcount\t0\t0\nitem\t-\nfn\tsum\t1\t1\n",
      "", 5 },
    { "return key", "stmt\t1\t0\nreturn\t0\t0\t1\t0\t0\t0\t1\nkey\t1\n", "", 4 },
    { "limit", "stmt\t1\t0\nreturn\t0\t0\t0\t0\t1\t0\t1\n", "", 3 },
    { "with filter", "stmt\t1\t0\nwith\t0\t1\t0\t0\t0\t0\t1\n", "", 3 },
    { "unwind", "stmt\t1\t0\nunwind\t1\t0\t1\n", "", 3 },
    { "call", "stmt\t1\t0\ncall\tf\t1\t0\t0\t0\t1\n", "", 3 },
    { "match", "stmt\t1\t0\nmatch\t0\t1\t0\t1\npart\t-\t0\t1\nnode\t-\t0\t1\t0\t1\n", "", 5 },
    { "optional match",
      "stmt\t2\t0\nunwind\t1\t0\t1\nnull\nmatch\t1\t1\t0\t1\npart\t1\t0\t3\nnode\t-\t0\t0\t0\t1\n"
      "rel\t-\t0\t0\tone\t-\t-\t1\t0\t1\n",
      "node\t-\t0\t0\t0\t1\n", 5 },
    { "with limit", "stmt\t1\t0\nwith\t0\t0\t0\t0\t1\t0\t1\n", "", 3 },
    { "with key", "stmt\t1\t0\nwith\t0\t0\t1\t0\t0\t0\t1\nkey\t0\n", "", 4 },
    { "with item", "stmt\t1\t0\nwith\t1\t0\t0\t0\t0\t0\t1\nitem\t-\n", "", 4 },
    { "arm", "stmt\t0\t1\narm\t1\t1\nwhere\t0\t1\n", "", 4 },
    { "arm limit", "stmt\t0\t1\narm\t1\t1\nreturn\t0\t0\t0\t0\t1\t0\t1\n", "", 4 },
    { "arm with limit", "stmt\t0\t1\narm\t1\t1\nwith\t0\t0\t0\t0\t1\t0\t1\n", "", 4 },
};

static const struct shape inner[] = {
    { "list", "list\t1\n", "", 1 },
    { "prop", "prop\tp\n", "", 1 },
    { "index first", "index\n", "null\n", 1 },
    { "index second", "index\nnull\n", "", 1 },
    { "in", "in\nnull\n", "", 1 },
    { "bin first", "bin\t0\n", "null\n", 1 },
    { "bin second", "bin\t0\nnull\n", "", 1 },
    { "un", "un\t1\n", "", 1 },
    { "isnull", "isnull\t0\n", "", 1 },
    { "slice", "slice\t1\t1\nnull\nnull\n", "", 1 },
    { "map", "map\t1\nname\tk\n", "", 1 },
    { "fn", "fn\tcount\t1\t1\n", "", 1 },
    { "case else", "case\t1\t1\t1\nnull\nnull\nnull\n", "", 1 },
    { "case then", "case\t0\t1\t0\nnull\n", "", 1 },
    { "listp list", "listp\t0\t1\t0\n", "", 1 },
    { "listp predicate", "listp\t0\t1\t1\nnull\n", "", 1 },
    { "pat node", "pat\t1\npart\t-\t0\t1\nnode\t-\t0\t1\t0\t1\n", "", 3 },
    { "pat named", "pat\t1\npart\t1\t0\t1\nnode\t1\t1\t1\t0\t1\nname\tl\n", "", 3 },
    { "pat rel",
      "pat\t1\npart\t-\t0\t3\nnode\t-\t0\t0\t0\t1\nrel\t-\t0\t0\tone\t-\t-\t1\t0\t1\n",
      "node\t-\t0\t0\t0\t1\n", 3 },
    { "pat far node",
      "pat\t1\npart\t-\t0\t3\nnode\t-\t0\t0\t0\t1\nrel\t-\t0\t0\tone\t-\t-\t0\t0\t1\n"
      "node\t-\t0\t1\t0\t1\n",
      "", 3 },
    { "pat shortest",
      "pat\t1\npart\t-\t1\t3\nnode\t-\t0\t0\t0\t1\nrel\t-\t0\t0\tone\t-\t-\t1\t0\t1\n",
      "node\t-\t0\t0\t0\t1\n", 3 },
    { "pat shortest node", "pat\t1\npart\t-\t2\t3\nnode\t-\t0\t1\t0\t1\n",
      "rel\t-\t0\t0\tone\t-\t-\t0\t0\t1\nnode\t-\t0\t0\t0\t1\n", 3 },
};

/* The deepest record, and the number of the answer that it leads to. */
static const struct deepest {
    const char *line;
    size_t number;
} deepest[] = {
    { "var\t1\n", DRESSERHAWK_ACCEPTED },
    { "unres\tx\n", DRESSERHAWK_UNRESOLVED },
};

enum {
    HEADS = sizeof heads / sizeof *heads,
    INNER = sizeof inner / sizeof *inner,
    ENDS = sizeof deepest / sizeof *deepest
};

static uint32_t work[8][DRESSERHAWK_WORK_WORDS];
static uint8_t plan[1 << 22];
static unsigned char stack[STACK];
static ucontext_t caller, callee;

static char sheet[DRESSERHAWK_SHEET_BYTES];
static enum { SIZING, LOWERING, BOTH_SIDES, RIGHT_SIDE } measured;
static size_t answer[DRESSERHAWK_VALUES];

#define WORK(at) work[at], words, work[at + 1], words, work[at + 2], words, work[at + 3], words
#define PLAN plan, sizeof plan, answer, DRESSERHAWK_VALUES

static void call(void)
{
    static const uint8_t empty[] = "stmt\t0\t0\n";
    const uint8_t *bytes = (const uint8_t *)sheet;
    size_t length = strlen(sheet), words = DRESSERHAWK_WORK_WORDS;
    switch (measured) {
    case SIZING:
        dresserhawk_size(bytes, length, WORK(0), answer, DRESSERHAWK_VALUES);
        break;
    case LOWERING:
        dresserhawk_lower(bytes, length, WORK(0), PLAN);
        break;
    case BOTH_SIDES:
        dresserhawk_lower_pair(bytes, length, bytes, length, true, WORK(0), WORK(4), PLAN);
        break;
    case RIGHT_SIDE:
        dresserhawk_lower_pair(empty, sizeof empty - 1, bytes, length, true, WORK(0), WORK(4),
                               PLAN);
        break;
    }
}

/* Bytes of stack that a call takes. */
static size_t taken(void)
{
    memset(stack, PAINT, sizeof stack);
    getcontext(&callee);
    callee.uc_stack.ss_sp = stack;
    callee.uc_stack.ss_size = sizeof stack;
    callee.uc_link = &caller;
    makecontext(&callee, call, 0);
    swapcontext(&caller, &callee);
    /* By blocks first: byte by byte alone takes longer than the calls do. */
    static unsigned char block[1 << 12];
    memset(block, PAINT, sizeof block);
    size_t lowest = 0;
    while (lowest < sizeof stack && memcmp(stack + lowest, block, sizeof block) == 0)
        lowest += sizeof block;
    while (lowest < sizeof stack && stack[lowest] == PAINT)
        lowest++;
    return sizeof stack - lowest;
}

/* The sheet of a head and two kinds down to the deepest level: in turn, or the
 * second only where the first does not fit any more; and a last line there. */
static void build(const struct shape *head, const struct shape *one, const struct shape *other,
                  bool in_turn, const char *last)
{
    const struct shape *placed[DEEPEST];
    int count = 0, depth = head->deeper;
    strcpy(sheet, head->before);
    const struct shape *next = one;
    for (;;) {
        if (depth + next->deeper > DEEPEST)
            next = next == one ? other : one;
        if (depth + next->deeper > DEEPEST)
            break;
        placed[count++] = next;
        strcat(sheet, next->before);
        depth += next->deeper;
        next = in_turn && next == one ? other : one;
    }
    strcat(sheet, last);
    while (count > 0)
        strcat(sheet, placed[--count]->behind);
    strcat(sheet, head->behind);
}

/* A sheet for each choice of a head, two kinds, their order and the deepest record.
 * Returns the number of the answer to it. */
static size_t nth(int number, const struct shape *chosen[3])
{
    bool in_turn = number % 2;
    number /= 2;
    const struct deepest *last = &deepest[number % ENDS];
    number /= ENDS;
    chosen[0] = &heads[number % HEADS];
    chosen[1] = &inner[number / HEADS % INNER];
    chosen[2] = &inner[number / HEADS / INNER];
    build(chosen[0], chosen[1], chosen[2], in_turn, last->line);
    return last->number;
}

enum { SHEETS = 2 * ENDS * HEADS * INNER * INNER };

/* Prints the most stack that a call takes, measured in this way or in two. */
static int measure(const char *name, int first, int last)
{
    size_t most = 0;
    const struct shape *chosen[3], *worst[3] = { heads, inner, inner };
    for (int number = 0; number < SHEETS * (last - first + 1); number++) {
        measured = first + number / SHEETS;
        size_t expected = nth(number % SHEETS, chosen);
        size_t bytes = taken();
        if (answer[DRESSERHAWK_NUMBER] != expected) {
            printf("answered with %zu:\n%s", answer[DRESSERHAWK_NUMBER], sheet);
            return 1;
        }
        if (bytes > most) {
            most = bytes;
            memcpy(worst, chosen, sizeof worst);
        }
    }
    printf("%s %zu (%s, %s, %s)\n", name, most, worst[0]->name, worst[1]->name, worst[2]->name);
    return 0;
}

int main(void)
{
    return measure("sizing", SIZING, SIZING) || measure("lowering", LOWERING, LOWERING)
        || measure("pair", BOTH_SIDES, RIGHT_SIDE);
}
