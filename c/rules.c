/*
 * The rules of docs/C.md, tried: empty slices, an answer without room, what a
 * call leaves alone. Says which does not hold; exit status 1 then.
 */
#include "dresserhawk.h"

#include <stdio.h>
#include <string.h>

static uint32_t work[8][DRESSERHAWK_WORK_WORDS];
static int broken;

#define WORK                                                                                       \
    work[0], DRESSERHAWK_WORK_WORDS, work[1], DRESSERHAWK_WORK_WORDS, work[2],                     \
        DRESSERHAWK_WORK_WORDS, work[3], DRESSERHAWK_WORK_WORDS
#define RIGHT_WORK                                                                                 \
    work[4], DRESSERHAWK_WORK_WORDS, work[5], DRESSERHAWK_WORK_WORDS, work[6],                     \
        DRESSERHAWK_WORK_WORDS, work[7], DRESSERHAWK_WORK_WORDS
#define NO_WORK NULL, 0, NULL, 0, NULL, 0, NULL, 0

static void holds(const char *rule, bool is_so)
{
    if (!is_so) {
        printf("does not hold: %s\n", rule);
        broken = 1;
    }
}

static bool is(const size_t *answer, size_t number, size_t line, size_t length)
{
    return answer[DRESSERHAWK_NUMBER] == number && answer[DRESSERHAWK_LINE] == line
        && answer[DRESSERHAWK_START] == 0 && answer[DRESSERHAWK_END] == 0
        && answer[DRESSERHAWK_KIND] == 0 && answer[DRESSERHAWK_LENGTH] == length;
}

/* A refusal of a side with no span. */
static bool is_of(const size_t *answer, size_t number, size_t line, size_t side)
{
    return answer[DRESSERHAWK_NUMBER] == number && answer[DRESSERHAWK_LINE] == line
        && answer[DRESSERHAWK_START] == 0 && answer[DRESSERHAWK_END] == 0
        && answer[DRESSERHAWK_KIND] == side && answer[DRESSERHAWK_LENGTH] == 0;
}

/* The rules of the call with two sheets, which here are the same bytes. */
static void two_sheets(void)
{
    static const uint8_t sheet[] = "stmt\t0\t0\n";
    static const char due[] = "plan\t3\t0\nsource\t0\t0\nsource\t0\t0\nunion\t0\t1\t1\n###";
    size_t length = sizeof sheet - 1, room = sizeof due - 1;
    size_t answer[DRESSERHAWK_VALUES + 1];
    uint8_t plan[sizeof due - 1], as_it_was[sizeof due - 1];
    memset(as_it_was, '#', room);

    memset(answer, 0xa5, sizeof answer);
    size_t untouched = answer[DRESSERHAWK_VALUES];
    memset(plan, '#', room);
    holds("a pair: two sheets may be the same bytes",
          dresserhawk_lower_pair(sheet, length, sheet, length, true, WORK, RIGHT_WORK, plan, room,
                                 answer, 7));
    holds("a pair: six values", is(answer, DRESSERHAWK_ACCEPTED, 0, room - 3));
    holds("a pair: a longer answer slice keeps its rest", answer[DRESSERHAWK_VALUES] == untouched);
    holds("a pair: the plan, and what stood behind it", memcmp(plan, due, room) == 0);
    dresserhawk_lower_pair(sheet, length, sheet, length, false, WORK, RIGHT_WORK, plan, room,
                           answer, 6);
    holds("a pair: the flag ends the last line", plan[room - 5] == '0');

    memset(plan, '#', room);
    dresserhawk_lower_pair(sheet, length, sheet, length, true, WORK, RIGHT_WORK, plan, room - 4,
                           answer, 6);
    holds("a pair: no room", is(answer, DRESSERHAWK_NO_ROOM, 0, 0));
    dresserhawk_lower_pair(NULL, 0, sheet, length, true, WORK, RIGHT_WORK, plan, room, answer, 6);
    holds("a left sheet of no bytes may be NULL",
          is_of(answer, DRESSERHAWK_BAD_LINE, 1, DRESSERHAWK_LEFT));
    dresserhawk_lower_pair(sheet, length, NULL, 0, true, WORK, RIGHT_WORK, plan, room, answer, 6);
    holds("a right sheet of no bytes may be NULL",
          is_of(answer, DRESSERHAWK_BAD_LINE, 1, DRESSERHAWK_RIGHT));
    dresserhawk_lower_pair(sheet, length, sheet, length, true, NO_WORK, RIGHT_WORK, plan, room,
                           answer, 6);
    holds("a pair: the left's work slices are short", is(answer, DRESSERHAWK_SHORT_WORK, 0, 0));
    dresserhawk_lower_pair(sheet, length, sheet, length, true, WORK, NO_WORK, plan, room,
                           answer, 6);
    holds("a pair: the right's work slices are short", is(answer, DRESSERHAWK_SHORT_WORK, 0, 0));
    dresserhawk_lower_pair(sheet, length, sheet, length, true, WORK, RIGHT_WORK, NULL, 0,
                           answer, 6);
    holds("a pair: a plan slice of no bytes may be NULL", is(answer, DRESSERHAWK_NO_ROOM, 0, 0));
    holds("a refused pair leaves the plan alone", memcmp(plan, as_it_was, room) == 0);

    memset(answer, 0xa5, sizeof answer);
    holds("a pair: five words are no room for an answer, nor is NULL",
          !dresserhawk_lower_pair(sheet, length, sheet, length, true, WORK, RIGHT_WORK, plan, room,
                                  answer, 5)
              && !dresserhawk_lower_pair(sheet, length, sheet, length, true, WORK, RIGHT_WORK, plan,
                                         room, NULL, 0));
    holds("a pair: then nothing is written",
          answer[0] == untouched && memcmp(plan, as_it_was, room) == 0);
}

int main(void)
{
    static const uint8_t sheet[] = "stmt\t0\t0\n";
    static const char due[] = "plan\t0\t0\n###";
    size_t length = sizeof sheet - 1;
    size_t answer[DRESSERHAWK_VALUES + 1];
    uint8_t plan[12];

    memset(answer, 0xa5, sizeof answer);
    size_t untouched = answer[DRESSERHAWK_VALUES];
    memset(plan, '#', sizeof plan);
    holds("accepted", dresserhawk_lower(sheet, length, WORK, plan, sizeof plan, answer, 7));
    holds("six values", is(answer, DRESSERHAWK_ACCEPTED, 0, 9));
    holds("a longer answer slice keeps its rest", answer[DRESSERHAWK_VALUES] == untouched);
    holds("the plan, and what stood behind it", memcmp(plan, due, sizeof plan) == 0);

    holds("sized", dresserhawk_size(sheet, length, WORK, answer, 6));
    holds("a figure within its bounds", is(answer, 0, 0, answer[5]) && answer[5] <= 4);

    memset(plan, '#', sizeof plan);
    holds("refused", dresserhawk_lower(sheet, length, WORK, plan, 8, answer, 6));
    holds("no room", is(answer, DRESSERHAWK_NO_ROOM, 0, 0));
    holds("a refused call leaves the plan alone", memcmp(plan, "############", 12) == 0);

    holds("a sheet of no bytes may be NULL", dresserhawk_size(NULL, 0, WORK, answer, 6));
    holds("it lacks its first line", is(answer, DRESSERHAWK_BAD_LINE, 1, 0));
    holds("a plan slice of no bytes may be NULL",
          dresserhawk_lower(sheet, length, WORK, NULL, 0, answer, 6));
    holds("it has no room", is(answer, DRESSERHAWK_NO_ROOM, 0, 0));
    holds("work slices of no words may be NULL",
          dresserhawk_lower(sheet, length, NO_WORK, plan, sizeof plan, answer, 6));
    holds("they are short", is(answer, DRESSERHAWK_SHORT_WORK, 0, 0));
    holds("an answer slice of no words may be NULL",
          !dresserhawk_lower(sheet, length, WORK, plan, sizeof plan, NULL, 0)
              && !dresserhawk_size(sheet, length, WORK, NULL, 0));

    memset(answer, 0xa5, sizeof answer);
    memset(plan, '#', sizeof plan);
    holds("five words are no room for an answer",
          !dresserhawk_lower(sheet, length, WORK, plan, sizeof plan, answer, 5));
    holds("then nothing is written", answer[0] == untouched && plan[0] == '#');
    two_sheets();
    return broken;
}
