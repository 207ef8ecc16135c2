/*
 * The proved calls of Dresserhawk for C and C++: a statement sheet in, or two, a
 * plan sheet out. docs/C.md has the rules for their arguments, docs/FORMAT.md both
 * sheets, docs/REFUSALS.md the refusals. Link libdresserhawk.a (x86-64), which
 * tools/archive.sh makes.
 */
#ifndef DRESSERHAWK_H
#define DRESSERHAWK_H

#include <stdbool.h>
#include <stddef.h>
#include <stdint.h>

#ifdef __cplusplus
extern "C" {
#endif

/* Words that each work slice must have. */
#define DRESSERHAWK_WORK_WORDS 16384

/* Bytes that a sheet may have. */
#define DRESSERHAWK_SHEET_BYTES 32768

/* The places of an answer's six values, and how many there are. */
enum {
    DRESSERHAWK_NUMBER, /* 0, or which refusal */
    DRESSERHAWK_LINE,   /* from 1; refusals 3 to 8 */
    DRESSERHAWK_START,  /* a span in the statement's text; refusals 6 to 8 */
    DRESSERHAWK_END,
    DRESSERHAWK_KIND,   /* refusal 7; of two sheets also the side */
    DRESSERHAWK_LENGTH, /* accepted: bytes of the plan, or the sizing figure */
    DRESSERHAWK_VALUES
};

/* What the first value says. */
enum {
    DRESSERHAWK_ACCEPTED = 0,
    DRESSERHAWK_SHORT_WORK = 1,   /* a work slice has under 16,384 words */
    DRESSERHAWK_LONG_SHEET = 2,   /* the sheet has over 32,768 bytes */
    DRESSERHAWK_BAD_LINE = 3,     /* not a record that is due, or one is missing */
    DRESSERHAWK_BIG_TREE = 4,     /* over 2,048 records, or deeper than 64 */
    DRESSERHAWK_WRITE_CLAUSE = 5, /* a clause that writes */
    DRESSERHAWK_UNRESOLVED = 6,   /* a name that was not resolved */
    DRESSERHAWK_UNDESUGARED = 7,  /* a form that should be gone */
    DRESSERHAWK_EMPTY_PART = 8,   /* no elements, or a relationship first */
    DRESSERHAWK_PLAN_FULL = 9,    /* over 2,048 operators or variable numbers */
    DRESSERHAWK_NO_ROOM = 10      /* the plan is longer than its slice */
};

/*
 * Which of two sheets is refused. In refusals 2 to 6 and 8 the kind is the side;
 * in 7 it is ten times the side and the form: 10 to 13, or 20 to 23. In 1, 9 and
 * 10, which are of no side, it is 0.
 */
enum {
    DRESSERHAWK_LEFT = 1,
    DRESSERHAWK_RIGHT = 2
};

/*
 * The sizing call: checks a sheet without lowering it. Accepted, the length is
 * at least the number of the plan's operators and at most four times that of
 * the sheet's records. Returns false, with nothing written, if the answer has
 * no room for six values.
 */
bool dresserhawk_size(
    const uint8_t *sheet, size_t sheet_len,
    uint32_t *a, size_t a_len,
    uint32_t *b, size_t b_len,
    uint32_t *c, size_t c_len,
    uint32_t *d, size_t d_len,
    size_t *answer, size_t answer_len);

/*
 * The lowering call. Accepted, the plan slice begins with the plan sheet, and
 * what stands behind it is as it was; refused, all of the slice is as it was.
 * The answer as above.
 */
bool dresserhawk_lower(
    const uint8_t *sheet, size_t sheet_len,
    uint32_t *a, size_t a_len,
    uint32_t *b, size_t b_len,
    uint32_t *c, size_t c_len,
    uint32_t *d, size_t d_len,
    uint8_t *plan, size_t plan_len,
    size_t *answer, size_t answer_len);

/*
 * The lowering call with two sheets: one plan, which gives the rows of both and
 * ends in a `union`. It is UNION ALL if `all` is true, and UNION if not. Each side
 * has its own four work slices. Each test is made on the left sheet, then on the
 * right one, before the next test; line and span are those of the side's own
 * sheet. The plan slice as above, and the answer but for its kind.
 */
bool dresserhawk_lower_pair(
    const uint8_t *left, size_t left_len,
    const uint8_t *right, size_t right_len,
    bool all,
    uint32_t *left_a, size_t left_a_len,
    uint32_t *left_b, size_t left_b_len,
    uint32_t *left_c, size_t left_c_len,
    uint32_t *left_d, size_t left_d_len,
    uint32_t *right_a, size_t right_a_len,
    uint32_t *right_b, size_t right_b_len,
    uint32_t *right_c, size_t right_c_len,
    uint32_t *right_d, size_t right_d_len,
    uint8_t *plan, size_t plan_len,
    size_t *answer, size_t answer_len);

#ifdef __cplusplus
}
#endif

#endif
