/* Asks whether two records that point to one another are a list segment from the first to itself, then hands over an unfolding of three
 * lines and a damaged one. Prints the number that each call gives, and what it says. */
#include <stdio.h>

#include "desk.h"

static const uint8_t book[] = {
    1,          /* one predicate, segment: */
    2,          /* it has two arguments, so variables 0 and 1 of each rule are a and b */
    0,          /* no constant */
    2,          /* two rules */
    0, 0,       /* rule 0, for segment, nothing bound: segment(a, b) if */
    1, 0, 0, 1, /* one condition: equal, a, b */
    0, 0,       /* no cell, no call */
    0, 1,       /* rule 1, for segment, variable 2 is bound, c: segment(a, b) if */
    0,          /* no condition */
    1, 0, 1, 2, /* one cell: at a, one field, c */
    1, 0, 2, 1, /* one call: segment, c, b */
};

/* Values have four bytes, the lowest first. */
#define VALUE(v) (v), 0, 0, 0

static const uint8_t snapshot[] = {
    2,                        /* two records: */
    VALUE(10), 1, VALUE(20),  /* record 0 at 10, one field, 20 */
    VALUE(20), 1, VALUE(10),  /* record 1 at 20, one field, 10 */
};

static const uint8_t question[] = {
    0,                    /* segment */
    2,                    /* of two values: */
    VALUE(10), VALUE(10), /* (10, 10) */
};

/* In an unfolding a value is its position among the kept values, which are here 0 1 2 3 10 20: nil, then 1, 2 and 3 as spares, since the
 * largest rule has three variables, then what the question and the snapshot have. */
#define TEN 4
#define TWENTY 5

/* The three words of a line: the fact (predicate 0, its two arguments, the records used as bits), the variables, and the rule with the
 * line that it calls, counted from 1; 0 for none. */
#define FACT(a, b, records) ((uint64_t)(records) | (uint64_t)(a) << 16 | (uint64_t)(b) << 23)
#define VARIABLES(a, b, c) ((uint64_t)(a) | (uint64_t)(b) << 8 | (uint64_t)(c) << 16)
#define RULE(rule, called) ((uint64_t)(rule) | (uint64_t)(called) << 8)

static const uint64_t lines[9] = {
    /* line 1: segment(10, 10) of no record, by rule 0 */
    FACT(TEN, TEN, 0), VARIABLES(TEN, TEN, 0), RULE(0, 0),
    /* line 2: segment(20, 10) of record 1, by rule 1 and line 1 */
    FACT(TWENTY, TEN, 1 << 1), VARIABLES(TWENTY, TEN, TEN), RULE(1, 1),
    /* line 3: segment(10, 10) of records 0 and 1, by rule 1 and line 2: what is asked, of every record */
    FACT(TEN, TEN, 1 << 0 | 1 << 1), VARIABLES(TEN, TEN, TWENTY), RULE(1, 2),
};

/* How to read a number: the refusal above its lowest bit, and in that bit yes or no. */
static void show(const char *call, uint64_t number, const char *yes, const char *no)
{
    unsigned refusal = (unsigned)(number >> 1), second = (unsigned)(number & 1);
    printf("%s: %u, ", call, (unsigned)number);
    if (refusal)
        printf("refusal %u\n", refusal);
    else
        printf("%s\n", second ? yes : no);
}

static void decide(const char *call, size_t book_len)
{
    show(call, desk_decide(book, book_len, snapshot, sizeof snapshot, question, sizeof question), "fits", "does not fit");
}

static void check(const char *call, const uint8_t *unfolding, size_t unfolding_len)
{
    show(call, desk_check(book, sizeof book, snapshot, sizeof snapshot, question, sizeof question, unfolding, unfolding_len), "taken",
         "not taken");
}

int main(void)
{
    uint8_t unfolding[sizeof lines];
    for (size_t i = 0; i < sizeof lines; i++)
        unfolding[i] = (uint8_t)(lines[i / 8] >> 8 * (i % 8));
    decide("decide", sizeof book);
    decide("decide, book cut short", sizeof book - 1);
    check("check", unfolding, sizeof unfolding);
    unfolding[48] ^= 1; /* the lowest byte of the third fact: it no longer uses record 0 */
    check("check, damaged", unfolding, sizeof unfolding);
    return 0;
}
