/* Lends memory, asks whether 10:(20) 20:(10) is a list segment from 10 to 10, reads the unfolding and has it checked. Then asks whether
 * some part of these records is a segment from 10 to 20, and has that checked. Last, the quick walk, which is lent nothing: of a
 * plain book, and of the first one, which it refuses since it is not plain. */
#include <inttypes.h>
#include <stdio.h>

#include "shapes.h"

#define VALUE(v) (v), 0, 0, 0 /* four bytes, the lowest first */
#define LINES 64

/* segment(a, b) if a = b; segment(a, b) if a -> c and segment(c, b): `./shapes encode book examples/segment.book` gives the bytes. */
static const uint8_t book[] = {1, 2, 0, 2, 0, 0, 1, 0, 0, 1, 0, 0, 0, 1, 0, 1, 0, 1, 2, 1, 0, 2, 1};
static const uint8_t snapshot[] = {2, VALUE(10), 1, VALUE(20), VALUE(20), 1, VALUE(10)};
static const uint8_t question[] = {0, 2, VALUE(10), VALUE(10)};
static const uint8_t to_20[] = {0, 2, VALUE(10), VALUE(20)};
/* The same with a != b in the second case: examples/plain/segment.book, which is plain. */
static const uint8_t plain[] = {1, 2, 0, 2, 0, 0, 1, 0, 0, 1, 0, 0, 0, 1, 1, 1, 0, 1, 1, 0, 1, 2, 1, 0, 2, 1};
static const uint8_t chain[] = {2, VALUE(10), 1, VALUE(20), VALUE(20), 1, VALUE(30)};
static const uint8_t to_30[] = {0, 2, VALUE(10), VALUE(30)};
static const unsigned kept[] = {0, 1, 2, 3, 10, 20}; /* nil, a spare for each of the three variables, and what question and snapshot have */

/* A refusal has no verdict. */
static const char *said(uint64_t refusal, uint64_t verdict)
{
    return refusal ? "refused" : verdict ? "fits" : "does not fit";
}

int main(void)
{
    uint64_t table[LINES], space[3 * LINES], verdict, facts, rounds, lines, taken;
    uint64_t refusal = shapes_decide(book, sizeof book, snapshot, sizeof snapshot, question, sizeof question,
                                     table, LINES, space, 3 * LINES, &verdict, &facts, &rounds, &lines);
    if (refusal) {
        printf("refusal %" PRIu64 "\n", refusal);
        return 2;
    }
    printf("%s: %" PRIu64 " facts in %" PRIu64 " rounds\n", verdict ? "fits" : "does not fit", facts, rounds);
    for (uint64_t n = 0; n < lines; n++) {
        uint64_t fact = space[3 * n], rule = space[3 * n + 2] & 0xFF, called = space[3 * n + 2] >> 8 & 0xFFFF;
        printf("line %" PRIu64 ": segment(%u, %u) of the records 0x%04x by rule %" PRIu64, n + 1, kept[fact >> 16 & 0x7F],
               kept[fact >> 23 & 0x7F], (unsigned)(fact & 0xFFFF), rule);
        called ? printf(" and line %" PRIu64 "\n", called) : printf("\n");
    }
    refusal = shapes_check(book, sizeof book, snapshot, sizeof snapshot, question, sizeof question, space, 3 * lines, &taken);
    printf("check: refusal %" PRIu64 ", %s\n", refusal, taken ? "taken" : "not taken");

    uint16_t part;
    refusal = shapes_part(book, sizeof book, snapshot, sizeof snapshot, to_20, sizeof to_20,
                          table, LINES, space, 3 * LINES, &verdict, &part, &facts, &rounds, &lines);
    printf("some part: refusal %" PRIu64 ", %s, records 0x%04x\n", refusal, said(refusal, verdict), (unsigned)part);
    refusal = shapes_check_part(book, sizeof book, snapshot, sizeof snapshot, to_20, sizeof to_20, part, space, 3 * lines, &taken);
    printf("check of this part: refusal %" PRIu64 ", %s\n", refusal, taken ? "taken" : "not taken");

    refusal = shapes_walk(plain, sizeof plain, chain, sizeof chain, to_30, sizeof to_30, &verdict);
    printf("walk to 30: refusal %" PRIu64 ", %s\n", refusal, said(refusal, verdict));
    refusal = shapes_walk(plain, sizeof plain, chain, sizeof chain, to_20, sizeof to_20, &verdict);
    printf("walk to 20: refusal %" PRIu64 ", %s\n", refusal, said(refusal, verdict));
    /* After a 12 the engine has to be asked, as above. */
    refusal = shapes_walk(book, sizeof book, snapshot, sizeof snapshot, question, sizeof question, &verdict);
    printf("walk of the first book: refusal %" PRIu64 ", %s\n", refusal, said(refusal, verdict));
    return 0;
}
