/* The desk's two entries. Link crates/desk/out/libdesk.a, which `rt lib` in crates/desk writes.
 *
 * Each entry gives one number: the refusal doubled, and a second number added to it. So `r >> 1` is the refusal and `r & 1` the second
 * number, which is 0 on a refusal:
 *   0                       no refusal, second number 0
 *   1                       no refusal, second number 1
 *   2, 4, 6 and so on       refusal 1, 2, 3 and so on
 *
 * Refusals of both entries, the first fault that reading meets:
 *   1 the book is too short                          5 the snapshot is too short
 *   2 a count in the book is out of its range        6 a count in the snapshot is out of its range
 *   3 a byte in the book is no name                  7 an address is 0 or FFFFFFFF, or does not ascend
 *   4 the book is too long                           8 the snapshot is too long
 *   9 the question is not one about this book
 * Of desk_decide alone:
 *  11 there are more than 1,024 facts
 * README.md says what to do about each. 10 is not given here: the entries bring their own memory.
 * A book has a section of constants after its argument counts, a 00 if there is none. One from before constants came gains that byte:
 * without it most are refused with 1 to 4, but a short one may be read as another book.
 * A field, a value of the question or a constant FFFFFFFF is read as 0, which is nil.
 *
 * Nothing is allocated, nothing that is lent is changed or kept, and no byte outside a block is read. A block of no bytes may have any
 * pointer that is not null. The entries share nothing, so several threads may call them at once. On the stack desk_decide
 * uses 107,344 bytes and desk_check 27,816, measured by compare/memory.sh.
 */
#ifndef DESK_H
#define DESK_H

#include <stddef.h>
#include <stdint.h>

/* Second number: 1 if the whole heap of the snapshot fits the question, 0 if it does not. */
uint64_t desk_decide(const uint8_t *book, size_t book_len,
                     const uint8_t *snapshot, size_t snapshot_len,
                     const uint8_t *question, size_t question_len);

/* Second number: 1 if the unfolding is taken, 0 if it is not. The unfolding is lines of three 64-bit words, each word as eight bytes from
 * the lowest on, so 24 bytes to a line. Bytes that are no whole lines are not taken, nor are more than 24,576 (1,024 lines). */
uint64_t desk_check(const uint8_t *book, size_t book_len,
                    const uint8_t *snapshot, size_t snapshot_len,
                    const uint8_t *question, size_t question_len,
                    const uint8_t *unfolding, size_t unfolding_len);

#endif
