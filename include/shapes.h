/* The library for C, on memory that its caller lends. Link crates/shapes/out/libshapes.a, which `rt lib` in crates/shapes writes.
 *
 * Each call returns the refusal, 0 for none. The other numbers of its reply go through the pointers at its end, which are written on every
 * way out and are 0 on a refusal.
 *
 * Refusals of every call, the first fault that reading meets:
 *   1 the book is too short                          5 the snapshot is too short
 *   2 a count in the book is out of its range        6 a count in the snapshot is out of its range
 *   3 a byte in the book is no name                  7 an address is 0 or FFFFFFFF, or does not ascend
 *   4 the book is too long                           8 the snapshot is too long
 *   9 the question is not one about this book
 * Of shapes_decide and shapes_part alone:
 *  10 the memory does not fit together: a table is 1 to 65,535 words long, and the space three times that
 *  11 there are more facts than the table has words
 * Of shapes_walk alone, after 1 to 9:
 *  12 the book is not plain
 * README.md says what to do about each, docs/FORMAT.md has the bytes of book, snapshot and question and the words of table and space.
 * A book has a section of constants after its argument counts, a 00 if there is none. One from before constants came gains that byte:
 * without it most are refused with 1 to 4, but a short one may be read as another book.
 * A field, a value of the question or a constant FFFFFFFF is read as 0, which is nil.
 *
 * Lengths count bytes, or words of 64 bits. Nothing is allocated or kept, and nothing outside what is lent is read or written. A block of
 * length 0 may have any pointer that is not null and is aligned for its type; no two blocks that are written may overlap each other or one
 * that is read. The calls share nothing, so several threads may call them at once, each with memory of its own. On the stack
 * shapes_decide uses 92,256 bytes, shapes_part 92,272, either check 3,304 and shapes_walk 8,264, the most with tables of 1,024 and of
 * 65,535 words and with 16 records one below the other, measured by compare/memory.sh.
 */
#ifndef SHAPES_H
#define SHAPES_H

#include <stddef.h>
#include <stdint.h>

/* The engine: whether the whole heap of the snapshot fits the question (verdict 1) or does not (0).
 * Refusals 1 to 10 leave table and space as they were; 11 leaves both all 0. Otherwise the table has all facts, as many as `facts` says, in
 * the order of the `rounds` rounds that gave one, and then 0 (a fact may be 0 too). On fits the space has an unfolding of `lines` lines, three words each, and
 * then 0; on does not fit it is all 0. */
uint64_t shapes_decide(const uint8_t *book, size_t book_len, const uint8_t *snapshot, size_t snapshot_len,
                       const uint8_t *question, size_t question_len,
                       uint64_t *table, size_t table_len, uint64_t *space, size_t space_len,
                       uint64_t *verdict, uint64_t *facts, uint64_t *rounds, uint64_t *lines);

/* The check: whether the words are an unfolding of the question for the whole heap (taken 1) or not (0), of 1 to 65,535 lines. */
uint64_t shapes_check(const uint8_t *book, size_t book_len, const uint8_t *snapshot, size_t snapshot_len,
                      const uint8_t *question, size_t question_len,
                      const uint64_t *words, size_t words_len, uint64_t *taken);

/* The engine, asked whether some part of the heap fits the question: verdict 1 and a part that fits, or 0 where none does. In `part` bit i
 * stands for record i of the snapshot, counted from 0 at the low end. The part without a record may be the one that fits: then the verdict
 * is 1 and the part 0. Where several fit, any of them may be returned. Without a fit and on a refusal the part is 0.
 * Table and space are left as shapes_decide leaves them, with an unfolding that ends in the question with this part. */
uint64_t shapes_part(const uint8_t *book, size_t book_len, const uint8_t *snapshot, size_t snapshot_len,
                     const uint8_t *question, size_t question_len,
                     uint64_t *table, size_t table_len, uint64_t *space, size_t space_len,
                     uint64_t *verdict, uint16_t *part, uint64_t *facts, uint64_t *rounds, uint64_t *lines);

/* The check, for this part in the place of the whole heap: it takes what shapes_part wrote, given the part that it returned. A part with a
 * bit beyond the records is not taken, which is no refusal. */
uint64_t shapes_check_part(const uint8_t *book, size_t book_len, const uint8_t *snapshot, size_t snapshot_len,
                           const uint8_t *question, size_t question_len,
                           uint16_t part, const uint64_t *words, size_t words_len, uint64_t *taken);

/* The quick walk, for plain books: it is lent no table and no space, unfolds the question from the top and has only a verdict. Once all is
 * read it tests whether the book is plain, and refuses any other with 12: then shapes_decide has to be asked. Without a refusal the verdict
 * says whether the whole heap fits (1) or does not (0), as that of shapes_decide does. README.md, "Plain books, quickly", says which books
 * are plain, and `./shapes ask --walk` names the first rules that are in the way. */
uint64_t shapes_walk(const uint8_t *book, size_t book_len, const uint8_t *snapshot, size_t snapshot_len,
                     const uint8_t *question, size_t question_len, uint64_t *verdict);

#endif
