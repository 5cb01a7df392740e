/* Calls the entries of both libraries from C: caller [--stack] FILE...
   Each file is an input of the bench program; the answers of the entries are
   printed. With --stack, each call has a stack of its own, and at the end comes
   how much of it each entry used at most. (Not for a memory checker: it takes
   a look at a used stack for an error.) */
#define _GNU_SOURCE
#include <pthread.h>
#include <stdint.h>
#include <stdio.h>
#include <stdlib.h>
#include <string.h>

#include "desk.h"
#include "shapes.h"

enum { MOST_INPUT = 4096, MOST_UNFOLDING = 24576, STACK = 1 << 20, PAINT = 0xA5 };

/* Bytes in a block of just their size, so that a memory checker sees a read
   past the end. */
struct block {
    uint8_t *bytes;
    size_t len;
};

enum entry { NOTHING, DESK_DECIDE, DESK_CHECK, SHAPES_DECIDE, SHAPES_CHECK, SHAPES_PART, SHAPES_CHECK_PART,
             SHAPES_WALK, ENTRIES };

static const char *const entry_names[] = {"",             "desk_decide", "desk_check",        "shapes_decide",
                                          "shapes_check", "shapes_part", "shapes_check_part", "shapes_walk"};

enum { VERDICT, FACTS, ROUNDS, LINES, NUMBERS };

/* The unfolding is bytes for the desk, and words for the other check. Each
   number that a call writes is a block too. */
struct call {
    enum entry entry;
    struct block sections[3], unfolding, table, space;
    uint64_t *numbers[NUMBERS];
    uint16_t *part;
    uint64_t answer;
};

/* On which stack, and what each entry used of it at most. */
static int measured;
static size_t thread_itself, most[ENTRIES];

static void *must(void *memory)
{
    if (!memory) {
        perror("memory");
        exit(2);
    }
    return memory;
}

static struct block block_of(const void *bytes, size_t len)
{
    struct block block = {must(malloc(len ? len : 1)), len};
    memcpy(block.bytes, bytes, len);
    return block;
}

static struct block painted(size_t len)
{
    struct block block = {must(malloc(len)), len};
    memset(block.bytes, PAINT, len);
    return block;
}

/* The three sections of a bench input, each after its length. */
static void split(const uint8_t *input, size_t len, struct block sections[3])
{
    for (int i = 0; i < 3; i++) {
        size_t want = (len > 0 ? input[0] : 0) + 256 * (len > 1 ? input[1] : 0);
        size_t head = len < 2 ? len : 2;
        input += head;
        len -= head;
        if (want > len)
            want = len;
        sections[i] = block_of(input, want);
        input += want;
        len -= want;
    }
}

static void *run(void *data)
{
    struct call *call = data;
    const struct block *p = call->sections, *u = &call->unfolding, *t = &call->table, *s = &call->space;
    uint64_t **n = call->numbers;
    if (call->entry == DESK_DECIDE)
        call->answer = desk_decide(p[0].bytes, p[0].len, p[1].bytes, p[1].len, p[2].bytes, p[2].len);
    if (call->entry == DESK_CHECK)
        call->answer = desk_check(p[0].bytes, p[0].len, p[1].bytes, p[1].len, p[2].bytes, p[2].len,
                                  u->bytes, u->len);
    if (call->entry == SHAPES_DECIDE)
        call->answer = shapes_decide(p[0].bytes, p[0].len, p[1].bytes, p[1].len, p[2].bytes, p[2].len,
                                     (uint64_t *)t->bytes, t->len / 8, (uint64_t *)s->bytes, s->len / 8,
                                     n[VERDICT], n[FACTS], n[ROUNDS], n[LINES]);
    if (call->entry == SHAPES_CHECK)
        call->answer = shapes_check(p[0].bytes, p[0].len, p[1].bytes, p[1].len, p[2].bytes, p[2].len,
                                    (const uint64_t *)u->bytes, u->len / 8, n[VERDICT]);
    if (call->entry == SHAPES_PART)
        call->answer = shapes_part(p[0].bytes, p[0].len, p[1].bytes, p[1].len, p[2].bytes, p[2].len,
                                   (uint64_t *)t->bytes, t->len / 8, (uint64_t *)s->bytes, s->len / 8,
                                   n[VERDICT], call->part, n[FACTS], n[ROUNDS], n[LINES]);
    if (call->entry == SHAPES_CHECK_PART)
        call->answer = shapes_check_part(p[0].bytes, p[0].len, p[1].bytes, p[1].len, p[2].bytes, p[2].len,
                                         *call->part, (const uint64_t *)u->bytes, u->len / 8, n[VERDICT]);
    if (call->entry == SHAPES_WALK)
        call->answer = shapes_walk(p[0].bytes, p[0].len, p[1].bytes, p[1].len, p[2].bytes, p[2].len, n[VERDICT]);
    return NULL;
}

/* Makes the call on a stack of its own, and says how much of it was written. */
static size_t stack_of(struct call *call)
{
    uint8_t *stack = must(aligned_alloc(4096, STACK));
    memset(stack, PAINT, STACK);
    pthread_attr_t attributes;
    pthread_t thread;
    pthread_attr_init(&attributes);
    if (pthread_attr_setstack(&attributes, stack, STACK) ||
        pthread_create(&thread, &attributes, run, call) || pthread_join(thread, NULL)) {
        fputs("no thread\n", stderr);
        exit(2);
    }
    pthread_attr_destroy(&attributes);
    size_t untouched = 0;
    while (untouched < STACK && stack[untouched] == PAINT)
        untouched++;
    free(stack);
    return STACK - untouched;
}

static void make(struct call *call, enum entry entry)
{
    call->entry = entry;
    if (!measured) {
        run(call);
        return;
    }
    size_t used = stack_of(call) - thread_itself;
    if (used > most[entry])
        most[entry] = used;
}

static void desk(struct call *call)
{
    static uint8_t zeros[MOST_UNFOLDING + 24];
    static const size_t lengths[] = {0, 24, MOST_UNFOLDING, MOST_UNFOLDING + 24};
    make(call, DESK_DECIDE);
    printf(" %llu,", (unsigned long long)call->answer);
    for (int i = 0; i < 4; i++) {
        call->unfolding = block_of(zeros, lengths[i]);
        make(call, DESK_CHECK);
        printf(" %llu", (unsigned long long)call->answer);
        free(call->unfolding.bytes);
    }
}

static void walk(struct call *call)
{
    make(call, SHAPES_WALK);
    printf("; walk %llu %llu", (unsigned long long)call->answer, (unsigned long long)*call->numbers[VERDICT]);
}

/* The engine with a table of so many lines; then the check with the unfolding
   that it wrote, and with the whole space. */
static void lend(struct call *call, size_t lines, enum entry engine, enum entry check)
{
    call->table = painted(8 * lines);
    call->space = painted(24 * lines);
    make(call, engine);
    printf("; %llu", (unsigned long long)call->answer);
    for (int i = 0; i < NUMBERS; i++)
        printf(" %llu", (unsigned long long)*call->numbers[i]);
    if (engine == SHAPES_PART)
        printf(" part %u", *call->part);
    size_t lengths[] = {24 * (size_t)*call->numbers[LINES], call->space.len};
    for (int i = 0; i < 2; i++) {
        call->unfolding = block_of(call->space.bytes, lengths[i]);
        make(call, check);
        printf(", %llu %llu", (unsigned long long)call->answer, (unsigned long long)*call->numbers[VERDICT]);
        free(call->unfolding.bytes);
    }
    free(call->table.bytes);
    free(call->space.bytes);
}

static void shapes(struct call *call, size_t lines)
{
    lend(call, lines, SHAPES_DECIDE, SHAPES_CHECK);
    lend(call, lines, SHAPES_PART, SHAPES_CHECK_PART);
}

int main(int count, char **names)
{
    static uint8_t input[MOST_INPUT];
    struct call call;
    memset(&call, 0, sizeof call);
    measured = count > 1 && !strcmp(names[1], "--stack");
    thread_itself = measured ? stack_of(&call) : 0;
    for (int i = 0; i < NUMBERS; i++)
        call.numbers[i] = (uint64_t *)painted(8).bytes;
    call.part = (uint16_t *)painted(2).bytes;
    for (int i = 1 + measured; i < count; i++) {
        FILE *file = fopen(names[i], "rb");
        if (!file) {
            perror(names[i]);
            return 2;
        }
        split(input, fread(input, 1, sizeof input, file), call.sections);
        fclose(file);
        printf("%s:", names[i]);
        desk(&call);
        walk(&call);
        shapes(&call, 1024);
        shapes(&call, 65535);
        putchar('\n');
        for (int i = 0; i < 3; i++)
            free(call.sections[i].bytes);
    }
    for (int i = 0; i < NUMBERS; i++)
        free(call.numbers[i]);
    free(call.part);
    for (int entry = DESK_DECIDE; measured && entry < ENTRIES; entry++)
        printf("stack: %s %zu bytes\n", entry_names[entry], most[entry]);
    return 0;
}
