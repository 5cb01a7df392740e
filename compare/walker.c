/* Asks the walk once about a book, given as its bytes in a file: the first predicate with zeros for its arguments, and no record. */
#include <stdint.h>
#include <stdio.h>

#include "shapes.h"

int main(int count, char **words)
{
    static uint8_t book[4096];
    const uint8_t no_record[] = {0};
    uint8_t question[2 + 4 * 4] = {0};
    FILE *file = count == 2 ? fopen(words[1], "rb") : NULL;
    if (file == NULL) {
        fprintf(stderr, "usage: walker FILE\n");
        return 2;
    }
    size_t length = fread(book, 1, sizeof book, file);
    fclose(file);
    uint8_t arguments = length > 1 && book[1] <= 4 ? book[1] : 0;
    question[1] = arguments;
    uint64_t verdict = 0;
    uint64_t refusal = shapes_walk(book, length, no_record, sizeof no_record, question, 2 + 4 * (size_t)arguments, &verdict);
    printf("%llu %llu\n", (unsigned long long)refusal, (unsigned long long)verdict);
    return 0;
}
