/* How large.c and fields.c write what they find: lines of a word and numbers. */
#ifndef LINES_H
#define LINES_H

#include <inttypes.h>
#include <stddef.h>
#include <stdio.h>

#define N(number) ((uint64_t)(number))

/* A line: a word, and each number after it. */
static void print(const char *word, size_t count, const uint64_t *numbers) {
    printf("%s", word);
    for (size_t i = 0; i < count; i++) printf(" %" PRIu64, numbers[i]);
    putchar('\n');
}
#define PRINT(word, ...) print(word, sizeof (uint64_t[]){ __VA_ARGS__ } / sizeof(uint64_t), (uint64_t[]){ __VA_ARGS__ })

#endif
