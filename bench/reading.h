/* What the programs for C have in common that measure the library: the time, and the bytes of a file. */
#ifndef READING_H
#define READING_H

#include <stdint.h>
#include <stdio.h>
#include <stdlib.h>
#include <time.h>

typedef struct { uint8_t *bytes; size_t len; } bytes;

/* A time in nanoseconds. */
static uint64_t now(void) {
    struct timespec time;
    clock_gettime(CLOCK_MONOTONIC, &time);
    return (uint64_t)time.tv_sec * 1000000000u + (uint64_t)time.tv_nsec;
}

/* All bytes of a file, and a zero after them. */
static bytes read_all(const char *path) {
    bytes read = { NULL, 0 };
    FILE *file = fopen(path, "rb");
    if (!file) exit(2);
    fseek(file, 0, SEEK_END);
    read.len = (size_t)ftell(file);
    rewind(file);
    read.bytes = malloc(read.len + 1);
    if (!read.bytes || fread(read.bytes, 1, read.len, file) != read.len) exit(2);
    read.bytes[read.len] = 0;
    fclose(file);
    return read;
}

#endif
