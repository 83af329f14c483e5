/* Counts the bytes that a process asks of the heap: `cc -shared -fPIC counting.c -o counting.so` makes it, and LD_PRELOAD puts it into
 * the process. refusing.c, which refuses an allocation, looks for the heap's functions at each call; this one costs the same few
 * instructions each time.
 *
 * The sum of all that was asked of malloc, calloc and realloc so far is what counted_bytes answers. It is a line of the file that
 * COUNTED names after each answer that ends with an empty line, and at the end of the process. At the same places valgrind, under which
 * the process runs, begins a new part of what it counts.
 */
#define _GNU_SOURCE
#include <dlfcn.h>
#include <fcntl.h>
#include <stdio.h>
#include <stdlib.h>
#include <unistd.h>
#include <valgrind/callgrind.h>

static unsigned long counted;
static ssize_t (*real_write)(int, const void *, size_t);
static int told = -1;

unsigned long counted_bytes(void)
{
    return counted;
}

__attribute__((constructor)) static void begin(void)
{
    const char *path = getenv("COUNTED");
    real_write = (__typeof__(real_write))dlsym(RTLD_NEXT, "write");
    if (path)
        told = open(path, O_WRONLY | O_CREAT | O_TRUNC | O_CLOEXEC, 0600);
}

static void tell(void)
{
    char line[24];
    int length = snprintf(line, sizeof line, "%lu\n", counted);
    if (told >= 0 && real_write(told, line, length) != length)
        _exit(127);
}

__attribute__((destructor)) static void end(void)
{
    tell();
}

ssize_t write(int file, const void *bytes, size_t length)
{
    static char last;
    const char *text = bytes;
    ssize_t written = real_write(file, bytes, length);
    if (file == STDOUT_FILENO && written > 0) {
        char before = written > 1 ? text[written - 2] : last;
        last = text[written - 1];
        if (before == '\n' && last == '\n') {
            tell();
            CALLGRIND_DUMP_STATS_AT("answer");
        }
    }
    return written;
}

extern void *__libc_malloc(size_t size);
extern void *__libc_realloc(void *block, size_t size);
extern void *__libc_calloc(size_t count, size_t size);

void *malloc(size_t size)
{
    counted += size;
    return __libc_malloc(size);
}

void *realloc(void *block, size_t size)
{
    counted += size;
    return __libc_realloc(block, size);
}

void *calloc(size_t count, size_t size)
{
    counted += count * size;
    return __libc_calloc(count, size);
}
