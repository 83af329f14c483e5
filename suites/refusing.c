/* Refuses one allocation of a process: `cc -shared -fPIC refusing.c -o refusing.so` makes it, and LD_PRELOAD puts it into the
 * process. REFUSED is the number of the allocation, counted from 1 after the first write, or where FROM_THE_FIRST is set, from the
 * first allocation on. A vector that grows makes one more.
 */
#define _GNU_SOURCE
#include <dlfcn.h>
#include <stdbool.h>
#include <stdlib.h>
#include <unistd.h>

#define REAL(name, ...) ((__typeof__(&name))dlsym(RTLD_NEXT, #name))(__VA_ARGS__)

static long left;
static bool counts;

__attribute__((constructor)) static void begin(void)
{
    const char *number = getenv("REFUSED");
    left = number ? atol(number) : 0;
    counts = getenv("FROM_THE_FIRST");
}

static bool is_refused(void)
{
    return counts && --left == 0;
}

void *malloc(size_t size)
{
    return is_refused() ? NULL : REAL(malloc, size);
}

void *realloc(void *block, size_t size)
{
    return is_refused() ? NULL : REAL(realloc, block, size);
}

ssize_t write(int file, const void *bytes, size_t length)
{
    counts = true;
    return REAL(write, file, bytes, length);
}
