/* Has reads of files give few bytes or fail, and files look longer than they are: `cc -shared -fPIC reading.c -o reading.so` makes it
 * and LD_PRELOAD puts it into a process. Each read of a file that was opened gives at most READ_MOST bytes, and the one of the number
 * READ_FAILS, counted from 0, fails. The length of each file is told with READ_MORE bytes more. At the end the file READ_COUNT gets
 * the number of reads.
 */
#define _GNU_SOURCE
#include <dlfcn.h>
#include <errno.h>
#include <limits.h>
#include <stdio.h>
#include <stdlib.h>
#include <sys/stat.h>
#include <unistd.h>

#define REAL(name, ...) ((__typeof__(&name))dlsym(RTLD_NEXT, #name))(__VA_ARGS__)

static long most, fails, more, count;

static long number(const char *name, long otherwise)
{
    const char *value = getenv(name);
    return value ? atol(value) : otherwise;
}

__attribute__((constructor)) static void begin(void)
{
    most = number("READ_MOST", LONG_MAX);
    fails = number("READ_FAILS", -1);
    more = number("READ_MORE", 0);
}

__attribute__((destructor)) static void end(void)
{
    const char *path = getenv("READ_COUNT");
    FILE *file = path ? fopen(path, "w") : NULL;
    if (file) {
        fprintf(file, "%ld", count);
        fclose(file);
    }
}

ssize_t read(int file, void *bytes, size_t length)
{
    if (file <= STDERR_FILENO)
        return REAL(read, file, bytes, length);
    if (count++ == fails) {
        errno = EIO;
        return -1;
    }
    return REAL(read, file, bytes, length < (size_t)most ? length : (size_t)most);
}

int statx(int folder, const char *path, int flags, unsigned mask, struct statx *found)
{
    int status = REAL(statx, folder, path, flags, mask, found);
    if (status == 0 && S_ISREG(found->stx_mode))
        found->stx_size += more;
    return status;
}
