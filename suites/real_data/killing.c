/* Kills by SIGKILL all processes of a group before one of the system calls by which they change files below a folder, as
 * `cc -shared -fPIC killing.c -o killing.so` makes it and LD_PRELOAD puts it into each process. KILL_BELOW is the path of the
 * folder, KILL_COUNT that of a file of four bytes in which the calls are counted, and KILL_AT the number of the call, from 1; with
 * 0 they are counted alone.
 */
#define _GNU_SOURCE
#include <dlfcn.h>
#include <fcntl.h>
#include <limits.h>
#include <signal.h>
#include <stdarg.h>
#include <stdio.h>
#include <stdlib.h>
#include <string.h>
#include <sys/mman.h>
#include <sys/stat.h>
#include <unistd.h>

#define REAL(name, ...) ((__typeof__(&name))dlsym(RTLD_NEXT, #name))(__VA_ARGS__)

static int *counted;
static const char *folder;
static int last;

__attribute__((constructor)) static void begin(void)
{
    const char *count = getenv("KILL_COUNT"), *at = getenv("KILL_AT");
    folder = getenv("KILL_BELOW");
    if (!count || !at || !folder)
        return;
    int file = REAL(open, count, O_RDWR);
    if (file < 0)
        return;
    counted = mmap(NULL, sizeof *counted, PROT_READ | PROT_WRITE, MAP_SHARED, file, 0);
    REAL(close, file);
    last = atoi(at);
    if (counted == MAP_FAILED)
        counted = NULL;
}

/* Counts a call that changes a file at a path, if that lies below the folder. */
static void count(const char *path)
{
    if (!counted || strncmp(path, folder, strlen(folder)) != 0)
        return;
    if (__atomic_add_fetch(counted, 1, __ATOMIC_SEQ_CST) == last)
        for (;;)
            kill(0, SIGKILL);
}

/* The path to which a descriptor leads. */
static void count_file(int file)
{
    char link[64], path[PATH_MAX];
    snprintf(link, sizeof link, "/proc/self/fd/%d", file);
    ssize_t length = readlink(link, path, sizeof path - 1);
    if (length > 0) {
        path[length] = 0;
        count(path);
    }
}

/* The same for a path that may start at a folder that is open, or at the current one. */
static void count_at(int start, const char *path)
{
    char before[PATH_MAX], whole[2 * PATH_MAX], link[64];
    if (path[0] == '/') {
        count(path);
        return;
    }
    if (start == AT_FDCWD) {
        if (!getcwd(before, sizeof before))
            return;
    } else {
        snprintf(link, sizeof link, "/proc/self/fd/%d", start);
        ssize_t length = readlink(link, before, sizeof before - 1);
        if (length <= 0)
            return;
        before[length] = 0;
    }
    snprintf(whole, sizeof whole, "%s/%s", before, path);
    count(whole);
}

static int changes(int flags)
{
    return (flags & (O_WRONLY | O_RDWR | O_CREAT | O_TRUNC)) != 0;
}

#define MODE(flags)                                 \
    mode_t mode = 0;                                \
    if ((flags) & O_CREAT) {                        \
        va_list rest;                               \
        va_start(rest, flags);                      \
        mode = va_arg(rest, mode_t);                \
        va_end(rest);                               \
    }

int open(const char *path, int flags, ...)
{
    MODE(flags)
    if (changes(flags))
        count_at(AT_FDCWD, path);
    return REAL(open, path, flags, mode);
}

int open64(const char *path, int flags, ...)
{
    MODE(flags)
    if (changes(flags))
        count_at(AT_FDCWD, path);
    return REAL(open64, path, flags, mode);
}

int openat(int start, const char *path, int flags, ...)
{
    MODE(flags)
    if (changes(flags))
        count_at(start, path);
    return REAL(openat, start, path, flags, mode);
}

ssize_t write(int file, const void *bytes, size_t length)
{
    count_file(file);
    return REAL(write, file, bytes, length);
}

ssize_t copy_file_range(int from, off_t *at, int to, off_t *there, size_t length, unsigned flags)
{
    count_file(to);
    return REAL(copy_file_range, from, at, to, there, length, flags);
}

int fsync(int file)
{
    count_file(file);
    return REAL(fsync, file);
}

int renameat2(int start, const char *from, int end, const char *to, unsigned flags)
{
    count_at(end, to);
    return REAL(renameat2, start, from, end, to, flags);
}

int renameat(int start, const char *from, int end, const char *to)
{
    count_at(end, to);
    return REAL(renameat, start, from, end, to);
}

int linkat(int start, const char *from, int end, const char *to, int flags)
{
    count_at(end, to);
    return REAL(linkat, start, from, end, to, flags);
}

int symlinkat(const char *target, int start, const char *path)
{
    count_at(start, path);
    return REAL(symlinkat, target, start, path);
}

int unlinkat(int start, const char *path, int flags)
{
    count_at(start, path);
    return REAL(unlinkat, start, path, flags);
}

int mkdir(const char *path, mode_t mode)
{
    count_at(AT_FDCWD, path);
    return REAL(mkdir, path, mode);
}

int fchmodat(int start, const char *path, mode_t mode, int flags)
{
    count_at(start, path);
    return REAL(fchmodat, start, path, mode, flags);
}

int rename(const char *from, const char *to)
{
    count_at(AT_FDCWD, to);
    return REAL(rename, from, to);
}

int link(const char *from, const char *to)
{
    count_at(AT_FDCWD, to);
    return REAL(link, from, to);
}

int symlink(const char *target, const char *path)
{
    count_at(AT_FDCWD, path);
    return REAL(symlink, target, path);
}

int unlink(const char *path)
{
    count_at(AT_FDCWD, path);
    return REAL(unlink, path);
}

int chmod(const char *path, mode_t mode)
{
    count_at(AT_FDCWD, path);
    return REAL(chmod, path, mode);
}
