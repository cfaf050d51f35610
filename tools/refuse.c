/* A library to be preloaded into the built program by tools/check_refusals: calls that the program makes of the C library are
 * refused, cut off or cut short. The variable REFUSE has four words:
 *
 *   CALL   which calls: allocation (malloc, realloc), open, read or write
 *   HOW    once (the call of that number fails), on (so does each behind it), interrupted (a signal comes before it moves a byte),
 *          short (each of these calls moves one byte), full (so does each before that number, and the others fail), none
 *   NUMBER of the call, from 1
 *   TO     a descriptor, to which the number of these calls is written at the program's end
 *
 * Needs the GNU C library on Linux.
 */
#define _GNU_SOURCE
#include <errno.h>
#include <fcntl.h>
#include <stdarg.h>
#include <stdio.h>
#include <stdlib.h>
#include <string.h>
#include <sys/syscall.h>
#include <sys/types.h>
#include <unistd.h>

extern void *__libc_malloc(size_t size);
extern void *__libc_realloc(void *block, size_t size);

static char call[16], how[16];
static unsigned long number, calls;
static int to = -1;

__attribute__((constructor)) static void begin(void)
{
    const char *words = getenv("REFUSE");
    if (words != NULL && sscanf(words, "%15s %15s %lu %d", call, how, &number, &to) != 4)
        _exit(125);
}

__attribute__((destructor)) static void end(void)
{
    char text[24];
    int length = snprintf(text, sizeof text, "%lu\n", calls);
    if (to >= 0 && syscall(SYS_write, to, text, length) != length)
        _exit(125);
}

static int is(const char *word, const char *other)
{
    return strcmp(word, other) == 0;
}

/* Counts a call, and answers whether it fails, with errno set. */
static int refused(const char *kind, int error)
{
    if (!is(call, kind))
        return 0;
    calls++;
    errno = is(how, "interrupted") ? EINTR : error;
    if (is(how, "on") || is(how, "full"))
        return calls >= number;
    return calls == number && (is(how, "once") || is(how, "interrupted"));
}

/* As many of the bytes as a call is let move. */
static size_t let(const char *kind, size_t count)
{
    return is(call, kind) && (is(how, "short") || is(how, "full")) && count > 1 ? 1 : count;
}

void *malloc(size_t size)
{
    return refused("allocation", ENOMEM) ? NULL : __libc_malloc(size);
}

void *realloc(void *block, size_t size)
{
    return refused("allocation", ENOMEM) ? NULL : __libc_realloc(block, size);
}

int open(const char *name, int flags, ...)
{
    va_list rest;
    va_start(rest, flags);
    mode_t mode = flags & O_CREAT ? va_arg(rest, mode_t) : 0;
    va_end(rest);
    return refused("open", EACCES) ? -1 : (int)syscall(SYS_openat, AT_FDCWD, name, flags, mode);
}

ssize_t read(int file, void *bytes, size_t count)
{
    return refused("read", EIO) ? -1 : syscall(SYS_read, file, bytes, let("read", count));
}

ssize_t write(int file, const void *bytes, size_t count)
{
    return refused("write", ENOSPC) ? -1 : syscall(SYS_write, file, bytes, let("write", count));
}
