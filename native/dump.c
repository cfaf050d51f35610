/*
 * A library for LD_PRELOAD that writes a piece of memory to a file when its program gives it back. By it compare reads
 * the words of swic's cache RAM, which is the first piece of its size there. DUMP_BYTES is this size, DUMP_FILE the
 * file.
 */
#include <errno.h>
#include <stddef.h>
#include <stdio.h>
#include <stdlib.h>

/* The C library's own functions, by the names that it exports beside the replaced ones. */
extern void *__libc_malloc(size_t bytes);
extern void *__libc_calloc(size_t count, size_t bytes);
extern void *__libc_memalign(size_t alignment, size_t bytes);
extern void __libc_free(void *at);

static void *watched;

static void *seen(void *at, size_t bytes)
{
    const char *wanted = getenv("DUMP_BYTES");
    if (!watched && wanted && bytes == strtoull(wanted, NULL, 10))
        watched = at;
    return at;
}

static void write_watched(void)
{
    const char *name = getenv("DUMP_FILE"), *bytes = getenv("DUMP_BYTES");
    FILE *file = name ? fopen(name, "w") : NULL;
    if (!file)
        return;
    fwrite(watched, 1, strtoull(bytes, NULL, 10), file);
    fclose(file);
}

void *malloc(size_t bytes)
{
    return seen(__libc_malloc(bytes), bytes);
}

void *calloc(size_t count, size_t bytes)
{
    return seen(__libc_calloc(count, bytes), count * bytes);
}

void *aligned_alloc(size_t alignment, size_t bytes)
{
    return seen(__libc_memalign(alignment, bytes), bytes);
}

int posix_memalign(void **at, size_t alignment, size_t bytes)
{
    *at = seen(__libc_memalign(alignment, bytes), bytes);
    return *at ? 0 : ENOMEM;
}

void free(void *at)
{
    if (at && at == watched) {
        write_watched();
        watched = NULL;
    }
    __libc_free(at);
}
