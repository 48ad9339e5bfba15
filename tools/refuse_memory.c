/* Refuses memory, for tools/refuse-memory. To be loaded before the program (LD_PRELOAD).

   The calls that ask for memory are counted from 1. With REFUSE_FROM=N the N-th and all later ones fail, with REFUSE_ONLY=N
   the N-th alone. With REFUSE_COUNT=FILE their number is written to the file when the program ends. */
#define _GNU_SOURCE
#include <errno.h>
#include <fcntl.h>
#include <stddef.h>
#include <stdio.h>
#include <stdlib.h>
#include <sys/mman.h>
#include <sys/syscall.h>
#include <unistd.h>

/* The names under which glibc has its own. */
extern void *__libc_malloc(size_t size);
extern void *__libc_calloc(size_t count, size_t size);
extern void *__libc_realloc(void *old, size_t size);
extern void *__libc_memalign(size_t alignment, size_t size);

static long calls;
static long from;
static long only;

static long number_of(const char *name)
{
    const char *word = getenv(name);
    return word ? atol(word) : 0;
}

__attribute__((constructor)) static void begin(void)
{
    from = number_of("REFUSE_FROM");
    only = number_of("REFUSE_ONLY");
}

__attribute__((destructor)) static void end(void)
{
    const char *name = getenv("REFUSE_COUNT");
    char text[32];
    int length = snprintf(text, sizeof text, "%ld\n", calls);
    int file = name ? open(name, O_WRONLY | O_CREAT | O_TRUNC, 0600) : -1;
    if (file >= 0) {
        if (write(file, text, length) != length)
            unlink(name);
        close(file);
    }
}

static int is_refused(void)
{
    calls++;
    if (calls != only && (from == 0 || calls < from))
        return 0;
    errno = ENOMEM;
    return 1;
}

void *malloc(size_t size)
{
    return is_refused() ? NULL : __libc_malloc(size);
}

void *calloc(size_t count, size_t size)
{
    return is_refused() ? NULL : __libc_calloc(count, size);
}

void *realloc(void *old, size_t size)
{
    return is_refused() ? NULL : __libc_realloc(old, size);
}

void *memalign(size_t alignment, size_t size)
{
    return is_refused() ? NULL : __libc_memalign(alignment, size);
}

void *aligned_alloc(size_t alignment, size_t size)
{
    return memalign(alignment, size);
}

int posix_memalign(void **found, size_t alignment, size_t size)
{
    void *memory = memalign(alignment, size);
    if (!memory)
        return ENOMEM;
    *found = memory;
    return 0;
}

void *mmap(void *place, size_t length, int protection, int flags, int file, off_t offset)
{
    return is_refused() ? MAP_FAILED : (void *)syscall(SYS_mmap, place, length, protection, flags, file, offset);
}
