// Refuses one request for memory of the program that it is loaded into: the one of the number that REFUSED has, counted from 1.
// That there was one is told by a byte on the descriptor that TOLD has.
#include <errno.h>
#include <stdatomic.h>
#include <stddef.h>
#include <stdlib.h>
#include <unistd.h>

extern void *__libc_malloc(size_t size);
extern void *__libc_calloc(size_t count, size_t size);
extern void *__libc_realloc(void *memory, size_t size);

static atomic_long requests;

static long number_in(const char *name)
{
    const char *text = getenv(name);
    return text ? atol(text) : 0;
}

static int is_refused(void)
{
    if (atomic_fetch_add(&requests, 1) + 1 != number_in("REFUSED")) {
        return 0;
    }
    (void)!write((int)number_in("TOLD"), "x", 1);
    errno = ENOMEM;
    return 1;
}

void *malloc(size_t size)
{
    return is_refused() ? NULL : __libc_malloc(size);
}

void *calloc(size_t count, size_t size)
{
    return is_refused() ? NULL : __libc_calloc(count, size);
}

void *realloc(void *memory, size_t size)
{
    return is_refused() ? NULL : __libc_realloc(memory, size);
}
