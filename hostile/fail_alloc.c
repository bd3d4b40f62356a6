/* Refuses allocations of a program, where it is loaded before the C library (LD_PRELOAD).
 *
 * FAIL_ALLOC=N refuses the N-th one, counted from 1, of malloc, calloc, realloc (but for one that
 * frees), posix_memalign, aligned_alloc and memalign, and says `refused N` on standard error.
 * FAIL_EVERY=N refuses each N-th one after the first thousand, and says nothing.
 */
#define _GNU_SOURCE
#include <errno.h>
#include <stdatomic.h>
#include <stdbool.h>
#include <stdio.h>
#include <stdlib.h>
#include <string.h>
#include <unistd.h>

enum { MOST_TEXT = 40, BEGINNING = 1000 };

extern void *__libc_malloc(size_t size);
extern void *__libc_calloc(size_t count, size_t size);
extern void *__libc_realloc(void *held, size_t size);
extern void *__libc_memalign(size_t alignment, size_t size);

static atomic_ulong counted;
static unsigned long refused, every;

static unsigned long number_of(const char *name)
{
    const char *number = getenv(name);
    return number ? strtoul(number, NULL, 10) : 0;
}

__attribute__((constructor)) static void read_numbers(void)
{
    counted = 0;
    refused = number_of("FAIL_ALLOC");
    every = number_of("FAIL_EVERY");
}

static void say_refused(void)
{
    char text[MOST_TEXT];
    int length = snprintf(text, sizeof text, "refused %lu\n", refused);
    if (write(STDERR_FILENO, text, (size_t)length) != length)
        abort();
}

/* Whether this allocation is one that is refused. */
static bool is_refused(void)
{
    if (refused == 0 && every == 0)
        return false;
    unsigned long number = ++counted;
    if (number == refused)
        say_refused();
    else if (every == 0 || number <= BEGINNING || number % every != 0)
        return false;
    errno = ENOMEM;
    return true;
}

void *malloc(size_t size)
{
    return is_refused() ? NULL : __libc_malloc(size);
}

void *calloc(size_t count, size_t size)
{
    return is_refused() ? NULL : __libc_calloc(count, size);
}

void *realloc(void *held, size_t size)
{
    return size != 0 && is_refused() ? NULL : __libc_realloc(held, size);
}

void *memalign(size_t alignment, size_t size)
{
    return is_refused() ? NULL : __libc_memalign(alignment, size);
}

void *aligned_alloc(size_t alignment, size_t size)
{
    return memalign(alignment, size);
}

int posix_memalign(void **made, size_t alignment, size_t size)
{
    void *memory = memalign(alignment, size);
    if (!memory)
        return ENOMEM;
    *made = memory;
    return 0;
}
