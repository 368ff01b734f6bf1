/*
 * The allocations of the C library, of which some are refused. Who includes this says which, by is_refused: it is asked
 * once for each.
 */
#include <errno.h>
#include <stddef.h>

extern void *__libc_malloc(size_t size);
extern void *__libc_calloc(size_t count, size_t size);
extern void *__libc_realloc(void *old, size_t size);

static int is_refused(void);

/* What an allocation gives that is refused. */
static void *refuse(void)
{
    errno = ENOMEM;
    return NULL;
}

void *malloc(size_t size)
{
    return is_refused() ? refuse() : __libc_malloc(size);
}

void *calloc(size_t count, size_t size)
{
    return is_refused() ? refuse() : __libc_calloc(count, size);
}

void *realloc(void *old, size_t size)
{
    return is_refused() ? refuse() : __libc_realloc(old, size);
}
