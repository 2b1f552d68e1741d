/* Refuses growths of memory in a program before which it is preloaded (LD_PRELOAD): the growth of
 * the number REFUSE_AT, counted from 1, and, where REFUSE_ON is set, each one that follows it. Growths
 * are counted from when the C library is ready. For each one that it refuses it writes a byte to the
 * descriptor 9, where that is open. refused.sh says what is done with it. */
#include <errno.h>
#include <stddef.h>
#include <stdlib.h>
#include <unistd.h>

void *__libc_malloc(size_t);
void *__libc_calloc(size_t, size_t);
void *__libc_realloc(void *, size_t);
void *__libc_memalign(size_t, size_t);

static unsigned long asked, refused_at;
static int goes_on;

__attribute__((constructor)) static void start(void)
{
    const char *at = getenv("REFUSE_AT");
    goes_on = getenv("REFUSE_ON") != NULL;
    asked = 0;
    refused_at = at ? strtoul(at, NULL, 10) : 0;
}

/* Counts a growth, and says whether it is refused. */
static int is_refused(void)
{
    if (refused_at == 0)
        return 0;
    asked++;
    if (asked != refused_at && !(goes_on && asked > refused_at))
        return 0;
    (void)!write(9, "x", 1);
    errno = ENOMEM;
    return 1;
}

void *malloc(size_t size)
{
    return is_refused() ? NULL : __libc_malloc(size);
}

void *calloc(size_t count, size_t size)
{
    return is_refused() ? NULL : __libc_calloc(count, size);
}

void *realloc(void *old, size_t size)
{
    return is_refused() ? NULL : __libc_realloc(old, size);
}

void *memalign(size_t align, size_t size)
{
    return is_refused() ? NULL : __libc_memalign(align, size);
}

void *aligned_alloc(size_t align, size_t size)
{
    return memalign(align, size);
}

int posix_memalign(void **made, size_t align, size_t size)
{
    void *block = memalign(align, size);
    if (block == NULL)
        return ENOMEM;
    *made = block;
    return 0;
}
