/* Refuses allocations of the program before which this library is loaded, for refuse_memory.py.
 *
 * REFUSE=N refuses the Nth allocation, counted from 1, and REFUSE=N.. that one and all behind it; without it none is refused.
 * REFUSE_COUNT names a file of 8 bytes that is mapped, in which the number of all allocations stands as a word of 64 bits. */
#define _GNU_SOURCE
#include <errno.h>
#include <fcntl.h>
#include <stdatomic.h>
#include <stdlib.h>
#include <string.h>
#include <sys/mman.h>
#include <unistd.h>

void *__libc_malloc(size_t);
void *__libc_calloc(size_t, size_t);
void *__libc_realloc(void *, size_t);
void *__libc_memalign(size_t, size_t);

/* Only what the program itself asks for is counted, and not what the C library asks for before its `main`. */
static atomic_ulong *made;
static unsigned long first;
static int all;

__attribute__((constructor)) static void begin(void)
{
    const char *given = getenv("REFUSE");
    const char *name = getenv("REFUSE_COUNT");
    int counted = name ? open(name, O_RDWR) : -1;
    void *place = mmap(NULL, sizeof *made, PROT_READ | PROT_WRITE, MAP_SHARED, counted, 0);
    if (counted < 0 || place == MAP_FAILED)
        abort();
    close(counted);
    if (given) {
        char *end;
        first = strtoul(given, &end, 10);
        all = strcmp(end, "..") == 0;
    }
    made = place;
}

static int is_refused(void)
{
    unsigned long number;
    if (!made)
        return 0;
    number = atomic_fetch_add(made, 1) + 1;
    if (first == 0 || number < first || (number > first && !all))
        return 0;
    errno = ENOMEM;
    return 1;
}

void *malloc(size_t size)
{
    return is_refused() ? NULL : __libc_malloc(size);
}

void *calloc(size_t count, size_t size)
{
    return is_refused() ? NULL : __libc_calloc(count, size);
}

void *realloc(void *old, size_t size)
{
    return is_refused() ? NULL : __libc_realloc(old, size);
}

void *aligned_alloc(size_t alignment, size_t size)
{
    return is_refused() ? NULL : __libc_memalign(alignment, size);
}

void *memalign(size_t alignment, size_t size)
{
    return is_refused() ? NULL : __libc_memalign(alignment, size);
}

int posix_memalign(void **out, size_t alignment, size_t size)
{
    void *found = is_refused() ? NULL : __libc_memalign(alignment, size);
    if (!found)
        return ENOMEM;
    *out = found;
    return 0;
}
