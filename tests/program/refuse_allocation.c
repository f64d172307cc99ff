/* Lets one allocation of a program fail, so that a test sees what the program does then.
 *
 * Compiled as a shared library and preloaded. With REFUSE_ALLOCATION=N the Nth call of malloc, calloc, realloc,
 * aligned_alloc, memalign or posix_memalign fails as it does without memory: a null pointer and ENOMEM
 * (posix_memalign: ENOMEM as its result). Every other call is the C library's own. With REFUSE_ALLOCATION_TELLS=FD one
 * byte is written to that open file if a call failed, so that the test knows of runs in which none did.
 *
 * Calls are counted from the program's main to its return.
 */
#define _GNU_SOURCE
#include "main_only.h"
#include <errno.h>
#include <unistd.h>

static int is_counting;
static long until_refused;
static int tells = -1;

static void begins(void) {
    until_refused = number_in("REFUSE_ALLOCATION", 0);
    tells = (int)number_in("REFUSE_ALLOCATION_TELLS", -1);
    is_counting = 1;
}

static void ends(void) {
    is_counting = 0;
}

/* Whether this call is the one that fails. */
static int is_refused(void) {
    if (!is_counting || until_refused <= 0 || --until_refused > 0)
        return 0;
    if (tells >= 0 && write(tells, "r", 1) != 1)
        _exit(99);
    errno = ENOMEM;
    return 1;
}

typedef void *Malloc(size_t);
typedef void *Pair(size_t, size_t);
typedef void *Realloc(void *, size_t);
typedef int PosixMemalign(void **, size_t, size_t);

void *malloc(size_t size) {
    OWN("malloc", Malloc);
    return is_refused() ? NULL : own(size);
}

void *calloc(size_t count, size_t size) {
    OWN("calloc", Pair);
    return is_refused() ? NULL : own(count, size);
}

void *realloc(void *old, size_t size) {
    OWN("realloc", Realloc);
    return is_refused() ? NULL : own(old, size);
}

void *aligned_alloc(size_t alignment, size_t size) {
    OWN("aligned_alloc", Pair);
    return is_refused() ? NULL : own(alignment, size);
}

void *memalign(size_t alignment, size_t size) {
    OWN("memalign", Pair);
    return is_refused() ? NULL : own(alignment, size);
}

int posix_memalign(void **made, size_t alignment, size_t size) {
    OWN("posix_memalign", PosixMemalign);
    return is_refused() ? ENOMEM : own(made, alignment, size);
}
