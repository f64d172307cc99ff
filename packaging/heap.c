/* What the library's module allocates with, over malloc, realloc and free: the Rattle kit has these three functions for x86-64 alone. */
#include <stdint.h>
#include <stdlib.h>

struct allocation {
    uint64_t is_done;
    uint64_t address;
};

static uint64_t nothing; /* an allocation that failed has its address, and nobody uses it */

static struct allocation allocation_of(void *place) {
    return (struct allocation){place != NULL, (uint64_t)(uintptr_t)(place ? place : &nothing)};
}

struct allocation rattle_alloc(uint64_t size, uint64_t alignment) { return allocation_of(malloc(size > 0 ? size : alignment)); }

struct allocation rattle_realloc(void *place, uint64_t old_size, uint64_t size, uint64_t alignment) {
    (void)old_size;
    return allocation_of(realloc(place, size > 0 ? size : alignment));
}

void rattle_dealloc(void *place) { free(place); }
