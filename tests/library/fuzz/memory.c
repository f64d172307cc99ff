#define _GNU_SOURCE
#include "memory.h"
#include <malloc.h>

struct memory memory;
static int counts;

/* With -DWRAPPED the linker's --wrap puts these functions between the library and the malloc of a sanitizer. */
#ifdef WRAPPED
#define COUNTED(name) __wrap_##name
#define SYSTEMS(name) __real_##name
#else
#define COUNTED(name) name
#define SYSTEMS(name) __libc_##name
#endif

void *SYSTEMS(malloc)(size_t size);
void *SYSTEMS(calloc)(size_t count, size_t size);
void *SYSTEMS(realloc)(void *old, size_t size);
void SYSTEMS(free)(void *old);

void start_counting(long refuse) {
    counts = 1;
    memory.peak = memory.live;
    memory.taken = memory.grown = memory.asked = 0;
    memory.refuse = refuse;
    memory.refused = 0;
}

void stop_counting(void) {
    counts = 0;
    memory.refuse = 0;
}

static int is_refused(size_t size) {
    if (!counts)
        return 0;
    memory.taken++;
    memory.asked += size;
    if (memory.refuse == 0 || --memory.refuse > 0)
        return 0;
    memory.refused = 1;
    return 1;
}

static void *took(void *got) {
    memory.live += got ? malloc_usable_size(got) : 0;
    if (memory.live > memory.peak)
        memory.peak = memory.live;
    return got;
}

void *COUNTED(malloc)(size_t size) {
    return is_refused(size) ? NULL : took(SYSTEMS(malloc)(size));
}

void *COUNTED(calloc)(size_t count, size_t size) {
    return is_refused(count * size) ? NULL : took(SYSTEMS(calloc)(count, size));
}

void *COUNTED(realloc)(void *old, size_t size) {
    if (is_refused(size))
        return NULL;
    if (old)
        memory.grown += counts;
    size_t held = old ? malloc_usable_size(old) : 0;
    void *got = SYSTEMS(realloc)(old, size);
    if (got)
        memory.live -= held;
    return took(got);
}

void COUNTED(free)(void *old) {
    memory.live -= old ? malloc_usable_size(old) : 0;
    SYSTEMS(free)(old);
}
