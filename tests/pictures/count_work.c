/* Loaded in front of Python: counts its calls, and the memory that is asked for and in use. With PYTHONMALLOC=malloc all memory of Python
 * comes from here, and so does that of SQLite, zlib, expat and the library. */
#include <malloc.h>
#include <stdatomic.h>
#include <stddef.h>

extern void *__libc_malloc(size_t), *__libc_calloc(size_t, size_t), *__libc_realloc(void *, size_t);
extern void __libc_free(void *);

/* Calls of Python and from Python; bytes that were asked for, all requests together; bytes in use, and the most of them. SQLite and digests
 * work without Python's lock, so several threads count at once. */
atomic_ullong work_calls, work_asked;
atomic_llong work_used, work_peak;

static void *given(void *memory) {
    long long size = memory ? (long long)malloc_usable_size(memory) : 0;
    long long used = atomic_fetch_add(&work_used, size) + size, peak = atomic_load(&work_peak);
    while (used > peak && !atomic_compare_exchange_weak(&work_peak, &peak, used))
        ;
    return memory;
}

static void taken(void *memory) {
    if (memory)
        atomic_fetch_sub(&work_used, (long long)malloc_usable_size(memory));
}

void *malloc(size_t size) {
    work_asked += size;
    return given(__libc_malloc(size));
}

void *calloc(size_t number, size_t size) {
    work_asked += number * size;
    return given(__libc_calloc(number, size));
}

void *realloc(void *memory, size_t size) {
    void *other;
    size_t before = memory ? malloc_usable_size(memory) : 0;
    work_asked += size > before ? size - before : 0; /* what grows often stays where it is */
    taken(memory);
    other = __libc_realloc(memory, size);
    return given(other || !size ? other : memory);
}

void free(void *memory) {
    taken(memory);
    __libc_free(memory);
}

/* For PyEval_SetProfile: 0 is a call of a Python function, and 4 one of a function in C. */
int work_call(void *object, void *frame, int what, void *argument) {
    (void)object, (void)frame, (void)argument;
    work_calls += what == 0 || what == 4;
    return 0;
}
