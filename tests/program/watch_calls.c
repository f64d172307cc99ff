/* Counts what a program asks of the system. So a test sees what a run costs.
 *
 * Compiled as a shared library and preloaded. Only what happens from the beginning of the program's main to its return counts. With
 * WATCH_TELLS=FD one line is written to that open file at the end: the calls for memory, the bytes that they requested, the most
 * bytes allocated at once, the reads, the writes, and the milliseconds of processor time. With SHORT=N each read and each write moves at most
 * N bytes. Every other call is the C library's own.
 */
#define _GNU_SOURCE
#include "main_only.h"
#include <malloc.h>
#include <stdint.h>
#include <stdio.h>
#include <sys/resource.h>
#include <unistd.h>

static int is_watching;
static long calls, reads, writes;
static size_t asked, held, most;
static size_t longest;

typedef ssize_t Write(int, const void *, size_t);
typedef ssize_t Read(int, void *, size_t);

static ssize_t own_write(int to, const void *from, size_t size) {
    OWN("write", Write);
    return own(to, from, size);
}

static void begins(void) {
    longest = (size_t)number_in("SHORT", 0);
    is_watching = 1;
}

/* The milliseconds of processor time that this process has used. */
static long spent(void) {
    struct rusage used;
    getrusage(RUSAGE_SELF, &used);
    return (used.ru_utime.tv_sec + used.ru_stime.tv_sec) * 1000 + (used.ru_utime.tv_usec + used.ru_stime.tv_usec) / 1000;
}

static void ends(void) {
    is_watching = 0;
    int tells = (int)number_in("WATCH_TELLS", -1);
    char line[200];
    int size = snprintf(line, sizeof line, "%ld %zu %zu %ld %ld %ld\n", calls, asked, most, reads, writes, spent());
    if (tells >= 0 && own_write(tells, line, (size_t)size) != size)
        _exit(99);
}

/* An allocation at `to` in place of the one at `from`, which is freed. */
static void *counted(size_t size, size_t was, void *made) {
    if (!is_watching)
        return made;
    calls++;
    asked += size;
    if (made) {
        held += malloc_usable_size(made);
        held -= was < held ? was : held;
        most = held > most ? held : most;
    }
    return made;
}

typedef void *Malloc(size_t);
typedef void *Pair(size_t, size_t);
typedef void *Realloc(void *, size_t);
typedef int PosixMemalign(void **, size_t, size_t);
typedef void Free(void *);

void *malloc(size_t size) {
    OWN("malloc", Malloc);
    return counted(size, 0, own(size));
}

void *realloc(void *old, size_t size) {
    OWN("realloc", Realloc);
    size_t was = old ? malloc_usable_size(old) : 0;
    return counted(size, was, own(old, size));
}

void *aligned_alloc(size_t alignment, size_t size) {
    OWN("aligned_alloc", Pair);
    return counted(size, 0, own(alignment, size));
}

int posix_memalign(void **made, size_t alignment, size_t size) {
    OWN("posix_memalign", PosixMemalign);
    int status = own(made, alignment, size);
    counted(size, 0, status ? NULL : *made);
    return status;
}

void free(void *old) {
    OWN("free", Free);
    if (is_watching && old) {
        size_t was = malloc_usable_size(old);
        held -= was < held ? was : held;
    }
    own(old);
}

/* How many of these bytes a call moves. */
static size_t moved(size_t size) {
    return is_watching && longest && longest < size ? longest : size;
}

ssize_t write(int to, const void *from, size_t size) {
    writes += is_watching;
    return own_write(to, from, moved(size));
}

ssize_t read(int from, void *to, size_t size) {
    OWN("read", Read);
    reads += is_watching;
    return own(from, to, moved(size));
}
