/* The program's own malloc, which the library calls: it counts what is allocated, and can fail. */
#ifndef FUZZ_MEMORY_H
#define FUZZ_MEMORY_H

#include <stddef.h>

struct memory {
    size_t live;   /* bytes that are allocated now */
    size_t peak;   /* the most of them since `start_counting` */
    size_t taken;  /* allocations since then */
    size_t grown;  /* how many of them made something longer that was allocated before */
    size_t asked;  /* the bytes that all of them asked for */
    long refuse;   /* which allocation from now on fails: 1 is the next one, 0 is none */
    int refused;   /* whether one failed */
};

extern struct memory memory;

/* Forgets the peak and the numbers, and lets the allocation of this number fail. */
void start_counting(long refuse);

/* Lets no further allocation fail. */
void stop_counting(void);

#endif
