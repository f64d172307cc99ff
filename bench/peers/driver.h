/* What each driver has alike: it reads one block, calls the work over it again and again for so many seconds, and prints the least
 * processor time of one call in microseconds, which other processes lengthen less than the time of a clock. DRIVER MODE SECONDS FILE,
 * where MODE is
 *
 *   parse   read the block
 *   write   read it and write a form
 *   form    write the form to standard output (of the drivers whose forms are compared)
 *
 * A driver that is compiled with COUNTS_MEMORY, and with tests/library/fuzz/memory.c, prints instead how many bytes a call has allocated
 * at most. */
#ifndef DRIVER_H
#define DRIVER_H
#include <fcntl.h>
#include <stdio.h>
#include <stdlib.h>
#include <string.h>
#include <sys/stat.h>
#include <time.h>
#include <unistd.h>

/* To ask for the processor time takes a microsecond, so a short call is repeated until its calls take so long. */
#define LEAST_SECONDS 100e-6

struct block {
    unsigned char *bytes;
    size_t size;
};

/* The file's bytes, after `room` bytes that the caller fills. */
static struct block block_of(const char *name, size_t room) {
    struct stat about;
    int file = open(name, O_RDONLY);
    if (file < 0 || fstat(file, &about) != 0)
        exit(2);
    struct block block = {(unsigned char *)malloc(room + (size_t)about.st_size), room};
    ssize_t count = 1;
    while (block.bytes && count > 0) {
        count = read(file, block.bytes + block.size, room + (size_t)about.st_size - block.size);
        block.size += count > 0 ? (size_t)count : 0;
    }
    if (!block.bytes || count < 0 || block.size != room + (size_t)about.st_size)
        exit(2);
    close(file);
    return block;
}

#ifdef COUNTS_MEMORY
#include "memory.h"

static int timed(char **words, struct block block, int (*work)(struct block, int)) {
    size_t before = memory.live;
    start_counting(0);
    int is_done = work(block, !strcmp(words[1], "write"));
    stop_counting();
    printf("%zu\n", memory.peak - before);
    return !is_done;
}
#else

static double seconds_now(clockid_t clock) {
    struct timespec now;
    clock_gettime(clock, &now);
    return (double)now.tv_sec + 1e-9 * (double)now.tv_nsec;
}

/* The seconds of so many calls; below 0 if one fails. */
static double seconds_of(struct block block, int (*work)(struct block, int), int writes, long times) {
    double began = seconds_now(CLOCK_PROCESS_CPUTIME_ID);
    for (long i = 0; i < times; i++)
        if (!work(block, writes))
            return -1;
    return seconds_now(CLOCK_PROCESS_CPUTIME_ID) - began;
}

/* Works on the block for so many seconds. The work returns 0 if it fails: then no time is printed. */
static int timed(char **words, struct block block, int (*work)(struct block, int)) {
    int writes = !strcmp(words[1], "write");
    double end = seconds_now(CLOCK_MONOTONIC) + atof(words[2]), least = 1e9;
    long times = 1;
    do {
        double spent = seconds_of(block, work, writes, times);
        if (spent < 0)
            return 1;
        least = spent / (double)times < least ? spent / (double)times : least;
        times *= spent < LEAST_SECONDS ? 2 : 1;
    } while (seconds_now(CLOCK_MONOTONIC) < end);
    printf("%.4f\n", 1e6 * least);
    return 0;
}
#endif
#endif
