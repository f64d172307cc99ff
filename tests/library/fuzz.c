/* Judges blocks in process by the laws of fuzz/laws.h: known blocks, and millions that are made from them by chance.
 *
 *   fuzz CORPUS SEED COUNT    reads the blocks of the file CORPUS, the records first, each after its length in four
 *                             bytes, least significant first; then judges COUNT changed ones
 *   fuzz CORPUS 0 0 FILE ..   judges the blocks of these files, as a fuzzer leaves them
 *
 * Each line that begins with BROKEN names a law that is false for a block. Then come the laws and the causes with their numbers.
 * The status is 1 if a law was broken. With -DLIBFUZZER this is a target for libFuzzer or AFL++ (docs/FUZZING.md).
 */
#include "fuzz/changes.h"
#include "fuzz/laws.h"
#include <stdio.h>
#include <stdlib.h>
#include <string.h>

static void stop(const char *why) {
    fprintf(stderr, "fuzz: %s\n", why);
    exit(2);
}

#ifdef LIBFUZZER

int LLVMFuzzerInitialize(int *count, char ***words) {
    (void)count;
    (void)words;
    if (!open_room())
        stop("no memory");
    return 0;
}

int LLVMFuzzerTestOneInput(const unsigned char *block, size_t length) {
    if (length == 0 || length > longest_block())
        return 0;
    judge(block, length);
    for (int law = 0; law < LAW_COUNT; law++)
        if (seen.broken[law])
            abort();
    return 0;
}

#else

enum { MOST_BLOCKS = 4096 };

struct block {
    unsigned char *bytes;
    size_t length;
};

/* The known blocks, the records first, and after them the accepted ones that were made, as many as fit. */
static struct block blocks[MOST_BLOCKS];
static size_t records, known, count;

static unsigned char *copy_of(const unsigned char *bytes, size_t length) {
    unsigned char *copy = malloc(length ? length : 1);
    if (!copy)
        stop("no memory");
    return memcpy(copy, bytes, length);
}

static size_t read_block(FILE *file, unsigned char *bytes) {
    unsigned char four[4];
    if (fread(four, 1, 4, file) != 4)
        return 0;
    size_t length = (size_t)four[0] | (size_t)four[1] << 8 | (size_t)four[2] << 16 | (size_t)four[3] << 24;
    if (length == 0 || length > longest_block() || fread(bytes, 1, length, file) != length)
        stop("the corpus has a block that is empty, too long or cut");
    return length;
}

static void read_corpus(const char *path, unsigned char *bytes) {
    FILE *file = fopen(path, "rb");
    size_t length;
    if (!file)
        stop("no such corpus");
    while (count < MOST_BLOCKS / 2 && (length = read_block(file, bytes)) > 0) {
        blocks[count++] = (struct block){copy_of(bytes, length), length};
        records += bytes[0] == 0x1C && records == count - 1;
    }
    fclose(file);
    known = count;
    if (records == 0 || known == records)
        stop("the corpus must have records, and then other blocks");
}

/* The block from which one is made: mostly a known one, which lies nearer to both sides of each rule. */
static const struct block *any_block(struct chance *chance) {
    switch (below(chance, 4)) {
    case 0:
        return &blocks[below(chance, (uint32_t)count)];
    case 1:
        return &blocks[below(chance, (uint32_t)records)];
    default:
        return &blocks[below(chance, (uint32_t)known)];
    }
}

/* Keeps a block that is accepted, so that later ones are made from it; in place of one that was made, where there are too many. */
static void keep(struct chance *chance, const unsigned char *bytes, size_t length) {
    if (count < MOST_BLOCKS) {
        blocks[count++] = (struct block){copy_of(bytes, length), length};
        return;
    }
    struct block *old = &blocks[known + below(chance, (uint32_t)(count - known))];
    free(old->bytes);
    *old = (struct block){copy_of(bytes, length), length};
}

static void judge_changed(struct chance *chance, unsigned long times, unsigned char *bytes) {
    for (unsigned long i = 0; i < times; i++) {
        const struct block *from = any_block(chance);
        const struct block *other = &blocks[below(chance, (uint32_t)count)];
        memcpy(bytes, from->bytes, from->length);
        size_t length = changed(chance, bytes, from->length, longest_block(), other->bytes, other->length);
        if (judge(bytes, length) == 0 && below(chance, 16) == 0 && length <= 1024)
            keep(chance, bytes, length);
    }
}

static void judge_file(const char *path, unsigned char *bytes) {
    FILE *file = fopen(path, "rb");
    if (!file)
        stop("no such file");
    size_t length = fread(bytes, 1, longest_block(), file);
    fclose(file);
    judge(bytes, length);
}

static int report(void) {
    unsigned long broken = 0;
    for (int law = 0; law < LAW_COUNT; law++) {
        printf("law %lu %lu %s\n", seen.looked[law], seen.broken[law], law_text(law));
        broken += seen.broken[law];
    }
    for (int cause = 0; cause < CAUSES; cause++)
        printf("cause %d %lu\n", cause, seen.causes[cause]);
    printf("blocks %lu accepted %lu records %lu\n", seen.blocks, seen.accepted, seen.records);
    return broken ? 1 : 0;
}

int main(int words, char **word) {
    if (words < 4)
        stop("fuzz CORPUS SEED COUNT [FILE ..]");
    unsigned char *bytes = malloc(longest_block() + 1);
    if (!bytes || !open_room())
        stop("no memory");
    read_corpus(word[1], bytes);
    for (size_t i = 0; i < known; i++)
        judge(blocks[i].bytes, blocks[i].length);
    struct chance chance = {strtoull(word[2], NULL, 10) * 2 + 1};
    judge_changed(&chance, strtoul(word[3], NULL, 10), bytes);
    for (int i = 4; i < words; i++)
        judge_file(word[i], bytes);
    return report();
}

#endif
