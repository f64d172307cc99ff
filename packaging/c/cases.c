/* Runs worked cases: cases FILE. A line of the file is a name, a call, its blocks, and what `exifnorm` prints or writes for them. Bytes are
 * in hexadecimal; none are a hyphen. The status is 0 if each case has its result. */
#include "exifnorm.h"
#include <stdio.h>
#include <stdlib.h>
#include <string.h>

typedef struct {
    unsigned char *bytes;
    size_t length;
} octets;

typedef uint32_t (*writing_call)(const unsigned char *, size_t, unsigned char *, size_t, size_t *, struct exifnorm_fault *);

enum { LONGEST_LINE = 1 << 20, LONGEST_RESULT = 1 << 20 };
static char line[LONGEST_LINE];

static int digit(int c) { return c <= '9' ? c - '0' : c - 'a' + 10; }

/* The bytes of the next word of the line. They have memory of their own, so that a sanitizer sees a read after their end. */
static octets next_bytes(void) {
    const char *word = strtok(NULL, " \r\n");
    octets block = {NULL, 0};
    if (!word) {
        fputs("cases: a line has too few words\n", stderr);
        exit(2);
    }
    block.length = strcmp(word, "-") ? strlen(word) / 2 : 0;
    block.bytes = malloc(block.length > 0 ? block.length : 1);
    for (size_t i = 0; i < block.length; i++) block.bytes[i] = (unsigned char)(digit(word[2 * i]) << 4 | digit(word[2 * i + 1]));
    return block;
}

/* The line that `exifnorm` prints if a call doesn't succeed. */
static size_t print_refusal(char *text, uint32_t status, const struct exifnorm_fault *fault, int is_comparison) {
    char name[EXIFNORM_NAME_ROOM];
    size_t written;
    if (status == EXIFNORM_TOO_LONG) return (size_t)sprintf(text, "refused: NormalTooLong\n");
    if (status != EXIFNORM_REFUSED && status != EXIFNORM_SECOND_REFUSED) return (size_t)sprintf(text, "status %lu\n", (unsigned long)status);
    exifnorm_cause_name(fault->cause, name, sizeof name, &written);
    if (!is_comparison) return (size_t)sprintf(text, "refused: %s at %lu\n", name, (unsigned long)fault->place);
    return (size_t)sprintf(text, "refused: %s at %lu in file %d\n", name, (unsigned long)fault->place, status == EXIFNORM_REFUSED ? 1 : 2);
}

/* Makes a call that writes, and then again with one byte too few, which must be refused. */
static uint32_t write_result(writing_call call, octets block, octets *result, struct exifnorm_fault *fault) {
    size_t needed = 0;
    uint32_t status = call(block.bytes, block.length, result->bytes, LONGEST_RESULT, &result->length, fault);
    if (status != EXIFNORM_DONE || result->length == 0) return status;
    unsigned char *few = malloc(result->length);
    if (call(block.bytes, block.length, few, result->length - 1, &needed, fault) != EXIFNORM_TOO_LITTLE_ROOM || needed != result->length) {
        fputs("cases: a call with too little room for its result has another status or length\n", stderr);
        exit(1);
    }
    free(few);
    return status;
}

/* The status of a call; on success its result is what `exifnorm` prints or writes. */
static uint32_t make_call(const char *call, octets first, octets second, octets *result, struct exifnorm_fault *fault) {
    uint32_t number = 0, status;
    char *text = (char *)result->bytes;
    if (!strcmp(call, "normalise")) return write_result(exifnorm_normalise, first, result, fault);
    if (!strcmp(call, "show")) return write_result(exifnorm_show, first, result, fault);
    if (!strcmp(call, "captions")) return write_result(exifnorm_captions, first, result, fault);
    if (!strcmp(call, "check")) {
        status = exifnorm_check(first.bytes, first.length, &number, fault);
        result->length = (size_t)sprintf(text, "ok %s\n", number == EXIFNORM_EXIF ? "exif" : "iim");
    } else {
        status = exifnorm_compare(first.bytes, first.length, second.bytes, second.length, &number, fault);
        result->length = (size_t)sprintf(text, number ? "same\n" : "different\n");
    }
    return status;
}

/* Whether the case in the line has its result. */
static int is_as_expected(unsigned char *room) {
    const char *name = strtok(line, " "), *call = strtok(NULL, " ");
    int is_comparison = call && !strcmp(call, "compare"), is_equal;
    octets first = next_bytes(), second = {NULL, 0}, expected, result = {room, 0};
    struct exifnorm_fault fault = {0, 0};
    uint32_t status;
    if (is_comparison) second = next_bytes();
    expected = next_bytes();
    status = make_call(call, first, second, &result, &fault);
    if (status != EXIFNORM_DONE) result.length = print_refusal((char *)room, status, &fault, is_comparison);
    is_equal = result.length == expected.length && !memcmp(result.bytes, expected.bytes, expected.length);
    if (!is_equal) printf("%s: another result than expected: %.*s\n", name, (int)(result.length < 200 ? result.length : 200), (char *)room);
    free(first.bytes);
    free(second.bytes);
    free(expected.bytes);
    return is_equal;
}

int main(int argc, char **argv) {
    unsigned long right = 0, wrong = 0;
    size_t length;
    char version[EXIFNORM_NAME_ROOM];
    FILE *file = argc == 2 ? fopen(argv[1], "r") : NULL;
    unsigned char *room = malloc(LONGEST_RESULT);
    if (!file || !room) {
        fputs("usage: cases FILE\n", stderr);
        return 2;
    }
    while (fgets(line, sizeof line, file)) {
        if (is_as_expected(room)) right++;
        else wrong++;
    }
    fclose(file);
    free(room);
    exifnorm_version(version, sizeof version, &length);
    printf("exifnorm %s: %lu cases have the expected result, %lu have not\n", version, right, wrong);
    return wrong > 0 || right == 0;
}
