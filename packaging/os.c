/* What a program of the Rattle kit asks the system for, besides functions of the C library: the kit has these three for x86-64 with glibc
 * alone. The object file of the program defines `main`; it is renamed to rattle_main before it is linked with this one. */
#include <errno.h>
#include <stddef.h>
#include <string.h>

int rattle_main(void);

static size_t count;
static char **words;

/* Copies an argument into a buffer, without the zero byte that ends it, and returns its length: -1 if there is no such argument, and -2 if
 * the buffer is too short. */
ptrdiff_t rattle_arg(size_t index, unsigned char *buffer, size_t capacity) {
    size_t length;
    if (index >= count || !words[index]) return -1;
    length = strlen(words[index]);
    if (length > capacity) return -2;
    memcpy(buffer, words[index], length);
    return (ptrdiff_t)length;
}

int rattle_errno(void) { return errno; }

void rattle_set_errno(int number) { errno = number; }

int main(int argc, char **argv) {
    count = argc > 0 ? (size_t)argc : 0;
    words = argv;
    return rattle_main();
}
