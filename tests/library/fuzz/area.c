#define _GNU_SOURCE
#include "area.h"
#include <sys/mman.h>

enum { PAGE = 4096 };

unsigned char *end_of_area(size_t size) {
    size_t whole = (size + PAGE - 1) / PAGE * PAGE;
    unsigned char *start = mmap(NULL, whole + PAGE, PROT_READ | PROT_WRITE, MAP_PRIVATE | MAP_ANONYMOUS, -1, 0);
    return start != MAP_FAILED && mprotect(start + whole, PAGE, PROT_NONE) == 0 ? start + whole : NULL;
}
