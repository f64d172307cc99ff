/* Plain C for the same work (limits/). WAY is how it puts a long IIM block in order. */
#include "forms.h"
#include "limits/limits.h"

#ifndef WAY
#define WAY BY_OCTETS
#endif

static int work(struct block block, int writes) {
    if (!writes)
        return limits_check(block.bytes, block.size);
    long length = limits_normalise(block.bytes, block.size, form, room, WAY);
    written = length < 0 ? 0 : (size_t)length;
    return length >= 0;
}

int main(int count, char **words) {
    return run_driver(count, words, work);
}
