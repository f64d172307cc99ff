/* exifnorm, by its library. */
#include "exifnorm.h"
#include "forms.h"

static int work(struct block block, int writes) {
    struct exifnorm_fault fault;
    uint32_t kind;
    if (writes)
        return exifnorm_normalise(block.bytes, block.size, form, room, &written, &fault) == EXIFNORM_DONE;
    return exifnorm_check(block.bytes, block.size, &kind, &fault) == EXIFNORM_DONE;
}

int main(int count, char **words) {
    return run_driver(count, words, work);
}
