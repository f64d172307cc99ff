#include <exifnorm.h>
#include <stdio.h>

int main(void) {
    const unsigned char first[] = "\034\002\170\000\004Vase";
    const unsigned char second[] = "\034\002\170\200\004\000\000\000\004Vase";
    uint32_t same;
    struct exifnorm_fault fault;
    if (exifnorm_compare(first, sizeof first - 1, second, sizeof second - 1, &same, &fault) != EXIFNORM_DONE)
        return 1;
    puts(same ? "same" : "different");
    return 0;
}
