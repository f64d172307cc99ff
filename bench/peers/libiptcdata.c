/* libiptcdata: parse; and sort and write. */
#include "driver.h"
#include <libiptcdata/iptc-data.h>

static int work(struct block block, int writes) {
    IptcData *data = iptc_data_new_from_data(block.bytes, (unsigned)block.size);
    if (!data)
        return 0;
    if (writes) {
        unsigned char *form = NULL;
        unsigned size = 0;
        iptc_data_sort(data);
        iptc_data_save(data, &form, &size);
        iptc_data_free_buf(data, form);
    }
    iptc_data_unref(data);
    return 1;
}

int main(int count, char **words) {
    return count == 4 ? timed(words, block_of(words[3], 0), work) : 2;
}
