/* libexif: parse, visit each entry; and write in the most significant byte first. It asks for the six bytes of a JPEG segment. */
#include "driver.h"
#include <libexif/exif-data.h>

static unsigned long visited;

static void visit_entry(ExifEntry *entry, void *unused) {
    (void)entry, (void)unused;
    visited++;
}

static void visit(ExifContent *content, void *unused) {
    (void)unused;
    exif_content_foreach_entry(content, visit_entry, NULL);
}

static int work(struct block block, int writes) {
    ExifData *data = exif_data_new();
    exif_data_unset_option(data, EXIF_DATA_OPTION_FOLLOW_SPECIFICATION);
    exif_data_unset_option(data, EXIF_DATA_OPTION_IGNORE_UNKNOWN_TAGS);
    exif_data_set_option(data, EXIF_DATA_OPTION_DONT_CHANGE_MAKER_NOTE);
    exif_data_load_data(data, block.bytes, (unsigned)block.size);
    exif_data_foreach_content(data, visit, NULL);
    if (writes) {
        unsigned char *form = NULL;
        unsigned size = 0;
        exif_data_set_byte_order(data, EXIF_BYTE_ORDER_MOTOROLA);
        exif_data_save_data(data, &form, &size);
        free(form);
    }
    exif_data_unref(data);
    return 1;
}

int main(int count, char **words) {
    if (count != 4)
        return 2;
    struct block block = block_of(words[3], 6);
    memcpy(block.bytes, "Exif\0\0", 6);
    return timed(words, block, work);
}
