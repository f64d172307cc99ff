/* What the drivers have alike whose forms are compared: a buffer for the form, and the mode that writes it. */
#ifndef FORMS_H
#define FORMS_H
#include "driver.h"

static unsigned char *form;
static size_t room, written; /* bytes of the buffer, and of the last form */

static int run_driver(int count, char **words, int (*work)(struct block, int)) {
    if (count != 4)
        return 2;
    struct block block = block_of(words[3], 0);
    room = 2 * block.size + 1;
    form = (unsigned char *)malloc(room);
    if (!form)
        return 2;
    if (!strcmp(words[1], "form"))
        return !work(block, 1) || fwrite(form, 1, written, stdout) != written;
    return timed(words, block, work);
}
#endif
