/* Memory that ends where a page begins that can't be read or written. */
#ifndef FUZZ_AREA_H
#define FUZZ_AREA_H

#include <stddef.h>

/* The end of an area of this size; NULL if there is no memory. */
unsigned char *end_of_area(size_t size);

#endif
