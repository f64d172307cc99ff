/* IIM blocks: the DataSets of a form are in the order of their groups (FORMAT.md, section 6). */
#ifndef LIMITS_GROUPS_H
#define LIMITS_GROUPS_H
#include "limits.h"
#include "numbers.h"

/* The length of the block's form; 0 if the block is refused. */
uint64_t iim_form_length(const unsigned char *block, size_t size);

/* Writes the form of a block, and returns its length or why there is none. Up to 64 DataSets are inserted one by one. More are sorted
 * by counting: BY_OCTETS counts how many octets of the form each group has, and then writes each DataSet where it belongs; BY_OFFSETS
 * sorts the offsets of the DataSets, four bytes each, and then writes the form from its beginning. The first needs no memory for a
 * DataSet; which one is faster depends on the order and on the processor's caches. */
long put_iim_form(const unsigned char *block, size_t size, unsigned char *out, size_t space, enum way way);
#endif
