/* The archive's numeric calls: by part, and those that are of no part or choose its bolts. */
#ifndef ARCHIVE_H
#define ARCHIVE_H

#include "paper.h"

struct archive_call {
    const char *name;
    uint64_t (*figure)(const uint32_t n[], const uint8_t *plates, size_t plates_length, uint32_t place);
    const char *standard_name;
    uint64_t (*standard)(const uint32_t n[], uint32_t place); /* from the usual stock */
};
extern const struct archive_call archive_calls[PARTS]; /* nothing for PART_NONE */

struct byte_list {
    const uint8_t *bytes;
    size_t length;
};
enum { LIST_DIAMETERS, LIST_AREAS, LIST_PLATES, BOLT_LISTS };

/* The call that chooses the bolts; those of n are not given to it. */
uint64_t archive_bolts(const uint32_t n[], const struct byte_list lists[BOLT_LISTS], uint32_t place);

/* The look-up of baffles and support plates. */
uint64_t archive_support_plate(const uint32_t n[SUPPORT_NUMBERS], uint32_t place);

/* Numbers as the calls take them: PAPER_NUMBER_BYTES each. bytes may be null where count is 0. */
void pack_numbers(const uint32_t *numbers, size_t count, uint8_t *bytes);

/* Plates as the calls take them: PAPER_PLATE_BYTES each; likewise. */
void pack_plates(const struct paper_plate *plates, size_t count, uint8_t *bytes);

#endif
