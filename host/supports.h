/* Support plates: the limits of Tables 13 and 14 of document 004, mm, and what is known of them by hand. */
#ifndef SUPPORTS_H
#define SUPPORTS_H

#include "paper.h"

#define SUPPORT_TUBE_ROWS 10   /* of Table 13 */
#define SUPPORT_GROUPS 2       /* its columns */
#define SUPPORT_SPAN_COLUMNS 5 /* of Table 14 */
#define SUPPORT_PLATE_ROWS 3   /* its rows */

struct support_tube_row {
    uint32_t tube;                    /* the least outside diameter */
    uint32_t longest[SUPPORT_GROUPS]; /* span allowed: steel, copper */
};
extern const struct support_tube_row support_tube_rows[SUPPORT_TUBE_ROWS];

/* The greatest span of a column, the greatest diameter of a plate of a row. */
extern const uint32_t support_span_columns[SUPPORT_SPAN_COLUMNS];
extern const uint32_t support_plate_rows[SUPPORT_PLATE_ROWS];

/* What is asked, and every figure by place; those at other places are 0. */
struct known_support {
    uint32_t n[SUPPORT_NUMBERS];
    uint64_t figures[SUPPORT_THICKNESS_PLACE + 1];
};
extern const struct known_support known_supports[];
extern const size_t known_support_count;

#endif
