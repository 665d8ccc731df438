#include "supports.h"

const struct support_tube_row support_tube_rows[SUPPORT_TUBE_ROWS] = {
    {6, {650, 550}}, {10, {875, 750}}, {12, {1100, 950}}, {16, {1300, 1125}}, {19, {1500, 1300}},
    {22, {1675, 1450}}, {25, {1850, 1600}}, {32, {2200, 1900}}, {38, {2500, 2200}}, {50, {3000, 2750}}};

const uint32_t support_span_columns[SUPPORT_SPAN_COLUMNS] = {600, 900, 1200, 1500, 3000};
const uint32_t support_plate_rows[SUPPORT_PLATE_ROWS] = {350, 700, 1000};

/* ---- Known by hand ---- */

#define ANSWERED(longest_span, thickness) {0, 0, longest_span, thickness}
#define REFUSED(cause) {cause, 0, 0, 0}

/* Tube, group, span and plate. 256, 257, 65536 and the like would be answered otherwise if they were cut to 8, 16 or 31
   bits. */
const struct known_support known_supports[] = {
    /* Table 13, at each diameter with the span allowed. */
    {{6, 1, 650, 350}, ANSWERED(650, 5)}, {{6, 2, 550, 350}, ANSWERED(550, 3)},
    {{10, 1, 875, 700}, ANSWERED(875, 6)}, {{10, 2, 750, 700}, ANSWERED(750, 6)},
    {{12, 1, 1100, 1000}, ANSWERED(1100, 10)}, {{12, 2, 950, 1000}, ANSWERED(950, 10)},
    {{16, 1, 1300, 350}, ANSWERED(1300, 10)}, {{16, 2, 1125, 350}, ANSWERED(1125, 6)},
    {{19, 1, 1500, 700}, ANSWERED(1500, 10)}, {{19, 2, 1300, 700}, ANSWERED(1300, 10)},
    {{22, 1, 1675, 1000}, ANSWERED(1675, 16)}, {{22, 2, 1450, 1000}, ANSWERED(1450, 13)},
    {{25, 1, 1850, 350}, ANSWERED(1850, 10)}, {{25, 2, 1600, 350}, ANSWERED(1600, 10)},
    {{32, 1, 2200, 700}, ANSWERED(2200, 13)}, {{32, 2, 1900, 700}, ANSWERED(1900, 13)},
    {{38, 1, 2500, 1000}, ANSWERED(2500, 16)}, {{38, 2, 2200, 1000}, ANSWERED(2200, 16)},
    {{50, 1, 3000, 349}, ANSWERED(3000, 10)}, {{50, 2, 2750, 349}, ANSWERED(2750, 10)},

    /* A span over it. */
    {{6, 1, 651, 350}, REFUSED(19)}, {{6, 2, 551, 350}, REFUSED(19)}, {{19, 2, 1301, 350}, REFUSED(19)},
    {{50, 1, 3001, 350}, REFUSED(19)}, {{50, 1, 65536, 350}, REFUSED(19)}, {{50, 1, 2147483648, 350}, REFUSED(19)},
    {{50, 1, 4294967295, 350}, REFUSED(19)},

    /* Tubes below the first row, a mm below each other row, and past the last. */
    {{0, 1, 0, 0}, REFUSED(18)}, {{5, 1, 0, 0}, REFUSED(18)}, {{5, 2, 0, 0}, REFUSED(18)},
    {{9, 1, 650, 350}, ANSWERED(650, 5)}, {{11, 2, 750, 350}, ANSWERED(750, 5)},
    {{15, 1, 1100, 350}, ANSWERED(1100, 6)}, {{18, 2, 1125, 350}, ANSWERED(1125, 6)},
    {{21, 1, 1500, 350}, ANSWERED(1500, 10)}, {{24, 2, 1450, 350}, ANSWERED(1450, 10)},
    {{31, 1, 1850, 350}, ANSWERED(1850, 10)}, {{37, 2, 1900, 350}, ANSWERED(1900, 10)},
    {{49, 1, 2500, 350}, ANSWERED(2500, 10)}, {{49, 2, 2201, 350}, REFUSED(19)},
    {{63, 1, 3000, 350}, ANSWERED(3000, 10)}, {{63, 2, 2750, 1000}, ANSWERED(2750, 16)},
    {{256, 1, 600, 350}, ANSWERED(3000, 3)}, {{65536, 2, 600, 350}, ANSWERED(2750, 3)},
    {{2147483648, 1, 600, 350}, ANSWERED(3000, 3)}, {{4294967295, 2, 2750, 1000}, ANSWERED(2750, 16)},

    /* Groups that are neither. */
    {{25, 0, 0, 0}, REFUSED(18)}, {{25, 3, 0, 0}, REFUSED(18)}, {{25, 257, 0, 0}, REFUSED(18)},
    {{25, 65538, 0, 0}, REFUSED(18)}, {{25, 2147483649, 0, 0}, REFUSED(18)},
    {{25, 4294967295, 0, 0}, REFUSED(18)},

    /* Table 14, row by row. */
    {{50, 1, 600, 350}, ANSWERED(3000, 3)}, {{50, 1, 900, 350}, ANSWERED(3000, 5)},
    {{50, 1, 1200, 350}, ANSWERED(3000, 6)}, {{50, 1, 1500, 350}, ANSWERED(3000, 10)},
    {{50, 1, 3000, 350}, ANSWERED(3000, 10)},
    {{50, 1, 600, 700}, ANSWERED(3000, 5)}, {{50, 1, 900, 700}, ANSWERED(3000, 6)},
    {{50, 1, 1200, 700}, ANSWERED(3000, 10)}, {{50, 1, 1500, 700}, ANSWERED(3000, 10)},
    {{50, 1, 3000, 700}, ANSWERED(3000, 13)},
    {{50, 1, 600, 1000}, ANSWERED(3000, 6)}, {{50, 1, 900, 1000}, ANSWERED(3000, 8)},
    {{50, 1, 1200, 1000}, ANSWERED(3000, 10)}, {{50, 1, 1500, 1000}, ANSWERED(3000, 13)},
    {{50, 1, 3000, 1000}, ANSWERED(3000, 16)},

    /* A mm past a column or a row, and zero. */
    {{50, 1, 601, 350}, ANSWERED(3000, 5)}, {{50, 1, 901, 350}, ANSWERED(3000, 6)},
    {{50, 1, 1201, 350}, ANSWERED(3000, 10)}, {{50, 1, 1501, 700}, ANSWERED(3000, 13)},
    {{50, 1, 600, 351}, ANSWERED(3000, 5)}, {{50, 1, 600, 701}, ANSWERED(3000, 6)},
    {{50, 1, 0, 0}, ANSWERED(3000, 3)}, {{50, 1, 0, 1000}, ANSWERED(3000, 6)}, {{50, 1, 3000, 0}, ANSWERED(3000, 10)},

    /* Plates past the last row. */
    {{50, 1, 600, 1001}, REFUSED(20)}, {{50, 1, 600, 65536}, REFUSED(20)}, {{50, 1, 600, 2147483648}, REFUSED(20)},
    {{50, 1, 600, 4294967295}, REFUSED(20)},

    /* 18 before 19 and 20, 19 before 20. */
    {{5, 1, 3001, 350}, REFUSED(18)}, {{25, 3, 1851, 350}, REFUSED(18)}, {{5, 1, 0, 1001}, REFUSED(18)},
    {{25, 0, 600, 1001}, REFUSED(18)}, {{25, 1, 1851, 1001}, REFUSED(19)}, {{50, 2, 2751, 1001}, REFUSED(19)},
    {{5, 1, 3001, 1001}, REFUSED(18)}, {{25, 3, 3001, 1001}, REFUSED(18)}, {{0, 0, 0, 0}, REFUSED(18)},
    {{4294967295, 4294967295, 4294967295, 4294967295}, REFUSED(18)},
};
const size_t known_support_count = sizeof known_supports / sizeof known_supports[0];
