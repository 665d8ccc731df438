/*
 * Document 004, clauses 10.6.4 and 10.6.5.1, as document 02 asks in R-6: baffles and support plates, in whole mm. The
 * columns of both tables, each read from its largest tube, span or plate down.
 */
#include "paper.h"

#include <string.h>

/* ---- The longest span (Table 13); 0 for a tube below the first row ---- */

/* Carbon steel, steel alloys, stainless steel. */
static uint64_t steel_span(uint32_t tube)
{
    return tube >= 50   ? 3000
           : tube >= 38 ? 2500
           : tube >= 32 ? 2200
           : tube >= 25 ? 1850
           : tube >= 22 ? 1675
           : tube >= 19 ? 1500
           : tube >= 16 ? 1300
           : tube >= 12 ? 1100
           : tube >= 10 ? 875
           : tube >= 6  ? 650
                        : 0;
}

/* Copper and copper alloys. */
static uint64_t copper_span(uint32_t tube)
{
    return tube >= 50   ? 2750
           : tube >= 38 ? 2200
           : tube >= 32 ? 1900
           : tube >= 25 ? 1600
           : tube >= 22 ? 1450
           : tube >= 19 ? 1300
           : tube >= 16 ? 1125
           : tube >= 12 ? 950
           : tube >= 10 ? 750
           : tube >= 6  ? 550
                        : 0;
}

/* 0 for another group too. */
static uint64_t longest_span(const uint32_t n[SUPPORT_NUMBERS])
{
    switch (n[SUPPORT_GROUP]) {
    case GROUP_STEEL:
        return steel_span(n[SUPPORT_TUBE]);
    case GROUP_COPPER:
        return copper_span(n[SUPPORT_TUBE]);
    default:
        return 0;
    }
}

/* ---- The least thickness (Table 14), of numbers that meet no cause ---- */

/* Of a plate of more than 700, of more than 350, and of another. */
static uint64_t in_column(uint32_t plate, uint64_t to_1000, uint64_t to_700, uint64_t to_350)
{
    return plate > 700 ? to_1000 : plate > 350 ? to_700 : to_350;
}

static uint64_t least_thickness(uint32_t span, uint32_t plate)
{
    if (span > 1500)
        return in_column(plate, 16, 13, 10);
    if (span > 1200)
        return in_column(plate, 13, 10, 10);
    if (span > 900)
        return in_column(plate, 10, 10, 6);
    if (span > 600)
        return in_column(plate, 8, 6, 5);
    return in_column(plate, 6, 5, 3);
}

/* ---- Causes 18 to 20, and the figures ---- */

static uint64_t support_cause(const uint32_t n[SUPPORT_NUMBERS])
{
    const uint64_t longest = longest_span(n);
    if (longest == 0)
        return CAUSE_TUBE;
    if (n[SUPPORT_SPAN] > longest)
        return CAUSE_SPAN;
    return n[SUPPORT_PLATE] > 1000 ? CAUSE_SUPPORT_PLATE : CAUSE_NONE;
}

void paper_support_plate(const uint32_t n[SUPPORT_NUMBERS], uint64_t figures[PAPER_PLACES])
{
    memset(figures, 0, PAPER_PLACES * sizeof figures[0]);
    figures[PLACE_CAUSE] = support_cause(n);
    if (figures[PLACE_CAUSE] != CAUSE_NONE)
        return;
    figures[SUPPORT_LONGEST_SPAN_PLACE] = longest_span(n);
    figures[SUPPORT_THICKNESS_PLACE] = least_thickness(n[SUPPORT_SPAN], n[SUPPORT_PLATE]);
}
