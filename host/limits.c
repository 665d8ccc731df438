#include "limits.h"

#include <string.h>

#define END(number, value) {PART_END, END_##number, FIXED, value}
#define BLIND(number, value) {PART_BLIND, BLIND_##number, FIXED, value}
#define RULE(number, rule) {PART_BLIND, BLIND_##number, rule, 0}

/* In the order of the numbers. The temperatures are the columns of Table 1, 126 the width from which b has its root, of the
   ring and of the rib, 20000 the diameter up to which R-2 keeps every report. */
const struct limit limits[] = {
    END(FORM, 1), END(FORM, 3),
    END(MATERIAL, 1), END(MATERIAL, 7), END(MATERIAL, 9), END(MATERIAL, 11),
    END(SHELL, 1), END(SHELL, 11),
    END(TEMPERATURE, 50), END(TEMPERATURE, 100), END(TEMPERATURE, 150), END(TEMPERATURE, 175), END(TEMPERATURE, 200),
    END(TEMPERATURE, 225), END(TEMPERATURE, 250), END(TEMPERATURE, 275), END(TEMPERATURE, 300),
    END(PRESSURE, 1), END(PRESSURE, 2000),
    END(DIAMETER, 500), END(DIAMETER, 20000), END(DIAMETER, 30000),
    END(ALLOWANCE, 1000),
    BLIND(MATERIAL, 1), BLIND(MATERIAL, 7), BLIND(MATERIAL, 9), BLIND(MATERIAL, 11),
    BLIND(TEMPERATURE, 50), BLIND(TEMPERATURE, 100), BLIND(TEMPERATURE, 150), BLIND(TEMPERATURE, 175),
    BLIND(TEMPERATURE, 200), BLIND(TEMPERATURE, 225), BLIND(TEMPERATURE, 250), BLIND(TEMPERATURE, 275),
    BLIND(TEMPERATURE, 300),
    BLIND(PRESSURE, 1), BLIND(PRESSURE, 2000),
    BLIND(ALLOWANCE, 1000),
    BLIND(OD, 500), BLIND(OD, 20000), BLIND(OD, 30000),
    BLIND(WIDTH, 100), BLIND(WIDTH, 126), BLIND(WIDTH, 500), RULE(WIDTH, WIDTH_AT_OD),
    BLIND(RIB, 1), BLIND(RIB, 40000), RULE(RIB, RIB_ALONE),
    BLIND(RIB_WIDTH, 1), BLIND(RIB_WIDTH, 126), BLIND(RIB_WIDTH, 500), RULE(RIB_WIDTH, RIB_WIDTH_ALONE),
    BLIND(M, 650), BLIND(Y, 1800),
    RULE(CIRCLE, CIRCLE_AT_OD), RULE(CIRCLE, CIRCLE_AT_G),
    BLIND(BOLT, 12), BLIND(BOLT, 76),
    BLIND(ROOT, 1), RULE(ROOT, ROOT_AT_BOLT), RULE(ROOT, ROOT_AT_OPERATING), RULE(ROOT, ROOT_AT_SEATING),
    RULE(ROOT, ROOT_IN_OPERATING_TENTHS), RULE(ROOT, ROOT_IN_SEATING_TENTHS),
    BLIND(COUNT, 4), BLIND(COUNT, 100),
    BLIND(SA, 1), BLIND(SA, 400), RULE(SA, SA_AT_SB),
    BLIND(SB, 1), BLIND(SB, 400),
};
const size_t limit_count = sizeof limits / sizeof limits[0];

/* What the other numbers are drawn from. */
static struct wish wish_for(struct rng *rng, const struct limit *limit, int step)
{
    struct wish wish = wish_nothing();
    uint32_t od;
    switch (limit->rule) {
    case FIXED:
        wish.numbers[limit->number] = (int64_t)limit->value + step;
        break;
    case WIDTH_AT_OD:
        od = rng_between(rng, 600, 2000); /* so that the width is 500 at most */
        wish.numbers[BLIND_OD] = od;
        wish.numbers[BLIND_WIDTH] = (int64_t)od / 4 + step;
        break;
    case RIB_ALONE:
        wish.numbers[BLIND_RIB] = 1 + step;
        wish.numbers[BLIND_RIB_WIDTH] = 0;
        break;
    case RIB_WIDTH_ALONE:
        wish.numbers[BLIND_RIB] = 0;
        wish.numbers[BLIND_RIB_WIDTH] = 1 + step;
        break;
    case SA_AT_SB:
        wish.numbers[BLIND_SB] = rng_between(rng, 1, 100); /* so that sa is 400 at most */
        break;
    case ROOT_AT_OPERATING:
        wish.numbers[BLIND_Y] = 0; /* no seating load */
        break;
    case ROOT_AT_SEATING:
        wish.numbers[BLIND_PRESSURE] = 1; /* hardly any operating load */
        break;
    case ROOT_IN_OPERATING_TENTHS:
        wish.numbers[BLIND_OD] = rng_between(rng, 540, 4000);
        wish.numbers[BLIND_PRESSURE] = rng_between(rng, 1, 50);
        wish.numbers[BLIND_Y] = 0;
        wish.numbers[BLIND_COUNT] = rng_between(rng, 4, 9);
        wish.numbers[BLIND_SB] = 1;
        break;
    case ROOT_IN_SEATING_TENTHS:
        wish.numbers[BLIND_OD] = rng_between(rng, 540, 4000);
        wish.numbers[BLIND_PRESSURE] = 1;
        wish.numbers[BLIND_Y] = rng_between(rng, 1, 6);
        wish.numbers[BLIND_COUNT] = rng_between(rng, 4, 9);
        wish.numbers[BLIND_SA] = 1;
        break;
    default:
        break;
    }
    return wish;
}

/* The value of a limit of which no other number was drawn. */
static u128 limit_value(enum limit_rule rule, const uint32_t *n)
{
    const struct paper_gasket gasket = paper_gasket(n);
    switch (rule) {
    case ROOT_AT_BOLT:
        return 785 * n[BLIND_BOLT] * n[BLIND_BOLT] / 100;
    case SA_AT_SB:
        return 4 * n[BLIND_SB];
    case CIRCLE_AT_OD:
        return n[BLIND_OD] + 10 * n[BLIND_BOLT];
    case CIRCLE_AT_G:
        return 3 * gasket.reaction_diameter / 2;
    case ROOT_AT_OPERATING:
    case ROOT_IN_OPERATING_TENTHS:
        return paper_least_quotient(n[BLIND_COUNT] * n[BLIND_SB], gasket.operating_load);
    default:
        return paper_least_quotient(n[BLIND_COUNT] * n[BLIND_SA], gasket.seating_load);
    }
}

void draw_limit(struct rng *rng, const struct limit *limit, int step, struct question *question)
{
    const struct wish wish = wish_for(rng, limit, step);
    draw_numbers(rng, limit->part, &wish, question);
    if (wish.numbers[limit->number] == FREE)
        question->numbers[limit->number] = (uint32_t)limit_value(limit->rule, question->numbers) + (uint32_t)step;
}

void draw_any_limit(struct rng *rng, struct question *question)
{
    const struct limit *limit = &limits[rng_below(rng, (uint32_t)limit_count)];
    draw_limit(rng, limit, (int)rng_below(rng, 3) - 1, question);
}

/* ---- The order of causes ---- */

static const uint32_t ill_numbers[PARTS][BLIND_NUMBERS] = {
    [PART_END] =
        {[END_FORM] = 9, [END_MATERIAL] = 0, [END_SHELL] = 12, [END_TEMPERATURE] = 301, [END_PRESSURE] = 0,
         [END_DIAMETER] = 499, [END_ALLOWANCE] = 1001},
    [PART_BLIND] =
        {[BLIND_MATERIAL] = 7, [BLIND_TEMPERATURE] = 301, [BLIND_PRESSURE] = 2001, [BLIND_ALLOWANCE] = 1001,
         [BLIND_OD] = 30001, [BLIND_WIDTH] = 501, [BLIND_RIB] = 40001, [BLIND_RIB_WIDTH] = 0, [BLIND_M] = 651,
         [BLIND_Y] = 1801, [BLIND_CIRCLE] = 0, [BLIND_BOLT] = 77, [BLIND_ROOT] = 0, [BLIND_COUNT] = 101,
         [BLIND_SA] = 0, [BLIND_SB] = 401},
};

struct mend {
    int number;
    uint32_t value;
};
static const struct mend end_mends[] = {
    {END_FORM, FORM_C}, {END_MATERIAL, 6}, {END_SHELL, 1}, {END_PRESSURE, 1000}, {END_TEMPERATURE, 225},
    {END_MATERIAL, 1}, {END_DIAMETER, 5000}, {END_ALLOWANCE, 100}};
static const struct mend blind_mends[] = {
    {BLIND_MATERIAL, 6}, {BLIND_PRESSURE, 1000}, {BLIND_TEMPERATURE, 225}, {BLIND_MATERIAL, 1}, {BLIND_OD, 5000},
    {BLIND_ALLOWANCE, 100}, {BLIND_WIDTH, 100}, {BLIND_RIB, 4900}, {BLIND_RIB_WIDTH, 501}, {BLIND_RIB_WIDTH, 100},
    {BLIND_M, 200}, {BLIND_Y, 110}, {BLIND_BOLT, 20}, {BLIND_ROOT, 1}, {BLIND_COUNT, 16}, {BLIND_SA, 100},
    {BLIND_SB, 100}, {BLIND_CIRCLE, 5600}, {BLIND_ROOT, 2250}};
static const struct mend *const mends[PARTS] = {[PART_END] = end_mends, [PART_BLIND] = blind_mends};
const size_t mend_counts[PARTS] = {[PART_END] = COUNT(end_mends), [PART_BLIND] = COUNT(blind_mends)};

void give_mended(enum part part, size_t mended, struct question *question)
{
    question->part = part;
    give_plates(question, NULL, 0);
    memcpy(question->numbers, ill_numbers[part], sizeof question->numbers);
    for (size_t i = 0; i < mended; i++)
        question->numbers[mends[part][i].number] = mends[part][i].value;
}

/* ---- Plates ---- */

#define LARGEST ((int64_t)UINT32_MAX)
#define GIVEN(thickness, minus) {{0, thickness}, {0, minus}}
/* What is left, thickness less minus, is the total and step. */
#define LEFT(step, minus) {{1, (minus) + (step)}, {0, minus}}
#define FLAT(step) LEFT(step, 0)
/* The largest thickness, of which that is left. */
#define LARGEST_LEFT(step) {{0, LARGEST}, {-1, LARGEST - (step)}}
/* Thickness is the total, minus the total and more. */
#define ABOVE(more) {{1, 0}, {1, more}}
/* Minus is 2^32 less the total, and more: where 32 bits wrap, the plate seems to serve. */
#define OVER_END(thickness, more) {{0, thickness}, {-1, LARGEST + 1 + (more)}}

/* First lists without minus. */
const struct plate_limit plate_limits[] = {
    {0, {FLAT(0)}}, {1, {FLAT(-1)}}, {1, {FLAT(0)}}, {1, {FLAT(1)}}, {1, {GIVEN(0, 0)}}, {1, {GIVEN(LARGEST, 0)}},
    {2, {FLAT(-1), FLAT(-2)}}, {2, {FLAT(0), FLAT(0)}}, {2, {FLAT(1), FLAT(0)}}, {2, {FLAT(0), FLAT(1)}},
    {3, {FLAT(-1), FLAT(0), FLAT(1)}}, {3, {FLAT(1), FLAT(0), FLAT(-1)}}, {3, {FLAT(2), FLAT(1), FLAT(2)}},
    {3, {FLAT(-1), FLAT(1), FLAT(-1)}}, {4, {GIVEN(LARGEST, 0), GIVEN(0, 0), FLAT(500), FLAT(300)}},
    {4, {GIVEN(0, 0), GIVEN(LARGEST, 0), FLAT(1), GIVEN(0, 0)}},
    {5, {FLAT(900), FLAT(700), FLAT(100), FLAT(800), FLAT(100)}},
    {5, {FLAT(100), FLAT(100), FLAT(100), FLAT(100), FLAT(100)}},
    {5, {FLAT(-5), FLAT(-4), FLAT(-3), FLAT(-2), FLAT(-1)}}, {5, {FLAT(-2), FLAT(-1), FLAT(0), FLAT(1), FLAT(2)}},
    {5, {FLAT(2), FLAT(1), FLAT(0), FLAT(-1), FLAT(-2)}},

    /* Below, at and above the total, and that it is the minus that counts. */
    {1, {LEFT(-1, 30)}}, {1, {LEFT(0, 30)}}, {1, {LEFT(1, 30)}}, {1, {LEFT(-1, 1)}}, {1, {LEFT(0, 1)}},
    {3, {LEFT(-1, 30), LEFT(0, 30), LEFT(1, 30)}}, {3, {LEFT(1, 30), LEFT(0, 30), LEFT(-1, 30)}},
    {3, {FLAT(-1), LEFT(0, 30), FLAT(2)}}, {2, {LEFT(-30, 30), LEFT(0, 30)}}, {2, {LEFT(0, 30), LEFT(-30, 30)}},

    /* The minus is below, at and above the thickness; 2^32 is near. */
    {1, {ABOVE(-1)}}, {1, {ABOVE(0)}}, {1, {ABOVE(1)}}, {4, {ABOVE(1), ABOVE(0), FLAT(0), ABOVE(-1)}},
    {1, {GIVEN(0, 1)}}, {1, {GIVEN(1, 1)}}, {1, {GIVEN(1, 2)}}, {1, {GIVEN(0, LARGEST)}}, {1, {GIVEN(1, LARGEST)}},
    {1, {GIVEN(LARGEST - 1, LARGEST)}}, {1, {GIVEN(LARGEST, LARGEST)}}, {1, {LARGEST_LEFT(0)}}, {1, {LARGEST_LEFT(-1)}},
    {1, {OVER_END(0, 0)}}, {1, {OVER_END(10, 0)}}, {1, {OVER_END(10, 5)}}, {2, {OVER_END(10, 5), LEFT(7, 30)}},

    /* Plates of one thickness, of which some serve. */
    {2, {LEFT(0, 50), LEFT(30, 20)}}, {2, {LEFT(30, 20), LEFT(0, 50)}}, {2, {LEFT(-1, 51), LEFT(0, 50)}},
    {2, {LEFT(0, 50), LEFT(-1, 51)}}, {2, {FLAT(50), LEFT(0, 50)}}, {2, {LEFT(0, 50), FLAT(50)}},
    {5, {LEFT(-1, 51), LEFT(30, 20), LEFT(0, 50), LEFT(-1, 51), FLAT(50)}},

    /* The smaller thickness is the one of which more is left; a minus of the total does not make a plate serve. */
    {2, {LEFT(0, 100), LEFT(60, 30)}}, {2, {LEFT(60, 30), LEFT(0, 100)}}, {1, {{{0, 1}, {1, 0}}}},
    {2, {FLAT(5), {{0, 1}, {1, 0}}}}, {3, {{{0, 1}, {1, 1}}, {{0, 1}, {1, 0}}, LEFT(5, 30)}},
};
const size_t plate_limit_count = sizeof plate_limits / sizeof plate_limits[0];

static uint32_t count_from(struct from_total number, uint32_t total)
{
    return (uint32_t)(number.times * (int64_t)total + number.more);
}

void give_plate_limit(const struct plate_limit *limit, struct question *question)
{
    const uint32_t total = question_total(question);
    give_plates(question, NULL, 0);
    question->plate_count = limit->count;
    for (size_t i = 0; i < limit->count; i++) {
        question->plates[i].thickness = count_from(limit->plates[i].thickness, total);
        question->plates[i].under_tolerance = count_from(limit->plates[i].under_tolerance, total);
    }
    question->colons = UINT64_C(0xAAAAAAAAAAAAAAAA);
}

/* It needs somewhat less than is left of the plate: 40 F T^2 = P d^2 has 4320 T^2 = 10^8 P. */
void give_stock_limit(size_t plate, int step, struct question *question)
{
    static const uint32_t end[END_NUMBERS] = {
        [END_FORM] = FORM_A, [END_MATERIAL] = 1, [END_SHELL] = 0, [END_TEMPERATURE] = 150, [END_DIAMETER] = 10000};
    const uint32_t left = (uint32_t)paper_least_thickness(paper_standard_plates[plate]);
    question->part = PART_END;
    memcpy(question->numbers, end, sizeof end);
    question->numbers[END_PRESSURE] = left * left / 100 * 4320 / 1000000 - 1;
    meet_standard_plate(step, question);
    give_standard_plates(question);
}
