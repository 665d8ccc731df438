#include "bolts.h"
#include "known.h"
#include "limits.h"

#include <string.h>

struct paper_sizes question_sizes(const struct bolts_question *question)
{
    const struct paper_sizes sizes = {
        question->diameters, question->areas, question->diameter_count, question->area_count};
    return sizes;
}

size_t size_taken(const struct bolts_question *question, const uint64_t figures[PAPER_PLACES])
{
    size_t size = 0;
    while (question->diameters[size] != figures[BLIND_BOLT_PLACE] || question->areas[size] != figures[BLIND_ROOT_PLACE])
        size++;
    return size;
}

static void add_size(struct bolts_question *question, uint32_t bolt, uint32_t root)
{
    question->diameters[question->diameter_count++] = bolt;
    question->areas[question->area_count++] = root;
}

void give_size(uint32_t bolt, uint32_t root, struct bolts_question *question)
{
    question->diameter_count = 0;
    question->area_count = 0;
    add_size(question, bolt, root);
}

void give_ill_lists(size_t number, struct bolts_question *question)
{
    static const size_t counts[ILL_LISTS][2] = {
        {0, 0}, {1, 2}, {2, 1}, {PAPER_MOST_SIZES + 1, PAPER_MOST_SIZES + 1}};
    give_size(20, 2250, question);
    while (question->area_count <= PAPER_MOST_SIZES)
        add_size(question, 20, 2250);
    question->diameter_count = counts[number][0];
    question->area_count = counts[number][1];
}

/* ---- Known by hand ---- */

#define PRINTED 5000, 5600, 100
#define ONE(bolt, root) 0, 1, 1, {{bolt, root}}
#define TWO(bolt, root, bolt_2, root_2) 0, 2, 2, {{bolt, root}, {bolt_2, root_2}}
#define M16_M20_M24 0, 3, 3, {{16, 1440}, {20, 2250}, {24, 3240}}
#define M20S {{20, 2250}, {20, 2250}}
#define TAKEN(bolt, root, count) CAUSE_NONE, bolt, root, count
#define REFUSED(cause) cause, 0, 0, 0

/*
 * Wm1 is 2192505 and Wm2 846230: with an sb of 100 the bolts carry from an area of 21926 on, with 25 from 87701, with
 * 400 from 8463. With an od of 6500 Wm1 is 3617280 and that area 36173, with 7000 they are 4170705 and 41708. A bolt of
 * 60 is the largest for a circle of 5600, on which bolt times count may be 703. A G of 4900 allows a circle of 7350.
 */
const struct known_bolts known_bolts[] = {
    /* The order of sizes and counts. */
    {PRINTED, ONE(20, 2250), TAKEN(20, 2250, 12)},
    {PRINTED, M16_M20_M24, TAKEN(16, 1440, 16)},
    {PRINTED, TWO(24, 3240, 20, 2250), TAKEN(24, 3240, 8)},
    {PRINTED, TWO(20, 2250, 24, 3240), TAKEN(20, 2250, 12)},

    /* Lists. */
    {PRINTED, 0, 0, 0, M20S, REFUSED(CAUSE_NO_BOLTS)}, {PRINTED, 0, 1, 0, M20S, REFUSED(CAUSE_NO_BOLTS)},
    {PRINTED, 0, 0, 1, M20S, REFUSED(CAUSE_NO_BOLTS)}, {PRINTED, 0, 1, 2, M20S, REFUSED(CAUSE_NO_BOLTS)},
    {PRINTED, 0, 2, 1, M20S, REFUSED(CAUSE_NO_BOLTS)}, {PRINTED, 15, 1, 1, M20S, TAKEN(20, 2250, 12)},
    {PRINTED, 15, 2, 2, M20S, REFUSED(CAUSE_NO_BOLTS)}, {PRINTED, 15, 1, 2, M20S, REFUSED(CAUSE_NO_BOLTS)},
    {PRINTED, 15, 2, 1, M20S, REFUSED(CAUSE_NO_BOLTS)}, {PRINTED, 16, 0, 0, M20S, REFUSED(CAUSE_NO_BOLTS)},

    /* The least count that carries, and an area one less. */
    {PRINTED, ONE(27, 5482), TAKEN(27, 5482, 4)}, {PRINTED, ONE(27, 5481), TAKEN(27, 5481, 8)},
    {PRINTED, ONE(20, 1371), TAKEN(20, 1371, 16)}, {PRINTED, ONE(20, 1370), TAKEN(20, 1370, 20)},
    {5000, 5600, 400, ONE(20, 2116), TAKEN(20, 2116, 4)}, {5000, 5600, 400, ONE(20, 2115), TAKEN(20, 2115, 8)},

    /* The pitch: bolt times count may be 720 on a circle of 5733, and 1200 on one of 9555. */
    {5000, 5733, 100, ONE(20, 610), TAKEN(20, 610, 36)}, {5000, 5732, 100, ONE(20, 610), REFUSED(CAUSE_NO_BOLTS)},
    {5000, 5732, 100, TWO(20, 610, 20, 686), TAKEN(20, 686, 32)},
    {5000, 7262, 100, ONE(76, 1828), TAKEN(76, 1828, 12)}, {5000, 7261, 100, ONE(76, 1828), REFUSED(CAUSE_NO_BOLTS)},
    {6500, 9555, 100, 15, 1, 1, {{12, 362}}, TAKEN(12, 362, 100)},
    {6500, 9554, 100, 15, 1, 1, {{12, 362}}, REFUSED(CAUSE_NO_BOLTS)},
    {6500, 9555, 100, 15, 1, 1, {{12, 361}}, REFUSED(CAUSE_NO_BOLTS)},
    {6500, 9555, 100, TWO(12, 361, 12, 362), TAKEN(12, 362, 100)},

    /* No count above 100. */
    {7000, 10000, 100, ONE(12, 418), TAKEN(12, 418, 100)}, {7000, 10000, 100, ONE(12, 417), REFUSED(CAUSE_NO_BOLTS)},

    /* 10; 65556 and 68676 are 20 and 3140 in 16 bits, and 100 root in 32 bits is 4 for 42949673. */
    {PRINTED, TWO(11, 900, 20, 2250), TAKEN(20, 2250, 12)}, {PRINTED, TWO(0, 2250, 20, 2250), TAKEN(20, 2250, 12)},
    {5000, 6000, 100, TWO(77, 2741, 20, 2250), TAKEN(20, 2250, 12)},
    {PRINTED, TWO(65556, 3140, 20, 2250), TAKEN(20, 2250, 12)},
    {PRINTED, TWO(UINT32_MAX, 1, 20, 2250), TAKEN(20, 2250, 12)},
    {PRINTED, TWO(20, 0, 20, 2250), TAKEN(20, 2250, 12)}, {PRINTED, TWO(20, 3141, 20, 3140), TAKEN(20, 3140, 8)},
    {PRINTED, TWO(20, 68676, 20, 2250), TAKEN(20, 2250, 12)},
    {PRINTED, TWO(20, UINT32_MAX, 20, 2250), TAKEN(20, 2250, 12)},
    {PRINTED, TWO(20, 42949673, 20, 2250), TAKEN(20, 2250, 12)},
    {PRINTED, ONE(12, 1130), TAKEN(12, 1130, 20)}, {PRINTED, ONE(12, 1131), REFUSED(CAUSE_NO_BOLTS)},
    {5000, 6000, 100, ONE(76, 45341), TAKEN(76, 45341, 4)}, {5000, 6000, 100, ONE(76, 45342), REFUSED(CAUSE_NO_BOLTS)},

    /* 12. */
    {PRINTED, ONE(60, 2741), TAKEN(60, 2741, 8)}, {PRINTED, TWO(61, 2741, 20, 2250), TAKEN(20, 2250, 12)},
    {5000, 7350, 100, M16_M20_M24, TAKEN(16, 1440, 16)}, {5000, 7351, 100, M16_M20_M24, REFUSED(CAUSE_NO_BOLTS)},
    {5000, 0, 100, M16_M20_M24, REFUSED(CAUSE_NO_BOLTS)}, {5000, UINT32_MAX, 100, M16_M20_M24, REFUSED(CAUSE_NO_BOLTS)},

    /* 11 stands before 24. */
    {5000, 5600, 0, M16_M20_M24, REFUSED(CAUSE_BOLT_STRESS)},
    {5000, 5600, 0, 0, 0, 0, M20S, REFUSED(CAUSE_BOLT_STRESS)},
    {5000, 5600, 25, ONE(20, 3140), TAKEN(20, 3140, 28)}, {5000, 5600, 24, ONE(77, 3140), REFUSED(CAUSE_BOLT_STRESS)},
};
const size_t known_bolts_count = sizeof known_bolts / sizeof known_bolts[0];

/* The flange of the document. */
static void give_printed(struct question *flange)
{
    size_t i = 0;
    while (known_cases[i].part != PART_BLIND || known_cases[i].numbers[BLIND_WIDTH] != 100)
        i++;
    known_question(&known_cases[i], flange);
}

static void give_known_sizes(const struct known_bolts *known, struct bolts_question *question)
{
    question->diameter_count = 0;
    question->area_count = 0;
    for (size_t i = 0; i < known->small; i++)
        add_size(question, 12, 1);
    for (size_t i = 0; i < KNOWN_SIZES; i++)
        add_size(question, known->sizes[i][0], known->sizes[i][1]);
    question->diameter_count = known->small + known->diameter_count;
    question->area_count = known->small + known->area_count;
}

void known_bolts_question(const struct known_bolts *known, struct bolts_question *question)
{
    static const struct paper_plate plate = {20000, 30};
    give_printed(&question->flange);
    give_plates(&question->flange, &plate, 1);
    question->flange.numbers[BLIND_OD] = known->od;
    question->flange.numbers[BLIND_CIRCLE] = known->circle;
    question->flange.numbers[BLIND_SB] = known->sb;
    give_known_sizes(known, question);
}

/* ---- Drawing ---- */

/* ISO metric coarse threads: diameter, and area at the root of the thread. */
static const uint32_t threads[][2] = {
    {12, 762}, {16, 1440}, {20, 2250}, {24, 3240}, {27, 4270}, {30, 5190}, {33, 6470}, {36, 7590}, {39, 9130},
    {42, 10450}, {45, 12240}, {48, 13770}, {52, 16520}, {56, 19050}, {60, 22270}, {64, 25200}};

struct size {
    uint32_t bolt, root;
};

static uint32_t largest_root(uint32_t bolt)
{
    return 785 * bolt * bolt / 100;
}

/* How many bolts of a diameter have enough pitch, and of what diameter so many bolts have it. */
static uint32_t most_by_pitch(const uint32_t n[], uint32_t by)
{
    return (uint32_t)(314 * (uint64_t)n[BLIND_CIRCLE] / (2500 * (uint64_t)by));
}

/* The largest bolt that the circle has room for. */
static uint32_t largest_bolt(const uint32_t n[])
{
    const uint32_t space = n[BLIND_CIRCLE] > n[BLIND_OD] ? (n[BLIND_CIRCLE] - n[BLIND_OD]) / 10 : 0;
    return space < 76 ? space : 76;
}

/* The least root area of which so many carry. */
static uint32_t root_for(const uint32_t n[], uint32_t count)
{
    uint32_t bolted[BLIND_NUMBERS];
    memcpy(bolted, n, sizeof bolted);
    bolted[BLIND_COUNT] = count;
    return sufficient_root(bolted);
}

/* So many bolts of it carry and have enough pitch, and mostly no fewer carry. The last of some tries if none does. */
static struct size draw_fitting(struct rng *rng, const uint32_t n[])
{
    struct size size = {12, 1};
    for (int tries = 0; tries < 16; tries++) {
        const uint32_t count = PAPER_LEAST_BOLTS * rng_between(rng, 1, PAPER_BOLT_COUNTS);
        const uint32_t by_pitch = most_by_pitch(n, count), by_circle = largest_bolt(n);
        const uint32_t largest = by_pitch < by_circle ? by_pitch : by_circle;
        size.bolt = rng_between(rng, 12, largest);
        size.root = root_for(n, count);
        if (largest >= 12 && size.root > 0 && size.root <= largest_root(size.bolt))
            return size;
    }
    return size;
}

/* As many bolts as have enough pitch do not carry, by one tenth of an area. */
static struct size draw_weak(struct rng *rng, const uint32_t n[])
{
    struct size size = {rng_between(rng, 12, largest_bolt(n)), 0};
    uint32_t most = most_by_pitch(n, size.bolt);
    most = most < PAPER_MOST_BOLTS ? most - most % PAPER_LEAST_BOLTS : PAPER_MOST_BOLTS;
    size.root = most == 0 ? largest_root(size.bolt) : root_for(n, most);
    size.root -= size.root > 0;
    return size;
}

/* Refused by 10 or 12, mostly just so, whatever the count. */
static struct size draw_refused(struct rng *rng, const uint32_t n[])
{
    static const uint32_t bolts[] = {0, 11, 77, UINT32_MAX};
    static const uint32_t roots[] = {0, 42949673, UINT32_MAX};
    struct size size = draw_fitting(rng, n);
    switch (rng_below(rng, 4)) {
    case 0:
        size.bolt = bolts[rng_below(rng, COUNT(bolts))];
        break;
    case 1:
        size.root = roots[rng_below(rng, COUNT(roots))];
        break;
    case 2:
        size.root = largest_root(size.bolt) + 1;
        break;
    default:
        size.bolt = largest_bolt(n) + 1;
        size.root = largest_root(size.bolt);
    }
    return size;
}

static uint32_t draw_word(struct rng *rng)
{
    return (uint32_t)rng_of_length(rng, rng_below(rng, 33));
}

static struct size draw_size(struct rng *rng, const uint32_t n[])
{
    const uint32_t *thread = threads[rng_below(rng, COUNT(threads))];
    struct size size = {thread[0], thread[1]};
    switch (rng_below(rng, 6)) {
    case 0:
        return draw_fitting(rng, n);
    case 1:
        return draw_weak(rng, n);
    case 2:
        return draw_refused(rng, n);
    case 3:
        size.bolt = rng_one_in(rng, 2) ? draw_word(rng) : rng_between(rng, 12, 76);
        size.root = rng_one_in(rng, 2) ? draw_word(rng) : largest_root(size.bolt);
        return size;
    default:
        return size;
    }
}

void draw_sizes(struct rng *rng, size_t count, size_t taken, struct bolts_question *question)
{
    const uint32_t *n = question->flange.numbers;
    question->diameter_count = 0;
    question->area_count = 0;
    for (size_t i = 0; i < count; i++) {
        const struct size size = i == taken  ? draw_fitting(rng, n)
                                 : i > taken ? draw_size(rng, n)
                                             : (rng_one_in(rng, 2) ? draw_weak : draw_refused)(rng, n);
        add_size(question, size.bolt, size.root);
    }
}

void draw_plates_for_bolts(struct rng *rng, uint32_t least, uint32_t most, struct bolts_question *question)
{
    static const struct paper_plate largest = {UINT32_MAX, 0};
    const struct paper_sizes sizes = question_sizes(question);
    uint32_t *n = question->flange.numbers;
    uint64_t figures[PAPER_PLACES];
    if (paper_blind_flange_bolts(n, &sizes, &largest, 1, figures) != NULL) {
        n[BLIND_BOLT] = (uint32_t)figures[BLIND_BOLT_PLACE];
        n[BLIND_ROOT] = (uint32_t)figures[BLIND_ROOT_PLACE];
        n[BLIND_COUNT] = (uint32_t)figures[BLIND_COUNT_PLACE];
    }
    draw_plates(rng, least, most, &question->flange);
}

/* Mostly sound numbers. */
static void draw_flange(struct rng *rng, struct question *flange)
{
    const struct wish nothing = wish_nothing();
    do {
        if (rng_one_in(rng, 4))
            draw_any_limit(rng, flange);
        else
            draw_numbers(rng, PART_BLIND, &nothing, flange);
    } while (flange->part != PART_BLIND);
}

/* Mostly as many as a list may have. */
static size_t draw_size_count(struct rng *rng)
{
    if (rng_one_in(rng, 16))
        return rng_one_in(rng, 2) ? 0 : rng_between(rng, PAPER_MOST_SIZES + 1, SIZES_ROOM - 1);
    return rng_one_in(rng, 4) ? PAPER_MOST_SIZES : rng_between(rng, 1, PAPER_MOST_SIZES);
}

/* One more or less, or any number of root areas. */
static void draw_area_count(struct rng *rng, struct bolts_question *question)
{
    const size_t count = question->diameter_count;
    const size_t about = count == 0 || rng_one_in(rng, 2) ? count + 1 : count - 1;
    question->area_count = rng_one_in(rng, 2) ? about : rng_below(rng, SIZES_ROOM);
    for (size_t i = count; i < question->area_count; i++)
        question->areas[i] = threads[rng_below(rng, COUNT(threads))][1];
}

void draw_bolts_question(struct rng *rng, struct bolts_question *question)
{
    const size_t count = draw_size_count(rng);
    draw_flange(rng, &question->flange);
    draw_sizes(rng, count, rng_below(rng, (uint32_t)count + 1), question);
    if (rng_one_in(rng, 16))
        draw_area_count(rng, question);
    draw_plates_for_bolts(rng, 0, 6, question);
    if (rng_one_in(rng, 8))
        draw_wild_numbers(rng, UINT32_MAX, &question->flange);
}
