#include "numbers.h"

#include <string.h>

static const uint32_t column_temperatures[] = {50, 100, 150, 175, 200, 225, 250, 275, 300};
static const uint32_t plate_materials[] = {1, 2, 3, 4, 5, 6, 8, 10};

struct wish wish_nothing(void)
{
    struct wish wish;
    for (int i = 0; i < BLIND_NUMBERS; i++)
        wish.numbers[i] = FREE;
    return wish;
}

void question_figures(const struct question *question, uint64_t figures[PAPER_PLACES])
{
    paper_parts[question->part].work(question->numbers, question->plates, question->plate_count, figures);
}

uint32_t question_total(const struct question *question)
{
    uint64_t figures[PAPER_PLACES];
    paper_parts[question->part].work(question->numbers, NULL, 0, figures);
    return figures[PLACE_CAUSE] == CAUSE_PLATE ? (uint32_t)figures[PLACE_FIGURE] : 0;
}

void give_least_end(struct question *question)
{
    static const uint32_t end[END_NUMBERS] = {
        [END_FORM] = FORM_A, [END_MATERIAL] = 5, [END_SHELL] = 0, [END_TEMPERATURE] = 50, [END_PRESSURE] = 1,
        [END_DIAMETER] = 500, [END_ALLOWANCE] = 0};
    question->part = PART_END;
    memcpy(question->numbers, end, sizeof end);
}

void give_plates(struct question *question, const struct paper_plate *plates, size_t count)
{
    if (count > 0)
        memcpy(question->plates, plates, count * sizeof plates[0]);
    question->plate_count = count;
    question->standard = 0;
    question->colons = 0;
}

void give_standard_plates(struct question *question)
{
    give_plates(question, paper_standard_plates, PAPER_STANDARD_PLATES);
    question->standard = 1;
}

enum part draw_part(struct rng *rng)
{
    return rng_one_in(rng, 2) ? PART_END : PART_BLIND;
}

/* The wish if there is one, else low to high, the ends more often than the rest; low if high is below it. */
static uint32_t pick(struct rng *rng, int64_t wish, uint32_t low, uint32_t high)
{
    uint32_t drawn = rng_between(rng, low, high);
    if (wish != FREE)
        return (uint32_t)wish;
    if (rng_one_in(rng, 24))
        return low;
    return rng_one_in(rng, 24) && high > low ? high : drawn;
}

static uint32_t pick_material(struct rng *rng, int64_t wish)
{
    uint32_t drawn = plate_materials[rng_below(rng, COUNT(plate_materials))];
    return wish != FREE ? (uint32_t)wish : drawn;
}

/* Often the limit of a column or one above it. Copper has no stress above 200. */
static uint32_t pick_temperature(struct rng *rng, int64_t wish, int copper)
{
    const uint32_t most = copper ? 200 : 300;
    uint32_t drawn = rng_below(rng, 301);
    if (rng_one_in(rng, 2)) {
        drawn = column_temperatures[rng_below(rng, COUNT(column_temperatures))];
        drawn += rng_below(rng, 2);
    }
    if (wish != FREE)
        return (uint32_t)wish;
    return drawn < most ? drawn : most;
}

static int is_copper(uint32_t material)
{
    return material == 6 || material == 7;
}

static void draw_endplate(struct rng *rng, const int64_t *wish, uint32_t *n)
{
    n[END_FORM] = pick(rng, wish[END_FORM], FORM_A, FORM_D);
    n[END_MATERIAL] = pick_material(rng, wish[END_MATERIAL]);
    n[END_SHELL] = pick(rng, wish[END_SHELL], n[END_FORM] == FORM_A ? 0 : 1, n[END_FORM] == FORM_A ? 0 : 11);
    n[END_TEMPERATURE] =
        pick_temperature(rng, wish[END_TEMPERATURE], is_copper(n[END_MATERIAL]) || is_copper(n[END_SHELL]));
    n[END_PRESSURE] = pick(rng, wish[END_PRESSURE], 1, 2000);
    n[END_DIAMETER] = pick(rng, wish[END_DIAMETER], 500, 30000);
    n[END_ALLOWANCE] = pick(rng, wish[END_ALLOWANCE], 0, 1000);
}

/* The least root area whose bolts carry the load, all of them at this stress. */
static uint32_t carrying_root(u128 load, u128 count, u128 stress)
{
    return count * stress == 0 ? 1 : (uint32_t)paper_least_quotient(count * stress, load);
}

uint32_t sufficient_root(const uint32_t n[BLIND_NUMBERS])
{
    const struct paper_gasket gasket = paper_gasket(n);
    uint32_t operating = carrying_root(gasket.operating_load, n[BLIND_COUNT], n[BLIND_SB]);
    uint32_t seating = carrying_root(gasket.seating_load, n[BLIND_COUNT], n[BLIND_SA]);
    return operating > seating ? operating : seating;
}

static uint32_t largest_sa(uint32_t sb)
{
    return sb < 100 ? 4 * sb : 400;
}

/* Bolts that carry the loads, some just so and some just not. Where they cannot, mostly the strongest are taken. */
static void draw_bolts(struct rng *rng, const int64_t *wish, uint32_t *n)
{
    const uint32_t largest = 785 * n[BLIND_BOLT] * n[BLIND_BOLT] / 100;
    n[BLIND_COUNT] = pick(rng, wish[BLIND_COUNT], 4, 100);
    n[BLIND_SB] = pick(rng, wish[BLIND_SB], rng_one_in(rng, 4) ? 1 : 50, 400);
    n[BLIND_SA] = pick(rng, wish[BLIND_SA], 1, largest_sa(n[BLIND_SB]));
    uint32_t least = sufficient_root(n);
    if (least > largest && !rng_one_in(rng, 4)) {
        n[BLIND_COUNT] = pick(rng, wish[BLIND_COUNT], 100, 0);
        n[BLIND_SB] = pick(rng, wish[BLIND_SB], 400, 0);
        n[BLIND_SA] = pick(rng, wish[BLIND_SA], largest_sa(n[BLIND_SB]), 0);
        least = sufficient_root(n);
    }
    if (rng_one_in(rng, 8) && least > 0 && least <= largest)
        n[BLIND_ROOT] = pick(rng, wish[BLIND_ROOT], least - rng_below(rng, 2), 0);
    else
        n[BLIND_ROOT] = pick(rng, wish[BLIND_ROOT], least > largest ? largest : least > 0 ? least : 1, largest);
}

/* Half the flanges have no rib. A wish of one of its numbers tells of the other whether it is 0. */
static void draw_rib(struct rng *rng, const int64_t *wish, uint32_t *n)
{
    const int64_t wished = wish[BLIND_RIB] != FREE ? wish[BLIND_RIB] : wish[BLIND_RIB_WIDTH];
    const uint32_t ribbed = wished != FREE ? wished != 0 : rng_below(rng, 2);
    const uint32_t longest = rng_one_in(rng, 4) ? 40000 : n[BLIND_OD];
    n[BLIND_RIB] = pick(rng, wish[BLIND_RIB], ribbed, ribbed * longest);
    n[BLIND_RIB_WIDTH] = pick(rng, wish[BLIND_RIB_WIDTH], ribbed, ribbed * (rng_one_in(rng, 4) ? 126 : 500));
}

/* A bolt circle fits between od + 10 bolt and 3 G / 2 from an od of 540 on. */
static void draw_blind_flange(struct rng *rng, const int64_t *wish, uint32_t *n)
{
    n[BLIND_MATERIAL] = pick_material(rng, wish[BLIND_MATERIAL]);
    n[BLIND_TEMPERATURE] = pick_temperature(rng, wish[BLIND_TEMPERATURE], is_copper(n[BLIND_MATERIAL]));
    n[BLIND_PRESSURE] = pick(rng, wish[BLIND_PRESSURE], 1, 2000);
    n[BLIND_ALLOWANCE] = pick(rng, wish[BLIND_ALLOWANCE], 0, 1000);
    n[BLIND_OD] = pick(rng, wish[BLIND_OD], 540, rng_one_in(rng, 2) ? 4000 : 30000);
    n[BLIND_WIDTH] = pick(rng, wish[BLIND_WIDTH], 100, n[BLIND_OD] < 2000 ? n[BLIND_OD] / 4 : 500);
    draw_rib(rng, wish, n);
    n[BLIND_M] = pick(rng, wish[BLIND_M], 0, 650);
    n[BLIND_Y] = pick(rng, wish[BLIND_Y], 0, 1800);
    const uint32_t furthest = (uint32_t)(3 * paper_gasket(n).reaction_diameter / 2);
    const uint32_t space = furthest > n[BLIND_OD] ? (furthest - n[BLIND_OD]) / 10 : 0;
    n[BLIND_BOLT] = pick(rng, wish[BLIND_BOLT], 12, space < 76 ? space : 76);
    n[BLIND_CIRCLE] = pick(rng, wish[BLIND_CIRCLE], n[BLIND_OD] + 10 * n[BLIND_BOLT], furthest);
    draw_bolts(rng, wish, n);
}

static void (*const draws[PARTS])(struct rng *rng, const int64_t *wish, uint32_t *n) = {
    [PART_END] = draw_endplate,
    [PART_BLIND] = draw_blind_flange,
};

void draw_numbers(struct rng *rng, enum part part, const struct wish *wish, struct question *question)
{
    question->part = part;
    draws[part](rng, wish->numbers, question->numbers);
}

void draw_thin_flange(struct rng *rng, struct question *question)
{
    struct wish wish = wish_nothing();
    wish.numbers[BLIND_PRESSURE] = rng_between(rng, 1, rng_between(rng, 1, 60));
    wish.numbers[BLIND_OD] = rng_between(rng, 540, 2000);
    wish.numbers[BLIND_RIB] = 0;
    wish.numbers[BLIND_Y] = rng_below(rng, 4);
    wish.numbers[BLIND_SA] = rng_between(rng, 1, rng_between(rng, 1, 20));
    draw_numbers(rng, PART_BLIND, &wish, question);
    question->numbers[BLIND_ROOT] = sufficient_root(question->numbers) + rng_between(rng, 1, 20);
}

/* Mostly none or under a mm, else up to twice the total. */
static uint32_t draw_minus(struct rng *rng, uint32_t total)
{
    switch (rng_below(rng, 6)) {
    case 0:
        return rng_below(rng, 2 * total + 2);
    case 1:
        return rng_below(rng, 4);
    case 2:
    case 3:
        return rng_below(rng, 100);
    default:
        return 0;
    }
}

/* The minus with which this thickness is left about the total; 0 where it is too small for that. */
static uint32_t minus_to_total(struct rng *rng, uint32_t thickness, uint32_t total)
{
    return thickness > total ? thickness - total + rng_below(rng, 3) - 1 : 0;
}

static struct paper_plate draw_plate(struct rng *rng, uint32_t total, int tolerant, const struct question *question)
{
    struct paper_plate plate = {0, tolerant ? draw_minus(rng, total) : 0};
    const int other_minus = tolerant && rng_one_in(rng, 2);
    switch (rng_below(rng, 8)) {
    case 0:
        plate.thickness = rng_below(rng, 1000000);
        break;
    case 1:
        plate.thickness = rng_below(rng, 2 * total + 1);
        if (other_minus)
            plate.under_tolerance = plate.thickness + rng_below(rng, 3);
        break;
    case 2:
        plate.thickness = total;
        if (question->plate_count > 0)
            plate.thickness = question->plates[rng_below(rng, (uint32_t)question->plate_count)].thickness;
        if (other_minus)
            plate.under_tolerance = minus_to_total(rng, plate.thickness, total);
        break;
    default:
        plate.thickness = total + plate.under_tolerance + rng_below(rng, 5) - (total < 2 ? 0 : 2);
    }
    return plate;
}

void draw_plates(struct rng *rng, uint32_t least, uint32_t most, struct question *question)
{
    const uint32_t total = question_total(question), count = rng_between(rng, least, most);
    const int tolerant = !rng_one_in(rng, 3);
    give_plates(question, NULL, 0);
    for (uint32_t i = 0; i < count; i++) {
        question->plates[i] = draw_plate(rng, total, tolerant, question);
        question->plate_count = i + 1;
    }
    question->colons = rng_one_in(rng, 2) ? rng_bits(rng) : 0;
}

void meet_standard_plate(int step, struct question *question)
{
    uint32_t *allowance = &question->numbers[question->part == PART_END ? END_ALLOWANCE : BLIND_ALLOWANCE];
    const uint32_t total = question_total(question);
    if (total == 0)
        return;
    const int64_t without = (int64_t)total - *allowance;
    for (size_t i = 0; i < PAPER_STANDARD_PLATES; i++) {
        const int64_t more = paper_least_thickness(paper_standard_plates[i]) + step - without;
        if (more >= 0 && more <= 1000) {
            *allowance = (uint32_t)more;
            return;
        }
    }
}

void draw_standard_plates(struct rng *rng, struct question *question)
{
    const int to_thickness = rng_one_in(rng, 4) ? (int)paper_standard_plates[0].under_tolerance : 0;
    if (rng_one_in(rng, 2))
        meet_standard_plate((int)rng_below(rng, 3) - 1 + to_thickness, question);
    give_standard_plates(question);
}

static uint32_t draw_wild(struct rng *rng, uint32_t largest)
{
    uint32_t drawn;
    switch (rng_below(rng, 4)) {
    case 0:
        return 0;
    case 1:
        return largest - (uint32_t)rng_of_length(rng, rng_below(rng, 4));
    default:
        drawn = (uint32_t)rng_of_length(rng, rng_below(rng, 33));
        return drawn <= largest ? drawn : drawn % largest;
    }
}

void draw_wild_numbers(struct rng *rng, uint32_t largest, struct question *question)
{
    const size_t count = paper_parts[question->part].numbers;
    const uint32_t changes = 1 + rng_below(rng, 1 + rng_below(rng, (uint32_t)count));
    for (uint32_t i = 0; i < changes; i++) {
        uint32_t number = rng_below(rng, (uint32_t)count);
        if (rng_one_in(rng, 2))
            question->numbers[number] = draw_wild(rng, largest);
        else
            question->numbers[number] += rng_below(rng, 3) - 1;
    }
}
