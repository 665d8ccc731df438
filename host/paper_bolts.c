/* Document 02, R-10: a blind flange with bolts from a list. Each pair of a size and a count is judged by itself. */
#include "paper.h"

#include <string.h>

#define PAIRS (PAPER_MOST_SIZES * PAPER_BOLT_COUNTS)

int paper_pitch_enough(const uint32_t n[BLIND_NUMBERS])
{
    return 314 * (u128)n[BLIND_CIRCLE] >= 2500 * (u128)n[BLIND_BOLT] * n[BLIND_COUNT];
}

int paper_sizes_sound(const struct paper_sizes *sizes)
{
    return sizes->diameter_count == sizes->area_count && sizes->area_count >= 1 &&
           sizes->area_count <= PAPER_MOST_SIZES;
}

static void give_bolts(uint32_t n[BLIND_NUMBERS], uint32_t bolt, uint32_t root, uint32_t count)
{
    n[BLIND_BOLT] = bolt;
    n[BLIND_ROOT] = root;
    n[BLIND_COUNT] = count;
}

/* The flange with the pair of this number, in the order in which they are tried. */
static void give_pair(uint32_t n[BLIND_NUMBERS], const struct paper_sizes *sizes, size_t pair)
{
    const size_t size = pair / PAPER_BOLT_COUNTS, step = pair % PAPER_BOLT_COUNTS;
    give_bolts(n, sizes->diameters[size], sizes->areas[size], (uint32_t)(PAPER_LEAST_BOLTS * (step + 1)));
}

/* The first cause with one plate that serves every total. */
static uint64_t cause_before_plates(const uint32_t n[BLIND_NUMBERS])
{
    static const struct paper_plate largest = {UINT32_MAX, 0};
    uint64_t figures[PAPER_PLACES];
    paper_blind_flange(n, &largest, 1, figures);
    return figures[PLACE_CAUSE];
}

/* The cause before 24. It is asked with sound bolts, so that 10 does not stand before 11; 12 and 13 are of each
   pair. */
static uint64_t cause_of_the_rest(const uint32_t n[BLIND_NUMBERS])
{
    uint32_t sound[BLIND_NUMBERS];
    memcpy(sound, n, sizeof sound);
    give_bolts(sound, 12, 1, PAPER_LEAST_BOLTS);
    const uint64_t cause = cause_before_plates(sound);
    return cause == CAUSE_CIRCLE || cause == CAUSE_OVERLOAD ? CAUSE_NONE : cause;
}

/* Of a flange without a cause in its other numbers: pairs with enough pitch and none of 10, 12 and 13. */
static void judge_pairs(const uint32_t n[BLIND_NUMBERS], const struct paper_sizes *sizes, uint8_t fit[PAIRS])
{
    uint32_t tried[BLIND_NUMBERS];
    memset(fit, 0, PAIRS);
    memcpy(tried, n, sizeof tried);
    for (size_t pair = 0; pair < PAPER_BOLT_COUNTS * sizes->area_count; pair++) {
        give_pair(tried, sizes, pair);
        fit[pair] = paper_pitch_enough(tried) && cause_before_plates(tried) == CAUSE_NONE;
    }
}

/* Chooses the bolts. Returns the first cause before 14. */
static uint64_t choose_bolts(uint32_t n[BLIND_NUMBERS], const struct paper_sizes *sizes)
{
    uint8_t fit[PAIRS];
    const uint64_t cause = cause_of_the_rest(n);
    if (cause != CAUSE_NONE)
        return cause;
    if (!paper_sizes_sound(sizes))
        return CAUSE_NO_BOLTS;
    judge_pairs(n, sizes, fit);
    const uint8_t *first = memchr(fit, 1, PAIRS);
    if (first == NULL)
        return CAUSE_NO_BOLTS;
    give_pair(n, sizes, (size_t)(first - fit));
    return CAUSE_NONE;
}

const struct paper_plate *paper_blind_flange_bolts(
    const uint32_t n[BLIND_NUMBERS], const struct paper_sizes *sizes, const struct paper_plate *plates, size_t count,
    uint64_t figures[PAPER_PLACES])
{
    uint32_t bolted[BLIND_NUMBERS];
    memcpy(bolted, n, sizeof bolted);
    const uint64_t cause = choose_bolts(bolted, sizes);
    memset(figures, 0, PAPER_PLACES * sizeof figures[0]);
    figures[PLACE_CAUSE] = cause;
    if (cause != CAUSE_NONE)
        return NULL;
    const struct paper_plate *plate = paper_blind_flange(bolted, plates, count, figures);
    if (plate == NULL)
        return NULL;
    figures[BLIND_BOLT_PLACE] = bolted[BLIND_BOLT];
    figures[BLIND_ROOT_PLACE] = bolted[BLIND_ROOT];
    figures[BLIND_COUNT_PLACE] = bolted[BLIND_COUNT];
    return plate;
}
