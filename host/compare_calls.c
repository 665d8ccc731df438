/* Numeric calls. */
#include "compare.h"
#include "limits.h"
#include "scantling.h"

#include <inttypes.h>
#include <stdio.h>
#include <stdlib.h>
#include <string.h>

/* What one question is asked with, and the separate program's answer. */
struct asking {
    const struct question *question;
    uint8_t *plates; /* a block of exactly this length, so that a memory checker sees what is read past it */
    size_t plates_length;
    uint64_t figures[PAPER_PLACES];
};

static void print_question(const struct asking *asking)
{
    const struct question *question = asking->question;
    const struct paper_part *part = &paper_parts[question->part];
    const struct archive_call *call = &archive_calls[question->part];
    printf("%s:", question->standard ? call->standard_name : call->name);
    for (size_t i = 0; i < part->numbers; i++)
        printf(" %s=%" PRIu32, part->keys[i], question->numbers[i]);
    if (question->standard)
        return;
    printf(" plates=");
    for (size_t i = 0; i < question->plate_count; i++)
        printf("%s%" PRIu32 ":%" PRIu32, i == 0 ? "" : ",", question->plates[i].thickness, question->plates[i].under_tolerance);
    printf(" and %u bytes over", (unsigned)(asking->plates_length % PAPER_PLATE_BYTES));
}

static void compare_place(struct compare *compare, const struct asking *asking, uint32_t place)
{
    const struct question *question = asking->question;
    const struct archive_call *call = &archive_calls[question->part];
    uint64_t archive = question->standard
                           ? call->standard(question->numbers, place)
                           : call->figure(question->numbers, asking->plates, asking->plates_length, place);
    uint64_t separate = place < PAPER_PLACES ? asking->figures[place] : 0;
    compare->calls++;
    if (archive == separate)
        return;
    printf("difference: ");
    print_question(asking);
    printf(" place=%" PRIu32 ": archive %" PRIu64 ", separate program %" PRIu64 "\n", place, archive, separate);
    exit(1);
}

static int is_thin(uint64_t thickness)
{
    return thickness >= 50 && thickness < 400;
}

/* A load in tenths, rounded up to the newton. */
static uint64_t to_newton(uint64_t load)
{
    return (load + 9) / 10 * 10;
}

void count_accuracy(
    struct accuracy_counts *counts, enum part part, const uint32_t *numbers, const uint64_t *figures)
{
    counts->checks++;
    if (part != PART_BLIND)
        return;
    const uint64_t area = (uint64_t)numbers[BLIND_COUNT] * numbers[BLIND_ROOT];
    counts->thin += is_thin(figures[BLIND_THICKNESS_PLACE]) || is_thin(figures[BLIND_EDGE_THICKNESS_PLACE]);
    counts->fraction += area * numbers[BLIND_SB] < to_newton(figures[BLIND_OPERATING_LOAD_PLACE]) ||
                        area * numbers[BLIND_SA] < to_newton(figures[BLIND_SEATING_LOAD_PLACE]);
}

void count_plates(
    struct plate_counts *counts, const struct paper_plate *plates, size_t count, uint64_t total,
    const struct paper_plate *chosen)
{
    int too_thin = 0, minus_above = 0, after = 0, before = 0;
    for (const struct paper_plate *plate = plates; plate < plates + count; plate++) {
        const int serves = paper_serves(*plate, total), equal = plate->thickness == chosen->thickness;
        too_thin |= !serves && plate->thickness >= total && plate->thickness < chosen->thickness;
        minus_above |= plate->under_tolerance > plate->thickness;
        after |= plate > chosen && equal && serves && plate->under_tolerance != chosen->under_tolerance;
        before |= plate < chosen && equal;
    }
    counts->with_minus += chosen->under_tolerance > 0;
    counts->just += chosen->under_tolerance > 0 && paper_least_thickness(*chosen) == (int64_t)total;
    counts->too_thin += (uint64_t)too_thin;
    counts->minus_above += (uint64_t)minus_above;
    counts->first_of_equals += (uint64_t)after;
    counts->after_equal += (uint64_t)before;
}

/* The figures judged are the archive's: their places were compared. */
static void judge_question(struct compare *compare, const struct asking *asking)
{
    const struct question *question = asking->question;
    const struct paper_part *part = &paper_parts[question->part];
    if (asking->figures[PLACE_CAUSE] != CAUSE_NONE)
        return;
    count_accuracy(&compare->accuracy, question->part, question->numbers, asking->figures);
    compare->question_accepted[question->part]++;
    if (part->exact(question->numbers, asking->figures))
        return;
    printf("not exact: ");
    print_question(asking);
    printf(":");
    for (uint32_t place = PLACE_REPORT; place <= part->last_place; place++)
        printf(" %s=%" PRIu64, part->report_keys[place], asking->figures[place]);
    printf("\n");
    exit(1);
}

/* Bytes past the last plate: mostly the front of one as thick as is left of a plate in the list, else any. */
static void write_over(struct compare *compare, const struct question *question, uint8_t *bytes, size_t over)
{
    uint8_t whole[PAPER_PLATE_BYTES];
    rng_fill(&compare->rng, whole, sizeof whole);
    if (question->plate_count > 0 && !rng_one_in(&compare->rng, 4)) {
        const uint32_t like = rng_below(&compare->rng, (uint32_t)question->plate_count);
        const struct paper_plate plate = {(uint32_t)paper_least_thickness(question->plates[like]), 0};
        pack_plates(&plate, 1, whole);
    }
    memcpy(bytes, whole, over);
}

/* The plates in bytes, and up to 7 bytes over. A list of no bytes is a null pointer half the time. */
static void write_plates(struct compare *compare, struct asking *asking)
{
    const struct question *question = asking->question;
    const size_t length = PAPER_PLATE_BYTES * question->plate_count;
    const size_t over = rng_one_in(&compare->rng, 2) ? rng_below(&compare->rng, PAPER_PLATE_BYTES) : 0;
    asking->plates_length = length + over;
    asking->plates = NULL;
    if (asking->plates_length == 0 && rng_one_in(&compare->rng, 2))
        return;
    asking->plates = malloc(asking->plates_length + (asking->plates_length == 0));
    if (asking->plates == NULL)
        exit(2);
    pack_plates(question->plates, question->plate_count, asking->plates);
    write_over(compare, question, asking->plates + length, over);
}

static void compare_all_places(struct compare *compare, const struct asking *asking)
{
    for (uint32_t place = 0; place < PAPER_PLACES; place++)
        compare_place(compare, asking, place);
    compare_place(compare, asking, (uint32_t)rng_bits(&compare->rng));
    compare_place(compare, asking, rng_one_in(&compare->rng, 2) ? UINT32_MAX : 1u << rng_below(&compare->rng, 32));
}

static void compare_some_places(struct compare *compare, const struct asking *asking)
{
    compare_place(compare, asking, PLACE_CAUSE);
    compare_place(compare, asking, PLACE_FIGURE);
    compare_place(compare, asking, paper_parts[asking->question->part].thickness_place);
    compare_place(compare, asking, paper_parts[asking->question->part].edge_thickness_place);
    compare_place(compare, asking, rng_below(&compare->rng, PAPER_PLACES));
}

static void count_question(struct compare *compare, const struct asking *asking)
{
    const uint64_t cause = asking->figures[PLACE_CAUSE];
    compare->question_causes[cause]++;
    compare->standard += (uint64_t)asking->question->standard;
    compare->question_plates.standard += asking->question->standard && cause == CAUSE_NONE;
    if (!asking->question->standard)
        compare->over[asking->plates_length % PAPER_PLATE_BYTES]++;
}

/* The paper's plates are read from the bytes, as the archive's are; the call without a list is not given them. */
void compare_question(struct compare *compare, const struct question *question)
{
    static struct paper_plate plates[PLATES_ROOM];
    const struct paper_part *part = &paper_parts[question->part];
    struct asking asking;
    asking.question = question;
    write_plates(compare, &asking);
    size_t count = paper_plates(asking.plates, asking.plates_length, plates, PLATES_ROOM);
    const struct paper_plate *chosen = part->work(question->numbers, plates, count, asking.figures);
    count_question(compare, &asking);
    if (chosen != NULL)
        count_plates(&compare->question_plates, plates, count, asking.figures[part->total_place], chosen);
    if (rng_one_in(&compare->rng, 4))
        compare_all_places(compare, &asking);
    else
        compare_some_places(compare, &asking);
    judge_question(compare, &asking);
    free(asking.plates);
}

/* Anywhere up to 2^32 - 1, often near it. */
static uint32_t spread_number(struct rng *rng)
{
    const uint32_t below_end = rng_below(rng, 100000);
    return rng_one_in(rng, 4) ? UINT32_MAX - below_end : (uint32_t)rng_of_length(rng, rng_below(rng, 33));
}

/* Some plates and some of their minus, so spread. */
static void spread_plates(struct rng *rng, struct question *question)
{
    for (size_t i = 0; i < question->plate_count; i++) {
        if (rng_one_in(rng, 3))
            question->plates[i].thickness = spread_number(rng);
        if (rng_one_in(rng, 3))
            question->plates[i].under_tolerance = spread_number(rng);
    }
}

void compare_drawn_question(struct compare *compare)
{
    static struct question question;
    struct rng *rng = &compare->rng;
    const struct wish nothing = wish_nothing();
    const uint32_t most = rng_one_in(rng, 400) ? PLATES_ROOM : rng_one_in(rng, 4) ? 40 : 6;
    uint32_t kind = rng_below(rng, 10);
    if (kind < 3)
        draw_any_limit(rng, &question);
    else
        draw_numbers(rng, draw_part(rng), &nothing, &question);
    if (kind == 3 || kind == 4)
        draw_wild_numbers(rng, UINT32_MAX, &question);
    draw_plates(rng, 0, most, &question);
    if (rng_one_in(rng, 4))
        spread_plates(rng, &question);
    if (rng_one_in(rng, 4))
        draw_standard_plates(rng, &question);
    compare_question(compare, &question);
}
