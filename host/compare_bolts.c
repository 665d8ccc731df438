/* Blind flanges whose bolts are chosen. */
#include "bolts.h"
#include "compare.h"
#include "limits.h"
#include "scantling.h"

#include <inttypes.h>
#include <stdio.h>
#include <stdlib.h>
#include <string.h>

#define MANY 10000 /* questions; fewer may not meet every cause, size and count */

/* What is asked, each list in a block of exactly its length, and the separate program's answer. */
struct asking {
    const struct bolts_question *question;
    struct byte_list lists[BOLT_LISTS];
    uint64_t figures[PAPER_PLACES];
};

static void print_list(const char *name, const uint32_t *numbers, const struct byte_list *list)
{
    const size_t count = list->length / PAPER_NUMBER_BYTES;
    printf(" %s=", name);
    for (size_t i = 0; i < count; i++)
        printf("%s%" PRIu32, i == 0 ? "" : ",", numbers[i]);
    printf("%s and %u bytes over", list->bytes == NULL ? "null" : "", (unsigned)(list->length % PAPER_NUMBER_BYTES));
}

static void print_asking(const struct asking *asking)
{
    const struct bolts_question *question = asking->question;
    const struct question *flange = &question->flange;
    printf("scantling_blind_flange_bolts:");
    for (int i = 0; i < BLIND_NUMBERS; i++)
        if (i < BLIND_BOLT || i > BLIND_COUNT)
            printf(" %s=%" PRIu32, paper_parts[PART_BLIND].keys[i], flange->numbers[i]);
    print_list("diameters", question->diameters, &asking->lists[LIST_DIAMETERS]);
    print_list("areas", question->areas, &asking->lists[LIST_AREAS]);
    printf(" plates=");
    for (size_t i = 0; i < flange->plate_count; i++)
        printf("%s%" PRIu32 ":%" PRIu32, i == 0 ? "" : ",", flange->plates[i].thickness,
               flange->plates[i].under_tolerance);
}

static void differ(const char *what, const struct asking *asking)
{
    printf("difference: %s\n", what);
    print_asking(asking);
    printf("\nseparate program by place:");
    for (uint32_t place = 0; place <= BLIND_COUNT_PLACE; place++)
        printf(" %" PRIu64, asking->figures[place]);
    printf("\n");
    exit(1);
}

/* ---- One question ---- */

/* A list and some bytes over. One of no bytes is a null pointer half the time. */
static uint8_t *lay_list(struct compare_bolts *compare, size_t length, size_t over, struct byte_list *list)
{
    list->length = length + over;
    list->bytes = NULL;
    if (list->length == 0 && rng_one_in(&compare->rng, 2)) {
        compare->null_lists++;
        return NULL;
    }
    uint8_t *bytes = malloc(list->length + (list->length == 0));
    if (bytes == NULL)
        exit(2);
    rng_fill(&compare->rng, bytes, list->length);
    list->bytes = bytes;
    return bytes;
}

static void lay_lists(struct compare_bolts *compare, const size_t over[BOLT_LISTS], struct asking *asking)
{
    const struct bolts_question *question = asking->question;
    const struct question *flange = &question->flange;
    struct byte_list *lists = asking->lists;
    pack_numbers(
        question->diameters, question->diameter_count,
        lay_list(compare, PAPER_NUMBER_BYTES * question->diameter_count, over[0], &lists[LIST_DIAMETERS]));
    pack_numbers(
        question->areas, question->area_count,
        lay_list(compare, PAPER_NUMBER_BYTES * question->area_count, over[1], &lists[LIST_AREAS]));
    pack_plates(
        flange->plates, flange->plate_count,
        lay_list(compare, PAPER_PLATE_BYTES * flange->plate_count, over[2], &lists[LIST_PLATES]));
}

/* The separate program's lists are read from the bytes, as the archive's are. */
static void work(struct asking *asking)
{
    static uint32_t diameters[SIZES_ROOM], areas[SIZES_ROOM];
    static struct paper_plate plates[PLATES_ROOM];
    const struct byte_list *lists = asking->lists;
    const struct paper_sizes sizes = {
        diameters, areas,
        paper_numbers(lists[LIST_DIAMETERS].bytes, lists[LIST_DIAMETERS].length, diameters, SIZES_ROOM),
        paper_numbers(lists[LIST_AREAS].bytes, lists[LIST_AREAS].length, areas, SIZES_ROOM)};
    const size_t count = paper_plates(lists[LIST_PLATES].bytes, lists[LIST_PLATES].length, plates, PLATES_ROOM);
    paper_blind_flange_bolts(asking->question->flange.numbers, &sizes, plates, count, asking->figures);
}

/* The lists are to be freed. */
static void ask(
    struct compare_bolts *compare, const struct bolts_question *question, const size_t over[BOLT_LISTS],
    struct asking *asking)
{
    asking->question = question;
    lay_lists(compare, over, asking);
    work(asking);
}

static void free_lists(struct asking *asking)
{
    for (int list = 0; list < BOLT_LISTS; list++)
        free((void *)asking->lists[list].bytes);
}

static void compare_place(struct compare_bolts *compare, const struct asking *asking, uint32_t place)
{
    const uint64_t archive = archive_bolts(asking->question->flange.numbers, asking->lists, place);
    const uint64_t separate = place < PAPER_PLACES ? asking->figures[place] : 0;
    compare->calls++;
    if (archive == separate)
        return;
    printf("place %" PRIu32 ": archive %" PRIu64 ", separate program %" PRIu64 "; ", place, archive, separate);
    differ("a figure", asking);
}

static void compare_places(struct compare_bolts *compare, const struct asking *asking)
{
    for (uint32_t place = 0; place < PAPER_PLACES; place++)
        compare_place(compare, asking, place);
    compare_place(compare, asking, 100);
    compare_place(compare, asking, UINT32_MAX);
    compare_place(compare, asking, (uint32_t)rng_bits(&compare->rng));
}

/* ---- The archive's own blind flange ---- */

static uint64_t flange_figure(const uint32_t n[], const struct byte_list *plates, uint32_t place)
{
    return archive_calls[PART_BLIND].figure(n, plates->bytes, plates->length, place);
}

/* With the bolts chosen it has the same figures, and they are exact. */
static void judge_taken(struct compare_bolts *compare, const struct asking *asking)
{
    uint32_t n[BLIND_NUMBERS];
    memcpy(n, asking->question->flange.numbers, sizeof n);
    n[BLIND_BOLT] = (uint32_t)asking->figures[BLIND_BOLT_PLACE];
    n[BLIND_ROOT] = (uint32_t)asking->figures[BLIND_ROOT_PLACE];
    n[BLIND_COUNT] = (uint32_t)asking->figures[BLIND_COUNT_PLACE];
    for (uint32_t place = PLACE_CAUSE; place <= BLIND_PLATE_PLACE; place++)
        if (flange_figure(n, &asking->lists[LIST_PLATES], place) != asking->figures[place])
            differ("the archive's blind flange with the bolts chosen has other figures", asking);
    count_accuracy(&compare->accuracy, PART_BLIND, n, asking->figures);
    if (!paper_blind_flange_exact(n, asking->figures))
        differ("figures that are not exact", asking);
}

/* Every pair before the one taken, or every pair where none is: it is refused there, or its pitch is not enough. */
static void judge_earlier(struct compare_bolts *compare, const struct asking *asking)
{
    static const uint8_t bytes[PAPER_PLATE_BYTES] = {0xFF, 0xFF, 0xFF, 0xFF};
    static const struct byte_list largest = {bytes, sizeof bytes};
    const struct bolts_question *question = asking->question;
    const int taken = asking->figures[PLACE_CAUSE] == CAUSE_NONE;
    const size_t last = taken ? size_taken(question, asking->figures) : question->diameter_count - 1;
    uint32_t n[BLIND_NUMBERS];
    memcpy(n, question->flange.numbers, sizeof n);
    for (size_t size = 0; size <= last; size++)
        for (uint32_t count = PAPER_LEAST_BOLTS; count <= PAPER_MOST_BOLTS; count += PAPER_LEAST_BOLTS) {
            if (taken && size == last && count == asking->figures[BLIND_COUNT_PLACE])
                return;
            n[BLIND_BOLT] = question->diameters[size];
            n[BLIND_ROOT] = question->areas[size];
            n[BLIND_COUNT] = count;
            compare->earlier++;
            if (paper_pitch_enough(n) && flange_figure(n, &largest, PLACE_CAUSE) == CAUSE_NONE)
                differ("an earlier size and count would do for the archive's blind flange", asking);
        }
}

/* The figures judged are the archive's: their places were compared. */
static void judge(struct compare_bolts *compare, const struct asking *asking, int earlier)
{
    const uint64_t cause = asking->figures[PLACE_CAUSE];
    const struct paper_sizes sizes = question_sizes(asking->question);
    if (cause == CAUSE_NONE)
        judge_taken(compare, asking);
    if (earlier && (cause == CAUSE_NONE || (cause == CAUSE_NO_BOLTS && paper_sizes_sound(&sizes))))
        judge_earlier(compare, asking);
}

/* ---- By hand ---- */

static void compare_by_hand(
    struct compare_bolts *compare, const struct bolts_question *question, const size_t over[BOLT_LISTS],
    struct asking *asking)
{
    ask(compare, question, over, asking);
    compare_places(compare, asking);
    judge(compare, asking, 1);
    free_lists(asking);
}

static void expect(const struct asking *asking, uint32_t cause, uint32_t bolt, uint32_t root, uint32_t count)
{
    const uint64_t *figures = asking->figures;
    if (figures[PLACE_CAUSE] != cause || figures[BLIND_BOLT_PLACE] != bolt || figures[BLIND_ROOT_PLACE] != root ||
        figures[BLIND_COUNT_PLACE] != count) {
        printf("by hand: cause %" PRIu32 ", bolt %" PRIu32 ", root %" PRIu32 ", count %" PRIu32 "; ", cause, bolt, root,
               count);
        differ("the separate program", asking);
    }
}

/* With 0 to 3 bytes over in both lists of sizes, and without a plate. */
static void compare_known_bolts(struct compare_bolts *compare, const struct known_bolts *known)
{
    static struct bolts_question question;
    struct asking asking;
    known_bolts_question(known, &question);
    for (size_t both = 0; both < PAPER_NUMBER_BYTES * PAPER_NUMBER_BYTES; both++) {
        const size_t over[BOLT_LISTS] = {
            both / PAPER_NUMBER_BYTES, both % PAPER_NUMBER_BYTES, both % PAPER_PLATE_BYTES};
        compare_by_hand(compare, &question, over, &asking);
        expect(&asking, known->cause, known->bolt, known->root, known->count);
    }
    const size_t nothing[BOLT_LISTS] = {0};
    give_plates(&question.flange, NULL, 0);
    compare_by_hand(compare, &question, nothing, &asking);
    expect(&asking, known->cause == CAUSE_NONE ? CAUSE_PLATE : known->cause, 0, 0, 0);
}

/* The flange with every ill list and with a sound one. */
static void compare_ill_lists(struct compare_bolts *compare, struct bolts_question *question)
{
    const size_t nothing[BOLT_LISTS] = {0};
    struct asking asking;
    for (size_t ill = 0; ill < ILL_LISTS; ill++) {
        give_ill_lists(ill, question);
        compare_by_hand(compare, question, nothing, &asking);
    }
    give_size(20, 2250, question);
    compare_by_hand(compare, question, nothing, &asking);
}

/* The order of causes. */
static void compare_mended(struct compare_bolts *compare)
{
    static struct bolts_question question;
    for (size_t mended = 0; mended <= mend_counts[PART_BLIND]; mended++) {
        give_mended(PART_BLIND, mended, &question.flange);
        compare_ill_lists(compare, &question);
    }
}

/* A flange of this circle, where the bolt has just room and so many just carry. 0 if that is not to be had. */
static int give_circle(uint32_t circle, uint32_t bolt, uint32_t count, struct bolts_question *question)
{
    static const struct paper_plate plate = {100000, 0};
    const uint32_t od = circle - 10 * bolt < 30000 ? circle - 10 * bolt : 30000;
    uint32_t *n = question->flange.numbers;
    known_bolts_question(&known_bolts[0], question);
    give_plates(&question->flange, &plate, 1);
    n[BLIND_OD] = od;
    n[BLIND_CIRCLE] = circle;
    n[BLIND_SA] = 400;
    n[BLIND_SB] = 400;
    n[BLIND_COUNT] = count;
    give_size(bolt, sufficient_root(n), question);
    return 2 * circle <= 3 * (od - n[BLIND_WIDTH]) && 100 * question->areas[0] <= 785 * bolt * bolt;
}

/* With enough pitch. 314 circle is never 2500 bolt count: 314 is 2 times 157, a prime above every bolt and every
   count. */
static uint32_t least_circle(uint32_t bolt, uint32_t count)
{
    uint32_t circle = 0;
    while (314 * circle < 2500 * bolt * count)
        circle++;
    if (314 * circle == 2500 * bolt * count) {
        printf("a pitch that is just enough: bolt %" PRIu32 ", count %" PRIu32 "\n", bolt, count);
        exit(1);
    }
    return circle;
}

/* On the least circle with enough pitch, and on one a tenth less, where fewer bolts do not carry. */
static void compare_pitch(struct compare_bolts *compare, uint32_t bolt, uint32_t count)
{
    static struct bolts_question enough, short_of_it;
    const size_t nothing[BOLT_LISTS] = {0};
    const uint32_t circle = least_circle(bolt, count);
    struct asking asking;
    if (!give_circle(circle, bolt, count, &enough) || !give_circle(circle - 1, bolt, count, &short_of_it))
        return;
    compare_by_hand(compare, &enough, nothing, &asking);
    expect(&asking, CAUSE_NONE, bolt, enough.areas[0], count);
    compare_by_hand(compare, &short_of_it, nothing, &asking);
    expect(&asking, CAUSE_NO_BOLTS, 0, 0, 0);
    compare->pitches++;
}

/* Of this bolt with every count. */
static void compare_bolt_pitches(struct compare_bolts *compare, uint32_t bolt)
{
    for (uint32_t count = PAPER_LEAST_BOLTS; count <= PAPER_MOST_BOLTS; count += PAPER_LEAST_BOLTS)
        compare_pitch(compare, bolt, count);
}

static void compare_pitches(struct compare_bolts *compare)
{
    for (uint32_t bolt = 12; bolt <= 76; bolt++)
        compare_bolt_pitches(compare, bolt);
}

static void compare_bolts_by_hand(struct compare_bolts *compare)
{
    for (size_t i = 0; i < known_bolts_count; i++)
        compare_known_bolts(compare, &known_bolts[i]);
    compare_mended(compare);
    compare_pitches(compare);
}

/* ---- Drawn ---- */

static void count_asking(struct compare_bolts *compare, const struct asking *asking)
{
    const struct bolts_question *question = asking->question;
    const uint64_t *figures = asking->figures;
    compare->questions++;
    compare->causes[figures[PLACE_CAUSE]]++;
    compare->empty += question->diameter_count == 0 && question->area_count == 0;
    compare->too_many +=
        question->diameter_count > PAPER_MOST_SIZES && question->diameter_count == question->area_count;
    compare->unequal += question->diameter_count != question->area_count;
    compare->over += asking->lists[LIST_DIAMETERS].length % PAPER_NUMBER_BYTES > 0 ||
                     asking->lists[LIST_AREAS].length % PAPER_NUMBER_BYTES > 0;
    if (figures[PLACE_CAUSE] != CAUSE_NONE)
        return;
    compare->sizes[size_taken(question, figures)]++;
    compare->counts[figures[BLIND_COUNT_PLACE] / PAPER_LEAST_BOLTS - 1]++;
}

static void compare_drawn_bolts(struct compare_bolts *compare)
{
    static struct bolts_question question;
    struct rng *rng = &compare->rng;
    size_t over[BOLT_LISTS] = {0};
    struct asking asking;
    draw_bolts_question(rng, &question);
    for (int list = 0; list < BOLT_LISTS; list++)
        if (rng_one_in(rng, 2))
            over[list] = rng_below(rng, list == LIST_PLATES ? PAPER_PLATE_BYTES : PAPER_NUMBER_BYTES);
    ask(compare, &question, over, &asking);
    count_asking(compare, &asking);
    compare_places(compare, &asking);
    judge(compare, &asking, rng_one_in(rng, 16));
    free_lists(&asking);
}

void compare_all_bolts(struct compare_bolts *compare, uint64_t most)
{
    compare_bolts_by_hand(compare);
    compare->by_hand = compare->calls;
    while (compare->questions < most)
        compare_drawn_bolts(compare);
}

/* ---- What is met ---- */

/* Those of the call in checking order, the accepted first. */
static const uint32_t causes[] = {
    CAUSE_NONE, CAUSE_MATERIAL, CAUSE_PRESSURE, CAUSE_TEMPERATURE, CAUSE_DESIGN_STRESS, CAUSE_DIAMETER,
    CAUSE_ALLOWANCE, CAUSE_WIDTH, CAUSE_RIB, CAUSE_GASKET, CAUSE_BOLT_STRESS, CAUSE_NO_BOLTS, CAUSE_PLATE};

static int met(uint64_t counted, const char *what, uint32_t number)
{
    if (counted == 0)
        printf("never met: a flange with bolts to choose, %s %" PRIu32 "\n", what, number);
    return counted > 0;
}

static int causes_met(const struct compare_bolts *compare)
{
    int all = 1;
    for (size_t i = 0; i < COUNT(causes); i++)
        all &= met(compare->causes[causes[i]], "cause", causes[i]);
    return all;
}

/* What is counted for step, twice the step and so on. */
static int steps_met(const uint64_t *counted, uint32_t count, const char *what, uint32_t step)
{
    int all = 1;
    for (uint32_t i = 0; i < count; i++)
        all &= met(counted[i], what, step * (i + 1));
    return all;
}

/* Prints what is not. */
static int all_met(const struct compare_bolts *compare)
{
    int all = causes_met(compare);
    all &= steps_met(compare->sizes, PAPER_MOST_SIZES, "the size taken", 1);
    all &= steps_met(compare->counts, PAPER_BOLT_COUNTS, "the count", PAPER_LEAST_BOLTS);
    return all;
}

static void print_refused(const struct compare_bolts *compare)
{
    for (size_t i = 1; i < COUNT(causes); i++)
        printf(" %" PRIu32 ":%" PRIu64, causes[i], compare->causes[causes[i]]);
}

static void print_steps(const uint64_t *counted, uint32_t count, uint32_t step)
{
    for (uint32_t i = 0; i < count; i++)
        printf(" %" PRIu32 ":%" PRIu64, step * (i + 1), counted[i]);
}

void print_bolts(const struct compare_bolts *compare)
{
    printf("%" PRIu64 " flanges with bolts to choose: accepted %" PRIu64 "; refused by cause", compare->questions,
           compare->causes[CAUSE_NONE]);
    print_refused(compare);
    printf("; sizes empty %" PRIu64 ", more than %d %" PRIu64 ", of unequal lengths %" PRIu64
           ", with bytes over %" PRIu64 "; null lists %" PRIu64 "\ntaken by size",
           compare->empty, PAPER_MOST_SIZES, compare->too_many, compare->unequal, compare->over, compare->null_lists);
    print_steps(compare->sizes, PAPER_MOST_SIZES, 1);
    printf("; by count");
    print_steps(compare->counts, PAPER_BOLT_COUNTS, PAPER_LEAST_BOLTS);
    printf("\n%" PRIu64 " calls for these, %" PRIu64 " of them by hand, with %" PRIu64
           " pitches; %" PRIu64 " earlier sizes and counts, %" PRIu64 " accuracy checks\n",
           compare->calls, compare->by_hand, compare->pitches, compare->earlier, compare->accuracy.checks);
    if (compare->questions >= MANY && !all_met(compare))
        exit(1);
}
