/*
 * Program `bench`: how much the archive does in a second beside the separate program, and for the least root beside
 * floating point; how long a call takes that chooses bolts or looks up a support plate; and a sheet of a book, beside
 * the same sheets one by one, and of a summary.
 * Every round measures all works in turn; the medians of the rounds are printed. The sums of all sides must agree.
 */
#define _POSIX_C_SOURCE 199309L

#include "archive.h"
#include "bolts.h"
#include "scantling.h"
#include "sheets.h"

#include <inttypes.h>
#include <math.h>
#include <stdio.h>
#include <stdlib.h>
#include <string.h>
#include <time.h>

#define ROUNDS 7
#define SECONDS 0.18 /* of one measurement, at least */
#define INPUTS 2000
#define PLATES 8
#define BOLT_INPUTS 400
#define BOOK_INPUTS 1984 /* sheets: 31 books of 64; books of 8, 16 and 32 come out even */

/* ---- Inputs, all of them accepted ---- */

struct input {
    uint32_t n[BLIND_NUMBERS];
    uint8_t plates[PAPER_PLATE_BYTES * PLATES];
    struct text sheet;
};
enum { EXACT, MINUS, MINUSES }; /* all plates without a minus, or all with one */
static struct input inputs[PARTS][MINUSES][INPUTS];

/* As many sizes as there may be, of which the first or the last is taken. */
struct bolts_input {
    uint32_t n[BLIND_NUMBERS];
    uint8_t diameters[PAPER_NUMBER_BYTES * PAPER_MOST_SIZES], areas[PAPER_NUMBER_BYTES * PAPER_MOST_SIZES];
    uint8_t plates[PAPER_PLATE_BYTES * PLATES];
    struct byte_list lists[BOLT_LISTS];
};
enum { FIRST_TAKEN, LAST_TAKEN, TAKEN };
static struct bolts_input bolts_inputs[TAKEN][BOLT_INPUTS];

struct support_input {
    uint32_t n[SUPPORT_NUMBERS];
};
static struct support_input support_inputs[INPUTS];

static uint64_t long_numbers[INPUTS], short_numbers[INPUTS];

/* Sheets of both parts by turns, one after another. Any sheets in a row are a book. */
static uint8_t all_sheets[BOOK_INPUTS * TEXT_ROOM];
static size_t sheet_starts[BOOK_INPUTS + 1]; /* and the end of the last */

static void keep_input(struct question *question, uint32_t minus, struct input *input)
{
    for (size_t i = 0; i < PLATES; i++) {
        question->plates[i].thickness += minus;
        question->plates[i].under_tolerance = minus;
    }
    question->colons = 0;
    memcpy(input->n, question->numbers, sizeof input->n);
    pack_plates(question->plates, PLATES, input->plates);
    write_sheet(question, &input->sheet);
}

/* With a minus or without, what is left of each plate is the thickness drawn. */
static void draw_input(struct rng *rng, enum part part, size_t number)
{
    static struct question question;
    const struct wish nothing = wish_nothing();
    uint64_t figures[PAPER_PLACES];
    do {
        draw_numbers(rng, part, &nothing, &question);
        draw_plates(rng, PLATES, PLATES, &question);
        question_figures(&question, figures);
    } while (figures[PLACE_CAUSE] != CAUSE_NONE);
    keep_input(&question, 0, &inputs[part][EXACT][number]);
    keep_input(&question, 30, &inputs[part][MINUS][number]);
}

static void keep_bolts_input(const struct bolts_question *question, struct bolts_input *input)
{
    const struct byte_list lists[BOLT_LISTS] = {
        [LIST_DIAMETERS] = {input->diameters, sizeof input->diameters},
        [LIST_AREAS] = {input->areas, sizeof input->areas},
        [LIST_PLATES] = {input->plates, sizeof input->plates}};
    memcpy(input->n, question->flange.numbers, sizeof input->n);
    memcpy(input->lists, lists, sizeof input->lists);
    pack_numbers(question->diameters, PAPER_MOST_SIZES, input->diameters);
    pack_numbers(question->areas, PAPER_MOST_SIZES, input->areas);
    pack_plates(question->flange.plates, PLATES, input->plates);
}

static void draw_bolts_input(struct rng *rng, size_t taken, struct bolts_input *input)
{
    static struct bolts_question question;
    const struct wish nothing = wish_nothing();
    uint64_t figures[PAPER_PLACES];
    do {
        draw_numbers(rng, PART_BLIND, &nothing, &question.flange);
        draw_sizes(rng, PAPER_MOST_SIZES, taken, &question);
        draw_plates_for_bolts(rng, PLATES, PLATES, &question);
        const struct paper_sizes sizes = question_sizes(&question);
        paper_blind_flange_bolts(question.flange.numbers, &sizes, question.flange.plates, PLATES, figures);
    } while (figures[PLACE_CAUSE] != CAUSE_NONE || size_taken(&question, figures) != taken);
    keep_bolts_input(&question, input);
}

/* Any tube from the first row to past the last; the longer its allowed span the more often. */
static void draw_support_input(struct rng *rng, struct support_input *input)
{
    uint64_t figures[PAPER_PLACES];
    uint32_t *n = input->n;
    do {
        n[SUPPORT_TUBE] = rng_between(rng, 6, 80);
        n[SUPPORT_GROUP] = rng_between(rng, GROUP_STEEL, GROUP_COPPER);
        n[SUPPORT_SPAN] = rng_between(rng, 0, 3000);
        n[SUPPORT_PLATE] = rng_between(rng, 0, 1000);
        paper_support_plate(n, figures);
    } while (figures[PLACE_CAUSE] != CAUSE_NONE);
}

static void lay_sheets(void)
{
    sheet_starts[0] = 0;
    for (size_t i = 0; i < BOOK_INPUTS; i++) {
        const struct text *sheet = &inputs[i % 2 == 0 ? PART_END : PART_BLIND][EXACT][i / 2].sheet;
        memcpy(all_sheets + sheet_starts[i], sheet->bytes, sheet->length);
        sheet_starts[i + 1] = sheet_starts[i] + sheet->length;
    }
}

static void draw_inputs(void)
{
    struct rng rng = {8532};
    for (size_t i = 0; i < INPUTS; i++) {
        for (enum part part = PART_NONE + 1; part < PARTS; part++)
            draw_input(&rng, part, i);
        long_numbers[i] = rng_of_length(&rng, rng_below(&rng, 65));
        short_numbers[i] = rng_of_length(&rng, 16 + rng_below(&rng, 19));
    }
    for (size_t i = 0; i < BOLT_INPUTS; i++) {
        draw_bolts_input(&rng, 0, &bolts_inputs[FIRST_TAKEN][i]);
        draw_bolts_input(&rng, PAPER_MOST_SIZES - 1, &bolts_inputs[LAST_TAKEN][i]);
    }
    for (size_t i = 0; i < INPUTS; i++)
        draw_support_input(&rng, &support_inputs[i]);
    lay_sheets();
}

/* ---- One pass over the inputs; the sum of what was found ---- */

struct pass {
    uint64_t (*run)(const struct pass *pass); /* null where there is none */
    size_t count;                             /* of what a pass works */
    const struct input *inputs;               /* of calls and sheets */
    enum part part;                           /* of calls */
    const struct bolts_input *bolts;          /* of calls that choose the bolts */
    const struct support_input *supports;     /* of calls for support plates */
    /* a sheet's report, or a book's summary */
    size_t (*sheet)(const uint8_t *text, size_t length, uint8_t *out, size_t out_length);
    const uint64_t *numbers;                  /* of roots */
    uint64_t (*root)(uint64_t n);
    size_t sheets;                            /* of a book */
};

/* Plates chosen. */
static uint64_t archive_figures(const struct pass *pass)
{
    const uint32_t place = paper_parts[pass->part].last_place;
    uint64_t sum = 0;
    for (size_t i = 0; i < INPUTS; i++) {
        const struct input *input = &pass->inputs[i];
        sum += archive_calls[pass->part].figure(input->n, input->plates, sizeof input->plates, place);
    }
    return sum;
}

static uint64_t separate_figures(const struct pass *pass)
{
    const uint32_t place = paper_parts[pass->part].last_place;
    uint64_t sum = 0, figures[PAPER_PLACES];
    struct paper_plate plates[PLATES];
    for (size_t i = 0; i < INPUTS; i++) {
        const struct input *input = &pass->inputs[i];
        size_t count = paper_plates(input->plates, sizeof input->plates, plates, PLATES);
        paper_parts[pass->part].work(input->n, plates, count, figures);
        sum += figures[place];
    }
    return sum;
}

static uint64_t archive_bolts_figures(const struct pass *pass)
{
    uint64_t sum = 0;
    for (size_t i = 0; i < BOLT_INPUTS; i++)
        sum += archive_bolts(pass->bolts[i].n, pass->bolts[i].lists, BLIND_PLATE_PLACE);
    return sum;
}

static uint64_t separate_bolts_figures(const struct pass *pass)
{
    uint64_t sum = 0, figures[PAPER_PLACES];
    uint32_t diameters[PAPER_MOST_SIZES], areas[PAPER_MOST_SIZES];
    struct paper_plate plates[PLATES];
    for (size_t i = 0; i < BOLT_INPUTS; i++) {
        const struct bolts_input *input = &pass->bolts[i];
        const struct paper_sizes sizes = {
            diameters, areas, paper_numbers(input->diameters, sizeof input->diameters, diameters, PAPER_MOST_SIZES),
            paper_numbers(input->areas, sizeof input->areas, areas, PAPER_MOST_SIZES)};
        const size_t count = paper_plates(input->plates, sizeof input->plates, plates, PLATES);
        paper_blind_flange_bolts(input->n, &sizes, plates, count, figures);
        sum += figures[BLIND_PLATE_PLACE];
    }
    return sum;
}

/* Least thicknesses. */
static uint64_t archive_supports(const struct pass *pass)
{
    uint64_t sum = 0;
    for (size_t i = 0; i < INPUTS; i++)
        sum += archive_support_plate(pass->supports[i].n, SUPPORT_THICKNESS_PLACE);
    return sum;
}

static uint64_t separate_supports(const struct pass *pass)
{
    uint64_t sum = 0, figures[PAPER_PLACES];
    for (size_t i = 0; i < INPUTS; i++) {
        paper_support_plate(pass->supports[i].n, figures);
        sum += figures[SUPPORT_THICKNESS_PLACE];
    }
    return sum;
}

/* Length and last digit of the reports. */
static uint64_t reports(const struct pass *pass)
{
    uint8_t report[SCANTLING_LONGEST_REPORT];
    uint64_t sum = 0;
    for (size_t i = 0; i < INPUTS; i++) {
        const struct text *sheet = &pass->inputs[i].sheet;
        size_t length = pass->sheet(sheet->bytes, sheet->length, report, sizeof report);
        sum += length + report[length - 2];
    }
    return sum;
}

/* ---- Books; the space of one is lent anew to the next ---- */

static uint8_t book_space[SCANTLING_LONGEST_BATCH];

/* Length and last digit of a book's reports; 0 of a book that is refused. */
static uint64_t book_sum(size_t length)
{
    return length < 2 ? 0 : length + book_space[length - 2];
}

static uint64_t archive_books(const struct pass *pass)
{
    uint64_t sum = 0;
    for (size_t i = 0; i < BOOK_INPUTS; i += pass->sheets)
        sum += book_sum((size_t)scantling_batch(
            all_sheets + sheet_starts[i], sheet_starts[i + pass->sheets] - sheet_starts[i], SCANTLING_MOST_SHEETS,
            book_space, sizeof book_space, SCANTLING_BATCH_LENGTH));
    return sum;
}

static uint64_t separate_books(const struct pass *pass)
{
    uint64_t sum = 0, figures[BATCH_PLACES];
    for (size_t i = 0; i < BOOK_INPUTS; i += pass->sheets) {
        paper_book(
            all_sheets + sheet_starts[i], sheet_starts[i + pass->sheets] - sheet_starts[i], SCANTLING_MOST_SHEETS,
            book_space, sizeof book_space, figures);
        sum += book_sum((size_t)figures[BATCH_LENGTH_PLACE]);
    }
    return sum;
}

/* The sheets of the book from this one on, each by itself, their reports one after another. Returns the length. */
static size_t work_sheets(size_t first, size_t sheets)
{
    size_t at = 0;
    for (size_t i = first; i < first + sheets; i++)
        at += scantling_sheet(
            all_sheets + sheet_starts[i], sheet_starts[i + 1] - sheet_starts[i], book_space + at,
            sizeof book_space - at);
    return at;
}

static uint64_t one_by_one(const struct pass *pass)
{
    uint64_t sum = 0;
    for (size_t i = 0; i < BOOK_INPUTS; i += pass->sheets)
        sum += book_sum(work_sheets(i, pass->sheets));
    return sum;
}

/* Length and last digit of the summaries. */
static uint64_t summaries(const struct pass *pass)
{
    uint64_t sum = 0;
    for (size_t i = 0; i < BOOK_INPUTS; i += pass->sheets)
        sum += book_sum(pass->sheet(
            all_sheets + sheet_starts[i], sheet_starts[i + pass->sheets] - sheet_starts[i], book_space,
            sizeof book_space));
    return sum;
}

/* ---- Roots ---- */

static uint64_t roots(const struct pass *pass)
{
    uint64_t sum = 0;
    for (size_t i = 0; i < INPUTS; i++)
        sum += pass->root(pass->numbers[i]);
    return sum;
}

static uint64_t search_root(uint64_t n)
{
    return paper_least_root(1, n);
}

/* Floating point, put right by whole steps. */
static uint64_t float_root(uint64_t n)
{
    uint64_t root = (uint64_t)sqrt((double)n);
    while ((u128)root * root < n)
        root++;
    while (root > 0 && (u128)(root - 1) * (root - 1) >= n)
        root--;
    return root;
}

/* ---- Measuring ---- */

struct work {
    const char *name;
    /* archive, separate program, floating point if any; of books archive, one by one if any, separate program */
    struct pass passes[3];
};

#define CALLS(of)                                                                         \
    {{.run = archive_figures, .count = INPUTS, .inputs = inputs[of][EXACT], .part = of}, \
     {.run = separate_figures, .count = INPUTS, .inputs = inputs[of][EXACT], .part = of}}
#define BOLTS(taken)                                                                     \
    {{.run = archive_bolts_figures, .count = BOLT_INPUTS, .bolts = bolts_inputs[taken]}, \
     {.run = separate_bolts_figures, .count = BOLT_INPUTS, .bolts = bolts_inputs[taken]}}
#define SUPPORTS                                                             \
    {{.run = archive_supports, .count = INPUTS, .supports = support_inputs}, \
     {.run = separate_supports, .count = INPUTS, .supports = support_inputs}}
#define SHEETS(of, minus)                                                                        \
    {{.run = reports, .count = INPUTS, .inputs = inputs[of][minus], .sheet = scantling_sheet}, \
     {.run = reports, .count = INPUTS, .inputs = inputs[of][minus], .sheet = paper_sheet}}
#define ROOTS(of)                                                                  \
    {{.run = roots, .count = INPUTS, .numbers = of, .root = scantling_least_root}, \
     {.run = roots, .count = INPUTS, .numbers = of, .root = search_root},          \
     {.run = roots, .count = INPUTS, .numbers = of, .root = float_root}}
#define BOOKS(of)                                                 \
    {{.run = archive_books, .count = BOOK_INPUTS, .sheets = of}, \
     {.run = one_by_one, .count = BOOK_INPUTS, .sheets = of},    \
     {.run = separate_books, .count = BOOK_INPUTS, .sheets = of}}
#define SUMMARIES(of)                                                                    \
    {{.run = summaries, .count = BOOK_INPUTS, .sheets = of, .sheet = scantling_summary}, \
     {.run = NULL},                                                                      \
     {.run = summaries, .count = BOOK_INPUTS, .sheets = of, .sheet = paper_summary}}

static const struct work works[] = {
    {"endplate calls", CALLS(PART_END)},
    {"blind flange calls", CALLS(PART_BLIND)},
    {"16 bolt sizes, first taken", BOLTS(FIRST_TAKEN)},
    {"16 bolt sizes, last taken", BOLTS(LAST_TAKEN)},
    {"support plates", SUPPORTS},
    {"endplate sheets", SHEETS(PART_END, EXACT)},
    {"blind flange sheets", SHEETS(PART_BLIND, EXACT)},
    {"endplate sheets, minus", SHEETS(PART_END, MINUS)},
    {"blind flange sheets, minus", SHEETS(PART_BLIND, MINUS)},
    {"least roots, 0 to 64 bits", ROOTS(long_numbers)},
    {"least roots, 16 to 34 bits", ROOTS(short_numbers)},
    {"8 sheets in a book", BOOKS(8)},
    {"16 sheets in a book", BOOKS(16)},
    {"32 sheets in a book", BOOKS(32)},
    {"64 sheets in a book", BOOKS(64)},
    {"64 sheets in a summary", SUMMARIES(64)},
};
#define WORKS (sizeof works / sizeof works[0])
#define FIRST_BOOKS 11 /* of the works */

static double rates[WORKS][3][ROUNDS]; /* per second */
volatile uint64_t bench_sink;          /* keeps the passes from being left out */

static double now(void)
{
    struct timespec time;
    clock_gettime(CLOCK_MONOTONIC, &time);
    return (double)time.tv_sec + (double)time.tv_nsec * 1e-9;
}

static double measure(const struct pass *pass, uint64_t expected, const char *name)
{
    const double start = now();
    double passes = 0, elapsed = 0;
    while (elapsed < SECONDS) {
        uint64_t sum = pass->run(pass);
        bench_sink += sum;
        if (sum != expected) {
            printf("difference: %s: sums %" PRIu64 " and %" PRIu64 "\n", name, expected, sum);
            exit(1);
        }
        passes++;
        elapsed = now() - start;
    }
    return passes * (double)pass->count / elapsed;
}

static void measure_round(int round)
{
    for (size_t i = 0; i < WORKS * 3; i++) {
        const struct work *work = &works[i / 3];
        if (work->passes[i % 3].run != NULL)
            rates[i / 3][i % 3][round] =
                measure(&work->passes[i % 3], work->passes[0].run(&work->passes[0]), work->name);
    }
}

static int by_size(const void *left, const void *right)
{
    const double a = *(const double *)left, b = *(const double *)right;
    return (a > b) - (a < b);
}

static double median(const double *values)
{
    double sorted[ROUNDS];
    memcpy(sorted, values, sizeof sorted);
    qsort(sorted, ROUNDS, sizeof sorted[0], by_size);
    return sorted[ROUNDS / 2];
}

static double median_ratio(const double *left, const double *right)
{
    double ratios[ROUNDS];
    for (int round = 0; round < ROUNDS; round++)
        ratios[round] = left[round] / right[round];
    return median(ratios);
}

static void print_work(size_t i)
{
    printf("%-28s %14.0f %14.0f %8.2f", works[i].name, median(rates[i][0]), median(rates[i][1]),
           median_ratio(rates[i][0], rates[i][1]));
    if (works[i].passes[2].run != NULL)
        printf(" %14.0f %8.2f", median(rates[i][2]), median_ratio(rates[i][0], rates[i][2]));
    printf("\n");
}

static double nanoseconds(const double *values)
{
    return 1e9 / median(values);
}

/* Ratios of the times: of a book to its sheets one by one, and to the separate program's. */
static void print_books(size_t i)
{
    printf("%-28s %14.0f", works[i].name, nanoseconds(rates[i][0]));
    if (works[i].passes[1].run != NULL)
        printf(" %14.0f %8.3f", nanoseconds(rates[i][1]), median_ratio(rates[i][1], rates[i][0]));
    else
        printf(" %14s %8s", "", "");
    printf(" %14.0f %8.2f\n", nanoseconds(rates[i][2]), median_ratio(rates[i][2], rates[i][0]));
}

int main(void)
{
    draw_inputs();
    for (int round = 0; round < ROUNDS; round++)
        measure_round(round);
    printf("median of %d rounds, per second; ratios are archive to the other\n", ROUNDS);
    printf("%-28s %14s %14s %8s %14s %8s\n", "work", "archive", "separate", "ratio", "sqrt", "ratio");
    for (size_t i = 0; i < FIRST_BOOKS; i++)
        print_work(i);
    for (size_t i = 0; i < FIRST_BOOKS; i++)
        if (works[i].passes[0].bolts != NULL || works[i].passes[0].supports != NULL)
            printf("%s: %.0f nanoseconds a call\n", works[i].name, nanoseconds(rates[i][0]));
    printf("nanoseconds a sheet; ratios are book or summary to the other\n");
    printf("%-28s %14s %14s %8s %14s %8s\n", "work", "book", "one by one", "ratio", "separate", "ratio");
    for (size_t i = FIRST_BOOKS; i < WORKS; i++)
        print_books(i);
    return 0;
}
