/*
 * Program `compare [NUMERIC_CALLS [SHEETS [SEED [BOOKS [SIZES]]]]]`: calls the archive as a drawing program would and
 * compares every answer with the separate calculation; SIZES is how many lists of bolt sizes are drawn. Exits with 1 at
 * the first difference, and if the books drawn never meet a kind of summary, the lists a cause, a size or a count, or
 * the support plates a cause, an entry or a limit.
 */
#include "compare.h"
#include "known.h"
#include "limits.h"
#include "scantling.h"

#include <inttypes.h>
#include <stdio.h>
#include <stdlib.h>
#include <string.h>

#define LIMIT_ROUNDS 20 /* questions of each limit and step */
#define THIN_ROUNDS 10000 /* thin blind flanges */
#define ROOT_ROUNDS 1500 /* of each binary length: so many numbers, and so many squares with their neighbours */
#define SUMMARY_SHARE 300 /* of so many books one more of each kind is drawn, for its summary alone */

/* ---- Numbers to hold ---- */

static void differ(size_t number, const char *who, uint64_t figure)
{
    printf("difference: number to hold %lu (from 1): it is %" PRIu64 ", %s %" PRIu64 "\n",
           (unsigned long)number + 1, known_cases[number].figure, who, figure);
    exit(1);
}

/* The document's figure in a report. */
static uint64_t known_figure_in(const struct known *known, const uint8_t *report, size_t length)
{
    return report_figure(report, length, paper_parts[known->part].report_keys[known->place]);
}

static void compare_known_sheet(size_t number, const struct text *text)
{
    const struct known *known = &known_cases[number];
    uint8_t archive[PAPER_REPORT_ROOM] = {0}, separate[PAPER_REPORT_ROOM] = {0};
    size_t archive_length = scantling_sheet(text->bytes, text->length, archive, sizeof archive);
    size_t separate_length = paper_sheet(text->bytes, text->length, separate, sizeof separate);
    if (archive_length > sizeof archive)
        differ(number, "the archive's report is too long", archive_length);
    if (known_figure_in(known, archive, archive_length) != known->figure)
        differ(number, "the archive's report", known_figure_in(known, archive, archive_length));
    if (known_figure_in(known, separate, separate_length) != known->figure)
        differ(number, "the separate report", known_figure_in(known, separate, separate_length));
}

static void compare_known_case(struct compare *compare, size_t number)
{
    static struct question question;
    static uint8_t plates[PAPER_PLATE_BYTES * PLATES_ROOM];
    static struct text text;
    const struct known *known = &known_cases[number];
    uint64_t figures[PAPER_PLACES];
    known_question(known, &question);
    question_figures(&question, figures);
    pack_plates(question.plates, question.plate_count, plates);
    uint64_t archive = archive_calls[known->part].figure(
        question.numbers, plates, PAPER_PLATE_BYTES * question.plate_count, known->place);
    if (figures[known->place] != known->figure)
        differ(number, "the separate program", figures[known->place]);
    if (archive != known->figure)
        differ(number, "the archive", archive);
    write_sheet(&question, &text);
    compare_known_sheet(number, &text);
    compare_question(compare, &question);
    compare_sheet(compare, &text);
    compare_spaces(compare, &text);
}

/* A sheet whose whole report is known. */
static void compare_printed(struct compare *compare, const struct known_sheet *known)
{
    static struct text text;
    uint8_t archive[PAPER_REPORT_ROOM], separate[PAPER_REPORT_ROOM];
    const size_t length = strlen(known->report);
    text.length = strlen(known->sheet);
    memcpy(text.bytes, known->sheet, text.length);
    if (scantling_sheet(text.bytes, text.length, archive, sizeof archive) != length ||
        paper_sheet(text.bytes, text.length, separate, sizeof separate) != length ||
        memcmp(archive, known->report, length) != 0 || memcmp(separate, known->report, length) != 0) {
        printf("difference: the report of the sheet\n%sis to be\n%s", known->sheet, known->report);
        exit(1);
    }
    compare_sheet(compare, &text);
    compare_spaces(compare, &text);
}

static void compare_known(struct compare *compare)
{
    for (size_t number = 0; number < known_count; number++)
        compare_known_case(compare, number);
    for (size_t number = 0; number < known_sheet_count; number++)
        compare_printed(compare, &known_sheets[number]);
}

/* ---- Limits ---- */

/* A question as numbers and as a sheet. */
static void compare_both(struct compare *compare, const struct question *question)
{
    static struct text text;
    write_sheet(question, &text);
    compare_question(compare, question);
    compare_sheet(compare, &text);
}

/* These numbers with some plates, likewise. */
static void compare_with_plates(struct compare *compare, struct question *question)
{
    draw_plates(&compare->rng, 0, PAPER_SHEET_PLATES, question);
    if (rng_one_in(&compare->rng, 4))
        give_standard_plates(question);
    compare_both(compare, question);
}

static void compare_limit(struct compare *compare, const struct limit *limit, int step)
{
    static struct question question;
    for (int round = 0; round < LIMIT_ROUNDS; round++) {
        draw_limit(&compare->rng, limit, step, &question);
        compare_with_plates(compare, &question);
    }
}

/* The least end and numbers of both parts from this list. */
static void compare_plate_limit(struct compare *compare, const struct plate_limit *limit)
{
    static struct question question;
    const struct wish nothing = wish_nothing();
    give_least_end(&question);
    for (int round = 0; round < LIMIT_ROUNDS; round++) {
        give_plate_limit(limit, &question);
        compare_both(compare, &question);
        draw_numbers(&compare->rng, draw_part(&compare->rng), &nothing, &question);
    }
}

/* About what is left of a plate of the usual stock, and about its thickness. */
static void compare_stock_limit(struct compare *compare, size_t plate)
{
    static struct question question;
    for (int step = -1; step <= 31; step = step == 1 ? 29 : step + 1) {
        give_stock_limit(plate, step, &question);
        compare_both(compare, &question);
    }
}

static void compare_limits(struct compare *compare)
{
    for (size_t i = 0; i < limit_count; i++)
        for (int step = -1; step <= 1; step++)
            compare_limit(compare, &limits[i], step);
    for (size_t i = 0; i < plate_limit_count; i++)
        compare_plate_limit(compare, &plate_limits[i]);
    for (size_t plate = 0; plate < PAPER_STANDARD_PLATES; plate++)
        compare_stock_limit(compare, plate);
}

/* ---- Thin flanges ---- */

static void compare_thin(struct compare *compare)
{
    static struct question question;
    for (int round = 0; round < THIN_ROUNDS; round++) {
        draw_thin_flange(&compare->rng, &question);
        compare_with_plates(compare, &question);
    }
}

/* ---- Least roots ---- */

static void compare_root(struct compare *compare, uint64_t n)
{
    uint64_t archive = scantling_least_root(n), separate = paper_least_root(1, n);
    compare->roots++;
    if (archive == separate)
        return;
    printf("difference: scantling_least_root(%" PRIu64 "): archive %" PRIu64 ", separate program %" PRIu64 "\n", n,
           archive, separate);
    exit(1);
}

/* Numbers of one binary length, and squares with their neighbours. At 0 the neighbour below is 2^64 - 1. */
static void compare_roots_of_length(struct compare *compare, uint32_t bits)
{
    for (int round = 0; round < ROOT_ROUNDS; round++) {
        uint64_t root = rng_of_length(&compare->rng, bits / 2);
        compare_root(compare, rng_of_length(&compare->rng, bits));
        compare_root(compare, root * root - 1);
        compare_root(compare, root * root);
        compare_root(compare, root * root + 1);
    }
}

static void compare_roots(struct compare *compare)
{
    compare_root(compare, UINT64_MAX);
    for (uint64_t n = 0; n < 10000; n++)
        compare_root(compare, n);
    for (uint32_t bits = 0; bits <= 64; bits++)
        compare_roots_of_length(compare, bits);
}

/* ---- Books ---- */

static void compare_known_books(struct compare_books *compare)
{
    for (size_t number = 0; number < known_summary_count; number++)
        compare_known_summary(&compare->summaries, &known_summaries[number]);
    for (size_t number = 0; number < known_book_count; number++)
        compare_known_book(compare, &known_books[number]);
}

static void compare_drawn_summaries(struct compare_summaries *compare, uint64_t most)
{
    for (enum book_kind kind = 0; kind < BOOK_KINDS; kind++)
        for (uint64_t books = 0; books < most; books += SUMMARY_SHARE)
            compare_drawn_summary(compare, kind);
}

/* The known summaries meet every kind. They are not counted, so that a kind that is never drawn is seen. */
static void compare_all_books(struct compare_books *compare, uint64_t most)
{
    compare_known_books(compare);
    compare->summaries = (struct compare_summaries){.rng = compare->summaries.rng};
    while (compare->books < most)
        compare_drawn_book(compare);
    compare_drawn_summaries(&compare->summaries, most);
}

/* ---- The program ---- */

static void print_causes(const char *name, const uint64_t accepted[PARTS], const uint64_t causes[CAUSES])
{
    printf("%s: accepted", name);
    for (enum part part = PART_NONE + 1; part < PARTS; part++)
        printf(" %s:%" PRIu64, paper_parts[part].word, accepted[part]);
    printf("; refused by cause");
    for (int cause = CAUSE_NONE + 1; cause < CAUSES; cause++)
        printf(" %d:%" PRIu64, cause, causes[cause]);
    printf("\n");
}

static void print_plates(const char *name, const struct plate_counts *counts)
{
    printf("%s: plates chosen with a minus %" PRIu64 ", with no more left than the total %" PRIu64
           ", of the usual stock %" PRIu64 "; past a thinner one that serves but for its minus %" PRIu64
           ", beside one of a minus above its thickness %" PRIu64 "; first of equals of other minus that serve %" PRIu64
           ", after an equal that does not %" PRIu64 "\n",
           name, counts->with_minus, counts->just, counts->standard, counts->too_thin, counts->minus_above,
           counts->first_of_equals, counts->after_equal);
}

static void print_counts(const struct compare *compare)
{
    printf("%" PRIu64 " numeric calls, %" PRIu64 " sheets, %" PRIu64 " other spaces, %" PRIu64 " roots, %" PRIu64
           " accuracy checks\n",
           compare->calls, compare->sheets, compare->spaces, compare->roots, compare->accuracy.checks);
    printf("of the accuracy checks %" PRIu64 " on flanges of 0.50 to 4.00 mm, %" PRIu64
           " on bolts that would not carry whole newtons\n",
           compare->accuracy.thin, compare->accuracy.fraction);
    printf("%" PRIu64 " numeric questions without a list; sheets in order %" PRIu64 " with a list, %" PRIu64
           " with the usual stock, %" PRIu64 " with none; of the lists %" PRIu64 " with a colon at some entries, %" PRIu64
           " at all\n",
           compare->standard, compare->stocks[PAPER_LISTED], compare->stocks[PAPER_STANDARD],
           compare->stocks[PAPER_NONE], compare->some_colons, compare->all_colons);
    print_plates("numeric questions", &compare->question_plates);
    print_plates("sheets", &compare->sheet_plates);
    printf("bytes over at numeric questions:");
    for (size_t over = 0; over < PAPER_PLATE_BYTES; over++)
        printf(" %lu:%" PRIu64, (unsigned long)over, compare->over[over]);
    printf("\n");
    print_causes("numeric questions", compare->question_accepted, compare->question_causes);
    print_causes("sheets", compare->sheet_accepted, compare->sheet_causes);
}

static void print_books(const struct compare_books *compare)
{
    printf("%" PRIu64 " books of %" PRIu64 " pieces, %" PRIu64 " of more than %d pieces, %" PRIu64
           " that end in LF part=; %" PRIu64 " calls\n",
           compare->books, compare->pieces, compare->past_limit, PAPER_MOST_SHEETS, compare->ends_in_key,
           compare->calls);
    printf("limits and spaces of books: accepted %" PRIu64 "; refused by cause %d:%" PRIu64 " %d:%" PRIu64 "; %" PRIu64
           " with other pieces past the limit\n",
           compare->asked[CAUSE_NONE], CAUSE_SPACE, compare->asked[CAUSE_SPACE], CAUSE_LIMIT,
           compare->asked[CAUSE_LIMIT], compare->other_ends);
    print_causes("pieces", compare->accepted, compare->causes);
    printf("%" PRIu64 " refused pieces between accepted ones; %" PRIu64 " pieces by themselves, %" PRIu64
           " accuracy checks, %" PRIu64 " of them on flanges of 0.50 to 4.00 mm\n",
           compare->between_accepted, compare->alone, compare->accuracy.checks, compare->accuracy.thin);
}

static uint64_t argument(int count, char **words, int number, uint64_t otherwise)
{
    char *end;
    if (number >= count)
        return otherwise;
    uint64_t value = strtoull(words[number], &end, 10);
    if (words[number][0] < '0' || words[number][0] > '9' || *end != '\0' || count > 6) {
        fprintf(stderr, "usage: compare [NUMERIC_CALLS [SHEETS [SEED [BOOKS [SIZES]]]]]\n");
        exit(2);
    }
    return value;
}

int main(int argc, char **argv)
{
    static struct compare compare;
    static struct compare_books books;
    static struct compare_bolts bolts;
    static struct compare_supports supports;
    const uint64_t calls = argument(argc, argv, 1, 1000000);
    const uint64_t sheets = argument(argc, argv, 2, 1000000);
    compare.rng.state = argument(argc, argv, 3, 8532);
    const uint64_t most_books = argument(argc, argv, 4, 75000);
    const uint64_t most_sizes = argument(argc, argv, 5, 40000);
    books.rng = compare.rng;
    books.summaries.rng = compare.rng;
    bolts.rng = compare.rng;
    printf("seed %" PRIu64 "\n", compare.rng.state);
    fflush(stdout);
    compare_known(&compare);
    compare_limits(&compare);
    compare_thin(&compare);
    compare_roots(&compare);
    while (compare.calls < calls)
        compare_drawn_question(&compare);
    while (compare.sheets < sheets)
        compare_drawn_sheet(&compare);
    print_counts(&compare);
    fflush(stdout);
    compare_all_supports(&supports);
    print_supports(&supports);
    fflush(stdout);
    compare_all_bolts(&bolts, most_sizes);
    print_bolts(&bolts);
    fflush(stdout);
    compare_all_books(&books, most_books);
    print_books(&books);
    print_summaries(&books.summaries);
    printf("no difference\n");
    return 0;
}
