/* Summaries of books. */
#include "compare.h"
#include "known.h"
#include "scantling.h"

#include <inttypes.h>
#include <stdio.h>
#include <stdlib.h>
#include <string.h>

#define MOST_LENT (SCANTLING_LONGEST_SUMMARY + 64)
#define MANY 1000 /* summaries; fewer may not meet every kind */

static const char *const kind_names[SUMMARY_KINDS] = {
    [SUMMARY_MIXED] = "some accepted and some refused",
    [SUMMARY_ALL_ACCEPTED] = "all accepted",
    [SUMMARY_NOTHING_ACCEPTED] = "nothing accepted",
    [SUMMARY_ONE_PIECE] = "one piece",
    [SUMMARY_AT_LIMIT] = "the most pieces that are counted",
    [SUMMARY_PAST_LIMIT] = "more pieces",
    [SUMMARY_ACCEPTED_PAST_LIMIT] = "the first not counted accepted",
    [SUMMARY_OTHER_END] = "those not counted replaced",
    [SUMMARY_EXACT_PLATE] = "a plate that is the total",
    [SUMMARY_MINUS] = "a plate with a minus",
    [SUMMARY_SPACE_AMPLE] = "in more space",
    [SUMMARY_SPACE_ABOVE] = "one byte more",
    [SUMMARY_SPACE_AT] = "the length",
    [SUMMARY_SPACE_BELOW] = "one byte less",
    [SUMMARY_SPACE_SHORT] = "less",
    [SUMMARY_SPACE_NONE] = "none",
    [SUMMARY_NULL_SPACE] = "with a null space",
    [SUMMARY_NULL_TEXT] = "with a null text",
};

static uint8_t area[GUARD + MOST_LENT + GUARD]; /* the space that the archive is lent, and the bytes about it */

/* What the separate program wrote. */
static uint8_t summary[PAPER_LONGEST_SUMMARY];
static size_t summary_length;

/* ---- What is met ---- */

static void meet(struct compare_summaries *compare, enum summary_kind kind, int met)
{
    compare->kinds[kind] += (uint64_t)(met != 0);
}

static int accepted_past_limit(const struct cut_book *book)
{
    uint8_t report[PAPER_REPORT_ROOM];
    struct paper_answer answer;
    if (book->pieces <= PAPER_MOST_SHEETS)
        return 0;
    const uint8_t *text = book->bytes + book->starts[PAPER_MOST_SHEETS];
    paper_report(text, paper_piece(text, book->length - book->starts[PAPER_MOST_SHEETS]), report, &answer);
    return answer.plate != NULL;
}

static void count_pieces(struct compare_summaries *compare, const struct cut_book *book)
{
    int met[CAUSES] = {0}, exact = 0, minus = 0;
    for (uint32_t i = 0; i < first_pieces(book); i++) {
        const struct paper_answer *answer = &book->answers[i];
        met[answer->figures[PLACE_CAUSE]] = 1;
        if (answer->plate == NULL)
            continue;
        exact |= answer->plate->thickness == answer->figures[paper_parts[answer->part].total_place];
        minus |= answer->plate->under_tolerance > 0;
    }
    const int accepted = met[CAUSE_NONE];
    int refused = 0;
    for (int cause = CAUSE_NONE + 1; cause < CAUSES; cause++) {
        compare->causes[cause] += (uint64_t)met[cause];
        refused |= met[cause];
    }
    meet(compare, SUMMARY_MIXED, accepted && refused);
    meet(compare, SUMMARY_ALL_ACCEPTED, !refused);
    meet(compare, SUMMARY_NOTHING_ACCEPTED, !accepted);
    meet(compare, SUMMARY_EXACT_PLATE, exact);
    meet(compare, SUMMARY_MINUS, minus);
}

static void count_book(struct compare_summaries *compare, const struct cut_book *book)
{
    compare->summaries++;
    count_pieces(compare, book);
    meet(compare, SUMMARY_ONE_PIECE, book->pieces == 1);
    meet(compare, SUMMARY_AT_LIMIT, book->pieces == PAPER_MOST_SHEETS);
    meet(compare, SUMMARY_PAST_LIMIT, book->pieces > PAPER_MOST_SHEETS);
    meet(compare, SUMMARY_ACCEPTED_PAST_LIMIT, accepted_past_limit(book));
}

static void count_space(struct compare_summaries *compare, size_t lent)
{
    const size_t needed = summary_length;
    compare->calls++;
    meet(compare, SUMMARY_SPACE_AMPLE, lent > needed + 1);
    meet(compare, SUMMARY_SPACE_ABOVE, lent == needed + 1);
    meet(compare, SUMMARY_SPACE_AT, lent == needed);
    meet(compare, SUMMARY_SPACE_BELOW, lent == needed - 1);
    meet(compare, SUMMARY_SPACE_SHORT, lent > 0 && lent < needed - 1);
    meet(compare, SUMMARY_SPACE_NONE, lent == 0);
}

static int cause_met(const struct compare_summaries *compare, uint32_t cause)
{
    if (compare->causes[cause] > 0)
        return 1;
    printf("never met: a summary with a piece refused by %" PRIu32 "\n", cause);
    return 0;
}

static int all_met(const struct compare_summaries *compare)
{
    int all = 1;
    for (size_t i = 0; i < paper_sheet_cause_count; i++)
        all &= cause_met(compare, paper_sheet_causes[i]);
    for (enum summary_kind kind = 0; kind < SUMMARY_KINDS; kind++)
        if (compare->kinds[kind] == 0) {
            printf("never met: a summary, %s\n", kind_names[kind]);
            all = 0;
        }
    return all;
}

void print_summaries(const struct compare_summaries *compare)
{
    printf("%" PRIu64 " summaries of drawn books:", compare->summaries);
    for (enum summary_kind kind = 0; kind < SUMMARY_SPACE_AMPLE; kind++)
        printf("%s %s %" PRIu64, kind == 0 ? "" : ",", kind_names[kind], compare->kinds[kind]);
    printf("; with pieces refused by cause");
    for (size_t i = 0; i < paper_sheet_cause_count; i++)
        printf(" %" PRIu32 ":%" PRIu64, paper_sheet_causes[i], compare->causes[paper_sheet_causes[i]]);
    printf("\n%" PRIu64 " calls for these:", compare->calls);
    for (enum summary_kind kind = SUMMARY_SPACE_AMPLE; kind < SUMMARY_KINDS; kind++)
        printf("%s %s %" PRIu64, kind == SUMMARY_SPACE_AMPLE ? "" : ",", kind_names[kind], compare->kinds[kind]);
    printf("; held to %" PRIu64 " reports\n", compare->alone);
    if (compare->summaries >= MANY && !all_met(compare))
        exit(1);
}

/* ---- One call ---- */

static void print_difference(
    const uint8_t *text, size_t length, size_t lent, size_t returned, const uint8_t *expected)
{
    printf("difference: scantling_summary, %lu bytes lent\n", (unsigned long)lent);
    print_bytes("book", text, length);
    printf("returned: archive %lu, separate program %lu\n", (unsigned long)returned, (unsigned long)summary_length);
    printf("the space with %d bytes before and after it\n", GUARD);
    print_bytes("archive", area, GUARD + lent + GUARD);
    print_bytes("separate program", expected, GUARD + lent + GUARD);
}

/* The space and the bytes about it hold a random pattern, of which only a summary that fits may change any. A text and
   a space of no bytes are null half the time. */
static void compare_text(struct compare_summaries *compare, const uint8_t *text, size_t length, size_t lent)
{
    static uint8_t expected[sizeof area];
    const size_t used = GUARD + lent + GUARD;
    const int null_text = length == 0 && rng_one_in(&compare->rng, 2);
    const int null_space = lent == 0 && rng_one_in(&compare->rng, 2);
    count_space(compare, lent);
    meet(compare, SUMMARY_NULL_TEXT, null_text);
    meet(compare, SUMMARY_NULL_SPACE, null_space);
    rng_fill(&compare->rng, area, used);
    memcpy(expected, area, used);
    if (summary_length <= lent)
        memcpy(expected + GUARD, summary, summary_length);
    const size_t returned = scantling_summary(null_text ? NULL : text, length, null_space ? NULL : area + GUARD, lent);
    if (returned == summary_length && memcmp(area, expected, used) == 0)
        return;
    print_difference(text, length, lent, returned, expected);
    exit(1);
}

static void compare_space(struct compare_summaries *compare, const struct cut_book *book, size_t lent)
{
    compare_text(compare, book->text, book->length, lent);
}

/* What stands past the pieces that are counted does not matter. */
static void compare_other_end(struct compare_summaries *compare, const struct cut_book *book)
{
    if (book->pieces <= PAPER_MOST_SHEETS)
        return;
    size_t length;
    uint8_t *text = draw_other_end(&compare->rng, book, PAPER_MOST_SHEETS, &length);
    compare_text(compare, text, length, SCANTLING_LONGEST_SUMMARY);
    meet(compare, SUMMARY_OTHER_END, 1);
    free(text);
}

/* ---- The archive's own reports ---- */

/* The figures of a summary; causes has those of the numbered lines. */
struct figures {
    uint64_t lines, pieces, accepted, refused, causes[CAUSES], sum, least, greatest;
};

static uint64_t count_lines(const uint8_t *text, size_t length)
{
    uint64_t lines = 0;
    for (size_t i = 0; i < length; i++)
        lines += text[i] == '\n';
    return lines;
}

static void read_summary(const uint8_t *text, size_t length, struct figures *figures)
{
    memset(figures, 0, sizeof *figures);
    figures->lines = count_lines(text, length);
    figures->pieces = report_figure(text, length, "pieces");
    figures->accepted = report_figure(text, length, "accepted");
    figures->refused = report_figure(text, length, "refused");
    figures->sum = report_figure(text, length, "sum");
    figures->least = report_figure(text, length, "least");
    figures->greatest = report_figure(text, length, "greatest");
    for (uint32_t cause = CAUSE_NONE + 1; cause < CAUSES; cause++) {
        char key[24];
        sprintf(key, "refused%" PRIu32, cause);
        figures->causes[cause] = report_figure(text, length, key);
    }
}

/* A report or a refusal. No plate is 0, for no total is. */
static void add_report(const uint8_t *report, size_t length, struct figures *figures)
{
    const uint64_t plate = report_figure(report, length, "plate");
    const uint64_t excess = plate - report_figure(report, length, "total");
    figures->pieces++;
    if (plate == 0) {
        figures->refused++;
        figures->causes[report_figure(report, length, "refused") % CAUSES]++;
        return;
    }
    if (figures->accepted == 0 || excess < figures->least)
        figures->least = excess;
    if (excess > figures->greatest)
        figures->greatest = excess;
    figures->accepted++;
    figures->sum += excess;
}

/* Of the archive's reports of the pieces, each answered by itself. */
static void add_reports(const struct cut_book *book, struct figures *figures)
{
    uint8_t report[SCANTLING_LONGEST_REPORT];
    memset(figures, 0, sizeof *figures);
    for (uint32_t i = 0; i < first_pieces(book); i++) {
        const size_t length = scantling_sheet(
            book->bytes + book->starts[i], book->starts[i + 1] - book->starts[i], report, sizeof report);
        add_report(report, length, figures);
    }
    figures->lines = 4 + paper_sheet_cause_count + (figures->accepted > 0 ? 2 : 0);
}

/* The summary stands in the space. */
static void judge_summary(struct compare_summaries *compare, const struct cut_book *book)
{
    struct figures figures, reports;
    read_summary(area + GUARD, summary_length, &figures);
    add_reports(book, &reports);
    compare->alone += reports.pieces;
    if (memcmp(&figures, &reports, sizeof figures) == 0)
        return;
    printf("difference: a summary does not have the figures of the archive's reports of the pieces\n");
    print_bytes("book", book->bytes, book->length);
    print_bytes("summary", area + GUARD, summary_length);
    exit(1);
}

/* ---- Spaces and books ---- */

/* None, one byte more than the summary, or less. */
static size_t draw_lent(struct rng *rng)
{
    switch (rng_below(rng, 3)) {
    case 0:
        return 0;
    case 1:
        return summary_length + 1;
    default:
        return rng_below(rng, (uint32_t)summary_length);
    }
}

static void ask(const struct cut_book *book)
{
    summary_length = paper_summary(book->text, book->length, summary, sizeof summary);
}

void compare_summary(struct compare_summaries *compare, const struct cut_book *book)
{
    ask(book);
    count_book(compare, book);
    compare_space(compare, book, SCANTLING_LONGEST_SUMMARY);
    judge_summary(compare, book);
    compare_space(compare, book, summary_length);
    compare_space(compare, book, summary_length - 1);
    compare_space(compare, book, draw_lent(&compare->rng));
    compare_other_end(compare, book);
}

/* The book in work and its pieces. */
static struct book work;
static struct cut_book cut;

void compare_drawn_summary(struct compare_summaries *compare, enum book_kind kind)
{
    draw_book_of(&compare->rng, kind, &work);
    open_book(&work, &cut);
    compare_summary(compare, &cut);
    free(cut.text);
}

static void lay_known(const struct known_summary *known)
{
    work.length = 0;
    append_to_book(&work, known->first, strlen(known->first));
    for (uint32_t i = 0; i < known->copies; i++)
        append_to_book(&work, known->again, strlen(known->again));
    append_to_book(&work, known->last, strlen(known->last));
}

void compare_known_summary(struct compare_summaries *compare, const struct known_summary *known)
{
    const size_t length = strlen(known->summary);
    lay_known(known);
    open_book(&work, &cut);
    ask(&cut);
    if (summary_length != length || memcmp(summary, known->summary, length) != 0) {
        printf("difference: the separate program's summary is to be\n%s", known->summary);
        print_bytes("book", work.bytes, work.length);
        print_bytes("it is", summary, summary_length);
        exit(1);
    }
    compare_summary(compare, &cut);
    for (size_t lent = 0; lent < summary_length + 8; lent++)
        compare_space(compare, &cut, lent);
    free(cut.text);
}
