/* Books of sheets. */
#include "compare.h"
#include "known.h"
#include "scantling.h"

#include <inttypes.h>
#include <stdio.h>
#include <stdlib.h>
#include <string.h>

#define MOST_LENT (SCANTLING_LONGEST_BATCH + 64)

static uint8_t area[GUARD + MOST_LENT + GUARD]; /* the space that the archive is lent, and the bytes about it */
static uint8_t reports[MOST_LENT];              /* what the separate program wrote */

/* What is asked of a book, and the separate program's answer; its reports stand in `reports`. */
struct asking {
    const uint8_t *text;
    size_t length;
    uint32_t limit;
    size_t lent;
    uint64_t figures[BATCH_PLACES];
};

/* ---- A book and its pieces ---- */

uint32_t first_pieces(const struct cut_book *book)
{
    return book->pieces < PAPER_MOST_SHEETS ? book->pieces : PAPER_MOST_SHEETS;
}

/* The piece of this number from start on. */
static void work_piece(struct cut_book *book, uint32_t number, size_t start, size_t length)
{
    uint8_t report[PAPER_REPORT_ROOM];
    book->starts[number + 1] = start + length;
    book->report_starts[number + 1] =
        book->report_starts[number] + paper_report(book->bytes + start, length, report, &book->answers[number]);
}

static void cut_pieces(struct cut_book *book)
{
    size_t start = 0, length;
    book->pieces = 0;
    book->starts[0] = 0;
    book->report_starts[0] = 0;
    do {
        length = paper_piece(book->bytes + start, book->length - start);
        if (book->pieces < PAPER_MOST_SHEETS)
            work_piece(book, book->pieces, start, length);
        book->pieces++;
        start += length;
    } while (start < book->length);
}

void open_book(const struct book *from, struct cut_book *book)
{
    book->bytes = from->bytes;
    book->length = from->length;
    book->text = malloc(from->length + (from->length == 0));
    if (book->text == NULL)
        exit(2);
    memcpy(book->text, from->bytes, from->length);
    cut_pieces(book);
}

/* The first pieces by cause; those refused since the last accepted one stand between it and the next. */
static void count_pieces(struct compare_books *compare, const struct cut_book *book)
{
    int seen = 0;
    uint64_t refused = 0;
    for (uint32_t i = 0; i < first_pieces(book); i++) {
        const struct paper_answer *answer = &book->answers[i];
        const uint64_t cause = answer->figures[PLACE_CAUSE];
        refused += cause != CAUSE_NONE;
        compare->causes[cause]++;
        if (cause != CAUSE_NONE)
            continue;
        compare->accepted[answer->part]++;
        compare->between_accepted += seen ? refused : 0;
        seen = 1;
        refused = 0;
    }
}

static void count_book(struct compare_books *compare, const struct cut_book *book)
{
    compare->books++;
    compare->pieces += book->pieces;
    compare->past_limit += book->pieces > PAPER_MOST_SHEETS;
    compare->ends_in_key +=
        book->length >= CUT_LENGTH && memcmp(book->bytes + book->length - CUT_LENGTH, CUT_KEY, CUT_LENGTH) == 0;
    count_pieces(compare, book);
}

/* ---- One call ---- */

static void print_difference(const struct asking *asking, uint32_t place, uint64_t archive, const uint8_t *expected)
{
    printf("difference: scantling_batch, limit %" PRIu32 ", %lu bytes lent, place %" PRIu32 "\n", asking->limit,
           (unsigned long)asking->lent, place);
    print_bytes("book", asking->text, asking->length);
    printf("returned: archive %" PRIu64 "; separate program by place", archive);
    for (uint32_t i = 0; i < BATCH_PLACES; i++)
        printf(" %" PRIu64, asking->figures[i]);
    printf("\nthe space with %d bytes before and after it\n", GUARD);
    print_bytes("archive", area, GUARD + asking->lent + GUARD);
    print_bytes("separate program", expected, GUARD + asking->lent + GUARD);
}

/* A limit and a space, put to the separate program. */
static void ask(
    struct compare_books *compare, const struct cut_book *book, uint32_t limit, size_t lent, struct asking *asking)
{
    asking->text = book->text;
    asking->length = book->length;
    asking->limit = limit;
    asking->lent = lent;
    paper_book(asking->text, asking->length, limit, reports, lent, asking->figures);
    compare->asked[asking->figures[PLACE_CAUSE]]++;
}

/* The space and the bytes about it hold a random pattern, of which only reports that all fit may change any. A text of
   no bytes is null in every other call, a space of none in half of them. */
static void compare_place(struct compare_books *compare, const struct asking *asking, uint32_t place)
{
    static uint8_t expected[sizeof area];
    const size_t used = GUARD + asking->lent + GUARD;
    const int null_text = asking->length == 0 && compare->calls % 2 == 0;
    const int null_space = asking->lent == 0 && rng_one_in(&compare->rng, 2);
    const uint64_t separate = place < BATCH_PLACES ? asking->figures[place] : 0;
    rng_fill(&compare->rng, area, used);
    memcpy(expected, area, used);
    memcpy(expected + GUARD, reports, (size_t)asking->figures[BATCH_LENGTH_PLACE]);
    const uint64_t archive = scantling_batch(
        null_text ? NULL : asking->text, asking->length, asking->limit, null_space ? NULL : area + GUARD, asking->lent,
        place);
    compare->calls++;
    if (archive == separate && memcmp(area, expected, used) == 0)
        return;
    print_difference(asking, place, archive, expected);
    exit(1);
}

static uint32_t draw_place(struct rng *rng)
{
    return rng_below(rng, BATCH_PLACES);
}

/* One that has no figure. */
static uint32_t draw_other_place(struct rng *rng)
{
    switch (rng_below(rng, 4)) {
    case 0:
        return BATCH_PLACES;
    case 1:
        return UINT32_MAX;
    case 2:
        return 1u << rng_between(rng, 2, 31);
    default:
        return BATCH_PLACES + ((uint32_t)rng_bits(rng) & 0xFFFFFFF);
    }
}

/* The last is that of a figure, and leaves its reports in the space. */
static void compare_places(struct compare_books *compare, const struct asking *asking)
{
    compare_place(compare, asking, draw_other_place(&compare->rng));
    for (uint32_t place = 0; place < BATCH_PLACES; place++)
        compare_place(compare, asking, place);
}

/* ---- The pieces by themselves ---- */

/* Its report is the one that stands in the space, and its numbers are exact. */
static void compare_piece(struct compare_books *compare, const struct cut_book *book, uint32_t number)
{
    uint8_t report[SCANTLING_LONGEST_REPORT];
    const uint8_t *text = book->bytes + book->starts[number];
    const size_t length = book->starts[number + 1] - book->starts[number];
    const uint8_t *in_book = area + GUARD + book->report_starts[number];
    const size_t report_length = book->report_starts[number + 1] - book->report_starts[number];
    const size_t returned = scantling_sheet(text, length, report, sizeof report);
    compare->alone++;
    if (returned != report_length || memcmp(report, in_book, report_length) != 0) {
        printf("difference: piece %" PRIu32 " (from 1) of a book by itself\n", number + 1);
        print_bytes("book", book->bytes, book->length);
        print_bytes("piece", text, length);
        print_bytes("report by itself", report, returned < sizeof report ? returned : sizeof report);
        print_bytes("report in the book", in_book, report_length);
        exit(1);
    }
    judge_report(&compare->accuracy, text, length, &book->answers[number], in_book, report_length);
}

static void compare_pieces(struct compare_books *compare, const struct cut_book *book, const struct asking *asking)
{
    for (uint32_t i = 0; i < asking->figures[BATCH_COUNT_PLACE]; i++)
        compare_piece(compare, book, i);
}

uint8_t *draw_other_end(struct rng *rng, const struct cut_book *book, uint32_t pieces, size_t *length)
{
    const size_t kept = book->starts[pieces];
    const size_t over = rng_one_in(rng, 2) ? KEY_LENGTH + rng_below(rng, 64) : 0;
    uint8_t *text = malloc(kept + over);
    if (text == NULL)
        exit(2);
    memcpy(text, book->bytes, kept);
    rng_fill(rng, text + kept, over);
    memcpy(text + kept, FIRST_KEY, over == 0 ? 0 : KEY_LENGTH);
    *length = kept + over;
    return text;
}

/* What stands past the limit does not matter. */
static void compare_other_end(struct compare_books *compare, const struct cut_book *book, const struct asking *asking)
{
    if (asking->limit < 1 || asking->limit > PAPER_MOST_SHEETS || asking->limit >= book->pieces)
        return;
    struct asking other = *asking;
    uint8_t *text = draw_other_end(&compare->rng, book, asking->limit, &other.length);
    other.text = text;
    compare_place(compare, &other, draw_place(&compare->rng));
    compare->other_ends++;
    free(text);
}

/* ---- Limits and spaces ---- */

#define LIMITS 10

/* A limit about the ends or about the number of pieces. */
static uint32_t limit_about(uint32_t number, uint32_t pieces)
{
    const uint32_t most = PAPER_MOST_SHEETS;
    const uint32_t limits[LIMITS] = {
        0, 1, 2, pieces - 1, pieces, pieces + 1, most - 1, most, most + 1, UINT32_MAX};
    return limits[number];
}

static uint32_t draw_book_limit(struct rng *rng, uint32_t pieces)
{
    switch (rng_below(rng, 8)) {
    case 0:
    case 1:
        return limit_about(rng_below(rng, LIMITS), pieces);
    case 2:
        return rng_between(rng, 1, pieces < PAPER_MOST_SHEETS ? pieces : PAPER_MOST_SHEETS);
    case 3:
        return (uint32_t)rng_of_length(rng, rng_below(rng, 33));
    default:
        return PAPER_MOST_SHEETS;
    }
}

/* The length of the reports of as many pieces; of the first ones where the limit is refused. */
static size_t full_length(const struct cut_book *book, uint32_t limit)
{
    const uint32_t most = first_pieces(book);
    return book->report_starts[limit == 0 || limit > most ? most : limit];
}

/* Mostly enough. */
static size_t draw_lent(struct rng *rng, size_t full)
{
    switch (rng_below(rng, 12)) {
    case 0:
        return full - 1;
    case 1:
    case 2:
        return full;
    case 3:
        return full + 1;
    case 4:
        return rng_below(rng, (uint32_t)full);
    case 5:
        return rng_one_in(rng, 2) ? 0 : SCANTLING_LONGEST_BATCH;
    default:
        return full + rng_below(rng, 64);
    }
}

/* One limit, and each space from this one on to some more than the reports. */
static void compare_book_spaces(struct compare_books *compare, const struct cut_book *book, uint32_t limit, size_t lent)
{
    const size_t full = full_length(book, limit);
    struct asking asking;
    for (; lent < full + 8; lent++) {
        ask(compare, book, limit, lent, &asking);
        compare_place(compare, &asking, draw_place(&compare->rng));
    }
}

/* Every limit about the ends and the number of pieces, with every space or those about the length of the reports. */
static void compare_book_limits(struct compare_books *compare, const struct cut_book *book, int every_space)
{
    for (uint32_t number = 0; number < LIMITS; number++) {
        const uint32_t limit = limit_about(number, book->pieces);
        compare_book_spaces(compare, book, limit, every_space ? 0 : full_length(book, limit) - 4);
    }
}

/* ---- Books ---- */

/* The book in work, its pieces, and what is asked of it first. */
static struct book drawn;
static struct cut_book cut;
static struct asking asked;

static void compare_more(struct compare_books *compare)
{
    struct asking asking;
    for (int i = 0; i < 2; i++) {
        const uint32_t limit = draw_book_limit(&compare->rng, cut.pieces);
        ask(compare, &cut, limit, draw_lent(&compare->rng, full_length(&cut, limit)), &asking);
        compare_place(compare, &asking, draw_place(&compare->rng));
    }
}

/* The book in work, asked with this limit and this space. */
static void compare_book(struct compare_books *compare)
{
    count_book(compare, &cut);
    compare_places(compare, &asked);
    compare_pieces(compare, &cut, &asked);
    compare_other_end(compare, &cut, &asked);
    compare_summary(&compare->summaries, &cut);
}

void compare_drawn_book(struct compare_books *compare)
{
    draw_book(&compare->rng, &drawn);
    open_book(&drawn, &cut);
    const uint32_t limit = draw_book_limit(&compare->rng, cut.pieces);
    ask(compare, &cut, limit, draw_lent(&compare->rng, full_length(&cut, limit)), &asked);
    compare_book(compare);
    compare_more(compare);
    if (rng_one_in(&compare->rng, 200))
        compare_book_limits(compare, &cut, 0);
    free(cut.text);
}

void compare_known_book(struct compare_books *compare, const struct known_book *known)
{
    drawn.length = 0;
    append_to_book(&drawn, known->book, strlen(known->book));
    open_book(&drawn, &cut);
    ask(compare, &cut, known->limit, known->lent, &asked);
    const size_t length = strlen(known->reports);
    if (memcmp(asked.figures, known->figures, sizeof asked.figures) != 0 ||
        length != known->figures[BATCH_LENGTH_PLACE] || memcmp(reports, known->reports, length) != 0) {
        printf("difference: the separate program's answer, limit %" PRIu32
               ", %lu bytes lent, to the book\n%s\nis not\n%s",
               known->limit, (unsigned long)known->lent, known->book, known->reports);
        exit(1);
    }
    compare_book(compare);
    compare_book_limits(compare, &cut, 1);
    free(cut.text);
}
