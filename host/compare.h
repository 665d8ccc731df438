/* The comparison of the archive with the separate calculation. A difference is printed in full and ends the program. */
#ifndef COMPARE_H
#define COMPARE_H

#include "archive.h"
#include "books.h"
#include "supports.h"

struct known_book;
struct known_summary;

#define GUARD 32 /* bytes on either side of a space that is lent */

/* Accepted answers judged by the exact inequalities. */
struct accuracy_counts {
    uint64_t checks;
    uint64_t thin;     /* of them, blind flanges with a need or an edge from 0.50 mm to 4.00 mm */
    uint64_t fraction; /* and those whose bolts carry the loads in tenths and would not carry them in whole newtons */
};

/* Accepted answers, by what the plate chosen is and what stands beside it in the list. */
struct plate_counts {
    uint64_t with_minus;
    uint64_t just;            /* thickness less minus is the total, and there is a minus */
    uint64_t standard;        /* of the usual stock */
    uint64_t too_thin;        /* another would be chosen if no plate had a minus */
    uint64_t minus_above;     /* in the list is a minus above its thickness */
    uint64_t first_of_equals; /* a later plate of the same thickness and another minus serves too */
    uint64_t after_equal;     /* an earlier plate of the same thickness does not serve */
};

struct compare {
    struct rng rng;
    uint64_t calls;    /* numeric calls, of one place each */
    uint64_t sheets;
    uint64_t spaces;   /* further calls with a sheet, in spaces of other lengths */
    uint64_t roots;
    struct accuracy_counts accuracy;
    uint64_t standard; /* questions of the calls without a list */
    uint64_t stocks[PAPER_STOCKS]; /* sheets that meet no cause 1, by what their plates line names */
    uint64_t some_colons, all_colons; /* of them, those with a colon at some but not all entries of a list, or at all */
    uint64_t over[PAPER_PLATE_BYTES]; /* questions with a list, by how many bytes are over */
    struct plate_counts question_plates, sheet_plates;
    uint64_t question_accepted[PARTS], sheet_accepted[PARTS];
    uint64_t question_causes[CAUSES]; /* what the numeric calls were asked, by cause */
    uint64_t sheet_causes[CAUSES];    /* likewise; CAUSE_SPACE counts the short spaces */
};

/* All places of a question or some of them. */
void compare_question(struct compare *compare, const struct question *question);
void compare_drawn_question(struct compare *compare);

/* An accepted answer is to be judged: the counts above. */
void count_accuracy(
    struct accuracy_counts *counts, enum part part, const uint32_t *numbers, const uint64_t *figures);

/* The accuracy demand on the numbers in the archive's report of a text, if the separate program accepts that. */
void judge_report(
    struct accuracy_counts *counts, const uint8_t *text, size_t text_length, const struct paper_answer *answer,
    const uint8_t *report, size_t report_length);

/* The plate chosen, one of plates, for this total. */
void count_plates(
    struct plate_counts *counts, const struct paper_plate *plates, size_t count, uint64_t total,
    const struct paper_plate *chosen);

/* A sheet in a space that no report exceeds; now and then in shorter ones too. */
void compare_sheet(struct compare *compare, const struct text *text);
void compare_drawn_sheet(struct compare *compare);

/* Every length of space from 0 to some more than the report. */
void compare_spaces(struct compare *compare, const struct text *text);

/* The number on the line of this key; 0 if the report has no such line. */
uint64_t report_figure(const uint8_t *report, size_t length, const char *key);

void print_bytes(const char *name, const uint8_t *bytes, size_t length);

/* A book, cut by the separate program, and its answers to the first pieces, PAPER_MOST_SHEETS at most. */
struct cut_book {
    const uint8_t *bytes;
    size_t length;
    uint8_t *text; /* the same in a block of exactly this length, or of one byte if there are none */
    uint32_t pieces;
    size_t starts[PAPER_MOST_SHEETS + 1];        /* of the first pieces, and where the last of them ends */
    size_t report_starts[PAPER_MOST_SHEETS + 1]; /* likewise of their reports */
    struct paper_answer answers[PAPER_MOST_SHEETS];
};

/* The text is to be freed. */
void open_book(const struct book *from, struct cut_book *book);

/* How many pieces have an answer. */
uint32_t first_pieces(const struct cut_book *book);

/* The first pieces, of more than so many, and past them nothing or any bytes after part=. Returns a text that is to be
   freed. */
uint8_t *draw_other_end(struct rng *rng, const struct cut_book *book, uint32_t pieces, size_t *length);

/* What a summary and a call for it can be, a call from SUMMARY_SPACE_AMPLE on. compare_summaries.c has the names. */
enum summary_kind {
    SUMMARY_MIXED, SUMMARY_ALL_ACCEPTED, SUMMARY_NOTHING_ACCEPTED, SUMMARY_ONE_PIECE, SUMMARY_AT_LIMIT,
    SUMMARY_PAST_LIMIT, SUMMARY_ACCEPTED_PAST_LIMIT, SUMMARY_OTHER_END, SUMMARY_EXACT_PLATE, SUMMARY_MINUS,
    SUMMARY_SPACE_AMPLE, SUMMARY_SPACE_ABOVE, SUMMARY_SPACE_AT, SUMMARY_SPACE_BELOW, SUMMARY_SPACE_SHORT,
    SUMMARY_SPACE_NONE, SUMMARY_NULL_SPACE, SUMMARY_NULL_TEXT, SUMMARY_KINDS
};

/* Summaries, with random numbers of their own. */
struct compare_summaries {
    struct rng rng;
    uint64_t summaries;
    uint64_t calls;
    uint64_t alone;                /* pieces that were answered by themselves too */
    uint64_t kinds[SUMMARY_KINDS];
    uint64_t causes[CAUSES];       /* summaries with a piece refused under each */
};

/* A book's summary in some spaces; against the archive's own reports of the pieces. */
void compare_summary(struct compare_summaries *compare, const struct cut_book *book);

/* In every space up to some more than the summary. */
void compare_known_summary(struct compare_summaries *compare, const struct known_summary *known);

void compare_drawn_summary(struct compare_summaries *compare, enum book_kind kind);

/* Ends the program if many summaries never meet a kind, or a cause of a piece. */
void print_summaries(const struct compare_summaries *compare);

/* Books, with random numbers of their own. */
struct compare_books {
    struct rng rng;
    struct compare_summaries summaries; /* of these books and others */
    uint64_t books;
    uint64_t pieces;           /* of all books */
    uint64_t past_limit;       /* books of more than PAPER_MOST_SHEETS pieces */
    uint64_t ends_in_key;      /* books that end in LF part= */
    uint64_t calls;            /* of one place each */
    uint64_t asked[CAUSES];    /* pairs of a limit and a space, by cause */
    uint64_t alone;            /* pieces that were answered by themselves too */
    uint64_t other_ends;       /* books whose pieces past the limit were replaced */
    uint64_t accepted[PARTS];  /* pieces among the first PAPER_MOST_SHEETS */
    uint64_t causes[CAUSES];   /* of them, the refused ones by cause */
    uint64_t between_accepted; /* of these, those with an accepted piece before and another after them */
    struct accuracy_counts accuracy;
};

/* Blind flanges whose bolts are chosen, with random numbers of their own. */
struct compare_bolts {
    struct rng rng;
    uint64_t calls;                     /* of one place each, those by hand among them */
    uint64_t by_hand;
    uint64_t pitches;                   /* by hand: bolts with just enough pitch, and a tenth of a mm short */
    uint64_t earlier;                   /* sizes and counts before the one taken, asked of the archive's blind flange */
    struct accuracy_counts accuracy;
    uint64_t null_lists;
    uint64_t questions;                 /* drawn; of these: */
    uint64_t causes[CAUSE_NO_BOLTS + 1];
    uint64_t empty, too_many, unequal;  /* no size, more than PAPER_MOST_SIZES, one list longer than the other */
    uint64_t over;                      /* bytes over in a list of sizes */
    uint64_t sizes[PAPER_MOST_SIZES];   /* accepted, by the number of the size taken, */
    uint64_t counts[PAPER_BOLT_COUNTS]; /* and by the count */
};

/* All by hand, and as many drawn; each by all places. */
void compare_all_bolts(struct compare_bolts *compare, uint64_t most);

/* Ends the program if many drawn ones never meet a cause, a size or a count. */
void print_bolts(const struct compare_bolts *compare);

/* Where answers change: of each entry of Table 13 its tube and its span, and the columns and rows of Table 14. */
#define SUPPORT_LIMITS (2 * SUPPORT_TUBE_ROWS * SUPPORT_GROUPS + SUPPORT_SPAN_COLUMNS + SUPPORT_PLATE_ROWS)

/* Support plates; no random numbers. */
struct compare_supports {
    uint64_t calls;     /* of one place each, those by hand among them */
    uint64_t by_hand;
    uint64_t questions; /* in all combinations; of these: */
    uint64_t causes[CAUSE_SUPPORT_PLATE + 1];
    uint64_t spans[SUPPORT_TUBE_ROWS * SUPPORT_GROUPS];              /* accepted, by entry of Table 13, row by row, */
    uint64_t thicknesses[SUPPORT_PLATE_ROWS * SUPPORT_SPAN_COLUMNS]; /* and of Table 14 */
    uint64_t limits[3 * SUPPORT_LIMITS];                             /* a mm below, at and a mm above each */
};

/* All by hand; then in all combinations every tube up to 80, the groups, spans and plates about each limit, and of all
   four the numbers about the ends of 8, 16, 31 and 32 bits. */
void compare_all_supports(struct compare_supports *compare);

/* Ends the program if they never meet a cause, an entry or a limit. */
void print_supports(const struct compare_supports *compare);

/* A book with some limits and some spaces, by all places or one. */
void compare_drawn_book(struct compare_books *compare);

/* With every limit about its number of pieces and about the ends, and every space up to some more than its reports. */
void compare_known_book(struct compare_books *compare, const struct known_book *known);

#endif
