/* Document 01, "Numbers to hold", and a rib and lists worked by hand: what is asked, and the one figure that is known. */
#ifndef KNOWN_H
#define KNOWN_H

#include "numbers.h"

#define KNOWN_PLATES 3
struct known {
    enum part part;
    uint32_t numbers[BLIND_NUMBERS];
    struct paper_plate plates[KNOWN_PLATES];
    uint32_t place;
    uint64_t figure;
};

extern const struct known known_cases[];
extern const size_t known_count;

void known_question(const struct known *known, struct question *question);

/* Sheets whose whole reports are known: the printed blind sheet, the empty sheet, and ends from the usual stock and from
   plates with a minus. */
struct known_sheet {
    const char *sheet, *report;
};
extern const struct known_sheet known_sheets[];
extern const size_t known_sheet_count;

/* Books with a limit and the length of a space; and what is known of each: its figures by place and its reports. */
struct known_book {
    const char *book;
    uint32_t limit;
    size_t lent;
    uint64_t figures[BATCH_PLACES];
    const char *reports; /* what is written */
};
extern const struct known_book known_books[];
extern const size_t known_book_count;

/* Books as pieces that come once and, between them, so many copies of one; and what is known of each, its summary. */
struct known_summary {
    const char *first, *again;
    uint32_t copies;
    const char *last;
    const char *summary;
};
extern const struct known_summary known_summaries[];
extern const size_t known_summary_count;

#endif
