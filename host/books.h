/* Books of sheets as text, and the ways in which a book is damaged. */
#ifndef BOOKS_H
#define BOOKS_H

#include "sheets.h"

#define BOOK_SHEETS 70 /* the most that a book is drawn with */
#define BOOK_ROOM (BOOK_SHEETS * TEXT_ROOM)

/* What a sheet begins with. A book is cut before it, where it stands after an LF. */
#define FIRST_KEY "part="
#define KEY_LENGTH ((uint32_t)sizeof FIRST_KEY - 1)
#define CUT_KEY "\n" FIRST_KEY
#define CUT_LENGTH (1 + KEY_LENGTH)

struct book {
    uint8_t bytes[BOOK_ROOM];
    size_t length;
};

/* What does not fit the room is left out. */
void append_to_book(struct book *book, const void *bytes, size_t length);

/* Any book of 0 to BOOK_SHEETS sheets, each as draw_sheet has it or a few bytes; a part of the books is damaged. */
void draw_book(struct rng *rng, struct book *book);

/* A book of pieces that are all refused or all accepted, of one piece, or of more than PAPER_MOST_SHEETS. */
enum book_kind { BOOK_REFUSED, BOOK_ACCEPTED, BOOK_ONE, BOOK_PAST_LIMIT, BOOK_KINDS };
void draw_book_of(struct rng *rng, enum book_kind kind, struct book *book);

#endif
