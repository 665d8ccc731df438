/* Sheets as text, and the ways in which a text is damaged. */
#ifndef SHEETS_H
#define SHEETS_H

#include "numbers.h"

#define TEXT_ROOM 4096

struct text {
    uint8_t bytes[TEXT_ROOM];
    size_t length;
};

/* Puts these bytes in the place of cut others. What would not fit the room of the text is left out. */
void splice_bytes(
    uint8_t *text, size_t *text_length, size_t room, size_t at, size_t cut, const void *bytes, size_t length);

/* The sheet of a question with at most 64 plates: none for an empty list, nothing for the usual stock. A minus of 0 is
   left out with its colon, except where the question's colons have it. A form other than 1, 2, 3 becomes the letter b. */
void write_sheet(const struct question *question, struct text *text);

/* Damage number 0 to damage_count - 1 of a sheet. Some leave a sheet that is still sound. */
extern const uint32_t damage_count;
void damage_text(struct rng *rng, uint32_t damage, struct text *text);

/* Any sheet: half of them are sound, and so is a part of the rest. */
void draw_sheet(struct rng *rng, struct text *text);

#endif
