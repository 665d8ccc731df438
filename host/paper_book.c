/* Document 02, R-1: a book of sheets. */
#include "paper.h"

#include <string.h>

#define FIRST_KEY "part="

/* The length of the first line with its LF; of the whole text if it has none. */
static size_t line_length(const uint8_t *text, size_t length)
{
    const uint8_t *end = length == 0 ? NULL : memchr(text, '\n', length);
    return end == NULL ? length : (size_t)(end - text) + 1;
}

static int begins_sheet(const uint8_t *text, size_t length)
{
    return length >= strlen(FIRST_KEY) && memcmp(text, FIRST_KEY, strlen(FIRST_KEY)) == 0;
}

/* The first line is never cut off, whatever it begins with. */
size_t paper_piece(const uint8_t *text, size_t length)
{
    size_t at = line_length(text, length);
    while (at < length && !begins_sheet(text + at, length - at))
        at += line_length(text + at, length - at);
    return at;
}

/* All figures; a refusal has neither count nor length written. */
static void put_figures(uint64_t figures[], int cause, uint64_t figure, uint64_t count, uint64_t written)
{
    figures[PLACE_CAUSE] = (uint64_t)cause;
    figures[PLACE_FIGURE] = figure;
    figures[BATCH_COUNT_PLACE] = count;
    figures[BATCH_LENGTH_PLACE] = written;
}

/* Works the first limit pieces, or all if there are fewer; reports has room for any. Returns their length. */
static size_t work_pieces(const uint8_t *text, size_t length, uint32_t limit, uint8_t *reports, uint32_t *count)
{
    struct paper_answer answer;
    size_t needed = 0;
    for (*count = 1;; ++*count) {
        const size_t piece = paper_piece(text, length);
        needed += paper_report(text, piece, reports + needed, &answer);
        if (*count == limit || piece == length)
            return needed;
        text += piece;
        length -= piece;
    }
}

void paper_book(
    const uint8_t *text, size_t length, uint32_t limit, uint8_t *out, size_t out_length, uint64_t figures[BATCH_PLACES])
{
    uint8_t reports[PAPER_MOST_SHEETS * PAPER_REPORT_ROOM];
    uint32_t count;
    put_figures(figures, CAUSE_LIMIT, 0, 0, 0);
    if (limit == 0 || limit > PAPER_MOST_SHEETS)
        return;
    const size_t needed = work_pieces(text, length, limit, reports, &count);
    put_figures(figures, CAUSE_SPACE, needed, 0, 0);
    if (needed > out_length)
        return;
    memcpy(out, reports, needed);
    put_figures(figures, CAUSE_NONE, 0, count, needed);
}
