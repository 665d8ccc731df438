/* Document 02, R-3: the summary of a book. */
#include "paper.h"

#include <inttypes.h>
#include <stdio.h>
#include <string.h>

const uint32_t paper_sheet_causes[] = {
    CAUSE_LINE, CAUSE_MATERIAL, CAUSE_PRESSURE, CAUSE_TEMPERATURE, CAUSE_DESIGN_STRESS, CAUSE_DIAMETER,
    CAUSE_ALLOWANCE, CAUSE_WIDTH, CAUSE_GASKET, CAUSE_BOLTS, CAUSE_BOLT_STRESS, CAUSE_CIRCLE, CAUSE_OVERLOAD,
    CAUSE_PLATE, CAUSE_RIB};
const size_t paper_sheet_cause_count = sizeof paper_sheet_causes / sizeof paper_sheet_causes[0];

/* The pieces that are summarised. */
struct pieces {
    size_t count;
    struct paper_answer answers[PAPER_MOST_SHEETS];
};

static void work_pieces(const uint8_t *text, size_t length, struct pieces *pieces)
{
    uint8_t report[PAPER_REPORT_ROOM];
    pieces->count = 0;
    for (;;) {
        const size_t piece = paper_piece(text, length);
        paper_report(text, piece, report, &pieces->answers[pieces->count++]);
        if (piece == length || pieces->count == PAPER_MOST_SHEETS)
            return;
        text += piece;
        length -= piece;
    }
}

/* ---- What is counted, each by itself ---- */

static uint64_t count_accepted(const struct pieces *pieces)
{
    uint64_t count = 0;
    for (size_t i = 0; i < pieces->count; i++)
        count += pieces->answers[i].plate != NULL;
    return count;
}

static uint64_t count_refused(const struct pieces *pieces)
{
    uint64_t count = 0;
    for (size_t i = 0; i < pieces->count; i++)
        count += pieces->answers[i].figures[PLACE_CAUSE] != CAUSE_NONE;
    return count;
}

static uint64_t count_refused_by(const struct pieces *pieces, uint32_t cause)
{
    uint64_t count = 0;
    for (size_t i = 0; i < pieces->count; i++)
        count += pieces->answers[i].figures[PLACE_CAUSE] == cause;
    return count;
}

/* Plate minus total over the accepted pieces, hundredths of a mm. Without any, sum is 0 and the others say nothing. */
struct excess {
    uint64_t sum, least, greatest;
};

static struct excess measure_excess(const struct pieces *pieces)
{
    struct excess excess = {0, UINT64_MAX, 0};
    for (size_t i = 0; i < pieces->count; i++) {
        const struct paper_answer *answer = &pieces->answers[i];
        if (answer->plate == NULL)
            continue;
        const uint64_t over = answer->plate->thickness - answer->figures[paper_parts[answer->part].total_place];
        excess.sum += over;
        excess.least = over < excess.least ? over : excess.least;
        excess.greatest = over > excess.greatest ? over : excess.greatest;
    }
    return excess;
}

/* ---- The lines ---- */

static size_t put_counts(const struct pieces *pieces, uint8_t *summary)
{
    size_t length = paper_put_line(summary, 0, "pieces", pieces->count);
    length = paper_put_line(summary, length, "accepted", count_accepted(pieces));
    length = paper_put_line(summary, length, "refused", count_refused(pieces));
    for (size_t i = 0; i < paper_sheet_cause_count; i++) {
        const uint32_t cause = paper_sheet_causes[i];
        char key[24];
        sprintf(key, "refused%" PRIu32, cause);
        length = paper_put_line(summary, length, key, count_refused_by(pieces, cause));
    }
    return length;
}

static size_t put_summary(const struct pieces *pieces, uint8_t *summary)
{
    const struct excess excess = measure_excess(pieces);
    size_t length = put_counts(pieces, summary);
    length = paper_put_line(summary, length, "sum", excess.sum);
    if (count_accepted(pieces) == 0)
        return length;
    length = paper_put_line(summary, length, "least", excess.least);
    return paper_put_line(summary, length, "greatest", excess.greatest);
}

size_t paper_summary(const uint8_t *text, size_t length, uint8_t *out, size_t out_length)
{
    uint8_t summary[PAPER_LONGEST_SUMMARY];
    struct pieces pieces;
    work_pieces(text, length, &pieces);
    const size_t needed = put_summary(&pieces, summary);
    if (needed <= out_length)
        memcpy(out, summary, needed);
    return needed;
}
