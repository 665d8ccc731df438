/* Support plates, by hand and in all combinations of tubes, groups, spans and plates about the limits. */
#include "compare.h"

#include <inttypes.h>
#include <stdio.h>
#include <stdlib.h>

#define LAST_TUBE 80 /* of those that are asked in a row, from 0 */
#define ROOM 128

/* ---- One question ---- */

static void compare_figure(
    const uint32_t n[SUPPORT_NUMBERS], uint32_t place, const char *one, uint64_t figure, const char *other,
    uint64_t other_figure)
{
    if (figure == other_figure)
        return;
    printf("difference: scantling_support_plate: tube=%" PRIu32 " group=%" PRIu32 " span=%" PRIu32 " plate=%" PRIu32
           " place=%" PRIu32 ": %s %" PRIu64 ", %s %" PRIu64 "\n",
           n[SUPPORT_TUBE], n[SUPPORT_GROUP], n[SUPPORT_SPAN], n[SUPPORT_PLATE], place, one, figure, other,
           other_figure);
    exit(1);
}

static uint64_t ask_archive(struct compare_supports *compare, const uint32_t n[SUPPORT_NUMBERS], uint32_t place)
{
    compare->calls++;
    return archive_support_plate(n, place);
}

static void compare_place(
    struct compare_supports *compare, const uint32_t n[SUPPORT_NUMBERS], const uint64_t figures[PAPER_PLACES],
    uint32_t place)
{
    const uint64_t separate = place < PAPER_PLACES ? figures[place] : 0;
    compare_figure(n, place, "archive", ask_archive(compare, n, place), "separate program", separate);
}

/* ---- By hand ---- */

/* The figures, and places past them, of which some would be a figure's if they were cut to 8, 16 or 31 bits. */
static const uint32_t known_places[] = {
    0, 1, 2, 3, 4, 5, 6, 255, 256, 257, 258, 259, 65536, 65538, 65539, 2147483648, 2147483650, 2147483651, UINT32_MAX};

static void compare_known_support(struct compare_supports *compare, const struct known_support *known)
{
    uint64_t figures[PAPER_PLACES];
    paper_support_plate(known->n, figures);
    for (size_t i = 0; i < COUNT(known_places); i++) {
        const uint32_t place = known_places[i];
        const uint64_t figure = place <= SUPPORT_THICKNESS_PLACE ? known->figures[place] : 0;
        const uint64_t separate = place < PAPER_PLACES ? figures[place] : 0;
        compare_figure(known->n, place, "by hand", figure, "separate program", separate);
        compare_figure(known->n, place, "by hand", figure, "archive", ask_archive(compare, known->n, place));
    }
}

/* ---- The numbers that are combined ---- */

/* Each once, in the order in which they were added. */
struct asked {
    uint32_t values[ROOM];
    size_t count;
};

static void add(struct asked *asked, uint32_t value)
{
    for (size_t i = 0; i < asked->count; i++)
        if (asked->values[i] == value)
            return;
    if (asked->count == ROOM)
        exit(2);
    asked->values[asked->count++] = value;
}

static void add_about(struct asked *asked, uint32_t value)
{
    add(asked, value - 1);
    add(asked, value);
    add(asked, value + 1);
}

/* About 0, which has the greatest number beside it, and about the first that 8, 16 and 31 bits do not hold. */
static void add_ends(struct asked *asked)
{
    add_about(asked, 0);
    add_about(asked, 256);
    add_about(asked, 65536);
    add_about(asked, 2147483648);
}

static void add_tubes(struct asked *tubes)
{
    for (uint32_t tube = 0; tube <= LAST_TUBE; tube++)
        add(tubes, tube);
    add_ends(tubes);
}

static void add_groups(struct asked *groups)
{
    for (uint32_t group = 0; group <= 3; group++)
        add(groups, group);
    add_ends(groups);
}

/* About every column of Table 14 and every entry of Table 13. */
static void add_spans(struct asked *spans)
{
    for (size_t column = 0; column < SUPPORT_SPAN_COLUMNS; column++)
        add_about(spans, support_span_columns[column]);
    for (size_t row = 0; row < SUPPORT_TUBE_ROWS; row++)
        for (size_t group = 0; group < SUPPORT_GROUPS; group++)
            add_about(spans, support_tube_rows[row].longest[group]);
    add_ends(spans);
}

static void add_plates(struct asked *plates)
{
    for (size_t row = 0; row < SUPPORT_PLATE_ROWS; row++)
        add_about(plates, support_plate_rows[row]);
    add_ends(plates);
}

/* ---- What is counted ---- */

/* About this value of a number another entry is read, or the question is refused by cause. */
struct support_limit {
    int number;
    uint32_t value;
    uint32_t tube, group; /* of which it is a limit; 0 for any */
    uint64_t cause;
};
static struct support_limit support_limits[SUPPORT_LIMITS];

static void lay_limits(void)
{
    struct support_limit *limit = support_limits;
    for (size_t row = 0; row < SUPPORT_TUBE_ROWS; row++)
        for (uint32_t group = 0; group < SUPPORT_GROUPS; group++) {
            const uint32_t tube = support_tube_rows[row].tube, longest = support_tube_rows[row].longest[group];
            *limit++ = (struct support_limit){SUPPORT_TUBE, tube, 0, GROUP_STEEL + group, CAUSE_TUBE};
            *limit++ = (struct support_limit){SUPPORT_SPAN, longest, tube, GROUP_STEEL + group, CAUSE_SPAN};
        }
    for (size_t column = 0; column < SUPPORT_SPAN_COLUMNS; column++)
        *limit++ = (struct support_limit){SUPPORT_SPAN, support_span_columns[column], 0, 0, CAUSE_SPAN};
    for (size_t row = 0; row < SUPPORT_PLATE_ROWS; row++)
        *limit++ = (struct support_limit){SUPPORT_PLATE, support_plate_rows[row], 0, 0, CAUSE_SUPPORT_PLATE};
}

static void count_limits(struct compare_supports *compare, const uint32_t n[SUPPORT_NUMBERS], uint64_t cause)
{
    for (size_t i = 0; i < SUPPORT_LIMITS; i++) {
        const struct support_limit *limit = &support_limits[i];
        const uint32_t step = n[limit->number] - limit->value + 1; /* 0 just below, 1 at, 2 just above */
        if (step < 3 && (limit->tube == 0 || limit->tube == n[SUPPORT_TUBE]) &&
            (limit->group == 0 || limit->group == n[SUPPORT_GROUP]) && (cause == CAUSE_NONE || cause == limit->cause))
            compare->limits[3 * i + step]++;
    }
}

/* Of an accepted question. */
static void count_entries(struct compare_supports *compare, const uint32_t n[SUPPORT_NUMBERS])
{
    size_t row = SUPPORT_TUBE_ROWS - 1, column = 0, plate = 0;
    while (row > 0 && support_tube_rows[row].tube > n[SUPPORT_TUBE])
        row--;
    while (column < SUPPORT_SPAN_COLUMNS - 1 && support_span_columns[column] < n[SUPPORT_SPAN])
        column++;
    while (plate < SUPPORT_PLATE_ROWS - 1 && support_plate_rows[plate] < n[SUPPORT_PLATE])
        plate++;
    compare->spans[SUPPORT_GROUPS * row + (n[SUPPORT_GROUP] != GROUP_STEEL)]++;
    compare->thicknesses[SUPPORT_SPAN_COLUMNS * plate + column]++;
}

/* ---- All combinations ---- */

static void compare_support(struct compare_supports *compare, const uint32_t n[SUPPORT_NUMBERS])
{
    uint64_t figures[PAPER_PLACES];
    paper_support_plate(n, figures);
    for (uint32_t place = PLACE_CAUSE; place <= SUPPORT_THICKNESS_PLACE + 1; place++)
        compare_place(compare, n, figures, place);
    compare_place(compare, n, figures, UINT32_MAX);
    compare->questions++;
    compare->causes[figures[PLACE_CAUSE]]++;
    count_limits(compare, n, figures[PLACE_CAUSE]);
    if (figures[PLACE_CAUSE] == CAUSE_NONE)
        count_entries(compare, n);
}

static void compare_tube(struct compare_supports *compare, uint32_t tube, const struct asked asked[SUPPORT_NUMBERS])
{
    const struct asked *groups = &asked[SUPPORT_GROUP], *spans = &asked[SUPPORT_SPAN], *plates = &asked[SUPPORT_PLATE];
    for (size_t group = 0; group < groups->count; group++)
        for (size_t span = 0; span < spans->count; span++)
            for (size_t plate = 0; plate < plates->count; plate++) {
                const uint32_t n[SUPPORT_NUMBERS] = {
                    tube, groups->values[group], spans->values[span], plates->values[plate]};
                compare_support(compare, n);
            }
}

void compare_all_supports(struct compare_supports *compare)
{
    static struct asked asked[SUPPORT_NUMBERS];
    for (size_t i = 0; i < known_support_count; i++)
        compare_known_support(compare, &known_supports[i]);
    compare->by_hand = compare->calls;
    lay_limits();
    add_tubes(&asked[SUPPORT_TUBE]);
    add_groups(&asked[SUPPORT_GROUP]);
    add_spans(&asked[SUPPORT_SPAN]);
    add_plates(&asked[SUPPORT_PLATE]);
    for (size_t tube = 0; tube < asked[SUPPORT_TUBE].count; tube++)
        compare_tube(compare, asked[SUPPORT_TUBE].values[tube], asked);
}

/* ---- What is met ---- */

/* The smallest of these. Prints which are 0, counted from 0. */
static uint64_t least_of(const char *what, const uint64_t *counted, size_t count)
{
    uint64_t least = UINT64_MAX;
    for (size_t i = 0; i < count; i++) {
        if (counted[i] == 0)
            printf("never met: a support plate, %s %lu\n", what, (unsigned long)i);
        least = counted[i] < least ? counted[i] : least;
    }
    return least;
}

void print_supports(const struct compare_supports *compare)
{
    const uint64_t *causes = compare->causes;
    const uint64_t spans = least_of("entry of Table 13", compare->spans, COUNT(compare->spans));
    const uint64_t thicknesses = least_of("entry of Table 14", compare->thicknesses, COUNT(compare->thicknesses));
    const uint64_t read = least_of("limit and side", compare->limits, COUNT(compare->limits));
    const uint64_t refused = least_of("cause, from 18 on,", &causes[CAUSE_TUBE], CAUSE_SUPPORT_PLATE - CAUSE_TUBE + 1);
    printf("%" PRIu64 " support plates: accepted %" PRIu64 "; refused by cause", compare->questions,
           causes[CAUSE_NONE]);
    for (int cause = CAUSE_TUBE; cause <= CAUSE_SUPPORT_PLATE; cause++)
        printf(" %d:%" PRIu64, cause, causes[cause]);
    printf("; each of %d entries of Table 13 answered %" PRIu64 " times at least, each of %d of Table 14 %" PRIu64
           "; each of %d limits read %" PRIu64 " times at least a mm below, at and a mm above it; %" PRIu64
           " calls, %" PRIu64 " of them by hand\n",
           (int)COUNT(compare->spans), spans, (int)COUNT(compare->thicknesses), thicknesses, SUPPORT_LIMITS, read,
           compare->calls, compare->by_hand);
    if (spans == 0 || thicknesses == 0 || read == 0 || refused == 0)
        exit(1);
}
