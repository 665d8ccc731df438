/* `vectors make`: Table 1, roots and plates, then the calculations, then sheets, books and summaries, lists longer
   than any other, bolts that are to be chosen; last, support plates. */
#include "bolts.h"
#include "books.h"
#include "known.h"
#include "limits.h"
#include "supports.h"
#include "vectors.h"

#include <inttypes.h>
#include <stdio.h>
#include <stdlib.h>
#include <string.h>

#define LONG_LIST 200 /* plates */

static void put_pair(enum vector_kind kind, uint64_t n, uint64_t by)
{
    printf("%d %" PRIu64 " %" PRIu64 "\n", (int)kind, n, by);
}

static void put_root(uint64_t n)
{
    printf("%d %" PRIu64 "\n", (int)KIND_ROOT, n);
}

/* ---- Table 1 ---- */

static void put_design_stresses(void)
{
    static const uint32_t temperatures[] = {
        50, 51, 100, 101, 150, 151, 175, 176, 200, 201, 225, 226, 250, 251, 275, 276, 300, 301};
    static const uint32_t ends[][2] = {
        {1, 0}, {6, 0}, {11, 0}, {1, UINT32_MAX}, {11, UINT32_MAX}, {0, 0}, {0, 150}, {12, 0}, {12, 150}, {12, 300},
        {UINT32_MAX, 150}, {UINT32_MAX, 0}, {0, UINT32_MAX}, {UINT32_MAX, UINT32_MAX}};
    for (uint32_t material = 1; material <= 11; material++)
        for (size_t i = 0; i < COUNT(temperatures); i++)
            put_pair(KIND_DESIGN_STRESS, material, temperatures[i]);
    for (size_t i = 0; i < COUNT(ends); i++)
        put_pair(KIND_DESIGN_STRESS, ends[i][0], ends[i][1]);
}

/* ---- Least whole numbers ---- */

/* n and its neighbours. */
static void put_about(enum vector_kind kind, uint64_t n, uint64_t by)
{
    put_pair(kind, n - 1, by);
    put_pair(kind, n, by);
    put_pair(kind, n + 1, by);
}

/* What the loads and thicknesses of document 01's printed cases are worked from: b is 500, C - G 700. */
static void put_printed(void)
{
    const uint64_t reaction_diameter = 4900, operating_load = 2192505, flange_load = 2896253; /* G, Wm1, W */
    const uint64_t ten_9 = 1000000000, d_squared = 25000000;
    put_pair(KIND_QUOTIENT,
             78500 * reaction_diameter * reaction_diameter * 1000 + 628 * 500 * reaction_diameter * 200000, ten_9);
    put_pair(KIND_QUOTIENT, 314 * 500 * reaction_diameter * 110, 100000);
    put_pair(KIND_QUOTIENT, operating_load * 100 + 36000 * 10000, 200);
    put_about(KIND_QUOTIENT, operating_load * ten_9, ten_9);
    put_about(KIND_ROOT_OVER, 1000 * d_squared, 40 * 108);
    put_about(KIND_ROOT_OVER, 1080 * d_squared, 40 * 108);
    put_pair(KIND_ROOT_OVER, 1081 * d_squared, 40 * 108);
    put_pair(KIND_ROOT_OVER, 1000 * d_squared, 40 * 89);
    put_pair(KIND_ROOT_OVER, 1000 * d_squared, 30 * 108);
    put_pair(KIND_ROOT_OVER, 31752 * 126, 1000);
    put_pair(KIND_ROOT_OVER, 31752 * 127, 1000);
    put_about(KIND_ROOT_OVER, 31752 * 500, 1000);
    put_pair(KIND_ROOT_OVER,
             3 * reaction_diameter * reaction_diameter * reaction_diameter * 1000 + 95450 * operating_load * 700,
             100 * 108 * reaction_diameter);
    put_pair(KIND_ROOT_OVER, 95450 * flange_load * 700, 100 * 108 * reaction_diameter);
    put_pair(KIND_ROOT_OVER, 95450 * operating_load * 700, 100 * 108 * reaction_diameter);
}

static void put_small(void)
{
    for (uint64_t i = 0; i < 40; i++)
        put_pair(KIND_QUOTIENT, i / 4, i % 4);
    for (uint64_t n = 0; n <= 26; n++)
        put_root(n);
    for (uint64_t i = 0; i < 52; i++)
        put_pair(KIND_ROOT_OVER, i / 4, i % 4);
}

static void put_ends(void)
{
    static const uint64_t roots[] = {255, 65536, 1000000000, 4294967295};
    static const uint64_t ends[][2] = {
        {UINT64_MAX, 1}, {UINT64_MAX, 2}, {UINT64_MAX, 3}, {UINT64_MAX, UINT64_MAX}, {UINT64_MAX - 1, UINT64_MAX},
        {UINT64_MAX, UINT64_MAX - 1}, {UINT64_MAX, UINT64_MAX / 2}, {0, UINT64_MAX}, {1, UINT64_MAX}, {UINT64_MAX, 0},
        {0, 0}, {UINT64_C(1) << 63, 1}, {UINT64_C(1) << 63, 2}, {UINT64_C(1) << 63, UINT64_C(1) << 32}};
    for (size_t i = 0; i < COUNT(roots); i++) {
        uint64_t square = roots[i] * roots[i];
        put_root(square - 1);
        put_root(square);
        put_root(square + 1);
        put_about(KIND_ROOT_OVER, 13 * (square / 16), 13);
    }
    put_root(UINT64_MAX);
    put_root(UINT64_MAX - 1);
    put_root(UINT64_C(1) << 63);
    for (size_t i = 0; i < COUNT(ends); i++) {
        put_pair(KIND_QUOTIENT, ends[i][0], ends[i][1]);
        put_pair(KIND_ROOT_OVER, ends[i][0], ends[i][1]);
    }
}

/* ---- The choice of a plate ---- */

/* A total and a list in numbers. */
static void put_choice(uint64_t total, const uint32_t *list, size_t count)
{
    printf("%d %" PRIu64, (int)KIND_SMALLEST_SERVING, total);
    for (size_t i = 0; i < count; i++)
        printf(" %" PRIu32, list[i]);
    printf("\n");
}

/* Little or nothing is left of a plate, or less than nothing. */
static void put_little_left(void)
{
    static const uint32_t plates[][2] = {
        {0, 0}, {0, 1}, {0, UINT32_MAX}, {1, 0}, {1, 1}, {1, 2}, {300, 299}, {300, 300}, {300, 301},
        {300, UINT32_MAX}, {UINT32_MAX, UINT32_MAX - 1}, {UINT32_MAX, UINT32_MAX}, {UINT32_MAX - 1, UINT32_MAX}};
    for (uint64_t total = 0; total <= 1; total++)
        for (size_t i = 0; i < COUNT(plates); i++)
            put_choice(total, plates[i], 2);
}

/* Two of one thickness: of each is left more than the total, the total, or less; for a total of 0 less than nothing. */
static void put_equals(uint32_t total)
{
    static const uint32_t minus[] = {0, 500, 501};
    for (size_t i = 0; i < COUNT(minus); i++)
        for (size_t j = 0; j < COUNT(minus); j++) {
            const uint32_t list[] = {total + 500, minus[i], total + 500, minus[j]};
            put_choice(total, list, COUNT(list));
        }
}

/* Totals about 2^32 and the largest: cut to 32 bits, each would find a plate. */
static void put_large_totals(void)
{
    static const uint32_t list[] = {UINT32_MAX, 1, UINT32_MAX, 0, 0, 1, 1, 0};
    static const uint64_t largest[] = {INT64_MAX, UINT64_C(1) << 63, UINT64_MAX};
    for (uint64_t total = UINT32_MAX - 2; total <= UINT32_MAX + UINT64_C(2); total++)
        put_choice(total, list, COUNT(list));
    for (size_t i = 0; i < COUNT(largest); i++)
        put_choice(largest[i], list, COUNT(list));
}

/* Where the choice stands, and a number left over, which as a thickness would serve. */
static void put_choices(void)
{
    static const struct {
        uint64_t total;
        size_t count;
        uint32_t list[7];
    } choices[] = {
        {0, 0, {0}}, {0, 1, {0}}, {2500, 1, {2500}}, {0, 3, {300, 301, 0}}, {2500, 5, {4000, 0, 3000, 500, 2500}},
        {2500, 4, {3000, 0, 2900, 400}}, {2500, 4, {3000, 0, 2900, 401}}, {2500, 4, {2900, 401, 3000, 0}},
        {2500, 4, {2900, 400, 3000, 0}}, {2500, 6, {3000, 501, 3000, 400, 3000, 0}}, {0, 4, {300, 301, 400, 400}},
        {0, 6, {1, 1, 0, 1, 0, 0}}};
    for (size_t i = 0; i < COUNT(choices); i++)
        put_choice(choices[i].total, choices[i].list, choices[i].count);
}

/* ---- Writing a question, as numbers or as a sheet ---- */

static void put_plates(const struct question *question)
{
    for (size_t i = 0; i < question->plate_count && !question->standard; i++)
        printf(" %" PRIu32 " %" PRIu32, question->plates[i].thickness, question->plates[i].under_tolerance);
}

static void put_numbers(const struct question *question)
{
    static const enum vector_kind kinds[PARTS] = {[PART_END] = KIND_ENDPLATE, [PART_BLIND] = KIND_BLIND_FLANGE};
    static const enum vector_kind standard_kinds[PARTS] = {
        [PART_END] = KIND_ENDPLATE_STANDARD, [PART_BLIND] = KIND_BLIND_FLANGE_STANDARD};
    printf("%d", (int)(question->standard ? standard_kinds : kinds)[question->part]);
    for (size_t i = 0; i < paper_parts[question->part].numbers; i++)
        printf(" %" PRIu32, question->numbers[i]);
    put_plates(question);
}

static void put_question(const struct question *question)
{
    put_numbers(question);
    printf("\n");
}

/* With a number left over, which as a thickness would be the total. */
static void put_left_over(const struct question *question)
{
    put_numbers(question);
    printf(" %" PRIu32 "\n", question_total(question));
}

/* A byte that no line can hold is written as another of its sort. */
static char sign_of(uint8_t byte)
{
    const char *own = memchr(vector_bytes, byte, VECTOR_SIGNS);
    if (own != NULL)
        return vector_signs[own - vector_bytes];
    if (byte < 32 || byte > 126)
        return byte < 32 ? '^' : '~';
    return memchr(vector_signs, byte, VECTOR_SIGNS) == NULL ? (char)byte : '%';
}

static void put_signs(const uint8_t *bytes, size_t length)
{
    for (size_t i = 0; i < length; i++)
        putchar(sign_of(bytes[i]));
    printf("\n");
}

static void put_text(uint32_t room, const struct text *text)
{
    printf("%d %" PRIu32 " ", (int)KIND_SHEET, room);
    put_signs(text->bytes, text->length < VECTOR_TEXT ? text->length : VECTOR_TEXT);
}

static void put_sheet(const struct question *question)
{
    static struct text text;
    write_sheet(question, &text);
    put_text(VECTOR_ROOM, &text);
}

/* ---- What is asked ---- */

static int same_question(const struct known *one, const struct known *other)
{
    return memcmp(one->numbers, other->numbers, sizeof one->numbers) == 0 &&
           memcmp(one->plates, other->plates, sizeof one->plates) == 0;
}

/* Each known question once; the figures of the printed sheet are cases of one question. */
static void put_known(void (*put_it)(const struct question *))
{
    static struct question question;
    for (size_t i = 0; i < known_count; i++) {
        known_question(&known_cases[i], &question);
        if (i == 0 || !same_question(&known_cases[i - 1], &known_cases[i]))
            put_it(&question);
    }
}

static void put_limits(struct rng *rng, int first, int last, int by, void (*put_it)(const struct question *))
{
    static struct question question;
    for (size_t i = 0; i < limit_count; i++)
        for (int step = first; step <= last; step += by) {
            draw_limit(rng, &limits[i], step, &question);
            draw_plates(rng, 2, 2, &question);
            put_it(&question);
        }
}

/* The order of causes, from all at once on. */
static void put_mends(enum part part, void (*put_it)(const struct question *))
{
    static struct question question;
    static const struct paper_plate plate = {4000, 30};
    for (size_t mended = 0; mended <= mend_counts[part]; mended++) {
        give_mended(part, mended, &question);
        put_it(&question);
    }
    give_plates(&question, &plate, 1);
    put_it(&question);
    give_standard_plates(&question);
    put_it(&question);
}

static void put_causes(void (*put_it)(const struct question *))
{
    put_mends(PART_END, put_it);
    put_mends(PART_BLIND, put_it);
}

/* The first accepted case of a part. */
static void give_known(enum part part, struct question *question)
{
    uint64_t figures[PAPER_PLACES] = {CAUSE_PLATE};
    for (size_t i = 0; i < known_count && figures[PLACE_CAUSE] != CAUSE_NONE; i++)
        if (known_cases[i].part == part) {
            known_question(&known_cases[i], question);
            question_figures(question, figures);
        }
}

static int has_minus(const struct question *question)
{
    for (size_t i = 0; i < question->plate_count; i++)
        if (question->plates[i].under_tolerance > 0)
            return 1;
    return 0;
}

/* These numbers from each list at a limit, or from those alone that have a minus. */
static void put_plate_limits(struct question *question, int with_minus)
{
    for (size_t i = 0; i < plate_limit_count; i++) {
        give_plate_limit(&plate_limits[i], question);
        if (!with_minus || has_minus(question))
            put_question(question);
    }
}

static void put_plate_lists(void)
{
    static struct question question;
    give_known(PART_END, &question);
    put_plate_limits(&question, 0);
    give_known(PART_BLIND, &question);
    put_plate_limits(&question, 0);
    give_least_end(&question);
    put_plate_limits(&question, 1);
}

/* Lists with a number over: none before it, and one that does not serve, one that serves, one of each before it. */
static void put_all_left_over(void)
{
    static struct question question;
    for (enum part part = PART_NONE + 1; part < PARTS; part++) {
        give_known(part, &question);
        const uint32_t total = question_total(&question);
        const struct paper_plate plates[] = {{total + 29, 30}, {total + 31, 30}};
        give_plates(&question, NULL, 0);
        put_left_over(&question);
        give_plates(&question, plates, 1);
        put_left_over(&question);
        give_plates(&question, plates + 1, 1);
        put_left_over(&question);
        give_plates(&question, plates, 2);
        put_left_over(&question);
    }
}

/* Ends from the usual stock: the total is what is left of each plate, a hundredth less and more, and its thickness. */
static void put_stock(void (*put_it)(const struct question *))
{
    static struct question question;
    static const int steps[] = {-1, 0, 1, 30};
    for (size_t i = 0; i < PAPER_STANDARD_PLATES; i++)
        for (size_t j = 0; j < COUNT(steps); j++) {
            give_stock_limit(i, steps[j], &question);
            put_it(&question);
        }
}

/* Any parts from it. */
static void put_drawn_stock(struct rng *rng, int count, void (*put_it)(const struct question *))
{
    static struct question question;
    const struct wish nothing = wish_nothing();
    for (int i = 0; i < count; i++) {
        draw_numbers(rng, i % 2 == 0 ? PART_END : PART_BLIND, &nothing, &question);
        if (i % 5 == 4)
            draw_wild_numbers(rng, UINT32_MAX, &question);
        draw_standard_plates(rng, &question);
        put_it(&question);
    }
}

static void put_drawn(struct rng *rng, int count, int wild, uint32_t most, void (*put_it)(const struct question *))
{
    static struct question question;
    const struct wish nothing = wish_nothing();
    for (int i = 0; i < count; i++) {
        draw_numbers(rng, i % 2 == 0 ? PART_END : PART_BLIND, &nothing, &question);
        if (wild)
            draw_wild_numbers(rng, UINT32_MAX, &question);
        draw_plates(rng, 0, most, &question);
        put_it(&question);
    }
}

static void put_thin(struct rng *rng, int count, void (*put_it)(const struct question *))
{
    static struct question question;
    for (int i = 0; i < count; i++) {
        draw_thin_flange(rng, &question);
        draw_plates(rng, 1, 4, &question);
        put_it(&question);
    }
}

/* ---- Sheets alone ---- */

struct change {
    const char *part, *to;
};

/* One sheet with a part of it changed, in the signs of a line. */
static void put_changes(const char *sheet, const struct change *changes, size_t count)
{
    for (size_t i = 0; i < count; i++) {
        const char *at = strstr(sheet, changes[i].part), *after = at + strlen(changes[i].part);
        printf("%d %d %.*s%s%s\n", (int)KIND_SHEET, VECTOR_ROOM, (int)(at - sheet), sheet, changes[i].to, after);
    }
}

static void put_end_changes(void)
{
    static const struct change changes[] = {
        {"2500/", "2500"}, {"2500/", "2500//"}, {"2500/", "2500/^"}, {"2500/", "2500/~"}, {"2500/", "2500\\/"},
        {"2500/", "2500/plates=2500/"}, {"2500", ""}, {"2500", "0"}, {"2500", "02500"}, {"2500", "999999"},
        {"2500", "none"}, {"2500", "None"}, {"2500", "nonE"}, {"2500", "NONE"}, {"2500", "non"}, {"2500", "nones"},
        {"2500", "none,"}, {"2500", ",none"}, {"2500", "none,300"}, {"2500", "2500,none"}, {"2500", "none2500"},
        {"2500", " none"}, {"2500", "none "}, {"2500", "none\\"}, {"2500", "none^"}, {"2500", " "}, {"2500", "\\"},
        {"2500/", "none"}, {"2500/", "none//"}, {"2500/", ""}, {"2500/", "//"}, {"2500/", "/plates=/"},
        {"2500", "1000000"}, {"2500", ",2500"}, {"2500", "2500,"}, {"2500", "2500,,2600"}, {"2500", "2600, 2500"},
        {"2500", "1,1,1,1,1,1,1,1,1,1,1,1,1,1,1,1,1,1,1,1,1,1,1,1,1,1,1,1,1,1,1,2500"},
        {"2500", "1,1,1,1,1,1,1,1,1,1,1,1,1,1,1,1,1,1,1,1,1,1,1,1,1,1,1,1,1,1,1,1,2500"},
        {"150", "0150"}, {"150", "0"}, {"150", "00"}, {"150", ""}, {"150", "15^0"}, {"150", "150^"}, {"150", "~150"},
        {"150", "150 "}, {"150", " 150"}, {"150", "+150"}, {"150", "150\\"}, {"150", "1a0"}, {"150", "15:"},
        {"1000", "999999"}, {"1000", "1000000"}, {"1000", "0001000"}, {"temp", "Temp"}, {"temp", "tempo"},
        {"temp=", "temp"}, {"temp=", "temp=="}, {"temp=", "temp ="}, {"temp=", "=temp="}, {"temp=150/", ""},
        {"temp=150/", "temp=150/temp=150/"}, {"temp=150/", "/temp=150/"}, {"dia", "od"}, {"form=a/", ""},
        {"form=a", "form=A"}, {"form=a", "form=b"}, {"form=a", "form=aa"}, {"form=a", "form="}, {"form=a", "form=1"},
        {"part=end", "part=endplate"}, {"part=end", "part=END"}, {"part=end", "part="}, {"part=end", "part=blind"},
        {"part=end", "~part=end"}, {"part=end/", ""}};
    put_changes(
        "part=end/form=a/material=1/shell=0/temp=150/pressure=1000/dia=5000/allow=0/plates=2500/", changes,
        COUNT(changes));
}

/* The lines of the rib. */
static void put_rib_changes(void)
{
    static const struct change changes[] = {
        {"rib=4900/ribw=100/", ""}, {"rib=4900/", ""}, {"ribw=100/", ""}, {"rib=4900/ribw", "ribw=100/rib"},
        {"rib=4900/", "rib=4900/rib=4900/"}, {"ribw=100/", "ribw=100/ribw=100/"}, {"width=100/rib", "rib"},
        {"rib=4900", "ribw=4900"}, {"ribw=100", "rib=100"}, {"rib=", "Rib="}, {"rib=", "rib"}, {"rib=", "rib =="},
        {"ribw", "ribwidth"}, {"ribw", "rib w"}, {"rib=4900", "rib="}, {"ribw=100", "ribw="}, {"4900", "04900"},
        {"rib=4900/ribw=100", "rib=0/ribw=0"}, {"rib=4900/ribw=100", "rib=00/ribw=00"}, {"rib=4900", "rib=0"},
        {"ribw=100", "ribw=0"}, {"rib=4900", "rib=1"}, {"ribw=100", "ribw=1"}, {"rib=4900", "rib=40000"},
        {"rib=4900", "rib=40001"}, {"ribw=100", "ribw=126"}, {"ribw=100", "ribw=127"}, {"ribw=100", "ribw=500"},
        {"ribw=100", "ribw=501"}, {"width=100/rib=4900", "width=99/rib=0"}, {"rib=4900", "rib=999999"},
        {"ribw=100", "ribw=1000000"}, {"2500,3200,4000", ""}, {"2500,3200,4000", "none"},
        {"2500,3200,4000", "None"}, {"2500,3200,4000", "none,4000"}};
    put_changes(
        "part=blind/material=1/temp=150/pressure=1000/allow=100/od=5000/width=100/rib=4900/ribw=100/m=200/y=110/"
        "circle=5600/bolt=20/root=2250/count=16/sa=100/sb=100/plates=2500,3200,4000/",
        changes, COUNT(changes));
}

/* Entries with a colon. The total is 2500. */
static void put_minus_changes(void)
{
    static const struct change changes[] = {
        {"2530:30", "2530:30"}, {"2530:30", "2530:31"}, {"2530:30", "2530:29"}, {"2530:30", "2529:30"},
        {"2530:30", "2500:0"}, {"2530:30", "2500"}, {"2530:30", "2500:1"}, {"2530:30,4000", "2500:2500"},
        {"2530:30,4000", "2500:2501"}, {"2530:30,4000", "0:0"}, {"2530:30,4000", "0:1"}, {"2530:30,4000", "0:999999"},
        {"2530:30,4000", "999999:999999"}, {"2530:30,4000", "999998:999999"}, {"2530:30,4000", "999999:997499"},
        {"2530:30,4000", "999999:997500"}, {"2530:30", "3000:0,3000:500"}, {"2530:30", "3000:501,3000:500"},
        {"2530:30", "3000:500,2600:101"}, {"2530:30", "2600:101,3000:500"}, {"2530:30", ":30"}, {"2530:30", "2530:"},
        {"2530:30", ":"}, {"2530:30", "::"}, {"2530:30", "2530::30"}, {"2530:30", "2530:30:0"},
        {"2530:30", "2530:0:0"}, {"2530:30", "2530:30:"}, {"2530:30", ":2530:30"}, {"2530:30", "2530:03"},
        {"2530:30", "2530:00"}, {"2530:30", "02530:30"}, {"2530:30", "2530: 30"}, {"2530:30", "2530 :30"},
        {"2530:30", " 2530:30"}, {"2530:30", "2530:30 "}, {"2530:30", "2530:1000000"}, {"2530:30", "2530:0000030"},
        {"2530:30", "1000000:30"}, {"2530:30", "2530:4294967326"}, {"2530:30", "2530:-30"}, {"2530:30", "2530:+30"},
        {"2530:30", "2530:0x1"}, {"2530:30", "2530:3a"}, {"2530:30", "2530;30"}, {"2530:30", "2530.30"},
        {"2530:30", "2530,:30"}, {"2530:30", "2530:,30"}, {"2530:30", "2530:30:4000"},
        {"2530:30,4000", "2530:30,4000:"}, {"2530:30,4000", "2530:30,:4000"}, {"2530:30,4000", "2530:30,"},
        {"2530:30,4000", "2530:30,,4000"}, {"2530:30,4000", "2530,30:4000"}, {"2530:30,4000", "2530:31,4000:1500"},
        {"2530:30,4000", "2530:31,4000:1501"}, {"2530:30,4000", "none:30"}, {"2530:30,4000", "none:"},
        {"2530:30,4000", ":none"}, {"2530:30,4000", "2530:none"}, {"2530:30,4000/", "2530:30"},
        {"2530:30,4000/", "2530:/30/"}, {"2530:30,4000/", "2530:30\\/"}, {"2530:30,4000/", "2530:^30/"},
        {"pressure=1080", "pressure=1080:0"}, {"allow=0", "allow=0:0"}, {"plates=", "plates:"}};
    put_changes(
        "part=end/form=c/material=1/shell=1/temp=150/pressure=1080/dia=5000/allow=0/plates=2530:30,4000/", changes,
        COUNT(changes));
}

/* 31 to 33 entries, of which the last serves: all with a colon, or every other one. */
static void put_full_lists(void)
{
    for (int count = 31; count <= 33; count++)
        for (int every = 1; every <= 2; every++) {
            printf("%d %d part=end/form=c/material=1/shell=1/temp=150/pressure=1080/dia=5000/allow=0/plates=",
                   (int)KIND_SHEET, VECTOR_ROOM);
            for (int i = 1; i < count; i++)
                printf(i % every == 0 ? "1:999999," : "1,");
            printf("2530:30/\n");
        }
}

static void put_damages(struct rng *rng, int rounds)
{
    static struct question question;
    static struct text text;
    const struct wish nothing = wish_nothing();
    for (uint32_t i = 0; i < damage_count * (uint32_t)rounds; i++) {
        draw_numbers(rng, rng_one_in(rng, 3) ? PART_BLIND : PART_END, &nothing, &question);
        draw_plates(rng, 1, 2, &question);
        write_sheet(&question, &text);
        damage_text(rng, i / (uint32_t)rounds, &text);
        if (text.length <= VECTOR_TEXT)
            put_text(VECTOR_ROOM, &text);
    }
}

static void take_text(const char *sheet, struct text *text)
{
    text->length = strlen(sheet);
    memcpy(text->bytes, sheet, text->length);
}

/* Spaces about the length of the report of the sheet. */
static void put_spaces(const char *sheet)
{
    static struct text text;
    uint8_t report[PAPER_REPORT_ROOM];
    take_text(sheet, &text);
    const uint32_t length = (uint32_t)paper_sheet(text.bytes, text.length, report, sizeof report);
    const uint32_t rooms[] = {0, 1, length - 1, length, length + 1};
    for (size_t i = 0; i < COUNT(rooms); i++)
        put_text(rooms[i], &text);
}

static void put_known_sheets(void)
{
    static struct text text;
    for (size_t i = 0; i < known_sheet_count; i++) {
        take_text(known_sheets[i].sheet, &text);
        put_text(VECTOR_ROOM, &text);
    }
}

static void put_sheets(struct rng *rng)
{
    put_known(put_sheet);
    put_known_sheets();
    put_spaces(known_sheets[0].sheet);
    put_spaces("");
    put_spaces("part=end\nform=c\nmaterial=1\nshell=1\ntemp=150\npressure=1080\ndia=5000\nallow=0\nplates=2500\n");
    put_spaces("part=end\nform=c\nmaterial=1\nshell=1\ntemp=150\npressure=1080\ndia=5000\nallow=0\nplates=2530:30\n");
    put_spaces("part=end\nform=c\nmaterial=1\nshell=1\ntemp=150\npressure=1080\ndia=5000\nallow=0\nplates=2529:30\n");
    put_spaces("part=end\nform=c\nmaterial=1\nshell=1\ntemp=150\npressure=1080\ndia=5000\nallow=0\nplates=\n");
    put_spaces("part=end\nform=c\nmaterial=1\nshell=1\ntemp=150\npressure=1080\ndia=5000\nallow=0\nplates=none\n");
    put_causes(put_sheet);
    put_limits(rng, -1, 1, 2, put_sheet);
    put_end_changes();
    put_rib_changes();
    put_minus_changes();
    put_full_lists();
    put_stock(put_sheet);
    put_drawn_stock(rng, 10, put_sheet);
    put_damages(rng, 2);
    put_drawn(rng, 14, 0, 4, put_sheet);
    put_drawn(rng, 4, 0, PAPER_SHEET_PLATES, put_sheet);
    put_drawn(rng, 4, 1, 2, put_sheet);
    put_thin(rng, 10, put_sheet);
}

/* ---- Books, in the signs of a line ---- */

/* Reports of 43, 22, 18 and 108 bytes. */
#define END_SIGNS "part=end/form=c/material=1/shell=1/temp=150/pressure=1080/dia=5000/allow=0/plates=2500/"
#define NO_PLATE_SIGNS "part=end/form=c/material=1/shell=1/temp=150/pressure=1080/dia=5000/allow=0/plates=none/"
#define BAD_SIGNS "part=end/form=a/"
#define BLIND_SIGNS                                                                                             \
    "part=blind/material=1/temp=150/pressure=1000/allow=100/od=5000/width=100/rib=0/ribw=0/m=200/y=110/circle=5600/" \
    "bolt=20/root=2250/count=16/sa=100/sb=100/plates=2500,3200,4000/"

static void put_book(uint32_t limit, uint32_t room, const char *signs)
{
    printf("%d %" PRIu32 " %" PRIu32 " %s\n", (int)KIND_BOOK, limit, room, signs);
}

/* Where a book is cut and where not; and a refused piece first, between and last. */
static void put_cuts(void)
{
    static const char *const books[] = {
        "", "/", "part=", "part=/", "/part=", "//part=/", "part=/part=", "part=/part=/part=/part=/", "part=/part/part=",
        "part=part=/part=part=", "part=//part=", "=part=/=part=", "part/part=/", "/p/pa/par/part/part=", "/parpart=",
        "/ part=", "/Part=", "/part =", "/part:", "\\part=\\part=", "part=\\/part=", "/\\part=", "^/part=", "/^part=",
        "/part^=", "part=end part=end", END_SIGNS, END_SIGNS END_SIGNS, END_SIGNS "part=", END_SIGNS "part",
        END_SIGNS "x" END_SIGNS, END_SIGNS " " END_SIGNS, END_SIGNS "\\/" END_SIGNS, END_SIGNS "/" END_SIGNS,
        "/" END_SIGNS, "Orders/" END_SIGNS, "~" END_SIGNS, "part=end/form=part=/material=1/" END_SIGNS,
        "part=end/form=/part=/material=1/" END_SIGNS, BAD_SIGNS END_SIGNS BLIND_SIGNS, END_SIGNS BAD_SIGNS BLIND_SIGNS,
        BLIND_SIGNS END_SIGNS BAD_SIGNS, END_SIGNS NO_PLATE_SIGNS END_SIGNS, BAD_SIGNS NO_PLATE_SIGNS BAD_SIGNS};
    for (size_t i = 0; i < COUNT(books); i++)
        put_book(PAPER_MOST_SHEETS, VECTOR_BOOK_ROOM, books[i]);
}

/* Three pieces under limits, and in spaces about the length of their reports: 43, 61 and 169. */
static void put_limits_and_rooms(void)
{
    static const uint32_t asked[][2] = {
        {0, VECTOR_BOOK_ROOM}, {1, VECTOR_BOOK_ROOM}, {2, VECTOR_BOOK_ROOM}, {3, VECTOR_BOOK_ROOM},
        {4, VECTOR_BOOK_ROOM}, {65, VECTOR_BOOK_ROOM}, {257, VECTOR_BOOK_ROOM}, {UINT32_MAX, VECTOR_BOOK_ROOM}, {0, 0},
        {64, 0}, {64, 43}, {64, 61}, {64, 168}, {64, 169}, {3, 168}, {3, 169}, {2, 60}, {2, 61}, {1, 42}, {1, 43}};
    for (size_t i = 0; i < COUNT(asked); i++)
        put_book(asked[i][0], asked[i][1], END_SIGNS BAD_SIGNS BLIND_SIGNS);
}

static void put_empty_books(void)
{
    static const uint32_t asked[][2] = {{0, 18}, {1, 17}, {1, 18}, {64, 17}, {65, 18}};
    for (size_t i = 0; i < COUNT(asked); i++)
        put_book(asked[i][0], asked[i][1], "");
}

/* Lines of part= alone between these pieces. The next call writes over them. */
static const char *lay_lines(const char *first, uint32_t count, const char *last)
{
    static char signs[2 * VECTOR_TEXT];
    strcpy(signs, first);
    for (uint32_t i = 0; i < count; i++)
        strcat(signs, "part=/");
    return strcat(signs, last);
}

/* Such a line has a report of 18 bytes: 28 of these fit the space, and the figure of 15 tells how many there are. */
static void put_many_lines(uint32_t count, uint32_t limit)
{
    put_book(limit, VECTOR_BOOK_ROOM, lay_lines("", count, ""));
}

static void put_books(void)
{
    put_cuts();
    put_limits_and_rooms();
    put_empty_books();
    put_many_lines(28, 64);
    put_many_lines(29, 64);
    put_many_lines(64, 64);
    put_many_lines(65, 64);
    put_many_lines(65, 65);
    put_many_lines(65, 63);
    put_many_lines(65, 28);
}

/* ---- Summaries, likewise ---- */

/* Plates 100 and 999992 more than the totals. */
#define MINUS_SIGNS "part=end/form=c/material=1/shell=1/temp=150/pressure=1080/dia=5000/allow=0/plates=2600:30/"
#define LEAST_SIGNS "part=end/form=a/material=5/shell=0/temp=50/pressure=1/dia=500/allow=0/plates=999999/"

static void put_summary(uint32_t room, const char *signs)
{
    printf("%d %" PRIu32 " %s\n", (int)KIND_SUMMARY, room, signs);
}

/* Spaces about the length of the summary. */
static void put_summary_rooms(const char *signs)
{
    static uint8_t text[VECTOR_LINE];
    uint8_t summary[PAPER_LONGEST_SUMMARY];
    const uint32_t length = (uint32_t)paper_summary(text, decode_signs(signs, text), summary, sizeof summary);
    const uint32_t rooms[] = {0, 1, length - 1, length, length + 1};
    for (size_t i = 0; i < COUNT(rooms); i++)
        put_summary(rooms[i], signs);
}

static void put_summary_cuts(void)
{
    static const char *const books[] = {
        "", "part=", "/part=", "part=/part=/", "part=/part/part=", "part=end part=end", END_SIGNS, MINUS_SIGNS,
        BLIND_SIGNS, NO_PLATE_SIGNS, END_SIGNS BLIND_SIGNS, BLIND_SIGNS MINUS_SIGNS END_SIGNS, END_SIGNS "part=",
        MINUS_SIGNS "x" END_SIGNS, MINUS_SIGNS "\\/" BLIND_SIGNS, "Orders/" MINUS_SIGNS, "~" MINUS_SIGNS "part=^",
        BAD_SIGNS NO_PLATE_SIGNS BAD_SIGNS, MINUS_SIGNS BAD_SIGNS BLIND_SIGNS NO_PLATE_SIGNS,
        LEAST_SIGNS LEAST_SIGNS LEAST_SIGNS LEAST_SIGNS LEAST_SIGNS LEAST_SIGNS LEAST_SIGNS LEAST_SIGNS LEAST_SIGNS
            LEAST_SIGNS LEAST_SIGNS};
    for (size_t i = 0; i < COUNT(books); i++)
        put_summary(VECTOR_BOOK_ROOM, books[i]);
}

/* About the most pieces that are counted. */
static void put_summary_lines(const char *first, uint32_t count, const char *last)
{
    put_summary(VECTOR_BOOK_ROOM, lay_lines(first, count, last));
}

/* One sheet refused by each cause, and one accepted. */
static struct book one_by_each;

static void put_first_of_cause(const struct question *question)
{
    static struct text text;
    static int met[CAUSES];
    uint8_t report[PAPER_REPORT_ROOM];
    struct paper_answer answer;
    write_sheet(question, &text);
    paper_report(text.bytes, text.length, report, &answer);
    if (met[answer.figures[PLACE_CAUSE]]++ > 0)
        return;
    append_to_book(&one_by_each, text.bytes, text.length);
    printf("%d %d ", (int)KIND_SUMMARY, VECTOR_BOOK_ROOM);
    put_signs(text.bytes, text.length);
}

static void put_summaries(void)
{
    put_summary_cuts();
    put_summary_rooms("");
    put_summary_rooms(MINUS_SIGNS BAD_SIGNS BLIND_SIGNS);
    put_summary_lines("", 9, "");
    put_summary_lines("", 10, "");
    put_summary_lines("", 63, "");
    put_summary_lines("", 64, "");
    put_summary_lines("", 65, "");
    put_summary_lines("", 63, MINUS_SIGNS);
    put_summary_lines("", 64, MINUS_SIGNS);
    put_summary_lines(MINUS_SIGNS, 62, BLIND_SIGNS);
    put_summary_lines(MINUS_SIGNS, 63, BLIND_SIGNS);
    put_causes(put_first_of_cause);
    printf("%d %d ", (int)KIND_SUMMARY, VECTOR_BOOK_ROOM);
    put_signs(one_by_each.bytes, one_by_each.length);
}

/* ---- Bolts that are to be chosen ---- */

static void put_list(const uint32_t *numbers, size_t count)
{
    printf(" %lu", (unsigned long)count);
    for (size_t i = 0; i < count; i++)
        printf(" %" PRIu32, numbers[i]);
}

static void put_bolts_question(const struct bolts_question *question)
{
    printf("%d", (int)KIND_BLIND_FLANGE_BOLTS);
    for (int i = 0; i < BLIND_NUMBERS; i++)
        if (i < BLIND_BOLT || i > BLIND_COUNT)
            printf(" %" PRIu32, question->flange.numbers[i]);
    put_list(question->diameters, question->diameter_count);
    put_list(question->areas, question->area_count);
    put_plates(&question->flange);
    printf("\n");
}

/* The order of causes: ill lists at each step, then sizes of which the first serves, without a plate and with one. The
   steps that mend bolts change nothing. */
static void put_bolts_causes(void)
{
    static struct bolts_question question;
    static const struct paper_plate plate = {4000, 30};
    for (size_t mended = 0; mended <= mend_counts[PART_BLIND]; mended++) {
        give_mended(PART_BLIND, mended, &question.flange);
        give_ill_lists(mended % ILL_LISTS, &question);
        put_bolts_question(&question);
    }
    give_size(20, 2250, &question);
    put_bolts_question(&question);
    give_plates(&question.flange, &plate, 1);
    put_bolts_question(&question);
}

static void put_known_bolts(void)
{
    static struct bolts_question question;
    for (size_t i = 0; i < known_bolts_count; i++) {
        known_bolts_question(&known_bolts[i], &question);
        put_bolts_question(&question);
    }
}

static void put_drawn_bolts(struct rng *rng, int count)
{
    static struct bolts_question question;
    for (int i = 0; i < count; i++) {
        draw_bolts_question(rng, &question);
        put_bolts_question(&question);
    }
}

static void put_bolts(struct rng *rng)
{
    put_known_bolts();
    put_bolts_causes();
    put_drawn_bolts(rng, 16);
}

/* ---- Support plates ---- */

static void put_support(uint32_t tube, uint32_t group, uint32_t span, uint32_t plate)
{
    printf("%d %" PRIu32 " %" PRIu32 " %" PRIu32 " %" PRIu32 "\n", (int)KIND_SUPPORT_PLATE, tube, group, span, plate);
}

/* Those by hand, in which is each diameter of Table 13, and both groups a mm below and a mm above it. */
static void put_supports(void)
{
    for (size_t i = 0; i < known_support_count; i++) {
        const uint32_t *n = known_supports[i].n;
        put_support(n[SUPPORT_TUBE], n[SUPPORT_GROUP], n[SUPPORT_SPAN], n[SUPPORT_PLATE]);
    }
    for (size_t row = 0; row < SUPPORT_TUBE_ROWS; row++)
        for (uint32_t group = GROUP_STEEL; group <= GROUP_COPPER; group++) {
            put_support(support_tube_rows[row].tube - 1, group, 1, 1);
            put_support(support_tube_rows[row].tube + 1, group, 0, 1000);
        }
}

void make_vectors(void)
{
    struct rng rng = {8532};
    put_design_stresses();
    put_small();
    put_ends();
    put_printed();
    put_little_left();
    put_equals(0);
    put_equals(2500);
    put_large_totals();
    put_choices();
    put_known(put_question);
    put_limits(&rng, -1, 1, 1, put_question);
    put_causes(put_question);
    put_plate_lists();
    put_all_left_over();
    put_stock(put_question);
    put_drawn_stock(&rng, 30, put_question);
    put_drawn(&rng, 60, 0, 4, put_question);
    put_drawn(&rng, 6, 0, 49, put_question);
    put_drawn(&rng, 44, 1, 3, put_question);
    put_drawn(&rng, 6, 0, 3, put_left_over);
    put_thin(&rng, 30, put_question);
    put_sheets(&rng);
    put_books();
    put_summaries();
    put_drawn(&rng, 6, 0, LONG_LIST, put_question);
    put_bolts(&rng);
    put_supports();
}
