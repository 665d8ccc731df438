/* Sheets. */
#include "compare.h"
#include "scantling.h"

#include <stdio.h>
#include <stdlib.h>
#include <string.h>

#define MOST_LENT 512

/* A sheet in a block of exactly its length, and the separate program's answer to it. */
struct sheet {
    uint8_t *text; /* null if there are no bytes */
    size_t length;
    uint8_t report[PAPER_REPORT_ROOM];
    size_t report_length;
    struct paper_answer answer;
};

static void open_sheet(const struct text *text, struct sheet *sheet)
{
    sheet->text = NULL;
    sheet->length = text->length;
    if (text->length > 0) {
        sheet->text = malloc(text->length);
        if (sheet->text == NULL)
            exit(2);
        memcpy(sheet->text, text->bytes, text->length);
    }
    sheet->report_length = paper_report(sheet->text, sheet->length, sheet->report, &sheet->answer);
}

void print_bytes(const char *name, const uint8_t *bytes, size_t length)
{
    printf("%s \"", name);
    for (size_t i = 0; i < length; i++)
        if (bytes[i] == '\n')
            printf("\\n");
        else if (bytes[i] < 32 || bytes[i] > 126 || bytes[i] == '"' || bytes[i] == '\\')
            printf("\\x%02x", (unsigned)bytes[i]);
        else
            putchar(bytes[i]);
    printf("\"\n");
}

static void print_difference(
    const struct sheet *sheet, size_t lent, size_t returned, const uint8_t *area, const uint8_t *expected)
{
    printf("difference: scantling_sheet, %lu bytes lent\n", (unsigned long)lent);
    print_bytes("text", sheet->text, sheet->length);
    printf("returned: archive %lu, separate program %lu\n", (unsigned long)returned,
           (unsigned long)sheet->report_length);
    print_bytes("report of the separate program", sheet->report, sheet->report_length);
    printf("the space with %d bytes before and after it\n", GUARD);
    print_bytes("archive", area, GUARD + lent + GUARD);
    print_bytes("separate program", expected, GUARD + lent + GUARD);
}

uint64_t report_figure(const uint8_t *report, size_t length, const char *key)
{
    const size_t key_length = strlen(key);
    const uint8_t *line = report, *end = report + length;
    while (line < end) {
        const uint8_t *stop = memchr(line, '\n', (size_t)(end - line));
        if (stop == NULL)
            return 0;
        if ((size_t)(stop - line) > key_length && memcmp(line, key, key_length) == 0 && line[key_length] == '=')
            return strtoull((const char *)line + key_length + 1, NULL, 10);
        line = stop + 1;
    }
    return 0;
}

void judge_report(
    struct accuracy_counts *counts, const uint8_t *text, size_t text_length, const struct paper_answer *answer,
    const uint8_t *report, size_t report_length)
{
    uint64_t figures[PAPER_PLACES] = {0};
    const struct paper_part *part = &paper_parts[answer->part];
    if (answer->figures[PLACE_CAUSE] != CAUSE_NONE)
        return;
    for (uint32_t place = PLACE_REPORT; place <= part->last_place; place++)
        figures[place] = report_figure(report, report_length, part->report_keys[place]);
    count_accuracy(counts, answer->part, answer->numbers, figures);
    if (part->exact(answer->numbers, figures))
        return;
    printf("not exact:\n");
    print_bytes("text", text, text_length);
    print_bytes("report of the archive", report, report_length);
    exit(1);
}

/* One call. The space and the bytes about it hold a random pattern, of which only a report that fits may change any. */
static void compare_space(struct compare *compare, const struct sheet *sheet, size_t lent)
{
    uint8_t area[GUARD + MOST_LENT + GUARD], expected[sizeof area];
    const size_t used = GUARD + lent + GUARD;
    const int null = lent == 0 && rng_one_in(&compare->rng, 2);
    rng_fill(&compare->rng, area, used);
    memcpy(expected, area, used);
    if (sheet->report_length <= lent)
        memcpy(expected + GUARD, sheet->report, sheet->report_length);
    else
        compare->sheet_causes[CAUSE_SPACE]++;
    size_t returned = scantling_sheet(sheet->text, sheet->length, null ? NULL : area + GUARD, lent);
    if (returned != sheet->report_length || memcmp(area, expected, used) != 0) {
        print_difference(sheet, lent, returned, area, expected);
        exit(1);
    }
    if (sheet->report_length <= lent)
        judge_report(
            &compare->accuracy, sheet->text, sheet->length, &sheet->answer, area + GUARD, sheet->report_length);
}

/* Where there is no cause 1, a list alone has colons. */
static void count_colons(struct compare *compare, const struct sheet *sheet)
{
    size_t colons = 0;
    for (size_t i = 0; i < sheet->length; i++)
        colons += sheet->text[i] == ':';
    compare->some_colons += colons > 0 && colons < sheet->answer.plate_count;
    compare->all_colons += colons > 0 && colons == sheet->answer.plate_count;
}

static void count_sheet(struct compare *compare, const struct sheet *sheet)
{
    const struct paper_answer *answer = &sheet->answer;
    compare->sheets++;
    compare->sheet_causes[answer->figures[PLACE_CAUSE]]++;
    if (answer->figures[PLACE_CAUSE] != CAUSE_LINE) {
        compare->stocks[answer->stock]++;
        count_colons(compare, sheet);
    }
    if (answer->plate == NULL)
        return;
    compare->sheet_accepted[answer->part]++;
    compare->sheet_plates.standard += answer->stock == PAPER_STANDARD;
    count_plates(&compare->sheet_plates, answer->plates, answer->plate_count,
                 answer->figures[paper_parts[answer->part].total_place], answer->plate);
}

void compare_sheet(struct compare *compare, const struct text *text)
{
    struct sheet sheet;
    open_sheet(text, &sheet);
    count_sheet(compare, &sheet);
    compare_space(compare, &sheet, SCANTLING_LONGEST_REPORT);
    if (rng_one_in(&compare->rng, 4)) {
        compare->spaces++;
        compare_space(compare, &sheet, rng_below(&compare->rng, (uint32_t)sheet.report_length + 16));
    }
    free(sheet.text);
}

void compare_spaces(struct compare *compare, const struct text *text)
{
    struct sheet sheet;
    open_sheet(text, &sheet);
    for (size_t lent = 0; lent < sheet.report_length + 8; lent++) {
        compare->spaces++;
        compare_space(compare, &sheet, lent);
    }
    free(sheet.text);
}

void compare_drawn_sheet(struct compare *compare)
{
    static struct text text;
    draw_sheet(&compare->rng, &text);
    compare_sheet(compare, &text);
    if (rng_one_in(&compare->rng, 2000))
        compare_spaces(compare, &text);
}
