/* Document 01: the sheet, cause 1, and the report; document 02: the rib's lines, the empty plate list, the
   minus of a plate. */
#include "paper.h"

#include <string.h>

static const char *const end_keys[END_NUMBERS] = {
    [END_FORM] = "form", [END_MATERIAL] = "material", [END_SHELL] = "shell", [END_TEMPERATURE] = "temp",
    [END_PRESSURE] = "pressure", [END_DIAMETER] = "dia", [END_ALLOWANCE] = "allow"};
static const char *const blind_keys[BLIND_NUMBERS] = {
    [BLIND_MATERIAL] = "material", [BLIND_TEMPERATURE] = "temp", [BLIND_PRESSURE] = "pressure",
    [BLIND_ALLOWANCE] = "allow", [BLIND_OD] = "od", [BLIND_WIDTH] = "width", [BLIND_RIB] = "rib",
    [BLIND_RIB_WIDTH] = "ribw", [BLIND_M] = "m", [BLIND_Y] = "y", [BLIND_CIRCLE] = "circle", [BLIND_BOLT] = "bolt",
    [BLIND_ROOT] = "root", [BLIND_COUNT] = "count", [BLIND_SA] = "sa", [BLIND_SB] = "sb"};

#define REFUSAL_KEYS [PLACE_CAUSE] = "refused", [PLACE_FIGURE] = "place"
static const char *const refusal_keys[] = {REFUSAL_KEYS};
static const char *const end_report_keys[] = {
    REFUSAL_KEYS, [END_DESIGN_STRESS_PLACE] = "stress", [END_THICKNESS_PLACE] = "need", [END_TOTAL_PLACE] = "total",
    [END_PLATE_PLACE] = "plate"};
static const char *const blind_report_keys[] = {
    REFUSAL_KEYS, [BLIND_DESIGN_STRESS_PLACE] = "stress", [BLIND_AMBIENT_STRESS_PLACE] = "cold",
    [BLIND_REACTION_DIAMETER_PLACE] = "g", [BLIND_EFFECTIVE_WIDTH_PLACE] = "b", [BLIND_OPERATING_LOAD_PLACE] = "wm1",
    [BLIND_SEATING_LOAD_PLACE] = "wm2", [BLIND_FLANGE_LOAD_PLACE] = "w", [BLIND_THICKNESS_PLACE] = "need",
    [BLIND_EDGE_THICKNESS_PLACE] = "edge", [BLIND_TOTAL_PLACE] = "total", [BLIND_PLATE_PLACE] = "plate"};

const struct paper_part paper_parts[PARTS] = {
    [PART_NONE] = {.report_keys = refusal_keys},
    [PART_END] = {.word = "end", .numbers = END_NUMBERS, .keys = end_keys, .report_keys = end_report_keys,
                  .total_place = END_TOTAL_PLACE, .last_place = END_PLATE_PLACE, .thickness_place = END_THICKNESS_PLACE,
                  .edge_thickness_place = BLIND_EDGE_THICKNESS_PLACE, .work = paper_endplate,
                  .exact = paper_endplate_exact},
    [PART_BLIND] = {.word = "blind", .numbers = BLIND_NUMBERS, .keys = blind_keys, .report_keys = blind_report_keys,
                    .total_place = BLIND_TOTAL_PLACE, .last_place = BLIND_PLATE_PLACE,
                    .thickness_place = BLIND_THICKNESS_PLACE, .edge_thickness_place = BLIND_EDGE_THICKNESS_PLACE,
                    .work = paper_blind_flange, .exact = paper_blind_flange_exact},
};

struct span {
    const uint8_t *at;
    size_t length;
};

static int span_is(struct span span, const char *word)
{
    return span.length == strlen(word) && memcmp(span.at, word, span.length) == 0;
}

static struct span span_from(struct span span, size_t start)
{
    struct span rest = {span.at + start, span.length - start};
    return rest;
}

/* The bytes before the first stop; found tells whether there is one. */
static struct span span_before(struct span span, uint8_t stop, int *found)
{
    const uint8_t *end = span.length == 0 ? NULL : memchr(span.at, stop, span.length);
    *found = end != NULL;
    if (end != NULL)
        span.length = (size_t)(end - span.at);
    return span;
}

/* ---- The sheet ---- */

/* Takes the line of this key off the front of text. 0 if key, `=` or LF is not there. */
static int take_line(struct span *text, const char *key, struct span *value)
{
    const size_t key_length = strlen(key);
    int found;
    if (text->length <= key_length || memcmp(text->at, key, key_length) != 0 || text->at[key_length] != '=')
        return 0;
    *value = span_before(span_from(*text, key_length + 1), '\n', &found);
    if (found)
        *text = span_from(*text, key_length + 1 + value->length + 1);
    return found;
}

/* 1 to 6 digits, no leading zero but in 0 itself. */
static int read_number(struct span text, uint32_t *number)
{
    *number = 0;
    if (text.length < 1 || text.length > 6 || (text.length > 1 && text.at[0] == '0'))
        return 0;
    for (size_t i = 0; i < text.length; i++) {
        if (text.at[i] < '0' || text.at[i] > '9')
            return 0;
        *number = 10 * *number + (uint32_t)(text.at[i] - '0');
    }
    return 1;
}

/* A thickness, or a thickness, a colon and a minus; without the colon minus is 0. */
static int read_entry(struct span entry, struct paper_plate *plate)
{
    int colon;
    struct span thickness = span_before(entry, ':', &colon);
    plate->under_tolerance = 0;
    return read_number(thickness, &plate->thickness) &&
           (!colon || read_number(span_from(entry, thickness.length + 1), &plate->under_tolerance));
}

/* 1 to 32 entries with commas between. */
static int read_list(struct span list, struct paper_answer *answer)
{
    int more = 1;
    while (more) {
        struct span entry = span_before(list, ',', &more);
        if (answer->plate_count == PAPER_SHEET_PLATES)
            return 0;
        if (!read_entry(entry, &answer->plates[answer->plate_count++]))
            return 0;
        if (more)
            list = span_from(list, entry.length + 1);
    }
    return 1;
}

/* Nothing for the usual stock, the word none for no plate, or a list. */
static int read_plates(struct span value, struct paper_answer *answer)
{
    answer->stock = value.length == 0 ? PAPER_STANDARD : span_is(value, "none") ? PAPER_NONE : PAPER_LISTED;
    answer->plate_count = answer->stock == PAPER_STANDARD ? PAPER_STANDARD_PLATES : 0;
    memcpy(answer->plates, paper_standard_plates, answer->plate_count * sizeof answer->plates[0]);
    return answer->stock != PAPER_LISTED || read_list(value, answer);
}

static int read_form(struct span text, uint32_t *form)
{
    *form = span_is(text, "a") ? FORM_A : span_is(text, "c") ? FORM_C : span_is(text, "d") ? FORM_D : 0;
    return *form != 0;
}

/* The value of a line between the part and the plates. */
static int read_value(const char *key, struct span value, uint32_t *number)
{
    return strcmp(key, "form") == 0 ? read_form(value, number) : read_number(value, number);
}

static enum part read_part(struct span *text)
{
    struct span value;
    if (!take_line(text, "part", &value))
        return PART_NONE;
    for (enum part part = PART_NONE + 1; part < PARTS; part++)
        if (span_is(value, paper_parts[part].word))
            return part;
    return PART_NONE;
}

/* The number of the first line that is not what must stand there, 0 if none. */
static uint32_t read_sheet(struct span text, struct paper_answer *answer)
{
    struct span value;
    uint32_t line = 1;
    answer->part = read_part(&text);
    if (answer->part == PART_NONE)
        return line;
    const struct paper_part *part = &paper_parts[answer->part];
    for (size_t i = 0; i < part->numbers; i++) {
        line++;
        if (!take_line(&text, part->keys[i], &value) || !read_value(part->keys[i], value, &answer->numbers[i]))
            return line;
    }
    line++;
    if (!take_line(&text, "plates", &value) || !read_plates(value, answer))
        return line;
    return text.length == 0 ? 0 : line + 1;
}

/* ---- The report ---- */

static size_t put_number(uint8_t *text, size_t length, uint64_t number)
{
    if (number >= 10)
        length = put_number(text, length, number / 10);
    text[length] = (uint8_t)('0' + number % 10);
    return length + 1;
}

size_t paper_put_line(uint8_t *text, size_t length, const char *key, uint64_t number)
{
    memcpy(text + length, key, strlen(key));
    length += strlen(key);
    text[length++] = '=';
    length = put_number(text, length, number);
    text[length++] = '\n';
    return length;
}

static size_t put_report(const struct paper_answer *answer, uint8_t *report)
{
    const int refused = answer->figures[PLACE_CAUSE] != CAUSE_NONE;
    const struct paper_part *part = &paper_parts[answer->part];
    const uint32_t first = refused ? PLACE_CAUSE : PLACE_REPORT, last = refused ? PLACE_FIGURE : part->last_place;
    size_t length = 0;
    for (uint32_t place = first; place <= last; place++)
        length = paper_put_line(report, length, part->report_keys[place], answer->figures[place]);
    return length;
}

size_t paper_report(const uint8_t *text, size_t length, uint8_t *report, struct paper_answer *answer)
{
    const struct span sheet = {text, length};
    uint32_t line;
    memset(answer, 0, sizeof *answer);
    line = read_sheet(sheet, answer);
    if (line != 0) {
        answer->figures[PLACE_CAUSE] = CAUSE_LINE;
        answer->figures[PLACE_FIGURE] = line;
    } else {
        answer->plate =
            paper_parts[answer->part].work(answer->numbers, answer->plates, answer->plate_count, answer->figures);
    }
    return put_report(answer, report);
}

size_t paper_sheet(const uint8_t *text, size_t length, uint8_t *out, size_t out_length)
{
    uint8_t report[PAPER_REPORT_ROOM];
    struct paper_answer answer;
    size_t report_length = paper_report(text, length, report, &answer);
    if (report_length <= out_length)
        memcpy(out, report, report_length);
    return report_length;
}
