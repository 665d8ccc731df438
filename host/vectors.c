/*
 * Program `vectors`: `vectors make` writes test vectors, `vectors work` reads such lines on standard input and writes
 * each with its answer. The lines, numbers in decimal with single spaces between:
 *
 *     1 form material shell temperature pressure diameter allowance plates...
 *     2 material temperature pressure allowance od width rib rib_width m y circle bolt root count sa sb plates...
 *         plates: two numbers each, thickness and minus; a last number by itself is not read
 *         = cause figure, the report's figures if accepted, the plate as thickness:minus,
 *           : the figures at places 0 to 7 (1) or 0 to 14 (2)
 *     3 ROOM TEXT: a sheet, `/` for LF, `\` for CR, `^` for NUL, `~` for byte 255, and the length of the space lent
 *         = cause figure length : an array of 160 dots of which ROOM were lent, LF shown as `/`
 *     4 material temperature = the design stress
 *     5 n d = the least q with d * q >= n; 0 if d is 0
 *     6 n = the least r with r * r >= n
 *     7 n a = the least t with a * t * t >= n; 0 if a is 0
 *     8, 9: as 1 and 2 without the plates, for the calls that take no list
 *     10 total plates... = the smallest plate that serves, as thickness:minus, or none
 *     11 LIMIT ROOM TEXT: a book in the signs of 3, with a limit and the length of the space lent
 *         = cause figure count length : an array of 512 dots of which ROOM were lent, LF shown as `/`
 *     12 ROOM TEXT: a book in the signs of 3, and the length of the space lent for its summary
 *         = cause figure length : an array of 512 dots of which ROOM were lent, LF shown as `/`; of a short space the
 *           figure is the length needed, and the length 0
 *     13 material temperature pressure allowance od width rib rib_width m y circle sa sb D diameters... A areas...
 *        plates...: as 2 with bolts to choose; D and A are how many diameters and root areas follow
 *         = as 2 up to the plate, then bolt root count if accepted, : the figures at places 0 to 17
 *     14 tube group span plate
 *         = cause figure, the longest span and the least thickness if accepted, : the figures at places 0 to 5
 */
#include "vectors.h"

#include <inttypes.h>
#include <stdio.h>
#include <stdlib.h>
#include <string.h>

const char vector_bytes[VECTOR_SIGNS] = {'\n', '\r', '\0', '\xff'};
const char vector_signs[VECTOR_SIGNS] = {'/', '\\', '^', '~'};

static void give_up(const char *why, const char *line)
{
    fprintf(stderr, "vectors: %s: %s\n", why, line);
    exit(1);
}

/* Numbers with single spaces between, the kind first. */
struct numbers {
    uint64_t values[VECTOR_NUMBERS];
    size_t count;
};

static void read_numbers(const char *line, struct numbers *numbers)
{
    const char *at = line;
    numbers->count = 0;
    for (;;) {
        char *end;
        if (numbers->count == VECTOR_NUMBERS || *at < '0' || *at > '9')
            give_up("not numbers, or too many", line);
        numbers->values[numbers->count++] = strtoull(at, &end, 10);
        if (*end == '\0')
            return;
        if (*end != ' ')
            give_up("not numbers", line);
        at = end + 1;
    }
}

/* Those at the places from first to last. */
static void print_figures(const uint64_t *figures, uint32_t first, uint32_t last)
{
    for (uint32_t place = first; place <= last; place++)
        printf(" %" PRIu64, figures[place]);
}

/* What a kind's lines ask. */
struct kind {
    void (*work)(const char *line, const struct kind *kind);
    enum part part;                         /* of a calculation, */
    int standard;                           /* of the call without a list */
    size_t count;                           /* of the numbers after the kind, 1 or 2, and what is worked from them */
    uint64_t (*answer)(uint64_t, uint64_t);
};

/* Two numbers to a plate. A last one by itself is not read. */
static size_t pair_plates(const uint32_t *values, size_t count, struct paper_plate *plates)
{
    for (size_t i = 0; i < count / 2; i++) {
        plates[i].thickness = values[2 * i];
        plates[i].under_tolerance = values[2 * i + 1];
    }
    return count / 2;
}

static void print_plate(const struct paper_plate *plate)
{
    printf(" %" PRIu32 ":%" PRIu32, plate->thickness, plate->under_tolerance);
}

/* What is answered to a line; the figures past the plate's only if it is accepted. */
static void print_answer(
    const char *line, const uint64_t figures[PAPER_PLACES], const struct paper_plate *plate, uint32_t plate_place,
    uint32_t last_place)
{
    printf("%s =", line);
    print_figures(figures, PLACE_CAUSE, plate == NULL ? PLACE_FIGURE : plate_place - 1);
    if (plate != NULL) {
        print_plate(plate);
        print_figures(figures, plate_place + 1, last_place);
    }
    printf(" :");
    print_figures(figures, PLACE_CAUSE, last_place + 2);
    printf("\n");
}

/* The numbers from this one on, none of them above 32 bits. Returns how many. */
static size_t read_words(const char *line, const struct numbers *numbers, size_t from, uint32_t words[VECTOR_NUMBERS])
{
    for (size_t i = from; i < numbers->count; i++)
        words[i - from] =
            numbers->values[i] <= UINT32_MAX ? (uint32_t)numbers->values[i] : (give_up("too large", line), 0);
    return numbers->count - from;
}

/* The numbers of a calculation's line after its kind. */
static size_t read_values(const char *line, const struct kind *kind, uint32_t values[VECTOR_NUMBERS])
{
    const struct paper_part *part = &paper_parts[kind->part];
    static struct numbers numbers;
    read_numbers(line, &numbers);
    const size_t count = read_words(line, &numbers, 1, values);
    if (count < part->numbers)
        give_up("too few numbers", line);
    if (kind->standard && count > part->numbers)
        give_up("too many numbers", line);
    return count;
}

/* A calculation's call. */
static void work_question(const char *line, const struct kind *kind)
{
    const struct paper_part *part = &paper_parts[kind->part];
    static uint32_t values[VECTOR_NUMBERS];
    static struct paper_plate list[VECTOR_NUMBERS / 2];
    uint64_t figures[PAPER_PLACES];
    const size_t count = read_values(line, kind, values);
    const size_t listed = pair_plates(values + part->numbers, count - part->numbers, list);
    const struct paper_plate *plate =
        kind->standard ? part->work(values, paper_standard_plates, PAPER_STANDARD_PLATES, figures)
                       : part->work(values, list, listed, figures);
    print_answer(line, figures, plate, part->last_place, part->last_place);
}

/* The numbers that follow their count, which stands at this one of the words; it is moved past them. */
static const uint32_t *take_list(
    const char *line, const uint32_t words[VECTOR_NUMBERS], size_t count, size_t *at, size_t *length)
{
    const size_t first = *at + 1;
    if (first > count || words[*at] > count - first)
        give_up("no list", line);
    *length = words[*at];
    *at = first + *length;
    return words + first;
}

/* The call that chooses the bolts. */
static void work_bolts(const char *line, const struct kind *kind)
{
    static struct numbers numbers;
    static uint32_t words[VECTOR_NUMBERS];
    static struct paper_plate list[VECTOR_NUMBERS / 2];
    uint32_t flange[BLIND_NUMBERS] = {0};
    uint64_t figures[PAPER_PLACES];
    struct paper_sizes sizes;
    size_t at = BLIND_BOLT + 2; /* sa and sb are last */
    read_numbers(line, &numbers);
    const size_t count = read_words(line, &numbers, 1, words);
    sizes.diameters = take_list(line, words, count, &at, &sizes.diameter_count);
    sizes.areas = take_list(line, words, count, &at, &sizes.area_count);
    memcpy(flange, words, BLIND_BOLT * sizeof flange[0]);
    memcpy(flange + BLIND_SA, words + BLIND_BOLT, 2 * sizeof flange[0]);
    const size_t listed = pair_plates(words + at, count - at, list);
    const struct paper_plate *plate = paper_blind_flange_bolts(flange, &sizes, list, listed, figures);
    print_answer(line, figures, plate, paper_parts[kind->part].last_place, BLIND_COUNT_PLACE);
}

static void work_support_plate(const char *line, const struct kind *kind)
{
    (void)kind;
    static struct numbers numbers;
    static uint32_t words[VECTOR_NUMBERS];
    uint64_t figures[PAPER_PLACES];
    read_numbers(line, &numbers);
    if (read_words(line, &numbers, 1, words) != SUPPORT_NUMBERS)
        give_up("not as many numbers", line);
    paper_support_plate(words, figures);
    printf("%s =", line);
    print_figures(figures, PLACE_CAUSE, figures[PLACE_CAUSE] == CAUSE_NONE ? SUPPORT_THICKNESS_PLACE : PLACE_FIGURE);
    printf(" :");
    print_figures(figures, PLACE_CAUSE, SUPPORT_THICKNESS_PLACE + 2);
    printf("\n");
}

/* A total and plates. */
static void work_choice(const char *line, const struct kind *kind)
{
    (void)kind;
    static struct numbers numbers;
    static uint32_t words[VECTOR_NUMBERS];
    static struct paper_plate list[VECTOR_NUMBERS / 2];
    read_numbers(line, &numbers);
    if (numbers.count < 2)
        give_up("no total", line);
    const size_t listed = pair_plates(words, read_words(line, &numbers, 2, words), list);
    const struct paper_plate *plate = paper_smallest_serving(list, listed, numbers.values[1]);
    printf("%s =", line);
    if (plate != NULL)
        print_plate(plate);
    printf(plate != NULL ? "\n" : " none\n");
}

size_t decode_signs(const char *signs, uint8_t text[VECTOR_LINE])
{
    size_t length = 0;
    for (; signs[length] != '\0'; length++) {
        const char *sign = memchr(vector_signs, signs[length], VECTOR_SIGNS);
        text[length] = (uint8_t)(sign == NULL ? signs[length] : vector_bytes[sign - vector_signs]);
    }
    return length;
}

/* A number, most or less, and one space; end is set past them. */
static unsigned long read_before_text(const char *line, const char *from, unsigned long most, const char **end)
{
    char *after;
    const unsigned long number = strtoul(from, &after, 10);
    if (number > most || *after != ' ')
        give_up("no number and text", line);
    *end = after + 1;
    return number;
}

static void print_space(const uint8_t *space, size_t length)
{
    printf(" : ");
    for (size_t i = 0; i < length; i++)
        putchar(space[i] == '\n' ? '/' : space[i]);
    printf("\n");
}

static void work_sheet(const char *line, const struct kind *kind)
{
    (void)kind;
    static uint8_t text[VECTOR_LINE];
    uint8_t report[PAPER_REPORT_ROOM], space[VECTOR_ROOM];
    struct paper_answer answer;
    const char *signs;
    const unsigned long room = read_before_text(line, line + 2, VECTOR_ROOM, &signs);
    const size_t length = paper_report(text, decode_signs(signs, text), report, &answer);
    if (length > VECTOR_ROOM)
        give_up("a report longer than any space", line);
    memset(space, '.', sizeof space);
    if (length <= room)
        memcpy(space, report, length);
    const uint64_t cause = length <= room ? answer.figures[PLACE_CAUSE] : CAUSE_SPACE;
    const uint64_t figure = length <= room ? answer.figures[PLACE_FIGURE] : length;
    printf("%s = %" PRIu64 " %" PRIu64 " %lu", line, cause, figure, (unsigned long)length);
    print_space(space, sizeof space);
}

static void work_book(const char *line, const struct kind *kind)
{
    (void)kind;
    static uint8_t text[VECTOR_LINE];
    uint8_t space[VECTOR_BOOK_ROOM];
    uint64_t figures[BATCH_PLACES];
    const char *signs;
    const uint32_t limit = (uint32_t)read_before_text(line, line + 3, UINT32_MAX, &signs);
    const unsigned long room = read_before_text(line, signs, VECTOR_BOOK_ROOM, &signs);
    memset(space, '.', sizeof space);
    paper_book(text, decode_signs(signs, text), limit, space, room, figures);
    printf("%s =", line);
    print_figures(figures, PLACE_CAUSE, BATCH_LENGTH_PLACE);
    print_space(space, sizeof space);
}

static void work_summary(const char *line, const struct kind *kind)
{
    (void)kind;
    static uint8_t text[VECTOR_LINE];
    uint8_t space[VECTOR_BOOK_ROOM];
    const char *signs;
    const unsigned long room = read_before_text(line, line + 3, VECTOR_BOOK_ROOM, &signs);
    memset(space, '.', sizeof space);
    const unsigned long needed = paper_summary(text, decode_signs(signs, text), space, room);
    if (needed > room)
        printf("%s = %d %lu 0", line, CAUSE_SPACE, needed);
    else
        printf("%s = %d 0 %lu", line, CAUSE_NONE, needed);
    print_space(space, sizeof space);
}

static void work_numbers(const char *line, const struct kind *kind)
{
    static struct numbers numbers;
    read_numbers(line, &numbers);
    if (numbers.count != 1 + kind->count)
        give_up("not as many numbers", line);
    printf("%s = %" PRIu64 "\n", line, kind->answer(numbers.values[1], kind->count == 2 ? numbers.values[2] : 0));
}

static uint64_t design_stress(uint64_t material, uint64_t temperature)
{
    return paper_design_stress((uint32_t)material, (uint32_t)temperature);
}

static uint64_t quotient(uint64_t n, uint64_t d)
{
    return d == 0 ? 0 : paper_least_quotient(d, n);
}

static uint64_t root(uint64_t n, uint64_t unused)
{
    (void)unused;
    return paper_least_root(1, n);
}

static uint64_t root_over(uint64_t n, uint64_t a)
{
    return a == 0 ? 0 : paper_least_root(a, n);
}

static const struct kind kinds[KINDS] = {
    [KIND_ENDPLATE] = {.work = work_question, .part = PART_END},
    [KIND_BLIND_FLANGE] = {.work = work_question, .part = PART_BLIND},
    [KIND_SHEET] = {.work = work_sheet},
    [KIND_DESIGN_STRESS] = {.work = work_numbers, .count = 2, .answer = design_stress},
    [KIND_QUOTIENT] = {.work = work_numbers, .count = 2, .answer = quotient},
    [KIND_ROOT] = {.work = work_numbers, .count = 1, .answer = root},
    [KIND_ROOT_OVER] = {.work = work_numbers, .count = 2, .answer = root_over},
    [KIND_ENDPLATE_STANDARD] = {.work = work_question, .part = PART_END, .standard = 1},
    [KIND_BLIND_FLANGE_STANDARD] = {.work = work_question, .part = PART_BLIND, .standard = 1},
    [KIND_SMALLEST_SERVING] = {.work = work_choice},
    [KIND_BOOK] = {.work = work_book},
    [KIND_SUMMARY] = {.work = work_summary},
    [KIND_BLIND_FLANGE_BOLTS] = {.work = work_bolts, .part = PART_BLIND},
    [KIND_SUPPORT_PLATE] = {.work = work_support_plate},
};

static void work_line(const char *line)
{
    const unsigned long kind = strtoul(line, NULL, 10);
    if (kind == 0 || kind >= KINDS)
        give_up("no such kind", line);
    kinds[kind].work(line, &kinds[kind]);
}

static void work_vectors(void)
{
    static char line[VECTOR_LINE + 1];
    while (fgets(line, sizeof line, stdin) != NULL) {
        char *end = strchr(line, '\n');
        if (end == NULL)
            give_up("a line without end", line);
        *end = '\0';
        work_line(line);
    }
}

int main(int argc, char **argv)
{
    if (argc == 2 && strcmp(argv[1], "make") == 0)
        make_vectors();
    else if (argc == 2 && strcmp(argv[1], "work") == 0)
        work_vectors();
    else
        give_up("usage", "vectors make | vectors work");
    return 0;
}
