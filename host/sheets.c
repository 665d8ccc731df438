#include "sheets.h"

#include "limits.h"

#include <stdio.h>
#include <string.h>

void splice_bytes(
    uint8_t *text, size_t *text_length, size_t room, size_t at, size_t cut, const void *bytes, size_t length)
{
    if (*text_length - cut + length > room)
        return;
    memmove(text + at + length, text + at + cut, *text_length - at - cut);
    memcpy(text + at, bytes, length);
    *text_length = *text_length - cut + length;
}

static void append(struct text *text, const char *word)
{
    splice_bytes(text->bytes, &text->length, TEXT_ROOM, text->length, 0, word, strlen(word));
}

static void append_number(struct text *text, uint32_t number)
{
    char digits[16];
    sprintf(digits, "%lu", (unsigned long)number);
    append(text, digits);
}

static const char *form_letter(uint32_t form)
{
    return form == FORM_A ? "a" : form == FORM_C ? "c" : form == FORM_D ? "d" : "b";
}

static void append_line(struct text *text, const char *key, uint32_t number)
{
    append(text, key);
    append(text, "=");
    if (strcmp(key, "form") == 0)
        append(text, form_letter(number));
    else
        append_number(text, number);
    append(text, "\n");
}

static void append_plates(struct text *text, const struct question *question)
{
    append(text, question->plate_count == 0 ? "plates=none" : "plates=");
    for (size_t i = 0; i < question->plate_count && !question->standard; i++) {
        append(text, i == 0 ? "" : ",");
        append_number(text, question->plates[i].thickness);
        if (question->plates[i].under_tolerance == 0 && (question->colons >> i & 1) == 0)
            continue;
        append(text, ":");
        append_number(text, question->plates[i].under_tolerance);
    }
    append(text, "\n");
}

void write_sheet(const struct question *question, struct text *text)
{
    const struct paper_part *part = &paper_parts[question->part];
    text->length = 0;
    append(text, "part=");
    append(text, part->word);
    append(text, "\n");
    for (size_t i = 0; i < part->numbers; i++)
        append_line(text, part->keys[i], question->numbers[i]);
    append_plates(text, question);
}

void draw_sheet(struct rng *rng, struct text *text)
{
    static struct question question;
    const struct wish nothing = wish_nothing();
    const uint32_t most = rng_one_in(rng, 4) ? PAPER_SHEET_PLATES : 6;
    uint32_t kind = rng_below(rng, 20);
    if (kind < 3)
        draw_any_limit(rng, &question);
    else
        draw_numbers(rng, draw_part(rng), &nothing, &question);
    if (kind == 3)
        draw_wild_numbers(rng, 1000000, &question);
    draw_plates(rng, 0, most, &question);
    if (rng_one_in(rng, 4))
        draw_standard_plates(rng, &question);
    write_sheet(&question, text);
    for (; kind >= 4 && kind < 10; kind = rng_one_in(rng, 6) ? 4 : 10)
        damage_text(rng, rng_below(rng, damage_count), text);
}
