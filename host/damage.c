#include "sheets.h"

#include <string.h>

static void splice(struct text *text, size_t at, size_t cut, const void *bytes, size_t length)
{
    splice_bytes(text->bytes, &text->length, TEXT_ROOM, at, cut, bytes, length);
}

static void insert(struct text *text, size_t at, const char *word)
{
    splice(text, at, 0, word, strlen(word));
}

static size_t any_place(struct rng *rng, const struct text *text)
{
    return rng_below(rng, (uint32_t)text->length + 1);
}

/* The place after the nth byte of this value, counted from 0; the text's length if there are fewer. */
static size_t after_byte(const struct text *text, uint8_t byte, uint32_t nth)
{
    for (size_t at = 0; at < text->length; at++)
        if (text->bytes[at] == byte && nth-- == 0)
            return at + 1;
    return text->length;
}

static uint32_t count_bytes(const struct text *text, uint8_t byte)
{
    uint32_t count = 0;
    for (size_t at = 0; at < text->length; at++)
        count += text->bytes[at] == byte;
    return count;
}

/* A line from 0 on: its start, and its length with LF. */
struct line {
    size_t start;
    size_t length;
};

static struct line line_at(const struct text *text, uint32_t number)
{
    struct line line;
    line.start = number == 0 ? 0 : after_byte(text, '\n', number - 1);
    line.length = after_byte(text, '\n', number) - line.start;
    return line;
}

static struct line any_line(struct rng *rng, const struct text *text)
{
    return line_at(text, rng_below(rng, count_bytes(text, '\n') + 1));
}

/* The start of a line's value, from line 1 on; the text's end if it has no `=`. */
static size_t any_value(struct rng *rng, const struct text *text)
{
    return after_byte(text, '=', rng_below(rng, count_bytes(text, '=') + 1));
}

static size_t value_length(const struct text *text, size_t start)
{
    const uint8_t *end = start < text->length ? memchr(text->bytes + start, '\n', text->length - start) : NULL;
    return end == NULL ? text->length - start : (size_t)(end - text->bytes) - start;
}

static void change_byte(struct rng *rng, struct text *text)
{
    static const char common[] = "0123456789=,\n\rabcdefghilmnoprstuwy AZ/:";
    uint8_t byte = rng_one_in(rng, 3) ? (uint8_t)rng_bits(rng) : (uint8_t)common[rng_below(rng, sizeof common)];
    if (text->length > 0)
        splice(text, rng_below(rng, (uint32_t)text->length), 1, &byte, 1);
}

static void drop_byte(struct rng *rng, struct text *text)
{
    if (text->length > 0)
        splice(text, rng_below(rng, (uint32_t)text->length), 1, "", 0);
}

static void double_byte(struct rng *rng, struct text *text)
{
    if (text->length > 0) {
        size_t at = rng_below(rng, (uint32_t)text->length);
        uint8_t byte = text->bytes[at];
        splice(text, at, 0, &byte, 1);
    }
}

static void drop_line(struct rng *rng, struct text *text)
{
    struct line line = any_line(rng, text);
    splice(text, line.start, line.length, "", 0);
}

static void double_line(struct rng *rng, struct text *text)
{
    struct text before = *text;
    struct line line = any_line(rng, text);
    splice(text, line.start, 0, before.bytes + line.start, line.length);
}

/* Moves a line to the place before another. */
static void move_line(struct rng *rng, struct text *text)
{
    struct text before = *text;
    struct line line = any_line(rng, text);
    splice(text, line.start, line.length, "", 0);
    splice(text, any_line(rng, text).start, 0, before.bytes + line.start, line.length);
}

static void swap_lines(struct rng *rng, struct text *text)
{
    struct text before = *text;
    uint32_t number = rng_below(rng, count_bytes(text, '\n') + 1);
    struct line first = line_at(text, number), second = line_at(text, number + 1);
    splice(text, first.start, first.length + second.length, before.bytes + second.start, second.length);
    splice(text, first.start + second.length, 0, before.bytes + first.start, first.length);
}

static void one_crlf(struct rng *rng, struct text *text)
{
    struct line line = any_line(rng, text);
    if (line.length > 0)
        insert(text, line.start + line.length - 1, "\r");
}

static void all_crlf(struct rng *rng, struct text *text)
{
    (void)rng;
    for (size_t at = 0; at < text->length && text->length < TEXT_ROOM; at++)
        if (text->bytes[at] == '\n')
            insert(text, at++, "\r");
}

static void drop_last_lf(struct rng *rng, struct text *text)
{
    (void)rng;
    if (text->length > 0)
        text->length--;
}

static void cut_short(struct rng *rng, struct text *text)
{
    text->length = any_place(rng, text);
}

/* 31 to 34 plates that serve, in place of the list. */
static void many_plates(struct rng *rng, struct text *text)
{
    static const char *const plates[] = {"1,", "1,", "1,", "1:0,", "1:1,", "1:999999,", "999998,", "999998:30,"};
    size_t at = after_byte(text, '=', count_bytes(text, '=') - 1);
    uint32_t count = rng_between(rng, 31, 34);
    splice(text, at, value_length(text, at), "999999", 6);
    for (uint32_t i = 1; i < count; i++)
        insert(text, at, plates[rng_below(rng, sizeof plates / sizeof plates[0])]);
}

static void faulty_plates(struct rng *rng, struct text *text)
{
    static const char *const faults[] = {",", ",,", "1,", "0,", "00,", ",0", ".", ";", "1000000,", "999999,", " "};
    size_t at = after_byte(text, '=', count_bytes(text, '=') - 1);
    if (rng_one_in(rng, 2))
        at += value_length(text, at);
    insert(text, at, faults[rng_below(rng, sizeof faults / sizeof faults[0])]);
}

/* The start of one of the list's entries, and the entry's length. */
static size_t any_entry(struct rng *rng, const struct text *text, size_t *length)
{
    const size_t start = after_byte(text, '=', count_bytes(text, '=') - 1);
    const size_t end = start + value_length(text, start);
    uint32_t skip = 0;
    for (size_t at = start; at < end; at++)
        skip += text->bytes[at] == ',';
    skip = rng_below(rng, skip + 1);
    size_t at = start;
    for (; skip > 0; at++)
        skip -= text->bytes[at] == ',';
    *length = 0;
    while (at + *length < end && text->bytes[at + *length] != ',')
        ++*length;
    return at;
}

/* An entry of another form in place of one of the list or before it. Some are sound. */
static void other_entry(struct rng *rng, struct text *text)
{
    static const char *const entries[] = {
        ":30", "300:", "300:0:0", "300:30:", "300:03", "300:00", "0300:30", "300: 30", "300 :30", " 300:30", "300:30 ",
        "300::30", ":", "::", ":300:30", "300:1000000", "1000000:30", "300:4294967326", "300:-1", "300:+1", "-300:30",
        "300:0x1", "300:3a", "300:30\r", "300;30", "300.30", "300/30", "300-30", "300:none", "none:30", "none:", ":none",
        "300:0", "300:300", "300:301", "0:0", "0:1", "999999:0", "999999:1", "999999:999999", "0:999999"};
    size_t length, at = any_entry(rng, text, &length);
    const int before = rng_one_in(rng, 2);
    splice(text, at, before ? 0 : length, before ? "," : "", (size_t)before);
    insert(text, at, entries[rng_below(rng, sizeof entries / sizeof entries[0])]);
}

/* Before, after or within an entry: a colon, a minus, what a colon is beside. */
static void put_in_entry(struct rng *rng, struct text *text)
{
    static const char *const words[] = {":", ":0", ":30", ":,", ",:", "::", ":0:", "0:", "30:", ": ", " :", ":\n", "\n:"};
    size_t length, at = any_entry(rng, text, &length);
    const uint32_t place = rng_below(rng, 3);
    at += place == 0 ? 0 : place == 1 ? length : rng_below(rng, (uint32_t)length + 1);
    insert(text, at, words[rng_below(rng, sizeof words / sizeof words[0])]);
}

/* A comma becomes a colon, or a colon a comma. */
static void swap_separator(struct rng *rng, struct text *text)
{
    const char *from = rng_one_in(rng, 2) ? ":" : ",", *to = *from == ':' ? "," : ":";
    const uint32_t count = count_bytes(text, (uint8_t)*from);
    if (count > 0)
        splice(text, after_byte(text, (uint8_t)*from, rng_below(rng, count)) - 1, 1, to, 1);
}

/* What is nearly none, nearly nothing, or a list with either in it. */
static void other_stock(struct rng *rng, struct text *text)
{
    static const char *const words[] = {
        "", "none", "None", "nonE", "NONE", "non", "nones", "nnone", "none,", ",none", "none,300", "300,none", "none,none",
        " none", "none ", " ", "none\r", "no\nne", "none\n", "n", "0none", "none0", "\"none\"", "nil", "300,", ",",
        "none:0", ":none", ":"};
    size_t at = after_byte(text, '=', count_bytes(text, '=') - 1);
    splice(text, at, value_length(text, at), "", 0);
    insert(text, at, words[rng_below(rng, sizeof words / sizeof words[0])]);
}

/* A number of six or seven digits. */
static void long_number(struct rng *rng, struct text *text)
{
    static const char *const numbers[] = {"1000000", "9999999", "999999", "100000", "4294967296", "0000001"};
    size_t at = any_value(rng, text);
    splice(text, at, value_length(text, at), "", 0);
    insert(text, at, numbers[rng_below(rng, 6)]);
}

static void put_before_value(struct rng *rng, struct text *text)
{
    static const char *const words[] = {"0", "00", "+", "-", " ", "=", "\t", "0x"};
    size_t at = any_value(rng, text);
    insert(text, at, words[rng_below(rng, 8)]);
}

static void put_after_value(struct rng *rng, struct text *text)
{
    static const char *const words[] = {" ", ".0", ",", ",1", "mm", "\r", "=", "\n", ":", ":0"};
    size_t at = any_value(rng, text);
    insert(text, at + value_length(text, at), words[rng_below(rng, sizeof words / sizeof words[0])]);
}

static void empty_value(struct rng *rng, struct text *text)
{
    size_t at = any_value(rng, text);
    splice(text, at, value_length(text, at), "", 0);
}

static void zero_value(struct rng *rng, struct text *text)
{
    size_t at = any_value(rng, text);
    splice(text, at, value_length(text, at), "0", 1);
}

/* Another letter for the form, another word for the part. */
static void other_word(struct rng *rng, struct text *text)
{
    static const char *const words[] = {"a", "b", "c", "d", "e", "A", "aa", "", "1", "end", "blind", "End", "ends"};
    size_t at = after_byte(text, '=', rng_below(rng, 2));
    splice(text, at, value_length(text, at), "", 0);
    insert(text, at, words[rng_below(rng, sizeof words / sizeof words[0])]);
}

/* Thousands of bytes of one sort in a value. */
static void long_value(struct rng *rng, struct text *text)
{
    static uint8_t bytes[TEXT_ROOM];
    size_t length = 1 + rng_below(rng, TEXT_ROOM - 1);
    memset(bytes, "0199, \nx:"[rng_below(rng, 9)], length);
    splice(text, any_value(rng, text), 0, bytes, length);
}

static void foreign_byte(struct rng *rng, struct text *text)
{
    static const uint8_t bytes[] = {0, 255, 128, 127, 9, 11, 13, 32};
    size_t at = any_place(rng, text);
    splice(text, at, 0, &bytes[rng_below(rng, 8)], 1);
}

static void upper_case(struct rng *rng, struct text *text)
{
    size_t at = any_place(rng, text);
    for (; at < text->length; at++)
        if (text->bytes[at] >= 'a' && text->bytes[at] <= 'z') {
            text->bytes[at] = (uint8_t)(text->bytes[at] - 'a' + 'A');
            return;
        }
}

static void space_about_equals(struct rng *rng, struct text *text)
{
    size_t at = any_value(rng, text);
    insert(text, at > 0 && rng_one_in(rng, 2) ? at - 1 : at, " ");
}

/* A line of either part before a line, or in its place. */
static void other_line(struct rng *rng, struct text *text)
{
    static const char *const lines[] = {
        "part=end\n", "part=blind\n", "form=c\n", "shell=1\n", "dia=5000\n", "od=5000\n", "width=100\n", "rib=0\n",
        "ribw=0\n", "sb=100\n", "temp=150\n", "plates=2500\n", "plates=2500:30\n", "plates=\n", "plates=none\n",
        "refused=1\n", "\n", "=\n", "temp\n"};
    struct line line = any_line(rng, text);
    splice(text, line.start, rng_one_in(rng, 2) ? line.length : 0, "", 0);
    insert(text, line.start, lines[rng_below(rng, sizeof lines / sizeof lines[0])]);
}

/* The key of a line lengthened, shortened or taken from another line. */
static void other_key(struct rng *rng, struct text *text)
{
    static const char *const keys[] = {"t", "plate", "plates", "material", "s", "sa", "wm1", "", "temp", "m", "rib", "ribw"};
    struct line line = any_line(rng, text);
    size_t cut = line.length > 1 ? rng_below(rng, 2) : 0;
    splice(text, line.start, cut, "", 0);
    insert(text, line.start, keys[rng_below(rng, sizeof keys / sizeof keys[0])]);
}

/* The eighth and ninth line gone: rib and ribw of a blind sheet, which leaves it in the form before R-4. */
static void no_rib_lines(struct rng *rng, struct text *text)
{
    struct line rib = line_at(text, 7), rib_width = line_at(text, 8);
    (void)rng;
    splice(text, rib.start, rib.length + rib_width.length, "", 0);
}

static void trailing_bytes(struct rng *rng, struct text *text)
{
    static const char *const ends[] = {"\n", "\r\n", "\n\n", " ", "0", "plates=\n", "part=end\n", "\xff"};
    insert(text, text->length, ends[rng_below(rng, 8)]);
}

static void no_text(struct rng *rng, struct text *text)
{
    (void)rng;
    text->length = 0;
}

static void random_bytes(struct rng *rng, struct text *text)
{
    size_t start = rng_one_in(rng, 2) ? 0 : any_place(rng, text);
    size_t length = rng_below(rng, 64);
    text->length = start < TEXT_ROOM - 64 ? start + length : length;
    rng_fill(rng, text->bytes + text->length - length, length);
}

static void (*const damages[])(struct rng *, struct text *) = {
    change_byte, drop_byte, double_byte, drop_line, double_line, move_line, swap_lines, one_crlf, all_crlf,
    drop_last_lf, cut_short, many_plates, faulty_plates, other_entry, put_in_entry, swap_separator, other_stock,
    long_number, put_before_value, put_after_value, empty_value, zero_value, other_word, foreign_byte, upper_case,
    space_about_equals, other_line, other_key, no_rib_lines, trailing_bytes, no_text, random_bytes, long_value};
const uint32_t damage_count = sizeof damages / sizeof damages[0];

void damage_text(struct rng *rng, uint32_t damage, struct text *text)
{
    damages[damage](rng, text);
}
