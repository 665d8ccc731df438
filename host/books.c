#include "books.h"

#include <string.h>

/* Some bytes, NUL among them. */
struct bytes {
    const char *at;
    size_t length;
};
#define BYTES(literal) {literal, sizeof(literal) - 1}

static void splice(struct book *book, size_t at, size_t cut, const void *bytes, size_t length)
{
    splice_bytes(book->bytes, &book->length, BOOK_ROOM, at, cut, bytes, length);
}

void append_to_book(struct book *book, const void *bytes, size_t length)
{
    splice(book, book->length, 0, bytes, length);
}

static const struct bytes *any_of(struct rng *rng, const struct bytes *words, uint32_t count)
{
    return &words[rng_below(rng, count)];
}

/* ---- Places of a book ---- */

static size_t any_place(struct rng *rng, const struct book *book)
{
    return rng_below(rng, (uint32_t)book->length + 1);
}

/* The start of the line that a place is in. */
static size_t line_start(const struct book *book, size_t at)
{
    while (at > 0 && book->bytes[at - 1] != '\n')
        at--;
    return at;
}

static size_t any_line(struct rng *rng, const struct book *book)
{
    return line_start(book, any_place(rng, book));
}

static int is_cut(const struct book *book, size_t at)
{
    return at >= 1 && at + KEY_LENGTH <= book->length && memcmp(book->bytes + at - 1, CUT_KEY, CUT_LENGTH) == 0;
}

/* The first cut from some place on, or from the front if there is none; 0 if there is none at all. */
static size_t any_cut(struct rng *rng, const struct book *book)
{
    const size_t from = any_place(rng, book), places = book->length + 1;
    for (size_t i = 0; i < places; i++)
        if (is_cut(book, (from + i) % places))
            return (from + i) % places;
    return 0;
}

/* ---- Damages ---- */

/* The key where it is no line's first, or pieces of it. */
static void put_anywhere(struct rng *rng, struct book *book)
{
    static const struct bytes words[] = {
        BYTES("part="), BYTES("part=end"), BYTES("part=end\n"), BYTES("part=\n"), BYTES("\npart="), BYTES("\npart"),
        BYTES("part"), BYTES("\n"), BYTES("=part="), BYTES("\rpart="), BYTES("\npart=part=")};
    const struct bytes *word = any_of(rng, words, COUNT(words));
    splice(book, any_place(rng, book), 0, word->at, word->length);
}

/* Between a cut's LF and its key, where some leave a cut, or another one. */
static void put_before_key(struct rng *rng, struct book *book)
{
    static const struct bytes words[] = {
        BYTES("x"), BYTES(" "), BYTES("\t"), BYTES("\r"), BYTES("\0"), BYTES("p"), BYTES("pa"), BYTES("par"),
        BYTES("part"), BYTES("part="), BYTES("="), BYTES("\n"), BYTES("\n\n"), BYTES("\r\n"), BYTES("\v"),
        BYTES("\n\r"), BYTES("\xff"), BYTES("part=\n"), BYTES("\x8a"), BYTES("Orders:\n")};
    const struct bytes *word = any_of(rng, words, COUNT(words));
    splice(book, any_cut(rng, book), 0, word->at, word->length);
}

/* In place of a cut's LF. */
static void other_end(struct rng *rng, struct book *book)
{
    static const struct bytes ends[] = {
        BYTES(""), BYTES("\r"), BYTES("\r\n"), BYTES("\n\r"), BYTES("\n\n"), BYTES(" "), BYTES("\0"), BYTES("\v"),
        BYTES("\f"), BYTES("\x8a"), BYTES("\x85"), BYTES("\n\0"), BYTES("\0\n"), BYTES("\\n"), BYTES(","),
        BYTES("\n ")};
    const struct bytes *end = any_of(rng, ends, COUNT(ends));
    const size_t at = any_cut(rng, book);
    if (at > 0)
        splice(book, at - 1, 1, end->at, end->length);
}

/* In place of a cut's key. */
static void other_key(struct rng *rng, struct book *book)
{
    static const struct bytes keys[] = {
        BYTES("Part="), BYTES("PART="), BYTES("parT="), BYTES("part"), BYTES("part:"), BYTES("part ="), BYTES("par="),
        BYTES("parts="), BYTES("part\n="), BYTES("="), BYTES("p art="), BYTES("part=="), BYTES("part-"),
        BYTES("art="), BYTES("pert="), BYTES("pqrt="), BYTES("part<"), BYTES("part>"), BYTES("part\xbd"),
        BYTES("\xf0""art="), BYTES("part\0="), BYTES("p"), BYTES("")};
    const struct bytes *key = any_of(rng, keys, COUNT(keys));
    const size_t at = any_cut(rng, book);
    if (at > 0)
        splice(book, at, KEY_LENGTH, key->at, key->length);
}

/* Before a line. */
static void other_line(struct rng *rng, struct book *book)
{
    static const struct bytes lines[] = {
        BYTES("part=\n"), BYTES("part\n"), BYTES("partend\n"), BYTES("part="), BYTES("part"), BYTES("Part=\n"),
        BYTES("xpart=\n"), BYTES(" part=end\n"), BYTES("part\r\n"), BYTES("part=\r\n"), BYTES("par"), BYTES("\n"),
        BYTES("\npart=\n"), BYTES("part=end\n"), BYTES("part=blind\n"), BYTES("part=\0\n"), BYTES("\0\n"),
        BYTES("= part=\n")};
    const struct bytes *line = any_of(rng, lines, COUNT(lines));
    splice(book, any_line(rng, book), 0, line->at, line->length);
}

/* Lines of the key alone, one after another. */
static void many_lines(struct rng *rng, struct book *book)
{
    const size_t at = any_line(rng, book);
    const uint32_t count = rng_one_in(rng, 4) ? rng_between(rng, 60, 70) : rng_between(rng, 1, 6);
    for (uint32_t i = 0; i < count; i++)
        splice(book, at, 0, "part=\n", 6);
}

static void other_tail(struct rng *rng, struct book *book)
{
    static const struct bytes tails[] = {
        BYTES("part="), BYTES("part="), BYTES("part="), BYTES("part=\n"), BYTES("\npart="), BYTES("\npart=\n"),
        BYTES("\n"), BYTES("\n\n"), BYTES("\n\npart="), BYTES("\r\npart="), BYTES("\npart"), BYTES("\npar"),
        BYTES("\np"), BYTES("part"), BYTES("p"), BYTES("\nPart="), BYTES("\n part="), BYTES("\npart= "),
        BYTES("part=end"), BYTES("\npart=\0"), BYTES("xpart="), BYTES("part=part="), BYTES("part=\npart="),
        BYTES("\0")};
    const struct bytes *tail = any_of(rng, tails, COUNT(tails));
    append_to_book(book, tail->at, tail->length);
}

static void other_front(struct rng *rng, struct book *book)
{
    static const struct bytes fronts[] = {
        BYTES("\n"), BYTES("\n\n"), BYTES("\n\n\n\n"), BYTES("x"), BYTES("x\n"), BYTES("\r\n"), BYTES("\r"),
        BYTES(" "), BYTES("\0"), BYTES("\0\n"), BYTES("Orders of Monday\n"), BYTES("Orders\n\n"), BYTES("part"),
        BYTES("part\n"), BYTES("part="), BYTES("part=\n"), BYTES("Part=\n"), BYTES("\xef\xbb\xbf"),
        BYTES("temp=150\n"), BYTES("p")};
    const struct bytes *front = any_of(rng, fronts, COUNT(fronts));
    splice(book, 0, 0, front->at, front->length);
}

/* NUL bytes, up to four, at a place or in place of what is there. */
static void put_nuls(struct rng *rng, struct book *book)
{
    const size_t at = rng_one_in(rng, 2) ? any_cut(rng, book) : any_place(rng, book);
    const size_t most = book->length - at < 4 ? book->length - at : 4;
    const size_t count = rng_between(rng, 1, 4), cut = rng_one_in(rng, 2) ? 0 : count < most ? count : most;
    splice(book, at, cut, "\0\0\0\0", count);
}

/* Anywhere, or within a cut's LF and key. */
static void cut_short(struct rng *rng, struct book *book)
{
    size_t length = any_place(rng, book);
    if (rng_one_in(rng, 2))
        length = any_cut(rng, book) + rng_below(rng, CUT_LENGTH + 1);
    if (length < book->length)
        book->length = length;
}

/* Thousands of bytes of one sort. */
static void long_piece(struct rng *rng, struct book *book)
{
    static uint8_t bytes[2 * TEXT_ROOM];
    const size_t length = 1 + rng_below(rng, sizeof bytes);
    memset(bytes, "x0=p \n\r\0"[rng_below(rng, 8)], length);
    splice(book, rng_one_in(rng, 2) ? any_cut(rng, book) : any_place(rng, book), 0, bytes, length);
}

/* Every LF becomes another byte. */
static void no_line_feed(struct rng *rng, struct book *book)
{
    const uint8_t other = (uint8_t)" \r,\0x"[rng_below(rng, 5)];
    for (size_t at = 0; at < book->length; at++)
        if (book->bytes[at] == '\n')
            book->bytes[at] = other;
}

/* Every LF gets a CR before it. */
static void all_crlf(struct rng *rng, struct book *book)
{
    static struct book before;
    (void)rng;
    before = *book;
    book->length = 0;
    for (size_t at = 0; at < before.length; at++)
        append_to_book(book, before.bytes[at] == '\n' ? "\r\n" : (const char *)&before.bytes[at],
                       before.bytes[at] == '\n' ? 2 : 1);
}

static void no_text(struct rng *rng, struct book *book)
{
    (void)rng;
    book->length = 0;
}

static void random_bytes(struct rng *rng, struct book *book)
{
    uint8_t bytes[64];
    const size_t length = rng_below(rng, sizeof bytes);
    rng_fill(rng, bytes, length);
    splice(book, any_place(rng, book), 0, bytes, length);
}

/* LF and the letters of the key, single and together, alone or after what is there. */
static void random_letters(struct rng *rng, struct book *book)
{
    static const struct bytes letters[] = {
        BYTES("\n"), BYTES("\n"), BYTES("p"), BYTES("a"), BYTES("r"), BYTES("t"), BYTES("="), BYTES("part="),
        BYTES("\npart="), BYTES("part"), BYTES("\npar"), BYTES("pa"), BYTES("rt="), BYTES("\np"), BYTES("art=")};
    const uint32_t count = rng_below(rng, rng_one_in(rng, 8) ? 2000 : 60);
    if (!rng_one_in(rng, 3))
        book->length = 0;
    for (uint32_t i = 0; i < count; i++) {
        const struct bytes *letter = any_of(rng, letters, COUNT(letters));
        append_to_book(book, letter->at, letter->length);
    }
}

static void (*const damages[])(struct rng *, struct book *) = {
    put_anywhere, put_before_key, other_end, other_key, other_line, many_lines, other_tail, other_tail, other_front,
    put_nuls, cut_short, long_piece, no_line_feed, all_crlf, no_text, random_bytes, random_letters, random_letters};

/* ---- Any book ---- */

/* A piece that is hardly a sheet. All begin with the key; the first SCRAP_LINES end in LF. */
#define SCRAP_LINES 7
static void append_scrap(struct rng *rng, int key_and_end, struct book *book)
{
    static const struct bytes scraps[] = {
        BYTES("part=\n"), BYTES("part=end\n"), BYTES("part=blind\n"), BYTES("part=end\nform=a\n"), BYTES("part=\n\n"),
        BYTES("part=part=\n"), BYTES("part=\r\n"), BYTES("part="), BYTES("part=end")};
    const struct bytes *scrap = any_of(rng, scraps, key_and_end ? SCRAP_LINES : COUNT(scraps));
    append_to_book(book, scrap->at, scrap->length);
}

/* Begins with the key and ends in LF. Such a text is a piece among others, if no damage put a cut into it. */
static int has_key_and_end(const struct text *text)
{
    return text->length > KEY_LENGTH && memcmp(text->bytes, FIRST_KEY, KEY_LENGTH) == 0 &&
           text->bytes[text->length - 1] == '\n';
}

static void append_sheet(struct rng *rng, int key_and_end, struct book *book)
{
    static struct text text;
    draw_sheet(rng, &text);
    if (key_and_end && !has_key_and_end(&text))
        append_scrap(rng, key_and_end, book);
    else
        append_to_book(book, text.bytes, text.length);
}

/* How many sheets: mostly few, else about 64 or any. */
static uint32_t draw_count(struct rng *rng)
{
    switch (rng_below(rng, 8)) {
    case 0:
        return rng_between(rng, 63, 65);
    case 1:
        return rng_between(rng, 0, BOOK_SHEETS);
    case 2:
    case 3:
        return rng_between(rng, 0, 20);
    default:
        return rng_between(rng, 0, 5);
    }
}

/* Half the time every sheet begins with the key and ends in LF, so that there are mostly as many pieces as sheets. */
static void append_sheets(struct rng *rng, struct book *book)
{
    const uint32_t count = draw_count(rng), scraps = rng_between(rng, 3, 40);
    const int key_and_end = rng_one_in(rng, 2);
    for (uint32_t i = 0; i < count; i++)
        if (rng_one_in(rng, scraps))
            append_scrap(rng, key_and_end, book);
        else
            append_sheet(rng, key_and_end, book);
}

void draw_book(struct rng *rng, struct book *book)
{
    book->length = 0;
    append_sheets(rng, book);
    for (int more = rng_one_in(rng, 2); more; more = rng_one_in(rng, 3))
        damages[rng_below(rng, COUNT(damages))](rng, book);
}

/* ---- Books of one kind ---- */

static int is_piece(const struct text *text)
{
    return has_key_and_end(text) && paper_piece(text->bytes, text->length) == text->length;
}

static int suits(enum book_kind kind, const struct text *text)
{
    uint8_t report[PAPER_REPORT_ROOM];
    struct paper_answer answer;
    if (!is_piece(text))
        return 0;
    paper_report(text->bytes, text->length, report, &answer);
    if (kind == BOOK_REFUSED)
        return answer.plate == NULL;
    if (kind == BOOK_ACCEPTED)
        return answer.plate != NULL;
    return 1;
}

void draw_book_of(struct rng *rng, enum book_kind kind, struct book *book)
{
    static struct text text;
    const uint32_t least = kind == BOOK_PAST_LIMIT ? PAPER_MOST_SHEETS + 1 : 1;
    uint32_t left = rng_between(rng, least, kind == BOOK_ONE ? 1 : BOOK_SHEETS);
    for (book->length = 0; left > 0;) {
        draw_sheet(rng, &text);
        if (!suits(kind, &text))
            continue;
        append_to_book(book, text.bytes, text.length);
        left--;
    }
}
