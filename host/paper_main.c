/*
 * Program `paper [LIMIT | summary]`: reads one sheet on standard input, or with a limit or the word summary a book, and
 * prints the separate calculation's report, reports, or summary. Any other limit than 1 to 64 and any other word end it
 * with status 2, a longer book than 262,144 bytes with 1.
 */
#include "paper.h"

#include <stdio.h>
#include <stdlib.h>
#include <string.h>

#define SHEET_ROOM 4096 /* a longer sheet is judged by these bytes */
#define LONGEST_BOOK 262144

static uint8_t text[LONGEST_BOOK + 1]; /* one byte more, so that a longer book is seen */

static uint32_t read_limit(const char *word)
{
    char *end;
    const unsigned long limit = strtoul(word, &end, 10);
    if (word[0] < '0' || word[0] > '9' || *end != '\0' || limit < 1 || limit > PAPER_MOST_SHEETS) {
        fprintf(stderr, "usage: paper [LIMIT | summary], the limit 1 to %d\n", PAPER_MOST_SHEETS);
        exit(2);
    }
    return (uint32_t)limit;
}

/* Returns the length. */
static size_t read_book(void)
{
    const size_t length = fread(text, 1, sizeof text, stdin);
    if (length > LONGEST_BOOK) {
        fprintf(stderr, "paper: the book is longer than %d bytes\n", LONGEST_BOOK);
        exit(1);
    }
    return length;
}

static int print(const uint8_t *bytes, size_t length)
{
    return fwrite(bytes, 1, length, stdout) == length ? 0 : 1;
}

static int print_book(uint32_t limit)
{
    static uint8_t reports[PAPER_MOST_SHEETS * PAPER_REPORT_ROOM];
    uint64_t figures[BATCH_PLACES];
    paper_book(text, read_book(), limit, reports, sizeof reports, figures);
    return print(reports, (size_t)figures[BATCH_LENGTH_PLACE]);
}

static int print_summary(void)
{
    uint8_t summary[PAPER_LONGEST_SUMMARY];
    return print(summary, paper_summary(text, read_book(), summary, sizeof summary));
}

static int print_sheet(void)
{
    uint8_t report[PAPER_REPORT_ROOM];
    struct paper_answer answer;
    const size_t length = fread(text, 1, SHEET_ROOM, stdin);
    return print(report, paper_report(text, length, report, &answer));
}

int main(int argc, char **argv)
{
    if (argc == 1)
        return print_sheet();
    return strcmp(argv[1], "summary") == 0 ? print_summary() : print_book(read_limit(argv[1]));
}
