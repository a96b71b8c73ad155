/*
 * explain [FILE]: reads a table, asks whether all its requests can stand together, and prints the preferred conflict
 * and the preferred relaxation. Exit status 0: answered; 1: refused; 2: the table cannot be read, or the answer not
 * be written.
 */
#include <stdio.h>
#include <stdlib.h>

#include "hainscope.h"

/* A table in memory: one byte more than any may have, so that a longer one is seen to be too long. */
static uint8_t table[HAINSCOPE_MOST_TABLE_BYTES + 1];
static size_t table_length;

static unsigned word(const uint8_t *bytes)
{
    return bytes[0] | (unsigned)bytes[1] << 8;
}

static void refuse(uint32_t number, size_t place)
{
    printf("refused with %u at byte %zu\n", (unsigned)number, place);
    exit(fflush(stdout) == 0 ? 1 : 2);
}

/* Asks about all requests: HEAD, record 0, has their number as its second word. */
static void ask_all(void)
{
    size_t length, place;
    uint32_t stands;
    uint32_t number = hainscope_body(table, table_length, 0, &length, &place);
    if (number != HAINSCOPE_ACCEPTED)
        refuse(number, place);
    unsigned requests = word(table + place + 2);
    uint64_t all = requests == 64 ? UINT64_MAX : ((uint64_t)1 << requests) - 1;
    number = hainscope_can_stand(table, table_length, all, &stands, &place);
    if (number != HAINSCOPE_ACCEPTED)
        refuse(number, place);
    printf("all %u requests together: %s\n", requests, stands ? "can stand" : "cannot stand");
}

/* Prints a report: a record of L, kind, status, count, k and the k requests. */
static void print_report(const char *name, const uint8_t *report)
{
    unsigned count = word(report + 6) | word(report + 8) << 16;
    unsigned k = word(report + 10);
    printf("%s: status %u, count %u, requests:", name, word(report + 4), count);
    for (unsigned i = 0; i < k; i++)
        printf(" %u", word(report + 12 + 2 * i));
    printf(k == 0 ? " none\n" : "\n");
}

typedef uint32_t report_call(const uint8_t *, size_t, uint8_t *, size_t, size_t, size_t *);

static void print_answer(const char *name, report_call *call)
{
    uint8_t report[HAINSCOPE_MOST_REPORT_BYTES];
    size_t end;
    uint32_t number = call(table, table_length, report, sizeof report, 0, &end);
    if (number != HAINSCOPE_ACCEPTED)
        refuse(number, end);
    print_report(name, report);
}

int main(int count, char **words)
{
    FILE *input = count > 1 ? fopen(words[1], "rb") : stdin;
    if (input == NULL) {
        perror(words[1]);
        return 2;
    }
    table_length = fread(table, 1, sizeof table, input);
    if (ferror(input)) {
        perror(count > 1 ? words[1] : "standard input");
        return 2;
    }
    ask_all();
    print_answer("preferred conflict", hainscope_conflict);
    print_answer("preferred relaxation", hainscope_relaxation);
    if (fflush(stdout) != 0) {
        perror("standard output");
        return 2;
    }
    return 0;
}
