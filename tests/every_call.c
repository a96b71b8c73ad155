/* Calls every function of hainscope.h once on the table of standard input and prints all that each tells, the report
 * buffer whole. Built for the gate alone: the types of the header are those of the archive. */
#include <stdio.h>
#include <string.h>

#include "hainscope.h"

static uint8_t table[HAINSCOPE_MOST_TABLE_BYTES + 1];
static uint8_t buffer[HAINSCOPE_REPORT_ROOM(4) + 2];
static size_t table_length;

typedef uint32_t report_call(const uint8_t *, size_t, uint8_t *, size_t, size_t, size_t *);

static void print_report(const char *name, report_call *call, size_t start)
{
    size_t place = SIZE_MAX;
    memset(buffer, 0xEE, sizeof buffer);
    uint32_t number = call(table, table_length, buffer, sizeof buffer, start, &place);
    printf("%s %u %zu", name, (unsigned)number, place);
    for (size_t i = 0; i < sizeof buffer; i++)
        printf(" %02X", (unsigned)buffer[i]);
    printf("\n");
}

int main(void)
{
    size_t length = SIZE_MAX, place = SIZE_MAX;
    uint32_t stands = UINT32_MAX;
    table_length = fread(table, 1, sizeof table, stdin);
    uint32_t number = hainscope_read(table, table_length, &place);
    printf("read %u %zu\n", (unsigned)number, place);
    number = hainscope_body(table, table_length, 6, &length, &place);
    printf("body %u %zu %zu\n", (unsigned)number, place, length);
    number = hainscope_can_stand(table, table_length, 0xB, &stands, &place);
    printf("can_stand %u %zu %u\n", (unsigned)number, place, (unsigned)stands);
    number = hainscope_can_stand(table, table_length, (uint64_t)1 << 63, &stands, &place);
    printf("can_stand %u %zu %u\n", (unsigned)number, place, (unsigned)stands);
    print_report("conflict", hainscope_conflict, 1);
    print_report("relaxation", hainscope_relaxation, 1);
    print_report("conflict_one_by_one", hainscope_conflict_one_by_one, 2);
    print_report("relaxation_one_by_one", hainscope_relaxation_one_by_one, 2);
    print_report("conflict", hainscope_conflict, 3);
    return ferror(stdin) || fflush(stdout) != 0;
}
