/*
 * Hainscope: proved explanations of why a set of requests cannot stand together.
 *
 * These are the functions of libhainscope.a. docs/FORMAT.md has the bytes of a table and of a report, and every
 * refusal; README.md says how to make the archive and to link it, and what a call may cost.
 *
 * All functions alike:
 *
 *   - They take a table as a pointer and a length in bytes, and answer every table: nothing has to be checked first.
 *   - They return 0 where the call is accepted, else the number of the refusal (enum hainscope_refusal), and set
 *     *place in both cases: where a refused call is at fault, a byte place in the table.
 *   - A refused call leaves a report buffer as it was, and sets *stands and *length to 0.
 *   - They write to nothing else than what is said below. They keep no state, allocate nothing, take no lock and call
 *     nothing but memset, memcpy and memmove: any number of threads may call them at once, on one table as well, and a
 *     signal handler may. A call uses at most HAINSCOPE_MOST_STACK bytes of stack. Every call ends; how long it may
 *     take is in README.md.
 *
 * What the caller sees to:
 *
 *   - A pointer is not null, also where its length is 0, and `length` bytes can be read (or written) behind it. No
 *     length is above PTRDIFF_MAX.
 *   - What is written does not overlap what is lent beside it: the buffer does not overlap the table, and place,
 *     length and stands point to different objects, outside of table and buffer. Nobody else writes to any of it
 *     during the call.
 */
#ifndef HAINSCOPE_H
#define HAINSCOPE_H

#include <stddef.h>
#include <stdint.h>

#ifdef __cplusplus
extern "C" {
#endif

/* The most bytes of a table. */
#define HAINSCOPE_MOST_TABLE_BYTES 32768

/* The most requests of a table. */
#define HAINSCOPE_MOST_REQUESTS 64

/* Room for the report on a table of so many requests, and on any table. */
#define HAINSCOPE_REPORT_ROOM(requests) (12 + 2 * (size_t)(requests))
#define HAINSCOPE_MOST_REPORT_BYTES HAINSCOPE_REPORT_ROOM(HAINSCOPE_MOST_REQUESTS)

/* The most bytes of stack that a call uses below its caller. */
#define HAINSCOPE_MOST_STACK 6656

/* What a call returns. docs/FORMAT.md has the place of each refusal. */
enum hainscope_refusal {
    HAINSCOPE_ACCEPTED = 0,
    HAINSCOPE_TABLE_TOO_LONG = 1,                   /* more than 32,768 bytes */
    HAINSCOPE_RECORD_CUT_SHORT = 2,                 /* 1 to 3 bytes left, or a body that passes the end */
    HAINSCOPE_HEAD_MISSING_OR_REPEATED = 3,         /* no HEAD first, a later one, or an empty table */
    HAINSCOPE_UNKNOWN_KIND = 4,                     /* a kind that no table has */
    HAINSCOPE_WRONG_LENGTH = 5,                     /* a body length that its kind does not have */
    HAINSCOPE_NUMBER_OUT_OF_RANGE = 6,              /* V, N, a role, variable, weight or order number */
    HAINSCOPE_WRONG_SEQUENCE = 7,                   /* a record out of sequence, or the end before CHECK */
    HAINSCOPE_REQUEST_TWICE_IN_ORDER = 8,           /* ORDER names a request twice */
    HAINSCOPE_WORDS_DO_NOT_ADD_TO_ZERO = 9,         /* the CHECK word does not fit the others */
    HAINSCOPE_TOO_MANY_ROWS = 10,                   /* a 513th row */
    HAINSCOPE_SELECTED_REQUEST_NOT_IN_TABLE = 11,   /* a selection names a request above N */
    HAINSCOPE_NO_ROOM = 12,                         /* start past the end, or fewer than 12 + 2N bytes */
    HAINSCOPE_NO_SUCH_RECORD = 13                   /* no record of that number */
};

/* The kind of a report's record, and its status. */
enum hainscope_report_kind { HAINSCOPE_CONFLICT = 16, HAINSCOPE_RELAXATION = 17 };
enum hainscope_status {
    HAINSCOPE_ALL_CAN_STAND = 0,
    HAINSCOPE_SOMETHING_CANNOT = 1,     /* a conflict, or a relaxation that drops something */
    HAINSCOPE_HOST_CANNOT = 2           /* the host's own rows cannot stand */
};

/*
 * Reads a table.
 * Accepted: 0, and *place is 0.
 * Refused (1 to 10): the number, and *place is where the table is at fault.
 */
uint32_t hainscope_read(const uint8_t *table, size_t table_length, size_t *place);

/*
 * Finds the body of the record of a number, the first being 0.
 * Accepted: 0; the body is the *length bytes from table + *place on, which may be none.
 * Refused (1 to 10; 13): the number and *place, and *length is 0.
 */
uint32_t hainscope_body(const uint8_t *table, size_t table_length, size_t number, size_t *length, size_t *place);

/*
 * Asks whether a selection of requests can stand: request r is bit r - 1 of the selection.
 * Accepted: 0, *stands is 1 or 0, and *place is 0.
 * Refused (1 to 10; 11): the number and *place, and *stands is 0.
 */
uint32_t hainscope_can_stand(const uint8_t *table, size_t table_length, uint64_t selection, uint32_t *stands,
                             size_t *place);

/*
 * The reports: each writes one record into the buffer from `start` on and leaves every other byte of it as it was.
 * The room from start to the buffer's end must be 12 + 2N bytes for a table of N requests, whatever the answer is;
 * HAINSCOPE_MOST_REPORT_BYTES always suffice.
 * Accepted: 0, and *place is the place in the buffer after the record.
 * Refused (1 to 10; 12): the number and *place, and the buffer is as it was.
 *
 * The preferred conflict and the preferred relaxation, by halving: few questions where conflicts are small.
 */
uint32_t hainscope_conflict(const uint8_t *table, size_t table_length, uint8_t *report, size_t report_length,
                            size_t start, size_t *place);
uint32_t hainscope_relaxation(const uint8_t *table, size_t table_length, uint8_t *report, size_t report_length,
                              size_t start, size_t *place);

/* The same sets one request after the other, with this method's own count: N + 2 where something cannot stand. */
uint32_t hainscope_conflict_one_by_one(const uint8_t *table, size_t table_length, uint8_t *report,
                                       size_t report_length, size_t start, size_t *place);
uint32_t hainscope_relaxation_one_by_one(const uint8_t *table, size_t table_length, uint8_t *report,
                                         size_t report_length, size_t start, size_t *place);

#ifdef __cplusplus
}
#endif

#endif
