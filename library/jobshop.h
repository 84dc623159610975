/* jobshop: an exact solver of the job shop whose answers are proved, for C and for all that can call C.
 *
 * A call reads its texts, writes the answer to the front of `room`, and returns how it ended. It opens no file, prints
 * nothing, starts no thread and keeps nothing from one call to the next: nothing is to be freed, and calls may run side
 * by side on different rooms. Texts need no zero byte at their end, and get none.
 *
 * A caller owes:
 *   - each pointer leads to as many bytes as the length beside it, and nobody else writes there while a call runs;
 *   - `gantt` is 0 or 1: any other byte is undefined behaviour;
 *   - a call has 24 KB of stack, whatever the instance: a main thread has more unless its limit was lowered, but a
 *     thread of the least size, 16 KB, has too little for a search;
 *   - no call is made in a signal handler, nor in the child of a fork of a process with threads: calls use malloc.
 *
 * A null pointer means an empty text, no name, no schedule, or the default options. A search can't be stopped, and may
 * take hours by the default options: {100, 1000, 1, JOBSHOP_BOUND, false} takes seconds up to some 50 x 15.
 */
#ifndef JOBSHOP_H
#define JOBSHOP_H

#include <stdbool.h>
#include <stddef.h>
#include <stdint.h>

/* The version of this header; `jobshop_version` returns that of the library. Between two releases it is the next one,
 * with "-dev" after it. The number is 10000 times the first part plus 100 times the second plus the third. */
#define JOBSHOP_VERSION "1.3.0-dev"
#define JOBSHOP_VERSION_NUMBER 10300

/* As many bytes hold any report but the instance's name. The most is 1717852: 100000 starts of at most 16 digits, each
 * after a blank; 9 bytes more for each of 1000 jobs; 86 for each of 100 lines of the chart; and 9 other lines of at
 * most 28. */
#define JOBSHOP_LONGEST_REPORT 1800000

#ifdef __cplusplus
extern "C" {
#endif

/* How an instance text is written. */
enum {
    JOBSHOP_ORLIB = 0,
    JOBSHOP_TAILLARD = 1,
    JOBSHOP_ROUTES = 2,
};

/* Which open nodes a round takes first. */
enum {
    JOBSHOP_KEPT = 0,
    JOBSHOP_BOUND = 1,
};

/* How a call ended. 1 to 12 are the numbers of the refusals that the program prints; docs/FORMATS.md (man
 * jobshop-formats) explains them and the lines of a report. A room is written only if the status is JOBSHOP_DONE. */
enum {
    JOBSHOP_DONE = 0, /* also if a search ended open */
    JOBSHOP_NO_MEMORY = 1,
    JOBSHOP_TEXT_TOO_LONG = 3,
    JOBSHOP_NO_INSTANCE = 4,
    JOBSHOP_BAD_SHAPE = 5,
    JOBSHOP_BAD_SIZE = 6,
    JOBSHOP_BAD_ROW = 7,
    JOBSHOP_CUT_OFF = 8,
    JOBSHOP_NO_SUCH_MACHINE = 9,
    JOBSHOP_BAD_TIME = 10,
    JOBSHOP_NO_SUCH_NAME = 11,
    JOBSHOP_BAD_SCHEDULE = 12,
    /* the answer is longer than the room: it has `length` bytes */
    JOBSHOP_TOO_SMALL = 100,
    /* a null pointer with a length, a room that overlaps a text, a number or an option out of range, a name that isn't
     * UTF-8 */
    JOBSHOP_BAD_ARGUMENT = 101,
};

typedef struct {
    uint32_t status;
    bool feasible; /* of `jobshop_check`: is the schedule feasible? */
    size_t line;   /* the line that is refused, from 1; 0 if there is none */
    size_t length; /* the length of the answer in bytes, also if it doesn't fit */
} jobshop_outcome;

/* The plan of a search: the program's options of these names. */
typedef struct {
    uint64_t rounds; /* 0 to 100000 */
    uint64_t budget; /* 1 to 10000000 */
    size_t piece;    /* 1 to 1000 */
    uint32_t order;
    bool gantt;
} jobshop_options;

#define JOBSHOP_DEFAULTS {1000, 100000, 1, JOBSHOP_KEPT, false}

/* The version of the library, as JOBSHOP_VERSION. */
const char *jobshop_version(void);

/* Lists the instances of a text, a line for each: name, jobs and machines. */
jobshop_outcome jobshop_list(uint32_t format, const char *text, size_t text_length, char *room, size_t room_length);

/* Judges a schedule: the answer is the line `feasible C`, or the first fault. Without a name the instance is the first
 * one of the text; without a schedule the text has its lines, too. */
jobshop_outcome jobshop_check(uint32_t format, const char *name, size_t name_length, const char *text,
                              size_t text_length, const char *schedule, size_t schedule_length, char *room,
                              size_t room_length);

/* Reports the best schedule that the plan finds, with a proved lower bound. Without a name the instance is the first
 * one of the text. If the report doesn't fit, the search has to be run again: give it room for JOBSHOP_LONGEST_REPORT
 * bytes and those of the name. */
jobshop_outcome jobshop_solve(uint32_t format, const char *name, size_t name_length, const jobshop_options *options,
                              const char *text, size_t text_length, char *room, size_t room_length);

#ifdef __cplusplus
}
#endif

#endif
