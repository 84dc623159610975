/* Prints what jobshop.h fixes in numbers, and then how a search ends of the instance on standard input, on a thread
 * with 24 KB of stack. */
#include <jobshop.h>
#include <pthread.h>
#include <stdio.h>

static char text[1 << 23], room[JOBSHOP_LONGEST_REPORT + 1000];
static size_t length;
static jobshop_outcome end;

static void *search(void *nothing) {
    jobshop_options plan = {1, 3, 1, JOBSHOP_BOUND, true};
    end = jobshop_solve(JOBSHOP_ORLIB, NULL, 0, &plan, text, length, room, sizeof room);
    return nothing;
}

int main(void) {
    jobshop_options plan = JOBSHOP_DEFAULTS;
    pthread_attr_t small;
    pthread_t thread;
    printf("%s %s %d %d\n", JOBSHOP_VERSION, jobshop_version(), JOBSHOP_VERSION_NUMBER, JOBSHOP_LONGEST_REPORT);
    printf("%u %u %u %u %d\n", (unsigned)plan.rounds, (unsigned)plan.budget, (unsigned)plan.piece, (unsigned)plan.order,
           plan.gantt);
    length = fread(text, 1, sizeof text, stdin);
    if (pthread_attr_init(&small) || pthread_attr_setstacksize(&small, 24 << 10)) return 1;
    if (pthread_create(&thread, &small, search, NULL) || pthread_join(thread, NULL)) return 1;
    printf("%u %u\n", (unsigned)end.status, (unsigned)end.length);
    return 0;
}
