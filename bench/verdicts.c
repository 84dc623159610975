/* Has the library judge a schedule many times.
 *
 *     verdicts FILE SCHEDULE COUNT
 *
 * Prints the seconds of a verdict in the mean, by the wall clock. */
#define _DEFAULT_SOURCE
#include <jobshop.h>
#include <stdio.h>
#include <stdlib.h>
#include <time.h>

static char text[1 << 20], schedule[1 << 20], answer[256];

static size_t read_file(const char *path, char *into, size_t most) {
    FILE *file = fopen(path, "rb");
    size_t length = file != NULL ? fread(into, 1, most, file) : 0;
    if (file != NULL) fclose(file);
    return length;
}

static double clock_now(void) {
    struct timespec now;
    clock_gettime(CLOCK_MONOTONIC, &now);
    return (double)now.tv_sec + (double)now.tv_nsec / 1e9;
}

int main(int count, char **words) {
    if (count != 4) return 2;
    size_t text_length = read_file(words[1], text, sizeof text);
    size_t schedule_length = read_file(words[2], schedule, sizeof schedule);
    long verdicts = atol(words[3]);
    double begin = clock_now();
    for (long n = 0; n < verdicts; n++) {
        jobshop_outcome end = jobshop_check(JOBSHOP_ORLIB, NULL, 0, text, text_length, schedule, schedule_length,
                                            answer, sizeof answer);
        if (end.status != JOBSHOP_DONE || !end.feasible) return 1;
    }
    printf("%.9f\n", (clock_now() - begin) / (double)verdicts);
    return 0;
}
