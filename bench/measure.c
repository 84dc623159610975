/* Runs a program and writes what it took to a file.
 *
 *     measure FILE PROGRAM ARGS
 *
 * The file gets the seconds by the clock, the seconds of processor time, the peak memory in KB and
 * the exit status.  This is a program of its own since a system counts to a child's peak memory what
 * its parent had when it was started, so the parent has to be small. */
#define _DEFAULT_SOURCE
#include <stdio.h>
#include <sys/resource.h>
#include <sys/wait.h>
#include <time.h>
#include <unistd.h>

static double seconds(struct timeval t) { return (double)t.tv_sec + (double)t.tv_usec / 1e6; }

static double clock_now(void) {
    struct timespec t;
    clock_gettime(CLOCK_MONOTONIC, &t);
    return (double)t.tv_sec + (double)t.tv_nsec / 1e9;
}

int main(int count, char **words) {
    if (count < 3) return 2;
    double begin = clock_now();
    pid_t child = fork();
    if (child < 0) return 2;
    if (child == 0) {
        execv(words[2], words + 2);
        _exit(127);
    }
    int status;
    struct rusage usage;
    if (wait4(child, &status, 0, &usage) != child) return 2;
    double clock = clock_now() - begin;
    double processor = seconds(usage.ru_utime) + seconds(usage.ru_stime);
    int code = WIFEXITED(status) ? WEXITSTATUS(status) : 128 + WTERMSIG(status);
    FILE *file = fopen(words[1], "w");
    if (!file) return 2;
    fprintf(file, "%.6f %.6f %ld %d\n", clock, processor, usage.ru_maxrss, code);
    return fclose(file) == 0 ? 0 : 2;
}
