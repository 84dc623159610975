/* Judges a schedule of the first instance of a text: judge FILE SCHEDULE. Ends with 0 if it is feasible, 1 if not. */
#include <jobshop.h>
#include <stdio.h>

static char text[1 << 20], schedule[1 << 20], answer[256];

/* Reads a file, or says that it can't be read or is too long. */
static bool read_file(const char *path, char *into, size_t most, size_t *length) {
    FILE *file = fopen(path, "rb");
    if (file != NULL) *length = fread(into, 1, most, file);
    bool is_read = file != NULL && !ferror(file) && *length < most;
    if (!is_read) fprintf(stderr, "%s can't be read, or is too long\n", path);
    if (file != NULL) fclose(file);
    return is_read;
}

int main(int count, char **words) {
    size_t text_length, schedule_length;
    if (count != 3) return 2;
    if (!read_file(words[1], text, sizeof text, &text_length)) return 4;
    if (!read_file(words[2], schedule, sizeof schedule, &schedule_length)) return 4;
    jobshop_outcome end = jobshop_check(JOBSHOP_ORLIB, NULL, 0, text, text_length, schedule, schedule_length, answer,
                                        sizeof answer);
    if (end.status != JOBSHOP_DONE) {
        fprintf(stderr, "error %u at line %zu\n", (unsigned)end.status, end.line);
        return 3;
    }
    fwrite(answer, 1, end.length, stdout);
    return end.feasible ? 0 : 1;
}
