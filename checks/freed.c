/* Makes one call of the library, and writes its answer to standard output:
 *
 *     freed list|check|solve FORMAT NAME ROOM [ROUNDS BUDGET PIECE ORDER]
 *
 * The name - stands for none, and ROOM is a length. The text is on standard input, and a schedule follows it behind a
 * zero byte. Ends with the status of the call. No block is allocated but by the library. */
#include <jobshop.h>
#include <stdlib.h>
#include <string.h>
#include <unistd.h>

static char given[1 << 24], room[JOBSHOP_LONGEST_REPORT];

int main(int count, char **words) {
    size_t length = 0;
    for (ssize_t got; (got = read(0, given + length, sizeof given - length)) > 0;) length += (size_t)got;
    char *end = memchr(given, 0, length), *schedule = end ? end + 1 : NULL;
    size_t text_length = end ? (size_t)(end - given) : length;
    size_t schedule_length = end ? length - text_length - 1 : 0;
    if (count < 5) return 255;
    uint32_t format = (uint32_t)atol(words[2]);
    char *name = strcmp(words[3], "-") ? words[3] : NULL;
    size_t name_length = name ? strlen(name) : 0, room_length = (size_t)atol(words[4]);
    jobshop_options plan = JOBSHOP_DEFAULTS;
    if (count == 9)
        plan = (jobshop_options){(uint64_t)atol(words[5]), (uint64_t)atol(words[6]), (size_t)atol(words[7]),
                                 (uint32_t)atol(words[8]), true};
    jobshop_outcome ended;
    if (!strcmp(words[1], "list"))
        ended = jobshop_list(format, given, text_length, room, room_length);
    else if (!strcmp(words[1], "check"))
        ended = jobshop_check(format, name, name_length, given, text_length, schedule, schedule_length, room,
                              room_length);
    else
        ended = jobshop_solve(format, name, name_length, &plan, given, text_length, room, room_length);
    if (ended.status == JOBSHOP_DONE && write(1, room, ended.length) < 0) return 255;
    return (int)ended.status;
}
