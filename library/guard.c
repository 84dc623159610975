/* The calls of jobshop.h: each looks at its pointers and lengths, and makes one call of the crate shop_exports, whose
 * contract is proved. This file isn't proved, so it does no more than that. */
#include "jobshop.h"

jobshop_outcome shop_exports_list(uint32_t format, const uint8_t *text, size_t text_length, uint8_t *room,
                                  size_t room_length);
jobshop_outcome shop_exports_check(uint32_t format, bool is_named, const uint8_t *name, size_t name_length,
                                   const uint8_t *text, size_t text_length, bool is_apart, const uint8_t *schedule,
                                   size_t schedule_length, uint8_t *room, size_t room_length);
jobshop_outcome shop_exports_solve(uint32_t format, bool is_named, const uint8_t *name, size_t name_length,
                                   const jobshop_options *options, const uint8_t *text, size_t text_length,
                                   uint8_t *room, size_t room_length);

typedef struct {
    uint8_t *start;
    size_t length;
} bytes;

static const jobshop_outcome bad_argument = {JOBSHOP_BAD_ARGUMENT, false, 0, 0};
static const jobshop_options defaults = JOBSHOP_DEFAULTS;
static uint8_t nothing[1];

/* The bytes at a pointer, which may be null if there are none. */
static bytes at(const void *start, size_t length) {
    return (bytes){length == 0 ? nothing : (uint8_t *)(uintptr_t)start, length};
}

/* Can there be so many bytes at this pointer? */
static bool is_good(bytes b) {
    return b.start != NULL && b.length <= PTRDIFF_MAX && (uintptr_t)b.start <= UINTPTR_MAX - b.length;
}

/* Do they have no byte in common? */
static bool is_apart(bytes a, bytes b) {
    uintptr_t a_start = (uintptr_t)a.start, b_start = (uintptr_t)b.start;
    return a.length == 0 || b.length == 0 || a_start + a.length <= b_start || b_start + b.length <= a_start;
}

/* May the texts be read while the room is written? */
static bool may_write(bytes room, const bytes *texts, size_t count) {
    if (!is_good(room)) return false;
    for (size_t i = 0; i < count; i++)
        if (!is_good(texts[i]) || !is_apart(room, texts[i])) return false;
    return true;
}

const char *jobshop_version(void) {
    return JOBSHOP_VERSION;
}

jobshop_outcome jobshop_list(uint32_t format, const char *text, size_t text_length, char *room, size_t room_length) {
    bytes t = at(text, text_length), r = at(room, room_length);
    if (!may_write(r, &t, 1)) return bad_argument;
    return shop_exports_list(format, t.start, t.length, r.start, r.length);
}

jobshop_outcome jobshop_check(uint32_t format, const char *name, size_t name_length, const char *text,
                              size_t text_length, const char *schedule, size_t schedule_length, char *room,
                              size_t room_length) {
    bytes n = at(name, name_length), t = at(text, text_length), s = at(schedule, schedule_length);
    bytes r = at(room, room_length);
    if (!may_write(r, (bytes[]){n, t, s}, 3)) return bad_argument;
    return shop_exports_check(format, name != NULL, n.start, n.length, t.start, t.length, schedule != NULL, s.start,
                              s.length, r.start, r.length);
}

jobshop_outcome jobshop_solve(uint32_t format, const char *name, size_t name_length, const jobshop_options *options,
                              const char *text, size_t text_length, char *room, size_t room_length) {
    jobshop_options o = options != NULL ? *options : defaults;
    bytes n = at(name, name_length), t = at(text, text_length), r = at(room, room_length);
    if (!may_write(r, (bytes[]){n, t}, 2)) return bad_argument;
    return shop_exports_solve(format, name != NULL, n.start, n.length, &o, t.start, t.length, r.start, r.length);
}
