/* Refuses allocations and the start of threads in a process, and counts these, what is freed, and what it reads and
 * writes: a shim for LD_PRELOAD, used by the checks.
 *
 * Allocations (malloc, calloc, realloc, aligned_alloc, posix_memalign) and started threads are counted from 1, once
 * the program's own libraries are loaded. What is refused, by variables of the environment; none of them: nothing.
 *
 *     REFUSE_AT=N           the allocation of number N
 *     REFUSE_NEXT=1         with that, the next one of its thread: a growth is tried once more for less
 *     REFUSE_FROM=N         all allocations from number N on
 *     REFUSE_RANDOM=P SEED  P of 1,000 allocations, by a hash of their number and the seed
 *     REFUSE_SIZES=A B      of these allocations those alone that ask for A to B bytes; without the others all of them
 *     REFUSE_THREAD_AT=N    the thread of number N
 *     REFUSE_THREAD_FROM=N  all threads from number N on
 *     REFUSE_HOLD=N         nothing, but a thread that is about to end waits until the first N threads have begun, or
 *                           the next N where it is one of these, and so on; none once one waited two seconds in vain
 *     REFUSE_LOG=FILE       the file gets one line: the allocations, how many of them were refused, the same of
 *                           threads, which the system may refuse too, the bytes that were asked for in all and at
 *                           most at a time, the most started threads alive at a time, the calls of read and of
 *                           write, the peak in KB, how many allocations were refused on started threads, how many of
 *                           these threads began and how many were joined, the blocks that nobody freed and their
 *                           bytes, and the most bytes of such blocks at a time. Blocks that the C library allocates to
 *                           start a thread aren't among these, since it keeps some for later threads
 */
#define _GNU_SOURCE
#include <dlfcn.h>
#include <errno.h>
#include <fcntl.h>
#include <malloc.h>
#include <pthread.h>
#include <stdatomic.h>
#include <stdint.h>
#include <stdio.h>
#include <stdlib.h>
#include <string.h>
#include <sys/syscall.h>
#include <unistd.h>

extern void *__libc_malloc(size_t);
extern void *__libc_calloc(size_t, size_t);
extern void *__libc_realloc(void *, size_t);
extern void *__libc_memalign(size_t, size_t);
extern void __libc_free(void *);

/* What is counted, and which of it is refused. */
struct kind {
    atomic_long count, refused;
    long at, from;
};

static struct kind allocations, threads;
static unsigned per_thousand, seed;
static size_t least_size, greatest_size;
static atomic_long bytes, greatest, alive, most_alive, begun;
static long held;
static atomic_int is_in_vain;
static atomic_long reads, writes;
static atomic_long refused_on_threads, joined;
static atomic_long blocks, live_bytes, most_live_bytes;
static const char *log_name;
static int is_ready, refuses_all_sizes, refuses_next;

#define OF_EACH_THREAD static __thread __attribute__((tls_model("initial-exec")))
/* Is the thread's next allocation refused, was the thread started by the process, and does it start or join one? */
OF_EACH_THREAD int is_next, is_started, is_in_system;

static long number_in(const char *name) {
    const char *text = getenv(name);
    return text ? atol(text) : 0;
}

__attribute__((constructor)) static void begin(void) {
    allocations.at = number_in("REFUSE_AT");
    allocations.from = number_in("REFUSE_FROM");
    refuses_next = number_in("REFUSE_NEXT") > 0;
    threads.at = number_in("REFUSE_THREAD_AT");
    threads.from = number_in("REFUSE_THREAD_FROM");
    held = number_in("REFUSE_HOLD");
    const char *random = getenv("REFUSE_RANDOM");
    if (random) sscanf(random, "%u %u", &per_thousand, &seed);
    const char *sizes = getenv("REFUSE_SIZES");
    if (sizes) sscanf(sizes, "%zu %zu", &least_size, &greatest_size);
    refuses_all_sizes = sizes && !allocations.at && !allocations.from && !random;
    log_name = getenv("REFUSE_LOG");
    is_ready = 1;
}

static int refuses_at_random(long number) {
    uint32_t x = seed * 0x9e3779b9u + (uint32_t)number;
    x = (x ^ (x >> 16)) * 0x7feb352du;
    x = (x ^ (x >> 15)) * 0x846ca68bu;
    return (x ^ (x >> 16)) % 1000 < per_thousand;
}

static void raise_to(atomic_long *most, long now) {
    long before = atomic_load(most);
    while (now > before && !atomic_compare_exchange_weak(most, &before, now)) {
    }
}

static int is_named(struct kind *kind, long number) {
    return number == kind->at || (kind->from && number >= kind->from);
}

static int refuses_memory(size_t size) {
    if (!is_ready) return 0;
    long number = atomic_fetch_add(&allocations.count, 1) + 1;
    atomic_fetch_add(&bytes, (long)size);
    raise_to(&greatest, (long)size);
    if (greatest_size && (size < least_size || size > greatest_size)) return 0;
    int is_refused = is_next || refuses_all_sizes || is_named(&allocations, number) || refuses_at_random(number);
    is_next = refuses_next && number == allocations.at;
    if (!is_refused) return 0;
    atomic_fetch_add(&allocations.refused, 1);
    atomic_fetch_add(&refused_on_threads, is_started);
    errno = ENOMEM;
    return 1;
}

/* Counts a block, if there is one, as allocated. */
static void *taken(void *block) {
    if (!block || is_in_system) return block;
    atomic_fetch_add(&blocks, 1);
    long size = (long)malloc_usable_size(block);
    raise_to(&most_live_bytes, atomic_fetch_add(&live_bytes, size) + size);
    return block;
}

/* Counts a block of this size as freed. */
static void give_back(long size) {
    if (is_in_system) return;
    atomic_fetch_sub(&blocks, 1);
    atomic_fetch_sub(&live_bytes, size);
}

void *malloc(size_t size) { return refuses_memory(size) ? NULL : taken(__libc_malloc(size)); }

void *calloc(size_t count, size_t size) {
    return refuses_memory(count * size) ? NULL : taken(__libc_calloc(count, size));
}

void *realloc(void *old, size_t size) {
    if (refuses_memory(size)) return NULL;
    long old_size = old ? (long)malloc_usable_size(old) : 0;
    void *block = __libc_realloc(old, size);
    if (old && (block || !size)) give_back(old_size);
    return taken(block);
}

void *aligned_alloc(size_t align, size_t size) {
    return refuses_memory(size) ? NULL : taken(__libc_memalign(align, size));
}

int posix_memalign(void **out, size_t align, size_t size) {
    void *block = aligned_alloc(align, size);
    if (!block) return ENOMEM;
    *out = block;
    return 0;
}

void free(void *block) {
    if (block) give_back((long)malloc_usable_size(block));
    __libc_free(block);
}

typedef int create(pthread_t *, const pthread_attr_t *, void *(*)(void *), void *);
typedef int join(pthread_t, void **);

/* What a started thread is to do, and which one it is. */
struct started {
    void *(*work)(void *);
    void *given;
    long number;
};

static void wait_for_others(long number) {
    if (!held) return;
    long last = (number + held - 1) / held * held;
    for (int turn = 0; turn < 2000 && atomic_load(&begun) < last; turn++) {
        if (is_in_vain) return;
        usleep(1000);
    }
    if (atomic_load(&begun) < last) is_in_vain = 1;
}

static void note_begin(void) {
    raise_to(&most_alive, atomic_fetch_add(&alive, 1) + 1);
    atomic_fetch_add(&begun, 1);
}

static void *live(void *started) {
    struct started now = *(struct started *)started;
    __libc_free(started);
    is_started = 1;
    note_begin();
    void *result = now.work(now.given);
    wait_for_others(now.number);
    atomic_fetch_sub(&alive, 1);
    return result;
}

int pthread_create(pthread_t *thread, const pthread_attr_t *how, void *(*work)(void *), void *given) {
    long number = atomic_fetch_add(&threads.count, 1) + 1;
    if (is_named(&threads, number)) {
        atomic_fetch_add(&threads.refused, 1);
        return EAGAIN;
    }
    is_in_system++;
    create *real = (create *)dlsym(RTLD_NEXT, "pthread_create");
    struct started *started = __libc_malloc(sizeof *started);
    *started = (struct started){work, given, number};
    int result = real(thread, how, live, started);
    is_in_system--;
    if (!result) return 0;
    __libc_free(started);
    atomic_fetch_add(&threads.refused, 1);
    return result;
}

int pthread_join(pthread_t thread, void **its_result) {
    is_in_system++;
    join *real = (join *)dlsym(RTLD_NEXT, "pthread_join");
    int result = real(thread, its_result);
    is_in_system--;
    if (!result) atomic_fetch_add(&joined, 1);
    return result;
}

ssize_t read(int file, void *buffer, size_t size) {
    atomic_fetch_add(&reads, 1);
    return syscall(SYS_read, file, buffer, size);
}

ssize_t write(int file, const void *buffer, size_t size) {
    atomic_fetch_add(&writes, 1);
    return syscall(SYS_write, file, buffer, size);
}

/* The most memory that the process had at a time, in KB: not that of whoever started it, as in its usage. */
static long peak(void) {
    char text[4096];
    int file = open("/proc/self/status", O_RDONLY);
    if (file < 0) return 0;
    long length = syscall(SYS_read, file, text, sizeof text - 1);
    close(file);
    text[length < 0 ? 0 : length] = 0;
    const char *line = strstr(text, "VmHWM:");
    return line ? atol(line + 6) : 0;
}

static void write_log(void) {
    if (!log_name) return;
    is_ready = 0;
    const long counts[] = {
        allocations.count, allocations.refused, threads.count, threads.refused, bytes, greatest, most_alive, reads,
        writes, peak(), refused_on_threads, begun, joined, blocks, live_bytes, most_live_bytes,
    };
    char line[500];
    int length = 0;
    for (size_t i = 0; i < sizeof counts / sizeof *counts; i++)
        length += snprintf(line + length, sizeof line - length, "%ld ", counts[i]);
    int file = open(log_name, O_WRONLY | O_CREAT | O_TRUNC, 0644);
    if (file < 0) return;
    ssize_t written = write(file, line, (size_t)length);
    (void)written;
    close(file);
}

/* A program ends by exit, which calls this, or at once by _exit. */
__attribute__((destructor)) static void end(void) { write_log(); }

void _exit(int status) {
    write_log();
    syscall(SYS_exit_group, status);
    for (;;) {
    }
}
