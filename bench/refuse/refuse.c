// An allocator to be preloaded, which counts requests for memory and refuses some of them. It also
// counts how often a thread yields, and how often one asks the system to put it to sleep or to wake
// another.
//
// The program marks the part that is counted: a request of BEGIN bytes begins it, one of END bytes
// ends it, and neither is counted itself. It may begin and end many times; the count goes on.
// Requests of ENTER and LEAVE bytes are marks too, round all that the program makes and drops.
// REFUSE_AT=N refuses the Nth request of the counted part, REFUSE_FROM=N that and all behind it.
// Where a counted part ends, `requests N bytes M yields Y sleeps S held H` is written to the error
// output: how many requests there were so far, how many bytes they asked for, how many yields, and
// calls for a sleep or a wake, and how many more bytes are held than before, or fewer. At LEAVE it is
// `left N`: how many blocks made since ENTER were not given back.
#define _GNU_SOURCE
#include <dlfcn.h>
#include <errno.h>
#include <malloc.h>
#include <stdarg.h>
#include <stdatomic.h>
#include <stdbool.h>
#include <stddef.h>
#include <stdio.h>
#include <stdlib.h>
#include <sys/syscall.h>
#include <unistd.h>

enum { BEGIN = 77771, END = 77773, ENTER = 77775, LEAVE = 77777 };

extern void *__libc_malloc(size_t);
extern void *__libc_calloc(size_t, size_t);
extern void *__libc_realloc(void *, size_t);
extern void *__libc_memalign(size_t, size_t);
extern void __libc_free(void *);

static atomic_bool counting;
static atomic_ulong requests, bytes, yields, sleeps;
static atomic_long blocks, blocks_before, held;
static unsigned long refused_at, refused_from;
static int (*next_yield)(void);
static long (*next_call)(long, ...);

static unsigned long number_in(const char *name) {
    const char *text = getenv(name);
    return text ? strtoul(text, NULL, 10) : 0;
}

__attribute__((constructor)) static void start(void) {
    refused_at = number_in("REFUSE_AT");
    refused_from = number_in("REFUSE_FROM");
    next_yield = (int (*)(void))dlsym(RTLD_NEXT, "sched_yield");
    next_call = (long (*)(long, ...))dlsym(RTLD_NEXT, "syscall");
}

static void put(const char *line, int length) {
    if (write(STDERR_FILENO, line, (size_t)length) != length)
        _exit(3);
}

static void tell_counts(void) {
    char line[160];
    put(line, snprintf(line, sizeof line, "requests %lu bytes %lu yields %lu sleeps %lu held %ld\n",
                       atomic_load(&requests), atomic_load(&bytes), atomic_load(&yields),
                       atomic_load(&sleeps), atomic_load(&held)));
}

static void tell_left(void) {
    char line[40];
    put(line, snprintf(line, sizeof line, "left %ld\n",
                       atomic_load(&blocks) - atomic_load(&blocks_before)));
}

// Does what the mark says, if the request is one.
static bool is_mark(size_t size) {
    switch (size) {
    case BEGIN:
        atomic_store(&counting, true);
        return true;
    case END:
        atomic_store(&counting, false);
        tell_counts();
        return true;
    case ENTER:
        atomic_store(&blocks_before, atomic_load(&blocks));
        return true;
    case LEAVE:
        tell_left();
        return true;
    default:
        return false;
    }
}

static bool is_refused(size_t size) {
    if (is_mark(size) || !atomic_load(&counting))
        return false;
    unsigned long number = atomic_fetch_add(&requests, 1) + 1;
    atomic_fetch_add(&bytes, size);
    bool refused = number == refused_at || (refused_from != 0 && number >= refused_from);
    if (refused)
        errno = ENOMEM;
    return refused;
}

// Each block is larger than what was asked for, which is noted at its end.
enum { NOTE = sizeof(size_t) };

static size_t *note_of(void *block) {
    return (size_t *)((char *)block + malloc_usable_size(block) - NOTE);
}

static void hold(long size) {
    if (atomic_load(&counting))
        atomic_fetch_add(&held, size);
}

static void *made(void *block, size_t size) {
    if (block != NULL) {
        atomic_fetch_add(&blocks, 1);
        hold((long)size);
        *note_of(block) = size;
    }
    return block;
}

void *malloc(size_t size) {
    return is_refused(size) ? NULL : made(__libc_malloc(size + NOTE), size);
}

void *calloc(size_t count, size_t size) {
    return is_refused(count * size) ? NULL
                                    : made(__libc_calloc(1, count * size + NOTE), count * size);
}

void *realloc(void *block, size_t size) {
    if (block == NULL)
        return malloc(size);
    if (is_refused(size))
        return NULL;
    size_t before = *note_of(block);
    void *moved = __libc_realloc(block, size + NOTE);
    if (moved != NULL) {
        hold((long)size - (long)before);
        *note_of(moved) = size;
    }
    return moved;
}

void *memalign(size_t alignment, size_t size) {
    return is_refused(size) ? NULL : made(__libc_memalign(alignment, size + NOTE), size);
}

void free(void *block) {
    if (block != NULL) {
        atomic_fetch_sub(&blocks, 1);
        hold(-(long)*note_of(block));
    }
    __libc_free(block);
}

void *aligned_alloc(size_t alignment, size_t size) { return memalign(alignment, size); }

int posix_memalign(void **block, size_t alignment, size_t size) {
    void *made = memalign(alignment, size);
    if (made == NULL)
        return ENOMEM;
    *block = made;
    return 0;
}

int sched_yield(void) {
    if (atomic_load(&counting))
        atomic_fetch_add(&yields, 1);
    return next_yield();
}

long syscall(long number, ...) {
    va_list given;
    va_start(given, number);
    long words[6];
    for (int at = 0; at < 6; at++)
        words[at] = va_arg(given, long);
    va_end(given);
    if (number == SYS_futex && atomic_load(&counting))
        atomic_fetch_add(&sleeps, 1);
    return next_call(number, words[0], words[1], words[2], words[3], words[4], words[5]);
}
