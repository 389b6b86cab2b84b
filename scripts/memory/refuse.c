/* Stands before the C library's malloc, calloc, realloc, aligned_alloc and posix_memalign: counts the requests and refuses
   one of them. By the environment:

   REFUSE_NTH   which request is refused, from 1; 0 or nothing: none
   REFUSE_FROM  `mark`: requests count from one of FIRST octets to one of LAST octets, the marks that crates/test_memory sets
                (src/marks.rt), which are never refused; `start`: from the program's start to its end

   At the program's end a line on standard error says how many requests counted, how many were refused, how many marks were
   seen, how many octets the largest request of all asked for, marks aside, and the greatest resident size in KiB. */
#define _GNU_SOURCE
#include <dlfcn.h>
#include <errno.h>
#include <fcntl.h>
#include <stdio.h>
#include <stdlib.h>
#include <string.h>
#include <unistd.h>

#define FIRST 54321
#define LAST 54323

static void *(*real_malloc)(size_t);
static void *(*real_calloc)(size_t, size_t);
static void *(*real_realloc)(void *, size_t);
static void *(*real_aligned_alloc)(size_t, size_t);
static int (*real_posix_memalign)(void **, size_t, size_t);

static int is_counting, marks_seen;
static unsigned long counted, refused, nth, largest;

static void look_up(void) {
    real_malloc = dlsym(RTLD_NEXT, "malloc");
    real_calloc = dlsym(RTLD_NEXT, "calloc");
    real_realloc = dlsym(RTLD_NEXT, "realloc");
    real_aligned_alloc = dlsym(RTLD_NEXT, "aligned_alloc");
    real_posix_memalign = dlsym(RTLD_NEXT, "posix_memalign");
}

__attribute__((constructor)) static void begin(void) {
    const char *n = getenv("REFUSE_NTH"), *from = getenv("REFUSE_FROM");
    if (!real_malloc)
        look_up();
    nth = n ? strtoul(n, NULL, 10) : 0;
    is_counting = from && strcmp(from, "start") == 0;
}

/* The greatest resident size since the program began, in KiB. */
static unsigned long resident(void) {
    char text[4096];
    int file = open("/proc/self/status", O_RDONLY);
    ssize_t length = file < 0 ? -1 : read(file, text, sizeof text - 1);
    if (length < 0)
        return 0;
    close(file);
    text[length] = 0;
    const char *at = strstr(text, "VmHWM:");
    return at ? strtoul(at + 6, NULL, 10) : 0;
}

__attribute__((destructor)) static void end(void) {
    char line[160];
    is_counting = 0;
    int length = snprintf(line, sizeof line, "requests %lu refused %lu marks %d largest %lu resident %lu\n", counted, refused,
                          marks_seen, largest, resident());
    if (write(2, line, (size_t)length) != length)
        _exit(99);
}

/* Whether this request is the one that is refused. */
static int is_refused(size_t size) {
    if (size == FIRST || size == LAST) {
        is_counting = size == FIRST;
        marks_seen++;
        if (is_counting)
            counted = 0;
        return 0;
    }
    if (size > largest)
        largest = size;
    if (!is_counting || ++counted != nth)
        return 0;
    refused++;
    errno = ENOMEM;
    return 1;
}

void *malloc(size_t size) {
    if (!real_malloc)
        look_up();
    return is_refused(size) ? NULL : real_malloc(size);
}

void *calloc(size_t count, size_t size) {
    if (!real_calloc)
        look_up();
    return is_refused(count * size) ? NULL : real_calloc(count, size);
}

void *realloc(void *old, size_t size) {
    if (!real_realloc)
        look_up();
    return is_refused(size) ? NULL : real_realloc(old, size);
}

void *aligned_alloc(size_t alignment, size_t size) {
    if (!real_aligned_alloc)
        look_up();
    return is_refused(size) ? NULL : real_aligned_alloc(alignment, size);
}

int posix_memalign(void **to, size_t alignment, size_t size) {
    if (!real_posix_memalign)
        look_up();
    return is_refused(size) ? ENOMEM : real_posix_memalign(to, alignment, size);
}
