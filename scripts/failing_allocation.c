/* Lets the allocation of a number fail: loaded before the C library by scripts/hostile.py.
   FAIL_AT is that number, from 1; the count of allocations is written to the file that COUNT_IN names. */
#define _GNU_SOURCE
#include <dlfcn.h>
#include <errno.h>
#include <fcntl.h>
#include <stdio.h>
#include <stdlib.h>
#include <string.h>
#include <unistd.h>

static unsigned long count, fail_at;
static int ready;

static int fails(void) {
    if (!ready) {
        const char *text = getenv("FAIL_AT");
        fail_at = text ? strtoul(text, NULL, 10) : 0;
        ready = 1;
    }
    count += 1;
    if (count == fail_at) {
        errno = ENOMEM;
        return 1;
    }
    return 0;
}

void *malloc(size_t size) {
    static void *(*next)(size_t);
    if (!next) next = (void *(*)(size_t))dlsym(RTLD_NEXT, "malloc");
    return fails() ? NULL : next(size);
}

void *realloc(void *old, size_t size) {
    static void *(*next)(void *, size_t);
    if (!next) next = (void *(*)(void *, size_t))dlsym(RTLD_NEXT, "realloc");
    return fails() ? NULL : next(old, size);
}

void *aligned_alloc(size_t alignment, size_t size) {
    static void *(*next)(size_t, size_t);
    if (!next) next = (void *(*)(size_t, size_t))dlsym(RTLD_NEXT, "aligned_alloc");
    return fails() ? NULL : next(alignment, size);
}

int posix_memalign(void **place, size_t alignment, size_t size) {
    static int (*next)(void **, size_t, size_t);
    if (!next) next = (int (*)(void **, size_t, size_t))dlsym(RTLD_NEXT, "posix_memalign");
    return fails() ? ENOMEM : next(place, alignment, size);
}

__attribute__((destructor)) static void tell(void) {
    const char *name = getenv("COUNT_IN");
    char text[32];
    int file;
    if (!name) return;
    file = open(name, O_WRONLY | O_CREAT | O_TRUNC, 0600);
    if (file < 0) return;
    snprintf(text, sizeof text, "%lu\n", count);
    if (write(file, text, strlen(text)) < 0) { }
    close(file);
}
