/* Lets a read or a write fail or be short: loaded before the C library by scripts/hostile.py. A call is a read of standard
   input, a write of standard output or a report, which is a write of standard error; its number counts from 1.
   FAIL_AT="read 3" lets the third read fail, and SHORT_AT="write 2" lets the second write take one byte alone. MOST is the
   greatest number of bytes of a call. The counts of reads, writes and reports are written to the file that COUNT_IN names. */
#define _GNU_SOURCE
#include <dlfcn.h>
#include <errno.h>
#include <fcntl.h>
#include <stdio.h>
#include <stdlib.h>
#include <string.h>
#include <unistd.h>

static const char *const names[] = {"read", "write", "report"};
static unsigned long counts[3];

/* Whether the variable names this call. */
static int names_call(const char *variable, int end, unsigned long number) {
    const char *text = getenv(variable);
    size_t length = strlen(names[end]);
    return text && strncmp(text, names[end], length) == 0 && text[length] == ' ' && strtoul(text + length, NULL, 10) == number;
}

/* The number of bytes that a call on this end may have, or -1 where it fails. */
static ssize_t allowed(int end, size_t size) {
    const char *text = getenv("MOST");
    unsigned long number = ++counts[end], most = text ? strtoul(text, NULL, 10) : size;
    if (names_call("FAIL_AT", end, number)) {
        errno = EIO;
        return -1;
    }
    if (names_call("SHORT_AT", end, number)) most = 1;
    return (ssize_t)(size < most ? size : most);
}

ssize_t read(int file, void *bytes, size_t size) {
    static ssize_t (*next)(int, void *, size_t);
    ssize_t most = (ssize_t)size;
    if (!next) next = (ssize_t (*)(int, void *, size_t))dlsym(RTLD_NEXT, "read");
    if (file == 0 && (most = allowed(0, size)) < 0) return -1;
    return next(file, bytes, (size_t)most);
}

ssize_t write(int file, const void *bytes, size_t size) {
    static ssize_t (*next)(int, const void *, size_t);
    ssize_t most = (ssize_t)size;
    if (!next) next = (ssize_t (*)(int, const void *, size_t))dlsym(RTLD_NEXT, "write");
    if ((file == 1 || file == 2) && (most = allowed(file, size)) < 0) return -1;
    return next(file, bytes, (size_t)most);
}

__attribute__((destructor)) static void tell(void) {
    const char *name = getenv("COUNT_IN");
    FILE *file = name ? fopen(name, "w") : NULL;
    if (!file) return;
    fprintf(file, "%lu %lu %lu\n", counts[0], counts[1], counts[2]);
    fclose(file);
}
