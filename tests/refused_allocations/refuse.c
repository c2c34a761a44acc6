/* Preloaded beside a program: the allocation whose number REFUSE names, counted from 1, is refused, and with REFUSE_REST all behind it. With REFUSE=0 none is.
   Their count stands in the file that COUNT_TO names, if any, from the first one on: a program may end without telling. */
#define _GNU_SOURCE
#include <dlfcn.h>
#include <fcntl.h>
#include <stdio.h>
#include <stdlib.h>
#include <unistd.h>

static unsigned long count;

static void tell(void) {
    static int out = -2;
    char text[32];
    if (out == -2) {
        const char *file = getenv("COUNT_TO");
        out = file ? open(file, O_WRONLY | O_CREAT | O_TRUNC, 0600) : -1;
    }
    if (out >= 0) {
        int length = snprintf(text, sizeof text, "%lu\n", count);
        if (pwrite(out, text, length, 0) != length) _exit(126);
    }
}

static int is_refused(void) {
    static long refused = -1;
    static int rest;
    if (refused < 0) {
        const char *text = getenv("REFUSE");
        refused = text ? atol(text) : 0;
        rest = refused > 0 && getenv("REFUSE_REST");
    }
    ++count;
    tell();
    return count == (unsigned long)refused || (rest && count > (unsigned long)refused);
}

void *malloc(size_t size) {
    static void *(*next)(size_t);
    if (!next) next = dlsym(RTLD_NEXT, "malloc");
    return is_refused() ? NULL : next(size);
}

void *realloc(void *place, size_t size) {
    static void *(*next)(void *, size_t);
    if (!next) next = dlsym(RTLD_NEXT, "realloc");
    return is_refused() ? NULL : next(place, size);
}
