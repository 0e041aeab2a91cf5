/*
 * Refuses a program one block of memory: preloaded, it lets the call of malloc or realloc fail whose number
 * the variable REFUSE has, counted from 1, and makes the empty file that REFUSED names where there was such a
 * call. A `realloc` that fails leaves its block as it was.
 */
#define _GNU_SOURCE
#include <dlfcn.h>
#include <errno.h>
#include <fcntl.h>
#include <stdatomic.h>
#include <stdbool.h>
#include <stddef.h>
#include <stdlib.h>
#include <unistd.h>

static atomic_ulong calls;

static bool is_refused(void) {
    const char *number = getenv("REFUSE"), *note = getenv("REFUSED");
    if (!number || !note || atomic_fetch_add(&calls, 1) + 1 != strtoul(number, NULL, 10)) return false;
    close(open(note, O_CREAT | O_WRONLY, 0600));
    errno = ENOMEM;
    return true;
}

void *malloc(size_t size) {
    static void *(*next)(size_t);
    if (!next) *(void **)&next = dlsym(RTLD_NEXT, "malloc");
    return is_refused() ? NULL : next(size);
}

void *realloc(void *block, size_t size) {
    static void *(*next)(void *, size_t);
    if (!next) *(void **)&next = dlsym(RTLD_NEXT, "realloc");
    return is_refused() ? NULL : next(block, size);
}
