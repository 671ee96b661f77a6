/* A shim for LD_PRELOAD that refuses memory to a program.

   REFUSE_FROM=n, REFUSE_TO=m   the allocations n to m are refused, counted from 1 over all threads
   REFUSE_TOLD=fd               at each refusal one byte is written to this descriptor  */

#define _GNU_SOURCE
#include <dlfcn.h>
#include <errno.h>
#include <stdatomic.h>
#include <stddef.h>
#include <stdlib.h>
#include <unistd.h>

static long first, last;
static int told = -1;
static atomic_long asked;

static long number(const char *name, long otherwise) {
    const char *text = getenv(name);
    return text ? atol(text) : otherwise;
}

__attribute__((constructor)) static void read_environment(void) {
    last = number("REFUSE_TO", 0);
    told = (int)number("REFUSE_TOLD", -1);
    first = number("REFUSE_FROM", 0);
}

static int is_refused(void) {
    if (!first) return 0;
    long now = atomic_fetch_add(&asked, 1) + 1;
    if (now < first || now > last) return 0;
    if (told >= 0 && write(told, "x", 1) < 0) told = -1;
    errno = ENOMEM;
    return 1;
}

static void *next(const char *name) {
    void *found = dlsym(RTLD_NEXT, name);
    if (!found) abort();
    return found;
}

#define ORIGINAL(name, result, ...) \
    static result (*original)(__VA_ARGS__); \
    if (!original) original = (result(*)(__VA_ARGS__))next(#name)

void *malloc(size_t size) {
    ORIGINAL(malloc, void *, size_t);
    return is_refused() ? NULL : original(size);
}

void *calloc(size_t count, size_t size) {
    ORIGINAL(calloc, void *, size_t, size_t);
    return is_refused() ? NULL : original(count, size);
}

void *realloc(void *old, size_t size) {
    ORIGINAL(realloc, void *, void *, size_t);
    return is_refused() ? NULL : original(old, size);
}

void *aligned_alloc(size_t alignment, size_t size) {
    ORIGINAL(aligned_alloc, void *, size_t, size_t);
    return is_refused() ? NULL : original(alignment, size);
}

int posix_memalign(void **place, size_t alignment, size_t size) {
    ORIGINAL(posix_memalign, int, void **, size_t, size_t);
    return is_refused() ? ENOMEM : original(place, alignment, size);
}
