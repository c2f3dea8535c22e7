/* Refuses one request for memory: the one whose number is in the environment's REFUSE_AT, counted from 1; 0 refuses none. At the end
   the number of requests is written into the file that COUNT_TO names. Preloaded by test_allocations.py into the built program; programs
   that it starts, which have another name than REFUSE_IN, are left alone. */
#define _GNU_SOURCE
#include <dlfcn.h>
#include <errno.h>
#include <stddef.h>
#include <stdio.h>
#include <stdlib.h>
#include <string.h>

static int is_here;
static unsigned long asked;
static unsigned long refuse_at;

__attribute__((constructor)) static void begin(void) {
    const char *text = getenv("REFUSE_AT");
    const char *name = getenv("REFUSE_IN");
    is_here = name && strcmp(name, program_invocation_short_name) == 0;
    refuse_at = is_here && text ? strtoul(text, NULL, 10) : 0;
    asked = 0;
}

static void tell(void) {
    const char *name = getenv("COUNT_TO");
    unsigned long count = asked;
    FILE *file = is_here && name && *name ? fopen(name, "w") : NULL;
    if (file) {
        fprintf(file, "%lu\n", count);
        fclose(file);
    }
}

__attribute__((destructor)) static void end(void) {
    tell();
}

/* A program that may start threads leaves by this call, past the destructors. */
__attribute__((noreturn)) void _exit(int status) {
    void (*next)(int) = (void (*)(int))dlsym(RTLD_NEXT, "_exit");
    tell();
    next(status);
    __builtin_unreachable();
}

static int is_refused(void) {
    if (__atomic_add_fetch(&asked, 1, __ATOMIC_SEQ_CST) != refuse_at) {
        return 0;
    }
    errno = ENOMEM;
    return 1;
}

void *malloc(size_t size) {
    static void *(*next)(size_t);
    if (!next) {
        next = dlsym(RTLD_NEXT, "malloc");
    }
    return is_refused() ? NULL : next(size);
}

void *realloc(void *old, size_t size) {
    static void *(*next)(void *, size_t);
    if (!next) {
        next = dlsym(RTLD_NEXT, "realloc");
    }
    return is_refused() ? NULL : next(old, size);
}

void *aligned_alloc(size_t alignment, size_t size) {
    static void *(*next)(size_t, size_t);
    if (!next) {
        next = dlsym(RTLD_NEXT, "aligned_alloc");
    }
    return is_refused() ? NULL : next(alignment, size);
}

int posix_memalign(void **out, size_t alignment, size_t size) {
    static int (*next)(void **, size_t, size_t);
    if (!next) {
        next = dlsym(RTLD_NEXT, "posix_memalign");
    }
    return is_refused() ? ENOMEM : next(out, alignment, size);
}
