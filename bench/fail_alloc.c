/* A malloc before the C library's that fails once: the allocation of the number in FAIL_ALLOC, counted from 1.
   With FAIL_ALLOC=0 none fails; with COUNT_ALLOC set the number of allocations is written to that file at the end. */
#define _GNU_SOURCE
#include <dlfcn.h>
#include <errno.h>
#include <stdio.h>
#include <stdlib.h>

static unsigned long calls, failing;
static void *(*next_malloc)(size_t);
static void *(*next_realloc)(void *, size_t);
static void *(*next_aligned)(size_t, size_t);
static int (*next_posix)(void **, size_t, size_t);

static void __attribute__((constructor)) begin(void)
{
    const char *number = getenv("FAIL_ALLOC");
    next_malloc = dlsym(RTLD_NEXT, "malloc");
    next_realloc = dlsym(RTLD_NEXT, "realloc");
    next_aligned = dlsym(RTLD_NEXT, "aligned_alloc");
    next_posix = dlsym(RTLD_NEXT, "posix_memalign");
    failing = number ? strtoul(number, NULL, 10) : 0;
    calls = 0;
}

static void __attribute__((destructor)) end(void)
{
    const char *name = getenv("COUNT_ALLOC");
    unsigned long seen = calls;
    if (name) {
        FILE *file = fopen(name, "w");
        if (file) {
            fprintf(file, "%lu\n", seen);
            fclose(file);
        }
    }
}

static int fails(void)
{
    return ++calls == failing;
}

void *malloc(size_t size)
{
    if (!next_malloc)
        begin();
    return fails() ? NULL : next_malloc(size);
}

void *realloc(void *old, size_t size)
{
    if (!next_realloc)
        begin();
    return fails() ? NULL : next_realloc(old, size);
}

void *aligned_alloc(size_t alignment, size_t size)
{
    if (!next_aligned)
        begin();
    return fails() ? NULL : next_aligned(alignment, size);
}

int posix_memalign(void **place, size_t alignment, size_t size)
{
    if (!next_posix)
        begin();
    return fails() ? ENOMEM : next_posix(place, alignment, size);
}
