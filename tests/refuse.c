/* Refuses one call for memory: the one that REFUSE counts, from 1. Loaded before the C library, it
   leaves a file `refused` beside itself where the program came that far. */
#define _GNU_SOURCE
#include <dlfcn.h>
#include <fcntl.h>
#include <stdio.h>
#include <stdlib.h>
#include <string.h>
#include <unistd.h>

static long calls, refused;
static char mark[4096];

__attribute__((constructor)) static void begin(void)
{
    const char *count = getenv("REFUSE"), *own = getenv("LD_PRELOAD");
    refused = count ? atol(count) : 0;
    if (own) {
        snprintf(mark, sizeof mark, "%s", own);
        char *slash = strrchr(mark, '/');
        if (slash)
            strcpy(slash + 1, "refused");
    }
    calls = 0;
}

static int refuses(void)
{
    if (refused == 0 || ++calls != refused)
        return 0;
    int file = open(mark, O_CREAT | O_WRONLY, 0600);
    if (file >= 0)
        close(file);
    return 1;
}

void *malloc(size_t size)
{
    static void *(*real)(size_t);
    if (!real)
        real = dlsym(RTLD_NEXT, "malloc");
    return refuses() ? NULL : real(size);
}

void *realloc(void *old, size_t size)
{
    static void *(*real)(void *, size_t);
    if (!real)
        real = dlsym(RTLD_NEXT, "realloc");
    return refuses() ? NULL : real(old, size);
}

void *aligned_alloc(size_t alignment, size_t size)
{
    static void *(*real)(size_t, size_t);
    if (!real)
        real = dlsym(RTLD_NEXT, "aligned_alloc");
    return refuses() ? NULL : real(alignment, size);
}

int posix_memalign(void **place, size_t alignment, size_t size)
{
    static int (*real)(void **, size_t, size_t);
    if (!real)
        real = dlsym(RTLD_NEXT, "posix_memalign");
    return refuses() ? 12 : real(place, alignment, size);
}
