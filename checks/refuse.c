/* Refuses one request for memory: with REFUSE=N the Nth of the run, counted from 1. It then makes the file that REFUSED
   names. It is loaded before the C library by LD_PRELOAD. */
#define _GNU_SOURCE
#include <dlfcn.h>
#include <errno.h>
#include <fcntl.h>
#include <stddef.h>
#include <stdlib.h>
#include <unistd.h>

static long left = -1;

static int refused(void)
{
    if (left < 0) {
        const char *n = getenv("REFUSE");
        left = n ? atol(n) : 0;
    }
    if (left == 0 || --left > 0)
        return 0;
    const char *mark = getenv("REFUSED");
    if (mark)
        close(open(mark, O_CREAT | O_WRONLY, 0600));
    errno = ENOMEM;
    return 1;
}

void *malloc(size_t size)
{
    static void *(*next)(size_t);
    if (!next)
        next = (void *(*)(size_t))dlsym(RTLD_NEXT, "malloc");
    return refused() ? NULL : next(size);
}

void *realloc(void *old, size_t size)
{
    static void *(*next)(void *, size_t);
    if (!next)
        next = (void *(*)(void *, size_t))dlsym(RTLD_NEXT, "realloc");
    return refused() ? NULL : next(old, size);
}

int posix_memalign(void **out, size_t align, size_t size)
{
    static int (*next)(void **, size_t, size_t);
    if (!next)
        next = (int (*)(void **, size_t, size_t))dlsym(RTLD_NEXT, "posix_memalign");
    return refused() ? ENOMEM : next(out, align, size);
}

void *aligned_alloc(size_t align, size_t size)
{
    static void *(*next)(size_t, size_t);
    if (!next)
        next = (void *(*)(size_t, size_t))dlsym(RTLD_NEXT, "aligned_alloc");
    return refused() ? NULL : next(align, size);
}

/* dlsym itself may call calloc, which then has no next one. */
void *calloc(size_t count, size_t size)
{
    static void *(*next)(size_t, size_t);
    static int is_looking;
    static char early[4096];
    static size_t used;
    if (!next && is_looking) {
        size_t wanted = (count * size + 15) / 16 * 16;
        void *out = early + used;
        if (wanted > sizeof early - used)
            return NULL;
        used += wanted;
        return out;
    }
    if (!next) {
        is_looking = 1;
        next = (void *(*)(size_t, size_t))dlsym(RTLD_NEXT, "calloc");
        is_looking = 0;
    }
    return refused() ? NULL : next(count, size);
}
