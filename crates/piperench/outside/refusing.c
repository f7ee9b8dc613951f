/* The growth of memory with the number in REFUSE is refused, counted from 1. Where COUNT names a file, it gets the number of
   all that were asked for. */
#define _GNU_SOURCE
#include <dlfcn.h>
#include <stdio.h>
#include <stdlib.h>

static unsigned long asked;

static int is_refused(void)
{
    const char *number = getenv("REFUSE");
    asked++;
    return number && strtoul(number, NULL, 10) == asked;
}

void *malloc(size_t size)
{
    static void *(*next)(size_t);
    if (!next)
        next = (void *(*)(size_t))dlsym(RTLD_NEXT, "malloc");
    return is_refused() ? NULL : next(size);
}

void *realloc(void *old, size_t size)
{
    static void *(*next)(void *, size_t);
    if (!next)
        next = (void *(*)(void *, size_t))dlsym(RTLD_NEXT, "realloc");
    return is_refused() ? NULL : next(old, size);
}

__attribute__((destructor)) static void tell(void)
{
    const char *name = getenv("COUNT");
    unsigned long total = asked;
    FILE *file = name ? fopen(name, "w") : NULL;
    if (file) {
        fprintf(file, "%lu\n", total);
        fclose(file);
    }
}
