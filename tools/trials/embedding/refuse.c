/*
 * Refused memory, for a program that asks the C library for it. Loaded before the program
 * (LD_PRELOAD), this refuses the n-th request that it makes and writes an octet to the descriptor
 * d, where the environment has REFUSED=n and REFUSED_TOLD=d. Where it has neither, it refuses none.
 */
#define _GNU_SOURCE
#include <dlfcn.h>
#include <stdlib.h>
#include <unistd.h>

static unsigned long requests, refused;
static int told;
static void *(*first)(size_t);
static void *(*again)(void *, size_t);

static unsigned long number_of(const char *name)
{
    const char *text = getenv(name);
    return text ? strtoul(text, NULL, 10) : 0;
}

/* What the C library asks for before the program begins isn't counted. */
__attribute__((constructor)) static void begin(void)
{
    told = (int)number_of("REFUSED_TOLD");
    refused = number_of("REFUSED");
}

static int is_refused(void)
{
    return refused && ++requests == refused && write(told, "", 1) == 1;
}

void *malloc(size_t size)
{
    if (!first)
        *(void **)&first = dlsym(RTLD_NEXT, "malloc");
    return is_refused() ? NULL : first(size);
}

void *realloc(void *block, size_t size)
{
    if (!again)
        *(void **)&again = dlsym(RTLD_NEXT, "realloc");
    return is_refused() ? NULL : again(block, size);
}
