/*
 * Octets that a call must leave as they are: they are filled with KEPT before it, and compared
 * after it.
 */
#ifndef KEPT_H
#define KEPT_H
#include <stddef.h>

enum { KEPT = 0x5a };

/* Whether all octets of an object are as they were filled. */
static inline int is_kept(const void *from, size_t size)
{
    const unsigned char *octets = from;
    size_t k;
    for (k = 0; k < size; k++)
        if (octets[k] != KEPT)
            return 0;
    return 1;
}

#endif
