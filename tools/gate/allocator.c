/*
 * What out/libcertpath_c.a leaves open, over malloc, realloc and free of the C library.
 *
 * `rt lib` compiles the crate certpath_c with the standard library that it stands on. Of what these
 * call, the archive defines all but memcpy, memmove and memset, which are the C library's, and the
 * three functions here. The standard library's contracts of them (libc::heap) are taken as written,
 * so nothing proves this file: it is as small as it can be, and the trials of the libraries refuse
 * each request for memory in turn.
 *
 *     rattle_alloc      new memory of n octets. n may be 0: the alignment is asked for in its place,
 *                       so that a block has an address of its own.
 *     rattle_realloc    makes the block at p one of n octets, whose first ones are as they were. It
 *                       may move. Where it fails, the block is as it was. Of `kept`, how many octets
 *                       have to stay, realloc makes no use: it keeps all that fit.
 *     rattle_dealloc    frees a block that one of the two gave. It is called once for each.
 *
 * An alignment is a power of two of at most 16, and divides n: the C library on x86-64 aligns each
 * block to 16. n is below 2^63. A call that fails gives ok = 0 and an address that isn't null and
 * owns nothing; when it fails is left to the C library. The three may be called by several threads
 * at once, as malloc, realloc and free may.
 *
 * In the libraries of dist/ the three are hidden, so that a program may have others of these names.
 */
#include <stddef.h>
#include <stdint.h>
#include <stdlib.h>

/* How the two that ask for memory answer: in two registers, the flag in the first. */
typedef struct {
    _Bool ok;
    uint8_t *p;
} tried;

_Static_assert(_Alignof(max_align_t) >= 16, "malloc aligns to 16");

/* The address of a request that failed. */
static uint8_t nothing[16];

static tried answer(void *p)
{
    tried it = {p != NULL, p != NULL ? p : nothing};
    return it;
}

tried rattle_alloc(size_t n, size_t alignment)
{
    return answer(malloc(n != 0 ? n : alignment));
}

tried rattle_realloc(uint8_t *p, size_t kept, size_t n, size_t alignment)
{
    (void)kept;
    return answer(realloc(p, n != 0 ? n : alignment));
}

void rattle_dealloc(uint8_t *p)
{
    free(p);
}
