/* Stands in for the kit's rattle_alloc, rattle_realloc and rattle_dealloc on ARM64: the kit has them for x86-64 only.
 * Proved code relies on the contracts below, which are those of the kit's crate `libc` (`src/heap.rt` and
 * `specs/Heap.antt` there). Nothing proves that these functions meet them. tests/arm64/kit runs the same checks on them
 * and on the kit's functions for x86-64. */
#include <stdbool.h>
#include <stddef.h>
#include <stdint.h>
#include <stdlib.h>

/* The result of an allocation. If `ok`, `p` is the address of a block. Otherwise `p` is not NULL, but nothing
 * is owned there. */
typedef struct tried {
    bool ok;
    uint8_t *p;
} tried;

tried rattle_alloc(size_t n, size_t a);
tried rattle_realloc(uint8_t *p, size_t kept, size_t n, size_t a);
void rattle_dealloc(uint8_t *p);

/* Its address is the `p` of each failed allocation. */
static uint8_t nothing;

static tried block_or_nothing(uint8_t *p) {
    tried result;
    result.ok = p != NULL;
    result.p = result.ok ? p : &nothing;
    return result;
}

/* malloc may return NULL for 0 bytes, so a zero-sized type gets a block of as many bytes as its alignment. */
static size_t at_least_one(size_t n, size_t a) { return n == 0 ? a : n; }

/* Tries to allocate a block for a value of a type.
 *
 *     requires size             n is the size of the type
 *     requires align            a is its alignment
 *     requires align_divides_16 a divides 16, so a block of malloc is aligned
 *     requires size_fits        n < 2^63
 *     ensures got               if ok, p is a new block for such a value, aligned to a, which rattle_dealloc may free; otherwise p
 *                               is not NULL, and nothing is owned there
 *
 * The contract does not say when the allocation fails. */
tried rattle_alloc(size_t n, size_t a) { return block_or_nothing(malloc(at_least_one(n, a))); }

/* Tries to resize a block from rattle_alloc or rattle_realloc to n bytes.
 *
 *     requires sizes    kept is the size of the elements to keep, which are the first of an array;
 *                       n is the size of the new array, which has at least these elements, and n < 2^63;
 *                       a is the alignment of an element, and divides 16
 *     requires block    p is a block for the old array, which has at least these elements, and may be freed
 *     ensures regot     if ok, the block at the result's p is one for the new array, may be freed, and its first kept bytes are as
 *                       before; p is no longer a block, unless it is the same; otherwise the block at p is as before
 *
 * realloc keeps the bytes that fit in both arrays, so it does not need kept. */
tried rattle_realloc(uint8_t *p, size_t kept, size_t n, size_t a) {
    (void)kept;
    return block_or_nothing(realloc(p, at_least_one(n, a)));
}

/* Frees a block.
 *
 *     requires    p is a block of rattle_alloc or rattle_realloc that may be freed */
void rattle_dealloc(uint8_t *p) { free(p); }
