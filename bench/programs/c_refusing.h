/* Allocations of which one is refused. A program is linked with --wrap for malloc, realloc, calloc and aligned_alloc, and says itself what its own
 * malloc does. */
#ifndef C_REFUSING_H
#define C_REFUSING_H
#include "c_common.h"

void *__real_malloc(size_t size);
void *__real_realloc(void *at, size_t size);
void *__real_calloc(size_t count, size_t size);
void *__real_aligned_alloc(size_t alignment, size_t size);

/* Which of the next allocations is refused, from 1 on, or 0, and how many there were. */
static int refused, calls;

static bool refuses(void) { return refused > 0 && ++calls == refused; }

void *__wrap_realloc(void *at, size_t size) { return refuses() ? NULL : __real_realloc(at, size); }
void *__wrap_calloc(size_t count, size_t size) { return refuses() ? NULL : __real_calloc(count, size); }
void *__wrap_aligned_alloc(size_t alignment, size_t size) { return refuses() ? NULL : __real_aligned_alloc(alignment, size); }

static void refuse(int number) {
    refused = number;
    calls = 0;
}

/* Whether the allocation to be refused came. None is refused from now on. */
static bool was_refused(void) {
    bool was = calls >= refused;
    refused = 0;
    return was;
}

/* How many allocations there are to refuse. */
static int refuse_each(bool (*check)(int number), int most) {
    int number = 1;
    while (check(number)) demand(++number < most, "an end to the allocations");
    return number - 1;
}
#endif
