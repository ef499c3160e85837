/* A heap of tests in C over that of the C library: its blocks hold no zeros, it counts requests and what lies in it, and it refuses requests from one
 * on, so many of them, or one in so many. */
#ifndef GWB_TESTS_HEAPS_H
#define GWB_TESTS_HEAPS_H
#include "gwb.h"
#include <limits.h>
#include <stdbool.h>
#include <stdlib.h>
#include <string.h>

struct requests {
    long made, first_refused, refused, live, one_in;
};

static inline bool refuses(struct requests *r)
{
    r->made++;
    return (r->made >= r->first_refused && r->made - r->first_refused < r->refused) || (r->one_in != 0 && r->made % r->one_in == 0);
}

static inline void *take(void *user, size_t size)
{
    struct requests *r = user;
    void *block = refuses(r) ? NULL : malloc(size);
    r->live += block != NULL;
    return block != NULL ? memset(block, 0xA5, size) : NULL;
}

static inline void *grow(void *user, void *block, size_t size) { return refuses(user) ? NULL : realloc(block, size); }

static inline void give_back(void *user, void *block)
{
    ((struct requests *)user)->live -= block != NULL;
    free(block);
}

static inline gwb_heap heap_of(struct requests *r) { return (gwb_heap){take, grow, give_back, r}; }

/* Requests are counted anew, and so many refused from this one on, which is 1 or more. */
static inline void refuse(struct requests *r, long first, long count) { *r = (struct requests){0, first, count, r->live, 0}; }
#endif
