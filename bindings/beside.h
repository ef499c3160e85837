/* What calls.c keeps of a session beside the kernel. */
#ifndef GWB_BESIDE_H
#define GWB_BESIDE_H
#include "gwb.h"

struct pages;
struct record;
struct watch;

struct beside {
    const gwb_heap *heap;  /* in which the session lies */
    struct pages *pages;   /* of that, for its small blocks, or NULL (heap.h) */
    uint64_t changes;      /* how often the model may have changed */
    struct record *record; /* of accepted commands, or NULL */
    struct watch *watch;   /* of what they touch, or NULL */
    bool is_drafting;
    unsigned within;       /* so many calls of several operators, one in another */
    void (*begin_several)(const gwb *g); /* such a call begins (watch.h) */
    void (*end_several)(const gwb *g, bool is_accepted);
    gwb_stop stop;         /* whether a feature is to end, or NULL */
    void *stop_user;
    void *known; /* what features have read of the model, or NULL */
    gwb_became_row *became; /* what came of what, as it was found last (last.h), or NULL */
    size_t became_count;
    uint64_t became_at; /* one more than `changes` was then: 0 where it isn't to be told any more */
};

/* NULL where the kernel alone opened the session, without calls.c. */
static inline struct beside *beside_of(const gwb *g) { return (struct beside *)g->beside; }

/* The calls in between are one, which is accepted or not: what is in use before and after it is the same. It ends before its steps become a command. */
static inline void begin_several(const gwb *g)
{
    if (beside_of(g) != NULL)
        beside_of(g)->begin_several(g);
}
static inline void end_several(const gwb *g, bool is_accepted)
{
    if (beside_of(g) != NULL)
        beside_of(g)->end_several(g, is_accepted);
}

/* Whether a text is the listing of the model: the kernel's own answer, which is proved. GWB_FOUND, GWB_ABSENT, GWB_MEMORY or GWB_CLOSED. A reader. */
uint32_t gwb_lent_is_listing(gwb *copy, const char *text, size_t n);

/* Whether the caller ends what takes long. */
static inline bool is_stopped(const gwb *g)
{
    const struct beside *of = beside_of(g);
    return of != NULL && of->stop != NULL && of->stop(of->stop_user);
}

#endif
