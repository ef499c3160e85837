/* What solids were from a place on, as gwb_watch asks, or before the last command (last.h), and what became of them. */
#ifndef GWB_ASKED_H
#define GWB_ASKED_H
#include "births.h"
#include "history.h"

/* A solid that was touched, and which of the half-edges that are written down are its. */
struct written {
    uint32_t solid;
    size_t from, count;
};

/* What solids were from a place on: they are written down before they are touched for the first time after it. */
struct asked {
    size_t place;         /* that of gwb_watch is 0 */
    uint64_t born;        /* births from here on were given since */
    bool are_all;         /* whether all were touched, also those that were made */
    bool is_lost;         /* whether memory was refused for what a solid was */
    struct list solids;   /* of struct written: those that were touched, rising */
    struct solids before; /* what they were, but for the faces */
    struct list things;   /* of struct thing: their faces, edges and vertices; rising when they are compared */
};

#define NO_SOLIDS {{.size = sizeof(gwb_half_edge_row)}, {.size = sizeof(gwb_vertex_row)}, {.size = sizeof(uint32_t)}}
#define NOTHING_WRITTEN .solids.size = sizeof(struct written), .things.size = sizeof(struct thing), .before = NO_SOLIDS

void asked_free(struct asked *a);

/* Writes down what a solid is before it is touched, or what all are for solid 0, if that isn't written down yet. What memory is refused for is lost.
 * Without births, where these are NULL, it can't be compared. */
void asked_write(struct asked *a, const struct births *b, const gwb *g, uint32_t solid);
/* Writes down what those solids are that were touched as `later` says, but for the ones that are the same there. */
void asked_write_changed(struct asked *a, const struct births *b, const gwb *g, const struct asked *later);

/* Compares what was touched with what it is now, as history_find does: false where any of it was lost, or memory is refused. */
bool asked_compare(struct asked *a, const struct births *b, const gwb *g, struct list changes[2][2], struct list *became);

#endif
