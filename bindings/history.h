/* What became of the faces and edges of solids, by comparing what these were with what they are. */
#ifndef GWB_HISTORY_H
#define GWB_HISTORY_H
#include "lists.h"
#include "gwb.h"

/* Solids at one time: their half-edges as gwb_read_half_edges has them, where each of these starts, and their faces. */
struct solids {
    struct list half_edges, vertices, faces; /* of gwb_half_edge_row, gwb_vertex_row, uint32_t */
};

/* What there are changes of, and which. */
enum { OF_FACES, OF_EDGES, MADE = 0, REMOVED };

/* Writes down the changes from what solids were to what they are, each list rising: of gwb_born_change, unless they are NULL, and what became of
 * things, of gwb_became_row, both without births. False where memory is refused. */
bool history_find(struct solids *before, struct solids *after, struct list changes[2][2], struct list *became);
/* Brings what became of things in order, each once. */
void became_sort(struct list *became);

#endif
