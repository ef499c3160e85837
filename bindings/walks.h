/* What walks over a model have in common. */
#ifndef GWB_WALKS_H
#define GWB_WALKS_H
#include "gwb.h"

enum { GREATEST_NUMBER = 1000000 };

/* The least face of a solid above one, of all solids for 0. */
static inline uint32_t next_face(const gwb *g, uint32_t solid, uint32_t face, uint32_t *next)
{
    return solid == 0 ? gwb_number_after(g, GWB_FACE, face, next) : gwb_face_after(g, solid, face, next);
}

/* The vertex at which a half-edge starts: 0 where its edge is not there. */
static inline uint32_t start_of(const gwb *g, uint32_t half_edge)
{
    gwb_edge_row ends = {0, 0};
    gwb_edge(g, half_edge / 2, &ends);
    return half_edge % 2 == 0 ? ends.from : ends.to;
}

/* The loop of a half-edge, or of a lone corner: 0 where there is none. */
static inline uint32_t loop_of(const gwb *g, uint32_t corner)
{
    uint32_t loop = 0;
    if (corner >= GWB_LONE(0))
        return corner - GWB_LONE(0);
    return gwb_half_edge_loop(g, corner, &loop) == GWB_FOUND ? loop : 0;
}

static inline uint32_t face_of(const gwb *g, uint32_t loop)
{
    uint32_t face = 0;
    return gwb_loop(g, loop, &face) == GWB_FOUND ? face : 0;
}

#endif
