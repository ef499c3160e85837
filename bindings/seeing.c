/* What a value of a call names, by readers. */
#include "seeing.h"

static bool see_half_edge(struct births *b, const gwb *g, uint32_t half_edge)
{
    const uint32_t loop = loop_of(g, half_edge);
    return births_see(b, GWB_EDGE, half_edge / 2, true) && births_see(b, GWB_VERTEX, start_of(g, half_edge), true) &&
           births_see(b, GWB_LOOP, loop, true) && births_see(b, GWB_FACE, face_of(g, loop), true);
}

/* The loop of a face, and what it goes through. */
static bool see_loop(struct births *b, const gwb *g, uint32_t loop)
{
    uint32_t vertex = 0, first = 0, half_edge;
    bool is_well = births_see(b, GWB_LOOP, loop, true);
    if (gwb_lone_vertex(g, loop, &vertex) == GWB_FOUND)
        return is_well && births_see(b, GWB_VERTEX, vertex, true);
    if (gwb_first_half_edge(g, loop, &first) != GWB_FOUND)
        return is_well;
    half_edge = first;
    do
        is_well = is_well && see_half_edge(b, g, half_edge);
    while (gwb_next_half_edge(g, half_edge, &half_edge) == GWB_FOUND && half_edge != first);
    return is_well;
}

static bool see_face(struct births *b, const gwb *g, uint32_t face, bool has_loops)
{
    gwb_face_row row = {0, 0};
    uint32_t ring = 0;
    bool is_well = births_see(b, GWB_FACE, face, true);
    if (gwb_face(g, face, &row) != GWB_FOUND)
        return is_well;
    is_well = is_well && births_see(b, GWB_SOLID, row.solid, true);
    if (has_loops)
        is_well = is_well && see_loop(b, g, row.outer_loop);
    while (has_loops && is_well && gwb_ring_after(g, face, ring, &ring) == GWB_FOUND)
        is_well = see_loop(b, g, ring);
    return is_well;
}

/* A solid that may go: then it has one face, of one vertex. */
static bool see_solid(struct births *b, const gwb *g, uint32_t solid)
{
    uint32_t face = 0, next;
    bool is_well = births_see(b, GWB_SOLID, solid, true);
    if (gwb_face_after(g, solid, 0, &face) == GWB_FOUND && gwb_face_after(g, solid, face, &next) != GWB_FOUND)
        is_well = is_well && see_face(b, g, face, true);
    return is_well;
}

/* What is in use of what a value names. */
bool see_value(struct births *b, const gwb *g, char kind, uint32_t value)
{
    switch (kind) {
    case 's': return see_solid(b, g, value);
    case 'f': return see_face(b, g, value, false);
    case 'g': return see_face(b, g, value, true);
    case 'h':
        if (value >= GWB_LONE(0))
            return births_see(b, GWB_LOOP, value - GWB_LONE(0), true);
        return see_half_edge(b, g, value) && see_half_edge(b, g, value ^ 1);
    default: return true;
    }
}

/* What is made of what a value names. */
bool see_made(struct births *b, char kind, uint32_t value)
{
    static const char kinds[] = "SFLEV";
    const char *at = memchr(kinds, kind, KINDS);
    return at == NULL || births_see(b, (uint32_t)(at - kinds), value, false);
}

static gwb_range fresh(const gwb *g, uint32_t kind)
{
    gwb_range range = {1, 0};
    gwb_fresh(g, kind, &range);
    return range;
}

bool see_fresh(struct births *b, const gwb *g, bool has_spare)
{
    const gwb_range vertices = fresh(g, GWB_VERTEX);
    bool is_well = true;
    for (uint32_t kind = GWB_FACE; kind < KINDS; kind++) {
        const gwb_range range = fresh(g, kind);
        const uint32_t last = range.last + (has_spare && kind == GWB_EDGE ? vertices.last + 1 - vertices.first : 0);
        for (uint32_t number = range.first; is_well && number <= last; number++)
            is_well = births_see(b, kind, number, false);
    }
    return is_well;
}
