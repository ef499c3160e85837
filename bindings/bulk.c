/* The model at once, by the readers. */
#include "walks.h"

enum { AHEAD = 64 };

/* What is written, and where: how many rows there are, as many of them written as there is room for. Readers give the copy of the handle back. */
struct writing {
    gwb copy;
    gwb_half_edge_row *rows;
    size_t room, count;
    uint32_t read; /* the greatest edge that was read ahead */
};

/* Edges mostly rise with their faces. Read one after another they come from memory in a stream; a walk round a loop would wait for each. */
static void read_ahead(struct writing *w, uint32_t edge)
{
    gwb_edge_row ends;
    if (w->read >= edge + AHEAD / 2)
        return;
    w->read = w->read < edge ? edge : w->read;
    while (w->read < edge + AHEAD && gwb_lent_edge(&w->copy, w->read + 1, &ends) == GWB_FOUND)
        w->read++;
}

/* Whether the face has half-edges: they are written. */
static bool write_face(struct writing *w, uint32_t face)
{
    size_t written = w->count < w->room ? w->count : w->room;
    size_t more = gwb_lent_half_edge_rows(&w->copy, face, w->rows + written, w->room - written);
    w->count += more;
    if (more > 0 && written < w->room)
        read_ahead(w, w->rows[written].half_edge / 2);
    return more > 0;
}

/* Faces mostly rise one by one, so the next number is tried before the next face is looked for. */
static void write_all(struct writing *w)
{
    uint32_t face = 0;
    for (;;) {
        if (write_face(w, face + 1))
            face++;
        else if (gwb_lent_number_after(&w->copy, GWB_FACE, face, &face) == GWB_FOUND)
            write_face(w, face);
        else
            return;
    }
}

size_t gwb_read_half_edges(const gwb *g, uint32_t solid, gwb_half_edge_row *rows, size_t room)
{
    struct writing w = {*g, rows, room, 0, 0};
    if (!gwb_is_open(g))
        return SIZE_MAX;
    if (solid == 0)
        write_all(&w);
    else
        for (uint32_t face = 0; gwb_face_after(g, solid, face, &face) == GWB_FOUND;)
            write_face(&w, face);
    return w.count;
}

size_t gwb_read_vertices(const gwb *g, gwb_vertex_row *rows, size_t room)
{
    size_t count = 0;
    if (!gwb_is_open(g))
        return SIZE_MAX;
    for (uint32_t vertex = 0; gwb_number_after(g, GWB_VERTEX, vertex, &vertex) == GWB_FOUND; count++)
        if (count < room && gwb_vertex(g, vertex, &rows[count].point) == GWB_FOUND)
            rows[count].vertex = vertex;
    return count;
}

size_t gwb_greatest_number(const gwb *g, uint32_t entity)
{
    uint32_t least = 0, most = GREATEST_NUMBER, found; /* it is none of those below or above */
    if (!gwb_is_open(g))
        return SIZE_MAX;
    while (least < most) {
        uint32_t middle = least + (most - least) / 2;
        if (gwb_number_after(g, entity, middle, &found) == GWB_FOUND)
            least = found;
        else
            most = middle;
    }
    return least;
}
