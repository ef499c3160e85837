/* The listing: a line a thing, each kind by rising number. */
#include "output.h"

/* for (u32 n = 0; each(FACE, &n);) */
static inline bool each(enum kind kind, u32 *n)
{
    output_room();
    *n = next_number(&in_use[kind], *n);
    return *n != 0;
}

static void put_half(u32 h)
{
    put_byte(' ');
    put_byte(h & 1 ? '-' : '+');
    put_number_text(edge_of(h));
}

static void list_face(u32 face)
{
    PUT("face");
    put_word(face);
    put_word(faces[face].solid);
    put_word(faces[face].outer);
    const u32 *rings = sorted_rings(face);
    for (u32 i = 0; i < faces[face].ring_count; i++) {
        output_room();
        put_word(rings[i]);
    }
    put_byte('\n');
}

static void list_loop(u32 loop)
{
    PUT("loop");
    put_word(loop);
    if (is_lone(loop)) {
        PUT(" at");
        put_word(lone_vertex(loop));
    } else {
        u32 least = least_item(loop), h = least;
        do {
            output_room();
            put_half(h);
            h = after(h);
        } while (h != least);
    }
    put_byte('\n');
}

static void list_edge(u32 edge)
{
    PUT("edge");
    put_word(edge);
    put_word(tail(2 * edge));
    put_word(tail(2 * edge + 1));
    put_byte('\n');
}

static void put_coordinate(i32 c)
{
    put_byte(' ');
    if (c < 0)
        put_byte('-');
    put_number_text(c < 0 ? -(i64)c : c);
}

static void list_vertex(u32 vertex)
{
    const struct point *p = &vertices[vertex].point;
    PUT("vertex");
    put_word(vertex);
    put_coordinate(p->x);
    put_coordinate(p->y);
    put_coordinate(p->z);
    put_byte('\n');
}

void list_model(void)
{
    if (greatest_number(&in_use[SOLID]) == 0)
        PUT("empty\n");
    for (u32 n = 0; each(SOLID, &n);) {
        PUT("solid");
        put_word(n);
        put_byte('\n');
    }
    for (u32 n = 0; each(FACE, &n);)
        list_face(n);
    for (u32 n = 0; each(LOOP, &n);)
        list_loop(n);
    for (u32 n = 0; each(EDGE, &n);)
        list_edge(n);
    for (u32 n = 0; each(VERTEX, &n);)
        list_vertex(n);
}
