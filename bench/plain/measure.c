/* Sums over half-edges in exact integers: a cross product fits 64 bits, sums take 128. */
#include "measure.h"
#include "output.h"

void add_cross(struct vector *n, const struct point *p, const struct point *q)
{
    n->x += (i64)p->y * q->z - (i64)p->z * q->y;
    n->y += (i64)p->z * q->x - (i64)p->x * q->z;
    n->z += (i64)p->x * q->y - (i64)p->y * q->x;
}

/* Adds the cross products of a loop and answers its least item, or LONE | vertex. Once more for small coordinates, whose sums fit 64 bits. */
static u32 walk_loop_wide(struct vector *n, u32 loop)
{
    u32 first = loops[loop].content, h = first, least = first;
    struct vector sum = *n;
    const struct point *p = point_of(h);
    do {
        h = after(h);
        const struct point *q = point_of(h);
        add_cross(&sum, p, q);
        p = q;
        least = h < least ? h : least;
    } while (h != first);
    *n = sum;
    return least;
}

static u32 walk_loop_small(struct vector *n, u32 loop)
{
    u32 first = loops[loop].content, h = first, least = first;
    i64 x = 0, y = 0, z = 0;
    const struct point *p = point_of(h);
    do {
        h = after(h);
        const struct point *q = point_of(h);
        x += (i64)p->y * q->z - (i64)p->z * q->y;
        y += (i64)p->z * q->x - (i64)p->x * q->z;
        z += (i64)p->x * q->y - (i64)p->y * q->x;
        p = q;
        least = h < least ? h : least;
    } while (h != first);
    *n = (struct vector){ n->x + x, n->y + y, n->z + z };
    return least;
}

static u32 walk_loop(struct vector *n, u32 loop)
{
    if (is_lone(loop))
        return loops[loop].content;
    return any_wide_point ? walk_loop_wide(n, loop) : walk_loop_small(n, loop);
}

/* The normal of a face, and its anchor: the point at which the outer loop's listing starts. */
static struct vector normal_and_anchor(u32 face, const struct point **anchor)
{
    struct vector n = { 0, 0, 0 };
    u32 least = walk_loop(&n, faces[face].outer);
    *anchor = &vertices[least & LONE ? least & ~LONE : tail(least)].point;
    for (u32 l = faces[face].rings; l; l = loops[l].next)
        walk_loop(&n, l);
    return n;
}

struct vector face_normal(u32 face)
{
    const struct point *anchor;
    return normal_and_anchor(face, &anchor);
}

static bool is_short(i128 n)
{
    return (i64)n == n;
}

i128 dot(const struct vector *n, const struct point *p)
{
    if (is_short(n->x) && is_short(n->y) && is_short(n->z))
        return (i128)(i64)n->x * p->x + (i128)(i64)n->y * p->y + (i128)(i64)n->z * p->z;
    return n->x * p->x + n->y * p->y + n->z * p->z;
}

/* Whether all vertices of the loop lie at `offset` along n. */
static bool is_loop_on(const struct vector *n, i128 offset, u32 loop)
{
    u32 first = loops[loop].content, h = first;
    if (first & LONE)
        return dot(n, &vertices[first & ~LONE].point) == offset;
    do {
        if (dot(n, point_of(h)) != offset)
            return false;
        h = after(h);
    } while (h != first);
    return true;
}

static bool is_flat_along(u32 face, const struct vector *n, i128 offset)
{
    if (n->x == 0 && n->y == 0 && n->z == 0)
        return false;
    for (u32 l = faces[face].outer; l; l = next_loop(face, l))
        if (!is_loop_on(n, offset, l))
            return false;
    return true;
}

bool is_flat(u32 face)
{
    const struct point *anchor;
    struct vector n = normal_and_anchor(face, &anchor);
    return is_flat_along(face, &n, dot(&n, anchor));
}

void find_unfit(u32 solid, u32 *lone, u32 *bent)
{
    for (u32 f = solids[solid].faces; f; f = faces[f].next) {
        *lone = least_lone_loop(f, *lone);
        if (!*lone && (!*bent || f < *bent) && !is_flat(f))
            *bent = f;
    }
}

struct refusal tell_plane(u32 face)
{
    if (!has_face(face))
        REFUSE(NO_FACE, face);
    const struct point *anchor;
    struct vector n = normal_and_anchor(face, &anchor);
    i128 offset = dot(&n, anchor);
    PUT("plane");
    put_integer(n.x);
    put_integer(n.y);
    put_integer(n.z);
    put_integer(-offset);
    if (is_flat_along(face, &n, offset))
        PUT(" flat\n");
    else
        PUT(" bent\n");
    ACCEPT;
}

struct refusal tell_volume(u32 solid)
{
    if (!has_solid(solid))
        REFUSE(NO_SOLID, solid);
    i128 sum = 0;
    for (u32 f = solids[solid].faces; f; f = faces[f].next) {
        const struct point *anchor;
        struct vector n = normal_and_anchor(f, &anchor);
        sum += dot(&n, anchor);
    }
    PUT("volume");
    put_integer(sum);
    put_byte('\n');
    ACCEPT;
}

static u32 look = 1;    /* a vertex that is made has the mark 1 */

void look_anew(void)
{
    look++;
}

bool is_first_look(u32 vertex)
{
    if (vertices[vertex].mark == look)
        return false;
    vertices[vertex].mark = look;
    return true;
}

/* Counts the half-edges and the vertices not yet looked at. */
static void count_loop(u32 loop, u32 *half_count, u32 *vertex_count)
{
    u32 first = loops[loop].content, h = first;
    if (first & LONE) {
        *vertex_count += is_first_look(first & ~LONE);
        return;
    }
    do {
        *vertex_count += is_first_look(tail(h));
        ++*half_count;
        h = after(h);
    } while (h != first);
}

struct refusal tell_count(u32 solid)
{
    if (!has_solid(solid))
        REFUSE(NO_SOLID, solid);
    u32 half_count = 0, vertex_count = 0, face_count = solids[solid].face_count, ring_count = 0;
    look_anew();
    for (u32 f = solids[solid].faces; f; f = faces[f].next) {
        ring_count += faces[f].ring_count;
        for (u32 l = faces[f].outer; l; l = next_loop(f, l))
            count_loop(l, &half_count, &vertex_count);
    }
    PUT("count");
    put_word(vertex_count);
    put_word(half_count / 2);
    put_word(face_count);
    put_word(ring_count);
    put_integer((i64)vertex_count - half_count / 2 + face_count - ring_count);
    put_byte('\n');
    ACCEPT;
}
