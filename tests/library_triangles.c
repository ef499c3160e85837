/* Faces cut into triangles, beside a judge of its own: which faces can be cut, by every pair of edges and the windings round them; that the
 * triangles of one run as it does, are as long as it together, and meet along whole edges, so that they cover it once. Random loops, most of
 * which cross or touch; stars with rings, spurs and bridges; corridors, combs, spirals and plates with holes; points at the limits of
 * coordinates, in several planes; memory refused at each request. The last line is 'N passed, M failed'. */
#include "checks.h"
#include "heaps.h"
#include <stdio.h>
#include <stdlib.h>
#include <string.h>

enum { MOST = 40000 };
typedef __int128 wide;

static long rounds = 4000, cut_faces, uncut_faces;
static uint64_t state = 88172645463325252u;

static uint64_t random_below(uint64_t most)
{
    state ^= state << 13, state ^= state >> 7, state ^= state << 17;
    return state % most;
}

/* ---- faces */

struct point {
    int64_t x, y;
};

/* The loops of a face: where each of them ends among the points. */
struct outline {
    struct point points[MOST];
    size_t count, ends[MOST / 3], loops;
};

static struct outline drawn;
static char listing[64 * 6 * MOST];

/* Ways to lay the plane into space. */
static const int planes[][3][2] = {
    {{1, 0}, {0, 1}, {0, 0}}, {{0, 1}, {1, 0}, {0, 0}}, {{0, 0}, {1, 0}, {0, 1}},
    {{0, 1}, {0, 0}, {1, 0}}, {{1, 0}, {0, 1}, {1, 0}}, {{0, -1}, {-1, 0}, {0, 1}},
};

static void add_point(int64_t x, int64_t y) { drawn.points[drawn.count++] = (struct point){x, y}; }
static void end_loop(void) { drawn.ends[drawn.loops++] = drawn.count; }
static void draw_anew(void) { drawn.count = drawn.loops = 0; }

static size_t loop_first(size_t loop) { return loop == 0 ? 0 : drawn.ends[loop - 1]; }

/* Writes the loops with the edges of each point to the next, or the way back. */
static char *write_loops(char *at, bool is_back)
{
    for (size_t loop = 0; loop < drawn.loops; loop++) {
        size_t first = loop_first(loop), end = drawn.ends[loop];
        at += sprintf(at, "loop %zu", loop + 1 + is_back * drawn.loops);
        for (size_t i = first; i < end; i++)
            at += sprintf(at, is_back ? " -%zu" : " +%zu", (is_back && i > first ? end + first - i : i) + 1);
        at += sprintf(at, "\n");
    }
    return at;
}

static char *write_edges(char *at)
{
    for (size_t loop = 0; loop < drawn.loops; loop++)
        for (size_t i = loop_first(loop); i < drawn.ends[loop]; i++)
            at += sprintf(at, "edge %zu %zu %zu\n", i + 1, i + 1, i + 1 < drawn.ends[loop] ? i + 2 : loop_first(loop) + 1);
    return at;
}

/* A solid whose face 1 has all loops; behind each of them is a face. */
static bool make(gwb *g, const int plane[3][2])
{
    char *at = listing + sprintf(listing, "solid 1\nface 1 1");
    gwb_refusal refusal;
    for (size_t loop = 0; loop < drawn.loops; loop++)
        at += sprintf(at, " %zu", loop + 1);
    for (size_t loop = 0; loop < drawn.loops; loop++)
        at += sprintf(at, "\nface %zu 1 %zu", loop + 2, loop + 1 + drawn.loops);
    at += sprintf(at, "\n");
    at = write_edges(write_loops(write_loops(at, false), true));
    for (size_t i = 0; i < drawn.count; i++) {
        const struct point p = drawn.points[i];
        at += sprintf(at, "vertex %zu", i + 1);
        for (int axis = 0; axis < 3; axis++)
            at += sprintf(at, " %lld", (long long)(plane[axis][0] * p.x + plane[axis][1] * p.y));
        at += sprintf(at, "\n");
    }
    return gwb_open(g) && gwb_load(g, listing, (size_t)(at - listing), &refusal) == GWB_OK;
}

/* ---- the judge */

struct end {
    uint32_t vertex;
    wide x, y;
};

/* A half-edge, in the plane that its face is seen in. Its x is slanted so that none is upright. */
struct side {
    uint32_t half_edge, loop, next;
    struct end from, to;
};

static gwb_half_edge_row rows[2 * MOST];
static struct side sides[2 * MOST];
static gwb_triangle_row triangles[2 * MOST];
static size_t side_count;

static wide turn(struct end a, struct end b, struct end c) { return (b.x - a.x) * (c.y - a.y) - (b.y - a.y) * (c.x - a.x); }
static int sign(wide number) { return (number > 0) - (number < 0); }
static bool is_same(struct end a, struct end b) { return a.x == b.x && a.y == b.y; }
static bool is_twin(const struct side *a, const struct side *b) { return a->half_edge == (b->half_edge ^ 1); }
static bool is_on(struct end p, struct end q, struct end at) { return turn(p, q, at) == 0 && (p.x <= at.x) != (q.x < at.x); }

/* How a face is seen from its front: by an axis, and whether it looks along it. */
static bool find_axis(const gwb *g, uint32_t face, int *axis, bool *is_front)
{
    gwb_plane plane;
    gwb_refusal refusal;
    if (gwb_read_plane(g, face, &plane, &refusal) != GWB_PLANE || !plane.flat)
        return false;
    const gwb_wide across[] = {plane.a, plane.b, plane.c};
    for (*axis = 0; *axis < 3 && across[*axis].high == 0 && across[*axis].low == 0;)
        ++*axis;
    *is_front = *axis < 3 && across[*axis].high >= 0;
    return *axis < 3;
}

static struct end end_of(const gwb *g, uint32_t vertex, int axis, bool is_front)
{
    gwb_point p = {0, 0, 0};
    check(gwb_vertex(g, vertex, &p) == GWB_FOUND, "a vertex of a face");
    const int64_t at[] = {p.x, p.y, p.z};
    wide one = at[(axis + 1) % 3], other = at[(axis + 2) % 3], x = is_front ? one : other, y = is_front ? other : one;
    return (struct end){vertex, x * ((wide)1 << 33) + y, y};
}

static int by_half_edge(const void *one, const void *other)
{
    const struct side *a = one, *b = other;
    return (a->half_edge > b->half_edge) - (a->half_edge < b->half_edge);
}

static const struct side *side_of(uint32_t half_edge)
{
    struct side wanted = {.half_edge = half_edge};
    return bsearch(&wanted, sides, side_count, sizeof *sides, by_half_edge);
}

/* Reads a face: false where it has no front. */
static bool read_sides(const gwb *g, uint32_t face)
{
    int axis;
    bool is_front;
    if (!find_axis(g, face, &axis, &is_front))
        return false;
    side_count = gwb_half_edge_rows(g, face, rows, 2 * MOST);
    for (size_t i = 0; i < side_count; i++)
        sides[i] = (struct side){rows[i].half_edge, rows[i].loop, rows[i].next, end_of(g, rows[i].start, axis, is_front), {0, 0, 0}};
    qsort(sides, side_count, sizeof *sides, by_half_edge);
    for (size_t i = 0; i < side_count; i++)
        sides[i].to = side_of(sides[i].next)->from;
    return true;
}

/* Whether two sides have a point in common that is no common end. */
static bool do_meet(const struct side *a, const struct side *b)
{
    if (is_twin(a, b))
        return false;
    const struct end ends[] = {a->from, a->to}, others[] = {b->from, b->to};
    for (int i = 0; i < 4; i++)
        if (is_same(ends[i / 2], others[i % 2]))
            return ends[i / 2].vertex != others[i % 2].vertex || is_on(a->from, a->to, others[1 - i % 2]) || is_on(b->from, b->to, ends[1 - i / 2]);
    bool is_across = sign(turn(a->from, a->to, b->from)) * sign(turn(a->from, a->to, b->to)) < 0 &&
                     sign(turn(b->from, b->to, a->from)) * sign(turn(b->from, b->to, a->to)) < 0;
    bool is_on_one = is_on(a->from, a->to, b->from) || is_on(a->from, a->to, b->to);
    return is_across || is_on_one || is_on(b->from, b->to, a->from) || is_on(b->from, b->to, a->to);
}

/* Whether a side begins or ends at the corner after another, and within the angle that it opens on its left. */
static bool is_within(const struct side *before, const struct side *side)
{
    const struct side *after = side_of(before->next);
    bool begins = side->from.vertex == after->from.vertex, ends = side->to.vertex == after->from.vertex;
    if (!begins && !ends)
        return false;
    struct end point = begins ? side->to : side->from;
    bool left_of_one = turn(before->from, before->to, point) > 0, left_of_other = turn(after->from, after->to, point) > 0;
    bool is_sharp = turn(before->from, before->to, after->to) > 0;
    bool is_edge = side == before || side == after || is_twin(side, before) || is_twin(side, after);
    return !is_edge && (is_sharp ? left_of_one && left_of_other : left_of_one || left_of_other || is_twin(before, after));
}

/* How often the loops run round what lies on the left of a side, at its middle: by the sides above it. */
static int winding(const struct side *side)
{
    struct end middle = {0, side->from.x + side->to.x, side->from.y + side->to.y};
    bool goes_right = side->from.x < side->to.x;
    int count = !goes_right;
    for (size_t i = 0; i < side_count; i++) {
        struct end a = {0, 2 * sides[i].from.x, 2 * sides[i].from.y}, b = {0, 2 * sides[i].to.x, 2 * sides[i].to.y};
        bool is_other = &sides[i] != side && !is_twin(&sides[i], side), goes_so = a.x < b.x;
        if (is_other && (a.x > middle.x) != (b.x > middle.x) && (turn(a, b, middle) < 0) == goes_so)
            count += goes_so ? -1 : 1;
        count -= !goes_right && is_twin(&sides[i], side);
    }
    return count;
}

/* Whether a side meets no other one, lies in the angle of none, and has the inside on its left. */
static bool bounds(const struct side *side)
{
    for (const struct side *other = sides; other < sides + side_count; other++)
        if ((other != side && do_meet(side, other)) || is_within(other, side))
            return false;
    return winding(side) == 1;
}

/* Twice the area that a loop runs round. */
static wide area_of(uint32_t loop)
{
    wide area = 0;
    for (size_t i = 0; i < side_count; i++)
        if (loop == 0 || sides[i].loop == loop)
            area += turn(sides[0].from, sides[i].from, sides[i].to);
    return area;
}

static bool is_first_of_loop(size_t side)
{
    for (size_t i = 0; i < side; i++)
        if (sides[i].loop == sides[side].loop)
            return false;
    return true;
}

/* Whether the loops bound one part of the plane: one of them runs round it, and all others round a hole in it. */
static bool is_bounded(size_t *loops)
{
    size_t outlines = 0;
    *loops = 0;
    for (size_t i = 0; i < side_count; i++) {
        bool is_first = is_first_of_loop(i);
        *loops += is_first;
        outlines += is_first && area_of(sides[i].loop) > 0;
        if (!bounds(&sides[i]))
            return false;
    }
    return outlines == 1;
}

/* ---- triangles */

/* A side of a triangle, or of the face the other way: every one of them has its way back among the others. */
struct way {
    uint32_t from, to;
};

static struct way ways[10 * MOST];

static int by_ends(const void *one, const void *other)
{
    const struct way *a = one, *b = other;
    return a->from != b->from ? (a->from > b->from) - (a->from < b->from) : (a->to > b->to) - (a->to < b->to);
}

static bool are_paired(size_t count)
{
    qsort(ways, count, sizeof *ways, by_ends);
    for (size_t i = 0; i < count; i++) {
        struct way back = {ways[i].to, ways[i].from};
        if ((i != 0 && by_ends(&ways[i - 1], &ways[i]) == 0) || bsearch(&back, ways, count, sizeof *ways, by_ends) == NULL)
            return false;
    }
    return true;
}

static int by_vertex(const void *one, const void *other)
{
    const struct end *a = one, *b = other;
    return (a->vertex > b->vertex) - (a->vertex < b->vertex);
}

/* Twice the area of a triangle whose corners are vertices of the face, else 0. */
static wide area_of_triangle(const gwb_triangle_row *row, const struct end *ends)
{
    const struct end *corners[3];
    for (int i = 0; i < 3; i++) {
        corners[i] = bsearch(&(struct end){row->corners[i], 0, 0}, ends, side_count, sizeof *ends, by_vertex);
        if (corners[i] == NULL)
            return 0;
    }
    return turn(*corners[0], *corners[1], *corners[2]);
}

/* Whether triangles cover the face once: each runs as it does, they are as long as it, and each of their sides is one of another's, or of the
 * face's. The two sides of one edge within the face are ways to both sides in the triangles alone. */
static bool do_cover(size_t count)
{
    static struct end ends[2 * MOST];
    size_t way = 0;
    wide area = 0;
    for (size_t i = 0; i < side_count; i++) {
        ends[i] = sides[i].from;
        if (side_of(sides[i].half_edge ^ 1) == NULL)
            ways[way++] = (struct way){sides[i].to.vertex, sides[i].from.vertex};
    }
    qsort(ends, side_count, sizeof *ends, by_vertex);
    for (size_t i = 0; i < count; i++) {
        wide of_one = area_of_triangle(&triangles[i], ends);
        if (of_one <= 0)
            return false;
        area += of_one;
        for (int j = 0; j < 3; j++)
            ways[way++] = (struct way){triangles[i].corners[j], triangles[i].corners[(j + 1) % 3]};
    }
    return area == area_of(0) && are_paired(way);
}

/* A face's triangles, of which the room takes some: nothing is written behind it. */
static size_t read_triangles(const gwb *g, size_t room)
{
    static const gwb_triangle_row none = {77, {77, 77, 77}};
    triangles[room] = none;
    size_t count = gwb_face_triangles(g, 1, triangles, room);
    check(memcmp(&triangles[room], &none, sizeof none) == 0, "what lies behind the room");
    return count;
}

/* Cuts face 1. */
static bool is_cut_well(const gwb *g)
{
    size_t loops, room = random_below(9), few = read_triangles(g, room), count = read_triangles(g, 2 * MOST - 1);
    bool is_there = read_sides(g, 1) && is_bounded(&loops);
    if (few != count)
        return false;
    is_there ? cut_faces++ : uncut_faces++;
    return is_there ? count == side_count + 2 * loops - 4 && do_cover(count) : count == 0;
}

static void try_face(const gwb *g, const char *what)
{
    bool is_well = is_cut_well(g);
    char text[1 << 14];
    if (!is_well && failed < 5) {
        size_t length = gwb_read_listing(g, text, sizeof text);
        printf("%.*s", (int)(length < sizeof text ? length : 0), text);
    }
    check(is_well, what);
}

/* ---- families of faces */

/* Loops of few points in a small square. */
static void draw_few(void)
{
    draw_anew();
    int64_t width = 2 + (int64_t)random_below(8);
    for (size_t loop = 0, loops = 1 + random_below(3); loop < loops; loop++) {
        for (size_t i = 0, count = 3 + random_below(5); i < count; i++)
            add_point((int64_t)random_below((uint64_t)width), (int64_t)random_below((uint64_t)width));
        end_loop();
    }
}

/* A point on the rim of a square, somewhat drawn in; `at` goes round it from 0 to 4 times its width. */
static struct point on_rim(int64_t width, int64_t at, int64_t drawn_in)
{
    int64_t along = at % width * 2 - width, half = width;
    const struct point corners[] = {{half, along}, {-along, half}, {-half, -along}, {along, -half}};
    struct point p = corners[at / width];
    return (struct point){p.x * drawn_in / 1024, p.y * drawn_in / 1024};
}

static int by_size(const void *one, const void *other)
{
    int64_t a = *(const int64_t *)one, b = *(const int64_t *)other;
    return (a > b) - (a < b);
}

/* A star round a point; back where it bounds a hole. Every fourth edge has a point on it. */
static void draw_star(struct point middle, int64_t width, size_t count, bool is_back)
{
    int64_t at[64];
    for (size_t i = 0; i < count; i++)
        at[i] = (int64_t)random_below((uint64_t)(4 * width));
    qsort(at, count, sizeof *at, by_size);
    struct point last = {0, 0};
    for (size_t i = 0; i < count; i++) {
        struct point p = on_rim(width, at[is_back ? count - 1 - i : i], 512 + (int64_t)random_below(512));
        p.x &= ~INT64_C(1), p.y &= ~INT64_C(1);
        if (i != 0 && random_below(4) == 0)
            add_point(middle.x + (p.x + last.x) / 2, middle.y + (p.y + last.y) / 2);
        add_point(middle.x + p.x, middle.y + p.y);
        last = p;
    }
    end_loop();
}

/* A star with holes that are stars. */
static void draw_stars(int64_t width)
{
    draw_anew();
    draw_star((struct point){0, 0}, width, 12 + random_below(50), false);
    for (int64_t x = -1; x <= 1; x++)
        for (int64_t y = -1; y <= 1; y++)
            if (random_below(3) != 0)
                draw_star((struct point){x * (width / 6), y * (width / 6)}, width / 16, 3 + random_below(9), true);
}

/* One with a corner elsewhere. */
static void draw_spike(int64_t width)
{
    draw_stars(width);
    drawn.points[random_below(drawn.count)] = on_rim(width, (int64_t)random_below((uint64_t)(4 * width)), (int64_t)random_below(1024));
}

/* Three prongs: the lowest reaches past the middle one into the highest. */
static void draw_fork(void)
{
    static const struct point points[] = {{0, 0}, {40, 10}, {2, 3}, {6, 6}, {1, 7}, {50, 9}, {0, 20}};
    draw_anew();
    for (size_t i = 0; i < sizeof points / sizeof *points; i++)
        add_point(points[i].x, points[i].y);
    end_loop();
}

/* A corridor that goes up and down. */
static void draw_corridor(int64_t turns)
{
    draw_anew();
    for (int64_t i = 0; i < turns; i++)
        add_point(10 * i, i % 2 * 1000);
    for (int64_t i = turns - 1; i >= 0; i--)
        add_point(10 * i, i % 2 * 1000 + 12);
    end_loop();
}

static void draw_comb(int64_t teeth)
{
    draw_anew();
    add_point(0, -5);
    add_point(4 * teeth, -5);
    for (int64_t i = teeth - 1; i >= 0; i--) {
        add_point(4 * i + 4, 0);
        add_point(4 * i + 3, 1000 + (int64_t)random_below(100));
        add_point(4 * i + 2, 1000 + (int64_t)random_below(100));
        add_point(4 * i + 1, 0);
    }
    end_loop();
}

/* A square spiral: the way in, and the way back beside it. */
static void draw_spiral(int64_t turns)
{
    static const int ways[][2] = {{1, 0}, {0, 1}, {-1, 0}, {0, -1}};
    struct point p = {0, 0}, middle[MOST / 4];
    draw_anew();
    for (int64_t i = 0; i < 4 * turns; i++) {
        middle[i] = p;
        p.x += ways[i % 4][0] * 10 * (i / 2 + 1), p.y += ways[i % 4][1] * 10 * (i / 2 + 1);
    }
    static const int outer[][2] = {{-1, -1}, {1, -1}, {1, 1}, {-1, 1}};
    for (int64_t i = 0; i < 4 * turns; i++)
        add_point(middle[i].x + outer[i % 4][0], middle[i].y + outer[i % 4][1]);
    for (int64_t i = 4 * turns; i-- > 0;)
        add_point(middle[i].x - outer[i % 4][0], middle[i].y - outer[i % 4][1]);
    end_loop();
}

static void draw_square(int64_t x, int64_t y, int64_t width, bool is_back)
{
    add_point(x, y);
    add_point(is_back ? x : x + width, is_back ? y + width : y);
    add_point(x + width, y + width);
    add_point(is_back ? x + width : x, is_back ? y : y + width);
    end_loop();
}

/* A plate with rows of square holes. */
static void draw_plate(int64_t holes)
{
    draw_anew();
    draw_square(0, 0, 10 * holes, false);
    for (int64_t i = 0; i < holes * holes; i++)
        draw_square(10 * (i % holes) + 2, 10 * (i / holes) + 2, 5, true);
}

/* ---- tries */

static void try_drawn(const int plane[3][2], const char *what)
{
    gwb g = {0};
    bool is_made = make(&g, plane);
    check(is_made, "a face is made");
    if (is_made)
        try_face(&g, what);
    gwb_close(&g);
}

static uint32_t fresh(const gwb *g, enum gwb_entity entity) { return (uint32_t)gwb_greatest_number(g, entity) + 1; }

/* An edge into the face, or beside another, or from one loop to another, which is sometimes drawn together to one vertex: whether it was
 * accepted. */
static bool add_edge(gwb *g, int64_t width)
{
    size_t count = gwb_half_edge_rows(g, 1, rows, 2 * MOST);
    gwb_half_edge_row one = rows[random_below(count)], other = rows[random_below(count)];
    uint32_t edge = fresh(g, GWB_EDGE);
    gwb_point at;
    check(gwb_vertex(g, other.start, &at) == GWB_FOUND, "a corner of a face");
    at.x += (int64_t)random_below((uint64_t)width) - width / 2, at.y += (int64_t)random_below((uint64_t)width) - width / 2;
    if (one.loop != other.loop) {
        bool is_joined = gwb_mekr(g, one.half_edge, other.half_edge, edge) == GWB_OK;
        return is_joined && (random_below(3) != 0 || gwb_kev(g, gwb_plus(edge)) == GWB_OK);
    }
    if (random_below(4) == 0)
        return gwb_mef(g, one.next, one.half_edge, edge, fresh(g, GWB_FACE), fresh(g, GWB_LOOP)) == GWB_OK;
    return gwb_mev(g, one.half_edge, one.half_edge, edge, fresh(g, GWB_VERTEX), at.x, at.y, 0) == GWB_OK;
}

/* A star whose loops take some edges more, which may or may not lie within it. */
static void try_edges(int64_t width)
{
    gwb g = {0};
    draw_stars(width);
    check(make(&g, planes[0]), "a star is made");
    for (int i = 0; i < 6; i++) {
        size_t depth = gwb_depth(&g);
        bool is_added = add_edge(&g, width / 3);
        try_face(&g, "a star with edges within it");
        while (is_added && gwb_depth(&g) > depth && gwb_face_triangles(&g, 1, triangles, 0) == 0)
            is_added = gwb_undo(&g) == GWB_OK;
    }
    gwb_close(&g);
}

/* Faces that come to vertex 1 twice: a plate with a hole there, by one loop and by two, and two triangles, beside each other and one above the
 * other. Only the first has its inside in one part, and between sides that follow each other. */
static const char *const pinched[] = {
    "solid 1\nface 1 1 1\nface 2 1 2\nface 3 1 3\nloop 1 +1 +2 +3 +4 +5 +6 +7\nloop 2 -1 -4 -3 -2\nloop 3 -5 -7 -6\n"
    "edge 1 1 2\nedge 2 2 3\nedge 3 3 4\nedge 4 4 1\nedge 5 1 5\nedge 6 5 6\nedge 7 6 1\n"
    "vertex 1 0 0 0\nvertex 2 9 0 0\nvertex 3 9 9 0\nvertex 4 0 9 0\nvertex 5 3 5 0\nvertex 6 5 3 0\n",
    "solid 1\nface 1 1 1 2\nface 2 1 3\nloop 1 +1 +2 +3 +4\nloop 2 +5 +6 +7\nloop 3 -1 -7 -6 -5 -4 -3 -2\n"
    "edge 1 1 2\nedge 2 2 3\nedge 3 3 4\nedge 4 4 1\nedge 5 1 5\nedge 6 5 6\nedge 7 6 1\n"
    "vertex 1 0 0 0\nvertex 2 9 0 0\nvertex 3 9 9 0\nvertex 4 0 9 0\nvertex 5 3 5 0\nvertex 6 5 3 0\n",
    "solid 1\nface 1 1 1\nface 2 1 2\nface 3 1 3\nloop 1 +1 +2 +3 +4 +5 +6\nloop 2 -1 -3 -2\nloop 3 -4 -6 -5\n"
    "edge 1 1 2\nedge 2 2 3\nedge 3 3 1\nedge 4 1 4\nedge 5 4 5\nedge 6 5 1\n"
    "vertex 1 0 0 0\nvertex 2 9 -1 0\nvertex 3 9 1 0\nvertex 4 -9 1 0\nvertex 5 -9 -1 0\n",
    "solid 1\nface 1 1 1\nface 2 1 2\nface 3 1 3\nloop 1 +1 +2 +3 +4 +5 +6\nloop 2 -1 -3 -2\nloop 3 -4 -6 -5\n"
    "edge 1 1 2\nedge 2 2 3\nedge 3 3 1\nedge 4 1 4\nedge 5 4 5\nedge 6 5 1\n"
    "vertex 1 0 0 0\nvertex 2 1 9 0\nvertex 3 -1 9 0\nvertex 4 -1 -9 0\nvertex 5 1 -9 0\n",
};

static void try_pinched(void)
{
    for (size_t i = 0; i < sizeof pinched / sizeof *pinched; i++) {
        gwb g = {0};
        gwb_refusal refusal;
        bool is_made = gwb_open(&g) && gwb_load(&g, pinched[i], strlen(pinched[i]), &refusal) == GWB_OK;
        check(is_made, "a face that comes to a vertex twice is made");
        try_face(&g, "a face that comes to a vertex twice");
        check((gwb_face_triangles(&g, 1, triangles, 0) != 0) == (i == 0), "the first of them alone is cut");
        gwb_close(&g);
    }
}

/* Cuts a face where memory is refused from each request on in turn. */
static void try_refused(void)
{
    gwb g = {0};
    draw_stars(1 << 20);
    check(make(&g, planes[0]), "a star is made");
    size_t wanted = gwb_face_triangles(&g, 1, triangles, 0), found = SIZE_MAX;
    for (long most = 0; found == SIZE_MAX; most++) {
        struct requests few = {.first_refused = most + 1, .refused = LONG_MAX};
        gwb_heap heap = heap_of(&few);
        gwb_use_heap(&heap);
        found = most % 2 == 0 ? gwb_face_triangles(&g, 1, triangles, 2 * MOST) : gwb_read_triangles(&g, 1, triangles, 0);
        gwb_use_heap(NULL);
        check(few.live == 0, "memory given back");
        check(most < 100, "memory is refused so often");
    }
    check(found >= wanted && wanted > 0, "triangles where there is memory");
    gwb_close(&g);
}

static void try_large(void)
{
    draw_fork(), try_drawn(planes[0], "a fork");
    draw_corridor(400), try_drawn(planes[0], "a corridor");
    draw_comb(200), try_drawn(planes[1], "a comb");
    draw_spiral(100), try_drawn(planes[2], "a spiral");
    draw_plate(12), try_drawn(planes[4], "a plate with holes");
}

int main(int count, char **words)
{
    rounds = count > 1 ? atol(words[1]) : rounds;
    for (long i = 0; i < rounds; i++)
        draw_few(), try_drawn(planes[i % 6], "loops of few points");
    for (long i = 0; i < rounds / 20; i++)
        draw_stars(i % 2 == 0 ? 1 << 12 : 1000000000 / 1024 * 1024 / 2), try_drawn(planes[i % 6], "a star with holes");
    for (long i = 0; i < rounds / 20; i++)
        draw_spike(i % 2 == 0 ? 1 << 7 : 1 << 12), try_drawn(planes[i % 6], "a star with a corner elsewhere");
    for (long i = 0; i < rounds / 20; i++)
        try_edges(i % 2 == 0 ? 1 << 8 : 1 << 20);
    try_large();
    try_pinched();
    try_refused();
    check(cut_faces > 0 && uncut_faces > 0, "faces that can be cut, and others");
    printf("%ld faces were cut, %ld can't be\n", cut_faces, uncut_faces);
    return counted();
}
