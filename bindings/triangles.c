/* Flat faces cut into triangles, by exact tests, in time n log n (K. Hertel, K. Mehlhorn: Fast triangulation of simple polygons, 1983). A line
 * sweeps over the face from left to right. A span is a stretch of that line within the face, from an edge below it, its floor, to one above it,
 * its ceiling. What lies left of the line is cut already, except chains of corners, which triangles with later corners will cut off. Edges that come to
 * lie next to each other on the line are tested, so no two that cross are missed (M. Shamos, D. Hoey: Geometric intersection problems, 1976).
 * Coordinates lie within 1,000,000,000, so that each test fits in 64 bits. */
#include "lists.h"
#include "trees.h"
#include "walks.h"
#include <stdlib.h>

enum side { FLOOR, CEILING };

/* A corner of a face in the plane that the face is seen in. Its edge is the one that starts at it. */
struct corner {
    uint32_t vertex, half_edge;
    uint32_t before, after; /* its neighbours in its loop, by their places */
    uint32_t span;          /* the span that its edge holds, as the line crosses that */
    int64_t x, y;
};

/* What the line meets at a corner. Of the corners at one vertex it meets those first that end an edge, and then those that begin two. */
enum kind { END, MERGE, ON_FLOOR, ON_CEILING, SPLIT, START };

struct event {
    int64_t x, y;
    uint32_t corner;
    enum kind kind;
};

/* Corners from the last that was met back to the first; the chain between them bends inwards. All but the first lie on one side. */
struct chain {
    uint32_t last;
    enum side side;
};

/* A corner in a chain, and the one before it. */
struct link {
    uint32_t corner, before;
};

/* A span. Behind a corner at which two became one it has both of their chains, until the next corner. The one at place 0 is none: it lies
 * below all, and above all. */
struct span {
    uint32_t edges[2];
    struct chain chains[2]; /* the first of them alone, or those at its floor and its ceiling */
    bool has_both;
    uint32_t neighbours[2]; /* the spans below it and above it */
};

enum { NO_LINK = UINT32_MAX };
enum outcome { CUT, UNCUT, NO_MEMORY };

/* A face that is cut, and the rows that are written. */
struct cutting {
    const gwb *g;
    struct list halves, corners, events, links, spans;
    struct list tree; /* the spans from below, at their places */
    uint32_t root;
    int x, y;     /* the coordinates that are its x and y as it is seen from its front */
    size_t loops; /* of the face, without those of one vertex */
    gwb_triangle_row *rows;
    size_t room, count;
    uint32_t face;
};

static struct corner *corner_at(const struct cutting *c, uint32_t place) { return (struct corner *)c->corners.items + place; }
static struct link *link_at(const struct cutting *c, uint32_t place) { return (struct link *)c->links.items + place; }
static struct span *span_at(const struct cutting *c, uint32_t place) { return (struct span *)c->spans.items + place; }

/* ---- exact tests */

/* Above 0 where a, b and c turn to the left: twice the area between them. */
static int64_t turn(const struct corner *a, const struct corner *b, const struct corner *c)
{
    return (b->x - a->x) * (c->y - a->y) - (b->y - a->y) * (c->x - a->x);
}

static bool is_same(const struct corner *a, const struct corner *b) { return a->x == b->x && a->y == b->y; }
static bool is_before(const struct corner *a, const struct corner *b) { return a->x != b->x ? a->x < b->x : a->y < b->y; }

/* An edge from left to right. Floors run that way, as the inside is on the left of each edge; ceilings run back. */
struct line {
    const struct corner *left, *right;
    bool is_floor;
};

static struct line line_of(const struct cutting *c, uint32_t edge)
{
    const struct corner *from = corner_at(c, edge), *to = corner_at(c, from->after);
    return is_before(from, to) ? (struct line){from, to, true} : (struct line){to, from, false};
}

/* Whether one edge lies below another as far as both go, and they meet at most at one end. The two sides of one edge lie so where the face is
 * on both. */
static bool is_below(const struct cutting *c, uint32_t edge, uint32_t other)
{
    struct line a = line_of(c, edge), b = line_of(c, other);
    if (corner_at(c, edge)->half_edge == (corner_at(c, other)->half_edge ^ 1))
        return b.is_floor;
    bool begin_as_one = is_same(a.left, b.left), end_as_one = is_same(a.right, b.right);
    bool begins_below = is_before(a.left, b.left) ? turn(a.left, a.right, b.left) > 0 : turn(b.left, b.right, a.left) < 0;
    bool ends_below = is_before(a.right, b.right) ? turn(b.left, b.right, a.right) < 0 : turn(a.left, a.right, b.right) > 0;
    return !(begin_as_one && end_as_one) && (begin_as_one || begins_below) && (end_as_one || ends_below);
}

/* The same of edges that go on behind a corner that the line meets: true of others. */
static bool goes_below(const struct cutting *c, uint32_t edge, uint32_t other, const struct corner *at)
{
    return is_same(line_of(c, edge).right, at) || is_same(line_of(c, other).right, at) || is_below(c, edge, other);
}

/* Whether a floor passes below an edge at which the line has come to the left end. */
static bool passes_below(const struct cutting *c, uint32_t floor, uint32_t edge)
{
    struct line a = line_of(c, floor), b = line_of(c, edge);
    int64_t at_left = turn(a.left, a.right, b.left);
    return at_left != 0 ? at_left > 0 : turn(a.left, a.right, b.right) > 0;
}

/* ---- the spans, from below */

/* Adds a span, next above another. */
static uint32_t add_span(struct cutting *c, uint32_t below)
{
    struct tree_node *tree = c->tree.items;
    uint32_t place = (uint32_t)c->spans.count++, above = span_at(c, below)->neighbours[1];
    *span_at(c, place) = (struct span){.neighbours = {below, above}};
    span_at(c, below)->neighbours[1] = span_at(c, above)->neighbours[0] = place;
    tree[place] = (struct tree_node){0, {0, 0}};
    tree_hang(tree, place, 1, below != 0 ? tree_split(tree, below) : c->root);
    tree_hang(tree, place, 0, below);
    c->root = place;
    return place;
}

static void remove_span(struct cutting *c, uint32_t place)
{
    struct tree_node *tree = c->tree.items;
    const struct span *span = span_at(c, place);
    uint32_t below = span->neighbours[0], above = span->neighbours[1], after = tree_split(tree, place), before = tree[place].children[0];
    tree[before].parent = 0;
    c->root = tree_join(tree, before, after);
    span_at(c, below)->neighbours[1] = above;
    span_at(c, above)->neighbours[0] = below;
}

/* The last span whose floor passes below an edge that begins at the line: 0 where none does. */
static uint32_t span_below(struct cutting *c, uint32_t edge)
{
    struct tree_node *tree = c->tree.items;
    uint32_t found = 0, last = c->root;
    for (uint32_t at = c->root; at != 0;) {
        bool is = passes_below(c, span_at(c, at)->edges[FLOOR], edge);
        found = is ? at : found;
        last = at;
        at = tree[at].children[is];
    }
    if (last != 0)
        tree_splay(tree, last);
    c->root = last;
    return found;
}

/* Whether a span's edges, and those next to them, lie one above another behind a corner. */
static bool is_in_order(const struct cutting *c, uint32_t place, const struct corner *at)
{
    const struct span *span = span_at(c, place);
    uint32_t below = span->neighbours[0], above = span->neighbours[1];
    return (below == 0 || goes_below(c, span_at(c, below)->edges[CEILING], span->edges[FLOOR], at)) &&
           goes_below(c, span->edges[FLOOR], span->edges[CEILING], at) &&
           (above == 0 || goes_below(c, span->edges[CEILING], span_at(c, above)->edges[FLOOR], at));
}

/* ---- chains */

static struct chain chain_of(struct cutting *c, uint32_t corner)
{
    *link_at(c, (uint32_t)c->links.count) = (struct link){corner, NO_LINK};
    return (struct chain){(uint32_t)c->links.count++, FLOOR};
}

/* Cuts a corner off with one of a chain and the one before that: false where they don't turn as the face does. */
static bool cut(struct cutting *c, const struct link *link, enum side side, uint32_t corner)
{
    uint32_t before = link_at(c, link->before)->corner, first = side == FLOOR ? before : link->corner, second = side == FLOOR ? link->corner : before;
    const struct corner *p = corner_at(c, first), *q = corner_at(c, second), *r = corner_at(c, corner);
    bool is_cut = turn(p, q, r) > 0;
    if (is_cut && c->count < c->room)
        c->rows[c->count] = (gwb_triangle_row){c->face, {p->vertex, q->vertex, r->vertex}};
    c->count += is_cut;
    return is_cut;
}

/* Adds a corner to a chain, which is cut as far as can be. A corner on the other side of it sees all of it: where one does not, the loops
 * touch, and the answer is false. */
static bool add_corner(struct cutting *c, struct chain *chain, uint32_t corner, enum side side)
{
    uint32_t at = chain->last;
    while (link_at(c, at)->before != NO_LINK && cut(c, link_at(c, at), chain->side, corner))
        at = link_at(c, at)->before;
    if (side != chain->side && link_at(c, at)->before != NO_LINK)
        return false;
    if (side != chain->side) {
        at = chain->last;
        link_at(c, at)->before = NO_LINK;
    }
    *link_at(c, (uint32_t)c->links.count) = (struct link){corner, at};
    *chain = (struct chain){(uint32_t)c->links.count++, side};
    return true;
}

/* A corner on a span's floor or ceiling. Of two chains the one at that side ends there. */
static bool reach(struct cutting *c, struct span *span, uint32_t corner, enum side side)
{
    if (!span->has_both)
        return add_corner(c, &span->chains[0], corner, side);
    bool is_well = add_corner(c, &span->chains[side], corner, side) && add_corner(c, &span->chains[!side], corner, side);
    span->chains[0] = span->chains[!side];
    span->has_both = false;
    return is_well;
}

/* ---- corners, as the line meets them: false where the loops cross or touch */

/* An edge holds a span at a side from here on. */
static void hold(struct cutting *c, uint32_t edge, uint32_t place, enum side side)
{
    span_at(c, place)->edges[side] = edge;
    corner_at(c, edge)->span = place;
}

/* A new span, next above another, between two edges. */
static uint32_t begin_span(struct cutting *c, uint32_t below, uint32_t floor, uint32_t ceiling)
{
    uint32_t place = add_span(c, below);
    hold(c, floor, place, FLOOR);
    hold(c, ceiling, place, CEILING);
    return place;
}

static bool start(struct cutting *c, uint32_t corner)
{
    uint32_t place = begin_span(c, span_below(c, corner), corner, corner_at(c, corner)->before);
    span_at(c, place)->chains[0] = chain_of(c, corner);
    return is_in_order(c, place, corner_at(c, corner));
}

/* A floor and a ceiling of one span end. */
static bool end(struct cutting *c, uint32_t corner)
{
    const struct corner *at = corner_at(c, corner);
    struct span *span = span_at(c, at->span);
    uint32_t below = span->neighbours[0], above = span->neighbours[1];
    if (corner_at(c, at->before)->span != at->span)
        return false;
    remove_span(c, at->span);
    if (below != 0 && above != 0 && !goes_below(c, span_at(c, below)->edges[CEILING], span_at(c, above)->edges[FLOOR], at))
        return false;
    if (!span->has_both)
        return add_corner(c, &span->chains[0], corner, !span->chains[0].side);
    return add_corner(c, &span->chains[FLOOR], corner, FLOOR) && add_corner(c, &span->chains[CEILING], corner, CEILING);
}

/* The edge of a span ends, and another goes on. */
static bool go_on(struct cutting *c, uint32_t corner, uint32_t ends, uint32_t begins, enum side side)
{
    uint32_t place = corner_at(c, ends)->span;
    hold(c, begins, place, side);
    return reach(c, span_at(c, place), corner, side) && is_in_order(c, place, corner_at(c, corner));
}

/* The chains of a span become those of two, both of which go on from a corner within it. It is joined to the corner that was met last. */
static bool split_chains(struct cutting *c, struct span *lower, struct span *upper, uint32_t corner)
{
    struct chain chain = lower->chains[0], beside;
    if (lower->has_both) {
        upper->chains[0] = lower->chains[CEILING];
        lower->has_both = false;
    } else {
        beside = chain_of(c, link_at(c, chain.last)->corner);
        upper->chains[0] = chain.side == FLOOR ? chain : beside;
        lower->chains[0] = chain.side == FLOOR ? beside : chain;
    }
    return add_corner(c, &lower->chains[0], corner, CEILING) && add_corner(c, &upper->chains[0], corner, FLOOR);
}

static bool split(struct cutting *c, uint32_t corner)
{
    uint32_t before = corner_at(c, corner)->before, lower = span_below(c, corner);
    if (lower == 0)
        return false;
    uint32_t upper = begin_span(c, lower, corner, span_at(c, lower)->edges[CEILING]);
    hold(c, before, lower, CEILING);
    return is_in_order(c, lower, corner_at(c, corner)) && is_in_order(c, upper, corner_at(c, corner)) &&
           split_chains(c, span_at(c, lower), span_at(c, upper), corner);
}

/* The ceiling of a span ends, and the floor of the one above it: they are one from here on. */
static bool merge(struct cutting *c, uint32_t corner)
{
    uint32_t lower = corner_at(c, corner)->span, upper = corner_at(c, corner_at(c, corner)->before)->span;
    struct span *low = span_at(c, lower), *high = span_at(c, upper);
    if (low->neighbours[1] != upper || !reach(c, low, corner, CEILING) || !reach(c, high, corner, FLOOR))
        return false;
    low->chains[CEILING] = high->chains[0];
    low->has_both = true;
    hold(c, high->edges[CEILING], lower, CEILING);
    remove_span(c, upper);
    return is_in_order(c, lower, corner_at(c, corner));
}

static bool meet(struct cutting *c, const struct event *event)
{
    uint32_t corner = event->corner, before = corner_at(c, corner)->before;
    switch (event->kind) {
    case END: return end(c, corner);
    case MERGE: return merge(c, corner);
    case ON_FLOOR: return go_on(c, corner, before, corner, FLOOR);
    case ON_CEILING: return go_on(c, corner, corner, before, CEILING);
    case SPLIT: return split(c, corner);
    case START: return start(c, corner);
    }
    return false;
}

static enum kind kind_of(const struct cutting *c, const struct corner *at)
{
    const struct corner *before = corner_at(c, at->before), *after = corner_at(c, at->after);
    bool comes_from_left = is_before(before, at), goes_left = is_before(after, at);
    if (comes_from_left != goes_left)
        return comes_from_left ? ON_FLOOR : ON_CEILING;
    bool is_sharp = turn(before, at, after) > 0;
    return goes_left ? (is_sharp ? END : MERGE) : (is_sharp ? START : SPLIT);
}

static int from_the_left(const void *one, const void *other)
{
    const struct event *a = one, *b = other;
    return a->x != b->x ? (a->x > b->x) - (a->x < b->x) : a->y != b->y ? (a->y > b->y) - (a->y < b->y) : (int)a->kind - (int)b->kind;
}

static void add_events(struct cutting *c)
{
    struct event *events = c->events.items;
    for (uint32_t i = 0; i < c->corners.count; i++)
        events[i] = (struct event){corner_at(c, i)->x, corner_at(c, i)->y, i, kind_of(c, corner_at(c, i))};
    c->events.count = c->corners.count;
    qsort(events, c->events.count, sizeof *events, from_the_left);
}

/* Whether no two vertices lie at one place. */
static bool are_apart(const struct cutting *c)
{
    const struct event *events = c->events.items;
    bool are = true;
    for (size_t i = 1; i < c->events.count && are; i++) {
        const struct corner *one = corner_at(c, events[i - 1].corner), *other = corner_at(c, events[i].corner);
        are = !is_same(one, other) || one->vertex == other->vertex;
    }
    return are;
}

/* Moves the line over the face. What the loops bound is one part where there are so many triangles. */
static enum outcome sweep(struct cutting *c)
{
    const struct event *events = c->events.items;
    size_t before = c->count, wanted = c->events.count + 2 * c->loops - 4;
    bool is_well = are_apart(c);
    for (size_t i = 0; i < c->events.count && is_well; i++)
        is_well = meet(c, &events[i]);
    if (is_well && c->count - before == wanted)
        return CUT;
    c->count = before;
    return UNCUT;
}

/* ---- faces */

/* The upper half of a number without its sign, and its lower half. */
static gwb_wide size_of(gwb_wide number)
{
    if (number.high >= 0)
        return number;
    return (gwb_wide){(int64_t)(~(uint64_t)number.high + (number.low == 0)), ~number.low + 1};
}

static bool is_less(gwb_wide a, gwb_wide b) { return a.high != b.high ? a.high < b.high : a.low < b.low; }

/* Whether the face is there and flat; then how it is seen from its front is known. */
static bool find_front(struct cutting *c)
{
    gwb_plane plane;
    gwb_refusal refusal;
    if (gwb_read_plane(c->g, c->face, &plane, &refusal) != GWB_PLANE || plane.flat == 0)
        return false;
    const gwb_wide across[] = {plane.a, plane.b, plane.c};
    int most = 0;
    for (int axis = 1; axis < 3; axis++)
        most = is_less(size_of(across[most]), size_of(across[axis])) ? axis : most;
    c->x = (most + (across[most].high >= 0 ? 1 : 2)) % 3;
    c->y = (most + (across[most].high >= 0 ? 2 : 1)) % 3;
    return true;
}

/* Reads the half-edges of the face, loop by loop. Loops of one vertex have none. */
static bool read_half_edges(struct cutting *c)
{
    bool has_room = list_reserve(&c->halves, 1);
    c->halves.count = has_room ? gwb_half_edge_rows(c->g, c->face, c->halves.items, c->halves.room) : 0;
    if (c->halves.count <= c->halves.room)
        return has_room;
    size_t count = c->halves.count;
    c->halves.count = 0;
    has_room = list_reserve(&c->halves, count);
    c->halves.count = has_room ? gwb_half_edge_rows(c->g, c->face, c->halves.items, c->halves.room) : 0;
    return has_room;
}

/* Makes room for all that the half-edges of a face ask for: each corner is added to chains four times at most, and at most every second one
 * begins a span, besides the one that is none. */
static bool make_room(struct cutting *c)
{
    size_t count = c->halves.count;
    c->corners.count = c->events.count = c->links.count = c->loops = 0;
    bool has_room = list_reserve(&c->corners, count) && list_reserve(&c->events, count) && list_reserve(&c->links, 4 * count) &&
                    list_reserve(&c->spans, count / 2 + 1) && list_reserve(&c->tree, count / 2 + 1);
    if (has_room) {
        *span_at(c, 0) = (struct span){.has_both = false};
        *(struct tree_node *)c->tree.items = (struct tree_node){0, {0, 0}};
    }
    c->spans.count = 1;
    c->root = 0;
    return has_room;
}

/* Lays the corners of the face out as they are seen from its front. */
static void lay_out(struct cutting *c)
{
    const gwb_half_edge_row *halves = c->halves.items;
    uint32_t first = 0;
    for (uint32_t i = 0; i < c->halves.count; i++) {
        bool is_first = i == 0 || halves[i].loop != halves[i - 1].loop, is_last = i + 1 == c->halves.count || halves[i].loop != halves[i + 1].loop;
        gwb_point point = {0, 0, 0};
        gwb_vertex(c->g, halves[i].start, &point);
        const int64_t at[] = {point.x, point.y, point.z};
        first = is_first ? i : first;
        *corner_at(c, i) = (struct corner){.vertex = halves[i].start, .half_edge = halves[i].half_edge, .before = is_first ? i : i - 1,
                                           .after = is_last ? first : i + 1, .x = at[c->x], .y = at[c->y]};
        corner_at(c, first)->before = i;
        c->loops += is_first;
    }
    c->corners.count = c->halves.count;
}

static enum outcome cut_face(struct cutting *c)
{
    if (!find_front(c))
        return UNCUT;
    if (!read_half_edges(c) || !make_room(c))
        return NO_MEMORY;
    if (c->halves.count < 3)
        return UNCUT;
    lay_out(c);
    add_events(c);
    return sweep(c);
}

static struct cutting begin(const gwb *g, gwb_triangle_row *rows, size_t room)
{
    return (struct cutting){.g = g, .halves = {.size = sizeof(gwb_half_edge_row)}, .corners = {.size = sizeof(struct corner)},
                            .events = {.size = sizeof(struct event)}, .links = {.size = sizeof(struct link)},
                            .spans = {.size = sizeof(struct span)}, .tree = {.size = sizeof(struct tree_node)}, .rows = rows, .room = room};
}

static void finish(struct cutting *c)
{
    struct list *lists[] = {&c->halves, &c->corners, &c->events, &c->links, &c->spans, &c->tree};
    for (size_t i = 0; i < sizeof lists / sizeof *lists; i++)
        list_free(lists[i]);
}

size_t gwb_read_triangles(const gwb *g, uint32_t solid, gwb_triangle_row *rows, size_t room)
{
    struct cutting c = begin(g, rows, room);
    bool goes = gwb_is_open(g);
    while (goes && next_face(g, solid, c.face, &c.face) == GWB_FOUND)
        goes = cut_face(&c) != NO_MEMORY;
    finish(&c);
    return goes ? c.count : SIZE_MAX;
}

size_t gwb_face_triangles(const gwb *g, uint32_t face, gwb_triangle_row *rows, size_t room)
{
    struct cutting c = begin(g, rows, room);
    c.face = face;
    bool goes = gwb_is_open(g) && cut_face(&c) != NO_MEMORY;
    finish(&c);
    return goes ? c.count : SIZE_MAX;
}
