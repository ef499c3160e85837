/* Split: a solid is cut by a plane. The solid keeps what is on or below, the new one gets what is on or above.
 *
 * The conditions are tested on the model as it is; then the edges (step 1) and the faces (step 2) are cut, which may still be refused, and at
 * last the cut edges are doubled and capped (steps 3 and 4), and the faces above go to the new solid (step 5). */
#include "journal.h"
#include "larger.h"
#include "measure.h"
#include <stdlib.h>

#define PLANE_OFFSET_LIMIT 3000000000000000000

enum side { BELOW = -1, ON = 0, ABOVE = 1 };

/* A cut place of a face: the half-edge that starts there after step 1, and which way its loop goes there. */
struct place {
    struct point point;
    u32 half;
    bool up;
};

/* A straddling face and its places in the list of all places. It is cut too often where its outer loop has none, or a ring has none while
 * there are more than two. */
struct cut_face {
    u32 face;
    size_t from, count;
    bool often;
};

struct list {
    u32 *at;
    size_t room, count;
};

/* What one split works with. Lists keep their memory for the next one. */
static i64 plane[4];
static struct fresh fresh;
static struct list face_list, edge_list, below_list, cap_list;  /* faces of the solid; cut edges; below halves; caps: below and above in turn */
static struct point *edge_points;
static struct place *places;
static struct cut_face *cut_faces;
static size_t edge_point_room, place_room, place_count, cut_face_room, cut_face_count;

/* By number: the side of a vertex and of a face, the index of a cut edge in its list, the below half that leaves a vertex, and the number of
 * cut edges there (3 stands for more than two). */
static signed char vertex_side[NUMBER_LIMIT + 1], face_side[NUMBER_LIMIT + 1];
static u32 edge_index[NUMBER_LIMIT + 1], leaving[NUMBER_LIMIT + 1];
static unsigned char degree[NUMBER_LIMIT + 1];

static void push(struct list *list, u32 n)
{
    make_room(&list->at, &list->room, list->count + 1, sizeof *list->at);
    list->at[list->count++] = n;
}

/* ---- what is cut */

static i64 height(const struct point *p)
{
    return plane[0] * p->x + plane[1] * p->y + plane[2] * p->z + plane[3];
}

static void put_vertex_side(u32 vertex, enum side side)
{
    vertex_side[vertex] = side;
    if (side == ON) {
        leaving[vertex] = 0;
        degree[vertex] = 0;
    }
}

static enum side side_of_vertex(u32 vertex)
{
    if (is_first_look(vertex)) {
        i64 h = height(&vertices[vertex].point);
        put_vertex_side(vertex, h > 0 ? ABOVE : h < 0 ? BELOW : ON);
    }
    return vertex_side[vertex];
}

static enum side side_at(u32 h)
{
    return vertex_side[tail(h)];
}

/* Notes the sides of the vertices of a loop and the edges that cross the plane; `met` tells of each side whether it was met. */
static void look_at_loop(u32 loop, bool met[3])
{
    u32 first = loops[loop].content, h = first;
    enum side side = side_of_vertex(tail(h));
    do {
        u32 next = after(h);
        enum side next_side = side_of_vertex(tail(next));
        met[1 + side] = true;
        if (side * next_side < 0 && !(h & 1))
            push(&edge_list, edge_of(h));
        h = next;
        side = next_side;
    } while (h != first);
}

static void push_cut_face(u32 face)
{
    make_room(&cut_faces, &cut_face_room, cut_face_count + 1, sizeof *cut_faces);
    cut_faces[cut_face_count++] = (struct cut_face){ .face = face };
}

/* Looks at all faces of the solid; answers whether some vertex is above and some is below. */
static bool look_at_faces(u32 solid)
{
    bool met_any[3] = { false };
    face_list.count = edge_list.count = cut_face_count = place_count = 0;
    for (u32 f = solids[solid].faces; f; f = faces[f].next)
        push(&face_list, f);
    sort_numbers(face_list.at, face_list.count);
    look_anew();
    for (size_t i = 0; i < face_list.count; i++) {
        u32 f = face_list.at[i];
        bool met[3] = { false };
        for (u32 l = faces[f].outer; l; l = next_loop(f, l))
            look_at_loop(l, met);
        if (met[0] && met[2])
            push_cut_face(f);
        met_any[0] |= met[0];
        met_any[2] |= met[2];
    }
    return met_any[0] && met_any[2];
}

/* A coordinate of the point that lies `along` of `whole` from p to q; false where it isn't a whole number. */
static bool cut_coordinate(i32 p, i32 q, i64 along, i128 whole, i32 *cut)
{
    i128 way = (i128)((i64)q - p) * along;
    i128 step;
    if ((i64)way == way && (i64)whole == whole) {
        if ((i64)way % (i64)whole)
            return false;
        step = (i64)way / (i64)whole;
    } else {
        if (way % whole)
            return false;
        step = way / whole;
    }
    *cut = p + step;
    return true;
}

static bool cut_point(u32 edge, struct point *cut)
{
    const struct point *p = point_of(2 * edge), *q = point_of(2 * edge + 1);
    i64 along = height(p);
    i128 whole = (i128)along - height(q);
    return cut_coordinate(p->x, q->x, along, whole, &cut->x) && cut_coordinate(p->y, q->y, along, whole, &cut->y) &&
           cut_coordinate(p->z, q->z, along, whole, &cut->z);
}

/* The points of the cut edges; refuses the least edge whose point is off the lattice. */
static struct refusal find_cut_points(void)
{
    sort_numbers(edge_list.at, edge_list.count);
    make_room(&edge_points, &edge_point_room, edge_list.count, sizeof *edge_points);
    for (size_t i = 0; i < edge_list.count; i++) {
        u32 edge = edge_list.at[i];
        edge_index[edge] = i;
        if (!cut_point(edge, &edge_points[i]))
            REFUSE(NOT_LATTICE, edge);
    }
    ACCEPT;
}

/* ---- cut places */

/* The new half-edge that step 1 draws from the start of the cut edge at this index. */
static u32 drawn_half(size_t index)
{
    return 2 * (fresh.edge + 1 + index);
}

static void push_place(struct point point, u32 half, bool up)
{
    make_room(&places, &place_room, place_count + 1, sizeof *places);
    places[place_count++] = (struct place){ point, half, up };
}

/* The places of a loop; false where a corner on the plane is none. */
static bool find_places_of_loop(u32 loop)
{
    u32 first = loops[loop].content, h = first;
    enum side last = side_at(halves[h].prev);
    do {
        enum side here = side_at(h), next = side_at(after(h));
        if (here * next < 0) {
            u32 index = edge_index[edge_of(h)];
            push_place(edge_points[index], h & 1 ? mate(drawn_half(index)) : h, next == ABOVE);
        } else if (here == ON) {
            if (last * next >= 0)
                return false;
            push_place(*point_of(h), h, next == ABOVE);
        }
        last = here;
        h = after(h);
    } while (h != first);
    return true;
}

static struct refusal find_places(struct cut_face *cut)
{
    bool bare_ring = false, bare_outer = false;
    cut->from = place_count;
    for (u32 l = faces[cut->face].outer; l; l = next_loop(cut->face, l)) {
        size_t before = place_count;
        if (!find_places_of_loop(l))
            REFUSE(TOUCHED_FACE, cut->face);
        if (place_count == before) {
            if (is_outer(l))
                bare_outer = true;
            else
                bare_ring = true;
        }
    }
    cut->count = place_count - cut->from;
    cut->often = bare_outer || (bare_ring && cut->count != 2);
    ACCEPT;
}

/* Puts the places in pairs that follow each other, each up and then down; false where they can't be. */
static bool pair_places(struct place *list, size_t count)
{
    if (count > 2)
        qsort(list, count, sizeof *list, compare_points);
    for (size_t i = 1; i < count; i++)
        if (same_point(&list[i - 1].point, &list[i].point))
            return false;
    for (size_t i = 0; i < count; i += 2) {
        if (list[i].up == list[i + 1].up)
            return false;
        if (!list[i].up) {
            struct place down = list[i];
            list[i] = list[i + 1];
            list[i + 1] = down;
        }
    }
    return true;
}

static struct refusal find_all_places(void)
{
    for (size_t i = 0; i < cut_face_count; i++)
        TRY(find_places(&cut_faces[i]));
    for (size_t i = 0; i < cut_face_count; i++)
        if (cut_faces[i].often)
            REFUSE(CUT_OFTEN, cut_faces[i].face);
    for (size_t i = 0; i < cut_face_count; i++)
        if (!pair_places(places + cut_faces[i].from, cut_faces[i].count))
            REFUSE(CUT_CROSSED, cut_faces[i].face);
    ACCEPT;
}

/* ---- conditions before the first step */

static struct refusal check_words(u32 solid, u32 other)
{
    if (!has_solid(solid))
        REFUSE(NO_SOLID, solid);
    if (has_solid(other))
        REFUSE(SOLID_TAKEN, other);
    for (int i = 0; i < 3; i++)
        if (!in_coordinate_range(plane[i]))
            REFUSE(PLANE_RANGE, i + 1);
    if (plane[3] < -PLANE_OFFSET_LIMIT || plane[3] > PLANE_OFFSET_LIMIT)
        REFUSE(PLANE_RANGE, 4);
    if (plane[0] == 0 && plane[1] == 0 && plane[2] == 0)
        REFUSE(PLANE_RANGE, 0);
    ACCEPT;
}

static struct refusal check_split(u32 solid, u32 other)
{
    u32 lone = 0, bent = 0;
    TRY(check_words(solid, other));
    find_unfit(solid, &lone, &bent);
    if (lone)
        REFUSE(LONE_LOOP, lone);
    if (bent)
        REFUSE(NOT_FLAT, bent);
    if (!look_at_faces(solid))
        REFUSE(PLANE_MISSES, solid);
    TRY(find_cut_points());
    fresh = greatest_numbers();
    TRY(find_all_places());
    u32 pairs = place_count / 2;
    return need(&fresh, pairs, pairs, edge_list.count + pairs, edge_list.count);
}

/* ---- steps 1 and 2: edges and faces are cut */

static void cut_edges(void)
{
    for (size_t i = 0; i < edge_list.count; i++) {
        u32 h = 2 * edge_list.at[i];
        take_mev(h, round_tail(h), fresh_half(&fresh), ++fresh.vertex, edge_points[i]);
        put_vertex_side(fresh.vertex, ON);
    }
}

static void cut_pair(const struct place *pair)
{
    take_mef(pair[0].half, pair[1].half, fresh_half(&fresh), ++fresh.face, ++fresh.loop);
    push(&face_list, fresh.face);
}

/* Cuts a face with two places; its rings above go to the new face. */
static void cut_once(const struct cut_face *cut)
{
    cut_pair(places + cut->from);
    for (u32 l = faces[cut->face].rings, next; l; l = next) {
        next = loops[l].next;
        if (side_at(loops[l].content) == ABOVE)
            take((struct step){ .operator = RING_IN, .ring = { l, fresh.face } });
    }
}

/* Joins the loops of a pair by an edge where they differ, the ring to the other. */
static bool join_pair(const struct place *pair)
{
    u32 up = pair[0].half, down = pair[1].half;
    if (loop_of(up) == loop_of(down))
        return false;
    bool turn = !is_outer(loop_of(up));
    take((struct step){ .operator = MEKR, .mekr = { turn ? down : up, turn ? up : down, fresh_half(&fresh) } });
    return true;
}

/* Cuts a face with more places; false where that can't be drawn. */
static bool cut_many(const struct cut_face *cut)
{
    struct place *list = places + cut->from;
    size_t left = 0;
    for (size_t i = 0; i < cut->count; i += 2) {
        if (join_pair(list + i))
            continue;
        list[left++] = list[i];
        list[left++] = list[i + 1];
    }
    if (faces[cut->face].rings)
        return false;
    for (size_t i = 0; i < left; i += 2) {
        if (loop_of(list[i].half) != loop_of(list[i + 1].half))
            return false;
        cut_pair(list + i);
    }
    return true;
}

static struct refusal cut_all_faces(void)
{
    for (size_t i = 0; i < cut_face_count; i++) {
        if (cut_faces[i].count == 2)
            cut_once(&cut_faces[i]);
        else if (!cut_many(&cut_faces[i]))
            REFUSE(CUT_CROSSED, cut_faces[i].face);
    }
    ACCEPT;
}

/* ---- the cut edges and their cycles */

/* The sign of the plane's direction along a normal. */
static bool is_along(const struct vector *n)
{
    return n->x * plane[0] + n->y * plane[1] + n->z * plane[2] > 0;
}

/* The side of a face that isn't cut any more; one wholly on the plane is below where its normal points along the plane's. */
static enum side find_face_side(u32 face)
{
    for (u32 l = faces[face].outer; l; l = next_loop(face, l)) {
        u32 first = loops[l].content, h = first;
        do {
            if (side_at(h) != ON)
                return side_at(h);
            h = after(h);
        } while (h != first);
    }
    struct vector n = face_normal(face);
    return is_along(&n) ? BELOW : ABOVE;
}

static u32 count_cut_edge(u32 vertex, u32 branched)
{
    if (degree[vertex] < 3)
        degree[vertex]++;
    return degree[vertex] == 3 && (!branched || vertex < branched) ? vertex : branched;
}

/* Lists the below halves of a loop of a face below; answers the least vertex with more than two cut edges so far. */
static u32 find_below_halves(u32 loop, u32 branched)
{
    u32 first = loops[loop].content, h = first;
    do {
        if (side_at(h) == ON && side_at(mate(h)) == ON && face_side[face_of(mate(h))] == ABOVE) {
            push(&below_list, h);
            leaving[tail(h)] = h;
            branched = count_cut_edge(tail(h), branched);
            branched = count_cut_edge(tail(mate(h)), branched);
        }
        h = after(h);
    } while (h != first);
    return branched;
}

static struct refusal find_cut_edges(void)
{
    u32 branched = 0;
    below_list.count = 0;
    for (size_t i = 0; i < face_list.count; i++)
        face_side[face_list.at[i]] = find_face_side(face_list.at[i]);
    for (size_t i = 0; i < face_list.count; i++) {
        u32 f = face_list.at[i];
        if (face_side[f] == BELOW)
            for (u32 l = faces[f].outer; l; l = next_loop(f, l))
                branched = find_below_halves(l, branched);
    }
    if (branched)
        REFUSE(BRANCHED_VERTEX, branched);
    sort_numbers(below_list.at, below_list.count);
    ACCEPT;
}

/* A cycle of below halves in the list of all cycles, and whether it bounds a hole. */
struct cycle {
    size_t from, count;
    bool hole;
};

static struct list cycle_items;
static struct cycle *cycles;
static size_t cycle_room, cycle_count;

static struct cycle follow_cycle(u32 h)
{
    struct cycle cycle = { .from = cycle_items.count };
    struct vector n = { 0, 0, 0 };
    while (h) {
        u32 end = tail(mate(h));
        push(&cycle_items, h);
        add_cross(&n, point_of(h), &vertices[end].point);
        leaving[tail(h)] = 0;
        h = leaving[end];
    }
    cycle.count = cycle_items.count - cycle.from;
    cycle.hole = is_along(&n);
    return cycle;
}

/* Follows the cycles by their least edge; refuses holes where there isn't exactly one outer cycle. */
static struct refusal find_cycles(u32 solid)
{
    size_t holes = 0;
    cycle_items.count = cycle_count = 0;
    for (size_t i = 0; i < below_list.count; i++) {
        u32 h = below_list.at[i];
        if (leaving[tail(h)] != h)
            continue;
        make_room(&cycles, &cycle_room, cycle_count + 1, sizeof *cycles);
        cycles[cycle_count] = follow_cycle(h);
        holes += cycles[cycle_count++].hole;
    }
    if (holes > 0 && cycle_count - holes != 1)
        REFUSE(SECTION_HOLES, solid);
    ACCEPT;
}

/* ---- steps 3 to 5: caps, holes, and the new solid */

/* Doubles the edges of a cycle and makes the gap between them two caps. */
static void cap_cycle(const u32 *below, u32 count)
{
    u32 first_copy = fresh_half(&fresh), below_cap = ++fresh.face;
    take_mef(mate(below[0]), after(mate(below[0])), first_copy, below_cap, ++fresh.loop);
    for (u32 i = 1; i < count; i++)
        take_mef(mate(below[i]), after(mate(below[i])), fresh_half(&fresh), ++fresh.face, ++fresh.loop);
    u32 first_spoke = 2 * (fresh.edge + 1);
    for (u32 i = 0; i < count; i++) {
        u32 copy = first_copy + 2 * i, last = mate(below[i ? i - 1 : count - 1]);
        take_mev(mate(copy), last, fresh_half(&fresh), ++fresh.vertex, *point_of(below[i]));
    }
    for (u32 i = 1; i < count; i++)
        take((struct step){ .operator = KEF, .kef = { mate(first_spoke + 2 * i) } });
    take((struct step){ .operator = KEMR, .kemr = { first_spoke, ++fresh.loop } });
    take((struct step){ .operator = MFKRH, .mfkrh = { fresh.loop, ++fresh.face } });
    push(&cap_list, below_cap);
    push(&cap_list, fresh.face);
}

/* The caps of holes become rings of the outer cycle's caps. */
static void join_holes(void)
{
    size_t outer = 0;
    while (outer < cycle_count && cycles[outer].hole)
        outer++;
    for (size_t i = 0; i < cycle_count; i++) {
        if (!cycles[i].hole)
            continue;
        for (size_t above = 0; above < 2; above++)
            take((struct step){ .operator = KFMRH, .kfmrh = { cap_list.at[2 * outer + above], cap_list.at[2 * i + above] } });
    }
}

static void part_above(u32 solid, u32 other)
{
    u32 *list, count = 0;
    struct step step = move_step(PART, solid, other, solids[solid].face_count, &list);
    for (size_t i = 0; i < face_list.count; i++)
        if (face_side[face_list.at[i]] == ABOVE)
            list[count++] = face_list.at[i];
    for (size_t i = 0; i < cycle_count; i++)
        if (has_face(cap_list.at[2 * i + 1]))
            list[count++] = cap_list.at[2 * i + 1];
    step.move.count = count;
    take(step);
}

static struct refusal cut_and_follow(u32 solid)
{
    cut_edges();
    TRY(cut_all_faces());
    TRY(find_cut_edges());
    TRY(find_cycles(solid));
    u32 cut = below_list.count;
    return need(&fresh, cut + cycle_count, cut + cycle_count, 2 * cut, cut);
}

struct refusal split(u32 solid, const i64 words[4], u32 other)
{
    for (int i = 0; i < 4; i++)
        plane[i] = words[i];
    TRY(check_split(solid, other));
    open_command();
    struct refusal refusal = cut_and_follow(solid);
    if (refusal.why) {
        abandon_command();
        return refusal;
    }
    settle_command();
    cap_list.count = 0;
    for (size_t i = 0; i < cycle_count; i++)
        cap_cycle(cycle_items.at + cycles[i].from, cycles[i].count);
    join_holes();
    part_above(solid, other);
    close_command();
    ACCEPT;
}
