/* Conditions and effects of the operators, a function each. */
#include "operators.h"

u32 *moved_faces;

/* ---- conditions */

static struct refusal corner_there(u32 corner)
{
    if (is_lone_corner(corner)) {
        if (!has_loop(corner & ~LONE))
            REFUSE(NO_LOOP, corner & ~LONE);
    } else if (!has_edge(edge_of(corner)))
        REFUSE(NO_EDGE, edge_of(corner));
    ACCEPT;
}

static struct refusal corner_lone(u32 corner)
{
    if (is_lone_corner(corner) && !is_lone(corner & ~LONE))
        REFUSE(NOT_LONE, corner & ~LONE);
    ACCEPT;
}

static struct refusal check_corners(u32 corner1, u32 corner2)
{
    TRY(corner_there(corner1));
    TRY(corner_there(corner2));
    TRY(corner_lone(corner1));
    return corner_lone(corner2);
}

static struct refusal check_mvfs(const struct step *s)
{
    if (has_solid(s->mvfs.solid))
        REFUSE(SOLID_TAKEN, s->mvfs.solid);
    if (has_face(s->mvfs.face))
        REFUSE(FACE_TAKEN, s->mvfs.face);
    if (has_loop(s->mvfs.loop))
        REFUSE(LOOP_TAKEN, s->mvfs.loop);
    if (has_vertex(s->mvfs.vertex))
        REFUSE(VERTEX_TAKEN, s->mvfs.vertex);
    if (!point_in_range(&s->mvfs.point))
        REFUSE(POINT_RANGE, s->mvfs.vertex);
    ACCEPT;
}

static struct refusal check_kvfs(u32 solid)
{
    if (!has_solid(solid))
        REFUSE(NO_SOLID, solid);
    u32 face = solids[solid].faces;
    if (solids[solid].face_count > 1 || faces[face].rings || !is_lone(faces[face].outer))
        REFUSE(NOT_BARE, solid);
    ACCEPT;
}

static struct refusal check_mev(const struct step *s)
{
    u32 corner1 = s->mev.corner1, corner2 = s->mev.corner2;
    TRY(check_corners(corner1, corner2));
    if (has_edge(edge_of(s->mev.half)))
        REFUSE(EDGE_TAKEN, edge_of(s->mev.half));
    if (has_vertex(s->mev.vertex))
        REFUSE(VERTEX_TAKEN, s->mev.vertex);
    if (!point_in_range(&s->mev.point))
        REFUSE(POINT_RANGE, s->mev.vertex);
    if (corner1 != corner2 && corner_tail(corner1) != corner_tail(corner2))
        REFUSE(DIFFERENT_TAILS, corner_tail(corner2));
    ACCEPT;
}

/* The least other edge with the ends of h, 0 where there is none. Walks the stars of both ends in step; the shorter one tells. */
static u32 parallel_edge(u32 h)
{
    u32 m = mate(h), a = tail(h), b = tail(m), by_a = 0, by_b = 0;
    for (u32 p = round_tail(h), q = round_tail(m);; p = round_tail(p), q = round_tail(q)) {
        if (p == h)
            return by_a;
        if (tail(mate(p)) == b && (!by_a || edge_of(p) < by_a))
            by_a = edge_of(p);
        if (q == m)
            return by_b;
        if (tail(mate(q)) == a && (!by_b || edge_of(q) < by_b))
            by_b = edge_of(q);
    }
}

static struct refusal check_kev(u32 h)
{
    if (!has_edge(edge_of(h)))
        REFUSE(NO_EDGE, edge_of(h));
    u32 other = parallel_edge(h);
    if (other)
        REFUSE(PARALLEL_EDGE, other);
    if (after(mate(h)) == h && after(h) != mate(h))
        REFUSE(KEPT_END_BARE, tail(h));
    ACCEPT;
}

static struct refusal check_mef(const struct step *s)
{
    u32 h1 = s->mef.half1, h2 = s->mef.half2;
    if (!has_edge(edge_of(h1)))
        REFUSE(NO_EDGE, edge_of(h1));
    if (!has_edge(edge_of(h2)))
        REFUSE(NO_EDGE, edge_of(h2));
    if (has_edge(edge_of(s->mef.half)))
        REFUSE(EDGE_TAKEN, edge_of(s->mef.half));
    if (has_face(s->mef.face))
        REFUSE(FACE_TAKEN, s->mef.face);
    if (has_loop(s->mef.loop))
        REFUSE(LOOP_TAKEN, s->mef.loop);
    if (halves[h1].label != halves[h2].label)
        REFUSE(DIFFERENT_LOOPS, loop_of(h2));
    if (tail(h1) == tail(h2))
        REFUSE(SAME_TAIL, tail(h1));
    ACCEPT;
}

static struct refusal check_kef(u32 h)
{
    if (!has_edge(edge_of(h)))
        REFUSE(NO_EDGE, edge_of(h));
    u32 gone = face_of(mate(h));
    if (face_of(h) == gone)
        REFUSE(SAME_FACE, gone);
    if (faces[gone].rings)
        REFUSE(HAS_RINGS, gone);
    ACCEPT;
}

static struct refusal check_kemr(u32 h, u32 loop)
{
    if (!has_edge(edge_of(h)))
        REFUSE(NO_EDGE, edge_of(h));
    if (has_loop(loop))
        REFUSE(LOOP_TAKEN, loop);
    if (halves[h].label != halves[mate(h)].label)
        REFUSE(DIFFERENT_LOOPS, loop_of(mate(h)));
    ACCEPT;
}

static struct refusal check_mekr(const struct step *s)
{
    u32 corner1 = s->mekr.corner1, corner2 = s->mekr.corner2;
    TRY(check_corners(corner1, corner2));
    if (has_edge(edge_of(s->mekr.half)))
        REFUSE(EDGE_TAKEN, edge_of(s->mekr.half));
    u32 loop1 = corner_loop(corner1), loop2 = corner_loop(corner2);
    if (loop1 == loop2)
        REFUSE(SAME_LOOP, loop1);
    if (loops[loop1].face != loops[loop2].face)
        REFUSE(DIFFERENT_FACES, loops[loop2].face);
    if (is_outer(loop2))
        REFUSE(NOT_RING, loop2);
    if (corner_tail(corner1) == corner_tail(corner2))
        REFUSE(SAME_TAIL, corner_tail(corner1));
    ACCEPT;
}

static struct refusal check_kfmrh(u32 face, u32 gone)
{
    if (!has_face(face))
        REFUSE(NO_FACE, face);
    if (!has_face(gone))
        REFUSE(NO_FACE, gone);
    if (face == gone)
        REFUSE(SAME_FACE, face);
    if (faces[face].solid != faces[gone].solid)
        REFUSE(DIFFERENT_SOLIDS, faces[gone].solid);
    if (faces[gone].rings)
        REFUSE(HAS_RINGS, gone);
    ACCEPT;
}

static struct refusal check_mfkrh(u32 loop, u32 face)
{
    if (!has_loop(loop))
        REFUSE(NO_LOOP, loop);
    if (has_face(face))
        REFUSE(FACE_TAKEN, face);
    if (is_outer(loop))
        REFUSE(NOT_RING, loop);
    ACCEPT;
}

static struct refusal check_ring(const struct step *s)
{
    u32 loop = s->ring.loop, face = s->ring.face;
    if (!has_loop(loop))
        REFUSE(NO_LOOP, loop);
    if (!has_face(face))
        REFUSE(NO_FACE, face);
    if (faces[loops[loop].face].solid != faces[face].solid)
        REFUSE(DIFFERENT_SOLIDS, faces[face].solid);
    if (is_outer(loop))
        REFUSE(NOT_RING, loop);
    if (s->operator == RING_IN && loops[loop].face == face)
        REFUSE(SAME_FACE, face);
    ACCEPT;
}

struct refusal check(const struct step *s)
{
    switch (s->operator) {
    case MVFS: return check_mvfs(s);
    case KVFS: return check_kvfs(s->kvfs.solid);
    case MEV: return check_mev(s);
    case KEV: return check_kev(s->kev.half);
    case MEF: return check_mef(s);
    case KEF: return check_kef(s->kef.half);
    case KEMR: return check_kemr(s->kemr.half, s->kemr.loop);
    case MEKR: return check_mekr(s);
    case KFMRH: return check_kfmrh(s->kfmrh.face, s->kfmrh.gone);
    case MFKRH: return check_mfkrh(s->mfkrh.loop, s->mfkrh.face);
    default: return check_ring(s);      /* MERGE, PART and OUTER have no command */
    }
}

/* ---- small effects */

static bool is_small(i32 c)
{
    return -SMALL_LIMIT <= c && c <= SMALL_LIMIT;
}

static void make_vertex(u32 vertex, struct point point)
{
    if (!(is_small(point.x) && is_small(point.y) && is_small(point.z)))
        any_wide_point = true;
    vertices[vertex] = (struct vertex){ point, 1 };
    put_number(&in_use[VERTEX], vertex);
}

static void kill_vertex(u32 vertex)
{
    vertices[vertex].mark = 0;
    take_number(&in_use[VERTEX], vertex);
}

static void make_edge(u32 h, u32 from, u32 to)
{
    halves[h].tail = from;
    halves[mate(h)].tail = to;
    put_number(&in_use[EDGE], edge_of(h));
}

static void kill_edge(u32 h)
{
    halves[h].tail = 0;
    halves[mate(h)].tail = 0;
    take_number(&in_use[EDGE], edge_of(h));
}

static void make_face(u32 face, u32 solid, u32 outer)
{
    add_face(face, solid);
    faces[face].outer = outer;
    faces[face].rings = 0;
    faces[face].ring_count = 0;
    loops[outer].face = face;
    put_number(&in_use[FACE], face);
}

static void kill_face(u32 face)
{
    remove_face(face);
    take_number(&in_use[FACE], face);
}

static void kill_loop(u32 loop)
{
    loops[loop].face = 0;
    take_number(&in_use[LOOP], loop);
}

/* ---- effects; each turns the operator into its inverse */

static void apply_mvfs(struct step *s)
{
    u32 solid = s->mvfs.solid, loop = s->mvfs.loop, vertex = s->mvfs.vertex;
    put_number(&in_use[SOLID], solid);
    put_number(&in_use[LOOP], loop);
    make_vertex(vertex, s->mvfs.point);
    make_face(s->mvfs.face, solid, loop);
    loops[loop].content = LONE | vertex;
    s->operator = KVFS;
    s->kvfs.solid = solid;
}

static void apply_kvfs(struct step *s)
{
    u32 solid = s->kvfs.solid, face = solids[solid].faces, loop = faces[face].outer, vertex = lone_vertex(loop);
    s->operator = MVFS;
    s->mvfs.solid = solid;
    s->mvfs.face = face;
    s->mvfs.loop = loop;
    s->mvfs.vertex = vertex;
    s->mvfs.point = vertices[vertex].point;
    kill_vertex(vertex);
    kill_loop(loop);
    kill_face(face);
    take_number(&in_use[SOLID], solid);
}

/* The half-edges from `first` on around their vertex, up to but without `end`, now start at `vertex`. */
static void move_tails(u32 first, u32 end, u32 vertex)
{
    for (u32 h = first; h != end; h = round_tail(h))
        halves[h].tail = vertex;
}

/* Puts h before the corner at `item`. */
static void put_before(u32 h, u32 item)
{
    link_halves(halves[item].prev, h);
    link_halves(h, item);
    halves[h].label = halves[item].label;
}

static void apply_mev(struct step *s)
{
    u32 corner1 = s->mev.corner1, corner2 = s->mev.corner2, h = s->mev.half, m = mate(h), vertex = s->mev.vertex;
    u32 old = corner_tail(corner1);
    make_vertex(vertex, s->mev.point);
    if (is_lone_corner(corner1)) {
        u32 loop = corner1 & ~LONE;
        new_label(loop);
        link_halves(h, m);
        link_halves(m, h);
        halves[h].label = halves[m].label = loops[loop].label;
        loops[loop].content = h;
    } else {
        move_tails(corner1, corner2, vertex);
        put_before(h, corner1);
        put_before(m, corner2);
    }
    make_edge(h, old, vertex);
    s->operator = KEV;
    s->kev.half = h;
}

static void apply_kev(struct step *s)
{
    u32 h = s->kev.half, m = mate(h), vertex = tail(m), next_h = after(h), next_m = after(m), corner1, corner2;
    if (next_h == m && next_m == h) {
        u32 loop = loop_of(h);
        free_label(loop);
        loops[loop].content = LONE | tail(h);
        corner1 = corner2 = LONE | loop;
    } else {
        loops[loop_of(m)].content = next_m;
        if (next_h == m) {
            link_halves(halves[h].prev, next_m);
            corner1 = next_m;
        } else {
            move_tails(round_tail(m), m, tail(h));
            loops[loop_of(h)].content = next_h;
            link_halves(halves[h].prev, next_h);
            link_halves(halves[m].prev, next_m);
            corner1 = next_h;
        }
        corner2 = next_m;
    }
    s->operator = MEV;
    s->mev.corner1 = corner1;
    s->mev.corner2 = corner2;
    s->mev.half = h;
    s->mev.vertex = vertex;
    s->mev.point = vertices[vertex].point;
    kill_edge(h);
    kill_vertex(vertex);
}

static void apply_mef(struct step *s)
{
    u32 h1 = s->mef.half1, h2 = s->mef.half2, h = s->mef.half, m = mate(h), loop = s->mef.loop, old = loop_of(h1);
    struct part a = { h1, halves[h2].prev }, b = { h2, halves[h1].prev };
    put_number(&in_use[LOOP], loop);
    divide_label(a, loop, b, old);
    link_halves(b.last, h);
    link_halves(h, h2);
    link_halves(a.last, m);
    link_halves(m, h1);
    halves[h].label = halves[h2].label;
    halves[m].label = halves[h1].label;
    loops[old].content = h;
    loops[loop].content = m;
    make_edge(h, tail(h1), tail(h2));
    make_face(s->mef.face, faces[loops[old].face].solid, loop);
    s->operator = KEF;
    s->kef.half = h;
}

static void apply_kef(struct step *s)
{
    u32 h = s->kef.half, m = mate(h), stays = loop_of(h), gone = loop_of(m), face = loops[gone].face;
    struct part a = { after(m), halves[m].prev }, b = { after(h), halves[h].prev };
    unite_labels(a, gone, b, stays);
    link_halves(b.last, a.first);
    link_halves(a.last, b.first);
    loops[stays].content = a.first;
    kill_edge(h);
    kill_loop(gone);
    kill_face(face);
    s->operator = MEF;
    s->mef.half1 = a.first;
    s->mef.half2 = b.first;
    s->mef.half = h;
    s->mef.face = face;
    s->mef.loop = gone;
}

/* The loop gets the items of `part` as a ring, or is lone at `vertex` where there are none; answers its first corner. */
static u32 close_ring(u32 loop, struct part part, bool empty, u32 vertex)
{
    if (empty) {
        loops[loop].content = LONE | vertex;
        return LONE | loop;
    }
    link_halves(part.last, part.first);
    loops[loop].content = part.first;
    return part.first;
}

static void apply_kemr(struct step *s)
{
    u32 h = s->kemr.half, m = mate(h), loop = s->kemr.loop, old = loop_of(h);
    struct part x = { after(h), halves[m].prev }, y = { after(m), halves[h].prev };
    bool no_x = x.first == m, no_y = y.first == h;
    if (!no_x && !no_y)
        divide_label(x, loop, y, old);
    else if (!no_x)
        hand_label(old, loop);
    else if (no_y)
        free_label(old);
    s->operator = MEKR;
    s->mekr.corner1 = close_ring(old, y, no_y, tail(h));
    s->mekr.corner2 = close_ring(loop, x, no_x, tail(m));
    s->mekr.half = h;
    put_number(&in_use[LOOP], loop);
    add_ring(loop, loops[old].face);
    kill_edge(h);
}

/* Puts the half-edge `from`, the items of the corner's loop from it on, and then the half-edge `to`. */
static void string_corner(u32 from, u32 corner, u32 last, u32 to)
{
    if (is_lone_corner(corner)) {
        link_halves(from, to);
    } else {
        link_halves(from, corner);
        link_halves(last, to);
    }
}

static void apply_mekr(struct step *s)
{
    u32 corner1 = s->mekr.corner1, corner2 = s->mekr.corner2, h = s->mekr.half, m = mate(h);
    u32 stays = corner_loop(corner1), gone = corner_loop(corner2), from = corner_tail(corner1), to = corner_tail(corner2);
    bool lone1 = is_lone_corner(corner1), lone2 = is_lone_corner(corner2);
    u32 last1 = lone1 ? 0 : halves[corner1].prev, last2 = lone2 ? 0 : halves[corner2].prev;
    if (!lone1 && !lone2)
        unite_labels((struct part){ corner2, last2 }, gone, (struct part){ corner1, last1 }, stays);
    else if (!lone2)
        hand_label(gone, stays);
    else if (lone1)
        new_label(stays);
    string_corner(h, corner2, last2, m);
    string_corner(m, corner1, last1, h);
    halves[h].label = halves[m].label = loops[stays].label;
    loops[stays].content = h;
    make_edge(h, from, to);
    remove_ring(gone);
    kill_loop(gone);
    s->operator = KEMR;
    s->kemr.half = h;
    s->kemr.loop = gone;
}

static void apply_kfmrh(struct step *s)
{
    u32 face = s->kfmrh.face, gone = s->kfmrh.gone, loop = faces[gone].outer;
    kill_face(gone);
    add_ring(loop, face);
    s->operator = MFKRH;
    s->mfkrh.loop = loop;
    s->mfkrh.face = gone;
}

static void apply_mfkrh(struct step *s)
{
    u32 loop = s->mfkrh.loop, face = s->mfkrh.face, old = loops[loop].face;
    remove_ring(loop);
    make_face(face, faces[old].solid, loop);
    s->operator = KFMRH;
    s->kfmrh.face = old;
    s->kfmrh.gone = face;
}

static void apply_ring_in(struct step *s)
{
    u32 loop = s->ring.loop, old = loops[loop].face;
    remove_ring(loop);
    add_ring(loop, s->ring.face);
    s->ring.face = old;
}

/* Ring `loop` becomes the outer loop of face `to`, whose old outer loop becomes a ring of face `rings_of`; answers that loop. */
static u32 turn_out(u32 loop, u32 to, u32 rings_of)
{
    u32 outer = faces[to].outer;
    remove_ring(loop);
    faces[to].outer = loop;
    loops[loop].face = to;
    add_ring(outer, rings_of);
    return outer;
}

static void apply_ring_out(struct step *s)
{
    u32 old = loops[s->ring.loop].face, face = s->ring.face;
    s->operator = OUTER;
    s->ring.loop = turn_out(s->ring.loop, face, face);
    s->ring.face = old;
}

static void apply_outer(struct step *s)
{
    u32 face = loops[s->ring.loop].face;
    s->operator = RING_OUT;
    s->ring.loop = turn_out(s->ring.loop, face, s->ring.face);
    s->ring.face = face;
}

static void move_faces(const struct step *s, u32 solid)
{
    const u32 *list = moved_faces + s->move.from;
    for (u32 i = 0; i < s->move.count; i++) {
        remove_face(list[i]);
        add_face(list[i], solid);
    }
}

static void apply_merge(struct step *s)
{
    move_faces(s, s->move.solid);
    take_number(&in_use[SOLID], s->move.other);
    s->operator = PART;
}

static void apply_part(struct step *s)
{
    move_faces(s, s->move.other);
    put_number(&in_use[SOLID], s->move.other);
    s->operator = MERGE;
}

void apply(struct step *s)
{
    switch (s->operator) {
    case MVFS: apply_mvfs(s); break;
    case KVFS: apply_kvfs(s); break;
    case MEV: apply_mev(s); break;
    case KEV: apply_kev(s); break;
    case MEF: apply_mef(s); break;
    case KEF: apply_kef(s); break;
    case KEMR: apply_kemr(s); break;
    case MEKR: apply_mekr(s); break;
    case KFMRH: apply_kfmrh(s); break;
    case MFKRH: apply_mfkrh(s); break;
    case RING_IN: apply_ring_in(s); break;
    case RING_OUT: apply_ring_out(s); break;
    case OUTER: apply_outer(s); break;
    case MERGE: apply_merge(s); break;
    case PART: apply_part(s); break;
    }
}
