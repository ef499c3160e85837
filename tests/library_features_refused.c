/* Each allocation of each feature refused in turn, and all from it on, in a session and in a draft with a mark: the answer is GWB_MEMORY, and the
 * model, the draft and the depth are as they were; given again the feature is made; nothing stays allocated when the session is closed. So it is where the
 * caller ends it (gwb_stop_by), at each question in turn. The last line counts.
 *
 *     library_features_refused [EVERY]     of the allocations each, or each EVERYth where one is said, and a fifth of these with all after it; where EVERY
 *                                          is above 20, a fifth of these of what takes long: Booleans. Each of the sixteen ways in which a feature is
 *                                          made begins with another one, so that by EVERY 16 each is refused once */
#include "gwb_features.h"
#include "heaps.h"
#include <stdio.h>
#include <stdlib.h>
#include <string.h>

/* what is asked of the heap, and whether all is refused from a request on */
static struct requests asked;
static bool refuses_on;
static const gwb_heap refusing = {take, grow, give_back, &asked};

/* ---- the features */

static const gwb_point square[] = {{2, 2, 8}, {4, 2, 8}, {4, 4, 8}, {2, 4, 8}}, at_edge[] = {{0, 2, 8}, {4, 2, 8}, {4, 4, 8}, {0, 4, 8}};
static const gwb_point corner[] = {{5, 5, 8}, {6, 5, 8}, {5, 6, 8}}, along = {0, 0, 9}, start = {6, 0, 8}, end = {6, 8, 8};
/* of a solid that split doesn't cut level with its step */
static const gwb_point stepped[] = {{50, 0, 0}, {58, 0, 0}, {58, 0, 4}, {54, 0, 4}, {54, 0, 8}, {50, 0, 8}}, back = {0, 8, 0};
static const gwb_motion motion = {{-2, 1, 3}, {50, 0, 0}};
static const gwb_motion mirror = {{-1, 2, 3}, {0, 0, 0}};
static const gwb_cut_plane plane = {2, 3, 5, -17};
static const gwb_ratio size = {64, 1};
static gwb_point drilled[8];
static gwb_refusal why;
static gwb_outline_made outline;
static gwb_profile_made profile;
static uint32_t numbers[16], others[16];

static enum gwb_kind pocket(gwb *g) { return gwb_pocket(g, 1, square, 4, 3, &outline, numbers, &why); }
static enum gwb_kind boss(gwb *g) { return gwb_boss(g, 1, square, 4, 3, &outline, numbers, &why); }
static enum gwb_kind hole(gwb *g) { return gwb_hole(g, 1, square, 4, &outline, numbers, &why); }
static enum gwb_kind ring(gwb *g) { return gwb_ring(g, 1, square, 4, &outline, numbers, others, &why); }
static enum gwb_kind notch(gwb *g) { return gwb_notch(g, 1, at_edge, 4, 3, &why); }
static enum gwb_kind pad(gwb *g) { return gwb_pad(g, 1, at_edge, 4, 3, &why); }
static enum gwb_kind slot(gwb *g) { return gwb_slot(g, 1, &start, &end, 2, 3, &why); }
static enum gwb_kind groove(gwb *g) { return gwb_groove(g, 1, &start, &end, 2, 3, &why); }
static enum gwb_kind shoulder(gwb *g)
{
    gwb_face_row top;
    uint32_t half_edge = 0;
    if (gwb_face(g, 1, &top) == GWB_FOUND)
        gwb_first_half_edge(g, top.outer_loop, &half_edge);
    return gwb_shoulder(g, 1, half_edge / 2, 2, 3, &why);
}
static enum gwb_kind chamfer(gwb *g) { return gwb_chamfer(g, 1, 1, 1, numbers, &why); }
static enum gwb_kind copy(gwb *g) { return gwb_copy_solid(g, 1, &motion, numbers, &why); }
static enum gwb_kind image(gwb *g) { return gwb_copy_solid(g, 1, &mirror, numbers, &why); }
static enum gwb_kind move(gwb *g) { return gwb_move_solid(g, 1, &motion, &why); }
static enum gwb_kind kill_one(gwb *g) { return gwb_kill_solid(g, 1, &why); }
static enum gwb_kind make_profile(gwb *g) { return gwb_profile(g, 2, square, 4, &along, &profile, numbers, &why); }
static enum gwb_kind pattern(gwb *g) { return gwb_pattern(g, 1, 3, &along, numbers, &why); }
static enum gwb_kind around(gwb *g) { return gwb_pattern_around(g, 1, 4, 2, 1, &corner[0], numbers, &why); }
static enum gwb_kind chamfers(gwb *g)
{
    uint32_t edges[4], n = 0;
    gwb_half_edge_row rows[8];
    gwb_half_edge_rows(g, 1, rows, 8);
    for (; n < 4; n++)
        edges[n] = rows[n].half_edge / 2;
    return gwb_chamfer_edges(g, edges, n, 2, numbers, &why);
}
static enum gwb_kind polyhedron(gwb *g)
{
    static const gwb_point points[] = {{90, 0, 0}, {96, 0, 0}, {90, 6, 0}, {90, 0, 6}};
    static const uint32_t corners[] = {0, 2, 1, 0, 1, 3, 1, 2, 3, 0, 3, 2}, sizes[] = {3, 3, 3, 3};
    gwb_polyhedron_made made;
    return gwb_polyhedron(g, 20, points, 4, corners, sizes, 4, &made, &why);
}
static enum gwb_kind renumber(gwb *g) { return gwb_renumber(g, &why); }
static enum gwb_kind scale(gwb *g) { return gwb_scale(g, 3, &why); }
static enum gwb_kind glue_all(gwb *g)
{
    static const uint32_t both[] = {1, 3};
    return gwb_glue_all(g, both, 2, &why);
}
static enum gwb_kind drill(gwb *g) { return gwb_drill(g, 1, &corner[0], 2, 8, 3, &outline, numbers, drilled, &why); }
static enum gwb_kind find_faces(gwb *g)
{
    const gwb_face_query query = {1, NULL, &along, &corner[0], &size};
    size_t count = 0;
    return gwb_find_faces(g, &query, numbers, 16, &count, &why);
}
static enum gwb_kind find_edges(gwb *g)
{
    const gwb_edge_query query = {1, {1, 3}, NULL, &size};
    size_t count = 0;
    return gwb_find_edges(g, &query, numbers, 16, &count, &why);
}
static gwb_crossing met[64];
static enum gwb_kind crossings_of(gwb *g, uint32_t other, size_t least)
{
    size_t count = 0;
    const enum gwb_kind kind = gwb_find_crossings(g, 21, other, met, 64, &count, &why);
    return kind == GWB_OK && count < least ? GWB_NO_CALL : kind;
}
static enum gwb_kind crossings_of_one(gwb *g) { return crossings_of(g, 0, 0); }
static enum gwb_kind crossings_of_two(gwb *g) { return crossings_of(g, 22, 3); }
/* (where there is none to be undone or redone, memory has nothing to do with it) */
static enum gwb_kind undo(gwb *g)
{
    const enum gwb_kind kind = gwb_undo(g);
    return kind == GWB_MEMORY ? kind : GWB_OK;
}
static enum gwb_kind redo(gwb *g)
{
    const enum gwb_kind kind = gwb_redo(g);
    return kind == GWB_MEMORY ? kind : GWB_OK;
}
static enum gwb_kind line(gwb *g) { return gwb_line(g, "split 1 0 0 1 -4 9", 18); }
static const gwb_cut_plane middle = {0, 0, 1, -4};
static enum gwb_kind split(gwb *g) { return gwb_split_solid(g, 1, &middle, 2, &why); }
static enum gwb_kind cut(gwb *g) { return gwb_cut(g, 4, &middle, 2, &why); }
static enum gwb_kind trim(gwb *g) { return gwb_trim(g, 4, &middle, &why); }
static enum gwb_kind trim_by_split(gwb *g) { return gwb_trim(g, 1, &middle, &why); }
static enum gwb_kind unite(gwb *g)
{
    static const uint32_t both[] = {1, 3};
    return gwb_union(g, both, 2, &why);
}
/* (of tetrahedra, which are small: each is tried thousands of times) */
static enum gwb_kind corner_at(gwb *g, uint32_t solid, int64_t at, int64_t size)
{
    const gwb_point points[] = {{at, at, at}, {at + size, at, at}, {at, at + size, at}, {at, at, at + size}};
    static const uint32_t corners[] = {0, 2, 1, 0, 1, 3, 1, 2, 3, 0, 3, 2}, sizes[] = {3, 3, 3, 3};
    gwb_polyhedron_made made;
    return gwb_polyhedron(g, solid, points, 4, corners, sizes, 4, &made, &why);
}
static const uint32_t crossing[] = {21, 22, 23}, beside[] = {1, 3};
static enum gwb_kind two_that_cross(gwb *g) { return corner_at(g, 21, 30, 6) == GWB_OK ? corner_at(g, 22, 31, 6) : GWB_NO_CALL; }
/* (faces of all three cross in (33, 35, 36), a corner of the union) */
static enum gwb_kind three_that_cross(gwb *g)
{
    const bool are_made = gwb_block(g, 21, 30, 30, 30, 6, 6, 6) == GWB_OK && gwb_block(g, 22, 33, 32, 31, 6, 6, 6) == GWB_OK;
    return are_made ? gwb_block(g, 23, 32, 29, 34, 6, 6, 6) : GWB_NO_CALL;
}
static enum gwb_kind two_apart(gwb *g)
{
    const bool are_made = corner_at(g, 21, 30, 6) == GWB_OK && corner_at(g, 22, 40, 6) == GWB_OK;
    return are_made ? gwb_union(g, crossing, 2, &why) : GWB_NO_CALL;
}
static enum gwb_kind two_glued(gwb *g) { return gwb_glue_all(g, beside, 2, &why); }
static enum gwb_kind unite_crossing(gwb *g) { return gwb_union(g, crossing, 2, &why); }
static enum gwb_kind subtract(gwb *g) { return gwb_subtract(g, crossing[0], &crossing[1], 1, &why); }
static enum gwb_kind intersect(gwb *g) { return gwb_intersect(g, crossing, 2, &why); }
static enum gwb_kind unite_three(gwb *g) { return gwb_union(g, crossing, 3, &why); }
static enum gwb_kind subtract_two(gwb *g) { return gwb_subtract(g, crossing[0], &crossing[1], 2, &why); }
static enum gwb_kind intersect_three(gwb *g) { return gwb_intersect(g, crossing, 3, &why); }
/* A Boolean that isn't possible, and what it met. */
static enum gwb_kind not_possible(gwb *g, enum gwb_kind kind, uint32_t wanted)
{
    gwb_hit_row hit;
    return kind != GWB_IMPOSSIBLE ? kind : gwb_hit(g, &hit) && hit.kind == wanted && hit.number != 0 && hit.scale.low != 0 ? GWB_OK : GWB_NO_CALL;
}
/* (they touch in a corner of both) */
static enum gwb_kind two_that_touch(gwb *g)
{
    return gwb_block(g, 21, 30, 30, 30, 2, 2, 2) == GWB_OK ? gwb_block(g, 22, 32, 32, 32, 2, 2, 2) : GWB_NO_CALL;
}
/* (a wedge, whose slope is cut between whole points by edges of the block) */
static enum gwb_kind wedge_and_block(gwb *g)
{
    static const gwb_point wedge[] = {{30, 30, 30}, {37, 30, 30}, {30, 30, 33}}, far = {0, 9, 0};
    const enum gwb_kind kind = gwb_profile(g, 21, wedge, 3, &far, &profile, numbers, &why);
    return kind == GWB_OK ? gwb_block(g, 22, 32, 28, 28, 9, 13, 9) : kind;
}
/* (walls across each other, and a block through which they go: faces of all three meet half way between whole points) */
static enum gwb_kind block_and_walls(gwb *g)
{
    static const gwb_point one[] = {{28, 33, 20}, {21, 33, 20}, {21, 28, 20}, {33, 28, 20}}, other[] = {{28, 28, 21}, {33, 33, 21}, {28, 33, 21}}, up = {0, 0, 20};
    const bool is_made = gwb_block(g, 21, 20, 20, 28, 20, 20, 4) == GWB_OK && gwb_profile(g, 22, one, 4, &up, &profile, numbers, &why) == GWB_OK;
    return is_made ? gwb_profile(g, 23, other, 3, &up, &profile, numbers, &why) : GWB_NO_CALL;
}
static enum gwb_kind meet_vertex(gwb *g) { return not_possible(g, gwb_union(g, crossing, 2, &why), GWB_VERTEX); }
static enum gwb_kind meet_edge(gwb *g) { return not_possible(g, gwb_subtract(g, crossing[0], &crossing[1], 1, &why), GWB_EDGE); }
static enum gwb_kind meet_face(gwb *g) { return not_possible(g, gwb_intersect(g, crossing, 3, &why), GWB_FACE); }
static enum gwb_kind separate(gwb *g) { return gwb_separate(g, crossing[0], &why); }
static enum gwb_kind join_faces(gwb *g) { return gwb_join_faces(g, beside[0], &why); }
static enum gwb_kind advice(gwb *g)
{
    gwb_advice *found = NULL;
    enum gwb_kind kind = gwb_off_lattice(g, 1, &plane, 3, &found, &why);
    gwb_advice_free(found);
    return kind;
}

/* What was watched compared: nothing is told of it where memory is refused. */
static enum gwb_kind compare(gwb *g)
{
    const enum gwb_kind kind = gwb_compare(g);
    gwb_change none;
    const bool is_told = gwb_compared(g, GWB_FACE, true, &none, 0) + gwb_compared(g, GWB_EDGE, true, &none, 0) != 0;
    return kind == GWB_MEMORY && is_told ? GWB_NO_CALL : kind;
}

/* What came of what by the command before it. */
static enum gwb_kind became(gwb *g)
{
    gwb_became_row none;
    return gwb_became(g, &none, 0) == SIZE_MAX ? GWB_MEMORY : GWB_OK;
}

static const struct feature {
    const char *name;
    enum gwb_kind (*make)(gwb *g);
    enum gwb_kind (*prepare)(gwb *g); /* what it is made of, where that isn't there for all */
} features[] = {
    {"pocket", pocket, NULL}, {"boss", boss, NULL}, {"hole", hole, NULL}, {"ring", ring, NULL}, {"notch", notch, NULL}, {"slot", slot, NULL},
    {"pad", pad, NULL}, {"groove", groove, NULL}, {"shoulder", shoulder, NULL}, {"chamfer", chamfer, NULL}, {"copy", copy, NULL}, {"move", move, NULL},
    {"kill", kill_one, NULL}, {"profile", make_profile, NULL}, {"pattern", pattern, NULL}, {"around", around, NULL}, {"chamfers", chamfers, NULL},
    {"polyhedron", polyhedron, NULL}, {"scale", scale, NULL}, {"split", split, NULL}, {"advice", advice, NULL}, {"image", image, NULL},
    {"glue_all", glue_all, NULL}, {"drill", drill, NULL}, {"find_faces", find_faces, NULL}, {"find_edges", find_edges, NULL}, {"cut", cut, NULL},
    {"trim", trim, NULL}, {"trim by split", trim_by_split, NULL}, {"union", unite, NULL},
    {"union of two that cross", unite_crossing, two_that_cross}, {"subtract", subtract, two_that_cross}, {"intersect", intersect, two_that_cross},
    {"union of three", unite_three, three_that_cross}, {"subtract two", subtract_two, three_that_cross},
    {"intersect three", intersect_three, three_that_cross},
    {"union that meets a vertex", meet_vertex, two_that_touch}, {"subtract that meets an edge", meet_edge, wedge_and_block},
    {"intersect that meets a face", meet_face, block_and_walls},
    {"crossings", crossings_of_one, two_that_cross}, {"crossings of two", crossings_of_two, two_that_cross},
    {"separate", separate, two_apart}, {"join_faces", join_faces, two_glued}, {"renumber", renumber, NULL}, {"undo", undo, NULL},
    {"redo", redo, NULL}, {"line", line, NULL}, {"compare", compare, NULL},
    {"became", became, two_glued}
};

/* ---- what must be as it was */

struct seen {
    char listing[20000];
    size_t length, mark, depth, recorded;
};

static void look(const gwb *g, struct seen *seen)
{
    seen->length = gwb_read_listing(g, seen->listing, sizeof seen->listing);
    seen->mark = gwb_mark(g);
    seen->depth = gwb_depth(g);
    seen->recorded = gwb_script(g, 0, SIZE_MAX, seen->listing, 0);
}

static bool is_same(const gwb *g, const struct seen *before)
{
    static struct seen now;
    look(g, &now);
    return now.length == before->length && memcmp(now.listing, before->listing, now.length) == 0 && now.mark == before->mark &&
           now.depth == before->depth && now.recorded == before->recorded;
}

/* Where a feature is made: after another one that was undone, so that what it read is known, or not; in a draft, or not; recorded, or not; watched,
 * or not. */
enum { KNOWN = 1, IN_DRAFT = 2, RECORDED = 4, WATCHED = 8, WAYS = 16 };

static void begin(gwb *g, const struct feature *feature, int way)
{
    if (!gwb_open_in(g, &refusing))
        abort();
    if (way & RECORDED)
        gwb_record(g);
    gwb_block(g, 1, 0, 0, 0, 8, 8, 8);
    gwb_block(g, 3, -8, 0, 0, 8, 8, 8);
    if (gwb_profile(g, 4, stepped, 6, &back, &profile, numbers, &why) != GWB_OK)
        abort();
    if (feature->prepare != NULL && feature->prepare(g) != GWB_OK)
        abort();
    if (way & KNOWN && (gwb_pocket(g, 1, corner, 3, 1, &outline, numbers, &why) != GWB_OK || gwb_undo(g) != GWB_OK))
        abort();
    if (way & WATCHED && gwb_watch(g, true) != GWB_OK)
        abort();
    if (way & IN_DRAFT) {
        gwb_draft(g);
        gwb_block(g, 7, 100, 0, 0, 8, 8, 8);
    }
}

static long passed, failed;

static void check(bool is_so, const char *what, const struct feature *feature, int way, long nth)
{
    passed += is_so;
    failed += !is_so;
    if (!is_so)
        printf("%s, way %d, allocation %ld: %s\n", feature->name, way, nth, what);
}

/* The feature with an allocation refused: whether there was one. */
static bool try_refused(const struct feature *feature, int way, long nth)
{
    static struct seen before;
    gwb g = {0};
    begin(&g, feature, way);
    look(&g, &before);
    refuse(&asked, nth + 1, refuses_on ? LONG_MAX : 1);
    enum gwb_kind kind = feature->make(&g);
    const bool was_refused = asked.made > nth;
    refuse(&asked, 1, 0);
    check(kind == GWB_OK || (was_refused && kind == GWB_MEMORY), gwb_kind_text(kind), feature, way, nth); /* a request may be one for speed alone */
    if (kind == GWB_MEMORY) {
        check(is_same(&g, &before), "not as before", feature, way, nth);
        check(feature->make(&g) == GWB_OK, "not made when given again", feature, way, nth);
    }
    gwb_close(&g);
    check(asked.live == 0, "leaks", feature, way, nth);
    asked.live = 0;
    return was_refused;
}

/* ---- work that its caller ends */

static long left; /* so many questions whether to end are answered no */
static bool is_over(void *user) { return (void)user, left-- == 0; }

/* The feature ended at a question: whether there were so many. */
static bool try_stopped(const struct feature *feature, int way, long nth)
{
    static struct seen before;
    gwb g = {0};
    begin(&g, feature, way);
    look(&g, &before);
    left = nth;
    gwb_stop_by(&g, is_over, NULL);
    const enum gwb_kind kind = feature->make(&g);
    const bool was_stopped = left < 0;
    gwb_stop_by(&g, NULL, NULL);
    check(kind == (was_stopped ? GWB_STOPPED : GWB_OK), gwb_kind_text(kind), feature, way, nth);
    check(!was_stopped || is_same(&g, &before), "not as before where it is ended", feature, way, nth);
    check(!was_stopped || feature->make(&g) == GWB_OK, "not made when given again", feature, way, nth);
    gwb_close(&g);
    return was_stopped;
}

int main(int argc, char **argv)
{
    const long every = argc > 1 ? strtol(argv[1], NULL, 10) : 1;
    for (size_t at = 0; at < sizeof features / sizeof features[0]; at++)
        for (int way = 0; way < 2 * WAYS; way++) {
            refuses_on = way >= WAYS;
            const long step = (features[at].prepare != NULL && every > 20 ? 5 : 1) * (refuses_on ? 5 : 1) * every;
            for (long nth = way % WAYS * step / WAYS; try_refused(&features[at], way % WAYS, nth); nth += step)
                ;
        }
    for (size_t at = 0; at < sizeof features / sizeof features[0]; at++)
        for (int way = 0; way < WAYS; way += every > 20 ? 5 : 1)
            for (long nth = 0; try_stopped(&features[at], way, nth); nth++)
                ;
    printf("%ld passed, %ld failed\n", passed, failed);
    return failed != 0;
}
