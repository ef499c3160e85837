/* Outlines, sizes and numbers of features: random outlines are refused where two of their sides meet, by the first such side, as a comparison of all pairs says;
 * one of many points takes no more than its length, however long its sides are; and sizes past all that is in range are refused as one of 4,000,000,000
 * is. A number that no thing can have is NumberRange, whatever it is of. As many tilted planes are found as are asked for. The last line counts.
 *
 *     library_outlines [ROUNDS]     so many hundreds of random outlines: 30 where none is said */
#include "checks.h"
#include "gwb_features.h"
#include "gwb_names.h"
#include <stdio.h>
#include <stdlib.h>
#include <time.h>

enum { MOST = 20000 };

static uint64_t seed = 11;
static int64_t below(int64_t n) { return at_random(&seed, (uint32_t)n); }

/* ---- all pairs of sides compared */

static gwb_point points[MOST];

static int turn(const gwb_point *a, const gwb_point *b, const gwb_point *c)
{
    const int64_t area = (b->x - a->x) * (c->y - a->y) - (b->y - a->y) * (c->x - a->x);
    return (area > 0) - (area < 0);
}

static bool is_between(int64_t at, int64_t one, int64_t other) { return (at - one) * (at - other) <= 0; }

static bool holds(const gwb_point *a, const gwb_point *b, const gwb_point *c)
{
    return turn(a, b, c) == 0 && is_between(c->x, a->x, b->x) && is_between(c->y, a->y, b->y);
}

/* Whether two sides meet, but for an end that neighbours have in common. */
static bool meet(size_t one, size_t other, size_t n)
{
    const gwb_point *a = &points[one], *b = &points[(one + 1) % n], *c = &points[other], *d = &points[(other + 1) % n];
    if (b == c)
        return holds(c, d, a) || holds(a, b, d);
    if (d == a)
        return holds(a, b, c) || holds(c, d, b);
    return holds(a, b, c) || holds(a, b, d) || holds(c, d, a) || holds(c, d, b) || (turn(a, b, c) * turn(a, b, d) < 0 && turn(c, d, a) * turn(c, d, b) < 0);
}

/* The place of the first side that meets a later one: 0 where none does. */
static uint32_t first_crossed(size_t n)
{
    for (size_t one = 0; one < n; one++)
        for (size_t other = one + 1; other < n; other++)
            if (meet(one, other, n))
                return (uint32_t)one + 1;
    return 0;
}

static bool are_different(size_t n)
{
    for (size_t one = 0; one < n; one++)
        for (size_t other = one + 1; other < n; other++)
            if (points[one].x == points[other].x && points[one].y == points[other].y)
                return false;
    return true;
}

static int64_t area(size_t n)
{
    int64_t sum = 0;
    for (size_t at = 0; at < n; at++)
        sum += points[at].x * points[(at + 1) % n].y - points[at].y * points[(at + 1) % n].x;
    return sum;
}

static enum gwb_kind profile(size_t n, gwb_refusal *why)
{
    static uint32_t sides[MOST];
    gwb g = {0};
    gwb_profile_made made;
    if (!gwb_open(&g))
        abort();
    const enum gwb_kind kind = gwb_profile(&g, 1, points, n, &(gwb_point){0, 0, 1}, &made, sides, why);
    gwb_close(&g);
    return kind;
}

static void try_random(long rounds)
{
    long crossed = 0, made = 0;
    for (long round = 0; round < rounds; round++) {
        const size_t n = 3 + (size_t)below(5);
        const int64_t size = 3 + below(6), far = below(8) == 0 ? 100000000 : 1;
        for (size_t at = 0; at < n; at++)
            points[at] = (gwb_point){far * below(size), far * below(size), 0};
        if (!are_different(n) || area(n) == 0)
            continue;
        gwb_refusal why = {0, 0};
        const uint32_t place = first_crossed(n);
        const enum gwb_kind kind = profile(n, &why);
        check(place == 0 ? kind == GWB_OK : kind == GWB_IMPOSSIBLE && why.number == GWB_MISFIT_OUTLINE_CROSSED && why.value == place, "another crossing");
        *(place == 0 ? &made : &crossed) += 1;
    }
    check(rounds < 300 || (crossed > rounds / 5 && made > rounds / 20), "too few of a kind");
}

/* ---- many points */

/* A saw with slanted teeth that are longer than all of it is wide: the box of each side meets that of each other one. */
static size_t saw(int64_t teeth)
{
    size_t n = 0;
    points[n++] = (gwb_point){0, -5, 0};
    points[n++] = (gwb_point){2 * teeth, -5, 0};
    for (int64_t at = 2 * teeth; at >= 0; at--)
        points[n++] = at % 2 == 0 ? (gwb_point){at, 0, 0} : (gwb_point){at + 1000000, 1000000, 0};
    return n;
}

static double time_of_saw(int64_t teeth)
{
    gwb_refusal why;
    const size_t n = saw(teeth);
    const clock_t began = clock();
    check(profile(n, &why) == GWB_OK, "a saw");
    return (double)(clock() - began);
}

/* Four times as many points take some four times as long; all pairs of them would take sixteen times. */
static void try_many(void)
{
    time_of_saw(100);
    check(time_of_saw(8000) < 10 * time_of_saw(2000), "a saw takes more than its length");
}

/* ---- sizes */

enum { POCKET, BOSS, NOTCH, PAD, SLOT, SLOT_DEPTH, GROOVE, GROOVE_DEPTH, SHOULDER, SHOULDER_DEPTH, CHAMFER, CHAMFER_OTHER, CHAMFERS, SCALE, FEATURES };

static enum gwb_kind give(gwb *g, int feature, int64_t far, int64_t size, gwb_refusal *why)
{
    const gwb_point square[] = {{far / 2, far / 2, far}, {far, far / 2, far}, {far, far, far}, {far / 2, far, far}}, start = {0, 0, far}, end = {far, far, far};
    const uint32_t four[] = {1, 2, 3, 4};
    gwb_outline_made made;
    uint32_t sides[4], face;
    switch (feature) {
    case POCKET: return gwb_pocket(g, 1, square, 4, size, &made, sides, why);
    case BOSS: return gwb_boss(g, 1, square, 4, size, &made, sides, why);
    case NOTCH: return gwb_notch(g, 1, square, 4, size, why);
    case PAD: return gwb_pad(g, 1, square, 4, size, why);
    case SLOT: return gwb_slot(g, 1, &start, &end, size, 2, why);
    case SLOT_DEPTH: return gwb_slot(g, 1, &start, &end, 2, size, why);
    case GROOVE: return gwb_groove(g, 1, &start, &end, size, 2, why);
    case GROOVE_DEPTH: return gwb_groove(g, 1, &start, &end, 2, size, why);
    case SHOULDER: return gwb_shoulder(g, 1, 1, size, 2, why);
    case SHOULDER_DEPTH: return gwb_shoulder(g, 1, 1, 2, size, why);
    case CHAMFER: return gwb_chamfer(g, 1, size, 2, &face, why);
    case CHAMFER_OTHER: return gwb_chamfer(g, 1, 2, size, &face, why);
    case CHAMFERS: return gwb_chamfer_edges(g, four, 4, size, sides, why);
    default: return gwb_scale(g, size, why);
    }
}

/* What a feature of a size is told, on a block as large as this both ways from the origin. */
static gwb_refusal told(int feature, int64_t far, int64_t size)
{
    gwb g = {0};
    gwb_refusal why = {0, 0};
    if (!gwb_open(&g))
        abort();
    gwb_block(&g, 1, -far, -far, -far, 2 * far, 2 * far, 2 * far);
    const enum gwb_kind kind = give(&g, feature, far, size, &why);
    check(feature == NOTCH && size > 0 ? kind == GWB_OK : kind == GWB_REFUSED || kind == GWB_IMPOSSIBLE, "a size past all that is in range, which a notch goes through");
    gwb_close(&g);
    why.number += kind == GWB_REFUSED ? 1000 : 0;
    return why;
}

static void try_sizes(void)
{
    const int64_t large[] = {4000000001, INT64_C(1) << 32, 8000000000000, INT64_C(1) << 43, 10000000000000, 4000000000000000, INT64_C(1) << 62, INT64_MAX};
    const int64_t small[] = {0, -1, INT64_MIN};
    for (int feature = 0; feature < FEATURES; feature++)
        for (int64_t far = 10; far <= 1000000000; far *= 100000000) {
            const gwb_refusal wanted = told(feature, far, 4000000000);
            for (size_t at = 0; at < sizeof large / sizeof *large; at++) {
                const gwb_refusal why = told(feature, far, large[at]);
                check(why.number == wanted.number && why.value == wanted.value, "a size past 4,000,000,000 is refused otherwise");
            }
            for (size_t at = 0; at < sizeof small / sizeof *small; at++)
                check(told(feature, far, small[at]).number == 1000 + GWB_WHY_SIZE_RANGE, "a size below 1 is in range");
        }
}

/* ---- numbers */

static const gwb_motion nowhere = {{1, 2, 3}, {0, 0, 9}};

static enum gwb_kind give_number(gwb *g, int call, uint32_t number, gwb_refusal *why)
{
    const gwb_point square[] = {{1, 1, 4}, {2, 1, 4}, {2, 2, 4}}, *start = &square[0], *end = &square[1];
    const gwb_cut_plane plane = {0, 0, 1, -2};
    const uint32_t both[] = {1, number};
    gwb_outline_made made;
    gwb_profile_made profile_made;
    uint32_t found[8];
    size_t count;
    gwb_point points_made[8];
    switch (call) {
    case 0: return gwb_kill_solid(g, number, why);
    case 1: return gwb_copy_solid(g, number, &nowhere, found, why);
    case 2: return gwb_move_solid(g, number, &nowhere, why);
    case 3: return gwb_pattern(g, number, 2, start, found, why);
    case 4: return gwb_glue_all(g, both, 2, why);
    case 5: return gwb_union(g, both, 2, why);
    case 6: return gwb_split_solid(g, number, &plane, 7, why);
    case 7: return gwb_cut(g, number, &plane, 7, why);
    case 8: return gwb_trim(g, number, &plane, why);
    case 9: return gwb_ring(g, number, square, 3, &made, found, found, why);
    case 10: return gwb_pocket(g, number, square, 3, 1, &made, found, why);
    case 11: return gwb_boss(g, number, square, 3, 1, &made, found, why);
    case 12: return gwb_hole(g, number, square, 3, &made, found, why);
    case 13: return gwb_drill(g, number, start, 1, 3, 1, &made, found, points_made, why);
    case 14: return gwb_notch(g, number, square, 3, 1, why);
    case 15: return gwb_slot(g, number, start, end, 2, 1, why);
    case 16: return gwb_groove(g, number, start, end, 2, 1, why);
    case 17: return gwb_shoulder(g, number, 1, 1, 1, why);
    case 18: return gwb_shoulder(g, 1, number, 1, 1, why);
    case 19: return gwb_chamfer(g, number, 1, 1, found, why);
    case 20: return gwb_chamfer_edges(g, both, 2, 1, found, why);
    case 21: return gwb_find_faces(g, &(gwb_face_query){.solid = number}, found, 8, &count, why);
    case 22: return gwb_split_solid(g, 1, &plane, number, why);
    case 23: return gwb_cut(g, 1, &plane, number, why);
    default: return gwb_profile(g, number, square, 3, &(gwb_point){0, 0, 1}, &profile_made, found, why);
    }
}

static void try_numbers(void)
{
    enum { CALLS = 25, NEW = 22 };
    const uint32_t out_of_range[] = {0, 1000001, 4294967295};
    for (int call = 0; call < CALLS; call++) {
        gwb g = {0};
        gwb_refusal why = {0, 0};
        if (!gwb_open(&g))
            abort();
        gwb_block(&g, 1, 0, 0, 0, 4, 4, 4);
        for (size_t at = call == 21; at < 3; at++)
            check(give_number(&g, call, out_of_range[at], &why) == GWB_REFUSED && why.number == GWB_WHY_NUMBER_RANGE && why.value == out_of_range[at],
                  "a number that no thing can have");
        check(call >= NEW || (give_number(&g, call, 999999, &why) == GWB_REFUSED && why.number != GWB_WHY_NUMBER_RANGE && why.value == 999999),
              "a number that no thing has");
        check(gwb_depth(&g) == 1, "what is refused is no command");
        gwb_close(&g);
    }
}

/* Where numbers are spent, a feature says of which kind. */
static void try_spent(void)
{
    const gwb_point square[] = {{1, 1, 4}, {2, 1, 4}, {2, 2, 4}};
    gwb g = {0};
    gwb_refusal why = {0, 0};
    gwb_outline_made made;
    uint32_t sides[3], top;
    if (!gwb_open(&g))
        abort();
    gwb_block(&g, 1, 0, 0, 0, 4, 4, 4);
    gwb_mvfs(&g, 2, 999999, 999, 999, 9, 9, 9);
    for (top = 1; give_number(&g, 9, top, &why) != GWB_OK && top < 6;)
        top++;
    gwb_undo(&g);
    check(gwb_pocket(&g, top, square, 3, 1, &made, sides, &why) == GWB_REFUSED && why.number == GWB_WHY_NUMBERS_SPENT && why.value == GWB_FACE + 1,
          "a pocket where face numbers are spent");
    gwb_close(&g);
}

/* Blocks, each of which is killed as soon as the next one is made, until edges run out. Low numbers are free, which a renumbering gives. */
static void try_each_next(void)
{
    gwb g = {0};
    gwb_refusal why = {0, 0};
    long blocks = 0;
    bool is_well = gwb_open(&g);
    for (; is_well && gwb_block(&g, 1 + blocks % 2, 0, 0, 0, 1, 1, 1) == GWB_OK; blocks++)
        is_well = blocks == 0 || gwb_kill_solid(&g, 2 - blocks % 2, &why) == GWB_OK;
    check(is_well && blocks == 83333 && gwb_last_refusal(&g, &why) == GWB_FOUND && why.number == GWB_WHY_NUMBERS_SPENT, "so many blocks");
    const uint32_t edge = (uint32_t)gwb_greatest_number(&g, GWB_EDGE);
    check(gwb_mev(&g, gwb_plus(edge), gwb_plus(edge), 1000001, 999999, 9, 9, 9) == GWB_REFUSED && gwb_last_refusal(&g, &why) == GWB_FOUND &&
              why.number == GWB_WHY_NUMBER_RANGE,
          "an operator above all numbers");
    check(gwb_renumber(&g, &why) == GWB_OK && gwb_greatest_number(&g, GWB_EDGE) == 12 && gwb_greatest_number(&g, GWB_SOLID) == 1, "low numbers");
    gwb_close(&g);
}

/* Beside a plane that cuts a block between whole points. */
static void try_tilted(void)
{
    const gwb_cut_plane plane = {2, 3, 5, -17};
    gwb g = {0};
    if (!gwb_open(&g))
        abort();
    gwb_block(&g, 1, 0, 0, 0, 8, 8, 8);
    for (size_t most = 0; most < 6; most++) {
        gwb_advice *advice = NULL;
        gwb_refusal why;
        gwb_near_plane planes[16];
        const bool is_told = gwb_off_lattice(&g, 1, &plane, most, &advice, &why) == GWB_OK;
        const size_t count = is_told ? gwb_advice_planes(advice, planes, 16) : 0;
        size_t tilted = 0;
        for (size_t i = 0; i < count && i < 16; i++)
            tilted += !planes[i].is_parallel;
        check(is_told && tilted == most, "so many tilted planes");
        gwb_advice_free(advice);
    }
    gwb_close(&g);
}

int main(int argc, char **argv)
{
    try_random(100 * (argc > 1 ? strtol(argv[1], NULL, 10) : 30));
    try_many();
    try_sizes();
    try_numbers();
    try_spent();
    try_tilted();
    if (argc == 1)
        try_each_next();
    return counted();
}
