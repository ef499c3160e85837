/* A program of features, by gwb_features.h: reads it line by line, and writes what each line gives. tests/library_same.py compares it with the same
 * program in other languages. */
#include "gwb_features.h"
#include "gwb_names.h"
#include <stdio.h>
#include <stdlib.h>
#include <string.h>

enum { MOST_WORDS = 80, MOST_NUMBERS = 4096 };

static gwb g;
static gwb_refusal why;
static gwb_outline_made outline;
static gwb_profile_made profile;
static gwb_point corners[MOST_WORDS];
static char text[1 << 20];
static uint32_t made[MOST_NUMBERS], others[MOST_NUMBERS], edges[MOST_NUMBERS], turned[MOST_NUMBERS];
static gwb_crossing crossings[MOST_NUMBERS];

/* ---- the words of a line after the first one: numbers, taken one after another */

static int64_t words[MOST_WORDS];
static size_t given, at;

static int64_t number(void) { return words[at++]; }
static uint32_t name(void) { return (uint32_t)number(); }
static gwb_point point(void)
{
    const int64_t x = number(), y = number();
    return (gwb_point){x, y, number()};
}
static gwb_cut_plane plane(void)
{
    const int64_t a = number(), b = number(), c = number();
    return (gwb_cut_plane){a, b, c, number()};
}
static gwb_ratio ratio(void)
{
    const uint64_t numerator = (uint64_t)number();
    return (gwb_ratio){numerator, (uint64_t)number()};
}
/* The points that are left. */
static size_t points(void)
{
    size_t count = 0;
    while (at < given)
        corners[count++] = point();
    return count;
}
/* The numbers that are left, in `others`. */
static size_t names(void)
{
    size_t count = 0;
    while (at < given)
        others[count++] = name();
    return count;
}
/* 0 and a vector; 1, an axis and how many quarter turns about it; 2 and an axis to mirror across. */
static gwb_motion motion(void)
{
    const int64_t way = number();
    gwb_motion found = {{1, 2, 3}, {0, 0, 0}};
    if (way == 0) {
        found.by = point();
        return found;
    }
    const size_t axis = (size_t)number(), first = (axis + 1) % 3, second = (axis + 2) % 3;
    if (way == 2)
        found.axes[axis] *= -1;
    for (int64_t times = way == 1 ? number() : 0; times > 0; times--) {
        const int32_t to_first = -found.axes[second];
        found.axes[second] = found.axes[first];
        found.axes[first] = to_first;
    }
    return found;
}

/* ---- what a line gives */

static void put(const uint32_t *numbers, size_t n)
{
    for (size_t i = 0; i < n; i++)
        printf(" %u", (unsigned)numbers[i]);
}

/* A part of a place: a whole number, or a fraction in lowest terms. */
static void put_part(int64_t part, int64_t scale)
{
    int64_t common = part < 0 ? -part : part, other = scale;
    while (other != 0) {
        const int64_t left = common % other;
        common = other;
        other = left;
    }
    printf(" %lld", (long long)(part / common));
    if (scale != common)
        printf("/%lld", (long long)(scale / common));
}

static void put_place(const gwb_wide *place, gwb_wide scale)
{
    for (size_t axis = 0; axis < 3; axis++)
        put_part((int64_t)place[axis].low, (int64_t)scale.low);
}

/* Why a feature isn't possible: the cause, the thing that was met, and where. */
static void put_misfit(void)
{
    static const char *things[] = {"solid", "face", "loop", "edge", "vertex"};
    gwb_hit_row hit;
    printf("%s %u", gwb_misfit_name(why.number), (unsigned)why.value);
    if (!gwb_hit(&g, &hit))
        abort();
    if (hit.cause != 0)
        printf(" %s", gwb_cause_name(hit.cause));
    if (hit.number != 0 && hit.kind <= GWB_VERTEX)
        printf(" %s %u", things[hit.kind], (unsigned)hit.number);
    if (hit.scale.low == 0)
        return;
    printf(" at");
    put_place(hit.point, hit.scale);
}

/* Whether a line was accepted. If not, its refusal is told. */
static bool is_well(enum gwb_kind kind)
{
    if (kind == GWB_OK)
        printf("ok");
    else if (kind == GWB_REFUSED)
        printf("%s %u", gwb_why_name(why.number), (unsigned)why.value);
    else if (kind == GWB_IMPOSSIBLE)
        put_misfit();
    else if (kind == GWB_NO_CALL)
        printf("NoCall");
    else
        printf("%s", gwb_kind_text(kind));
    return kind == GWB_OK;
}

/* The same of a command of gwb.h. */
static bool is_accepted(enum gwb_kind kind)
{
    if (kind == GWB_REFUSED)
        gwb_last_refusal(&g, &why);
    return is_well(kind);
}

static void put_outline(enum gwb_kind kind, size_t n)
{
    if (is_well(kind)) {
        put((const uint32_t[]){outline.face, outline.loop}, 2);
        put(made, n);
    }
}

static size_t listed(uint32_t list, uint32_t *buf)
{
    const size_t count = gwb_made(&g, list, buf, MOST_NUMBERS);
    if (count > MOST_NUMBERS)
        abort();
    return count;
}

static void put_lists(enum gwb_kind kind, uint32_t first, uint32_t second)
{
    if (!is_well(kind))
        return;
    for (uint32_t list = first; list <= second; list++) {
        const size_t count = listed(list, made);
        printf(" %zu", count);
        put(made, count);
    }
}

static bool is_turned(uint32_t edge, size_t count)
{
    for (size_t i = 0; i < count; i++)
        if (turned[i] == edge)
            return true;
    return false;
}

/* The new faces of a copy, and the half-edges for the first ones of its edges. */
static void put_copy(enum gwb_kind kind, uint32_t solid)
{
    if (!is_well(kind))
        return;
    printf(" %u", (unsigned)solid);
    const size_t count = listed(GWB_MADE_FACES, made), of_edges = listed(GWB_MADE_EDGES, edges), of_turned = listed(GWB_MADE_TURNED, turned);
    for (size_t i = 1; i < count; i += 2)
        put(&made[i], 1);
    for (size_t i = 1; i < of_edges; i += 2)
        printf(" %u", (unsigned)(2 * edges[i] + is_turned(edges[i], of_turned)));
}

static void list(void)
{
    const size_t length = gwb_read_listing(&g, text, sizeof text);
    if (length > sizeof text)
        abort();
    printf("%.*s", (int)length, text);
}

/* A listing, in which ';' stands for the end of a line. */
static void load(char *listing)
{
    for (char *end = listing; (end = strchr(end, ';')) != NULL;)
        *end = '\n';
    is_well(gwb_load(&g, listing, strlen(listing), &why));
}

/* How many edges are cut, and the factor; or all of it, as lines of a script. */
static void put_advice(uint32_t solid, const gwb_cut_plane *cut, bool is_text)
{
    gwb_advice *advice = NULL;
    const enum gwb_kind kind = gwb_off_lattice(&g, solid, cut, 3, &advice, &why);
    if (kind == GWB_OK && is_text) {
        const size_t length = gwb_advice_text(advice, 77, text, sizeof text);
        printf("%.*s", length > sizeof text ? 0 : (int)length, text);
    } else if (is_well(kind)) {
        gwb_edge_cut none;
        printf(" %zu %llu", gwb_advice_cuts(advice, &none, 0), (unsigned long long)gwb_advice_factor(advice).low);
    }
    if (kind == GWB_OK)
        gwb_advice_free(advice);
}

static void find_faces(void)
{
    gwb_face_query query = {name(), NULL, NULL, NULL, NULL};
    const int64_t what = number();
    const gwb_cut_plane in = what == 1 ? plane() : (gwb_cut_plane){0, 0, 0, 0};
    const gwb_point place = what == 2 || what == 3 ? point() : (gwb_point){0, 0, 0};
    const gwb_ratio area = what == 4 ? ratio() : (gwb_ratio){0, 0};
    size_t count = 0;
    query.plane = what == 1 ? &in : NULL;
    query.normal = what == 2 ? &place : NULL;
    query.containing = what == 3 ? &place : NULL;
    query.area = what == 4 ? &area : NULL;
    if (is_well(gwb_find_faces(&g, &query, made, MOST_NUMBERS, &count, &why)))
        put(made, count);
}

static void find_edges(void)
{
    gwb_edge_query query = {name(), {0, 0}, NULL, NULL};
    const int64_t what = number();
    if (what == 1)
        query.between[0] = name(), query.between[1] = name();
    const gwb_point along = what == 2 ? point() : (gwb_point){0, 0, 0};
    const gwb_ratio length = what == 3 ? ratio() : (gwb_ratio){0, 0};
    size_t count = 0;
    query.along = what == 2 ? &along : NULL;
    query.length = what == 3 ? &length : NULL;
    if (is_well(gwb_find_edges(&g, &query, made, MOST_NUMBERS, &count, &why)))
        put(made, count);
}

/* Pairs of faces, and where they meet. */
static void find_crossings(uint32_t solid)
{
    size_t count = 0;
    if (!is_well(gwb_find_crossings(&g, solid, name(), crossings, MOST_NUMBERS, &count, &why)))
        return;
    for (size_t i = 0; i < count; i++) {
        put((const uint32_t[]){crossings[i].first, crossings[i].second}, 2);
        put_place(crossings[i].point, crossings[i].scale);
    }
}

/* ---- the commands */

static void block(uint32_t solid)
{
    const gwb_point corner = point(), sizes = point();
    gwb_block_faces faces;
    if (is_accepted(gwb_block(&g, solid, corner.x, corner.y, corner.z, sizes.x, sizes.y, sizes.z)) && gwb_last_block(&g, &faces) == GWB_FOUND) {
        put((const uint32_t[]){faces.top, faces.bottom}, 2);
        put(faces.sides, 4);
    }
}

static void make_profile(uint32_t solid)
{
    const gwb_point along = point();
    const size_t n = points();
    if (is_well(gwb_profile(&g, solid, corners, n, &along, &profile, made, &why))) {
        put((const uint32_t[]){profile.far, profile.base}, 2);
        put(made, n);
    }
}

static void ring(uint32_t face)
{
    const size_t n = points();
    const enum gwb_kind kind = gwb_ring(&g, face, corners, n, &outline, made, others, &why);
    put_outline(kind, n);
    if (kind == GWB_OK)
        put(others, n);
}

static void drill(uint32_t face, bool is_along)
{
    const gwb_point center = point();
    const int64_t radius = number();
    const uint32_t sides = name();
    const gwb_point along = is_along ? point() : (gwb_point){0, 0, 0};
    const enum gwb_kind kind = is_along ? gwb_drill_along(&g, face, &center, radius, sides, &along, &outline, made, corners, &why)
                                        : gwb_drill(&g, face, &center, radius, sides, number(), &outline, made, corners, &why);
    put_outline(kind, sides);
    for (uint32_t i = 0; kind == GWB_OK && i < sides; i++)
        printf(" %lld %lld %lld", (long long)corners[i].x, (long long)corners[i].y, (long long)corners[i].z);
}

static bool is_along(const char *word, uint32_t face)
{
    const bool is_pocket = strcmp(word, "pocket_along") == 0;
    if (!is_pocket && strcmp(word, "boss_along") != 0)
        return false;
    const gwb_point along = point();
    const size_t n = points();
    put_outline((is_pocket ? gwb_pocket_along : gwb_boss_along)(&g, face, corners, n, &along, &outline, made, &why), n);
    return true;
}

static bool is_of_outline(const char *word, uint32_t face)
{
    const bool is_hole = strcmp(word, "hole") == 0, is_pocket = strcmp(word, "pocket") == 0, is_notch = strcmp(word, "notch") == 0;
    const bool is_pad = strcmp(word, "pad") == 0;
    if (!is_hole && !is_pocket && !is_notch && !is_pad && strcmp(word, "boss") != 0)
        return false;
    const int64_t length = is_hole ? 0 : number();
    const size_t n = points();
    if (is_notch || is_pad)
        put_lists((is_pad ? gwb_pad : gwb_notch)(&g, face, corners, n, length, &why), GWB_MADE_FLOOR, GWB_MADE_WALLS);
    else if (is_hole)
        put_outline(gwb_hole(&g, face, corners, n, &outline, made, &why), n);
    else
        put_outline((is_pocket ? gwb_pocket : gwb_boss)(&g, face, corners, n, length, &outline, made, &why), n);
    return true;
}

static bool is_strip(const char *word, uint32_t face)
{
    const bool is_slot = strcmp(word, "slot") == 0;
    if (!is_slot && strcmp(word, "groove") != 0)
        return false;
    const gwb_point start = point(), end = point();
    const int64_t width = number();
    put_lists((is_slot ? gwb_slot : gwb_groove)(&g, face, &start, &end, width, number(), &why), GWB_MADE_FLOOR, GWB_MADE_WALLS);
    return true;
}

static bool is_strip_along(const char *word, uint32_t face)
{
    const bool is_slot = strcmp(word, "slot_along") == 0;
    if (!is_slot && strcmp(word, "groove_along") != 0)
        return false;
    const gwb_point start = point(), end = point();
    const int64_t width = number();
    const gwb_point along = point();
    put_lists((is_slot ? gwb_slot_along : gwb_groove_along)(&g, face, &start, &end, width, &along, &why), GWB_MADE_FLOOR, GWB_MADE_WALLS);
    return true;
}

static bool is_shaped_along(const char *word, uint32_t face)
{
    const bool is_notch = strcmp(word, "notch_along") == 0, is_shoulder = strcmp(word, "shoulder_along") == 0;
    if (!is_notch && !is_shoulder && strcmp(word, "pad_along") != 0)
        return is_strip_along(word, face);
    const uint32_t edge = is_shoulder ? name() : 0;
    const int64_t width = is_shoulder ? number() : 0;
    const gwb_point along = point();
    const size_t n = is_shoulder ? 0 : points();
    put_lists(is_shoulder ? gwb_shoulder_along(&g, face, edge, width, &along, &why)
                          : (is_notch ? gwb_notch_along : gwb_pad_along)(&g, face, corners, n, &along, &why),
              GWB_MADE_FLOOR, GWB_MADE_WALLS);
    return true;
}

static void shoulder(uint32_t face)
{
    const uint32_t edge = name();
    const int64_t width = number();
    put_lists(gwb_shoulder(&g, face, edge, width, number(), &why), GWB_MADE_FLOOR, GWB_MADE_WALLS);
}

static void chamfer(uint32_t edge)
{
    const int64_t width = number();
    if (is_well(gwb_chamfer(&g, edge, width, number(), made, &why)))
        put(made, 1);
}

static void polyhedron(uint32_t solid)
{
    gwb_point corner_points[8];
    uint32_t corners[64], sizes[32];
    gwb_polyhedron_made first;
    const uint32_t count = name(), size = name();
    size_t n = 0, faces = 0;
    for (uint32_t place = 0; place < count; place++)
        corner_points[place] = point();
    for (; at < given; n++)
        corners[n] = name();
    for (; faces < n / size; faces++)
        sizes[faces] = size;
    if (is_well(gwb_polyhedron(&g, solid, corner_points, count, corners, sizes, faces, &first, &why)))
        printf(" %u %u", first.first_vertex, first.first_face);
}

static bool is_of_solid(const char *word, uint32_t solid)
{
    if (strcmp(word, "kill") == 0) {
        is_well(gwb_kill_solid(&g, solid, &why));
    } else if (strcmp(word, "copy") == 0) {
        const gwb_motion way = motion();
        uint32_t copy = 0;
        const enum gwb_kind kind = gwb_copy_solid(&g, solid, &way, &copy, &why);
        put_copy(kind, copy);
    } else if (strcmp(word, "move") == 0) {
        const gwb_motion way = motion();
        is_well(gwb_move_solid(&g, solid, &way, &why));
    } else if (strcmp(word, "pattern") == 0) {
        const uint32_t count = name();
        const gwb_point step = point();
        if (is_well(gwb_pattern(&g, solid, count, &step, made, &why)))
            put(made, count - 1);
    } else if (strcmp(word, "pattern_around") == 0) {
        const uint32_t count = name(), axis = name(), quarters = name();
        const gwb_point about = point();
        if (is_well(gwb_pattern_around(&g, solid, count, axis, quarters, &about, made, &why)))
            put(made, count - 1);
    } else if (strcmp(word, "polyhedron") == 0) {
        polyhedron(solid);
    } else if (strcmp(word, "separate") == 0) {
        put_lists(gwb_separate(&g, solid, &why), GWB_MADE_SOLIDS, GWB_MADE_SOLIDS);
    } else if (strcmp(word, "join_faces") == 0) {
        is_well(gwb_join_faces(&g, solid, &why));
    } else {
        return false;
    }
    return true;
}

static bool is_of_plane(const char *word, uint32_t solid)
{
    const bool is_split = strcmp(word, "split") == 0, is_trim = strcmp(word, "trim") == 0, is_advice = strcmp(word, "off_lattice") == 0;
    const bool is_text = strcmp(word, "advice") == 0;
    if (!is_split && !is_trim && !is_advice && !is_text && strcmp(word, "cut") != 0)
        return false;
    const gwb_cut_plane cut = plane();
    if (is_advice || is_text)
        put_advice(solid, &cut, is_text);
    else if (is_trim)
        put_lists(gwb_trim(&g, solid, &cut, &why), GWB_MADE_LOWER_CAPS, GWB_MADE_LOWER_CAPS);
    else
        put_lists((is_split ? gwb_split_solid : gwb_cut)(&g, solid, &cut, name(), &why), GWB_MADE_LOWER_CAPS, GWB_MADE_UPPER_CAPS);
    return true;
}

static void chamfer_edges(void)
{
    const int64_t width = number();
    const size_t n = names();
    if (is_well(gwb_chamfer_edges(&g, others, n, width, made, &why)))
        put(made, n);
}

static bool is_of_session(const char *word)
{
    if (strcmp(word, "part") == 0) {
        gwb_close(&g);
        is_well(gwb_open(&g) ? GWB_OK : GWB_MEMORY);
    } else if (strcmp(word, "list") == 0) {
        list();
    } else if (strcmp(word, "undo") == 0) {
        is_accepted(gwb_undo(&g));
    } else if (strcmp(word, "redo") == 0) {
        is_accepted(gwb_redo(&g));
    } else if (strcmp(word, "draft") == 0) {
        is_well(gwb_draft(&g));
    } else if (strcmp(word, "commit") == 0) {
        is_well(gwb_commit(&g));
    } else if (strcmp(word, "abandon") == 0) {
        is_well(gwb_abandon(&g));
    } else if (strcmp(word, "renumber") == 0) {
        put_lists(gwb_renumber(&g, &why), GWB_MADE_SOLIDS, GWB_MADE_SOLIDS);
    } else if (strcmp(word, "scale") == 0) {
        is_well(gwb_scale(&g, number(), &why));
    } else if (strcmp(word, "glue_all") == 0) {
        is_well(gwb_glue_all(&g, others, names(), &why));
    } else if (strcmp(word, "union") == 0) {
        is_well(gwb_union(&g, others, names(), &why));
    } else if (strcmp(word, "intersect") == 0) {
        is_well(gwb_intersect(&g, others, names(), &why));
    } else if (strcmp(word, "chamfer_edges") == 0) {
        chamfer_edges();
    } else if (strcmp(word, "faces") == 0) {
        find_faces();
    } else if (strcmp(word, "edges") == 0) {
        find_edges();
    } else {
        return false;
    }
    return true;
}

static void give(const char *word)
{
    if (is_of_session(word))
        return;
    const uint32_t of = name();
    if (is_of_outline(word, of) || is_along(word, of) || is_strip(word, of) || is_shaped_along(word, of) || is_of_solid(word, of) || is_of_plane(word, of))
        return;
    if (strcmp(word, "block") == 0)
        block(of);
    else if (strcmp(word, "profile") == 0)
        make_profile(of);
    else if (strcmp(word, "ring") == 0)
        ring(of);
    else if (strcmp(word, "subtract") == 0)
        is_well(gwb_subtract(&g, of, others, names(), &why));
    else if (strcmp(word, "drill") == 0 || strcmp(word, "drill_along") == 0)
        drill(of, strcmp(word, "drill_along") == 0);
    else if (strcmp(word, "crossings") == 0)
        find_crossings(of);
    else if (strcmp(word, "shoulder") == 0)
        shoulder(of);
    else if (strcmp(word, "chamfer") == 0)
        chamfer(of);
    else
        abort();
}

int main(void)
{
    char line[4096];
    while (fgets(line, sizeof line, stdin) != NULL) {
        const char *word = strtok(line, " \n");
        given = at = 0;
        printf("> %s\n", word);
        if (strcmp(word, "load") == 0) {
            load(strtok(NULL, ""));
        } else {
            for (const char *next = strtok(NULL, " \n"); next != NULL && given < MOST_WORDS; next = strtok(NULL, " \n"))
                words[given++] = strtoll(next, NULL, 10);
            give(word);
        }
        printf("\n");
    }
    gwb_close(&g);
}
