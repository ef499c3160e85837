/* Loads listings (gwb_load) with one thing or another changed in them: what is accepted has just this listing, and what isn't leaves the
 * session as it was. Then each request for memory is refused in turn, and the caller ends it (gwb_stop_by) at each question in turn. Random maps
 * of many handles are loaded too. The last line is 'N passed, M failed'. */
#include "checks.h"
#include "heaps.h"
#include <stdio.h>
#include <stdlib.h>
#include <string.h>

enum { ROOM = 1 << 16 };

static long changes = 4000;

static uint64_t seed = 12345;
static uint32_t below(uint32_t n) { return at_random(&seed, n); }

/* The scripts of models: a wire, a triangle, a block beside one with a hole, a face with a lone ring, and four solids. */
static const char *const scripts[] = {
    "mvfs 1 1 1 1 0 0 0\nmev @1 @1 3 2 5 0 0\nmev -3 -3 2 3 5 5 0\nmev +3 +3 7 9 1 1 1\n",
    "mvfs 1 1 1 1 0 0 0\nmev @1 @1 1 2 3 0 0\nmev -1 -1 2 3 0 3 0\nmef -2 +1 3 2 2\nmev +1 -3 4 4 1 1 0\nkev -4\n",
    "block 1 0 0 0 8 8 8\nlamina 2 2 2 8 6 2 8 6 6 8 2 6 8\nsweep 7 0 0 2\n",
    "block 1 0 0 0 8 8 8\nmev +7 +7 40 40 2 2 8\nkemr +40 50\n",
    "block 9 0 0 0 2 2 2\nblock 3 5 0 0 2 2 2\nsplit 9 0 0 1 -1 4\nsplit 3 1 0 0 -6 7\n",
};

static size_t listing_of(gwb *g, char *text)
{
    size_t length = gwb_line(g, "list", 4) == GWB_LISTING ? gwb_reply(g, text, ROOM) : SIZE_MAX;
    return length <= ROOM ? length : 0;
}

/* A block with a hole through it, which takes a command that no script has. */
static void add_hole(gwb *g)
{
    static const gwb_point corners[] = {{2, 2, 8}, {6, 2, 8}, {6, 6, 8}, {2, 6, 8}};
    gwb_range fresh;
    bool is_well = gwb_block(g, 21, 0, 0, 0, 8, 8, 8) == GWB_OK && gwb_fresh(g, GWB_FACE, &fresh) == GWB_FOUND;
    uint32_t top = fresh.first, bottom = fresh.first + 1;
    is_well = is_well && gwb_lamina(g, 22, corners, 4) == GWB_OK && gwb_fresh(g, GWB_FACE, &fresh) == GWB_FOUND;
    is_well = is_well && gwb_merge(g, 21, 22) == GWB_OK && gwb_kfmrh(g, top, fresh.last) == GWB_OK;
    is_well = is_well && gwb_sweep(g, fresh.first, 0, 0, -8) == GWB_OK && gwb_kfmrh(g, bottom, fresh.first) == GWB_OK;
    check(is_well, "a block with a hole");
}

/* Changes a byte, a word, or a line of a text. */
static size_t change(char *text, size_t length)
{
    static const char bytes[] = "0123456789 +-\nabcdefghijklmnopqrstuvwxyz";
    size_t at = below((uint32_t)length), end = at;
    switch (below(4)) {
    case 0: text[at] = bytes[below(sizeof bytes - 1)]; return length;
    case 1: text[at] = (char)('0' + below(10)); return length;
    case 2:
        while (end < length && text[end] != '\n')
            end++;
        memmove(text + at, text + end, length - end);
        return length - (end - at);
    default: memmove(text + at + 1, text + at, length - at); return length + 1;
    }
}

static void try_changed(const char *listing, size_t length)
{
    static char text[ROOM + 1], found[ROOM];
    gwb g = {0};
    gwb_refusal refusal = {0, 0};
    memcpy(text, listing, length);
    length = change(text, length);
    bool is_open = gwb_open(&g);
    enum gwb_kind kind = gwb_load(&g, text, length, &refusal);
    size_t held = listing_of(&g, found);
    bool is_same = held == length && memcmp(found, text, length) == 0, is_empty = held == 6 && memcmp(found, "empty\n", 6) == 0;
    bool is_well = kind == GWB_OK ? is_same && gwb_depth(&g) == 1 : is_empty && gwb_depth(&g) == 0 && gwb_ahead(&g) == 0;
    gwb_close(&g);
    if (!is_open || !is_well || (kind != GWB_OK && kind != GWB_NO_CALL && kind != GWB_REFUSED)) {
        if (failed++ < 3)
            printf("kind %d after loading\n%.*s\n", kind, (int)length, text);
    }
}

/* Loads a listing, and cuts its faces into triangles, where memory is refused from each request on in turn. */
static void try_refused(const char *listing, size_t length)
{
    bool is_well = true, is_done = false;
    for (long most = 0; is_well && !is_done; most++) {
        struct requests requests = {.first_refused = most + 1, .refused = LONG_MAX};
        gwb_heap heap = heap_of(&requests);
        gwb g = {0};
        gwb_refusal refusal;
        gwb_triangle_row row;
        is_well = is_well && gwb_open(&g) && gwb_mvfs(&g, 999, 999999, 999999, 999999, 0, 0, 0) == GWB_OK && gwb_undo(&g) == GWB_OK;
        gwb_use_heap(&heap);
        enum gwb_kind kind = gwb_load(&g, listing, length, &refusal);
        is_done = kind == GWB_OK && gwb_read_triangles(&g, 0, &row, 1) != SIZE_MAX;
        gwb_use_heap(NULL);
        is_well = is_well && (kind == GWB_OK ? gwb_depth(&g) == 1 : kind == GWB_MEMORY && gwb_depth(&g) == 0 && gwb_ahead(&g) == 1);
        gwb_close(&g);
    }
    check(is_well, "memory refused");
}

static long answers; /* so many questions whether to end are answered no */
static bool is_over(void *user) { return (void)user, answers-- == 0; }

/* Loads a listing, in a draft or not, which its caller ends at each question in turn: whether there were so many. */
static bool try_stopped(const char *listing, size_t length, long nth, bool is_draft)
{
    static char found[ROOM];
    gwb g = {0};
    gwb_refusal refusal;
    bool is_well = gwb_open(&g) && gwb_mvfs(&g, 999, 999999, 999999, 999999, 0, 0, 0) == GWB_OK && gwb_undo(&g) == GWB_OK;
    is_well = is_well && (!is_draft || (gwb_draft(&g) == GWB_OK && gwb_mvfs(&g, 998, 999998, 999998, 999998, 0, 0, 0) == GWB_OK));
    const size_t ahead = gwb_ahead(&g), held = gwb_read_listing(&g, found, ROOM);
    answers = nth;
    gwb_stop_by(&g, is_over, NULL);
    enum gwb_kind kind = gwb_load(&g, listing, length, &refusal);
    const bool is_stopped = answers < 0;
    is_well = is_well && kind == (is_stopped ? GWB_STOPPED : GWB_OK);
    is_well = is_well && (!is_stopped || (gwb_read_listing(&g, found, ROOM) == held && gwb_ahead(&g) == ahead && gwb_mark(&g) == is_draft));
    is_well = is_well && (!is_draft || (gwb_abandon(&g) == GWB_OK && gwb_ahead(&g) == 1));
    gwb_close(&g);
    check(is_well, "ended by its caller");
    return is_well && is_stopped;
}

static void try_model(size_t model)
{
    static char listing[ROOM];
    gwb g = {0};
    size_t line = 0;
    check(gwb_open(&g) && gwb_succeeded(gwb_lines(&g, scripts[model], strlen(scripts[model]), &line)), "a script");
    if (model == 2)
        add_hole(&g);
    size_t length = listing_of(&g, listing);
    check(length != 0, "a listing");
    int before = failed;
    for (long i = 0; i < changes; i++)
        try_changed(listing, length);
    check(failed == before, "a listing with something changed in it");
    try_refused(listing, length);
    for (int is_draft = 0; is_draft < 2; is_draft++)
        for (long nth = 0; try_stopped(listing, length, nth, is_draft); nth++)
            ;
    gwb_close(&g);
}

/* ---- random maps: a connected graph, and an order of the half-edges round each vertex, which makes loops */

enum { EDGES = 4000, LISTING = 1 << 18 };

struct map {
    uint32_t vertices, edges, faces, loops;
    uint32_t ends[2 * EDGES];  /* the vertex at which each half-edge starts, of edge 0 on */
    uint32_t after[2 * EDGES]; /* the half-edge after each round its vertex, and then in its loop */
    uint32_t loop[2 * EDGES], face[2 * EDGES];
};

/* Edges between random vertices, each of which has one to an earlier vertex. */
static void draw_edges(struct map *map, uint32_t vertices, uint32_t edges)
{
    map->vertices = vertices, map->edges = edges;
    for (uint32_t i = 0; i < edges; i++) {
        uint32_t one = i + 1 < vertices ? i + 1 : below(vertices), other = below(i + 1 < vertices ? i + 1 : vertices);
        map->ends[2 * i] = one;
        map->ends[2 * i + 1] = other != one ? other : (one + 1) % vertices;
    }
}

/* Puts each half-edge at a random place into the order round its vertex, and makes of these orders those of the loops. */
static void draw_orders(struct map *map)
{
    static uint32_t round[2 * EDGES];
    uint32_t last[EDGES + 1];
    memset(last, 0xff, sizeof last);
    for (uint32_t i = 0; i < 2 * map->edges; i++) {
        uint32_t at = last[map->ends[i]];
        for (uint32_t steps = at != UINT32_MAX ? below(5) : 0; steps > 0; steps--)
            at = round[at];
        round[i] = at != UINT32_MAX ? round[at] : i;
        round[at != UINT32_MAX ? at : i] = i;
        last[map->ends[i]] = i;
    }
    for (uint32_t i = 0; i < 2 * map->edges; i++)
        map->after[i] = round[i ^ 1];
}

/* Numbers the loops by their least half-edges; some are rings of the last face. */
static void draw_faces(struct map *map)
{
    memset(map->loop, 0, sizeof map->loop);
    map->loops = map->faces = 0;
    for (uint32_t i = 0; i < 2 * map->edges; i++) {
        if (map->loop[i] != 0)
            continue;
        map->faces += map->faces == 0 || below(4) != 0;
        map->face[map->loops++] = map->faces;
        for (uint32_t at = i; map->loop[at] == 0; at = map->after[at])
            map->loop[at] = map->loops;
    }
}

static char *write_map_loops(const struct map *map, char *at)
{
    uint32_t written = 0;
    for (uint32_t i = 0; i < 2 * map->edges; i++) {
        if (map->loop[i] <= written)
            continue;
        at += sprintf(at, "loop %u", ++written);
        uint32_t half_edge = i;
        do {
            at += sprintf(at, " %c%u", half_edge % 2 == 0 ? '+' : '-', half_edge / 2 + 1);
            half_edge = map->after[half_edge];
        } while (half_edge != i);
        *at++ = '\n';
    }
    return at;
}

static size_t write_map(const struct map *map, char *text)
{
    char *at = text + sprintf(text, "solid 1");
    for (uint32_t i = 0; i < map->loops; i++)
        at += i == 0 || map->face[i] != map->face[i - 1] ? sprintf(at, "\nface %u 1 %u", map->face[i], i + 1) : sprintf(at, " %u", i + 1);
    *at++ = '\n';
    at = write_map_loops(map, at);
    for (uint32_t i = 0; i < map->edges; i++)
        at += sprintf(at, "edge %u %u %u\n", i + 1, map->ends[2 * i] + 1, map->ends[2 * i + 1] + 1);
    for (uint32_t i = 0; i < map->vertices; i++)
        at += sprintf(at, "vertex %u %u %u 0\n", i + 1, below(100), i);
    return (size_t)(at - text);
}

static void try_map(uint32_t vertices, uint32_t edges, bool is_refused)
{
    static struct map map;
    static char text[LISTING], found[LISTING];
    gwb g = {0};
    gwb_refusal refusal;
    draw_edges(&map, vertices, edges), draw_orders(&map), draw_faces(&map);
    size_t length = write_map(&map, text);
    bool is_loaded = gwb_open(&g) && gwb_load(&g, text, length, &refusal) == GWB_OK && gwb_depth(&g) == 1;
    check(is_loaded && gwb_read_listing(&g, found, sizeof found) == length && memcmp(text, found, length) == 0, "a map");
    gwb_close(&g);
    if (is_refused)
        try_refused(text, length);
}

static void try_maps(void)
{
    for (long i = 0; i < changes / 8 + 4; i++)
        try_map(2 + below(8), 9 + below(30), i % 50 == 0);
    for (uint32_t i = 0; i < 4; i++)
        try_map(2 + i * i * i * 100, EDGES, false);
}

/* Loads a listing of 16 edges, which needs one more on the way, where all others are in use. */
static void try_without_numbers(void)
{
    static const gwb_point square[] = {{2, 2, 8}, {6, 2, 8}, {6, 6, 8}, {2, 6, 8}};
    static char listing[ROOM];
    gwb g = {0};
    gwb_refusal refusal = {0, 0};
    bool is_well = gwb_open(&g) && gwb_block(&g, 1, 0, 0, 0, 8, 8, 8) == GWB_OK && gwb_lamina(&g, 2, square, 4) == GWB_OK;
    is_well = is_well && gwb_merge(&g, 1, 2) == GWB_OK && gwb_kfmrh(&g, 1, 8) == GWB_OK;
    const size_t length = listing_of(&g, listing);
    gwb_close(&g);
    is_well = is_well && gwb_open(&g) && gwb_mvfs(&g, 9, 900, 900, 17, 0, 0, 0) == GWB_OK;
    is_well = is_well && gwb_mev(&g, gwb_lone(900), gwb_lone(900), 17, 18, 1, 0, 0) == GWB_OK;
    for (uint32_t edge = 18; is_well && edge <= 999999; edge++)
        is_well = gwb_mev(&g, gwb_plus(17), gwb_plus(17), edge, edge + 1, edge, 0, 0) == GWB_OK;
    const size_t depth = gwb_depth(&g);
    check(is_well && gwb_mev(&g, gwb_plus(17), gwb_plus(17), 1000000, 16, 1, 1, 0) == GWB_OK, "all edges but 16");
    check(gwb_load(&g, listing, length, &refusal) == GWB_REFUSED && refusal.number != 0 && gwb_depth(&g) == depth + 1, "no number is free");
    gwb_close(&g);
}

static void try_lines(void)
{
    static const char script[] = "# a comment\nblock 1 0 0 0 4 4 4\n\nkvfs 1\nundo\n";
    static const char cones[] =
        "solid 2\nface 11 2 11\nface 12 2 12\nface 13 2 13\nface 14 2 14\nface 15 2 15\nface 16 2 16\nface 17 2 17\nface 18 2 18\n"
        "loop 11 +21 +22 +23\nloop 12 -23 +24 +25\nloop 13 -22 +26 -24\nloop 14 -21 -25 -26\nloop 15 +27 +28 +29\n"
        "loop 16 -27 +30 +31\nloop 17 -28 -31 +32\nloop 18 -29 -32 -30\nedge 21 31 33\nedge 22 33 32\nedge 23 32 31\n"
        "edge 24 32 34\nedge 25 34 31\nedge 26 33 34\nedge 27 31 35\nedge 28 35 36\nedge 29 36 31\nedge 30 31 37\nedge 31 37 35\n"
        "edge 32 37 36\nvertex 31 0 0 0\nvertex 32 6 0 0\nvertex 33 0 6 0\nvertex 34 0 0 6\nvertex 35 -6 0 0\nvertex 36 0 -6 0\n"
        "vertex 37 0 0 -6\n";
    gwb g = {0};
    size_t line = 9;
    gwb_refusal refusal;
    check(gwb_lines(&g, script, sizeof script - 1, &line) == GWB_CLOSED && line == 0, "a closed handle");
    check(gwb_load(&g, cones, sizeof cones - 1, &refusal) == GWB_CLOSED && !gwb_is_open(&g), "loading into a closed handle");
    answers = 0;
    gwb_stop_by(&g, is_over, NULL);
    check(gwb_open(&g) && gwb_load(&g, cones, sizeof cones - 1, &refusal) == GWB_NO_CALL && answers == 0, "nothing is asked for of a closed handle");
    check(gwb_is_open(&g) && gwb_lines(&g, script, 0, &line) == GWB_SILENT && line == 0, "no script");
    check(gwb_lines(&g, script, sizeof script - 1, &line) == GWB_REFUSED && line == 4 && gwb_depth(&g) == 1, "a script up to its line 4");
    check(gwb_load(&g, "solid 1\n", 8, &refusal) == GWB_NO_CALL && gwb_depth(&g) == 1, "a solid without a face");
    check(gwb_load(&g, cones, sizeof cones - 1, &refusal) == GWB_NO_CALL && gwb_depth(&g) == 1, "two solids in one that touch in a vertex");
    check(gwb_mvfs(&g, 2, 11, 11, 31, 0, 0, 0) == GWB_OK && gwb_load(&g, cones, sizeof cones - 1, &refusal) == GWB_NO_CALL && gwb_undo(&g) == GWB_OK,
          "the same, where its numbers are in use");
    check(gwb_load(&g, "", 0, &refusal) == GWB_NO_CALL && gwb_load(&g, "\n", 1, &refusal) == GWB_NO_CALL && gwb_depth(&g) == 1, "no line");
    check(gwb_load(&g, "empty\n", 6, &refusal) == GWB_OK && gwb_depth(&g) == 2 && gwb_undo(&g) == GWB_OK, "the empty model");
    check(gwb_draft(&g) == GWB_OK && gwb_load(&g, "solid 2\nface 9 2 9\nloop 9 at 9\nvertex 9 1 2 3\n", 46, &refusal) == GWB_OK, "a vertex in a draft");
    check(gwb_mark(&g) == 1 && gwb_load(&g, "solid 1\nface 8 1 8\nloop 8 at 8\nvertex 8 1 2 3\n", 46, &refusal) == GWB_REFUSED && refusal.value == 1 &&
              gwb_mark(&g) == 1,
          "a number that is in use");
    check(gwb_commit(&g) == GWB_OK && gwb_depth(&g) == 2, "one command");
    gwb_close(&g);
}

int main(int count, char **words)
{
    changes = count > 1 ? atol(words[1]) : changes;
    if (changes > 100)
        try_without_numbers();
    try_lines();
    try_maps();
    for (size_t model = 0; model < sizeof scripts / sizeof *scripts; model++)
        try_model(model);
    return counted();
}
