/* Measures what a call of the library costs, beside other ways to do the same: the least nanoseconds of a call over many rounds, in which all
 * ways have their turn. Each line of the output has a row's name, the way, how often a round has the call, and the time, with tabs between.
 * Under callgrind there are two rounds, and a dump for each row and way in each. library.py makes tables of both. */
#include "library.h"
#include "gwb.h"
#include <stdio.h>
#include <time.h>
#if __has_include(<valgrind/callgrind.h>)
#include <valgrind/callgrind.h>
#else
#define RUNNING_ON_VALGRIND 0
#define CALLGRIND_ZERO_STATS
#define CALLGRIND_DUMP_STATS_AT(name)
#endif

enum { ROUNDS = 300, MANY = 10, ROOM = 160 };

/* ---- calls that only read, on block 1 */

static gwb g;

/* The last answer is a count, for gwb_reply. */
static void count_again(void)
{
    gwb_counts counts;
    gwb_count(&g, 1, &counts);
}

static bool begin_readers(void)
{
    bool is_ready = gwb_open(&g) && gwb_block(&g, 1, 0, 0, 0, 4, 4, 4) == GWB_OK;
    count_again();
    return is_ready;
}

static bool depth(uint32_t i) { return (void)i, gwb_depth(&g) == 1; }

static bool edge_ends(uint32_t i)
{
    gwb_edge_row row;
    return (void)i, gwb_edge(&g, 5, &row) == GWB_FOUND;
}

static bool vertex_point(uint32_t i)
{
    gwb_point point;
    return (void)i, gwb_vertex(&g, 5, &point) == GWB_FOUND;
}

static bool face_row(uint32_t i)
{
    gwb_face_row row;
    return (void)i, gwb_face(&g, 3, &row) == GWB_FOUND;
}

static bool next_half_edge(uint32_t i)
{
    static uint32_t half_edge = 2;
    return (void)i, gwb_next_half_edge(&g, half_edge, &half_edge) == GWB_FOUND;
}

static bool previous_half_edge(uint32_t i)
{
    static uint32_t half_edge = 2;
    return (void)i, gwb_previous_half_edge(&g, half_edge, &half_edge) == GWB_FOUND;
}

static bool half_edge_loop(uint32_t i)
{
    uint32_t loop;
    return gwb_half_edge_loop(&g, 2 + i % 24, &loop) == GWB_FOUND;
}

static bool vertex_half_edge(uint32_t i)
{
    uint32_t half_edge;
    return gwb_vertex_half_edge(&g, 1 + i % 8, &half_edge) == GWB_FOUND;
}

static bool greatest_number(uint32_t i) { return (void)i, gwb_greatest_number(&g, GWB_EDGE) == 12; }

static bool all_half_edges(uint32_t i)
{
    gwb_half_edge_row rows[24];
    return (void)i, gwb_read_half_edges(&g, 0, rows, 24) == 24;
}

static bool half_edges(uint32_t i)
{
    uint32_t found[16];
    return (void)i, gwb_half_edges(&g, 3, found, 16) == 4;
}

static bool number_after(uint32_t i)
{
    uint32_t edge;
    return gwb_number_after(&g, GWB_EDGE, i % 12, &edge) == GWB_FOUND;
}

static bool reply(uint32_t i)
{
    char text[256];
    return (void)i, gwb_reply(&g, text, sizeof text) > 0;
}

static bool comment(uint32_t i) { return (void)i, gwb_line(&g, "# nothing", 9) == GWB_SILENT; }

static const struct way reading = {.name = "call", .begin = begin_readers, .restore = count_again};

/* ---- measuring */

struct cell {
    const char *row;
    const struct way *way;
    command *call;
    uint32_t repeats; /* of all items, in a round */
    bool from_last;
    double least;
};

static struct cell cells[ROOM];
static size_t cell_count;

static void add(const char *row, const struct way *way, command *call, uint32_t repeats)
{
    if (call)
        cells[cell_count++] = (struct cell){row, way, call, repeats, .from_last = call == way->kef || call == way->kev, .least = 1e18};
}

/* A command of which there are many in a round, with its undo and redo; what is redone is there for the rows after it. */
static void add_undone(const char *const rows[3], const struct way *way, command *call)
{
    add(rows[0], way, call, 1);
    add(rows[1], way, call ? way->undo : NULL, 1);
    add(rows[2], way, call ? way->redo : NULL, 1);
}

static void add_commands(const struct way *way)
{
    add_undone((const char *const[]){"`mev`", "`undo` of a `mev`", "`redo` of a `mev`"}, way, way->mev);
    add_undone((const char *const[]){"`mef`", "`undo` of a `mef`", "`redo` of a `mef`"}, way, way->mef);
    add_undone((const char *const[]){"`kef`", "`undo` of a `kef`", "`redo` of a `kef`"}, way, way->kef);
    add("`kev`", way, way->kev, 1);
    add_undone((const char *const[]){"`block`", "`undo` of a `block`", "`redo` of a `block`"}, way, way->block);
    add_undone((const char *const[]){"`split` of a block", "`undo` of a `split`", "`redo` of a `split`"}, way, way->split);
    add_undone((const char *const[]){"`glue` of two parts", "`undo` of a `glue`", "`redo` of a `glue`"}, way, way->glue);
    add("`count` of a block", way, way->count, 1);
    add("`volume` of a block", way, way->volume, 1);
    add("`kvfs` of no solid, refused", way, way->kvfs_refused, MANY);
    add("`mev` of an edge in use, refused", way, way->mev_refused, MANY);
}

static void add_readers(void)
{
    add("`gwb_depth`", &reading, depth, MANY);
    add("`gwb_edge`", &reading, edge_ends, MANY);
    add("`gwb_vertex`", &reading, vertex_point, MANY);
    add("`gwb_face`", &reading, face_row, MANY);
    add("`gwb_next_half_edge`", &reading, next_half_edge, MANY);
    add("`gwb_previous_half_edge`", &reading, previous_half_edge, MANY);
    add("`gwb_half_edge_loop`", &reading, half_edge_loop, MANY);
    add("`gwb_vertex_half_edge`, among 12 edges", &reading, vertex_half_edge, MANY);
    add("`gwb_half_edges`, of four", &reading, half_edges, MANY);
    add("`gwb_read_half_edges`, of 24", &reading, all_half_edges, MANY);
    add("`gwb_greatest_number`, edges", &reading, greatest_number, MANY);
    add("`gwb_number_after`, edges", &reading, number_after, MANY);
    add("`gwb_reply` of a `count`", &reading, reply, MANY);
    add("`gwb_line` of a comment", &reading, comment, MANY);
}

static double now(void)
{
    struct timespec t;
    clock_gettime(CLOCK_MONOTONIC, &t);
    return (double)t.tv_sec * 1e9 + (double)t.tv_nsec;
}

/* Gives the command for every item. */
static bool gives_all(command *call, bool from_last)
{
    uint32_t i = from_last ? ITEMS - 1 : 0, step = from_last ? UINT32_MAX : 1;
    bool well = true;
    for (uint32_t given = 0; given < ITEMS; given++, i += step)
        well &= call(i);
    return well;
}

static uint32_t calls_of(const struct cell *cell)
{
    return cell->repeats * ITEMS;
}

/* Gives a cell's calls of a round; false where one didn't do what it should. */
static bool measure(struct cell *cell)
{
    char name[128];
    snprintf(name, sizeof name, "%s\t%s", cell->row, cell->way->name);
    bool well = true;
    CALLGRIND_ZERO_STATS;
    double began = now();
    for (uint32_t repeat = 0; repeat < cell->repeats; repeat++)
        well &= gives_all(cell->call, cell->from_last);
    double took = (now() - began) / calls_of(cell);
    CALLGRIND_DUMP_STATS_AT(name);
    if (took < cell->least)
        cell->least = took;
    return well;
}

/* Where the ways begin among the cells: each round begins with another one, so that none always comes after the same. */
static size_t begins[8], begin_count;

/* The first cell that failed from a place on and round, or NULL; where another way begins, the one before it is restored. */
static const struct cell *failed_in_round(size_t first)
{
    for (size_t i = 0; i < cell_count; i++) {
        const size_t at = (first + i) % cell_count;
        if (!measure(&cells[at]))
            return &cells[at];
        if (at + 1 == cell_count || cells[at + 1].way != cells[at].way)
            cells[at].way->restore();
    }
    return NULL;
}

int main(void)
{
    const struct way *const ways[] = {&typed_way, &line_way, &cpp_way, &attempt_way, &plain_way, &cgal_way};
    for (size_t at = 0; at < sizeof ways / sizeof *ways && ways[at]->name; at++) {
        if (!ways[at]->begin())
            return 1;
        begins[begin_count++] = cell_count;
        add_commands(ways[at]);
    }
    if (!begin_readers())
        return 1;
    add_readers();
    for (int round = 0; round < (RUNNING_ON_VALGRIND ? 2 : ROUNDS); round++) {
        const struct cell *failed = failed_in_round(begins[(size_t)round % begin_count]);
        if (failed) {
            fprintf(stderr, "%s as %s didn't do what it should\n", failed->row, failed->way->name);
            return 1;
        }
    }
    for (size_t at = 0; at < cell_count; at++)
        printf("%s\t%s\t%u\t%.1f\n", cells[at].row, cells[at].way->name, (unsigned)calls_of(&cells[at]), cells[at].least);
    gwb_close(&g);
    return 0;
}
