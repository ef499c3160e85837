/* Commands over the library: as typed calls, and as lines that were written before. */
#include "library.h"
#include "gwb.h"
#include <inttypes.h>
#include <stdio.h>

static gwb g;

static bool begin(void)
{
    return gwb_open(&g) && gwb_block(&g, 1, 0, 0, 0, 4, 4, 4) == GWB_OK;
}

/* The last command forgets what was undone before it. */
static void restore(void)
{
    while (gwb_depth(&g) > 1)
        gwb_undo(&g);
    gwb_mvfs(&g, 2, 7, 7, 9, 0, 0, 0);
    gwb_undo(&g);
}

/* ---- typed calls */

static bool typed_mev(uint32_t i)
{
    return gwb_mev(&g, DIVIDED, next_corner(i), drawn_edge(i), drawn_vertex(i), i, 0, 9) == GWB_OK;
}

static bool typed_mef(uint32_t i) { return gwb_mef(&g, cut_from(i), cut_to(i), cut_edge(i), cut_face(i), cut_face(i)) == GWB_OK; }
static bool typed_kef(uint32_t i) { return gwb_kef(&g, 2 * cut_edge(i)) == GWB_OK; }
static bool typed_kev(uint32_t i) { return gwb_kev(&g, 2 * drawn_edge(i)) == GWB_OK; }
static bool typed_block(uint32_t i) { return gwb_block(&g, block_solid(i), block_place(i), 0, 0, 4, 4, 4) == GWB_OK; }
static bool typed_split(uint32_t i) { return gwb_split(&g, block_solid(i), 0, 0, 1, -2, upper_solid(i)) == GWB_OK; }
static bool typed_glue(uint32_t i) { return gwb_glue(&g, lower_cap(i), upper_cap(i)) == GWB_OK; }
static bool typed_undo(uint32_t i) { return (void)i, gwb_undo(&g) == GWB_OK; }
static bool typed_redo(uint32_t i) { return (void)i, gwb_redo(&g) == GWB_OK; }

static bool typed_count(uint32_t i)
{
    gwb_counts counts;
    return (void)i, gwb_count(&g, 1, &counts) == GWB_COUNT;
}

static bool typed_volume(uint32_t i)
{
    gwb_wide six;
    return (void)i, gwb_volume(&g, 1, &six) == GWB_VOLUME;
}

static bool typed_kvfs_refused(uint32_t i) { return (void)i, gwb_kvfs(&g, NO_SUCH_SOLID) == GWB_REFUSED; }
static bool typed_mev_refused(uint32_t i) { return gwb_mev(&g, DIVIDED, DIVIDED, 1, drawn_vertex(i), 0, 0, 0) == GWB_REFUSED; }

const struct way typed_way = {
    .name = "typed call", .begin = begin, .restore = restore, .mev = typed_mev, .mef = typed_mef, .kef = typed_kef, .kev = typed_kev,
    .block = typed_block, .split = typed_split, .glue = typed_glue, .undo = typed_undo, .redo = typed_redo, .count = typed_count,
    .volume = typed_volume, .kvfs_refused = typed_kvfs_refused, .mev_refused = typed_mev_refused};

/* ---- lines */

struct line {
    char text[64];
    size_t length;
};

static struct line mev_lines[ITEMS], mef_lines[ITEMS], kef_lines[ITEMS], kev_lines[ITEMS], block_lines[ITEMS], split_lines[ITEMS], glue_lines[ITEMS],
    mev_refused_lines[ITEMS];

#define WRITE(line, ...) ((line)->length = (size_t)snprintf((line)->text, sizeof(line)->text, __VA_ARGS__))

static bool begin_lines(void)
{
    for (uint32_t i = 0; i < ITEMS; i++) {
        WRITE(&mev_lines[i], "mev +7 -%" PRIu32 " %" PRIu32 " %" PRIu32 " %" PRIu32 " 0 9", next_corner(i) / 2, drawn_edge(i), drawn_vertex(i), i);
        WRITE(&mev_refused_lines[i], "mev +7 +7 1 %" PRIu32 " 0 0 0", drawn_vertex(i));
        WRITE(&mef_lines[i], "mef +%" PRIu32 " +%" PRIu32 " %" PRIu32 " %" PRIu32 " %" PRIu32, cut_from(i) / 2, cut_to(i) / 2, cut_edge(i), cut_face(i),
              cut_face(i));
        WRITE(&kef_lines[i], "kef +%" PRIu32, cut_edge(i));
        WRITE(&kev_lines[i], "kev +%" PRIu32, drawn_edge(i));
        WRITE(&block_lines[i], "block %" PRIu32 " %" PRId64 " 0 0 4 4 4", block_solid(i), block_place(i));
        WRITE(&split_lines[i], "split %" PRIu32 " 0 0 1 -2 %" PRIu32, block_solid(i), upper_solid(i));
        WRITE(&glue_lines[i], "glue %" PRIu32 " %" PRIu32, lower_cap(i), upper_cap(i));
    }
    return true; /* both ways have one session */
}

static uint32_t give(const struct line *line) { return gwb_line(&g, line->text, line->length); }
#define GIVE(text) gwb_line(&g, text, sizeof text - 1)

static bool line_mev(uint32_t i) { return give(&mev_lines[i]) == GWB_OK; }
static bool line_mef(uint32_t i) { return give(&mef_lines[i]) == GWB_OK; }
static bool line_kef(uint32_t i) { return give(&kef_lines[i]) == GWB_OK; }
static bool line_kev(uint32_t i) { return give(&kev_lines[i]) == GWB_OK; }
static bool line_block(uint32_t i) { return give(&block_lines[i]) == GWB_OK; }
static bool line_split(uint32_t i) { return give(&split_lines[i]) == GWB_OK; }
static bool line_glue(uint32_t i) { return give(&glue_lines[i]) == GWB_OK; }
static bool line_undo(uint32_t i) { return (void)i, GIVE("undo") == GWB_OK; }
static bool line_redo(uint32_t i) { return (void)i, GIVE("redo") == GWB_OK; }
static bool line_count(uint32_t i) { return (void)i, GIVE("count 1") == GWB_COUNT; }
static bool line_volume(uint32_t i) { return (void)i, GIVE("volume 1") == GWB_VOLUME; }
static bool line_kvfs_refused(uint32_t i) { return (void)i, GIVE("kvfs 900000") == GWB_REFUSED; }
static bool line_mev_refused(uint32_t i) { return give(&mev_refused_lines[i]) == GWB_REFUSED; }

const struct way line_way = {
    .name = "line", .begin = begin_lines, .restore = restore, .mev = line_mev, .mef = line_mef, .kef = line_kef, .kev = line_kev, .block = line_block,
    .split = line_split, .glue = line_glue, .undo = line_undo, .redo = line_redo, .count = line_count, .volume = line_volume,
    .kvfs_refused = line_kvfs_refused, .mev_refused = line_mev_refused};
