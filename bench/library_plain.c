/* Commands by the functions of the plain C program, in process. They take numbers that are in range, and write no reply. */
#include "library.h"
#include "plain/journal.h"
#include "plain/larger.h"

static bool is_accepted(struct refusal refusal)
{
    return refusal.why == ACCEPTED;
}

static struct refusal draw(uint32_t other, uint32_t edge, uint32_t i)
{
    return act(&(struct step){.operator = MEV, .mev = {DIVIDED, other, 2 * edge, drawn_vertex(i), {(int32_t)i, 0, 9}}});
}

static bool plain_mev(uint32_t i) { return is_accepted(draw(next_corner(i), drawn_edge(i), i)); }
static bool plain_mev_refused(uint32_t i) { return draw(DIVIDED, 1, i).why == EDGE_TAKEN; }
static bool plain_mef(uint32_t i)
{
    return is_accepted(act(&(struct step){.operator = MEF, .mef = {cut_from(i), cut_to(i), 2 * cut_edge(i), cut_face(i), cut_face(i)}}));
}

static bool plain_kef(uint32_t i) { return is_accepted(act(&(struct step){.operator = KEF, .kev = {2 * cut_edge(i)}})); }
static bool plain_kev(uint32_t i) { return is_accepted(act(&(struct step){.operator = KEV, .kev = {2 * drawn_edge(i)}})); }

static bool plain_kvfs_refused(uint32_t i)
{
    return (void)i, act(&(struct step){.operator = KVFS, .kvfs = {NO_SUCH_SOLID}}).why == NO_SOLID;
}

static bool make_block(uint32_t solid, int64_t x)
{
    return is_accepted(block(solid, (struct wide_point){x, 0, 0}, (struct wide_point){4, 4, 4}));
}

static bool plain_block(uint32_t i) { return make_block(block_solid(i), block_place(i)); }
static bool plain_split(uint32_t i) { return is_accepted(split(block_solid(i), (const i64[4]){0, 0, 1, -2}, upper_solid(i))); }
static bool plain_glue(uint32_t i) { return is_accepted(glue(lower_cap(i), upper_cap(i))); }
static bool plain_undo(uint32_t i) { return (void)i, undo(); }
static bool plain_redo(uint32_t i) { return (void)i, redo(); }

static bool begin(void)
{
    return make_block(1, 0);
}

static void restore(void)
{
    while (undo())
        ;
    make_block(1, 0);
}

const struct way plain_way = {
    .name = "plain C", .begin = begin, .restore = restore, .mev = plain_mev, .mef = plain_mef, .kef = plain_kef, .kev = plain_kev, .block = plain_block,
    .split = plain_split, .glue = plain_glue, .undo = plain_undo, .redo = plain_redo, .kvfs_refused = plain_kvfs_refused,
    .mev_refused = plain_mev_refused};
