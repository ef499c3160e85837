/* What came of what by the last command (gwb_became) in a session that nobody watches, recorded or not, beside one that is watched and compared
 * (library_births.cpp tries that beside whole models), by random commands, features and drafts; and again, where they are undone and redone. Asking changes
 * nothing, nor does asking twice. The last line counts.
 *
 *     library_became [RUNS]     so many runs of 60 commands: 100 where none is said */
#include "checks.h"
#include "gwb_features.h"
#include <stdlib.h>
#include <string.h>

enum { COMMANDS = 60, ROOM = 4000, TEXT = 400000 };

static uint64_t seed = 3;
static uint32_t below(uint32_t n) { return at_random(&seed, n); }

/* ---- what is told */

struct told {
    gwb_became_row rows[ROOM];
    size_t count;
};

static char text[2][TEXT];

/* Whether two models are the same, with what can be undone and redone. */
static bool are_same(const gwb *g, size_t length, size_t depth, size_t ahead)
{
    const size_t now = gwb_read_listing(g, text[1], TEXT);
    return now == length && now <= TEXT && memcmp(text[0], text[1], now) == 0 && gwb_depth(g) == depth && gwb_ahead(g) == ahead;
}

/* What a session says, which is as it was when it has said it. */
static void tell(gwb *g, struct told *told)
{
    const size_t length = gwb_read_listing(g, text[0], TEXT), depth = gwb_depth(g), ahead = gwb_ahead(g), count = gwb_became(g, told->rows, 0);
    const uint64_t changes = gwb_changes(g);
    told->count = gwb_became(g, told->rows, ROOM);
    check(told->count == count && count < ROOM, "asking again gives another answer");
    check(are_same(g, length, depth, ahead) && gwb_changes(g) == changes, "asking changes the session");
}

static bool is_row(const gwb_became_row *a, const gwb_became_row *b) { return a->kind == b->kind && a->old == b->old && a->made == b->made; }
static bool are_births(const gwb_became_row *a, const gwb_became_row *b) { return a->old_birth == b->old_birth && a->made_birth == b->made_birth; }

/* Whether each row is one of others, which rise alike: with the same births, or with none. */
static bool are_among(const struct told *some, const struct told *all, bool has_births)
{
    size_t at = 0;
    for (size_t i = 0; i < some->count; i++) {
        while (at < all->count && !is_row(&some->rows[i], &all->rows[at]))
            at++;
        if (at == all->count || !are_births(&some->rows[i], has_births ? &all->rows[at] : &(const gwb_became_row){0}))
            return false;
    }
    return true;
}

static bool are_equal(const struct told *a, const struct told *b, bool has_births) { return a->count == b->count && are_among(a, b, has_births); }

/* Whether a number went and is another thing's now, which births alone tell. */
static bool has_used_again(const struct told *told)
{
    bool has = false;
    for (size_t i = 0; i < told->count; i++)
        has = has || told->rows[i].old == told->rows[i].made;
    return has;
}

/* ---- random commands: the same to sessions with the same model */

static uint32_t any(const gwb *g, uint32_t kind, uint32_t pick)
{
    uint32_t number = 0;
    if (gwb_number_after(g, kind, pick % (uint32_t)(gwb_greatest_number(g, kind) + 1), &number) != GWB_FOUND)
        gwb_number_after(g, kind, 0, &number);
    return number;
}

static uint32_t greater(const gwb *g, uint32_t kind) { return (uint32_t)gwb_greatest_number(g, kind) + 1; }

static enum gwb_kind cut_face(gwb *g, const uint32_t *n)
{
    uint32_t half_edge = 2 * any(g, GWB_EDGE, n[0]) + n[1] % 2, other = half_edge;
    for (uint32_t steps = n[2] % 4; steps > 0; steps--)
        gwb_next_half_edge(g, other, &other);
    return gwb_mef(g, half_edge, other, greater(g, GWB_EDGE), greater(g, GWB_FACE), greater(g, GWB_LOOP));
}

static enum gwb_kind line(gwb *g, const uint32_t *n)
{
    char split[60];
    const int length = snprintf(split, sizeof split, "split %u 1 0 0 -%u %u", any(g, GWB_SOLID, n[0]), 2 * (n[1] % 9), greater(g, GWB_SOLID));
    return gwb_line(g, split, (size_t)length);
}

/* The last ones touch all solids, where they are watched. */
enum { WORDS = 20, RENUMBER = 18, LINE };

static enum gwb_kind give(gwb *g, uint32_t word, const uint32_t *n)
{
    const uint32_t solid = any(g, GWB_SOLID, n[0]), face = any(g, GWB_FACE, n[1]), edge = any(g, GWB_EDGE, n[2]), both[] = {solid, any(g, GWB_SOLID, n[2])};
    const gwb_cut_plane plane = {n[3] % 2, 1, 0, -2 * (int64_t)(n[4] % 5)};
    const gwb_motion motion = {{2, -1, 3}, {4 * (n[3] % 4), 40, 0}};
    const int64_t x = 2 * (n[3] % 16), y = 2 * (n[4] % 4);
    const gwb_point square[] = {{x + 1, y + 1, 4}, {x + 3, y + 1, 4}, {x + 3, y + 3, 4}, {x + 1, y + 3, 4}};
    uint32_t made = 0, sides[4];
    gwb_outline_made outline;
    gwb_refusal why;
    switch (word) {
    case 0: return gwb_split(g, solid, 0, 0, 1, -(int64_t)(n[3] % 4), greater(g, GWB_SOLID));
    case 1: return cut_face(g, n);
    case 2: return gwb_mev(g, 2 * edge, 2 * edge, greater(g, GWB_EDGE), greater(g, GWB_VERTEX), n[3] % 9, n[4] % 9, n[5] % 9);
    case 3: return gwb_kef(g, 2 * edge);
    case 4: return gwb_kev(g, 2 * edge);
    case 5: return gwb_union(g, both, 2, &why);
    case 6: return gwb_subtract(g, both[0], both + 1, 1, &why);
    case 7: return gwb_glue_all(g, both, 2, &why);
    case 8: return gwb_cut(g, solid, &plane, greater(g, GWB_SOLID), &why);
    case 9: return gwb_notch(g, face, square, 4, 2, &why);
    case 10: return gwb_pad(g, face, square, 4, 2, &why);
    case 11: return gwb_pocket(g, face, square, 4, 1 + n[5] % 3, &outline, sides, &why);
    case 12: return gwb_copy_solid(g, solid, &motion, &made, &why);
    case 13: return gwb_kill_solid(g, solid, &why);
    case 14: return gwb_chamfer(g, edge, 1, 1, &made, &why);
    case 15: return gwb_join_faces(g, solid, &why);
    case 16: return gwb_separate(g, solid, &why);
    case 17: return gwb_sweep(g, face, 0, 0, 1 + n[5] % 2);
    case RENUMBER: return n[5] % 4 == 0 ? gwb_renumber(g, &why) : gwb_sweep(g, face, 0, 0, 2);
    case LINE: return line(g, n);
    default: return gwb_block(g, greater(g, GWB_SOLID), 4 * (n[3] % 8), 4 * (n[4] % 3), 0, 4, 4, 4);
    }
}

struct given {
    uint32_t word, numbers[6];
};

static struct given some(void)
{
    struct given it = {.word = below(WORDS + 3)};
    for (int i = 0; i < 6; i++)
        it.numbers[i] = below(1 << 16);
    return it;
}

/* ---- a session that is asked, one that is recorded and asked, and one that is watched */

static struct told at_depth[COMMANDS + 1], asked, last, compared;
static long used_again, drafts, rows;

static void give_all(gwb *all, enum gwb_kind (*call)(gwb *g))
{
    const enum gwb_kind kind = call(&all[0]);
    check(call(&all[1]) == kind && call(&all[2]) == kind, "another answer where it is recorded or watched");
}

/* What they say of the last command, which was one call, or not. */
static void compare(gwb *all, size_t place, bool is_call)
{
    gwb *g = &all[0], *watched = &all[2];
    tell(&all[1], &last);
    tell(g, &asked);
    check(are_equal(&asked, &last, true), "a command that was recorded");
    check(gwb_compare_from(watched, place) == GWB_OK, "nothing is compared");
    tell(watched, &compared);
    check(gwb_watch(watched, false) == GWB_OK, "no watch"); /* (what was compared isn't told any more) */
    tell(watched, &last);
    check(are_among(&last, &compared, true) && (!is_call || are_equal(&compared, &last, true)), "a watched command, compared or not");
    const bool is_used_again = has_used_again(&last);
    check(is_used_again || are_equal(&asked, &last, false), "a command that wasn't watched, and one that was");
    used_again += is_used_again;
    rows += (long)asked.count;
    at_depth[gwb_depth(g)] = asked;
}

static enum gwb_kind back(gwb *g) { return gwb_back(g, gwb_mark(g) * 2 / 3); }

/* One command, or a draft of some, of which some steps may be taken back. */
static void make(gwb *all)
{
    const bool is_draft = below(5) == 0;
    size_t place = 0, made = 0;
    struct given it = some();
    check(gwb_watch_from(&all[2], &place) == GWB_OK, "no watch from a place");
    if (is_draft)
        give_all(all, gwb_draft);
    for (uint32_t calls = is_draft ? 4 : 1; calls > 0; calls--, it = calls > 0 ? some() : it) {
        const enum gwb_kind kind = give(&all[0], it.word, it.numbers);
        check(give(&all[1], it.word, it.numbers) == kind && give(&all[2], it.word, it.numbers) == kind, "another answer where it is recorded or watched");
        made += kind == GWB_OK;
    }
    if (is_draft) {
        check(gwb_became(&all[0], asked.rows, ROOM) == 0, "a draft has no last command");
        if (below(3) == 0)
            give_all(all, back);
        give_all(all, gwb_commit);
        drafts++;
    }
    if (made > 0 || is_draft)
        compare(all, place, !is_draft && it.word != RENUMBER && it.word != LINE);
    gwb_watch_to(&all[2], place);
}

/* Some are undone, and redone or not: what came of what by the last one is as it was told then. */
static void go_back(gwb *all)
{
    for (uint32_t steps = below(4); steps > 0; steps--)
        give_all(all, gwb_undo);
    for (uint32_t steps = below(3); steps > 0; steps--)
        give_all(all, gwb_redo);
    for (int i = 0; i < 2; i++) {
        const size_t depth = gwb_depth(&all[i]);
        tell(&all[i], &asked);
        check(depth == 0 ? asked.count == 0 : are_equal(&asked, &at_depth[depth], true), "undone or redone, what came of what is another");
    }
    tell(&all[2], &last);
    check(has_used_again(&last) || are_equal(&asked, &last, false), "undone or redone, watched or not");
}

static void try_run(void)
{
    gwb all[3] = {{0}, {0}, {0}};
    for (int i = 0; i < 3; i++)
        if (!gwb_open(&all[i]))
            abort();
    if (gwb_record(&all[1]) != GWB_OK || gwb_watch(&all[2], false) != GWB_OK)
        abort();
    for (int turn = 0; turn < COMMANDS && gwb_greatest_number(&all[0], GWB_EDGE) < 600; turn++) {
        if (below(5) == 0)
            go_back(all);
        make(all);
    }
    for (int i = 0; i < 3; i++)
        gwb_close(&all[i]);
}

/* ---- by hand */

static size_t count_of(const struct told *told, uint32_t kind)
{
    size_t count = 0;
    for (size_t i = 0; i < told->count; i++)
        count += told->rows[i].kind == kind;
    return count;
}

static void expect(gwb *g, enum gwb_kind kind, size_t faces, size_t edges, size_t vertices, const char *what)
{
    check(kind == GWB_OK, what);
    tell(g, &asked);
    const bool is_so = count_of(&asked, GWB_FACE) == faces && count_of(&asked, GWB_EDGE) == edges && count_of(&asked, GWB_VERTEX) == vertices;
    if (!check(is_so, what))
        printf("  %zu faces, %zu edges, %zu vertices\n", count_of(&asked, GWB_FACE), count_of(&asked, GWB_EDGE), count_of(&asked, GWB_VERTEX));
}

/* On a block: parts of its four sides, and of the edges between them, come of a split and go into one again; a seam of four edges goes into another. */
static void try_by_hand(gwb *g)
{
    const uint32_t both[] = {1, 2};
    const gwb_cut_plane middle = {0, 0, 1, -2};
    const gwb_point at_edge[] = {{-1, 1, 4}, {2, 1, 4}, {2, 3, 4}, {-1, 3, 4}};
    gwb_refusal why;
    expect(g, gwb_block(g, 1, 0, 0, 0, 4, 4, 4), 0, 0, 0, "a block");
    expect(g, gwb_split(g, 1, 0, 0, 1, -2, 2), 4, 4, 0, "split");
    expect(g, gwb_glue_all(g, both, 2, &why), 0, 4, 4, "glue_all");
    expect(g, gwb_undo(g), 4, 4, 0, "undo, so that the split is the last one");
    expect(g, gwb_union(g, both, 2, &why), 4, 4, 0, "union");
    expect(g, gwb_cut(g, 1, &middle, 2, &why), 4, 4, 0, "cut");
    expect(g, gwb_kill_solid(g, 2, &why), 0, 0, 0, "kill_solid");
    expect(g, gwb_undo(g), 4, 4, 0, "undo, so that the cut is the last one");
    expect(g, gwb_redo(g), 0, 0, 0, "redo of a kill_solid");
    gwb_undo(g);
    gwb_undo(g);
    expect(g, gwb_notch(g, 1, at_edge, 4, 2, &why), 0, 1, 0, "notch");
    expect(g, gwb_undo(g), 4, 4, 0, "undo, so that the union is the last one");
    expect(g, gwb_mev(g, 2, 2, 90, 90, 1, 1, 1), 0, 0, 0, "mev");
    gwb_undo(g);
    expect(g, gwb_block(g, 2, 1, -1, -1, 2, 6, 6), 0, 0, 0, "a block through it");
    expect(g, gwb_subtract(g, 1, both + 1, 1, &why), 4, 4, 0, "subtract");
    check(gwb_draft(g) == GWB_OK && gwb_became(g, asked.rows, ROOM) == 0, "a draft has no last command");
    expect(g, gwb_abandon(g), 4, 4, 0, "what was before a draft");
    gwb_range told = {0, 0}, redone = {0, 0};
    check(gwb_split(g, 1, 0, 0, 1, -3, 3) == GWB_OK && gwb_split(g, 99, 0, 0, 1, -3, 4) == GWB_REFUSED, "a split, and one that is refused");
    tell(g, &asked);
    const bool is_told = gwb_fresh(g, GWB_FACE, &told) == GWB_FOUND && gwb_reply(g, text[0], TEXT) == 3 && memcmp(text[0], "ok\n", 3) == 0;
    check(gwb_undo(g) == GWB_OK && gwb_redo(g) == GWB_OK && gwb_fresh(g, GWB_FACE, &redone) == GWB_FOUND, "fresh faces");
    check(is_told && told.first == redone.first && told.last == redone.last, "the last answer and fresh numbers aren't as after a redo");
    /* an edge comes where one of a block was that goes */
    gwb_block(g, 9, 50, 0, 0, 4, 4, 4);
    gwb_mvfs(g, 10, 100, 100, 100, 50, 0, 0);
    gwb_draft(g);
    gwb_kill_solid(g, 9, &why);
    gwb_mev(g, gwb_lone(100), gwb_lone(100), 101, 101, 54, 0, 0);
    expect(g, gwb_commit(g), 0, 1, 2, "a draft");
}

int main(int argc, char **argv)
{
    const long runs = argc > 1 ? strtol(argv[1], NULL, 10) : 100;
    for (int is_recorded = 0; is_recorded < 2; is_recorded++) {
        gwb g = {0};
        check(gwb_became(&g, asked.rows, 0) == SIZE_MAX, "a closed handle");
        if (!gwb_open(&g) || (is_recorded && gwb_record(&g) != GWB_OK))
            abort();
        tell(&g, &asked);
        check(asked.count == 0, "no command, and what came of it");
        try_by_hand(&g);
        gwb_close(&g);
    }
    for (long run = 0; run < runs; run++)
        try_run();
    check(runs < 20 || (used_again > 0 && drafts > 20 && rows > 1000), "what is to be tried isn't");
    return counted();
}
