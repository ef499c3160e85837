/* The record of accepted commands: random commands, as calls and as lines, with undo, redo, drafts and marks. The record's script, given to another
 * session, makes the same model, by as many commands; a record for which memory is refused leaves all as it was. The last line counts.
 *
 *     library_record [ROUNDS]     so many sessions: 200 where none is said */
#include "checks.h"
#include "heaps.h"
#include <stdio.h>
#include <stdlib.h>
#include <string.h>

enum { ROOM = 400000, TURNS = 60 };

static uint64_t seed = 7;
static uint32_t below(uint32_t n) { return at_random(&seed, n); }

static struct requests requests; /* of which one in so many is refused */
static const gwb_heap heap = {take, grow, give_back, &requests};

/* ---- random commands */

static uint32_t any(const gwb *g, uint32_t kind)
{
    uint32_t number = 0;
    if (gwb_number_after(g, kind, below((uint32_t)gwb_greatest_number(g, kind) + 1), &number) != GWB_FOUND)
        gwb_number_after(g, kind, 0, &number);
    return number;
}

static uint32_t free_number(const gwb *g, uint32_t kind) { return (uint32_t)gwb_greatest_number(g, kind) + 1; }

static uint32_t any_half_edge(const gwb *g) { return 2 * any(g, GWB_EDGE) + below(2); }

static int64_t coordinate(void) { return (int64_t)below(40) - 20; }

static enum gwb_kind give_lamina(gwb *g)
{
    const gwb_point points[] = {{coordinate(), 0, 7}, {30, coordinate(), 7}, {25, 40, 7}, {-30, 45, 7}};
    return gwb_lamina(g, free_number(g, GWB_SOLID), points, 3 + below(2));
}

static enum gwb_kind give_part(gwb *g)
{
    uint32_t faces[20], n = 0, solid = any(g, GWB_SOLID);
    for (uint32_t face = 0; n < 20 && gwb_face_after(g, solid, face, &face) == GWB_FOUND;)
        if (below(2) == 0)
            faces[n++] = face;
    return gwb_part(g, faces, n, free_number(g, GWB_SOLID));
}

static enum gwb_kind give_line(gwb *g)
{
    char line[80];
    int n = sprintf(line, " block\t%d %d %d %d 2 3 4", (int)free_number(g, GWB_SOLID), (int)coordinate(), (int)coordinate(), (int)coordinate());
    return gwb_line(g, line, (size_t)n);
}

static enum gwb_kind give(gwb *g)
{
    const int64_t x = coordinate(), y = coordinate(), z = coordinate();
    switch (below(22)) {
    case 0: return gwb_block(g, free_number(g, GWB_SOLID), x, y, z, 1 + below(9), 1 + below(9), 1 + below(9));
    case 1: return give_lamina(g);
    case 2: return gwb_sweep(g, any(g, GWB_FACE), x, y, z);
    case 3: return gwb_split(g, any(g, GWB_SOLID), below(2), below(2), 1, z, free_number(g, GWB_SOLID));
    case 4: return gwb_mvfs(g, free_number(g, GWB_SOLID), free_number(g, GWB_FACE), free_number(g, GWB_LOOP), free_number(g, GWB_VERTEX), x, y, z);
    case 5: {
        const uint32_t loop = any(g, GWB_LOOP);
        return gwb_mev(g, gwb_lone(loop), gwb_lone(loop), free_number(g, GWB_EDGE), free_number(g, GWB_VERTEX), x, y, z);
    }
    case 6: {
        const uint32_t corner = any_half_edge(g);
        return gwb_mev(g, corner, corner, free_number(g, GWB_EDGE), free_number(g, GWB_VERTEX), x, y, z);
    }
    case 7: return gwb_mef(g, any_half_edge(g), any_half_edge(g), free_number(g, GWB_EDGE), free_number(g, GWB_FACE), free_number(g, GWB_LOOP));
    case 8: return gwb_kemr(g, any_half_edge(g), free_number(g, GWB_LOOP));
    case 9: return gwb_kef(g, any_half_edge(g));
    case 10: return gwb_kev(g, any_half_edge(g));
    case 11: return gwb_mekr(g, any_half_edge(g), gwb_lone(any(g, GWB_LOOP)), free_number(g, GWB_EDGE));
    case 12: return gwb_kfmrh(g, any(g, GWB_FACE), any(g, GWB_FACE));
    case 13: return gwb_mfkrh(g, any(g, GWB_LOOP), free_number(g, GWB_FACE));
    case 14: return gwb_ringmv(g, any(g, GWB_LOOP), any(g, GWB_FACE), below(2));
    case 15: return give_line(g);
    case 16: return gwb_kvfs(g, any(g, GWB_SOLID));
    case 17: return gwb_undo(g);
    case 18: return gwb_redo(g);
    case 19: return gwb_line(g, below(2) ? "undo" : " redo\r", below(2) ? 4 : 5);
    default: return gwb_glue(g, any(g, GWB_FACE), any(g, GWB_FACE));
    }
}

/* ---- what is compared */

static char script[ROOM], listing[ROOM], other_listing[ROOM];

/* Gives the recorded commands one after another to a session of its own, each as a draft: in the end both hold the same. */
static void give_again(const gwb *g)
{
    gwb other = {0};
    bool is_accepted = gwb_open(&other);
    for (size_t at = 0; at < gwb_recorded(g) && is_accepted; at++) {
        size_t length = gwb_script(g, at, 1, script, ROOM), given = 0;
        is_accepted = length <= ROOM && gwb_draft(&other) == GWB_OK && gwb_succeeded(gwb_lines(&other, script, length, &given)) &&
                      gwb_commit(&other) == GWB_OK;
    }
    check(is_accepted, "a recorded command isn't accepted");
    size_t length = gwb_read_listing(g, listing, ROOM), other_length = gwb_read_listing(&other, other_listing, ROOM);
    check(length == other_length && length <= ROOM && memcmp(listing, other_listing, length) == 0, "the record makes another model");
    gwb_close(&other);
}

/* Whether no line is of an operator that no script has, or in capitals. */
static bool is_script(const gwb *g)
{
    size_t length = gwb_script(g, 0, SIZE_MAX, script, ROOM - 1);
    script[length < ROOM ? length : ROOM - 1] = '\0';
    bool has_capital = false;
    for (const char *at = script; *at != '\0'; at++)
        has_capital = has_capital || (*at >= 'A' && *at <= 'Z');
    return !has_capital && strstr(script, "part") == NULL && strstr(script, "merge") == NULL && strstr(script, "outer") == NULL;
}

/* Steps of a draft, some of which are taken back, also in the midst of a larger command. */
static void draft(gwb *g)
{
    if (gwb_draft(g) != GWB_OK)
        return;
    size_t mark = 0;
    for (uint32_t turn = below(9); turn-- > 0;) {
        give(g);
        if (below(3) == 0)
            mark = gwb_mark(g);
        if (below(4) == 0)
            gwb_back(g, below(6) == 0 ? below((uint32_t)gwb_mark(g) + 1) : mark);
        if (mark > gwb_mark(g))
            mark = gwb_mark(g);
    }
    below(3) == 0 ? gwb_abandon(g) : gwb_commit(g);
}

static void round_of(gwb *g)
{
    bool has_draft = false;
    check(gwb_record(g) == GWB_OK, "no record");
    for (int turn = 0; turn < TURNS; turn++) {
        size_t depth = gwb_depth(g), bytes = gwb_script(g, 0, SIZE_MAX, script, 0);
        if (below(8) == 0) {
            draft(g);
            has_draft = true;
        } else if (give(g) != GWB_OK)
            check(depth == gwb_depth(g) && bytes == gwb_script(g, 0, SIZE_MAX, script, 0), "what isn't accepted is recorded");
        check(gwb_recorded(g) == gwb_depth(g), "another number of commands");
    }
    if (below(2) == 0)
        give_part(g);
    requests.one_in = 0; /* a listing takes memory too */
    if (is_script(g))
        give_again(g);
    else
        check(has_draft || strstr(script, "part") != NULL, "a line that no script has");
}

/* ---- words that no script has, too little room, and handles that are closed */

static void try_words(void)
{
    gwb g = {0};
    char few[8] = "-------";
    const uint32_t faces[] = {7, 8, 9, 10, 11, 12};
    check(gwb_record(&g) == GWB_CLOSED && gwb_recorded(&g) == SIZE_MAX && gwb_script(&g, 0, 1, few, 8) == SIZE_MAX, "a closed handle");
    if (!gwb_open(&g))
        abort();
    check(gwb_recorded(&g) == 0 && gwb_script(&g, 0, 1, few, 8) == 0, "nothing is recorded");
    gwb_record(&g);
    gwb_block(&g, 1, 0, 0, 0, 4, 4, 4);
    gwb_block(&g, 2, 9, 0, 0, 4, 4, 4);
    gwb_merge(&g, 1, 2);
    gwb_part(&g, faces, 6, 3);
    gwb_draft(&g);
    gwb_sweep(&g, 1, 0, 0, 3);
    gwb_back(&g, 4);
    size_t length = gwb_script(&g, 2, 99, script, ROOM);
    static const char wanted[] = "merge 1 2\npart 3 7 8 9 10 11 12\nSWEEP 1 0 0 3\n";
    check(length == sizeof wanted - 1 && memcmp(script, wanted, length) == 0, "words that no script has");
    check(gwb_script(&g, 0, 1, few, 5) == 20 && memcmp(few, "block--", 7) == 0, "too little room");
    check(gwb_script(&g, 4, 1, script, ROOM) == 14 && gwb_recorded(&g) == 5, "the draft comes last");
    check(gwb_script(&g, 0, 0, script, ROOM) == 0 && gwb_script(&g, 9, 9, script, ROOM) == 0, "none");
    gwb_abandon(&g);
    length = gwb_script(&g, 0, SIZE_MAX, script, 0);
    check(gwb_part(&g, faces, SIZE_MAX / 4, 3) == GWB_MEMORY && gwb_script(&g, 0, SIZE_MAX, script, 0) == length, "a line that is too long for memory");
    gwb_close(&g);
}

/* When recording can begin; and where memory for lines is refused. */
static void try_beginning(void)
{
    gwb g = {0};
    gwb_point points[64] = {{0, 0, 0}};
    if (!gwb_open_in(&g, &heap))
        abort();
    check(gwb_record(&g) == GWB_OK && gwb_record(&g) == GWB_OK, "recorded before");
    check(gwb_block(&g, 1, 0, 0, 0, 4, 4, 4) == GWB_OK && gwb_record(&g) == GWB_OK && gwb_recorded(&g) == 1, "recorded before a command");
    requests.one_in = 1;
    check(gwb_draft(&g) == GWB_MEMORY, "a draft where memory is refused");
    check(gwb_lamina(&g, 1, points, 64) == GWB_MEMORY && gwb_recorded(&g) == 1, "memory for a line is refused");
    check(gwb_line(&g, "volume 1", 8) == GWB_VOLUME && gwb_undo(&g) == GWB_OK && gwb_redo(&g) == GWB_OK && gwb_line(&g, "vol", 3) == GWB_FAULT, "other calls and lines");
    requests.one_in = 0;
    check(gwb_lamina(&g, 1, points, 64) == GWB_REFUSED, "the same command with memory");
    gwb_close(&g);
    if (!gwb_open(&g) || gwb_mvfs(&g, 1, 1, 1, 1, 0, 0, 0) != GWB_OK)
        abort();
    check(gwb_record(&g) == GWB_NO_CALL && gwb_recorded(&g) == 0 && gwb_depth(&g) == 1, "a session that has done something");
    gwb_close(&g);
}

static bool is_another(const gwb *g, uint64_t *changes)
{
    const uint64_t before = *changes;
    return (*changes = gwb_changes(g)) != before;
}

/* The number that tells that the model may have changed: by a command, undo, redo, and steps that were taken back. */
static void try_changes(void)
{
    gwb g = {0};
    uint64_t changes = 0;
    check(gwb_changes(&g) == 0 && gwb_open(&g), "a closed handle has no changes");
    is_another(&g, &changes);
    check(gwb_block(&g, 1, 0, 0, 0, 4, 4, 4) == GWB_OK && is_another(&g, &changes), "a command");
    check(gwb_line(&g, "block 2 9 9 9 1 1 1", 19) == GWB_OK && is_another(&g, &changes), "a line");
    check(gwb_undo(&g) == GWB_OK && is_another(&g, &changes) && gwb_redo(&g) == GWB_OK && is_another(&g, &changes), "undo and redo");
    check(gwb_draft(&g) == GWB_OK && gwb_kvfs(&g, 1) == GWB_REFUSED, "a draft");
    is_another(&g, &changes);
    check(gwb_sweep(&g, 1, 0, 0, 3) == GWB_OK && is_another(&g, &changes) && gwb_back(&g, 0) == GWB_OK && is_another(&g, &changes), "steps taken back");
    check(gwb_sweep(&g, 1, 0, 0, 3) == GWB_OK && is_another(&g, &changes) && gwb_abandon(&g) == GWB_OK && is_another(&g, &changes), "a draft abandoned");
    gwb_close(&g);
}

int main(int argc, char **argv)
{
    const long rounds = argc > 1 ? strtol(argv[1], NULL, 10) : 200;
    try_words();
    try_beginning();
    try_changes();
    for (long round = 0; round < rounds; round++) {
        gwb g = {0};
        requests.one_in = 0;
        if (!gwb_open_in(&g, &heap))
            abort();
        requests.one_in = round % 2 == 0 ? 0 : 3 + (long)below(40);
        while (gwb_record(&g) == GWB_MEMORY)
            ;
        round_of(&g);
        gwb_close(&g);
        check(requests.live == 0, "leaks");
        requests.live = 0;
    }
    return counted();
}
