/* What is touched, and what it was (gwb_watch): a watched and recorded session beside one that isn't, by random calls and lines, over a heap that fills
 * its blocks and refuses requests. The watch decides no answer, and tells each face and edge that is made or gone, or that it lost what was. The last
 * line counts.
 *
 *     library_watch [ROUNDS]     so many sessions: 200 where none is said */
#include "checks.h"
#include "heaps.h"
#include <stdio.h>
#include <stdlib.h>
#include <string.h>

enum { ROOM = 200000, TURNS = 80, MOST = 4000, KINDS = 2 };

static uint64_t seed = 5;
static uint32_t below(uint32_t n) { return at_random(&seed, n); }

/* ---- calls, the same to each session */

struct given {
    uint32_t word;
    uint32_t numbers[8];
    size_t mark;
};

enum { UNDO = 1, REDO, ABANDON, COMMIT, BACK, UNDO_LINE, REDO_LINE, ASK_LINE, VOLUME, DRAFT, SPLIT, SWEEP, MERGE, KVFS, LINE, BLOCK, WORDS };

static enum gwb_kind line(gwb *g, const char *text) { return gwb_line(g, text, strlen(text)); }

static enum gwb_kind line_of_block(gwb *g, const uint32_t *n)
{
    char text[100];
    snprintf(text, sizeof text, " block\t%u %u %u %u 2 2 %u", n[0], n[1], n[2], n[3], n[4] % 3);
    return line(g, text);
}

static enum gwb_kind give(gwb *g, const struct given *it)
{
    const uint32_t *n = it->numbers;
    gwb_wide volume;
    switch (it->word) {
    case UNDO: return gwb_undo(g);
    case REDO: return gwb_redo(g);
    case ABANDON: return gwb_abandon(g);
    case COMMIT: return gwb_commit(g);
    case BACK: return gwb_back(g, it->mark);
    case UNDO_LINE: return line(g, n[0] < 3 ? "undo" : n[0] < 6 ? " undo \t " : "undoes");
    case REDO_LINE: return line(g, n[0] < 4 ? "redo\r" : "redo 1");
    case ASK_LINE: return line(g, n[0] < 3 ? "volume 1" : n[0] < 5 ? "# block" : n[0] < 7 ? "list" : "");
    case VOLUME: return gwb_volume(g, n[0], &volume);
    case DRAFT: return gwb_draft(g);
    case SPLIT: return gwb_split(g, n[0], 1, 0, 0, -(int64_t)n[1], n[7]);
    case SWEEP: return gwb_sweep(g, n[1] + 12, (int64_t)n[2] - 9, 3, 2);
    case MERGE: return gwb_merge(g, n[0], n[7]);
    case KVFS: return gwb_kvfs(g, n[0] == 1 ? UINT32_MAX : n[0] == 2 ? 0 : n[0]);
    case LINE: return line_of_block(g, n);
    default: return gwb_block(g, n[0], n[1], n[2], n[3], n[4], n[5], n[6]);
    }
}

/* Whether it needs memory: a change, a draft of one, a listing as the answer. */
static bool needs_memory(uint32_t word) { return word >= DRAFT; }

static struct given any(const gwb *g)
{
    struct given it = {.word = 1 + below(WORDS + 5), .mark = gwb_mark(g)};
    for (int i = 0; i < 8; i++)
        it.numbers[i] = 1 + below(i == 0 || i == 7 ? 8 : 18);
    if (it.mark > 3 && below(3) == 0)
        it.mark -= 3;
    return it;
}

/* ---- the faces and edges that are there, and those that gwb_compared tells */

static char listing[ROOM], other_listing[ROOM];

static bool are_alike(const gwb *g, const gwb *other)
{
    const size_t length = gwb_read_listing(g, listing, ROOM);
    return length <= ROOM && length == gwb_read_listing(other, other_listing, ROOM) && memcmp(listing, other_listing, length) == 0 &&
           gwb_depth(g) == gwb_depth(other) && gwb_ahead(g) == gwb_ahead(other) && gwb_mark(g) == gwb_mark(other);
}

static const uint32_t kinds[KINDS] = {GWB_FACE, GWB_EDGE};
typedef uint64_t births_of[KINDS][MOST];

/* The births of what there is, by kinds and numbers: 0 of what isn't there. */
static void read_births(const gwb *g, births_of births)
{
    for (size_t kind = 0; kind < KINDS; kind++)
        for (uint32_t number = 0; number < MOST; number++)
            births[kind][number] = gwb_birth(g, kinds[kind], number);
}

static void check_told(const gwb *g, uint32_t kind, bool are_made, const uint64_t *before, const uint64_t *after)
{
    static gwb_born_change rows[MOST];
    static gwb_change changes[MOST];
    static uint64_t told[MOST];
    memset(told, 0, sizeof told);
    bool is_right = gwb_compared(g, kind, are_made, changes, MOST) == gwb_compared_births(g, kind, are_made, rows, MOST);
    for (size_t at = gwb_compared_births(g, kind, are_made, rows, MOST); at-- > 0;) {
        told[rows[at].number] = rows[at].birth;
        is_right = is_right && rows[at].number == changes[at].number && rows[at].other == changes[at].other && (at == 0 || rows[at].number > rows[at - 1].number);
        is_right = is_right && (rows[at].other_birth == 0 || rows[at].other_birth == before[rows[at].other]);
    }
    for (uint32_t number = 0; number < MOST; number++)
        is_right = is_right && told[number] == (after[number] != before[number] ? after[number] : 0);
    check(is_right, kind == GWB_FACE ? "faces that are made or gone" : "edges that are made or gone");
}

static births_of was, is;

/* What happened since births were read: whether it is lost. */
static bool compare(gwb *g, bool is_refused)
{
    if (gwb_compare(g) == GWB_MEMORY) {
        check(is_refused && gwb_compared(g, GWB_FACE, true, NULL, 0) == 0, "what was is lost, though no memory was refused");
        return true;
    }
    read_births(g, is);
    for (size_t kind = 0; kind < KINDS; kind++) {
        check_told(g, kinds[kind], true, was[kind], is[kind]);
        check_told(g, kinds[kind], false, is[kind], was[kind]);
    }
    return false;
}

/* ---- random calls, to a watched session and to one that isn't */

static long lost;

/* In some calls all requests are refused to both, whose kernels make the same ones: so no answer may differ. */
static void round_of(gwb *g, gwb *other, struct requests *r, struct requests *others)
{
    bool is_watched = false, is_refused = false;
    for (int turn = 0; turn < TURNS; turn++) {
        if (below(12) == 0) {
            is_watched = gwb_watch(g, true) == GWB_OK;
            is_refused = false;
            read_births(g, was);
        }
        const struct given it = any(g);
        const bool is_without = below(5) == 0;
        refuse(r, 1, is_without ? LONG_MAX : 0);
        refuse(others, 1, is_without ? LONG_MAX : 0);
        const enum gwb_kind kind = give(g, &it), wanted = give(other, &it);
        refuse(r, 1, 0);
        refuse(others, 1, 0);
        is_refused = is_refused || is_without;
        check(kind == wanted, "another answer where it is watched");
        check(kind != GWB_MEMORY || needs_memory(it.word), "no memory for a call that needs none");
        if (is_watched && below(6) == 0)
            lost += compare(g, is_refused);
    }
    check(are_alike(g, other), "another model where it is watched");
}

static void try_random(long rounds)
{
    for (long round = 0; round < rounds; round++) {
        struct requests r = {0}, others = {0};
        const gwb_heap heap = heap_of(&r), other_heap = heap_of(&others);
        gwb g = {0}, other = {0};
        if (!gwb_open_in(&g, &heap) || !gwb_open_in(&other, &other_heap))
            abort();
        if (round % 3 == 0 && (gwb_record(&g) != GWB_OK || gwb_record(&other) != GWB_OK))
            abort();
        round_of(&g, &other, &r, &others);
        gwb_close(&g);
        gwb_close(&other);
        check(r.live == 0 && others.live == 0, "leaks");
    }
    check(lost > 0 || rounds < 20, "none was lost");
}

/* ---- each request refused in turn, in calls that come to each part of the watch */

static const struct given calls[] = {
    {BLOCK, {1, 0, 0, 0, 4, 4, 4}, 0}, {LINE, {2, 9, 0, 0, 1}, 0},          {UNDO, {0}, 0},     {UNDO_LINE, {1}, 0},        {REDO, {0}, 0},
    {REDO_LINE, {1}, 0},               {SPLIT, {1, 2, 0, 0, 0, 0, 0, 3}, 0}, {DRAFT, {0}, 0},    {BLOCK, {5, 0, 9, 0, 3, 3, 3}, 0},
    {MERGE, {1, 0, 0, 0, 0, 0, 0, 3}, 0}, {BACK, {0}, 1},                   {ASK_LINE, {1}, 0}, {ABANDON, {0}, 0},          {UNDO, {0}, 0},
    {REDO, {0}, 0},                    {DRAFT, {0}, 0},                     {KVFS, {1}, 0},     {BLOCK, {6, 0, 9, 0, 3, 3, 3}, 0},
    {COMMIT, {0}, 0},                  {UNDO, {0}, 0},                      {VOLUME, {1}, 0},   {BLOCK, {7, 9, 9, 9, 3, 3, 3}, 0}};

/* Whether this is the text of the last answer. */
static bool replies(const gwb *g, const char *text)
{
    char reply[100];
    const size_t n = gwb_reply(g, reply, sizeof reply);
    return n == strlen(text) && memcmp(reply, text, n) == 0;
}

/* Gives them, those again that memory was refused to: how many these were. */
static long give_all(gwb *g, bool is_watched)
{
    long refused = 0;
    while (gwb_record(g) == GWB_MEMORY)
        refused++;
    for (size_t at = 0; at < sizeof calls / sizeof *calls; at++) {
        while (is_watched && at % 6 == 2 && gwb_watch(g, true) == GWB_MEMORY)
            ;
        if (at % 6 == 2)
            read_births(g, was);
        while (give(g, &calls[at]) == GWB_MEMORY) {
            check(needs_memory(calls[at].word), "no memory for a call that needs none");
            check(replies(g, "memory\n"), "no memory, and a reply of another answer");
            refused++;
        }
        if (is_watched && at % 6 == 1 && at > 6)
            lost += compare(g, true);
    }
    return refused;
}

/* The calls with each request refused in turn: how often a call was GWB_MEMORY in all. */
static long give_refused(bool is_watched, const gwb *wanted)
{
    long refused = 0;
    for (long first = 1;; first++) {
        struct requests r = {0};
        const gwb_heap heap = heap_of(&r);
        gwb g = {0};
        if (!gwb_open_in(&g, &heap))
            abort();
        refuse(&r, first, 1);
        refused += give_all(&g, is_watched);
        const bool was_reached = r.made >= first;
        refuse(&r, 1, 0);
        check(are_alike(&g, wanted), "another model where a request is refused");
        gwb_close(&g);
        check(r.live == 0, "leaks");
        if (!was_reached)
            return refused;
    }
}

static void try_each_request(void)
{
    gwb g = {0};
    if (!gwb_open(&g))
        abort();
    give_all(&g, false);
    const long wanted = give_refused(false, &g), refused = give_refused(true, &g);
    check(wanted > 10 && refused == wanted, "other calls are refused memory where they are watched");
    gwb_close(&g);
}

/* ---- what a watch is told of, by hand */

static void try_redone(void)
{
    struct requests r = {0};
    const gwb_heap heap = heap_of(&r);
    gwb g = {0};
    if (!gwb_open_in(&g, &heap))
        abort();
    gwb_block(&g, 1, 0, 0, 0, 4, 4, 4);
    gwb_undo(&g);
    check(gwb_watch(&g, true) == GWB_OK, "no watch");
    gwb_redo(&g);
    check(gwb_compare(&g) == GWB_OK && gwb_compared(&g, GWB_FACE, true, NULL, 0) == 6, "what was undone before the watch is redone");
    gwb_block(&g, 2, 9, 0, 0, 4, 4, 4);
    gwb_undo(&g);
    gwb_undo(&g);
    check(gwb_block(&g, 3, 20, 0, 0, 4, 4, 4) == GWB_OK, "a block after what was undone");
    check(gwb_compare(&g) == GWB_OK && gwb_compared(&g, GWB_FACE, true, NULL, 0) == 6, "what is left of three blocks");
    gwb_close(&g);
}

static void try_drafts(void)
{
    gwb g = {0};
    if (!gwb_open(&g))
        abort();
    check(gwb_watch(&g, false) == GWB_OK && gwb_draft(&g) == GWB_OK, "no draft");
    const size_t mark = gwb_mark(&g);
    gwb_block(&g, 1, 0, 0, 0, 4, 4, 4);
    check(gwb_watch(&g, true) == GWB_OK && gwb_back(&g, mark) == GWB_OK, "steps before the watch are taken back");
    check(gwb_compare(&g) == GWB_OK && gwb_compared(&g, GWB_FACE, false, NULL, 0) == 6, "what gwb_back takes back is gone");
    gwb_block(&g, 1, 0, 0, 0, 4, 4, 4);
    check(gwb_watch(&g, true) == GWB_OK && gwb_abandon(&g) == GWB_OK, "a draft before the watch is abandoned");
    check(gwb_compare(&g) == GWB_OK && gwb_compared(&g, GWB_FACE, false, NULL, 0) == 6, "what gwb_abandon takes back is gone");
    gwb_close(&g);
}

static void try_greatest_numbers(void)
{
    gwb g = {0};
    if (!gwb_open(&g))
        abort();
    gwb_block(&g, 1, 0, 0, 0, 4, 4, 4);
    check(gwb_watch(&g, true) == GWB_OK, "no watch");
    check(gwb_kvfs(&g, UINT32_MAX) == GWB_REFUSED && gwb_merge(&g, UINT32_MAX, 1) == GWB_REFUSED, "the greatest number is no solid's");
    check(gwb_compare(&g) == GWB_OK && gwb_compared(&g, GWB_FACE, true, NULL, 0) == 0, "a refused call made nothing");
    gwb_close(&g);
}

static size_t made_from(gwb *g, size_t place)
{
    check(gwb_compare_from(g, place) == GWB_OK, "what is asked for from a place");
    return gwb_compared(g, GWB_FACE, true, NULL, 0);
}

/* Watches one in another, and side by side: none ends another. */
static void try_nested(void)
{
    gwb g = {0};
    size_t outer = 0, inner = 0;
    check(gwb_watch(&g, true) == GWB_CLOSED && gwb_watch_from(&g, &outer) == GWB_CLOSED && gwb_compare_from(&g, 1) == GWB_CLOSED, "a closed handle");
    check(gwb_compared(&g, GWB_FACE, true, NULL, 0) == 0 && gwb_compared(&g, GWB_EDGE, false, NULL, 0) == 0, "no changes of a closed handle");
    gwb_watch_to(&g, 1);
    if (!gwb_open(&g))
        abort();
    check(gwb_compare_from(&g, 1) == GWB_NO_CALL && gwb_compare(&g) == GWB_OK, "nothing is asked for");
    check(gwb_watch_from(&g, &outer) == GWB_OK && outer != 0, "no outer watch");
    gwb_block(&g, 1, 0, 0, 0, 4, 4, 4);
    check(gwb_watch_from(&g, &inner) == GWB_OK && inner != outer, "no inner watch");
    gwb_split(&g, 1, 0, 0, 1, -2, 2);
    check(gwb_watch(&g, true) == GWB_OK, "no watch beside them");
    gwb_block(&g, 3, 9, 0, 0, 4, 4, 4);
    check(made_from(&g, outer) == 18 && made_from(&g, inner) == 12 && made_from(&g, 0) == 6, "each tells what came after it");
    check(gwb_compare(&g) == GWB_OK && gwb_compared(&g, GWB_FACE, true, NULL, 0) == 6, "gwb_compare tells what came after gwb_watch");
    gwb_watch_to(&g, inner);
    check(gwb_compare_from(&g, inner) == GWB_NO_CALL && gwb_compared(&g, GWB_FACE, true, NULL, 0) == 0, "what is ended isn't asked for");
    check(gwb_watch(&g, false) == GWB_OK && gwb_compare(&g) == GWB_OK && gwb_compared(&g, GWB_FACE, true, NULL, 0) == 0, "nor that of gwb_watch");
    gwb_undo(&g);
    check(made_from(&g, outer) == 12, "the outer watch goes on");
    check(gwb_watch_from(&g, &inner) == GWB_OK && gwb_compare_from(&g, inner) == GWB_OK, "another inner watch");
    gwb_close(&g);
}

/* Each word of a command is recorded where it is a line. */
static void try_words(void)
{
    static const char *const lines[] = {
        "mvfs 1 1 1 1 0 0 0", "mev @1 @1 1 2 9 0 0", "mev -1 -1 2 3 9 9 0",        "mef +1 -2 3 2 2", "kef +3",     "kemr -2 7",
        "mekr @1 -1 2",       "kev -2",              "kev +1",                     "kvfs 1",          "lamina 1 0 0 0 4 0 0 4 4 0",
        "sweep 1 0 0 4",      "kfmrh 1 2",           "ringmv 2 3 in",              "mfkrh 2 2",       "block 2 9 9 9 4 4 4",
        "split 2 0 0 1 -11 3", "glue 16 20"};
    gwb g = {0};
    if (!gwb_open(&g) || gwb_record(&g) != GWB_OK)
        abort();
    for (size_t at = 0; at < sizeof lines / sizeof *lines; at++) {
        check(line(&g, lines[at]) == GWB_OK, lines[at]);
        check(gwb_recorded(&g) == at + 1, "a line of a command isn't recorded");
    }
    gwb_close(&g);
}

int main(int argc, char **argv)
{
    try_redone();
    try_drafts();
    try_greatest_numbers();
    try_nested();
    try_words();
    try_each_request();
    try_random(argc > 1 ? strtol(argv[1], NULL, 10) : 200);
    return counted();
}
