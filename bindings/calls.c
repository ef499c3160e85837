/* The calls that take memory or change the model, each in the heap of its session. Of the kernel they are kernel_gwb_* here, which the Makefile
 * makes of the names in the lines CALL, CHANGE and OTHER. */
#include "beside.h"
#include "heap.h"
#include "last.h"
#include "record.h"
#include "watch.h"
#include "words.h"

static inline enum gwb_kind counted(const gwb *g, enum gwb_kind kind)
{
    if (kind == GWB_OK)
        beside_of(g)->changes++;
    return kind;
}

/* Begins a call that changes an open session, in its heap: what was in use until then. */
static inline struct used entered(const gwb *g)
{
    struct used before = gwb_used;
    gwb_used = (struct used){beside_of(g)->heap, beside_of(g)->pages};
    return before;
}

/* Whether calls are recorded or watched. */
static inline bool is_noting(const gwb *g) { return beside_of(g)->record != NULL || beside_of(g)->watch != NULL; }

/* What was noted of a call is kept where it was accepted. */
static enum gwb_kind kept(const gwb *g, enum gwb_kind kind)
{
    struct record *r = beside_of(g)->record;
    if (r != NULL && kind == GWB_OK)
        record_keep(r, gwb_mark(g));
    else if (r != NULL)
        record_drop(r);
    if (beside_of(g)->watch != NULL)
        watch_end(beside_of(g)->watch, g, kind == GWB_OK);
    return kind;
}

/* A reader. As many may run at once, it leaves the pages alone; where the heap is the one in use already, it goes on to the kernel as it is. */
#define CALL(name, result, parameters, arguments)                                                                                          \
    result kernel_gwb_##name parameters;                                                                                                   \
    __attribute__((noinline)) static result in_own_##name parameters                                                                       \
    {                                                                                                                                      \
        const gwb_heap *before = gwb_used.heap;                                                                                            \
        gwb_used.heap = beside_of(g)->heap;                                                                                                \
        result answer = kernel_gwb_##name arguments;                                                                                       \
        gwb_used.heap = before;                                                                                                            \
        return answer;                                                                                                                     \
    }                                                                                                                                      \
    result gwb_##name parameters                                                                                                           \
    {                                                                                                                                      \
        return !g->is_open || beside_of(g)->heap == gwb_used.heap ? kernel_gwb_##name arguments : in_own_##name arguments;                    \
    }

/* The answer where memory for what is recorded of a call is refused: it is kept as the last one, and the session or draft stays as it is. */
enum gwb_kind kernel_gwb_lack(gwb *g);

/* A command, with `write` for its line, and `touch` for what it touches. */
#define COMMAND(name, parameters, arguments, write, touch)                                                                                 \
    enum gwb_kind kernel_gwb_##name parameters;                                                                                            \
    __attribute__((noinline)) static enum gwb_kind noted_##name parameters                                                                 \
    {                                                                                                                                      \
        struct record *r = beside_of(g)->record;                                                                                           \
        struct watch *w = beside_of(g)->watch;                                                                                             \
        if (r != NULL && !(write))                                                                                                         \
            return kernel_gwb_lack(g);                                                                                                     \
        if (w != NULL)                                                                                                                     \
            touch;                                                                                                                         \
        return kept(g, kernel_gwb_##name arguments);                                                                                       \
    }                                                                                                                                      \
    enum gwb_kind gwb_##name parameters                                                                                                    \
    {                                                                                                                                      \
        if (!g->is_open)                                                                                                                   \
            return kernel_gwb_##name arguments;                                                                                            \
        struct used before = entered(g);                                                                                                   \
        enum gwb_kind answer = is_noting(g) ? noted_##name arguments : kernel_gwb_##name arguments;                                        \
        gwb_used = before;                                                                                                                 \
        return counted(g, answer);                                                                                                         \
    }

/* One whose line is its word and its values, of these forms (record.h). */
#define CHANGE(name, form, parameters, ...)                                                                                                \
    COMMAND(name, parameters, (g, __VA_ARGS__), record_write(r, #name, form, (const int64_t[]){__VA_ARGS__}, COUNT(__VA_ARGS__)),          \
            watch_touch(w, g, kinds_of(#name), (const int64_t[]){__VA_ARGS__}, COUNT(__VA_ARGS__)))
#define COUNT(...) (sizeof((const int64_t[]){__VA_ARGS__}) / sizeof(int64_t))

CALL(lent_reply, size_t, (gwb *g, char *buf, size_t room), (g, buf, room))
CALL(lent_listing, size_t, (gwb *g, char *buf, size_t room), (g, buf, room))
CALL(lent_is_listing, uint32_t, (gwb *g, const char *text, size_t n), (g, text, n))
CHANGE(mvfs, "nnnnx", (gwb *g, uint32_t solid, uint32_t face, uint32_t loop, uint32_t vertex, int64_t x, int64_t y, int64_t z), solid, face,
       loop, vertex, x, y, z)
CHANGE(kvfs, "n", (gwb *g, uint32_t solid), solid)
CHANGE(mev, "hhnnx", (gwb *g, uint32_t corner, uint32_t other, uint32_t edge, uint32_t vertex, int64_t x, int64_t y, int64_t z), corner,
       other, edge, vertex, x, y, z)
CHANGE(kev, "h", (gwb *g, uint32_t half_edge), half_edge)
CHANGE(mef, "hhn", (gwb *g, uint32_t half_edge, uint32_t other, uint32_t edge, uint32_t face, uint32_t loop), half_edge, other, edge, face,
       loop)
CHANGE(kef, "h", (gwb *g, uint32_t half_edge), half_edge)
CHANGE(kemr, "hn", (gwb *g, uint32_t half_edge, uint32_t ring), half_edge, ring)
CHANGE(mekr, "hhn", (gwb *g, uint32_t corner, uint32_t other, uint32_t edge), corner, other, edge)
CHANGE(kfmrh, "n", (gwb *g, uint32_t face, uint32_t other), face, other)
CHANGE(mfkrh, "n", (gwb *g, uint32_t ring, uint32_t face), ring, face)
CHANGE(ringmv, "nnw", (gwb *g, uint32_t ring, uint32_t face, uint32_t out), ring, face, out)
CHANGE(outer, "n", (gwb *g, uint32_t ring, uint32_t face), ring, face)
CHANGE(merge, "n", (gwb *g, uint32_t solid, uint32_t other), solid, other)
CHANGE(block, "nx", (gwb *g, uint32_t solid, int64_t x, int64_t y, int64_t z, int64_t dx, int64_t dy, int64_t dz), solid, x, y, z, dx, dy, dz)
CHANGE(sweep, "nx", (gwb *g, uint32_t face, int64_t dx, int64_t dy, int64_t dz), face, dx, dy, dz)
CHANGE(glue, "n", (gwb *g, uint32_t face, uint32_t other), face, other)
CHANGE(split, "nxxxxn", (gwb *g, uint32_t solid, int64_t a, int64_t b, int64_t c, int64_t d, uint32_t above), solid, a, b, c, d, above)

/* The same, of a list of more values than those given one by one: a lamina's points, a part's faces. */
static bool write_lamina(struct record *r, uint32_t solid, const gwb_point *points, size_t n)
{
    const int64_t first = solid;
    if (!record_begin(r, "lamina", 3 * n + 1))
        return false;
    record_put(r, "n", &first, 1);
    for (size_t at = 0; at < n; at++)
        record_put(r, "x", (const int64_t[]){points[at].x, points[at].y, points[at].z}, 3);
    return record_end(r), true;
}

static bool write_part(struct record *r, const uint32_t *faces, size_t n, uint32_t solid)
{
    const int64_t first = solid;
    if (!record_begin(r, "part", n + 1))
        return false;
    record_put(r, "n", &first, 1);
    for (size_t at = 0; at < n; at++)
        record_put(r, "n", (const int64_t[]){faces[at]}, 1);
    return record_end(r), true;
}

COMMAND(part, (gwb *g, const uint32_t *faces, size_t n, uint32_t solid), (g, faces, n, solid), write_part(r, faces, n, solid),
        watch_touch(w, g, kinds_of("part"), (const int64_t[]){solid, n > 0 ? faces[0] : 0}, 2))
COMMAND(lamina, (gwb *g, uint32_t solid, const gwb_point *points, size_t n), (g, solid, points, n), write_lamina(r, solid, points, n),
        watch_touch(w, g, kinds_of("lamina"), (const int64_t[]){solid}, 1))

/* ---- undo and redo, and drafts */

/* What the kernel answers, where a session's watch sees before what may change, and its record and watch follow. */
#define FOLLOWED(name, parameters, arguments, call, see, follow, end)                                                                      \
    __attribute__((noinline)) static enum gwb_kind noted_##name parameters                                                                 \
    {                                                                                                                                      \
        struct record *r = beside_of(g)->record;                                                                                           \
        struct watch *w = beside_of(g)->watch;                                                                                             \
        if (w != NULL)                                                                                                                     \
            see;                                                                                                                           \
        enum gwb_kind answer = call;                                                                                                       \
        if (r != NULL && answer == GWB_OK)                                                                                                 \
            follow;                                                                                                                        \
        if (w != NULL && answer == GWB_OK)                                                                                                 \
            end;                                                                                                                           \
        return answer;                                                                                                                     \
    }                                                                                                                                      \
    static inline enum gwb_kind followed_##name parameters                                                                                 \
    {                                                                                                                                      \
        struct used before = entered(g);                                                                                                   \
        enum gwb_kind answer = is_noting(g) ? noted_##name arguments : call;                                                               \
        gwb_used = before;                                                                                                                 \
        return counted(g, answer);                                                                                                         \
    }

#define STEP(name, parameters, arguments, see, follow, end)                                                                                \
    enum gwb_kind kernel_gwb_##name parameters;                                                                                            \
    FOLLOWED(name, parameters, arguments, kernel_gwb_##name arguments, see, follow, end)                                                   \
    enum gwb_kind gwb_##name parameters { return g->is_open ? followed_##name arguments : kernel_gwb_##name arguments; }

STEP(undo, (gwb *g), (g), watch_see_undo(w, g), record_undo(r), watch_undo(w, g))
STEP(redo, (gwb *g), (g), watch_see_redo(w, g), record_redo(r), watch_redo(w, g))
STEP(back, (gwb *g, size_t mark), (g, mark), watch_see_draft(w, g), record_back(r, mark), watch_back(w, g, mark))

enum gwb_kind kernel_gwb_abandon(gwb *g);
FOLLOWED(abandon, (gwb *g), (g), kernel_gwb_abandon(g), watch_see_draft(w, g), record_abandon(r), watch_abandon(w, g))
enum gwb_kind gwb_abandon(gwb *g)
{
    if (!g->is_open)
        return GWB_CLOSED;
    beside_of(g)->is_drafting = false;
    return followed_abandon(g);
}

/* To open a draft, or to make its steps one command, leaves the model as it is. */
enum gwb_kind kernel_gwb_draft(gwb *g);
enum gwb_kind gwb_draft(gwb *g)
{
    if (!g->is_open)
        return GWB_CLOSED;
    struct record *r = beside_of(g)->record;
    struct watch *w = beside_of(g)->watch;
    struct used before = entered(g);
    const bool has_room = r == NULL || record_reserve_draft(r);
    enum gwb_kind answer = has_room ? kernel_gwb_draft(g) : kernel_gwb_lack(g);
    if (r != NULL && answer == GWB_OK)
        record_draft(r);
    if (w != NULL && answer == GWB_OK)
        watch_draft(w);
    if (answer == GWB_OK) {
        beside_of(g)->is_drafting = true;
        forget_became(beside_of(g));
    }
    gwb_used = before;
    return answer;
}

enum gwb_kind kernel_gwb_commit(gwb *g);
enum gwb_kind gwb_commit(gwb *g)
{
    enum gwb_kind answer = kernel_gwb_commit(g);
    if (answer == GWB_OK && beside_of(g)->record != NULL)
        record_commit(beside_of(g)->record);
    if (answer == GWB_OK && beside_of(g)->watch != NULL)
        watch_commit(beside_of(g)->watch);
    if (answer == GWB_OK) {
        beside_of(g)->is_drafting = false;
        forget_became(beside_of(g));
    }
    return answer;
}

/* ---- lines */

/* Before a line is answered: what it makes is told by its first values. */
static void touch_by_line(struct watch *w, const gwb *g, const struct word *command, const char *line, size_t n)
{
    const char *end = line + n;
    int64_t word, values[MOST_VALUES];
    line = read_value(line, end, &word);
    for (size_t at = 0; at < MOST_VALUES; at++)
        line = read_value(line, end, &values[at]);
    watch_touch_any(w, g, command->kinds, values, MOST_VALUES);
}

enum gwb_kind kernel_gwb_line(gwb *g, const char *line, size_t n);
FOLLOWED(undo_line, (gwb *g, const char *line, size_t n), (g, line, n), kernel_gwb_line(g, line, n), watch_see_undo(w, g), record_undo(r), watch_undo(w, g))
FOLLOWED(redo_line, (gwb *g, const char *line, size_t n), (g, line, n), kernel_gwb_line(g, line, n), watch_see_redo(w, g), record_redo(r), watch_redo(w, g))

static enum gwb_kind noted_line(gwb *g, const struct word *command, const char *line, size_t n)
{
    struct record *r = beside_of(g)->record;
    struct watch *w = beside_of(g)->watch;
    if (r != NULL && !record_write_line(r, line, n))
        return kernel_gwb_lack(g);
    if (w != NULL)
        touch_by_line(w, g, command, line, n);
    return kept(g, kernel_gwb_line(g, line, n));
}

enum gwb_kind gwb_line(gwb *g, const char *line, size_t n)
{
    if (!g->is_open)
        return GWB_CLOSED;
    if (is_noting(g) && begins_with(line, n, "undo"))
        return followed_undo_line(g, line, n);
    if (is_noting(g) && begins_with(line, n, "redo"))
        return followed_redo_line(g, line, n);
    struct used before = entered(g);
    const struct word *command = is_noting(g) ? word_of(line, n, SCRIPT_WORDS) : NULL;
    enum gwb_kind answer = command != NULL ? noted_line(g, command, line, n) : kernel_gwb_line(g, line, n);
    gwb_used = before;
    return counted(g, answer);
}

/* ---- sessions */

/* Opens a session whose small blocks lie in these pages. */
bool kernel_gwb_open(gwb *g);
static bool open_in(gwb *g, struct pages *pages)
{
    struct used before = gwb_used;
    gwb_used.pages = pages;
    struct tried block = rattle_alloc(sizeof(struct beside), 16);
    bool is_open = block.ok && kernel_gwb_open(g);
    gwb_used = before;
    if (block.ok && !is_open)
        rattle_dealloc(block.at);
    if (!is_open)
        return false;
    g->beside = block.at;
    *beside_of(g) = (struct beside){.heap = gwb_used.heap, .pages = pages, .begin_several = watch_begin_several, .end_several = watch_end_several};
    return true;
}

bool gwb_open(gwb *g)
{
    struct pages *pages;
    if (g->is_open || !gwb_open_pages(&pages))
        return false;
    bool is_open = open_in(g, pages);
    if (!is_open)
        gwb_close_pages(pages);
    return is_open;
}

void gwb_forget_features(struct beside *of); /* of the features */
void kernel_gwb_close(gwb *g);
void gwb_close(gwb *g)
{
    struct beside *of = g->beside;
    if (!g->is_open)
        return;
    struct pages *pages = of->pages;
    kernel_gwb_close(g);
    gwb_forget_features(of);
    record_free(of->record);
    watch_free(of->watch);
    if (of->became != NULL)
        rattle_dealloc(of->became);
    rattle_dealloc(of);
    gwb_close_pages(pages);
    g->beside = NULL;
}

enum gwb_kind gwb_record(gwb *g)
{
    if (!g->is_open)
        return GWB_CLOSED;
    if (beside_of(g)->record != NULL)
        return GWB_OK;
    if (beside_of(g)->changes != 0)
        return GWB_NO_CALL;
    struct used before = entered(g);
    beside_of(g)->record = record_new();
    gwb_used = before;
    return beside_of(g)->record != NULL ? GWB_OK : GWB_MEMORY;
}

uint64_t gwb_changes(const gwb *g) { return g->is_open ? beside_of(g)->changes : 0; }

void gwb_stop_by(gwb *g, gwb_stop stop, void *user)
{
    if (!g->is_open)
        return;
    beside_of(g)->stop = stop;
    beside_of(g)->stop_user = user;
}
