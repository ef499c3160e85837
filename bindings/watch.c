/* The solids that commands touch, and the births of what they make. Solid 0 stands for all. When a solid is first touched, what it was before is written
 * down, if that is asked for. Of a command that was given before births began, or that began before, births are told from what is in use before it is
 * undone or redone and after.
 *
 * No call is refused for want of memory here: what can't be kept is lost. All of it lies beside the pages of the session, so that the requests of the
 * kernel are the same whether a session is watched or not. */
#include "watch.h"
#include "asked.h"
#include "beside.h"
#include "commands.h"
#include "last.h"
#include "seeing.h"

/* A call of a draft that is open: where its items begin, and how many steps were there before it. */
struct call {
    size_t at, before;
};

/* The kind of an item that is a solid that was touched. */
enum { TOUCHED = KINDS };

struct watch {
    struct commands items; /* of struct thing: what commands touched, and what was born by them */
    size_t undone_before;  /* how many commands are undone that were given before any was watched */
    struct births births;
    struct list there;     /* of uint32_t: what was in use before something of which nothing is known is undone or redone, as keys */
    struct list calls;     /* of struct call */
    size_t steps;          /* how many the draft has */
    size_t unknown_steps;  /* of these so many were there before births began, of the draft that is open or of the first command */
    bool is_unknown;       /* whether there is such a one */
    size_t from, moved;    /* where the items of a call of several operators begin, and those of births that went along with numbers: 0 where there are none */
    size_t seen;           /* how much was seen before the call */
    bool has_fresh;        /* whether the call makes fresh numbers */
    bool has_spare;        /* and edges that go again */
    size_t places;             /* how many were given */
    struct list asked;         /* of struct asked */
    struct list changes[2][2]; /* of gwb_born_change: what was found last (history.h) */
};

#define NO_CHANGES {.size = sizeof(gwb_born_change)}

static bool touch(struct watch *w, uint32_t solid) { return list_add(&w->items.items, &(struct thing){key_of(TOUCHED, solid), 0}); }

static struct thing *items_from(const struct watch *w, size_t at) { return (struct thing *)w->items.items.items + at; }

/* Takes blocks beside the pages of the session, in the heap that is in use: what was in use until then. */
static struct used apart(void)
{
    const struct used before = gwb_used;
    gwb_used.pages = NULL;
    return before;
}

struct watch *watch_new(bool is_drafting)
{
    struct tried block = rattle_alloc(sizeof(struct watch), 16);
    if (!block.ok)
        return NULL;
    struct watch *w = block.at;
    *w = (struct watch){.items = NO_COMMANDS(struct thing), .births = NO_BIRTHS({.size = sizeof(uint64_t)}), .there.size = sizeof(uint32_t),
                        .calls.size = sizeof(struct call), .asked.size = sizeof(struct asked),
                        .changes = {{NO_CHANGES, NO_CHANGES}, {NO_CHANGES, NO_CHANGES}}};
    w->items.is_drafting = is_drafting;
    if (!list_reserve(&w->items.items, 2) || !commands_reserve(&w->items)) {
        watch_free(w);
        return NULL;
    }
    if (is_drafting)
        touch(w, 0);
    return w;
}

/* What is asked for, one place after another. */
static struct asked *asked_at(const struct watch *w, size_t at) { return (struct asked *)w->asked.items + at; }

/* What is asked for from a place on, or NULL. */
static struct asked *asked_from(const struct watch *w, size_t place)
{
    for (size_t at = 0; at < w->asked.count; at++)
        if (asked_at(w, at)->place == place)
            return asked_at(w, at);
    return NULL;
}

void watch_free(struct watch *w)
{
    if (w == NULL)
        return;
    struct list *lists[] = {&w->changes[0][0], &w->changes[0][1], &w->changes[1][0], &w->changes[1][1]};
    for (size_t i = 0; i < sizeof lists / sizeof *lists; i++)
        list_free(lists[i]);
    for (size_t at = 0; at < w->asked.count; at++)
        asked_free(asked_at(w, at));
    list_free(&w->asked);
    list_free(&w->calls);
    list_free(&w->there);
    births_free(&w->births);
    commands_free(&w->items);
    rattle_dealloc(w);
}

/* The same for all that is asked for; solid 0 stands for all. */
static void write_solid(struct watch *w, const gwb *g, uint32_t solid)
{
    for (size_t at = 0; at < w->asked.count; at++)
        asked_write(asked_at(w, at), &w->births, g, solid);
}

/* ---- which are touched */

static uint32_t solid_of_face(const gwb *g, uint32_t face)
{
    gwb_face_row row;
    return gwb_face(g, face, &row) == GWB_FOUND ? row.solid : 0;
}

static uint32_t solid_of_loop(const gwb *g, uint32_t loop)
{
    uint32_t face;
    return gwb_loop(g, loop, &face) == GWB_FOUND ? solid_of_face(g, face) : 0;
}

uint32_t watch_solid_of(const gwb *g, char kind, int64_t value)
{
    const uint32_t number = (uint32_t)value;
    switch (kind) {
    case 's':
    case 'S': return number;
    case 'f':
    case 'g': return solid_of_face(g, number);
    case 'l': return solid_of_loop(g, number);
    case 'h': return solid_of_loop(g, loop_of(g, number));
    default: return 0;
    }
}

/* ---- what is lost */

/* Forgets which solids commands touched: they touch all, as those given before any was watched, and so do the steps of the draft. Births are known no more,
 * and what was asked for is lost. It takes no memory, as there is room for an item of the draft and one of the call from the beginning on, and for one
 * command. */
static void lose(struct watch *w)
{
    struct commands *c = &w->items;
    w->undone_before += c->begins.count - c->held;
    c->held = c->begins.count = c->items.count = c->draft = 0;
    if (c->is_drafting)
        touch(w, 0);
    births_forget(&w->births);
    w->is_unknown = false;
    w->from = w->moved = w->seen = 0;
    for (size_t at = 0; at < w->asked.count; at++)
        asked_at(w, at)->is_lost = true;
}

/* The items of a call are added: it touches all where memory for one was refused, or for the command that it becomes. */
static void added(struct watch *w, bool is_well)
{
    if (is_well && commands_reserve(&w->items))
        return;
    lose(w);
    commands_begin(&w->items);
    touch(w, 0);
}

/* ---- which are touched */

static bool is_of_several(const gwb *g) { return beside_of(g)->within != 0; }

/* Begins a call. False where memory is refused. */
static bool begin_call(struct watch *w, const gwb *g, const char *kinds)
{
    commands_begin(&w->items);
    w->seen = w->births.seen.count;
    w->has_fresh = strchr(kinds, '*') != NULL;
    w->has_spare = strchr(kinds, '+') != NULL;
    return !w->has_spare || births_see(&w->births, GWB_EDGE, (uint32_t)gwb_greatest_number(g, GWB_EDGE) + 1, false);
}

void watch_touch(struct watch *w, const gwb *g, const char *kinds, const int64_t *values, size_t n)
{
    const struct used before = apart();
    bool is_well = begin_call(w, g, kinds);
    for (size_t i = 0; i < n && kinds[i] != '\0'; i++) {
        const uint32_t value = (uint32_t)values[i], solid = watch_solid_of(g, kinds[i], values[i]);
        is_well = is_well && (!is_of_several(g) || see_value(&w->births, g, kinds[i], value)) && see_made(&w->births, kinds[i], value);
        if (solid == 0) /* (so that the call will be refused) */
            continue;
        is_well = is_well && (solid > GREATEST_NUMBER || touch(w, solid));
        write_solid(w, g, solid);
    }
    added(w, is_well);
    gwb_used = before;
}

void watch_touch_any(struct watch *w, const gwb *g, const char *kinds, const int64_t *values, size_t n)
{
    const struct used before = apart();
    bool is_well = begin_call(w, g, kinds);
    for (size_t i = 0; i < n && kinds[i] != '\0'; i++)
        is_well = is_well && see_made(&w->births, kinds[i], (uint32_t)values[i]);
    write_solid(w, g, 0);
    added(w, touch(w, 0) && is_well);
    gwb_used = before;
}

/* What a call made gets births; in a draft it is a call of that, from an item on. */
static bool give_births(struct watch *w, const gwb *g, size_t from)
{
    if (w->births.began == 0)
        return true;
    if (!births_give(&w->births, &w->items.items) || (w->items.is_drafting && !list_add(&w->calls, &(struct call){from, w->steps})))
        return false;
    w->steps = gwb_mark(g);
    return true;
}

void watch_end(struct watch *w, const gwb *g, bool is_accepted)
{
    const struct used before = apart();
    if (!is_accepted)
        w->births.seen.count = w->seen;
    else if ((w->has_fresh && !see_fresh(&w->births, g, w->has_spare)) || (!is_of_several(g) && !give_births(w, g, w->items.call)))
        added(w, false);
    gwb_used = before;
    if (is_accepted && !w->items.is_drafting)
        w->undone_before = 0;
    commands_end(&w->items, is_accepted);
}

/* ---- calls of several operators */

void watch_begin_several(const gwb *g)
{
    struct beside *of = beside_of(g);
    if (of->within++ == 0 && of->watch != NULL)
        of->watch->from = of->watch->items.items.count;
}

void watch_end_several(const gwb *g, bool is_accepted)
{
    struct beside *of = beside_of(g);
    struct watch *w = of->watch;
    if (--of->within != 0 || w == NULL)
        return;
    const struct used before = gwb_used;
    gwb_used = (struct used){of->heap, NULL};
    if (!is_accepted)
        w->births.seen.count = 0;
    else if (!give_births(w, g, w->from) || (w->moved != 0 && !list_add(&w->calls, &(struct call){w->moved, w->steps - 1})))
        added(w, false);
    w->moved = 0;
    commands_begin(&w->items);
    gwb_used = before;
}

/* What the call made until now gets births; where any of its steps is taken back, so is what comes after that. */
void watch_renumber(const gwb *g, uint32_t kind, const uint32_t *pairs, size_t n)
{
    struct beside *of = beside_of(g);
    struct watch *w = of->watch;
    if (w == NULL || w->births.began == 0)
        return;
    const struct used before = gwb_used;
    gwb_used = (struct used){of->heap, NULL};
    struct list births = {.size = sizeof(uint64_t)};
    bool is_well = births_give(&w->births, &w->items.items);
    w->moved = w->moved != 0 ? w->moved : w->items.items.count;
    for (size_t i = 0; i < n && is_well; i += 2)
        is_well = list_add(&births, &(uint64_t){birth_of(&w->births, key_of(kind, pairs[i]))});
    for (size_t i = 0; i < n && is_well; i += 2)
        is_well = pairs[i] == pairs[i + 1] || births_move(&w->births, key_of(kind, pairs[i + 1]), ((uint64_t *)births.items)[i / 2], &w->items.items);
    list_free(&births);
    if (!is_well)
        added(w, false);
    gwb_used = before;
}

/* ---- what is in use, where nothing is known of what is undone or redone */

/* Writes down what is in use. */
static bool read_there(struct watch *w, const gwb *g)
{
    bool is_well = true;
    w->there.count = 0;
    for (uint32_t kind = 0; kind < KINDS; kind++)
        for (uint32_t number = 0; is_well && gwb_number_after(g, kind, number, &number) == GWB_FOUND;)
            is_well = list_add(&w->there, &(uint32_t){key_of(kind, number)});
    return is_well;
}

/* (While something is unknown, nothing else that is can be undone or redone.) */
static void see_there(struct watch *w, const gwb *g)
{
    if (w->births.began != 0 && !w->is_unknown && !read_there(w, g))
        lose(w);
}

/* What is in use and wasn't gets births. */
static bool give_to_others(struct watch *w, const gwb *g)
{
    const uint32_t *there = w->there.items;
    size_t at = 0;
    bool is_well = true;
    for (uint32_t kind = 0; w->births.began != 0 && kind < KINDS; kind++)
        for (uint32_t number = 0; is_well && gwb_number_after(g, kind, number, &number) == GWB_FOUND;) {
            while (at < w->there.count && there[at] < key_of(kind, number))
                at++;
            if (at == w->there.count || there[at] != key_of(kind, number))
                is_well = births_see(&w->births, kind, number, false);
        }
    return is_well && births_give(&w->births, &w->items.items);
}

/* Brings the last items to the front, as items of the first command. */
static bool bring_to_front(struct commands *c, size_t from)
{
    const size_t size = c->items.size, count = c->items.count - from;
    struct tried block = rattle_alloc((count + 1) * size, 16);
    if (!block.ok)
        return false;
    char *items = c->items.items;
    memcpy(block.at, items + from * size, count * size);
    memmove(items + count * size, items, from * size);
    memcpy(items, block.at, count * size);
    rattle_dealloc(block.at);
    for (size_t command = 1; command < c->begins.count; command++)
        ((size_t *)c->begins.items)[command] += count;
    return true;
}

/* A command of which nothing was known is undone: it is the first of all that are undone. */
static bool put_in_front(struct watch *w, const gwb *g)
{
    struct commands *c = &w->items;
    const size_t from = c->items.count;
    if (!touch(w, 0) || !give_to_others(w, g) || !commands_reserve(c) || !bring_to_front(c, from))
        return false;
    size_t *begins = c->begins.items;
    memmove(begins + 1, begins, c->begins.count++ * sizeof *begins);
    if (c->begins.count > 1)
        begins[1] = c->items.count - from;
    begins[0] = 0;
    return true;
}

/* What is known of the first command is taken back: what was before it, nothing of which is known, comes before that. */
static bool learn_first(struct watch *w, const gwb *g)
{
    const size_t from = w->items.items.count;
    w->is_unknown = false;
    return give_to_others(w, g) && bring_to_front(&w->items, from);
}

/* ---- drafts */

void watch_draft(struct watch *w)
{
    const struct used before = apart();
    if (!commands_reserve(&w->items))
        lose(w);
    gwb_used = before;
    commands_draft(&w->items);
    w->calls.count = w->steps = 0;
}
void watch_commit(struct watch *w)
{
    w->undone_before = 0;
    commands_commit(&w->items);
}

/* Takes back what items of the draft made, from one on. */
static void take_back(struct watch *w, size_t from) { births_take_back(&w->births, items_from(w, from), w->items.items.count - from); }

/* Whether of the draft that is open some steps aren't known. */
static bool is_unknown_draft(const struct watch *w) { return w->is_unknown && w->items.is_drafting && w->items.begins.count == 0; }

void watch_abandon(struct watch *w, const gwb *g)
{
    const struct used before = apart();
    take_back(w, w->items.draft);
    if (is_unknown_draft(w)) {
        w->is_unknown = false;
        if (!give_to_others(w, g))
            lose(w);
    }
    gwb_used = before;
    commands_abandon(&w->items);
}

void watch_back(struct watch *w, const gwb *g, size_t mark)
{
    const struct call *calls = w->calls.items;
    const struct used before = apart();
    for (; w->calls.count > 0 && calls[w->calls.count - 1].before >= mark; w->calls.count--) {
        take_back(w, calls[w->calls.count - 1].at);
        w->items.items.count = calls[w->calls.count - 1].at;
    }
    w->steps = mark < w->steps ? mark : w->steps;
    if (is_unknown_draft(w) && mark < w->unknown_steps) {
        const size_t from = w->items.items.count;
        w->unknown_steps = mark;
        if (!give_to_others(w, g) || !read_there(w, g))
            lose(w);
        else
            w->items.items.count = from;
    }
    gwb_used = before;
    commands_begin(&w->items);
}

/* ---- undo and redo */

/* Writes down the solids of some items. */
static void see(struct watch *w, const gwb *g, size_t from, size_t to)
{
    const struct used before = apart();
    for (size_t i = from; i < to; i++)
        if (kind_of(items_from(w, i)->key) == TOUCHED)
            write_solid(w, g, number_of(items_from(w, i)->key));
    gwb_used = before;
}

/* Those of a command; of one that isn't known, all, and what is in use. */
static void see_command(struct watch *w, const gwb *g, bool is_known, size_t command)
{
    const struct used before = apart();
    if (is_known) {
        see(w, g, commands_first(&w->items, command), commands_first(&w->items, command + 1));
    } else {
        write_solid(w, g, 0);
        see_there(w, g);
    }
    gwb_used = before;
}

void watch_see_draft(struct watch *w, const gwb *g)
{
    if (w->items.is_drafting)
        see(w, g, w->items.draft, w->items.items.count);
}

static bool is_redone_known(const struct watch *w) { return w->items.held < w->items.begins.count; }

void watch_see_undo(struct watch *w, const gwb *g) { see_command(w, g, w->items.held > 0, w->items.held - 1); }
void watch_see_redo(struct watch *w, const gwb *g) { see_command(w, g, is_redone_known(w), w->items.held); }

/* The items of a command. */
static struct thing *of_command(const struct watch *w, size_t command, size_t *count)
{
    const size_t from = commands_first(&w->items, command);
    *count = commands_first(&w->items, command + 1) - from;
    return items_from(w, from);
}

static bool undo(struct watch *w, const gwb *g)
{
    if (w->items.held == 0)
        return put_in_front(w, g);
    size_t count;
    struct thing *things = of_command(w, --w->items.held, &count);
    births_take_back(&w->births, things, count);
    return w->items.held > 0 || !w->is_unknown || learn_first(w, g);
}

static bool redo(struct watch *w, const gwb *g)
{
    if (is_redone_known(w)) {
        size_t count;
        struct thing *things = of_command(w, w->items.held++, &count);
        births_restore(&w->births, things, count);
        return true;
    }
    w->undone_before -= w->undone_before > 0;
    commands_begin(&w->items);
    if (!touch(w, 0) || !give_to_others(w, g) || !commands_reserve(&w->items))
        return false;
    commands_end(&w->items, true);
    return true;
}

void watch_undo(struct watch *w, const gwb *g)
{
    const struct used before = apart();
    const bool was_known = w->items.held > 0;
    if (!undo(w, g)) {
        lose(w);
        w->undone_before += !was_known;
    }
    gwb_used = before;
}

void watch_redo(struct watch *w, const gwb *g)
{
    const struct used before = apart();
    if (!redo(w, g))
        lose(w);
    gwb_used = before;
}

/* ---- the last command, without a call */

struct watch *watch_of_last(const gwb *g)
{
    struct watch *w = beside_of(g)->watch;
    return w != NULL && w->items.held > (w->is_unknown ? 1 : 0) ? w : NULL;
}

const struct births *watch_births(const struct watch *w) { return &w->births; }

void watch_write_last(const struct watch *w, const gwb *g, struct asked *a)
{
    size_t count = 0;
    const struct thing *things = of_command(w, w->items.held - 1, &count);
    for (size_t i = 0; i < count; i++)
        if (kind_of(things[i].key) == TOUCHED)
            asked_write(a, NULL, g, number_of(things[i].key));
}

void watch_step(struct watch *w, bool is_back)
{
    size_t count;
    struct thing *things = of_command(w, w->items.held - 1, &count);
    is_back ? births_take_back(&w->births, things, count) : births_restore(&w->births, things, count);
}

/* ---- what is asked of it */

static void forget_changes(struct watch *w, const gwb *g)
{
    forget_became(beside_of(g));
    for (size_t of = OF_FACES; of <= OF_EDGES; of++)
        w->changes[of][MADE].count = w->changes[of][REMOVED].count = 0;
}

/* What is asked for from a place on ends. */
static void end_asked(struct watch *w, size_t place)
{
    struct asked *a = asked_from(w, place);
    if (a == NULL)
        return;
    asked_free(a);
    *a = *asked_at(w, --w->asked.count);
}

/* Begins births where none are known: of commands until now nothing is. False where memory is refused. */
static bool begin_births(struct watch *w, const gwb *g)
{
    if (w->births.began != 0)
        return true;
    if (w->items.is_drafting && !read_there(w, g))
        return false;
    lose(w);
    births_begin(&w->births);
    w->is_unknown = w->items.is_drafting;
    w->calls.count = 0;
    w->steps = w->unknown_steps = gwb_mark(g);
    return true;
}

/* Begins to watch a session, and asks from a place on, or not. False where memory is refused. */
static bool begin(struct beside *of, const gwb *g, bool is_asked, size_t place)
{
    if (of->watch == NULL && (of->watch = watch_new(of->is_drafting)) == NULL)
        return false;
    if (!begin_births(of->watch, g))
        return false;
    const struct asked none = {.place = place, .born = of->watch->births.next, NOTHING_WRITTEN};
    return !is_asked || list_add(&of->watch->asked, &none);
}

/* The same, in the heap of the session. */
static enum gwb_kind ask(const gwb *g, bool is_asked, size_t place)
{
    struct beside *of = beside_of(g);
    const struct used before = gwb_used;
    gwb_used = (struct used){of->heap, NULL};
    const bool is_well = begin(of, g, is_asked, place);
    gwb_used = before;
    return is_well ? GWB_OK : GWB_MEMORY;
}

enum gwb_kind gwb_watch(gwb *g, bool is_asked)
{
    if (!gwb_is_open(g))
        return GWB_CLOSED;
    struct beside *of = beside_of(g);
    const bool was_asked = of->watch != NULL && asked_from(of->watch, 0) != NULL;
    const enum gwb_kind answer = ask(g, is_asked, 0);
    if (answer != GWB_OK)
        return answer;
    if (was_asked) /* (before what is asked for now) */
        end_asked(of->watch, 0);
    forget_changes(of->watch, g);
    return GWB_OK;
}

enum gwb_kind gwb_watch_from(gwb *g, size_t *place)
{
    if (!gwb_is_open(g))
        return GWB_CLOSED;
    struct beside *of = beside_of(g);
    const size_t next = of->watch != NULL ? of->watch->places + 1 : 1;
    const enum gwb_kind answer = ask(g, true, next);
    if (answer == GWB_OK)
        *place = of->watch->places = next;
    return answer;
}

void gwb_watch_to(gwb *g, size_t place)
{
    if (gwb_is_open(g) && beside_of(g)->watch != NULL)
        end_asked(beside_of(g)->watch, place);
}

static bool is_in_use(const gwb *g, uint32_t kind, uint32_t number)
{
    uint32_t found = 0;
    return number != 0 && number <= GREATEST_NUMBER && gwb_number_after(g, kind, number - 1, &found) == GWB_FOUND && found == number;
}

uint64_t gwb_birth(const gwb *g, uint32_t entity, uint32_t number)
{
    const struct watch *w = gwb_is_open(g) ? beside_of(g)->watch : NULL;
    return w != NULL && entity < KINDS && is_in_use(g, entity, number) ? birth_of(&w->births, key_of(entity, number)) : 0;
}

/* ---- comparing */

enum gwb_kind gwb_compare_from(gwb *g, size_t place)
{
    if (!gwb_is_open(g))
        return GWB_CLOSED;
    const struct beside *of = beside_of(g);
    struct asked *a = of->watch != NULL ? asked_from(of->watch, place) : NULL;
    struct list became = {.size = sizeof(gwb_became_row)};
    if (of->watch != NULL)
        forget_changes(of->watch, g);
    if (a == NULL)
        return GWB_NO_CALL;
    struct used before = gwb_used;
    gwb_used = (struct used){of->heap, NULL};
    const bool is_well = asked_compare(a, &of->watch->births, g, of->watch->changes, &became);
    if (!is_well)
        forget_changes(of->watch, g);
    keep_became(beside_of(g), &became, is_well);
    gwb_used = before;
    return is_well ? GWB_OK : GWB_MEMORY;
}

enum gwb_kind gwb_compare(gwb *g)
{
    const enum gwb_kind answer = gwb_compare_from(g, 0);
    return answer != GWB_NO_CALL ? answer : GWB_OK;
}

/* The changes of a kind that were found last: NULL where there are none of such. */
static const struct list *changes_of(const gwb *g, uint32_t entity, bool is_made)
{
    const struct watch *w = gwb_is_open(g) ? beside_of(g)->watch : NULL;
    return w != NULL && (entity == GWB_FACE || entity == GWB_EDGE) ? &w->changes[entity == GWB_FACE ? OF_FACES : OF_EDGES][is_made ? MADE : REMOVED] : NULL;
}

size_t gwb_compared(const gwb *g, uint32_t entity, bool is_made, gwb_change *rows, size_t room)
{
    const struct list *list = changes_of(g, entity, is_made);
    const gwb_born_change *found = list != NULL ? list->items : NULL;
    for (size_t i = 0; list != NULL && i < list->count && i < room; i++)
        rows[i] = (gwb_change){found[i].number, found[i].other};
    return list != NULL ? list->count : 0;
}

size_t gwb_compared_births(const gwb *g, uint32_t entity, bool is_made, gwb_born_change *rows, size_t room)
{
    const struct list *list = changes_of(g, entity, is_made);
    const size_t count = list != NULL ? list->count : 0;
    if (count > 0 && room > 0)
        memcpy(rows, list->items, (count < room ? count : room) * list->size);
    return count;
}
