/* What is kept of the commands of a session, as items of one kind. They stand one after another: those of the commands that are held, then of those
 * that are undone, then those of the draft's steps, and behind all those of the call that is being made. */
#ifndef GWB_COMMANDS_H
#define GWB_COMMANDS_H
#include "lists.h"

struct commands {
    struct list items;
    struct list begins; /* of size_t: of each command where its items begin */
    size_t held;        /* how many commands are: those after them are undone */
    size_t draft;       /* where the items of the draft's steps begin */
    size_t call;        /* and those of the call */
    bool is_drafting;
};

#define NO_COMMANDS(kind) {.items.size = sizeof(kind), .begins.size = sizeof(size_t)}

static inline void commands_free(struct commands *c)
{
    list_free(&c->items);
    list_free(&c->begins);
}

/* Where the items of a command begin; for the one after the last, where those of the draft do, or all end. */
static inline size_t commands_first(const struct commands *c, size_t command)
{
    if (command < c->begins.count)
        return ((size_t *)c->begins.items)[command];
    return c->is_drafting ? c->draft : c->items.count;
}

/* Takes room for one more command. */
static inline bool commands_reserve(struct commands *c) { return list_reserve(&c->begins, c->begins.count + 1); }

/* A call begins, before anything is added. */
static inline void commands_begin(struct commands *c) { c->call = c->items.count; }

/* The items from a place on are those of a new command, for which there is room: those of commands that could be redone go. */
static inline void commands_keep(struct commands *c, size_t from)
{
    const size_t to = c->held < c->begins.count ? commands_first(c, c->held) : from, count = c->items.count - from, size = c->items.size;
    if (count > 0)
        memmove((char *)c->items.items + to * size, (char *)c->items.items + from * size, count * size);
    c->items.count = to + count;
    c->begins.count = c->held++;
    list_add(&c->begins, &to);
}

/* What a call added is kept, as a command or as a step of the draft, or it goes. */
static inline void commands_end(struct commands *c, bool is_accepted)
{
    if (!is_accepted)
        c->items.count = c->call;
    else if (!c->is_drafting)
        commands_keep(c, c->call);
    commands_begin(c);
}

/* A draft was opened, for which room was taken before; its steps were made a command, or were taken back. */
static inline void commands_draft(struct commands *c) { c->is_drafting = true, c->draft = c->items.count; }
static inline void commands_commit(struct commands *c) { c->is_drafting = false, commands_keep(c, c->draft); }
static inline void commands_abandon(struct commands *c) { c->is_drafting = false, c->items.count = c->draft; }

#endif
