/* Births by numbers. To take a command back, the births that it gave are changed for those that stood there before; to do it again, back. */
#include "births.h"
#include <stdlib.h>

/* What a call made, or what was in use; `when` is twice its place in the call, and one more where it was in use. */
struct seen {
    uint32_t key, when;
};

void births_free(struct births *b)
{
    for (size_t kind = 0; kind < KINDS; kind++)
        list_free(&b->of[kind]);
    list_free(&b->seen);
}

void births_forget(struct births *b)
{
    for (size_t kind = 0; kind < KINDS; kind++)
        b->of[kind].count = 0;
    b->seen.count = 0;
    b->began = 0;
}

void births_begin(struct births *b)
{
    births_forget(b);
    b->began = b->next;
    b->next += UINT64_C(1) << NUMBER_BITS;
}

/* Where the birth of a number stands: NULL where it got none since they began. */
static uint64_t *place(const struct births *b, uint32_t key)
{
    const struct list *of = &b->of[kind_of(key)];
    return number_of(key) < of->count ? (uint64_t *)of->items + number_of(key) : NULL;
}

uint64_t birth_of(const struct births *b, uint32_t key)
{
    const uint64_t *at = place(b, key);
    return b->began == 0 ? 0 : at != NULL && *at != 0 ? *at : b->began + number_of(key);
}

bool births_see(struct births *b, uint32_t kind, uint32_t number, bool is_in_use)
{
    if (b->began == 0 || number == 0 || number > GREATEST_NUMBER)
        return true;
    return list_add(&b->seen, &(struct seen){key_of(kind, number), (uint32_t)(2 * b->seen.count) + is_in_use});
}

/* Room for the birth of a number: false where memory is refused. */
static bool reserve(struct list *of, uint32_t number)
{
    if (number < of->count)
        return true;
    if (!list_reserve(of, number + 1))
        return false;
    memset((uint64_t *)of->items + of->count, 0, (number + 1 - of->count) * sizeof(uint64_t));
    of->count = number + 1;
    return true;
}

bool births_move(struct births *b, uint32_t key, uint64_t birth, struct list *made)
{
    if (!list_reserve(made, made->count + 1) || !reserve(&b->of[kind_of(key)], number_of(key)))
        return false;
    uint64_t *at = place(b, key);
    list_add(made, &(struct thing){key, *at});
    *at = birth;
    return true;
}

static int by_key(const void *one, const void *other)
{
    const struct seen *a = one, *b = other;
    return a->key != b->key ? (a->key > b->key) - (a->key < b->key) : (a->when > b->when) - (a->when < b->when);
}

bool births_give(struct births *b, struct list *made)
{
    const struct seen *seen = b->seen.items;
    const size_t count = b->seen.count;
    bool is_well = true;
    if (count > 1)
        qsort(b->seen.items, count, sizeof *seen, by_key);
    for (size_t i = 0; i < count && is_well; i++)
        if ((i == 0 || seen[i].key != seen[i - 1].key) && seen[i].when % 2 == 0)
            is_well = births_move(b, seen[i].key, b->next++, made);
    b->seen.count = 0;
    return is_well;
}

static void change(struct births *b, struct thing *thing)
{
    if (kind_of(thing->key) >= KINDS)
        return;
    uint64_t *at = place(b, thing->key);
    const uint64_t birth = *at;
    *at = thing->birth;
    thing->birth = birth;
}

void births_take_back(struct births *b, struct thing *things, size_t count)
{
    while (b->began != 0 && count-- > 0)
        change(b, &things[count]);
}

void births_restore(struct births *b, struct thing *things, size_t count)
{
    for (size_t i = 0; b->began != 0 && i < count; i++)
        change(b, &things[i]);
}
