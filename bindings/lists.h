/* Lists in the heap that the archive asks for. */
#ifndef GWB_LISTS_H
#define GWB_LISTS_H
#include "heap.h"
#include <stdint.h>
#include <string.h>

/* Items of one size. It begins as {.size = ..}. */
struct list {
    void *items;
    size_t count, room, size;
};

/* Makes room for so many items: false where memory is refused; then the list is as it was. */
static inline bool list_reserve(struct list *list, size_t count)
{
    size_t room = count > 2 * list->room ? count : 2 * list->room;
    if (count <= list->room)
        return true;
    if (room > SIZE_MAX / 2 / list->size)
        return false;
    struct tried block = list->items == NULL ? rattle_alloc(room * list->size, 16)
                                             : rattle_realloc(list->items, list->count * list->size, room * list->size, 16);
    if (!block.ok)
        return false;
    list->items = block.at;
    list->room = room;
    return true;
}

/* Adds an item at the end: false where memory is refused. */
static inline bool list_add(struct list *list, const void *item)
{
    if (!list_reserve(list, list->count + 1))
        return false;
    memcpy((char *)list->items + list->count++ * list->size, item, list->size);
    return true;
}

/* The place of the first item of some that rise by the number with which each begins, where that isn't below a key: how many there are, if none is. */
static inline size_t first_from(const void *items, size_t count, size_t size, uint32_t key)
{
    size_t least = 0, most = count;
    while (least < most) {
        const size_t middle = least + (most - least) / 2;
        if (*(const uint32_t *)((const char *)items + middle * size) < key)
            least = middle + 1;
        else
            most = middle;
    }
    return least;
}

static inline void list_free(struct list *list)
{
    if (list->items != NULL)
        rattle_dealloc(list->items);
    *list = (struct list){.size = list->size};
}

#endif
