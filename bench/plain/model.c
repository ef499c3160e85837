/* The tables of the model, the chains and the labels. */
#include "model.h"
#include <stdio.h>
#include <stdlib.h>
#include <string.h>

struct half halves[2 * NUMBER_LIMIT + 2];
struct vertex vertices[NUMBER_LIMIT + 1];
struct loop loops[NUMBER_LIMIT + 1];
struct face faces[NUMBER_LIMIT + 1];
struct solid solids[NUMBER_LIMIT + 1];
struct numbers in_use[KINDS];
u32 label_loop[NUMBER_LIMIT + 2];
bool any_wide_point;

static u32 free_labels[NUMBER_LIMIT + 2], free_label_count, label_count;

void fail(const char *text)
{
    fprintf(stderr, "gwb: %s\n", text);
    exit(3);
}

void make_room(void *list, size_t *room, size_t count, size_t size)
{
    if (count <= *room)
        return;
    size_t more = *room ? *room : 64;
    while (more < count)
        more *= 2;
    void **place = list;
    void *made = realloc(*place, more * size);
    if (!made)
        fail("out of memory");
    *place = made;
    *room = more;
}

/* ---- chains */

void add_face(u32 face, u32 solid)
{
    u32 next = solids[solid].faces;
    faces[face].solid = solid;
    faces[face].next = next;
    faces[face].prev = 0;
    if (next)
        faces[next].prev = face;
    solids[solid].faces = face;
    solids[solid].face_count++;
}

void remove_face(u32 face)
{
    u32 solid = faces[face].solid, next = faces[face].next, prev = faces[face].prev;
    if (prev)
        faces[prev].next = next;
    else
        solids[solid].faces = next;
    if (next)
        faces[next].prev = prev;
    solids[solid].face_count--;
    faces[face].solid = 0;
}

void add_ring(u32 loop, u32 face)
{
    u32 next = faces[face].rings;
    loops[loop].face = face;
    loops[loop].next = next;
    loops[loop].prev = 0;
    if (next)
        loops[next].prev = loop;
    faces[face].rings = loop;
    faces[face].ring_count++;
}

void remove_ring(u32 loop)
{
    u32 face = loops[loop].face, next = loops[loop].next, prev = loops[loop].prev;
    if (prev)
        loops[prev].next = next;
    else
        faces[face].rings = next;
    if (next)
        loops[next].prev = prev;
    faces[face].ring_count--;
}

/* ---- labels */

static void name_label(u32 label, u32 loop)
{
    label_loop[label] = loop;
    loops[loop].label = label;
}

void new_label(u32 loop)
{
    name_label(free_label_count ? free_labels[--free_label_count] : ++label_count, loop);
}

void free_label(u32 loop)
{
    free_labels[free_label_count++] = loops[loop].label;
}

void hand_label(u32 from, u32 to)
{
    name_label(loops[from].label, to);
}

/* Whether `a` is at most as long as `b`; walks both in step. */
static bool is_shorter(struct part a, struct part b)
{
    u32 p = a.first, q = b.first;
    while (p != a.last && q != b.last) {
        p = after(p);
        q = after(q);
    }
    return p == a.last;
}

static void relabel(struct part part, u32 label)
{
    u32 h = part.first;
    for (; h != part.last; h = after(h))
        halves[h].label = label;
    halves[h].label = label;
}

void divide_label(struct part cut, u32 made, struct part rest, u32 stays)
{
    if (is_shorter(cut, rest)) {
        new_label(made);
        relabel(cut, loops[made].label);
    } else {
        hand_label(stays, made);
        new_label(stays);
        relabel(rest, loops[stays].label);
    }
}

void unite_labels(struct part moved, u32 ends, struct part rest, u32 stays)
{
    if (is_shorter(moved, rest)) {
        relabel(moved, loops[stays].label);
        free_label(ends);
    } else {
        relabel(rest, loops[ends].label);
        free_label(stays);
        hand_label(ends, stays);
    }
}

/* ---- order */

u32 least_item(u32 loop)
{
    u32 first = loops[loop].content, least = first;
    for (u32 h = after(first); h != first; h = after(h))
        if (h < least)
            least = h;
    return least;
}

u32 least_lone_loop(u32 face, u32 lone)
{
    for (u32 l = faces[face].outer; l; l = next_loop(face, l))
        if (is_lone(l) && (!lone || l < lone))
            lone = l;
    return lone;
}

static int compare_coordinates(i32 a, i32 b)
{
    return (a > b) - (a < b);
}

int compare_points(const void *a, const void *b)
{
    const struct point *p = a, *q = b;
    int by_x = compare_coordinates(p->x, q->x), by_y = compare_coordinates(p->y, q->y);
    return by_x ? by_x : by_y ? by_y : compare_coordinates(p->z, q->z);
}

static void insertion_sort(u32 *list, u32 count)
{
    for (u32 i = 1; i < count; i++) {
        u32 n = list[i], j = i;
        for (; j > 0 && list[j - 1] > n; j--)
            list[j] = list[j - 1];
        list[j] = n;
    }
}

#define DIGIT 11        /* two digits of 11 bits hold every number and half-edge */

static void sort_by_digit(const u32 *from, u32 *to, u32 count, int shift)
{
    u32 place[1 << DIGIT] = { 0 }, sum = 0;
    for (u32 i = 0; i < count; i++)
        place[from[i] >> shift & ((1 << DIGIT) - 1)]++;
    for (u32 d = 0; d < 1 << DIGIT; d++) {
        u32 here = place[d];
        place[d] = sum;
        sum += here;
    }
    for (u32 i = 0; i < count; i++)
        to[place[from[i] >> shift & ((1 << DIGIT) - 1)]++] = from[i];
}

void sort_numbers(u32 *list, u32 count)
{
    static u32 *spare;
    static size_t room;
    if (count <= 64) {
        insertion_sort(list, count);
        return;
    }
    make_room(&spare, &room, count, sizeof *spare);
    sort_by_digit(list, spare, count, 0);
    sort_by_digit(spare, list, count, DIGIT);
}

const u32 *sorted_rings(u32 face)
{
    static u32 *list;
    static size_t room;
    u32 count = 0;
    make_room(&list, &room, faces[face].ring_count, sizeof *list);
    for (u32 l = faces[face].rings; l; l = loops[l].next)
        list[count++] = l;
    sort_numbers(list, count);
    return list;
}
