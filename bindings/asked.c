/* Solids by their rows, before they are touched and when they are compared. */
#include "asked.h"
#include <stdlib.h>

static void free_solids(struct solids *solids)
{
    list_free(&solids->half_edges);
    list_free(&solids->vertices);
    list_free(&solids->faces);
}

void asked_free(struct asked *a)
{
    list_free(&a->solids);
    list_free(&a->things);
    free_solids(&a->before);
}

/* ---- what solids were */

/* The solids that were touched, and the place of one among them, or where it would stand. */
static struct written *solids(const struct asked *a) { return a->solids.items; }
static size_t place_of(const struct asked *a, uint32_t solid) { return first_from(solids(a), a->solids.count, sizeof(struct written), solid); }

/* A solid that is written down, or NULL. */
static const struct written *written_of(const struct asked *a, uint32_t solid)
{
    const size_t place = place_of(a, solid);
    return place < a->solids.count && solids(a)[place].solid == solid ? &solids(a)[place] : NULL;
}

static bool write_faces(struct solids *to, const gwb *g, uint32_t solid)
{
    for (uint32_t face = 0; gwb_face_after(g, solid, face, &face) == GWB_FOUND;)
        if (!list_add(&to->faces, &face))
            return false;
    return true;
}

static bool write_half_edges(struct solids *to, const gwb *g, uint32_t solid)
{
    const size_t first = to->half_edges.count, count = gwb_read_half_edges(g, solid, to->half_edges.items, 0);
    if (!list_reserve(&to->half_edges, first + count) || !list_reserve(&to->vertices, first + count))
        return false;
    gwb_half_edge_row *rows = (gwb_half_edge_row *)to->half_edges.items + first;
    gwb_read_half_edges(g, solid, rows, count);
    to->half_edges.count += count;
    for (size_t i = 0; i < count; i++) {
        gwb_vertex_row row = {rows[i].start, {0, 0, 0}};
        gwb_vertex(g, row.vertex, &row.point);
        list_add(&to->vertices, &row);
    }
    return true;
}

static bool write_thing(struct list *to, const struct births *b, uint32_t kind, uint32_t number)
{
    const uint32_t key = key_of(kind, number);
    return list_add(to, &(struct thing){key, birth_of(b, key)});
}

/* The births of what a solid has. */
static bool write_things(struct asked *a, const struct births *b, const gwb *g, const struct written *it)
{
    const gwb_half_edge_row *rows = (gwb_half_edge_row *)a->before.half_edges.items + it->from;
    bool is_well = true;
    for (uint32_t face = 0; is_well && gwb_face_after(g, it->solid, face, &face) == GWB_FOUND;)
        is_well = write_thing(&a->things, b, GWB_FACE, face);
    for (size_t i = 0; is_well && i < it->count; i++)
        is_well = write_thing(&a->things, b, GWB_VERTEX, rows[i].start) &&
                  (rows[i].half_edge % 2 != 0 || write_thing(&a->things, b, GWB_EDGE, rows[i].half_edge / 2));
    return is_well;
}

/* Whether a solid is the same later on, by its half-edges and where these start. */
static bool is_same_later(const struct asked *a, const struct written *it, const struct asked *later)
{
    const struct written *then = written_of(later, it->solid);
    if (then == NULL || then->count != it->count)
        return false;
    const gwb_half_edge_row *rows = (gwb_half_edge_row *)a->before.half_edges.items + it->from;
    const gwb_vertex_row *starts = (gwb_vertex_row *)a->before.vertices.items + it->from, *others = (gwb_vertex_row *)later->before.vertices.items + then->from;
    bool is_same = it->count == 0 || memcmp(rows, (gwb_half_edge_row *)later->before.half_edges.items + then->from, it->count * sizeof *rows) == 0;
    for (size_t i = 0; is_same && i < it->count; i++)
        is_same = memcmp(&starts[i].point, &others[i].point, sizeof starts->point) == 0;
    return is_same;
}

/* Writes down what a solid is, but where that is the same later on. False where memory is refused. */
static bool write_solid(struct asked *a, const struct births *b, const gwb *g, uint32_t solid, const struct asked *later)
{
    const size_t place = place_of(a, solid), from = a->before.half_edges.count;
    if (!list_reserve(&a->solids, a->solids.count + 1) || !write_half_edges(&a->before, g, solid))
        return false;
    const struct written it = {solid, from, a->before.half_edges.count - from};
    if (later != NULL && is_same_later(a, &it, later)) {
        a->before.half_edges.count = a->before.vertices.count = from;
        return true;
    }
    struct written *at = solids(a) + place;
    memmove(at + 1, at, (a->solids.count++ - place) * sizeof *at);
    *at = it;
    return b == NULL || write_things(a, b, g, &it);
}

/* Where all solids were written down, it has been made since. */
static void write_unless_written(struct asked *a, const struct births *b, const gwb *g, uint32_t solid, const struct asked *later)
{
    if (!a->is_lost && !a->are_all && written_of(a, solid) == NULL)
        a->is_lost = !write_solid(a, b, g, solid, later);
}

/* Writes down all but those that are written down later on. */
static void write_all(struct asked *a, const struct births *b, const gwb *g, const struct asked *later)
{
    for (uint32_t solid = 0; gwb_number_after(g, GWB_SOLID, solid, &solid) == GWB_FOUND;)
        if (later == NULL || written_of(later, solid) == NULL)
            write_unless_written(a, b, g, solid, NULL);
}

void asked_write(struct asked *a, const struct births *b, const gwb *g, uint32_t solid)
{
    if (solid != 0) {
        write_unless_written(a, b, g, solid, NULL);
        return;
    }
    write_all(a, b, g, NULL);
    a->are_all = !a->is_lost;
}

void asked_write_changed(struct asked *a, const struct births *b, const gwb *g, const struct asked *later)
{
    a->is_lost = later->is_lost;
    for (size_t at = 0; at < later->solids.count; at++)
        write_unless_written(a, b, g, solids(later)[at].solid, later);
    if (later->are_all)
        write_all(a, b, g, later);
}

/* ---- comparing */

/* The least solid above one that was touched, or is there where all were: 0 where there is none. */
static uint32_t touched_after(const gwb *g, const struct asked *a, uint32_t solid)
{
    size_t place = place_of(a, solid);
    place += place < a->solids.count && solids(a)[place].solid == solid;
    const uint32_t touched = place < a->solids.count ? solids(a)[place].solid : 0;
    uint32_t found = 0;
    if (a->are_all)
        gwb_number_after(g, GWB_SOLID, solid, &found);
    return found == 0 || (touched != 0 && touched < found) ? touched : found;
}

static int by_first(const void *one, const void *other)
{
    const uint32_t a = *(const uint32_t *)one, b = *(const uint32_t *)other;
    return (a > b) - (a < b);
}

static void sort(struct list *list)
{
    if (list->count > 1)
        qsort(list->items, list->count, list->size, by_first);
}

/* The birth that something had: 0 where it isn't written down. */
static uint64_t birth_before(const struct asked *a, uint32_t key)
{
    const struct thing *things = a->things.items;
    const size_t at = first_from(things, a->things.count, sizeof *things, key);
    return at < a->things.count && things[at].key == key ? things[at].birth : 0;
}

/* In what was, numbers that are another thing's now are others while it is compared. */
enum { NUMBERS = (1 << NUMBER_BITS) - 1, OTHER = 1 << NUMBER_BITS };

static uint32_t marked(const struct births *b, const struct asked *a, uint32_t kind, uint32_t number)
{
    const uint32_t key = key_of(kind, number & NUMBERS);
    return (number & NUMBERS) | (birth_of(b, key) != birth_before(a, key) ? OTHER : 0);
}

/* Marks them; and writes down the faces. */
static bool mark(const struct births *b, struct asked *a)
{
    gwb_half_edge_row *rows = a->before.half_edges.items;
    const struct thing *things = a->things.items;
    bool is_well = true;
    for (size_t i = 0; i < a->before.half_edges.count; i++) {
        rows[i].half_edge = 2 * marked(b, a, GWB_EDGE, rows[i].half_edge / 2) + rows[i].half_edge % 2;
        rows[i].start = marked(b, a, GWB_VERTEX, rows[i].start);
        rows[i].face = marked(b, a, GWB_FACE, rows[i].face);
    }
    a->before.faces.count = 0;
    for (size_t i = 0; is_well && i < a->things.count && kind_of(things[i].key) == GWB_FACE; i++)
        is_well = list_add(&a->before.faces, &(uint32_t){marked(b, a, GWB_FACE, number_of(things[i].key))});
    return is_well;
}

/* Writes the births to changes of a kind, whose numbers are theirs again. */
static void put_births(const struct births *b, const struct asked *a, uint32_t kind, bool are_made, struct list *changes)
{
    gwb_born_change *rows = changes->items;
    for (size_t i = 0; i < changes->count; i++) {
        const uint32_t number = rows[i].number & NUMBERS, other = rows[i].other & NUMBERS;
        const uint64_t now = birth_of(b, key_of(kind, are_made ? number : other)), was = birth_before(a, key_of(kind, are_made ? other : number));
        rows[i] = (gwb_born_change){number, other, are_made ? now : was, are_made ? was : now};
        if (other == 0 || (are_made && now < a->born))
            rows[i].other_birth = 0;
    }
    sort(changes);
}

static void put_births_of_became(const struct births *b, const struct asked *a, struct list *became)
{
    gwb_became_row *rows = became->items;
    for (size_t i = 0; i < became->count; i++) {
        rows[i].old &= NUMBERS;
        rows[i].old_birth = birth_before(a, key_of(rows[i].kind, rows[i].old));
        rows[i].made_birth = birth_of(b, key_of(rows[i].kind, rows[i].made));
    }
    became_sort(became);
}

/* What was touched, as it is now. */
static bool write_after(struct solids *after, const struct asked *a, const gwb *g)
{
    bool is_well = true;
    for (uint32_t solid = 0; is_well && (solid = touched_after(g, a, solid)) != 0;)
        is_well = write_faces(after, g, solid) && write_half_edges(after, g, solid);
    return is_well;
}

bool asked_compare(struct asked *a, const struct births *b, const gwb *g, struct list changes[2][2], struct list *became)
{
    struct solids after = NO_SOLIDS;
    sort(&a->things);
    bool is_well = !a->is_lost && write_after(&after, a, g) && mark(b, a) && history_find(&a->before, &after, changes, became);
    free_solids(&after);
    for (uint32_t of = OF_FACES; is_well && changes != NULL && of <= OF_EDGES; of++)
        for (uint32_t which = MADE; which <= REMOVED; which++)
            put_births(b, a, of == OF_FACES ? GWB_FACE : GWB_EDGE, which == MADE, &changes[of][which]);
    if (is_well)
        put_births_of_became(b, a, became);
    return is_well;
}
