/* What each change is found from, gwb_compared of gwb.h says. */
#include "history_rows.h"
#include <stdlib.h>

static int by_key(const void *one, const void *other)
{
    const struct entry *a = one, *b = other;
    return a->key != b->key ? (a->key > b->key) - (a->key < b->key) : (a->place > b->place) - (a->place < b->place);
}

static int by_number(const void *one, const void *other)
{
    const uint32_t a = *(const uint32_t *)one, b = *(const uint32_t *)other;
    return (a > b) - (a < b);
}

static bool has_face(const struct reading *r, uint32_t face)
{
    const uint32_t *faces = r->faces->items;
    const size_t place = first_from(faces, r->faces->count, sizeof face, face);
    return place < r->faces->count && faces[place] == face;
}

static bool read_solids(struct reading *r, struct solids *solids)
{
    const size_t count = solids->half_edges.count;
    struct tried block = rattle_alloc((3 * count + 1) * sizeof(struct entry), 16);
    if (!block.ok)
        return false;
    *r = (struct reading){.rows = solids->half_edges.items, .starts = solids->vertices.items, .by_itself = block.at, .count = count, .faces = &solids->faces};
    r->by_face = r->by_itself + count;
    r->by_start = r->by_face + count;
    for (uint32_t i = 0; i < count; i++) {
        r->by_itself[i] = (struct entry){r->rows[i].half_edge, i};
        r->by_face[i] = (struct entry){r->rows[i].face, i};
        r->by_start[i] = (struct entry){r->rows[i].start, i};
    }
    for (size_t kind = 0; kind < 3; kind++)
        qsort(r->by_itself + kind * count, count, sizeof(struct entry), by_key);
    if (solids->faces.count != 0)
        qsort(solids->faces.items, solids->faces.count, sizeof(uint32_t), by_number);
    return true;
}

static void forget(struct reading *r)
{
    if (r->by_itself != NULL)
        rattle_dealloc(r->by_itself);
}

/* Whether a face lies in the plane of one that has half-edges in another reading, and doesn't look the other way. */
static bool is_part(const struct reading *r, uint32_t face, const struct reading *other, uint32_t of)
{
    const struct vector across = across_face(other, of), own = across_face(r, face);
    const gwb_point origin = start(other, other->by_face[first_of(other, other->by_face, of)].place);
    for (size_t i = first_of(r, r->by_face, face); is_of(r, r->by_face, i, face); i++)
        if (dot(across, from_to(origin, start(r, r->by_face[i].place))) != 0)
            return false;
    return sign(across.x) * sign(own.x) >= 0 && sign(across.y) * sign(own.y) >= 0 && sign(across.z) * sign(own.z) >= 0;
}

/* ---- what was of what */

/* The place in another reading of a half-edge that starts where one of this one does and goes the same way. */
static size_t along(const struct reading *r, size_t place, const struct reading *other)
{
    const uint32_t vertex = r->rows[place].start;
    for (size_t i = first_of(other, other->by_start, vertex); is_of(other, other->by_start, i, vertex); i++) {
        const struct vector apart = from_to(start(r, place), start(other, other->by_start[i].place));
        if (dot(apart, apart) == 0 && is_one_way(way(r, place), way(other, other->by_start[i].place)))
            return other->by_start[i].place;
    }
    return NOWHERE;
}

/* The face in another reading of a half-edge that both have and that is of the face here. */
static uint32_t survivor(const struct reading *r, uint32_t face, const struct reading *other)
{
    for (size_t i = first_of(r, r->by_face, face); is_of(r, r->by_face, i, face); i++) {
        const size_t place = place_of(other, r->rows[r->by_face[i].place].half_edge);
        if (place != NOWHERE)
            return other->rows[place].face;
    }
    return 0;
}

static uint32_t face_before(const struct reading *r, uint32_t face, const struct reading *before)
{
    const uint32_t has_half_edge = survivor(r, face, before);
    if (has_half_edge != 0)
        return is_part(r, face, before, has_half_edge) ? has_half_edge : 0;
    for (size_t i = first_of(r, r->by_face, face); is_of(r, r->by_face, i, face); i++) {
        const size_t place = along(r, r->by_face[i].place, before);
        if (place != NOWHERE && is_part(r, face, before, before->rows[place].face))
            return before->rows[place].face;
    }
    return 0;
}

static uint32_t edge_along(const struct reading *r, uint32_t edge, const struct reading *other)
{
    const size_t first = along(r, place_of(r, gwb_plus(edge)), other);
    const size_t place = first != NOWHERE ? first : along(r, place_of(r, gwb_minus(edge)), other);
    return place != NOWHERE ? other->rows[place].half_edge / 2 : 0;
}

/* ---- the changes */

typedef uint32_t (*found_in)(const struct reading *r, uint32_t number, const struct reading *other);

/* The faces of these that others haven't. */
static bool missing_faces(const struct reading *these, const struct reading *others, found_in find, struct list *changes)
{
    const uint32_t *faces = these->faces->items;
    for (size_t i = 0; i < these->faces->count; i++)
        if (!has_face(others, faces[i]) && !list_add(changes, &(gwb_born_change){faces[i], find(these, faces[i], others), 0, 0}))
            return false;
    return true;
}

/* The edges alike. */
static bool missing_edges(const struct reading *these, const struct reading *others, struct list *changes)
{
    for (size_t i = 0; i < these->count; i++) {
        const uint32_t half_edge = these->by_itself[i].key, edge = half_edge / 2;
        const bool is_missing = half_edge == gwb_plus(edge) && place_of(others, half_edge) == NOWHERE;
        if (is_missing && !list_add(changes, &(gwb_born_change){edge, edge_along(these, edge, others), 0, 0}))
            return false;
    }
    return true;
}

static bool find_changes(const struct reading *was, const struct reading *is, struct list changes[2][2])
{
    return missing_faces(is, was, face_before, &changes[OF_FACES][MADE]) && missing_faces(was, is, survivor, &changes[OF_FACES][REMOVED]) &&
           missing_edges(is, was, &changes[OF_EDGES][MADE]) && missing_edges(was, is, &changes[OF_EDGES][REMOVED]);
}

bool history_find(struct solids *before, struct solids *after, struct list changes[2][2], struct list *became)
{
    struct reading was = {0}, is = {0};
    const bool is_well = read_solids(&was, before) && read_solids(&is, after) && (changes == NULL || find_changes(&was, &is, changes)) &&
                         became_find(&was, &is, became);
    forget(&was);
    forget(&is);
    return is_well;
}
