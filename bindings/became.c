/* What became of things, by lines: sides that run along each other are found among those of one line, in the order in which they lie on it. */
#include "history_rows.h"
#include <stdlib.h>

/* A side, on its line: the way of that, without a common divisor, and its moment; and where the side lies on it. */
struct side {
    int64_t line[6], low, high;
    bool is_back, is_old;
    uint32_t place;
};

struct spot {
    gwb_point point;
    bool is_old;
    uint32_t vertex;
};

/* What was and what is; of each by its rows the vector across the face, and whether this changed. */
struct both {
    const struct reading *of[2];
    struct vector *across[2];
    bool *is_other[2];
    struct list *became; /* of gwb_became_row, without births */
    bool is_well;
};

static void add(struct both *b, uint32_t kind, uint32_t old, uint32_t made)
{
    const gwb_became_row row = {kind, old, made, 0, 0};
    b->is_well = b->is_well && (old == made || list_add(b->became, &row));
}

/* ---- what stays as it is */

static bool are_one(gwb_point a, gwb_point b) { return a.x == b.x && a.y == b.y && a.z == b.z; }

/* Whether a half-edge is there with its ends where they were. */
static bool stays(const struct reading *r, size_t place, const struct reading *other)
{
    const size_t there = place_of(other, r->rows[place].half_edge);
    return there != NOWHERE && are_one(start(r, place), start(other, there)) && are_one(end(r, place), end(other, there));
}

/* Reads the faces: of each what is across it, and whether it isn't as in another reading. */
static void read_faces(const struct reading *r, const struct reading *other, struct vector *across, bool *is_other)
{
    for (size_t first = 0, last; first < r->count; first = last) {
        const uint32_t face = r->by_face[first].key;
        const struct vector here = across_face(r, face);
        bool is_same = true;
        for (last = first; is_of(r, r->by_face, last, face); last++) {
            const size_t place = r->by_face[last].place, there = place_of(other, r->rows[place].half_edge);
            is_same = is_same && stays(r, place, other) && other->rows[there].face == face;
        }
        const size_t there = first_of(other, other->by_face, face), beyond = there + (last - first);
        is_same = is_same && !is_of(other, other->by_face, beyond, face);
        for (size_t at = first; at < last; at++)
            across[r->by_face[at].place] = here, is_other[r->by_face[at].place] = !is_same;
    }
}

/* ---- sides along each other */

static int64_t size_of(int64_t a) { return a < 0 ? -a : a; }

static int64_t divisor(int64_t a, int64_t b)
{
    while (b != 0) {
        const int64_t rest = a % b;
        a = b, b = rest;
    }
    return a;
}

/* The side of a half-edge: false where that has no length. */
static bool side_of(const struct reading *r, size_t place, bool is_old, struct side *side)
{
    const gwb_point from = start(r, place), to = end(r, place);
    int64_t way[3] = {to.x - from.x, to.y - from.y, to.z - from.z};
    const int64_t at[3] = {from.x, from.y, from.z}, common = divisor(divisor(size_of(way[0]), size_of(way[1])), size_of(way[2]));
    if (common == 0)
        return false;
    const size_t axis = way[0] != 0 ? 0 : way[1] != 0 ? 1 : 2;
    const bool is_back = way[axis] < 0;
    const int64_t ends[2] = {at[axis], at[axis] + way[axis]};
    for (size_t i = 0; i < 3; i++)
        way[i] /= is_back ? -common : common;
    *side = (struct side){{way[0], way[1], way[2], at[1] * way[2] - at[2] * way[1], at[2] * way[0] - at[0] * way[2], at[0] * way[1] - at[1] * way[0]},
                          ends[is_back], ends[!is_back], is_back, is_old, (uint32_t)place};
    return true;
}

static int by_line(const void *one, const void *other)
{
    const struct side *a = one, *b = other;
    for (size_t i = 0; i < 6; i++)
        if (a->line[i] != b->line[i])
            return a->line[i] < b->line[i] ? -1 : 1;
    return a->low != b->low ? (a->low > b->low) - (a->low < b->low) : (a->place > b->place) - (a->place < b->place);
}

/* Two sides have a part in common: so have their edges, and their faces where they lie on one side of it in one plane. */
static void pair(struct both *b, const struct side *old, const struct side *made)
{
    const gwb_half_edge_row was = b->of[0]->rows[old->place], is = b->of[1]->rows[made->place];
    if (!stays(b->of[0], old->place, b->of[1]))
        add(b, GWB_EDGE, was.half_edge / 2, is.half_edge / 2);
    if (b->is_other[0][old->place] && old->is_back == made->is_back && is_one_way(b->across[0][old->place], b->across[1][made->place]))
        add(b, GWB_FACE, was.face, is.face);
}

/* Sides of one line, rising by where they begin. */
static void pair_all(struct both *b, const struct side *sides, size_t count, struct list *open)
{
    open->count = 0;
    for (size_t i = 0; i < count && b->is_well; i++) {
        const struct side **others = open->items;
        size_t left = 0;
        for (size_t at = 0; at < open->count; at++) {
            if (others[at]->high <= sides[i].low)
                continue;
            if (others[at]->is_old != sides[i].is_old)
                sides[i].is_old ? pair(b, &sides[i], others[at]) : pair(b, others[at], &sides[i]);
            others[left++] = others[at];
        }
        open->count = left;
        b->is_well = b->is_well && list_add(open, &(const struct side *){&sides[i]});
    }
}

static void find_sides(struct both *b, struct side *sides)
{
    struct list open = {.size = sizeof(const struct side *)};
    size_t count = 0;
    for (size_t era = 0; era < 2; era++)
        for (size_t place = 0; place < b->of[era]->count; place++)
            count += side_of(b->of[era], place, era == 0, &sides[count]);
    if (count > 1)
        qsort(sides, count, sizeof *sides, by_line);
    for (size_t first = 0, last; first < count; first = last) {
        for (last = first; last < count && memcmp(sides[first].line, sides[last].line, sizeof sides->line) == 0;)
            last++;
        pair_all(b, sides + first, last - first, &open);
    }
    list_free(&open);
}

/* ---- vertices at one point */

static int by_point(const void *one, const void *other)
{
    const struct spot *a = one, *b = other;
    const int64_t apart[3] = {a->point.x - b->point.x, a->point.y - b->point.y, a->point.z - b->point.z};
    for (size_t i = 0; i < 3; i++)
        if (apart[i] != 0)
            return apart[i] < 0 ? -1 : 1;
    return 0;
}

/* One that is there where it was is as it was. */
static void pair_spots(struct both *b, const struct spot *spots, size_t count)
{
    for (size_t old = 0; old < count; old++) {
        bool has_stayed = !spots[old].is_old;
        for (size_t made = 0; made < count; made++)
            has_stayed = has_stayed || (!spots[made].is_old && spots[made].vertex == spots[old].vertex);
        for (size_t made = 0; made < count && !has_stayed; made++)
            if (!spots[made].is_old)
                add(b, GWB_VERTEX, spots[old].vertex, spots[made].vertex);
    }
}

static void find_spots(struct both *b, struct spot *spots)
{
    size_t count = 0;
    for (size_t era = 0; era < 2; era++)
        for (size_t i = 0; i < b->of[era]->count; i++) {
            const struct entry *entries = b->of[era]->by_start;
            if (i == 0 || entries[i].key != entries[i - 1].key)
                spots[count++] = (struct spot){start(b->of[era], entries[i].place), era == 0, entries[i].key};
        }
    if (count > 1)
        qsort(spots, count, sizeof *spots, by_point);
    for (size_t first = 0, last; first < count; first = last) {
        for (last = first; last < count && are_one(spots[first].point, spots[last].point);)
            last++;
        pair_spots(b, spots + first, last - first);
    }
}

/* ---- all of it */

static int by_row(const void *one, const void *other)
{
    const gwb_became_row *a = one, *b = other;
    if (a->kind != b->kind)
        return a->kind < b->kind ? -1 : 1;
    return a->old != b->old ? (a->old > b->old) - (a->old < b->old) : (a->made > b->made) - (a->made < b->made);
}

void became_sort(struct list *became)
{
    gwb_became_row *rows = became->items;
    size_t left = 0;
    if (became->count > 1)
        qsort(rows, became->count, sizeof *rows, by_row);
    for (size_t i = 0; i < became->count; i++)
        if (left == 0 || by_row(&rows[i], &rows[left - 1]) != 0)
            rows[left++] = rows[i];
    became->count = left;
}

bool became_find(const struct reading *was, const struct reading *is, struct list *became)
{
    const size_t count = was->count + is->count;
    struct tried block = rattle_alloc((count + 1) * (sizeof(struct vector) + sizeof(struct side) + sizeof(bool)), 16);
    if (!block.ok)
        return false;
    struct vector *across = block.at;
    struct side *sides = (struct side *)(across + count);
    bool *is_other = (bool *)(sides + count);
    struct both b = {{was, is}, {across, across + was->count}, {is_other, is_other + was->count}, became, true};
    read_faces(was, is, b.across[0], b.is_other[0]);
    read_faces(is, was, b.across[1], b.is_other[1]);
    find_sides(&b, sides);
    find_spots(&b, (struct spot *)sides); /* (which are less) */
    became_sort(became);
    rattle_dealloc(block.at);
    return b.is_well;
}
