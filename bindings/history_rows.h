/* Solids at one time, as their rows are read by history. */
#ifndef GWB_HISTORY_ROWS_H
#define GWB_HISTORY_ROWS_H
#include "history.h"

/* A half-edge by something of it, and the place of its row. Those of one key stand in the order of their rows. */
struct entry {
    uint32_t key, place;
};

/* Solids at one time, with their half-edges by themselves, by their faces, and by the vertices at which they start. */
struct reading {
    const gwb_half_edge_row *rows;
    const gwb_vertex_row *starts;
    struct entry *by_itself, *by_face, *by_start;
    size_t count;
    const struct list *faces;
};

#define NOWHERE SIZE_MAX

/* The place of the first entry of a key, where there is one. */
static inline size_t first_of(const struct reading *r, const struct entry *entries, uint32_t key) { return first_from(entries, r->count, sizeof *entries, key); }

static inline bool is_of(const struct reading *r, const struct entry *entries, size_t at, uint32_t key) { return at < r->count && entries[at].key == key; }

/* The place of a half-edge's row. */
static inline size_t place_of(const struct reading *r, uint32_t half_edge)
{
    const size_t at = first_of(r, r->by_itself, half_edge);
    return is_of(r, r->by_itself, at, half_edge) ? r->by_itself[at].place : NOWHERE;
}

/* ---- where they lie */

__extension__ typedef __int128 wide;
struct vector {
    wide x, y, z;
};

static inline struct vector from_to(gwb_point a, gwb_point b) { return (struct vector){(wide)b.x - a.x, (wide)b.y - a.y, (wide)b.z - a.z}; }
static inline wide dot(struct vector a, struct vector b) { return a.x * b.x + a.y * b.y + a.z * b.z; }
static inline struct vector cross(struct vector a, struct vector b)
{
    return (struct vector){a.y * b.z - a.z * b.y, a.z * b.x - a.x * b.z, a.x * b.y - a.y * b.x};
}
static inline int sign(wide a) { return (a > 0) - (a < 0); }

/* Where the half-edge of a place starts and ends, and the way between. */
static inline gwb_point start(const struct reading *r, size_t place) { return r->starts[place].point; }
static inline gwb_point end(const struct reading *r, size_t place) { return start(r, place_of(r, r->rows[place].half_edge ^ 1)); }
static inline struct vector way(const struct reading *r, size_t place) { return from_to(start(r, place), end(r, place)); }

static inline bool is_one_way(struct vector a, struct vector b)
{
    const struct vector across = cross(a, b);
    return across.x == 0 && across.y == 0 && across.z == 0 && sign(a.x) == sign(b.x) && sign(a.y) == sign(b.y) && sign(a.z) == sign(b.z);
}

/* A vector across a face, as long as twice its area. */
static inline struct vector across_face(const struct reading *r, uint32_t face)
{
    const size_t first = first_of(r, r->by_face, face);
    struct vector sum = {0, 0, 0};
    for (size_t i = first; is_of(r, r->by_face, i, face); i++) {
        const gwb_point origin = start(r, r->by_face[first].place);
        const struct vector part = cross(from_to(origin, start(r, r->by_face[i].place)), from_to(origin, end(r, r->by_face[i].place)));
        sum = (struct vector){sum.x + part.x, sum.y + part.y, sum.z + part.z};
    }
    return sum;
}

/* Writes down what became of things, as gwb_became of gwb.h says: of gwb_became_row, without births. False where memory is refused. */
bool became_find(const struct reading *was, const struct reading *is, struct list *became);

#endif
