/* The model: one table a kind of thing, each of its full size and all zero at the start, so that nothing is ever grown and only the pages
 * in use take memory.
 *
 * A half-edge is a code: 2e is +e, 2e + 1 is -e. A corner is a half-edge or LONE | L, the one corner of the lone loop L.
 *
 * The half-edges of a loop name a label, and a table leads from labels to the numbers of loops. So a loop that is cut in two or joined with
 * another costs its shorter part. A lone loop has no label. */
#ifndef MODEL_H
#define MODEL_H

#include "numbers.h"
#include <stdbool.h>
#include <stddef.h>
#include <stdint.h>

typedef uint32_t u32;
typedef uint64_t u64;
typedef int32_t i32;
typedef int64_t i64;
typedef __int128 i128;

#define COORDINATE_LIMIT 1000000000
#define LONE 0x80000000u

enum kind { SOLID, FACE, LOOP, EDGE, VERTEX, KINDS };

struct point { i32 x, y, z; };
struct half { u32 next, prev, tail, label; };           /* tail 0: no such edge */
struct vertex { struct point point; u32 mark; };        /* mark 0: no such vertex; else who looked at it last */
struct loop { u32 face, content, label, next, prev; };  /* face 0: no such loop; content: an item, or LONE | vertex; next ring of the face */
struct face { u32 solid, outer, rings, ring_count, next, prev; };       /* solid 0: no such face; first ring; next face of the solid */
struct solid { u32 faces, face_count; };                /* face_count 0: no such solid */

extern struct half halves[2 * NUMBER_LIMIT + 2];
extern struct vertex vertices[NUMBER_LIMIT + 1];
extern struct loop loops[NUMBER_LIMIT + 1];
extern struct face faces[NUMBER_LIMIT + 1];
extern struct solid solids[NUMBER_LIMIT + 1];
extern struct numbers in_use[KINDS];
extern u32 label_loop[NUMBER_LIMIT + 2];

/* Whether some coordinate was ever past this limit. Up to it the cross products of all half-edges of a model add up in 64 bits. */
#define SMALL_LIMIT 1000000
extern bool any_wide_point;

static inline bool has_solid(u32 n) { return solids[n].face_count != 0; }
static inline bool has_face(u32 n) { return faces[n].solid != 0; }
static inline bool has_loop(u32 n) { return loops[n].face != 0; }
static inline bool has_edge(u32 n) { return halves[2 * n].tail != 0; }
static inline bool has_vertex(u32 n) { return vertices[n].mark != 0; }

static inline u32 mate(u32 h) { return h ^ 1; }
static inline u32 edge_of(u32 h) { return h >> 1; }
static inline u32 after(u32 h) { return halves[h].next; }
static inline u32 tail(u32 h) { return halves[h].tail; }
static inline u32 round_tail(u32 h) { return halves[mate(h)].next; }    /* the next half-edge that leaves the same vertex */
static inline u32 loop_of(u32 h) { return label_loop[halves[h].label]; }
static inline u32 face_of(u32 h) { return loops[loop_of(h)].face; }
static inline const struct point *point_of(u32 h) { return &vertices[halves[h].tail].point; }

static inline bool is_lone(u32 loop) { return loops[loop].content & LONE; }
static inline u32 lone_vertex(u32 loop) { return loops[loop].content & ~LONE; }
static inline bool is_outer(u32 loop) { return faces[loops[loop].face].outer == loop; }
static inline bool is_lone_corner(u32 corner) { return corner & LONE; }
static inline u32 corner_loop(u32 corner) { return is_lone_corner(corner) ? corner & ~LONE : loop_of(corner); }
static inline u32 corner_tail(u32 corner) { return is_lone_corner(corner) ? lone_vertex(corner & ~LONE) : tail(corner); }

/* The loops of a face in turn, its outer loop first: for (l = faces[f].outer; l; l = next_loop(f, l)) */
static inline u32 next_loop(u32 face, u32 loop) { return faces[face].outer == loop ? faces[face].rings : loops[loop].next; }

static inline void link_halves(u32 a, u32 b)
{
    halves[a].next = b;
    halves[b].prev = a;
}

static inline bool in_coordinate_range(i64 c) { return -COORDINATE_LIMIT <= c && c <= COORDINATE_LIMIT; }

static inline bool point_in_range(const struct point *p)
{
    return in_coordinate_range(p->x) && in_coordinate_range(p->y) && in_coordinate_range(p->z);
}

static inline bool same_point(const struct point *p, const struct point *q) { return p->x == q->x && p->y == q->y && p->z == q->z; }

/* The chains of faces of a solid and of rings of a face. */
void add_face(u32 face, u32 solid);
void remove_face(u32 face);
void add_ring(u32 loop, u32 face);
void remove_ring(u32 loop);

/* Items that follow each other, from `first` to `last`. */
struct part { u32 first, last; };

/* Labels. `divide_label`: of the items of loop `stays`, those in `cut` come under loop `made`, which has no label yet. `unite_labels`: those
 * of loop `ends` come under loop `stays`. `hand_label`: what loop `from` held comes under loop `to`, which has no label yet. */
void new_label(u32 loop);
void free_label(u32 loop);
void divide_label(struct part cut, u32 made, struct part rest, u32 stays);
void unite_labels(struct part moved, u32 ends, struct part rest, u32 stays);
void hand_label(u32 from, u32 to);

/* The least item of a loop that isn't lone: + before - of the same edge. */
u32 least_item(u32 loop);

/* The least lone loop of a face and `lone`, 0 for none. */
u32 least_lone_loop(u32 face, u32 lone);

/* The order by x, then y, then z of points, or of structures that begin with one; for qsort. */
int compare_points(const void *a, const void *b);

/* Sorts numbers or half-edges. */
void sort_numbers(u32 *list, u32 count);

/* The rings of a face, rising, in memory that stands until the next call. */
const u32 *sorted_rings(u32 face);

/* Memory for `count` things of `size` bytes in `*list`, of which `*room` says how many fit; ends the program where there is none. */
void make_room(void *list, size_t *room, size_t count, size_t size);

_Noreturn void fail(const char *text);

#endif
