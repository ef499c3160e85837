/** @file gwb.h
 * The Geometric WorkBench in process: a boundary-representation solid modeller with unlimited undo.
 *
 * Link libgwb, shared or static. Both take memory by malloc, or from the heap that gwb_use_heap names. For a program without malloc there
 * is the kernel alone, libgwb_c.a, to be linked with a heap.c of your own; the one here lies in share/gwb where it is installed.
 *
 * What a caller owes, which nothing checks:
 * - A `gwb` begins as {0}. Never read, write or copy its fields: two copies would free one session twice.
 * - No pointer is null, not even that of a line of no bytes or of a buffer without room, and each is aligned for its type.
 * - What a call writes to does not overlap the handle or another argument of that call.
 * - `n` items can be read at `line`, `points` and `faces`, and `room` items be written at `buf` and `rows`.
 * - A signal handler makes no call, and neither does the forked child of a process with threads.
 *
 * Threads:
 * - Two handles share nothing, so any two threads may work at once, each with its own.
 * - Calls that take `const gwb *` are readers. They leave the handle alone and work on a copy of it, which has a share in the
 *   session for as long as the call lasts. So many may run at once for one handle, from any threads, as long as no other call for it runs.
 * - A call that takes `gwb *` needs the handle for itself: it takes the session out of the handle and puts another back. Let a lock, a
 *   queue or a join order it before and after every other call for that handle. The queries gwb_face_plane, gwb_volume and gwb_count are
 *   such calls, since they keep the last answer; gwb_read_plane, gwb_read_volume and gwb_read_counts keep none.
 * - A handle may go from thread to thread: a session has no lock, no thread-local and no global variable. Only its heap has to be one that
 *   all of its threads may use, as malloc is.
 *
 * How long a step from one coordinate to the next is, is the caller's affair.
 *
 * A closed handle is one before gwb_open or after gwb_close. But for gwb_open, a call for a closed handle changes nothing; but for gwb_lines, which
 * gave 0 lines, it writes nothing. */
#ifndef GWB_H
#define GWB_H
#include <stdbool.h>
#include <stddef.h>
#include <stdint.h>
#ifdef __cplusplus
extern "C" {
#endif

/** The version of this header: its first number times 10,000, its second times 100, and its third. */
#define GWB_VERSION 30000

#if (defined(__cplusplus) && __cplusplus >= 201703L) || (defined(__STDC_VERSION__) && __STDC_VERSION__ > 201710L)
#define GWB_NODISCARD [[nodiscard]]
#elif defined(__GNUC__)
#define GWB_NODISCARD __attribute__((warn_unused_result))
#else
#define GWB_NODISCARD
#endif

/** The version of the library that is linked, in the form of GWB_VERSION. Libraries whose first numbers are the same have the same calls,
 * types and constants as the older of the two; where the first number differs, compile anew. */
uint32_t gwb_version(void);

/** A handle: a session, or closed. */
typedef struct gwb {
    bool is_open;
    void *held;
    void *beside;
} gwb;

/** The kind of an answer. */
enum gwb_kind {
    GWB_SILENT = 0,  /**< a blank line or a comment */
    GWB_OK = 1,      /**< the command was accepted */
    GWB_REFUSED = 2, /**< a condition is false; the model is as it was */
    GWB_FAULT = 3,   /**< the line is no command; the model is as it was */
    GWB_MEMORY = 4,  /**< memory was refused; the model is as it was */
    GWB_PLANE = 5,   /**< the plane of a face */
    GWB_VOLUME = 6,  /**< six times the volume of a solid */
    GWB_COUNT = 7,   /**< the counts of a solid */
    GWB_LISTING = 8, /**< the listing of the model */
    GWB_CLOSED = 9,  /**< the handle is closed */
    /* After these three nothing has changed, the last answer included. But gwb_load and the features, when they are not GWB_OK, leave only the model,
     * undo, redo and the draft as they were: the last answer and gwb_fresh may differ. */
    GWB_NO_CALL = 10,  /**< the arguments make no command */
    GWB_IN_DRAFT = 11, /**< a draft has no such call */
    GWB_NO_DRAFT = 12, /**< only a draft has this call */
    GWB_IMPOSSIBLE = 13, /**< a feature isn't possible (gwb_features.h) */
    GWB_STOPPED = 14     /**< the caller ended it (gwb_stop_by) */
};

/** Whether an answer is one that was asked for: a command that was accepted, or what a query or a line told. */
static inline bool gwb_succeeded(enum gwb_kind kind)
{
    return kind < GWB_REFUSED || (kind > GWB_MEMORY && kind < GWB_CLOSED);
}

/** A kind in words: "accepted", "memory was refused". "" where there is no such kind. */
static inline const char *gwb_kind_text(enum gwb_kind kind)
{
    switch (kind) {
    case GWB_SILENT: return "a blank line or a comment";
    case GWB_OK: return "accepted";
    case GWB_REFUSED: return "a condition is false";
    case GWB_FAULT: return "the line is no command";
    case GWB_MEMORY: return "memory was refused";
    case GWB_PLANE: return "a plane";
    case GWB_VOLUME: return "a volume";
    case GWB_COUNT: return "counts";
    case GWB_LISTING: return "a listing";
    case GWB_CLOSED: return "the handle is closed";
    case GWB_NO_CALL: return "the arguments make no command";
    case GWB_IN_DRAFT: return "a draft is open, which has no such call";
    case GWB_NO_DRAFT: return "no draft is open";
    case GWB_IMPOSSIBLE: return "the feature isn't possible";
    case GWB_STOPPED: return "the caller ended it";
    }
    return "";
}

/** What a reader says: GWB_FOUND and the value is written, or GWB_ABSENT or GWB_CLOSED (9) and nothing is written. */
enum gwb_found { GWB_ABSENT = 0, GWB_FOUND = 1 };

/** The kinds of what has a number. Numbers are from 1 to 1,000,000. */
enum gwb_entity { GWB_SOLID = 0, GWB_FACE = 1, GWB_LOOP = 2, GWB_EDGE = 3, GWB_VERTEX = 4 };

/* ---- sessions, and lines as text */

/** Opens a session that holds the empty model; its last answer is GWB_SILENT.
 * @return false where memory is refused, or the handle is open already: then nothing has changed. */
GWB_NODISCARD bool gwb_open(gwb *g);

/** Frees the session, if there is one: the handle is closed. */
void gwb_close(gwb *g);

/** Whether a session is open. A reader. */
static inline bool gwb_is_open(const gwb *g) { return g->is_open; }

/** Answers one line of a script, without its newline, keeps the answer and says its kind. A line of more than 65,536 bytes is a fault. */
enum gwb_kind gwb_line(gwb *g, const char *line, size_t n);

/** @cond the exports of the readers, here and below: each takes a copy of the handle; call the reader of the same name without `lent` */
size_t gwb_lent_reply(gwb *copy, char *buf, size_t room);
size_t gwb_lent_depth(gwb *copy);
size_t gwb_lent_ahead(gwb *copy);
/** @endcond */

/** The text of the last answer, its newline included, as the program writes it. It can be asked again. A listing is that of the model held
 * now. A reader.
 * @param buf where as much is written as there is room for; no zero is put after it
 * @return the whole length. SIZE_MAX where memory is refused, or the handle is closed; then nothing is written. */
static inline size_t gwb_reply(const gwb *g, char *buf, size_t room)
{
    gwb copy = *g;
    return gwb_lent_reply(&copy, buf, room);
}

/** How many commands can be undone: in a draft none. Undo is possible where it is not 0. SIZE_MAX where the handle is closed. A reader. */
static inline size_t gwb_depth(const gwb *g)
{
    gwb copy = *g;
    return gwb_lent_depth(&copy);
}

/** How many commands can be redone: in a draft none. SIZE_MAX where the handle is closed. A reader. */
static inline size_t gwb_ahead(const gwb *g)
{
    gwb copy = *g;
    return gwb_lent_ahead(&copy);
}

/** A heap: three functions, and what each of them is handed first. It stays as long as a block of it is held. None of them throws, calls longjmp,
 * or gives a call for a session whose heap this is. */
#if defined(__cplusplus) && __cplusplus >= 201703L
#define GWB_NOEXCEPT noexcept
#else
#define GWB_NOEXCEPT
#endif
typedef struct gwb_heap {
    /** A block of `size` bytes, aligned as malloc does it, or NULL. `size` is not 0. */
    void *(*allocate)(void *user, size_t size) GWB_NOEXCEPT;
    /** The same block with `size` bytes, moved or not, or NULL: then it is as it was. */
    void *(*reallocate)(void *user, void *block, size_t size) GWB_NOEXCEPT;
    void (*release)(void *user, void *block) GWB_NOEXCEPT;
    void *user;
} gwb_heap;

/** From here on, sessions that this thread opens lie in a heap: NULL is the one of the C library. Whatever calls and threads come later, a
 * session lies in the heap in which it was opened. What gwb_load and the calls for triangles take for as long as they last is of the heap
 * that their thread uses. Not with libgwb_c.a alone.
 * @return the heap until now, NULL for the one of the C library */
const gwb_heap *gwb_use_heap(const gwb_heap *heap);

/** Opens a session in a heap of its own, as gwb_open does. */
GWB_NODISCARD static inline bool gwb_open_in(gwb *g, const gwb_heap *heap)
{
    const gwb_heap *before = gwb_use_heap(heap);
    bool is_open = gwb_open(g);
    gwb_use_heap(before);
    return is_open;
}

/* ---- the last answer, as values */

/** Which condition of a command was false. gwb_names.h has the numbers by name. */
typedef struct gwb_refusal {
    uint32_t number; /**< of the condition */
    uint32_t value;  /**< that goes with it */
} gwb_refusal;

/** high * 2^64 + low */
typedef struct gwb_wide {
    int64_t high;
    uint64_t low;
} gwb_wide;

/** How many parts a solid has. */
typedef struct gwb_counts {
    int64_t vertices, edges, faces, rings;
    int64_t sum; /**< vertices - edges + faces - rings */
} gwb_counts;

/** On the plane a x + b y + c z + d is 0. (a, b, c) is as long as twice the area of the face, and points out of a solid that isn't inside
 * out. */
typedef struct gwb_plane {
    gwb_wide a, b, c, d;
    uint32_t flat; /**< 1 where the face is flat, 0 where it is bent */
} gwb_plane;

/** The numbers from the first to the last. */
typedef struct gwb_range {
    uint32_t first, last;
} gwb_range;

/** @cond the exports of the readers */
uint32_t gwb_lent_last_refusal(gwb *copy, gwb_refusal *refusal);
uint32_t gwb_lent_last_fault(gwb *copy, uint32_t *number);
uint32_t gwb_lent_last_volume(gwb *copy, gwb_wide *six_volumes);
uint32_t gwb_lent_last_counts(gwb *copy, gwb_counts *counts);
uint32_t gwb_lent_last_plane(gwb *copy, gwb_plane *plane);
uint32_t gwb_lent_fresh(gwb *copy, uint32_t entity, gwb_range *range);
/** @endcond */

/** What the last answer refused: GWB_ABSENT where it was no refusal. Ask only after a command, a query or a line that is GWB_REFUSED:
 * GWB_IN_DRAFT, GWB_NO_DRAFT and GWB_NO_CALL leave the last answer as it was, and gwb_load and the features write their refusal themselves. A
 * reader. */
static inline uint32_t gwb_last_refusal(const gwb *g, gwb_refusal *refusal)
{
    gwb copy = *g;
    return gwb_lent_last_refusal(&copy, refusal);
}

/** The number of the last answer's fault (docs/SCRIPT.md). A reader. */
static inline uint32_t gwb_last_fault(const gwb *g, uint32_t *number)
{
    gwb copy = *g;
    return gwb_lent_last_fault(&copy, number);
}

/** The volume that the last answer told. A reader. */
static inline uint32_t gwb_last_volume(const gwb *g, gwb_wide *six_volumes)
{
    gwb copy = *g;
    return gwb_lent_last_volume(&copy, six_volumes);
}

/** What the last answer counted. A reader. */
static inline uint32_t gwb_last_counts(const gwb *g, gwb_counts *counts)
{
    gwb copy = *g;
    return gwb_lent_last_counts(&copy, counts);
}

/** The plane that the last answer told. A reader. */
static inline uint32_t gwb_last_plane(const gwb *g, gwb_plane *plane)
{
    gwb copy = *g;
    return gwb_lent_last_plane(&copy, plane);
}

/** The fresh numbers of a kind (enum gwb_entity): those above all that were in use before the last command or line, up to the greatest in
 * use now. A query by a typed call leaves them as they are. A larger command takes its faces, loops, edges and vertices there. GWB_ABSENT
 * where there are none, and for solids, whose numbers a command names. A reader. */
static inline uint32_t gwb_fresh(const gwb *g, uint32_t entity, gwb_range *range)
{
    gwb copy = *g;
    return gwb_lent_fresh(&copy, entity, range);
}

/** The faces of a block: its top and bottom, where z is greatest and least, and its sides, where y is least, x greatest, y greatest and x
 * least. */
typedef struct gwb_block_faces {
    uint32_t top, bottom, sides[4];
} gwb_block_faces;

/** The faces of the block that the last command made. Ask only after a block: after another command that made faces it is GWB_FOUND too, and
 * after one that made none GWB_ABSENT. A reader. */
static inline uint32_t gwb_last_block(const gwb *g, gwb_block_faces *faces)
{
    gwb_range fresh = {0, 0};
    const uint32_t found = gwb_fresh(g, GWB_FACE, &fresh);
    if (found == GWB_FOUND) {
        faces->top = fresh.first;
        faces->bottom = fresh.first + 1;
        for (uint32_t side = 0; side < 4; side++)
            faces->sides[side] = fresh.first + 2 + side;
    }
    return found;
}

/** The faces of the lamina that the last command made, alike: round the front its points run counterclockwise as seen from outside. A reader. */
static inline uint32_t gwb_last_lamina(const gwb *g, uint32_t *front, uint32_t *back)
{
    gwb_range fresh = {0, 0};
    const uint32_t found = gwb_fresh(g, GWB_FACE, &fresh);
    if (found == GWB_FOUND) {
        *front = fresh.first;
        *back = fresh.first + 1;
    }
    return found;
}

/* ---- the model held, in a draft the draft's, read without text */

/** A face: its solid and its outer loop. */
typedef struct gwb_face_row {
    uint32_t solid;
    uint32_t outer_loop;
} gwb_face_row;

/** An edge, by its vertices. */
typedef struct gwb_edge_row {
    uint32_t from; /**< the vertex at which the first half-edge starts */
    uint32_t to;   /**< the vertex at which the second one starts */
} gwb_edge_row;

/** A half-edge, and where it stands. */
typedef struct gwb_half_edge_row {
    uint32_t half_edge;
    uint32_t start; /**< the vertex at which it starts */
    uint32_t next;  /**< the half-edge after it in its loop */
    uint32_t loop;
    uint32_t face;
} gwb_half_edge_row;

/** A point, or a vector. Coordinates of the model are within 1,000,000,000 either way. */
typedef struct gwb_point {
    int64_t x, y, z;
} gwb_point;

/** @cond the exports of the readers */
uint32_t gwb_lent_number_after(gwb *copy, uint32_t entity, uint32_t n, uint32_t *number);
uint32_t gwb_lent_face(gwb *copy, uint32_t face, gwb_face_row *row);
uint32_t gwb_lent_ring_after(gwb *copy, uint32_t face, uint32_t n, uint32_t *ring);
uint32_t gwb_lent_face_after(gwb *copy, uint32_t solid, uint32_t n, uint32_t *face);
uint32_t gwb_lent_loop(gwb *copy, uint32_t loop, uint32_t *face);
uint32_t gwb_lent_lone_vertex(gwb *copy, uint32_t loop, uint32_t *vertex);
uint32_t gwb_lent_first_half_edge(gwb *copy, uint32_t loop, uint32_t *half_edge);
size_t gwb_lent_half_edges(gwb *copy, uint32_t loop, uint32_t *buf, size_t room);
size_t gwb_lent_half_edge_rows(gwb *copy, uint32_t face, gwb_half_edge_row *rows, size_t room);
uint32_t gwb_lent_next_half_edge(gwb *copy, uint32_t half_edge, uint32_t *next);
uint32_t gwb_lent_previous_half_edge(gwb *copy, uint32_t half_edge, uint32_t *previous);
uint32_t gwb_lent_half_edge_loop(gwb *copy, uint32_t half_edge, uint32_t *loop);
uint32_t gwb_lent_vertex_half_edge(gwb *copy, uint32_t vertex, uint32_t *half_edge);
uint32_t gwb_lent_edge(gwb *copy, uint32_t edge, gwb_edge_row *row);
uint32_t gwb_lent_vertex(gwb *copy, uint32_t vertex, gwb_point *point);
/** @endcond */

/** The least number of a kind (enum gwb_entity) in use above n: from 0 on, all numbers in use, rising. GWB_ABSENT also for an unknown kind.
 * A reader. */
static inline uint32_t gwb_number_after(const gwb *g, uint32_t entity, uint32_t n, uint32_t *number)
{
    gwb copy = *g;
    return gwb_lent_number_after(&copy, entity, n, number);
}

/** What is held of a face. A reader. */
static inline uint32_t gwb_face(const gwb *g, uint32_t face, gwb_face_row *row)
{
    gwb copy = *g;
    return gwb_lent_face(&copy, face, row);
}

/** The least ring of a face above n. GWB_ABSENT also where the face is not there. A reader. */
static inline uint32_t gwb_ring_after(const gwb *g, uint32_t face, uint32_t n, uint32_t *ring)
{
    gwb copy = *g;
    return gwb_lent_ring_after(&copy, face, n, ring);
}

/** The least face of a solid above n. A reader. */
static inline uint32_t gwb_face_after(const gwb *g, uint32_t solid, uint32_t n, uint32_t *face)
{
    gwb copy = *g;
    return gwb_lent_face_after(&copy, solid, n, face);
}

/** The face of a loop. A reader. */
static inline uint32_t gwb_loop(const gwb *g, uint32_t loop, uint32_t *face)
{
    gwb copy = *g;
    return gwb_lent_loop(&copy, loop, face);
}

/** The vertex of a loop that has one and no edge. GWB_ABSENT also where the loop has edges. A reader. */
static inline uint32_t gwb_lone_vertex(const gwb *g, uint32_t loop, uint32_t *vertex)
{
    gwb copy = *g;
    return gwb_lent_lone_vertex(&copy, loop, vertex);
}

/* A half-edge is its edge's number times 2, and 1 more for the edge's second. The other half-edge of its edge is half_edge ^ 1. */

/** The greatest edge that has half-edges as numbers; it is far above all that can be in use. */
#define GWB_GREATEST_EDGE UINT32_C(0x3FFFFFFF)

/** The first half-edge of an edge. Of an edge above GWB_GREATEST_EDGE it is that edge's, which no command takes. */
static inline uint32_t gwb_plus(uint32_t edge) { return 2 * (edge < GWB_GREATEST_EDGE ? edge : GWB_GREATEST_EDGE); }

/** The second half-edge of an edge, alike. */
static inline uint32_t gwb_minus(uint32_t edge) { return gwb_plus(edge) + 1; }

/** The one corner of a loop that has a vertex and no edge. Of a loop above 2^31 - 1 it is that of 2^31 - 1, which no command takes. It
 * evaluates its argument twice, and is a constant where that is. */
#define GWB_LONE(loop) ((loop) < UINT32_C(0x80000000) ? UINT32_C(0x80000000) + (loop) : UINT32_MAX)
static inline uint32_t gwb_lone(uint32_t loop) { return GWB_LONE(loop); }

/** A half-edge of a loop. GWB_ABSENT also where the loop has one vertex and no edge. A reader. */
static inline uint32_t gwb_first_half_edge(const gwb *g, uint32_t loop, uint32_t *half_edge)
{
    gwb copy = *g;
    return gwb_lent_first_half_edge(&copy, loop, half_edge);
}

/** Writes the half-edges of a loop in their order round it, from any of them on, as far as there is room for them in `buf`. Who wants one
 * list of each loop turns the least to the front, as a listing does. A reader.
 * @return how many there are: 0 where the loop has one vertex and no edge, or is not there. SIZE_MAX where the handle is closed; then
 * nothing is written. */
static inline size_t gwb_half_edges(const gwb *g, uint32_t loop, uint32_t *buf, size_t room)
{
    gwb copy = *g;
    return gwb_lent_half_edges(&copy, loop, buf, room);
}

/** Writes a row of each half-edge of a face, as far as there is room in `rows`: those of its outer loop, then those of its rings, rising, in
 * their order round each loop, from any on. A reader.
 * @return how many there are: 0 where the face is not there, SIZE_MAX where the handle is closed; then nothing is written. */
static inline size_t gwb_half_edge_rows(const gwb *g, uint32_t face, gwb_half_edge_row *rows, size_t room)
{
    gwb copy = *g;
    return gwb_lent_half_edge_rows(&copy, face, rows, room);
}

/** The half-edge after another in its loop. GWB_ABSENT where its edge is not there. A reader. */
static inline uint32_t gwb_next_half_edge(const gwb *g, uint32_t half_edge, uint32_t *next)
{
    gwb copy = *g;
    return gwb_lent_next_half_edge(&copy, half_edge, next);
}

/** The half-edge before another in its loop. GWB_ABSENT where its edge is not there. A reader. */
static inline uint32_t gwb_previous_half_edge(const gwb *g, uint32_t half_edge, uint32_t *previous)
{
    gwb copy = *g;
    return gwb_lent_previous_half_edge(&copy, half_edge, previous);
}

/** The loop in which a half-edge stands; gwb_loop has its face. GWB_ABSENT where its edge is not there. A reader. */
static inline uint32_t gwb_half_edge_loop(const gwb *g, uint32_t half_edge, uint32_t *loop)
{
    gwb copy = *g;
    return gwb_lent_half_edge_loop(&copy, half_edge, loop);
}

/** A half-edge that starts at a vertex. It looks first where an edge of it is likely, by the numbers, and then at all others; who needs many
 * reads all edges once. GWB_ABSENT also where the vertex has no edge: then it looks at all edges. A reader. */
static inline uint32_t gwb_vertex_half_edge(const gwb *g, uint32_t vertex, uint32_t *half_edge)
{
    gwb copy = *g;
    return gwb_lent_vertex_half_edge(&copy, vertex, half_edge);
}

/** What is held of an edge. A reader. */
static inline uint32_t gwb_edge(const gwb *g, uint32_t edge, gwb_edge_row *row)
{
    gwb copy = *g;
    return gwb_lent_edge(&copy, edge, row);
}

/** Where a vertex lies. A reader. */
static inline uint32_t gwb_vertex(const gwb *g, uint32_t vertex, gwb_point *point)
{
    gwb copy = *g;
    return gwb_lent_vertex(&copy, vertex, point);
}

/* ---- commands as typed calls, without text */

/* Each does what the line does that spells the same command, answers its kind and keeps its answer, so that gwb_last_refusal, gwb_reply and
 * gwb_fresh tell of it. Where the answer is not GWB_OK, the model is as it was. Arguments may be any numbers: what the kernel does not take
 * is refused. docs/SCRIPT.md has the conditions of each.
 *
 * A half-edge is given as readers give it. A corner is the half-edge that starts there, or gwb_lone(loop) for the one corner of a loop that
 * has a vertex and no edge. `edge` of gwb_mev, gwb_mef and gwb_mekr is the new edge's number, whose first half-edge starts at the first
 * corner's vertex. */

/** A new solid with one face, whose outer loop stands at one new vertex. */
enum gwb_kind gwb_mvfs(gwb *g, uint32_t solid, uint32_t face, uint32_t loop, uint32_t vertex, int64_t x, int64_t y, int64_t z);
/** The solid goes, with its one face, loop and vertex. */
enum gwb_kind gwb_kvfs(gwb *g, uint32_t solid);
/** A new edge from the vertex of the corners to a new vertex. With one corner given twice it sticks out there; with two corners at one
 * vertex, the half-edges from the first round to before the second start at the new vertex. */
enum gwb_kind gwb_mev(gwb *g, uint32_t corner, uint32_t other, uint32_t edge, uint32_t vertex, int64_t x, int64_t y, int64_t z);
/** The edge goes, and the vertex at the end of the half-edge; what else starts there starts where the half-edge does. */
enum gwb_kind gwb_kev(gwb *g, uint32_t half_edge);
/** A new edge across a face, between the vertices at which two half-edges of one loop start. The part from the first to before the second
 * becomes the loop of the new face. */
enum gwb_kind gwb_mef(gwb *g, uint32_t half_edge, uint32_t other, uint32_t edge, uint32_t face, uint32_t loop);
/** The edge goes, and the face on its other side becomes part of the half-edge's own. */
enum gwb_kind gwb_kef(gwb *g, uint32_t half_edge);
/** The edge goes, which has one loop on both sides; the part after the half-edge is a new ring of the face. */
enum gwb_kind gwb_kemr(gwb *g, uint32_t half_edge, uint32_t ring);
/** A new edge from the first corner to the second, whose loop is a ring of the same face and becomes part of the first one's. */
enum gwb_kind gwb_mekr(gwb *g, uint32_t corner, uint32_t other, uint32_t edge);
/** The second face goes, and its loop becomes a ring of the first. */
enum gwb_kind gwb_kfmrh(gwb *g, uint32_t face, uint32_t other);
/** A ring becomes the outer loop of a new face of the same solid. */
enum gwb_kind gwb_mfkrh(gwb *g, uint32_t ring, uint32_t face);
/** Moves a ring to a face: as a ring of it where `out` is 0, else as its outer loop, as the words `in` and `out` of a script say. */
enum gwb_kind gwb_ringmv(gwb *g, uint32_t ring, uint32_t face, uint32_t out);

/* Three operators that no script has. */

/** A ring becomes the outer loop of its face, whose outer loop until then becomes a ring of `face`. */
enum gwb_kind gwb_outer(gwb *g, uint32_t ring, uint32_t face);
/** Two solids become the first. */
enum gwb_kind gwb_merge(gwb *g, uint32_t solid, uint32_t other);
/** `n` faces of one solid, their numbers rising, become the new solid `solid`. The solid that they leave is that of the first face.
 * GWB_NO_CALL where `n` is 0. */
enum gwb_kind gwb_part(gwb *g, const uint32_t *faces, size_t n, uint32_t solid);

/** A new solid of two faces, whose corners are the `n` points in order. Fewer than 3 are refused; more than 64 are GWB_NO_CALL. */
enum gwb_kind gwb_lamina(gwb *g, uint32_t solid, const gwb_point *points, size_t n);
/** A new solid, the block with the lowest corner (x, y, z) and edges along the axes as long as the sizes. */
enum gwb_kind gwb_block(gwb *g, uint32_t solid, int64_t x, int64_t y, int64_t z, int64_t dx, int64_t dy, int64_t dz);
/** The face moves by a vector, and a new face rises over each of its half-edges. */
enum gwb_kind gwb_sweep(gwb *g, uint32_t face, int64_t dx, int64_t dy, int64_t dz);
/** The two solids of the faces become one along them. The faces go through the same points in opposite directions. */
enum gwb_kind gwb_glue(gwb *g, uint32_t face, uint32_t other);
/** The plane a x + b y + c z + d = 0 cuts the solid in two; what lies where the sum is above 0 becomes the solid `above`. */
enum gwb_kind gwb_split(gwb *g, uint32_t solid, int64_t a, int64_t b, int64_t c, int64_t d, uint32_t above);

/** Takes the last command back. */
enum gwb_kind gwb_undo(gwb *g);
/** Does the command again that was taken back last. */
enum gwb_kind gwb_redo(gwb *g);

/* A draft of the next command: from gwb_draft on, each operator and each larger command, by a call or a line, is a step of it, or several,
 * and readers and queries speak of the model that the steps make. A call that is not GWB_OK changes nothing, and the draft goes on.
 * gwb_close gives a draft up.
 *
 * In a draft undo and redo, by a call or a line, and a second gwb_draft are GWB_IN_DRAFT; gwb_commit, gwb_abandon and gwb_back without a
 * draft are GWB_NO_DRAFT. */

/** Opens a draft. */
enum gwb_kind gwb_draft(gwb *g);
/** Makes the steps one command, also where there was none. It takes no memory. */
enum gwb_kind gwb_commit(gwb *g);
/** Takes the steps back: the session is as it was, what could be redone included. It takes no memory. */
enum gwb_kind gwb_abandon(gwb *g);
/** Takes the steps since a mark back, and leaves the draft open; where there are no more steps than that, nothing changes. It takes no
 * memory. */
enum gwb_kind gwb_back(gwb *g, size_t mark);

/** @cond the export of the reader */
size_t gwb_lent_mark(gwb *copy);
/** @endcond */

/** How many steps the draft has, as a mark for gwb_back: each operator is one, a larger command has as many as it has operators. 0 where no
 * draft is open, SIZE_MAX where the handle is closed. A reader. */
static inline size_t gwb_mark(const gwb *g)
{
    gwb copy = *g;
    return gwb_lent_mark(&copy);
}

/* ---- queries: the kind is theirs and the value is written, as the last answer has it, or it is GWB_REFUSED or GWB_CLOSED and nothing is
 * */

/** The plane of a face: GWB_PLANE. */
enum gwb_kind gwb_face_plane(gwb *g, uint32_t face, gwb_plane *plane);
/** Six times the volume of a solid, below 0 where it is inside out: GWB_VOLUME. */
enum gwb_kind gwb_volume(gwb *g, uint32_t solid, gwb_wide *six_volumes);
/** How many parts a solid has: GWB_COUNT. */
enum gwb_kind gwb_count(gwb *g, uint32_t solid, gwb_counts *counts);

/** @cond the exports of the readers */
enum gwb_kind gwb_lent_plane(gwb *copy, uint32_t face, gwb_plane *plane, gwb_refusal *refusal);
enum gwb_kind gwb_lent_volume(gwb *copy, uint32_t solid, gwb_wide *six_volumes, gwb_refusal *refusal);
enum gwb_kind gwb_lent_counts(gwb *copy, uint32_t solid, gwb_counts *counts, gwb_refusal *refusal);
size_t gwb_lent_listing(gwb *copy, char *buf, size_t room);
/** @endcond */

/** The same as readers, which keep no answer: the plane of a face. GWB_PLANE and the plane is written, GWB_REFUSED and the refusal is, or
 * GWB_CLOSED and nothing is. */
static inline enum gwb_kind gwb_read_plane(const gwb *g, uint32_t face, gwb_plane *plane, gwb_refusal *refusal)
{
    gwb copy = *g;
    return gwb_lent_plane(&copy, face, plane, refusal);
}

/** Six times the volume of a solid, alike: GWB_VOLUME. A reader. */
static inline enum gwb_kind gwb_read_volume(const gwb *g, uint32_t solid, gwb_wide *six_volumes, gwb_refusal *refusal)
{
    gwb copy = *g;
    return gwb_lent_volume(&copy, solid, six_volumes, refusal);
}

/** How many parts a solid has, alike: GWB_COUNT. A reader. */
static inline enum gwb_kind gwb_read_counts(const gwb *g, uint32_t solid, gwb_counts *counts, gwb_refusal *refusal)
{
    gwb copy = *g;
    return gwb_lent_counts(&copy, solid, counts, refusal);
}

/** The listing of the model, as the line `list` answers it, into a buffer, as gwb_reply writes it. A reader. */
static inline size_t gwb_read_listing(const gwb *g, char *buf, size_t room)
{
    gwb copy = *g;
    return gwb_lent_listing(&copy, buf, room);
}

/* ---- the model at once, for display and export. Not with libgwb_c.a alone. */

/** A vertex, and where it lies. */
typedef struct gwb_vertex_row {
    uint32_t vertex;
    gwb_point point;
} gwb_vertex_row;

/** Writes the half-edges of a solid, of all for solid 0, as far as there is room in `rows`: those of one loop one after another in their
 * order round it, the outer loop of each face before its rings, faces and rings rising. Loops without an edge have none. A reader.
 * @return how many there are: SIZE_MAX where the handle is closed; then nothing is written. */
size_t gwb_read_half_edges(const gwb *g, uint32_t solid, gwb_half_edge_row *rows, size_t room);

/** Writes all vertices, rising, as far as there is room in `rows`. A reader.
 * @return how many there are: SIZE_MAX where the handle is closed; then nothing is written. */
size_t gwb_read_vertices(const gwb *g, gwb_vertex_row *rows, size_t room);

/** A triangle of a face. */
typedef struct gwb_triangle_row {
    uint32_t face;
    uint32_t corners[3]; /**< vertices, counterclockwise as seen from outside */
} gwb_triangle_row;

/** Cuts the faces of a solid, of all for solid 0, into triangles, by exact tests, and writes these as far as there is room in `rows`, faces
 * rising. Their corners are vertices of the face alone, so faces that share an edge have triangles that share it. Two kinds of faces have none:
 * bent ones, and those whose loops cross, touch, or aren't one outline with the holes in it. A loop may come to a vertex twice where the face
 * lies between, as at an edge that it runs along both ways. Loops of one vertex leave nothing out. A face of n edges takes time n log n. A
 * reader.
 * @return how many there are: of a face, its half-edges and twice its rings, those of one vertex left out, less 2. Room for as many rows as the
 * solid has half-edges, and twice as many as it has rings, is enough for one call. SIZE_MAX where memory is refused or the handle is closed; then
 * some rows may be written. */
size_t gwb_read_triangles(const gwb *g, uint32_t solid, gwb_triangle_row *rows, size_t room);

/** The same of one face: 0 also where it is not there. */
size_t gwb_face_triangles(const gwb *g, uint32_t face, gwb_triangle_row *rows, size_t room);

/** Makes the model of a listing (docs/SCRIPT.md, as `list` writes it) beside what is held, with its numbers: one command, or steps of the
 * draft that is open. It needs some numbers more on the way. It takes time n log n by the length of the listing, and for each handle that no
 * ring opens, as much as the smaller part of a loop that an edge cuts in two: that is little, but where one face goes round thousands.
 * @return GWB_OK; GWB_REFUSED, where a number is in use or none is free: the refusal is written; GWB_MEMORY; GWB_NO_CALL, where it is no
 * listing of a sound model, as no bytes are none; GWB_STOPPED; GWB_CLOSED. But for GWB_OK the model, undo, redo and the draft are as they were; the last
 * answer and gwb_fresh may differ. */
enum gwb_kind gwb_load(gwb *g, const char *listing, size_t n, gwb_refusal *refusal);

/** Gives the lines of a script one after another, up to the first whose answer is none that was asked for (gwb_succeeded), and
 * writes to `line` how many were given.
 * @return the kind of the last one's answer: GWB_SILENT where there was none */
enum gwb_kind gwb_lines(gwb *g, const char *script, size_t n, size_t *line);

/* ---- what a session keeps beside the kernel. Not with libgwb_c.a alone. */

/** A number that is another one whenever the model may have changed since: by a command, undo, redo, or steps that were taken back. 0 where the
 * handle is closed. A reader. */
uint64_t gwb_changes(const gwb *g);

/** From here on each command that is accepted is recorded as a line of a script, and what is recorded follows undo, redo and drafts. Where
 * memory for its line is refused, a command is GWB_MEMORY, also one that would be refused, and so is gwb_draft: but no other call, and no line
 * of another word.
 * @return GWB_OK, also where commands were recorded before; GWB_NO_CALL, where the session has done something already; GWB_MEMORY; GWB_CLOSED.
 * But for GWB_OK nothing has changed. */
enum gwb_kind gwb_record(gwb *g);

/** How many recorded commands are held, the draft that is open counted as one. 0 where nothing is recorded, SIZE_MAX where the handle is
 * closed. A reader. */
size_t gwb_recorded(const gwb *g);

/** Writes the lines of `n` recorded commands that are held, or of as many as there are, as far as there is room in `buf`: from the one of this
 * place on, where the first is 0, and the draft that is open comes last. A command of a draft has a line for each step, which may be none. A
 * line of gwb_line stands as it was given. gwb_outer, gwb_merge and gwb_part have words that no script has: `outer 3 1`, `merge 1 2`, and
 * `part 2 7 8`, the new solid and then the faces. Where gwb_back took some of a larger command's steps and left others, its line is in capitals,
 * which no script has either. A reader.
 * @return how many bytes there are. SIZE_MAX where the handle is closed; then nothing is written. */
size_t gwb_script(const gwb *g, size_t first, size_t n, char *buf, size_t room);

/** From here on the session keeps of each command which solids it touches, also of those that are undone and redone; and where `is_asked`, what each solid
 * was when it was touched first since this call: what was asked for before is forgotten, but for that of gwb_watch_from. A command, undo or redo whose
 * solids aren't known, since it was given before the first such call, or as a line, touches all. No other call is refused for it: where memory for what a
 * solid was is refused, that is lost, and gwb_compare says so.
 * @return GWB_OK; GWB_MEMORY; GWB_CLOSED. But for GWB_OK nothing has changed. */
enum gwb_kind gwb_watch(gwb *g, bool is_asked);

/** The same from a place on, which is written: as many may be asked for at once as are wanted, one within another or side by side, and none ends another.
 * What is written down until gwb_watch_to costs as much for each of them.
 * @return GWB_OK; GWB_MEMORY; GWB_CLOSED. But for GWB_OK nothing has changed. */
enum gwb_kind gwb_watch_from(gwb *g, size_t *place);

/** Ends what gwb_watch_from asked for, and nothing where no such is asked for. */
void gwb_watch_to(gwb *g, size_t place);

/** A face or an edge that is new or gone, and the one that it was split from, or joined to: 0 where there is none. */
typedef struct gwb_change {
    uint32_t number, other;
} gwb_change;

/** Compares the solids that were touched since gwb_watch asked, as they were, with what they are, for gwb_compared. It takes about as long as reading both.
 * @return GWB_OK; GWB_MEMORY, and then there are no changes: where what a solid was is lost, that stays so until the next gwb_watch; GWB_CLOSED */
enum gwb_kind gwb_compare(gwb *g);

/** The same from a place on.
 * @return also GWB_NO_CALL, where nothing is asked for from there on; then there are no changes */
enum gwb_kind gwb_compare_from(gwb *g, size_t place);

/** Writes what was found by the last of these, rising, as far as there is room: the faces (GWB_FACE) or edges (GWB_EDGE) that were made, or those that are gone. Of a closed
 * handle none. A reader.
 *
 * A new face was split from the one that had a half-edge of it, or else an edge along one of its own from the same vertex, if it lies in that face's plane
 * and looks the same way. A new edge was split from the one that ran along it from the same vertex. A face that is gone was joined to the one that has a
 * half-edge of it, and an edge to the one that runs along it. A number that went and is another thing's now (gwb_birth) is told as gone and as made.
 * @return how many there are */
size_t gwb_compared(const gwb *g, uint32_t entity, bool is_made, gwb_change *rows, size_t room);

/** The birth of what has a number of a kind (enum gwb_entity). No two things of a kind ever have the same, so that it tells a thing from another one that
 * has its number later. What is in use before and after one call is the same thing, and what is in use after it and wasn't before is a new one: a call is an
 * operator, a larger command, a line, a gwb_load or a feature, and in a draft each of its steps. Undo, redo, gwb_back and gwb_abandon bring things back with
 * the births that they had, and gwb_renumber takes them along. A reader.
 * @return 0 where nothing has the number, and where no birth is known: before the first gwb_watch or gwb_watch_from, and from where memory for them is
 * refused until the next one, with births that are others */
uint64_t gwb_birth(const gwb *g, uint32_t entity, uint32_t number);

/** A change with the births of both. */
typedef struct gwb_born_change {
    uint32_t number, other;
    uint64_t birth;       /**< of what was made, or is gone */
    uint64_t other_birth; /**< of the other one, as it was where this was made, or as it is: 0 where there is none, and where what is there was there once
                           * before, and came back */
} gwb_born_change;

/** The same as gwb_compared with births. A reader. */
size_t gwb_compared_births(const gwb *g, uint32_t entity, bool is_made, gwb_born_change *rows, size_t room);

/** Something that is gone, or isn't as it was, and another one that came of it, with the births of both. */
typedef struct gwb_became_row {
    uint32_t kind; /**< GWB_FACE, GWB_EDGE or GWB_VERTEX */
    uint32_t old, made;
    uint64_t old_birth, made_birth;
} gwb_became_row;

/** Writes what became of faces, edges and vertices, by kinds and the old ones, as far as there is room: by what the last of these compared, where no command,
 * undo, redo or draft came since; else by the last command that is held, as a feature, watched or not, of the solids that it changed. Of an edge that hasn't
 * both ends where they were came each other one that runs along a part of it, of a vertex that isn't where it was each other one at its point, and of a face
 * whose sides aren't what they were each other one of its plane that looks its way and has a part of a side in common with it. What is as it was has no row.
 *
 * For the last command it takes that back and does it again, so it is no reader: the last answer and gwb_fresh are then as after gwb_redo, and nothing else has
 * changed. It takes as long as reading twice the solids that a watched or recorded command touched, else all, and no time when it is asked again. Births are 0
 * where the command wasn't watched; then a number that went and came again within it is one thing's. As long as a draft is open there is no last command, so
 * no row.
 * @return how many there are; SIZE_MAX where memory is refused or the handle is closed, and then nothing is written */
size_t gwb_became(gwb *g, gwb_became_row *rows, size_t room);

/** Whether work is to end. It is asked often while it is done, by the thread that does it, and gives no call for that handle. */
typedef bool (*gwb_stop)(void *user) GWB_NOEXCEPT;

/** From here on gwb_load and the features of a session (gwb_features.h) ask `stop` between their steps and in what takes long; where it says
 * true their answer is GWB_STOPPED, and the model and the draft are as they were. NULL: they ask nothing. Nothing happens where the handle is
 * closed. */
void gwb_stop_by(gwb *g, gwb_stop stop, void *user);

/** The greatest number of a kind (enum gwb_entity) in use, so that the one above it is free: 0 where none is. SIZE_MAX where the handle is
 * closed. A reader. */
size_t gwb_greatest_number(const gwb *g, uint32_t entity);

#ifdef __cplusplus
}
#endif
#endif
