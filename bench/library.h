/* The commands that library.c measures, and the ways to give them: library_calls.c over the library, as typed calls and as lines,
 * library_cpp.cpp by the class for C++, library_plain.c by the functions of the plain C program, library_cgal.cpp by CGAL's Euler operators. */
#ifndef LIBRARY_H
#define LIBRARY_H
#include <stdbool.h>
#include <stdint.h>

/* How many of each there are in a round. */
enum { ITEMS = 200 };

/* Gives the command of this name for item i, and answers whether it did what it should: a refused one whether it was refused. */
typedef bool command(uint32_t i);

/* A way to give commands; NULL stands for one that it doesn't have. Block 1 is there from `begin` on; a round gives each for the items from
 * 0 on (`kef` and `kev` for the last one first), in the order in which they stand here, and `restore` takes all back but block 1. `undo` and
 * `redo` follow `mev`, `mef`, `kef`, `block`, `split` and `glue`. */
struct way {
    const char *name;
    bool (*begin)(void);
    void (*restore)(void);
    command *mev, *mef, *kef, *kev, *block, *split, *glue, *undo, *redo, *count, *volume, *kvfs_refused, *mev_refused;
};

#ifdef __cplusplus
extern "C" {
#endif
extern const struct way typed_way, line_way, cpp_way, attempt_way, plain_way;
extern const struct way cgal_way; /* its name is NULL where CGAL's headers aren't there */
#ifdef __cplusplus
}
#endif

/* Edge i and its vertex divide edge 7 of block 1 where it starts: they are drawn at the corners +7, which starts at the new vertex then, and
 * after it round the vertex -5, or the second half-edge of the edge drawn before. */
static inline uint32_t drawn_edge(uint32_t i) { return 13 + i; }
static inline uint32_t drawn_vertex(uint32_t i) { return 9 + i; }
static inline uint32_t next_corner(uint32_t i) { return i == 0 ? 2 * 5 + 1 : 2 * drawn_edge(i - 1) + 1; }
#define DIVIDED (2 * 7)
#define BEHIND_DIVIDED (2 * 9)

/* Edge i and its face cut a triangle off the face in which the drawn edges lie one behind the other and edge 7 behind them: it starts where the first of
 * them does, and leads on to the end of the second, then of the third, and so on. */
static inline uint32_t cut_edge(uint32_t i) { return drawn_edge(ITEMS + i); }
static inline uint32_t cut_face(uint32_t i) { return 7 + i; }
static inline uint32_t cut_from(uint32_t i) { return 2 * (i == 0 ? drawn_edge(0) : cut_edge(i - 1)); }
static inline uint32_t cut_to(uint32_t i) { return i + 2 < ITEMS ? 2 * drawn_edge(i + 2) : i + 2 == ITEMS ? DIVIDED : BEHIND_DIVIDED; }

/* The solid of block i and that above it once it is split, and where it stands: it is 4 by 4 by 4, and split at height 2. */
static inline uint32_t block_solid(uint32_t i) { return 2 + i; }
static inline uint32_t upper_solid(uint32_t i) { return 2 + ITEMS + i; }
static inline int64_t block_place(uint32_t i) { return 10 * ((int64_t)i + 1); }

/* The faces in which the two parts of block i meet: all blocks have six, and each split takes nine numbers. */
static inline uint32_t lower_cap(uint32_t i) { return 6 * (ITEMS + 1) + 9 * i + 5; }
static inline uint32_t upper_cap(uint32_t i) { return lower_cap(i) + 4; }

/* A solid that is never there. */
#define NO_SUCH_SOLID 900000

#endif
