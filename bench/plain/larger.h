/* The larger commands. Each is one command of the journal; the words that are numbers are in range. */
#ifndef LARGER_H
#define LARGER_H

#include "operators.h"

#define LAMINA_POINTS 64

struct wide_point { i64 x, y, z; };     /* as a line gives it */

struct refusal lamina(u32 solid, const struct wide_point *points, u32 count);
struct refusal block(u32 solid, struct wide_point corner, struct wide_point sizes);
struct refusal sweep(u32 face, struct wide_point by);
struct refusal glue(u32 face1, u32 face2);
struct refusal split(u32 solid, const i64 plane[4], u32 other);

/* Counters of fresh numbers. `need` refuses where the numbers that a command takes would pass the limit. */
struct fresh { u32 face, loop, edge, vertex; };

struct fresh greatest_numbers(void);
struct refusal need(const struct fresh *fresh, u32 face_count, u32 loop_count, u32 edge_count, u32 vertex_count);

/* A fresh edge as its half-edge +E. */
static inline u32 fresh_half(struct fresh *fresh)
{
    return 2 * ++fresh->edge;
}

/* Steps of larger commands. */
void take_mev(u32 corner1, u32 corner2, u32 half, u32 vertex, struct point point);
void take_mef(u32 half1, u32 half2, u32 half, u32 face, u32 loop);

#endif
