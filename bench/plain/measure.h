/* Exact measures: normals, planes, flatness, six volumes and counts. */
#ifndef MEASURE_H
#define MEASURE_H

#include "operators.h"

struct vector { i128 x, y, z; };

/* n + p x q */
void add_cross(struct vector *n, const struct point *p, const struct point *q);

struct vector face_normal(u32 face);
i128 dot(const struct vector *n, const struct point *p);

/* Whether the vertices of the face lie on one plane and its normal isn't zero. The face has a loop that isn't lone, or it isn't flat. */
bool is_flat(u32 face);

/* The least lone loop and the least face that isn't flat among the faces of a solid; what `lone` and `bent` hold counts too, 0 for none. */
void find_unfit(u32 solid, u32 *lone, u32 *bent);

/* Looks at a vertex: true the first time since the last `look_anew`. */
void look_anew(void);
bool is_first_look(u32 vertex);

/* The queries, which write their own reply. */
struct refusal tell_plane(u32 face);
struct refusal tell_volume(u32 solid);
struct refusal tell_count(u32 solid);

#endif
