/* Glue: two solids become one along two faces whose corners match. */
#include "journal.h"
#include "larger.h"
#include "measure.h"
#include <stdlib.h>

/* Whether two corners of the loop have equal points. */
static bool has_repeated_point(u32 loop)
{
    static struct point *points;
    static size_t room;
    size_t count = 0;
    u32 first = loops[loop].content, h = first;
    do {
        make_room(&points, &room, count + 1, sizeof *points);
        points[count++] = *point_of(h);
        h = after(h);
    } while (h != first);
    qsort(points, count, sizeof *points, compare_points);
    for (size_t i = 1; i < count; i++)
        if (same_point(&points[i - 1], &points[i]))
            return true;
    return false;
}

/* The item of the loop that starts at the point p, 0 where there is none. */
static u32 item_at(u32 loop, const struct point *p)
{
    u32 first = loops[loop].content, h = first;
    do {
        if (same_point(point_of(h), p))
            return h;
        h = after(h);
    } while (h != first);
    return 0;
}

/* Whether the points from h on are those from g on backwards, all around both loops. */
static bool match_backwards(u32 h, u32 g)
{
    u32 p = h, q = g;
    do {
        if (!same_point(point_of(p), point_of(q)))
            return false;
        p = after(p);
        q = halves[q].prev;
    } while (p != h && q != g);
    return p == h && q == g;
}

static struct refusal check_faces(u32 face1, u32 face2)
{
    if (!has_face(face1))
        REFUSE(NO_FACE, face1);
    if (!has_face(face2))
        REFUSE(NO_FACE, face2);
    u32 solid1 = faces[face1].solid, solid2 = faces[face2].solid, lone = 0, bent = 0;
    if (solid1 == solid2)
        REFUSE(SAME_SOLID, solid1);
    if (faces[face1].rings || faces[face2].rings)
        REFUSE(HAS_RINGS, faces[face1].rings ? face1 : face2);
    find_unfit(solid1, &lone, &bent);
    find_unfit(solid2, &lone, &bent);
    if (lone)
        REFUSE(LONE_LOOP, lone);
    if (bent)
        REFUSE(NOT_FLAT, bent);
    if (has_repeated_point(faces[face1].outer))
        REFUSE(REPEATED_POINT, face1);
    if (has_repeated_point(faces[face2].outer))
        REFUSE(REPEATED_POINT, face2);
    ACCEPT;
}

/* Moves the faces of solid `other` to `solid`. */
static void take_merge(u32 solid, u32 other)
{
    u32 *list, count = 0;
    struct step step = move_step(MERGE, solid, other, solids[other].face_count, &list);
    for (u32 f = solids[other].faces; f; f = faces[f].next)
        list[count++] = f;
    take(step);
}

/* Joins the loops of both faces, of which h and `last` start at the same point, and then closes the seam edge by edge. */
static void glue_steps(u32 face1, u32 face2, u32 h, u32 last, u32 x)
{
    u32 loop2 = faces[face2].outer, g = halves[last].prev;
    take_merge(faces[face1].solid, faces[face2].solid);
    take((struct step){ .operator = KFMRH, .kfmrh = { face1, face2 } });
    take((struct step){ .operator = MEKR, .mekr = { h, last, x } });
    take((struct step){ .operator = KEV, .kev = { x } });
    while (g != last) {
        u32 next_g = halves[g].prev;
        h = after(h);
        take_mef(g, h, x, face2, loop2);
        take((struct step){ .operator = KEV, .kev = { mate(x) } });
        take((struct step){ .operator = KEF, .kef = { mate(g) } });
        g = next_g;
    }
    take((struct step){ .operator = KEF, .kef = { mate(last) } });
}

struct refusal glue(u32 face1, u32 face2)
{
    TRY(check_faces(face1, face2));
    u32 h = least_item(faces[face1].outer), last = item_at(faces[face2].outer, point_of(h));
    if (!last || !match_backwards(h, last))
        REFUSE(NO_MATCH, face2);
    struct fresh fresh = greatest_numbers();
    TRY(need(&fresh, 0, 0, 1, 0));
    open_command();
    settle_command();
    glue_steps(face1, face2, h, last, fresh_half(&fresh));
    close_command();
    ACCEPT;
}
