/* Lamina, sweep and block, and what the larger commands share. */
#include "larger.h"
#include "journal.h"

struct fresh greatest_numbers(void)
{
    return (struct fresh){ greatest_number(&in_use[FACE]), greatest_number(&in_use[LOOP]), greatest_number(&in_use[EDGE]),
                           greatest_number(&in_use[VERTEX]) };
}

struct refusal need(const struct fresh *fresh, u32 face_count, u32 loop_count, u32 edge_count, u32 vertex_count)
{
    if (fresh->face + face_count > NUMBER_LIMIT)
        REFUSE(NUMBERS_SPENT, 2);
    if (fresh->loop + loop_count > NUMBER_LIMIT)
        REFUSE(NUMBERS_SPENT, 3);
    if (fresh->edge + edge_count > NUMBER_LIMIT)
        REFUSE(NUMBERS_SPENT, 4);
    if (fresh->vertex + vertex_count > NUMBER_LIMIT)
        REFUSE(NUMBERS_SPENT, 5);
    ACCEPT;
}

void take_mev(u32 corner1, u32 corner2, u32 half, u32 vertex, struct point point)
{
    take((struct step){ .operator = MEV, .mev = { corner1, corner2, half, vertex, point } });
}

void take_mef(u32 half1, u32 half2, u32 half, u32 face, u32 loop)
{
    take((struct step){ .operator = MEF, .mef = { half1, half2, half, face, loop } });
}

static bool wide_in_range(const struct wide_point *p)
{
    return in_coordinate_range(p->x) && in_coordinate_range(p->y) && in_coordinate_range(p->z);
}

static struct point narrow(const struct wide_point *p)
{
    return (struct point){ p->x, p->y, p->z };
}

/* ---- lamina */

/* The place, from 1, of the first point that is equal to an earlier one; 0 where there is none. */
static u32 repeated_place(const struct wide_point *p, u32 count)
{
    for (u32 i = 1; i < count; i++)
        for (u32 j = 0; j < i; j++)
            if (p[i].x == p[j].x && p[i].y == p[j].y && p[i].z == p[j].z)
                return i + 1;
    return 0;
}

static void lamina_steps(u32 solid, const struct wide_point *points, u32 count, struct fresh *fresh)
{
    u32 loop = ++fresh->loop, half = 0, first = 0;
    take((struct step){ .operator = MVFS, .mvfs = { solid, ++fresh->face, loop, ++fresh->vertex, narrow(&points[0]) } });
    for (u32 i = 1; i < count; i++) {
        u32 corner = i == 1 ? LONE | loop : mate(half);
        half = fresh_half(fresh);
        if (i == 1)
            first = half;
        take_mev(corner, corner, half, ++fresh->vertex, narrow(&points[i]));
    }
    take_mef(mate(half), first, fresh_half(fresh), ++fresh->face, ++fresh->loop);
}

struct refusal lamina(u32 solid, const struct wide_point *points, u32 count)
{
    if (has_solid(solid))
        REFUSE(SOLID_TAKEN, solid);
    if (count < 3)
        REFUSE(FEW_POINTS, count);
    for (u32 i = 0; i < count; i++)
        if (!wide_in_range(&points[i]))
            REFUSE(POINT_RANGE, i + 1);
    u32 place = repeated_place(points, count);
    if (place)
        REFUSE(REPEATED_POINT, place);
    struct fresh fresh = greatest_numbers();
    TRY(need(&fresh, 2, 2, count, count));
    open_command();
    settle_command();
    lamina_steps(solid, points, count, &fresh);
    close_command();
    ACCEPT;
}

/* ---- sweep */

static struct wide_point moved(u32 h, const struct wide_point *by)
{
    const struct point *p = point_of(h);
    return (struct wide_point){ p->x + by->x, p->y + by->y, p->z + by->z };
}

/* Sweeps one loop: a side face for each of its items, which are listed first since the loop changes. */
static void sweep_loop(u32 loop, const struct wide_point *by, struct fresh *fresh)
{
    static u32 *items;
    static size_t room;
    u32 count = 0, least = least_item(loop), h = least, spur = 0, first_top = 0;
    do {
        make_room(&items, &room, count + 1, sizeof *items);
        items[count++] = h;
        h = after(h);
    } while (h != least);
    for (u32 i = 0; i < count; i++) {
        struct wide_point top_point = moved(items[i], by);
        u32 last_spur = spur;
        spur = fresh_half(fresh);
        take_mev(items[i], items[i], spur, ++fresh->vertex, narrow(&top_point));
        if (i > 0) {
            u32 top = fresh_half(fresh);
            if (i == 1)
                first_top = top;
            take_mef(mate(last_spur), mate(spur), top, ++fresh->face, ++fresh->loop);
        }
    }
    take_mef(mate(spur), first_top, fresh_half(fresh), ++fresh->face, ++fresh->loop);
}

static void sweep_steps(u32 face, const u32 *rings, const struct wide_point *by, struct fresh *fresh)
{
    u32 ring_count = faces[face].ring_count;
    sweep_loop(faces[face].outer, by, fresh);
    for (u32 i = 0; i < ring_count; i++)
        sweep_loop(rings[i], by, fresh);
}

/* Whether a coordinate plus this number can be in range, so that the sum fits. */
static bool is_small_move(i64 d)
{
    return -2 * (i64)COORDINATE_LIMIT <= d && d <= 2 * (i64)COORDINATE_LIMIT;
}

/* Refuses the first corner whose moved point is out of range, and counts the corners. */
static struct refusal check_sweep_loop(u32 loop, const struct wide_point *by, u32 *count)
{
    bool small = is_small_move(by->x) && is_small_move(by->y) && is_small_move(by->z);
    u32 least = least_item(loop), h = least;
    do {
        struct wide_point p = small ? moved(h, by) : *by;
        if (!small || !wide_in_range(&p))
            REFUSE(POINT_RANGE, tail(h));
        ++*count;
        h = after(h);
    } while (h != least);
    ACCEPT;
}

struct refusal sweep(u32 face, struct wide_point by)
{
    if (!has_face(face))
        REFUSE(NO_FACE, face);
    if (by.x == 0 && by.y == 0 && by.z == 0)
        REFUSE(ZERO_SWEEP, face);
    u32 lone = least_lone_loop(face, 0), count = 0;
    if (lone)
        REFUSE(LONE_LOOP, lone);
    const u32 *rings = sorted_rings(face);
    TRY(check_sweep_loop(faces[face].outer, &by, &count));
    for (u32 i = 0; i < faces[face].ring_count; i++)
        TRY(check_sweep_loop(rings[i], &by, &count));
    struct fresh fresh = greatest_numbers();
    TRY(need(&fresh, count, count, 2 * count, count));
    open_command();
    settle_command();
    sweep_steps(face, rings, &by, &fresh);
    close_command();
    ACCEPT;
}

/* ---- block */

struct refusal block(u32 solid, struct wide_point p, struct wide_point d)
{
    if (has_solid(solid))
        REFUSE(SOLID_TAKEN, solid);
    if (d.x < 1 || d.y < 1 || d.z < 1)
        REFUSE(SIZE_RANGE, d.x < 1 ? 1 : d.y < 1 ? 2 : 3);
    if (!wide_in_range(&p))
        REFUSE(POINT_RANGE, 1);
    if (d.x > COORDINATE_LIMIT - p.x || d.y > COORDINATE_LIMIT - p.y || d.z > COORDINATE_LIMIT - p.z)
        REFUSE(POINT_RANGE, 2);
    struct fresh fresh = greatest_numbers();
    TRY(need(&fresh, 6, 6, 12, 8));
    u32 face = fresh.face + 1;
    struct wide_point base[4] = { p, { p.x + d.x, p.y, p.z }, { p.x + d.x, p.y + d.y, p.z }, { p.x, p.y + d.y, p.z } };
    struct wide_point up = { 0, 0, d.z };
    open_command();
    settle_command();
    lamina_steps(solid, base, 4, &fresh);
    sweep_loop(faces[face].outer, &up, &fresh);
    close_command();
    ACCEPT;
}
