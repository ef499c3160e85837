/** @file gwb_features.h
 * Features of a session of gwb.h: whole solids killed, copied, moved, scaled and glued; profiles, rings, pockets, bosses, holes, notches, pads, slots, grooves,
 * shoulders and chamfers; faces and edges by where they lie; and what is to be said of a cut whose points aren't whole. Not with libgwb_c.a alone.
 *
 * Each is one command, or steps of the draft that is open. It answers
 * - GWB_OK, and what it made is written;
 * - GWB_REFUSED, as a command would be, or GWB_IMPOSSIBLE: `why` is written, whose number is one of gwb_names.h or of enum gwb_misfit;
 * - GWB_MEMORY; GWB_STOPPED, where the caller ends it (gwb_stop_by); GWB_CLOSED.
 * But for GWB_OK nothing has changed except for the last answer, and a draft that was open goes on where it was.
 *
 * The number of a thing is tested before all else: 0, or one above 1,000,000, is NumberRange, and one that nothing has is NoSolid, NoFace or NoEdge. Where
 * there are too few new numbers, NumbersSpent tells the first kind. A size below 1 is SizeRange; one above 4,000,000,000 is taken as that.
 *
 * Outlines may run either way round; what belongs to their points comes in the order of the points. A list that is written for `n` points has
 * `n` items. Lists of another length are kept with the session until the next feature: gwb_made; and so is what a refused one met: gwb_hit. */
#ifndef GWB_FEATURES_H
#define GWB_FEATURES_H
#include "gwb.h"
#include "gwb_names.h"
#ifdef __cplusplus
extern "C" {
#endif

/** The name of a misfit, as "OffLattice": "" where there is none. */
const char *gwb_misfit_name(uint32_t misfit);

/** Where points go: coordinate i of the image is coordinate |axes[i]| - 1 of the point, times the sign, plus that of `by`. {{1, 2, 3}, {0, 0, 0}}
 * leaves them. */
typedef struct gwb_motion {
    int32_t axes[3];
    gwb_point by;
} gwb_motion;

/** The lists of what the last feature made, for gwb_made. */
enum gwb_list {
    GWB_MADE_FLOOR = 0,    /**< faces at the floor of a notch, slot or shoulder, none where it goes through; at the top of a pad */
    GWB_MADE_WALLS = 1,    /**< its walls */
    GWB_MADE_FACES = 2,    /**< of a copy: each face and the one that it became, one after the other; of a row that for each copy */
    GWB_MADE_LOOPS = 3,    /**< loops alike */
    GWB_MADE_EDGES = 4,    /**< edges alike */
    GWB_MADE_VERTICES = 5, /**< vertices alike */
    GWB_MADE_TURNED = 6,   /**< nothing: each edge of a copy runs as that which it is of */
    /* Of a split, cut or trim: the faces that close both parts. */
    GWB_MADE_LOWER_CAPS = 7, /**< of the part below the plane, which keeps its number */
    GWB_MADE_UPPER_CAPS = 8, /**< of the part above it */
    /* Of a Boolean, or of faces joined. */
    GWB_MADE_INTO = 9,   /**< faces that became one with others, or several, each with one that it went into, one after the other */
    GWB_MADE_SOLIDS = 10 /**< of new numbers: each solid and what it is now, one after the other; of components: the solid and each that it became, alike */
};

/** Writes a list of what the last feature of the session made, as far as there is room. A reader, between features.
 * @return how many there are: SIZE_MAX where the handle is closed */
size_t gwb_made(const gwb *g, uint32_t list, uint32_t *buf, size_t room);

/** What the number of a hit is of, where it is of no thing of the model (enum gwb_entity). */
enum gwb_hit_kind {
    GWB_HIT_PLACE = 5, /**< a place in what was given, from 1 on */
    GWB_HIT_FACTOR = 6 /**< how many times as large all must be for what is made to be whole */
};

/** What a feature met that was refused or isn't possible. */
typedef struct gwb_hit_row {
    uint32_t cause;           /**< which cause of the misfit it is (enum gwb_cause), or 0 where the misfit says all */
    uint32_t kind, number;    /**< a thing that was met (enum gwb_entity), or another number (enum gwb_hit_kind); the number is 0 where there is none */
    gwb_wide point[3], scale; /**< where: coordinates times the scale, which is 0 where there is no such point */
} gwb_hit_row;

/** Writes what the last feature of the session met. A reader, between features.
 * @return false where that was made, ended or took memory that was refused, where there was none, or the handle is closed: then nothing is written */
bool gwb_hit(const gwb *g, gwb_hit_row *hit);

/** The solid goes, with all its parts. Refused: NoSolid. */
enum gwb_kind gwb_kill_solid(gwb *g, uint32_t solid, gwb_refusal *why);
/** A new solid, that is another moved; its numbers are above all in use, and where those are spent, free ones below. Its edges run as those that
 * they are of, and its loops the other way where the motion makes left right. The lists say which are which. Refused: NoSolid; PointRange, with the
 * vertex that would lie out of range; NumbersSpent. GWB_NO_CALL where the motion is none. */
enum gwb_kind gwb_copy_solid(gwb *g, uint32_t solid, const gwb_motion *motion, uint32_t *made, gwb_refusal *why);
/** A solid lies elsewhere, with the numbers that it has. Refused: as a copy. */
enum gwb_kind gwb_move_solid(gwb *g, uint32_t solid, const gwb_motion *motion, gwb_refusal *why);

/** The plane a x + b y + c z + d = 0. */
typedef struct gwb_cut_plane {
    int64_t a, b, c, d;
} gwb_cut_plane;

/** A row of `count` solids, of which this is the first, each by the step from the one before it: `solids` has the count - 1 that are new. Numbers,
 * lists and refusals as of copies. GWB_NO_CALL where `count` is 0. */
enum gwb_kind gwb_pattern(gwb *g, uint32_t solid, uint32_t count, const gwb_point *step, uint32_t *solids, gwb_refusal *why);
/** `count` solids around an axis through a point (0 x, 1 y, 2 z), of which this is the first, each so many quarter turns on from the one before it,
 * counterclockwise as seen from where the axis points. Numbers, lists and refusals as of a row. GWB_NO_CALL where `axis` is above 2, `quarters`
 * isn't 1, 2 or 3, `count` is 0, or one would lie where the first does. */
enum gwb_kind gwb_pattern_around(gwb *g, uint32_t solid, uint32_t count, uint32_t axis, uint32_t quarters, const gwb_point *about, uint32_t *solids,
                                 gwb_refusal *why);
/** All coordinates times the factor; numbers stay. Refused: SizeRange, where the factor is below 1; PointRange, with the vertex; NumbersSpent. */
enum gwb_kind gwb_scale(gwb *g, int64_t factor, gwb_refusal *why);
/** All numbers become as low as they can be, from 1 on in the order that they have: so there are as many free ones again as there can be. The lists say
 * which became which, as of a copy, and those of solids. Refused: NumbersSpent, where a spare number is wanted on the way and none is free. */
enum gwb_kind gwb_renumber(gwb *g, gwb_refusal *why);
/** The `n` solids become the first, glued along the faces that match: those without rings that go through the same points in opposite directions.
 * Refused: NoSolid; what gwb_glue refuses. Not possible: NO_MATCH; GLUED_TWICE. GWB_NO_CALL where a number stands twice, or `n` is 0. */
enum gwb_kind gwb_glue_all(gwb *g, const uint32_t *solids, size_t n, gwb_refusal *why);

/** What gwb_split does. Lists: the caps. Refused as gwb_split. */
enum gwb_kind gwb_split_solid(gwb *g, uint32_t solid, const gwb_cut_plane *plane, uint32_t above, gwb_refusal *why);

/** What gwb_split does, also where that refuses the plane for what it touches or for how it runs through faces and holes (TouchedFace, CutOften,
 * CutCrossed, BranchedVertex, SectionHoles): then the solid is cut face by face, and faces in the plane are one with the caps beside them. Lists: the
 * caps. Refused as gwb_split otherwise; NotFlat also for a face with an edge without a length. Not possible: MEETS. */
enum gwb_kind gwb_cut(gwb *g, uint32_t solid, const gwb_cut_plane *plane, uint32_t above, gwb_refusal *why);
/** The same, and what lies above the plane goes. Lists: the lower caps. */
enum gwb_kind gwb_trim(gwb *g, uint32_t solid, const gwb_cut_plane *plane, gwb_refusal *why);
/* Booleans: exact, of solids with flat faces, which may cross, touch, lie apart or within each other; of any shape: with holes, rings, cavities, several
 * components. Faces of one plane beside each other that come of two solids become one, and so do edges that go on straight. What falls apart stays one
 * solid. What is kept has its numbers; of faces that become one the least has it, of the first solid before others. Lists: GWB_MADE_INTO.
 *
 * Refused: NoSolid; NotFlat, with the face. Not possible: OFF_LATTICE: a corner of what is made wouldn't be whole; X is the least factor by which all must be
 * scaled, or 0 where it passes 2^32 - 1. MEETS: what is made, or one of them where they meet, would touch itself; X is the first solid. NOTHING_LEFT, with the
 * first solid. All solids are combined at once, so their order doesn't matter, and what would lie between them on the way isn't asked for. Of OFF_LATTICE and
 * MEETS gwb_hit tells where, one such point, and what of the solids lies there: a vertex, else an edge, else a face; so it does of features that are made alike:
 * notch, pad, slot, groove, shoulder, chamfers. */

/** The first of the `n` solids becomes all of them together; the others go. GWB_NO_CALL where a number stands twice, or `n` is below 2. */
enum gwb_kind gwb_union(gwb *g, const uint32_t *solids, size_t n, gwb_refusal *why);
/** The solid becomes what is left of it without the `n` tools, which go. GWB_NO_CALL where a number stands twice, or `n` is 0. */
enum gwb_kind gwb_subtract(gwb *g, uint32_t solid, const uint32_t *tools, size_t n, gwb_refusal *why);
/** The first of the `n` solids becomes what all have in common; the others go. GWB_NO_CALL as of a union. */
enum gwb_kind gwb_intersect(gwb *g, const uint32_t *solids, size_t n, gwb_refusal *why);

/** Each connected component of a solid becomes a solid, with the cavities that it holds: that of the least face keeps the number, the others get free ones, by
 * their least faces, above all in use as long as there are any. Faces, edges and vertices keep theirs. Lists: GWB_MADE_SOLIDS. Refused: NoSolid; NotFlat;
 * NumbersSpent. */
enum gwb_kind gwb_separate(gwb *g, uint32_t solid, gwb_refusal *why);
/** Faces of one plane beside each other in a solid become one, edges with one face on both sides go, and edges that go on straight become one. Lists:
 * GWB_MADE_INTO. Refused: NoSolid; NotFlat. Not possible: MEETS, with the solid, where it touches itself so that no outlines come of it. */
enum gwb_kind gwb_join_faces(gwb *g, uint32_t solid, gwb_refusal *why);

typedef struct gwb_profile_made {
    uint32_t far, base; /**< the face that was moved, and the one that stayed */
} gwb_profile_made;
/** What ring, pocket, boss and hole make: the face inside the outline, of a hole the one that it ends in; and the ring around it. */
typedef struct gwb_outline_made {
    uint32_t face, loop;
} gwb_outline_made;

/** A new solid of this number: the outline moved along the vector. `sides` has the side from each point to the next. */
enum gwb_kind gwb_profile(gwb *g, uint32_t solid, const gwb_point *points, size_t n, const gwb_point *along, gwb_profile_made *made,
                          uint32_t *sides, gwb_refusal *why);
/** The numbers of the first point and the first face, which those of the others follow one by one. */
typedef struct gwb_polyhedron_made {
    uint32_t first_vertex, first_face;
} gwb_polyhedron_made;
/** A new solid of this number: `n` points, and faces without rings, face i with sizes[i] corners. The corners of all stand in a row, each by its place
 * among the points from 0 on, counterclockwise as seen from outside. Whether faces are flat or cross isn't asked. Refused: SolidTaken; PointRange, with the
 * point, from 1 on; FewPoints, with the size; NumbersSpent. Not possible: NOT_CLOSED. GWB_NO_CALL where a corner is no place, no face is given, or points
 * and faces aren't sound as a solid, such as a point of no face, or of faces that meet in it alone. */
enum gwb_kind gwb_polyhedron(gwb *g, uint32_t solid, const gwb_point *points, size_t n, const uint32_t *corners, const uint32_t *sizes, size_t faces,
                             gwb_polyhedron_made *made, gwb_refusal *why);

/** A face inside the face, and a ring around it. Of this and the next four: what leaves the face or crosses something, gwb_notch or gwb_pad makes. */
enum gwb_kind gwb_ring(gwb *g, uint32_t face, const gwb_point *points, size_t n, gwb_outline_made *made, uint32_t *edges, uint32_t *vertices,
                       gwb_refusal *why);
enum gwb_kind gwb_pocket(gwb *g, uint32_t face, const gwb_point *points, size_t n, int64_t depth, gwb_outline_made *made, uint32_t *sides,
                         gwb_refusal *why);
enum gwb_kind gwb_boss(gwb *g, uint32_t face, const gwb_point *points, size_t n, int64_t height, gwb_outline_made *made, uint32_t *sides,
                       gwb_refusal *why);
enum gwb_kind gwb_hole(gwb *g, uint32_t face, const gwb_point *points, size_t n, gwb_outline_made *made, uint32_t *sides, gwb_refusal *why);
/** What of a polygon lies on its circle: the corners; the flats, none of which lies inside it, so that a bolt passes; or their areas are equal. */
enum gwb_circle_fit { GWB_CIRCLE_CORNERS, GWB_CIRCLE_FLATS, GWB_CIRCLE_AREA };
/** The corners of a polygon of `n` sides, from 3 to 1,000,000, for a circle around the origin, n rows of x and y, counterclockwise from the first axis on:
 * the multiples of `grain` nearest to the corners of a regular polygon; of two as near, the one farther out. They lie alike in all quarters of a turn where
 * `n` is a multiple of 4. False where `n`, the diameter or the grain (1 to 4,000,000,000 each) or the fit is none: then nothing is written. */
bool gwb_circle(int64_t diameter, int64_t grain, uint32_t n, uint32_t circle, int64_t *corners);
/** A hole with a polygon of `n` sides, at most 1,000,000, around the center: through, where the depth is 0, else so deep, as a pocket. Its corners, which
 * are written, are the whole points nearest to those of a regular polygon of this radius from the axis after the face's own on; of two as near, the one
 * farther out. Refused: SizeRange, with the place of the radius, `n` or the depth; PointRange; what holes and pockets refuse. Not possible: NOT_ACROSS;
 * what holes and pockets aren't possible for. */
enum gwb_kind gwb_drill(gwb *g, uint32_t face, const gwb_point *center, int64_t radius, uint32_t n, int64_t depth, gwb_outline_made *made,
                        uint32_t *sides, gwb_point *points, gwb_refusal *why);
/** A pocket, a boss and a drilled hole by a vector, which may lean, in place of a length: into the solid, of a boss out of it. Not possible besides:
 * ALONG_PLANE, with the face, where the vector lies in it or points the other way. */
enum gwb_kind gwb_pocket_along(gwb *g, uint32_t face, const gwb_point *points, size_t n, const gwb_point *along, gwb_outline_made *made,
                               uint32_t *sides, gwb_refusal *why);
enum gwb_kind gwb_boss_along(gwb *g, uint32_t face, const gwb_point *points, size_t n, const gwb_point *along, gwb_outline_made *made,
                             uint32_t *sides, gwb_refusal *why);
enum gwb_kind gwb_drill_along(gwb *g, uint32_t face, const gwb_point *center, int64_t radius, uint32_t n, const gwb_point *along,
                              gwb_outline_made *made, uint32_t *sides, gwb_point *points, gwb_refusal *why);
/* Cut out or put on as a Boolean does it, whatever lies there: ring, pocket, boss, hole and drill draw an outline that lies strictly within the face, with as
 * many sides as points; where one leaves the face, or crosses an edge, a hole or another feature, gwb_notch and gwb_pad make it.
 *
 * Refused: NoFace; NotFlat; SizeRange; PointRange; FewPoints; RepeatedPoint. Not possible: NO_AREA; OUTLINE_CROSSED; NOT_IN_PLANE; OUTLINE_OUTSIDE:
 * nothing of what the outline goes round lies in face X, or of a shoulder and a chamfer not all of the strip beside the edge; OFF_LATTICE: a corner, or a
 * step of this length along a normal, wouldn't be whole: X is the least factor by which all must be scaled for that, 0 where there is none or it passes
 * 2^32 - 1; MEETS: what is made would touch itself; NOTHING_LEFT. Lists: floor, walls. */

/** The prism under an outline in the plane of the face goes: the outline may leave the face and cross anything, and where it is deeper than the solid it
 * goes through. */
enum gwb_kind gwb_notch(gwb *g, uint32_t face, const gwb_point *points, size_t n, int64_t depth, gwb_refusal *why);
/** The prism above such an outline is put on: also over an edge of the face, or into something that stands there. Lists: its top, its walls. */
enum gwb_kind gwb_pad(gwb *g, uint32_t face, const gwb_point *points, size_t n, int64_t height, gwb_refusal *why);
/** The same as a notch of a strip around a line in the plane of the face, with a flat floor, or like a V. Refused besides: RepeatedPoint, of a line of no
 * length. */
enum gwb_kind gwb_slot(gwb *g, uint32_t face, const gwb_point *start, const gwb_point *end, int64_t width, int64_t depth, gwb_refusal *why);
enum gwb_kind gwb_groove(gwb *g, uint32_t face, const gwb_point *start, const gwb_point *end, int64_t width, int64_t depth, gwb_refusal *why);
/** A step along an edge of the face: the strip begins at the edge, and ends at the line at its width from it, between the sides beside the edge, whose
 * lines go on where they are shorter; square where they run outwards. Refused besides: NoEdge. Not possible besides: NOT_OF_FACE. */
enum gwb_kind gwb_shoulder(gwb *g, uint32_t face, uint32_t edge, int64_t width, int64_t depth, gwb_refusal *why);
/** Notch, pad, slot, groove and shoulder by a vector, which may lean, in place of a length: into the solid, of a pad out of it. Not possible besides:
 * ALONG_PLANE, with the face, where the vector lies in it or points the other way. */
enum gwb_kind gwb_notch_along(gwb *g, uint32_t face, const gwb_point *points, size_t n, const gwb_point *along, gwb_refusal *why);
enum gwb_kind gwb_pad_along(gwb *g, uint32_t face, const gwb_point *points, size_t n, const gwb_point *along, gwb_refusal *why);
enum gwb_kind gwb_slot_along(gwb *g, uint32_t face, const gwb_point *start, const gwb_point *end, int64_t width, const gwb_point *along,
                             gwb_refusal *why);
enum gwb_kind gwb_groove_along(gwb *g, uint32_t face, const gwb_point *start, const gwb_point *end, int64_t width, const gwb_point *along,
                               gwb_refusal *why);
enum gwb_kind gwb_shoulder_along(gwb *g, uint32_t face, uint32_t edge, int64_t width, const gwb_point *along, gwb_refusal *why);
/** The edge becomes a slope between two such strips in its faces: `width` in the face of its first half-edge and `other` in the other one. At an edge whose
 * faces bend inwards the room is filled. Refused: NoEdge. Not possible besides: FLAT_EDGE. */
enum gwb_kind gwb_chamfer(gwb *g, uint32_t edge, int64_t width, int64_t other, uint32_t *face, gwb_refusal *why);
/** The same of `n` edges at once, all as far into the faces on both sides: where two or three of the edges that end at a vertex are among them, their
 * slopes meet there. `faces` has the slope of each, 0 where others leave nothing of it. Refused: as a chamfer. Not possible: as a chamfer; NO_CORNER;
 * NOT_ALIKE. GWB_NO_CALL where a number stands twice, or `n` is 0. */
enum gwb_kind gwb_chamfer_edges(gwb *g, const uint32_t *edges, size_t n, int64_t width, uint32_t *faces, gwb_refusal *why);

/** The numerator divided by the denominator. */
typedef struct gwb_ratio {
    uint64_t numerator, denominator;
} gwb_ratio;

/** Which faces are sought: those for which all holds that isn't 0 or NULL. */
typedef struct gwb_face_query {
    uint32_t solid;              /**< of the solid */
    const gwb_cut_plane *plane;  /**< wholly in the plane, whichever way they look */
    const gwb_point *normal;     /**< flat, and looking this way */
    const gwb_point *containing; /**< flat, with the point inside or on an edge */
    const gwb_ratio *area;       /**< flat, and so large, exactly */
} gwb_face_query;

/** Writes the faces that are sought, rising, as far as there is room in `buf`, and how many there are. A reader. What it takes for as long as it lasts
 * is of the heap that the thread uses.
 * @return GWB_OK; GWB_REFUSED: NoSolid; GWB_NO_CALL where a plane or a direction is zero, or part of a ratio is; GWB_MEMORY; GWB_STOPPED; GWB_CLOSED.
 * Nothing is written but by GWB_OK, and `why` by GWB_REFUSED. */
enum gwb_kind gwb_find_faces(const gwb *g, const gwb_face_query *query, uint32_t *buf, size_t room, size_t *found, gwb_refusal *why);

/** Which edges are sought, alike. */
typedef struct gwb_edge_query {
    uint32_t solid;          /**< of the solid */
    uint32_t between[2];     /**< with one half-edge in each of these faces */
    const gwb_point *along;  /**< along the vector, one way or the other */
    const gwb_ratio *length; /**< so long, exactly */
} gwb_edge_query;

/** The same of edges. Refused: NoFace; NoSolid. GWB_NO_CALL also where one of two faces is 0. */
enum gwb_kind gwb_find_edges(const gwb *g, const gwb_edge_query *query, uint32_t *buf, size_t room, size_t *found, gwb_refusal *why);

/** Two faces that cross or touch, and a point at which they do. */
typedef struct gwb_crossing {
    uint32_t first, second;   /**< of one solid the lesser one first, of two that of the first one */
    gwb_wide point[3], scale; /**< coordinates times the scale */
} gwb_crossing;
/** Writes the pairs of faces of a solid that have a point in common which lies on no edge and no vertex of both, rising, as far as there is room; where `other`
 * isn't 0, those of a face of the solid and one of the other that have any point in common. A reader, in time n log n and by how many faces lie near each
 * other. Refused: NoSolid; NotFlat, with a face. */
enum gwb_kind gwb_find_crossings(const gwb *g, uint32_t solid, uint32_t other, gwb_crossing *rows, size_t room, size_t *found, gwb_refusal *why);

/** A plane beside another one. */
typedef struct gwb_near_plane {
    gwb_cut_plane plane;
    bool is_parallel; /**< or tilted */
    double moved;     /**< how far it moves the cut at most, along an edge */
} gwb_near_plane;

/** An edge that a plane cuts, and where: x, y and z as fractions in lowest terms, whose denominators are above 0. */
typedef struct gwb_edge_cut {
    uint32_t edge;
    gwb_wide numerators[3], denominators[3];
} gwb_edge_cut;

/** What is to be said of a cut whose points aren't whole. It is its caller's, who frees it, and stays what it is when the session changes. */
typedef struct gwb_advice gwb_advice;

/** Finds out what is to be said of the cut of a solid by a plane, as split would refuse it with NotLattice, with at most `most` tilted planes
 * that would do. What it writes lies in the heap that the thread uses. Refused: NoSolid; PlaneRange. GWB_MEMORY; GWB_STOPPED; GWB_CLOSED. Nothing
 * is written but by GWB_OK, and `why` by GWB_REFUSED. A reader. */
enum gwb_kind gwb_off_lattice(const gwb *g, uint32_t solid, const gwb_cut_plane *plane, size_t most, gwb_advice **advice, gwb_refusal *why);

/** Frees it. Nothing happens where it is NULL. */
void gwb_advice_free(gwb_advice *advice);

/** The least number by which the model must be multiplied for all points of the cut to be whole: 0 where it passes 10^36. */
gwb_wide gwb_advice_factor(const gwb_advice *advice);
/** Whether the model times that number stays in range. */
bool gwb_advice_fits(const gwb_advice *advice);

/** The edges that the plane cuts between whole points, rising, as far as there is room: how many there are. */
size_t gwb_advice_cuts(const gwb_advice *advice, gwb_edge_cut *rows, size_t room);
/** The planes beside it that would do, parallel ones first, alike. */
size_t gwb_advice_planes(const gwb_advice *advice, gwb_near_plane *rows, size_t room);
/** All of it as lines of a script, with this number for the solid above the plane, alike: SIZE_MAX where memory is refused. */
size_t gwb_advice_text(const gwb_advice *advice, uint32_t above, char *buf, size_t room);

#ifdef __cplusplus
}
#endif
#endif
