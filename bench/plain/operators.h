/* Operators: their conditions, and their effect in place. */
#ifndef OPERATORS_H
#define OPERATORS_H

#include "model.h"
#include <stddef.h>

/* The numbers of refusals. */
enum why {
    ACCEPTED, NUMBER_RANGE, NO_SOLID, NO_FACE, NO_LOOP, NO_EDGE, SOLID_TAKEN, FACE_TAKEN, LOOP_TAKEN, EDGE_TAKEN, VERTEX_TAKEN, POINT_RANGE,
    NOT_BARE, NOT_LONE, DIFFERENT_TAILS, PARALLEL_EDGE, KEPT_END_BARE, DIFFERENT_LOOPS, SAME_TAIL, SAME_FACE, HAS_RINGS, SAME_LOOP,
    DIFFERENT_FACES, NOT_RING, DIFFERENT_SOLIDS, NOTHING_TO_UNDO, NOTHING_TO_REDO, NUMBERS_SPENT, FEW_POINTS, ZERO_SWEEP, LONE_LOOP,
    SAME_SOLID, NOT_FLAT, REPEATED_POINT, NO_MATCH, PLANE_RANGE, PLANE_MISSES, NOT_LATTICE, TOUCHED_FACE, CUT_OFTEN, CUT_CROSSED,
    BRANCHED_VERTEX, SECTION_HOLES, SIZE_RANGE
};

struct refusal { u32 why, number; };

#define REFUSE(why, number) return (struct refusal){ why, number }
#define ACCEPT return (struct refusal){ ACCEPTED, 0 }

/* Hands on the refusal of `call`, if it is one. */
#define TRY(call) do { struct refusal refused_ = (call); if (refused_.why) return refused_; } while (0)

enum operator { MVFS, KVFS, MEV, KEV, MEF, KEF, KEMR, MEKR, KFMRH, MFKRH, RING_IN, RING_OUT, OUTER, MERGE, PART };

/* An operator with its words; `first` and `last` of a command. Of MERGE and PART the faces that move stand in `moved_faces`. */
struct step {
    uint8_t operator, first, last;
    union {
        struct { u32 solid, face, loop, vertex; struct point point; } mvfs;
        struct { u32 solid; } kvfs;
        struct { u32 corner1, corner2, half, vertex; struct point point; } mev;
        struct { u32 half; } kev, kef;
        struct { u32 half1, half2, half, face, loop; } mef;
        struct { u32 half, loop; } kemr;
        struct { u32 corner1, corner2, half; } mekr;
        struct { u32 face, gone; } kfmrh;
        struct { u32 loop, face; } mfkrh, ring;
        struct { u32 solid, other, from, count; } move;
    };
};

/* The first false condition of an operator of the script. Its numbers are in range; a point may have any coordinates. */
struct refusal check(const struct step *step);

/* Carries out an operator whose conditions hold, and turns it into its inverse. */
void apply(struct step *step);

/* Lists of faces that moved from solid to solid; owned by the journal. */
extern u32 *moved_faces;

#endif
