/* The names of refusals. Made by tests/refusals.py --write of bindings/refusals.table; edit nothing here. */
#ifndef GWB_NAMES_H
#define GWB_NAMES_H
#include <stdint.h>

/** The number of a refusal: the first condition that is false. X is the value that goes with it. Some commands give it a meaning of their
 * own (docs/SCRIPT.md). */
enum gwb_why {
    /** the number X is outside 1 to 1,000,000 */
    GWB_WHY_NUMBER_RANGE = 1,
    /** there is no solid X */
    GWB_WHY_NO_SOLID = 2,
    /** there is no face X */
    GWB_WHY_NO_FACE = 3,
    /** there is no loop X */
    GWB_WHY_NO_LOOP = 4,
    /** there is no edge X */
    GWB_WHY_NO_EDGE = 5,
    /** solid X is in use */
    GWB_WHY_SOLID_TAKEN = 6,
    /** face X is in use */
    GWB_WHY_FACE_TAKEN = 7,
    /** loop X is in use */
    GWB_WHY_LOOP_TAKEN = 8,
    /** edge X is in use */
    GWB_WHY_EDGE_TAKEN = 9,
    /** vertex X is in use */
    GWB_WHY_VERTEX_TAKEN = 10,
    /** vertex X would lie past 1,000,000,000 */
    GWB_WHY_POINT_RANGE = 11,
    /** solid X has more than a vertex */
    GWB_WHY_NOT_BARE = 12,
    /** loop X has edges, so a corner in it is named by a half-edge */
    GWB_WHY_NOT_LONE = 13,
    /** the second corner is at vertex X, the first one at another */
    GWB_WHY_DIFFERENT_TAILS = 14,
    /** edge X has the same two ends */
    GWB_WHY_PARALLEL_EDGE = 15,
    /** only this edge leaves vertex X, which is kept, and others leave the one that goes */
    GWB_WHY_KEPT_END_BARE = 16,
    /** the second half-edge stands in loop X, the first one in another */
    GWB_WHY_DIFFERENT_LOOPS = 17,
    /** both corners are at vertex X */
    GWB_WHY_SAME_TAIL = 18,
    /** both are face X */
    GWB_WHY_SAME_FACE = 19,
    /** face X has rings */
    GWB_WHY_HAS_RINGS = 20,
    /** both corners are in loop X */
    GWB_WHY_SAME_LOOP = 21,
    /** the second corner is in face X, the first one in another */
    GWB_WHY_DIFFERENT_FACES = 22,
    /** loop X is an outer loop */
    GWB_WHY_NOT_RING = 23,
    /** the second one is of solid X, the first one of another */
    GWB_WHY_DIFFERENT_SOLIDS = 24,
    /** there is nothing to undo */
    GWB_WHY_NOTHING_TO_UNDO = 25,
    /** there is nothing to redo */
    GWB_WHY_NOTHING_TO_REDO = 26,
    /** too few fresh numbers are left (kind X: 2 faces, 3 loops, 4 edges, 5 vertices) */
    GWB_WHY_NUMBERS_SPENT = 27,
    /** there are X points, and 3 are needed */
    GWB_WHY_FEW_POINTS = 28,
    /** face X would move by nothing */
    GWB_WHY_ZERO_SWEEP = 29,
    /** loop X is a vertex without an edge */
    GWB_WHY_LONE_LOOP = 30,
    /** both faces are of solid X */
    GWB_WHY_SAME_SOLID = 31,
    /** face X isn't flat */
    GWB_WHY_NOT_FLAT = 32,
    /** two corners of face X lie at one point */
    GWB_WHY_REPEATED_POINT = 33,
    /** the points of face X, read backwards, aren't those of the first face */
    GWB_WHY_NO_MATCH = 34,
    /** coefficient X is out of range */
    GWB_WHY_PLANE_RANGE = 35,
    /** solid X lies on one side of the plane */
    GWB_WHY_PLANE_MISSES = 36,
    /** the plane cuts edge X between whole coordinates */
    GWB_WHY_NOT_LATTICE = 37,
    /** the plane cuts face X and also touches its boundary */
    GWB_WHY_TOUCHED_FACE = 38,
    /** the plane cuts face X and misses one of its loops */
    GWB_WHY_CUT_OFTEN = 39,
    /** the cuts of face X can't be drawn one after another */
    GWB_WHY_CUT_CROSSED = 40,
    /** more than two edges of the cut meet at vertex X */
    GWB_WHY_BRANCHED_VERTEX = 41,
    /** the cut of solid X has a hole, and not exactly one outline around it */
    GWB_WHY_SECTION_HOLES = 42,
    /** size X is below 1 */
    GWB_WHY_SIZE_RANGE = 43,
    /** the faces can't be parted from solid X */
    GWB_WHY_BAD_PART = 44
};

/** Why a feature isn't possible, where it is no condition of a command. X is the value that goes with it. */
enum gwb_misfit {
    /** the outline has no area */
    GWB_MISFIT_NO_AREA = 1,
    /** point X of the outline lies off the plane */
    GWB_MISFIT_NOT_IN_PLANE = 2,
    /** side X of the outline meets another one */
    GWB_MISFIT_OUTLINE_CROSSED = 3,
    /** the vector doesn't leave the plane of the points, on the side of the feature */
    GWB_MISFIT_ALONG_PLANE = 4,
    /** the outline doesn't lie inside face X */
    GWB_MISFIT_OUTLINE_OUTSIDE = 5,
    /** a ring of face X lies inside the outline */
    GWB_MISFIT_OUTLINE_AROUND_RING = 6,
    /** a point would not be whole */
    GWB_MISFIT_OFF_LATTICE = 7,
    /** what is made at face X would meet the solid elsewhere */
    GWB_MISFIT_MEETS = 8,
    /** there is no face behind the outline in face X */
    GWB_MISFIT_NO_OPPOSITE = 9,
    /** face X, behind the outline, isn't parallel */
    GWB_MISFIT_NOT_PARALLEL = 10,
    /** edge X is none of the face */
    GWB_MISFIT_NOT_OF_FACE = 11,
    /** the faces of edge X lie in one plane */
    GWB_MISFIT_FLAT_EDGE = 12,
    /** nothing of solid X would be left */
    GWB_MISFIT_NOTHING_LEFT = 13,
    /** no face of solid X matches one of those that are joined */
    GWB_MISFIT_NO_MATCH = 14,
    /** face X matches another one besides, which it would touch after the gluing */
    GWB_MISFIT_GLUED_TWICE = 15,
    /** face X doesn't lie across an axis */
    GWB_MISFIT_NOT_ACROSS = 16,
    /** no longer said: solids may lie apart in a union */
    GWB_MISFIT_NO_CONTACT = 17,
    /** no longer said: solids may have room in common in a union */
    GWB_MISFIT_OVERLAP = 18,
    /** the slopes of edges that end at vertex X don't meet in one point */
    GWB_MISFIT_NO_CORNER = 19,
    /** edge X isn't like the first one */
    GWB_MISFIT_NOT_ALIKE = 20,
    /** a side of the X-th face has none in another face that runs the other way */
    GWB_MISFIT_NOT_CLOSED = 21
};

/** Which cause of a misfit it is. Y is the number of what was met (gwb_hit). */
enum gwb_cause {
    /** the outline crosses edge Y of face X; gwb_subtract cuts across edges, gwb_union adds across them */
    GWB_CAUSE_EDGE_CROSSED = 1,
    /** the outline touches edge Y of face X between its ends; gwb_notch and gwb_pad take outlines that reach the edges */
    GWB_CAUSE_EDGE_TOUCHED = 2,
    /** the outline touches vertex Y of face X; gwb_notch and gwb_pad take outlines that reach the vertices */
    GWB_CAUSE_VERTEX_TOUCHED = 3,
    /** the outline meets loop Y, a ring of face X; gwb_subtract cuts across holes, gwb_union adds across them */
    GWB_CAUSE_RING_MET = 4,
    /** the outline lies outside face X */
    GWB_CAUSE_WHOLLY_OUTSIDE = 5,
    /** what is made at face X would touch face Y */
    GWB_CAUSE_TOUCHES_FACE = 6,
    /** what is made at face X would come through face Y; gwb_subtract cuts away what lies in its way, gwb_union makes one of it */
    GWB_CAUSE_COMES_THROUGH = 7,
    /** solid X would touch itself */
    GWB_CAUSE_TOUCHES_ITSELF = 8,
    /** the vector of this depth is whole at no scale, since its length is irrational; gwb_pocket_along and other calls that end in _along take a vector */
    GWB_CAUSE_NO_SCALE = 9,
    /** the vector of this depth would not be whole: all must be Y times as large */
    GWB_CAUSE_DEPTH_FRACTION = 10,
    /** a point would not be whole: all must be Y times as large */
    GWB_CAUSE_POINT_FRACTION = 11,
    /** a corner of what is made would not be whole: all must be X times as large */
    GWB_CAUSE_CORNER_FRACTION = 12,
    /** all points of the outline lie in one line */
    GWB_CAUSE_POINTS_IN_LINE = 13,
    /** the outline crosses itself, and its parts have equal areas */
    GWB_CAUSE_AREAS_CANCEL = 14,
    /** point X of the outline lies off the plane of face Y */
    GWB_CAUSE_OFF_FACE = 15,
    /** point X of the outline lies off the plane of the points before it */
    GWB_CAUSE_OFF_OTHERS = 16,
    /** faces X and Y of those given have a side that runs the same way in both */
    GWB_CAUSE_SIDE_TWICE = 17,
    /** a side of face X of those given has no face beyond it */
    GWB_CAUSE_SIDE_OPEN = 18,
    /** the strip beside edge Y doesn't lie wholly in face X; gwb_subtract cuts across edges */
    GWB_CAUSE_STRIP_OUTSIDE = 19,
    /** what is made at face X would leave solid Y touching itself */
    GWB_CAUSE_SELF_TOUCH = 20,
    /** the corners of a strip of this width would not be whole: all must be Y times as large */
    GWB_CAUSE_WIDTH_FRACTION = 21,
    /** the corners of a strip of this width are whole at no scale, since a length in it is irrational */
    GWB_CAUSE_NO_WIDTH_SCALE = 22,
    /** what is made is whole at no scale that stays in range */
    GWB_CAUSE_PAST_RANGE = 23,
    /** more than three edges end at vertex X */
    GWB_CAUSE_MANY_EDGES = 24,
    /** the slopes at vertex X reach edge Y at different points */
    GWB_CAUSE_SLOPES_APART = 25,
    /** edge X isn't of solid Y, of which the first one is */
    GWB_CAUSE_OTHER_SOLID = 26,
    /** edge X bends the other way than edge Y: one outwards, one inwards */
    GWB_CAUSE_BENDS_OTHERWISE = 27,
    /** the vector lies in the plane of the points */
    GWB_CAUSE_LIES_IN_PLANE = 28,
    /** the vector leaves face X on the other side than what is made */
    GWB_CAUSE_WRONG_SIDE = 29,
    /** sides X and Y of the outline meet */
    GWB_CAUSE_SIDES_MEET = 30
};

/** The name of the condition with a number, or "" where there is none. */
static inline const char *gwb_why_name(uint32_t number)
{
    switch (number) {
    case GWB_WHY_NUMBER_RANGE: return "NumberRange";
    case GWB_WHY_NO_SOLID: return "NoSolid";
    case GWB_WHY_NO_FACE: return "NoFace";
    case GWB_WHY_NO_LOOP: return "NoLoop";
    case GWB_WHY_NO_EDGE: return "NoEdge";
    case GWB_WHY_SOLID_TAKEN: return "SolidTaken";
    case GWB_WHY_FACE_TAKEN: return "FaceTaken";
    case GWB_WHY_LOOP_TAKEN: return "LoopTaken";
    case GWB_WHY_EDGE_TAKEN: return "EdgeTaken";
    case GWB_WHY_VERTEX_TAKEN: return "VertexTaken";
    case GWB_WHY_POINT_RANGE: return "PointRange";
    case GWB_WHY_NOT_BARE: return "NotBare";
    case GWB_WHY_NOT_LONE: return "NotLone";
    case GWB_WHY_DIFFERENT_TAILS: return "DifferentTails";
    case GWB_WHY_PARALLEL_EDGE: return "ParallelEdge";
    case GWB_WHY_KEPT_END_BARE: return "KeptEndBare";
    case GWB_WHY_DIFFERENT_LOOPS: return "DifferentLoops";
    case GWB_WHY_SAME_TAIL: return "SameTail";
    case GWB_WHY_SAME_FACE: return "SameFace";
    case GWB_WHY_HAS_RINGS: return "HasRings";
    case GWB_WHY_SAME_LOOP: return "SameLoop";
    case GWB_WHY_DIFFERENT_FACES: return "DifferentFaces";
    case GWB_WHY_NOT_RING: return "NotRing";
    case GWB_WHY_DIFFERENT_SOLIDS: return "DifferentSolids";
    case GWB_WHY_NOTHING_TO_UNDO: return "NothingToUndo";
    case GWB_WHY_NOTHING_TO_REDO: return "NothingToRedo";
    case GWB_WHY_NUMBERS_SPENT: return "NumbersSpent";
    case GWB_WHY_FEW_POINTS: return "FewPoints";
    case GWB_WHY_ZERO_SWEEP: return "ZeroSweep";
    case GWB_WHY_LONE_LOOP: return "LoneLoop";
    case GWB_WHY_SAME_SOLID: return "SameSolid";
    case GWB_WHY_NOT_FLAT: return "NotFlat";
    case GWB_WHY_REPEATED_POINT: return "RepeatedPoint";
    case GWB_WHY_NO_MATCH: return "NoMatch";
    case GWB_WHY_PLANE_RANGE: return "PlaneRange";
    case GWB_WHY_PLANE_MISSES: return "PlaneMisses";
    case GWB_WHY_NOT_LATTICE: return "NotLattice";
    case GWB_WHY_TOUCHED_FACE: return "TouchedFace";
    case GWB_WHY_CUT_OFTEN: return "CutOften";
    case GWB_WHY_CUT_CROSSED: return "CutCrossed";
    case GWB_WHY_BRANCHED_VERTEX: return "BranchedVertex";
    case GWB_WHY_SECTION_HOLES: return "SectionHoles";
    case GWB_WHY_SIZE_RANGE: return "SizeRange";
    case GWB_WHY_BAD_PART: return "BadPart";
    default: return "";
    }
}

/** What it says, in which X stands for the value that goes with it. */
static inline const char *gwb_why_text(uint32_t number)
{
    switch (number) {
    case GWB_WHY_NUMBER_RANGE: return "the number X is outside 1 to 1,000,000";
    case GWB_WHY_NO_SOLID: return "there is no solid X";
    case GWB_WHY_NO_FACE: return "there is no face X";
    case GWB_WHY_NO_LOOP: return "there is no loop X";
    case GWB_WHY_NO_EDGE: return "there is no edge X";
    case GWB_WHY_SOLID_TAKEN: return "solid X is in use";
    case GWB_WHY_FACE_TAKEN: return "face X is in use";
    case GWB_WHY_LOOP_TAKEN: return "loop X is in use";
    case GWB_WHY_EDGE_TAKEN: return "edge X is in use";
    case GWB_WHY_VERTEX_TAKEN: return "vertex X is in use";
    case GWB_WHY_POINT_RANGE: return "vertex X would lie past 1,000,000,000";
    case GWB_WHY_NOT_BARE: return "solid X has more than a vertex";
    case GWB_WHY_NOT_LONE: return "loop X has edges, so a corner in it is named by a half-edge";
    case GWB_WHY_DIFFERENT_TAILS: return "the second corner is at vertex X, the first one at another";
    case GWB_WHY_PARALLEL_EDGE: return "edge X has the same two ends";
    case GWB_WHY_KEPT_END_BARE: return "only this edge leaves vertex X, which is kept, and others leave the one that goes";
    case GWB_WHY_DIFFERENT_LOOPS: return "the second half-edge stands in loop X, the first one in another";
    case GWB_WHY_SAME_TAIL: return "both corners are at vertex X";
    case GWB_WHY_SAME_FACE: return "both are face X";
    case GWB_WHY_HAS_RINGS: return "face X has rings";
    case GWB_WHY_SAME_LOOP: return "both corners are in loop X";
    case GWB_WHY_DIFFERENT_FACES: return "the second corner is in face X, the first one in another";
    case GWB_WHY_NOT_RING: return "loop X is an outer loop";
    case GWB_WHY_DIFFERENT_SOLIDS: return "the second one is of solid X, the first one of another";
    case GWB_WHY_NOTHING_TO_UNDO: return "there is nothing to undo";
    case GWB_WHY_NOTHING_TO_REDO: return "there is nothing to redo";
    case GWB_WHY_NUMBERS_SPENT: return "too few fresh numbers are left (kind X: 2 faces, 3 loops, 4 edges, 5 vertices)";
    case GWB_WHY_FEW_POINTS: return "there are X points, and 3 are needed";
    case GWB_WHY_ZERO_SWEEP: return "face X would move by nothing";
    case GWB_WHY_LONE_LOOP: return "loop X is a vertex without an edge";
    case GWB_WHY_SAME_SOLID: return "both faces are of solid X";
    case GWB_WHY_NOT_FLAT: return "face X isn't flat";
    case GWB_WHY_REPEATED_POINT: return "two corners of face X lie at one point";
    case GWB_WHY_NO_MATCH: return "the points of face X, read backwards, aren't those of the first face";
    case GWB_WHY_PLANE_RANGE: return "coefficient X is out of range";
    case GWB_WHY_PLANE_MISSES: return "solid X lies on one side of the plane";
    case GWB_WHY_NOT_LATTICE: return "the plane cuts edge X between whole coordinates";
    case GWB_WHY_TOUCHED_FACE: return "the plane cuts face X and also touches its boundary";
    case GWB_WHY_CUT_OFTEN: return "the plane cuts face X and misses one of its loops";
    case GWB_WHY_CUT_CROSSED: return "the cuts of face X can't be drawn one after another";
    case GWB_WHY_BRANCHED_VERTEX: return "more than two edges of the cut meet at vertex X";
    case GWB_WHY_SECTION_HOLES: return "the cut of solid X has a hole, and not exactly one outline around it";
    case GWB_WHY_SIZE_RANGE: return "size X is below 1";
    case GWB_WHY_BAD_PART: return "the faces can't be parted from solid X";
    default: return "";
    }
}

/** What the misfit with a number says, alike. */
static inline const char *gwb_misfit_text(uint32_t number)
{
    switch (number) {
    case GWB_MISFIT_NO_AREA: return "the outline has no area";
    case GWB_MISFIT_NOT_IN_PLANE: return "point X of the outline lies off the plane";
    case GWB_MISFIT_OUTLINE_CROSSED: return "side X of the outline meets another one";
    case GWB_MISFIT_ALONG_PLANE: return "the vector doesn't leave the plane of the points, on the side of the feature";
    case GWB_MISFIT_OUTLINE_OUTSIDE: return "the outline doesn't lie inside face X";
    case GWB_MISFIT_OUTLINE_AROUND_RING: return "a ring of face X lies inside the outline";
    case GWB_MISFIT_OFF_LATTICE: return "a point would not be whole";
    case GWB_MISFIT_MEETS: return "what is made at face X would meet the solid elsewhere";
    case GWB_MISFIT_NO_OPPOSITE: return "there is no face behind the outline in face X";
    case GWB_MISFIT_NOT_PARALLEL: return "face X, behind the outline, isn't parallel";
    case GWB_MISFIT_NOT_OF_FACE: return "edge X is none of the face";
    case GWB_MISFIT_FLAT_EDGE: return "the faces of edge X lie in one plane";
    case GWB_MISFIT_NOTHING_LEFT: return "nothing of solid X would be left";
    case GWB_MISFIT_NO_MATCH: return "no face of solid X matches one of those that are joined";
    case GWB_MISFIT_GLUED_TWICE: return "face X matches another one besides, which it would touch after the gluing";
    case GWB_MISFIT_NOT_ACROSS: return "face X doesn't lie across an axis";
    case GWB_MISFIT_NO_CONTACT: return "no longer said: solids may lie apart in a union";
    case GWB_MISFIT_OVERLAP: return "no longer said: solids may have room in common in a union";
    case GWB_MISFIT_NO_CORNER: return "the slopes of edges that end at vertex X don't meet in one point";
    case GWB_MISFIT_NOT_ALIKE: return "edge X isn't like the first one";
    case GWB_MISFIT_NOT_CLOSED: return "a side of the X-th face has none in another face that runs the other way";
    default: return "";
    }
}

/** The name of the cause with a number, or "" where there is none. */
static inline const char *gwb_cause_name(uint32_t number)
{
    switch (number) {
    case GWB_CAUSE_EDGE_CROSSED: return "EdgeCrossed";
    case GWB_CAUSE_EDGE_TOUCHED: return "EdgeTouched";
    case GWB_CAUSE_VERTEX_TOUCHED: return "VertexTouched";
    case GWB_CAUSE_RING_MET: return "RingMet";
    case GWB_CAUSE_WHOLLY_OUTSIDE: return "WhollyOutside";
    case GWB_CAUSE_TOUCHES_FACE: return "TouchesFace";
    case GWB_CAUSE_COMES_THROUGH: return "ComesThrough";
    case GWB_CAUSE_TOUCHES_ITSELF: return "TouchesItself";
    case GWB_CAUSE_NO_SCALE: return "NoScale";
    case GWB_CAUSE_DEPTH_FRACTION: return "DepthFraction";
    case GWB_CAUSE_POINT_FRACTION: return "PointFraction";
    case GWB_CAUSE_CORNER_FRACTION: return "CornerFraction";
    case GWB_CAUSE_POINTS_IN_LINE: return "PointsInLine";
    case GWB_CAUSE_AREAS_CANCEL: return "AreasCancel";
    case GWB_CAUSE_OFF_FACE: return "OffFace";
    case GWB_CAUSE_OFF_OTHERS: return "OffOthers";
    case GWB_CAUSE_SIDE_TWICE: return "SideTwice";
    case GWB_CAUSE_SIDE_OPEN: return "SideOpen";
    case GWB_CAUSE_STRIP_OUTSIDE: return "StripOutside";
    case GWB_CAUSE_SELF_TOUCH: return "SelfTouch";
    case GWB_CAUSE_WIDTH_FRACTION: return "WidthFraction";
    case GWB_CAUSE_NO_WIDTH_SCALE: return "NoWidthScale";
    case GWB_CAUSE_PAST_RANGE: return "PastRange";
    case GWB_CAUSE_MANY_EDGES: return "ManyEdges";
    case GWB_CAUSE_SLOPES_APART: return "SlopesApart";
    case GWB_CAUSE_OTHER_SOLID: return "OtherSolid";
    case GWB_CAUSE_BENDS_OTHERWISE: return "BendsOtherwise";
    case GWB_CAUSE_LIES_IN_PLANE: return "LiesInPlane";
    case GWB_CAUSE_WRONG_SIDE: return "WrongSide";
    case GWB_CAUSE_SIDES_MEET: return "SidesMeet";
    default: return "";
    }
}

/** What it says, in which Y stands for the number of what was met. */
static inline const char *gwb_cause_text(uint32_t number)
{
    switch (number) {
    case GWB_CAUSE_EDGE_CROSSED: return "the outline crosses edge Y of face X";
    case GWB_CAUSE_EDGE_TOUCHED: return "the outline touches edge Y of face X between its ends";
    case GWB_CAUSE_VERTEX_TOUCHED: return "the outline touches vertex Y of face X";
    case GWB_CAUSE_RING_MET: return "the outline meets loop Y, a ring of face X";
    case GWB_CAUSE_WHOLLY_OUTSIDE: return "the outline lies outside face X";
    case GWB_CAUSE_TOUCHES_FACE: return "what is made at face X would touch face Y";
    case GWB_CAUSE_COMES_THROUGH: return "what is made at face X would come through face Y";
    case GWB_CAUSE_TOUCHES_ITSELF: return "solid X would touch itself";
    case GWB_CAUSE_NO_SCALE: return "the vector of this depth is whole at no scale, since its length is irrational";
    case GWB_CAUSE_DEPTH_FRACTION: return "the vector of this depth would not be whole: all must be Y times as large";
    case GWB_CAUSE_POINT_FRACTION: return "a point would not be whole: all must be Y times as large";
    case GWB_CAUSE_CORNER_FRACTION: return "a corner of what is made would not be whole: all must be X times as large";
    case GWB_CAUSE_POINTS_IN_LINE: return "all points of the outline lie in one line";
    case GWB_CAUSE_AREAS_CANCEL: return "the outline crosses itself, and its parts have equal areas";
    case GWB_CAUSE_OFF_FACE: return "point X of the outline lies off the plane of face Y";
    case GWB_CAUSE_OFF_OTHERS: return "point X of the outline lies off the plane of the points before it";
    case GWB_CAUSE_SIDE_TWICE: return "faces X and Y of those given have a side that runs the same way in both";
    case GWB_CAUSE_SIDE_OPEN: return "a side of face X of those given has no face beyond it";
    case GWB_CAUSE_STRIP_OUTSIDE: return "the strip beside edge Y doesn't lie wholly in face X";
    case GWB_CAUSE_SELF_TOUCH: return "what is made at face X would leave solid Y touching itself";
    case GWB_CAUSE_WIDTH_FRACTION: return "the corners of a strip of this width would not be whole: all must be Y times as large";
    case GWB_CAUSE_NO_WIDTH_SCALE: return "the corners of a strip of this width are whole at no scale, since a length in it is irrational";
    case GWB_CAUSE_PAST_RANGE: return "what is made is whole at no scale that stays in range";
    case GWB_CAUSE_MANY_EDGES: return "more than three edges end at vertex X";
    case GWB_CAUSE_SLOPES_APART: return "the slopes at vertex X reach edge Y at different points";
    case GWB_CAUSE_OTHER_SOLID: return "edge X isn't of solid Y, of which the first one is";
    case GWB_CAUSE_BENDS_OTHERWISE: return "edge X bends the other way than edge Y: one outwards, one inwards";
    case GWB_CAUSE_LIES_IN_PLANE: return "the vector lies in the plane of the points";
    case GWB_CAUSE_WRONG_SIDE: return "the vector leaves face X on the other side than what is made";
    case GWB_CAUSE_SIDES_MEET: return "sides X and Y of the outline meet";
    default: return "";
    }
}

#ifdef __cplusplus
namespace gwb_session {

/// Why a feature isn't possible, where it is no condition of a command. X is the value that goes with it.
enum class Misfit : uint32_t {
    no_area = GWB_MISFIT_NO_AREA /**< the outline has no area */,
    not_in_plane = GWB_MISFIT_NOT_IN_PLANE /**< point X of the outline lies off the plane */,
    outline_crossed = GWB_MISFIT_OUTLINE_CROSSED /**< side X of the outline meets another one */,
    along_plane = GWB_MISFIT_ALONG_PLANE /**< the vector doesn't leave the plane of the points, on the side of the feature */,
    outline_outside = GWB_MISFIT_OUTLINE_OUTSIDE /**< the outline doesn't lie inside face X */,
    outline_around_ring = GWB_MISFIT_OUTLINE_AROUND_RING /**< a ring of face X lies inside the outline */,
    off_lattice = GWB_MISFIT_OFF_LATTICE /**< a point would not be whole */,
    meets = GWB_MISFIT_MEETS /**< what is made at face X would meet the solid elsewhere */,
    no_opposite = GWB_MISFIT_NO_OPPOSITE /**< there is no face behind the outline in face X */,
    not_parallel = GWB_MISFIT_NOT_PARALLEL /**< face X, behind the outline, isn't parallel */,
    not_of_face = GWB_MISFIT_NOT_OF_FACE /**< edge X is none of the face */,
    flat_edge = GWB_MISFIT_FLAT_EDGE /**< the faces of edge X lie in one plane */,
    nothing_left = GWB_MISFIT_NOTHING_LEFT /**< nothing of solid X would be left */,
    no_match = GWB_MISFIT_NO_MATCH /**< no face of solid X matches one of those that are joined */,
    glued_twice = GWB_MISFIT_GLUED_TWICE /**< face X matches another one besides, which it would touch after the gluing */,
    not_across = GWB_MISFIT_NOT_ACROSS /**< face X doesn't lie across an axis */,
    no_contact = GWB_MISFIT_NO_CONTACT /**< no longer said: solids may lie apart in a union */,
    overlap = GWB_MISFIT_OVERLAP /**< no longer said: solids may have room in common in a union */,
    no_corner = GWB_MISFIT_NO_CORNER /**< the slopes of edges that end at vertex X don't meet in one point */,
    not_alike = GWB_MISFIT_NOT_ALIKE /**< edge X isn't like the first one */,
    not_closed = GWB_MISFIT_NOT_CLOSED /**< a side of the X-th face has none in another face that runs the other way */
};

/// The name of what isn't possible, as Python's session has it.
[[nodiscard]] constexpr const char *misfit_name(Misfit misfit)
{
    switch (misfit) {
    case Misfit::no_area: return "NoArea";
    case Misfit::not_in_plane: return "NotInPlane";
    case Misfit::outline_crossed: return "OutlineCrossed";
    case Misfit::along_plane: return "AlongPlane";
    case Misfit::outline_outside: return "OutlineOutside";
    case Misfit::outline_around_ring: return "OutlineAroundRing";
    case Misfit::off_lattice: return "OffLattice";
    case Misfit::meets: return "Meets";
    case Misfit::no_opposite: return "NoOpposite";
    case Misfit::not_parallel: return "NotParallel";
    case Misfit::not_of_face: return "NotOfFace";
    case Misfit::flat_edge: return "FlatEdge";
    case Misfit::nothing_left: return "NothingLeft";
    case Misfit::no_match: return "NoMatch";
    case Misfit::glued_twice: return "GluedTwice";
    case Misfit::not_across: return "NotAcross";
    case Misfit::no_contact: return "NoContact";
    case Misfit::overlap: return "Overlap";
    case Misfit::no_corner: return "NoCorner";
    case Misfit::not_alike: return "NotAlike";
    case Misfit::not_closed: return "NotClosed";
    }
    return "";
}

} // namespace gwb_session
#endif

#endif
