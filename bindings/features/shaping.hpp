/// @file shaping.hpp Features by tools that are cut out of a solid or put on it: notches, slots, grooves, pads, shoulders and chamfers. What isn't possible is
/// refused before anything is given.
#pragma once
#include "machining.hpp"

namespace gwb_session::shaping {

using namespace machining;

/// What a tool leaves: its floor, or its top, and its walls.
using FloorAndWalls = std::array<std::vector<Face>, 2>;

/// The prism under an outline in the plane of a face is cut out, or that above it put on. Refused: NoFace; NotFlat; what outlines refuse; PointRange. Not
/// possible: OutlineOutside: nothing of what it goes round lies in the face; AlongPlane; OffLattice; Meets; NothingLeft.
FloorAndWalls make_notch(Bench &bench, Face face, Items<Point> points, const Reach &depth);
FloorAndWalls make_pad(Bench &bench, Face face, Items<Point> points, const Reach &height);

/// The same of a strip around a line in the face, with a flat floor, or two that slope.
FloorAndWalls make_slot(Bench &bench, Face face, const std::array<Point, 2> &line, Size width, const Reach &depth);
FloorAndWalls make_groove(Bench &bench, Face face, const std::array<Point, 2> &line, Size width, const Reach &depth);

/// The same of a strip along an edge of the face, which lies in that. Refused besides: NoEdge. Not possible: NotOfFace; OutlineOutside: it doesn't.
FloorAndWalls make_shoulder(Bench &bench, Face face, Edge edge, Size width, const Reach &depth);

/// Edges become slopes, so far into the faces of their first half-edges and into the others; if there are several both are as far. Refused: NoEdge; NotFlat;
/// PointRange. Not possible: FlatEdge; NotAlike; NoCorner; OutlineOutside; OffLattice; Meets.
/// @return the slope of each
std::vector<Face> make_chamfers(Bench &bench, const std::vector<Edge> &edges, Size first, Size second);

} // namespace gwb_session::shaping
