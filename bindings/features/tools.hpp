/// @file tools.hpp Parts that are cut out of a solid, or put on it: what closes round them, without numbers in the model.
#pragma once
#include "booleans.hpp"

namespace gwb_session::tools {

using namespace booleans;

/// No faces are told that it becomes.
constexpr std::size_t unmarked = SIZE_MAX;

/// A face of a tool, seen from outside, and the mark by which the faces are told that it becomes.
struct Wall {
    Path path;
    std::size_t mark = unmarked;
    std::size_t part = 0; ///< of the tool: each closes
};

using Tool = std::vector<Wall>;

/// How much of what an outline in the plane of a face goes round has to lie in the face.
enum class Lies { somewhere, everywhere };

/// Refuses what lies in a box and so far around it where nothing of a face does: OutlineOutside.
void require_near(const Bench &bench, Face face, Box box, Wide around);
/// Refuses an outline in the plane of a face of which too little lies in it: OutlineOutside, with what was met; PointRange.
void require_lid(const Bench &bench, Face face, const Path &outline, Lies lies, const gwb_hit_row &hit);

/// A solid becomes what is made of it and the parts of a tool, which may have room in common. Refused: PointRange; NotFlat. Not possible: OffLattice, with
/// the factor; Meets, with the face; NothingLeft.
Combined change(Bench &bench, Operation operation, Face face, const Tool &tool);

} // namespace gwb_session::tools
