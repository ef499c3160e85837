/// @file drilling.hpp Holes with regular polygons for circles.
#pragma once
#include "machining.hpp"

namespace gwb_session::drilling {

using namespace machining;

/// A hole through the solid of a face across an axis, or of a depth, or by a vector. Refused: NoFace, NotFlat. Not possible: NotAcross.
Hole drill(Bench &bench, Face face, Point center, std::int64_t radius, std::uint32_t sides, std::int64_t depth, const Point *along = nullptr);

} // namespace gwb_session::drilling
