/// @file traces.hpp Traces of several solids in one face, which cross or run along each other.
#pragma once
#include "pieces.hpp"

namespace gwb_session::traces {

using namespace pieces;

/// Puts in the points at which traces are cut by others, or by corners and edges of others.
void cut(Operands &all, std::vector<Trace> &traces);

} // namespace gwb_session::traces
