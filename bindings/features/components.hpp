/// @file components.hpp A solid of several components, each of which becomes a solid.
#pragma once
#include "combining.hpp"

namespace gwb_session::components {

using namespace combining;

/// Each connected component of a solid becomes a solid, with the cavities that it holds: that of the least face keeps the number, the others get free ones, by
/// their least faces. Refused: NoSolid; NotFlat; NumbersSpent.
/// @return all of them, the one that keeps the number first
std::vector<Solid> separate(Bench &bench, Solid solid);

} // namespace gwb_session::components
