/// @file outlines.hpp The faces of what is made of solids, by the pieces that bound them.
#pragma once
#include "sectors.hpp"

namespace gwb_session::outlines {

using namespace sectors;

/// Which faces of one plane beside each other become one: those of different solids, or any.
enum class Joins { of_two, all };

/// The faces that pieces bound. Not possible: OffLattice, with the least factor by which all must be scaled for all corners to be whole, or 0 where that
/// passes 2^32 - 1. Throws `why` where they make no outlines.
std::vector<Sheet> regions(const Operands &all, const Bounds &bounds, Joins joins, const Failure &why);

} // namespace gwb_session::outlines
