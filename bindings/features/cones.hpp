/// @file cones.hpp What lies near a corner of a solid.
#pragma once
#include "operands.hpp"

namespace gwb_session::cones {

using namespace operands;

/// Whether what leads away from a point at which a solid has corners lies within the solid, near the point: none where it leads along one of the faces there.
std::optional<bool> is_within(const Operands &all, Number solid, Number point, const Vector &away);

} // namespace gwb_session::cones
