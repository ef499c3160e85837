/// @file within.hpp Within which solids pieces lie that are none of theirs.
#pragma once
#include "pieces.hpp"
#include <functional>

namespace gwb_session::within {

using namespace pieces;

/// Whether a point that lies on no face of a solid lies within it. It is whole, or half way between two whole ones.
using IsWithin = std::function<bool(Number solid, const ScaledPoint &point)>;

/// Tells of each piece within which of the solids it lies of which it has no wing. Throws `why` where a solid touches itself there.
void tell(Operands &all, Pieces &pieces, const IsWithin &is_within, const Failure &why);

} // namespace gwb_session::within
