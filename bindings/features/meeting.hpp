/// @file meeting.hpp Where the faces of solids meet, pair by pair: the points at which edges are cut, and the traces that lie within faces.
#pragma once
#include "pieces.hpp"

namespace gwb_session::meeting {

using namespace pieces;

/// Two faces of different solids.
using Pair = std::array<Number, 2>;

struct Meetings {
    std::vector<Trace> traces;
    std::vector<Pair> in_plane; ///< faces that lie in one plane, each pair both ways round
};

/// Finds where the faces of solids meet, and cuts their edges there.
Meetings meet(Operands &all);

} // namespace gwb_session::meeting
