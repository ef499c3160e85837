/// @file cuts.hpp Solids cut in two, and trimmed, by planes: by split, or where that refuses for the corners that the plane touches or for how it
/// runs through faces and holes, face by face; caps close both parts then, and faces in the plane are one with the caps beside them.
#pragma once
#include "machining.hpp"

namespace gwb_session::cuts {

using namespace machining;

/// The faces that close the part below a plane, and those that close the one above.
using Caps = std::array<std::vector<Face>, 2>;

/// The command split.
Caps split(Bench &bench, Solid solid, const gwb_cut_plane &row, Solid above);

/// What lies above a plane becomes another solid, or goes where it isn't wanted. Not possible: Meets: at corners that lie in the plane one of the parts
/// meets or touches itself as the solid didn't.
Caps cut(Bench &bench, Solid solid, const gwb_cut_plane &row, Solid above, bool is_wanted);

} // namespace gwb_session::cuts
