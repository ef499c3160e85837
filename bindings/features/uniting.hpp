/// @file uniting.hpp Solids that touch in faces made one: glued along those that match.
#pragma once
#include "surroundings.hpp"

namespace gwb_session::uniting {

using namespace machining;

/// Glues solids along the faces that match, so that each is joined once to what hangs on the first: that is all of them then.
void glue_all(Bench &bench, Items<Solid> solids);

} // namespace gwb_session::uniting
