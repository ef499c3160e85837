/// @file places.hpp What lies at a point, for whoever asks where something was met.
#pragma once
#include "parts.hpp"

namespace gwb_session::places {

using namespace sheets;

/// A failure that has a point, with the thing that models have there: a vertex, else an edge, else a face; without one where none of them has the point.
FailureAt told(FailureAt why, const std::vector<const Model *> &models);

} // namespace gwb_session::places
