/// @file cut_advice.hpp What is said of a cut whose points aren't whole. Made by tests/refusals.py --write of bindings/refusals.table; edit nothing here.
#pragma once

namespace gwb_session::cutting::advice {

constexpr const char *cut_at = "edge X is cut at Y";
constexpr const char *past_range = "times X all points are whole, but the model would lie past 1,000,000,000";
constexpr const char *scaled = "times X (gwb-script --scale X) all points are whole";
constexpr const char *no_parallel = "no parallel plane cuts at whole points";
constexpr const char *moved = "X, the cut moves by at most Y along an edge";

} // namespace gwb_session::cutting::advice
