/// @file changing.hpp A part of a solid turned into another one that shares faces and edges with it, by steps on the faces that differ.
#pragma once
#include "assembly.hpp"
#include "steps.hpp"

namespace gwb_session::changing {

using namespace sheets;

/// The steps that turn a part into another one, where the edges stay that both have, else whatever edges stay; none where the faces that differ aren't of the
/// kind. Faces that both have, and that are fast, don't go on the way either.
std::optional<rows::Steps> steps_between(const Bench &bench, const Model &old, const Model &made, const std::set<Face> &fast);

/// A solid becomes what a model of all of it says: by steps on the faces that differ, or anew.
void change(Bench &bench, const Model &old, const Model &made);

} // namespace gwb_session::changing
