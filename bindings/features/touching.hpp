/// @file touching.hpp Whether what is made touches itself: at a point round which its faces don't close in one fan.
///
/// So it is asked of all that is made of faces which are laid on each other. What is drawn in a face has to have room before there is anything (machining.cpp),
/// and of a solid where faces cross (crossings.hpp) no points are known.
#pragma once
#include "sheets.hpp"
#include <functional>

namespace gwb_session::touching {

using namespace sheets;

/// What a face is of: none where it is of several.
using SourceOf = std::function<std::optional<std::uint32_t>(const Sheet &face)>;

/// The first of some points at which faces touch themselves, but for those at which all are of one source, as that did before: none where they don't.
std::optional<ScaledPoint> touched(const std::vector<Sheet> &faces, std::vector<ScaledPoint> points, const SourceOf &source_of);

} // namespace gwb_session::touching
