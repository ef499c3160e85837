/// @file crossings.hpp Faces that have points in common which they don't share.
#pragma once
#include "surroundings.hpp"

namespace gwb_session::crossings {

using namespace machining;

/// Two faces, and a point that both have.
struct Crossing {
    Face first, second;
    ScaledPoint point;
};

/// The pairs of faces of a solid that have a point in common which lies on no edge or vertex of both, rising; or of a face of the solid and one of another that
/// have any. Refused: NoSolid; NotFlat.
std::vector<Crossing> all(const Bench &bench, Solid solid, std::optional<Solid> other);

} // namespace gwb_session::crossings
