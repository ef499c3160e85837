/// @file untouched.hpp Faces of solids that meet none of the faces near them of other ones. Those that hang together lie alike, so that it is enough to look
/// at one of them.
#pragma once
#include "surroundings.hpp"

namespace gwb_session::untouched {

using namespace machining;

/// A solid so far as it lies near the others, and whether its faces stay as they are or go, but for those that meet others.
struct NearSolid {
    const Surface *surface;
    NearFaces faces;
    bool stays;
};

struct Alike {
    std::vector<std::pair<Face, std::vector<Face>>> of; ///< by one of them, which is looked at, the others
    std::vector<Face> others;                           ///< all of these, rising
    std::unordered_map<Edge, Vector> behind;            ///< edges at which faces lie as a face does that has this corner
};

/// Those of solids that stay. Faces that have one of the wanted loops count as if they met others.
Alike faces_alike(const Bench &bench, const std::vector<NearSolid> &solids, const std::set<Loop> &wanted);

} // namespace gwb_session::untouched
