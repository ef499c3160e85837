/// @file steps.hpp Operators that make rows, take them away, or turn a part of a model into another one.
#pragma once
#include "rows.hpp"
#include "sides.hpp"

namespace gwb_session::rows {

using machining::first_of;

enum class Operator { mvfs, kvfs, mev, kev, mef, kef, mekr, kemr, kfmrh, mfkrh, ringmv };

/// An operator with its numbers, and the point of a vertex.
struct Step {
    Operator name;
    std::array<std::uint32_t, 5> of;
    gwb_point point = {};
};
using Steps = std::vector<Step>;

/// What a part and what it becomes have in common, which stays.
struct Kept {
    std::vector<std::uint32_t> edges, rings, faces;            ///< rising: between their faces; that run along nothing else; that don't go on the way either
    std::unordered_map<std::uint32_t, std::uint32_t> outlines; ///< faces by half-edges that their outer loops have in both
};

/// The steps that turn a part of a solid into another one with the same rim: none where the outlines there aren't the same, or a face would go that stays.
std::optional<Steps> between(const gwb *g, const Rows &old, const Rows &made, const Kept &kept);

/// Gives steps in the draft that is open. Refused: NumbersSpent.
void give(Bench &bench, const Steps &steps);

} // namespace gwb_session::rows
