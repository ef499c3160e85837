/// @file turns.hpp The order of vectors round a line.
#pragma once
#include "shapes.hpp"

namespace gwb_session::turns {

using namespace machining;

/// The order of vectors across a line, which is looked along by these axes, in the turn counterclockwise from the first axis: 0 where they point the same
/// way.
inline int order(const Vector &one, const Vector &other, Axes axes)
{
    const std::size_t x = axes[0], y = axes[1];
    const auto half = [&](const Vector &of) { return of[y] > 0 || (of[y] == 0 && of[x] > 0) ? 0 : 1; };
    const int halves = half(one) - half(other);
    return halves != 0 ? halves : compare_products(one[y], other[x], one[x], other[y]);
}
inline bool same_turn(const Vector &one, const Vector &other, Axes axes) { return order(one, other, axes) == 0; }

} // namespace gwb_session::turns
