/// @file simple_outlines.hpp Outlines that callers give: whether they are flat, and neither cross nor touch themselves.
#pragma once
#include "shapes.hpp"

namespace gwb_session::machining {

/// Points of the caller; refused where one lies out of range.
Path path_of(Items<Point> points);

/// Refuses points off a plane, which was met.
void require_in(const Plane &plane, const Path &path, const gwb_hit_row &hit = {});

/// The normal of the flat simple outline through points.
Vector simple_normal(const Path &path);

/// What belongs to the sides of a path, the other way round, and what belongs to its points: from the same point on.
template <class Item> std::vector<Item> backwards(const std::vector<Item> &sides) { return {sides.rbegin(), sides.rend()}; }
template <class Item> std::vector<Item> turned(std::vector<Item> points)
{
    std::reverse(points.begin() + 1, points.end());
    return points;
}

} // namespace gwb_session::machining
