/// @file shapes.hpp Flat faces, and what meets them.
#pragma once
#include "chains.hpp"

namespace gwb_session::machining {

// ---- faces

/// The plane of sides, its normal as short as it can be: zero where they go round no area.
inline Plane plane_around(const std::vector<Side> &sides) { return Plane::through(sides[0].start, reduced(area_of(sides))); }

/// Whether sides lie in a plane.
bool lie_in(const std::vector<Side> &sides, const Plane &plane);
bool have_lengths(const std::vector<Side> &sides);

/// The plane of a face with these sides: none where one has no length, as that of a lone loop, the face has no area, or a vertex lies off its plane.
std::optional<Plane> flat_plane(const std::vector<Side> &sides);

/// A flat face, or so much of it as some of its loops tell.
class Shape {
public:
    Plane plane;
    std::vector<Cycle> cycles;
    std::vector<Side> sides; ///< of all of these
    Box box;                 ///< around them

    explicit Shape(const std::vector<Cycle> &around);
    Shape(const Plane &in, const std::vector<Cycle> &around);

    [[nodiscard]] bool is_flat() const { return !is_zero(plane.across) && lie_in(sides, plane); }
    /// Positive before the plane, negative behind it: times the point's scale.
    [[nodiscard]] Wide height(const ScaledPoint &point) const { return dot(plane.across, point.at) + plane.offset * point.scale; }
    /// Where a point of the plane lies: within an odd number of loops, or not.
    [[nodiscard]] Place locate(const ScaledPoint &point) const { return machining::locate(sides, point, axes_); }
    /// Whether it has a point of a segment, of one in its plane the start.
    [[nodiscard]] bool meets(const Side &segment) const
    {
        const Wide before = height({segment.start}), after = height({segment.end});
        return sign(before) * sign(after) <= 0 && locate(divided(segment, before, after)) != Place::outside;
    }

    /// Whether a side in its plane meets one of a cycle there; whether it crosses one.
    [[nodiscard]] bool is_met(const Side &side, const Cycle &own) const
    {
        return any(own, [&](const Side &other) { return box_of(side).meets(box_of(other)) && side.meets(other, axes_); });
    }
    [[nodiscard]] bool is_crossed(const Side &side, const Cycle &own) const
    {
        return any(own, [&](const Side &other) { return side.crosses(other, axes_); });
    }
    /// Whether a point in its plane lies on a cycle there.
    [[nodiscard]] bool is_on(const Vector &point, const Cycle &own) const
    {
        return any(own, [&](const Side &side) { return side.holds({point}, axes_); });
    }

    /// Refuses a path in its plane that meets none of its sides, but lies outside the face, which has this number, or has a ring of it inside.
    void require_inside(Face face, const Path &path) const;

    /// A point within, half way between two corners that are next to each other along an axis.
    [[nodiscard]] std::optional<ScaledPoint> inner_point() const;

    /// Where a ray from a point off its plane meets it.
    [[nodiscard]] Place hit(const ScaledPoint &start, const Vector &ray) const;

    using Span = std::pair<ScaledPoint, ScaledPoint>;
    /// The parts of a line within, along which a plane runs on both of whose sides it lies: those that have some of a part in common, where one is given.
    [[nodiscard]] std::vector<Span> cut_by(const Plane &other, const std::optional<Span> &part = {}) const;

    /// The points of sides in a plane, or where they cross it, in their order along the line.
    [[nodiscard]] std::vector<ScaledPoint> stops_on(const Plane &other) const;

private:
    /// Its sides, and of runs what tells how they lie to a plane.
    [[nodiscard]] std::vector<Side> beside(const Plane &other) const;
    [[nodiscard]] bool is_within(const ScaledPoint &one, const ScaledPoint &next) const { return one < next && locate(one.between(next)) == Place::inside; }
    /// The first part between stops that lies within.
    [[nodiscard]] std::optional<Span> first_within(const std::vector<ScaledPoint> &stops) const;

    Axes axes_;
};

inline Box box_of(const Shape &shape) { return shape.box; }

} // namespace gwb_session::machining
