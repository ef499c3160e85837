/// @file sides.hpp Points and sides, what meets them, and how it is told that something isn't possible.
#pragma once
#include "exact.hpp"
#include "solids.hpp"

namespace gwb_session::machining {

using namespace exact;
using exact::box_of;
using Path = std::vector<Vector>;

/// What was met: the cause alone, with a thing, with a place in what was given, or with the factor that helps.
inline gwb_hit_row met(gwb_cause cause) { return {static_cast<std::uint32_t>(cause), 0, 0, {}, {}}; }
template <gwb_entity Kind> gwb_hit_row met(gwb_cause cause, Id<Kind> thing) { return {static_cast<std::uint32_t>(cause), Kind, thing.number(), {}, {}}; }
inline gwb_hit_row met_place(gwb_cause cause, std::uint32_t place) { return {static_cast<std::uint32_t>(cause), GWB_HIT_PLACE, place, {}, {}}; }
inline gwb_hit_row met_factor(gwb_cause cause, Wide factor)
{
    if (factor > UINT32_MAX) // by which no corner but the origin stays in range
        return met(GWB_CAUSE_PAST_RANGE);
    return {static_cast<std::uint32_t>(cause), GWB_HIT_FACTOR, static_cast<std::uint32_t>(factor), {}, {}};
}
/// Why a feature isn't possible, with its value and what was met.
inline FailureAt impossible(Misfit why, std::uint32_t value, const gwb_hit_row &hit = {})
{
    return {Failure{Problem::impossible, static_cast<std::uint32_t>(why), value}, hit};
}
inline Failure refused(gwb_why why, std::uint32_t value) { return {Problem::refused, static_cast<std::uint32_t>(why), value}; }
/// Throws why not, where something doesn't hold.
template <class Why> void require(bool holds, const Why &why)
{
    if (!holds)
        throw why;
}
/// The number of a place in a list, from 1 on.
inline std::uint32_t place(std::size_t at) { return static_cast<std::uint32_t>(at) + 1; }

// ---- points and sides

/// A point whose coordinates are divided by the scale, which is above zero.
struct ScaledPoint {
    Vector at;
    Wide scale = 1;

    /// Between this one and another.
    [[nodiscard]] ScaledPoint between(const ScaledPoint &other) const { return {add(at, other.at), scale + other.scale}; }
    /// The point, where it is whole.
    [[nodiscard]] std::optional<Vector> whole() const
    {
        if (any(at, [&](Wide part) { return part % scale != 0; }))
            return std::nullopt;
        return Vector{at[0] / scale, at[1] / scale, at[2] / scale};
    }
    /// The same of a point at a face, or at an edge. Not possible: OffLattice.
    template <class Kind> [[nodiscard]] Vector whole_at(Kind part) const
    {
        const std::optional<Vector> found = whole();
        const auto factor = [&] { return scale / greatest_divisor(greatest_divisor(at[0], at[1]), greatest_divisor(at[2], scale)); };
        if (!found)
            throw impossible(Misfit::off_lattice, part.number(), met_at(met_factor(GWB_CAUSE_POINT_FRACTION, factor())));
        return *found;
    }
    /// What was met here.
    [[nodiscard]] gwb_hit_row met_at(gwb_hit_row hit) const
    {
        std::transform(at.begin(), at.end(), hit.point, wide);
        hit.scale = wide(scale);
        return hit;
    }
    /// Negative where it comes before another one, by x, then y, then z.
    [[nodiscard]] int compare(const ScaledPoint &other) const
    {
        int order = 0;
        for (std::size_t axis = 0; axis < 3 && order == 0; axis++)
            order = compare_products(at[axis], other.scale, other.at[axis], scale);
        return order;
    }
    friend bool operator<(const ScaledPoint &a, const ScaledPoint &b) { return a.compare(b) < 0; }
};

/// The least box around a point whose corners are whole.
inline Box box_of(const ScaledPoint &point)
{
    Box found;
    for (std::size_t axis = 0; axis < 3; axis++) {
        const Wide part = point.at[axis];
        found.low[axis] = part / point.scale - (part % point.scale < 0 ? 1 : 0);
        found.high[axis] = part / point.scale + (part % point.scale > 0 ? 1 : 0);
    }
    return found;
}

inline bool is_in(const ScaledPoint &point, const Box &box)
{
    for (std::size_t axis = 0; axis < 3; axis++)
        if (point.at[axis] < box.low[axis] * point.scale || point.at[axis] > box.high[axis] * point.scale)
            return false;
    return true;
}

/// A failure with the point at which something was met.
inline FailureAt failed_at(FailureAt why, const ScaledPoint &point)
{
    why.row = point.met_at(why.row);
    return why;
}

/// The point that lies so far along a way as a fraction says.
constexpr ScaledPoint on_way(const Vector &start, const Vector &way, Wide numerator, Wide denominator)
{
    return {add(times(start, denominator), times(way, numerator)), denominator};
}

class Chain;

/// The half-edge that stands for several that follow each other, by the first of them: that of an edge of which no model has the number.
constexpr std::uint32_t first_run = std::uint32_t{1} << 30;
constexpr HalfEdge run_from(HalfEdge first) { return HalfEdge(first_run + 2 * first.code()); }
constexpr bool is_run(HalfEdge half) { return half.code() >= first_run; }
/// The half-edge, or the first one of those that it stands for.
constexpr HalfEdge first_of(HalfEdge half) { return is_run(half) ? HalfEdge((half.code() - first_run) / 2) : half; }

/// A directed side, with the region on its left: its ends, and the half-edge that it is, or is a part of, or none. Or a run of sides, which lie far from what
/// is looked at.
struct Side {
    Vector start, end;
    HalfEdge half = HalfEdge();
    const Chain *run = nullptr;

    [[nodiscard]] bool is_old() const { return half != HalfEdge(); }
    [[nodiscard]] Vector way() const { return subtract(end, start); }
    [[nodiscard]] ScaledPoint middle() const { return {add(start, end), 2}; }
    [[nodiscard]] Side turned() const { return {end, start, is_old() ? half.twin() : half}; }
    /// Whether a point lies on it between its ends.
    [[nodiscard]] bool passes(const Vector &at) const
    {
        const Vector before = subtract(at, start), after = subtract(end, at);
        return is_zero(cross(before, after)) && dot(before, after) > 0;
    }
    friend bool operator<(const Side &a, const Side &b) { return std::tie(a.start, a.end, a.half) < std::tie(b.start, b.end, b.half); }
    friend bool operator==(const Side &a, const Side &b) { return a.start == b.start && a.end == b.end && a.half == b.half; }

    /// Whether a point lies on it, its ends included.
    [[nodiscard]] bool has(const ScaledPoint &point) const
    {
        const Vector along = way(), to = subtract(point.at, times(start, point.scale));
        const auto is_flat = [&](std::size_t one, std::size_t other) { return compare_products(along[one], to[other], along[other], to[one]) == 0; };
        return is_flat(0, 1) && is_flat(1, 2) && is_flat(2, 0) && ScaledPoint{start}.compare(point) * point.compare({end}) >= 0;
    }

    // Against a point or a side of the same plane, which is seen by these axes:

    /// Positive where the point lies left of the side's line, negative right of it, zero on it.
    [[nodiscard]] int turn(const ScaledPoint &point, Axes axes) const
    {
        const Vector along = way(), to = subtract(point.at, times(start, point.scale));
        return compare_products(along[axes[0]], to[axes[1]], along[axes[1]], to[axes[0]]);
    }
    /// Whether the point lies on the side, its ends included.
    [[nodiscard]] bool holds(const ScaledPoint &point, Axes axes) const
    {
        return turn(point, axes) == 0 && ScaledPoint{start}.compare(point) * point.compare({end}) >= 0;
    }
    /// Whether they pass through each other between their ends.
    [[nodiscard]] bool crosses(const Side &other, Axes axes) const
    {
        return turn({other.start}, axes) * turn({other.end}, axes) < 0 && other.turn({start}, axes) * other.turn({end}, axes) < 0;
    }
    /// Whether both have a point in common.
    [[nodiscard]] bool meets(const Side &other, Axes axes) const
    {
        return holds({other.start}, axes) || holds({other.end}, axes) || other.holds({start}, axes) || other.holds({end}, axes) || crosses(other, axes);
    }
};

/// Where a side crosses a plane, or a line, that lies so far from its ends, on one side of it and on the other; where it starts, if it lies in it.
inline ScaledPoint divided(const Side &side, Wide before, Wide after)
{
    return on_way(side.start, side.way(), magnitude(before), std::max(Wide{1}, magnitude(before - after)));
}

using Cycle = std::vector<Side>;

/// Points, so much further on.
inline Path moved(const Path &path, const Vector &way) { return mapped(path, [&](const Vector &at) { return add(at, way); }); }
/// The cycle through points.
inline Cycle cycle_of(const Path &path)
{
    Cycle cycle;
    cycle.reserve(path.size());
    for (std::size_t at = 0; at < path.size(); at++)
        cycle.push_back({path[at], path[(at + 1) % path.size()]});
    return cycle;
}

/// The items of lists, as of the sides of cycles, in a row.
template <class Lists> auto joined(const Lists &lists)
{
    std::decay_t<decltype(*lists.begin())> items;
    for (const auto &list : lists)
        append(items, list);
    return items;
}

} // namespace gwb_session::machining
