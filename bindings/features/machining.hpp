/// @file machining.hpp Features of outlines: profiles, rings, pockets, bosses and holes. What isn't possible is refused before anything is given.
///
/// Outlines may run either way round; what belongs to their points comes in the order of the points: the first of `sides` lies between the
/// first two. A feature compares what lies near.
#pragma once
#include "surroundings.hpp"
#include <variant>

namespace gwb_session::machining {

// ---- sizes and ways

/// A size of the caller: from 1 on. What is longer than anything in range is taken as `greatest`, which is that too.
class Size {
public:
    static constexpr std::int64_t greatest = 4 * farthest;

    [[nodiscard]] std::int64_t length() const { return length_; }

private:
    explicit Size(std::int64_t given) : length_(std::min(given, greatest)) {}
    template <class... Given> friend std::array<Size, sizeof...(Given)> sizes_of(Given... given);

    std::int64_t length_;
};

/// Sizes of the caller. Refused where one is below 1, with the place of the first such: SizeRange.
template <class... Given> std::array<Size, sizeof...(Given)> sizes_of(Given... given)
{
    const std::array<std::int64_t, sizeof...(Given)> all = {given...};
    const auto small = std::find_if(all.begin(), all.end(), [](std::int64_t size) { return size < 1; });
    require(small == all.end(), refused(GWB_WHY_SIZE_RANGE, place(static_cast<std::size_t>(small - all.begin()))));
    return {Size(given)...};
}

/// How a feature goes from its face: so far along the normal, or by a vector.
using Reach = std::variant<Size, Point>;

/// What a whole vector is for: the causes where a finer lattice has one, and where none has.
struct Causes {
    gwb_cause fraction, irrational;
};
constexpr Causes of_depth = {GWB_CAUSE_DEPTH_FRACTION, GWB_CAUSE_NO_SCALE}, of_width = {GWB_CAUSE_WIDTH_FRACTION, GWB_CAUSE_NO_WIDTH_SCALE};

/// The whole vector along a normal that is as short as it can be, as long as a length or a part of it. Not possible where there is none in range: OffLattice,
/// with the value, or where that isn't given with the factor.
Vector steps(const Vector &across, Wide length, const Causes &causes, Wide parts = 1, std::optional<std::uint32_t> value = {});

/// The vector of the caller by which a feature goes into the solid of a face, or out of it. Not possible: AlongPlane, where it lies in the face or goes the
/// other way.
Vector way_along(Face face, const Vector &across, const Point &along, bool is_out);

// ---- what is drawn and moved

Profile make_profile(Bench &bench, Solid solid, Items<Point> points, Point along);

Ring make_ring(Bench &bench, Face face, Items<Point> points);

/// The same out of the solid for a boss, into it for a pocket. Where points would lie out of range a boss is refused, and a pocket would meet the far side.
Pocket make_raised(Bench &bench, Face face, Items<Point> points, const Reach &reach, bool is_boss);

/// A hole: the face is the one that it ends in.
Pocket make_hole(Bench &bench, Face face, Items<Point> points);

} // namespace gwb_session::machining
