#include "cones.hpp"

namespace gwb_session::cones {

namespace {

/// A corner of a face, which lies from the first way on, counterclockwise, to the last one.
struct Corner {
    Plane plane;
    Vector first, last;

    [[nodiscard]] Axes axes() const { return flat_axes(plane.across); }
    /// How it turns from the first way to the last one.
    [[nodiscard]] int turn() const
    {
        const auto [x, y] = axes();
        return sign(first[x] * last[y] - first[y] * last[x]);
    }
    /// A way that leads into the face: none where it goes straight on.
    [[nodiscard]] std::optional<Vector> inward(Wide k) const
    {
        const Vector found = add(times(first, k), last);
        return turn() == 0 ? std::nullopt : std::optional(turn() > 0 ? found : negative(found));
    }
};

/// A corner, with how far two ways lead away from its plane.
struct Crossed {
    const Corner *corner;
    Int<4> away, inward;
};

using Way = std::array<Int<6>, 3>;

/// The turn from a way to another one in the plane of a corner.
int turn_from(const Vector &one, const Way &other, Axes axes)
{
    const auto [x, y] = axes;
    return (Int<2>(one[x]) * other[y] - Int<2>(one[y]) * other[x]).sign();
}

/// Where a way in the plane of a corner leads.
Place locate(const Corner &corner, const Way &way)
{
    const int first = turn_from(corner.first, way, corner.axes()), last = -turn_from(corner.last, way, corner.axes()); // to the last one
    switch (corner.turn()) {
    case 1: return first > 0 && last > 0 ? Place::inside : first < 0 || last < 0 ? Place::outside : Place::on;
    case -1: return first > 0 || last > 0 ? Place::inside : first < 0 && last < 0 ? Place::outside : Place::on;
    default: return first > 0 ? Place::inside : first < 0 ? Place::outside : Place::on;
    }
}

/// The corners of a solid at a point.
std::vector<Corner> corners_at(const Operands &all, Number solid, Number point)
{
    const Vector &at = all.points.at(point).at;
    std::vector<Corner> found;
    for (Number face = all.first_face(solid); face < all.first_face(solid + 1); face++)
        for (const Cycle &cycle : all.sheet(face).cycles)
            for (std::size_t side = 0; side < cycle.size(); side++)
                if (cycle[side].start == at)
                    found.push_back({all.sheet(face).plane, cycle[side].way(), negative(cycle[(side + cycle.size() - 1) % cycle.size()].way())});
    return found;
}

/// The turn from a way that leads away to one into a face, which is less than half round: the corner that it crosses first tells.
class Turn {
public:
    Turn(const std::vector<Corner> &corners, const Vector &away) : corners_(corners), away_(away) {}

    /// None where an edge is in its way.
    [[nodiscard]] std::optional<bool> told(const Corner &to, const Vector &inward) const
    {
        Crossed first{&to, wide_dot(to.plane.across, away_), Int<4>(0)};
        for (const Corner &corner : corners_) {
            const Crossed crossed{&corner, wide_dot(corner.plane.across, away_), wide_dot(corner.plane.across, inward)};
            if (&corner == &to || crossed.away.sign() * crossed.inward.sign() >= 0)
                continue;
            const Place place = locate(corner, way_across(crossed, inward));
            if (place == Place::on)
                return std::nullopt;
            if (place == Place::inside && comes_first(crossed, first))
                first = crossed;
        }
        return first.away.sign() < 0;
    }

private:
    /// Where the turn crosses the plane of a corner.
    [[nodiscard]] Way way_across(const Crossed &crossed, const Vector &inward) const
    {
        const Int<4> away = crossed.away.magnitude(), back = crossed.inward.magnitude();
        Way found;
        for (std::size_t axis = 0; axis < 3; axis++)
            found[axis] = Int<2>(away_[axis]) * back + Int<2>(inward[axis]) * away;
        return found;
    }
    static bool comes_first(const Crossed &one, const Crossed &other)
    {
        return one.away.magnitude() * other.inward.magnitude() < other.away.magnitude() * one.inward.magnitude();
    }

    const std::vector<Corner> &corners_;
    const Vector &away_;
};

} // namespace

std::optional<bool> is_within(const Operands &all, Number solid, Number point, const Vector &away)
{
    const std::vector<Corner> corners = corners_at(all, solid, point);
    for (Wide k = 1; k <= static_cast<Wide>(corners.size()) + 1; k++) // (an edge is in the way of one turn into each face at most)
        for (const Corner &corner : corners)
            if (const std::optional<Vector> inward = corner.inward(k); inward && sign_of_dot(corner.plane.across, away) != 0)
                if (const std::optional<bool> told = Turn(corners, away).told(corner, *inward))
                    return told;
    return std::nullopt;
}

} // namespace gwb_session::cones
