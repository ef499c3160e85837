/// @file points.hpp Points with numbers: whole ones, those where an edge passes a plane, and those of three planes.
///
/// Between two solids no others than the first two kinds occur: the lines in which faces meet end at edges, and cross each other within a face only where these
/// are of two other solids. All of the first two kinds fits in 128 bits; of a point of three planes only where it lies against other points is asked, in more.
#pragma once
#include "integers.hpp"
#include <unordered_map>

namespace gwb_session::points {

using namespace integers;

// ---- how large numbers come to be

/// The parts of a reduced normal: whoever gives a steeper face refuses it before.
constexpr Wide greatest_normal = Wide{farthest} * farthest;
/// The height of a whole point above the plane of a face, in its normal's lengths.
constexpr Wide greatest_height = 3 * greatest_normal * (2 * farthest);
/// The scale of a point where an edge passes a plane: the heights of both ends together.
constexpr Wide greatest_scale = 2 * greatest_height;
/// Coordinates that are scaled, of which four are added up at most (a whole point and a way, or two points between which one lies, less a whole one).
constexpr Wide greatest_wide = static_cast<Wide>(~Unsigned{0} >> 1);
static_assert(greatest_scale <= greatest_wide / (4 * farthest), "points between whole ones fit in 128 bits");
static_assert(greatest_normal <= greatest_wide / (4 * greatest_normal), "so does the way in which two planes meet");

// ---- points

using Number = std::uint32_t;
/// No point, face or edge.
constexpr Number none = UINT32_MAX;

/// A point of three planes whose scale passes greatest_scale. A scale comes to 6 greatest_normal^3, a coordinate to farthest times as much: 213 bits.
struct FinePoint {
    std::array<Int<4>, 3> at;
    Int<4> scale;
};

/// Points in lowest terms, so that equal ones have one number, however they were found.
class Points {
public:
    Number whole(const Vector &at) { return number({at, 1}); }
    /// Where a side passes a plane, or a line, that lies so far from its ends, on one side of it and on the other.
    Number between(const Side &side, Wide before, Wide after);
    /// Where three planes meet that have one point in common, which lies no farther out than corners do.
    Number of_planes(const Plane &one, const Plane &two, const Plane &three);

    /// A point that isn't fine.
    [[nodiscard]] const ScaledPoint &at(Number point) const { return points_[point]; }
    [[nodiscard]] bool is_fine(Number point) const { return points_[point].scale == 0; }
    [[nodiscard]] bool is_whole(Number point) const { return points_[point].scale == 1; }
    /// By what its coordinates are divided: of a fine one what passes greatest_scale.
    [[nodiscard]] Wide scale(Number point) const { return is_fine(point) ? greatest_scale + 1 : points_[point].scale; }
    [[nodiscard]] std::size_t count() const { return points_.size(); }
    /// A failure with a point between two, or one of them where the other is fine; without any where both are.
    [[nodiscard]] FailureAt failed_between(const Failure &why, Number one, Number other) const;
    /// Along a line, one way: by x, then y, then z.
    [[nodiscard]] bool comes_before(Number one, Number other) const;
    /// Whether a point that isn't fine lies in a box.
    [[nodiscard]] bool is_in(Number point, const Box &box) const { return machining::is_in(points_[point], box); }
    /// A box around a point whose corners are whole: the least one, but of a fine point.
    [[nodiscard]] Box box(Number point) const;

private:
    struct Hash {
        std::size_t operator()(const ScaledPoint &point) const;
    };
    struct Same {
        bool operator()(const ScaledPoint &a, const ScaledPoint &b) const { return a.scale == b.scale && a.at == b.at; }
    };
    struct Before {
        bool operator()(const FinePoint &a, const FinePoint &b) const;
    };

    Number number(const ScaledPoint &point);
    Number number(const FinePoint &point);
    [[nodiscard]] FinePoint fine(Number point) const;

    std::unordered_map<ScaledPoint, Number, Hash, Same> numbers_;
    std::vector<ScaledPoint> points_;          ///< of a fine one the scale is 0, and its place the first coordinate
    std::map<FinePoint, Number, Before> fine_; ///< those that are fine
    std::vector<FinePoint> fine_points_;
};

} // namespace gwb_session::points
