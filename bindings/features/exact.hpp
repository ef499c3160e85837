/// @file exact.hpp Exact arithmetic on whole points, in space and in planes: for machining.hpp, shaping.hpp and off_lattice.hpp.
///
/// Coordinates lie within 1,000,000,000, so normals, heights and their products with one more coordinate fit in 128 bits; where two of
/// those are multiplied, only which product is the greater one is asked, in 256. It takes a compiler with integers of 128 bits.
#pragma once
#include "gwb.hpp"
#include "gwb_features.h"
#include <map>
#include <numeric>
#include <tuple>
#if !defined(__SIZEOF_INT128__)
#error "the features take integers of 128 bits, as GCC and Clang have them"
#endif

namespace gwb_session::exact {

__extension__ typedef __int128 Wide;
__extension__ typedef unsigned __int128 Unsigned;
using Vector = std::array<Wide, 3>;
/// Two axes, in the order in which a plane is looked at.
using Axes = std::array<std::size_t, 2>;

/// No coordinate lies farther out.
constexpr std::int64_t farthest = 1'000'000'000;

// ---- numbers

/// A number as C has it.
constexpr gwb_wide wide(Wide number) { return {static_cast<std::int64_t>(number >> 64), static_cast<std::uint64_t>(number)}; }

constexpr int sign(Wide a) { return (a > 0) - (a < 0); }
constexpr Wide magnitude(Wide a) { return a < 0 ? -a : a; }
/// In 64 bits as soon as both fit there.
constexpr Wide greatest_divisor(Wide a, Wide b)
{
    const auto is_long = [](Wide number) { return number != static_cast<std::int64_t>(number); };
    while (b != 0 && (is_long(a) || is_long(b)))
        a = std::exchange(b, a % b);
    return b == 0 ? magnitude(a) : std::gcd(static_cast<std::uint64_t>(magnitude(a)), static_cast<std::uint64_t>(magnitude(b)));
}

/// The product of the magnitudes of two numbers, in 256 bits: its upper half first.
constexpr std::pair<Unsigned, Unsigned> product(Wide one, Wide other)
{
    const auto a = static_cast<Unsigned>(magnitude(one)), b = static_cast<Unsigned>(magnitude(other));
    const Unsigned half = ~std::uint64_t{0}, least = (a & half) * (b & half);
    const Unsigned first = (a >> 64) * (b & half) + (least >> 64), second = (a & half) * (b >> 64) + (first & half);
    return {(a >> 64) * (b >> 64) + (first >> 64) + (second >> 64), second << 64 | (least & half)};
}

/// The sign of a b - c d, however large these are.
inline int compare_products(Wide a, Wide b, Wide c, Wide d)
{
    Wide first = 0, second = 0;
    if (!__builtin_mul_overflow(a, b, &first) && !__builtin_mul_overflow(c, d, &second))
        return (first > second) - (first < second);
    const int one = sign(a) * sign(b), other = sign(c) * sign(d);
    if (one != other)
        return sign(one - other);
    const auto large = product(a, b), beside = product(c, d);
    return one * ((large > beside) - (large < beside));
}

/// A closed path from its least member on.
template <class Path> Path from_least(Path path)
{
    std::rotate(path.begin(), std::min_element(path.begin(), path.end()), path.end());
    return path;
}

/// What a map has for a key, or none.
template <class Map> const typename Map::mapped_type *look_up(const Map &map, const typename Map::key_type &key)
{
    const auto found = map.find(key);
    return found != map.end() ? &found->second : nullptr;
}

// ---- vectors

constexpr Vector vector(Point point) { return {point.x, point.y, point.z}; }
constexpr Point point(const Vector &a)
{
    return {static_cast<std::int64_t>(a[0]), static_cast<std::int64_t>(a[1]), static_cast<std::int64_t>(a[2])};
}
constexpr Vector add(const Vector &a, const Vector &b) { return {a[0] + b[0], a[1] + b[1], a[2] + b[2]}; }
constexpr Vector subtract(const Vector &a, const Vector &b) { return {a[0] - b[0], a[1] - b[1], a[2] - b[2]}; }
constexpr Vector times(const Vector &a, Wide factor) { return {a[0] * factor, a[1] * factor, a[2] * factor}; }
constexpr Vector negative(const Vector &a) { return times(a, -1); }
constexpr Wide dot(const Vector &a, const Vector &b) { return a[0] * b[0] + a[1] * b[1] + a[2] * b[2]; }
constexpr Vector cross(const Vector &a, const Vector &b)
{
    return {a[1] * b[2] - a[2] * b[1], a[2] * b[0] - a[0] * b[2], a[0] * b[1] - a[1] * b[0]};
}
constexpr bool is_zero(const Vector &a) { return a[0] == 0 && a[1] == 0 && a[2] == 0; }
constexpr Wide longest(const Vector &a) { return std::max({magnitude(a[0]), magnitude(a[1]), magnitude(a[2])}); }
constexpr bool is_in_range(const Vector &a) { return longest(a) <= farthest; }
/// In how many parts whole points divide a vector: 0 where it has no length.
constexpr Wide parts_of(const Vector &a) { return greatest_divisor(greatest_divisor(a[0], a[1]), a[2]); }
/// The shortest whole vector in the direction of one.
constexpr Vector reduced(const Vector &a)
{
    const Wide parts = std::max(Wide{1}, parts_of(a));
    return {a[0] / parts, a[1] / parts, a[2] / parts};
}
/// The same, or the other way, whichever is the greater one: one for all vectors along a line.
inline Vector line_of(const Vector &a)
{
    const Vector along = reduced(a);
    return std::max(along, negative(along));
}
inline bool are_parallel(const Vector &a, const Vector &b) { return line_of(a) == line_of(b); }

/// The plane of the points whose height is 0; above it heights are greater.
struct Plane {
    Vector across;
    Wide offset;

    static Plane of(const gwb_cut_plane &row) { return {{row.a, row.b, row.c}, row.d}; }
    /// The one through a point.
    static Plane through(const Vector &at, const Vector &across) { return {across, -dot(across, at)}; }
    [[nodiscard]] Wide height(const Vector &at) const { return dot(across, at) + offset; }
    [[nodiscard]] Plane turned() const { return {negative(across), -offset}; }
    friend bool operator<(const Plane &a, const Plane &b) { return std::tie(a.across, a.offset) < std::tie(b.across, b.offset); }
};

/// The axis along which a vector is longest.
inline std::size_t widest(const Vector &a)
{
    const auto found = std::max_element(a.begin(), a.end(), [](Wide one, Wide other) { return magnitude(one) < magnitude(other); });
    return static_cast<std::size_t>(found - a.begin());
}

/// The axes in which a plane with this normal is seen from its front, undistorted enough to be exact.
inline Axes flat_axes(const Vector &normal)
{
    const std::size_t away = widest(normal), first = (away + 1) % 3, second = (away + 2) % 3;
    return normal[away] > 0 ? Axes{first, second} : Axes{second, first};
}

/// The least box around points.
struct Box {
    Vector low{}, high{};

    static Box between(const Vector &a, const Vector &b)
    {
        Box box{a, a};
        box.take({b, b});
        return box;
    }
    void take(const Box &other)
    {
        for (std::size_t axis = 0; axis < 3; axis++) {
            low[axis] = std::min(low[axis], other.low[axis]);
            high[axis] = std::max(high[axis], other.high[axis]);
        }
    }
    [[nodiscard]] bool meets(const Box &other) const
    {
        for (std::size_t axis = 0; axis < 3; axis++)
            if (low[axis] > other.high[axis] || other.low[axis] > high[axis])
                return false;
        return true;
    }
};

/// The box around a point, and around several items that have one.
inline Box box_of(const Vector &at) { return {at, at}; }
template <class Item> Box box_of(const std::vector<Item> &items)
{
    Box box = box_of(items[0]);
    for (const Item &item : items)
        box.take(box_of(item));
    return box;
}

/// A box in 31 bits, in which those of points in range fit; what lies beyond is taken as the greatest there.
struct SmallBox {
    using Corner = std::array<std::int32_t, 3>;
    Corner low{}, high{};

    SmallBox() = default;
    explicit SmallBox(const Box &box) : low(corner(box.low)), high(corner(box.high)) {}
    [[nodiscard]] static Corner corner(const Vector &at);
    /// One that meets none.
    [[nodiscard]] static SmallBox nowhere()
    {
        SmallBox found;
        found.low.fill(INT32_MAX), found.high.fill(INT32_MIN);
        return found;
    }

    void take(const SmallBox &other)
    {
        for (std::size_t axis = 0; axis < 3; axis++) {
            low[axis] = std::min(low[axis], other.low[axis]);
            high[axis] = std::max(high[axis], other.high[axis]);
        }
    }
    [[nodiscard]] bool meets(const SmallBox &other) const
    {
        return low[0] <= other.high[0] && other.low[0] <= high[0] && low[1] <= other.high[1] && other.low[1] <= high[1] && low[2] <= other.high[2] &&
               other.low[2] <= high[2];
    }
    [[nodiscard]] bool holds(const SmallBox &other) const
    {
        return low[0] <= other.low[0] && other.high[0] <= high[0] && low[1] <= other.low[1] && other.high[1] <= high[1] && low[2] <= other.low[2] &&
               other.high[2] <= high[2];
    }
    friend Box box_of(const SmallBox &box)
    {
        return {{box.low[0], box.low[1], box.low[2]}, {box.high[0], box.high[1], box.high[2]}};
    }
};

/// Two numbers of boxes.
using NumberPairs = std::vector<std::array<std::uint32_t, 2>>;

/// Boxes with numbers, in halves of about as many, each with a box round it, which are in halves again.
class Halves {
public:
    struct Row {
        SmallBox box;
        std::uint32_t number;
    };
    using Rows = std::vector<Row>;

    Halves() = default;
    explicit Halves(Rows rows);

    [[nodiscard]] std::size_t size() const { return rows_.size(); }
    /// Puts in the numbers of the boxes that meet one; of each box that meets one of others, with that one's.
    void put_meeting(const SmallBox &box, std::vector<std::size_t> &found) const { put_meeting(all(), box, found); }
    void put_meeting(const Halves &others, NumberPairs &found) const { put_meeting(all(), others, others.all(), found); }
    /// A row goes: it stands where no box is.
    void take_away(const Row &row) { (void)take_away(all(), row); }
    /// Puts in the rows that are left.
    void put_rows(Rows &to) const;

private:
    struct Part {
        std::size_t first, last;

        [[nodiscard]] bool is_small() const { return last - first <= 8; }
        [[nodiscard]] std::size_t middle() const { return first + (last - first) / 2; }
        [[nodiscard]] std::array<Part, 2> halves() const { return {Part{first, middle()}, Part{middle(), last}}; }
    };
    [[nodiscard]] Part all() const { return {0, rows_.size()}; }
    void halve(Part part);
    [[nodiscard]] bool take_away(Part part, const Row &row);
    void put_meeting(Part part, const SmallBox &box, std::vector<std::size_t> &found) const;
    void put_meeting(Part part, const Halves &others, Part beside, NumberPairs &found) const;

    Rows rows_;
    std::vector<SmallBox> around_; ///< parts, by their middles
};

/// Numbers by boxes. Rows that came since they were halved last are looked at one by one, until that has taken as long as to halve all.
class BoxIndex {
public:
    void put(const Box &box, std::size_t number) { put(SmallBox(box), number); }
    void put(const SmallBox &box, std::size_t number) { drop(), fresh_.push_back({box, static_cast<std::uint32_t>(number)}); }

    /// Takes in all that another one has.
    void take_in(const BoxIndex &other) { drop(), other.put_rows(fresh_); }
    /// A number that was put with this box goes, which has no other one.
    void take_away(const SmallBox &box, std::size_t number) { leaving_.push_back({box, static_cast<std::uint32_t>(number)}); }

    /// The numbers of the boxes that meet one, rising.
    [[nodiscard]] std::vector<std::size_t> meeting(const Box &box) const { return meeting(SmallBox(box)); }
    [[nodiscard]] std::vector<std::size_t> meeting(const SmallBox &box) const;

private:
    /// What was taken away goes.
    void drop() const;
    void put_rows(Halves::Rows &to) const;

    mutable Halves halves_;
    mutable Halves::Rows fresh_, leaving_;
    mutable std::size_t looked_at_ = 0; ///< rows of the new ones, since they were halved last
};

/// The places of boxes that meet, pair by pair, the lesser first: of boxes of different owners, which don't fall.
NumberPairs pairs_meeting(const std::vector<SmallBox> &boxes, const std::vector<std::uint32_t> &owners);

// ---- places

/// Where a point lies against an outline.
enum class Place { inside, outside, on };

} // namespace gwb_session::exact
