#include "points.hpp"

namespace gwb_session::points {

Number Points::between(const Side &side, Wide before, Wide after)
{
    Wide numerator = magnitude(before), denominator = numerator + magnitude(after);
    const Wide common = greatest_divisor(numerator, denominator);
    numerator /= common, denominator /= common;
    const Vector way = side.way();
    const Wide steps = greatest_divisor(denominator, parts_of(way)); // whole points along the side divide it too
    const Vector step = {way[0] / steps, way[1] / steps, way[2] / steps};
    return number(on_way(side.start, step, numerator, denominator / steps));
}

Number Points::of_planes(const Plane &one, const Plane &two, const Plane &three)
{
    const std::array<Vector, 3> ways = {cross(two.across, three.across), cross(three.across, one.across), cross(one.across, two.across)};
    FinePoint found{{}, wide_dot(one.across, ways[0])};
    for (std::size_t axis = 0; axis < 3; axis++)
        found.at[axis] = -(product_of(one.offset, ways[0][axis]) + product_of(two.offset, ways[1][axis]) + product_of(three.offset, ways[2][axis]));
    Int<4> common = found.scale;
    for (const Int<4> &part : found.at)
        common = integers::greatest_divisor(common, part);
    const bool is_turned = found.scale.sign() < 0;
    for (Int<4> *part : {&found.at[0], &found.at[1], &found.at[2], &found.scale}) {
        const Int<4> lowest = integers::divided(part->magnitude(), common).first;
        *part = (part->sign() < 0) != is_turned ? -lowest : lowest;
    }
    if (Int<4>(greatest_scale) < found.scale)
        return number(found);
    return number(ScaledPoint{{found.at[0].narrow(), found.at[1].narrow(), found.at[2].narrow()}, found.scale.narrow()});
}

FinePoint Points::fine(Number point) const
{
    const auto &[at, scale] = points_[point];
    if (is_fine(point))
        return fine_points_[static_cast<std::size_t>(at[0])];
    return {{Int<4>(at[0]), Int<4>(at[1]), Int<4>(at[2])}, Int<4>(scale)};
}

bool Points::Before::operator()(const FinePoint &a, const FinePoint &b) const
{
    for (std::size_t axis = 0; axis < 3; axis++)
        if (const int order = (a.at[axis] * b.scale - b.at[axis] * a.scale).sign(); order != 0)
            return order < 0;
    return false;
}

FailureAt Points::failed_between(const Failure &why, Number one, Number other) const
{
    if (is_fine(one) && is_fine(other))
        return why;
    return failed_at(why, is_fine(one) ? at(other) : is_fine(other) ? at(one) : at(one).between(at(other)));
}

bool Points::comes_before(Number one, Number other) const
{
    if (is_fine(one) || is_fine(other))
        return Before()(fine(one), fine(other));
    const ScaledPoint &a = points_[one], &b = points_[other];
    return one != other && (a.scale == 1 && b.scale == 1 ? a.at < b.at : a < b);
}

Box Points::box(Number point) const
{
    if (!is_fine(point))
        return box_of(points_[point]);
    const FinePoint &of = fine_points_[static_cast<std::size_t>(points_[point].at[0])];
    Box found;
    for (std::size_t axis = 0; axis < 3; axis++) {
        const Wide whole = integers::divided(of.at[axis].magnitude(), of.scale).first.narrow();
        found.low[axis] = of.at[axis].sign() < 0 ? -whole - 1 : whole;
        found.high[axis] = of.at[axis].sign() < 0 ? -whole : whole + 1;
    }
    return found;
}

std::size_t Points::Hash::operator()(const ScaledPoint &point) const
{
    constexpr std::uint64_t odd = 0x9e3779b97f4a7c15U; // the golden ratio in 64 bits, which mixes well
    auto mixed = static_cast<std::uint64_t>(point.scale);
    for (Wide part : point.at) {
        mixed = (mixed ^ static_cast<std::uint64_t>(part) ^ static_cast<std::uint64_t>(part >> 64)) * odd;
        mixed ^= mixed >> 29;
    }
    return mixed;
}

Number Points::number(const ScaledPoint &point)
{
    const auto [found, is_new] = numbers_.try_emplace(point, static_cast<Number>(points_.size()));
    if (is_new)
        points_.push_back(point);
    return found->second;
}

Number Points::number(const FinePoint &point)
{
    const auto [found, is_new] = fine_.try_emplace(point, static_cast<Number>(points_.size()));
    if (is_new) {
        points_.push_back({{static_cast<Wide>(fine_points_.size()), 0, 0}, 0});
        fine_points_.push_back(point);
    }
    return found->second;
}

} // namespace gwb_session::points
