/// @file circles.hpp Polygons for circles, their corners on whole numbers.
#pragma once
#include "gwb_features.h"
#include <array>
#include <cstdint>
#include <utility>

namespace gwb_session::circles {

constexpr std::uint32_t most_sides = 1'000'000;
constexpr std::int64_t longest = 4'000'000'000;

/// The sine and the cosine of an angle from 0 to a third of a turn, by their series.
constexpr std::pair<long double, long double> ratios(long double angle)
{
    long double sine = 0, cosine = 0, term = 1;
    for (int power = 0; power < 32; power++) {
        (power % 2 == 0 ? cosine : sine) += power % 4 < 2 ? term : -term;
        term *= angle / static_cast<long double>(power + 1);
    }
    return {sine, cosine};
}

/// The root of a number from 1 to 3, by Heron's rule.
constexpr long double root(long double square)
{
    long double found = square;
    for (int step = 0; step < 8; step++)
        found = (found + square / found) / 2;
    return found;
}

/// The nearest multiple of the grain; of two as near, the one farther from 0. (A product that should be a half may be off in its last digits: it is one.)
constexpr std::int64_t nearest(long double number, std::int64_t grain)
{
    constexpr long double half = 0.5L + 1e-9L;
    const long double grains = number / static_cast<long double>(grain);
    return grain * static_cast<std::int64_t>(grains < 0 ? grains - half : grains + half);
}

/// How far from the center the corners of a polygon lie, before they come to lie on multiples of the grain.
constexpr long double reach(std::int64_t diameter, std::int64_t grain, std::uint32_t sides, std::uint32_t circle)
{
    constexpr long double half_turn = 3.14159265358979323846264338327950288L, most_moved = 0.7072L; // (a corner by half the diagonal of a square)
    const auto radius = static_cast<long double>(diameter) / 2, many = static_cast<long double>(sides);
    if (circle == GWB_CIRCLE_FLATS)
        return (radius + most_moved * static_cast<long double>(grain)) / ratios(half_turn / many).second;
    return circle == GWB_CIRCLE_AREA ? radius * root(2 * half_turn / (many * ratios(2 * half_turn / many).first)) : radius;
}

/// Corner `place` of a regular polygon of `sides` around the origin, from the first axis on, as far out, on multiples of the grain: as the corner
/// between the first axis and an eighth of a turn that lies as it does.
constexpr std::array<std::int64_t, 2> corner(std::uint32_t place, std::uint32_t sides, long double out, std::int64_t grain)
{
    constexpr long double eighth_of_a_turn = 0.785398163397448309615660845819875721L;
    const std::uint64_t eighths = std::uint64_t{8} * place, rest = eighths % sides;
    const bool is_before = eighths / sides % 2 == 1; // the quarter that is nearest
    const auto [sine, cosine] =
        ratios(eighth_of_a_turn * static_cast<long double>(is_before ? sides - rest : rest) / static_cast<long double>(sides));
    std::array<std::int64_t, 2> at = {nearest(out * cosine, grain), nearest(out * (is_before ? -sine : sine), grain)};
    for (std::uint64_t quarter = 0; quarter < (eighths / sides + 1) / 2 % 4; quarter++)
        at = {-at[1], at[0]};
    return at;
}

} // namespace gwb_session::circles
