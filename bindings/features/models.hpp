/// @file models.hpp Solids made of points and faces; and copied, moved, scaled and numbered anew.
#pragma once
#include "exact.hpp"
#include "rows.hpp"

namespace gwb_session::models {

using exact::Vector;
using rows::Rows;

/// A solid of points, and of faces of so many corners each. Refused: PointRange; FewPoints; NumbersSpent. Not possible: NotClosed.
gwb_polyhedron_made make_polyhedron(Bench &bench, Solid solid, Items<Point> points, const std::uint32_t *corners, Items<std::uint32_t> sizes);

/// Whether each coordinate of a point goes to one of its image.
bool is_motion(const gwb_motion &motion);

/// The solids elsewhere, so many times as large first, and moved on by a vector last; loops of a mirror image run back, by mates. Refused: PointRange, with
/// the least vertex.
Rows moved(Rows rows, const Motion &motion, const Vector &by = {}, std::int64_t factor = 1);

/// The solids by so many quarters about the axis through a point.
Rows turned(const Rows &rows, std::uint32_t axis, std::uint32_t quarters, const gwb_point &about);

/// A new solid as the rows of one say; its numbers are above all in use, as long as there are any. Refused: NumbersSpent.
Solid copy(Bench &bench, const Rows &rows, Lists &lists);

/// So many solids, of which one is the first, each as its place after that makes the rows: those that are new.
template <class Place> std::vector<Solid> patterned(Bench &bench, Solid solid, std::uint32_t count, Place place, Lists &lists)
{
    const Rows rows = rows::read(bench, {solid});
    if (count > greatest_number)
        throw Failure{Problem::refused, GWB_WHY_NUMBERS_SPENT, GWB_SOLID + 1U};
    std::vector<Solid> row;
    for (std::uint32_t at = 1; at < count; at++)
        row.push_back(copy(bench, place(rows, at), lists));
    return row;
}

/// Solids become what a function makes of their rows.
template <class Of> void replace(Bench &bench, const std::vector<Solid> &solids, Of of)
{
    const Rows before = rows::read(bench, solids), after = of(before);
    rows::take_away(bench, before);
    rows::make(bench, after);
}

/// All solids.
inline std::vector<Solid> solids_of(const Bench &bench)
{
    return mapped(bench.numbers<Solid>(), [](Solid solid) { return solid; });
}

/// All numbers become as low as they can be, in their order.
void renumber(Bench &bench, Lists &lists);

} // namespace gwb_session::models
