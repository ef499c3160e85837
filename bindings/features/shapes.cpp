#include "shapes.hpp"

namespace gwb_session::machining {

bool lie_in(const std::vector<Side> &sides, const Plane &plane)
{
    return all(sides, [&](const Side &side) { return plane.height(side.start) == 0; });
}

bool have_lengths(const std::vector<Side> &sides)
{
    return all(sides, [](const Side &side) { return side.run != nullptr || side.start != side.end; });
}

std::optional<Plane> flat_plane(const std::vector<Side> &sides)
{
    const Plane plane = plane_around(sides);
    return !is_zero(plane.across) && have_lengths(sides) && lie_in(sides, plane) ? std::optional(plane) : std::nullopt;
}

void Shape::require_inside(Face face, const Path &path) const
{
    const Cycle own = cycle_of(path);
    require(locate({path[0]}) == Place::inside, impossible(Misfit::outline_outside, face.number(), met(GWB_CAUSE_WHOLLY_OUTSIDE)));
    if (any(cycles, [&](const Cycle &cycle) { return machining::locate(own, {cycle[0].start}, axes_) == Place::inside; }))
        throw impossible(Misfit::outline_around_ring, face.number());
}

std::optional<ScaledPoint> Shape::inner_point() const
{
    const std::size_t axis = axes_[1];
    std::set<Wide> levels;
    for (const Side &side : without_runs(sides))
        levels.insert(side.start[axis]);
    for (auto level = levels.begin(), next = level; next != levels.end() && ++next != levels.end(); level = next) {
        go_on();
        Plane middle{{}, -*level - *next};
        middle.across[axis] = 2;
        if (const std::optional<Span> span = first_within(stops_on(middle)))
            return span->first.between(span->second);
    }
    return std::nullopt;
}

Place Shape::hit(const ScaledPoint &start, const Vector &ray) const
{
    const Wide below = height(start), slope = dot(plane.across, ray);
    if (sign(below) * sign(slope) >= 0)
        return Place::outside;
    return locate({add(times(start.at, magnitude(slope)), times(ray, magnitude(below))), start.scale * magnitude(slope)});
}

std::vector<Shape::Span> Shape::cut_by(const Plane &other, const std::optional<Span> &part) const
{
    const std::vector<Side> near = beside(other);
    const auto lies = [&](int where) { return any(near, [&](const Side &side) { return sign(other.height(side.start)) == where; }); };
    if (!lies(-1) || !lies(1))
        return {};
    const std::vector<ScaledPoint> stops = stops_on(other);
    std::vector<Span> found;
    for (std::size_t at = 1; at < stops.size(); at++) {
        const bool is_wanted = !part || (stops[at - 1] < part->second && part->first < stops[at]);
        if (is_wanted && is_within(stops[at - 1], stops[at]))
            found.emplace_back(stops[at - 1], stops[at]);
    }
    return found;
}

std::vector<Side> Shape::beside(const Plane &other) const
{
    if (!has_runs(sides))
        return sides;
    std::vector<Side> found;
    for (const Side &side : sides)
        side.run != nullptr ? append(found, side.run->beside(other)) : found.push_back(side);
    return found;
}

std::vector<ScaledPoint> Shape::stops_on(const Plane &other) const
{
    std::vector<ScaledPoint> stops;
    for (const Side &side : beside(other)) {
        const Wide before = other.height(side.start), after = other.height(side.end);
        if (before == 0 || sign(before) * sign(after) < 0)
            stops.push_back(divided(side, before, after));
    }
    std::sort(stops.begin(), stops.end());
    return stops;
}

std::optional<Shape::Span> Shape::first_within(const std::vector<ScaledPoint> &stops) const
{
    const auto found = std::adjacent_find(stops.begin(), stops.end(), [&](const auto &one, const auto &next) { return is_within(one, next); });
    return found != stops.end() ? std::optional(Span(*found, *std::next(found))) : std::nullopt;
}

Shape::Shape(const std::vector<Cycle> &around) : Shape(plane_around(joined(around)), around) {}

Shape::Shape(const Plane &in, const std::vector<Cycle> &around) : plane(in), cycles(around), sides(joined(around)), axes_(flat_axes(in.across))
{
    if (!sides.empty())
        box = box_of(sides);
}

} // namespace gwb_session::machining
