#include "simple_outlines.hpp"

namespace gwb_session::machining {

namespace {

/// Whether two different sides of an outline meet otherwise than neighbours do, at their common end.
bool clash(const Side &side, const Side &other, Axes axes)
{
    const auto folds = [&](const Side &one, const Side &next) { return next.holds({one.start}, axes) || one.holds({next.end}, axes); };
    if (side.end == other.start)
        return folds(side, other);
    return other.end == side.start ? folds(other, side) : side.meets(other, axes);
}

/// A line that goes over an outline whose points are different, and knows the sides that it crosses in their order along it. Of sides that clash some
/// are beside each other on it before they do; until then their order is the same all the way.
class Sweep {
public:
    Sweep(const Cycle &sides, Axes axes) : sides_(sides), axes_(axes), places_(sides.size())
    {
        rows_ = mapped(sides, [&](const Side &side) { return Row(std::minmax({flat(side.start), flat(side.end)})); });
    }

    /// Whether any two clash. It goes over the outline once.
    bool finds_clash()
    {
        std::vector<std::pair<Flat, std::size_t>> corners; // at each a side begins and the one before it ends
        for (std::size_t at = 0; at < sides_.size(); at++)
            corners.emplace_back(flat(sides_[at].start), at);
        std::sort(corners.begin(), corners.end());
        return any(corners, [&](const auto &corner) {
            go_on();
            const std::array beside = {corner.second, (corner.second + sides_.size() - 1) % sides_.size()};
            return any(beside, [&](std::size_t at) { return rows_[at].second == corner.first && clashes_behind(at); }) ||
                   any(beside, [&](std::size_t at) { return rows_[at].first == corner.first && clashes_at(at); });
        });
    }

private:
    using Flat = std::array<std::int64_t, 2>;
    using Row = std::pair<Flat, Flat>; ///< the ends of a side, in the order in which the line comes to them
    struct Lower {
        const std::vector<Row> *rows;
        bool operator()(std::size_t one, std::size_t other) const
        {
            const Row &first = (*rows)[one], &second = (*rows)[other];
            const int turned = first.first <= second.first ? turn(first, second) : -turn(second, first);
            return turned != 0 ? turned > 0 : one < other;
        }
    };
    using Order = std::set<std::size_t, Lower>;

    /// Positive where the second one, which begins later, lies left of the first, by where it begins, or else by where it ends.
    static int turn(const Row &first, const Row &second)
    {
        const auto left = [&](const Flat &at) { // (coordinates lie within 10^9, so this does within 2^63)
            const std::int64_t x = first.second[0] - first.first[0], y = first.second[1] - first.first[1];
            return x * (at[1] - first.first[1]) - y * (at[0] - first.first[0]);
        };
        const std::int64_t begins = left(second.first);
        return sign(begins != 0 ? begins : left(second.second));
    }

    [[nodiscard]] Flat flat(const Vector &at) const { return {static_cast<std::int64_t>(at[axes_[0]]), static_cast<std::int64_t>(at[axes_[1]])}; }
    [[nodiscard]] bool clashes(std::size_t one, std::size_t other) const { return clash(sides_[one], sides_[other], axes_); }

    /// A side begins: whether it clashes with one beside it.
    bool clashes_at(std::size_t at)
    {
        const auto here = places_[at] = order_.insert(at).first;
        const auto next = std::next(here);
        return (here != order_.begin() && clashes(*std::prev(here), at)) || (next != order_.end() && clashes(at, *next));
    }

    /// A side ends: whether those beside it clash.
    bool clashes_behind(std::size_t at)
    {
        const auto next = order_.erase(places_[at]);
        return next != order_.begin() && next != order_.end() && clashes(*std::prev(next), *next);
    }

    const Cycle &sides_;
    Axes axes_;
    std::vector<Row> rows_;
    Order order_{Lower{&rows_}};
    std::vector<Order::iterator> places_;
};

/// Refuses an outline of different points that crosses or touches itself, with the place of the first side that meets a later one.
void require_simple(const Cycle &sides, Axes axes)
{
    if (!Sweep(sides, axes).finds_clash())
        return;
    BoxIndex boxes;
    for (std::size_t at = 0; at < sides.size(); at++)
        boxes.put(box_of(sides[at]), at);
    for (std::size_t at = 0; at < sides.size(); at++) {
        go_on();
        const auto beyond = boxes.meeting(box_of(sides[at]));
        const auto met_side = std::find_if(beyond.begin(), beyond.end(), [&](std::size_t other) { return other > at && clash(sides[at], sides[other], axes); });
        if (met_side != beyond.end())
            throw impossible(Misfit::outline_crossed, place(at), met_place(GWB_CAUSE_SIDES_MEET, place(*met_side)));
    }
}

/// Whether points lie in one line.
bool are_in_line(const Path &path)
{
    return all(path, [&](const Vector &at) { return is_zero(cross(subtract(path[1], path[0]), subtract(at, path[0]))); });
}

/// The plane of the first points that don't lie in one line, of some that don't.
Plane first_plane(const Path &path)
{
    const auto across = [&](const Vector &at) { return cross(subtract(path[1], path[0]), subtract(at, path[0])); };
    return Plane::through(path[0], across(*std::find_if(path.begin(), path.end(), [&](const Vector &at) { return !is_zero(across(at)); })));
}

} // namespace

Path path_of(Items<Point> points)
{
    Path path = mapped(points, vector);
    require(all(path, is_in_range), refused(GWB_WHY_POINT_RANGE, 0));
    return path;
}

void require_in(const Plane &plane, const Path &path, const gwb_hit_row &hit)
{
    const auto off = std::find_if(path.begin(), path.end(), [&](const Vector &at) { return plane.height(at) != 0; });
    if (off != path.end())
        throw impossible(Misfit::not_in_plane, place(static_cast<std::size_t>(off - path.begin())), ScaledPoint{*off}.met_at(hit));
}

Vector simple_normal(const Path &path)
{
    require(path.size() >= 3, refused(GWB_WHY_FEW_POINTS, static_cast<std::uint32_t>(path.size())));
    std::set<Vector> seen;
    for (std::size_t at = 0; at < path.size(); at++)
        require(seen.insert(path[at]).second, refused(GWB_WHY_REPEATED_POINT, place(at)));
    const Cycle sides = cycle_of(path);
    const Vector across = area_of(sides);
    if (is_zero(across))
        throw impossible(Misfit::no_area, 0, met(are_in_line(path) ? GWB_CAUSE_POINTS_IN_LINE : GWB_CAUSE_AREAS_CANCEL));
    require_in(first_plane(path), path, met(GWB_CAUSE_OFF_OTHERS));
    require_simple(sides, flat_axes(across));
    return across;
}

} // namespace gwb_session::machining
