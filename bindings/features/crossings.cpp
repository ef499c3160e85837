#include "crossings.hpp"
#include <numeric>

namespace gwb_session::crossings {

namespace {

/// A face, so far as it is near another one.
struct Near {
    Face face;
    Shape shape;
};

std::size_t count_sides(const Shape &shape)
{
    return std::accumulate(shape.sides.begin(), shape.sides.end(), std::size_t{0},
                           [](std::size_t sum, const Side &side) { return sum + (side.run != nullptr ? side.run->size() : 1); });
}

std::vector<Side> sides_near(const Shape &shape, const Box &box)
{
    std::vector<Side> found;
    for (const Side &side : shape.sides)
        if (side.run != nullptr)
            append(found, side.run->meeting(box));
        else if (box_of(side).meets(box))
            found.push_back(side);
    return found;
}

/// The points of a plane at which a face's sides near a box start, or pass it.
std::vector<ScaledPoint> stops_on(const Plane &plane, const Shape &shape, const Box &box)
{
    std::vector<ScaledPoint> stops;
    for (const Side &side : sides_near(shape, box)) {
        const Wide before = plane.height(side.start), after = plane.height(side.end);
        if (before == 0 || sign(before) * sign(after) < 0)
            stops.push_back(divided(side, before, after));
    }
    return stops;
}

/// The points at which a side is cut by others of its plane, and its ends, in their order.
std::vector<ScaledPoint> stops_along(const Side &side, const std::vector<Side> &others, Axes axes)
{
    std::vector<ScaledPoint> stops = {{side.start}, {side.end}};
    for (const Side &other : others) {
        const auto far = [&](const Vector &at) { return cross(other.way(), subtract(at, other.start))[3 - axes[0] - axes[1]]; };
        for (const Vector &end : {other.start, other.end})
            if (side.holds({end}, axes))
                stops.push_back({end});
        if (side.crosses(other, axes))
            stops.push_back(divided(side, far(side.start), far(side.end)));
    }
    std::sort(stops.begin(), stops.end());
    return stops;
}

/// Two faces of one workbench. The one with fewer sides is asked first: most points lie outside it.
class Both {
public:
    Both(const Bench &bench, const Near &one, const Near &two)
        : bench_(bench), one_(count_sides(one.shape) <= count_sides(two.shape) ? one : two), two_(&one_ == &one ? two : one) {}

    /// A point that both have, on no edge or vertex that is of both: none where there is none.
    [[nodiscard]] std::optional<ScaledPoint> common() const
    {
        if (are_parallel(one_.shape.plane.across, two_.shape.plane.across))
            return one_.shape.height({two_.shape.sides[0].start}) == 0 ? common_in_plane() : std::nullopt;
        std::vector<ScaledPoint> stops = stops_on(two_.shape.plane, one_.shape, two_.shape.box);
        append(stops, stops_on(one_.shape.plane, two_.shape, one_.shape.box));
        stops = filtered(stops, [&](const ScaledPoint &point) { return is_in(point, one_.shape.box) && is_in(point, two_.shape.box); });
        std::sort(stops.begin(), stops.end());
        return first_of(stops);
    }

private:
    [[nodiscard]] bool is_common(const ScaledPoint &point) const
    {
        const auto has = [&](const Near &near) { return near.shape.locate(point) != Place::outside; };
        return has(one_) && has(two_) && !is_shared(point);
    }

    /// Whether a point lies on an edge, or at a vertex, of both.
    [[nodiscard]] bool is_shared(const ScaledPoint &point) const
    {
        const auto is_here = [&](HalfEdge half) {
            const Side side = side_at(bench_, half);
            const auto has_other = [&](HalfEdge beside) { return bench_.face_of(beside) == two_.face; };
            return side.has(point) && (has_other(half.twin()) || (point.compare({side.start}) == 0 && any(bench_.around(bench_.start_of(half)), has_other)));
        };
        return any(bench_.loops_of(one_.face), [&](Loop loop) { return any(bench_.half_edges(loop), is_here); });
    }

    /// The first of points in their order along a line, and of those half way from one to the next, that is common.
    [[nodiscard]] std::optional<ScaledPoint> first_of(const std::vector<ScaledPoint> &stops) const
    {
        for (std::size_t at = 0; at < stops.size(); at++) {
            if (is_common(stops[at]))
                return stops[at];
            if (at + 1 < stops.size() && stops[at] < stops[at + 1] && is_common(stops[at].between(stops[at + 1])))
                return stops[at].between(stops[at + 1]);
        }
        return std::nullopt;
    }

    [[nodiscard]] std::optional<ScaledPoint> common_in_plane() const
    {
        const Shape &one = one_.shape, &two = two_.shape;
        for (const auto &[own, other] : {std::pair(&one, &two), std::pair(&two, &one)}) {
            if (const std::optional<ScaledPoint> point = common_on_sides(*own, *other))
                return point;
            if (const std::optional<ScaledPoint> inner = own->inner_point(); inner && is_common(*inner))
                return inner;
        }
        return std::nullopt;
    }
    [[nodiscard]] std::optional<ScaledPoint> common_on_sides(const Shape &own, const Shape &other) const
    {
        const std::vector<Side> others = sides_near(other, own.box);
        for (const Side &side : sides_near(own, other.box)) {
            go_on();
            const auto near = filtered(others, [&](const Side &of) { return box_of(of).meets(box_of(side)); });
            if (const std::optional<ScaledPoint> point = first_of(stops_along(side, near, flat_axes(own.plane.across))))
                return point;
        }
        return std::nullopt;
    }

    const Bench &bench_;
    const Near &one_, &two_;
};

/// A face near a box: none where it isn't.
std::optional<Near> near(const Bench &bench, const Surface &surface, Face face, const std::vector<Loop> &loops)
{
    require(surface.plane(face) != nullptr, refused(GWB_WHY_NOT_FLAT, face.number()));
    if (!has(loops, bench.face(face).outer_loop))
        return std::nullopt;
    return Near{face, surface.shape(face, loops)};
}

} // namespace

std::vector<Crossing> all(const Bench &bench, Solid solid, std::optional<Solid> other)
{
    require_solid(bench, solid);
    require_solid(bench, other.value_or(solid));
    const Surface surface(bench, solid);
    const std::optional<Surface> beyond = other ? std::optional<Surface>(std::in_place, bench, *other) : std::nullopt;
    std::vector<Crossing> found;
    for (Face face : bench.faces(solid)) {
        go_on();
        std::vector<Loop> loops = mapped(bench.loops_of(face), [](Loop loop) { return loop; });
        make_rise(loops);
        const std::optional<Near> own = near(bench, surface, face, loops);
        for (const auto &[beside, of_it] : (beyond ? *beyond : surface).near(bench, own->shape.box))
            if (beyond || beside > face)
                if (const std::optional<Near> two = near(bench, beyond ? *beyond : surface, beside, of_it))
                    if (const std::optional<ScaledPoint> point = Both(bench, *own, *two).common())
                        found.push_back({face, beside, *point});
    }
    return found;
}

} // namespace gwb_session::crossings
