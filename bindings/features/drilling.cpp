#include "drilling.hpp"
#include "circles.hpp"

namespace gwb_session::drilling {

Hole drill(Bench &bench, Face face, Point center, std::int64_t radius, std::uint32_t sides, std::int64_t depth, const Point *along)
{
    require(radius >= 1 && sides >= 3 && sides <= circles::most_sides && depth >= 0, refused(GWB_WHY_SIZE_RANGE, radius < 1 ? 1 : depth < 0 ? 3 : 2));
    const Vector across = plane_of(bench, face).across;
    require(std::count(across.begin(), across.end(), 0) == 2, impossible(Misfit::not_across, face.number()));
    require(is_in_range(vector(center)) && radius <= 2 * farthest, refused(GWB_WHY_POINT_RANGE, 0));
    const std::size_t axis = widest(across);
    std::vector<Point> points;
    for (std::uint32_t place = 0; place < sides; place++) {
        const auto [first, second] = circles::corner(place, sides, static_cast<long double>(radius), 1);
        Vector at = vector(center);
        at[(axis + 1) % 3] += first;
        at[(axis + 2) % 3] += second;
        points.push_back(point(at));
    }
    Pocket made = along == nullptr && depth == 0 ? make_hole(bench, face, points)
                                                 : make_raised(bench, face, points, along != nullptr ? Reach(*along) : sizes_of(depth)[0], false);
    return Hole{made.face, made.loop, std::move(made.sides), std::move(points)};
}

} // namespace gwb_session::drilling
