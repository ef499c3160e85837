#include "sheets.hpp"
#include <numeric>

namespace gwb_session::sheets {

namespace {

/// Whether one way comes before another in the turn clockwise from a third one, which itself comes last.
bool comes_before(const Vector &from, const Vector &one, const Vector &other, Axes axes)
{
    const std::size_t x = axes[0], y = axes[1];
    const auto turned = [&](const Vector &a, const Vector &b) { return compare_products(a[x], b[y], a[y], b[x]); };
    const auto quarter = [&](const Vector &way) { // below a half turn, a half, above it, a whole
        const int side = turned(from, way);
        return side != 0 ? side + 1 : from[x] * way[x] + from[y] * way[y] > 0 ? 3 : 1;
    };
    const int quarters = quarter(one) - quarter(other);
    return quarters != 0 ? quarters < 0 : turned(one, other) < 0;
}

} // namespace

std::vector<Cycle> cycles_of(const std::vector<Side> &sides, Axes axes, const Failure &why)
{
    const auto starts_before = [](const Side &one, const Side &other) { return one.start < other.start; };
    const auto next = [&](const Side &side) { // the first of those that leave its end, clockwise from the way back
        const auto [first, last] = std::equal_range(sides.begin(), sides.end(), side.turned(), starts_before);
        require(first != last, failed_at(why, {side.end}));
        const auto found = std::min_element(first, last, [&, back = negative(way_in(side))](const Side &one, const Side &other) {
            return comes_before(back, way_out(one), way_out(other), axes);
        });
        return static_cast<std::size_t>(found - sides.begin());
    };
    std::vector<std::size_t> rising(sides.size());
    std::iota(rising.begin(), rising.end(), std::size_t{0});
    if (has_runs(sides))
        std::sort(rising.begin(), rising.end(), [&](std::size_t one, std::size_t other) { return least_of(sides[one]) < least_of(sides[other]); });
    std::vector<bool> is_left(sides.size(), true);
    std::vector<Cycle> found;
    for (std::size_t first : rising)
        if (is_left[first]) {
            Cycle &cycle = found.emplace_back();
            for (std::size_t at = first; is_left[at]; at = next(sides[at])) {
                is_left[at] = false;
                cycle.push_back(sides[at]);
            }
        }
    return found;
}

std::vector<std::vector<Cycle>> regions_of(const std::vector<Side> &sides, const Vector &across, const Failure &why)
{
    const Axes axes = flat_axes(across);
    std::vector<Side> rising = sides;
    make_rise(rising);
    std::vector<std::pair<Wide, Cycle>> outer;
    std::vector<Cycle> holes;
    for (const Cycle &cycle : cycles_of(rising, axes, why))
        if (const Wide area = dot(area_of(cycle), across); area > 0)
            outer.emplace_back(area, cycle);
        else
            holes.push_back(cycle);
    std::stable_sort(outer.begin(), outer.end(), [](const auto &one, const auto &other) { return one.first > other.first; });
    auto found = mapped(outer, [](const auto &sized) { return std::vector<Cycle>{sized.second}; });
    for (const Cycle &hole : holes) { // into the smallest around it
        const auto around = std::find_if(found.rbegin(), found.rend(), [&](const auto &region) {
            const auto place = [&](const Side &side) { return locate(region[0], {side.start}, axes); };
            const auto off = std::find_if(hole.begin(), hole.end(), [&](const Side &side) { return place(side) != Place::on; });
            return off != hole.end() && place(*off) == Place::inside;
        });
        require(around != found.rend(), failed_at(why, {hole[0].start}));
        around->push_back(hole);
    }
    return found;
}

} // namespace gwb_session::sheets
