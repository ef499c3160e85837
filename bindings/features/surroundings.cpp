#include "surroundings.hpp"

namespace gwb_session::machining {

namespace {

/// Whether a corner of an outline, or the middle of a side, lies there in a face, or outside it.
bool has_point(Place where, const Shape &beside, const Path &path)
{
    const auto is_there = [&](const ScaledPoint &at) { return beside.locate(at) == where; };
    return any(cycle_of(path), [&](const Side &side) { return is_there({side.start}) || is_there(side.middle()); });
}

/// Whether an outline in a plane has corners on both sides of the line of a side there.
bool is_passed(const Side &side, const Path &path, const Plane &plane)
{
    const Axes axes = flat_axes(plane.across);
    const auto lies = [&](int where) { return any(path, [&](const Vector &at) { return side.turn({at}, axes) * where > 0; }); };
    return lies(-1) && lies(1);
}

/// Sides whose ends are the starts of the next ones.
Cycle closed(Cycle cycle)
{
    for (std::size_t at = 0; at < cycle.size(); at++)
        cycle[at].end = cycle[at + 1 < cycle.size() ? at + 1 : 0].start;
    return cycle;
}

} // namespace

Cycle cycle_at(const Bench &bench, Loop loop)
{
    if (const std::optional<Vertex> vertex = bench.lone_vertex(loop))
        return cycle_of({vector(bench.vertex(*vertex))});
    return closed(mapped(bench.half_edges(loop), [&](HalfEdge half) { return Side{vector(bench.vertex(bench.start_of(half))), {}, half}; }));
}

std::vector<Cycle> cycles_at(const Bench &bench, Face face)
{
    go_on();
    return mapped(bench.loops_of(face), [&](Loop loop) { return cycle_at(bench, loop); });
}

void require_solid(const Bench &bench, Solid solid)
{
    require(!bench.faces(solid).empty(), refused(GWB_WHY_NO_SOLID, solid.number()));
}

Solid solid_of(const Bench &bench, Face face)
{
    const Result<FaceRow> row = bench.attempt().face(face);
    require(has(row), refused(GWB_WHY_NO_FACE, face.number()));
    return row->solid;
}

Plane plane_of(const Bench &bench, Face face)
{
    const Plane *plane = Surroundings::of(bench).surface(bench, solid_of(bench, face)).plane(face);
    require(plane != nullptr, refused(GWB_WHY_NOT_FLAT, face.number()));
    return *plane;
}

Face beyond(const Bench &bench, HalfEdge half, Face face)
{
    if (half == HalfEdge())
        return face;
    return bench.face_of(half) != face ? bench.face_of(half) : bench.face_of(half.twin());
}

// ---- what is known of a solid

KnownLoop::KnownLoop(std::vector<Corner> corners) : corners_(std::move(corners))
{
    Corner low = corners_[0], high = low;
    for (const Corner &corner : corners_)
        for (std::size_t axis = 0; axis < 3; axis++) {
            low.at[axis] = std::min(low.at[axis], corner.at[axis]);
            high.at[axis] = std::max(high.at[axis], corner.at[axis]);
        }
    box_.low = low.at, box_.high = high.at;
}

const Chain &KnownLoop::chain() const
{
    if (!chain_) {
        chain_ = std::make_unique<Chain>(closed(mapped(corners_, [](const Corner &corner) { return Side{corner.vector(), {}, corner.half}; })));
        corners_ = {};
    }
    return *chain_;
}

namespace {

/// The corners of a loop with edges, from the least half-edge on.
std::vector<KnownLoop::Corner> corners_of(const Bench &bench, Items<gwb_half_edge_row> rows)
{
    const auto least = std::min_element(rows.begin(), rows.end(), [](const auto &one, const auto &other) { return one.half_edge < other.half_edge; });
    std::vector<KnownLoop::Corner> found;
    found.reserve(rows.size());
    const auto put = [&](const gwb_half_edge_row &row) {
        const Point at = bench.vertex(Vertex(row.start));
        found.push_back({{static_cast<std::int32_t>(at.x), static_cast<std::int32_t>(at.y), static_cast<std::int32_t>(at.z)}, HalfEdge(row.half_edge)});
    };
    std::for_each(least, rows.end(), put);
    std::for_each(rows.begin(), least, put);
    return found;
}

using Way = std::array<std::int64_t, 3>;

/// The way from the first of some corners to one of them.
Way way_to(const std::vector<KnownLoop::Corner> &corners, std::size_t at)
{
    const auto part = [&](std::size_t axis) { return std::int64_t{corners[at].at[axis]} - corners[0].at[axis]; };
    return {part(0), part(1), part(2)};
}

/// Twice the area that corners go round, as a vector.
Vector area_of(const std::vector<KnownLoop::Corner> &corners)
{
    Vector sum{};
    for (std::size_t at = 2; at < corners.size(); at++) { // (each part is the difference of two products of up to 4 10^18)
        const Way a = way_to(corners, at - 1), b = way_to(corners, at);
        sum = add(sum, {a[1] * b[2] - a[2] * b[1], a[2] * b[0] - a[0] * b[2], a[0] * b[1] - a[1] * b[0]});
    }
    return sum;
}

/// The plane of corners, with their area as its normal: none where a side has no length, the area is zero, or one lies off the plane.
std::optional<Plane> plane_through(const std::vector<KnownLoop::Corner> &corners)
{
    const Vector across = area_of(corners);
    const auto is_on = [&](const Way &way) { return across[0] * way[0] + across[1] * way[1] + across[2] * way[2] == 0; };
    bool is_flat = !is_zero(across);
    for (std::size_t at = 0; is_flat && corners.size() > 3 && at < corners.size(); at++)
        is_flat = is_on(way_to(corners, at)) && corners[at].at != corners[at + 1 < corners.size() ? at + 1 : 0].at;
    return is_flat ? std::optional(Plane::through(corners[0].vector(), across)) : std::nullopt;
}

} // namespace

Surface::Surface(const Bench &bench, Solid solid)
{
    for (Face face : bench.faces(solid))
        put(bench, face);
}

void Surface::put(const Bench &bench, Face face)
{
    const auto read = [&] { return gwb_half_edge_rows(bench.handle(), face.number(), read_.data(), read_.size()); };
    const std::size_t count = read();
    if (count > read_.size()) {
        read_.resize(count);
        (void)read();
    }
    if (const auto rings = bench.rings(face); count == 0 || !rings.empty()) {
        const auto loops = bench.loops_of(face);
        put(face, {loops.begin(), loops.end()}, cycles_at(bench, face));
        return;
    }
    go_on();
    std::vector<KnownLoop::Corner> corners = corners_of(bench, {read_.data(), count});
    const std::optional<Plane> plane = plane_through(corners);
    put(Loop(read_[0].loop), KnownLoop(std::move(corners)));
    put(face, plane ? std::optional(KnownPlane{*plane, false}) : std::nullopt);
}

void Surface::put(Face face, const std::vector<Loop> &loops, const std::vector<Cycle> &cycles)
{
    for (std::size_t at = 0; at < loops.size(); at++)
        put(loops[at], KnownLoop(cycles[at]));
    if (plane(face) != nullptr)
        return;
    const std::optional<Plane> plane = flat_plane(joined(cycles));
    put(face, plane ? std::optional(KnownPlane{*plane, true}) : std::nullopt);
}

void Surface::put(Loop loop, KnownLoop &&known)
{
    const SmallBox box = known.box();
    boxes_.put(box, loop.number());
    loops_[loop] = std::move(known);
    if (++size_ == 1)
        box_ = box;
    box_.take(box);
}

void Surface::put(Face face, const std::optional<KnownPlane> &plane)
{
    if (plane)
        planes_[face] = *plane;
    if (!plane || (longest(plane->plane.across) > steepest && longest(this->plane(face)->across) > steepest))
        uneven_.insert(face);
}

const Plane *Surface::plane(Face face) const
{
    const KnownPlane *known = planes_.find(face);
    if (known == nullptr || is_zero(known->plane.across))
        return nullptr;
    if (!std::exchange(known->is_reduced, true)) {
        auto &[across, offset] = known->plane;
        const Wide parts = parts_of(across);
        across = {across[0] / parts, across[1] / parts, across[2] / parts}, offset /= parts;
    }
    return &known->plane;
}

void Surface::take_in(Surface &&other)
{
    drop_unknown(), other.drop_unknown();
    loops_.take_in(std::move(other.loops_));
    planes_.take_in(std::move(other.planes_));
    size_ += other.size_;
    uneven_.merge(other.uneven_);
    boxes_.take_in(other.boxes_);
    box_.take(other.box_);
}

void Surface::forget(Face face, const std::vector<Loop> &loops)
{
    if (KnownPlane *known = planes_.find(face))
        *known = KnownPlane();
    uneven_.erase(face);
    for (Loop loop : loops) {
        KnownLoop &known = loops_.at(loop);
        boxes_.take_away(known.box(), loop.number());
        known = KnownLoop();
    }
    size_ -= loops.size();
    if (loops_.size() > 2 * size_ + 64)
        drop_unknown();
}

void Surface::drop_unknown()
{
    loops_.keep([](const auto &row) { return row.second.is_known(); });
    planes_.keep([](const auto &row) { return !is_zero(row.second.plane.across); });
}

Shape Surface::shape(Face face, const std::vector<Loop> &loops) const
{
    return {*plane(face), mapped(loops, [&](Loop loop) { return Cycle{chain(loop).closed()}; })};
}

NearFaces Surface::near(const Bench &bench, const Box &box) const
{
    auto loops = mapped(boxes_.meeting(box), [&](std::size_t number) {
        const Loop loop(static_cast<std::uint32_t>(number));
        return std::pair(bench.face_of(loop), loop);
    });
    std::sort(loops.begin(), loops.end());
    NearFaces found;
    for (const auto &[face, loop] : loops) {
        if (found.empty() || found.back().first != face)
            found.push_back({face, {}});
        found.back().second.push_back(loop);
    }
    return found;
}

std::vector<Loop> Surface::near(const Bench &bench, Face face, const Box &box) const
{
    const NearFaces found = near(bench, box);
    const std::size_t place = place_of(found, face.number());
    return place < found.size() ? found[place].second : std::vector<Loop>();
}

Path Surface::ring_path(const Bench &bench, Face face, const Path &path) const
{
    const Plane &plane = *this->plane(face);
    require_in(plane, path, met(GWB_CAUSE_OFF_FACE, face));
    const Vector across = simple_normal(path);
    const auto [beside, sides] = beside_of(bench, face, path);
    if (!sides.empty())
        throw impossible(Misfit::outline_outside, face.number(), met_by(bench, face, beside, sides, path));
    beside.require_inside(face, path);
    return dot(across, plane.across) < 0 ? path : turned(path);
}

std::pair<Shape, std::vector<Surface::LoopSide>> Surface::beside_of(const Bench &bench, Face face, const Path &path) const
{
    const std::vector<Loop> loops = near(bench, face, box_of(path));
    std::pair<Shape, std::vector<LoopSide>> found(shape(face, loops), {});
    const Cycle own = cycle_of(path);
    for (Loop loop : loops)
        for (const Side &side : chain(loop).meeting(box_of(path)))
            if (found.first.is_met(side, own))
                found.second.emplace_back(loop, side);
    return found;
}

gwb_hit_row Surface::met_by(const Bench &bench, Face face, const Shape &beside, const std::vector<LoopSide> &sides, const Path &path) const
{
    const Cycle own = cycle_of(path);
    const auto crossed = std::find_if(sides.begin(), sides.end(), [&](const auto &side) { return beside.is_crossed(side.second, own); });
    const auto has_both_sides = [&](const auto &met) { return is_passed(met.second, path, beside.plane); };
    const auto passed = crossed != sides.end() ? crossed : std::find_if(sides.begin(), sides.end(), has_both_sides);
    const bool is_out = has_point(Place::outside, beside, path);
    const auto &[loop, side] = passed != sides.end() && (is_out || passed == crossed) ? *passed : sides.front();
    if (loop != bench.face(face).outer_loop)
        return met(GWB_CAUSE_RING_MET, loop);
    if (crossed != sides.end() || (is_out && has_point(Place::inside, beside, path)))
        return met(GWB_CAUSE_EDGE_CROSSED, side.half.edge());
    if (is_out)
        return met(GWB_CAUSE_WHOLLY_OUTSIDE);
    for (HalfEdge half : {side.half, side.half.twin()})
        if (const Vector at = vector(bench.vertex(bench.start_of(half))); beside.is_on(at, own))
            return ScaledPoint{at}.met_at(met(GWB_CAUSE_VERTEX_TOUCHED, bench.start_of(half)));
    return met(GWB_CAUSE_EDGE_TOUCHED, side.half.edge());
}

Surroundings &Surroundings::of(const Bench &bench)
{
    const struct beside &of = *beside_of(bench.handle());
    Surroundings &known = *static_cast<Surroundings *>(of.known);
    if (std::exchange(known.changes, of.changes) != of.changes)
        known.surfaces_.clear();
    return known;
}

} // namespace gwb_session::machining
