#include "shaping.hpp"
#include "tools.hpp"

namespace gwb_session::shaping {

namespace {

using namespace tools;

enum : std::size_t { floor_mark, wall_mark };

// ---- the lattice

/// Something wouldn't be whole: the value is the factor that helps, or 0.
Failure off_lattice(const gwb_hit_row &hit) { return impossible(Misfit::off_lattice, hit.number, hit); }
Failure fraction_of_corner(Wide factor) { return off_lattice(met_factor(GWB_CAUSE_CORNER_FRACTION, factor)); }

/// So far along a way from a point, as a fraction says.
Vector whole_on_way(const Vector &start, const Vector &way, Wide numerator, Wide denominator)
{
    const ScaledPoint point = on_way(start, way, numerator, denominator);
    const Wide common = greatest_divisor(parts_of(point.at), point.scale);
    require(common == point.scale, fraction_of_corner(point.scale / common));
    return *point.whole();
}

// ---- prisms

/// The vector by which a prism goes into the solid of a face, or out of it.
Vector way_down(Face face, const Plane &plane, const Reach &reach, bool is_out = false)
{
    const Size *length = std::get_if<Size>(&reach);
    return length != nullptr ? steps(is_out ? plane.across : negative(plane.across), length->length(), of_depth)
                             : way_along(face, plane.across, std::get<Point>(reach), is_out);
}

/// The prism from an outline on, as far as the vector says.
Tool prism(const Path &outline, const Vector &way)
{
    const Path path = dot(area_of(cycle_of(outline)), way) < 0 ? outline : backwards(outline);
    Tool made = {{path}, {backwards(moved(path, way)), floor_mark}};
    for (std::size_t at = 0; at < path.size(); at++) {
        const Vector &before = path[(at + path.size() - 1) % path.size()];
        made.push_back({{path[at], before, add(before, way), add(path[at], way)}, wall_mark});
    }
    return made;
}

FloorAndWalls floor_and_walls(const Combined &made) { return {made.marked(floor_mark), made.marked(wall_mark)}; }

/// The vector of a prism that is cut out: where it would leave the range, as far as there is something of the solid.
Vector kept_in_range(const Bench &bench, Face face, const Plane &plane, const Path &outline, const Vector &way)
{
    if (all(moved(outline, way), is_in_range))
        return way;
    Wide deepest = 1;
    for (const gwb_half_edge_row &row : bench.half_edge_rows(bench.face(face).solid))
        deepest = std::max(deepest, -plane.height(vector(bench.vertex(Vertex(row.start)))));
    const Vector one = reduced(way);
    const Wide rise = -dot(plane.across, one);
    return times(one, std::min(parts_of(way), (deepest + rise - 1) / rise));
}

/// A prism under an outline in a face, of which enough lies in it, is cut out, or one above it is put on.
FloorAndWalls put_prism(Bench &bench, Operation operation, Face face, const Path &outline, const Reach &reach)
{
    const Plane plane = plane_of(bench, face);
    const bool is_out = operation == Operation::unite;
    const Vector way = way_down(face, plane, reach, is_out);
    return floor_and_walls(change(bench, operation, face, prism(outline, is_out ? way : kept_in_range(bench, face, plane, outline, way))));
}

/// The same under an outline that the caller gives.
FloorAndWalls put_given(Bench &bench, Operation operation, Face face, const Path &outline, const Reach &reach)
{
    require_in(plane_of(bench, face), outline, met(GWB_CAUSE_OFF_FACE, face));
    (void)simple_normal(outline);
    require_lid(bench, face, outline, Lies::somewhere, met(GWB_CAUSE_WHOLLY_OUTSIDE));
    return put_prism(bench, operation, face, outline, reach);
}

// ---- strips

/// A strip around a line in a face.
struct Strip {
    Path ends;
    Vector side; ///< the way from the line to its right side

    /// Not possible: NotInPlane; OutlineOutside: the face lies far from it; OffLattice.
    Strip(const Bench &bench, Face face, const std::array<Point, 2> &line, Size width) : ends(path_of(line))
    {
        const Plane plane = plane_of(bench, face);
        require(ends[0] != ends[1], refused(GWB_WHY_REPEATED_POINT, 2));
        require_in(plane, ends, met(GWB_CAUSE_OFF_FACE, face));
        require_near(bench, face, box_of(ends), width.length());
        side = steps(reduced(cross(plane.across, subtract(ends[1], ends[0]))), width.length(), of_width, 2);
    }
    [[nodiscard]] Path outline() const { return {subtract(ends[0], side), subtract(ends[1], side), add(ends[1], side), add(ends[0], side)}; }
};

// ---- wedges

/// An end of an edge, and the points beside it in the two faces of the edge; the half-edge that starts there, if there is one; where its slope meets
/// others there, perhaps a point between.
struct Corner {
    Vector point, first, second;
    HalfEdge half = HalfEdge();
    Vector between = second;
};

/// The wedge along an edge: its sides in two faces, the slope between them, and its ends, each of two parts where there is a point between.
struct Wedge {
    std::array<Path, 2> sides;
    Path slope;
    std::vector<Path> ends;

    Wedge(const Corner &start, const Corner &end)
        : sides{Path{start.point, end.point, end.first, start.first}, Path{start.second, end.second, end.point, start.point}},
          slope{start.first, end.first, end.between, end.second, start.second, start.between}
    {
        put_end(start.point, start.first, start.between), put_end(start.point, start.between, start.second);
        put_end(end.point, end.between, end.first), put_end(end.point, end.second, end.between);
        if (dot(area_of(cycle_of(slope)), subtract(start.first, start.point)) > 0)
            return;
        slope = backwards(slope);
        for (Path &side : sides)
            side = backwards(side);
        for (Path &path : ends)
            path = backwards(path);
    }

private:
    void put_end(const Vector &point, const Vector &one, const Vector &other)
    {
        if (one != other)
            ends.push_back({point, one, other});
    }
};

/// The point where the line at a distance from a half-edge, in its face, meets the line of the side before or after it, square where that runs the other
/// way; of one that has such a line too that line.
Vector setback(const Bench &bench, HalfEdge half, bool is_end, Size width, const std::set<Edge> &lined = {})
{
    const Face face = bench.face_of(half);
    const Vector normal = plane_of(bench, face).across;
    const auto inwards = [&](HalfEdge from) { return steps(reduced(cross(normal, side_at(bench, from).way())), width.length(), of_width); };
    const HalfEdge beside = is_end ? bench.next(half) : bench.previous(half);
    const Vector step = inwards(half), at = start_of(bench, is_end ? half.twin() : half);
    const bool has_line = lined.count(beside.edge()) != 0;
    const Vector way = has_line ? add(step, inwards(beside)) : subtract(start_of(bench, is_end ? beside.twin() : beside), at);
    const Wide rise = dot(step, way);
    if (!has_line && rise <= 0)
        return add(at, step);
    require(rise != 0, impossible(Misfit::outline_outside, face.number(), met(GWB_CAUSE_STRIP_OUTSIDE, half.edge())));
    return whole_on_way(at, way, rise < 0 ? -dot(step, step) : dot(step, step), magnitude(rise));
}

/// The end of an edge from which a half-edge leads: so far into the faces of its first one and of the other.
Corner corner_of(const Bench &bench, HalfEdge from, Size first, Size second, const std::set<Edge> &lined = {})
{
    const HalfEdge half = plus(from.edge());
    const bool is_end = from != half;
    const Corner made{start_of(bench, from), setback(bench, half, is_end, first, lined), setback(bench, half.twin(), !is_end, second, lined), from};
    require(is_in_range(made.first) && is_in_range(made.second), refused(GWB_WHY_POINT_RANGE, 0)); // (so that slopes' normals fit)
    return made;
}

// ---- slopes

/// The point where the slopes of three edges meet that end at a vertex; none where these have no single point in common.
std::optional<Vector> common_point(const Bench &bench, const std::vector<Corner *> &ends)
{
    const auto across = [&](const Corner &end) { return reduced(cross(side_at(bench, end.half).way(), subtract(end.second, end.first))); };
    const Corner &one = *ends[0], &other = *ends[1];
    const Vector &start = one.first == other.first || one.first == other.second ? one.first : one.second;
    const Vector line = reduced(cross(across(one), across(other))), third = across(*ends[2]);
    const Wide rise = dot(third, subtract(ends[2]->first, start));
    const bool is_steep = longest(line) > 4 * Wide{farthest}; // so far from the start lies no point in range
    const Wide slope = is_steep ? 1 : dot(third, line);
    if (is_zero(line) || rise == 0 || slope == 0)
        return std::nullopt;
    require(!is_steep, off_lattice(met(GWB_CAUSE_PAST_RANGE)));
    require(rise % slope == 0, fraction_of_corner(magnitude(slope) / greatest_divisor(rise, slope)));
    require(magnitude(rise / slope) <= 4 * Wide{farthest}, refused(GWB_WHY_POINT_RANGE, 0));
    return add(start, times(line, rise / slope));
}

/// Whether the slopes of edges that end at a vertex, of three at most, meet in points; those of all three in one between them.
bool are_joined(const Bench &bench, const std::vector<Corner *> &ends)
{
    std::set<Vector> points;
    for (const Corner *end : ends)
        points.insert({end->first, end->second});
    if (points.size() != ends.size())
        return false;
    const std::optional<Vector> between = ends.size() == 3 ? common_point(bench, ends) : std::nullopt;
    for (Corner *end : ends)
        end->between = between.value_or(end->between);
    return ends.size() < 3 || between;
}

/// An end as it is where no other edge is made a slope, so that its wedge passes those of others: none where it isn't longer in both faces.
std::optional<Corner> longer(const Bench &bench, const Corner &end, Size width)
{
    const Vector way = side_at(bench, end.half).way();
    const Corner alone = corner_of(bench, end.half, width, width);
    const bool is_longer = dot(subtract(end.first, alone.first), way) >= 0 && dot(subtract(end.second, alone.second), way) >= 0;
    return is_longer ? std::optional(alone) : std::nullopt;
}

/// The third edge of a vertex, beside those of the first two ends.
Edge third_edge(const Bench &bench, const std::vector<Corner *> &ends)
{
    const auto around = bench.around(ends[0]->half);
    const auto third = std::find_if(around.begin(), around.end(), [&](HalfEdge half) { return half != ends[0]->half && half != ends[1]->half; });
    return third != around.end() ? (*third).edge() : Edge();
}

/// Slopes of edges that end at a vertex meet there. Not possible: NoCorner.
void join_slopes(const Bench &bench, Vertex vertex, const std::vector<Corner *> &ends, Size width)
{
    const auto edges = bench.around(ends[0]->half);
    require(std::distance(edges.begin(), edges.end()) <= 3, impossible(Misfit::no_corner, vertex.number(), met(GWB_CAUSE_MANY_EDGES)));
    if (are_joined(bench, ends))
        return;
    for (Corner *end : ends) {
        const std::optional<Corner> alone = longer(bench, *end, width);
        if (!alone)
            throw impossible(Misfit::no_corner, vertex.number(), met(GWB_CAUSE_SLOPES_APART, third_edge(bench, ends)));
        *end = *alone;
    }
}

/// Where the ends of an edge cross, since the faces beside it are narrow, each is longer where it can be.
void uncross(const Bench &bench, std::array<Corner, 2> &corners, Size width)
{
    const auto &[start, end] = corners;
    const Vector way = subtract(end.point, start.point);
    if (dot(subtract(end.first, start.first), way) < 0 || dot(subtract(end.second, start.second), way) < 0)
        for (Corner &corner : corners)
            corner = longer(bench, corner, width).value_or(corner);
}

/// The ends of the wedges along edges, so far into the faces of their first half-edges and into the others, as far where there are several.
std::vector<std::array<Corner, 2>> corners_of(const Bench &bench, const std::vector<Edge> &edges, Size first, Size second)
{
    const std::set<Edge> lined(edges.begin(), edges.end());
    std::vector<std::array<Corner, 2>> corners(edges.size());
    std::map<Vertex, std::vector<Corner *>> ends;
    for (std::size_t at = 0; at < edges.size(); at++) {
        corners[at] = {corner_of(bench, plus(edges[at]), first, second, lined), corner_of(bench, minus(edges[at]), first, second, lined)};
        for (Corner &corner : corners[at])
            ends[bench.start_of(corner.half)].push_back(&corner);
    }
    for (const auto &[vertex, here] : ends)
        if (here.size() > 1)
            join_slopes(bench, vertex, here, first);
    for (std::array<Corner, 2> &of_edge : corners)
        uncross(bench, of_edge, first);
    return corners;
}

/// The wedges along edges: the slope of each has its place as mark.
Tool wedges(const Bench &bench, const std::vector<std::array<Corner, 2>> &corners)
{
    std::array<Tool, 3> made; // sides, slopes and what is left, in this order
    for (std::size_t at = 0; at < corners.size(); at++) {
        const auto &[start, end] = corners[at];
        const Wedge wedge(start, end);
        const std::array<Face, 2> faces = {bench.face_of(start.half), bench.face_of(end.half)};
        for (std::size_t of : {0, 1})
            require_lid(bench, faces[of], wedge.sides[of], Lies::everywhere, met(GWB_CAUSE_STRIP_OUTSIDE, start.half.edge()));
        made[0].push_back({wedge.sides[0], unmarked, at});
        made[1].push_back({wedge.slope, at, at});
        made[2].push_back({wedge.sides[1], unmarked, at});
        for (const Path &path : wedge.ends)
            made[2].push_back({path, unmarked, at});
    }
    return joined(made);
}

/// Whether edges of one solid all bend outwards, where it has less than half of the room around them, or none does. Not possible: FlatEdge: the faces
/// of one lie in a plane; NotAlike.
bool all_bend_outwards(const Bench &bench, const std::vector<Edge> &edges)
{
    std::optional<std::pair<Solid, bool>> first; // (of the first edge)
    for (Edge edge : edges) {
        require(has(bench.attempt().edge(edge)), refused(GWB_WHY_NO_EDGE, edge.number()));
        const Side side = side_at(bench, plus(edge));
        const Face face = bench.face_of(side.half);
        const Vector across = plane_of(bench, face).across, beyond = plane_of(bench, bench.face_of(side.half.twin())).across;
        require(!are_parallel(across, beyond), impossible(Misfit::flat_edge, edge.number()));
        // (what is across both normals runs along the edge, so one part of it tells which way)
        const auto [x, y] = flat_axes(side.way());
        const std::pair<Solid, bool> own = {bench.face(face).solid, compare_products(across[x], beyond[y], across[y], beyond[x]) > 0};
        first = first.value_or(own);
        require(first->first == own.first, impossible(Misfit::not_alike, edge.number(), met(GWB_CAUSE_OTHER_SOLID, first->first)));
        require(first->second == own.second, impossible(Misfit::not_alike, edge.number(), met(GWB_CAUSE_BENDS_OTHERWISE, edges[0])));
    }
    return first->second;
}

} // namespace

FloorAndWalls make_notch(Bench &bench, Face face, Items<Point> points, const Reach &depth)
{
    (void)plane_of(bench, face);
    return put_given(bench, Operation::subtract, face, path_of(points), depth);
}

FloorAndWalls make_pad(Bench &bench, Face face, Items<Point> points, const Reach &height)
{
    (void)plane_of(bench, face);
    return put_given(bench, Operation::unite, face, path_of(points), height);
}

FloorAndWalls make_slot(Bench &bench, Face face, const std::array<Point, 2> &line, Size width, const Reach &depth)
{
    const Path outline = Strip(bench, face, line, width).outline();
    require_lid(bench, face, outline, Lies::somewhere, met(GWB_CAUSE_WHOLLY_OUTSIDE));
    return put_prism(bench, Operation::subtract, face, outline, depth);
}

FloorAndWalls make_groove(Bench &bench, Face face, const std::array<Point, 2> &line, Size width, const Reach &depth)
{
    const Strip strip(bench, face, line, width);
    require_lid(bench, face, strip.outline(), Lies::somewhere, met(GWB_CAUSE_WHOLLY_OUTSIDE));
    const Vector way = way_down(face, plane_of(bench, face), depth);
    const auto corner = [&](const Vector &at) { return Corner{add(at, way), subtract(at, strip.side), add(at, strip.side)}; };
    const Wedge wedge(corner(strip.ends[0]), corner(strip.ends[1])); // whose slope lies in the face
    Tool tool = {{wedge.slope}};
    append(tool, mapped(joined(std::array<std::vector<Path>, 2>{std::vector<Path>{wedge.sides[0], wedge.sides[1]}, wedge.ends}),
                        [](const Path &path) { return Wall{path, wall_mark}; }));
    return floor_and_walls(change(bench, Operation::subtract, face, tool));
}

FloorAndWalls make_shoulder(Bench &bench, Face face, Edge edge, Size width, const Reach &depth)
{
    (void)plane_of(bench, face);
    require(has(bench.attempt().edge(edge)), refused(GWB_WHY_NO_EDGE, edge.number()));
    const HalfEdge half = bench.face_of(plus(edge)) == face ? plus(edge) : minus(edge);
    require(bench.face_of(half) == face, impossible(Misfit::not_of_face, edge.number()));
    const Path path = {start_of(bench, half), start_of(bench, half.twin()), setback(bench, half, true, width), setback(bench, half, false, width)};
    require_lid(bench, face, path, Lies::everywhere, met(GWB_CAUSE_STRIP_OUTSIDE, edge));
    return put_prism(bench, Operation::subtract, face, path, depth);
}

std::vector<Face> make_chamfers(Bench &bench, const std::vector<Edge> &edges, Size first, Size second)
{
    const Operation operation = all_bend_outwards(bench, edges) ? Operation::subtract : Operation::unite;
    const Face face = bench.face_of(plus(edges[0]));
    const Combined made = change(bench, operation, face, wedges(bench, corners_of(bench, edges, first, second)));
    std::vector<Face> slopes;
    for (std::size_t at = 0; at < edges.size(); at++) {
        const std::vector<Face> parts = made.marked(at);
        slopes.push_back(parts.empty() ? Face() : parts.front());
    }
    return slopes;
}

} // namespace gwb_session::shaping
