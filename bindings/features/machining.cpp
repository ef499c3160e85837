#include "machining.hpp"

namespace gwb_session::machining {

namespace {

/// How long a normal is that is as short as it can be: 0 where that isn't whole, or no whole vector along it is in range.
Wide whole_length(const Vector &across)
{
    const Wide square = longest(across) <= 2 * farthest ? dot(across, across) : 0;
    Wide root = 0;
    for (Wide bit = Wide{1} << 62; bit != 0; bit >>= 1)
        root += (root + bit) * (root + bit) <= square ? bit : 0;
    return root * root == square ? root : 0;
}

/// The vector by which a feature goes into the solid of a face, or out of it. Not possible: OffLattice; AlongPlane.
Vector way_of(Face face, const Vector &across, const Reach &reach, bool is_out)
{
    if (const Size *length = std::get_if<Size>(&reach))
        return steps(across, is_out ? length->length() : -length->length(), of_depth, 1, face.number());
    return way_along(face, across, std::get<Point>(reach), is_out);
}

// ---- what is met

/// What an outline in a face sweeps over: the outlines before and after, and walls between, with the outline after where that ends in no face.
class Swept {
public:
    Swept(const Vector &across, const Path &path, const Path &far, bool is_open)
        : way_(subtract(far[0], path[0])),
          lids_{Shape(Plane::through(path[0], across), {cycle_of(path)}), Shape(Plane::through(far[0], across), {cycle_of(far)})},
          walls_(mapped(lids_[0].sides, [&](const Side &side) {
              return Shape({cycle_of({side.start, side.end, add(side.end, way_), add(side.start, way_)})});
          }))
    {
        if (!is_open)
            walls_.push_back(lids_[1]);
        for (std::size_t at = 0; at < walls_.size(); at++)
            boxes_.put(walls_[at].box, at);
    }

    /// Whether a face has a point of a side of a wall.
    [[nodiscard]] bool meets(const Shape &face) const
    {
        go_on();
        const auto touches = [&](std::size_t at) { return any(walls_[at].sides, [&](const Side &side) { return face.meets(side); }); };
        return any(boxes_.meeting(face.box), touches);
    }
    /// Whether an edge has a point on a wall, or within.
    [[nodiscard]] bool meets(const Side &edge) const
    {
        go_on();
        const auto passes = [&](const Shape &lid) { return sign(lid.height({edge.start})) * sign(lid.height({edge.end})) < 0 && lid.meets(edge); };
        return any(boxes_.meeting(box_of(edge)), [&](std::size_t at) { return walls_[at].meets(edge); }) || any(lids_, passes) ||
               (lids_[0].hit({edge.start}, negative(way_)) != Place::outside && lids_[1].hit({edge.start}, way_) != Place::outside);
    }
    /// Whether points of a face lie within, and not on walls alone.
    [[nodiscard]] bool has_within(const Shape &face) const
    {
        const auto crosses = [&](const Shape &wall) {
            return any(face.cut_by(wall.plane), [&](const Shape::Span &part) { return !wall.cut_by(face.plane, part).empty(); });
        };
        const std::optional<ScaledPoint> inner = face.inner_point();
        return any(walls_, crosses) ||
               (inner && lids_[0].hit(*inner, negative(way_)) == Place::inside && lids_[1].hit(*inner, way_) == Place::inside);
    }

private:
    Vector way_;
    std::array<Shape, 2> lids_;
    std::vector<Shape> walls_;
    BoxIndex boxes_; ///< of the walls
};

/// Refuses to move an outline in a face to another place where what it sweeps over would meet or touch the solid elsewhere than in the face,
/// or in the other one where it ends there. In these only what is on the outline counts. (This is asked before anything is made.)
void require_room(const Bench &bench, const Surface &surface, const Vector &across, const Path &path, const Path &far, Face face, Face other)
{
    Box box = box_of(path);
    box.take(box_of(far));
    std::vector<Side> edges; // that are near, and other faces
    std::vector<std::pair<Face, Shape>> faces;
    for (const auto &[of, loops] : surface.near(bench, box)) {
        for (Loop loop : loops)
            append(edges, surface.chain(loop).meeting(box));
        if (of != face && of != other && surface.plane(of) != nullptr)
            faces.emplace_back(of, surface.shape(of, loops));
    }
    if (edges.empty() && faces.empty())
        return;
    const Swept swept(across, path, far, other != Face());
    const auto met_face = std::find_if(faces.begin(), faces.end(), [&](const auto &beside) { return swept.meets(beside.second); });
    const auto met_edge = met_face != faces.end() ? edges.end() : std::find_if(edges.begin(), edges.end(), [&](const Side &edge) { return swept.meets(edge); });
    if (met_face == faces.end() && met_edge == edges.end())
        return;
    const auto through = std::find_if(faces.begin(), faces.end(), [&](const auto &beside) { return swept.has_within(beside.second); });
    const Face touched = met_face != faces.end() ? met_face->first : beyond(bench, met_edge->half, face);
    const gwb_hit_row hit = through != faces.end() ? met(GWB_CAUSE_COMES_THROUGH, through->first) : met(GWB_CAUSE_TOUCHES_FACE, touched);
    throw impossible(Misfit::meets, face.number(), hit);
}

/// The faces that a ray from a point of a face comes to on its way to an end, by how many times as far as the ray is long.
std::map<ScaledPoint, Face> faces_behind(const Bench &bench, const Surface &surface, Face face, const Vector &start, const Vector &ray, const Vector &end)
{
    std::map<ScaledPoint, Face> behind;
    for (const auto &[other, loops] : surface.near(bench, Box::between(start, end))) {
        const Plane *plane = other != face ? surface.plane(other) : nullptr;
        if (plane != nullptr && surface.shape(other, loops).hit({start}, ray) != Place::outside)
            behind.emplace(on_way({}, {1, 0, 0}, magnitude(plane->height(start)), magnitude(dot(plane->across, ray))), other);
    }
    return behind;
}

/// The face that a ray from a point of a face goes out through, which is parallel, and the way to it.
std::pair<Face, Vector> opposite(const Bench &bench, const Surface &surface, Face face, const Vector &across, const Vector &start)
{
    require(longest(across) <= 2 * farthest, impossible(Misfit::off_lattice, face.number(), met(GWB_CAUSE_PAST_RANGE)));
    const Vector back = negative(across);
    const auto behind = faces_behind(bench, surface, face, start, back, add(start, times(back, 2 * farthest)));
    require(!behind.empty(), impossible(Misfit::no_opposite, face.number()));
    const auto &[way, nearest] = *behind.begin();
    require(are_parallel(surface.plane(nearest)->across, back), impossible(Misfit::not_parallel, nearest.number()));
    return {nearest, on_way({}, back, way.at[0], way.scale).whole_at(nearest)};
}

// ---- what is drawn and moved

/// Draws a closed path from the lone vertex of a loop, where its first point lies: the face inside, where the points run clockwise, and the edges and
/// vertices in the order of the points.
Ring close_path(Bench &bench, Loop loop, Vertex first, const Path &path)
{
    Ring made{Face(), loop, {}, {first}};
    for (std::size_t at = 1; at < path.size(); at++) {
        go_on();
        const Corner corner = at == 1 ? lone(loop) : Corner(minus(made.edges.back()));
        const NewVertex grown = bench.mev(corner, corner, point(path[at]));
        made.edges.push_back(grown.edge);
        made.vertices.push_back(grown.vertex);
    }
    const NewFace closing = bench.mef(minus(made.edges.back()), plus(made.edges.front()));
    made.face = closing.face;
    made.edges.push_back(closing.edge);
    return made;
}

/// The ring through points that run as a ring does, and the face inside it, whose half-edges are the second ones of the edges.
Ring draw(Bench &bench, Face face, const Path &path)
{
    const HalfEdge start = *bench.around(bench.face(face).outer_loop).begin();
    const NewVertex spur = bench.mev(start, start, point(path[0]));
    return close_path(bench, bench.kemr(plus(spur.edge)), spur.vertex, path);
}

/// An outline that is ready to be drawn in a face.
struct Drawing {
    Solid solid;
    Vector across;
    Surroundings &known;
    Path given, path;

    Drawing(const Bench &bench, Face face, Items<Point> points)
        : solid(solid_of(bench, face)), across(plane_of(bench, face).across), known(Surroundings::of(bench)), given(path_of(points)),
          path(known.surface(bench, solid).ring_path(bench, face, given))
    {
    }
    [[nodiscard]] bool is_turned() const { return path != given; }
};

/// Moves an outline in a face by a vector, as far as another face where it is to end in that.
Pocket move_outline(Bench &bench, Face face, const Drawing &drawn, const Vector &way, Face other = Face())
{
    const Path far = moved(drawn.path, way);
    const Surface &surface = drawn.known.surface(bench, drawn.solid);
    if (other != Face())
        (void)surface.ring_path(bench, other, far);
    require_room(bench, surface, drawn.across, drawn.path, far, face, other);
    const Ring ring = draw(bench, face, drawn.path);
    bench.sweep(ring.face, point(way));
    const std::vector<Face> sides = mapped(ring.edges, [&](Edge edge) { return bench.face_of(minus(edge)); });
    const Loop far_ring = bench.face(ring.face).outer_loop;
    if (other != Face())
        bench.kfmrh(other, ring.face);
    drawn.known.follow(bench, drawn.solid, [&](Surface &of) {
        of.put(face, {ring.loop}, {cycle_at(bench, ring.loop)});
        for (Face side : sides)
            of.put(bench, side);
        if (other != Face())
            of.put(other, {far_ring}, {cycle_at(bench, far_ring)});
        else
            of.put(bench, ring.face);
    });
    return Pocket{other != Face() ? other : ring.face, ring.loop, drawn.is_turned() ? backwards(sides) : sides};
}

/// A pocket that leaves the range comes through the solid, which lies in it: by what.
gwb_hit_row met_on_way_out(const Bench &bench, const Drawing &drawn, Face face, const Vector &way)
{
    const auto out = std::find_if(drawn.path.begin(), drawn.path.end(), [&](const Vector &at) { return !is_in_range(add(at, way)); });
    const auto behind = faces_behind(bench, drawn.known.surface(bench, drawn.solid), face, *out, way, add(*out, way));
    return behind.empty() ? met(GWB_CAUSE_COMES_THROUGH) : met(GWB_CAUSE_COMES_THROUGH, behind.begin()->second);
}

} // namespace

Vector steps(const Vector &across, Wide length, const Causes &causes, Wide parts, std::optional<std::uint32_t> value)
{
    const Wide unit = parts * whole_length(across);
    const auto refuse = [&](const gwb_hit_row &hit) { throw impossible(Misfit::off_lattice, value.value_or(hit.number), hit); };
    if (longest(across) > 2 * farthest)
        refuse(met(GWB_CAUSE_PAST_RANGE));
    if (unit == 0)
        refuse(met(causes.irrational));
    if (length % unit != 0)
        refuse(met_factor(causes.fraction, unit / greatest_divisor(length, unit)));
    return times(across, length / unit);
}

Vector way_along(Face face, const Vector &across, const Point &along, bool is_out)
{
    const Vector way = vector(along);
    require(longest(way) <= 2 * farthest, refused(GWB_WHY_POINT_RANGE, 0));
    const int side = sign(dot(across, way));
    require(side != 0, impossible(Misfit::along_plane, face.number(), met(GWB_CAUSE_LIES_IN_PLANE)));
    require(side == (is_out ? 1 : -1), impossible(Misfit::along_plane, face.number(), met(GWB_CAUSE_WRONG_SIDE)));
    return way;
}

Profile make_profile(Bench &bench, Solid solid, Items<Point> points, Point along)
{
    const Path path = path_of(points);
    const Vector across = simple_normal(path);
    const Vector way = vector(along);
    require(longest(way) <= 2 * farthest, refused(GWB_WHY_POINT_RANGE, 0));
    const int side = sign(dot(across, way));
    require(side != 0, impossible(Misfit::along_plane, 0, met(GWB_CAUSE_LIES_IN_PLANE)));
    // two faces back to back, of which the one moves to where the points run counterclockwise
    const Path drawn = side > 0 ? path : turned(path);
    const Face far = bench.next_free<Face>();
    const Loop loop = bench.next_free<Loop>();
    const Vertex first = bench.next_free<Vertex>();
    bench.mvfs(solid, far, loop, first, point(drawn[0]));
    const Ring flat = close_path(bench, loop, first, drawn);
    bench.sweep(far, along);
    const std::vector<Face> sides = mapped(flat.edges, [&](Edge edge) { return bench.face_of(plus(edge)); });
    return Profile{solid, far, flat.face, side < 0 ? backwards(sides) : sides};
}

Ring make_ring(Bench &bench, Face face, Items<Point> points)
{
    const Drawing drawn(bench, face, points);
    Ring made = draw(bench, face, drawn.path);
    drawn.known.follow(bench, drawn.solid, [&](Surface &surface) {
        surface.put(face, {made.loop}, {cycle_at(bench, made.loop)});
        surface.put(bench, made.face);
    });
    if (drawn.is_turned()) {
        made.edges = backwards(made.edges);
        made.vertices = turned(made.vertices);
    }
    return made;
}

Pocket make_raised(Bench &bench, Face face, Items<Point> points, const Reach &reach, bool is_boss)
{
    const Drawing drawn(bench, face, points);
    const Vector way = way_of(face, drawn.across, reach, is_boss);
    if (!all(moved(drawn.path, way), is_in_range))
        throw is_boss ? refused(GWB_WHY_POINT_RANGE, 0) : impossible(Misfit::meets, face.number(), met_on_way_out(bench, drawn, face, way));
    return move_outline(bench, face, drawn, way);
}

Pocket make_hole(Bench &bench, Face face, Items<Point> points)
{
    const Drawing drawn(bench, face, points);
    const auto [end, way] = opposite(bench, drawn.known.surface(bench, drawn.solid), face, drawn.across, drawn.path[0]);
    return move_outline(bench, face, drawn, way, end);
}

} // namespace gwb_session::machining
