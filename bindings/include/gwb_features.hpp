/// @file gwb_features.hpp The features of gwb_features.h, for C++17: a call each, whose rows are given as types of gwb.hpp.
///
///     using namespace gwb_session;
///     const Profile plate = profile(bench, {{0, 0, 0}, {40, 0, 0}, {40, 20, 0}, {0, 20, 0}}, {0, 0, 10});
///     const Pocket made = pocket(bench, plate.far, {{5, 5, 10}, {15, 5, 10}, {10, 15, 10}}, 4);
///     Solid other = copy_solid(bench, plate.solid, Motion::mirror(0));
#ifndef GWB_FEATURES_HPP
#define GWB_FEATURES_HPP
#include "gwb_made.hpp"
#include <numeric>

namespace gwb_session {

/// What a call gives by the policy of its workbench: a value, or a Result.
template <class Policy, class T> using Answer = typename Policy::template Returned<T>;

namespace features {

/// All rows or letters that a call writes: none where it can't.
template <class Held, class Call, class... All> Held rows(Call call, All... arguments)
{
    typename Held::value_type nothing{};
    const std::size_t count = call(arguments..., &nothing, 0);
    Held found(count != SIZE_MAX ? count : 0, nothing);
    if (!found.empty())
        call(arguments..., found.data(), found.size());
    return found;
}

/// The numbers of things, and things of their numbers.
template <class Kind> std::vector<std::uint32_t> numbers(Items<Kind> things)
{
    std::vector<std::uint32_t> found(things.size());
    std::transform(things.begin(), things.end(), found.begin(), [](Kind thing) { return thing.number(); });
    return found;
}
template <class Kind> std::vector<Kind> things(const std::vector<std::uint32_t> &numbers) { return std::vector<Kind>(numbers.begin(), numbers.end()); }

/// A list of what the last feature made: faces; numbers, each with another one.
inline std::vector<Face> faces(const gwb *g, gwb_list which) { return things<Face>(rows<std::vector<std::uint32_t>>(gwb_made, g, which)); }
inline std::vector<std::array<std::uint32_t, 2>> pairs(const gwb *g, gwb_list which)
{
    return rows<std::vector<std::array<std::uint32_t, 2>>>([&](auto *to, std::size_t room) { return gwb_made(g, which, to->data(), 2 * room) / 2; });
}

/// The number of a new solid, where none is given for it.
template <class Policy> Solid next_solid(Commands<Policy> &bench) { return bench.attempt().template next_free<Solid>().value_or(Solid()); }

/// A row of solids, so many with the one that they are of: those that are new.
template <class Policy, class Call, class... All>
auto row(Commands<Policy> &bench, const char *command, Call call, Solid solid, std::uint32_t count, All... arguments)
{
    constexpr std::uint32_t most_solids = 1'000'000; // more are refused before any is written
    std::vector<std::uint32_t> made(count > 0 && count <= most_solids ? count - 1 : 0);
    return bench.feature(command, call, [&] { return things<Solid>(made); }, solid.number(), count, arguments..., made.data());
}

/// A pocket or a boss.
template <class Policy, class Call, class Reach>
auto raise(Commands<Policy> &bench, const char *command, Call call, Face face, Items<Point> points, Reach reach)
{
    gwb_outline_made made{};
    std::vector<std::uint32_t> sides(points.size());
    return bench.feature(command, call, [&] { return Pocket{Face(made.face), Loop(made.loop), things<Face>(sides)}; }, face.number(), points.data(),
                         points.size(), reach, &made, sides.data());
}

/// A drilled hole.
template <class Policy, class Call, class Reach>
auto drill(Commands<Policy> &bench, const char *command, Call call, Face face, const Point &center, std::int64_t radius, std::uint32_t sides, Reach reach)
{
    constexpr std::uint32_t most_sides = 1'000'000;
    gwb_outline_made made{};
    std::vector<Point> points(sides <= most_sides ? sides : 0); // more are refused before any is written
    std::vector<std::uint32_t> walls(points.size());
    const auto drilled = [&] { return Hole{Face(made.face), Loop(made.loop), things<Face>(walls), points}; };
    return bench.feature(command, call, drilled, face.number(), &center, radius, sides, reach, &made, walls.data(), points.data());
}

/// A notch, slot, groove or shoulder.
template <class Policy, class Call, class... All> auto notch(Commands<Policy> &bench, const char *command, Call call, Face face, All... arguments)
{
    const auto made = [&] { return Notch{faces(bench.handle(), GWB_MADE_FLOOR), faces(bench.handle(), GWB_MADE_WALLS)}; };
    return bench.feature(command, call, made, face.number(), arguments...);
}

/// A pad, by a height or a vector.
template <class Policy, class Call, class To>
Answer<Policy, Pad> pad(Commands<Policy> &bench, const char *command, Call call, Face face, Items<Point> points, To reach)
{
    const auto made = [&] { return Pad{faces(bench.handle(), GWB_MADE_FLOOR), faces(bench.handle(), GWB_MADE_WALLS)}; };
    return bench.feature(command, call, made, face.number(), points.data(), points.size(), reach);
}

/// A split or a cut; where no number is given for the solid above, it takes the next one.
template <class Policy, class Call>
Answer<Policy, Split> split(Commands<Policy> &bench, const char *command, Call call, Solid solid, const gwb_cut_plane &plane, std::optional<Solid> above)
{
    const Solid upper = above ? *above : next_solid(bench);
    const auto made = [&] { return Split{upper, faces(bench.handle(), GWB_MADE_LOWER_CAPS), faces(bench.handle(), GWB_MADE_UPPER_CAPS)}; };
    return bench.feature(command, call, made, solid.number(), &plane, upper.number());
}

/// What comes of solids, of which this one stays.
template <class Policy, class Call, class... All>
Answer<Policy, Merger> combine(Commands<Policy> &bench, const char *command, Call call, Solid solid, All... arguments)
{
    const auto made = [&] {
        Merger found{solid, {}};
        for (const auto &[face, into] : pairs(bench.handle(), GWB_MADE_INTO))
            found.merged.emplace_back(face, into);
        return found;
    };
    return bench.feature(command, call, made, arguments...);
}

template <class T> const T *pointer(const std::optional<T> &value) { return value ? &*value : nullptr; }

/// What a query finds, which is asked for twice.
template <class Kind, class Row = std::uint32_t, class Policy, class Query, class Call>
Answer<Policy, std::vector<Kind>> found(const Commands<Policy> &bench, const char *reader, const Query &query, Call call)
{
    std::vector<Row> rows;
    std::size_t count = 64;
    while (count > rows.size()) {
        rows.resize(count);
        gwb_refusal why{};
        if (const gwb_kind kind = call(bench.handle(), &query, rows.data(), rows.size(), &count, &why); kind != GWB_OK)
            return Policy::template failed<std::vector<Kind>>(reader, bench.feature_failure(kind, why));
    }
    return std::vector<Kind>(rows.data(), rows.data() + count);
}

} // namespace features

/// Which of the parts that were made last are of which.
class Parts {
public:
    /// What gwb_made has of them.
    explicit Parts(const gwb *g)
    {
        for (gwb_list list : {GWB_MADE_SOLIDS, GWB_MADE_FACES, GWB_MADE_LOOPS, GWB_MADE_EDGES, GWB_MADE_VERTICES})
            pairs_.push_back(features::pairs(g, list));
    }

    /// The part that is of this one: none of another one.
    template <gwb_entity Kind> [[nodiscard]] Id<Kind> of(Id<Kind> old) const
    {
        const auto &pairs = pairs_[Kind];
        const auto found = std::lower_bound(pairs.begin(), pairs.end(), std::array<std::uint32_t, 2>{old.number(), 0});
        return found != pairs.end() && (*found)[0] == old.number() ? Id<Kind>((*found)[1]) : Id<Kind>();
    }
    /// The half-edge from the vertex of this one to that of its other end.
    [[nodiscard]] HalfEdge of(HalfEdge half_edge) const
    {
        const Edge edge = of(half_edge.edge());
        return half_edge.is_second() ? minus(edge) : plus(edge);
    }

protected:
    std::vector<std::vector<std::array<std::uint32_t, 2>>> pairs_; ///< for each kind old numbers, rising, each with the new one
};

/// A copy of a solid, which it stands for, and its parts.
struct Copy : Parts {
    Copy(const gwb *g, Solid made) : Parts(g), solid(made) {}
    Solid solid;
    operator Solid() const { return solid; }
};

/// What all numbers have become.
class Renumbered : public Parts {
public:
    using Parts::of, Parts::Parts;
    [[nodiscard]] Solid of(Solid solid) const { return Parts::of(solid); }
    /// The same the other way, for what follows an undo: the new numbers rise as the old ones.
    [[nodiscard]] Renumbered back() const
    {
        Renumbered before = *this;
        for (auto &pairs : before.pairs_)
            for (auto &[old, made] : pairs)
                std::swap(old, made);
        return before;
    }
};

/// The solid goes, with all its parts.
template <class Policy> Answer<Policy, void> kill_solid(Commands<Policy> &bench, Solid solid)
{
    return bench.feature("kill_solid", gwb_kill_solid, [] {}, solid.number());
}

/// A new solid, that is another one moved; its numbers are free ones, above all in use as long as there are any.
template <class Policy> Answer<Policy, Copy> copy_solid(Commands<Policy> &bench, Solid solid, const Motion &motion = {})
{
    std::uint32_t made = 0;
    return bench.feature("copy_solid", gwb_copy_solid, [&] { return Copy(bench.handle(), Solid(made)); }, solid.number(), &motion.row(), &made);
}

/// A solid lies elsewhere, with the numbers that it has.
template <class Policy> Answer<Policy, void> move_solid(Commands<Policy> &bench, Solid solid, const Motion &motion)
{
    return bench.feature("move_solid", gwb_move_solid, [] {}, solid.number(), &motion.row());
}

/// A row of so many solids, of which this is the first, each by the step from the one before it: those that are new. NoCall where there are none.
template <class Policy> Answer<Policy, std::vector<Solid>> pattern(Commands<Policy> &bench, Solid solid, std::uint32_t count, Point step)
{
    return features::row(bench, "pattern", gwb_pattern, solid, count, &step);
}

/// So many solids around the axis through a point (0 x, 1 y, 2 z), of which this is the first, each so many quarter turns on from the one before it:
/// those that are new. NoCall where there are none, or one would lie where the first does.
template <class Policy>
Answer<Policy, std::vector<Solid>> pattern_around(Commands<Policy> &bench, Solid solid, std::uint32_t count, std::uint32_t axis, std::uint32_t quarters = 1,
                                                  Point about = {0, 0, 0})
{
    return features::row(bench, "pattern_around", gwb_pattern_around, solid, count, axis, quarters, &about);
}

/// All coordinates times the factor; numbers stay.
template <class Policy> Answer<Policy, void> scale(Commands<Policy> &bench, std::int64_t factor)
{
    return bench.feature("scale", gwb_scale, [] {}, factor);
}

/// All numbers become as low as they can be, in their order: where none is left for what comes. Notes follow by renumbered().
template <class Policy> Answer<Policy, Renumbered> renumber(Commands<Policy> &bench)
{
    return bench.feature("renumber", gwb_renumber, [&] { return Renumbered(bench.handle()); });
}

/// The solids become the first, glued along the faces that match. NoCall where one stands twice, or there are none.
template <class Policy> Answer<Policy, void> glue_all(Commands<Policy> &bench, Items<Solid> solids)
{
    return bench.feature("glue_all", gwb_glue_all, [] {}, features::numbers(solids).data(), solids.size());
}

/// What the command split does, with the faces that close both parts. Refused as split.
template <class Policy> Answer<Policy, Split> split_solid(Commands<Policy> &bench, Solid solid, const gwb_cut_plane &plane, std::optional<Solid> above = {})
{
    return features::split(bench, "split", gwb_split_solid, solid, plane, above);
}

/// The same, also where split refuses the plane for what it touches or how it runs through faces and holes.
template <class Policy> Answer<Policy, Split> cut(Commands<Policy> &bench, Solid solid, const gwb_cut_plane &plane, std::optional<Solid> above = {})
{
    return features::split(bench, "cut", gwb_cut, solid, plane, above);
}

/// What lies above the plane goes: the faces that close what is left. Refused as cut.
template <class Policy> Answer<Policy, std::vector<Face>> trim(Commands<Policy> &bench, Solid solid, const gwb_cut_plane &plane)
{
    return bench.feature("trim", gwb_trim, [&] { return features::faces(bench.handle(), GWB_MADE_LOWER_CAPS); }, solid.number(), &plane);
}

/// The solids, which may cross, touch or lie apart, become the first (`union` is a word of C++). NoCall where one stands twice, or there are fewer than two.
template <class Policy> Answer<Policy, Merger> unite(Commands<Policy> &bench, Items<Solid> solids)
{
    const Solid first = solids.size() != 0 ? *solids.begin() : Solid();
    return features::combine(bench, "union", gwb_union, first, features::numbers(solids).data(), solids.size());
}

/// The solid becomes what is left of it without the tools, which go. NoCall where one stands twice, or there are none.
template <class Policy> Answer<Policy, Merger> subtract(Commands<Policy> &bench, Solid solid, Items<Solid> tools)
{
    return features::combine(bench, "subtract", gwb_subtract, solid, solid.number(), features::numbers(tools).data(), tools.size());
}

/// The first of the solids becomes what all have in common. NoCall where one stands twice, or there are fewer than two.
template <class Policy> Answer<Policy, Merger> intersect(Commands<Policy> &bench, Items<Solid> solids)
{
    const Solid first = solids.size() != 0 ? *solids.begin() : Solid();
    return features::combine(bench, "intersect", gwb_intersect, first, features::numbers(solids).data(), solids.size());
}

/// Faces of one plane beside each other in a solid become one, and so do edges that go on straight.
template <class Policy> Answer<Policy, Merger> join_faces(Commands<Policy> &bench, Solid solid)
{
    return features::combine(bench, "join_faces", gwb_join_faces, solid, solid.number());
}

/// Each connected component of a solid becomes a solid: all of them, by their least faces; the first keeps the number.
template <class Policy> Answer<Policy, std::vector<Solid>> separate(Commands<Policy> &bench, Solid solid)
{
    const auto parts = [&] {
        std::vector<Solid> found;
        for (const auto &pair : features::pairs(bench.handle(), GWB_MADE_SOLIDS))
            found.emplace_back(pair[1]);
        return found;
    };
    return bench.feature("separate", gwb_separate, parts, solid.number());
}

/// A new solid: the outline through the points, moved along the vector.
template <class Policy> Answer<Policy, Profile> profile(Commands<Policy> &bench, Solid solid, Items<Point> points, Point along)
{
    gwb_profile_made made{};
    std::vector<std::uint32_t> sides(points.size());
    return bench.feature("profile", gwb_profile, [&] { return Profile{solid, Face(made.far), Face(made.base), features::things<Face>(sides)}; },
                         solid.number(), points.data(), points.size(), &along, &made, sides.data());
}
template <class Policy> Answer<Policy, Profile> profile(Commands<Policy> &bench, Items<Point> points, Point along)
{
    return profile(bench, features::next_solid(bench), points, along);
}

/// A new solid: points, and faces of so many corners each, by their places among the points from 0 on, counterclockwise as seen from outside. NoCall where
/// these aren't sound as a solid.
template <class Policy>
Answer<Policy, Polyhedron> polyhedron(Commands<Policy> &bench, Solid solid, Items<Point> points, Items<std::uint32_t> corners, Items<std::uint32_t> sizes)
{
    gwb_polyhedron_made made{};
    const bool has_all = std::accumulate(sizes.begin(), sizes.end(), std::uint64_t{0}) == corners.size();
    return bench.feature("polyhedron", gwb_polyhedron, [&] { return Polyhedron{solid, Vertex(made.first_vertex), Face(made.first_face)}; },
                         solid.number(), points.data(), points.size(), corners.data(), sizes.data(), has_all ? sizes.size() : 0, &made);
}
template <class Policy>
Answer<Policy, Polyhedron> polyhedron(Commands<Policy> &bench, Items<Point> points, Items<std::uint32_t> corners, Items<std::uint32_t> sizes)
{
    return polyhedron(bench, features::next_solid(bench), points, corners, sizes);
}

/// A face inside the face, with the outline through the points, and a ring around it.
template <class Policy> Answer<Policy, Ring> ring(Commands<Policy> &bench, Face face, Items<Point> points)
{
    gwb_outline_made made{};
    std::vector<std::uint32_t> edges(points.size()), vertices(points.size());
    const auto drawn = [&] { return Ring{Face(made.face), Loop(made.loop), features::things<Edge>(edges), features::things<Vertex>(vertices)}; };
    return bench.feature("ring", gwb_ring, drawn, face.number(), points.data(), points.size(), &made, edges.data(), vertices.data());
}

/// A pocket so deep behind the outline in the face.
template <class Policy> Answer<Policy, Pocket> pocket(Commands<Policy> &bench, Face face, Items<Point> points, std::int64_t depth)
{
    return features::raise(bench, "pocket", gwb_pocket, face, points, depth);
}
/// A pocket by a vector into the solid, which may lean.
template <class Policy> Answer<Policy, Pocket> pocket_along(Commands<Policy> &bench, Face face, Items<Point> points, Point along)
{
    return features::raise(bench, "pocket_along", gwb_pocket_along, face, points, &along);
}

/// A boss so high on the outline in the face.
template <class Policy> Answer<Policy, Pocket> boss(Commands<Policy> &bench, Face face, Items<Point> points, std::int64_t height)
{
    return features::raise(bench, "boss", gwb_boss, face, points, height);
}
/// A boss by a vector out of the solid, which may lean.
template <class Policy> Answer<Policy, Pocket> boss_along(Commands<Policy> &bench, Face face, Items<Point> points, Point along)
{
    return features::raise(bench, "boss_along", gwb_boss_along, face, points, &along);
}

/// A hole from the outline in the face through to the face opposite to it, which is parallel.
template <class Policy> Answer<Policy, Hole> hole(Commands<Policy> &bench, Face face, Items<Point> points)
{
    gwb_outline_made made{};
    std::vector<std::uint32_t> sides(points.size());
    const auto bored = [&] { return Hole{Face(made.face), Loop(made.loop), features::things<Face>(sides), {points.begin(), points.end()}}; };
    return bench.feature("hole", gwb_hole, bored, face.number(), points.data(), points.size(), &made, sides.data());
}

/// What of a polygon lies on its circle: the corners; the flats, none of which lies inside it, so that a bolt passes; or their areas are equal.
enum class Circle : std::uint32_t { corners = GWB_CIRCLE_CORNERS, flats = GWB_CIRCLE_FLATS, area = GWB_CIRCLE_AREA };

/// The corners of a polygon for a circle around the origin, x and y of each, counterclockwise from the first axis on: the multiples of `grain` nearest to
/// those of a regular polygon. None where `sides` isn't from 3 to 1,000,000, or the diameter or the grain from 1 to 4,000,000,000.
[[nodiscard]] inline std::vector<std::array<std::int64_t, 2>> circle(std::int64_t diameter, std::uint32_t sides, Circle fit = Circle::corners,
                                                                     std::int64_t grain = 1)
{
    constexpr std::uint32_t most_sides = 1'000'000;
    std::vector<std::array<std::int64_t, 2>> corners(sides <= most_sides ? sides : 0);
    if (corners.empty() || !gwb_circle(diameter, grain, sides, static_cast<std::uint32_t>(fit), corners.front().data()))
        corners.clear();
    return corners;
}

/// A hole with a polygon of so many sides around the center, on whole numbers nearest to the circle of the radius: through, where the depth is 0, or so deep.
template <class Policy>
Answer<Policy, Hole> drill(Commands<Policy> &bench, Face face, Point center, std::int64_t radius, std::uint32_t sides, std::int64_t depth = 0)
{
    return features::drill(bench, "drill", gwb_drill, face, center, radius, sides, depth);
}
/// The same by a vector into the solid, which may lean.
template <class Policy>
Answer<Policy, Hole> drill_along(Commands<Policy> &bench, Face face, Point center, std::int64_t radius, std::uint32_t sides, Point along)
{
    return features::drill(bench, "drill_along", gwb_drill_along, face, center, radius, sides, &along);
}

/// The prism under an outline in the plane of the face is cut out: the outline may leave the face, and cross edges, holes and other features.
template <class Policy> Answer<Policy, Notch> notch(Commands<Policy> &bench, Face face, Items<Point> points, std::int64_t depth)
{
    return features::notch(bench, "notch", gwb_notch, face, points.data(), points.size(), depth);
}

/// The prism above such an outline is put on, also over an edge of the face.
template <class Policy> Answer<Policy, Pad> pad(Commands<Policy> &bench, Face face, Items<Point> points, std::int64_t height)
{
    return features::pad(bench, "pad", gwb_pad, face, points, height);
}

/// A channel of this width along the line between two points on edges of the face, with a flat floor.
template <class Policy> Answer<Policy, Notch> slot(Commands<Policy> &bench, Face face, Point start, Point end, std::int64_t width, std::int64_t depth)
{
    return features::notch(bench, "slot", gwb_slot, face, &start, &end, width, depth);
}

/// A channel alike, like a V.
template <class Policy> Answer<Policy, Notch> groove(Commands<Policy> &bench, Face face, Point start, Point end, std::int64_t width, std::int64_t depth)
{
    return features::notch(bench, "groove", gwb_groove, face, &start, &end, width, depth);
}

/// A step of this width and depth along an edge of the face.
template <class Policy> Answer<Policy, Notch> shoulder(Commands<Policy> &bench, Face face, Edge edge, std::int64_t width, std::int64_t depth)
{
    return features::notch(bench, "shoulder", gwb_shoulder, face, edge.number(), width, depth);
}

/// Notch, pad, slot, groove and shoulder by a vector, which may lean, in place of a length: into the solid, of a pad out of it.
template <class Policy> Answer<Policy, Notch> notch_along(Commands<Policy> &bench, Face face, Items<Point> points, Point along)
{
    return features::notch(bench, "notch_along", gwb_notch_along, face, points.data(), points.size(), &along);
}
template <class Policy> Answer<Policy, Pad> pad_along(Commands<Policy> &bench, Face face, Items<Point> points, Point along)
{
    return features::pad(bench, "pad_along", gwb_pad_along, face, points, &along);
}
template <class Policy> Answer<Policy, Notch> slot_along(Commands<Policy> &bench, Face face, Point start, Point end, std::int64_t width, Point along)
{
    return features::notch(bench, "slot_along", gwb_slot_along, face, &start, &end, width, &along);
}
template <class Policy> Answer<Policy, Notch> groove_along(Commands<Policy> &bench, Face face, Point start, Point end, std::int64_t width, Point along)
{
    return features::notch(bench, "groove_along", gwb_groove_along, face, &start, &end, width, &along);
}
template <class Policy> Answer<Policy, Notch> shoulder_along(Commands<Policy> &bench, Face face, Edge edge, std::int64_t width, Point along)
{
    return features::notch(bench, "shoulder_along", gwb_shoulder_along, face, edge.number(), width, &along);
}

/// The edge becomes a sloping face, so far into the face of its first half-edge, and so far into the other one: where no second width is given as
/// far. An edge whose faces bend inwards is filled.
template <class Policy> Answer<Policy, Face> chamfer(Commands<Policy> &bench, Edge edge, std::int64_t width, std::optional<std::int64_t> other = {})
{
    std::uint32_t made = 0;
    return bench.feature("chamfer", gwb_chamfer, [&] { return Face(made); }, edge.number(), width, other.value_or(width), &made);
}

/// The same of different edges at once, as far into the faces on both sides, whose slopes meet where the edges do: the slope of each.
template <class Policy> Answer<Policy, std::vector<Face>> chamfer_edges(Commands<Policy> &bench, Items<Edge> edges, std::int64_t width)
{
    std::vector<std::uint32_t> slopes(edges.size());
    const auto made = [&] { return features::things<Face>(slopes); };
    return bench.feature("chamfer_edges", gwb_chamfer_edges, made, features::numbers(edges).data(), edges.size(), width, slopes.data());
}

using CutPlane = gwb_cut_plane;
/// The numerator divided by the denominator.
using Ratio = gwb_ratio;

/// Which faces are sought: those for which all holds that is said (gwb_face_query).
struct FaceQuery {
    std::optional<Solid> solid;
    std::optional<CutPlane> plane;           ///< wholly in it, whichever way they look
    std::optional<Point> normal, containing; ///< flat, and looking this way; flat, with the point inside or on an edge
    std::optional<Ratio> area;
};
/// Which edges are sought.
struct EdgeQuery {
    std::optional<Solid> solid;
    std::optional<std::pair<Face, Face>> between;
    std::optional<Point> along; ///< one way or the other
    std::optional<Ratio> length;
};

/// The faces that are sought, rising. Refused: NoSolid. NoCall where a plane or a direction is zero.
template <class Policy> Answer<Policy, std::vector<Face>> find_faces(const Commands<Policy> &bench, const FaceQuery &query)
{
    if (query.solid == Solid()) // (for gwb_find_faces that would be any)
        return Policy::template failed<std::vector<Face>>("find_faces", {Problem::refused, GWB_WHY_NO_SOLID, 0});
    const gwb_face_query row = {query.solid.value_or(Solid()).number(), features::pointer(query.plane), features::pointer(query.normal),
                                features::pointer(query.containing), features::pointer(query.area)};
    return features::found<Face>(bench, "find_faces", row, gwb_find_faces);
}

/// The edges that are sought, rising. Refused: NoFace; NoSolid. NoCall where a direction or a face is zero.
template <class Policy> Answer<Policy, std::vector<Edge>> find_edges(const Commands<Policy> &bench, const EdgeQuery &query)
{
    const auto [one, other] = query.between.value_or(std::pair<Face, Face>());
    if (query.solid == Solid()) // (for gwb_find_edges these would be any)
        return Policy::template failed<std::vector<Edge>>("find_edges", {Problem::refused, GWB_WHY_NO_SOLID, 0});
    if (query.between && one == Face())
        return Policy::template failed<std::vector<Edge>>("find_edges", {Problem::no_call});
    const gwb_edge_query row = {query.solid.value_or(Solid()).number(), {one.number(), other.number()}, features::pointer(query.along),
                                features::pointer(query.length)};
    return features::found<Edge>(bench, "find_edges", row, gwb_find_edges);
}

/// The pairs of faces of a solid that have a point in common which lies on no edge or vertex of both, with such a point, rising; or of a face of it and one of
/// another that have any. Refused: NoSolid; NotFlat.
template <class Policy>
Answer<Policy, std::vector<Crossing>> find_crossings(const Commands<Policy> &bench, Solid solid, std::optional<Solid> other = {})
{
    if (other == Solid()) // (for gwb_find_crossings it would be none)
        return Policy::template failed<std::vector<Crossing>>("find_crossings", {Problem::refused, GWB_WHY_NO_SOLID, 0});
    const auto call = [other](const gwb *g, const Solid *own, gwb_crossing *rows, std::size_t room, std::size_t *count, gwb_refusal *why) {
        return gwb_find_crossings(g, own->number(), other.value_or(Solid()).number(), rows, room, count, why);
    };
    return features::found<Crossing, gwb_crossing>(bench, "find_crossings", solid, call);
}

/// What is to be said of a cut whose points aren't whole.
class OffLattice {
public:
    explicit OffLattice(gwb_advice *advice) : advice_(advice, gwb_advice_free) {}

    /// The least number by which the model must be multiplied for all points of the cut to be whole: 0 where it passes 10^36.
    [[nodiscard]] gwb_wide factor() const { return gwb_advice_factor(advice_.get()); }
    /// Whether the model times that number stays in range.
    [[nodiscard]] bool fits() const { return gwb_advice_fits(advice_.get()); }
    /// The edges that the plane cuts between whole points, rising.
    [[nodiscard]] std::vector<gwb_edge_cut> cuts() const { return features::rows<std::vector<gwb_edge_cut>>(gwb_advice_cuts, advice_.get()); }
    /// The planes beside it that would do, parallel ones first.
    [[nodiscard]] std::vector<gwb_near_plane> planes() const { return features::rows<std::vector<gwb_near_plane>>(gwb_advice_planes, advice_.get()); }
    /// All of it as lines of a script, with this number for the solid above the plane. Empty where memory is refused.
    [[nodiscard]] std::string advice(Solid above) const { return features::rows<std::string>(gwb_advice_text, advice_.get(), above.number()); }

private:
    std::shared_ptr<gwb_advice> advice_;
};

/// What is to be said of the cut of a solid by a plane, with at most so many tilted planes that would do. Refused: NoSolid; PlaneRange.
template <class Policy> Answer<Policy, OffLattice> off_lattice(const Commands<Policy> &bench, Solid solid, const CutPlane &plane, std::size_t most = 3)
{
    gwb_advice *advice = nullptr;
    gwb_refusal why{};
    if (const gwb_kind kind = gwb_off_lattice(bench.handle(), solid.number(), &plane, most, &advice, &why); kind != GWB_OK)
        return Policy::template failed<OffLattice>("off_lattice", bench.feature_failure(kind, why));
    return OffLattice(advice);
}

} // namespace gwb_session
#endif
