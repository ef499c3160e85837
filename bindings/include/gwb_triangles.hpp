/// @file gwb_triangles.hpp
/// Flat faces cut into triangles, by exact tests, for C++17: for display and export.
///
///     for (gwb_session::Face face : bench.faces(block))
///         for (auto [a, b, c] : gwb_session::triangles(bench, face))
///             draw(bench.vertex(a), bench.vertex(b), bench.vertex(c));
///
/// Those of all faces at once are Commands::triangle_rows(). A face of n edges takes time n log n.
#ifndef GWB_TRIANGLES_HPP
#define GWB_TRIANGLES_HPP
#include "gwb.hpp"
#include <map>
#include <queue>

namespace gwb_session {

/// A triangle, whose corners run counterclockwise as seen from outside.
struct Triangle {
    Vertex a, b, c;
};

/// Why a face has no triangles. It asks for the face's plane, so it is a measure.
inline Failure uncut(const Readings &bench, Face face)
{
    const Result<gwb_plane> plane = bench.plane(face);
    if (!plane)
        return plane.error();
    return plane->flat == 0 ? Failure{Problem::refused, GWB_WHY_NOT_FLAT, face.number()} : Failure{Problem::crossed, 0, face.number()};
}

/// A flat face as triangles: their corners are vertices of the face alone, so faces that share an edge have triangles that share it. A ring
/// of one vertex leaves nothing out. Refused: NoFace; NotFlat; Problem::crossed, thrown as Crossed, where its loops cross or touch.
template <class Policy> typename Policy::template Returned<std::vector<Triangle>> triangles(const Commands<Policy> &bench, Face face)
{
    using Found = std::vector<Triangle>;
    const Result<std::vector<gwb_triangle_row>> rows = bench.attempt().triangle_rows(face);
    if (!rows)
        return Policy::template failed<Found>("triangles", rows.error());
    if (rows->empty())
        return Policy::template failed<Found>("triangles", uncut(bench.attempt(), face));
    Found found;
    for (const gwb_triangle_row &row : *rows)
        found.push_back({Vertex(row.corners[0]), Vertex(row.corners[1]), Vertex(row.corners[2])});
    return found;
}

/// A face that is cut into its triangles by operators. The sides of these that are no half-edges yet are to be drawn. Some lead from loop to loop, so that one
/// is left, as many as there are rings: those that aren't needed to come from triangle to triangle. Then each triangle with one side left is cut off.
class Triangulation {
public:
    Triangulation(Workbench &bench, Face face) : bench_(bench), rows_(bench.triangle_rows(face)), halves_(3 * rows_.size()), corners_(halves_.size())
    {
        for (std::size_t side = 0; side < halves_.size(); side++)
            sides_.emplace(ends(side), side);
        for (Loop loop : bench.loops_of(face))
            for (HalfEdge half_edge : bench.half_edges(loop))
                if (const auto side = sides_.find({bench.start_of(half_edge).number(), bench.end_of(half_edge).number()}); side != sides_.end())
                    halves_[side->second] = half_edge;
    }

    /// Draws what is to be drawn.
    void draw()
    {
        for (std::size_t side = 0; side < halves_.size(); side++)
            if (!is_left(side))
                turn_from(side);
        for (std::size_t side : between_loops())
            bridge(side);
        std::queue<std::size_t> last; // of triangles that have one side left
        for (std::size_t side = 0; side < halves_.size(); side++)
            if (is_last(side))
                last.push(side);
        for (; !last.empty(); last.pop())
            if (const std::size_t side = last.front(); is_left(side))
                cut_off(side, last);
    }

private:
    using Ends = std::array<std::uint32_t, 2>;
    /// The corner of a loop in which a side begins: the side of the half-edge that starts there, and how many sides lie between both.
    struct Place {
        std::size_t corner, turns;
    };

    // The sides of a triangle have three places, in their order.
    static std::size_t after(std::size_t side) { return side - side % 3 + (side + 1) % 3; }
    static std::size_t before(std::size_t side) { return after(after(side)); }
    [[nodiscard]] std::uint32_t start(std::size_t side) const { return rows_[side / 3].corners[side % 3]; }
    [[nodiscard]] Ends ends(std::size_t side) const { return {start(side), start(after(side))}; }
    [[nodiscard]] std::size_t mate(std::size_t side) const { return sides_.at({start(after(side)), start(side)}); }
    [[nodiscard]] bool is_left(std::size_t side) const { return halves_[side] == HalfEdge(); }
    [[nodiscard]] bool is_last(std::size_t side) const { return is_left(side) && !is_left(after(side)) && !is_left(before(side)); }

    /// The sides that begin in the corner of a half-edge, counterclockwise.
    void turn_from(std::size_t corner)
    {
        starts_[corner][0] = halves_[corner];
        std::size_t turns = 0;
        for (std::size_t side = before(corner); is_left(side); side = before(mate(side)))
            corners_[mate(side)] = {corner, ++turns};
    }

    /// The sides, once each, without which one comes from triangle to triangle too.
    [[nodiscard]] std::vector<std::size_t> between_loops() const
    {
        std::vector<bool> is_seen(rows_.size()), is_way(halves_.size());
        std::vector<std::size_t> seen;
        if (!rows_.empty())
            is_seen[0] = true, seen.push_back(0);
        for (std::size_t at = 0; at < seen.size(); at++)
            for (std::size_t side = 3 * seen[at]; side < 3 * seen[at] + 3; side++)
                if (is_left(side) && !is_seen[mate(side) / 3]) {
                    is_seen[mate(side) / 3] = is_way[side] = is_way[mate(side)] = true;
                    seen.push_back(mate(side) / 3);
                }
        std::vector<std::size_t> found;
        for (std::size_t side = 0; side < halves_.size(); side++)
            if (is_left(side) && !is_way[side] && side < mate(side))
                found.push_back(side);
        return found;
    }

    /// The half-edge that starts where a side begins, and behind which it does.
    [[nodiscard]] HalfEdge corner_of(std::size_t side) const
    {
        const Place &place = corners_[side];
        return std::prev(starts_.at(place.corner).upper_bound(place.turns))->second;
    }

    void bridge(std::size_t side)
    {
        const std::size_t other = mate(side);
        const HalfEdge from = corner_of(side), to = corner_of(other);
        const bool is_to_outer = bench_.loop_of(to) == bench_.face(bench_.face_of(to)).outer_loop;
        const Edge edge = is_to_outer ? bench_.mekr(to, from) : bench_.mekr(from, to);
        halves_[side] = is_to_outer ? minus(edge) : plus(edge);
        halves_[other] = halves_[side].twin();
        for (std::size_t end : {side, other})
            starts_[corners_[end].corner][corners_[end].turns] = halves_[end];
    }

    void cut_off(std::size_t side, std::queue<std::size_t> &last)
    {
        const std::size_t other = mate(side);
        const Edge edge = bench_.mef(halves_[after(side)], bench_.next(halves_[before(side)])).edge;
        halves_[side] = minus(edge), halves_[other] = plus(edge);
        for (std::size_t next : {after(other), before(other)})
            if (is_last(next))
                last.push(next);
    }

    Workbench &bench_;
    std::vector<gwb_triangle_row> rows_;
    std::map<Ends, std::size_t> sides_;                         ///< by where they start and end: each lies in one triangle
    std::vector<HalfEdge> halves_;                              ///< those that are drawn
    std::vector<Place> corners_;                                ///< those that were not
    std::map<std::size_t, std::map<std::size_t, HalfEdge>> starts_; ///< of each corner: the half-edges in it, by the turns up to them
};

/// Cuts each face into triangles, as steps of the draft that is open: those of gwb_face_triangles, so no vertex is new, and a face without any, such as a
/// bent one, stays as it is. Where the draft is abandoned, all is as before. A face of n edges takes time n log n.
inline void triangulate(Workbench &bench)
{
    std::vector<Face> faces;
    for (Face face : bench.numbers<Face>())
        faces.push_back(face);
    for (Face face : faces)
        Triangulation(bench, face).draw();
}

} // namespace gwb_session
#endif
