/// @file assembly.hpp A closed surface of regions, known by the points of their sides, put together as the model of a solid. What was there before
/// keeps its numbers, as far as it still is.
#pragma once
#include "parts.hpp"

namespace gwb_session::sheets {

/// Faces of a solid, what of them was there by places, and the rest of the solid as a region that lies at their open edges.
class Held {
public:
    /// Where a vertex of two edges isn't to stay, edges that go straight on there become one. Of some solids the rest goes as well.
    Held(const Bench &bench, Model parts, bool keeps_vertices = true, const std::set<Solid> &gone = {});

    /// The loop of a half-edge: none where that is one of the rest.
    [[nodiscard]] Loop loop_of(HalfEdge half) const;
    /// Whether the side is all of a half-edge.
    [[nodiscard]] bool is_whole(const Side &side) const;
    /// Whether a vertex where a side starts stays: it has two edges, so that somebody wanted it there, or one that is of the rest alone.
    [[nodiscard]] bool is_fixed(const Side &side) const;
    /// The vertices at a point, rising.
    [[nodiscard]] std::vector<Vertex> vertices_at(const Vector &point) const;

    Model model;
    std::vector<Cycle> rest; ///< the half-edges of the rest at the open edges, in cycles

private:
    [[nodiscard]] bool is_held(HalfEdge half) const { return has(halves_, half); }

    /// Each half-edge of the rest leads to the next one round the vertex at its end, where edges of the rest alone are missing.
    void put_rest(const std::set<Solid> &gone);
    [[nodiscard]] HalfEdge after(HalfEdge half) const;

    std::vector<std::pair<SmallBox::Corner, Vertex>> by_points_; ///< rising
    std::vector<HalfEdge> halves_;         ///< of all loops but for what runs stand for, which is of the rest as well; rising
    Table<HalfEdge, HalfEdge> run_to_;     ///< by the last half-edge of each
    const Bench &bench_;
    bool keeps_vertices_;
};

/// The model of a surface, and its regions, which know their faces.
struct Combined {
    Model model;
    std::vector<Sheet> regions;
    std::vector<HalfEdge> beyond = {}; ///< of the rest, where they should become one edge with the ones before them

    /// The faces of regions with a mark, rising.
    [[nodiscard]] std::vector<Face> marked(std::size_t mark) const;
};

/// A closed surface of regions put together as the model of a solid, without the rest. Throws `why` where the surface isn't closed, or faces lie back to back
/// at an edge.
Combined assembled(const Held &held, const std::vector<Sheet> &regions, AllNames &names, Solid solid, const Failure &why);

} // namespace gwb_session::sheets
