/// @file operands.hpp Solids of which something is made: their faces and edges with the points at which they meet, and where these lie on each.
#pragma once
#include "points.hpp"
#include "sheets.hpp"
#include <memory>

namespace gwb_session::operands {

using namespace sheets;
using namespace integers;
using points::none;
using points::Number;
using points::Points;

/// A face, with the corners, ends and edges of its sides.
struct FlatFace {
    const Sheet *sheet;
    Number solid;
    std::vector<Number> corners = {}, nexts = {}, edges = {};
    bool is_met = false;                      ///< by another solid
    bool has_run = false;                     ///< so that of its sides those near are there
    std::unique_ptr<BoxIndex> by_boxes = {};  ///< the places of its sides, where these are many
    std::vector<Number> touched = {};         ///< of more than two solids: points within it at which corners and edges of others lie
};

/// An edge, as its first half-edge runs, with the faces left of it and right, and the points at which it is cut.
struct CutEdge {
    Side side;
    Number from, to, solid, left = none, right = none;
    std::vector<Number> stops = {};
    std::vector<std::pair<Number, Number>> passed = {}; ///< faces whose planes it passes, with the points there
};

/// Where a point lies on a solid: at a corner, in an edge or in a face of this number.
struct Spot {
    enum { nowhere, corner, edge, face } what = nowhere;
    Number number = 0;
};

/// A face lies behind each of these edges, but isn't there: it lies against other solids as the face does that has the corner.
using Behind = std::unordered_map<Edge, Vector>;

/// Solids by their faces.
class Operands {
public:
    /// Beyond its box nothing lies within a solid: none are there where that isn't asked.
    explicit Operands(const std::vector<std::vector<Sheet>> &solids, const std::vector<Box> &boxes = {}, const Behind &behind = {});

    Points points;
    std::vector<FlatFace> faces; ///< those of the first solid first, and so on
    std::vector<CutEdge> edges;

    [[nodiscard]] Number count() const { return static_cast<Number>(firsts_.size() - 1); }
    /// The first face of a solid: that of the one after it comes after its last one.
    [[nodiscard]] Number first_face(Number solid) const { return firsts_[solid]; }
    /// A box beyond which nothing lies within a solid.
    [[nodiscard]] const Box &box(Number solid) const { return around_[solid]; }

    [[nodiscard]] const Sheet &sheet(Number face) const { return *faces[face].sheet; }
    /// Edges, and corners of faces that lie as those behind them do.
    [[nodiscard]] const std::vector<std::pair<Number, Number>> &behind() const { return behind_; }
    [[nodiscard]] const CutEdge &edge(HalfEdge half) const { return edges[edge_numbers_.at(half.edge())]; }

    /// Whether the sides of a face are so many that those near something are looked up.
    [[nodiscard]] bool is_large(Number face) const { return faces[face].has_run || faces[face].edges.size() > many_sides; }
    /// Puts in the places of the sides of a face near a box, but for runs: all of a face that isn't large.
    template <class Put> void each_side_near(Number face, const Box &box, Put put)
    {
        if (is_large(face)) {
            for (std::size_t at : sides_by_boxes(face).meeting(box))
                if (sheet(face).sides[at].run == nullptr)
                    put(at);
            return;
        }
        for (std::size_t at = 0; at < faces[face].edges.size(); at++)
            put(at);
    }
    /// Where a point of the plane of a face lies.
    [[nodiscard]] Place locate(Number face, const ScaledPoint &point);

    /// A point lies on another solid, and on this face, at its corner or within; or on this edge, within or at its ends.
    void touch_face(Number face, Number point, bool is_corner);
    void touch_edge(Number edge, Number point);
    void put_spot(Number solid, Number point, const Spot &spot);
    [[nodiscard]] Spot spot(Number solid, Number point) const;
    /// The points that lie on several solids, but for fine ones.
    [[nodiscard]] std::vector<ScaledPoint> common() const;

private:
    static constexpr std::size_t many_sides = 48;

    void put(const Sheet &sheet, Number solid);
    [[nodiscard]] const BoxIndex &sides_by_boxes(Number face);

    std::unordered_map<Edge, Number> edge_numbers_;
    std::vector<Number> firsts_;
    std::vector<Box> around_;
    /// Where a point lies on a solid that has it, and the next such row of the point.
    struct Row {
        Number solid;
        Spot spot;
        Number next;
    };
    std::vector<Row> rows_;
    std::vector<Number> first_rows_; ///< of points
    std::vector<std::pair<Number, Number>> behind_;
};

} // namespace gwb_session::operands
