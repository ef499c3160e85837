/// @file parts.hpp Faces of a solid as a model of their own.
#pragma once
#include "rows.hpp"
#include "sheets.hpp"

namespace gwb_session::sheets {

/// Faces of a solid as a model of their own. In loops and among edges runs stand for what lies far.
struct Model {
    Solid solid;
    Table<Face, std::vector<Loop>> faces; ///< their loops, the outer one first
    Table<Loop, std::vector<HalfEdge>> loops;
    Table<Loop, Vertex> lone; ///< of loops without half-edges
    Table<Edge, std::pair<Vertex, Vertex>> edges;
    Table<Vertex, Vector> vertices;
    Table<HalfEdge, std::shared_ptr<const Chain>> runs;

    explicit Model(Solid of = {}) : solid(of) {}

    /// The cycles of a face, the outline first.
    [[nodiscard]] std::vector<Cycle> cycles(Face face) const;
    [[nodiscard]] Vertex start(HalfEdge half) const
    {
        const auto &ends = edges.at(half.edge());
        return half.is_second() ? ends.second : ends.first;
    }
    [[nodiscard]] const Vector &at(HalfEdge half) const { return vertices.at(start(half)); }
    [[nodiscard]] Side side(HalfEdge half) const
    {
        const auto *run = runs.find(half);
        return {at(half), at(half.twin()), half, run != nullptr ? run->get() : nullptr};
    }

    /// Takes in a face of a workbench with all of its loops.
    void read(const Bench &bench, Face face);
    /// Takes in a loop, or of one that has an edge what is near.
    void read(const Bench &bench, Loop loop);
    void read(const Bench &bench, Loop loop, const Chain::Near &near);
    /// The edges of loops that were taken in, and their vertices: once all are there.
    void read_edges(const Bench &bench);
    /// All of a solid. Refused: NoSolid.
    static Model whole(const Bench &bench, Solid solid);
    /// Takes in all of a model of others.
    void take_in(const Model &other);
    /// What this one is where a part of it has become another one.
    [[nodiscard]] Model with(const Model &part, const Model &made) const;
};

/// Faces of a model as rows of a solid; and all of it.
rows::Rows rows_of(const Model &model, const std::vector<Face> &faces, Solid solid);
rows::Rows rows_of(const Model &model);

/// A solid becomes what a model of all of it says.
void make_anew(Bench &bench, const Model &model);

} // namespace gwb_session::sheets
