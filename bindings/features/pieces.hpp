/// @file pieces.hpp Parts of lines between two points that nothing cuts: of the edges of solids, and of the lines along which their faces meet.
#pragma once
#include "operands.hpp"

namespace gwb_session::pieces {

using namespace operands;

/// A face at a piece, which lies left of it as it runs, or right; and the half-edge of the face there, as the piece runs: none within the face.
struct Wing {
    Number face;
    bool is_left;
    HalfEdge half = HalfEdge();
};

/// Whether something lies within the first solid, and within how many others.
struct Within {
    bool first = false;
    Number others = 0;

    /// It lies so against a solid of which nothing was known.
    void put(Number solid, bool is_within)
    {
        if (solid == 0)
            first = is_within;
        else if (is_within)
            others++;
    }
    /// It goes into a solid, or out of it.
    void pass(Number solid, bool is_into)
    {
        if (solid == 0)
            first = is_into;
        else
            is_into ? others++ : others--;
    }
};

/// A piece, the faces of solids at it (within a face both sides), and within which of those it lies that have none there.
struct Piece {
    Number from, to;
    Vector way;
    std::vector<Wing> wings = {};
    Within within = {};

    [[nodiscard]] bool has(const Wing &wing) const
    {
        return any(wings, [&](const Wing &other) { return other.face == wing.face && other.is_left == wing.is_left && other.half == wing.half; });
    }
};

/// A part of the line in which the planes of two faces of different solids meet that lies within both, or within one and along an edge of the other one, the
/// way being from its first point to the last. None stands for that other face.
struct Trace {
    Number from, to;
    Vector way;
    std::array<Number, 2> faces;
    Number edge;
    std::vector<Number> stops = {}; ///< where it is cut
};

/// All pieces: one between two points, whichever way it is asked for.
class Pieces {
public:
    explicit Pieces(Operands &all) : all_(all) {}

    [[nodiscard]] std::vector<Piece> &all() { return pieces_; }
    /// That between two points, which runs this way where it is new.
    Piece &between(Number from, Number to, const Vector &way);
    /// Those of a trace, between its stops.
    void put_trace(Trace &trace);
    /// Those of edges, between the points at which they are cut, which come to lie in order.
    void put_edges();
    /// Edges of one face that lie in the plane of another, of another solid, are within that or not.
    void put_in_plane(Number face, Number other);

private:
    /// Points along a line one way, each once.
    void sort(std::vector<Number> &stops) const;
    /// It lies within a face.
    void put_across(Piece &piece, Number face);
    void put_wing(Piece &piece, const Wing &wing);
    void put_edge(CutEdge &edge);
    /// A part of an edge lies within a face.
    void put_within(const CutEdge &edge, Number of, Number from, Number to, Number face);

    Operands &all_;
    std::vector<Piece> pieces_;
    std::unordered_map<std::uint64_t, std::size_t> places_; ///< by the points
};

} // namespace gwb_session::pieces
