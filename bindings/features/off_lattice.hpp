/// @file off_lattice.hpp What is to be said of a split that is refused since its points aren't whole (NotLattice): where the plane cuts edges, by how
/// much the model would have to be scaled, and which planes nearby would do.
///
/// It takes time by the edges of the solid for each of some 14,000 planes at most, of which nearly all are given up at their first edge.
#pragma once
#include "surroundings.hpp"

namespace gwb_session::cutting {

using namespace machining;

/// A fraction by its least terms, of which the second is above zero.
struct Fraction {
    Wide numerator = 0, denominator = 1;

    static Fraction of(Wide numerator, Wide denominator)
    {
        const Wide divisor = denominator < 0 ? -greatest_divisor(numerator, denominator) : greatest_divisor(numerator, denominator);
        return {numerator / divisor, denominator / divisor};
    }
    [[nodiscard]] bool is_whole() const { return denominator == 1; }
    [[nodiscard]] double value() const { return static_cast<double>(numerator) / static_cast<double>(denominator); }
    /// As 7/2, or 7 where it is whole.
    [[nodiscard]] std::string text() const { return is_whole() ? digits(numerator) : digits(numerator) + "/" + digits(denominator); }

    /// A whole number in decimal digits.
    static std::string digits(Wide number);
};

/// Where a plane cuts an edge between its ends.
struct EdgeCut {
    Edge edge;
    std::array<Fraction, 3> point;
};

/// A cut of a solid by a plane, of which some points may not be whole.
struct OffLattice {
    Solid solid;
    gwb_cut_plane plane;
    std::vector<EdgeCut> cuts; ///< of all edges that the plane cuts, rising
    /// The least by which the model must be multiplied for all points of the cut to be whole: 1 where they are, 0 where it passes 10^36.
    Wide factor = 1;
    /// Whether the model times the factor stays within 1,000,000,000, and the plane in its range: then the plane a, b, c, d times the factor
    /// cuts it at whole points.
    bool fits = true;
    std::vector<gwb_near_plane> near; ///< that cut at whole points: the nearest parallel plane, where there is one, and then tilted ones, the nearest first

    /// Lines of a script: comments, and the splits that would do, with the number for the solid above the plane.
    [[nodiscard]] std::string advice(Solid above) const;
};

/// What is to be said of a plane that cuts a solid, with so many tilted planes at most. Refused: NoSolid; PlaneRange.
OffLattice made(const Bench &bench, Solid solid, const gwb_cut_plane &row, std::size_t most);

} // namespace gwb_session::cutting
