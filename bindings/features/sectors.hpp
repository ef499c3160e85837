/// @file sectors.hpp What lies round each piece: faces sorted by their turn, and between them sectors within solids or not. So it is told where something that
/// is made of them has faces.
#pragma once
#include "pieces.hpp"

namespace gwb_session::sectors {

using namespace pieces;

/// Whether a place lies within what is made, by whether it lies within the solids. A table, so that one can be kept.
struct Made {
    std::array<std::array<bool, 2>, 2> table; ///< by the first solid, then by whether it lies within one of the others
    bool takes_all = false;                   ///< whether within all of the others counts, in place of one

    [[nodiscard]] bool at(const Within &within, Number others) const
    {
        return table[within.first][takes_all ? within.others == others : within.others != 0];
    }
};

/// A piece that bounds a face of what is made, which lies on its left.
struct Bound {
    Number from, to;
    Vector way;                      ///< of the piece, from the first point on
    Number owner;                    ///< the least face that this face is a part of
    bool is_turned;                  ///< whether it looks the other way than its owner
    HalfEdge half;                   ///< an old one that this is a part of, as it runs, or none
    std::vector<Number> others = {}; ///< faces besides that this face is a part of
};

/// Two sides of one piece whose faces go on into each other in one plane.
struct Seam {
    Bound left, right;
};

struct Bounds {
    std::vector<Bound> kept;
    std::vector<Seam> seams;
};

/// The bounds of what is made. Throws `why` where that touches itself at a piece of several solids, or a solid does.
Bounds turned_round(const Operands &all, const std::vector<Piece> &pieces, const Made &made, const Failure &why);

} // namespace gwb_session::sectors
