/// @file combining.hpp A solid of which flat regions are added to the faces near a place, and how it is made: for booleans.hpp, tools.hpp and cuts.hpp.
#pragma once
#include "changing.hpp"
#include "operands.hpp"

namespace gwb_session::combining {

using namespace sheets;

/// Whether a point lies in the room that walls bound, and on none of them: by the parity of crossings of a ray that meets no edge. Of the rays
/// (1, k, k k) at most two lie in any plane through the point, so only finitely many meet an edge.
bool is_bound(const std::vector<Sheet> &walls, const ScaledPoint &point);

/// The faces of a model as sheets. Refused: NotFlat: a face has no area, a lone loop or an edge without a length.
std::vector<Sheet> sheets_of(const Model &model);

/// Refuses sheets that aren't flat: NotFlat.
void require_flat(const std::vector<Sheet> &sheets);

/// A solid that goes into another one: the box near which its faces are looked at, where it isn't whole; and whether what is far of it stays.
struct Operand {
    Solid solid;
    std::optional<Box> near;
    bool stays;
    Model whole = Model(); ///< where there is no box
};

/// What comes of the faces of solids near each other, as regions. Some of the faces lie behind edges.
using Lay = std::function<std::vector<Sheet>(const std::vector<std::vector<Sheet>> &, const operands::Behind &)>;

/// Makes what `lay` says of solids, by steps on the faces that differ, without the loops elsewhere, else with the wanted ones; where that can't be, all is made
/// anew: the first one becomes that, and the others go.
Combined make_of(Bench &bench, const std::vector<Operand> &operands, const Failure &why, const Lay &lay);

} // namespace gwb_session::combining
