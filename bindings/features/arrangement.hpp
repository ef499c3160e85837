/// @file arrangement.hpp What solids with flat faces come to together. Their edges, and the lines along which their faces meet, are cut into pieces; what lies
/// round each piece within which solid tells the faces of what is made of both. All of it is exact, also where points aren't whole.
#pragma once
#include "outlines.hpp"
#include "within.hpp"

namespace gwb_session::arrangement {

using exact::Box;
using outlines::Joins;
using sectors::Made;
using sheets::Sheet;
using within::IsWithin;

/// Solids of which something is made, each by its faces, perhaps by those near the others alone, and a box beyond which nothing lies within it.
struct Solids {
    const std::vector<std::vector<Sheet>> &faces;
    std::vector<Box> boxes;
    IsWithin is_within;
    operands::Behind behind = {};
};

/// The faces of what is made of them. Not possible: OffLattice, with the least factor by which all must be scaled, or 0. Throws `why` where one of them
/// touches itself, or what is made does where they meet.
std::vector<Sheet> made_of(const Solids &solids, const Made &made, Joins joins, const Failure &why);

} // namespace gwb_session::arrangement
