/// @file booleans.hpp What is made of several solids, which may cross, touch, lie apart or within each other; and of one whose faces are joined.
#pragma once
#include "combining.hpp"

namespace gwb_session::booleans {

using namespace combining;

enum class Operation { unite, subtract, intersect };

/// Faces that there are, and those of all solids as they were that went into them.
using Sources = std::map<Face, std::set<Face>>;

/// What faces of a solid come to with the flat faces of other operands, each of which closes round some room, or is a solid too, of which only faces near
/// the others are there. The solid's come first. Refused: NotFlat. Not possible: OffLattice. Throws `why` where one of them, or what is made where they
/// meet, touches itself.
std::vector<Sheet> laid(const Bench &bench, Operation operation, Solid first, const std::vector<std::vector<Sheet>> &operands, const Failure &why,
                        const std::map<std::size_t, Solid> &others = {}, const operands::Behind &behind = {});

/// The first of some solids becomes what is made of them all at once: all, the first without the others, or what all have in common; the others go. Refused:
/// NoSolid; NotFlat. Not possible: OffLattice; Meets; NothingLeft.
Sources combine(Bench &bench, Operation operation, std::vector<Solid> solids);

/// Faces of one plane beside each other become one, and so do edges that go on straight. Refused: NoSolid; NotFlat. Not possible: Meets.
Sources join_faces(Bench &bench, Solid solid);

/// Writes down each face that became part of another one, or several, with what it went into.
void tell(const Sources &sources, std::vector<std::uint32_t> &list);

} // namespace gwb_session::booleans
