/// @file sheets.hpp Flat regions: the faces of a solid, and what is made of them.
#pragma once
#include "machining.hpp"
#include <unordered_map>

namespace gwb_session::sheets {

using namespace machining;

/// A flat region, the outline first: the faces that it is of, and the marks by which it is told what else went into it. Its normal is reduced.
struct Sheet : Shape {
    std::vector<Face> owners;
    std::vector<std::size_t> marks;
    Face face = {}; ///< of a region, the one that it is
};

// ---- sides traced as cycles

/// The cycles of sides, which rise: from each side on to the one that bounds the same corner of the region, each from its least side on, and these rising.
/// Throws `why` where there is none.
std::vector<Cycle> cycles_of(const std::vector<Side> &sides, Axes axes, const Failure &why);

/// The regions that sides bound, the outline of each and then its holes, the largest first; where they touch in a point they stay apart. Throws `why`
/// where the sides make no outlines, or a hole lies in none.
std::vector<std::vector<Cycle>> regions_of(const std::vector<Side> &sides, const Vector &across, const Failure &why);

/// Thrown where what is far of several faces may come together.
struct FarInTheWay {};

// ---- sets

/// Sets that only grow together.
template <class Member> class JoinedSets {
public:
    Member name(Member member)
    {
        for (auto above = above_.find(member); above != above_.end(); above = above_.find(member)) {
            const Member *beyond = look_up(above_, above->second);
            member = above->second = beyond != nullptr ? *beyond : above->second;
        }
        return member;
    }
    void join(Member kept, Member gone)
    {
        if (const Member first = name(kept), second = name(gone); first != second)
            above_[second] = first;
    }

private:
    std::unordered_map<Member, Member> above_; ///< of those that aren't the name of their set
};

} // namespace gwb_session::sheets
