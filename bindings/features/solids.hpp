/// @file solids.hpp What is done with items, free numbers, and the lists of what was made.
#pragma once
#include "exact.hpp"
#include "gwb_made.hpp"
#include "throwing.hpp"
#include <set>

namespace gwb_session {

// ---- items

/// Items after those that are there.
template <class Item, class Added> void append(std::vector<Item> &to, const Added &added) { to.insert(to.end(), added.begin(), added.end()); }
/// Whether a test holds for all of them, or for any.
template <class All, class Test> bool all(const All &items, Test test) { return std::all_of(std::begin(items), std::end(items), test); }
template <class All, class Test> bool any(const All &items, Test test) { return std::any_of(std::begin(items), std::end(items), test); }
/// Those for which it holds.
template <class All, class Test> auto filtered(const All &items, Test test)
{
    std::vector<std::decay_t<decltype(*items.begin())>> found;
    std::copy_if(items.begin(), items.end(), std::back_inserter(found), test);
    return found;
}
/// What a function makes of each.
template <class All, class Of> auto mapped(const All &items, Of of)
{
    std::vector<std::decay_t<decltype(of(*items.begin()))>> found;
    if constexpr (std::is_convertible_v<typename std::iterator_traits<decltype(items.begin())>::iterator_category, std::forward_iterator_tag>)
        found.reserve(items.size());
    std::transform(items.begin(), items.end(), std::back_inserter(found), of);
    return found;
}

// ---- free numbers

/// The greatest number that a thing of a model can have.
constexpr std::uint32_t greatest_number = 1'000'000;

/// Free numbers of a kind, above all in use.
template <class Kind> class FreeNumbers {
public:
    explicit FreeNumbers(const Bench &bench) : bench_(bench), last_(bench.greatest<Kind>().number()) {}
    /// The next one. Where none is left it is out of range, so that operators refuse it.
    Kind spare() { return Kind(++last_); }
    /// The first of these old numbers that this hasn't given yet, else the next one.
    template <class Numbers> Kind one(const Numbers &wanted)
    {
        for (Kind number : wanted)
            if (number != Kind() && given_.insert(number).second)
                return number;
        return spare();
    }
    /// The next one, or where none is left the least of those below that aren't in use.
    Kind take()
    {
        if (last_ < greatest_number)
            return spare();
        std::uint32_t used = 0;
        do
            gap_++;
        while (gap_ <= greatest_number && gwb_number_after(bench_.handle(), Kind::kind, gap_ - 1, &used) == GWB_FOUND && used == gap_);
        return Kind(gap_);
    }
    [[nodiscard]] bool is_spent() const { return std::max(last_, gap_) > greatest_number; }

private:
    const Bench &bench_;
    std::uint32_t last_, gap_ = 0;
    std::set<Kind> given_;
};

/// Free numbers of all kinds.
struct AllNames {
    FreeNumbers<Solid> solids;
    FreeNumbers<Face> faces;
    FreeNumbers<Loop> loops;
    FreeNumbers<Edge> edges;
    FreeNumbers<Vertex> vertices;

    explicit AllNames(const Bench &bench) : solids(bench), faces(bench), loops(bench), edges(bench), vertices(bench) {}

    /// Refuses a kind of which none was left.
    void require_enough() const
    {
        std::uint32_t kind = GWB_SOLID;
        for (bool is_spent : {solids.is_spent(), faces.is_spent(), loops.is_spent(), edges.is_spent(), vertices.is_spent()})
            if (kind++; is_spent)
                throw Failure{Problem::refused, GWB_WHY_NUMBERS_SPENT, kind};
    }
};

/// Lists of what was made, by enum gwb_list.
using Lists = std::array<std::vector<std::uint32_t>, GWB_MADE_SOLIDS + 1>;

} // namespace gwb_session
