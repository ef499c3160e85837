#include "uniting.hpp"
#include "sheets.hpp"

namespace gwb_session::uniting {

namespace {

/// A face of a solid.
struct Owned {
    Solid solid;
    Face face;
};

/// Two faces of different solids that go through the same points in opposite directions.
using Match = std::pair<Owned, Owned>;

/// The faces that match, in the order of the solids and their faces. Faces with rings match none.
std::vector<Match> matches(const Bench &bench, Items<Solid> solids)
{
    std::map<Path, std::vector<Owned>> seen;
    std::vector<Match> found;
    for (Solid solid : solids) {
        require_solid(bench, solid);
        for (Face face : bench.faces(solid)) {
            if (!bench.rings(face).empty())
                continue;
            const Path path = from_least(mapped(cycles_at(bench, face)[0], [](const Side &side) { return side.start; }));
            for (const Owned &other : seen[from_least(backwards(path))])
                if (other.solid != solid)
                    found.push_back({other, Owned{solid, face}});
            seen[path].push_back({solid, face});
        }
    }
    return found;
}

/// Matches along which solids join the first one, the face of one that has joined before first in each; and why not all do, or some are left.
struct Tree {
    std::vector<Match> matches;
    std::optional<FailureAt> failure;
};

/// Each time the first match of which one solid has joined.
Tree tree_of(const std::vector<Match> &all, Items<Solid> solids)
{
    std::map<Solid, std::vector<std::size_t>> of; // the places of a solid's matches
    for (std::size_t at = 0; at < all.size(); at++)
        for (Solid solid : {all[at].first.solid, all[at].second.solid})
            of[solid].push_back(at);
    std::set<Solid> joined;
    std::set<std::size_t> ready; // the matches of which one solid has joined
    std::vector<bool> is_left(all.size(), true);
    const auto join = [&](Solid solid) {
        joined.insert(solid);
        for (std::size_t at : of[solid])
            if (!ready.insert(at).second)
                ready.erase(at);
    };
    Tree found;
    for (join(*solids.begin()); !ready.empty();) {
        auto [one, other] = all[*ready.begin()];
        if (joined.count(one.solid) == 0)
            std::swap(one, other);
        found.matches.emplace_back(one, other);
        is_left[*ready.begin()] = false;
        join(other.solid);
    }
    const auto alone = std::find_if(solids.begin(), solids.end(), [&](Solid solid) { return joined.count(solid) == 0; });
    const auto left = std::find(is_left.begin(), is_left.end(), true);
    if (alone != solids.end())
        found.failure = impossible(Misfit::no_match, alone->number());
    else if (left != is_left.end())
        found.failure = impossible(Misfit::glued_twice, all[static_cast<std::size_t>(left - is_left.begin())].first.face.number());
    return found;
}

} // namespace

void glue_all(Bench &bench, Items<Solid> solids)
{
    const Tree tree = tree_of(matches(bench, solids), solids);
    sheets::JoinedSets<Solid> parts;
    for (std::vector<Match> left = tree.matches, later; !left.empty(); left = std::exchange(later, {})) { // in rounds: so each solid is read a few times
        std::set<Solid> glued; // each once in a round
        for (const auto &match : left) {
            const Solid one = parts.name(match.first.solid), other = parts.name(match.second.solid);
            if (glued.count(one) + glued.count(other) != 0) {
                later.push_back(match);
                continue;
            }
            go_on();
            bench.glue(match.first.face, match.second.face);
            parts.join(one, other);
            glued.insert({one, other});
        }
    }
    if (tree.failure)
        throw *tree.failure;
}

} // namespace gwb_session::uniting
