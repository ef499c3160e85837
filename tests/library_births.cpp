// Births (gwb_birth) beside whole copies of what is in use: random calls, lines and features with undo, redo, drafts, marks, partial ones too, loads and
// renumbering, watched from the beginning, from later on, or from within a draft. One birth is one thing's, always. And what became of things (gwb_became),
// beside what the whole model says, pair by pair; and requests for memory refused in turn. The last line counts.
//
//     library_births [RUNS]     so many runs of 300 calls: 150 where none is said
#include "checks.h"
#include "gwb_features.h"
#include <cstdio>
#include <cstdlib>
#include <algorithm>
#include <array>
#include <map>
#include <set>
#include <string>
#include <vector>

namespace {

// What is in use, by kinds and numbers, and which thing each is.
using Key = std::pair<std::uint32_t, std::uint32_t>;
using Things = std::map<Key, std::uint64_t>;

// What was before a command, or what was when births began in its draft.
struct Held {
    bool is_known;
    Things things;
};

// What is there after a call of a draft, and which things are where some of its steps are taken back: after renumbering others.
struct Step {
    std::size_t mark;
    Things things, in_part;
};

// ---- what became of things, from whole models

__extension__ typedef __int128 Wide;
using Vector = std::array<Wide, 3>;
Vector from_to(const gwb_point &a, const gwb_point &b) { return {Wide{b.x} - a.x, Wide{b.y} - a.y, Wide{b.z} - a.z}; }
Wide dot(const Vector &a, const Vector &b) { return a[0] * b[0] + a[1] * b[1] + a[2] * b[2]; }
Vector cross(const Vector &a, const Vector &b) { return {a[1] * b[2] - a[2] * b[1], a[2] * b[0] - a[0] * b[2], a[0] * b[1] - a[1] * b[0]}; }
bool is_zero(const Vector &a) { return a == Vector{}; }
bool are_same(const gwb_point &a, const gwb_point &b) { return is_zero(from_to(a, b)); }

// A side of a face.
struct Side {
    std::uint32_t half, face, vertex;
    gwb_point from, to;
};
using Thing = std::pair<std::uint32_t, std::uint64_t>; // its number and birth

// All sides, and births, of a session.
struct Whole {
    explicit Whole(const gwb *g)
    {
        std::vector<gwb_half_edge_row> rows(gwb_read_half_edges(g, 0, nullptr, 0));
        gwb_read_half_edges(g, 0, rows.data(), rows.size());
        std::map<std::uint32_t, gwb_point> starts;
        for (const gwb_half_edge_row &row : rows)
            gwb_vertex(g, row.start, &starts[row.half_edge]);
        for (const gwb_half_edge_row &row : rows) {
            sides.push_back({row.half_edge, row.face, row.start, starts[row.half_edge], starts[row.half_edge ^ 1]});
            for (const auto &[kind, number] : {std::pair(GWB_FACE, row.face), std::pair(GWB_EDGE, row.half_edge / 2), std::pair(GWB_VERTEX, row.start)})
                births[kind][number] = gwb_birth(g, kind, number);
        }
        for (const Side &side : sides) {
            const Vector part = cross(from_to({0, 0, 0}, side.from), from_to({0, 0, 0}, side.to));
            for (std::size_t i = 0; i < 3; i++)
                across[side.face][i] += part[i];
        }
    }
    [[nodiscard]] Thing thing(std::uint32_t kind, std::uint32_t number) const { return {number, births.at(kind).at(number)}; }
    [[nodiscard]] Thing edge(const Side &side) const { return thing(GWB_EDGE, side.half / 2); }
    [[nodiscard]] Thing face(const Side &side) const { return thing(GWB_FACE, side.face); }
    [[nodiscard]] Thing vertex(const Side &side) const { return thing(GWB_VERTEX, side.vertex); }

    // What tells whether something is as it was: a vertex with its point, an edge with its ends, a face with its sides.
    using Look = std::vector<std::array<std::int64_t, 7>>;
    [[nodiscard]] std::map<std::pair<std::uint32_t, Thing>, Look> looks() const
    {
        std::map<std::pair<std::uint32_t, Thing>, Look> found;
        for (const Side &side : sides) {
            const std::array<std::int64_t, 7> here = {side.half, side.from.x, side.from.y, side.from.z, side.to.x, side.to.y, side.to.z};
            found[{GWB_FACE, face(side)}].push_back(here);
            if (side.half % 2 == 0)
                found[{GWB_EDGE, edge(side)}].push_back(here);
            found[{GWB_VERTEX, vertex(side)}] = {{side.from.x, side.from.y, side.from.z}};
        }
        for (auto &[key, look] : found)
            std::sort(look.begin(), look.end());
        return found;
    }

    std::vector<Side> sides;
    std::map<std::uint32_t, std::map<std::uint32_t, std::uint64_t>> births;
    std::map<std::uint32_t, Vector> across;
};

// Whether two sides have more than a point in common.
bool have_part(const Side &one, const Side &other)
{
    const Vector way = from_to(one.from, one.to), from = from_to(one.from, other.from), to = from_to(one.from, other.to);
    if (is_zero(way) || !is_zero(cross(way, from)) || !is_zero(cross(way, to)))
        return false;
    const Wide a = dot(way, from), b = dot(way, to);
    return std::max(a, b) > 0 && std::min(a, b) < dot(way, way) && a != b;
}

bool is_one_way(const Vector &a, const Vector &b) { return is_zero(cross(a, b)) && dot(a, b) >= 0 && is_zero(a) == is_zero(b); }

using Row = std::tuple<std::uint32_t, Thing, Thing>;

// All rows that there may be, and those of them that there must be, as what was made or changed is of solids that were touched.
struct Rows {
    Rows(const Whole &was, const Whole &is) : before(was.looks()), after(is.looks())
    {
        for (const Side &old : was.sides)
            for (const Side &made : is.sides) {
                if (are_same(old.from, made.from))
                    add(GWB_VERTEX, was.vertex(old), is.vertex(made));
                if (!have_part(old, made))
                    continue;
                add(GWB_EDGE, was.edge(old), is.edge(made));
                if (dot(from_to(old.from, old.to), from_to(made.from, made.to)) > 0 && is_one_way(was.across.at(old.face), is.across.at(made.face)))
                    add(GWB_FACE, was.face(old), is.face(made));
            }
    }
    void add(std::uint32_t kind, const Thing &old, const Thing &made)
    {
        const auto there = after.find({kind, old}), was = before.find({kind, made});
        if (old == made || (there != after.end() && there->second == before.at({kind, old})))
            return;
        may.insert({kind, old, made});
        if (was == before.end() || was->second != after.at({kind, made}))
            must.insert({kind, old, made});
    }

    std::map<std::pair<std::uint32_t, Thing>, Whole::Look> before, after;
    std::set<Row> may, must;
};

class Run {
public:
    explicit Run(std::uint64_t seed) : state_(seed * 7919 + 5)
    {
        if (!gwb_open(&g_))
            std::abort();
    }
    Run(const Run &) = delete;
    Run &operator=(const Run &) = delete;
    ~Run() { gwb_close(&g_); }

    void go(int turns)
    {
        const int begins = static_cast<int>(below(3) == 0 ? below(60) : 0);
        for (int turn = 0; turn < turns; turn++) {
            if (turn == begins)
                begin();
            if (turn > begins && below(12) == 0 && gwb_greatest_number(&g_, GWB_EDGE) < 160)
                step_that_is_compared();
            else
                step();
            if (turn >= begins)
                compare();
        }
    }

    static std::map<std::string, long> counts;

private:
    std::uint32_t below(std::uint32_t n) { return at_random(&state_, n); }

    // ---- what is in use

    [[nodiscard]] std::vector<Key> in_use() const
    {
        std::vector<Key> found;
        for (std::uint32_t kind = GWB_SOLID; kind <= GWB_VERTEX; kind++)
            for (std::uint32_t number = 0; gwb_number_after(&g_, kind, number, &number) == GWB_FOUND;)
                found.emplace_back(kind, number);
        return found;
    }
    // What is in use: the same as in one of these, first of all in the first one, else new.
    Things carried(const Things &from, const Things &or_from = {})
    {
        Things made;
        for (const Key &key : in_use()) {
            const auto was = from.find(key), or_was = or_from.find(key);
            made[key] = was != from.end() ? was->second : or_was != or_from.end() ? or_was->second : ++things_;
        }
        return made;
    }
    void compare()
    {
        bool is_right = true;
        for (const auto &[key, thing] : now_) {
            const std::uint64_t birth = gwb_birth(&g_, key.first, key.second);
            const auto known = births_.find(thing);
            is_right = is_right && birth != 0 && (known != births_.end() ? known->second == birth : of_.emplace(std::pair(key.first, birth), thing).second);
            births_[thing] = birth;
        }
        check(is_right, ("a birth that isn't one thing's, after " + last_).c_str());
    }
    void begin()
    {
        const bool is_well = gwb_watch(&g_, below(2) == 0) == GWB_OK;
        check(is_well, "no watch");
        is_watched_ = true;
        now_ = carried({});
        held_.clear(), ahead_.clear();
        start_ = {false, now_};
        begun_ = gwb_mark(&g_);
        steps_ = {{begun_, now_, now_}};
    }

    // ---- what is done

    std::uint32_t any(std::uint32_t kind)
    {
        std::uint32_t number = 0;
        if (gwb_number_after(&g_, kind, below(static_cast<std::uint32_t>(gwb_greatest_number(&g_, kind)) + 1), &number) != GWB_FOUND)
            (void)gwb_number_after(&g_, kind, 0, &number);
        return number;
    }
    std::uint32_t free_number(std::uint32_t kind)
    {
        std::uint32_t number = below(2) == 0 ? 1 + below(40) : static_cast<std::uint32_t>(gwb_greatest_number(&g_, kind)) + 1, found = 0;
        while (gwb_number_after(&g_, kind, number - 1, &found) == GWB_FOUND && found == number)
            number++;
        return number;
    }
    std::uint32_t half_edge() { return 2 * any(GWB_EDGE) + below(2); }
    // A half-edge that starts where another one does or in its loop, so that more is accepted.
    std::uint32_t beside(std::uint32_t half)
    {
        std::uint32_t next = half;
        for (std::uint32_t times = below(4); times > 0; times--)
            (void)gwb_next_half_edge(&g_, next, &next);
        return next;
    }
    static std::string half_text(std::uint32_t half) { return (half % 2 == 0 ? "+" : "-") + std::to_string(half / 2); }
    gwb_kind line(const std::string &text)
    {
        last_ = text;
        return gwb_line(&g_, text.data(), text.size());
    }

    gwb_kind an_operator()
    {
        const std::uint32_t half = half_edge(), other = beside(half), ring = any(GWB_LOOP), face = any(GWB_FACE);
        switch (below(11)) {
        case 0: return gwb_mvfs(&g_, free_number(GWB_SOLID), free_number(GWB_FACE), free_number(GWB_LOOP), free_number(GWB_VERTEX), 1, 2, 3);
        case 1: return gwb_mev(&g_, half, half, free_number(GWB_EDGE), free_number(GWB_VERTEX), below(9), below(9), below(9));
        case 2: return gwb_mef(&g_, half, other, free_number(GWB_EDGE), free_number(GWB_FACE), free_number(GWB_LOOP));
        case 3: return gwb_kev(&g_, half);
        case 4: return gwb_kef(&g_, half);
        case 5: return gwb_kemr(&g_, half, free_number(GWB_LOOP));
        case 6: return gwb_mekr(&g_, half, below(2) == 0 ? GWB_LONE(ring) : half_edge(), free_number(GWB_EDGE));
        case 7: return gwb_mfkrh(&g_, ring, free_number(GWB_FACE));
        case 8: return gwb_kfmrh(&g_, face, any(GWB_FACE));
        case 9: return gwb_merge(&g_, any(GWB_SOLID), any(GWB_SOLID));
        default: return gwb_kvfs(&g_, any(GWB_SOLID));
        }
    }
    gwb_kind a_line()
    {
        const std::uint32_t half = half_edge();
        const std::string edge = std::to_string(free_number(GWB_EDGE)), face = std::to_string(free_number(GWB_FACE)), loop = std::to_string(free_number(GWB_LOOP));
        switch (below(5)) {
        case 0: return line("\tblock  " + std::to_string(free_number(GWB_SOLID)) + " " + std::to_string(10 * below(9)) + " -7 0 4 4 4 ");
        case 1: return line("mev " + half_text(half) + " " + half_text(half) + " " + edge + " " + std::to_string(free_number(GWB_VERTEX)) + " -3 +4 5");
        case 2: return line("mef " + half_text(half) + "\t" + half_text(beside(half)) + " " + edge + " " + face + " " + loop);
        case 3: return line("split " + std::to_string(any(GWB_SOLID)) + " 0 0 1 -2 " + std::to_string(free_number(GWB_SOLID)));
        default: return line("kvfs " + std::to_string(any(GWB_SOLID)));
        }
    }
    gwb_kind larger()
    {
        const gwb_point corners[] = {{0, 0, 9}, {4, 0, 9}, {0, 4, 9}};
        switch (below(5)) {
        case 0: return gwb_lamina(&g_, free_number(GWB_SOLID), corners, 3);
        case 1: return gwb_sweep(&g_, any(GWB_FACE), 0, 0, 1 + below(3));
        case 2: return gwb_split(&g_, any(GWB_SOLID), below(2), 1, 0, -2, free_number(GWB_SOLID));
        case 3: return gwb_glue(&g_, any(GWB_FACE), any(GWB_FACE));
        default: return gwb_block(&g_, free_number(GWB_SOLID), 4 * below(12), 4 * below(2), 0, 4, 4, 4);
        }
    }
    gwb_kind feature()
    {
        const gwb_motion motion = {{1, -2, 3}, {40, 9, 0}};
        const gwb_cut_plane plane = {1, 0, below(2), -1 - static_cast<std::int64_t>(4 * below(12))};
        const std::uint32_t solid = any(GWB_SOLID), face = any(GWB_FACE), solids[] = {solid, any(GWB_SOLID)};
        std::uint32_t made = 0, sides[4];
        gwb_outline_made outline;
        gwb_refusal why;
        std::int64_t x = 4 * below(12);
        const gwb_point square[] = {{x + 1, 1, 4}, {x + 3, 1, 4}, {x + 3, 3, 4}, {x + 1, 3, 4}};
        switch (below(14)) {
        case 0: return gwb_kill_solid(&g_, solid, &why);
        case 1: return gwb_copy_solid(&g_, solid, &motion, &made, &why);
        case 2: return gwb_move_solid(&g_, solid, &motion, &why);
        case 3: return gwb_cut(&g_, solid, &plane, free_number(GWB_SOLID), &why);
        case 4: return gwb_trim(&g_, solid, &plane, &why);
        case 5: return gwb_union(&g_, solids, 2, &why);
        case 6: return gwb_subtract(&g_, solids[0], solids + 1, 1, &why);
        case 7: return gwb_separate(&g_, solid, &why);
        case 8: return gwb_join_faces(&g_, solid, &why);
        case 9: return gwb_pocket(&g_, face, square, 4, 2, &outline, sides, &why);
        case 10: return gwb_hole(&g_, face, square, 4, &outline, sides, &why);
        case 11: return gwb_notch(&g_, face, square, 4, 2, &why);
        case 12: return gwb_chamfer(&g_, any(GWB_EDGE), 1, 1, &made, &why);
        default: return gwb_kill_solid(&g_, static_cast<std::uint32_t>(gwb_greatest_number(&g_, GWB_SOLID)), &why);
        }
    }
    gwb_kind load()
    {
        std::string now(gwb_read_listing(&g_, nullptr, 0), ' ');
        gwb_read_listing(&g_, now.data(), now.size());
        gwb_refusal why;
        const gwb_kind kind = gwb_load(&g_, saved_.data(), saved_.size(), &why);
        if (below(4) == 0)
            saved_ = now;
        return kind;
    }

    // Each number is one that was another's: its thing goes along.
    gwb_kind renumber()
    {
        gwb_refusal why;
        const gwb_kind kind = gwb_renumber(&g_, &why);
        if (kind != GWB_OK)
            return kind;
        is_renumbered_ = true;
        Things was = now_;
        const gwb_list lists[] = {GWB_MADE_SOLIDS, GWB_MADE_FACES, GWB_MADE_LOOPS, GWB_MADE_EDGES, GWB_MADE_VERTICES};
        now_.clear();
        for (std::uint32_t of = GWB_SOLID; of <= GWB_VERTEX; of++) {
            std::vector<std::uint32_t> pairs(gwb_made(&g_, lists[of], nullptr, 0));
            gwb_made(&g_, lists[of], pairs.data(), pairs.size());
            for (std::size_t at = 0; at < pairs.size(); at += 2)
                now_[{of, pairs[at + 1]}] = was[{of, pairs[at]}];
        }
        return kind;
    }

    void changed(const char *what, gwb_kind kind)
    {
        if (kind != GWB_OK) {
            last_ += " (refused)";
            return;
        }
        counts[what]++;
        if (!is_watched_)
            return;
        if (!is_drafting_) {
            held_.push_back({true, before_});
            ahead_.clear();
        }
        const Things in_part = carried(before_);
        now_ = is_renumbered_ ? now_ : in_part;
        if (is_drafting_ && gwb_mark(&g_) > steps_.back().mark)
            steps_.push_back({gwb_mark(&g_), now_, in_part});
    }
    void step()
    {
        before_ = now_;
        last_ = "a call";
        is_renumbered_ = false;
        switch (below(is_drafting_ ? 20 : 17)) {
        case 0:
        case 1:
        case 2: return changed("operators", an_operator());
        case 3: return changed("lines", a_line());
        case 4:
        case 5:
        case 6: return changed("larger commands", larger());
        case 7:
        case 8:
        case 9: last_ = "a feature"; return changed("features", feature());
        case 10: last_ = "a load"; return changed("loads", load());
        case 11: last_ = "numbers"; return below(4) == 0 ? changed("renumberings", renumber()) : changed("larger commands", larger());
        case 12:
        case 13: return undo();
        case 14:
        case 15: return redo();
        default: return is_drafting_ ? end_draft() : draft();
        }
    }
    // One of which it is told what became of what was there.
    void step_that_is_compared()
    {
        std::size_t place = 0;
        check(gwb_watch_from(&g_, &place) == GWB_OK, "no watch from a place");
        const Whole was(&g_);
        step();
        const Rows rows(was, Whole(&g_));
        check(gwb_compare_from(&g_, place) == GWB_OK, "nothing to compare");
        std::vector<gwb_became_row> told(gwb_became(&g_, nullptr, 0));
        gwb_became(&g_, told.data(), told.size());
        std::set<Row> found;
        bool are_right = true;
        for (std::size_t at = 0; at < told.size(); at++) {
            const auto &[kind, old, made, old_birth, made_birth] = told[at];
            const Row row = {kind, {old, old_birth}, {made, made_birth}};
            are_right = are_right && rows.may.count(row) != 0 && found.insert(row).second;
            const auto rank = [](const gwb_became_row &of) { return std::array{of.kind, of.old, of.made}; };
            are_right = are_right && (at == 0 || rank(told[at - 1]) < rank(told[at]));
        }
        are_right = are_right && std::includes(found.begin(), found.end(), rows.must.begin(), rows.must.end());
        check(are_right, ("what became of things, after " + last_).c_str());
        for (const Row &row : found)
            counts[std::get<0>(row) == GWB_FACE ? "faces that became others" : std::get<0>(row) == GWB_EDGE ? "edges" : "vertices"]++;
        gwb_watch_to(&g_, place);
    }
    void undo()
    {
        last_ = "undo";
        if ((below(2) == 0 ? gwb_undo(&g_) : line("undo")) != GWB_OK || !is_watched_)
            return;
        counts[held_.empty() ? "undone that nothing was known of" : "undone"]++;
        const Held held = held_.empty() ? Held{false, now_} : held_.back();
        if (!held_.empty())
            held_.pop_back();
        ahead_.push_back(now_);
        now_ = held.is_known ? held.things : carried(held.things);
    }
    void redo()
    {
        last_ = "redo";
        if ((below(2) == 0 ? gwb_redo(&g_) : line(" redo")) != GWB_OK || !is_watched_)
            return;
        counts[ahead_.empty() ? "redone that nothing was known of" : "redone"]++;
        held_.push_back({true, now_});
        now_ = ahead_.empty() ? carried(now_) : ahead_.back();
        if (!ahead_.empty())
            ahead_.pop_back();
    }
    void draft()
    {
        if (gwb_draft(&g_) != GWB_OK)
            return;
        is_drafting_ = true;
        start_ = {true, now_};
        steps_ = {{0, now_, now_}};
        begun_ = 0;
    }
    void end_draft()
    {
        const std::uint32_t what = below(4);
        if (what > 1)
            return back();
        is_drafting_ = false;
        last_ = what == 0 ? "commit" : "abandon";
        if (what == 0) {
            check(gwb_commit(&g_) == GWB_OK, "no commit");
            held_.push_back(start_);
            ahead_.clear();
            return;
        }
        check(gwb_abandon(&g_) == GWB_OK, "no abandon");
        if (is_watched_)
            now_ = start_.is_known ? start_.things : carried(start_.things);
    }
    void back()
    {
        const std::size_t mark = below(static_cast<std::uint32_t>(gwb_mark(&g_)) + 1);
        last_ = "back";
        check(gwb_back(&g_, mark) == GWB_OK, "no way back");
        if (!is_watched_)
            return;
        if (mark < begun_) {
            counts["steps before births taken back"]++;
            now_ = carried(start_.things);
            start_ = {false, now_};
            begun_ = mark;
            steps_ = {{mark, now_, now_}};
            return;
        }
        while (steps_.size() > 1 && steps_[steps_.size() - 2].mark >= mark)
            steps_.pop_back();
        if (steps_.back().mark > mark) { // a call of which some steps are left
            Things made = steps_.back().in_part;
            steps_.pop_back();
            counts["calls taken back in part"]++;
            const Things left = carried(steps_.back().things, made);
            made.insert(left.begin(), left.end()); // (a number that a call makes is one thing's, however often it makes it)
            steps_.push_back({mark, left, made});
        } else {
            counts["calls taken back"]++;
        }
        now_ = steps_.back().things;
    }

    gwb g_ = {};
    std::uint64_t state_, things_ = 0;
    bool is_watched_ = false, is_drafting_ = false, is_renumbered_ = false;
    std::string last_, saved_;
    Things now_, before_;
    std::vector<Held> held_;
    std::vector<Things> ahead_;
    Held start_ = {true, {}};
    std::size_t begun_ = 0;
    std::vector<Step> steps_;
    std::map<std::uint64_t, std::uint64_t> births_;
    std::map<std::pair<std::uint32_t, std::uint64_t>, std::uint64_t> of_;
};
std::map<std::string, long> Run::counts;

// ---- requests for memory refused in turn, in calls of several operators

struct Requests {
    long made, refused, live;
};

void *take(void *user, std::size_t size) noexcept
{
    auto *requests = static_cast<Requests *>(user);
    void *block = ++requests->made == requests->refused ? nullptr : std::malloc(size);
    requests->live += block != nullptr;
    return block;
}

void *grow(void *user, void *block, std::size_t size) noexcept
{
    auto *requests = static_cast<Requests *>(user);
    return ++requests->made == requests->refused ? nullptr : std::realloc(block, size);
}

void give_back(void *user, void *block) noexcept
{
    static_cast<Requests *>(user)->live--;
    std::free(block);
}

std::string listing(const gwb *g)
{
    std::string text(gwb_read_listing(g, nullptr, 0), ' ');
    gwb_read_listing(g, text.data(), text.size());
    return text;
}

// A call with this place; the last one is GWB_SILENT.
gwb_kind call(gwb *g, int place)
{
    const gwb_point square[] = {{1, 1, 4}, {3, 1, 4}, {3, 3, 4}, {1, 3, 4}};
    const gwb_motion motion = {{1, 2, 3}, {0, 0, 30}};
    const char block[] = "block 9 90 0 0 4 4 4", triangle[] = "solid 7\nface 90 7 90\nface 91 7 91\nloop 90 +90 +91 +92\nloop 91 -90 -92 -91\n"
                                                            "edge 90 90 91\nedge 91 91 92\nedge 92 92 90\nvertex 90 0 0 99\nvertex 91 1 0 99\nvertex 92 0 1 99\n";
    const std::uint32_t both[] = {1, 3};
    gwb_outline_made outline;
    std::uint32_t made = 0, sides[4];
    gwb_refusal why{};
    switch (place) {
    case 0: return gwb_block(g, 1, 0, 0, 0, 4, 4, 4);
    case 1: return gwb_pocket(g, 1, square, 4, 2, &outline, sides, &why);
    case 2: return gwb_copy_solid(g, 1, &motion, &made, &why);
    case 3: return gwb_line(g, block, sizeof block - 1);
    case 4: return gwb_load(g, triangle, sizeof triangle - 1, &why);
    case 5: return gwb_kill_solid(g, 2, &why);
    case 6: return gwb_block(g, 3, 2, 2, -2, 9, 9, 4);
    case 7: return gwb_union(g, both, 2, &why);
    case 8: return gwb_renumber(g, &why);
    case 9:
    case 10: return gwb_undo(g);
    case 11: return gwb_redo(g);
    case 12: return gwb_draft(g);
    case 13: return gwb_split(g, 1, 0, 0, 1, -1, 20);
    case 14: return gwb_back(g, 3);
    case 15: return gwb_kill_solid(g, 7, &why);
    case 16: return gwb_abandon(g);
    default: return GWB_SILENT;
    }
}

// Gives them, those again for which there was no memory.
void call_all(gwb *g)
{
    for (int place = 0; place < 17; place++)
        for (gwb_kind kind = GWB_MEMORY; kind == GWB_MEMORY;) {
            kind = call(g, place);
            check(kind == GWB_OK || kind == GWB_MEMORY, ("the call with the place " + std::to_string(place) + " while memory is refused").c_str());
        }
}

// Whether births are known, each of one thing; or none is.
bool has_births(const gwb *g, bool are_known)
{
    std::set<std::pair<std::uint32_t, std::uint64_t>> found;
    std::size_t count = 0;
    for (std::uint32_t kind = GWB_SOLID; kind <= GWB_VERTEX; kind++)
        for (std::uint32_t number = 0; gwb_number_after(g, kind, number, &number) == GWB_FOUND; count++)
            found.emplace(kind, gwb_birth(g, kind, number));
    return are_known ? found.size() == count && found.count({GWB_SOLID, 0}) == 0 : found.size() == GWB_VERTEX + 1 && found.count({GWB_VERTEX, 0}) != 0;
}

// No call is refused for births: what memory is refused for is lost, until they are asked for again. One in so many requests is refused in turn.
void try_refused(long step)
{
    gwb wanted = {};
    if (!gwb_open(&wanted))
        std::abort();
    call_all(&wanted);
    long lost = 0;
    bool was_reached = true;
    for (long first = 1; was_reached; first += step) {
        Requests requests = {0, 0, 0};
        const gwb_heap heap = {take, grow, give_back, &requests};
        gwb g = {};
        check(gwb_open_in(&g, &heap) && gwb_watch(&g, true) == GWB_OK, "no session, or no watch");
        requests = {0, first, requests.live};
        call_all(&g);
        was_reached = requests.made >= first;
        requests.refused = 0;
        check(listing(&g) == listing(&wanted) && gwb_depth(&g) == gwb_depth(&wanted), "another model where a request is refused");
        const bool are_lost = gwb_birth(&g, GWB_SOLID, 1) == 0;
        lost += are_lost;
        const gwb_kind compared = gwb_compare(&g); // (what solids were may be lost alone)
        check(has_births(&g, !are_lost) && (compared == GWB_MEMORY || (compared == GWB_OK && !are_lost)), "births are neither known nor lost");
        check(gwb_watch(&g, false) == GWB_OK && has_births(&g, true), "births are known again");
        gwb_close(&g);
        check(requests.live == 0, "leaks");
    }
    check(lost > 0 || step > 10, "births were never lost");
    gwb_close(&wanted);
}

} // namespace

int main(int count, char **arguments)
{
    const long runs = count > 1 ? std::atol(arguments[1]) : 150;
    for (long run = 0; run < runs; run++)
        Run(static_cast<std::uint64_t>(run)).go(300);
    try_refused(runs < 40 ? 61 : 7);
    for (const auto &[what, times] : Run::counts)
        std::printf("%s: %ld\n", what.c_str(), times);
    check(runs < 40 || Run::counts.size() == 16, "something never came");
    return counted();
}
