// A program of features, by gwb_features.hpp: reads it line by line, and writes what each line gives. tests/library_same.py compares it with the same
// program in other languages.
#include "gwb_features.hpp"
#include <functional>
#include <iostream>
#include <map>
#include <numeric>
#include <set>
#include <sstream>
#include <tuple>

using namespace gwb_session;
using Size = std::int64_t;
using Count = std::uint32_t;
using Points = std::vector<Point>;
using Solids = std::vector<Solid>;

// The words of a line after the first one: numbers, taken one after another.
class Words {
public:
    explicit Words(const std::string &line) : words_(line) {}
    // What the next ones say, of these kinds in their order. A vector takes all that are left.
    template <class... Kinds> std::tuple<Kinds...> next()
    {
        std::tuple<Kinds...> found;
        std::apply([this](auto &...each) { (take(each), ...); }, found);
        return found;
    }
    template <class Kind> Kind one() { return std::get<0>(next<Kind>()); }
    std::string text()
    {
        std::string left;
        std::getline(words_, left);
        return left;
    }

private:
    void take(Size &number) { words_ >> number; }
    void take(Point &point) { std::tie(point.x, point.y, point.z) = next<Size, Size, Size>(); }
    void take(CutPlane &plane) { std::tie(plane.a, plane.b, plane.c, plane.d) = next<Size, Size, Size, Size>(); }
    void take(Ratio &ratio) { std::tie(ratio.numerator, ratio.denominator) = next<Size, Size>(); }
    // 0 and a vector; 1, an axis and how many quarter turns about it; 2 and an axis to mirror across.
    void take(Motion &motion)
    {
        const auto way = one<Size>();
        const auto axis = way == 0 ? 0 : one<Count>();
        motion = way == 0 ? Motion::move(one<Point>()) : way == 1 ? Motion::quarter_turns(axis, one<Count>()) : Motion::mirror(axis);
    }
    template <class Kind> void take(std::vector<Kind> &all)
    {
        while (!(words_ >> std::ws).eof())
            all.push_back(one<Kind>());
    }
    template <class Kind> void take(Kind &name) { name = Kind(static_cast<std::uint32_t>(one<Size>())); }

    std::istringstream words_;
};

// ---- what is written of what was made

template <class Kind> static auto put(const Kind &name) -> decltype(void(name.number())) { std::cout << ' ' << name.number(); }
static void put(const Point &point) { std::cout << ' ' << point.x << ' ' << point.y << ' ' << point.z; }
template <class Kind> static void put(const std::vector<Kind> &all)
{
    for (const Kind &each : all)
        put(each);
}
template <class Kind> static void put_counted(const std::vector<Kind> &all)
{
    std::cout << ' ' << all.size();
    put(all);
}
static void put(const Profile &made) { put(made.far), put(made.base), put(made.sides); }
static void put(const Ring &made) { put(made.face), put(made.loop), put(made.edges), put(made.vertices); }
static void put(const Pocket &made) { put(made.face), put(made.loop), put(made.sides); }
static void put(const Hole &made) { put(made.other), put(made.loop), put(made.sides); }
static void put(const Notch &made) { put_counted(made.floor), put_counted(made.walls); }
static void put(const Pad &made) { put_counted(made.top), put_counted(made.walls); }
static void put(const Polyhedron &made) { put(made.first_vertex), put(made.first_face); }
static void put(const Split &made) { put_counted(made.lower_caps), put_counted(made.upper_caps); }
static void put(const Merger &) {} // (what faces became isn't written)
static void put(const OffLattice &said) { std::cout << ' ' << said.cuts().size() << ' ' << said.factor().low; }

template <class Place> static void put_place(const Place &place, std::int64_t scale)
{
    for (gwb_wide times : place) {
        const std::int64_t part = narrow(times), common = std::gcd(part, scale);
        std::cout << ' ' << part / common << (common != scale ? "/" + std::to_string(scale / common) : "");
    }
}

// ---- what lines give

struct Given {
    std::unique_ptr<Workbench> bench;
    std::optional<Attempts> attempt;
    std::optional<Draft> draft;

    // Whether a line was accepted. If not, its refusal is told.
    template <class T> bool is_well(const Result<T> &result) const
    {
        if (result || result.error().problem == Problem::no_call)
            std::cout << (result ? "ok" : "NoCall");
        else
            put_refusal(result.error());
        return static_cast<bool>(result);
    }
    // The name of what is refused and its value; and what was met, as far as that is told.
    void put_refusal(const Failure &failure) const
    {
        constexpr std::array things = {"solid", "face", "loop", "edge", "vertex"};
        const gwb_hit_row hit = failure.problem == Problem::impossible ? attempt->hit().value_or(gwb_hit_row{}) : gwb_hit_row{};
        std::cout << failure.name() << ' ' << failure.value << (hit.cause != 0 ? " " : "") << gwb_cause_name(hit.cause);
        if (hit.number != 0 && hit.kind < things.size())
            std::cout << ' ' << things[hit.kind] << ' ' << hit.number;
        if (narrow(hit.scale) != 0) {
            std::cout << " at";
            put_place(hit.point, narrow(hit.scale));
        }
    }
    // The same, and what was made.
    template <class T> void tell(const Result<T> &made) const
    {
        const bool is_told = is_well(made);
        if constexpr (!std::is_void_v<T>)
            if (is_told)
                put(*made);
    }
    void drill(const Result<Hole> &made) const
    {
        if (is_well(made))
            put(*made), put(made->points);
    }
    void trim(Solid solid, const CutPlane &plane)
    {
        const Result<std::vector<Face>> made = gwb_session::trim(*attempt, solid, plane);
        if (is_well(made))
            put_counted(*made);
    }
    void open()
    {
        draft.reset();
        bench = std::make_unique<Workbench>();
        attempt.emplace(bench->attempt());
    }
    void block(Words &words)
    {
        const auto [solid, corner, sizes] = words.next<Solid, Point, Point>();
        if (is_well(attempt->block(solid, corner, sizes))) {
            gwb_block_faces faces{};
            gwb_last_block(bench->handle(), &faces);
            std::cout << ' ' << faces.top << ' ' << faces.bottom;
            for (std::uint32_t side : faces.sides)
                std::cout << ' ' << side;
        }
    }
    // The new faces of a copy, and the half-edges for the first ones of its edges.
    void copy(Words &words)
    {
        const auto [solid, motion] = words.next<Solid, Motion>();
        const Result<Copy> made = copy_solid(*attempt, solid, motion);
        if (!is_well(made))
            return;
        put(made->solid);
        for (Face face : bench->faces(solid))
            put(made->of(face));
        std::set<Edge> edges;
        for (const gwb_half_edge_row &row : bench->half_edge_rows(solid))
            edges.insert(HalfEdge(row.half_edge).edge());
        for (Edge edge : edges)
            std::cout << ' ' << made->of(plus(edge)).code();
    }
    void polyhedron(Words &words)
    {
        const auto [solid, count, size] = words.next<Solid, Count, Count>();
        Points points(count);
        for (Point &point : points)
            point = words.one<Point>();
        const auto corners = words.one<std::vector<std::uint32_t>>();
        tell(gwb_session::polyhedron(*attempt, solid, points, corners, std::vector<std::uint32_t>(corners.size() / size, size)));
    }
    void renumber()
    {
        Solids solids;
        for (Solid solid : bench->numbers<Solid>())
            solids.push_back(solid);
        const Result<Renumbered> made = gwb_session::renumber(*attempt);
        if (!is_well(made))
            return;
        std::cout << ' ' << 2 * solids.size();
        for (Solid solid : solids)
            put(solid), put(made->of(solid));
    }
    void separate(Solid solid)
    {
        const Result<Solids> made = gwb_session::separate(*attempt, solid);
        if (!is_well(made))
            return;
        std::cout << ' ' << 2 * made->size();
        for (Solid part : *made)
            put(solid), put(part);
    }
    // A listing, in which ';' stands for the end of a line.
    void load(std::string listing)
    {
        std::replace(listing.begin(), listing.end(), ';', '\n');
        bench->load(listing + '\n');
    }
    void faces(Words &words)
    {
        const auto [solid, what] = words.next<Solid, Size>();
        FaceQuery query;
        if (solid != Solid()) // (0 stands for any)
            query.solid = solid;
        if (what == 1)
            query.plane = words.one<CutPlane>();
        if (what == 2)
            query.normal = words.one<Point>();
        if (what == 3)
            query.containing = words.one<Point>();
        if (what == 4)
            query.area = words.one<Ratio>();
        tell(find_faces(*attempt, query));
    }
    void edges(Words &words)
    {
        const auto [solid, what] = words.next<Solid, Size>();
        EdgeQuery query;
        if (solid != Solid()) // (0 stands for any)
            query.solid = solid;
        if (what == 1) {
            const auto [one, other] = words.next<Face, Face>();
            query.between = {one, other};
        }
        if (what == 2)
            query.along = words.one<Point>();
        if (what == 3)
            query.length = words.one<Ratio>();
        tell(find_edges(*attempt, query));
    }
    void crossings(Solid solid, Solid other)
    {
        const auto found = find_crossings(*attempt, solid, other != Solid() ? std::optional(other) : std::nullopt); // (0 stands for none)
        if (!is_well(found))
            return;
        for (const Crossing &crossing : *found) {
            put(crossing.first), put(crossing.second);
            put_place(crossing.point, narrow(crossing.scale));
        }
    }
};

using Call = std::function<void(Given &, Words &)>;

// What a line gives by a call that takes what the words say, of these kinds in their order.
template <class... Kinds, class Made> static Call in_order(Made call)
{
    return [call](Given &on, Words &words) {
        std::apply([&](const auto &...each) { on.tell(call(*on.attempt, each...)); }, words.next<Kinds...>());
    };
}

static const std::map<std::string, Call> CALLS = {
    {"part", [](Given &on, Words &) { on.open(), std::cout << "ok"; }},
    {"list", [](Given &on, Words &) { std::cout << on.bench->listing(); }},
    {"load", [](Given &on, Words &words) { on.load(words.text()), std::cout << "ok"; }},
    {"draft", [](Given &on, Words &) { on.draft.emplace(on.bench->draft()), std::cout << "ok"; }},
    {"commit", [](Given &on, Words &) { on.draft->commit(), on.draft.reset(), std::cout << "ok"; }},
    {"abandon", [](Given &on, Words &) { on.draft.reset(), std::cout << "ok"; }},
    {"undo", [](Given &on, Words &) { on.tell(on.attempt->undo()); }},
    {"redo", [](Given &on, Words &) { on.tell(on.attempt->redo()); }},
    {"block", [](Given &on, Words &words) { on.block(words); }},
    {"polyhedron", [](Given &on, Words &words) { on.polyhedron(words); }},
    {"copy", [](Given &on, Words &words) { on.copy(words); }},
    {"renumber", [](Given &on, Words &) { on.renumber(); }},
    {"separate", [](Given &on, Words &words) { on.separate(words.one<Solid>()); }},
    {"faces", [](Given &on, Words &words) { on.faces(words); }},
    {"edges", [](Given &on, Words &words) { on.edges(words); }},
    {"crossings", [](Given &on, Words &words) { std::apply([&on](const auto &...all) { on.crossings(all...); }, words.next<Solid, Solid>()); }},
    {"trim", [](Given &on, Words &words) { std::apply([&on](const auto &...all) { on.trim(all...); }, words.next<Solid, CutPlane>()); }},
    {"profile", in_order<Solid, Point, Points>([](auto &bench, Solid solid, auto &along, auto &points) { return profile(bench, solid, points, along); })},
    {"ring", in_order<Face, Points>([](auto &...all) { return ring(all...); })},
    {"hole", in_order<Face, Points>([](auto &...all) { return hole(all...); })},
    {"pocket", in_order<Face, Size, Points>([](auto &bench, Face face, Size depth, auto &points) { return pocket(bench, face, points, depth); })},
    {"boss", in_order<Face, Size, Points>([](auto &bench, Face face, Size height, auto &points) { return boss(bench, face, points, height); })},
    {"notch", in_order<Face, Size, Points>([](auto &bench, Face face, Size depth, auto &points) { return notch(bench, face, points, depth); })},
    {"pad", in_order<Face, Size, Points>([](auto &bench, Face face, Size height, auto &points) { return pad(bench, face, points, height); })},
    {"pocket_along", in_order<Face, Point, Points>([](auto &bench, Face face, auto &along, auto &points) { return pocket_along(bench, face, points, along); })},
    {"boss_along", in_order<Face, Point, Points>([](auto &bench, Face face, auto &along, auto &points) { return boss_along(bench, face, points, along); })},
    {"notch_along", in_order<Face, Point, Points>([](auto &bench, Face face, auto &along, auto &points) { return notch_along(bench, face, points, along); })},
    {"pad_along", in_order<Face, Point, Points>([](auto &bench, Face face, auto &along, auto &points) { return pad_along(bench, face, points, along); })},
    {"drill", [](Given &on, Words &words) {
         std::apply([&on](const auto &...all) { on.drill(drill(*on.attempt, all...)); }, words.next<Face, Point, Size, Count, Size>());
     }},
    {"drill_along", [](Given &on, Words &words) {
         std::apply([&on](const auto &...all) { on.drill(drill_along(*on.attempt, all...)); }, words.next<Face, Point, Size, Count, Point>());
     }},
    {"slot", in_order<Face, Point, Point, Size, Size>([](auto &...all) { return slot(all...); })},
    {"slot_along", in_order<Face, Point, Point, Size, Point>([](auto &...all) { return slot_along(all...); })},
    {"groove", in_order<Face, Point, Point, Size, Size>([](auto &...all) { return groove(all...); })},
    {"groove_along", in_order<Face, Point, Point, Size, Point>([](auto &...all) { return groove_along(all...); })},
    {"shoulder", in_order<Face, Edge, Size, Size>([](auto &...all) { return shoulder(all...); })},
    {"shoulder_along", in_order<Face, Edge, Size, Point>([](auto &...all) { return shoulder_along(all...); })},
    {"chamfer", in_order<Edge, Size, Size>([](auto &...all) { return chamfer(all...); })},
    {"chamfer_edges", in_order<Size, std::vector<Edge>>([](auto &bench, Size width, auto &edges) { return chamfer_edges(bench, edges, width); })},
    {"kill", in_order<Solid>([](auto &...all) { return kill_solid(all...); })},
    {"move", in_order<Solid, Motion>([](auto &...all) { return move_solid(all...); })},
    {"pattern", in_order<Solid, Count, Point>([](auto &...all) { return pattern(all...); })},
    {"pattern_around", in_order<Solid, Count, Count, Count, Point>([](auto &...all) { return pattern_around(all...); })},
    {"scale", in_order<Size>([](auto &...all) { return scale(all...); })},
    {"glue_all", in_order<Solids>([](auto &...all) { return glue_all(all...); })},
    {"union", in_order<Solids>([](auto &...all) { return unite(all...); })},
    {"intersect", in_order<Solids>([](auto &...all) { return intersect(all...); })},
    {"subtract", in_order<Solid, Solids>([](auto &...all) { return subtract(all...); })},
    {"join_faces", in_order<Solid>([](auto &...all) { return join_faces(all...); })},
    {"split", in_order<Solid, CutPlane, Solid>([](auto &...all) { return split_solid(all...); })},
    {"cut", in_order<Solid, CutPlane, Solid>([](auto &...all) { return cut(all...); })},
    {"off_lattice", in_order<Solid, CutPlane>([](auto &...all) { return off_lattice(all...); })},
    {"advice", [](Given &on, Words &words) {
         std::apply([&on](const auto &...all) { std::cout << off_lattice(*on.bench, all...).advice(Solid(77)); }, words.next<Solid, CutPlane>());
     }}};

int main()
{
    Given given;
    for (std::string line; std::getline(std::cin, line);) {
        const std::size_t space = std::min(line.find(' '), line.size());
        const std::string word = line.substr(0, space);
        Words words(line.substr(std::min(space + 1, line.size())));
        std::cout << "> " << word << '\n';
        CALLS.at(word)(given, words);
        std::cout << '\n';
    }
}
