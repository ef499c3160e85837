// Tries the Booleans of gwb_features.hpp beside models of unit cubes, which tell the volume, vertices, edges and faces of what is made, and whether it touches
// itself; the least factor of prisms that are cut between whole points; and each refusal. Then what they give for components and joined faces. The last line
// counts; those before it count the outcomes, each of which has to be seen 20 times.
//
//     library_booleans [TIMES]     so many random parts: 400 where none is said
#include "gwb_features.hpp"
#include <algorithm>
#include <iostream>
#include <map>
#include <numeric>
#include <random>
#include <set>
#include <string>

using namespace gwb_session;

static int passed = 0, failed = 0;
static std::map<std::string, int> outcomes;

static void check(bool holds, const std::string &what)
{
    (holds ? passed : failed)++;
    if (!holds)
        std::cout << what << '\n';
}

// ---- unit cubes

using Cube = std::array<std::int64_t, 3>;
using Cubes = std::set<Cube>;

// What is told of a solid, six times its volume first.
struct Measures {
    std::int64_t volume = 0, vertices = 0, edges = 0, faces = 0;
    bool operator==(const Measures &other) const
    {
        return volume == other.volume && vertices == other.vertices && edges == other.edges && faces == other.faces;
    }
};

static std::string text(const Measures &measures)
{
    return std::to_string(measures.volume) + " " + std::to_string(measures.vertices) + " " + std::to_string(measures.edges) + " " +
           std::to_string(measures.faces);
}

static Cube beside(Cube cube, std::size_t axis, std::int64_t step = -1)
{
    cube[axis] += step;
    return cube;
}

// The eight cubes round a point, by their places: whether each is filled.
using Eighths = std::array<bool, 8>;

static Eighths corner_at(const Cubes &cubes, const Cube &point)
{
    Eighths found{};
    for (std::size_t place = 0; place < 8; place++) {
        Cube cube = point;
        for (std::size_t axis = 0; axis < 3; axis++)
            cube[axis] -= (place >> axis & 1) != 0 ? 0 : 1;
        found[place] = cubes.count(cube) != 0;
    }
    return found;
}

// Whether the same lies on both sides along an axis: so it is on an edge along it, in a face, within or outside.
static bool goes_on(const Eighths &corner, std::size_t axis)
{
    for (std::size_t place = 0; place < 8; place++)
        if (corner[place] != corner[place ^ (std::size_t{1} << axis)])
            return false;
    return true;
}
static bool is_vertex(const Eighths &corner) { return !goes_on(corner, 0) && !goes_on(corner, 1) && !goes_on(corner, 2); }

// Whether the cubes of the corner that are filled, or those that aren't, hang together by squares.
static bool is_one_piece(const Eighths &corner, bool filled)
{
    std::vector<std::size_t> reached;
    std::set<std::size_t> left;
    for (std::size_t place = 0; place < 8; place++)
        if (corner[place] == filled)
            left.insert(place);
    if (left.empty())
        return true;
    reached.push_back(*left.begin());
    left.erase(left.begin());
    for (std::size_t at = 0; at < reached.size(); at++)
        for (std::size_t axis = 0; axis < 3; axis++)
            if (left.erase(reached[at] ^ (std::size_t{1} << axis)) != 0)
                reached.push_back(reached[at] ^ (std::size_t{1} << axis));
    return left.empty();
}

// Whether the four cubes round the unit edge from a point along an axis make an edge of the surface there.
static bool is_edge(const Cubes &cubes, const Cube &point, std::size_t axis)
{
    const std::size_t one = (axis + 1) % 3, other = (axis + 2) % 3;
    const auto filled = [&](const Cube &cube) { return cubes.count(cube) != 0; };
    const bool here = filled(point), left = filled(beside(point, one)), below = filled(beside(point, other));
    const bool across = filled(beside(beside(point, one), other));
    return !(here == left && below == across) && !(here == below && left == across);
}

// A square of the surface: the cube behind it, the axis across, and whether that looks up.
using Square = std::tuple<Cube, std::size_t, bool>;

static std::set<Square> squares_of(const Cubes &cubes)
{
    std::set<Square> found;
    for (const Cube &cube : cubes)
        for (std::size_t axis = 0; axis < 3; axis++)
            for (bool is_up : {false, true})
                if (cubes.count(beside(cube, axis, is_up ? 1 : -1)) == 0)
                    found.insert({cube, axis, is_up});
    return found;
}

// The faces: squares beside each other in one plane.
static std::int64_t faces_of(const Cubes &cubes)
{
    std::set<Square> left = squares_of(cubes);
    std::int64_t count = 0;
    for (; !left.empty(); count++) {
        std::vector<Square> reached = {*left.begin()};
        left.erase(left.begin());
        for (std::size_t at = 0; at < reached.size(); at++) {
            const auto [cube, axis, is_up] = reached[at];
            for (std::size_t turn : {1, 2})
                for (std::int64_t step : {-1, 1}) {
                    const Square next{beside(cube, (axis + turn) % 3, step), axis, is_up};
                    if (left.erase(next) != 0)
                        reached.push_back(next);
                }
        }
    }
    return count;
}

static std::set<Cube> corners_of(const Cubes &cubes)
{
    std::set<Cube> found;
    for (const Cube &cube : cubes)
        for (std::int64_t place = 0; place < 8; place++)
            found.insert({cube[0] + (place & 1), cube[1] + (place >> 1 & 1), cube[2] + (place >> 2 & 1)});
    return found;
}

static bool touches_itself(const Cubes &cubes)
{
    for (const Cube &point : corners_of(cubes)) {
        const Eighths corner = corner_at(cubes, point);
        if (!is_one_piece(corner, true) || !is_one_piece(corner, false))
            return true;
    }
    return false;
}

static Measures measures_of(const Cubes &cubes)
{
    Measures found{6 * static_cast<std::int64_t>(cubes.size()), 0, 0, faces_of(cubes)};
    for (const Cube &point : corners_of(cubes))
        if (is_vertex(corner_at(cubes, point))) {
            found.vertices++;
            for (std::size_t axis = 0; axis < 3; axis++)
                found.edges += is_edge(cubes, point, axis) ? 1 : 0; // each edge from where it begins
        }
    return found;
}

// The cubes that hang together, by squares.
static std::vector<Cubes> components_of(Cubes left)
{
    std::vector<Cubes> found;
    while (!left.empty()) {
        std::vector<Cube> reached = {*left.begin()};
        left.erase(left.begin());
        for (std::size_t at = 0; at < reached.size(); at++)
            for (std::size_t axis = 0; axis < 3; axis++)
                for (std::int64_t step : {-1, 1})
                    if (left.erase(beside(reached[at], axis, step)) != 0)
                        reached.push_back(beside(reached[at], axis, step));
        found.emplace_back(reached.begin(), reached.end());
    }
    return found;
}

static Measures measures_of(const Workbench &bench, Solid solid)
{
    const gwb_counts count = bench.count(solid);
    return {narrow(bench.six_volumes(solid)), count.vertices, count.edges, count.faces};
}

// ---- what was met

// A point times its scale, and what lies apart from it, as whole numbers: all of them are small here.
struct Met {
    Cube at{};
    std::int64_t scale = 0;

    explicit Met(const gwb_hit_row &hit) : at{narrow(hit.point[0]), narrow(hit.point[1]), narrow(hit.point[2])}, scale(narrow(hit.scale)) {}
    [[nodiscard]] Cube from(Point point) const { return {at[0] - scale * point.x, at[1] - scale * point.y, at[2] - scale * point.z}; }
    [[nodiscard]] bool is_whole() const { return at[0] % scale == 0 && at[1] % scale == 0 && at[2] % scale == 0; }
};

static Cube way(Point a, Point b) { return {b.x - a.x, b.y - a.y, b.z - a.z}; }
static Cube cross(const Cube &a, const Cube &b) { return {a[1] * b[2] - a[2] * b[1], a[2] * b[0] - a[0] * b[2], a[0] * b[1] - a[1] * b[0]}; }
static std::int64_t dot(const Cube &a, const Cube &b) { return a[0] * b[0] + a[1] * b[1] + a[2] * b[2]; }
static bool is_zero(const Cube &a) { return a == Cube{}; }

// The solid of a thing that has a point: none where that isn't so. A face is looked at by its first corner that isn't straight.
static Solid solid_of(const Workbench &bench, const gwb_hit_row &hit)
{
    const Met met(hit);
    const auto start = [&](HalfEdge half) { return bench.vertex(bench.start_of(half)); };
    if (hit.kind == GWB_VERTEX && is_zero(met.from(bench.vertex(Vertex(hit.number)))))
        return bench.face(bench.face_of(*bench.around(Vertex(hit.number)).begin())).solid;
    if (hit.kind == GWB_EDGE) {
        const HalfEdge half = plus(Edge(hit.number));
        const Cube along = way(start(half), start(half.twin())), to = met.from(start(half)), back = met.from(start(half.twin()));
        return is_zero(cross(along, to)) && dot(along, to) > 0 && dot(along, back) < 0 ? bench.face(bench.face_of(half)).solid : Solid();
    }
    for (HalfEdge half : hit.kind == GWB_FACE ? bench.half_edges(bench.face(Face(hit.number)).outer_loop) : std::vector<HalfEdge>())
        if (const Point at = start(half); true)
            if (const Cube across = cross(way(at, start(half.twin())), way(at, start(bench.previous(half)))); !is_zero(across))
                return dot(across, met.from(at)) == 0 ? bench.face(Face(hit.number)).solid : Solid();
    return Solid();
}

static void check_met(const Workbench &bench, const std::vector<Solid> &solids, bool is_whole, const std::string &name)
{
    const gwb_hit_row hit = *bench.hit();
    const Met met(hit);
    check(met.scale > 0 && met.is_whole() == is_whole, name + ": where it was");
    check(met.scale > 0 && std::count(solids.begin(), solids.end(), solid_of(bench, hit)) == 1, name + ": what was met has the point");
    outcomes["met " + std::string(hit.kind == GWB_VERTEX ? "a vertex" : hit.kind == GWB_EDGE ? "an edge" : "a face")]++;
}

// Whether cubes touch themselves near a point: at a corner of the cube that it lies in.
static bool touch_at(const Cubes &cubes, const Met &met)
{
    for (std::int64_t place = 0; place < 8; place++) {
        Cube point{};
        for (std::size_t axis = 0; axis < 3; axis++) {
            const std::int64_t low = met.at[axis] / met.scale - (met.at[axis] % met.scale < 0 ? 1 : 0);
            point[axis] = low + ((place >> axis & 1) != 0 && met.at[axis] % met.scale != 0 ? 1 : 0);
        }
        const Eighths corner = corner_at(cubes, point);
        if (!is_one_piece(corner, true) || !is_one_piece(corner, false))
            return true;
    }
    return false;
}

// ---- random parts

enum class Operation { unite, subtract, intersect };
static const std::array<const char *, 3> names = {"union", "subtract", "intersect"};

static Result<Merger> combined(const Attempts &attempt, Operation operation, const std::vector<Solid> &solids)
{
    Attempts own = attempt;
    switch (operation) {
    case Operation::unite: return unite(own, solids);
    case Operation::subtract: return subtract(own, solids[0], std::vector<Solid>(solids.begin() + 1, solids.end()));
    default: return intersect(own, solids);
    }
}

static Cubes combined(Operation operation, const Cubes &one, const Cubes &other)
{
    Cubes found = one;
    if (operation == Operation::unite)
        found.insert(other.begin(), other.end());
    for (auto cube = found.begin(); cube != found.end();)
        cube = operation != Operation::unite && (other.count(*cube) != 0) == (operation == Operation::subtract) ? found.erase(cube) : std::next(cube);
    return found;
}

class Part {
public:
    explicit Part(std::uint64_t seed) : random_(seed) {}

    void attempt()
    {
        const auto operation = static_cast<Operation>(number(0, 2));
        std::vector<Solid> solids = {solid_};
        Cubes wanted = cubes_;
        for (std::int64_t more = number(1, 2) == 1 ? 1 : number(2, 7); more > 0; more--) { // one of them every other time
            const auto [block, cubes] = new_block();
            solids.push_back(block);
            wanted = combined(operation, wanted, cubes);
        }
        const std::string before = bench_.listing();
        std::shuffle(solids.begin() + 1, solids.end(), random_); // (their order doesn't matter)
        const Result<Merger> made = combined(bench_.attempt(), operation, solids);
        const std::string name = names[static_cast<std::size_t>(operation)];
        outcomes[solids.size() > 2 ? made ? "made of several" : "refused of several" : made ? "made of two" : "refused of two"]++;
        if (made)
            take(wanted, before, name);
        else
            refuse(made.error(), wanted, before, name, solids);
    }

private:
    std::int64_t number(std::int64_t low, std::int64_t high) { return std::uniform_int_distribution<std::int64_t>(low, high)(random_); }

    std::pair<Solid, Cubes> new_block()
    {
        const Cube low = {number(-1, 5), number(-1, 5), number(-1, 5)}, size = {number(1, 5), number(1, 5), number(1, 5)};
        Cubes cubes;
        for (std::int64_t x = 0; x < size[0]; x++)
            for (std::int64_t y = 0; y < size[1]; y++)
                for (std::int64_t z = 0; z < size[2]; z++)
                    cubes.insert({low[0] + x, low[1] + y, low[2] + z});
        return {bench_.block({low[0], low[1], low[2]}, {size[0], size[1], size[2]}), cubes};
    }

    void take(const Cubes &wanted, const std::string &before, const std::string &name)
    {
        check(!touches_itself(wanted), name + " that touches itself is made");
        const Measures made = measures_of(bench_, solid_), expected = measures_of(wanted);
        check(made == expected, name + ": " + text(made) + " in place of " + text(expected));
        const auto left = bench_.numbers<Solid>();
        check(std::distance(left.begin(), left.end()) == 1, name + ": the others go");
        cubes_ = wanted;
        const std::string after = bench_.listing();
        bench_.undo();
        check(bench_.listing() == before, name + " is undone");
        bench_.redo();
        check(bench_.listing() == after, name + " is made again");
        separate_all();
        if (number(1, 3) == 1)
            cut_and_join();
    }

    void refuse(const Failure &why, const Cubes &wanted, const std::string &before, const std::string &name, const std::vector<Solid> &solids)
    {
        outcomes[why.name()]++;
        const bool is_empty = why.is(Misfit::nothing_left) && wanted.empty(), meets = why.is(Misfit::meets) && touches_itself(wanted);
        check((is_empty || meets) && why.value == solid_.number(), name + " is refused: " + why.name());
        check(bench_.listing() == before, name + " that is refused changes nothing");
        if (why.is(Misfit::meets)) {
            const Met met(*bench_.hit());
            check_met(bench_, solids, met.is_whole(), name);
            check(touch_at(wanted, met), name + ": what is made touches itself there");
        }
        for (std::size_t at = 1; at < solids.size(); at++)
            kill_solid(bench_, solids[at]);
    }

    // Each component becomes a solid, and all become one again.
    void separate_all()
    {
        const std::string before = bench_.listing();
        const std::vector<Cubes> components = components_of(cubes_);
        const std::vector<Solid> solids = separate(bench_, solid_);
        check(solids.size() == components.size() && solids[0] == solid_, "there are as many solids as components");
        std::multiset<std::string> found, wanted;
        std::vector<Face> least;
        for (Solid solid : solids) {
            found.insert(text(measures_of(bench_, solid)));
            least.push_back(*bench_.faces(solid).begin());
        }
        for (const Cubes &cubes : components)
            wanted.insert(text(measures_of(cubes)));
        check(found == wanted && std::is_sorted(least.begin(), least.end()), "each is what its cubes are, by their least faces");
        outcomes["separate"] += solids.size() > 1 ? 1 : 0;
        if (solids.size() > 1)
            check(Solid(unite(bench_, solids)) == solid_ && measures_of(bench_, solid_) == measures_of(cubes_), "they become one again");
        check(bench_.listing() == before, "as it was");
    }

    // Cut in two and glued along the caps: faces in one plane beside each other, and straight edges, become one again.
    void cut_and_join()
    {
        const std::size_t axis = static_cast<std::size_t>(number(0, 2));
        gwb_cut_plane plane{0, 0, 0, -number(0, 6)};
        (axis == 0 ? plane.a : axis == 1 ? plane.b : plane.c) = 1;
        Attempts attempt = bench_.attempt();
        const std::string before = bench_.listing();
        const Result<Split> parts = split_solid(attempt, solid_, plane);
        if (!parts)
            return;
        if (glue_all(attempt, {solid_, parts->above})) {
            const Measures seamed = measures_of(bench_, solid_), wanted = measures_of(cubes_);
            outcomes["join_faces"] += seamed == wanted ? 0 : 1;
            check(Solid(join_faces(bench_, solid_)) == solid_ && measures_of(bench_, solid_) == wanted, "faces cut in two are joined");
            bench_.undo();
            check(measures_of(bench_, solid_) == seamed, "that is undone");
            bench_.undo();
        }
        bench_.undo();
        check(bench_.listing() == before, "the cut is undone");
    }

    std::mt19937_64 random_;
    Workbench bench_;
    Solid solid_ = bench_.block({0, 0, 0}, {6, 6, 6});
    Cubes cubes_ = [] {
        Cubes all;
        for (std::int64_t place = 0; place < 216; place++)
            all.insert({place / 36, place / 6 % 6, place % 6});
        return all;
    }();
};

static void try_parts(std::uint64_t times)
{
    for (std::uint64_t seed = 1; seed <= times; seed++) {
        Part part(seed);
        for (int step = 0; step < 4; step++)
            part.attempt();
    }
}

// ---- many faces

// A plate with 25 posts above it, or below, each of some height; and its cubes.
static std::pair<Solid, Cubes> posts(Workbench &bench, std::mt19937_64 &random, const Cube &low, bool is_above)
{
    std::vector<Solid> blocks;
    Cubes cubes;
    const auto put = [&](const Cube &at, const Cube &size) {
        blocks.push_back(bench.block({at[0], at[1], at[2]}, {size[0], size[1], size[2]}));
        for (std::int64_t place = 0; place < size[0] * size[1] * size[2]; place++)
            cubes.insert({at[0] + place % size[0], at[1] + place / size[0] % size[1], at[2] + place / size[0] / size[1]});
    };
    put(low, {11, 11, 3});
    for (std::int64_t place = 0; place < 25; place++) {
        const auto height = static_cast<std::int64_t>(1 + random() % 6);
        put({low[0] + 1 + place % 5 * 2, low[1] + 1 + place / 5 * 2, is_above ? low[2] + 3 : low[2] - height}, {1, 1, height});
    }
    return {unite(bench, blocks), cubes};
}

// Two of these with their posts between them: most faces don't meet the other one, but lie apart from it or within it.
static void try_posts(std::uint64_t times)
{
    for (std::uint64_t seed = 1; seed <= times; seed++) {
        std::mt19937_64 random(seed);
        Workbench bench;
        const auto operation = static_cast<Operation>(random() % 3);
        const std::string name = std::string(names[static_cast<std::size_t>(operation)]) + " of posts";
        const auto [solid, cubes] = posts(bench, random, {0, 0, 0}, true);
        const Cube low = {static_cast<std::int64_t>(random() % 3), static_cast<std::int64_t>(random() % 3), static_cast<std::int64_t>(2 + random() % 8)};
        const auto [other, others] = posts(bench, random, low, false);
        const Cubes wanted = combined(operation, cubes, others);
        const std::string before = bench.listing();
        const Result<Merger> made = combined(bench.attempt(), operation, {solid, other});
        outcomes[made ? "made of posts" : "refused of posts"]++;
        check(made ? !touches_itself(wanted) && measures_of(bench, solid) == measures_of(wanted) : touches_itself(wanted) || wanted.empty(), name);
        bench.undo();
        check(!made || bench.listing() == before, name + " is undone");
    }
}

// ---- refusals

// A prism whose slope falls by 1 over some length, less a block that cuts the slope so far on: at a height that is so many of so many parts.
static void try_factors()
{
    std::mt19937_64 random(7);
    for (int time = 0; time < 60; time++) {
        const auto length = std::uniform_int_distribution<std::int64_t>(2, 20'000)(random);
        const auto at = std::uniform_int_distribution<std::int64_t>(1, length - 1)(random);
        Workbench bench;
        Attempts attempt = bench.attempt();
        const Solid prism = profile(bench, {{0, 0, 0}, {length, 0, 0}, {0, 0, 1}}, {0, 5, 0}).solid;
        const Solid block = bench.block({at, -1, -1}, {length, 8, 8});
        const std::string before = bench.listing();
        const std::int64_t factor = length / std::gcd(length, at);
        for (Operation operation : {Operation::unite, Operation::subtract, Operation::intersect}) {
            const Result<Merger> made = combined(attempt, operation, {prism, block});
            check(!made && made.error().is(Misfit::off_lattice) && made.error().value == factor, std::string(made.error().name()) + ": the least factor");
            check(bench.listing() == before, "what is off the lattice changes nothing");
            check_met(bench, {prism, block}, false, "a corner off the lattice");
            check(std::string(made.error().text()).find("X times") != std::string::npos, "by which factor");
            outcomes[made.error().name()]++;
        }
        scale(bench, factor);
        check(static_cast<bool>(subtract(attempt, prism, {block})), "so many times as large it is made");
    }
}

// Three slopes whose factors have no common one: all together they pass what a value can say.
static void try_large_factors()
{
    constexpr std::int64_t length = 99'991, other = 99'989, third = 99'971; // primes
    for (std::int64_t at = 1; at <= 20; at++) {
        Workbench bench;
        Attempts attempt = bench.attempt();
        std::vector<Solid> prisms;
        std::int64_t y = 0;
        for (std::int64_t base : {length, other, third})
            prisms.push_back(profile(bench, {{0, y += 10, 0}, {base, y, 0}, {0, y, 1}}, {0, 5, 0}).solid);
        const Solid all = unite(bench, prisms);
        const Solid block = bench.block({at, -1, -1}, {length, 80, 8});
        const Failure why = subtract(attempt, all, {block}).error();
        check(why.is(Misfit::off_lattice) && why.value == 0 && why.hit.cause == GWB_CAUSE_PAST_RANGE, "a factor that passes what can be said");
        check_met(bench, {all, block}, false, "one of its corners");
        outcomes["OffLattice by no number"]++;
    }
}

// A block, and two walls across each other that go through it: it is cut in two lines half way between whole points, on no edge of any of them.
static void try_met_faces()
{
    for (std::int64_t at = 1; at <= 20; at++) {
        Workbench bench;
        Attempts attempt = bench.attempt();
        const Solid block = bench.block({-at - 9, -at - 9, 0}, {40 + at, 40 + at, 4});
        const Solid one = profile(bench, {{-at, at + 1, -at}, {-at - 9, at + 1, -at}, {-at - 9, -at, -at}, {at + 1, -at, -at}}, {0, 0, 20 + at}).solid;
        const Solid other = profile(bench, {{-at, -at, -5}, {at + 1, at + 1, -5}, {-at, at + 1, -5}}, {0, 0, 9 + at}).solid;
        const std::string before = bench.listing();
        const Failure why = intersect(attempt, {block, one, other}).error();
        check(why.is(Misfit::off_lattice) && why.value == 2, std::string(why.name()) + ": half way between whole points");
        check(bench.listing() == before && why.hit.kind == GWB_FACE, "faces of three meet there");
        check_met(bench, {block, one, other}, false, "where faces of three meet");
    }
}

// Blocks that touch in a corner of both, and a block that is touched by the tip of another solid.
static void try_met_vertices()
{
    for (std::int64_t at = 1; at <= 20; at++) {
        Workbench bench;
        Attempts attempt = bench.attempt();
        const Solid block = bench.block({0, 0, 0}, {at + 4, at + 4, at}), beside = bench.block({at + 4, at + 4, at}, {1, 2, 3});
        const std::vector<Point> corners = {{at, 2, at}, {at + 1, 2, at + 1}, {at, 3, at + 1}, {at - 1, 1, at + 1}};
        const Solid tip = polyhedron(bench, corners, {0, 2, 1, 0, 1, 3, 1, 2, 3, 0, 3, 2}, {3, 3, 3, 3}).solid;
        const std::string before = bench.listing();
        for (Solid other : {beside, tip}) {
            const Failure why = unite(attempt, {block, other}).error();
            check(why.is(Misfit::meets) && why.hit.kind == GWB_VERTEX, std::string(why.name()) + ": a corner touches");
            check_met(bench, {block, other}, true, "a corner");
        }
        check(bench.listing() == before, "nothing has changed");
    }
}

static void try_refusals()
{
    for (std::int64_t at = 1; at <= 20; at++) {
        Workbench bench;
        Attempts attempt = bench.attempt();
        const Solid block = bench.block({0, 0, 0}, {8, 8, 8}), far = bench.block({20, 0, 0}, {8, 8, 8}), none(90 + static_cast<std::uint32_t>(at));
        const std::string before = bench.listing();
        for (const Failure &why : {unite(attempt, {block, none}).error(), subtract(attempt, none, {block}).error(), intersect(attempt, {block, none}).error(),
                                   separate(attempt, none).error(), join_faces(attempt, none).error()}) {
            check(why.is(GWB_WHY_NO_SOLID) && why.value == none.number(), "a solid that isn't there");
            outcomes[why.name()]++;
        }
        for (const Failure &why : {unite(attempt, {block}).error(), unite(attempt, {block, block}).error(), intersect(attempt, {far}).error(),
                                   subtract(attempt, block, {}).error(), subtract(attempt, block, {block}).error(),
                                   subtract(attempt, block, {far, far}).error()}) {
            check(why.problem == Problem::no_call, "no call");
            outcomes["no call"]++;
        }
        check(bench.listing() == before, "nothing has changed");
    }
}

// A block of which one corner lies off its faces' planes.
static void try_twisted()
{
    for (std::int64_t at = 1; at <= 20; at++) {
        Workbench bench;
        const Solid solid = bench.block({0, 0, 0}, {8, 8, 8}), other = bench.block({20, 0, 0}, {8, 8, 8}), within = bench.block({2, 2, 2}, {1, 1, 1});
        const Vertex corner(static_cast<std::uint32_t>(at % 8 + 1));
        const Point point = bench.vertex(corner);
        const auto place = [](Vertex vertex, Point of) {
            return "vertex " + std::to_string(vertex.number()) + " " + std::to_string(of.x) + " " + std::to_string(of.y) + " " + std::to_string(of.z);
        };
        std::string listing = bench.listing();
        const std::string old = place(corner, point);
        listing.replace(listing.find(old), old.size(), place(corner, {point.x + at, point.y + 2 * at, point.z - at}));
        Workbench twisted;
        twisted.load(listing);
        Attempts attempt = twisted.attempt();
        for (const Failure &why : {unite(attempt, {solid, within}).error(), unite(attempt, {other, solid}).error(), subtract(attempt, solid, {within}).error(),
                                   intersect(attempt, {solid, within}).error(), join_faces(attempt, solid).error(), separate(attempt, solid).error()}) {
            check(why.is(GWB_WHY_NOT_FLAT) && twisted.face(Face(why.value)).solid == solid, std::string("a face that isn't flat: ") + why.name());
            outcomes[why.name()]++;
        }
        check(twisted.listing() == listing, "nothing has changed");
    }
}

// ---- several at once

// Two blocks beside each other and a prism on both, which crosses an edge of each between whole points where the other one goes on: in all orders.
static void try_covered()
{
    std::vector<std::size_t> order = {0, 1, 2};
    do {
        Workbench bench;
        const std::vector<Solid> solids = {bench.block({0, 0, 0}, {4, 4, 4}), profile(bench, {{2, 1, 4}, {5, 2, 4}, {2, 3, 4}}, {0, 0, 3}).solid,
                                           bench.block({4, 0, 0}, {4, 4, 4})};
        const Solid all = unite(bench, {solids[order[0]], solids[order[1]], solids[order[2]]});
        check(measures_of(bench, all) == Measures{6 * 137, 14, 21, 10}, "a prism on two blocks: " + text(measures_of(bench, all)));
    } while (std::next_permutation(order.begin(), order.end()));
}

// Blocks in a ring, of which some touch in an edge or a corner alone until what lies between them is there: in any order.
static void try_orders()
{
    std::vector<Point> places = {{0, 0, 0}, {4, 0, 0}, {8, 0, 0}, {8, 4, 0}, {8, 8, 0}, {4, 8, 0}, {0, 8, 0}, {0, 4, 0}};
    std::mt19937_64 random(3);
    for (int time = 0; time < 200; time++) {
        std::shuffle(places.begin(), places.end(), random);
        Workbench bench;
        std::vector<Solid> blocks;
        for (const Point &place : places)
            blocks.push_back(bench.block(place, {4, 4, 4}));
        const Solid ring = unite(bench, blocks);
        check(ring == blocks[0] && measures_of(bench, ring) == Measures{6 * 512, 16, 24, 10}, "a ring of blocks: " + text(measures_of(bench, ring)));
    }
    try_covered();
    Workbench bench;
    const Solid plate = bench.block({0, 0, 0}, {9, 9, 9}), one = bench.block({3, 3, -1}, {3, 3, 11}), two = bench.block({3, -1, 3}, {3, 11, 3});
    const Solid three = bench.block({-1, 3, 3}, {11, 3, 3});
    check(measures_of(bench, subtract(bench, plate, {one, two, three})).volume == 6 * (729 - 7 * 27), "three bores through one middle");
}

// A cavity goes with what holds it, also where that lies in another cavity.
static void try_cavities()
{
    Workbench bench;
    const Solid shell = bench.block({0, 0, 0}, {9, 9, 9});
    subtract(bench, shell, {bench.block({1, 1, 1}, {7, 7, 7})});
    const Solid inner = bench.block({2, 2, 2}, {5, 5, 5});
    subtract(bench, inner, {bench.block({3, 3, 3}, {3, 3, 3})});
    unite(bench, {shell, inner, bench.block({4, 4, 4}, {1, 1, 1})});
    check(narrow(bench.six_volumes(shell)) == 6 * (729 - 343 + 125 - 27 + 1), "a solid within a cavity, and one within that's");
    const std::vector<Solid> solids = separate(bench, shell);
    check(solids.size() == 3 && narrow(bench.six_volumes(solids[0])) == 6 * 386 && narrow(bench.six_volumes(solids[1])) == 6 * 98 &&
              narrow(bench.six_volumes(solids[2])) == 6,
          "three solids, two of them with a cavity");
}

// ---- many sides

// An outline with notches in its upper side, four sides for each; `at` tells where its points lie.
template <class At> static std::vector<Point> notched(std::int64_t notches, std::int64_t height, At at)
{
    std::vector<Point> points = {at(0, 0), at(4 * notches, 0), at(4 * notches, height)};
    for (std::int64_t from = 4 * notches - 4; from >= 0; from -= 4)
        points.insert(points.end(), {at(from + 3, height), at(from + 3, height - 2), at(from + 1, height - 2), at(from + 1, height)});
    points.push_back(at(0, height));
    return points;
}

// A column goes through a plate, both with notches, so that all faces that meet have more than 48 sides: those of the plate lie far from the column.
static void try_many_sides(std::int64_t in_plate, std::int64_t in_column)
{
    const auto lying = [](std::int64_t u, std::int64_t v) { return Point{10 * u, 10 * v, 0}; };
    const auto seen_along_y = [](std::int64_t u, std::int64_t v) { return Point{100 + u, 10, v - 5}; };
    const auto seen_along_x = [](std::int64_t u, std::int64_t v) { return Point{100, 10 + u, v - 5}; };
    for (Operation operation : {Operation::unite, Operation::subtract, Operation::intersect}) {
        Workbench bench;
        const Solid plate = profile(bench, notched(in_plate, 10, lying), {0, 0, 12}).solid;
        const std::int64_t wide = 4 * in_column;
        const Solid one = profile(bench, notched(in_column, 30, seen_along_y), {0, wide, 0}).solid;
        const Solid column = intersect(bench, {one, profile(bench, notched(in_column, 30, seen_along_x), {wide, 0, 0}).solid});
        const std::int64_t of_plate = measures_of(bench, plate).volume, of_column = measures_of(bench, column).volume, common = 6 * wide * wide * 12;
        const std::array<std::int64_t, 3> expected = {of_plate + of_column - common, of_plate - common, common};
        const auto which = static_cast<std::size_t>(operation);
        const bool is_made = bool(combined(bench.attempt(), operation, {plate, column}));
        check(is_made && measures_of(bench, plate).volume == expected[which], std::string(names[which]) + " of a plate and a column, with many sides");
    }
}

int main(int argc, char **argv)
{
    try_parts(argc > 1 ? std::stoull(argv[1]) : 400);
    try_posts(argc > 1 ? std::stoull(argv[1]) : 60);
    try_factors();
    try_large_factors();
    try_met_faces();
    try_met_vertices();
    try_refusals();
    try_twisted();
    try_orders();
    try_cavities();
    try_many_sides(12, 13);
    try_many_sides(13, 12);
    for (const auto &[name, times] : outcomes)
        std::cout << name << ": " << times << '\n';
    if (argc <= 1)
        for (const char *name : {"made of two", "made of several", "refused of several", "made of posts", "OffLattice", "OffLattice by no number", "Meets",
                                 "NothingLeft", "NotFlat", "NoSolid", "no call", "separate", "join_faces", "met a vertex", "met an edge", "met a face"})
            check(outcomes[name] >= 20, std::string(name) + " is seen too seldom");
    std::cout << passed << " passed, " << failed << " failed\n";
    return failed != 0;
}
