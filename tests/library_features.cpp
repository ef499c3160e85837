// Tries gwb_features.hpp: solids that are killed, copied, moved, turned and mirrored; gwb_triangles.hpp; and listings and scripts that are
// loaded. The last line counts.
#include "checks.h"
#include "gwb_features.hpp"
#include "gwb_history.hpp"
#include "gwb_triangles.hpp"
#include <cstdlib>
#include <ctime>
#include <functional>
#include <iostream>
#include <map>
#include <new>
#include <set>

using namespace gwb_session;

// ---- memory of this program, of which one request is refused: what the library takes is of the session's heap

static long until_refused = -1;

__attribute__((noinline)) void *operator new(std::size_t size)
{
    void *block = until_refused >= 0 && until_refused-- == 0 ? nullptr : std::malloc(size);
    if (block == nullptr)
        throw std::bad_alloc();
    return block;
}
__attribute__((noinline)) void operator delete(void *block) noexcept { std::free(block); }
__attribute__((noinline)) void operator delete(void *block, std::size_t) noexcept { std::free(block); }

using Corners = std::vector<std::array<std::int64_t, 3>>;

// The loops of a face as points, each begun so that it comes first in their order; where `backwards`, the other way round.
static std::multiset<Corners> loops_at(const Workbench &bench, Face face, const Motion &motion, bool backwards)
{
    std::multiset<Corners> found;
    for (Loop loop : bench.loops_of(face)) {
        Corners corners;
        for (HalfEdge half_edge : bench.around(loop)) {
            const Point at = motion(bench.vertex(bench.start_of(half_edge)));
            corners.push_back({at.x, at.y, at.z});
        }
        if (auto vertex = bench.lone_vertex(loop)) {
            const Point at = motion(bench.vertex(*vertex));
            corners.push_back({at.x, at.y, at.z});
        }
        if (backwards)
            std::reverse(corners.begin(), corners.end());
        Corners least = corners;
        for (std::size_t time = 1; time < corners.size(); time++) {
            std::rotate(corners.begin(), corners.begin() + 1, corners.end());
            least = std::min(least, corners);
        }
        found.insert(least);
    }
    return found;
}

// A solid as its faces, where each of its points lies after a motion.
static std::multiset<std::multiset<Corners>> shape(const Workbench &bench, Solid solid, const Motion &motion = {})
{
    std::multiset<std::multiset<Corners>> found;
    for (Face face : bench.faces(solid))
        found.insert(loops_at(bench, face, motion, motion.is_mirror()));
    return found;
}

// A block with a pocket in its top.
static Solid pocket(Workbench &bench)
{
    const Solid block = bench.block({0, 0, 0}, {8, 8, 8});
    const HalfEdge start = bench.half_edges(bench.face(Face(1)).outer_loop).front();
    const NewVertex spur = bench.mev(start, start, {2, 2, 8});
    const Loop ring = bench.kemr(plus(spur.edge));
    const NewVertex one = bench.mev(lone(ring), lone(ring), {2, 6, 8}), two = bench.mev(minus(one.edge), minus(one.edge), {6, 6, 8});
    const NewVertex three = bench.mev(minus(two.edge), minus(two.edge), {6, 2, 8});
    const NewFace floor = bench.mef(minus(three.edge), plus(one.edge));
    bench.sweep(floor.face, {0, 0, -3});
    return block;
}

// The same, with the floor of the pocket moved to the bottom, so that it is a hole.
static Solid hole(Workbench &bench)
{
    const Solid block = pocket(bench);
    Face floor, bottom;
    for (Face face : bench.faces(block)) {
        const gwb_plane plane = bench.plane(face);
        if (narrow(plane.c) > 0 && bench.rings(face).empty())
            floor = face;
        if (narrow(plane.c) < 0)
            bottom = face;
    }
    bench.sweep(floor, {0, 0, -5});
    bench.kfmrh(bottom, floor);
    return block;
}

// One with two holes, of which the second lies beside the first: two that are glued side by side.
static Solid two_holes(Workbench &bench)
{
    const Solid first = hole(bench);
    const Solid second = copy_solid(bench, first, Motion::move({8, 0, 0}));
    Face one, other;
    for (Face face : bench.faces(first))
        if (const gwb_plane plane = bench.plane(face); narrow(plane.a) > 0 && -narrow(plane.d) == 8 * narrow(plane.a))
            one = face;
    for (Face face : bench.faces(second))
        if (const gwb_plane plane = bench.plane(face); narrow(plane.a) < 0 && narrow(plane.d) == -8 * narrow(plane.a))
            other = face;
    bench.glue(one, other);
    return first;
}

static Solid wire(Workbench &bench)
{
    const NewSolid start = bench.mvfs({1, 2, 3});
    const NewVertex one = bench.mev(lone(start.loop), lone(start.loop), {5, 2, 3});
    bench.mev(plus(one.edge), plus(one.edge), {1, 7, 3});
    bench.mev(minus(one.edge), minus(one.edge), {5, 9, 4});
    return start.solid;
}

static Solid parts(Workbench &bench)
{
    const Solid one = bench.block({0, 0, 0}, {2, 2, 2}), other = bench.block({5, 5, 5}, {2, 2, 2});
    bench.merge(one, other);
    return one;
}

static Solid lone_ring(Workbench &bench)
{
    const Solid block = bench.block({0, 0, 0}, {8, 8, 8});
    const HalfEdge start = bench.half_edges(bench.face(Face(1)).outer_loop).front();
    bench.kemr(plus(bench.mev(start, start, {2, 2, 8}).edge));
    return block;
}

using Make = Solid (*)(Workbench &);
static const std::pair<const char *, Make> makers[] = {{"a pocket", pocket}, {"a hole", hole},     {"two holes", two_holes},
                                                       {"a wire", wire},     {"two parts", parts}, {"a lone ring", lone_ring}};

static const Motion motions[] = {Motion(),
                                 Motion::move({20, -3, 5}),
                                 Motion::quarter_turns(0),
                                 Motion::quarter_turns(1, 2),
                                 Motion::quarter_turns(2, 3),
                                 Motion::mirror(0),
                                 Motion::mirror(2).then(Motion::move({0, 0, -1})),
                                 Motion::quarter_turns(2).then(Motion::mirror(1))};

// In a draft they are steps of it, which a mark and the draft's end take back.
static void try_drafts()
{
    Workbench bench;
    const Solid block = bench.block({0, 0, 0}, {4, 4, 4});
    const std::string before = bench.listing();
    Draft draft = bench.draft();
    const Solid copy = copy_solid(bench, block, Motion::move({9, 0, 0}));
    const Mark mark = bench.mark();
    move_solid(bench, copy, Motion::mirror(1));
    kill_solid(bench, block);
    check(bench.faces(block).empty() && narrow(bench.six_volumes(copy)) == 384, "a copy in a draft, moved, and its model killed");
    bench.back(mark);
    check(shape(bench, copy) == shape(bench, block, Motion::move({9, 0, 0})), "a mark takes both back");
    try {
        move_solid(bench, copy, Motion::move({1000000000, 0, 0}));
        check(false, "a solid that would lie out of range");
    } catch (const RefusedBy<GWB_WHY_POINT_RANGE> &) {
    }
    check(shape(bench, copy) == shape(bench, block, Motion::move({9, 0, 0})), "what is refused leaves the draft as it was");
    draft.commit();
    check(bench.depth() == 2 && narrow(bench.six_volumes(copy)) == 384, "all is one command");
    bench.undo();
    check(bench.listing() == before, "which is undone at once");
}

// Those of all faces at once are those of each.
static void try_all_triangles()
{
    Workbench bench;
    const Solid solid = two_holes(bench), other = bench.block({50, 0, 0}, {1, 2, 3});
    std::vector<std::array<std::uint32_t, 4>> wanted, found;
    for (Face face : bench.numbers<Face>())
        for (auto [a, b, c] : triangles(bench, face))
            wanted.push_back({face.number(), a.number(), b.number(), c.number()});
    for (const gwb_triangle_row &row : bench.triangle_rows())
        found.push_back({row.face, row.corners[0], row.corners[1], row.corners[2]});
    check(found == wanted && found.size() > 64, "the triangles of all faces");
    check(bench.triangle_rows(other).size() == 12 && bench.triangle_rows(solid).size() == found.size() - 12, "those of a solid");
    check(bench.triangle_rows(Face(999)).empty(), "those of a face that is not there");
    for (Solid none : {Solid(), Solid(999), Solid(4294967295)})
        check(bench.attempt().triangle_rows(none).error().is(GWB_WHY_NO_SOLID), "those of a solid that is not there");
    check(bench.half_edge_rows(Solid()).empty() && bench.faces(Solid()).empty(), "a solid that nothing was given");
    std::size_t walked = 0;
    for (const gwb_triangle_row &row : *bench.attempt().triangle_rows(other))
        walked += row.corners[0] != 0;
    check(walked == 12, "a loop over the rows of a temporary result");
}

// Faces are cut once, however many triangles they have: as often as the library is asked for them.
static void try_once()
{
    static long asked = 0;
    const auto allocate = [](void *, std::size_t size) noexcept { return asked++, std::malloc(size); };
    const auto reallocate = [](void *, void *block, std::size_t size) noexcept { return asked++, std::realloc(block, size); };
    const gwb_heap heap{allocate, reallocate, [](void *, void *block) noexcept { std::free(block); }, nullptr};
    Workbench bench;
    const Solid solid = two_holes(bench);
    gwb_triangle_row none{};
    gwb_use_heap(&heap);
    (void)gwb_read_triangles(bench.handle(), solid.number(), &none, 0);
    const long once = std::exchange(asked, 0);
    const bool are_many = bench.triangle_rows(solid).size() > 64;
    gwb_use_heap(nullptr);
    check(are_many && once > 0 && asked == once, "the faces of a solid are cut once");
}

static void try_loading(const std::string &name, Make make)
{
    Workbench bench, other;
    make(bench);
    const std::string listing = bench.listing();
    other.load(listing);
    check(other.listing() == listing && other.depth() == 1, name + " is loaded as one command");
    check(other.fresh<Face>()->first == Face(1) && other.fresh<Face>()->last == bench.greatest<Face>(), name + ": its faces are fresh");
    check(other.attempt().load(listing).error().is(GWB_WHY_SOLID_TAKEN), name + " is not loaded twice");
    check(other.attempt().load(listing + listing).error().problem == Problem::no_call && other.depth() == 1, name + ": no listing");
    other.undo();
    Draft draft = other.draft();
    other.load(listing);
    draft.commit();
    check(other.listing() == listing && other.depth() == 1 && other.fresh<Face>()->first == Face(1), name + " is loaded in a draft");
}

static void try_scripts()
{
    Workbench bench;
    check(bench.run_lines("block 1 0 0 0 4 4 4\n\n# a comment\ncount 1") == 4 && bench.depth() == 1, "a script");
    try {
        bench.run_lines("undo\nredo\nkvfs 1\nundo\n");
        check(false, "a script with a line that is refused");
    } catch (const RefusedBy<GWB_WHY_NOT_BARE> &refused) {
        check(std::string(refused.what()) == "kvfs 1: NotBare 1" && bench.depth() == 1, "it is given up to that line");
    }
    check(bench.run_lines("") == 0 && bench.attempt().run_lines("blok\n").error().problem == Problem::fault, "scripts of no line, and of none");
}

// Where few numbers are left above all in use, a copy takes those, and then lower ones.
static void try_last_numbers()
{
    for (const Motion &motion : motions) {
        Workbench bench;
        const Solid holed = two_holes(bench);
        const NewSolid last = bench.mvfs({40, 40, 40});
        bench.mev(lone(last.loop), lone(last.loop), Edge(999'990), Vertex(999'991), {44, 40, 40});
        bench.mef(plus(Edge(999'990)), minus(Edge(999'990)), Edge(999'992), Face(999'993), Loop(999'994));
        const auto wanted = shape(bench, holed, motion);
        const Copy copy = copy_solid(bench, holed, motion);
        check(shape(bench, copy) == wanted, "a copy with the last numbers");
        check(copy.of(*bench.faces(holed).begin()) == Face(999'994) && bench.greatest<Loop>() == Loop(1'000'000), "which it has");
        check(copy.of(plus(Edge(1))).edge() == Edge(999'993) && copy.of(Vertex(1)) == Vertex(999'992), "from the first on");
        const auto left = shape(bench, copy);
        kill_solid(bench, holed);
        check(bench.faces(holed).empty() && shape(bench, copy) == left, "what it is of is killed with the last numbers");
    }
}

// Numbers that are spent are low again, whatever has them.
static void try_renumber()
{
    Workbench bench;
    const Solid holed = two_holes(bench);
    const Solid gone = bench.block({80, 80, 80}, {1, 1, 1}), wired = wire(bench);
    bench.mvfs(Solid(1'000'000), Face(1'000'000), Loop(1'000'000), Vertex(1'000'000), {40, 40, 40});
    kill_solid(bench, gone);
    const std::string before = bench.listing();
    const auto wanted = shape(bench, holed);
    Attempts attempt = bench.attempt();
    check(attempt.block(Solid(999'999), {9, 9, 9}, {1, 1, 1}).error().is(GWB_WHY_NUMBERS_SPENT), "no number is left");
    Notes<Face, int> notes(bench);
    notes[Face(1'000'000)] = 7;
    const Renumbered all = renumber(bench);
    check(shape(bench, all.of(holed)) == wanted && all.of(Solid(1'000'000)) == bench.greatest<Solid>(), "all is as it was");
    std::size_t faces = 0, edges = 0;
    for (Face face : bench.numbers<Face>())
        check(face.number() == ++faces, "faces are numbered one after another");
    for (Edge edge : bench.numbers<Edge>())
        check(edge.number() == ++edges, "and edges");
    check(notes.find(all.of(Face(1'000'000))) != nullptr && notes.all().size() == 1, "notes go along");
    const std::string after = bench.listing();
    bench.undo();
    check(bench.listing() == before && notes.find(all.back().of(all.of(Face(1'000'000)))) != nullptr && notes.all().size() == 1, "it is undone at once");
    bench.redo();
    check(bench.listing() == after, "and redone");
    renumber(bench);
    check(bench.listing() == after && bench.count(all.of(wired)).edges == 3, "low numbers stay");
    (void)bench.block({9, 9, 9}, {1, 1, 1});
}

// Solids whose parts have higher numbers the lower their own are, so that what one has on the way another one had.
static void try_renumber_crosswise()
{
    Workbench bench;
    const Solid holed = two_holes(bench);
    std::vector<Solid> solids = {copy_solid(bench, holed, Motion::mirror(0)), copy_solid(bench, holed, Motion::move({90, 0, 0}))};
    kill_solid(bench, holed);
    bench.block(Solid(99), {200, 0, 0}, {9, 9, 9});
    for (Solid low : {Solid(7), Solid(6), Solid(5)}) {
        const std::int64_t x = 300 * std::int64_t{low.number()};
        bench.block(low, {x, 0, 0}, {9, 9, 9});
        (void)hole(bench, find_faces(bench, {low, {}, Point{0, 0, 1}, {}, {}})[0], {{x + 2, 2, 9}, {x + 4, 2, 9}, {x + 4, 4, 9}});
        solids.push_back(low);
    }
    std::vector<std::multiset<std::multiset<Corners>>> wanted;
    for (Solid solid : solids)
        wanted.push_back(shape(bench, solid));
    const Renumbered all = renumber(bench);
    for (std::size_t at = 0; at < solids.size(); at++)
        check(shape(bench, all.of(solids[at])) == wanted[at], "solids with numbers crosswise");
    check(bench.greatest<Solid>() == Solid(6), "their own numbers are low too");
}

static void try_no_triangles()
{
    Workbench bench;
    bench.lamina(Solid(1), {{0, 0, 0}, {9, 9, 0}, {9, 0, 0}, {0, 9, 0}, {-5, 4, 0}});
    check(triangles(bench.attempt(), Face(1)).error().problem == Problem::crossed, "a face that crosses itself");
    check(triangles(bench.attempt(), Face(9)).error().is(GWB_WHY_NO_FACE), "no face");
    bench.lamina(Solid(2), {{0, 0, 50}, {4, 0, 50}, {4, 4, 51}, {0, 4, 50}});
    check(triangles(bench.attempt(), Face(3)).error().is(GWB_WHY_NOT_FLAT), "a face that is bent");
    try {
        (void)triangles(bench, Face(1));
        check(false, "a face that crosses itself has triangles");
    } catch (const Crossed &crossed) {
        check(crossed.face() == Face(1), "the face that crosses itself");
    }
}

static void try_solid(const std::string &name, Make make)
{
    for (const Motion &motion : motions) {
        Workbench bench;
        const Solid solid = make(bench);
        const std::size_t depth = bench.depth();
        const std::string before = bench.listing();
        const auto wanted = shape(bench, solid, motion);
        const Copy copy = copy_solid(bench, solid, motion);
        for (const gwb_half_edge_row &row : bench.half_edge_rows(solid))
            check(copy.of(bench.start_of(HalfEdge(row.half_edge))) == bench.start_of(HalfEdge(copy.of(HalfEdge(row.half_edge).edge()).number() * 2 + row.half_edge % 2)),
                  name + ": an edge runs as that which it is of");
        check(shape(bench, copy) == wanted && bench.depth() == depth + 1, name + " is copied by one command");
        const gwb_counts counts = bench.count(copy), old = bench.count(solid);
        check(counts.vertices == old.vertices && counts.edges == old.edges && counts.rings == old.rings && counts.sum == old.sum,
              name + ": as many of all");
        kill_solid(bench, copy);
        check(bench.listing() == before, name + ": a copy that is killed leaves what was there");
        move_solid(bench, solid, Motion());
        check(bench.listing() == before, name + ": a move by nothing leaves all as it was");
        bench.undo();
        move_solid(bench, solid, motion);
        check(shape(bench, solid) == wanted && bench.depth() == depth + 3, name + " is moved by one command");
        bench.undo();
        check(bench.listing() == before, name + ": undo moves it back");
    }
}

// ---- memory refused in the faces of C++

// A block in a session or a draft of it, and what is held of it.
struct Held {
    std::string listing;
    std::size_t depth, mark;
};

static Held held(const Workbench &bench)
{
    return {bench.listing(), bench.depth(), bench.mark().steps()};
}

static bool is_same(const Held &a, const Held &b)
{
    return a.listing == b.listing && a.depth == b.depth && a.mark == b.mark;
}

using Feature = std::function<void(Workbench &)>;

// The feature with one request refused: whether there was one.
static bool try_refused(const Feature &feature, bool is_drafting, long nth, const std::string &name)
{
    Workbench bench;
    (void)bench.block({0, 0, 0}, {8, 8, 8});
    std::optional<Draft> draft;
    if (is_drafting)
        draft.emplace(bench.draft());
    (void)bench.block(Solid(7), {20, 0, 0}, {1, 1, 1});
    const Held before = held(bench);
    bool was_thrown = false;
    until_refused = nth;
    try {
        feature(bench);
    } catch (const std::bad_alloc &) {
        was_thrown = true;
    }
    const bool was_refused = until_refused < 0;
    until_refused = -1;
    check(was_thrown == was_refused && (!was_thrown || is_same(held(bench), before)), name + ", request " + std::to_string(nth));
    return was_refused;
}

static void try_refused_memory()
{
    const Point up{0, 0, 9};
    const std::vector<Point> square = {{2, 2, 8}, {4, 2, 8}, {4, 4, 8}, {2, 4, 8}};
    const std::map<std::string, Feature> features = {
        {"profile", [&](Workbench &bench) { (void)profile(bench, square, up); }},
        {"ring", [&](Workbench &bench) { (void)ring(bench, Face(1), square); }},
        {"pocket", [&](Workbench &bench) { (void)pocket(bench, Face(1), square, 3); }},
        {"boss", [&](Workbench &bench) { (void)boss(bench, Face(1), square, 3); }},
        {"hole", [&](Workbench &bench) { (void)hole(bench, Face(1), square); }},
        {"notch", [&](Workbench &bench) { (void)notch(bench, Face(1), square, 3); }},
        {"slot", [&](Workbench &bench) { (void)slot(bench, Face(1), {6, 0, 8}, {6, 8, 8}, 2, 3); }},
        {"chamfer", [&](Workbench &bench) { (void)chamfer(bench, Edge(1), 2); }},
        {"copy", [&](Workbench &bench) { (void)copy_solid(bench, Solid(1), Motion::move({40, 0, 0})); }},
        {"split", [&](Workbench &bench) { (void)split_solid(bench, Solid(1), {0, 0, 1, -4}); }},
        {"trim", [&](Workbench &bench) { (void)trim(bench, Solid(1), {0, 0, 1, -4}); }},
        {"pattern", [&](Workbench &bench) { (void)pattern(bench, Solid(1), 3, {0, 0, 9}); }},
        {"around", [&](Workbench &bench) { (void)pattern_around(bench, Solid(1), 2, 0, 2, {0, -1, 0}); }},
        {"polyhedron", [&](Workbench &bench) {
             (void)polyhedron(bench, {{90, 0, 0}, {96, 0, 0}, {90, 6, 0}, {90, 0, 6}}, {0, 2, 1, 0, 1, 3, 1, 2, 3, 0, 3, 2}, {3, 3, 3, 3});
         }},
        {"chamfers", [&](Workbench &bench) { (void)chamfer_edges(bench, {Edge(1), Edge(2)}, 1); }},
        {"separate", [&](Workbench &bench) { (void)separate(bench, Solid(1)); }},
        {"join_faces", [&](Workbench &bench) { (void)join_faces(bench, Solid(1)); }},
        {"crossings", [&](Workbench &bench) { (void)find_crossings(bench, Solid(1), Solid(1)); }},
        {"scale", [&](Workbench &bench) { scale(bench, 3); }},
        {"move", [&](Workbench &bench) { move_solid(bench, Solid(1), Motion::quarter_turns(2)); }},
        {"load", [&](Workbench &bench) { bench.load("solid 9\nface 90 9 90\nloop 90 at 90\nvertex 90 1 1 1\n"); }},
    };
    for (const auto &[name, feature] : features)
        for (bool is_drafting : {false, true})
            for (long nth = 0; try_refused(feature, is_drafting, nth, name); nth++) {
            }
}

// ---- work that its caller ends

static long until_stopped = -1;

// The feature ended at a question: whether there were so many.
static bool try_stopped(const Feature &feature, bool is_drafting, long nth, const std::string &name)
{
    Workbench bench;
    (void)bench.block({0, 0, 0}, {8, 8, 8});
    (void)bench.block(Solid(3), {8, 0, 0}, {4, 8, 4});
    (void)profile(bench, Solid(4), {{50, 0, 0}, {58, 0, 0}, {58, 0, 4}, {54, 0, 4}, {54, 0, 8}, {50, 0, 8}}, {0, 8, 0});
    std::optional<Draft> draft;
    if (is_drafting)
        draft.emplace(bench.draft());
    (void)bench.block(Solid(7), {20, 0, 0}, {1, 1, 1});
    const Held before = held(bench);
    until_stopped = nth;
    bench.stop_by([](void *) noexcept { return until_stopped-- == 0; }, nullptr);
    bool was_stopped = false;
    try {
        feature(bench);
    } catch (const Stopped &) {
        was_stopped = true;
    }
    check(was_stopped == (until_stopped < 0) && (!was_stopped || is_same(held(bench), before)), name + ", question " + std::to_string(nth));
    return was_stopped;
}

static void try_stops()
{
    const std::vector<Point> square = {{2, 2, 8}, {4, 2, 8}, {4, 4, 8}, {2, 4, 8}};
    const std::map<std::string, Feature> features = {
        {"pocket", [&](Workbench &bench) { (void)pocket(bench, Face(1), square, 3); }},
        {"notch", [&](Workbench &bench) { (void)notch(bench, Face(1), square, 3); }},
        {"chamfer", [&](Workbench &bench) { (void)chamfer(bench, Edge(1), 2); }},
        {"copy", [&](Workbench &bench) { (void)copy_solid(bench, Solid(1), Motion::move({40, 0, 0})); }},
        {"cut", [&](Workbench &bench) { (void)cut(bench, Solid(4), {0, 0, 1, -4}); }},
        {"trim", [&](Workbench &bench) { (void)trim(bench, Solid(1), {0, 0, 1, -4}); }},
        {"union", [&](Workbench &bench) { (void)unite(bench, {Solid(1), Solid(3)}); }},
        {"subtract", [&](Workbench &bench) { (void)subtract(bench, Solid(1), {Solid(3)}); }},
        {"separate", [&](Workbench &bench) { (void)separate(bench, Solid(1)); }},
        {"join_faces", [&](Workbench &bench) { (void)join_faces(bench, Solid(1)); }},
        {"scale", [&](Workbench &bench) { scale(bench, 3); }},
        {"advice", [&](Workbench &bench) { (void)off_lattice(bench, Solid(1), {2, 3, 5, -17}); }},
        {"crossings", [&](Workbench &bench) { (void)find_crossings(bench, Solid(1)); }},
        {"crossings of two", [&](Workbench &bench) { (void)find_crossings(bench, Solid(1), Solid(3)); }},
    };
    for (const auto &[name, feature] : features)
        for (bool is_drafting : {false, true}) {
            long questions = 0;
            while (try_stopped(feature, is_drafting, questions, name))
                questions++;
            check(questions > 0, name + " asks whether to end");
        }
}

// ---- what is made, by name

static void try_names()
{
    Workbench bench;
    const Block block = bench.block({0, 0, 0}, {8, 8, 8});
    check(block.top == Face(1) && block.bottom == Face(2) && block.sides[3] == Face(6) && Solid(block) == Solid(1), "a block");
    const Lamina sheet = bench.lamina({{20, 0, 0}, {24, 0, 0}, {20, 4, 0}});
    check(sheet.front == Face(7) && sheet.back == Face(8) && sheet.solid == Solid(2), "a lamina");
    const Split cut = split_solid(bench, block, {0, 0, 1, -4});
    check(cut.lower_caps.size() == 1 && cut.upper_caps.size() == 1 && bench.face(cut.upper_caps[0]).solid == cut.above, "a split");
    check(narrow(bench.plane(cut.lower_caps[0]).c) > 0 && narrow(bench.plane(cut.upper_caps[0]).c) < 0, "its caps look at each other");
    const Copy copy = copy_solid(bench, cut.above, Motion::mirror(2));
    const Face cap = copy.of(cut.upper_caps[0]);
    check(bench.face(cap).solid == copy.solid && narrow(bench.plane(cap).c) > 0 && copy.of(Face(999)) == Face(), "a copy's face");
    const HalfEdge side = *bench.around(bench.face(cut.upper_caps[0]).outer_loop).begin();
    const Vertex start = bench.start_of(side);
    check(bench.vertex(copy.of(start)).z == -4 && bench.vertex(start).z == 4, "and vertex");
    check(bench.start_of(copy.of(side)) == copy.of(start) && bench.end_of(copy.of(side)) == copy.of(bench.end_of(side)), "and half-edge");
}

// ---- faces cut into triangles by operators

// Cuts all in a draft: each face with triangles is one then, no vertex is new, and the volumes are the same.
static void try_cut(const std::string &name, Workbench &bench)
{
    const std::string before = bench.listing();
    const std::size_t triangles = bench.triangle_rows().size();
    std::size_t uncut = 0, vertices = bench.vertex_rows().size(), faces = 0, wrong = 0;
    for (Face face : bench.numbers<Face>())
        uncut += bench.triangle_rows(face).empty();
    std::map<Solid, std::int64_t> volumes;
    for (Solid solid : bench.numbers<Solid>())
        volumes[solid] = narrow(bench.six_volumes(solid));
    {
        Draft draft = bench.draft();
        triangulate(bench);
        for (Face face : bench.numbers<Face>()) {
            faces++;
            wrong += bench.half_edge_rows(face).size() != 3 || bench.triangle_rows(face).size() != 1;
        }
        check(faces == triangles + uncut && wrong == uncut && bench.vertex_rows().size() == vertices, name + ": each face is a triangle");
        for (const auto &[solid, volume] : volumes)
            check(narrow(bench.six_volumes(solid)) == volume, name + ": the volumes stay");
    }
    check(bench.listing() == before, name + ": all is as before the draft");
}

// A plate with so many pockets along each side, and a hole in the middle of four.
static void make_plate(Workbench &bench, std::int64_t count)
{
    const Block plate = bench.block({0, 0, 0}, {10 * count, 10 * count, 10});
    for (std::int64_t x = 0; x < 10 * count; x += 10)
        for (std::int64_t y = 0; y < 10 * count; y += 10)
            pocket(bench, plate.top, std::vector<Point>{{x + 2, y + 3, 10}, {x + 7, y + 2, 10}, {x + 6, y + 8, 10}}, 4);
    hole(bench, plate.top, std::vector<Point>{{9, 9, 10}, {11, 9, 10}, {11, 11, 10}, {9, 11, 10}});
}

static double time_of_cuts(std::int64_t count)
{
    Workbench bench;
    make_plate(bench, count);
    Draft draft = bench.draft();
    const std::clock_t began = std::clock();
    triangulate(bench);
    return static_cast<double>(std::clock() - began);
}

static void try_cuts()
{
    Workbench lamina, plate, wires;
    (void)lamina.lamina({{0, 0, 0}, {5, 0, 0}, {5, 5, 0}, {0, 5, 0}});
    try_cut("a lamina", lamina);
    make_plate(plate, 3);
    try_cut("a plate", plate);
    for (const auto &[name, make] : makers) {
        Workbench bench;
        make(bench);
        try_cut(name, bench);
    }
    time_of_cuts(4);
    check(time_of_cuts(20) < 10 * time_of_cuts(10), "four times the rings take more than their number");
}

int main()
{
    try {
        try_stops();
        try_names();
        try_refused_memory();
        for (const auto &[name, make] : makers) {
            try_solid(name, make);
            try_loading(name, make);
        }
        try_all_triangles();
        try_once();
        try_scripts();
        try_last_numbers();
        try_renumber();
        try_renumber_crosswise();
        try_no_triangles();
        try_cuts();
        try_drafts();
    } catch (const std::exception &thrown) {
        check(false, thrown.what());
    }
    return counted();
}
