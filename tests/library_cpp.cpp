// Tries gwb.hpp: exceptions by name, numbers as types, ranges, drafts and workbenches that move or are closed. The last line counts.
#include "checks.h"
#include "gwb.h"
#include <cstdint>
// The version that gwb.hpp finds linked, so that it can be another one; that of the library is (gwb_version)().
static std::uint32_t linked_version = GWB_VERSION;
#define gwb_version() linked_version
#include "gwb.hpp"
#include <array>
#include <cstdlib>
#include <functional>
#include <iostream>
#include <sstream>
#include <type_traits>
#include <unordered_set>

using namespace gwb_session;

template <class Base, class... Kinds> constexpr bool are_kinds_of = (std::is_base_of_v<Base, Kinds> && ...);
static_assert(are_kinds_of<std::runtime_error, Complaint> && are_kinds_of<Complaint, Refused, Impossible, Faulted>);
static_assert(are_kinds_of<std::logic_error, NoCall, InDraft, NoDraft, Closed, Changed>);

// Whether a call throws just this.
template <class Thrown> static bool throws(const std::function<void()> &call)
{
    try {
        call();
    } catch (const Thrown &) {
        return true;
    } catch (const std::exception &) {
    }
    return false;
}

// What a range has, as numbers.
template <class Range> static std::vector<std::uint32_t> all(const Range &range)
{
    std::vector<std::uint32_t> found;
    for (auto id : range) {
        if constexpr (std::is_same_v<decltype(id), HalfEdge>)
            found.push_back(id.code());
        else
            found.push_back(id.number());
    }
    return found;
}

using Wanted = std::vector<std::uint32_t>;

static Workbench block()
{
    Workbench bench;
    bench.block(Solid(1), {0, 0, 0}, {4, 4, 4});
    return bench;
}

// A spoke of the top of a block, cut loose: an operator that makes edge 13 and vertex 9, and one that makes ring 7.
static void give_steps(Workbench &bench)
{
    bench.mev(plus(Edge(7)), plus(Edge(7)), Edge(13), Vertex(9), {2, 2, 4});
    bench.kemr(plus(Edge(13)), Loop(7));
}

// ---- numbers

template <class Call, class... Given> constexpr bool takes = std::is_invocable_v<Call, Given...>;

static void try_types()
{
    constexpr auto kev = [](auto at) -> decltype(std::declval<Workbench &>().kev(at)) {};
    constexpr auto face = [](auto at) -> decltype(std::declval<Workbench &>().face(at)) { return {}; };
    constexpr auto mev = [](auto at) -> decltype(std::declval<Workbench &>().mev(at, at, Edge(1), Vertex(1), Point{})) {};
    static_assert(takes<decltype(kev), HalfEdge> && !takes<decltype(kev), int> && !takes<decltype(kev), Edge> && !takes<decltype(kev), Corner>);
    static_assert(takes<decltype(face), Face> && !takes<decltype(face), Loop> && !takes<decltype(face), Vertex> && !takes<decltype(face), int>);
    static_assert(takes<decltype(mev), HalfEdge> && takes<decltype(mev), Corner> && !takes<decltype(mev), Loop> && !takes<decltype(mev), int>);
    static_assert(sizeof(Face) == 4 && sizeof(HalfEdge) == 4 && std::is_trivially_copyable_v<Face>);
    check(plus(Edge(7)).code() == 14 && minus(Edge(7)).code() == 15 && plus(Edge(7)).twin() == minus(Edge(7)), "half-edges of an edge");
    check(minus(Edge(7)).edge() == Edge(7) && minus(Edge(7)).is_second() && !plus(Edge(7)).is_second(), "the edge of a half-edge");
    std::ostringstream text;
    text << Face(3) << ' ' << plus(Edge(7)) << ' ' << minus(Edge(8));
    check(text.str() == "3 +7 -8" && Face(2) > Face(1) && Face(2) >= Face(2) && Face(1) <= Face(2), "numbers as text, and in their order");
    check(std::unordered_set<Face>{Face(1), Face(2), Face(1)}.size() == 2 && Face(1) < Face(2) && Face() == Face(0), "numbers in a set");
}

// What is above all codes is no half-edge, and not another one.
static void try_bounds()
{
    const std::uint32_t most = GWB_GREATEST_EDGE;
    check(plus(Edge(most)).code() == 0x7FFFFFFE && minus(Edge(most)).code() == 0x7FFFFFFF, "the greatest edge");
    check(plus(Edge(most + 1)) == plus(Edge(most)) && minus(Edge(UINT32_MAX)) == minus(Edge(most)), "edges above it");
    check(lone(Loop(0x7FFFFFFF)).code() == UINT32_MAX && lone(Loop(0x7FFFFFFE)).code() == UINT32_MAX - 1, "the greatest loop");
    check(lone(Loop(0x80000000)).code() == UINT32_MAX && lone(Loop(0x80000002)).code() == UINT32_MAX, "loops above it");
    check(gwb_plus(most) == 0x7FFFFFFE && gwb_plus(most + 1) == 0x7FFFFFFE && gwb_minus(UINT32_MAX) == 0x7FFFFFFF, "the same in C");
    check(gwb_lone(0x80000002) == UINT32_MAX && GWB_LONE(2) == 0x80000002, "loops in C");
    Workbench bench;
    bench.mvfs(Solid(1), Face(1), Loop(2), Vertex(1), {0, 0, 0});
    check(throws<RefusedBy<GWB_WHY_NUMBER_RANGE>>([&] {
              bench.mev(plus(Edge(0x40000001)), plus(Edge(0x40000001)), Edge(1), Vertex(2), {1, 0, 0});
          }),
          "an edge that was a lone loop's corner");
    check(throws<RefusedBy<GWB_WHY_NUMBER_RANGE>>([&] {
              bench.mev(lone(Loop(0x80000002)), lone(Loop(0x80000002)), Edge(1), Vertex(2), {1, 0, 0});
          }),
          "a loop that was another's");
    bench.mev(lone(Loop(2)), lone(Loop(2)), Edge(1), Vertex(2), {1, 0, 0});
    check(throws<RefusedBy<GWB_WHY_NUMBER_RANGE>>([&] { bench.kev(plus(Edge(2147483649u))); }), "an edge that was another one");
    check(bench.count(Solid(1)).edges == 1, "edge 1 is there");
}

static void try_free_numbers()
{
    Workbench bench;
    check(bench.greatest<Face>() == Face(0) && bench.next_free<Face>() == Face(1), "an empty model");
    const Solid first = bench.block({0, 0, 0}, {4, 4, 4}), above = bench.split(first, 0, 0, 1, -2);
    check(first == Solid(1) && above == Solid(2) && bench.greatest<Edge>() == Edge(24), "numbers that were chosen");
    bench.block(Solid(999999), {9, 9, 9}, {1, 1, 1});
    check(bench.lamina({{0, 0, 9}, {3, 0, 9}, {0, 3, 9}}) == Solid(1000000), "the number after the greatest one");
    check(throws<RefusedBy<GWB_WHY_NUMBER_RANGE>>([&] { bench.block({0, 0, 0}, {1, 1, 1}); }), "no number is left");
    const NewSolid point = Workbench().mvfs({1, 2, 3});
    check(point.solid == Solid(1) && point.vertex == Vertex(1), "what mvfs makes");
}

static void try_chosen_operators()
{
    Workbench bench;
    const NewSolid start = bench.mvfs({0, 0, 0});
    const NewVertex one = bench.mev(lone(start.loop), lone(start.loop), {3, 0, 0});
    const NewVertex two = bench.mev(minus(one.edge), minus(one.edge), {0, 3, 0});
    const NewFace triangle = bench.mef(plus(one.edge), minus(two.edge));
    check(bench.face(triangle.face).outer_loop == triangle.loop && bench.edge(triangle.edge).from == start.vertex, "a triangle");
    const NewVertex spoke = bench.mev(plus(one.edge), plus(one.edge), {1, 1, 0});
    const Loop ring = bench.kemr(plus(spoke.edge));
    check(bench.lone_vertex(ring) == spoke.vertex, "a ring");
    const Edge bridge = bench.mekr(plus(one.edge), lone(ring));
    const Loop again = bench.kemr(plus(bridge));
    const Face face = bench.mfkrh(again);
    check(bench.face(face).outer_loop == again && bench.depth() == 9, "a face of a ring");
}

// ---- commands

static void try_measures()
{
    Workbench bench = block();
    const Workbench &seen = bench;
    check(narrow(seen.six_volumes(Solid(1))) == 384, "six times the volume");
    gwb_counts counts = seen.count(Solid(1));
    check(counts.vertices == 8 && counts.edges == 12 && counts.faces == 6 && counts.rings == 0 && counts.sum == 2, "counts");
    gwb_plane top = seen.plane(Face(1));
    check(top.flat == 1 && narrow(top.c) == 32 && narrow(top.d) == -128, "the plane of the top");
    check(seen.listing().find("vertex 8") != std::string::npos, "the listing");
    bench.lamina(Solid(2), {{0, 0, 0}, {2, 0, 0}, {2, 2, 0}, {0, 2, 0}});
    bench.sweep(bench.fresh<Face>()->first, {0, 0, -3});
    check(narrow(bench.six_volumes(Solid(2))) == -72, "the volume of a solid inside out");
    check(narrow({-1, UINT64_MAX}) == -1 && narrow({0, INT64_MAX}) == INT64_MAX && narrow({-1, 1ull << 63}) == INT64_MIN, "narrow numbers");
    check(throws<std::overflow_error>([] { narrow({0, 1ull << 63}); }), "a number above 64 bits");
    check(throws<std::overflow_error>([] { narrow({-1, 0}); }), "a number below 64 bits");
}

static void try_refusals()
{
    Workbench bench = block();
    const std::string before = bench.listing();
    check(throws<RefusedBy<GWB_WHY_NOT_BARE>>([&] { bench.kvfs(Solid(1)); }), "NotBare");
    check(throws<RefusedBy<GWB_WHY_NUMBER_RANGE>>([&] { bench.kvfs(Solid()); }), "NumberRange, the first condition");
    check(!throws<RefusedBy<GWB_WHY_NO_SOLID>>([&] { bench.kvfs(Solid(1)); }), "another condition than the one that is false");
    check(throws<Refused>([&] { bench.kev(HalfEdge(UINT32_MAX)); }), "a half-edge that is none");
    check(throws<RefusedBy<GWB_WHY_NO_LOOP>>([&] {
              bench.mev(lone(Loop(9)), lone(Loop(9)), Edge(20), Vertex(20), {0, 0, 0});
          }),
          "a corner of no loop");
    check(throws<RefusedBy<GWB_WHY_FEW_POINTS>>([&] { bench.lamina(Solid(2), {}); }), "a lamina of no points");
    check(throws<RefusedBy<GWB_WHY_NO_SOLID>>([&] { (void)bench.six_volumes(Solid(9)); }), "the volume of no solid");
    check(throws<RefusedBy<GWB_WHY_NOTHING_TO_REDO>>([&] { bench.redo(); }), "nothing to redo");
    check(throws<Faulted>([&] { bench.run("blok"); }), "a line that is no command");
    check(throws<RefusedBy<GWB_WHY_SOLID_TAKEN>>([&] { bench.run("block 1 0 0 0 4 4 4"); }), "a line that is refused");
    check(bench.listing() == before && bench.depth() == 1 && bench.ahead() == 0, "refusals change nothing");
}

static void try_what_is_said()
{
    Workbench bench = block();
    try {
        bench.kvfs(Solid(1));
        check(false, "kvfs of a block");
    } catch (const Refused &refused) {
        check(refused.number() == 12 && refused.value() == 1 && std::string("NotBare") == refused.name(), "what a refusal has");
        check(std::string("kvfs: NotBare 1") == refused.what() && refused.why() == GWB_WHY_NOT_BARE, "what a refusal says");
        check(std::string("solid X has more than a vertex") == refused.text() && *gwb_why_text(99) == '\0', "its text");
    }
    try {
        bench.run(std::string(200, 'x'));
        check(false, "a word that is none");
    } catch (const Faulted &faulted) {
        check(faulted.number() == 1 && std::string(faulted.what()) == std::string(100, 'x') + ": fault 1", "what a fault says");
    }
    check(throws<RefusedBy<GWB_WHY_NO_SOLID>>([&] { bench.kvfs(Solid(1000000)); }), "a number of seven digits");
    check((gwb_version)() == GWB_VERSION, "the version of the library is that of the header");
    check(bench.run("") == GWB_SILENT && bench.run("count 1") == GWB_COUNT && bench.reply() == "count 8 12 6 0 2\n", "kinds of answers");
}

// Each refusal that a command of a block has comes in the class of its condition, which the table of them has at its place.
template <std::size_t... Before> static bool are_by_name(std::index_sequence<Before...>)
{
    const auto is_by_name = [](auto why) {
        constexpr gwb_why number = decltype(why)::value;
        try {
            Throwing::failed<int>("all", {Problem::refused, number, 7});
        } catch (const RefusedBy<number> &refused) {
            return refused.number() == number && refused.value() == 7;
        } catch (const std::exception &) {
        }
        return false;
    };
    return (is_by_name(std::integral_constant<gwb_why, static_cast<gwb_why>(Before + 1)>()) && ...);
}

static void try_every_refusal()
{
    check(are_by_name(std::make_index_sequence<GWB_WHY_BAD_PART>()), "each refusal in the class of its condition");
    check(throws<Refused>([] { Throwing::failed<int>("none", {Problem::refused, GWB_WHY_BAD_PART + 1, 7}); }), "a refusal of a later version");
    check(throws<Refused>([] { Throwing::failed<int>("none", {Problem::refused, 0, 7}); }), "refusal 0");
}

static void try_attempts()
{
    Workbench bench = block();
    Attempts attempt = bench.attempt();
    Result<void> refused = attempt.kvfs(Solid(1));
    check(!refused && refused.error().is(GWB_WHY_NOT_BARE) && refused.error().value == 1, "what was refused");
    check(std::string(refused.error().name()) == "NotBare" && !refused.error().is(GWB_WHY_NO_SOLID), "the name of a refusal");
    Result<Solid> above = attempt.split(Solid(1), 0, 0, 1, -2);
    check(above && *above == Solid(2) && bench.depth() == 2, "an attempt is a command of the workbench");
    check(attempt.run("blok").error().problem == Problem::fault && *attempt.run("undo") == GWB_OK, "lines");
    check(attempt.face(Face(99)).error().problem == Problem::absent && attempt.face(Face(1))->solid == Solid(1), "readers");
    check(attempt.lamina(Solid(9), std::vector<Point>(65)).error().problem == Problem::no_call, "no call");
    {
        Result<Attempts::Draft> draft = attempt.draft();
        check(draft && attempt.undo().error().problem == Problem::in_draft, "a draft");
        check(draft->commit() && draft->commit().error().problem == Problem::no_draft, "one that has ended");
    }
    bench = Workbench();
    check(attempt.depth().error().problem == Problem::closed && attempt.faces(Solid(1)).empty() && !attempt.is_open(), "a closed workbench");
}

static void try_operators()
{
    Workbench bench;
    bench.mvfs(Solid(1), Face(1), Loop(1), Vertex(1), {0, 0, 0});
    check(bench.lone_vertex(Loop(1)) == Vertex(1) && bench.half_edges(Loop(1)).empty(), "a lone loop");
    bench.mev(lone(Loop(1)), lone(Loop(1)), Edge(1), Vertex(2), {3, 0, 0});
    bench.mev(minus(Edge(1)), minus(Edge(1)), Edge(2), Vertex(3), {0, 3, 0});
    bench.mef(plus(Edge(1)), minus(Edge(2)), Edge(3), Face(2), Loop(2));
    const EdgeRow edge = bench.edge(Edge(1));
    check(!bench.lone_vertex(Loop(1)) && edge.from == Vertex(1) && edge.to == Vertex(2) && bench.vertex(Vertex(3)).y == 3, "a triangle");
    bench.mev(plus(Edge(1)), plus(Edge(1)), Edge(4), Vertex(4), {1, 1, 0});
    bench.kemr(plus(Edge(4)), Loop(3));
    check(all(bench.rings(Face(2))) == Wanted{3} && bench.face_of(Loop(3)) == Face(2), "a ring");
    bench.mfkrh(Loop(3), Face(9));
    bench.kfmrh(Face(2), Face(9));
    bench.ring_in(Loop(3), Face(1));
    bench.ring_out(Loop(3), Face(1));
    check(bench.face(Face(1)).outer_loop == Loop(3) && all(bench.rings(Face(1))) == Wanted{1}, "a ring that became the outer loop");
    bench.outer(Loop(1), Face(1));
    check(bench.face(Face(1)).outer_loop == Loop(1) && all(bench.rings(Face(1))) == Wanted{3}, "an outer loop that became a ring");
    while (bench.depth() > 0)
        bench.undo();
    check(all(bench.numbers<Solid>()).empty() && bench.ahead() == 11, "all is undone");
    bench.redo();
    check(all(bench.numbers<Solid>()) == Wanted{1}, "one is redone");
}

static void try_solids()
{
    Workbench bench = block();
    bench.block(Solid(2), {0, 0, 4}, {4, 4, 4});
    check(bench.fresh<Face>()->first == Face(7) && bench.fresh<Edge>()->last == Edge(24) && !bench.fresh<Solid>(), "fresh numbers");
    bench.glue(Face(1), Face(8));
    bench.split(Solid(1), 0, 0, 1, -2, Solid(3));
    check(narrow(bench.six_volumes(Solid(1))) == 192 && narrow(bench.six_volumes(Solid(3))) == 576, "the parts of a solid");
    bench.merge(Solid(1), Solid(3));
    check(narrow(bench.six_volumes(Solid(1))) == 768 && all(bench.faces(Solid(3))).empty(), "two solids that are one");
}

static void try_laminas()
{
    Workbench bench;
    const Point triangle[] = {{0, 0, 0}, {3, 0, 0}, {0, 3, 0}};
    bench.lamina(Solid(1), triangle);
    bench.lamina(Solid(2), std::array<Point, 3>{{{0, 0, 1}, {3, 0, 1}, {0, 3, 1}}});
    bench.lamina(Solid(3), {{0, 0, 2}, {3, 0, 2}, {0, 3, 2}});
    check(all(bench.numbers<Solid>()) == Wanted{1, 2, 3} && bench.vertex(Vertex(9)).z == 2, "laminas of arrays and of a list");
    const std::vector<HalfEdge> second = {plus(Edge(7)), plus(Edge(8)), plus(Edge(9))};
    check(bench.half_edges(Loop(5)) == second && bench.vertex(bench.edge(Edge(8)).from).x == 3, "points in their order");
    std::vector<Point> points(65);
    check(throws<NoCall>([&] { bench.lamina(Solid(4), points); }) && bench.depth() == 3, "a lamina of 65 points");
    points.resize(2);
    check(throws<RefusedBy<GWB_WHY_FEW_POINTS>>([&] { bench.lamina(Solid(4), points); }), "a lamina of two points");
    check(throws<RefusedBy<GWB_WHY_FEW_POINTS>>([&] { bench.lamina(Solid(4), std::vector<Point>()); }), "a lamina of an empty vector");
}

static void try_parts()
{
    Workbench bench = block();
    bench.block(Solid(2), {9, 9, 9}, {1, 1, 1});
    bench.merge(Solid(1), Solid(2));
    const std::vector<Face> faces = {Face(7), Face(8), Face(9), Face(10), Face(11), Face(12)};
    check(throws<RefusedBy<GWB_WHY_BAD_PART>>([&] { bench.part({Face(1)}, Solid(3)); }), "a face that can't be parted from its neighbours");
    check(throws<RefusedBy<GWB_WHY_BAD_PART>>([&] { bench.part({Face(7), Face(8), Face(9), Face(10), Face(12), Face(11)}, Solid(3)); }),
          "faces whose numbers don't rise");
    check(throws<RefusedBy<GWB_WHY_NO_FACE>>([&] { bench.part({Face(99)}, Solid(3)); }), "a part of a face that is not there");
    check(throws<NoCall>([&] { bench.part({}, Solid(3)); }) && throws<NoCall>([&] { bench.part(std::vector<Face>(), Solid(3)); }),
          "a part of no faces");
    bench.part(faces, Solid(3));
    check(narrow(bench.six_volumes(Solid(1))) == 384 && narrow(bench.six_volumes(Solid(3))) == 6, "two solids that were one");
    bench.undo();
    check(all(bench.numbers<Solid>()) == Wanted{1} && bench.depth() == 3, "a part is one command");
}

// ---- readers

static void try_readers()
{
    const Workbench bench = block();
    check(all(bench.faces(Solid(1))) == Wanted{1, 2, 3, 4, 5, 6} && bench.faces(Solid(9)).empty(), "the faces of a solid");
    const std::vector<HalfEdge> top = {plus(Edge(7)), plus(Edge(9)), plus(Edge(11)), plus(Edge(12))};
    check(bench.half_edges(Loop(1)) == top && bench.next(plus(Edge(12))) == plus(Edge(7)), "a loop");
    check(bench.previous(plus(Edge(7))) == plus(Edge(12)) && bench.loop_of(plus(Edge(7))) == Loop(1), "the neighbours of a half-edge");
    check(throws<std::out_of_range>([&] { (void)bench.face(Face(7)); }) && throws<std::out_of_range>([&] { (void)bench.vertex(Vertex()); }),
          "numbers not in use");
    check(throws<std::out_of_range>([&] { (void)bench.faces_of(Edge(13)); }) &&
              throws<std::out_of_range>([&] { (void)bench.end_of(plus(Edge(13))); }),
          "the neighbours of what is not in use");
    Workbench drawn;
    std::vector<Point> points;
    for (std::int64_t at = 0; at < 64; at++)
        points.push_back({at, at * at, 1});
    drawn.lamina(Solid(2), points);
    check(drawn.half_edges(drawn.face(drawn.fresh<Face>()->first).outer_loop).size() == 64, "a long loop");
}

// Both sides of each edge, the edges of each face and those at each vertex, beside the half-edges of all loops.
static void try_neighbours()
{
    Workbench bench = block();
    give_steps(bench);
    bench.mekr(plus(Edge(7)), lone(Loop(7)), Edge(13));
    std::size_t sides = 0, starts = 0, edges = 0;
    for (Face face : bench.faces(Solid(1)))
        for (HalfEdge half_edge : bench.half_edges_of(face)) {
            const auto faces = bench.faces_of(half_edge.edge());
            sides += faces[half_edge.is_second()] == face && bench.face_of(half_edge) == face;
            check(bench.next(bench.previous(half_edge)) == half_edge && bench.end_of(half_edge) == bench.start_of(bench.next(half_edge)),
                  "next and previous");
        }
    for (Vertex vertex : bench.numbers<Vertex>())
        for (HalfEdge half_edge : bench.around(vertex))
            starts += bench.start_of(half_edge) == vertex;
    for (Face face : bench.faces(Solid(1)))
        edges += all(bench.edges_of(face)).size();
    check(sides == 26 && starts == 26, "each half-edge has a side and a start");
    check(edges == 25, "an edge with one face on both sides is one of its edges");
    check(all(bench.around(plus(Edge(7)))).size() == 4 && all(bench.around(Loop(1))).size() == 6, "round a vertex and round a loop");
    bench.kemr(plus(Edge(13)), Loop(7));
    check(all(bench.loops_of(Face(1))) == Wanted{1, 7} && all(bench.loops_of(Face(99))).empty(), "the loops of a face");
    check(all(bench.half_edges_of(Face(1))).size() == 4 && bench.around(Vertex(9)).empty(), "loops and vertices without edges");
}

static void try_rows()
{
    Workbench bench = block();
    const Solid above = bench.split(Solid(1), 0, 0, 1, -2);
    const std::vector<gwb_half_edge_row> rows = bench.half_edge_rows(), part = bench.half_edge_rows(above);
    bool are_right = rows.size() == 48 && part.size() == 24 && bench.half_edge_rows(Solid(9)).empty();
    for (const gwb_half_edge_row &row : rows) {
        const HalfEdge half_edge(row.half_edge);
        are_right = are_right && bench.start_of(half_edge) == Vertex(row.start) && bench.next(half_edge) == HalfEdge(row.next)
            && bench.loop_of(half_edge) == Loop(row.loop) && bench.face_of(half_edge) == Face(row.face);
    }
    for (const gwb_half_edge_row &row : part)
        are_right = are_right && bench.face(Face(row.face)).solid == above;
    const std::vector<gwb_vertex_row> vertices = bench.vertex_rows();
    for (const gwb_vertex_row &row : vertices)
        are_right = are_right && bench.vertex(Vertex(row.vertex)).z == row.point.z;
    check(are_right && vertices.size() == 16, "all rows at once");
    const std::vector<gwb_half_edge_row> of_face = bench.half_edge_rows(Face(rows[0].face));
    check(of_face.size() == 4 && of_face[0].half_edge == rows[0].half_edge && of_face[3].next == rows[0].half_edge, "the rows of a face");
    gwb_half_edge_row few[3] = {};
    check(gwb_read_half_edges(bench.handle(), 0, few, 2) == 48 && few[1].half_edge == rows[1].half_edge && few[2].half_edge == 0,
          "too little room");
}

static void try_fresh()
{
    Workbench bench = block();
    check(bench.fresh<Face>()->first == Face(1) && bench.fresh<Face>()->last == Face(6), "what a block made");
    (void)bench.six_volumes(Solid(1)), (void)bench.plane(Face(1)), (void)bench.count(Solid(1)), (void)bench.listing();
    bench.run("volume 1");
    check(bench.fresh<Face>()->last == Face(6) && bench.fresh<Edge>()->last == Edge(12), "queries leave it as it is");
    check(throws<RefusedBy<GWB_WHY_NO_FACE>>([&] { (void)bench.plane(Face(99)); }) && bench.fresh<Face>(), "so does one that is refused");
    Draft draft = bench.draft();
    check(!bench.fresh<Edge>(), "a draft made nothing yet");
    bench.mev(plus(Edge(7)), plus(Edge(7)), Edge(13), Vertex(9), {0, 0, 9});
    (void)bench.count(Solid(1));
    bench.mev(minus(Edge(13)), minus(Edge(13)), Edge(20), Vertex(10), {0, 0, 11});
    draft.commit();
    check(bench.fresh<Edge>()->first == Edge(13) && bench.fresh<Edge>()->last == Edge(20), "the edges of a draft");
    check(bench.fresh<Vertex>()->first == Vertex(9) && bench.fresh<Vertex>()->last == Vertex(10) && !bench.fresh<Face>(), "its vertices");
    check(throws<Refused>([&] { bench.kvfs(Solid(1)); }) && !bench.fresh<Edge>(), "a command that is refused makes nothing");
    {
        Draft lost = bench.draft();
        bench.mev(plus(Edge(7)), plus(Edge(7)), Edge(30), Vertex(30), {0, 0, 9});
    }
    check(!bench.fresh<Edge>(), "a draft that was abandoned made nothing");
}

// ---- drafts

static void try_committed_drafts()
{
    Workbench bench = block();
    Draft draft = bench.draft();
    give_steps(bench);
    check(bench.lone_vertex(Loop(7)) == Vertex(9) && bench.count(Solid(1)).vertices == 9, "readers and queries speak of the draft's model");
    check(bench.depth() == 0 && bench.ahead() == 0, "in a draft nothing can be undone");
    check(throws<RefusedBy<GWB_WHY_LOOP_TAKEN>>([&] { bench.mef(plus(Edge(7)), plus(Edge(9)), Edge(20), Face(20), Loop(1)); }),
          "a step that is refused");
    check(all(bench.rings(Face(1))) == Wanted{7}, "it leaves the draft open");
    Workbench moved = std::move(bench);
    draft.commit();
    check(moved.depth() == 2 && all(moved.rings(Face(1))) == Wanted{7}, "the steps are one command");
    check(throws<NoDraft>([&] { draft.commit(); }) && throws<NoDraft>([&] { draft.abandon(); }), "a draft that was committed");
    moved.undo();
    check(moved.count(Solid(1)).vertices == 8 && moved.ahead() == 1, "they are undone at once");
    moved.draft().commit();
    check(moved.depth() == 2 && moved.ahead() == 0, "a draft of no steps is a command too");
}

static void try_abandoned_drafts()
{
    Workbench bench = block();
    bench.undo();
    {
        Draft draft = bench.draft();
        bench.mvfs(Solid(1), Face(1), Loop(1), Vertex(1), {0, 0, 0});
        Draft other = std::move(draft);
        check(throws<NoDraft>([&] { draft.commit(); }) && bench.lone_vertex(Loop(1)) == Vertex(1), "a draft that was moved from");
    }
    check(all(bench.numbers<Solid>()).empty() && bench.ahead() == 1, "at the end of its scope a draft is abandoned");
    bench.redo();
    Draft draft = bench.draft();
    give_steps(bench);
    draft.abandon();
    check(bench.count(Solid(1)).vertices == 8 && bench.depth() == 1, "a draft that was abandoned");
    check(throws<NoDraft>([&] { draft.abandon(); }), "one that was abandoned before");
    auto fails = [&] {
        Draft lost = bench.draft();
        give_steps(bench);
        bench.kvfs(Solid(1));
    };
    check(throws<RefusedBy<GWB_WHY_NOT_BARE>>(fails) && bench.count(Solid(1)).vertices == 8, "an exception abandons the draft");
}

// A draft that was ended behind its back has no part in the next one.
static void try_stale_drafts()
{
    Workbench bench = block();
    std::optional<Draft> stale(bench.draft());
    gwb_commit(bench.handle());
    Draft next = bench.draft();
    give_steps(bench);
    check(throws<NoDraft>([&] { stale->commit(); }) && bench.lone_vertex(Loop(7)) == Vertex(9), "it can't be committed");
    stale.reset();
    check(bench.lone_vertex(Loop(7)) == Vertex(9), "nor does its end abandon the next one");
    next.commit();
    check(bench.depth() == 3 && bench.lone_vertex(Loop(7)) == Vertex(9), "whose steps are there");
}

// Drafts and ranges of a workbench that is gone, or another one now, are closed.
static void try_what_outlives()
{
    Workbench bench = block();
    {
        Draft draft = bench.draft();
        auto faces = bench.faces(Solid(1));
        auto top = bench.around(Loop(1));
        bench = Workbench();
        check(throws<Closed>([&] { draft.commit(); }), "the draft of a workbench assigned over");
        check(throws<Closed>([&] { all(faces); }) && throws<Closed>([&] { all(top); }), "its ranges");
    }
    bench.block(Solid(2), {0, 0, 0}, {1, 1, 1});
    std::optional<Workbench> other(block());
    Draft draft = other->draft();
    auto faces = other->faces(Solid(1));
    other.reset();
    check(throws<Closed>([&] { draft.abandon(); }) && throws<Closed>([&] { all(faces); }), "those of one that is gone");
    auto of_none = block().faces(Solid(1));
    check(throws<Closed>([&] { all(of_none); }) && bench.depth() == 1, "the range of one that was never kept");
}

// Larger commands are steps of a draft too, and a mark takes back what was given since.
static void try_marks()
{
    Workbench bench = block();
    Draft draft = bench.draft();
    const Solid second = bench.block({0, 0, 4}, {4, 4, 4});
    const Mark mark = bench.mark();
    check(mark.steps() > 1 && bench.fresh<Face>()->first == Face(7), "a block in a draft");
    bench.glue(Face(1), Face(8));
    bench.split(Solid(1), 0, 0, 1, -6, Solid(5));
    bench.lamina({{0, 0, 9}, {3, 0, 9}, {0, 3, 9}});
    bench.sweep(bench.fresh<Face>()->first, {0, 0, 2});
    check(throws<RefusedBy<GWB_WHY_SAME_FACE>>([&] { bench.kfmrh(Face(2), Face(2)); }), "a step that is refused");
    bench.back(mark);
    check(all(bench.numbers<Solid>()) == Wanted{1, 2} && narrow(bench.six_volumes(second)) == 384, "what was given since a mark is gone");
    bench.back(mark);
    check(bench.mark().steps() == mark.steps(), "going back where nothing was given changes nothing");
    draft.commit();
    check(bench.depth() == 2 && bench.fresh<Face>()->first == Face(7) && bench.fresh<Face>()->last == Face(12), "one command, and what it made");
    check(throws<NoDraft>([&] { bench.back(mark); }) && bench.mark().steps() == 0, "a mark without a draft");
    bench.undo();
    check(all(bench.numbers<Solid>()) == Wanted{1}, "it is undone at once");
    Draft other = bench.draft();
    bench.kvfs(bench.mvfs({9, 9, 9}).solid);
    bench.back(Mark());
    check(bench.mark().steps() == 0 && all(bench.numbers<Solid>()) == Wanted{1}, "back to the beginning of a draft");
}

// A mark is one of its draft alone, and of steps that are still there.
static void try_marks_of_others()
{
    Workbench bench = block(), other = block();
    Draft first = bench.draft();
    (void)bench.block({9, 0, 0}, {4, 4, 4});
    const Mark committed = bench.mark();
    first.commit();
    Draft second = bench.draft(), elsewhere = other.draft();
    (void)bench.block({18, 0, 0}, {4, 4, 4});
    (void)bench.block({27, 0, 0}, {4, 4, 4});
    const std::size_t steps = bench.mark().steps();
    check(throws<NoDraft>([&] { bench.back(committed); }) && bench.mark().steps() == steps, "the mark of a draft that was committed");
    (void)other.block({9, 0, 0}, {4, 4, 4});
    check(throws<NoDraft>([&] { bench.back(other.mark()); }) && bench.mark().steps() == steps, "the mark of another workbench");
    const Mark late = bench.mark();
    bench.back(Mark());
    const Mark early = bench.mark();
    (void)bench.block({9, 9, 9}, {1, 1, 1});
    (void)bench.block({18, 9, 9}, {1, 1, 1});
    check(throws<NoDraft>([&] { bench.back(late); }) && all(bench.numbers<Solid>()).size() == 4, "the mark of steps that were taken back");
    const Mark middle = bench.mark();
    for (int time = 0; time < 3; time++) {
        (void)bench.block({27, 9, 9}, {1, 1, 1});
        bench.back(middle);
    }
    bench.back(early);
    check(all(bench.numbers<Solid>()).size() == 2 && throws<NoDraft>([&] { bench.back(middle); }), "marks one in another, again and again");
}

static void try_what_drafts_refuse()
{
    Workbench bench = block();
    Draft draft = bench.draft();
    give_steps(bench);
    const std::function<void()> calls[] = {
        [&] { bench.undo(); },
        [&] { bench.redo(); },
        [&] { bench.run("undo"); },
        [&] { (void)bench.draft(); },
    };
    for (std::size_t at = 0; at < std::size(calls); at++)
        check(throws<InDraft>(calls[at]), ("what a draft does not take, with the place " + std::to_string(at)).c_str());
    check(all(bench.rings(Face(1))) == Wanted{7} && bench.count(Solid(1)).vertices == 9, "nothing has changed");
    const std::string listing = bench.listing();
    check(bench.run("list") == GWB_LISTING && bench.reply() == listing, "the listing of a draft");
    const Mark mark = bench.mark();
    check(bench.run("block 9 40 40 40 1 1 1") == GWB_OK && bench.six_volumes(Solid(9)).low == 6, "a line is a step of a draft");
    bench.back(mark);
    check(bench.listing() == listing, "a line that was taken back");
    gwb_commit(bench.handle());
    check(throws<NoDraft>([&] { draft.commit(); }) && bench.depth() == 2, "a draft that was committed by the call for C");
    Draft closed = bench.draft();
    gwb_close(bench.handle());
    check(throws<Closed>([&] { closed.commit(); }), "the draft of a closed workbench");
}

// A library whose first number is another has no workbench for this header.
static void try_other_versions()
{
    for (std::uint32_t version : {GWB_VERSION - 10000, GWB_VERSION + 10000}) {
        linked_version = version;
        check(throws<OtherVersion>([] { Workbench bench; }) && Session::opened().error().problem == Problem::version, "a library of another version");
    }
    linked_version = GWB_VERSION + 199;
    check(!throws<OtherVersion>([] { Workbench bench; }) && Session::opened(), "a later one with the same first number");
    linked_version = GWB_VERSION;
}

// ---- what changes nothing, what is ended, and what was accepted

template <class Calls, class = void> struct CanUndo : std::false_type {};
template <class Calls> struct CanUndo<Calls, std::void_t<decltype(std::declval<Calls &>().undo())>> : std::true_type {};

static void try_const()
{
    static_assert(CanUndo<decltype(std::declval<Workbench &>().attempt())>::value);
    static_assert(!CanUndo<decltype(std::declval<const Workbench &>().attempt())>::value);
    static_assert(std::is_constructible_v<Workbench, const gwb_heap &> && !std::is_constructible_v<Workbench, gwb_heap>);
    const Workbench bench = block();
    check(bench.attempt().face(Face(1)) && !bench.attempt().face(Face(9)), "readers of a workbench that is const");
    check(bench.attempt().face(Face(9)).value_or(FaceRow{Solid(7), Loop()}).solid == Solid(7), "a value in the place of none");
}

static void try_stops()
{
    static int asked = 0;
    Workbench bench = block();
    const std::string listing = Workbench(block()).listing();
    bench.undo();
    bool is_over = true;
    bench.stop_by([](void *user) noexcept { return asked++, *static_cast<bool *>(user); }, &is_over);
    check(throws<Stopped>([&] { bench.load(listing); }) && asked == 1 && bench.depth() == 0 && bench.ahead() == 1, "a model that isn't loaded");
    is_over = false;
    bench.load(listing);
    check(bench.depth() == 1 && asked > 1, "one that is");
    bench.stop_by(nullptr, nullptr);
    const int before = asked;
    bench.undo();
    bench.load(listing);
    check(asked == before, "nobody is asked");
}

static void try_record()
{
    Workbench bench;
    check(bench.recorded() == 0 && bench.script().empty(), "nothing is recorded unasked");
    bench.record();
    const Solid first = bench.block({0, 0, 0}, {4, 4, 4});
    {
        Draft draft = bench.draft();
        (void)bench.split(first, 0, 0, 1, -2);
        check(bench.recorded() == 2 && bench.script() == "block 1 0 0 0 4 4 4\nsplit 1 0 0 1 -2 2\n", "the steps of a draft");
    }
    check(bench.recorded() == 1 && bench.script(1).empty() && bench.script(0, 1) == bench.script(), "without a draft that was abandoned");
    Workbench late = block();
    check(throws<NoCall>([&] { late.record(); }), "commands before a record");
    const std::uint64_t changes = bench.changes();
    check(!bench.attempt().kvfs(first) && bench.changes() == changes, "what is refused changes nothing");
    bench.undo();
    check(bench.changes() != changes && bench.script().empty(), "undo does");
}

// ---- ranges and workbenches

// Parts a face by an edge.
static void split_face(Workbench &bench, Face face)
{
    const std::vector<HalfEdge> around = bench.half_edges(bench.face(face).outer_loop);
    (void)bench.mef(around[0], around[2]);
}

// What is made while a range is gone through isn't of it.
static void try_making_in_ranges()
{
    Workbench bench = block();
    int made = 0;
    for (Face face : bench.numbers<Face>())
        if (made++ < 100)
            (void)bench.mvfs({face.number(), 9, 9});
    check(made == 6 && all(bench.numbers<Solid>()).size() == 7, "the faces that were there");
    made = 0;
    for (Face face : bench.faces(Solid(1)))
        if (made++ < 100)
            split_face(bench, face);
    check(made == 6 && all(bench.faces(Solid(1))).size() == 12, "and those of a solid");
}

static void try_ranges()
{
    Workbench bench = block();
    std::size_t seen = 0;
    check(throws<Closed>([&] {
        for (Face face : bench.faces(Solid(1))) {
            seen += face.number();
            gwb_close(bench.handle());
        }
    }) && seen == 1, "a range whose handle is closed midway");
    bench = block();
    check(throws<Changed>([&] {
        for (HalfEdge half_edge : bench.around(Loop(1)))
            bench.mev(half_edge, half_edge, {0, 0, 9});
    }), "a walk round a loop that has changed");
    check(throws<Changed>([&] {
        for (HalfEdge half_edge : bench.around(Vertex(1)))
            bench.mev(half_edge, half_edge, {0, 0, -9});
    }), "a walk round a vertex that has changed");
    check(throws<Changed>([&] {
        for (HalfEdge half_edge : bench.half_edges_of(Face(1)))
            bench.mev(half_edge, half_edge, {9, 0, -9});
    }), "a walk round a face that has changed");
    seen = 0;
    for (Solid solid : bench.numbers<Solid>())
        if (solid.number() < 4)
            seen += (bench.block(Solid(solid.number() + 1), {9 * solid.number(), 9, 9}, {1, 1, 1}), 1);
    check(seen == 1, "rising numbers end at the greatest of their beginning");
    auto faces = bench.faces(Solid(1));
    check(all(faces) == all(faces) && *std::next(faces.begin(), 3) == Face(4), "a range is gone through as often as wanted");
#if defined(__cpp_lib_ranges) && !(defined(__clang__) && __clang_major__ < 16) // which can't compile the views of libstdc++
    static_assert(std::forward_iterator<decltype(faces)::iterator> && std::ranges::view<decltype(faces)> &&
                  std::ranges::borrowed_range<decltype(faces)>);
    check(*std::ranges::find(bench.faces(Solid(1)), Face(5)) == Face(5), "an iterator of a range that is gone");
    auto flat = bench.faces(Solid(1)) | std::views::filter([&](Face face) { return narrow(bench.plane(face).c) > 0; });
    check(std::ranges::distance(flat) == 1, "a range of a range");
#endif
}

static void try_moves()
{
    static_assert(!std::is_copy_constructible_v<Workbench> && !std::is_copy_assignable_v<Workbench>, "two would free one session");
    static_assert(std::is_nothrow_move_constructible_v<Workbench> && std::is_nothrow_move_assignable_v<Workbench>, "it goes into a vector");
    Workbench first = block();
    gwb *handle = first.handle();
    auto faces = first.faces(Solid(1));
    Workbench second = std::move(first);
    check(second.handle() == handle && all(faces).size() == 6, "a moved workbench goes on");
    check(throws<Closed>([&] { (void)first.depth(); }) && !first.is_open() && !gwb_is_open(first.handle()), "the one moved from is closed");
    first = block();
    second = std::move(first);
    check(second.depth() == 1, "one moved over another");
    Workbench &same = second;
    second = std::move(same);
    check(second.depth() == 1, "one moved over itself");
    std::vector<Workbench> benches(3);
    benches.push_back(std::move(second));
    check(benches.back().depth() == 1 && benches.front().depth() == 0, "workbenches in a vector");
}

// A workbench in a heap of its own, which is full at last.
static void try_heaps()
{
    static_assert(!std::is_assignable_v<decltype(gwb_heap::allocate) &, void *(*)(void *, std::size_t)>, "a heap that may throw");
    static long held = 0, left = 1000000;
    const auto allocate = [](void *, std::size_t size) noexcept -> void * { return left-- > 0 ? (held++, std::malloc(size)) : nullptr; };
    const auto reallocate = [](void *, void *block, std::size_t size) noexcept -> void * { return left-- > 0 ? std::realloc(block, size) : nullptr; };
    const auto release = [](void *, void *block) noexcept { held--, std::free(block); };
    const gwb_heap heap{allocate, reallocate, release, nullptr};
    {
        Workbench bench(heap);
        const long before = held;
        bench.block({0, 0, 0}, {4, 4, 4});
        check(before > 0 && held > before, "its blocks are of the heap");
        left = 0;
        check(throws<std::bad_alloc>([&] { bench.block({9, 9, 9}, {4, 4, 4}); }) && bench.depth() == 1, "memory is refused");
        check(throws<std::bad_alloc>([&] { Workbench other(heap); }) && !Session::opened(heap), "so no other one is opened");
    }
    check(held == 0, "all is given back");
}

// ---- twelve commands in a draft

using Step = std::function<void(Workbench &)>;

// A hole through a block, which gets longer by a block that is cut and glued on.
static const std::vector<Step> TWELVE = {
    [](Workbench &bench) { bench.run("mev +7 +7 20 20 2 2 9"); },   [](Workbench &bench) { bench.run("kemr +20 20"); },
    [](Workbench &bench) { bench.run("mev @20 @20 21 21 2 5 9"); }, [](Workbench &bench) { bench.run("mev -21 -21 22 22 5 5 9"); },
    [](Workbench &bench) { bench.run("mev -22 -22 23 23 5 2 9"); }, [](Workbench &bench) { bench.run("mef -23 +21 24 20 21"); },
    [](Workbench &bench) { bench.sweep(Face(20), {0, 0, -9}); },    [](Workbench &bench) { bench.kfmrh(Face(2), Face(20)); },
    [](Workbench &bench) { bench.block(Solid(2), {9, 0, 0}, {6, 9, 9}); },
    [](Workbench &bench) { bench.split(Solid(2), 1, 0, 0, -12, Solid(3)); },
    [](Workbench &bench) { bench.glue(Face(4), Face(30)); },        [](Workbench &bench) { bench.glue(Face(35), Face(39)); }};

static long requests_left = 0;

// Gives a step with one request for memory more each time, until that is enough: refused memory leaves no trace. Says how often it was refused.
static long give_at_last(Workbench &bench, const Step &step)
{
    const std::string before = bench.listing();
    for (long allowed = 0;; allowed++) {
        requests_left = allowed;
        try {
            step(bench);
            return requests_left = 1000000, allowed;
        } catch (const std::bad_alloc &) {
            requests_left = 1000000;
            check(bench.listing() == before, "a step that memory was refused for");
        }
    }
}

static void try_twelve_commands()
{
    const auto allocate = [](void *, std::size_t size) noexcept -> void * { return requests_left-- > 0 ? std::malloc(size) : nullptr; };
    const auto reallocate = [](void *, void *block, std::size_t size) noexcept -> void * { return requests_left-- > 0 ? std::realloc(block, size) : nullptr; };
    const gwb_heap heap{allocate, reallocate, [](void *, void *block) noexcept { std::free(block); }, nullptr};
    requests_left = 1000000;
    Workbench bench(heap);
    bench.block(Solid(1), {0, 0, 0}, {9, 9, 9});
    const std::string held = bench.listing();
    Draft draft = bench.draft();
    long refusals = 0;
    for (const Step &step : TWELVE) {
        const Mark outer = bench.mark();
        const std::string before = bench.listing();
        check(throws<RefusedBy<GWB_WHY_SAME_FACE>>([&] { bench.kfmrh(Face(2), Face(2)); }) && bench.listing() == before, "a step that is refused");
        bench.block(Solid(9), {0, 40, 0}, {1, 1, 1});
        const Mark inner = bench.mark();
        const std::string with_block = bench.listing();
        bench.lamina(Solid(10), {{0, 60, 0}, {1, 60, 0}, {0, 61, 0}});
        bench.back(inner);
        check(bench.listing() == with_block && with_block != before, "back to a mark within a mark");
        bench.back(outer);
        check(bench.listing() == before, "back to the mark before the step");
        refusals += give_at_last(bench, step);
    }
    check(refusals > 12 && narrow(bench.six_volumes(Solid(1))) == 6804, "the hole, and the longer block");
    const std::string made = bench.listing();
    draft.commit();
    check(bench.depth() == 2 && bench.listing() == made, "twelve commands are one");
    bench.undo();
    check(bench.listing() == held, "one undo takes all of them back");
    bench.redo();
    check(bench.listing() == made, "and one redo does them again");
}

// Every method of a closed workbench throws Closed.
static void try_closed(Workbench &bench)
{
    const std::function<void()> calls[] = {
        [&] { bench.mvfs(Solid(1), Face(1), Loop(1), Vertex(1), {0, 0, 0}); },
        [&] { bench.mvfs({0, 0, 0}); },
        [&] { bench.kvfs(Solid(1)); },
        [&] { bench.mev(HalfEdge(2), HalfEdge(3), Edge(1), Vertex(1), {0, 0, 0}); },
        [&] { bench.mev(HalfEdge(2), HalfEdge(3), {0, 0, 0}); },
        [&] { bench.kev(HalfEdge(2)); },
        [&] { bench.mef(HalfEdge(2), HalfEdge(3), Edge(1), Face(1), Loop(1)); },
        [&] { bench.mef(HalfEdge(2), HalfEdge(3)); },
        [&] { bench.kef(HalfEdge(2)); },
        [&] { bench.kemr(HalfEdge(2), Loop(1)); },
        [&] { bench.kemr(HalfEdge(2)); },
        [&] { bench.mekr(HalfEdge(2), HalfEdge(3), Edge(1)); },
        [&] { bench.mekr(HalfEdge(2), HalfEdge(3)); },
        [&] { bench.kfmrh(Face(1), Face(2)); },
        [&] { bench.mfkrh(Loop(1), Face(2)); },
        [&] { bench.mfkrh(Loop(1)); },
        [&] { bench.ring_in(Loop(1), Face(2)); },
        [&] { bench.ring_out(Loop(1), Face(2)); },
        [&] { bench.outer(Loop(1), Face(2)); },
        [&] { bench.merge(Solid(1), Solid(2)); },
        [&] { bench.part({Face(1)}, Solid(2)); },
        [&] { bench.lamina(Solid(1), {}); },
        [&] { bench.lamina({}); },
        [&] { (void)bench.draft(); },
        [&] { (void)bench.mark(); },
        [&] { bench.back(Mark()); },
        [&] { bench.block(Solid(1), {0, 0, 0}, {4, 4, 4}); },
        [&] { bench.block({0, 0, 0}, {4, 4, 4}); },
        [&] { bench.sweep(Face(1), {0, 0, 1}); },
        [&] { bench.glue(Face(1), Face(2)); },
        [&] { bench.split(Solid(1), 0, 0, 1, -2, Solid(2)); },
        [&] { bench.split(Solid(1), 0, 0, 1, -2); },
        [&] { bench.undo(); },
        [&] { bench.redo(); },
        [&] { (void)bench.depth(); },
        [&] { (void)bench.ahead(); },
        [&] { (void)bench.plane(Face(1)); },
        [&] { (void)bench.six_volumes(Solid(1)); },
        [&] { (void)bench.count(Solid(1)); },
        [&] { (void)bench.listing(); },
        [&] { (void)bench.fresh<Face>(); },
        [&] { (void)bench.greatest<Face>(); },
        [&] { (void)bench.next_free<Face>(); },
        [&] { (void)bench.numbers<Face>(); },
        [&] { (void)bench.faces(Solid(1)); },
        [&] { (void)bench.rings(Face(1)); },
        [&] { (void)bench.loops_of(Face(1)); },
        [&] { (void)bench.half_edges_of(Face(1)); },
        [&] { (void)bench.edges_of(Face(1)); },
        [&] { (void)bench.around(Loop(1)); },
        [&] { (void)bench.around(Vertex(1)); },
        [&] { (void)bench.around(HalfEdge(2)); },
        [&] { (void)bench.half_edges(Loop(1)); },
        [&] { (void)bench.face(Face(1)); },
        [&] { (void)bench.edge(Edge(1)); },
        [&] { (void)bench.vertex(Vertex(1)); },
        [&] { (void)bench.face_of(Loop(1)); },
        [&] { (void)bench.face_of(HalfEdge(2)); },
        [&] { (void)bench.loop_of(HalfEdge(2)); },
        [&] { (void)bench.faces_of(Edge(1)); },
        [&] { (void)bench.next(HalfEdge(2)); },
        [&] { (void)bench.previous(HalfEdge(2)); },
        [&] { (void)bench.start_of(HalfEdge(2)); },
        [&] { (void)bench.end_of(HalfEdge(2)); },
        [&] { (void)bench.lone_vertex(Loop(1)); },
        [&] { (void)bench.half_edge_rows(); },
        [&] { (void)bench.vertex_rows(); },
        [&] { (void)bench.triangle_rows(); },
        [&] { (void)bench.triangle_rows(Face(1)); },
        [&] { (void)bench.triangle_rows(Solid(1)); },
        [&] { (void)bench.script(); },
        [&] { (void)bench.recorded(); },
        [&] { bench.record(); },
        [&] { bench.load("empty\n"); },
        [&] { bench.run_lines("undo"); },
        [&] { bench.run("undo"); },
        [&] { (void)bench.reply(); },
    };
    for (std::size_t at = 0; at < std::size(calls); at++)
        check(throws<Closed>(calls[at]), ("the call of a closed workbench with the place " + std::to_string(at)).c_str());
}

static void try_closed_ones()
{
    Workbench bench = block();
    gwb_close(bench.handle());
    try_closed(bench);
    Workbench moved = std::move(bench);
    try_closed(bench);
}

int main()
{
    for (void (*part)() : {try_types,
                           try_bounds,
                           try_free_numbers,
                           try_chosen_operators,
                           try_measures,
                           try_refusals,
                           try_what_is_said,
                           try_every_refusal,
                           try_attempts,
                           try_operators,
                           try_solids,
                           try_laminas,
                           try_parts,
                           try_readers,
                           try_neighbours,
                           try_rows,
                           try_fresh,
                           try_committed_drafts,
                           try_abandoned_drafts,
                           try_stale_drafts,
                           try_what_outlives,
                           try_marks,
                           try_marks_of_others,
                           try_other_versions,
                           try_const,
                           try_stops,
                           try_record,
                           try_making_in_ranges,
                           try_what_drafts_refuse,
                           try_ranges,
                           try_moves,
                           try_heaps,
                           try_twelve_commands,
                           try_closed_ones}) {
        try {
            part();
        } catch (const std::exception &thrown) {
            check(false, thrown.what());
        }
    }
    return counted();
}
