// Commands over the library by gwb.hpp: as methods that throw, and as attempts, which give a Result.
#include "gwb.hpp"
#include "library.h"

using namespace gwb_session;

namespace {

Workbench bench;
Attempts attempt = bench.attempt();

Solid solid(std::uint32_t number) { return Solid(number); }
HalfEdge divided() { return HalfEdge(DIVIDED); }

bool begin()
{
    bench.block(Solid(1), {0, 0, 0}, {4, 4, 4});
    return true;
}

// The last command forgets what was undone before it.
void restore()
{
    while (bench.depth() > 1)
        bench.undo();
    bench.mvfs(Solid(2), Face(7), Loop(7), Vertex(9), {0, 0, 0});
    bench.undo();
}

// ---- methods

bool mev(std::uint32_t i)
{
    bench.mev(divided(), HalfEdge(next_corner(i)), Edge(drawn_edge(i)), Vertex(drawn_vertex(i)), {i, 0, 9});
    return true;
}

bool mef(std::uint32_t i)
{
    bench.mef(HalfEdge(cut_from(i)), HalfEdge(cut_to(i)), Edge(cut_edge(i)), Face(cut_face(i)), Loop(cut_face(i)));
    return true;
}

bool kef(std::uint32_t i) { return bench.kef(plus(Edge(cut_edge(i)))), true; }
bool kev(std::uint32_t i) { return bench.kev(plus(Edge(drawn_edge(i)))), true; }
bool block(std::uint32_t i) { return bench.block(solid(block_solid(i)), {block_place(i), 0, 0}, {4, 4, 4}), true; }
bool split(std::uint32_t i) { return bench.split(solid(block_solid(i)), 0, 0, 1, -2, solid(upper_solid(i))), true; }
bool glue(std::uint32_t i) { return bench.glue(Face(lower_cap(i)), Face(upper_cap(i))), true; }
bool undo(std::uint32_t) { return bench.undo(), true; }
bool redo(std::uint32_t) { return bench.redo(), true; }
bool count(std::uint32_t) { return bench.count(Solid(1)).vertices >= 8; }
bool volume(std::uint32_t) { return bench.six_volumes(Solid(1)).high == 0; }

bool kvfs_refused(std::uint32_t)
{
    try {
        bench.kvfs(Solid(NO_SUCH_SOLID));
    } catch (const RefusedBy<GWB_WHY_NO_SOLID> &) {
        return true;
    }
    return false;
}

bool mev_refused(std::uint32_t i)
{
    try {
        bench.mev(divided(), divided(), Edge(1), Vertex(drawn_vertex(i)), {0, 0, 0});
    } catch (const RefusedBy<GWB_WHY_EDGE_TAKEN> &) {
        return true;
    }
    return false;
}

// ---- attempts

bool begin_attempts() { return true; } // both ways have one session

bool attempt_mev(std::uint32_t i)
{
    return static_cast<bool>(attempt.mev(divided(), HalfEdge(next_corner(i)), Edge(drawn_edge(i)), Vertex(drawn_vertex(i)), {i, 0, 9}));
}

bool attempt_mef(std::uint32_t i)
{
    return static_cast<bool>(attempt.mef(HalfEdge(cut_from(i)), HalfEdge(cut_to(i)), Edge(cut_edge(i)), Face(cut_face(i)), Loop(cut_face(i))));
}

bool attempt_kef(std::uint32_t i) { return static_cast<bool>(attempt.kef(plus(Edge(cut_edge(i))))); }
bool attempt_kev(std::uint32_t i) { return static_cast<bool>(attempt.kev(plus(Edge(drawn_edge(i))))); }
bool attempt_undo(std::uint32_t) { return static_cast<bool>(attempt.undo()); }
bool attempt_redo(std::uint32_t) { return static_cast<bool>(attempt.redo()); }
bool attempt_kvfs_refused(std::uint32_t) { return attempt.kvfs(Solid(NO_SUCH_SOLID)).error().is(GWB_WHY_NO_SOLID); }

bool attempt_mev_refused(std::uint32_t i)
{
    return attempt.mev(divided(), divided(), Edge(1), Vertex(drawn_vertex(i)), {0, 0, 0}).error().is(GWB_WHY_EDGE_TAKEN);
}

} // namespace

const struct way cpp_way = {"C++", begin, restore, mev, mef, kef, kev, block, split, glue, undo, redo, count, volume, kvfs_refused, mev_refused};
const struct way attempt_way = {"C++ attempt", begin_attempts, restore, attempt_mev, attempt_mef, attempt_kef, attempt_kev, nullptr, nullptr, nullptr,
                                attempt_undo, attempt_redo, nullptr, nullptr, attempt_kvfs_refused, attempt_mev_refused};
