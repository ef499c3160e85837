// A block is made, cut in two and put back, and two operators become one command; what is refused comes as an exception with the name of
// the condition.
#include "gwb.hpp"
#include <iostream>

using namespace gwb_session;

// Prints what each face of a solid has round it.
static void print_faces(const Workbench &bench, Solid solid)
{
    for (Face face : bench.faces(solid)) {
        std::cout << "face " << face << " has the half-edges";
        for (HalfEdge half_edge : bench.half_edges(bench.face(face).outer_loop))
            std::cout << ' ' << half_edge;
        std::cout << '\n';
    }
}

// Prints the volume of a solid, if it is there.
static void print_volume(const Workbench &bench, Solid solid)
{
    try {
        const std::int64_t volume = narrow(bench.six_volumes(solid)) / 6;
        std::cout << "the volume of solid " << solid << " is " << volume << '\n';
    } catch (const RefusedBy<GWB_WHY_NO_SOLID> &refused) {
        std::cout << "there is no solid " << refused.value() << '\n';
    }
}

// What is not accepted changes nothing.
static void print_refusals(Workbench &bench)
{
    try {
        bench.kvfs(Solid(2));
    } catch (const Refused &refused) {
        std::cout << refused.what() << "; its number is " << refused.number() << '\n';
    }
    try {
        bench.run("splitt 2");
    } catch (const Faulted &faulted) {
        std::cout << faulted.what() << '\n';
    }
}

// Two operators as one command: an edge to the middle of face 1, which is cut off again, so that its end is a ring.
static void add_ring(Workbench &bench)
{
    Draft draft = bench.draft();
    bench.mev(plus(Edge(9)), plus(Edge(9)), Edge(14), Vertex(10), {2, 2, 4});
    bench.kemr(plus(Edge(14)), Loop(7));
    draft.commit();
}

// Prints the faces on both sides of an edge.
static void print_sides(const Workbench &bench, Edge edge)
{
    const auto [first, second] = bench.faces_of(edge);
    std::cout << "edge " << edge << " is between the faces " << first << " and " << second << '\n';
}

int main()
{
    Workbench bench;
    const Solid block = bench.block({0, 0, 0}, {4, 4, 4});
    const Solid above = bench.split(block, 0, 0, 1, -2);
    print_volume(bench, block);
    print_volume(bench, above);
    print_faces(bench, above);
    print_refusals(bench);
    bench.undo();
    std::cout << "depth " << bench.depth() << ", ahead " << bench.ahead() << '\n';
    print_volume(bench, above);
    gwb_plane top = bench.plane(Face(1));
    std::cout << "face 1 is " << (top.flat ? "flat" : "bent") << ", at height " << -narrow(top.d) / narrow(top.c) << '\n';
    print_sides(bench, Edge(7));
    // an edge stands up from the corner at which the first half-edge of edge 7 starts
    const NewVertex spike = bench.mev(plus(Edge(7)), plus(Edge(7)), {0, 0, 9});
    std::cout << "vertex " << bench.edge(spike.edge).to << " is at height " << bench.vertex(spike.vertex).z << '\n';
    add_ring(bench);
    std::cout << "ring 7 is at vertex " << bench.lone_vertex(Loop(7)).value() << "; depth " << bench.depth() << '\n';
}
