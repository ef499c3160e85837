// Tries gwb_cgal.hpp: what CGAL finds of a workbench in place, beside what the workbench measures. The last line counts.
#include "checks.h"
#include "gwb_cgal.hpp"
#include "gwb_features.hpp"
#include <CGAL/Polygon_mesh_processing/connected_components.h>
#include <CGAL/Polygon_mesh_processing/measure.h>
#include <CGAL/Polygon_mesh_processing/self_intersections.h>
#include <CGAL/Polygon_mesh_processing/triangulate_faces.h>
#include <CGAL/Side_of_triangle_mesh.h>
#include <CGAL/Surface_mesh.h>
#include <CGAL/boost/graph/copy_face_graph.h>
#include <boost/graph/dijkstra_shortest_paths.hpp>
#include <boost/property_map/function_property_map.hpp>
#include <iostream>
#include <map>

namespace PMP = CGAL::Polygon_mesh_processing;
using namespace gwb_session;

static double volume_of(const Workbench &bench)
{
    double sum = 0;
    for (Solid solid : bench.numbers<Solid>())
        sum += static_cast<double>(narrow(bench.six_volumes(solid)));
    return sum / 6;
}

// In place, in a draft whose faces are triangles: a volume, that it is closed and plain, and what lies inside.
static void try_in_place(Workbench &bench, const std::string &name, std::size_t solids)
{
    const std::string before = bench.listing();
    const std::size_t depth = bench.depth();
    {
        Draft draft = bench.draft();
        triangulate(bench);
        const Graph graph(bench);
        check(CGAL::is_valid_polygon_mesh(graph) && CGAL::is_closed(graph), name + ": a mesh of polygons");
        check(CGAL::is_triangle_mesh(graph), name + ": all faces are triangles");
        check(std::abs(CGAL::to_double(PMP::volume(graph)) - volume_of(bench)) < 1e-6, name + ": its volume");
        check(!PMP::does_self_intersect(graph), name + ": it doesn't cross itself");
        std::map<Face, std::size_t> parts;
        check(PMP::connected_components(graph, boost::make_assoc_property_map(parts)) == solids, name + ": its solids");
        const CGAL::Side_of_triangle_mesh<Graph, GraphKernel> side(graph);
        check(side({1, 1, 1}) == CGAL::ON_BOUNDED_SIDE && side({-1, 1, 1}) == CGAL::ON_UNBOUNDED_SIDE, name + ": what lies inside");
    }
    check(bench.listing() == before && bench.depth() == depth, name + ": it is as before");
}

// The way along edges from one corner of a block to the opposite one, and a copy that CGAL cuts into triangles itself.
static void try_graph()
{
    Workbench bench;
    (void)bench.block({0, 0, 0}, {1, 1, 1});
    bench.block(Solid(2), {0, 0, 0}, {4, 4, 4});
    kill_solid(bench, Solid(1));
    const Graph graph(bench);
    const auto length = [&](GraphEdge edge) {
        return std::sqrt(CGAL::squared_distance(get(CGAL::vertex_point, graph, source(edge, graph)), get(CGAL::vertex_point, graph, target(edge, graph))));
    };
    std::map<Vertex, double> distances;
    const Vertex start = *vertices(graph).begin();
    boost::dijkstra_shortest_paths(graph, start,
                                   boost::weight_map(boost::make_function_property_map<GraphEdge, double>(length))
                                       .distance_map(boost::make_assoc_property_map(distances)));
    double farthest = 0;
    for (const auto &[vertex, distance] : distances)
        farthest = std::max(farthest, distance);
    check(distances.size() == 8 && farthest == 12, "the shortest way to the opposite corner");
    check(num_vertices(graph) == 8 && num_edges(graph) == 12 && num_halfedges(graph) == 24 && num_faces(graph) == 6, "how many there are");
    check(CGAL::is_valid_polygon_mesh(graph) && CGAL::is_closed(graph) && !CGAL::is_triangle_mesh(graph), "a block as a mesh, whatever its numbers are");
    CGAL::Surface_mesh<GraphKernel::Point_3> copy;
    CGAL::copy_face_graph(graph, copy);
    PMP::triangulate_faces(copy);
    check(std::abs(CGAL::to_double(PMP::volume(copy)) - 64) < 1e-6, "a copy has its volume");
}

// One solid among others as a graph, as a mesh of CGAL, and brought back from it.
static void try_solids()
{
    using Mesh = CGAL::Surface_mesh<GraphKernel::Point_3>;
    Workbench bench;
    (void)bench.block({20, 0, 0}, {1, 1, 1});
    const Block block = bench.block({0, 0, 0}, {5, 5, 5});
    (void)pocket(bench, block.top, std::vector<Point>{{1, 1, 5}, {3, 1, 5}, {3, 4, 5}}, 2);
    const Graph graph(bench, block.solid), none(bench, Solid(99));
    check(num_vertices(graph) == 14 && num_edges(graph) == 21 && num_faces(graph) == 10 && num_faces(none) == 0, "a graph of one solid");
    const Mesh mesh = mesh_of<Mesh>(bench, block.solid);
    check(CGAL::is_closed(mesh) && CGAL::is_triangle_mesh(mesh) && std::abs(CGAL::to_double(PMP::volume(mesh)) - 119) < 1e-6, "a mesh of one solid");
    const Result<Solid> back = solid_of(bench, mesh);
    check(back && narrow(bench.six_volumes(*back)) == 6 * 119, "a mesh that is brought back");
    Mesh moved = mesh;
    const auto third = *std::next(moved.vertices().begin(), 2);
    moved.point(third) = moved.point(third) + GraphKernel::Vector_3(0.5, 0, 0);
    const Result<Solid> between = solid_of(bench, moved);
    check(!between && between.error().is(Misfit::off_lattice) && between.error().value == 3, "a point that isn't whole");
    moved.point(third) = GraphKernel::Point_3(1e300, 0, 0);
    check(solid_of(bench, moved).error().is(GWB_WHY_POINT_RANGE), "a point out of range");
}

int main()
{
    try_solids();
    Workbench block, plate, wedge;
    (void)block.block({0, 0, 0}, {4, 4, 4});
    try_in_place(block, "a block", 1);
    (void)block.block({10, 0, 0}, {4, 5, 6});
    try_in_place(block, "two blocks", 2);
    const Block made = plate.block({0, 0, 0}, {40, 30, 10});
    for (std::int64_t x = 4; x < 36; x += 8) {
        (void)pocket(plate, made.top, {{x, 4, 10}, {x + 4, 4, 10}, {x + 4, 8, 10}, {x, 8, 10}}, 3);
        (void)hole(plate, made.top, {{x, 14, 10}, {x + 4, 15, 10}, {x + 2, 19, 10}});
        (void)boss(plate, made.sides[0], {{x, 0, 2}, {x + 3, 0, 2}, {x, 0, 7}}, 3);
    }
    (void)slot(plate, made.top, {0, 25, 10}, {40, 25, 10}, 2, 4);
    try_in_place(plate, "a plate", 1);
    const Profile slope = profile(wedge, {{0, 0, 0}, {30, 0, 0}, {30, 10, 0}, {0, 20, 0}}, {2, 3, 15});
    (void)hole(wedge, slope.far, {{10, 7, 15}, {14, 7, 15}, {12, 10, 15}});
    try_in_place(wedge, "a wedge", 1);
    try_graph();
    return counted();
}
