/// @file gwb_cgal.hpp A workbench as a graph of CGAL (FaceListGraph and HalfedgeListGraph), which is read in place, for C++17 and CGAL from 5.5 on.
///
///     using namespace gwb_session;
///     Draft draft = bench.draft();               // abandoned at the end of its scope, so the model is as before
///     triangulate(bench);
///     const Graph graph(bench);
///     const double volume = CGAL::to_double(CGAL::Polygon_mesh_processing::volume(graph));
///
/// A graph is of the model, or of a solid of it, as it was when the graph was made: make it anew after a command. A face of CGAL has one boundary, so faces
/// with rings, and loops of one vertex, have none of these in it: triangulate() of gwb_triangles.hpp takes the rings in. It has no operators of
/// MutableFaceGraph: what changes a mesh, such as remeshing, is done on a copy (mesh_of), and what comes of it is brought back by solid_of.
#ifndef GWB_CGAL_HPP
#define GWB_CGAL_HPP
#include "gwb_features.hpp"
#include "gwb_triangles.hpp"
#include <CGAL/Exact_predicates_inexact_constructions_kernel.h>
#include <CGAL/Iterator_range.h>
#include <CGAL/boost/graph/Euler_operations.h>
#include <CGAL/boost/graph/helpers.h>
#include <CGAL/boost/graph/iterator.h>
#include <CGAL/boost/graph/named_params_helper.h>
#include <CGAL/boost/graph/properties.h>
#include <set>

namespace gwb_session {

/// An edge as graphs have it: by one of its half-edges, from whose start it leads. It is the same by the other one.
struct GraphEdge {
    HalfEdge half_edge;
    friend bool operator==(GraphEdge a, GraphEdge b) { return a.half_edge.edge() == b.half_edge.edge(); }
    friend bool operator!=(GraphEdge a, GraphEdge b) { return !(a == b); }
    friend bool operator<(GraphEdge a, GraphEdge b) { return a.half_edge.edge() < b.half_edge.edge(); }
    friend std::size_t hash_value(GraphEdge edge) { return edge.half_edge.edge().number(); }
};
template <gwb_entity Entity> std::size_t hash_value(Id<Entity> id) { return id.number(); }
inline std::size_t hash_value(HalfEdge half_edge) { return half_edge.code(); }

/// The model of a workbench, which stays where it is as long as there is the graph.
class Graph {
public:
    explicit Graph(const Workbench &bench) : bench_(&bench), lists_(std::make_shared<Lists>(bench)) {}
    /// That of one solid: empty where it isn't there.
    Graph(const Workbench &bench, Solid solid) : bench_(&bench), lists_(std::make_shared<Lists>(bench, solid)) {}
    [[nodiscard]] const Workbench &bench() const { return *bench_; }

    /// What there is of a kind, rising, and the place of each in it.
    template <class Kind> struct List {
        std::vector<Kind> all;
        std::vector<std::size_t> places; ///< by number

        void add(Kind kind, std::size_t number)
        {
            places.resize(std::max(places.size(), number + 1));
            places[number] = all.size();
            all.push_back(kind);
        }
    };
    [[nodiscard]] const List<Vertex> &list(Vertex) const { return lists_->vertices; }
    [[nodiscard]] const List<Face> &list(Face) const { return lists_->faces; }
    [[nodiscard]] const List<GraphEdge> &list(GraphEdge) const { return lists_->edges; }
    [[nodiscard]] const List<HalfEdge> &list(HalfEdge) const { return lists_->half_edges; }
    [[nodiscard]] std::size_t place(Vertex vertex) const { return lists_->vertices.places[vertex.number()]; }
    [[nodiscard]] std::size_t place(Face face) const { return lists_->faces.places[face.number()]; }
    [[nodiscard]] std::size_t place(HalfEdge half_edge) const { return lists_->half_edges.places[half_edge.code()]; }
    [[nodiscard]] std::size_t place(GraphEdge edge) const { return place(edge.half_edge) / 2; }
    /// A half-edge that ends at a vertex.
    [[nodiscard]] HalfEdge to(Vertex vertex) const { return lists_->ends[place(vertex)]; }

private:
    struct Lists {
        explicit Lists(const Workbench &bench)
        {
            for (Vertex vertex : bench.numbers<Vertex>())
                vertices.add(vertex, vertex.number());
            for (Face face : bench.numbers<Face>())
                faces.add(face, face.number());
            add_edges(bench, bench.numbers<Edge>());
        }
        Lists(const Workbench &bench, Solid solid)
        {
            std::set<Vertex> corners;
            std::set<Edge> bounds;
            for (const gwb_half_edge_row &row : bench.half_edge_rows(solid)) {
                corners.insert(Vertex(row.start));
                bounds.insert(HalfEdge(row.half_edge).edge());
            }
            for (Face face : bench.faces(solid)) {
                faces.add(face, face.number());
                for (Loop loop : bench.loops_of(face))
                    if (const std::optional<Vertex> vertex = bench.lone_vertex(loop))
                        corners.insert(*vertex);
            }
            for (Vertex vertex : corners)
                vertices.add(vertex, vertex.number());
            add_edges(bench, bounds);
        }
        template <class Edges> void add_edges(const Workbench &bench, const Edges &all)
        {
            ends.resize(vertices.all.size());
            for (Edge edge : all) {
                edges.add({plus(edge)}, edge.number());
                for (HalfEdge half_edge : {plus(edge), minus(edge)}) {
                    half_edges.add(half_edge, half_edge.code());
                    ends[vertices.places[bench.end_of(half_edge).number()]] = half_edge;
                }
            }
        }
        List<Vertex> vertices;
        List<Face> faces;
        List<GraphEdge> edges;
        List<HalfEdge> half_edges;
        std::vector<HalfEdge> ends;
    };

    const Workbench *bench_;
    std::shared_ptr<const Lists> lists_;
};

} // namespace gwb_session

namespace boost {

template <> struct graph_traits<gwb_session::Graph> {
    using vertex_descriptor = gwb_session::Vertex;
    using halfedge_descriptor = gwb_session::HalfEdge;
    using edge_descriptor = gwb_session::GraphEdge;
    using face_descriptor = gwb_session::Face;
    using vertex_iterator = std::vector<vertex_descriptor>::const_iterator;
    using halfedge_iterator = std::vector<halfedge_descriptor>::const_iterator;
    using edge_iterator = std::vector<edge_descriptor>::const_iterator;
    using face_iterator = std::vector<face_descriptor>::const_iterator;
    using out_edge_iterator = CGAL::Out_edge_iterator<gwb_session::Graph>;
    using in_edge_iterator = CGAL::In_edge_iterator<gwb_session::Graph>;
    using directed_category = undirected_tag;
    using edge_parallel_category = disallow_parallel_edge_tag;
    struct traversal_category : bidirectional_graph_tag, vertex_list_graph_tag, edge_list_graph_tag {};
    using vertices_size_type = std::size_t;
    using halfedges_size_type = std::size_t;
    using edges_size_type = std::size_t;
    using faces_size_type = std::size_t;
    using degree_size_type = std::size_t;
    static vertex_descriptor null_vertex() { return {}; }
    static halfedge_descriptor null_halfedge() { return {}; }
    static face_descriptor null_face() { return {}; }
};
template <> struct graph_traits<const gwb_session::Graph> : graph_traits<gwb_session::Graph> {};

} // namespace boost

namespace gwb_session {

using GraphTraits = boost::graph_traits<Graph>;

inline HalfEdge next(HalfEdge half_edge, const Graph &graph) { return graph.bench().next(half_edge); }
inline HalfEdge prev(HalfEdge half_edge, const Graph &graph) { return graph.bench().previous(half_edge); }
inline HalfEdge opposite(HalfEdge half_edge, const Graph &) { return half_edge.twin(); }
inline Vertex source(HalfEdge half_edge, const Graph &graph) { return graph.bench().start_of(half_edge); }
inline Vertex target(HalfEdge half_edge, const Graph &graph) { return graph.bench().end_of(half_edge); }
inline Face face(HalfEdge half_edge, const Graph &graph) { return graph.bench().face_of(half_edge); }
inline GraphEdge edge(HalfEdge half_edge, const Graph &) { return {half_edge}; }
inline HalfEdge halfedge(GraphEdge edge, const Graph &) { return edge.half_edge; }
inline HalfEdge halfedge(Vertex vertex, const Graph &graph) { return graph.to(vertex); }
inline HalfEdge halfedge(Face face, const Graph &graph) { return *graph.bench().around(graph.bench().face(face).outer_loop).begin(); }
inline Vertex source(GraphEdge edge, const Graph &graph) { return source(edge.half_edge, graph); }
inline Vertex target(GraphEdge edge, const Graph &graph) { return target(edge.half_edge, graph); }
inline std::pair<HalfEdge, bool> halfedge(Vertex from, Vertex to, const Graph &graph)
{
    for (HalfEdge half_edge : graph.bench().around(from))
        if (target(half_edge, graph) == to)
            return {half_edge, true};
    return {{}, false};
}
inline std::pair<GraphEdge, bool> edge(Vertex from, Vertex to, const Graph &graph)
{
    const auto [half_edge, is_there] = halfedge(from, to, graph);
    return {edge(half_edge, graph), is_there};
}

template <class Kind> auto graph_range(const Graph &graph) { return CGAL::make_range(graph.list(Kind()).all.begin(), graph.list(Kind()).all.end()); }
inline auto vertices(const Graph &graph) { return graph_range<Vertex>(graph); }
inline auto halfedges(const Graph &graph) { return graph_range<HalfEdge>(graph); }
inline auto edges(const Graph &graph) { return graph_range<GraphEdge>(graph); }
inline auto faces(const Graph &graph) { return graph_range<Face>(graph); }
inline std::size_t num_vertices(const Graph &graph) { return vertices(graph).size(); }
inline std::size_t num_halfedges(const Graph &graph) { return halfedges(graph).size(); }
inline std::size_t num_edges(const Graph &graph) { return edges(graph).size(); }
inline std::size_t num_faces(const Graph &graph) { return faces(graph).size(); }

inline CGAL::Iterator_range<GraphTraits::out_edge_iterator> out_edges(Vertex vertex, const Graph &graph)
{
    const HalfEdge first = halfedge(vertex, graph);
    return {GraphTraits::out_edge_iterator(first, graph), GraphTraits::out_edge_iterator(first, graph, 1)};
}
inline CGAL::Iterator_range<GraphTraits::in_edge_iterator> in_edges(Vertex vertex, const Graph &graph)
{
    const HalfEdge first = halfedge(vertex, graph);
    return {GraphTraits::in_edge_iterator(first, graph), GraphTraits::in_edge_iterator(first, graph, 1)};
}
inline std::size_t degree(Vertex vertex, const Graph &graph)
{
    const auto around = graph.bench().around(vertex);
    return static_cast<std::size_t>(std::distance(around.begin(), around.end()));
}
inline std::size_t out_degree(Vertex vertex, const Graph &graph) { return degree(vertex, graph); }
inline std::size_t in_degree(Vertex vertex, const Graph &graph) { return degree(vertex, graph); }
inline std::size_t degree(Face face, const Graph &graph)
{
    const auto around = graph.bench().around(graph.bench().face(face).outer_loop);
    return static_cast<std::size_t>(std::distance(around.begin(), around.end()));
}
/// Soundness is proved of each model.
inline bool is_valid(const Graph &, bool = false) { return true; }

/// The kernel of points: its tests are exact, and coordinates of the model fit in doubles.
using GraphKernel = CGAL::Exact_predicates_inexact_constructions_kernel;

/// Where vertices lie.
struct PointMap {
    const Workbench *bench;
    using key_type = Vertex;
    using value_type = GraphKernel::Point_3;
    using reference = value_type;
    using category = boost::readable_property_map_tag;
    friend value_type get(const PointMap &map, Vertex vertex)
    {
        const Point at = map.bench->vertex(vertex);
        return {static_cast<double>(at.x), static_cast<double>(at.y), static_cast<double>(at.z)};
    }
};
/// The place of each in the list of its kind.
template <class Kind> struct PlaceMap {
    const Graph *graph;
    using key_type = Kind;
    using value_type = std::size_t;
    using reference = std::size_t;
    using category = boost::readable_property_map_tag;
    friend std::size_t get(const PlaceMap &map, Kind kind) { return map.graph->place(kind); }
};
inline PointMap get(CGAL::vertex_point_t, const Graph &graph) { return {&graph.bench()}; }
inline PlaceMap<Vertex> get(boost::vertex_index_t, const Graph &graph) { return {&graph}; }
inline PlaceMap<HalfEdge> get(boost::halfedge_index_t, const Graph &graph) { return {&graph}; }
inline PlaceMap<GraphEdge> get(boost::edge_index_t, const Graph &graph) { return {&graph}; }
inline PlaceMap<Face> get(boost::face_index_t, const Graph &graph) { return {&graph}; }
template <class Tag, class Key> auto get(Tag tag, const Graph &graph, Key key) -> decltype(get(get(tag, graph), key)) { return get(get(tag, graph), key); }

/// The triangles of a solid as a mesh of CGAL of its own, such as CGAL::Surface_mesh or CGAL::Polyhedron_3, whose points are made of three doubles. Of a
/// face without triangles, such as a bent one, there is a hole.
template <class Mesh> Mesh mesh_of(const Workbench &bench, Solid solid)
{
    Mesh mesh;
    const auto points = get(CGAL::vertex_point, mesh);
    using MeshPoint = typename boost::property_traits<std::decay_t<decltype(points)>>::value_type;
    std::map<std::uint32_t, typename boost::graph_traits<Mesh>::vertex_descriptor> made;
    for (const gwb_triangle_row &row : bench.triangle_rows(solid)) {
        std::array<typename boost::graph_traits<Mesh>::vertex_descriptor, 3> corners;
        for (std::size_t at = 0; at < 3; at++) {
            const auto [vertex, is_new] = made.try_emplace(row.corners[at]);
            if (is_new) {
                const Point place = bench.vertex(Vertex(row.corners[at]));
                vertex->second = add_vertex(mesh);
                put(points, vertex->second, MeshPoint(static_cast<double>(place.x), static_cast<double>(place.y), static_cast<double>(place.z)));
            }
            corners[at] = vertex->second;
        }
        CGAL::Euler::add_face(corners, mesh);
    }
    return mesh;
}

/// A coordinate of a mesh that is a whole number: none where it isn't. What is out of range stays so.
template <class Number> std::optional<std::int64_t> whole(const Number &number)
{
    constexpr double far = 4e9;
    const auto nearest = static_cast<std::int64_t>(std::round(std::min(std::max(CGAL::to_double(number), -far), far)));
    const bool is_whole = number == Number(static_cast<double>(nearest)) || number < Number(-far) || number > Number(far);
    return is_whole ? std::optional(nearest) : std::nullopt;
}

/// A new solid from a mesh of CGAL, as polyhedron() makes it of its points and faces, in their order. Not possible: OffLattice, with the place of the first
/// point that isn't whole, from 1 on.
template <class Mesh> Result<Solid> solid_of(Workbench &bench, const Mesh &mesh)
{
    const auto places = get(CGAL::vertex_point, mesh);
    std::map<typename boost::graph_traits<Mesh>::vertex_descriptor, std::uint32_t> numbers;
    std::vector<Point> points;
    std::vector<std::uint32_t> corners, sizes;
    for (auto vertex : vertices(mesh)) {
        const auto &place = get(places, vertex);
        const std::optional<std::int64_t> x = whole(place.x()), y = whole(place.y()), z = whole(place.z());
        numbers.emplace(vertex, static_cast<std::uint32_t>(points.size()));
        points.push_back({x.value_or(0), y.value_or(0), z.value_or(0)});
        if (!x || !y || !z)
            return Failure{Problem::impossible, static_cast<std::uint32_t>(Misfit::off_lattice), static_cast<std::uint32_t>(points.size())};
    }
    for (auto face : faces(mesh)) {
        const std::size_t before = corners.size();
        for (auto vertex : CGAL::vertices_around_face(halfedge(face, mesh), mesh))
            corners.push_back(numbers.at(vertex));
        sizes.push_back(static_cast<std::uint32_t>(corners.size() - before));
    }
    auto attempts = bench.attempt();
    const Result<Polyhedron> made = polyhedron(attempts, points, corners, sizes);
    return made ? Result<Solid>(made->solid) : Result<Solid>(made.error());
}

} // namespace gwb_session

namespace std {
template <> struct hash<gwb_session::GraphEdge> {
    size_t operator()(gwb_session::GraphEdge edge) const { return edge.half_edge.edge().number(); }
};
} // namespace std

namespace boost {
template <> struct property_map<gwb_session::Graph, CGAL::vertex_point_t> {
    using type = gwb_session::PointMap;
    using const_type = type;
};
template <> struct property_map<gwb_session::Graph, boost::vertex_index_t> {
    using type = gwb_session::PlaceMap<gwb_session::Vertex>;
    using const_type = type;
};
template <> struct property_map<gwb_session::Graph, boost::halfedge_index_t> {
    using type = gwb_session::PlaceMap<gwb_session::HalfEdge>;
    using const_type = type;
};
template <> struct property_map<gwb_session::Graph, boost::edge_index_t> {
    using type = gwb_session::PlaceMap<gwb_session::GraphEdge>;
    using const_type = type;
};
template <> struct property_map<gwb_session::Graph, boost::face_index_t> {
    using type = gwb_session::PlaceMap<gwb_session::Face>;
    using const_type = type;
};
} // namespace boost

namespace CGAL {
template <> struct graph_has_property<gwb_session::Graph, boost::vertex_point_t> : Tag_true {};
template <> struct graph_has_property<gwb_session::Graph, boost::vertex_index_t> : Tag_true {};
template <> struct graph_has_property<gwb_session::Graph, boost::halfedge_index_t> : Tag_true {};
template <> struct graph_has_property<gwb_session::Graph, boost::edge_index_t> : Tag_true {};
template <> struct graph_has_property<gwb_session::Graph, boost::face_index_t> : Tag_true {};
} // namespace CGAL
#endif
