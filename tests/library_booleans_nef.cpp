// Tries the Booleans of gwb_features.h beside CGAL's Nef polyhedra, on random solids: blocks, L, U and T shapes, convex prisms, upright and slanted, with
// holes and pockets, pyramids and tetrahedra, whose planes and edges often coincide; an operation takes two solids, or up to seven at once, these in several
// orders. A seed gives a chain of three to ten operations, or a tree. For some, tetrahedra of any corners cross each other in a block, so that inner points
// have scales of up to 180 bits; for some, faces of three solids or more cross in one point or line, once more times the factor where that is told. Of what
// is made the volume, vertices, edges, faces, rings, shells and each point are compared; of what isn't whether it would be off the lattice, with which least
// factor, touch itself, or be nothing, where that is, and which part of the solids lies there. The last line counts; the one before it counts the outcomes,
// each of which has to be seen 20 times where no seeds are given, and those before it operations without their orders.
//
//     library_booleans_nef [FIRST COUNT]     so many seeds from this one on, each told on a line: 170 from 1 on where none are given
//     library_booleans_nef --sums FIRST COUNT
//                                            the same lines without Nef, to compare libraries: each has a sum of what was answered and met and of the listings
//     library_booleans_nef --volume          six times the volume of what standard input tells: `solid V F` with lines of points and of faces, each after how many
//                                            corners it has, and `union N`, `difference N`, `intersection N` of the N solids before it, in the place of these
extern "C" {
#include "gwb.h"
#include "gwb_features.h"
}
#include <CGAL/Exact_predicates_exact_constructions_kernel.h>
#include <CGAL/Nef_polyhedron_3.h>
#include <CGAL/Surface_mesh.h>
#include <algorithm>
#include <array>
#include <iostream>
#include <map>
#include <random>
#include <set>
#include <sstream>
#include <string>
#include <vector>

using Kernel = CGAL::Exact_predicates_exact_constructions_kernel;
using Nef = CGAL::Nef_polyhedron_3<Kernel>;
using Mesh = CGAL::Surface_mesh<Kernel::Point_3>;
using Exact = std::decay_t<decltype(CGAL::exact(std::declval<Kernel::FT>()))>;
using Integer = CGAL::Fraction_traits<Exact>::Denominator_type;
using Place = std::array<Exact, 3>;

static int passed = 0, failed = 0;

static void check(bool holds, const std::string &what)
{
    (holds ? passed : failed)++;
    if (!holds)
        std::cout << what << '\n';
}

// ---- random solids

class Random {
public:
    explicit Random(std::uint64_t seed) : engine_(seed) {}
    std::int64_t to(std::int64_t low, std::int64_t high) { return low + static_cast<std::int64_t>(engine_() % static_cast<std::uint64_t>(high - low + 1)); }
    bool one_in(int n) { return to(1, n) == 1; }
    std::mt19937_64 &engine() { return engine_; }

private:
    std::mt19937_64 engine_;
};

using Flat = std::array<std::int64_t, 2>;

static std::int64_t turn(const Flat &a, const Flat &b, const Flat &c) { return (b[0] - a[0]) * (c[1] - b[1]) - (b[1] - a[1]) * (c[0] - b[0]); }

// An outline without the points on which it goes straight on.
static std::vector<Flat> without_straight(std::vector<Flat> outline)
{
    for (std::size_t at = 0; at < outline.size() && outline.size() >= 3;) {
        const std::size_t n = outline.size();
        const bool is_straight = turn(outline[(at + n - 1) % n], outline[at], outline[(at + 1) % n]) == 0;
        if (is_straight)
            outline.erase(outline.begin() + static_cast<std::ptrdiff_t>(at));
        at = is_straight ? 0 : at + 1;
    }
    return outline;
}

static std::vector<Flat> hull(std::vector<Flat> points)
{
    std::sort(points.begin(), points.end());
    std::vector<Flat> found;
    for (int half = 0; half < 2; half++) {
        const std::size_t first = found.size();
        for (const Flat &point : points) {
            while (found.size() >= first + 2 && turn(found[found.size() - 2], found.back(), point) <= 0)
                found.pop_back();
            found.push_back(point);
        }
        found.pop_back();
        std::reverse(points.begin(), points.end());
    }
    return found;
}

// A simple outline near the square from 0 to n.
static std::vector<Flat> outline(Random &random, std::int64_t n)
{
    const std::int64_t a = random.to(1, n), b = random.to(1, n), c = random.to(1, std::max<std::int64_t>(1, a - 1)),
                       d = random.to(1, std::max<std::int64_t>(1, b - 1)), s = random.to(1, 2), m = 2 * s + random.to(0, 3);
    std::vector<Flat> points;
    switch (random.to(0, 8)) {
    case 0:
    case 1: return {{0, 0}, {a, 0}, {a, b}, {0, b}};
    case 2: return {{0, 0}, {a + 1, 0}, {a + 1, d}, {c, d}, {c, b + 1}, {0, b + 1}};
    case 3: return {{0, 0}, {a + 2, 0}, {a + 2, b + 1}, {a + 1, b + 1}, {a + 1, d}, {c, d}, {c, b + 1}, {0, b + 1}};
    case 4: return {{0, 0}, {a, 0}, {0, b}};
    case 5: return {{s, 0}, {m, 0}, {m + s, s}, {m + s, m}, {m, m + s}, {s, m + s}, {0, m}, {0, s}};
    case 6: return {{0, 0}, {a + 1, 0}, {a + 1, 2}, {a, 2}, {a, b + 2}, {1, b + 2}, {1, 2}, {0, 2}};
    case 7: return {{a, 0}, {2 * a, b}, {a, 2 * b}, {0, b}};
    default:
        for (int at = 0; at < 6; at++)
            points.push_back({random.to(0, n), random.to(0, n)});
        points = hull(points);
        return points.size() < 3 ? std::vector<Flat>{{0, 0}, {n, 0}, {n, n}, {0, n}} : points;
    }
}

// Makes solids of about 0 to n, times a factor, round a base.
class Maker {
public:
    Maker(gwb *g, Random &random, std::int64_t n, std::int64_t factor, const std::array<std::int64_t, 3> &base)
        : g_(g), random_(random), n_(n), factor_(factor), base_(base)
    {
    }

    void make(std::uint32_t solid)
    {
        bool is_made = false;
        while (!is_made) {
            axis_ = static_cast<std::size_t>(random_.to(0, 2));
            at_ = {random_.to(0, n_), random_.to(0, n_), random_.to(0, n_)};
            const std::vector<Flat> path = without_straight(outline(random_, n_));
            is_made = random_.to(0, 4) == 0 ? pyramid(solid, path) : prism(solid, path);
        }
    }

private:
    [[nodiscard]] gwb_point point(std::int64_t u, std::int64_t v, std::int64_t w) const
    {
        std::array<std::int64_t, 3> found{};
        found[axis_] = w, found[(axis_ + 1) % 3] = u, found[(axis_ + 2) % 3] = v;
        for (std::size_t axis = 0; axis < 3; axis++)
            found[axis] = base_[axis] + (found[axis] + at_[axis]) * factor_;
        return {found[0], found[1], found[2]};
    }

    // (of a convex base alone, since others might cross themselves)
    bool pyramid(std::uint32_t solid, const std::vector<Flat> &path)
    {
        const std::size_t n = path.size();
        for (std::size_t at = 0; at < n; at++)
            if (turn(path[at], path[(at + 1) % n], path[(at + 2) % n]) <= 0)
                return false;
        std::vector<gwb_point> points;
        for (const Flat &corner : path)
            points.push_back(point(corner[0], corner[1], 0));
        points.push_back(point(random_.to(-1, n_ + 1), random_.to(-1, n_ + 1), random_.to(1, n_)));
        const auto top = static_cast<std::uint32_t>(n);
        std::vector<std::uint32_t> corners, sizes = {top};
        for (std::uint32_t at = top; at-- > 0;)
            corners.push_back(at);
        for (std::uint32_t at = 0; at < top; at++) {
            corners.insert(corners.end(), {at, (at + 1) % top, top});
            sizes.push_back(3);
        }
        gwb_polyhedron_made made;
        gwb_refusal why{};
        return gwb_polyhedron(g_, solid, points.data(), points.size(), corners.data(), sizes.data(), sizes.size(), &made, &why) == GWB_OK;
    }

    bool prism(std::uint32_t solid, const std::vector<Flat> &path)
    {
        std::vector<gwb_point> points;
        for (const Flat &corner : path)
            points.push_back(point(corner[0], corner[1], 0));
        const std::int64_t height = random_.to(1, n_);
        const bool is_slanted = random_.one_in(8);
        const gwb_point zero = point(0, 0, 0), top = point(is_slanted ? random_.to(-2, 2) : 0, is_slanted ? random_.to(-2, 2) : 0, height);
        const gwb_point along = {top.x - zero.x, top.y - zero.y, top.z - zero.z};
        gwb_profile_made made;
        gwb_refusal why{};
        std::vector<std::uint32_t> sides(points.size());
        if (gwb_profile(g_, solid, points.data(), points.size(), &along, &made, sides.data(), &why) != GWB_OK)
            return false;
        if (!is_slanted && random_.one_in(2))
            sink(made.far, height);
        return true;
    }

    // A hole or a pocket, where there is room.
    void sink(std::uint32_t face, std::int64_t height)
    {
        const bool is_pocket = height > 1 && random_.one_in(3);
        gwb_kind done = GWB_IMPOSSIBLE;
        for (int tries = 0; tries < 6 && done != GWB_OK; tries++) {
            const std::int64_t u = random_.to(0, n_), v = random_.to(0, n_), width = random_.to(1, 2), length = random_.to(1, 2);
            const std::array<gwb_point, 4> points = {point(u, v, height), point(u + width, v, height), point(u + width, v + length, height),
                                                     point(u, v + length, height)};
            std::array<std::uint32_t, 4> walls{};
            gwb_outline_made made;
            gwb_refusal why{};
            done = is_pocket ? gwb_pocket(g_, face, points.data(), 4, random_.to(1, height - 1) * factor_, &made, walls.data(), &why)
                             : gwb_hole(g_, face, points.data(), 4, &made, walls.data(), &why);
        }
    }

    gwb *g_;
    Random &random_;
    std::int64_t n_, factor_;
    std::array<std::int64_t, 3> base_, at_{};
    std::size_t axis_ = 0;
};

// ---- what there is of a solid

struct Told {
    std::size_t vertices = 0, edges = 0, faces = 0, rings = 0, shells = 0;
    Exact six_volume = 0;
    std::set<Place> points = {};
    Integer factor = 1; ///< the least one by which all corners would be whole
    bool operator==(const Told &other) const
    {
        return vertices == other.vertices && edges == other.edges && faces == other.faces && rings == other.rings && shells == other.shells &&
               six_volume == other.six_volume && points == other.points;
    }
};

static std::string text(const Told &told)
{
    std::ostringstream found;
    found << "V " << told.vertices << " E " << told.edges << " F " << told.faces << " rings " << told.rings << " shells " << told.shells << " six volumes "
          << told.six_volume << " factor " << told.factor;
    return found.str();
}

static Place place_of(const Kernel::Point_3 &point) { return {CGAL::exact(point.x()), CGAL::exact(point.y()), CGAL::exact(point.z())}; }
static Exact exact(std::int64_t number)
{
    std::stringstream digits;
    digits << number;
    Exact found;
    digits >> found;
    return found;
}
static Exact exact(const gwb_wide &number)
{
    constexpr std::int64_t half = std::int64_t{1} << 32;
    return (exact(number.high) * exact(half) + exact(static_cast<std::int64_t>(number.low >> 32))) * exact(half) +
           exact(static_cast<std::int64_t>(number.low & 0xffffffffU));
}

static Integer denominator_of(const Exact &number)
{
    CGAL::Fraction_traits<Exact>::Numerator_type numerator;
    Integer found;
    CGAL::Fraction_traits<Exact>::Decompose()(number, numerator, found);
    return found;
}

// The cycles round a facet, and what it adds to six times the volume.
static std::size_t cycles_of(const Nef::Halffacet_const_handle &facet, Exact &six_volume)
{
    std::size_t cycles = 0;
    for (auto cycle = facet->facet_cycles_begin(); cycle != facet->facet_cycles_end(); ++cycle) {
        if (!cycle.is_shalfedge())
            continue;
        cycles++;
        const Nef::SHalfedge_const_handle first(cycle);
        Place area = {0, 0, 0};
        Nef::SHalfedge_const_handle at = first;
        do {
            const Place p = place_of(at->source()->source()->point()), q = place_of(at->next()->source()->source()->point());
            for (std::size_t axis = 0; axis < 3; axis++)
                area[axis] += p[(axis + 1) % 3] * q[(axis + 2) % 3] - p[(axis + 2) % 3] * q[(axis + 1) % 3];
            at = at->next();
        } while (at != first);
        const Place base = place_of(first->source()->source()->point());
        for (std::size_t axis = 0; axis < 3; axis++)
            six_volume += area[axis] * base[axis];
    }
    return cycles;
}

// The least number by which all corners must be multiplied to be whole. A point in which edges only cross, as straight as before, is a vertex of Nef's, but no
// corner of a solid that touches itself there.
static Integer factor_of(const Nef &nef)
{
    std::set<Place> corners;
    for (auto arc = nef.shalfedges_begin(); arc != nef.shalfedges_end(); ++arc)
        if (arc->source()->point() != arc->twin()->source()->point().antipode())
            corners.insert(place_of(arc->source()->source()->point()));
    Integer found = 1;
    for (const Place &corner : corners)
        for (const Exact &part : corner)
            found = found / CGAL::gcd(found, denominator_of(part)) * denominator_of(part);
    return found;
}

static Told told(const Nef &nef)
{
    Told found{nef.number_of_vertices(), nef.number_of_edges(), nef.number_of_facets()};
    found.factor = factor_of(nef);
    for (auto vertex = nef.vertices_begin(); vertex != nef.vertices_end(); ++vertex)
        found.points.insert(place_of(vertex->point()));
    for (auto facet = nef.halffacets_begin(); facet != nef.halffacets_end(); ++facet)
        if (facet->incident_volume()->mark())
            found.rings += cycles_of(facet, found.six_volume) - 1;
    if (found.six_volume < 0)
        found.six_volume = -found.six_volume;
    for (auto volume = nef.volumes_begin(); volume != nef.volumes_end(); ++volume)
        if (volume->mark())
            found.shells += static_cast<std::size_t>(std::distance(volume->shells_begin(), volume->shells_end()));
    return found;
}

static std::vector<gwb_half_edge_row> rows_of(const gwb *g, std::uint32_t solid)
{
    std::vector<gwb_half_edge_row> found(gwb_read_half_edges(g, solid, nullptr, 0));
    gwb_read_half_edges(g, solid, found.data(), found.size());
    return found;
}

static Told told(const gwb *g, std::uint32_t solid)
{
    const std::vector<gwb_half_edge_row> rows = rows_of(g, solid);
    std::map<std::uint32_t, std::uint32_t> above, first;
    const auto name = [&](std::uint32_t vertex) {
        while (above.at(vertex) != vertex)
            vertex = above.at(vertex);
        return vertex;
    };
    std::set<std::uint32_t> loops;
    for (const gwb_half_edge_row &row : rows) {
        loops.insert(row.loop);
        const std::uint32_t other = first.try_emplace(row.face, row.start).first->second;
        above.try_emplace(row.start, row.start);
        above[name(row.start)] = name(other);
    }
    Told found{above.size(), rows.size() / 2, first.size(), loops.size() - first.size()};
    for (const auto &[vertex, up] : above) {
        gwb_point point;
        gwb_vertex(g, vertex, &point);
        found.points.insert({exact(point.x), exact(point.y), exact(point.z)});
        found.shells += up == vertex ? 1 : 0;
    }
    gwb_wide six;
    gwb_refusal why{};
    gwb_read_volume(g, solid, &six, &why);
    found.six_volume = exact(six);
    return found;
}

static Nef nef_of(const gwb *g, std::uint32_t solid)
{
    std::vector<gwb_triangle_row> rows(gwb_read_triangles(g, solid, nullptr, 0));
    gwb_read_triangles(g, solid, rows.data(), rows.size());
    Mesh mesh;
    std::map<std::uint32_t, Mesh::Vertex_index> vertices;
    for (const gwb_triangle_row &row : rows) {
        std::vector<Mesh::Vertex_index> corners;
        for (std::uint32_t corner : row.corners) {
            const auto [found, is_new] = vertices.try_emplace(corner);
            if (is_new) {
                gwb_point point;
                gwb_vertex(g, corner, &point);
                found->second = mesh.add_vertex({static_cast<double>(point.x), static_cast<double>(point.y), static_cast<double>(point.z)});
            }
            corners.push_back(found->second);
        }
        mesh.add_face(corners);
    }
    return Nef(mesh);
}

static std::string listing(const gwb *g)
{
    std::string text(gwb_read_listing(g, nullptr, 0), ' ');
    gwb_read_listing(g, text.data(), text.size());
    return text;
}

// ---- what was met

using Spot = Kernel::Point_3;

static bool is_between(const Spot &from, const Spot &point, const Spot &to)
{
    return from != point && to != point && CGAL::collinear(from, point, to) && CGAL::collinear_are_ordered_along_line(from, point, to);
}

static std::size_t facets_round(const Nef::Halfedge_const_handle &edge)
{
    std::size_t count = 0;
    Nef::SHalfedge_const_handle at = edge->out_sedge();
    do {
        count++;
        at = at->sprev()->twin();
    } while (at != edge->out_sedge());
    return count;
}

// Whether Nef's solid has a corner in a point that isn't whole, or touches itself in a point.
static bool has_corner_off(const Nef &nef, const Spot &point)
{
    const Place place = place_of(point);
    bool found = false;
    for (auto arc = nef.shalfedges_begin(); arc != nef.shalfedges_end() && !found; ++arc)
        found = arc->source()->source()->point() == point && arc->source()->point() != arc->twin()->source()->point().antipode();
    return found && std::any_of(place.begin(), place.end(), [](const Exact &part) { return denominator_of(part) != 1; });
}
static bool touches_itself_at(const Nef &nef, const Spot &point)
{
    for (auto vertex = nef.vertices_begin(); vertex != nef.vertices_end(); ++vertex)
        if (vertex->point() == point)
            return std::distance(vertex->sfaces_begin(), vertex->sfaces_end()) != 2;
    for (auto edge = nef.halfedges_begin(); edge != nef.halfedges_end(); ++edge)
        if (is_between(edge->source()->point(), point, edge->twin()->source()->point()))
            return facets_round(edge) != 2;
    return false;
}

// The numbers of the vertices and edges that lie in a point, and of the faces whose planes have it: added to those of other solids.
static void add_things_at(const gwb *g, std::uint32_t solid, const Spot &point, std::map<std::uint32_t, std::set<std::uint32_t>> &things)
{
    std::map<std::uint32_t, gwb_half_edge_row> of;
    for (const gwb_half_edge_row &row : rows_of(g, solid))
        of[row.half_edge] = row;
    const auto start = [&](const gwb_half_edge_row &row) {
        gwb_point at;
        gwb_vertex(g, row.start, &at);
        return Spot(static_cast<double>(at.x), static_cast<double>(at.y), static_cast<double>(at.z));
    };
    std::set<std::uint32_t> off;
    for (const auto &[half, row] : of) {
        const gwb_half_edge_row &next = of.at(row.next), &after = of.at(next.next);
        if (start(row) == point)
            things[GWB_VERTEX].insert(row.start);
        if (is_between(start(row), point, start(next)))
            things[GWB_EDGE].insert(half / 2);
        if (CGAL::orientation(start(row), start(next), start(after), point) != CGAL::COPLANAR)
            off.insert(row.face);
        else
            things[GWB_FACE].insert(row.face);
    }
    for (std::uint32_t face : off)
        things[GWB_FACE].erase(face);
}

// ---- both

enum class Operation { unite, subtract, intersect };

static Nef combined(const std::vector<Nef> &all, Operation operation)
{
    Nef found = all[0];
    for (std::size_t at = 1; at < all.size(); at++)
        switch (operation) {
        case Operation::unite: found = found.join(all[at]); break;
        case Operation::subtract: found = found.difference(all[at]); break;
        default: found = found.intersection(all[at]);
        }
    return found.regularization();
}

static gwb_kind combined(gwb *g, Operation operation, const std::vector<std::uint32_t> &solids, gwb_refusal *why)
{
    switch (operation) {
    case Operation::unite: return gwb_union(g, solids.data(), solids.size(), why);
    case Operation::subtract: return gwb_subtract(g, solids[0], &solids[1], solids.size() - 1, why);
    default: return gwb_intersect(g, solids.data(), solids.size(), why);
    }
}

// How often each outcome was seen.
struct Counts {
    std::map<std::string, int> operations = {}, calls = {}; ///< calls: with the other orders of several solids
    int in_point = 0, total = 0;
};

// What one seed gives.
class Chain {
public:
    Chain(std::uint64_t seed, bool has_nef, Counts &counts) : seed_(seed), has_nef_(has_nef), random_(seed), counts_(counts)
    {
        if (!gwb_open(&g_))
            std::abort();
    }
    Chain(const Chain &) = delete;
    Chain &operator=(const Chain &) = delete;
    ~Chain() { gwb_close(&g_); }

    void run()
    {
        switch (seed_ % 10) {
        case 0: return cross_in_block();
        case 3: return cross_in_tree();
        case 6:
        case 9: return cross_in_point();
        default: return cross_in_turn();
        }
    }
    [[nodiscard]] std::uint64_t sum() const { return sum_; }

private:
    Maker maker()
    {
        constexpr std::array<std::int64_t, 8> factors = {1, 2, 12, 60, 420, 2'520, 27'720, 10'000'000};
        const std::int64_t n = random_.to(2, 6), factor = factors[static_cast<std::size_t>(random_.to(0, 7))];
        std::array<std::int64_t, 3> base{};
        if (random_.one_in(3))
            for (std::int64_t &part : base)
                part = random_.to(-100'000'000, 100'000'000);
        return {&g_, random_, n, factor, base};
    }
    Operation operation() { return static_cast<Operation>(random_.to(0, 3) % 3); } // half of them unite: what intersects is often nothing

    void cross_in_turn()
    {
        Maker maker = this->maker();
        maker.make(1);
        for (std::int64_t steps = random_.one_in(4) ? random_.to(4, 10) : 3; steps > 0; steps--) {
            solids_ = {1};
            for (std::int64_t more = random_.one_in(3) ? random_.to(2, 6) : 1; more > 0; more--) {
                solids_.push_back(solids_.back() + 1);
                maker.make(solids_.back());
            }
            take(operation());
            leave(1);
        }
    }

    // Two, three or four pairs or threes, and then what has become of them.
    void cross_in_tree()
    {
        Maker maker = this->maker();
        std::vector<std::uint32_t> roots;
        const std::int64_t branches = random_.to(2, 4);
        for (std::uint32_t solid = 1; roots.size() < static_cast<std::size_t>(branches);) {
            roots.push_back(solid);
            solids_.clear();
            for (std::int64_t more = random_.to(2, 3); more > 0; more--) {
                solids_.push_back(solid);
                maker.make(solid++);
            }
            take(operation());
            leave(1);
        }
        solids_ = roots;
        take(operation());
    }

    // Tetrahedra that all have a face with the middle inside it, or with a part of one line, so that their planes cross there; in some a block with a corner or an
    // edge there. What is off the lattice is tried again times the factor.
    void cross_in_point()
    {
        in_point_ = true;
        for (int step = 0; step < 3; step++) {
            solids_.clear();
            const bool in_line = random_.one_in(2);
            const std::int64_t half = random_.to(1, 6);
            if (random_.one_in(2)) {
                solids_.push_back(1);
                check(gwb_block(&g_, 1, 0, 0, in_line ? -half : 0, random_.to(1, 9), random_.to(1, 9), half + random_.to(1, 9)) == GWB_OK, "a block");
            }
            for (std::int64_t more = random_.to(3, 4); more > 0; more--) {
                solids_.push_back(static_cast<std::uint32_t>(solids_.size() + 1));
                while (!tetrahedron(solids_.back(), in_line ? on_line(half) : round_middle()))
                    continue;
            }
            const Operation which = operation();
            const std::uint32_t factor = take(which);
            gwb_refusal why{};
            if (factor > 1 && factor < 50'000'000 && gwb_scale(&g_, factor, &why) == GWB_OK)
                take(which);
            leave(0);
        }
    }

    std::int64_t near() { return random_.to(-6, 6); }
    std::array<gwb_point, 4> round_middle()
    {
        const gwb_point a = {near(), near(), near()}, b = {near(), near(), near()};
        return {a, b, {-a.x - b.x, -a.y - b.y, -a.z - b.z}, {near(), near(), near()}};
    }
    std::array<gwb_point, 4> on_line(std::int64_t half)
    {
        const std::int64_t x = near(), y = near(), once = random_.to(1, 2), twice = random_.to(1, 2);
        return {gwb_point{once * x, once * y, random_.to(-3 * half, half)}, {-twice * x, -twice * y, -half - random_.to(0, 4)}, {-x, -y, half + random_.to(0, 4)},
                {near(), near(), near()}};
    }

    // Tetrahedra of any corners, three to five of them, and a block, in which all or parts of them lie.
    void cross_in_block()
    {
        for (int step = 0; step < 3; step++) {
            const std::int64_t size = random_.to(500'000'000, 1'100'000'000);
            const auto any = [&] { return random_.to(-500'000'000, 500'000'000); };
            solids_ = {1};
            check(gwb_block(&g_, 1, -size / 2, -size / 2, -size / 2, size, size, size) == GWB_OK, "a block");
            for (std::int64_t more = random_.to(2, 5); more > 0; more--) {
                solids_.push_back(solids_.back() + 1);
                const auto corner = [&] { return gwb_point{any(), any(), any()}; };
                while (!tetrahedron(solids_.back(), {corner(), corner(), corner(), corner()}))
                    continue;
            }
            take(operation());
            leave(0);
        }
    }

    bool tetrahedron(std::uint32_t solid, const std::array<gwb_point, 4> &points)
    {
        const std::array<std::uint32_t, 12> corners = {0, 1, 2, 0, 3, 1, 1, 3, 2, 2, 3, 0};
        const std::array<std::uint32_t, 4> sizes = {3, 3, 3, 3};
        gwb_polyhedron_made made;
        gwb_refusal why{};
        gwb_wide six;
        if (gwb_polyhedron(&g_, solid, points.data(), 4, corners.data(), sizes.data(), 4, &made, &why) != GWB_OK)
            return false;
        gwb_read_volume(&g_, solid, &six, &why);
        if (six.high >= 0 && (six.high != 0 || six.low != 0))
            return true;
        gwb_kill_solid(&g_, solid, &why); // inside out or flat
        return false;
    }

    // The operation, in other orders first; what is made is undone and redone. The factor by which all would have to be scaled: 0 where it isn't that.
    std::uint32_t take(Operation operation)
    {
        const std::string before = listing(&g_);
        const Nef made = has_nef_ ? combined(nefs(), operation) : Nef();
        const Told wanted = told(made);
        if (solids_.size() > 2)
            take_in_other_orders(operation, made, wanted, before);
        const Answer answer = called(operation, solids_, made, wanted, before);
        counts_.operations[answer.name]++;
        counts_.total++;
        counts_.in_point += in_point_ ? 1 : 0;
        if (answer.kind != GWB_OK)
            return answer.why.number == GWB_MISFIT_OFF_LATTICE ? answer.why.value : 0;
        undo_and_redo(before);
        nefs_[solids_[0]] = made;
        return 0;
    }

    [[nodiscard]] std::vector<Nef> nefs() const
    {
        std::vector<Nef> found;
        for (std::uint32_t solid : solids_)
            found.push_back(nefs_.count(solid) != 0 ? nefs_.at(solid) : nef_of(&g_, solid));
        return found;
    }

    // Kills the solids of the operation, from a place on, that are still there.
    void leave(std::size_t from)
    {
        gwb_refusal why{};
        for (std::size_t at = from; at < solids_.size(); at++) {
            gwb_kill_solid(&g_, solids_[at], &why);
            nefs_.erase(solids_[at]);
        }
    }

    // All orders of three, some of more: what is subtracted from stays the first.
    void take_in_other_orders(Operation operation, const Nef &made, const Told &wanted, const std::string &before)
    {
        std::vector<std::uint32_t> order = solids_;
        const auto first = order.begin() + (operation == Operation::subtract ? 1 : 0);
        for (int time = 0; time < 5; time++) {
            if (order.size() > 3)
                std::shuffle(first, order.end(), random_.engine());
            else if (!std::next_permutation(first, order.end()))
                return;
            if (called(operation, order, made, wanted, before).kind == GWB_OK)
                gwb_undo(&g_);
            check(listing(&g_) == before, "it is as it was");
        }
    }

    struct Answer {
        gwb_kind kind = GWB_IMPOSSIBLE;
        gwb_refusal why{};
        std::string name = {};
    };
    Answer called(Operation operation, const std::vector<std::uint32_t> &solids, const Nef &made, const Told &wanted, const std::string &before)
    {
        Answer found;
        found.kind = combined(&g_, operation, solids, &found.why);
        found.name = found.kind == GWB_OK ? "made" : found.kind == GWB_IMPOSSIBLE ? gwb_misfit_name(found.why.number) : gwb_kind_text(found.kind);
        counts_.calls[solids.size() > 2 ? found.name + " of several" : found.name]++;
        add_to_sum(found.kind, found.why);
        check(!has_nef_ || is_right(found.kind, found.why, made, wanted, solids[0]),
              "seed " + std::to_string(seed_) + ": " + found.name + " " + std::to_string(found.why.value) + " in place of " + text(wanted) + "; of\n" + before);
        if (found.kind == GWB_OK)
            return found;
        check(listing(&g_) == before, "what is refused changes nothing");
        check(!has_nef_ || is_met(found.why, made, solids), "seed " + std::to_string(seed_) + ": " + found.name + " is met elsewhere; of\n" + before);
        return found;
    }

    // (FNV-1a)
    void add_to_sum(gwb_kind kind, const gwb_refusal &why)
    {
        gwb_hit_row hit{};
        gwb_hit(&g_, &hit);
        std::ostringstream answer;
        answer << kind << ' ' << why.number << ' ' << why.value << ' ' << hit.cause << ' ' << hit.kind << ' ' << hit.number;
        for (const gwb_wide &part : {hit.point[0], hit.point[1], hit.point[2], hit.scale})
            answer << ' ' << part.high << ' ' << part.low;
        for (char letter : answer.str() + listing(&g_))
            sum_ = (sum_ ^ static_cast<unsigned char>(letter)) * 1'099'511'628'211U;
    }

    [[nodiscard]] bool is_right(gwb_kind kind, const gwb_refusal &why, const Nef &made, const Told &wanted, std::uint32_t first) const
    {
        if (kind == GWB_OK)
            return made.is_simple() && wanted.factor == 1 && told(&g_, first) == wanted;
        if (kind != GWB_IMPOSSIBLE)
            return false;
        switch (why.number) {
        case GWB_MISFIT_NOTHING_LEFT: return wanted.vertices == 0 && why.value == first;
        case GWB_MISFIT_MEETS: return !made.is_simple() && why.value == first;
        case GWB_MISFIT_OFF_LATTICE: return wanted.factor != 1 && (why.value != 0 ? wanted.factor == Integer(why.value) : wanted.factor > Integer(UINT32_MAX));
        default: return false;
        }
    }

    // Whether it is so where what was met is said to be, and that is the least thing there; where the factor is too large to be told the point may be too.
    [[nodiscard]] bool is_met(const gwb_refusal &why, const Nef &made, const std::vector<std::uint32_t> &solids) const
    {
        gwb_hit_row hit{};
        const bool has_hit = gwb_hit(&g_, &hit), has_point = hit.scale.high != 0 || hit.scale.low != 0;
        if (why.number == GWB_MISFIT_NOTHING_LEFT || !has_hit || !has_point)
            return why.number == GWB_MISFIT_NOTHING_LEFT || (has_hit && why.number == GWB_MISFIT_OFF_LATTICE && why.value == 0 && hit.number == 0);
        const Exact scale = exact(hit.scale);
        const auto part = [&](std::size_t axis) { return Kernel::FT(Exact(exact(hit.point[axis]) / scale)); };
        const Spot point(part(0), part(1), part(2));
        std::map<std::uint32_t, std::set<std::uint32_t>> things;
        for (std::uint32_t solid : solids)
            add_things_at(&g_, solid, point, things);
        for (std::uint32_t kind : {GWB_VERTEX, GWB_EDGE, GWB_FACE})
            if (!things[kind].empty())
                return hit.kind == kind && things[kind].count(hit.number) != 0 &&
                       (why.number == GWB_MISFIT_MEETS ? touches_itself_at(made, point) : has_corner_off(made, point));
        return false;
    }

    void undo_and_redo(const std::string &before)
    {
        const std::string after = listing(&g_);
        gwb_undo(&g_);
        check(listing(&g_) == before, "it is undone");
        gwb_redo(&g_);
        check(listing(&g_) == after, "and redone");
    }

    std::uint64_t seed_, sum_ = 14'695'981'039'346'656'037U;
    bool has_nef_;
    Random random_;
    Counts &counts_;
    gwb g_ = {};
    std::map<std::uint32_t, Nef> nefs_;  ///< of solids that operations have made
    std::vector<std::uint32_t> solids_; ///< of one operation
    bool in_point_ = false;
};

// ---- a tree of solids that is told

static Nef read_solid(std::istream &in)
{
    std::size_t points = 0, faces = 0;
    in >> points >> faces;
    Mesh mesh;
    std::vector<Mesh::Vertex_index> vertices;
    for (; points > 0; points--) {
        double x = 0, y = 0, z = 0;
        in >> x >> y >> z;
        vertices.push_back(mesh.add_vertex({x, y, z}));
    }
    for (; faces > 0; faces--) {
        std::size_t corners = 0, place = 0;
        std::vector<Mesh::Vertex_index> face;
        for (in >> corners; corners > 0; corners--) {
            in >> place;
            face.push_back(vertices.at(place));
        }
        mesh.add_face(face);
    }
    return Nef(mesh);
}

static Exact six_volume_of(std::istream &in)
{
    std::vector<Nef> held;
    for (std::string word; in >> word;) {
        if (word == "solid") {
            held.push_back(read_solid(in));
            continue;
        }
        std::size_t count = 0;
        in >> count;
        const auto first = held.end() - static_cast<std::ptrdiff_t>(count);
        const Nef made = combined({first, held.end()}, word == "union" ? Operation::unite : word == "difference" ? Operation::subtract : Operation::intersect);
        held.erase(first, held.end());
        held.push_back(made);
    }
    return told(held.at(0)).six_volume;
}

static void print(const std::map<std::string, int> &counts)
{
    for (const auto &[name, times] : counts)
        std::cout << ' ' << name << ' ' << times << ',';
    std::cout << '\n';
}

int main(int argc, char **argv)
{
    if (argc == 2 && argv[1] == std::string("--volume")) {
        std::cout << six_volume_of(std::cin) << '\n';
        return 0;
    }
    const bool has_seeds = argc > 2, has_nef = argc != 4 || argv[1] != std::string("--sums");
    const std::uint64_t first = has_seeds ? std::stoull(argv[argc - 2]) : 1, count = has_seeds ? std::stoull(argv[argc - 1]) : 170;
    Counts counts;
    for (std::uint64_t seed = first; seed < first + count; seed++) {
        Chain chain(seed, has_nef, counts);
        chain.run();
        if (has_seeds)
            std::cout << "seed " << seed << ": sum " << std::hex << chain.sum() << std::dec << ", operations so far: " << counts.total << std::endl;
    }
    for (const char *name : {"made", "OffLattice", "Meets", "NothingLeft"})
        for (const char *of : {"", " of several"})
            check(has_seeds || counts.calls[std::string(name) + of] >= 20, std::string(name) + of + " is seen too seldom");
    std::cout << counts.total << " operations, " << counts.in_point << " of solids that cross in a point or line:";
    print(counts.operations);
    std::cout << "calls, those of several solids in up to six orders:";
    print(counts.calls);
    std::cout << passed << " passed, " << failed << " failed\n";
    return failed != 0;
}
