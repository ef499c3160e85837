// How long Booleans take beside CGAL's exact ones: corefinement of Polygon_mesh_processing and Nef polyhedra, both with the kernel EPECK. Processor seconds of the
// process; the least of up to nine runs, which alternate. Models are converted before.
//
//     booleans [FAMILY [FACES..]]     all families, of 100 to 100,000 faces a solid, where none are said
//
// A first call combines a solid with one that crosses it at one end, a second call what was made with one at the other end; each crosses it in a number of faces
// that grows with the square root of all. The exponent is that from one size to the next.
#include "gwb_cgal.hpp"
#include "gwb_features.hpp"
#include <CGAL/Exact_predicates_exact_constructions_kernel.h>
#include <CGAL/Nef_polyhedron_3.h>
#include <CGAL/Polygon_mesh_processing/corefinement.h>
#include <CGAL/Polygon_mesh_processing/measure.h>
#include <CGAL/Surface_mesh.h>
#include <cmath>
#include <cstdio>
#include <ctime>
#include <map>

namespace PMP = CGAL::Polygon_mesh_processing;
using namespace gwb_session;
using Kernel = CGAL::Exact_predicates_exact_constructions_kernel;
using Mesh = CGAL::Surface_mesh<Kernel::Point_3>;
using Nef = CGAL::Nef_polyhedron_3<Kernel>;

namespace {

constexpr int runs = 9;
constexpr double enough = 100; ///< seconds: after so many a way isn't run again, nor for more faces

double seconds()
{
    timespec now{};
    clock_gettime(CLOCK_PROCESS_CPUTIME_ID, &now);
    return static_cast<double>(now.tv_sec) + static_cast<double>(now.tv_nsec) * 1e-9;
}

template <class Call> double spent(Call call)
{
    const double begun = seconds();
    call();
    return seconds() - begun;
}

// ---- what is combined

/// A solid, and those that cross it at one end and at the other.
using Three = std::array<Solid, 3>;

/// A rack with so many teeth, whose low corner lies there: four faces for each tooth.
Solid rack(Workbench &bench, std::int64_t teeth, Point at)
{
    std::vector<Point> points = {{0, 0, 0}, {4 * teeth + 2, 0, 0}, {4 * teeth + 2, 4, 0}};
    for (std::int64_t tooth = teeth; tooth-- > 0;)
        points.insert(points.end(), {{4 * tooth + 4, 4, 0}, {4 * tooth + 4, 14, 0}, {4 * tooth + 2, 14, 0}, {4 * tooth + 2, 4, 0}});
    points.push_back({0, 4, 0});
    for (Point &point : points)
        point = {at.x + point.x, at.y + point.y, at.z};
    return profile(bench, points, {0, 0, 10}).solid;
}

Three racks(Workbench &bench, std::int64_t faces)
{
    const std::int64_t teeth = faces / 4, across = 4 * (teeth - std::llround(std::sqrt(static_cast<double>(teeth)))) + 1;
    return {rack(bench, teeth, {0, 0, 0}), rack(bench, teeth, {across, 2, 3}), rack(bench, teeth, {-across, 2, 3})};
}

/// A sphere of triangles: rings of points around the axis x, all even, turned by a part of a step, and a pole at both ends; in a mirror where the sign is -1.
class Sphere {
public:
    Sphere(std::int64_t faces, double turn) : rings_(std::llround(std::sqrt(static_cast<double>(faces) / 4)) | 1), around_(faces / (2 * rings_)), turn_(turn) {}

    Solid made(Workbench &bench, std::int64_t sign, std::int64_t shift) const
    {
        std::vector<Point> points;
        for (std::int64_t ring = 0; ring <= rings_; ring++)
            for (std::int64_t place = 0; place < around_; place++)
                points.push_back(moved(at(ring, place), sign, shift));
        points.push_back(moved({-radius, 0, 0}, sign, shift));
        points.push_back(moved({radius, 0, 0}, sign, shift));
        const std::vector<std::uint32_t> corners = triangles(sign);
        return polyhedron(bench, points, corners, std::vector<std::uint32_t>(corners.size() / 3, 3)).solid;
    }
    /// Half way between two rings that lie near the end.
    std::int64_t between_rings() const { return (at(rings_ * 5 / 6, 0).x + at(rings_ * 5 / 6 + 1, 0).x) / 2; }

private:
    static constexpr std::int64_t radius = 100'000'000;

    static std::int64_t even(double length) { return 2 * std::llround(length / 2); }
    static Point moved(Point point, std::int64_t sign, std::int64_t shift) { return {sign * point.x + shift, point.y, point.z}; }
    Point at(std::int64_t ring, std::int64_t place) const
    {
        const double pi = std::acos(-1), along = pi * static_cast<double>(ring + 1) / static_cast<double>(rings_ + 2);
        const double turn = 2 * pi * (static_cast<double>(place) + turn_) / static_cast<double>(around_), far = radius * std::sin(along);
        return {even(-radius * std::cos(along)), even(far * std::cos(turn)), even(far * std::sin(turn))};
    }
    /// A mirror turns each round.
    std::vector<std::uint32_t> triangles(std::int64_t sign) const
    {
        std::vector<std::uint32_t> found;
        const auto number = [&](std::int64_t ring, std::int64_t place) { return static_cast<std::uint32_t>(ring * around_ + place % around_); };
        const auto add = [&](std::uint32_t a, std::uint32_t b, std::uint32_t c) {
            found.insert(found.end(), {a, sign > 0 ? b : c, sign > 0 ? c : b});
        };
        const std::uint32_t low = number(rings_ + 1, 0), high = low + 1;
        for (std::int64_t place = 0; place < around_; place++) {
            add(low, number(0, place + 1), number(0, place));
            add(high, number(rings_, place), number(rings_, place + 1));
            for (std::int64_t ring = 0; ring < rings_; ring++) {
                add(number(ring, place), number(ring, place + 1), number(ring + 1, place + 1));
                add(number(ring, place), number(ring + 1, place + 1), number(ring + 1, place));
            }
        }
        return found;
    }

    std::int64_t rings_, around_;
    double turn_;
};

/// The others are what a mirror half way between two rings shows, so that all crosses there, in points that are whole: in the middles of edges.
Three spheres(Workbench &bench, std::int64_t faces)
{
    const Sphere sphere(faces, 0);
    return {sphere.made(bench, 1, 0), sphere.made(bench, -1, 2 * sphere.between_rings()), sphere.made(bench, -1, -2 * sphere.between_rings())};
}

/// The others are turned and lie askew, so that all crosses in points that aren't whole: the arrangement is told, and the answer is OffLattice.
Three askew(Workbench &bench, std::int64_t faces)
{
    const Sphere sphere(faces, 0), other(faces, 0.37);
    return {sphere.made(bench, 1, 0), other.made(bench, 1, 2 * sphere.between_rings() + 12'345), other.made(bench, 1, -2 * sphere.between_rings() - 54'321)};
}

// ---- the three ways

enum class Operation { unite, subtract };

/// Seconds of the first call and of the second; whether both were made.
struct Calls {
    double first = 0, second = 0;
    bool are_made = true;
};

struct Family {
    const char *name;
    Three (*make)(Workbench &bench, std::int64_t faces);
};

Calls by_gwb(const Family &family, std::int64_t faces, Operation operation, Kernel::FT &volume)
{
    Workbench bench;
    const Three three = family.make(bench, faces);
    Attempts attempts = bench.attempt();
    Calls calls;
    const auto call = [&](Solid other) {
        const bool is_made = operation == Operation::unite ? bool(unite(attempts, {three[0], other})) : bool(subtract(attempts, three[0], {other}));
        calls.are_made = calls.are_made && is_made;
    };
    calls.first = spent([&] { call(three[1]); });
    calls.second = spent([&] { call(three[2]); });
    const gwb_wide six = bench.six_volumes(three[0]);
    const auto part = [](double number) { return Kernel::FT(number); };
    volume = ((part(static_cast<double>(six.high)) * 4294967296.0 + part(static_cast<double>(six.low >> 32))) * 4294967296.0 +
              part(static_cast<double>(six.low & 0xffffffffU))) / 6;
    return calls;
}

Calls by_corefinement(const std::array<Mesh, 3> &meshes, Operation operation, Mesh &made)
{
    std::array<Mesh, 3> own = meshes;
    Mesh first;
    const auto call = [&](Mesh &one, Mesh &other, Mesh &to) {
        return operation == Operation::unite ? PMP::corefine_and_compute_union(one, other, to) : PMP::corefine_and_compute_difference(one, other, to);
    };
    Calls calls;
    calls.first = spent([&] { calls.are_made = call(own[0], own[1], first); });
    calls.second = spent([&] { calls.are_made = call(first, own[2], made) && calls.are_made; });
    return calls;
}

Calls by_nef(const std::array<Nef, 3> &nefs, Operation operation)
{
    Calls calls;
    Nef first, second;
    const auto call = [&](const Nef &one, const Nef &other) { return operation == Operation::unite ? one.join(other) : one.difference(other); };
    calls.first = spent([&] { first = call(nefs[0], nefs[1]); });
    calls.second = spent([&] { second = call(first, nefs[2]); });
    return calls;
}

// ---- the table

/// The least of the runs of one way.
struct Least {
    Calls least;
    int times = 0;
    double all = 0;
    bool is_wanted() const { return times < runs && all < enough; }
    void add(const Calls &calls)
    {
        all += calls.first + calls.second;
        least.first = times == 0 ? calls.first : std::min(least.first, calls.first);
        least.second = times == 0 ? calls.second : std::min(least.second, calls.second);
        least.are_made = calls.are_made;
        times++;
    }
};

/// A way's last least and the faces of it, for the exponent.
using Before = std::map<std::string, std::pair<Calls, std::int64_t>>;

void print(const std::string &way, const Least &found, std::int64_t faces, Before &before)
{
    const auto exponent = [&](double now, double then, std::int64_t of) { return std::log(now / then) / std::log(static_cast<double>(faces) / static_cast<double>(of)); };
    const Calls &least = found.least;
    std::printf("    %-13s %10.5f s %10.5f s  %d runs%s", way.c_str(), least.first, least.second, found.times, least.are_made ? "" : ", not made");
    if (before.count(way) != 0) {
        const auto &[then, of] = before[way];
        std::printf("  exponents %.2f %.2f", exponent(least.first, then.first, of), exponent(least.second, then.second, of));
    }
    std::puts("");
    std::fflush(stdout);
    before[way] = {least, faces};
}

bool is_too_long(const Before &before, const char *way) { return before.count(way) != 0 && before.at(way).first.first + before.at(way).first.second > enough / 10; }

void measure(const Family &family, Operation operation, const std::vector<std::int64_t> &sizes)
{
    Before before;
    for (std::int64_t faces : sizes) {
        Workbench bench;
        const Three three = family.make(bench, faces);
        std::array<Mesh, 3> meshes;
        std::array<Nef, 3> nefs;
        const bool has_nef = !is_too_long(before, "Nef"), has_corefinement = !is_too_long(before, "corefinement");
        for (std::size_t at = 0; at < 3; at++) {
            meshes[at] = mesh_of<Mesh>(bench, three[at]);
            if (has_nef)
                nefs[at] = Nef(meshes[at]);
        }
        std::printf("%s, %s, %lld faces (%u triangles)\n", family.name, operation == Operation::unite ? "union" : "subtract",
                    static_cast<long long>(bench.count(three[0]).faces), meshes[0].number_of_faces());
        Least gwb, corefinement, nef;
        Kernel::FT volume;
        Mesh made;
        for (int run = 0; run < runs; run++) {
            if (gwb.is_wanted())
                gwb.add(by_gwb(family, faces, operation, volume));
            made.clear();
            if (has_corefinement && corefinement.is_wanted())
                corefinement.add(by_corefinement(meshes, operation, made));
            if (has_nef && nef.is_wanted())
                nef.add(by_nef(nefs, operation));
        }
        print("gwb", gwb, faces, before);
        if (has_corefinement)
            print("corefinement", corefinement, faces, before);
        if (has_nef)
            print("Nef", nef, faces, before);
        if (gwb.least.are_made && has_corefinement && made.number_of_faces() != 0 && PMP::volume(made) != volume)
            std::puts("    THE VOLUMES DIFFER");
    }
}

} // namespace

int main(int count, char **words)
{
    constexpr Family families[] = {{"racks", racks}, {"spheres", spheres}, {"askew", askew}};
    std::vector<std::int64_t> sizes;
    for (int at = 2; at < count; at++)
        sizes.push_back(std::atoll(words[at]));
    if (sizes.empty())
        sizes = {100, 1'000, 10'000, 100'000};
    bool is_known = false;
    for (const Family &family : families)
        if (count < 2 || family.name == std::string(words[1])) {
            is_known = true;
            for (Operation operation : {Operation::unite, Operation::subtract})
                measure(family, operation, sizes);
        }
    return is_known ? 0 : 2;
}
