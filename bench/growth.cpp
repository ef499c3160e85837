// How what features cost grows with what a solid has: processor seconds of n features one after another, or of one over n solids.
//
//     growth [ROW [N..]]     all rows, at 125, 250, 500 and 1000, where none are said
//
// The exponent is that from one n to the next: 1 where a feature costs as much whatever else there is.
#include "gwb_features.hpp"
#include <cmath>
#include <cstdio>
#include <cstdlib>
#include <ctime>

using namespace gwb_session;

namespace {

double seconds()
{
    timespec now{};
    clock_gettime(CLOCK_PROCESS_CPUTIME_ID, &now);
    return static_cast<double>(now.tv_sec) + static_cast<double>(now.tv_nsec) * 1e-9;
}

Solid block(Workbench &bench, Point corner, Point size)
{
    const Solid solid = bench.next_free<Solid>();
    bench.block(solid, corner, size);
    return solid;
}

/// The corners of a rectangle at one height.
std::vector<Point> rectangle(Point low, Point high) { return {low, {high.x, low.y, low.z}, high, {low.x, high.y, low.z}}; }

/// The top of a plate with n places in a row, each 10 long.
Face plate(Workbench &bench, std::int64_t n)
{
    FaceQuery query;
    query.solid = block(bench, {0, 0, 0}, {10 * n, 10, 10});
    query.normal = Point{0, 0, 1};
    return find_faces(bench, query).front();
}

void notches(Workbench &bench, std::int64_t n)
{
    const Face top = plate(bench, n);
    for (std::int64_t at = 0; at < n; at++)
        notch(bench, top, rectangle({10 * at + 3, 0, 10}, {10 * at + 6, 4, 10}), 5);
}

/// The greater part of the top keeps its number: the one that is left for the others.
void slots(Workbench &bench, std::int64_t n)
{
    const Face top = plate(bench, n);
    for (std::int64_t at = 0; at < n; at++)
        slot(bench, top, {10 * at + 5, 0, 10}, {10 * at + 5, 10, 10}, 4, 5);
}

/// In a face whose outline has notches all along.
void pockets(Workbench &bench, std::int64_t n)
{
    const Face top = plate(bench, n);
    for (std::int64_t at = 0; at < n; at++) {
        notch(bench, top, rectangle({10 * at + 3, 0, 10}, {10 * at + 6, 4, 10}), 5);
        pocket(bench, top, rectangle({10 * at + 3, 6, 10}, {10 * at + 6, 8, 10}), 5);
    }
}

/// Each second block is higher, so that the sides have corners.
std::vector<Solid> row_of_blocks(Workbench &bench, std::int64_t n, std::int64_t step)
{
    std::vector<Solid> row;
    for (std::int64_t at = 0; at < n; at++)
        row.push_back(block(bench, {10 * at, 0, 0}, {10, 10, 10 + step * (at % 2)}));
    return row;
}

void unite_row(Workbench &bench, std::int64_t n) { unite(bench, row_of_blocks(bench, n, 2)); }
void glue_row(Workbench &bench, std::int64_t n) { glue_all(bench, row_of_blocks(bench, n, 0)); }

/// The slopes of each so many edges of the far face of a comb with n teeth, made at once.
void slopes(Workbench &bench, std::int64_t n, std::size_t each)
{
    std::vector<Point> outline;
    for (std::int64_t at = 20 * n; at > 0; at -= 20)
        outline.insert(outline.end(), {{at, 30, 0}, {at - 10, 30, 0}, {at - 10, 10, 0}, {at - 20, 10, 0}});
    outline.insert(outline.end(), {{0, 0, 0}, {20 * n, 0, 0}});
    const Profile comb = profile(bench, outline, {0, 0, 50});
    std::vector<Edge> edges;
    for (std::size_t at = 0; at < outline.size(); at += each) {
        EdgeQuery query;
        query.between = {comb.far, comb.sides[at]};
        edges.push_back(find_edges(bench, query).front());
    }
    chamfer_edges(bench, edges, 2);
}

void chamfer_teeth(Workbench &bench, std::int64_t n) { slopes(bench, n, 4); }

/// Each slope meets those beside it; as many edges in all as there are teeth in the row above.
void chamfer_rim(Workbench &bench, std::int64_t n) { slopes(bench, n / 4, 1); }

struct Row {
    const char *name;
    void (*make)(Workbench &bench, std::int64_t n);
};
constexpr Row rows[] = {{"notches", notches}, {"slots", slots},    {"pockets", pockets},     {"union", unite_row},
                        {"glue_all", glue_row}, {"teeth", chamfer_teeth}, {"rim", chamfer_rim}};

void measure(const Row &row, const std::vector<std::int64_t> &sizes)
{
    double before = 0;
    std::int64_t last = 0;
    for (std::int64_t n : sizes) {
        Workbench bench;
        const double begun = seconds();
        row.make(bench, n);
        const double took = seconds() - begun;
        std::printf("%-10s %7lld %9.3f s", row.name, static_cast<long long>(n), took);
        if (before > 0)
            std::printf("   exponent %.2f", std::log(took / before) / std::log(static_cast<double>(n) / static_cast<double>(last)));
        std::puts("");
        before = took, last = n;
    }
}

} // namespace

int main(int count, char **words)
{
    std::vector<std::int64_t> sizes;
    for (int at = 2; at < count; at++)
        sizes.push_back(std::atoll(words[at]));
    if (sizes.empty())
        sizes = {125, 250, 500, 1000};
    bool is_known = false;
    for (const Row &row : rows)
        if (count < 2 || row.name == std::string(words[1])) {
            is_known = true;
            measure(row, sizes);
        }
    return is_known ? 0 : 2;
}
