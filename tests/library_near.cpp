// Tries features on faces with hundreds of corners: whatever lies far, each gives what it gives in a part that has the same corners near and no others, and what
// it gives in a session that knows nothing of the part. Undone, redone, in drafts. The last line counts; those before it what was tried.
//
//     library_near [TIMES]     so many features: 600 where none is said
#include "checks.h"
#include "gwb_features.hpp"
#include <algorithm>
#include <iostream>
#include <map>
#include <random>
#include <string>

using namespace gwb_session;

static std::map<std::string, int> outcomes;

// Six times the volume, the vertices, edges, faces and rings of a solid.
using Measures = std::array<std::int64_t, 5>;

static Measures measures_of(const Workbench &bench, Solid solid)
{
    const gwb_counts count = bench.count(solid);
    return {narrow(bench.six_volumes(solid)), count.vertices, count.edges, count.faces, count.rings};
}

static Measures less(const Measures &one, const Measures &other)
{
    Measures found{};
    for (std::size_t at = 0; at < found.size(); at++)
        found[at] = one[at] - other[at];
    return found;
}

// ---- parts

// A part is made of places in a row, each 30 long with three teeth; features of a place lie at least 1 within it.
static const std::int64_t length = 30, teeth = 3, width = 24, height = 12;

// A plate whose far side has teeth, which covers places from one to before another.
static Solid plate(Workbench &bench, std::int64_t from, std::int64_t to)
{
    std::vector<Point> points = {{length * from, 0, 0}, {length * to, 0, 0}};
    for (std::int64_t tooth = teeth * to - 1; tooth >= teeth * from; tooth--)
        for (const auto &[x, y] : {std::pair(8, width), std::pair(8, width - 5), std::pair(3, width - 5), std::pair(3, width)}) {
            if (tooth == teeth * to - 1 && x == 8 && y == width)
                points.push_back({10 * tooth + 10, width, 0});
            points.push_back({10 * tooth + x, y, 0});
        }
    points.push_back({length * from, width, 0});
    return profile(bench, points, {0, 0, height}).solid;
}

// A feature of a place: which one, on which side of the plate, and its sizes.
struct Feature {
    int which, side;
    std::int64_t place, x, y, wide, high, depth;
    Point at;
};

static const char *const names[] = {"notch", "pocket", "boss", "hole", "slot", "groove", "ring", "subtract", "union", "chamfer", "shoulder"};

// A point of a side of the plate: on top, below, or in front.
static Point on_side(const Feature &feature, std::int64_t x, std::int64_t y)
{
    x += length * feature.place;
    return feature.side == 0 ? Point{x, y, height} : feature.side == 1 ? Point{x, y, 0} : Point{x, 0, y};
}

static Feature random_feature(std::mt19937 &random, std::int64_t places)
{
    const auto roll = [&](std::int64_t from, std::int64_t to) { return from + static_cast<std::int64_t>(random() % static_cast<std::uint32_t>(to - from + 1)); };
    Feature found{};
    found.which = static_cast<int>(std::max<std::int64_t>(roll(-3, 10), 0));
    found.side = static_cast<int>(roll(0, 2));
    found.place = roll(0, 3) == 0 ? (places - 1) * roll(0, 1) : roll(0, places - 1);
    const std::int64_t far = found.side == 2 ? height : width;
    found.x = roll(1, length - 6), found.wide = roll(1, 5), found.high = roll(1, 6);
    const std::int64_t low[] = {0, far - found.high, roll(-1, far - 1)};
    found.y = low[roll(0, 2)];
    found.depth = roll(1, 5);
    found.at = {length * found.place + found.x, roll(-2, width - 1), roll(-2, height - 1)};
    return found;
}

// The face of a side at a place, and the edge of a place from a point of it on.
static Face face_of(const Workbench &bench, Solid solid, const Feature &feature)
{
    FaceQuery query;
    query.solid = solid;
    query.normal = feature.side == 0 ? Point{0, 0, 1} : feature.side == 1 ? Point{0, 0, -1} : Point{0, -1, 0};
    query.containing = on_side(feature, feature.x, feature.y);
    const std::vector<Face> found = find_faces(bench, query);
    return found.empty() ? Face() : found.front();
}

static Edge edge_of(const Workbench &bench, Face face, const Feature &feature)
{
    const auto is_within = [&](Vertex vertex) {
        const std::int64_t x = bench.vertex(vertex).x - length * feature.place;
        return x >= 1 && x <= length - 1;
    };
    std::vector<Edge> found;
    for (HalfEdge half : bench.half_edges(bench.face(face).outer_loop))
        if (is_within(bench.start_of(half)) && is_within(bench.end_of(half)))
            found.push_back(half.edge());
    std::sort(found.begin(), found.end(), [&](Edge one, Edge other) { // by their places, since numbers aren't those of another part
        const auto key = [&](Edge edge) {
            const auto [from, to] = bench.edge(edge);
            const Point a = bench.vertex(from), b = bench.vertex(to);
            return std::array{a.x + b.x, a.y + b.y, a.z + b.z};
        };
        return key(one) < key(other);
    });
    return found.empty() ? Edge() : found[static_cast<std::size_t>(feature.x) % found.size()];
}

// What comes of a feature: the name of what it is refused for, or nothing.
static std::string made(Workbench &bench, Solid solid, const Feature &feature)
{
    auto attempt = bench.attempt();
    const auto told = [](const auto &result) { return result ? std::string() : std::string("refused ") + result.error().name(); };
    const auto point = [&](std::int64_t x, std::int64_t y) { return on_side(feature, x, y); };
    const std::int64_t right = feature.x + feature.wide, up = feature.y + feature.high;
    const std::vector<Point> outline = {point(feature.x, feature.y), point(right, feature.y), point(right, up), point(feature.x, up)};
    const std::vector<Point> pair = {point(feature.x + 2, feature.y), point(feature.x + 2, up)};
    const Face face = face_of(bench, solid, feature);
    if (feature.which == 7 || feature.which == 8) {
        const Solid other = bench.block(feature.at, {feature.wide, feature.high + 2, feature.depth + 2});
        const std::string why = feature.which == 7 ? told(subtract(attempt, solid, std::vector<Solid>{other})) : told(unite(attempt, std::vector<Solid>{solid, other}));
        if (!why.empty())
            bench.undo();
        return why;
    }
    if (face == Face())
        return "nothing there";
    switch (feature.which) {
    case 0: return told(notch(attempt, face, outline, feature.depth));
    case 1: return told(pocket(attempt, face, outline, feature.depth));
    case 2: return told(boss(attempt, face, outline, feature.depth));
    case 3: return told(hole(attempt, face, outline));
    case 4: return told(slot(attempt, face, pair[0], pair[1], 2, feature.depth));
    case 5: return told(groove(attempt, face, pair[0], pair[1], 2, feature.depth));
    case 6: return told(ring(attempt, face, outline));
    default: break;
    }
    const Edge edge = edge_of(bench, face, feature);
    if (edge == Edge())
        return "nothing there";
    return feature.which == 9 ? told(chamfer(attempt, edge, 1)) : told(shoulder(attempt, face, edge, 1, feature.depth));
}

// ---- what is compared

// A long part, and a short one for each place, with the place on each side of it as it was at first.
class Plates {
public:
    explicit Plates(std::int64_t places) : long_solid_(plate(long_, 0, places)), shorts_(static_cast<std::size_t>(places))
    {
        for (std::int64_t place = 0; place < places; place++)
            plate(shorts_[static_cast<std::size_t>(place)], std::max<std::int64_t>(place - 1, 0), std::min(place + 2, places));
    }

    void try_one(const Feature &feature)
    {
        const std::string before = long_.listing(), what = std::string(names[feature.which]) + " at place " + std::to_string(feature.place);
        const Measures was = measures_of(long_, long_solid_);
        const std::string why = made(long_, long_solid_, feature), after = long_.listing();
        outcomes[std::string(names[feature.which]) + (why.empty() ? " made" : " refused")]++;
        check(why.empty() || before == after, what + ": " + why);
        compare_with_short(feature, why, less(measures_of(long_, long_solid_), was), what);
        compare_with_new(feature, why, before, after, what);
        if (why.empty())
            undo_and_redo(before, after, what);
    }

    // A draft that is abandoned, in which something is made: after it all is as before.
    void try_abandoned(const Feature &feature)
    {
        const std::string before = long_.listing();
        {
            const auto draft = long_.draft();
            const std::string why = made(long_, long_solid_, feature);
            outcomes[why.empty() ? "abandoned" : "abandoned, refused"]++;
        }
        check(long_.listing() == before, "an abandoned draft");
    }

private:
    void compare_with_short(const Feature &feature, const std::string &why, const Measures &change, const std::string &what)
    {
        Workbench &bench = shorts_[static_cast<std::size_t>(feature.place)];
        const Solid solid = bench.greatest<Solid>();
        const Measures was = measures_of(bench, solid);
        const std::string other = made(bench, solid, feature);
        check(other == why && less(measures_of(bench, solid), was) == change, what + " of a short part: " + why + ", " + other);
    }
    void compare_with_new(const Feature &feature, const std::string &why, const std::string &before, const std::string &after, const std::string &what)
    {
        Workbench bench;
        bench.load(before);
        check(made(bench, long_solid_, feature) == why && bench.listing() == after, what + " in a new session");
    }
    void undo_and_redo(const std::string &before, const std::string &after, const std::string &what)
    {
        int steps = 0; // of what takes another solid two
        for (; steps < 2 && long_.listing() != before; steps++)
            long_.undo();
        check(long_.listing() == before, what + ", undone");
        for (; steps > 0; steps--)
            long_.redo();
        check(long_.listing() == after, what + ", redone");
    }

    Workbench long_;
    Solid long_solid_;
    std::vector<Workbench> shorts_;
};

// ---- what goes all along

// A tool that takes all teeth away, a step along the whole front, and a slot through all: what is far of one end is near the other.
static void try_all_along()
{
    const std::int64_t places = 20, all = length * places;
    Workbench bench;
    const Solid solid = plate(bench, 0, places);
    Feature front{};
    front.side = 2;
    const Face face = face_of(bench, solid, front);
    slot(bench, face, {0, 0, 6}, {all, 0, 6}, 2, 3);
    subtract(bench, solid, {bench.block({-1, width - 5, -1}, {all + 2, 6, height + 2})});
    const Measures expected = {6 * (all * (width - 5) * height - all * 2 * 3), 16, 24, 10, 0};
    check(measures_of(bench, solid) == expected, "a slot along all, and no teeth");
}

int main(int argc, char **argv)
{
    const int times = argc > 1 ? std::stoi(argv[1]) : 600;
    std::mt19937 random(7);
    const std::int64_t places = 12;
    for (int done = 0; done < times;) {
        Plates plates(places);
        for (int at = 0; at < 60 && done < times; at++, done++) {
            plates.try_one(random_feature(random, places));
            if (at % 10 == 0)
                plates.try_abandoned(random_feature(random, places));
        }
    }
    try_all_along();
    for (const auto &[name, count] : outcomes)
        std::cout << name << ": " << count << '\n';
    if (argc <= 1)
        for (const char *name : names)
            check(outcomes[std::string(name) + " made"] >= 5, std::string(name) + " is made too seldom");
    return counted();
}
