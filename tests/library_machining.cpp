// Tries gwb_features.hpp: random parts beside models of unit cubes, refusals, drafts and marks. The last line counts.
//
//     library_machining [TIMES]     so many random parts: 100 where none is said
#include "checks.h"
#include "gwb_features.hpp"
#include <cmath>
#include <iostream>
#include <map>
#include <set>

using namespace gwb_session;

static bool are_same(Point a, Point b) { return a.x == b.x && a.y == b.y && a.z == b.z; }

// The half-edge of a solid that runs from one point to another.
static HalfEdge half_edge(const Workbench &bench, Solid solid, Point from, Point to)
{
    for (Face face : bench.faces(solid))
        for (HalfEdge half : bench.half_edges_of(face))
            if (are_same(bench.vertex(bench.start_of(half)), from) && are_same(bench.vertex(bench.end_of(half)), to))
                return half;
    return HalfEdge();
}

// ---- random parts beside unit cubes

using Cube = std::array<std::int64_t, 3>;

// A rectangle in a face across an axis: the axes along it, where it begins and ends, and the layers of cubes behind the face (from 1 on) or
// before it (0, -1, ..).
struct Rectangle {
    std::size_t axis;
    bool looks_up;
    std::int64_t level;
    std::array<std::array<std::int64_t, 2>, 2> sides;

    [[nodiscard]] Point corner(std::size_t u, std::size_t v) const { return at(sides[0][u], sides[1][v]); }
    [[nodiscard]] std::vector<Point> outline() const { return {corner(0, 0), corner(1, 0), corner(1, 1), corner(0, 1)}; }
    [[nodiscard]] Point at(std::int64_t u, std::int64_t v) const
    {
        Cube place{};
        place[axis] = level;
        place[(axis + 1) % 3] = u;
        place[(axis + 2) % 3] = v;
        return {place[0], place[1], place[2]};
    }
    [[nodiscard]] std::set<Cube> layers(std::int64_t first, std::int64_t last, std::int64_t margin = 0) const
    {
        std::set<Cube> found;
        for (std::int64_t layer = first; layer <= last; layer++)
            for (std::int64_t u = sides[0][0] - margin; u < sides[0][1] + margin; u++)
                for (std::int64_t v = sides[1][0] - margin; v < sides[1][1] + margin; v++) {
                    Cube cube{};
                    cube[axis] = looks_up ? level - layer : level + layer - 1;
                    cube[(axis + 1) % 3] = u;
                    cube[(axis + 2) % 3] = v;
                    found.insert(cube);
                }
        return found;
    }
};

class Cubes {
public:
    std::map<std::string, int> told;

    explicit Cubes(std::uint32_t seed) : state_(seed)
    {
        for (std::int64_t x = 0; x < sizes[0]; x++)
            for (std::int64_t y = 0; y < sizes[1]; y++)
                for (std::int64_t z = 0; z < sizes[2]; z++)
                    filled_.insert({x, y, z});
    }

    void attempt()
    {
        std::vector<Face> faces;
        for (Face face : bench_.faces(solid_))
            faces.push_back(face);
        const Face face = faces[random(faces.size())];
        const Rectangle rectangle = rectangle_in(face);
        const std::int64_t depth = random(9) == 0 ? 20 : 1 + static_cast<std::int64_t>(random(4));
        const std::string before = bench_.listing();
        const bool is_made = made(face, rectangle, depth);
        check(narrow(bench_.six_volumes(solid_)) == 6 * static_cast<std::int64_t>(filled_.size()), "a random part has the volume of its cubes");
        check(is_made || bench_.listing() == before, "what is refused changes nothing");
    }

private:
    static constexpr std::array<std::int64_t, 3> sizes = {9, 8, 7};

    std::size_t random(std::size_t most) { return ((state_ = state_ * 1664525 + 1013904223) >> 8) % most; }

    Rectangle rectangle_in(Face face)
    {
        const gwb_plane plane = bench_.plane(face);
        const std::array<std::int64_t, 3> normal = {narrow(plane.a), narrow(plane.b), narrow(plane.c)};
        Rectangle found{};
        while (normal[found.axis] == 0)
            found.axis++;
        found.looks_up = normal[found.axis] > 0;
        found.level = -narrow(plane.d) / normal[found.axis];
        for (std::size_t side = 0; side < 2; side++) {
            const auto size = static_cast<std::size_t>(sizes[(found.axis + 1 + side) % 3]);
            const auto start = static_cast<std::int64_t>(random(size + 1)) - 1;
            found.sides[side] = {start, start + 1 + static_cast<std::int64_t>(random(3))};
        }
        return found;
    }

    [[nodiscard]] bool are(const std::set<Cube> &cubes, bool wanted) const
    {
        return std::all_of(cubes.begin(), cubes.end(), [&](const Cube &cube) { return (filled_.count(cube) != 0) == wanted; });
    }
    void put(const std::set<Cube> &cubes, bool wanted, const std::string &what)
    {
        check(are(cubes, !wanted), what + ": its cubes were " + (wanted ? "empty" : "filled"));
        for (const Cube &cube : cubes)
            wanted ? void(filled_.insert(cube)) : void(filled_.erase(cube));
    }

    // Tries a feature, and does the same to the cubes; whether it was made.
    bool made(Face face, const Rectangle &rectangle, std::int64_t depth)
    {
        const bool is_inside = are(rectangle.layers(1, 1, 1), true) && are(rectangle.layers(0, 0, 1), false);
        const std::size_t kind = random(16);
        switch (kind % 13) { // (pockets, bosses and holes twice as often)
        case 5: return made_cut();
        case 6: return made_trim();
        case 7: return made_union();
        case 0: {
            const bool has_room = is_inside && are(rectangle.layers(1, depth + 1, 1), true) && lies_in(face, rectangle);
            const bool is_made = is_as_room("a pocket", static_cast<bool>(pocket(attempt_, face, rectangle.outline(), depth)), has_room);
            if (is_made)
                put(rectangle.layers(1, depth), false, "a pocket");
            return is_made;
        }
        case 1: {
            const bool has_room = is_inside && are(rectangle.layers(-depth, 0, 1), false) && lies_in(face, rectangle);
            const bool is_made = is_as_room("a boss", static_cast<bool>(boss(attempt_, face, rectangle.outline(), depth)), has_room);
            if (is_made)
                put(rectangle.layers(1 - depth, 0), true, "a boss");
            return is_made;
        }
        case 2: return made_hole(face, rectangle);
        case 3: return made_shoulder(face, rectangle, depth);
        default: return made_by_tool(face, rectangle, depth);
        }
    }

    bool is_as_room(const std::string &what, bool is_made, bool has_room)
    {
        check(is_made == has_room, what + " where there is room");
        told[is_made ? "room" : "no room"]++;
        return is_made;
    }

    // ---- tools

    // The cubes behind the unit squares of a face in the plane of a rectangle.
    [[nodiscard]] std::set<Cube> behind(Face face, const Rectangle &plane) const
    {
        const HalfEdge half = *bench_.half_edges_of(face).begin();
        std::set<Cube> found;
        std::vector<Cube> waiting = {behind_left(half, plane)};
        while (!waiting.empty()) {
            const Cube cube = waiting.back();
            waiting.pop_back();
            Cube before = cube;
            before[plane.axis] += plane.looks_up ? 1 : -1;
            if (filled_.count(cube) == 0 || filled_.count(before) != 0 || !found.insert(cube).second)
                continue;
            for (std::size_t way : {1, 2})
                for (std::int64_t step : {-1, 1}) {
                    waiting.push_back(cube);
                    waiting.back()[(plane.axis + way) % 3] += step;
                }
        }
        return found;
    }

    // The cube behind the unit square left of the start of a half-edge.
    [[nodiscard]] Cube behind_left(HalfEdge half, const Rectangle &plane) const
    {
        const Point from = bench_.vertex(bench_.start_of(half)), to = bench_.vertex(bench_.end_of(half));
        const Cube start = {from.x, from.y, from.z}, end = {to.x, to.y, to.z};
        const std::size_t u = (plane.axis + 1) % 3, v = (plane.axis + 2) % 3;
        const std::int64_t turn = plane.looks_up ? 1 : -1;
        const auto way = [&](std::size_t axis) { return (end[axis] > start[axis]) - (end[axis] < start[axis]); };
        Cube found{};
        found[u] = (2 * start[u] + way(u) - turn * way(v) - 1) / 2;
        found[v] = (2 * start[v] + way(v) + turn * way(u) - 1) / 2;
        found[plane.axis] = plane.looks_up ? plane.level - 1 : plane.level;
        return found;
    }

    // Whether cubes touch in an edge or a vertex alone, at a corner of these.
    static bool touch(const std::set<Cube> &cubes, const std::set<Cube> &changed)
    {
        return std::any_of(changed.begin(), changed.end(), [&](const Cube &cube) {
            for (std::size_t corner = 0; corner < 8; corner++) {
                std::size_t filled = 0;
                for (std::size_t at = 0; at < 8; at++) {
                    Cube place = cube;
                    for (std::size_t axis = 0; axis < 3; axis++)
                        place[axis] += static_cast<std::int64_t>(corner >> axis & 1) - static_cast<std::int64_t>(at >> axis & 1);
                    filled |= cubes.count(place) << at;
                }
                if (touch_at(filled))
                    return true;
            }
            return false;
        });
    }

    // The eight places round a point, by bits: those that are filled hang together by faces, those that are empty too, and so it is round each edge.
    static bool touch_at(std::size_t filled)
    {
        const auto alike = [&](std::size_t at, std::size_t other) { return (filled >> at & 1) == (filled >> other & 1); };
        std::set<std::size_t> parts;
        for (std::size_t first = 0; first < 8; first++) {
            std::size_t part = std::size_t{1} << first;
            for (std::size_t step = 0; step < 32; step++) // (no way is longer than four)
                for (std::size_t bit : {1U, 2U, 4U})
                    if ((part >> step % 8 & 1) != 0 && alike(step % 8, step % 8 ^ bit))
                        part |= std::size_t{1} << (step % 8 ^ bit);
            parts.insert(part);
        }
        for (std::size_t at = 0; at < 8; at++)
            for (const auto &[one, other] : {std::pair(1U, 2U), {1U, 4U}, {2U, 4U}})
                if (alike(at, at ^ one ^ other) && !alike(at, at ^ one) && !alike(at, at ^ other))
                    return true;
        return parts.size() > 2;
    }

    // What a tool does is done to the cubes: it is made where it may, and refused for the one cause that there is.
    template <class Made> bool is_as_cubes(const std::string &what, const Result<Made> &made, const std::set<Cube> &tool, bool puts, bool is_outside)
    {
        std::set<Cube> left = filled_;
        for (const Cube &cube : tool)
            puts ? void(left.insert(cube)) : void(left.erase(cube));
        const std::string wanted = is_outside ? "OutlineOutside" : left.empty() ? "NothingLeft" : touch(left, tool) ? "Meets" : "ok";
        const std::string given = made ? "ok" : made.error().name();
        check(given == wanted, what + " is told " + given + ", by cubes " + wanted);
        told[given]++;
        if (made)
            filled_ = left;
        return static_cast<bool>(made);
    }

    // A notch, pad or slot at a corner of a face: over edges, holes and other features.
    bool made_by_tool(Face face, Rectangle rectangle, std::int64_t depth)
    {
        const bool is_slot = random(4) == 0, puts = !is_slot && random(2) == 0;
        std::vector<HalfEdge> halves;
        for (HalfEdge half : bench_.half_edges_of(face))
            halves.push_back(half);
        const Point corner = bench_.vertex(bench_.start_of(halves[random(halves.size())]));
        for (std::size_t at = 0; at < 2; at++) {
            const std::int64_t start = Cube{corner.x, corner.y, corner.z}[(rectangle.axis + 1 + at) % 3] - static_cast<std::int64_t>(random(4));
            rectangle.sides[at] = {start, start + (is_slot && at == 1 ? 2 : 1 + static_cast<std::int64_t>(random(4)))};
        }
        const auto &side = rectangle.sides[1];
        const std::set<Cube> of_face = behind(face, rectangle), lid = rectangle.layers(1, 1);
        const bool is_outside = std::none_of(lid.begin(), lid.end(), [&](const Cube &cube) { return of_face.count(cube) != 0; });
        const std::set<Cube> tool = puts ? rectangle.layers(1 - depth, 0) : rectangle.layers(1, depth);
        if (puts)
            return is_as_cubes("a pad", pad(attempt_, face, rectangle.outline(), depth), tool, true, is_outside);
        if (!is_slot)
            return is_as_cubes("a notch", notch(attempt_, face, rectangle.outline(), depth), tool, false, is_outside);
        const Point start = rectangle.at(rectangle.sides[0][0], side[0] + 1), end = rectangle.at(rectangle.sides[0][1], side[0] + 1);
        return is_as_cubes("a slot", slot(attempt_, face, start, end, 2, depth), tool, false, is_outside);
    }

    bool made_shoulder(Face face, Rectangle rectangle, std::int64_t depth)
    {
        const std::vector<HalfEdge> halves = bench_.half_edges(bench_.face(face).outer_loop);
        const HalfEdge half = halves[random(halves.size())];
        const std::int64_t width = 1 + static_cast<std::int64_t>(random(3));
        const Cube least = behind_left(half, rectangle);
        const Point from = bench_.vertex(bench_.start_of(half)), to = bench_.vertex(bench_.end_of(half));
        const Cube start = {from.x, from.y, from.z}, end = {to.x, to.y, to.z};
        for (std::size_t side : {0, 1}) {
            const std::size_t axis = (rectangle.axis + 1 + side) % 3;
            const bool is_along = start[axis] != end[axis], is_up = least[axis] == start[axis];
            rectangle.sides[side] = is_along ? std::array{std::min(start[axis], end[axis]), std::max(start[axis], end[axis])}
                                    : is_up  ? std::array{start[axis], start[axis] + width}
                                             : std::array{start[axis] - width, start[axis]};
        }
        const std::set<Cube> of_face = behind(face, rectangle), lid = rectangle.layers(1, 1);
        const bool is_outside = !std::includes(of_face.begin(), of_face.end(), lid.begin(), lid.end());
        return is_as_cubes("a shoulder", shoulder(attempt_, face, half.edge(), width, depth), rectangle.layers(1, depth), false, is_outside);
    }

    // Whether the face is the one in its plane that the rectangle lies in.
    [[nodiscard]] bool lies_in(Face face, const Rectangle &rectangle)
    {
        const Draft draft = bench_.draft();
        return static_cast<bool>(ring(attempt_, face, rectangle.outline()));
    }

    bool made_hole(Face face, const Rectangle &rectangle)
    {
        std::int64_t last = 0;
        while (are(rectangle.layers(last + 1, last + 1, 1), true))
            last++;
        const bool has_room = last > 0 && are(rectangle.layers(0, 0, 1), false) && are(rectangle.layers(last + 1, last + 1, 1), false) && lies_in(face, rectangle);
        const bool is_made = is_as_room("a hole", static_cast<bool>(hole(attempt_, face, rectangle.outline())), has_room);
        if (is_made)
            put(rectangle.layers(1, last), false, "a hole");
        return is_made;
    }

    // The cubes on the side of a plane across an axis to which that looks.
    [[nodiscard]] std::set<Cube> above(std::size_t axis, std::int64_t level) const
    {
        std::set<Cube> found;
        std::copy_if(filled_.begin(), filled_.end(), std::inserter(found, found.end()), [&](const Cube &cube) { return cube[axis] >= level; });
        return found;
    }
    static gwb_cut_plane plane_at(std::size_t axis, std::int64_t level) { return {axis == 0, axis == 1, axis == 2, -level}; }

    // Cuts it in two, and makes one of both parts again.
    bool made_cut()
    {
        const std::size_t axis = random(3);
        const auto count = bench_.count(solid_).faces;
        const auto level = static_cast<std::int64_t>(random(static_cast<std::size_t>(sizes[axis] + 1)));
        const std::set<Cube> upper = above(axis, level);
        const Result<Split> parts = cut(attempt_, solid_, plane_at(axis, level));
        check(parts || parts.error().is(Misfit::meets) || parts.error().is(GWB_WHY_PLANE_MISSES), "there is nothing to cut, or a part touches itself");
        if (!parts)
            return false;
        check(narrow(bench_.six_volumes(parts->above)) == 6 * static_cast<std::int64_t>(upper.size()) &&
                  narrow(bench_.six_volumes(solid_)) == 6 * static_cast<std::int64_t>(filled_.size() - upper.size()), "the parts have the volume of their cubes");
        check(static_cast<bool>(unite(attempt_, {solid_, parts->above})), "they are one again");
        check(bench_.count(solid_).faces <= count, "with no more faces: those of one plane beside each other, which a trim may leave, become one");
        return true;
    }

    bool made_trim()
    {
        const std::size_t axis = random(3);
        const Result<std::vector<Face>> caps = trim(attempt_, solid_, plane_at(axis, sizes[axis] - 1));
        if (caps)
            for (const Cube &cube : above(axis, sizes[axis] - 1))
                filled_.erase(cube);
        return static_cast<bool>(caps);
    }

    // Puts a block beside it or into it, and makes one of both.
    bool made_union()
    {
        std::array<std::int64_t, 3> low{}, size{};
        std::set<Cube> cubes;
        for (std::size_t axis = 0; axis < 3; axis++) {
            low[axis] = static_cast<std::int64_t>(random(static_cast<std::size_t>(sizes[axis]) + 2)) - 1;
            size[axis] = 1 + static_cast<std::int64_t>(random(3));
        }
        for (std::int64_t x = low[0]; x < low[0] + size[0]; x++)
            for (std::int64_t y = low[1]; y < low[1] + size[1]; y++)
                for (std::int64_t z = low[2]; z < low[2] + size[2]; z++)
                    cubes.insert({x, y, z});
        const Solid other = bench_.block({low[0], low[1], low[2]}, {size[0], size[1], size[2]});
        const Result<Merger> made = unite(attempt_, {solid_, other});
        check(made || made.error().is(Misfit::meets), "a block is added, wherever it lies, unless both touch in edges or vertices alone");
        if (made)
            filled_.insert(cubes.begin(), cubes.end());
        else
            bench_.undo();
        return static_cast<bool>(made);
    }

    std::uint32_t state_;
    std::set<Cube> filled_;
    Workbench bench_;
    Attempts attempt_ = bench_.attempt();
    Solid solid_ = bench_.block({0, 0, 0}, {sizes[0], sizes[1], sizes[2]});
};

static void try_cubes(std::uint32_t times)
{
    std::map<std::string, int> told;
    for (std::uint32_t seed = 0; seed < times; seed++) {
        Cubes cubes(seed);
        for (int attempt = 0; attempt < 30; attempt++)
            cubes.attempt();
        for (const auto &[name, count] : cubes.told)
            told[name] += count;
    }
    std::cout << "beside unit cubes:";
    for (const auto &[name, count] : told)
        std::cout << ' ' << name << ' ' << count;
    std::cout << '\n';
    for (const std::string name : {"ok", "Meets", "OutlineOutside", "room", "no room"})
        check(times < 50 || told[name] >= 20, "what is told is told often: " + name);
}

// ---- what becomes one, refusals and drafts

// What faces that become one went into: a part that is there, or nothing.
static void try_merged()
{
    Workbench bench;
    const Solid step = profile(bench, {{0, 0, 0}, {8, 0, 0}, {8, 0, 4}, {4, 0, 4}, {4, 0, 8}, {0, 0, 8}}, {0, 8, 0}).solid;
    const Merged merged = unite(bench, {step, cut(bench, step, {0, 0, 1, -4}).above}).merged;
    check(!merged.empty(), "one solid again");
    for (const auto &[face, part] : merged)
        check(bench.face(part).solid == step, "a face that another one went into");
    Workbench beside;
    const Solid low = beside.block({0, 0, 0}, {4, 4, 4});
    const Merged into = unite(beside, {low, beside.block({4, 0, 0}, {4, 4, 4}), beside.block({0, 0, 4}, {8, 4, 4})}).merged;
    check(into.size() == 12 && beside.count(low).faces == 6, "what is left of the faces of three blocks");
    for (const auto &[face, part] : into)
        check(static_cast<bool>(beside.attempt().face(part)), "two tops that became one, of which nothing is left, went into nothing");
}

static void try_refusals()
{
    Workbench bench;
    const Solid block = bench.block({0, 0, 0}, {8, 8, 8});
    const std::vector<Point> square = {{2, 2, 8}, {4, 2, 8}, {4, 4, 8}, {2, 4, 8}};
    try {
        Workbench gone;
        (void)ring(gone, gone.block({0, 0, 0}, {8, 8, 8}).top, {{2, 2, 8}, {4, 2, 8}, {8, 8, 8}});
        check(false, "an outline that touches a corner is refused");
    } catch (const Impossible &why) { // (which has it all, though the workbench is gone)
        const gwb_hit_row &hit = why.hit();
        check(hit.cause == GWB_CAUSE_VERTEX_TOUCHED && hit.kind == GWB_VERTEX && narrow(hit.point[0]) == 8 && narrow(hit.scale) == 1, "where it was");
    }
    check(off_lattice(bench, block, {0, 0, 0, 0}).advice(Solid(2)).empty(), "nothing to say of no plane");
    try {
        (void)pocket(bench, Face(1), square, 8);
        check(false, "a pocket that comes through is refused");
    } catch (const Impossible &why) {
        const std::string text = why.text();
        check(std::string(why.what()) == "pocket: Meets 1" && why.misfit() == Misfit::meets && why.value() == 1 && !text.empty(), "why, and where");
    }
    Attempts none = Workbench().attempt();
    check(pocket(none, Face(1), square, 1).error().problem == Problem::closed, "a pocket in no workbench");
    check(chamfer(none, Edge(1), 1).error().problem == Problem::closed, "a chamfer in none");
}

static void try_drafts()
{
    Workbench bench;
    const Solid block = bench.block({0, 0, 0}, {8, 8, 8});
    const std::string before = bench.listing();
    Draft draft = bench.draft();
    (void)pocket(bench, Face(1), {{2, 2, 8}, {4, 2, 8}, {4, 4, 8}}, 3);
    const std::string pocketed = bench.listing();
    const Mark mark = bench.mark();
    (void)slot(bench, Face(1), {6, 0, 8}, {6, 8, 8}, 2, 1);
    check(narrow(bench.six_volumes(block)) == 6 * (512 - 16) - 36, "a slot in a draft");
    bench.back(mark);
    check(bench.listing() == pocketed, "a mark takes it back");
    Attempts attempt = bench.attempt();
    check(!slot(attempt, Face(1), {9, 0, 8}, {9, 8, 8}, 2, 4), "a slot that isn't possible in a draft");
    check(!hole(attempt, Face(1), {{2, 2, 8}, {4, 2, 8}, {4, 4, 8}}), "nor a hole");
    check(bench.listing() == pocketed, "it leaves the draft as it was");
    draft.commit();
    check(bench.depth() == 2 && bench.listing() == pocketed, "all is one command");
    bench.undo();
    check(bench.listing() == before, "which is undone at once");
}

// Makes a pocket where that is possible, which has to be said as it is of the same model read anew.
static bool makes(Workbench &bench, Face face, std::int64_t x, std::int64_t z, std::int64_t depth)
{
    Workbench anew;
    anew.load(bench.listing());
    Attempts here = bench.attempt(), there = anew.attempt();
    const std::vector<Point> square = {{x, 5, z}, {x + 4, 5, z}, {x + 4, 9, z}, {x, 9, z}};
    const Result<Pocket> made = pocket(here, face, square, depth), expected = pocket(there, face, square, depth);
    const bool are_both = made && expected && made->sides == expected->sides;
    check(are_both || (!made && !expected && made.error().number == expected.error().number), "a pocket as in the model read anew");
    return static_cast<bool>(made);
}

// A drill's polygon is as near to the circle as whole points are, the same seen along each axis, and outside where two are as near.
static void try_drills()
{
    Workbench bench;
    const Block plate = bench.block({0, 0, 0}, {4000, 4000, 9});
    Attempts attempt = bench.attempt();
    for (std::uint32_t sides : {3U, 4U, 7U, 12U, 360U})
        for (std::int64_t radius : {3, 5, 41, 1999}) {
            const Result<Hole> made = drill(attempt, plate.top, {2000, 2000, 9}, radius, sides, 3);
            for (std::size_t place = 0; made && place < sides; place++) {
                const double turn = 6.283185307179586 * static_cast<double>(place) / sides, x = static_cast<double>(made->points[place].x - 2000),
                             y = static_cast<double>(made->points[place].y - 2000), out = static_cast<double>(radius);
                check(std::abs(x - out * std::cos(turn)) < 0.5 + 1e-6 && std::abs(y - out * std::sin(turn)) < 0.5 + 1e-6, "a corner of a drill");
            }
            if (made)
                bench.undo();
        }
    const Hole through = drill(bench, plate.top, {2000, 2000, 9}, 5, 12);
    check(through.other == plate.bottom && through.points[2].x == 2003 && through.points[1].y == 2003, "halves lie farther out");
}

// How far the sides of a polygon around the origin, and its corners, lie from it, and its area: the least, the greatest, and twice the area.
struct Reached {
    double least = 1e300, greatest = 0;
    std::int64_t doubled = 0;

    explicit Reached(const std::vector<std::array<std::int64_t, 2>> &corners)
    {
        for (std::size_t place = 0; place < corners.size(); place++) {
            const auto [x, y] = corners[place];
            const auto [u, v] = corners[(place + 1) % corners.size()];
            doubled += x * v - y * u;
            const auto from = static_cast<double>(x), aside = static_cast<double>(y), way = static_cast<double>(u - x), across = static_cast<double>(v - y);
            const double length = way * way + across * across, share = length == 0 ? 0 : -(from * way + aside * across) / length;
            const double nearest = std::min(std::max(share, 0.0), 1.0);
            least = std::min(least, std::hypot(from + nearest * way, aside + nearest * across));
            greatest = std::max(greatest, std::hypot(from, aside));
        }
    }
};

static bool has_all_mirrored(const std::vector<std::array<std::int64_t, 2>> &corners, bool by_quarters)
{
    const std::set<std::array<std::int64_t, 2>> all(corners.begin(), corners.end());
    return std::all_of(corners.begin(), corners.end(), [&](const auto &at) {
        return all.count({at[0], -at[1]}) == 1 && (!by_quarters || (all.count({-at[1], at[0]}) == 1 && all.count({at[1], at[0]}) == 1));
    });
}

// Corners for circles: the same on both sides of each axis; with flats none of which lies inside the circle; with its area; on multiples of the grain.
static void try_circles()
{
    for (std::int64_t radius = 2; radius <= 40; radius++)
        for (std::uint32_t sides : {4U, 5U, 6U, 8U, 12U, 16U, 24U})
            for (Circle fit : {Circle::corners, Circle::flats, Circle::area}) {
                check(has_all_mirrored(circle(2 * radius, sides, fit), sides % 4 == 0), "a polygon that is the same on both sides");
                check(fit != Circle::flats || Reached(circle(2 * radius, sides, fit)).least >= static_cast<double>(radius), "flats outside the circle");
            }
    for (std::uint32_t sides : {3U, 7U, 24U, 360U}) {
        const Reached corners(circle(10'000, sides)), flats(circle(10'000, sides, Circle::flats)), area(circle(10'000, sides, Circle::area));
        check(std::abs(corners.greatest - 5000) < 0.71 && flats.least >= 5000 && flats.least < 5001.5, "how far out a polygon lies");
        check(std::abs(static_cast<double>(area.doubled) / 2 / (3.14159265358979324 * 5000 * 5000) - 1) < 3e-4, "the area of the circle");
    }
    check(circle(7, 4) == std::vector<std::array<std::int64_t, 2>>{{4, 0}, {0, 4}, {-4, 0}, {0, -4}}, "half a step is rounded outwards");
    check(circle(10, 12)[1] == std::array<std::int64_t, 2>{4, 3} && circle(10, 12).size() == 12, "the corners of a drill");
    for (const auto &[x, y] : circle(1000, 12, Circle::corners, 5))
        check(x % 5 == 0 && y % 5 == 0, "corners on multiples of the grain");
    check(circle(0, 4).empty() && circle(4, 2).empty() && circle(4, 1'000'001).empty() && circle(4, 4, Circle::area, 0).empty(), "what is no circle");
    check(circle(4'000'000'001, 4).empty() && circle(4, 4, static_cast<Circle>(3)).empty(), "what is out of range");
}

// The faces of a solid, or of all, that look a way, that have an area, or that lie in the plane z = 8, as their planes say.
struct Wanted {
    std::vector<Face> looking, large, level;

    Wanted(const Workbench &bench, Solid solid, Point way, std::int64_t area)
    {
        for (Face face : bench.numbers<Face>()) {
            const gwb_plane plane = bench.plane(face);
            const std::int64_t a = narrow(plane.a), b = narrow(plane.b), c = narrow(plane.c);
            const std::int64_t square = a * a + b * b + c * c, along = a * way.x + b * way.y + c * way.z;
            if (solid != Solid() && bench.face(face).solid != solid)
                continue;
            if (along > 0 && along * along == square * (way.x * way.x + way.y * way.y + way.z * way.z))
                looking.push_back(face);
            if (square == 4 * area * area)
                large.push_back(face);
            if (a == 0 && b == 0 && narrow(plane.d) == -8 * c)
                level.push_back(face);
        }
    }
};

static void try_faces_sought(const Workbench &bench)
{
    for (std::optional<Solid> solid : {std::optional<Solid>(), std::optional(Solid(1)), std::optional(Solid(2))})
        for (Point way : {Point{0, 0, 5}, Point{0, -1, 0}, Point{5, 12, 0}, Point{1, 1, 1}})
            for (std::uint64_t area : {9U, 80U, 104U, 96U}) {
                const Wanted wanted(bench, solid.value_or(Solid()), way, static_cast<std::int64_t>(area));
                check(find_faces(bench, {solid, {}, way, {}, {}}) == wanted.looking, "faces by their normal");
                check(find_faces(bench, {solid, {}, {}, {}, Ratio{2 * area, 2}}) == wanted.large, "faces by their area");
                check(find_faces(bench, {solid, CutPlane{0, 0, -3, 24}, {}, {}, {}}) == wanted.level, "faces in a plane");
            }
    const auto at = [&](Point place) { return find_faces(bench, {{}, {}, {}, place, {}}); };
    check(at({3, 3, 8}).empty() && at({3, 3, 5}).size() == 1 && at({1, 1, 8}).size() == 1, "a pocket holds its floor's points alone");
    check(at({2, 3, 8}).size() == 2 && at({0, 0, 0}).size() == 3 && at({0, 0, 2'000'000'000}).empty(), "points on edges are of the faces beside");
}

static void try_edges_sought(const Workbench &bench)
{
    for (Face face : bench.numbers<Face>())
        for (Face beside : bench.numbers<Face>()) {
            std::vector<Edge> wanted;
            for (Edge edge : bench.numbers<Edge>()) {
                const auto [one, two] = bench.faces_of(edge);
                if ((one == face && two == beside) || (one == beside && two == face))
                    wanted.push_back(edge);
            }
            check(find_edges(bench, {{}, {{face, beside}}, {}, {}}) == wanted, "the edges between two faces");
        }
    check(find_edges(bench, {Solid(1), {}, Point{0, 0, -1}, {}}).size() == 8 && find_edges(bench, {{}, {}, {}, Ratio{13, 1}}).size() == 4,
          "edges along, and so long");
    check(find_edges(bench, {{}, {}, {}, Ratio{1, 2}}).empty() && find_edges(bench, {{}, {}, Point{1, 2, 3}, {}}).empty(), "no edges");
}

// Faces and edges by where they lie, beside what readers say of each.
static void try_queries()
{
    Workbench bench;
    const Profile wedge = profile(bench, {{0, 0, 0}, {12, 0, 0}, {12, 5, 0}, {0, 10, 0}}, {0, 0, 8});
    (void)pocket(bench, wedge.far, {{2, 2, 8}, {5, 2, 8}, {5, 5, 8}, {2, 5, 8}}, 3);
    (void)copy_solid(bench, wedge.solid, Motion::move({40, 0, 0}));
    try_faces_sought(bench);
    try_edges_sought(bench);
    const Attempts attempt = bench.attempt();
    check(find_faces(attempt, {Solid(), {}, {}, {}, {}}).error().is(GWB_WHY_NO_SOLID) && find_edges(attempt, {Solid(), {}, {}, {}}).error().is(GWB_WHY_NO_SOLID),
          "a solid that nothing was given");
    check(find_edges(attempt, {{}, {{Face(), Face()}}, {}, {}}).error().problem == Problem::no_call, "faces that nothing was given");
}

// What else changes a model than features of outlines is not missed by the next one.
static void try_what_is_known()
{
    Workbench bench;
    const Profile plate = profile(bench, {{0, 0, 0}, {40, 0, 0}, {40, 20, 0}, {0, 20, 0}}, {0, 0, 10});
    const auto sinks = [&](std::int64_t x, std::int64_t depth) { return makes(bench, plate.far, x, 10, depth); };
    check(sinks(2, 4) && !sinks(3, 1) && !makes(bench, plate.base, 3, 0, 6), "a pocket where one was made");
    bench.undo();
    check(sinks(3, 1), "an undo");
    bench.undo();
    check(sinks(4, 4), "another one");
    bench.undo();
    bench.redo();
    check(!sinks(2, 1), "a redo");
    {
        const Draft draft = bench.draft();
        const Mark mark = bench.mark();
        check(sinks(10, 2) && !sinks(11, 2), "a draft");
        bench.back(mark);
        check(sinks(11, 2) && !sinks(10, 2), "a mark");
    }
    check(sinks(10, 2), "a draft that is given up");
    const Pocket low = pocket(bench, plate.far, {{20, 5, 10}, {24, 5, 10}, {24, 9, 10}, {20, 9, 10}}, 2);
    (void)bench.run("sweep " + std::to_string(low.face.number()) + " 0 0 -4");
    check(!makes(bench, plate.base, 19, 0, 5) && makes(bench, plate.base, 19, 0, 3), "a line");
    (void)slot(bench, plate.far, {30, 0, 10}, {30, 6, 10}, 4, 2);
    check(!sinks(29, 1) && sinks(33, 1), "another feature");
    move_solid(bench, plate.solid, Motion::move({-8, 0, 0}));
    check(!sinks(27, 1) && sinks(7, 1), "a solid that was moved");
    gwb *handle = bench.handle();
    check(makes(bench, plate.base, 17, 0, 1), "a handle that was lent");
    (void)gwb_undo(handle);
    check(makes(bench, plate.base, 18, 0, 1) && !makes(bench, plate.base, 17, 0, 1), "and is used later on");
}

// Among many pockets, features up to the edges of a face take few steps, and leave what is known of the solid right.
static void try_among_pockets()
{
    Workbench bench;
    const Block block = bench.block({0, 0, 0}, {200, 100, 20});
    for (std::int64_t x = 10; x < 200; x += 20)
        for (std::int64_t y = 4; y < 100; y += 20)
            (void)pocket(bench, block.top, {{x, y, 20}, {x + 8, y, 20}, {x + 8, y + 8, 20}, {x, y + 8, 20}}, 4);
    const auto edge = [&](Point from, Point to) { return half_edge(bench, block.solid, from, to).edge(); };
    std::int64_t free = 10;
    const auto takes = [&](const std::string &name, std::size_t most, auto &&make) {
        const std::size_t before = gwb_mark(bench.handle());
        make();
        const std::size_t steps = gwb_mark(bench.handle()) - before;
        check(steps <= most, name + " among pockets takes " + std::to_string(steps) + " steps");
        check(!makes(bench, block.top, 31, 20, 1) && makes(bench, block.bottom, free += 5, 0, 1), name + ": what is known");
    };
    Draft draft = bench.draft();
    takes("a notch", 50, [&] { (void)notch(bench, block.top, {{40, 0, 20}, {44, 0, 20}, {44, 4, 20}, {40, 4, 20}}, 4); });
    takes("a notch within", 50, [&] { (void)notch(bench, block.top, {{5, 16, 20}, {8, 16, 20}, {8, 20, 20}}, 4); });
    takes("a shoulder", 50, [&] { (void)shoulder(bench, block.top, edge({200, 0, 20}, {200, 100, 20}), 1, 3); });
    takes("a chamfer", 50, [&] { (void)chamfer(bench, edge({0, 0, 20}, {0, 100, 20}), 2); });
    const auto rings = bench.count(block.solid).rings;
    takes("a slot, and to move 25 rings,", 75, [&] { (void)slot(bench, block.top, {104, 0, 20}, {104, 100, 20}, 4, 12); });
    check(bench.count(block.solid).rings == rings + 1, "rings of a face that is cut into parts move");
    takes("a groove", 50, [&] { (void)groove(bench, block.top, {2, 58, 20}, {102, 58, 20}, 4, 3); });
    takes("a notch into a pocket", 60, [&] { (void)notch(bench, block.top, {{52, 0, 20}, {54, 0, 20}, {54, 4, 20}, {52, 4, 20}}, 3); });
    draft.commit();
    bench.undo();
    check(bench.count(block.solid).rings == 50, "all of it is one command");
}

// As far out as points lie: what doesn't fit would be seen by sanitizers.
static void try_far()
{
    constexpr std::int64_t far = 1'000'000'000;
    Workbench bench;
    Attempts attempt = bench.attempt();
    const Solid block = bench.block({-far, -far, -far}, {2 * far, 2 * far, 2 * far});
    (void)pocket(bench, Face(1), {{1 - far, 1 - far, far}, {far - 7, 9 - far, far}, {5 - far, far - 1, far}}, 2 * far - 2);
    const std::vector<Point> beside = {{far - 1, far - 1, far}, {far - 1, far - 2, far}, {far - 2, far - 1, far}};
    check(pocket(attempt, Face(1), beside, 2 * far).error().is(Misfit::meets), "a pocket that comes through far out");
    (void)hole(bench, Face(1), beside);
    (void)slot(bench, Face(2), {-far, 0, -far}, {far, 0, -far}, 2, 1);
    (void)chamfer(bench, half_edge(bench, block, {far, -far, -far}, {far, -far, far}).edge(), far - 2, 5);
    const OffLattice said = off_lattice(bench, block, {999'999'937, -999'999'929, 5, 1'000'003});
    check(!said.fits() && (said.factor().high != 0 || said.factor().low != 1), "a factor that doesn't fit");
    const Solid slope = profile(bench, {{-far, 0, 0}, {far, 1 - far, 0}, {far, far, 0}}, {0, -1, far}).solid;
    for (Face face : bench.faces(slope))
        (void)notch(attempt, face, {{-far, -1, far}, {far, far - 1, far}, {0, -1, far}}, 1);
    check(bench.depth() >= 6, "features far out");
}

int main(int count, char **words)
{
    const std::uint32_t times = count > 1 ? static_cast<std::uint32_t>(std::stoul(words[1])) : 100;
    try {
        try_cubes(times);
        try_merged();
        try_refusals();
        try_drafts();
        try_drills();
        try_circles();
        try_queries();
        try_what_is_known();
        try_among_pockets();
        try_far();
    } catch (const std::exception &error) {
        std::cout << error.what() << '\n';
        failed++;
    }
    return counted();
}
