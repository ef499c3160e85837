#include "models.hpp"
#include "surroundings.hpp"

namespace gwb_session::models {

namespace {

using namespace machining;

// ---- polyhedra

/// Sides of faces, each from one place among points to another, with its half-edge and the place of its face.
using Sides = std::map<std::pair<std::uint32_t, std::uint32_t>, std::pair<std::uint32_t, std::size_t>>;

/// What was met where a side runs the same way in two faces.
gwb_hit_row met_twice(std::size_t one, std::size_t other)
{
    return one != other ? machining::met_place(GWB_CAUSE_SIDE_TWICE, place(one)) : gwb_hit_row{};
}

/// Puts in the half-edges of a face, from one corner to the next: each edge has two sides, one each way. Not possible: NotClosed.
void put_sides(Items<std::uint32_t> corners, std::uint32_t first, FreeNumbers<Edge> &edges, Sides &sides, Rows &rows)
{
    const std::size_t face = rows.faces.size();
    for (std::size_t at = 0; at < corners.size(); at++) {
        const std::uint32_t from = corners.data()[at], to = corners.data()[(at + 1) % corners.size()];
        const auto mate = sides.find({to, from});
        if (mate == sides.end())
            rows.edges.push_back({edges.spare().number(), first + from, first + to});
        rows.cycles.push_back(mate != sides.end() ? mate->second.first ^ 1U : 2 * rows.edges.back().number);
        const auto [side, is_new] = sides.emplace(std::pair(from, to), std::pair(rows.cycles.back(), face));
        if (from == to || !is_new)
            throw impossible(Misfit::not_closed, place(face), met_twice(side->second.second, face));
    }
}

/// Where a motion takes a point.
Vector image(const Vector &at, const Motion &motion)
{
    const auto &[axes, by] = motion.row();
    const auto part = [&](std::int32_t axis) { return axis < 0 ? -at[static_cast<std::size_t>(-axis - 1)] : at[static_cast<std::size_t>(axis - 1)]; };
    return add({part(axes[0]), part(axes[1]), part(axes[2])}, vector(by));
}

// ---- numbers

/// The numbers that solids get, by the places of their rows.
using Numbers = std::array<std::vector<std::uint32_t>, GWB_VERTEX + 1>;

/// Writes down which numbers became which.
template <class Row> void tell(const std::vector<Row> &rows, const std::vector<std::uint32_t> &made, std::vector<std::uint32_t> &list)
{
    for (std::size_t at = 0; at < rows.size(); at++)
        list.insert(list.end(), {number_of(rows[at]), made[at]});
}
void tell_all(const Rows &rows, const Numbers &made, Lists &lists)
{
    tell(rows.faces, made[GWB_FACE], lists[GWB_MADE_FACES]), tell(rows.loops, made[GWB_LOOP], lists[GWB_MADE_LOOPS]);
    tell(rows.edges, made[GWB_EDGE], lists[GWB_MADE_EDGES]), tell(rows.vertices, made[GWB_VERTEX], lists[GWB_MADE_VERTICES]);
}

/// Rows get their numbers, by which they rise then.
template <class Row> void number(std::vector<Row> &rows, const std::vector<std::uint32_t> &made, std::uint32_t Row::*number)
{
    for (std::size_t at = 0; at < rows.size(); at++)
        rows[at].*number = made[at];
    rows::sort(rows);
}

/// The solids with other numbers. Each edge runs as it did.
Rows numbered(const Rows &rows, const Numbers &made)
{
    const auto of = [](const auto &kind, const auto &numbers) { return [&](std::uint32_t &old) { old = numbers[place_of(kind, old)]; }; };
    const auto solid = of(rows.solids, made[GWB_SOLID]);
    const auto loop = of(rows.loops, made[GWB_LOOP]);
    const auto vertex = of(rows.vertices, made[GWB_VERTEX]);
    const auto each = [](auto &items, auto change) { std::for_each(items.begin(), items.end(), change); };
    Rows found = rows;
    each(found.solids, solid), each(found.owned, loop);
    each(found.faces, [&](rows::FaceRow &row) { solid(row.solid); });
    each(found.loops, [&](rows::LoopRow &row) { row.count == 0 ? vertex(row.lone) : void(); });
    each(found.cycles, [&](std::uint32_t &half) { half = 2 * made[GWB_EDGE][place_of(rows.edges, half / 2)] + half % 2; });
    each(found.edges, [&](rows::EdgeRow &row) { vertex(row.from), vertex(row.to); });
    number(found.faces, made[GWB_FACE], &rows::FaceRow::number), number(found.loops, made[GWB_LOOP], &rows::LoopRow::number);
    number(found.edges, made[GWB_EDGE], &rows::EdgeRow::number), number(found.vertices, made[GWB_VERTEX], &gwb_vertex_row::vertex);
    return found;
}

} // namespace

gwb_polyhedron_made make_polyhedron(Bench &bench, Solid solid, Items<Point> points, const std::uint32_t *corners, Items<std::uint32_t> sizes)
{
    AllNames names(bench);
    Rows rows;
    rows.solids = {solid.number()};
    for (const Point &at : points) {
        require(is_in_range(vector(at)), refused(GWB_WHY_POINT_RANGE, place(rows.vertices.size())));
        rows.vertices.push_back({names.vertices.spare().number(), at});
    }
    const std::uint32_t first = rows.vertices[0].vertex; // which the others follow one by one
    Sides sides;
    for (std::uint32_t size : sizes) {
        go_on();
        require(size >= 3, refused(GWB_WHY_FEW_POINTS, size));
        rows.loops.push_back({names.loops.spare().number(), 0, rows.cycles.size(), size});
        put_sides({std::exchange(corners, corners + size), size}, first, names.edges, sides, rows);
        rows.faces.push_back({names.faces.spare().number(), solid.number(), rows.owned.size(), 1});
        rows.owned.push_back(rows.loops.back().number);
    }
    for (const auto &[ends, side] : sides)
        require(sides.count({ends.second, ends.first}) != 0, impossible(Misfit::not_closed, place(side.second), met(GWB_CAUSE_SIDE_OPEN)));
    names.require_enough();
    rows::make(bench, rows);
    return {first, rows.faces[0].number};
}

bool is_motion(const gwb_motion &motion)
{
    const auto has_image = [&](std::int32_t axis) { return any(motion.axes, [&](std::int32_t to) { return to == axis || to == -axis; }); };
    return has_image(1) && has_image(2) && has_image(3);
}

Rows moved(Rows rows, const Motion &motion, const Vector &by, std::int64_t factor)
{
    for (gwb_vertex_row &row : rows.vertices) {
        const Vector at = add(image(times(vector(row.point), factor), motion), by);
        require(is_in_range(at), refused(GWB_WHY_POINT_RANGE, row.vertex));
        row.point = point(at);
    }
    if (!motion.is_mirror())
        return rows;
    for (const rows::LoopRow &loop : rows.loops) {
        const auto first = rows.cycles.begin() + static_cast<std::ptrdiff_t>(loop.first), end = first + static_cast<std::ptrdiff_t>(loop.count);
        std::reverse(first, end);
        std::for_each(first, end, [](std::uint32_t &half) { half ^= 1U; });
    }
    return rows;
}

Rows turned(const Rows &rows, std::uint32_t axis, std::uint32_t quarters, const gwb_point &about)
{
    const Motion turn = Motion::quarter_turns(axis, quarters);
    return moved(rows, turn, subtract(vector(about), image(vector(about), turn)));
}

Solid copy(Bench &bench, const Rows &rows, Lists &lists)
{
    AllNames names(bench);
    const Solid solid = names.solids.take();
    const auto taken = [](const auto &rows, auto &free) { return mapped(rows, [&](const auto &) { return free.take().number(); }); };
    const Numbers made = {std::vector{solid.number()}, taken(rows.faces, names.faces), taken(rows.loops, names.loops), taken(rows.edges, names.edges),
                          taken(rows.vertices, names.vertices)};
    names.require_enough();
    try {
        rows::make(bench, numbered(rows, made));
    } catch (const Failure &failure) {
        if (failure.is(GWB_WHY_NUMBERS_SPENT)) { // what comes on the way and goes again has none
            (void)names.faces.take(), (void)names.loops.take(), (void)names.edges.take();
            names.require_enough();
            throw refused(GWB_WHY_NUMBERS_SPENT, GWB_FACE + 1U);
        }
        throw;
    }
    tell_all(rows, made, lists);
    return solid;
}

void renumber(Bench &bench, Lists &lists)
{
    const auto ranks = [](const auto &rows) {
        std::vector<std::uint32_t> found(rows.size());
        std::iota(found.begin(), found.end(), 1U);
        return found;
    };
    replace(bench, solids_of(bench), [&](const Rows &rows) {
        const Numbers made = {ranks(rows.solids), ranks(rows.faces), ranks(rows.loops), ranks(rows.edges), ranks(rows.vertices)};
        tell(rows.solids, made[GWB_SOLID], lists[GWB_MADE_SOLIDS]);
        tell_all(rows, made, lists);
        return numbered(rows, made);
    });
}

} // namespace gwb_session::models
