#include "assembly.hpp"
#include "turns.hpp"
#include <deque>

namespace gwb_session::sheets {

namespace {

/// A closed surface of regions put together: sides, what follows each in its loop, and the mate of each.
class Assembly {
public:
    Assembly(const Held &held, const std::vector<Sheet> &regions, AllNames &names, const Failure &why)
        : held_(held), regions_(regions), names_(names), why_(why)
    {
        for (const Sheet &region : regions_)
            starts_.push_back(mapped(region.cycles, [&](const Cycle &cycle) { return put(cycle, &region); }));
        for (const Cycle &cycle : held.rest)
            put(cycle, nullptr);
    }

    /// The model of a solid, without the rest, once.
    Combined made(Solid solid)
    {
        pair_whole();
        pair_along_lines();
        std::vector<HalfEdge> beyond;
        for (Placed &placed : sides_)
            if ((placed.goes_on = divides(placed)) && placed.region == nullptr)
                beyond.push_back(placed.side.half);
        for (Placed &placed : sides_)
            if (!placed.goes_on)
                join(placed);
        Model made(solid);
        made.runs = held_.model.runs;
        name_vertices(made);
        name_edges(made);
        for (std::size_t region = 0; region < regions_.size(); region++)
            name_face(made, regions_[region], starts_[region]);
        return Combined{std::move(made), std::move(regions_), std::move(beyond)};
    }

private:
    struct Placed {
        Side side;
        const Sheet *region; ///< none of the rest
        Placed *after = nullptr, *mate = nullptr;
        bool goes_on = false; ///< straight from the one before it, as one edge
        const Placed *edge = nullptr; ///< the first one of that edge
        std::vector<Side> parts = {}; ///< of the first one: all of them, where these are several
        Vertex start = {};
        HalfEdge half = {};

        [[nodiscard]] bool runs_back(const Vector &way) const { return dot(way, side.way()) < 0; }
        [[nodiscard]] const Side &first_part() const { return parts.empty() ? side : parts[0]; }
    };
    using Row = std::vector<Placed *>;

    /// The first of the sides of a cycle, which follow each other.
    Placed *put(const Cycle &cycle, const Sheet *region)
    {
        go_on();
        Placed *first = &sides_.emplace_back(Placed{cycle[0], region}), *last = first;
        for (std::size_t at = 1; at < cycle.size(); at++)
            last = last->after = &sides_.emplace_back(Placed{cycle[at], region});
        return last->after = first;
    }

    /// Sides that are both half-edges of an old edge are mates.
    void pair_whole()
    {
        using Whole = std::pair<HalfEdge, Placed *>;
        std::vector<Whole> whole; // of each half-edge the last one
        for (Placed &placed : sides_)
            if (held_.is_whole(placed.side))
                whole.emplace_back(placed.side.half, &placed);
        std::stable_sort(whole.begin(), whole.end(), [](const Whole &one, const Whole &other) { return one.first < other.first; });
        const auto is_same = [](const Whole &one, const Whole &other) { return one.first == other.first; };
        whole.erase(whole.begin(), std::unique(whole.rbegin(), whole.rend(), is_same).base());
        for (const auto &[half, placed] : whole)
            if (const std::size_t mate = place_of(whole, half.twin().code()); mate != whole.size())
                placed->mate = whole[mate].second;
    }

    /// The other sides are cut where the sides on one line end, and pair up.
    void pair_along_lines()
    {
        std::map<std::pair<Vector, Vector>, Row> lines;
        for (Placed &placed : sides_)
            if (placed.mate == nullptr) {
                require(placed.region != nullptr, failed_at(why_, placed.side.middle())); // the rest's are whole, and so are their mates
                const Vector way = line_of(placed.side.way());
                lines[{way, cross(placed.side.start, way)}].push_back(&placed);
            }
        for (const auto &[line, row] : lines)
            pair_on_line(line.first, row);
    }

    void pair_on_line(const Vector &way, const Row &line)
    {
        go_on();
        std::set<Vector> stops;
        for (const Placed *placed : line)
            stops.insert({placed->side.start, placed->side.end});
        std::map<Vector, Row> parts; // by where they begin along the line
        for (Placed *placed : line)
            cut(placed, stops, parts);
        for (const auto &[start, row] : parts)
            pair(row, way);
    }

    /// A side becomes parts that end where sides of its line do.
    void cut(Placed *placed, const std::set<Vector> &stops, std::map<Vector, Row> &parts)
    {
        const Side side = placed->side;
        Path points(stops.lower_bound(std::min(side.start, side.end)), stops.upper_bound(std::max(side.start, side.end)));
        if (side.end < side.start)
            std::reverse(points.begin(), points.end());
        for (std::size_t at = 1; at < points.size(); at++) {
            if (at > 1)
                placed = placed->after = &sides_.emplace_back(Placed{side, placed->region, placed->after});
            placed->side = {points[at - 1], points[at], side.half};
            parts[std::min(points[at - 1], points[at])].push_back(placed);
        }
    }

    /// Mates among sides between the same two points: each that runs back with the next one round the line, which runs along; the solid lies between.
    void pair(Row sides, const Vector &way)
    {
        if (sides.size() > 2)
            sort_round(sides, way);
        for (std::size_t at = 0; at < sides.size(); at++) {
            Placed *placed = sides[at], *following = sides[(at + 1) % sides.size()];
            require(placed->runs_back(way) != following->runs_back(way), failed_at(why_, placed->side.middle()));
            if (placed->runs_back(way))
                placed->mate = following, following->mate = placed;
        }
    }
    /// Sorts sides of one line by the turn of their faces about it, counterclockwise as seen from where the way points: so do their normals, those of
    /// sides that run back turned round. They lie across the way, so that they are looked at along an axis.
    static void sort_round(Row &sides, const Vector &way)
    {
        const Axes axes = flat_axes(way);
        const auto normal = [&](const Placed *placed) {
            const Vector &across = placed->region->plane.across;
            return placed->runs_back(way) ? negative(across) : across;
        };
        std::sort(sides.begin(), sides.end(), [&](const Placed *one, const Placed *other) { return turns::order(normal(one), normal(other), axes) < 0; });
    }

    /// A vertex that only divides an edge goes, unless it was there for no other reason before.
    [[nodiscard]] bool divides(const Placed &placed) const
    {
        const Placed &onward = *placed.mate->after;
        if (is_run(placed.side.half) || is_run(onward.side.half))
            return false;
        return &onward != &placed && onward.mate->after == &placed && reduced(placed.side.way()) == negative(reduced(onward.side.way())) &&
               !held_.is_fixed(placed.side);
    }

    /// The sides from one on that are one edge become this one, with the first old half-edge of its parts.
    static void join(Placed &own)
    {
        own.edge = &own;
        for (; own.after->goes_on; own.after = own.after->after) {
            Placed &part = *own.after;
            part.edge = &own;
            if (own.parts.empty())
                own.parts = {own.side};
            own.parts.push_back(part.side);
            own.side = {own.side.start, part.side.end, own.side.is_old() ? own.side.half : part.side.half};
            own.mate = part.mate;
        }
    }

    void name_vertices(Model &made)
    {
        for (Placed &first : sides_)
            if (!first.goes_on && first.start == Vertex()) {
                Row fan = {&first}; // the sides that leave the vertex
                for (Placed *side = first.mate->after; side != &first; side = side->mate->after)
                    fan.push_back(side);
                const Vertex vertex = names_.vertices.one(old_vertices(fan));
                made.vertices.put(vertex, first.side.start);
                for (Placed *side : fan)
                    side->start = vertex;
            }
    }

    /// The old vertices at the point where sides start: those first at which half-edges of theirs did.
    [[nodiscard]] std::vector<Vertex> old_vertices(const Row &fan) const
    {
        std::vector<Vertex> found = held_.vertices_at(fan[0]->side.start);
        std::stable_partition(found.begin(), found.end(), [&](Vertex vertex) {
            return any(fan, [&](const Placed *side) { return side->first_part().is_old() && held_.model.start(side->first_part().half) == vertex; });
        });
        return found;
    }

    /// Sides that are all of an old one come first. A new edge starts at the vertex of the lesser number.
    void name_edges(Model &made)
    {
        for (bool is_whole : {true, false})
            for (Placed &own : sides_)
                if (!own.goes_on && own.half == HalfEdge() && (!is_whole || held_.is_whole(own.side))) {
                    Placed &mate = *own.mate;
                    const std::vector<HalfEdge> halves = old_halves(own);
                    const Edge edge = names_.edges.one(mapped(halves, [](HalfEdge half) { return half.edge(); }));
                    const auto old = std::find_if(halves.begin(), halves.end(), [&](HalfEdge half) { return half.edge() == edge; });
                    const bool is_second = old != halves.end() ? old->is_second() : mate.start < own.start;
                    own.half = is_second ? minus(edge) : plus(edge);
                    mate.half = own.half.twin();
                    made.edges.put(edge, is_second ? std::pair(mate.start, own.start) : std::pair(own.start, mate.start));
                }
    }

    /// The old half-edges that the edge of a side is made of, as it runs: those that it is all of first.
    [[nodiscard]] std::vector<HalfEdge> old_halves(const Placed &own) const
    {
        std::vector<HalfEdge> halves, others;
        const auto take = [&](const Side &side) {
            if (side.is_old())
                (held_.is_whole(side) ? halves : others).push_back(side.half);
        };
        const Placed &mate = *own.mate;
        own.parts.empty() ? take(own.side) : (void)std::for_each(own.parts.begin(), own.parts.end(), take);
        mate.parts.empty() ? take(mate.side.turned()) : (void)std::for_each(mate.parts.begin(), mate.parts.end(), [&](const Side &side) { take(side.turned()); });
        std::sort(halves.begin(), halves.end());
        append(halves, others);
        return halves;
    }

    void name_face(Model &made, Sheet &region, const Row &starts)
    {
        std::vector<Loop> row;
        for (const Placed *start : starts) {
            std::vector<HalfEdge> halves;
            std::vector<Loop> wanted;
            const Placed *edge = start->edge;
            do {
                halves.push_back(edge->half);
                if (edge->side.is_old())
                    wanted.push_back(held_.loop_of(edge->side.half));
                edge = edge->after;
            } while (edge != start->edge);
            row.push_back(names_.loops.one(wanted));
            made.loops.put(row.back(), from_least(std::move(halves)));
        }
        std::sort(row.begin() + 1, row.end());
        region.face = names_.faces.one(region.owners);
        made.faces.put(region.face, std::move(row));
    }

    const Held &held_;
    std::vector<Sheet> regions_;
    AllNames &names_;
    const Failure &why_;
    std::deque<Placed> sides_; // which stay where they are
    std::vector<Row> starts_;
};

} // namespace

// ---- what is held

Held::Held(const Bench &bench, Model parts, bool keeps_vertices, const std::set<Solid> &gone)
    : model(std::move(parts)), bench_(bench), keeps_vertices_(keeps_vertices)
{
    by_points_ = mapped(model.vertices, [](const auto &row) { return std::pair(SmallBox::corner(row.second), row.first); });
    std::sort(by_points_.begin(), by_points_.end());
    for (const auto &[half, run] : model.runs)
        run_to_.put(run->last().half, half);
    for (const auto &[loop, halves] : model.loops)
        append(halves_, halves);
    make_rise(halves_);
    put_rest(gone);
}

Loop Held::loop_of(HalfEdge half) const
{
    const Loop loop = bench_.loop_of(first_of(half));
    return model.loops.has(loop) ? loop : Loop();
}

bool Held::is_whole(const Side &side) const
{
    if (!side.is_old())
        return false;
    const auto &[from, to] = model.edges.at(side.half.edge());
    const bool is_second = side.half.is_second();
    return model.vertices.at(is_second ? to : from) == side.start && model.vertices.at(is_second ? from : to) == side.end;
}

std::vector<Vertex> Held::vertices_at(const Vector &point) const
{
    const SmallBox::Corner here = SmallBox::corner(point);
    std::vector<Vertex> found;
    for (auto at = std::lower_bound(by_points_.begin(), by_points_.end(), std::pair(here, Vertex())); at != by_points_.end() && at->first == here; ++at)
        found.push_back(at->second);
    return found;
}

bool Held::is_fixed(const Side &side) const
{
    return any(vertices_at(side.start), [&](Vertex vertex) {
        const bool starts_here = side.is_old() && model.start(side.half) == vertex; // (so that nothing has to be looked for)
        const auto halves = starts_here ? bench_.around(side.half) : bench_.around(vertex);
        return any(halves, [&](HalfEdge half) { return !is_held(half) && !is_held(half.twin()); }) ||
               (keeps_vertices_ && std::distance(halves.begin(), halves.end()) == 2);
    });
}

void Held::put_rest(const std::set<Solid> &gone)
{
    std::vector<HalfEdge> left;
    for (const auto &[loop, halves] : model.loops)
        if (gone.empty() || gone.count(bench_.face(bench_.face_of(loop)).solid) == 0)
            for (HalfEdge half : halves)
                if (is_run(half) || !is_held(half.twin()))
                    left.push_back(half.twin());
    make_rise(left);
    std::vector<bool> is_put(left.size());
    for (std::size_t first = 0; first < left.size(); first++)
        for (std::size_t at = first; at < left.size() && !is_put[at]; at = place_of(left, after(left[at]).code())) {
            go_on();
            if (at == first)
                rest.emplace_back();
            is_put[at] = true;
            rest.back().push_back(model.side(left[at]));
        }
}

HalfEdge Held::after(HalfEdge half) const
{
    for (HalfEdge last = is_run(half) ? first_of(half.twin()).twin() : half;; last = bench_.next(last).twin()) {
        if (is_held(last))
            return last.twin();
        if (const HalfEdge *run = run_to_.find(last))
            return run->twin();
    }
}

// ---- what is made

std::vector<Face> Combined::marked(std::size_t mark) const
{
    std::set<Face> found;
    for (const Sheet &region : regions)
        if (std::find(region.marks.begin(), region.marks.end(), mark) != region.marks.end())
            found.insert(region.face);
    return {found.begin(), found.end()};
}

Combined assembled(const Held &held, const std::vector<Sheet> &regions, AllNames &names, Solid solid, const Failure &why)
{
    return Assembly(held, regions, names, why).made(solid);
}

} // namespace gwb_session::sheets
