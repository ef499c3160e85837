#include "parts.hpp"

namespace gwb_session::sheets {

void make_anew(Bench &bench, const Model &model)
{
    take_away(bench, model.solid);
    rows::make(bench, rows_of(model));
}

std::vector<Cycle> Model::cycles(Face face) const
{
    return mapped(faces.at(face), [&](Loop loop) { return mapped(loops.at(loop), [&](HalfEdge half) { return side(half); }); });
}

void Model::read(const Bench &bench, Face face)
{
    std::vector<Loop> all = mapped(bench.loops_of(face), [](Loop loop) { return loop; });
    for (Loop loop : all)
        read(bench, loop);
    faces.put(face, std::move(all));
}

void Model::read(const Bench &bench, Loop loop)
{
    go_on();
    if (const std::optional<Vertex> vertex = bench.lone_vertex(loop))
        lone.put(loop, *vertex);
    loops.put(loop, bench.half_edges(loop));
}

void Model::read(const Bench &bench, Loop loop, const Chain::Near &near)
{
    go_on();
    for (const auto &run : near.runs) {
        const HalfEdge half = run_from(run->first().half);
        runs.put(half, run);
        edges.put(half.edge(), {bench.start_of(run->first().half), bench.end_of(run->last().half)});
    }
    loops.put(loop, from_least(mapped(near.sides, [](const Side &side) { return side.half; })));
}

void Model::read_edges(const Bench &bench)
{
    std::vector<std::uint32_t> halves, ends = mapped(lone, [](const auto &row) { return row.second.number(); });
    for (const auto &[loop, row] : loops)
        for (HalfEdge half : row)
            if (!is_run(half))
                halves.push_back(half.edge().number());
    for (std::uint32_t edge : filtered(rows::rising(std::move(halves)), [&](std::uint32_t number) { return !edges.has(Edge(number)); })) {
        const auto [from, to] = bench.edge(Edge(edge));
        edges.put(Edge(edge), {from, to});
        ends.insert(ends.end(), {from.number(), to.number()});
    }
    for (std::uint32_t vertex : filtered(rows::rising(std::move(ends)), [&](std::uint32_t number) { return !vertices.has(Vertex(number)); }))
        vertices.put(Vertex(vertex), vector(bench.vertex(Vertex(vertex))));
}

Model Model::whole(const Bench &bench, Solid solid)
{
    require_solid(bench, solid);
    Model found(solid);
    for (Face face : bench.faces(solid))
        found.read(bench, face);
    found.read_edges(bench);
    return found;
}

void Model::take_in(const Model &other)
{
    faces.take_in(other.faces), loops.take_in(other.loops), lone.take_in(other.lone);
    edges.take_in(other.edges), vertices.take_in(other.vertices), runs.take_in(other.runs);
}

Model Model::with(const Model &part, const Model &made) const
{
    Model found = *this;
    const auto replace = [](auto &all, const auto &gone, const auto &come) {
        all.keep([&](const auto &row) { return !gone.has(row.first); });
        all.take_in(come);
    };
    replace(found.faces, part.faces, made.faces);
    replace(found.loops, part.loops, made.loops);
    replace(found.edges, part.edges, made.edges);
    replace(found.vertices, part.vertices, made.vertices);
    found.runs.take_in(made.runs);
    return found;
}

rows::Rows rows_of(const Model &model)
{
    return rows_of(model, mapped(model.faces, [](const auto &row) { return row.first; }), model.solid);
}

rows::Rows rows_of(const Model &model, const std::vector<Face> &faces, Solid solid)
{
    rows::Rows found;
    found.solids = {solid.number()};
    std::vector<std::uint32_t> edges, vertices;
    for (Face face : faces) {
        const std::vector<Loop> &loops = model.faces.at(face);
        found.faces.push_back({face.number(), solid.number(), found.owned.size(), loops.size()});
        for (Loop loop : loops) {
            const std::vector<HalfEdge> &halves = model.loops.at(loop);
            found.owned.push_back(loop.number());
            if (halves.empty())
                vertices.push_back(model.lone.at(loop).number());
            found.loops.push_back({loop.number(), halves.empty() ? vertices.back() : 0, found.cycles.size(), halves.size()});
            append(found.cycles, mapped(halves, [](HalfEdge half) { return half.code(); }));
            append(edges, mapped(halves, [](HalfEdge half) { return half.edge().number(); }));
        }
    }
    rows::sort(found.faces), rows::sort(found.loops);
    for (std::uint32_t edge : rows::rising(std::move(edges))) {
        const auto &[from, to] = model.edges.at(Edge(edge));
        found.edges.push_back({edge, from.number(), to.number()});
        vertices.insert(vertices.end(), {from.number(), to.number()});
    }
    for (std::uint32_t vertex : rows::rising(std::move(vertices)))
        found.vertices.push_back({vertex, point(model.vertices.at(Vertex(vertex)))});
    return found;
}

} // namespace gwb_session::sheets
