#include "changing.hpp"

namespace gwb_session::changing {

namespace {

/// Those that are the same in both tables, of which a test holds, rising.
template <class Kind, class Row, class Test> std::vector<Kind> alike(const Table<Kind, Row> &old, const Table<Kind, Row> &made, Test test)
{
    std::vector<Kind> found;
    for (const auto &[number, row] : old)
        if (const Row *other = made.find(number); other != nullptr && *other == row && test(row))
            found.push_back(number);
    return found;
}

/// What two parts have in common, with all that bounds it, down to the points.
struct Common {
    std::vector<Vertex> vertices;
    std::vector<Edge> edges;
    std::vector<Loop> loops;
    std::vector<Face> faces;

    Common(const Model &old, const Model &made)
        : vertices(alike(old.vertices, made.vertices, [](const Vector &) { return true; })),
          edges(alike(old.edges, made.edges, [&](const auto &ends) { return has(vertices, ends.first) && has(vertices, ends.second); })),
          loops(alike(old.loops, made.loops, [&](const auto &row) { return all(row, [&](HalfEdge half) { return has(edges, half.edge()); }); })),
          faces(alike(old.faces, made.faces, [&](const auto &row) { return all(row, [&](Loop loop) { return has(loops, loop); }); }))
    {
    }
};

/// The faces of a model that differ from those of another one, rising.
class Differing {
public:
    const Model &model;
    std::vector<Face> faces;

    Differing(const Model &of, const std::vector<Face> &same) : model(of)
    {
        for (const auto &[face, loops] : of.faces)
            if (!gwb_session::has(same, face)) {
                faces.push_back(face);
                for (Loop loop : loops)
                    append(halves_, of.loops.at(loop));
            }
        std::sort(halves_.begin(), halves_.end());
    }
    [[nodiscard]] rows::Rows rows() const { return rows_of(model, faces, model.solid); }

    /// Whether a loop runs along none of the edges between the faces but such as stay.
    [[nodiscard]] bool is_left(Loop loop, const std::vector<Edge> &stay) const
    {
        return all(model.loops.at(loop), [&](HalfEdge half) { return !has(halves_, half.twin()) || has(stay, half.edge()); });
    }

private:
    std::vector<HalfEdge> halves_; ///< of the faces, rising
};

/// What stays of two parts: in a face that keeps its outline also the rings that both have.
rows::Kept kept_of(const Common &common, const Differing &old, const Differing &made, const std::vector<Edge> &edges, const std::set<Face> &fast)
{
    const auto stays = [&](Loop loop) { return has(common.loops, loop) && old.is_left(loop, edges) && made.is_left(loop, edges); };
    rows::Kept found{mapped(edges, [](Edge edge) { return edge.number(); }), {}, mapped(fast, [](Face face) { return face.number(); }), {}};
    for (Face face : filtered(old.faces, [&](Face of) { return has(made.faces, of); })) {
        const std::vector<Loop> &loops = old.model.faces.at(face), &others = made.model.faces.at(face);
        const std::vector<HalfEdge> &outline = made.model.loops.at(others.front());
        std::vector<HalfEdge> after = outline;
        make_rise(after);
        for (HalfEdge half : old.model.loops.at(loops[0]))
            if (has(after, half))
                found.outlines.emplace(half.code(), face.number());
        for (auto ring = loops.begin() + 1; others.front() == loops[0] && stays(loops[0]) && ring != loops.end(); ++ring)
            if (std::binary_search(others.begin() + 1, others.end(), *ring) && stays(*ring))
                found.rings.push_back(ring->number());
    }
    make_rise(found.rings);
    return found;
}

} // namespace

std::optional<rows::Steps> steps_between(const Bench &bench, const Model &old, const Model &made, const std::set<Face> &fast)
{
    const Common common(old, made);
    const Differing before(old, common.faces), after(made, common.faces);
    const rows::Rows was = before.rows(), is = after.rows();
    for (const std::vector<Edge> &edges : {common.edges, std::vector<Edge>()})
        if (auto steps = rows::between(bench.handle(), was, is, kept_of(common, before, after, edges, fast)))
            return steps;
    return std::nullopt;
}

void change(Bench &bench, const Model &old, const Model &made)
{
    if (const auto steps = steps_between(bench, old, made, {}))
        rows::give(bench, *steps);
    else
        make_anew(bench, made);
}

} // namespace gwb_session::changing
