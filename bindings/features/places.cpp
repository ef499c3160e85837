#include "places.hpp"
#include "integers.hpp"

namespace gwb_session::places {

namespace {

/// A point as it stands in a row.
ScaledPoint point_of(const gwb_hit_row &row)
{
    const auto part = [](const gwb_wide &wide) { return static_cast<Wide>(static_cast<Unsigned>(static_cast<Wide>(wide.high)) << 64 | wide.low); };
    return {{part(row.point[0]), part(row.point[1]), part(row.point[2])}, part(row.scale)};
}

std::optional<Vertex> vertex_at(const Model &model, const ScaledPoint &point)
{
    const auto found = std::find_if(model.vertices.begin(), model.vertices.end(), [&](const auto &row) { return point.compare({row.second}) == 0; });
    return found != model.vertices.end() ? std::optional(found->first) : std::nullopt;
}

std::optional<Edge> edge_at(const Model &model, const ScaledPoint &point)
{
    const auto found = std::find_if(model.edges.begin(), model.edges.end(), [&](const auto &row) {
        go_on();
        return !is_run(plus(row.first)) && model.side(plus(row.first)).has(point);
    });
    return found != model.edges.end() ? std::optional(found->first) : std::nullopt;
}

std::optional<Face> face_at(const Model &model, const ScaledPoint &point)
{
    const auto found = std::find_if(model.faces.begin(), model.faces.end(), [&](const auto &row) {
        go_on();
        const Shape shape(model.cycles(row.first));
        return shape.is_flat() && integers::side_of(shape.plane, point) == 0 && shape.locate(point) == Place::inside;
    });
    return found != model.faces.end() ? std::optional(found->first) : std::nullopt;
}

/// Writes the first thing that one of the models has.
template <class At> bool put(gwb_hit_row &hit, const std::vector<const Model *> &models, At at)
{
    return any(models, [&](const Model *model) {
        const auto thing = at(*model, point_of(hit));
        if (thing)
            hit.kind = thing->kind, hit.number = thing->number();
        return thing.has_value();
    });
}

} // namespace

FailureAt told(FailureAt why, const std::vector<const Model *> &models)
{
    gwb_hit_row &hit = why.row;
    if (hit.number == 0 && point_of(hit).scale != 0)
        put(hit, models, vertex_at) || put(hit, models, edge_at) || put(hit, models, face_at);
    return why;
}

} // namespace gwb_session::places
