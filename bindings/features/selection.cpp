#include "selection.hpp"

namespace gwb_session::selection {

namespace {

/// Whether a vector is so many times as long as a fraction says. That is none that doesn't fit in 64 bits, as edges and twice the areas of faces do.
bool is_as_long(const Vector &way, const gwb_ratio &ratio, Unsigned factor)
{
    const Unsigned product = factor * ratio.numerator, length = product / ratio.denominator;
    if (product % ratio.denominator != 0 || length > UINT64_MAX)
        return false;
    Unsigned left = length * length;
    for (Wide part : way) {
        const auto size = static_cast<Unsigned>(magnitude(part));
        if (size > length || size * size > left)
            return false;
        left -= size * size;
    }
    return left == 0;
}

bool is_called_for(const gwb_ratio *ratio) { return ratio == nullptr || (ratio->numerator != 0 && ratio->denominator != 0); }
bool is_direction(const gwb_point *way) { return way == nullptr || !is_zero(vector(*way)); }

/// Whether a face fits a query.
bool fits(const Bench &bench, Face face, const gwb_face_query &query)
{
    const std::vector<Cycle> cycles = cycles_at(bench, face);
    const std::vector<Side> sides = joined(cycles);
    const Vector across = area_of(sides);
    const bool is_flat = lie_in(sides, Plane::through(sides[0].start, across));
    const auto holds = [&](const Vector &at) {
        const std::optional<Plane> plane = flat_plane(sides);
        return plane && is_in_range(at) && plane->height(at) == 0 && Shape(*plane, cycles).meets({at, at});
    };
    return (query.plane == nullptr || lie_in(sides, Plane::of(*query.plane))) &&
           (query.normal == nullptr || (!is_zero(across) && reduced(across) == reduced(vector(*query.normal)) && is_flat)) &&
           (query.area == nullptr || (is_as_long(across, *query.area, 2) && is_flat)) &&
           (query.containing == nullptr || holds(vector(*query.containing)));
}

/// Whether an edge fits a query, by a half-edge of its first face.
bool fits(const Bench &bench, HalfEdge half, const gwb_edge_query &query)
{
    go_on();
    const Vector way = side_at(bench, half).way();
    return (query.between[0] == 0 || bench.face_of(half.twin()) == Face(query.between[1])) &&
           (query.solid == 0 || solid_of(bench, bench.face_of(half)) == Solid(query.solid)) &&
           (query.along == nullptr || (!is_zero(way) && are_parallel(way, vector(*query.along)))) &&
           (query.length == nullptr || is_as_long(way, *query.length, 1));
}

} // namespace

bool is_query(const gwb_face_query &query)
{
    const bool has_plane = query.plane == nullptr || query.plane->a != 0 || query.plane->b != 0 || query.plane->c != 0;
    return has_plane && is_direction(query.normal) && is_called_for(query.area);
}

bool is_query(const gwb_edge_query &query)
{
    return (query.between[0] == 0) == (query.between[1] == 0) && is_direction(query.along) && is_called_for(query.length);
}

std::vector<Face> faces(const Bench &bench, const gwb_face_query &query)
{
    const Solid solid(query.solid);
    if (solid != Solid())
        require_solid(bench, solid);
    return filtered(solid != Solid() ? bench.faces(solid) : bench.numbers<Face>(), [&](Face face) { return fits(bench, face, query); });
}

std::vector<Edge> edges(const Bench &bench, const gwb_edge_query &query)
{
    const Solid solid(query.solid);
    const Face first(query.between[0]);
    for (std::uint32_t face : query.between)
        if (face != 0)
            (void)solid_of(bench, Face(face));
    if (solid != Solid())
        require_solid(bench, solid);
    const auto rows = first != Face() ? bench.half_edge_rows(first) : solid != Solid() ? bench.half_edge_rows(solid) : bench.half_edge_rows();
    std::set<Edge> found;
    for (const gwb_half_edge_row &row : rows)
        if (const HalfEdge half(row.half_edge); (first != Face() || !half.is_second()) && fits(bench, half, query))
            found.insert(half.edge());
    return {found.begin(), found.end()};
}

} // namespace gwb_session::selection
