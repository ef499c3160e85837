#include "operands.hpp"

namespace gwb_session::operands {

Operands::Operands(const std::vector<std::vector<Sheet>> &solids, const std::vector<Box> &boxes, const Behind &behind) : around_(boxes)
{
    for (const std::vector<Sheet> &sheets : solids) {
        const auto solid = static_cast<Number>(firsts_.size());
        firsts_.push_back(static_cast<Number>(faces.size()));
        for (const Sheet &sheet : sheets)
            put(sheet, solid);
    }
    firsts_.push_back(static_cast<Number>(faces.size()));
    for (const auto &[edge, corner] : behind)
        if (const Number *number = look_up(edge_numbers_, edge))
            behind_.emplace_back(*number, points.whole(corner));
}

void Operands::put(const Sheet &sheet, Number solid)
{
    go_on();
    const auto own = static_cast<Number>(faces.size());
    FlatFace &face = faces.emplace_back(FlatFace{&sheet, solid});
    for (const Side &side : sheet.sides) {
        const Number from = points.whole(side.start), to = points.whole(side.end);
        const auto [edge, is_new] = edge_numbers_.try_emplace(side.half.edge(), static_cast<Number>(edges.size()));
        const bool is_second = side.half.is_second();
        if (is_new)
            edges.push_back({is_second ? side.turned() : side, is_second ? to : from, is_second ? from : to, solid});
        (is_second ? edges[edge->second].right : edges[edge->second].left) = own;
        face.corners.push_back(from), face.nexts.push_back(to), face.edges.push_back(edge->second);
        face.has_run = face.has_run || side.run != nullptr;
    }
}

const BoxIndex &Operands::sides_by_boxes(Number face)
{
    std::unique_ptr<BoxIndex> &index = faces[face].by_boxes;
    if (index == nullptr) {
        auto made = std::make_unique<BoxIndex>();
        for (std::size_t at = 0; at < sheet(face).sides.size(); at++)
            made->put(box_of(sheet(face).sides[at]), at);
        index = std::move(made);
    }
    return *index;
}

Place Operands::locate(Number face, const ScaledPoint &point)
{
    const Sheet &own = sheet(face);
    if (!is_large(face))
        return own.locate(point);
    const Axes axes = flat_axes(own.plane.across);
    const Box here = box_of(point);
    Box ray = own.box; // from the point on along the first axis
    for (std::size_t axis : axes)
        ray.low[axis] = std::max(ray.low[axis], here.low[axis]);
    ray.high[axes[1]] = std::min(ray.high[axes[1]], here.high[axes[1]]);
    return machining::locate(mapped(sides_by_boxes(face).meeting(ray), [&](std::size_t at) { return own.sides[at]; }), point, axes);
}

void Operands::touch_face(Number face, Number point, bool is_corner)
{
    FlatFace &own = faces[face];
    if (!is_corner && count() > 2)
        own.touched.push_back(point);
    put_spot(own.solid, point, is_corner ? Spot{Spot::corner} : Spot{Spot::face, face});
}

void Operands::touch_edge(Number edge, Number point)
{
    CutEdge &own = edges[edge];
    const bool is_end = point == own.from || point == own.to;
    if (!is_end)
        own.stops.push_back(point);
    put_spot(own.solid, point, is_end ? Spot{Spot::corner} : Spot{Spot::edge, edge});
}

void Operands::put_spot(Number solid, Number point, const Spot &spot)
{
    if (first_rows_.size() <= point)
        first_rows_.resize(std::max<std::size_t>(point + 1, points.count()), none);
    for (Number at = first_rows_[point]; at != none; at = rows_[at].next)
        if (Row &row = rows_[at]; row.solid == solid) {
            if (spot.what < row.spot.what) // (of a face, an edge and a corner the least is where it lies)
                row.spot = spot;
            return;
        }
    rows_.push_back({solid, spot, first_rows_[point]});
    first_rows_[point] = static_cast<Number>(rows_.size() - 1);
}

Spot Operands::spot(Number solid, Number point) const
{
    Number at = point < first_rows_.size() ? first_rows_[point] : none;
    while (at != none && rows_[at].solid != solid)
        at = rows_[at].next;
    return at != none ? rows_[at].spot : Spot();
}

std::vector<ScaledPoint> Operands::common() const
{
    std::vector<ScaledPoint> found;
    for (Number point = 0; point < first_rows_.size(); point++)
        if (const Number first = first_rows_[point]; first != none && rows_[first].next != none && !points.is_fine(point))
            found.push_back(points.at(point));
    return found;
}

} // namespace gwb_session::operands
