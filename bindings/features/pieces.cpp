#include "pieces.hpp"

namespace gwb_session::pieces {

Piece &Pieces::between(Number from, Number to, const Vector &way)
{
    const std::uint64_t ends = static_cast<std::uint64_t>(std::min(from, to)) << 32 | std::max(from, to);
    const auto [place, is_new] = places_.try_emplace(ends, pieces_.size());
    if (is_new)
        pieces_.push_back({from, to, way});
    return pieces_[place->second];
}

void Pieces::put_wing(Piece &piece, const Wing &wing)
{
    if (!piece.has(wing))
        piece.wings.push_back(wing);
}

void Pieces::put_across(Piece &piece, Number face)
{
    put_wing(piece, {face, true});
    put_wing(piece, {face, false});
    for (Number end : {piece.from, piece.to})
        all_.put_spot(all_.faces[face].solid, end, {Spot::face, face});
}

void Pieces::sort(std::vector<Number> &stops) const
{
    std::sort(stops.begin(), stops.end(), [&](Number a, Number b) { return all_.points.comes_before(a, b); });
    stops.erase(std::unique(stops.begin(), stops.end()), stops.end());
}

void Pieces::put_trace(Trace &trace)
{
    const auto is_between = [&](Number stop) { return all_.points.comes_before(trace.from, stop) && all_.points.comes_before(stop, trace.to); };
    if (trace.edge != none)
        trace.stops = filtered(all_.edges[trace.edge].stops, is_between);
    sort(trace.stops);
    trace.stops.push_back(trace.to);
    Number last = trace.from;
    for (Number next : trace.stops) {
        for (Number face : trace.faces)
            if (face != none)
                put_across(between(last, next, trace.way), face);
        last = next;
    }
}

void Pieces::put_edges()
{
    for (CutEdge &edge : all_.edges) {
        go_on();
        put_edge(edge);
    }
}

void Pieces::put_edge(CutEdge &edge)
{
    if (edge.side.run != nullptr) { // (what lies between its ends may also be another edge)
        put_wing(pieces_.emplace_back(Piece{edge.from, edge.to, edge.side.way()}), {edge.left, true, edge.side.half});
        return;
    }
    std::vector<Number> &stops = edge.stops;
    sort(stops);
    if (all_.points.comes_before(edge.to, edge.from))
        std::reverse(stops.begin(), stops.end());
    Number last = edge.from;
    for (std::size_t at = 0; at <= stops.size(); at++) {
        const Number next = at < stops.size() ? stops[at] : edge.to;
        Piece &piece = between(last, next, edge.side.way());
        const bool is_along = piece.from == last;
        const HalfEdge half = is_along ? edge.side.half : edge.side.half.twin();
        if (edge.left != none)
            put_wing(piece, {edge.left, is_along, half});
        if (edge.right != none)
            put_wing(piece, {edge.right, !is_along, half});
        last = next;
    }
}

void Pieces::put_in_plane(Number face, Number other)
{
    go_on();
    const Box &box = all_.sheet(other).box;
    all_.each_side_near(face, box, [&](std::size_t at) {
        if (!box_of(all_.sheet(face).sides[at]).meets(box))
            return;
        const Number of = all_.faces[face].edges[at];
        const CutEdge &edge = all_.edges[of];
        Number last = edge.from;
        for (std::size_t stop = 0; stop <= edge.stops.size(); stop++) {
            const Number next = stop < edge.stops.size() ? edge.stops[stop] : edge.to;
            put_within(edge, of, last, next, other);
            last = next;
        }
    });
}

void Pieces::put_within(const CutEdge &edge, Number of, Number from, Number to, Number face)
{
    Piece &piece = between(from, to, edge.side.way());
    const bool is_on_edge = any(piece.wings, [&](const Wing &wing) { return wing.face == face; });
    const ScaledPoint middle = all_.points.at(from).between(all_.points.at(to));
    if (is_on_edge || all_.locate(face, middle) != Place::inside)
        return;
    put_across(piece, face);
    for (Number end : {from, to}) {
        const bool is_corner = end == edge.from || end == edge.to;
        all_.put_spot(edge.solid, end, is_corner ? Spot{Spot::corner} : Spot{Spot::edge, of});
    }
}

} // namespace gwb_session::pieces
