#include "arrangement.hpp"
#include "meeting.hpp"
#include "touching.hpp"
#include "traces.hpp"

namespace gwb_session::arrangement {

namespace {

/// Refuses faces that touch themselves where solids meet. (Fine points are none of these: no edge between whole points passes one.)
void require_apart(const operands::Operands &all, const std::vector<Sheet> &made, const Failure &why)
{
    std::unordered_map<Face, points::Number> solids;
    for (const operands::FlatFace &face : all.faces)
        solids.emplace(face.sheet->owners[0], face.solid);
    const auto point = touching::touched(made, all.common(), [&](const Sheet &face) {
        const auto is_of_first = [&](Face owner) { return solids.at(owner) == solids.at(face.owners[0]); };
        return gwb_session::all(face.owners, is_of_first) ? std::optional(solids.at(face.owners[0])) : std::nullopt;
    });
    if (point)
        throw machining::failed_at(why, *point);
}

} // namespace

std::vector<Sheet> made_of(const Solids &solids, const Made &made, Joins joins, const Failure &why)
{
    operands::Operands all(solids.faces, solids.boxes, solids.behind);
    pieces::Pieces pieces(all);
    meeting::Meetings meetings = meeting::meet(all);
    traces::cut(all, meetings.traces);
    for (pieces::Trace &trace : meetings.traces)
        pieces.put_trace(trace);
    pieces.put_edges();
    for (const auto &[face, other] : meetings.in_plane)
        pieces.put_in_plane(face, other);
    within::tell(all, pieces, solids.is_within, why);
    std::vector<Sheet> found = outlines::regions(all, sectors::turned_round(all, pieces.all(), made, why), joins, why);
    require_apart(all, found, why);
    return found;
}

} // namespace gwb_session::arrangement
