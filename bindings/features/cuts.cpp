#include "cuts.hpp"
#include "combining.hpp"
#include "places.hpp"
#include "touching.hpp"

namespace gwb_session::cuts {

namespace {

using namespace combining;
using exact::Plane;

// ---- what lies below

/// Puts in what is left of a face below the plane. A face in the plane is left where it looks upwards.
void put_below(const Sheet &sheet, const Plane &plane, const Failure &why, std::vector<Sheet> &left)
{
    go_on();
    const bool is_below = any(sheet.sides, [&](const Side &side) { return plane.height(side.start) < 0; });
    const bool is_above = any(sheet.sides, [&](const Side &side) { return plane.height(side.start) > 0; });
    if (!is_above && (is_below || dot(sheet.plane.across, plane.across) > 0))
        left.push_back(sheet);
    if (!is_above || !is_below)
        return;
    std::vector<Side> sides; // the parts below, which split found to end at whole points; those in the plane where the face beside them lies below
    for (Side side : sheet.sides) {
        const Wide start = plane.height(side.start), end = plane.height(side.end);
        if (sign(start) * sign(end) < 0)
            (start < 0 ? side.end : side.start) = *divided(side, start, end).whole();
        const bool is_in_plane = start == 0 && end == 0;
        if (is_in_plane ? dot(plane.across, cross(sheet.plane.across, side.way())) < 0 : std::min(start, end) < 0)
            sides.push_back(side);
    }
    for (const auto &[first, last] : sheet.cut_by(plane)) { // the sides along which the plane cuts the face
        const Side side{*first.whole(), *last.whole()};
        sides.push_back(dot(cross(sheet.plane.across, plane.across), side.way()) > 0 ? side : side.turned());
    }
    for (const std::vector<Cycle> &cycles : regions_of(sides, sheet.plane.across, why))
        left.push_back({Shape(cycles), {sheet.owners[0]}, {}});
}

/// The sides in the plane that have no other beside them, turned round.
std::vector<Side> open_sides(const std::vector<Sheet> &left, const Plane &plane)
{
    std::multiset<std::pair<Vector, Vector>> open;
    for (const Sheet &sheet : left)
        for (const Side &side : filtered(sheet.sides, [&](const Side &of) { return plane.height(of.start) == 0 && plane.height(of.end) == 0; }))
            if (const auto other = open.find({side.start, side.end}); other != open.end())
                open.erase(other);
            else
                open.insert({side.end, side.start});
    return mapped(open, [](const auto &ends) { return Side{ends.first, ends.second}; });
}

/// Sheets of a plane become one, without their seams, which are there in both directions.
void put_joined(const std::vector<Sheet> &sheets, const Plane &plane, const Failure &why, std::vector<Sheet> &left)
{
    if (sheets.size() == 1) {
        left.push_back(sheets[0]);
        return;
    }
    Sheet made = sheets[0];
    std::set<std::pair<Vector, Vector>> ways;
    std::vector<Side> sides;
    for (const Sheet &sheet : sheets) {
        append(sides, sheet.sides);
        made.marks = {0};
        if (&sheet != &sheets[0])
            append(made.owners, sheet.owners);
    }
    for (const Side &side : sides)
        ways.insert({side.start, side.end});
    sides = filtered(sides, [&](const Side &side) { return ways.count({side.end, side.start}) == 0; });
    for (const std::vector<Cycle> &cycles : regions_of(sides, plane.across, why))
        left.push_back({Shape(cycles), made.owners, made.marks});
}

/// Closes what is left by caps, which have marks: faces in the plane beside them become one with them.
void put_caps(std::vector<Sheet> &left, const Plane &plane, const Failure &why)
{
    const auto is_level = [&](const Sheet &sheet) { return lie_in(sheet.sides, plane); };
    std::vector<Sheet> level = filtered(left, is_level);
    for (const std::vector<Cycle> &cycles : regions_of(open_sides(left, plane), plane.across, why))
        level.push_back({Shape(cycles), {}, {0}});
    left.erase(std::remove_if(left.begin(), left.end(), is_level), left.end());
    std::map<std::pair<Vector, Vector>, std::size_t> at_sides;
    for (std::size_t at = 0; at < level.size(); at++)
        for (const Side &side : level[at].sides)
            at_sides[{side.start, side.end}] = at;
    JoinedSets<std::size_t> joined_sheets;
    for (const auto &[ends, at] : at_sides)
        if (const std::size_t *beside = look_up(at_sides, std::pair(ends.second, ends.first)); beside != nullptr && level[at].marks != level[*beside].marks)
            joined_sheets.join(std::min(joined_sheets.name(at), joined_sheets.name(*beside)), std::max(joined_sheets.name(at), joined_sheets.name(*beside)));
    std::map<std::size_t, std::vector<Sheet>> members;
    for (std::size_t at = 0; at < level.size(); at++)
        members[joined_sheets.name(at)].push_back(level[at]);
    for (const auto &[name, sheets] : members)
        put_joined(sheets, plane, why, left);
}

/// Points of edges.
using Points = std::vector<ScaledPoint>;

/// The corners in a plane, and the middles of edges in it, which lie as all of the edge does.
Points points_in(const Bench &bench, Solid solid, const Plane &plane)
{
    Points found;
    for (const gwb_half_edge_row &row : bench.half_edge_rows(solid)) {
        go_on();
        const Side side = side_at(bench, HalfEdge(row.half_edge));
        if (plane.height(side.start) != 0)
            continue;
        found.push_back({side.start});
        if (plane.height(side.end) == 0)
            found.push_back(side.middle());
    }
    return found;
}

/// Refuses the faces of a part that touch themselves at one of the points in the plane, where one of them is a cap.
void require_apart(const std::vector<Sheet> &faces, const Points &points, const Model &before)
{
    const auto of_solid = [](const Sheet &face) { return face.marks.empty() ? std::optional(0U) : std::nullopt; };
    if (const auto point = touching::touched(faces, points, of_solid))
        throw places::told(failed_at(impossible(Misfit::meets, before.solid.number(), met(GWB_CAUSE_TOUCHES_ITSELF)), *point), {&before});
}

/// The part of a solid below a plane, closed by caps, which are its faces that have marks. Not possible: Meets.
Combined part_below(const Held &held, const std::vector<Sheet> &sheets, const Plane &plane, const Points &points, Solid solid, AllNames &names)
{
    const Failure meets = impossible(Misfit::meets, held.model.solid.number(), met(GWB_CAUSE_TOUCHES_ITSELF));
    std::vector<Sheet> left;
    for (const Sheet &sheet : sheets)
        put_below(sheet, plane, meets, left);
    put_caps(left, plane, meets);
    require_apart(left, points, held.model);
    return assembled(held, left, names, solid, meets);
}

// ---- what is cut

/// The faces of a solid that was cut, its caps with marks.
std::vector<Sheet> faces_of(const Model &model, const std::vector<Face> &caps)
{
    std::vector<Sheet> found;
    for (const auto &[face, loops] : model.faces)
        if (const std::vector<Cycle> cycles = model.cycles(face); !joined(cycles).empty())
            found.push_back({Shape(cycles), {face}, std::vector<std::size_t>(std::find(caps.begin(), caps.end(), face) != caps.end() ? 1 : 0)});
    return found;
}

/// Cuts a solid face by face. What lies above may not be wanted.
Caps cut_by_faces(Bench &bench, Solid solid, const Plane &plane, const Points &points, Solid above, bool is_wanted)
{
    const Held held(bench, Model::whole(bench, solid));
    const std::vector<Sheet> sheets = sheets_of(held.model);
    AllNames names(bench);
    const Combined lower = part_below(held, sheets, plane, points, solid, names);
    const Combined upper = is_wanted ? part_below(held, sheets, plane.turned(), points, above, names) : Combined();
    changing::change(bench, held.model, lower.model);
    if (is_wanted)
        rows::make(bench, rows_of(upper.model));
    return {lower.marked(0), upper.marked(0)};
}

/// Whether a face lies in a plane: beside it split would leave a seam.
bool has_face_in(const Model &model, const Plane &plane)
{
    return any(model.faces, [&](const auto &row) {
        const std::vector<Side> sides = joined(model.cycles(row.first));
        return !sides.empty() && lie_in(sides, plane);
    });
}

} // namespace

Caps split(Bench &bench, Solid solid, const gwb_cut_plane &row, Solid above)
{
    const Face before = bench.greatest<Face>();
    const Plane plane = Plane::of(row);
    bench.split(solid, row.a, row.b, row.c, row.d, above);
    const auto caps = [&](Solid part) {
        return filtered(bench.faces(part), [&](Face face) { return face > before && lie_in(joined(cycles_at(bench, face)), plane); });
    };
    return {caps(solid), caps(above)};
}

Caps cut(Bench &bench, Solid solid, const gwb_cut_plane &row, Solid above, bool is_wanted)
{
    const Plane plane = Plane::of(row);
    const Points points = points_in(bench, solid, plane);
    const Model before = points.empty() ? Model() : Model::whole(bench, solid);
    const bool has_level = has_face_in(before, plane);
    const std::size_t mark = gwb_mark(bench.handle());
    auto [caps, why] = tried([&] { return split(bench, solid, row, above); });
    constexpr std::array coped_with = {GWB_WHY_TOUCHED_FACE, GWB_WHY_CUT_OFTEN, GWB_WHY_CUT_CROSSED, GWB_WHY_BRANCHED_VERTEX, GWB_WHY_SECTION_HOLES};
    require(caps || any(coped_with, [&why = why](gwb_why one) { return why.is(one); }), why);
    if (caps && has_level)
        (void)gwb_back(bench.handle(), mark);
    if (!caps || has_level)
        return cut_by_faces(bench, solid, plane, points, above, is_wanted);
    for (std::size_t part = 0; !points.empty() && part < (is_wanted ? 2 : 1); part++)
        require_apart(faces_of(Model::whole(bench, part == 0 ? solid : above), (*caps)[part]), points, before);
    if (!is_wanted) {
        (*caps)[1].clear();
        take_away(bench, above);
    }
    return *caps;
}

} // namespace gwb_session::cuts
