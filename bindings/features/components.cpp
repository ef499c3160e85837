#include "components.hpp"

namespace gwb_session::components {

namespace {

/// Faces that hang together, with six times the room that they go round: below zero of a cavity.
struct Shell {
    std::vector<Face> faces;
    std::vector<Sheet> sheets;
    Wide size = 0;

    [[nodiscard]] bool is_cavity() const { return size < 0; }
};

/// Six times the volume of what lies between a face and a point.
Wide six_volume(const Sheet &sheet, const Vector &from)
{
    Wide sum = 0;
    const Vector &apex = sheet.sides[0].start;
    for (const Side &side : sheet.sides)
        sum += dot(cross(subtract(side.start, apex), subtract(side.end, apex)), subtract(apex, from));
    return sum;
}

/// The shells of a solid, by their least faces.
std::vector<Shell> shells_of(const Model &model)
{
    JoinedSets<Face> sets;
    std::map<Edge, Face> first;
    for (const auto &[face, loops] : model.faces) {
        go_on();
        for (Loop loop : loops)
            for (HalfEdge half : model.loops.at(loop)) {
                const auto [least, other] = std::minmax({sets.name(first.try_emplace(half.edge(), face).first->second), sets.name(face)});
                sets.join(least, other);
            }
    }
    std::map<Face, Shell> found;
    for (const Sheet &sheet : sheets_of(model)) {
        require(sheet.is_flat(), refused(GWB_WHY_NOT_FLAT, sheet.owners[0].number()));
        Shell &shell = found[sets.name(sheet.owners[0])];
        shell.faces.push_back(sheet.owners[0]);
        shell.sheets.push_back(sheet);
        shell.size += six_volume(sheet, model.vertices.begin()->second);
    }
    return mapped(found, [](const auto &named) { return named.second; });
}

/// Whether a shell lies within another one: told by a point of it that isn't on that.
bool lies_in(const Shell &shell, const Shell &other)
{
    const auto is_in = [&](const ScaledPoint &point) { return is_bound(other.sheets, point); };
    const auto is_off = [&](const ScaledPoint &point) {
        return !any(other.sheets, [&](const Sheet &wall) { return wall.height(point) == 0 && wall.locate(point) != Place::outside; });
    };
    for (const Sheet &sheet : shell.sheets) {
        go_on();
        for (const Side &side : sheet.sides)
            if (is_off({side.start}))
                return is_in({side.start});
    }
    for (const Sheet &sheet : shell.sheets)
        if (const std::optional<ScaledPoint> inner = sheet.inner_point(); inner && is_off(*inner))
            return is_in(*inner);
    return false;
}

/// The place of the shell that holds a cavity, the smallest around it: its own where there is none.
std::size_t holder_of(const std::vector<Shell> &shells, std::size_t cavity)
{
    std::size_t found = cavity;
    for (std::size_t at = 0; at < shells.size(); at++) {
        const bool is_nearer = !shells[at].is_cavity() && (found == cavity || shells[at].size < shells[found].size);
        if (is_nearer && lies_in(shells[cavity], shells[at]))
            found = at;
    }
    return found;
}

/// The components of a solid, as the faces of each, by their least faces.
std::vector<std::vector<Face>> components_of(const Model &model)
{
    const std::vector<Shell> shells = shells_of(model);
    std::map<std::size_t, std::vector<Face>> held;
    for (std::size_t at = 0; at < shells.size(); at++)
        append(held[shells[at].is_cavity() ? holder_of(shells, at) : at], shells[at].faces);
    auto found = mapped(held, [](const auto &row) { return row.second; });
    const auto least = [](const std::vector<Face> &faces) { return *std::min_element(faces.begin(), faces.end()); };
    std::sort(found.begin(), found.end(), [&](const auto &a, const auto &b) { return least(a) < least(b); });
    return found;
}

} // namespace

std::vector<Solid> separate(Bench &bench, Solid solid)
{
    const Model model = Model::whole(bench, solid);
    const auto components = components_of(model);
    std::vector<Solid> solids = {solid};
    if (components.size() == 1)
        return solids;
    AllNames names(bench);
    while (solids.size() < components.size())
        solids.push_back(names.solids.take());
    names.require_enough();
    take_away(bench, solid);
    for (std::size_t at = 0; at < components.size(); at++)
        rows::make(bench, rows_of(model, components[at], solids[at]));
    return solids;
}

} // namespace gwb_session::components
