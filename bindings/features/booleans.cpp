#include "booleans.hpp"
#include "arrangement.hpp"
#include "places.hpp"
#include "points.hpp"

namespace gwb_session::booleans {

namespace {

const Box everywhere{{-farthest, -farthest, -farthest}, {farthest, farthest, farthest}};

static_assert(steepest <= points::greatest_normal, "faces that are given fit what points are reckoned with");

arrangement::Made made_by(Operation operation)
{
    switch (operation) {
    case Operation::unite: return {{{{false, true}, {true, true}}}};
    case Operation::subtract: return {{{{false, false}, {true, false}}}};
    default: return {{{{false, false}, {false, true}}}, true};
    }
}

/// Whether a point that lies on no face of a solid lies within it: by what is known of its surface along the rays of is_bound().
bool is_within(const Bench &bench, const Surface &surface, const ScaledPoint &point)
{
    const Box octant = {box_of(point).low, {farthest, farthest, farthest}}; // into which the rays lead
    std::vector<Sheet> walls;
    for (const auto &[face, loops] : surface.near(bench, octant)) {
        require(surface.plane(face) != nullptr, refused(GWB_WHY_NOT_FLAT, face.number()));
        walls.push_back({surface.shape(face, loops), {face}, {}});
    }
    return is_bound(walls, point);
}

/// Whether so many faces of a solid are there that it may be worth while to leave out those that are far from the others.
bool is_large(const Bench &bench, Solid solid)
{
    std::size_t left = 64;
    const auto faces = bench.faces(solid);
    for (auto face = faces.begin(); face != faces.end() && left != 0; ++face)
        left--;
    return left == 0;
}

/// Whether there are numbers for what comes and goes again where solids are joined.
bool has_room_to_join(const Bench &bench)
{
    constexpr std::uint32_t most = greatest_number - 16;
    return bench.greatest<Face>().number() < most && bench.greatest<Loop>().number() < most && bench.greatest<Edge>().number() < most &&
           bench.greatest<Vertex>().number() < most;
}

/// A solid near a box, or whole: where a face of it may be refused, or where for a union it costs less to make it anew than to look at all of both solids.
Operand operand_near(Bench &bench, Operation operation, Solid first, Solid solid, const Box &box)
{
    Surroundings &known = Surroundings::of(bench);
    const Surface &surface = known.surface(bench, solid), &beside = known.surface(bench, first);
    if (operation == Operation::unite && surface.is_even() && beside.is_even() && has_room_to_join(bench)) {
        if (16 * (surface.size() - surface.count_near(box)) > surface.size() + beside.size())
            return {solid, box, true};
    }
    if (operation != Operation::unite && surface.is_even())
        return {solid, box, false};
    return {solid, std::nullopt, false, Model::whole(bench, solid)};
}

/// Solids that are made one: each is looked at near the others, but the first of what all have in common as a whole, and so are small ones.
std::vector<Operand> operands_of(Bench &bench, Operation operation, const std::vector<Solid> &solids)
{
    Surroundings &known = Surroundings::of(bench);
    std::vector<Operand> found;
    std::vector<Box> boxes;
    for (Solid solid : solids) {
        const bool is_read = found.empty() || is_large(bench, solid);
        found.push_back({solid, std::nullopt, found.empty(), is_read ? Model() : Model::whole(bench, solid)});
        boxes.push_back(is_read ? known.surface(bench, solid).box() : box_of(mapped(found.back().whole.vertices, [](const auto &row) { return row.second; })));
    }
    for (std::size_t at = 0; at < solids.size(); at++) {
        if (!found[at].whole.faces.empty())
            continue;
        Box near = boxes[at == 0 ? 1 : 0];
        for (std::size_t other = 0; other < solids.size(); other++)
            if (other != at)
                near.take(boxes[other]);
        if (at == 0)
            found[at].near = operation == Operation::intersect ? everywhere : near;
        else
            found[at] = operand_near(bench, operation, solids[0], solids[at], near);
    }
    return found;
}

/// The first solid becomes what is made of it and others, which go: only faces near those are looked at, of what all have in common all.
Combined combined_with(Bench &bench, Operation operation, const std::vector<Solid> &solids)
{
    const std::vector<Operand> operands = operands_of(bench, operation, solids);
    std::map<std::size_t, Solid> others;
    for (std::size_t at = 1; at < operands.size(); at++)
        if (operands[at].near)
            others[at] = solids[at];
    const Failure why = impossible(Misfit::meets, solids[0].number(), met(GWB_CAUSE_TOUCHES_ITSELF));
    return make_of(bench, operands, why, [&](const std::vector<std::vector<Sheet>> &sheets, const operands::Behind &behind) {
        return laid(bench, operation, solids[0], sheets, why, others, behind);
    });
}

/// The faces that regions became, with those that they are parts of.
Sources sources_of(const std::vector<Sheet> &regions)
{
    Sources found;
    for (const Sheet &region : regions)
        found[region.face].insert(region.owners.begin(), region.owners.end());
    return found;
}

} // namespace

std::vector<Sheet> laid(const Bench &bench, Operation operation, Solid first, const std::vector<std::vector<Sheet>> &operands, const Failure &why,
                        const std::map<std::size_t, Solid> &others, const operands::Behind &behind)
{
    require_flat(operands[0]);
    Surroundings &known = Surroundings::of(bench);
    std::vector<const Surface *> surfaces(operands.size(), nullptr);
    surfaces[0] = &known.surface(bench, first);
    for (const auto &[at, solid] : others)
        surfaces[at] = &known.surface(bench, solid);
    arrangement::Solids solids{operands, {everywhere}, [&](points::Number of, const ScaledPoint &point) {
        return surfaces[of] != nullptr ? is_within(bench, *surfaces[of], point) : is_bound(operands[of], point);
    }, behind};
    for (std::size_t at = 1; at < operands.size(); at++)
        solids.boxes.push_back(surfaces[at] != nullptr ? surfaces[at]->box() : operands[at].empty() ? everywhere : box_of(operands[at]));
    return arrangement::made_of(solids, made_by(operation), arrangement::Joins::of_two, why);
}

Sources combine(Bench &bench, Operation operation, std::vector<Solid> solids)
{
    for (Solid solid : solids)
        require_solid(bench, solid);
    return sources_of(combined_with(bench, operation, solids).regions);
}

Sources join_faces(Bench &bench, Solid solid)
{
    const Failure why = impossible(Misfit::meets, solid.number(), met(GWB_CAUSE_TOUCHES_ITSELF));
    const Model before = Model::whole(bench, solid);
    const std::vector<Sheet> sheets = sheets_of(before);
    require_flat(sheets);
    const std::vector<std::vector<Sheet>> operands = {sheets, {}};
    const arrangement::Solids solids{operands, {everywhere, everywhere}, [](points::Number, const ScaledPoint &) { return false; }};
    const auto [found, failure] = tried([&] {
        const auto regions = arrangement::made_of(solids, made_by(Operation::unite), arrangement::Joins::all, why);
        AllNames names(bench);
        return assembled(Held(bench, before, false), regions, names, solid, why);
    });
    if (!found)
        throw places::told(failure, {&before});
    if (found->model.edges.size() == before.edges.size())
        return {};
    changing::change(bench, before, found->model);
    return sources_of(found->regions);
}

void tell(const Sources &sources, std::vector<std::uint32_t> &list)
{
    std::map<Face, std::set<Face>> into;
    for (const auto &[part, known] : sources)
        for (Face face : known)
            into[face].insert(part);
    for (const auto &[face, parts] : into)
        for (Face part : parts)
            if (part != face || parts.size() > 1 || sources.at(part).size() > 1)
                list.insert(list.end(), {face.number(), part.number()});
}

} // namespace gwb_session::booleans
