#include "combining.hpp"
#include "places.hpp"
#include "untouched.hpp"

namespace gwb_session::combining {

namespace {

// ---- what lies near

/// Faces of a solid, as a model and as sheets, and those of them of which some rings aren't there.
struct Part {
    Model model;
    std::set<Face> fast;
    std::vector<Sheet> sheets;
};

/// Reads a face into a part, with these of its loops: of those of a flat face that aren't wanted what lies near.
void read_face(const Bench &bench, const Surface &surface, Face face, const std::vector<Loop> &loops, const Box &box, const std::set<Loop> &wanted, Part &to)
{
    const Plane *plane = surface.plane(face);
    const auto read = [&](Loop loop) {
        const bool is_whole = plane == nullptr || wanted.count(loop) != 0;
        Chain::Near near;
        if (is_whole)
            near.sides = surface.chain(loop).sides();
        else
            near = surface.chain(loop).near(box);
        is_whole ? to.model.read(bench, loop) : to.model.read(bench, loop, near);
        const auto least = std::min_element(near.sides.begin(), near.sides.end(), [](const Side &one, const Side &other) { return one.half < other.half; });
        std::rotate(near.sides.begin(), least, near.sides.end());
        return std::move(near.sides);
    };
    to.model.faces.put(face, loops);
    const std::vector<Cycle> cycles = mapped(loops, read);
    if (surface.is_even())
        to.sheets.push_back({Shape(*plane, cycles), {face}, {}});
}

/// A loop of a face comes to others.
void put(NearFaces &faces, Face face, Loop loop)
{
    const auto is_before = [](const auto &near, Face of) { return near.first < of; };
    auto at = std::lower_bound(faces.begin(), faces.end(), face, is_before);
    if (at == faces.end() || at->first != face)
        at = faces.insert(at, {face, {}});
    at->second.push_back(loop);
    make_rise(at->second);
}

/// A solid so far as the outlines of its faces meet a box or are wanted.
untouched::NearSolid solid_near(const Bench &bench, const Operand &operand, const std::set<Loop> &wanted)
{
    const Surface &surface = Surroundings::of(bench).surface(bench, operand.solid);
    untouched::NearSolid found{&surface, surface.near(bench, *operand.near), operand.stays};
    for (Loop loop : wanted)
        if (const Face face = bench.face_of(loop); bench.face(face).solid == operand.solid)
            put(found.faces, face, loop);
    found.faces = filtered(found.faces, [&](const auto &near) { return has(near.second, bench.face(near.first).outer_loop); });
    return found;
}

/// Those of its faces that are to be looked at, without the other rings where the face looks the same way without them.
Part part_near(const Bench &bench, const untouched::NearSolid &near, const Operand &operand, const std::set<Loop> &wanted, const untouched::Alike &alike)
{
    Part found{Model(operand.solid), {}, {}};
    const Surface &surface = *near.surface;
    for (const auto &[face, loops] : near.faces) {
        if (has(alike.others, face))
            continue;
        const Loop outer = bench.face(face).outer_loop;
        const Plane *plane = surface.plane(face);
        const bool needs_all = plane == nullptr || dot(plane->across, surface.chain(outer).area()) <= 0;
        const auto rings = bench.rings(face);
        const bool is_fast = !needs_all && any(rings, [&near = loops](Loop ring) { return !has(near, ring); });
        if (is_fast)
            found.fast.insert(face);
        std::vector<Loop> read = {outer};
        if (is_fast)
            std::copy_if(loops.begin(), loops.end(), std::back_inserter(read), [&](Loop ring) { return ring != outer; });
        else
            read.insert(read.end(), rings.begin(), rings.end());
        read_face(bench, surface, face, read, *operand.near, wanted, found);
    }
    found.model.read_edges(bench);
    return found;
}

/// The parts of solids.
struct Parts {
    std::vector<Part> all;
    std::set<Face> fast; ///< of those that stay
    std::set<Loop> far;  ///< loops of those of which some isn't in the part
    untouched::Alike alike;

    Parts(const Bench &bench, const std::vector<Operand> &operands, const std::set<Loop> &wanted)
    {
        std::vector<untouched::NearSolid> near;
        for (const Operand &operand : operands)
            near.push_back(operand.near ? solid_near(bench, operand, wanted) : untouched::NearSolid());
        const bool are_even = gwb_session::all(near, [](const auto &solid) { return solid.surface != nullptr && solid.surface->is_even(); });
        if (near.size() > 1 && are_even)
            alike = untouched::faces_alike(bench, near, wanted);
        for (std::size_t at = 0; at < operands.size(); at++)
            if (operands[at].near)
                put(part_near(bench, near[at], operands[at], wanted, alike), operands[at].stays);
            else
                put({operands[at].whole, {}, {}}, operands[at].stays);
    }
    [[nodiscard]] std::vector<const Model *> models() const
    {
        return mapped(all, [](const Part &part) { return &part.model; });
    }
    /// The model of them all, or of those that stay, with the faces that are gone and weren't looked at.
    [[nodiscard]] Model joined(const Bench &bench, const std::vector<Operand> &operands, const std::vector<Face> &gone, bool has_all) const
    {
        Model found(operands[0].solid);
        for (std::size_t at = 0; at < operands.size(); at++)
            if (has_all || operands[at].stays)
                found.take_in(all[at].model);
        for (Face face : gone)
            found.read(bench, face);
        found.read_edges(bench);
        return found;
    }
    /// The faces that weren't looked at, and go as those that they are like are none of what is made.
    [[nodiscard]] std::vector<Face> gone_from(const std::vector<Sheet> &made) const
    {
        std::vector<Face> left, found;
        for (const Sheet &region : made)
            append(left, region.owners);
        make_rise(left);
        for (const auto &[face, others] : alike.of)
            if (!has(left, face))
                append(found, others);
        make_rise(found);
        return found;
    }

private:
    void put(Part &&part, bool stays)
    {
        for (const auto &[loop, halves] : part.model.loops)
            if (stays && any(halves, is_run))
                far.insert(loop);
        if (stays)
            fast.insert(part.fast.begin(), part.fast.end());
        all.push_back(std::move(part));
    }
};

// ---- what is made

/// Whether all faces of the solids that stay are in a model.
bool has_all_faces(const Bench &bench, const std::vector<Operand> &operands, const Model &model)
{
    return all(operands, [&](const Operand &operand) {
        return !operand.stays || all(bench.faces(operand.solid), [&](Face face) { return model.faces.has(face); });
    });
}

/// What solids become, and the parts of those that stay as they were.
struct Changed : Combined {
    Model before;
};

/// Parts of solids with what is laid on their faces, which may be those of each other. Not possible: NothingLeft; what `lay` says.
Changed combined(const Bench &bench, const std::vector<Operand> &operands, Parts &parts, AllNames &names, const Failure &why, const Lay &lay)
{
    std::vector<std::vector<Sheet>> sheets(operands.size());
    const auto take = [&](std::size_t at) { sheets[at] = !parts.all[at].sheets.empty() ? std::move(parts.all[at].sheets) : sheets_of(parts.all[at].model); };
    for (std::size_t at = 1; at < operands.size(); at++) {
        take(at);
        require_flat(sheets[at]);
    }
    take(0);
    const std::vector<Sheet> regions = lay(sheets, parts.alike.behind);
    const Solid solid = operands[0].solid;
    const std::vector<Face> gone_alike = parts.gone_from(regions);
    Model joined = parts.joined(bench, operands, gone_alike, true);
    if (regions.empty() && has_all_faces(bench, operands, joined))
        throw impossible(Misfit::nothing_left, solid.number());
    std::set<Solid> gone;
    for (const Operand &operand : operands)
        if (!operand.stays)
            gone.insert(operand.solid);
    Held held(bench, std::move(joined), true, gone);
    Combined made = assembled(held, regions, names, solid, why);
    return {std::move(made), gone.empty() ? std::move(held.model) : parts.joined(bench, operands, gone_alike, false)};
}

/// Puts in the steps that move rings of a face that weren't looked at to the faces that it went into, where these are several. Whether the face is one
/// of them, and no ring has all of its corners on outlines.
bool put_moves(const Bench &bench, const Surface &surface, Face face, const std::vector<Loop> &looked_at, const Combined &combined,
               rows::Steps &moves)
{
    std::map<Face, const Sheet *> became;
    for (const Sheet &region : combined.regions)
        if (any(region.owners, [&](Face owner) { return owner == face; }))
            became.emplace(region.face, &region);
    const auto is_moved = [&](Loop ring) {
        go_on();
        if (std::binary_search(looked_at.begin() + 1, looked_at.end(), ring))
            return true;
        const auto around = std::find_if(became.begin(), became.end(), [&](const auto &region) {
            return any(surface.chain(ring).sides(), [&](const Side &side) { return region.second->locate({side.start}) == Place::inside; });
        });
        if (around != became.end() && around->first != face)
            moves.push_back({rows::Operator::ringmv, {ring.number(), around->first.number()}});
        return around != became.end();
    };
    return became.count(face) != 0 && (became.size() == 1 || all(bench.rings(face), is_moved));
}

/// The steps that turn parts of solids, which are one by then, into what comes of them; none where they aren't of the kind, or rings not looked at are in
/// the way.
std::optional<rows::Steps> steps_for(const Bench &bench, const std::vector<Operand> &operands, const Parts &parts, const Changed &combined)
{
    const Model &old = combined.before, &made = combined.model;
    if (std::tie(old.faces, old.loops, old.edges, old.vertices) == std::tie(made.faces, made.loops, made.edges, made.vertices))
        return rows::Steps();
    rows::Steps moves;
    for (std::size_t at = 0; at < operands.size(); at++) {
        const auto are_put = [&, &part = parts.all[at]](Face face) {
            return put_moves(bench, Surroundings::of(bench).surface(bench, operands[at].solid), face, part.model.faces.at(face), combined, moves);
        };
        if (operands[at].stays && !all(parts.all[at].fast, are_put))
            return std::nullopt;
    }
    auto steps = changing::steps_between(bench, old, made, parts.fast);
    if (steps)
        append(*steps, moves);
    return steps;
}

/// The loops that are wanted besides a part's, where no steps make of it what is to come: those along which edges at its rim become one, and the
/// outlines around them; where there are none, all of those of which it has what is near, or the rings that it lacks.
std::set<Loop> wanted_besides(const Bench &bench, const Parts &parts, const Combined &combined)
{
    std::set<Loop> found;
    for (HalfEdge half : combined.beyond)
        found.insert({bench.loop_of(half), bench.face(bench.face_of(half)).outer_loop});
    if (found.empty())
        found = parts.far;
    for (Face face : found.empty() ? parts.fast : std::set<Face>()) {
        const auto rings = bench.rings(face);
        found.insert(rings.begin(), rings.end());
    }
    return found;
}

/// What is known of a solid's surface follows what a part of it became.
void follow(Surface &surface, const Model &part, const Model &made)
{
    const auto is_in = [](const Model &model, Face face, const Model &other) {
        const auto is_same = [&](Loop loop) {
            const std::vector<HalfEdge> &halves = model.loops.at(loop);
            return other.loops.at(loop) == halves && all(halves, [&](HalfEdge half) { return other.at(half) == model.at(half); });
        };
        const std::vector<Loop> *loops = other.faces.find(face);
        return loops != nullptr && *loops == model.faces.at(face) && all(*loops, is_same);
    };
    for (const auto &[face, loops] : part.faces)
        if (!is_in(part, face, made))
            surface.forget(face, loops);
    for (const auto &[face, loops] : made.faces)
        if (!is_in(made, face, part))
            surface.put(face, loops, made.cycles(face));
}

/// The faces of another solid become those of a first one: by a triangle beside each, which are glued and go again.
class Joining {
public:
    Joining(Bench &bench, AllNames &names) : bench_(bench), names_(names) {}

    void join(Solid first, Solid other)
    {
        const Triangle own = put(first), beside = put(other);
        bench_.glue(own.front, beside.back);
        bench_.kef(plus(own.edges[2]));
        const Face left = bench_.face_of(plus(own.edges[0]));
        const Loop loop = bench_.loop_of(plus(own.edges[0]));
        for (std::size_t at : {1, 0})
            bench_.kev(plus(own.edges[at]));
        bench_.kfmrh(own.face, left);
        bench_.mekr(own.corner, lone(loop), own.spur);
        bench_.kev(plus(own.spur));
    }

private:
    /// Two faces back to back as a shell of their own, and where they grew: at a corner of a face, by an edge that went again.
    struct Triangle {
        Face face;
        HalfEdge corner;
        Edge spur;
        std::array<Edge, 3> edges;
        Face front, back;
    };

    Triangle put(Solid solid)
    {
        const Face face = *bench_.faces(solid).begin();
        const Triangle made{face, *bench_.half_edges(bench_.face(face).outer_loop).begin(), names_.edges.spare(),
                            {names_.edges.spare(), names_.edges.spare(), names_.edges.spare()}, names_.faces.spare(), names_.faces.spare()};
        bench_.mev(made.corner, made.corner, made.spur, names_.vertices.spare(), {0, 0, 0});
        HalfEdge last = minus(made.spur);
        for (std::size_t at : {0, 1}) {
            bench_.mev(last, last, made.edges[at], names_.vertices.spare(), at == 0 ? Point{1, 0, 0} : Point{0, 1, 0});
            last = minus(made.edges[at]);
        }
        bench_.mef(plus(made.edges[0]), last, made.edges[2], made.front, names_.loops.spare());
        const Loop ring = names_.loops.spare();
        bench_.kemr(plus(made.spur), ring);
        bench_.mfkrh(ring, made.back);
        return made;
    }

    Bench &bench_;
    AllNames &names_;
};

/// The other solids go, or are joined with the first one.
void put_together(Bench &bench, const std::vector<Operand> &operands, AllNames &names)
{
    for (auto other = operands.begin() + 1; other != operands.end(); ++other)
        if (other->stays)
            Joining(bench, names).join(operands[0].solid, other->solid);
        else
            take_away(bench, other->solid);
}

/// What is known of the solids follows that.
void follow(Bench &bench, Surroundings &known, const std::vector<Operand> &operands, const Model &before, const Model &made)
{
    known.follow(bench, operands[0].solid, [&](Surface &of) {
        for (auto other = operands.begin() + 1; other != operands.end(); ++other)
            other->stays ? known.join(operands[0].solid, other->solid) : known.forget(other->solid);
        follow(of, before, made);
    });
}

} // namespace

bool is_bound(const std::vector<Sheet> &walls, const ScaledPoint &point)
{
    if (any(walls, [&](const Sheet &wall) { return wall.height(point) == 0 && wall.locate(point) != Place::outside; }))
        return false;
    for (Wide k = 3;; k++) {
        std::size_t passed = 0;
        const auto meets_edge = [&](const Sheet &wall) {
            const Place place = wall.hit(point, {1, k, k * k});
            passed += place == Place::inside ? 1 : 0;
            return place == Place::on;
        };
        if (!any(walls, meets_edge))
            return passed % 2 != 0;
    }
}

std::vector<Sheet> sheets_of(const Model &model)
{
    std::vector<Sheet> sheets;
    for (const auto &[face, loops] : model.faces) {
        go_on();
        const std::vector<Cycle> cycles = model.cycles(face);
        const std::vector<Side> sides = joined(cycles);
        const Vector across = reduced(area_of(sides));
        if (any(cycles, [](const Cycle &cycle) { return cycle.empty(); }) || !have_lengths(sides) || is_zero(across) || longest(across) > steepest)
            throw refused(GWB_WHY_NOT_FLAT, face.number());
        sheets.push_back({Shape(cycles), {face}, {}});
    }
    return sheets;
}

void require_flat(const std::vector<Sheet> &sheets)
{
    for (const Sheet &sheet : sheets)
        require(sheet.is_flat(), refused(GWB_WHY_NOT_FLAT, sheet.owners[0].number()));
}

Combined make_of(Bench &bench, const std::vector<Operand> &operands, const Failure &why, const Lay &lay)
{
    Surroundings &known = Surroundings::of(bench);
    for (std::set<Loop> wanted, more;; wanted.merge(more)) {
        Parts parts(bench, operands, wanted);
        AllNames names(bench);
        Tried<Changed> found;
        try {
            found = tried([&] { return combined(bench, operands, parts, names, why, lay); });
        } catch (const FarInTheWay &) {
            more = parts.far;
            continue;
        }
        if (!found.made) // (what was thrown is caught: nothing may be thrown meanwhile)
            throw places::told(found.why, parts.models());
        Changed &made = *found.made;
        const auto steps = made.beyond.empty() ? steps_for(bench, operands, parts, made) : std::nullopt;
        if (!steps && !(more = wanted_besides(bench, parts, made)).empty())
            continue;
        put_together(bench, operands, names);
        if (steps) {
            rows::give(bench, *steps);
            follow(bench, known, operands, made.before, made.model);
        } else {
            make_anew(bench, Model::whole(bench, operands[0].solid).with(made.before, made.model));
        }
        return std::move(made);
    }
}

} // namespace gwb_session::combining
