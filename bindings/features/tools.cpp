#include "tools.hpp"
#include "meeting.hpp"

namespace gwb_session::tools {

namespace {

using Ends = std::pair<Vector, Vector>;

/// Numbers of faces and edges from here on are a tool's, and the model's none.
constexpr std::uint32_t own = greatest_number + 1;

/// Gives the sides of parts half-edges: two of a part that run along each other are of one edge.
class Numbering {
public:
    void put(const std::vector<Cycle *> &part)
    {
        std::multimap<Ends, Side *> open;
        for (Cycle *cycle : part)
            for (Side &side : *cycle)
                pair(side, open);
    }

private:
    void pair(Side &side, std::multimap<Ends, Side *> &open)
    {
        const auto mate = open.find({side.end, side.start});
        if (mate == open.end()) {
            open.emplace(Ends{side.start, side.end}, &side);
            return;
        }
        mate->second->half = HalfEdge(2 * (own + edges_++));
        side.half = mate->second->half.twin();
        open.erase(mate);
    }

    std::uint32_t edges_ = 0;
};

/// The sides of an outline. Refused: PointRange.
Cycle sides_of(const Path &outline)
{
    require(all(outline, is_in_range), refused(GWB_WHY_POINT_RANGE, 0));
    return filtered(cycle_of(outline), [](const Side &side) { return side.start != side.end; }); // (points may stand for others too)
}
/// A face with these sides. Refused: NotFlat.
Sheet sheet_of(const Cycle &cycle, Face number)
{
    const Sheet made{Shape({cycle}), {number}, {}};
    require(made.is_flat() && longest(made.plane.across) <= steepest, refused(GWB_WHY_NOT_FLAT, 0));
    return made;
}

/// The parts of a tool as sheets with numbers of their own.
std::vector<std::vector<Sheet>> sheets_of_parts(const Tool &tool)
{
    std::vector<Cycle> cycles = mapped(tool, [](const Wall &wall) { return sides_of(wall.path); });
    std::map<std::size_t, std::vector<Cycle *>> parts;
    for (std::size_t at = 0; at < tool.size(); at++)
        parts[tool[at].part].push_back(&cycles[at]);
    Numbering numbering;
    for (const auto &[part, of_part] : parts)
        numbering.put(of_part);
    std::vector<std::vector<Sheet>> sheets(parts.size());
    for (std::size_t at = 0; at < tool.size(); at++)
        sheets[tool[at].part].push_back(sheet_of(cycles[at], Face(own + static_cast<std::uint32_t>(at))));
    return sheets;
}

/// Whether a lid in the plane of a face lies in it: somewhere, or everywhere.
bool lies_in_face(const Bench &bench, Face face, const Sheet &lid, Lies lies)
{
    const Surface &surface = Surroundings::of(bench).surface(bench, bench.face(face).solid);
    const auto near = mapped(surface.near(bench, face, lid.box), [&](Loop loop) { return surface.chain(loop).near(lid.box); }); // (which has their runs)
    if (near.empty())
        return false;
    const Shape shape(*surface.plane(face), mapped(near, [](const Chain::Near &loop) { return loop.sides; }));
    const std::vector<std::vector<Sheet>> both = {{{shape, {face}, {}}}, {lid}};
    const bool are_turned = both[0][0].plane.across != lid.plane.across;
    operands::Operands all(both); // (which points to them)
    pieces::Pieces pieces(all);
    const meeting::Meetings meetings = meeting::meet(all);
    pieces.put_edges();
    for (const auto &[one, other] : meetings.in_plane)
        pieces.put_in_plane(one, other);
    bool is_in = false, is_off = false;
    for (const pieces::Piece &piece : pieces.all())
        for (bool is_left : {false, true}) {
            const auto has = [&](points::Number solid, bool left) {
                return any(piece.wings, [&](const auto &wing) { return all.faces[wing.face].solid == solid && wing.is_left == left; });
            };
            if (has(1, is_left))
                (has(0, is_left != are_turned) ? is_in : is_off) = true;
        }
    return lies == Lies::everywhere ? !is_off : is_in;
}

/// Takes the tool's numbers off a region, and puts the marks in their place.
void put_marks(Sheet &region, const Tool &tool)
{
    const auto is_own = [](const Side &side) { return side.run == nullptr && side.half.edge().number() >= own; };
    for (Face owner : std::exchange(region.owners, {}))
        if (owner.number() < own)
            region.owners.push_back(owner);
        else if (const std::size_t mark = tool[owner.number() - own].mark; mark != unmarked)
            region.marks.push_back(mark);
    if (!any(region.sides, is_own))
        return;
    const auto without = [&](const Side &side) { return is_own(side) ? Side{side.start, side.end} : side; };
    const std::vector<Cycle> cycles = mapped(region.cycles, [&](const Cycle &cycle) { return mapped(cycle, without); });
    static_cast<Shape &>(region) = Shape(region.plane, cycles);
}

} // namespace

void require_near(const Bench &bench, Face face, Box box, Wide around)
{
    const Vector margin = {around, around, around};
    box = {subtract(box.low, margin), add(box.high, margin)};
    const Surface &surface = Surroundings::of(bench).surface(bench, bench.face(face).solid);
    require(!surface.near(bench, face, box).empty(), impossible(Misfit::outline_outside, face.number(), met(GWB_CAUSE_WHOLLY_OUTSIDE)));
}

void require_lid(const Bench &bench, Face face, const Path &outline, Lies lies, const gwb_hit_row &hit)
{
    Cycle sides = sides_of(outline);
    for (std::size_t at = 0; at < sides.size(); at++)
        sides[at].half = HalfEdge(2 * (own + static_cast<std::uint32_t>(at)));
    const Sheet lid = sheet_of(sides, Face(own));
    require(lies_in_face(bench, face, lid, lies), impossible(Misfit::outline_outside, face.number(), hit));
}

Combined change(Bench &bench, Operation operation, Face face, const Tool &tool)
{
    std::vector<std::vector<Sheet>> operands = sheets_of_parts(tool);
    const Box box = box_of(joined(operands));
    operands.insert(operands.begin(), std::vector<Sheet>());
    const Solid solid = bench.face(face).solid;
    const Failure meets = impossible(Misfit::meets, face.number(), met(GWB_CAUSE_SELF_TOUCH, solid));
    const auto lay = [&](const std::vector<std::vector<Sheet>> &held, const operands::Behind &) {
        operands[0] = held[0];
        std::vector<Sheet> regions = laid(bench, operation, solid, operands, meets);
        for (Sheet &region : regions)
            put_marks(region, tool);
        return regions;
    };
    return make_of(bench, {{solid, box, true}}, meets, lay);
}

} // namespace gwb_session::tools
