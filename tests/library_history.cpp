// Tries gwb_history.hpp: what commands made, removed and split, and values on faces and edges that follow it. The last line counts.
#include "checks.h"
#include "gwb_features.hpp"
#include "gwb_history.hpp"
#include <array>
#include <cstdlib>
#include <functional>
#include <iostream>
#include <map>
#include <numeric>
#include <string>

using namespace gwb_session;

template <class Kind> static std::vector<std::array<std::uint32_t, 2>> told(const std::vector<Change<Kind>> &changes)
{
    std::vector<std::array<std::uint32_t, 2>> found;
    for (const Change<Kind> &change : changes)
        found.push_back({change.id.number(), change.other.number()});
    return found;
}

using Told = std::vector<std::array<std::uint32_t, 2>>;

static void try_operators()
{
    Workbench bench;
    const Solid block = bench.block({0, 0, 0}, {4, 4, 4});
    Changes changes = follow(bench, [&] { bench.mef(plus(Edge(7)), plus(Edge(11)), Edge(20), Face(20), Loop(20)); });
    check(told(changes.faces.made) == Told{{20, 1}} && changes.faces.removed.empty(), "a face that is split from another");
    check(told(changes.edges.made) == Told{{20, 0}} && changes.edges.removed.empty(), "an edge across a face");
    changes = follow(bench, [&] { bench.kef(plus(Edge(20))); });
    check(changes.faces.made.empty() && told(changes.edges.removed) == Told{{20, 0}}, "an edge that goes");
    check(changes.faces.removed.size() == 1 && changes.faces.removed[0].other != Face(), "a face that is joined to another");
    // edge 7 is divided half way: what starts round its first vertex, but for itself, starts at the new one
    const Point from = bench.vertex(bench.start_of(plus(Edge(7)))), to = bench.vertex(bench.end_of(plus(Edge(7))));
    const Point middle = {(from.x + to.x) / 2, (from.y + to.y) / 2, (from.z + to.z) / 2};
    changes = follow(bench, [&] { bench.mev(plus(Edge(7)), bench.next(minus(Edge(7))), Edge(30), Vertex(30), middle); });
    check(told(changes.edges.made) == Told{{30, 7}} && changes.faces.made.empty(), "an edge that is divided");
    changes = follow(bench, [&] { bench.block({9, 9, 9}, {1, 1, 1}); });
    check(changes.faces.made.size() == 6 && changes.edges.made.size() == 12 && changes.faces.made[0].other == Face(), "what a block makes");
    check(bench.count(block).faces == 6, "the block is there");
}

// A follow in another: each tells what came in it.
static void try_nested()
{
    Workbench bench;
    const Block block = bench.block({0, 0, 0}, {4, 4, 4});
    Notes<Face, int> outer(bench), inner(bench);
    outer[block.sides[0]] = inner[block.top] = 7;
    Changes within;
    const Changes changes = follow(
        bench,
        [&] {
            bench.split(block.solid, 0, 0, 1, -2);
            within = follow(bench, [&] { bench.block({9, 9, 9}, {1, 1, 1}); }, inner);
            auto attempts = bench.attempt();
            check(!kill_solid(attempts, Solid()), "a call that is refused");
        },
        outer);
    check(within.faces.made.size() == 6 && changes.faces.made.size() == 12, "what came in each");
    check(outer.all().size() == 2 && inner.all().size() == 1, "the notes of both");
}

// The plane of a face with its coefficients divided by what they have in common: faces on one plane that look one way have the same.
static std::array<std::int64_t, 4> plane_of(const Workbench &bench, Face face)
{
    const gwb_plane plane = bench.plane(face);
    std::array<std::int64_t, 4> parts = {narrow(plane.a), narrow(plane.b), narrow(plane.c), narrow(plane.d)};
    const std::int64_t common = std::gcd(std::gcd(parts[0], parts[1]), std::gcd(parts[2], parts[3]));
    for (std::int64_t &part : parts)
        part /= common;
    return parts;
}

using Colours = Notes<Face, std::array<std::int64_t, 4>>;

// Each face that has a colour lies on the plane that it was given for; the others lie on one of the planes that cut.
static bool are_right(const Workbench &bench, const Colours &colours, std::size_t coloured, std::size_t all)
{
    std::size_t with = 0, faces = 0;
    for (Face face : bench.numbers<Face>()) {
        faces++;
        if (const auto *colour = colours.find(face))
            with += *colour == plane_of(bench, face);
    }
    return with == coloured && faces == all && colours.all().size() == coloured;
}

// A block with a pocket, whose faces are coloured by their planes, is cut, and cut again through the pocket and across a corner.
static void try_splits()
{
    Workbench bench;
    const Solid block = bench.block({0, 0, 0}, {12, 12, 12});
    Colours colours(bench);
    Notes<Edge, int> marks(bench);
    for (Face face : bench.faces(block))
        colours[face] = plane_of(bench, face);
    marks[Edge(7)] = 7;
    follow(bench, [&] { bench.split(block, 0, 0, 1, -6, Solid(2)); }, colours, marks);
    check(are_right(bench, colours, 10, 12), "four faces of six are cut, and have their colours on both sides");
    follow(bench, [&] { bench.split(Solid(2), 1, 0, 0, -6, Solid(3)); }, colours, marks);
    check(are_right(bench, colours, 13, 18), "so they are cut again");
    check(marks.all().size() == 2 && marks.find(Edge(7)) != nullptr, "an edge that is cut has its mark on both parts");
    follow(bench, [&] { bench.split(Solid(3), 1, 1, 1, -34, Solid(4)); }, colours, marks);
    check(are_right(bench, colours, 16, 23), "a corner that is cut off has the colours of its faces");
    const Colours whole = colours;
    follow_undo(bench);
    follow_undo(bench);
    check(are_right(bench, colours, 10, 12), "undo leaves one side");
    follow_redo(bench);
    follow_redo(bench);
    check(are_right(bench, colours, 16, 23) && colours.all() == whole.all(), "redo gives back what was there");
}

// Faces that a gluing takes have their colours back when it is undone, and not when their numbers are used again.
static void try_gone()
{
    Workbench bench;
    bench.block(Solid(1), {0, 0, 0}, {4, 4, 4});
    bench.block(Solid(2), {0, 0, 4}, {4, 4, 4});
    Notes<Face, std::string> names(bench);
    names[Face(1)] = "top", names[Face(8)] = "bottom", names[Face(3)] = "side";
    const Changes changes = follow(bench, [&] { bench.glue(Face(1), Face(8)); }, names);
    check(told(changes.faces.removed).size() == 2 && names.all().size() == 1 && changes.edges.removed.size() == 4, "what a gluing removes");
    follow_undo(bench);
    check(names.all().size() == 3 && *names.find(Face(1)) == "top", "undo gives their names back");
    follow_redo(bench);
    bench.undo();
    follow(bench, [&] { bench.undo(); bench.block(Solid(2), {0, 0, 4}, {2, 2, 2}); }, names);
    check(names.find(Face(8)) == nullptr && *names.find(Face(3)) == "side", "another face of the same number has no name");
    Draft draft = bench.draft();
    follow(bench, [&] { bench.mef(plus(Edge(5)), bench.next(bench.next(plus(Edge(5)))), Edge(90), Face(90), Loop(90)); }, names);
    check(bench.face(Face(90)).solid == Solid(1), "notes follow the steps of a draft");
}

// A number that comes again has the value that it had when it went by that command, and none of another command.
static void try_numbers_used_again()
{
    Workbench bench;
    const Solid block = bench.block({0, 0, 0}, {4, 4, 4});
    Notes<Face, std::string> colours(bench);
    colours[Face(3)] = "red";
    follow(bench, [&] { bench.split(block, 0, 0, 1, -2); }, colours);
    follow_undo(bench);
    colours.erase(Face(3));
    follow(bench, [&] { bench.block({40, 0, 0}, {4, 4, 4}); }, colours);
    follow_undo(bench);
    follow_redo(bench);
    check(colours.all().empty(), "a block that has the numbers of a part has no colour of it");

    Workbench other;
    other.block({0, 0, 0}, {4, 4, 4});
    Notes<Face, std::string> names(other);
    names[Face(1)] = "red";
    follow(other, [&] { kill_solid(other, Solid(1)); }, names);
    follow(other, [&] { other.block(Solid(1), {9, 9, 9}, {4, 4, 4}); }, names);
    follow(other, [&] { kill_solid(other, Solid(1)); }, names);
    follow_undo(other);
    check(names.all().empty(), "nor has one with the numbers of one that is gone");
    follow_undo(other);
    follow_undo(other);
    check(names.all().size() == 1 && *names.find(Face(1)) == "red", "which has it when it is there again");
    follow_redo(other);
    follow_redo(other);
    names[Face(1)] = "blue";
    follow_redo(other);
    follow_undo(other);
    check(*names.find(Face(1)) == "blue", "the colour that it had when it went");
    other.undo();
    other.undo();
    follow(other, [&] { (void)other.mvfs({30, 0, 0}); }, names);
    follow_undo(other);
    check(!names.find(Face(7)), "commands that nothing followed");
}

// What came and went where nobody could see it: in a draft that was given up, and in one follow or draft.
static void try_gone_unseen()
{
    Workbench bench;
    Notes<Face, std::string> colours(bench);
    Block block{};
    follow(bench, [&] {
        const Draft draft = bench.draft();
        block = bench.block({0, 0, 0}, {4, 4, 4});
        colours[block.top] = "red";
    }, colours);
    check(colours.find(block.top) == nullptr && birth(bench, block.top) == 0, "what was made in a draft that is given up has no colour");
    follow(bench, [&] { block = bench.block({90, 0, 0}, {9, 9, 9}); }, colours);
    check(block.top == Face(1) && colours.all().empty(), "nor has what has its number then");
    follow(bench, [&] {
        const Block other = bench.block({30, 0, 0}, {4, 4, 4});
        colours[other.top] = "red";
        kill_solid(bench, other);
    }, colours);
    const Block third = bench.block({60, 0, 0}, {4, 4, 4});
    check(third.top == Face(7) && colours.find(third.top) == nullptr, "what was made, coloured and killed in one follow");
    colours[third.top] = "blue";
    Changes changes = follow(bench, [&] {
        Draft draft = bench.draft();
        kill_solid(bench, third);
        (void)bench.block(third.solid, {-60, 0, 0}, {4, 4, 4});
        draft.commit();
    }, colours);
    check(colours.find(third.top) == nullptr, "what was killed, and another made, in one draft");
    check(changes.faces.made.size() == 6 && changes.faces.removed.size() == 6 && changes.faces.made[0].id == third.top, "and both are told");
    bench.undo();
    check(colours.find(third.top) != nullptr && colours.all().at(third.top) == "blue", "it has its colour again, though nobody followed");
    bench.redo();
    check(colours.all().empty(), "and not when it is gone");
}

// Two blocks become one by a union: their tops are one face, the edges between these go on straight, and their corners are at one point.
static void try_became()
{
    Workbench bench;
    const Block one = bench.block({0, 0, 0}, {4, 4, 4}), two = bench.block({4, 0, 0}, {4, 4, 4});
    Edge before{};
    for (Edge edge : bench.edges_of(two.top))
        if (bench.faces_of(edge)[0] == two.sides[0] || bench.faces_of(edge)[1] == two.sides[0])
            before = edge;
    const Became became = follow(bench, [&] { (void)unite(bench, {one, two}); }).became;
    const auto heir = [](const auto &rows, auto old) {
        const auto found = std::find_if(rows.begin(), rows.end(), [&](const auto &row) { return row.old == old; });
        return found != rows.end() ? found->made : decltype(old)();
    };
    check(heir(became.faces, two.top) == one.top && heir(became.faces, one.top) == Face(), "the top of one became that of the other");
    const Edge along = heir(became.edges, before);
    check(along != Edge() && along != before && bench.faces_of(along)[0].number() * bench.faces_of(along)[1].number() == one.top.number() * one.sides[0].number(),
          "an edge that goes on straight");
    check(became.faces.size() == 4 && became.vertices.empty(), "no more than that");
    const Became none = follow(bench, [&] { bench.block({90, 0, 0}, {4, 4, 4}); }).became;
    check(none.faces.empty() && none.edges.empty() && none.vertices.empty(), "what is new came of nothing");
}

// The same by a union that nobody followed, by which a colour goes along; a session without notes knows no births.
static void try_last()
{
    Workbench bench, plain;
    for (Workbench *each : {&bench, &plain})
        (void)each->block({0, 0, 0}, {4, 4, 4}), (void)each->block({4, 0, 0}, {4, 4, 4});
    Notes<Face, std::string> colours(bench);
    Notes<Edge, int> widths(bench);
    const Face two = Face(7);
    colours[two] = "red";
    for (Workbench *each : {&bench, &plain})
        (void)unite(*each, {Solid(1), Solid(2)});
    const std::string before = bench.listing();
    const Became told = became(bench, colours, widths), other = became(plain);
    check(told.faces.size() == 4 && told.faces[0].old == two && told.faces[0].made == Face(1) && told.faces[0].old_birth != 0, "one top went into the other");
    check(other.faces.size() == 4 && other.faces[0].made == Face(1) && other.faces[0].made_birth == 0, "without births");
    check(colours.all() == std::map<Face, std::string>{{Face(1), "red"}} && bench.listing() == before && bench.ahead() == 0, "the colour goes along");
    (void)bench.split(Solid(1), 0, 0, 1, -2);
    check(became(bench, colours).faces.size() == 4 && colours.all().size() == 1, "a split below what has a colour");
    const Draft draft = bench.draft();
    check(became(bench).faces.empty(), "a draft has no last command");
    Attempts closed = Workbench().attempt();
    check(became(closed).error().problem == Problem::closed, "a workbench that is gone");
}

// What of the last command is told, also where it is redone, is what one that is followed tells, but for births.
static void try_followed_or_not()
{
    const std::vector<Point> at_edge = {{-1, 1, 4}, {2, 1, 4}, {2, 3, 4}, {-1, 3, 4}};
    const std::map<std::string, std::function<void(Workbench &)>> commands = {
        {"union", [](Workbench &bench) { (void)unite(bench, {Solid(1), Solid(2)}); }},
        {"subtract", [](Workbench &bench) { (void)subtract(bench, Solid(1), {Solid(2)}); }},
        {"notch", [&](Workbench &bench) { (void)notch(bench, Face(1), at_edge, 2); }},
        {"split", [](Workbench &bench) { (void)bench.split(Solid(1), 0, 0, 1, -2); }},
        {"glue_all", [](Workbench &bench) { glue_all(bench, {Solid(1), Solid(2)}); }},
        {"cut", [](Workbench &bench) { (void)cut(bench, Solid(1), {0, 0, 1, -2}); }},
        {"mev", [](Workbench &bench) { (void)bench.mev(plus(Edge(1)), plus(Edge(1)), {9, 9, 9}); }}};
    const auto bare = [](const Became &of) {
        Told found;
        const auto add = [&](const auto &heirs) {
            for (const auto &heir : heirs)
                found.push_back({heir.old.number(), heir.made.number()});
            found.push_back({0, 0});
        };
        add(of.faces), add(of.edges), add(of.vertices);
        return found;
    };
    for (const auto &[name, command] : commands) {
        Workbench followed, bench;
        for (Workbench *each : {&followed, &bench})
            (void)each->block({0, 0, 0}, {4, 4, 4}), (void)each->block({4, 0, 0}, {4, 4, 4});
        const Told wanted = bare(follow(followed, [&, &command = command] { command(followed); }).became);
        command(bench);
        check(bare(became(bench)) == wanted, name + ", followed or not");
        bench.undo();
        bench.redo();
        check(bare(became(bench)) == wanted, name + ", redone");
    }
}

// What has no value has none when it is there again, though what it was joined to has one.
static void try_joined()
{
    Workbench bench;
    const Block block = bench.block({0, 0, 0}, {4, 4, 4});
    Notes<Face, std::string> colours(bench);
    bench.mef(plus(Edge(7)), plus(Edge(11)), Edge(20), Face(20), Loop(20));
    colours[bench.face_of(plus(Edge(20)))] = "red";
    follow(bench, [&] { bench.kef(plus(Edge(20))); }, colours);
    follow(bench, [&] { bench.undo(); }, colours);
    check(bench.faces_of(Edge(20)).size() == 2 && colours.all().size() == 1, "one of two faces that were joined");
    check(bench.count(block).faces == 7, "both are there again");
}

// All numbers become others, and values go along, also through undo.
static void try_renumbered()
{
    Workbench bench;
    const Block first = bench.block({0, 0, 0}, {4, 4, 4}), second = bench.block({30, 0, 0}, {4, 4, 4});
    Notes<Face, std::string> colours(bench);
    Notes<Vertex, int> corners(bench);
    colours[second.top] = "red", colours[first.top] = "blue", corners[Vertex(9)] = 9;
    follow(bench, [&] {
        kill_solid(bench, first);
        renumber(bench);
    }, colours);
    check(colours.all().size() == 1 && *colours.find(Face(1)) == "red" && *corners.find(Vertex(1)) == 9, "a colour goes along with its face");
    bench.undo();
    check(*colours.find(second.top) == "red" && colours.find(first.top) == nullptr && corners.all().size() == 1, "and back");
    bench.undo();
    check(colours.all().size() == 2, "and that of a face that is there again");
}

// What is accepted before a throw is followed, and what undo refuses is told.
static void try_throws()
{
    Workbench bench;
    const Solid block = bench.block({0, 0, 0}, {4, 4, 4});
    Notes<Face, std::string> colours(bench);
    colours[Face(3)] = "red";
    bool was_thrown = false;
    try {
        follow(bench, [&] { bench.split(block, 0, 0, 1, -2), bench.split(block, 0, 0, 1, -9); }, colours);
    } catch (const RefusedBy<GWB_WHY_PLANE_MISSES> &) {
        was_thrown = true;
    }
    check(was_thrown && colours.all().size() == 2, "a command before one that throws");
    Workbench empty;
    Attempts attempt = empty.attempt();
    check(!follow_undo(attempt) && !follow_redo(attempt), "nothing to undo or redo");
    const Draft draft = bench.draft();
    Attempts drafting = bench.attempt();
    check(follow_undo(drafting).error().problem == Problem::in_draft && colours.all().size() == 2, "undo in a draft");
}

// Walls are no parts of the face that is moved; a copy has the values of what it is of.
static void try_walls_and_copies()
{
    Workbench bench;
    const Block block = bench.block({0, 0, 0}, {8, 8, 8});
    Notes<Face, std::string> colours(bench);
    colours[block.top] = "red";
    follow(bench, [&] { bench.sweep(block.top, {0, 0, 3}); }, colours);
    check(colours.all().size() == 1, "a face that is moved");
    follow(bench, [&] { (void)pocket(bench, block.top, {{2, 2, 11}, {4, 2, 11}, {4, 4, 11}}, 2); }, colours);
    check(colours.all().size() == 1, "a pocket in it");
    std::optional<Copy> copy;
    follow(bench, [&] { copy = copy_solid(bench, block, Motion::move({20, 0, 0})); }, colours);
    colours.copied(*copy);
    check(colours.all().size() == 2 && *colours.find(copy->of(block.top)) == "red", "and its copy");
}

// A draft that is open when following begins, commands from before, and undo of those.
static void try_what_was_before()
{
    Workbench bench;
    const Solid block = bench.block({0, 0, 0}, {4, 4, 4});
    bench.split(block, 0, 0, 1, -2);
    Draft draft = bench.draft();
    bench.split(block, 0, 1, 0, -2);
    Changes changes = follow(bench, [&] { bench.split(block, 1, 0, 0, -2); });
    check(changes.faces.made.size() == 6, "a step of a draft that was open");
    draft.commit();
    changes = follow_undo(bench);
    check(changes.faces.removed.size() == 12, "the whole draft is undone");
    changes = follow_undo(bench);
    check(changes.faces.removed.size() == 6, "and a command that nobody followed");
    changes = follow_undo(bench);
    check(changes.faces.removed.size() == 6 && changes.faces.made.empty(), "and the first one");
    changes = follow_redo(bench);
    check(changes.faces.made.size() == 6, "which is redone");
    changes = follow_redo(bench);
    check(changes.faces.made.size() == 6, "and the next one");
}

// A draft that was given up before anybody followed leaves nothing of which a later command would be a step.
static void try_draft_given_up()
{
    Workbench bench;
    const Solid block = bench.block({0, 0, 0}, {4, 4, 4});
    Draft draft = bench.draft();
    bench.split(block, 0, 0, 1, -2);
    draft.abandon();
    Changes changes = follow(bench, [&] { bench.split(block, 0, 1, 0, -2); });
    check(changes.faces.made.size() == 6, "a command after a draft that was given up");
    changes = follow_undo(bench);
    check(changes.faces.removed.size() == 6 && changes.faces.made.empty(), "is undone");
    changes = follow_redo(bench);
    check(changes.faces.made.size() == 6, "and redone");
}

// How many bytes the library asks for while a split is followed, and its undo, where there are so many other blocks.
static std::size_t asked_beside(std::int64_t others)
{
    static std::size_t asked = 0;
    const auto allocate = [](void *, std::size_t size) noexcept { return asked += size, std::malloc(size); };
    const auto reallocate = [](void *, void *block, std::size_t size) noexcept { return asked += size, std::realloc(block, size); };
    const gwb_heap heap{allocate, reallocate, [](void *, void *block) noexcept { std::free(block); }, nullptr};
    Workbench bench(heap);
    for (std::int64_t place = 0; place < others; place++)
        (void)bench.block({10 * place, 9, 0}, {4, 4, 4});
    const Solid block = bench.block({0, 0, 0}, {4, 4, 4});
    const auto turn = [&] {
        check(follow(bench, [&] { bench.split(block, 0, 0, 1, -2); }).faces.made.size() == 6, "a split among others");
        check(follow_undo(bench).faces.removed.size() == 6, "and its undo");
    };
    turn(); // after which there is room in all tables
    asked = 0;
    turn();
    return asked;
}

// What is followed costs as much whatever else there is.
static void try_costs()
{
    const std::size_t among_few = asked_beside(5);
    check(among_few > 0 && asked_beside(2000) < 2 * among_few, "what is followed among many");
}

int main()
{
    for (void (*part)() : {try_operators, try_nested, try_splits, try_gone, try_numbers_used_again, try_gone_unseen, try_became, try_last,
                           try_followed_or_not, try_joined, try_renumbered, try_throws, try_walls_and_copies, try_what_was_before, try_draft_given_up,
                           try_costs}) {
        try {
            part();
        } catch (const std::exception &thrown) {
            check(false, thrown.what());
        }
    }
    return counted();
}
