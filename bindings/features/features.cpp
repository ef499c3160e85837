// The calls of gwb_features.h, and of gwb.h those for whole texts. Nothing is thrown past them: memory that is refused in here is their answer GWB_MEMORY, and
// the draft is where it was.
#pragma GCC visibility push(default)
#include "gwb_features.h"
#pragma GCC visibility pop
#include "booleans.hpp"
#include "circles.hpp"
#include "components.hpp"
#include "crossings.hpp"
#include "cuts.hpp"
#include "drilling.hpp"
#include "models.hpp"
#include "off_lattice.hpp"
#include "selection.hpp"
#include "shaping.hpp"
#include "uniting.hpp"
#include <numeric>

extern "C" {
#include "heap.h"
#include "watch.h"
void gwb_forget_features(struct beside *of); // for calls.c
}

/// What is said of a cut, for whoever asked.
struct gwb_advice : gwb_session::cutting::OffLattice {};

namespace gwb_session {
namespace {

/// How many calls of go_on come for one that asks the caller.
constexpr unsigned asks_once_in = 32;
thread_local const gwb *making = nullptr; ///< for which this thread makes something, whose caller may end it
thread_local unsigned calls = 0;

/// A session in the place of a handle, which is closed meanwhile.
class Borrowed : public Bench {
public:
    using Bench::Steps;
    explicit Borrowed(gwb *g) : Commands(std::make_shared<State>()), g_(g) { std::swap(*handle(), *g_); }
    Borrowed(const Borrowed &) = delete;
    Borrowed &operator=(const Borrowed &) = delete;
    ~Borrowed() { std::swap(*handle(), *g_); }

private:
    gwb *g_;
};

gwb_kind told(const Failure &failure, gwb_refusal *why)
{
    switch (failure.problem) {
    case Problem::refused: *why = {failure.number, failure.value}; return GWB_REFUSED;
    case Problem::impossible: *why = {failure.number, failure.value}; return GWB_IMPOSSIBLE;
    case Problem::memory: return GWB_MEMORY;
    case Problem::no_call: return GWB_NO_CALL;
    case Problem::stopped: return GWB_STOPPED;
    default: return GWB_CLOSED;
    }
}

/// What was made where nothing was held before is just what the text says: that is the kernel's to say. No call where it isn't.
void judge(const gwb *g, std::string_view listing)
{
    gwb copy = *g;
    const std::uint32_t told = gwb_lent_is_listing(&copy, listing.data(), listing.size());
    if (told != GWB_FOUND)
        throw Failure{told == GWB_ABSENT ? Problem::no_call : Problem::memory};
}

/// A feature is one call, of however many operators. It is accepted where it is kept.
class OneCall {
public:
    explicit OneCall(const gwb *g) : g_(g) { begin_several(g); }
    OneCall(const OneCall &) = delete;
    OneCall &operator=(const OneCall &) = delete;
    ~OneCall() { end(false); }
    void keep() { end(true); }

private:
    void end(bool is_accepted)
    {
        if (const gwb *g = std::exchange(g_, nullptr))
            end_several(g, is_accepted);
    }
    const gwb *g_;
};

/// Answers for what a call throws, while its caller may end it.
template <class Call> gwb_kind guarded(const gwb *g, gwb_refusal *why, Call call) noexcept
{
    if (!gwb_is_open(g))
        return GWB_CLOSED;
    const gwb session = *g; // which is not where it was, while something is made
    const gwb *before = std::exchange(making, &session);
    gwb_kind kind = GWB_OK;
    calls = 0;
    try {
        call();
    } catch (const Failure &failure) {
        kind = told(failure, why);
    } catch (const EndedByCaller &) {
        kind = GWB_STOPPED;
    } catch (const std::bad_alloc &) {
        kind = GWB_MEMORY;
    }
    making = before;
    return kind;
}

/// Makes something as one command, or as steps of the draft that is open, or nothing of it.
template <class Make> void make_whole(gwb *g, Make make)
{
    const Borrowed::Steps commands(g);
    if (!commands.are_begun())
        throw Failure{commands.kind() == GWB_MEMORY ? Problem::memory : Problem::closed};
    OneCall call(g);
    make();
    call.keep();
    commands.keep();
}

// ---- what was made, where the caller wants it

constexpr auto number_of = [](auto made) { return made.number(); };

template <class Kind> void put(const std::vector<Kind> &made, std::uint32_t *to) { std::transform(made.begin(), made.end(), to, number_of); }
void put(const Pocket &made, gwb_outline_made *to, std::uint32_t *sides)
{
    *to = {made.face.number(), made.loop.number()};
    put(made.sides, sides);
}
void put(const Hole &made, gwb_outline_made *to, std::uint32_t *sides, gwb_point *points)
{
    put({made.other, made.loop, made.sides}, to, sides);
    std::copy(made.points.begin(), made.points.end(), points);
}

// ---- what callers give

/// The number of a thing of the model. Refused: NumberRange: no thing can have it.
template <class Kind> Kind given(std::uint32_t number)
{
    machining::require(number >= 1 && number <= greatest_number, machining::refused(GWB_WHY_NUMBER_RANGE, number));
    return Kind(number);
}
template <class Kind> std::vector<Kind> all_given(const std::uint32_t *numbers, std::size_t n)
{
    std::vector<Kind> found(n);
    std::transform(numbers, numbers + n, found.begin(), given<Kind>);
    return found;
}

// ---- what is made

/// The first kind of which the greatest number is in use, as NumbersSpent tells it: 0 where there is none.
std::uint32_t spent_kind(const Bench &bench)
{
    std::uint32_t kind = GWB_SOLID;
    while (kind <= GWB_VERTEX && gwb_greatest_number(bench.handle(), kind) < greatest_number)
        kind++;
    return kind <= GWB_VERTEX ? kind + 1 : 0;
}

/// Makes something, and says of what there are too few numbers where it isn't made for that.
template <class Make> void make_numbered(Bench &bench, Lists &lists, Make make)
{
    try {
        make(bench, lists);
    } catch (Failure &failure) {
        if (failure.is(GWB_WHY_NUMBERS_SPENT) && failure.value == 0)
            failure.value = spent_kind(bench);
        throw;
    }
}

/// What is answered to a call whose arguments make none.
gwb_kind no_call(const gwb *g) { return gwb_is_open(g) ? GWB_NO_CALL : GWB_CLOSED; }

/// Makes something as one command, in the heap and pages of the session, where the arguments make a call. What makes something is given the session, and the
/// lists for what it tells by them. In the end, when nothing can be refused any more, it writes what the caller is told.
template <class Make> gwb_kind made_if(bool is_call, gwb *g, gwb_refusal *why, Make make) noexcept
{
    if (!is_call || !gwb_is_open(g))
        return no_call(g);
    struct beside &of = *beside_of(g);
    const used before = std::exchange(gwb_used, {of.heap, of.pages});
    const gwb_kind kind = guarded(g, why, [&] {
        if (of.known == nullptr)
            of.known = new machining::Surroundings();
        auto &known = *static_cast<machining::Surroundings *>(of.known);
        const std::uint64_t before = of.changes;
        const bool was_known = known.changes == before;
        for (auto &list : known.lists)
            list.clear();
        known.hit.reset();
        const auto stay_known = [&] { // where it is again what it was
            if (was_known && known.changes == before)
                known.changes = of.changes;
        };
        try {
            Borrowed session(g);
            make_whole(session.handle(), [&] { make_numbered(session, known.lists, make); });
        } catch (const FailureAt &failure) {
            known.hit = failure.row;
            stay_known();
            throw;
        } catch (const Failure &failure) {
            if (failure.problem == Problem::refused || failure.problem == Problem::impossible)
                known.hit = FailureAt(failure).row;
            stay_known();
            throw;
        }
    });
    gwb_used = before;
    return kind;
}

template <class Make> gwb_kind made(gwb *g, gwb_refusal *why, Make make) noexcept { return made_if(true, g, why, make); }

/// The same of what makes faces that are told by a list and the next one.
template <class Make> gwb_kind listed(gwb *g, gwb_list first, gwb_refusal *why, Make make)
{
    return made(g, why, [&](Bench &bench, Lists &lists) {
        const std::array<std::vector<Face>, 2> found = make(bench);
        for (std::size_t at = 0; at < found.size(); at++)
            lists[first + at] = mapped(found[at], number_of);
    });
}

/// A pocket or a boss, so far along the normal or by a vector: the face is looked at first.
template <class ReachOf>
gwb_kind raised(gwb *g, std::uint32_t face, Items<Point> points, ReachOf reach_of, bool is_boss, gwb_outline_made *out, std::uint32_t *sides, gwb_refusal *why)
{
    return made(g, why, [&](Bench &bench, Lists &) {
        const Face at = given<Face>(face);
        put(machining::make_raised(bench, at, points, reach_of(), is_boss), out, sides);
    });
}

/// The same of what makes a floor and walls at a face.
template <class Make> gwb_kind shaped(gwb *g, std::uint32_t face, gwb_refusal *why, Make make)
{
    return listed(g, GWB_MADE_FLOOR, why, [&](Bench &bench) { return make(bench, given<Face>(face)); });
}

/// The same of what cuts a solid in two, of which the number is judged before that of the other one.
template <class Cut> gwb_kind halved(gwb *g, std::uint32_t solid, std::uint32_t above, gwb_refusal *why, Cut cut)
{
    return listed(g, GWB_MADE_LOWER_CAPS, why, [&](Bench &bench) {
        const Solid lower = given<Solid>(solid);
        return cut(bench, lower, given<Solid>(above));
    });
}

/// A row of solids, each as its place in it makes the model.
template <class Place>
gwb_kind row_of(bool is_call, gwb *g, std::uint32_t solid, std::uint32_t count, Place place, std::uint32_t *solids, gwb_refusal *why)
{
    return made_if(is_call && count != 0, g, why, [&](Bench &bench, Lists &lists) {
        put(models::patterned(bench, given<Solid>(solid), count, place, lists), solids);
    });
}

/// Numbers of which one stands twice make no call.
void require_different(const std::uint32_t *numbers, std::size_t n)
{
    std::vector<std::uint32_t> rising(numbers, numbers + n);
    std::sort(rising.begin(), rising.end());
    machining::require(std::adjacent_find(rising.begin(), rising.end()) == rising.end(), Failure{Problem::no_call});
}

/// What comes of several solids, of a first one and others where that is given.
gwb_kind combined(booleans::Operation operation, gwb *g, std::optional<std::uint32_t> first, const std::uint32_t *others, std::size_t n, gwb_refusal *why)
{
    const bool is_call = first ? n >= 1 && std::find(others, others + n, *first) == others + n : n >= 2;
    return made_if(is_call, g, why, [&](Bench &bench, Lists &lists) {
        require_different(others, n);
        std::vector<Solid> solids;
        if (first)
            solids.push_back(given<Solid>(*first));
        std::transform(others, others + n, std::back_inserter(solids), given<Solid>);
        booleans::tell(booleans::combine(bench, operation, std::move(solids)), lists[GWB_MADE_INTO]);
    });
}

// ---- what is found

using exact::wide;

/// Writes rows, as far as there is room: how many there are.
template <class Row, class Items, class Of> std::size_t written(const Items &items, Row *to, std::size_t room, Of of)
{
    std::transform(items.begin(), items.begin() + static_cast<std::ptrdiff_t>(std::min(items.size(), room)), to, of);
    return items.size();
}

/// Reads a session, of whose handle it has a copy.
template <class Read> gwb_kind looked_at(const gwb *g, gwb_refusal *why, Read read)
{
    return guarded(g, why, [&] {
        gwb lent = *g;
        const Borrowed session(&lent);
        read(session);
    });
}

/// Writes what a query finds.
template <class Query, class Find>
gwb_kind sought(const gwb *g, const Query &query, Find find, std::uint32_t *buf, std::size_t room, std::size_t *count, gwb_refusal *why)
{
    if (!selection::is_query(query))
        return no_call(g);
    return looked_at(g, why, [&](const Bench &bench) {
        if (query.solid != 0)
            (void)given<Solid>(query.solid);
        *count = written(find(bench, query), buf, room, number_of);
    });
}

} // namespace

void go_on()
{
    if (calls++ % asks_once_in == 0 && is_stopped(making))
        throw EndedByCaller();
}

} // namespace gwb_session

using namespace gwb_session;

extern "C" {

enum gwb_kind gwb_load(gwb *g, const char *listing, size_t n, gwb_refusal *refusal)
{
    return guarded(g, refusal, [&] {
        const std::string_view text(listing, n);
        const rows::Rows rows = rows::read(text);
        const bool was_empty = gwb_greatest_number(g, GWB_SOLID) == 0;
        make_whole(g, [&] {
            rows::make(g, rows);
            if (was_empty)
                judge(g, text);
        });
    });
}

enum gwb_kind gwb_lines(gwb *g, const char *script, size_t n, size_t *line)
{
    gwb_kind kind = gwb_is_open(g) ? GWB_SILENT : GWB_CLOSED;
    const char *at = script, *end = script + n;
    for (*line = 0; at < end && gwb_succeeded(kind); ++*line) {
        const char *newline = std::find(at, end, '\n');
        kind = gwb_line(g, at, static_cast<size_t>(newline - at));
        at = newline != end ? newline + 1 : end;
    }
    return kind;
}

void gwb_forget_features(struct beside *of) { delete static_cast<machining::Surroundings *>(of->known); }

bool gwb_circle(int64_t diameter, int64_t grain, uint32_t n, uint32_t circle, int64_t *corners)
{
    const auto is_length = [](std::int64_t length) { return length >= 1 && length <= circles::longest; };
    if (!is_length(diameter) || !is_length(grain) || n < 3 || n > circles::most_sides || circle > GWB_CIRCLE_AREA)
        return false;
    const long double out = circles::reach(diameter, grain, n, circle);
    for (std::uint32_t place = 0; place < n; place++) {
        const auto at = circles::corner(place, n, out, grain);
        std::copy(at.begin(), at.end(), corners + std::size_t{2} * place);
    }
    return true;
}

const char *gwb_misfit_name(uint32_t misfit) { return misfit_name(static_cast<Misfit>(misfit)); }

size_t gwb_made(const gwb *g, uint32_t list, uint32_t *buf, size_t room)
{
    if (!gwb_is_open(g))
        return SIZE_MAX;
    const auto *known = static_cast<const machining::Surroundings *>(beside_of(g)->known);
    if (known == nullptr || list >= std::tuple_size_v<Lists>)
        return 0;
    return written(known->lists[list], buf, room, [](uint32_t number) { return number; });
}

bool gwb_hit(const gwb *g, gwb_hit_row *hit)
{
    const auto *known = gwb_is_open(g) ? static_cast<const machining::Surroundings *>(beside_of(g)->known) : nullptr;
    if (known == nullptr || !known->hit)
        return false;
    *hit = *known->hit;
    return true;
}

gwb_kind gwb_kill_solid(gwb *g, uint32_t solid, gwb_refusal *why)
{
    return made(g, why, [&](Bench &bench, Lists &) { take_away(bench, given<Solid>(solid)); });
}

gwb_kind gwb_copy_solid(gwb *g, uint32_t solid, const gwb_motion *motion, uint32_t *out, gwb_refusal *why)
{
    return made_if(models::is_motion(*motion), g, why, [&](Bench &bench, Lists &lists) {
        *out = models::copy(bench, models::moved(rows::read(bench, {given<Solid>(solid)}), Motion(*motion)), lists).number();
    });
}

gwb_kind gwb_move_solid(gwb *g, uint32_t solid, const gwb_motion *motion, gwb_refusal *why)
{
    return made_if(models::is_motion(*motion), g, why, [&](Bench &bench, Lists &) {
        models::replace(bench, {given<Solid>(solid)}, [&](const rows::Rows &rows) { return models::moved(rows, Motion(*motion)); });
    });
}

gwb_kind gwb_pattern(gwb *g, uint32_t solid, uint32_t count, const gwb_point *step, uint32_t *solids, gwb_refusal *why)
{
    const auto place = [&](const rows::Rows &rows, uint32_t at) { return models::moved(rows, Motion(), exact::times(exact::vector(*step), at)); };
    return row_of(true, g, solid, count, place, solids, why);
}

gwb_kind gwb_pattern_around(gwb *g, uint32_t solid, uint32_t count, uint32_t axis, uint32_t quarters, const gwb_point *about, uint32_t *solids,
                            gwb_refusal *why)
{
    const bool are_apart = quarters == 2 ? count <= 2 : quarters % 2 == 1 && quarters < 4 && count <= 4;
    const auto place = [&](const rows::Rows &rows, uint32_t at) { return models::turned(rows, axis, quarters * at, *about); };
    return row_of(axis <= 2 && are_apart, g, solid, count, place, solids, why);
}

gwb_kind gwb_scale(gwb *g, int64_t factor, gwb_refusal *why)
{
    return made(g, why, [&](Bench &bench, Lists &) {
        const auto [by] = machining::sizes_of(factor);
        for (Solid solid : models::solids_of(bench))
            models::replace(bench, {solid}, [&](const rows::Rows &rows) { return models::moved(rows, Motion(), {}, by.length()); });
    });
}

gwb_kind gwb_renumber(gwb *g, gwb_refusal *why)
{
    return made(g, why, [&](Bench &bench, Lists &lists) {
        models::renumber(bench, lists);
        constexpr std::array list_of = {GWB_MADE_SOLIDS, GWB_MADE_FACES, GWB_MADE_LOOPS, GWB_MADE_EDGES, GWB_MADE_VERTICES};
        for (std::uint32_t kind = GWB_SOLID; kind < list_of.size(); kind++)
            watch_renumber(bench.handle(), kind, lists[list_of[kind]].data(), lists[list_of[kind]].size());
    });
}

gwb_kind gwb_glue_all(gwb *g, const uint32_t *solids, size_t n, gwb_refusal *why)
{
    return made_if(n != 0, g, why, [&](Bench &bench, Lists &) {
        require_different(solids, n);
        uniting::glue_all(bench, all_given<Solid>(solids, n));
    });
}

gwb_kind gwb_split_solid(gwb *g, uint32_t solid, const gwb_cut_plane *plane, uint32_t above, gwb_refusal *why)
{
    return halved(g, solid, above, why, [&](Bench &bench, Solid lower, Solid upper) { return cuts::split(bench, lower, *plane, upper); });
}

gwb_kind gwb_cut(gwb *g, uint32_t solid, const gwb_cut_plane *plane, uint32_t above, gwb_refusal *why)
{
    return halved(g, solid, above, why, [&](Bench &bench, Solid lower, Solid upper) { return cuts::cut(bench, lower, *plane, upper, true); });
}

gwb_kind gwb_trim(gwb *g, uint32_t solid, const gwb_cut_plane *plane, gwb_refusal *why)
{
    return listed(g, GWB_MADE_LOWER_CAPS, why, [&](Bench &bench) { return cuts::cut(bench, given<Solid>(solid), *plane, bench.next_free<Solid>(), false); });
}

gwb_kind gwb_union(gwb *g, const uint32_t *solids, size_t n, gwb_refusal *why)
{
    return combined(booleans::Operation::unite, g, std::nullopt, solids, n, why);
}

gwb_kind gwb_subtract(gwb *g, uint32_t solid, const uint32_t *tools, size_t n, gwb_refusal *why)
{
    return combined(booleans::Operation::subtract, g, solid, tools, n, why);
}

gwb_kind gwb_intersect(gwb *g, const uint32_t *solids, size_t n, gwb_refusal *why)
{
    return combined(booleans::Operation::intersect, g, std::nullopt, solids, n, why);
}

gwb_kind gwb_separate(gwb *g, uint32_t solid, gwb_refusal *why)
{
    return made(g, why, [&](Bench &bench, Lists &lists) {
        for (Solid part : components::separate(bench, given<Solid>(solid)))
            lists[GWB_MADE_SOLIDS].insert(lists[GWB_MADE_SOLIDS].end(), {solid, part.number()});
    });
}

gwb_kind gwb_join_faces(gwb *g, uint32_t solid, gwb_refusal *why)
{
    return made(g, why, [&](Bench &bench, Lists &lists) { booleans::tell(booleans::join_faces(bench, given<Solid>(solid)), lists[GWB_MADE_INTO]); });
}

gwb_kind gwb_profile(gwb *g, uint32_t solid, const gwb_point *points, size_t n, const gwb_point *along, gwb_profile_made *out, uint32_t *sides,
                     gwb_refusal *why)
{
    return made(g, why, [&](Bench &bench, Lists &) {
        const Profile found = machining::make_profile(bench, given<Solid>(solid), {points, n}, *along);
        *out = {found.far.number(), found.base.number()};
        put(found.sides, sides);
    });
}

gwb_kind gwb_polyhedron(gwb *g, uint32_t solid, const gwb_point *points, size_t n, const uint32_t *corners, const uint32_t *sizes, size_t faces,
                        gwb_polyhedron_made *out, gwb_refusal *why)
{
    const size_t count = std::accumulate(sizes, sizes + faces, size_t{0});
    const bool are_places = std::all_of(corners, corners + count, [&](uint32_t corner) { return corner < n; });
    return made_if(faces != 0 && n != 0 && are_places, g, why, [&](Bench &bench, Lists &) {
        *out = models::make_polyhedron(bench, given<Solid>(solid), {points, n}, corners, Items<uint32_t>(sizes, faces));
    });
}

gwb_kind gwb_ring(gwb *g, uint32_t face, const gwb_point *points, size_t n, gwb_outline_made *out, uint32_t *edges, uint32_t *vertices, gwb_refusal *why)
{
    return made(g, why, [&](Bench &bench, Lists &) {
        const Ring found = machining::make_ring(bench, given<Face>(face), {points, n});
        *out = {found.face.number(), found.loop.number()};
        put(found.edges, edges);
        put(found.vertices, vertices);
    });
}

gwb_kind gwb_pocket(gwb *g, uint32_t face, const gwb_point *points, size_t n, int64_t depth, gwb_outline_made *out, uint32_t *sides, gwb_refusal *why)
{
    return raised(g, face, {points, n}, [&] { return machining::sizes_of(depth)[0]; }, false, out, sides, why);
}

gwb_kind gwb_boss(gwb *g, uint32_t face, const gwb_point *points, size_t n, int64_t height, gwb_outline_made *out, uint32_t *sides, gwb_refusal *why)
{
    return raised(g, face, {points, n}, [&] { return machining::sizes_of(height)[0]; }, true, out, sides, why);
}

gwb_kind gwb_pocket_along(gwb *g, uint32_t face, const gwb_point *points, size_t n, const gwb_point *along, gwb_outline_made *out, uint32_t *sides,
                          gwb_refusal *why)
{
    return raised(g, face, {points, n}, [&] { return *along; }, false, out, sides, why);
}

gwb_kind gwb_boss_along(gwb *g, uint32_t face, const gwb_point *points, size_t n, const gwb_point *along, gwb_outline_made *out, uint32_t *sides,
                        gwb_refusal *why)
{
    return raised(g, face, {points, n}, [&] { return *along; }, true, out, sides, why);
}

gwb_kind gwb_hole(gwb *g, uint32_t face, const gwb_point *points, size_t n, gwb_outline_made *out, uint32_t *sides, gwb_refusal *why)
{
    return made(g, why, [&](Bench &bench, Lists &) { put(machining::make_hole(bench, given<Face>(face), {points, n}), out, sides); });
}

gwb_kind gwb_drill(gwb *g, uint32_t face, const gwb_point *center, int64_t radius, uint32_t n, int64_t depth, gwb_outline_made *out, uint32_t *sides,
                   gwb_point *points, gwb_refusal *why)
{
    return made(g, why, [&](Bench &bench, Lists &) { put(drilling::drill(bench, given<Face>(face), *center, radius, n, depth), out, sides, points); });
}

gwb_kind gwb_drill_along(gwb *g, uint32_t face, const gwb_point *center, int64_t radius, uint32_t n, const gwb_point *along, gwb_outline_made *out,
                         uint32_t *sides, gwb_point *points, gwb_refusal *why)
{
    return made(g, why, [&](Bench &bench, Lists &) { put(drilling::drill(bench, given<Face>(face), *center, radius, n, 0, along), out, sides, points); });
}

gwb_kind gwb_notch(gwb *g, uint32_t face, const gwb_point *points, size_t n, int64_t depth, gwb_refusal *why)
{
    return shaped(g, face, why, [&](Bench &bench, Face at) { return shaping::make_notch(bench, at, {points, n}, machining::sizes_of(depth)[0]); });
}

gwb_kind gwb_notch_along(gwb *g, uint32_t face, const gwb_point *points, size_t n, const gwb_point *along, gwb_refusal *why)
{
    return shaped(g, face, why, [&](Bench &bench, Face at) { return shaping::make_notch(bench, at, {points, n}, *along); });
}

gwb_kind gwb_pad(gwb *g, uint32_t face, const gwb_point *points, size_t n, int64_t height, gwb_refusal *why)
{
    return shaped(g, face, why, [&](Bench &bench, Face at) { return shaping::make_pad(bench, at, {points, n}, machining::sizes_of(height)[0]); });
}

gwb_kind gwb_pad_along(gwb *g, uint32_t face, const gwb_point *points, size_t n, const gwb_point *along, gwb_refusal *why)
{
    return shaped(g, face, why, [&](Bench &bench, Face at) { return shaping::make_pad(bench, at, {points, n}, *along); });
}

gwb_kind gwb_slot(gwb *g, uint32_t face, const gwb_point *start, const gwb_point *end, int64_t width, int64_t depth, gwb_refusal *why)
{
    return shaped(g, face, why, [&](Bench &bench, Face at) {
        const auto [across, down] = machining::sizes_of(width, depth);
        return shaping::make_slot(bench, at, {*start, *end}, across, down);
    });
}

gwb_kind gwb_slot_along(gwb *g, uint32_t face, const gwb_point *start, const gwb_point *end, int64_t width, const gwb_point *along, gwb_refusal *why)
{
    return shaped(g, face, why, [&](Bench &bench, Face at) {
        return shaping::make_slot(bench, at, {*start, *end}, machining::sizes_of(width)[0], *along);
    });
}

gwb_kind gwb_groove(gwb *g, uint32_t face, const gwb_point *start, const gwb_point *end, int64_t width, int64_t depth, gwb_refusal *why)
{
    return shaped(g, face, why, [&](Bench &bench, Face at) {
        const auto [across, down] = machining::sizes_of(width, depth);
        return shaping::make_groove(bench, at, {*start, *end}, across, down);
    });
}

gwb_kind gwb_groove_along(gwb *g, uint32_t face, const gwb_point *start, const gwb_point *end, int64_t width, const gwb_point *along, gwb_refusal *why)
{
    return shaped(g, face, why, [&](Bench &bench, Face at) {
        return shaping::make_groove(bench, at, {*start, *end}, machining::sizes_of(width)[0], *along);
    });
}

gwb_kind gwb_shoulder(gwb *g, uint32_t face, uint32_t edge, int64_t width, int64_t depth, gwb_refusal *why)
{
    return shaped(g, face, why, [&](Bench &bench, Face at) {
        const Edge beside = given<Edge>(edge);
        const auto [across, down] = machining::sizes_of(width, depth);
        return shaping::make_shoulder(bench, at, beside, across, down);
    });
}

gwb_kind gwb_shoulder_along(gwb *g, uint32_t face, uint32_t edge, int64_t width, const gwb_point *along, gwb_refusal *why)
{
    return shaped(g, face, why, [&](Bench &bench, Face at) {
        const Edge beside = given<Edge>(edge);
        return shaping::make_shoulder(bench, at, beside, machining::sizes_of(width)[0], *along);
    });
}

gwb_kind gwb_chamfer(gwb *g, uint32_t edge, int64_t width, int64_t other, uint32_t *face, gwb_refusal *why)
{
    return made(g, why, [&](Bench &bench, Lists &) {
        const Edge at = given<Edge>(edge);
        const auto [near, far] = machining::sizes_of(width, other);
        put(shaping::make_chamfers(bench, {at}, near, far), face);
    });
}

gwb_kind gwb_chamfer_edges(gwb *g, const uint32_t *edges, size_t n, int64_t width, uint32_t *faces, gwb_refusal *why)
{
    return made_if(n != 0, g, why, [&](Bench &bench, Lists &) {
        require_different(edges, n);
        const std::vector<Edge> all = all_given<Edge>(edges, n);
        const auto [across] = machining::sizes_of(width);
        put(shaping::make_chamfers(bench, all, across, across), faces);
    });
}

gwb_kind gwb_find_faces(const gwb *g, const gwb_face_query *query, uint32_t *buf, size_t room, size_t *found, gwb_refusal *why)
{
    return sought(g, *query, selection::faces, buf, room, found, why);
}

gwb_kind gwb_find_edges(const gwb *g, const gwb_edge_query *query, uint32_t *buf, size_t room, size_t *found, gwb_refusal *why)
{
    return sought(g, *query, selection::edges, buf, room, found, why);
}

gwb_kind gwb_find_crossings(const gwb *g, uint32_t solid, uint32_t other, gwb_crossing *buf, size_t room, size_t *found, gwb_refusal *why)
{
    return looked_at(g, why, [&](const Bench &bench) {
        const Solid own = given<Solid>(solid);
        const auto all = crossings::all(bench, own, other != 0 ? std::optional(given<Solid>(other)) : std::nullopt);
        *found = written(all, buf, room, [](const crossings::Crossing &of) {
            const gwb_hit_row at = of.point.met_at({});
            return gwb_crossing{of.first.number(), of.second.number(), {at.point[0], at.point[1], at.point[2]}, at.scale};
        });
    });
}

gwb_kind gwb_off_lattice(const gwb *g, uint32_t solid, const gwb_cut_plane *plane, size_t most, gwb_advice **advice, gwb_refusal *why)
{
    return looked_at(g, why, [&](const Bench &bench) { *advice = new gwb_advice{cutting::made(bench, given<Solid>(solid), *plane, most)}; });
}

void gwb_advice_free(gwb_advice *advice) { delete advice; }
gwb_wide gwb_advice_factor(const gwb_advice *advice) { return wide(advice->factor); }
bool gwb_advice_fits(const gwb_advice *advice) { return advice->fits; }

size_t gwb_advice_cuts(const gwb_advice *advice, gwb_edge_cut *to, size_t room)
{
    return written(advice->cuts, to, room, [](const cutting::EdgeCut &cut) {
        const auto &[x, y, z] = cut.point;
        return gwb_edge_cut{cut.edge.number(),
                            {wide(x.numerator), wide(y.numerator), wide(z.numerator)},
                            {wide(x.denominator), wide(y.denominator), wide(z.denominator)}};
    });
}

size_t gwb_advice_planes(const gwb_advice *advice, gwb_near_plane *to, size_t room)
{
    return written(advice->near, to, room, [](const gwb_near_plane &near) { return near; });
}

size_t gwb_advice_text(const gwb_advice *advice, uint32_t above, char *buf, size_t room)
{
    try {
        const std::string text = advice->advice(Solid(above));
        text.copy(buf, room);
        return text.size();
    } catch (const std::bad_alloc &) {
        return SIZE_MAX;
    }
}

} // extern "C"
