/// @file gwb_history.hpp
/// What commands made, removed and split of a model, and values on faces and edges that follow it, for C++17.
///
///     using namespace gwb_session;
///     Notes<Face, std::string> colours(bench);
///     colours[Face(2)] = "red";
///     follow(bench, [&] { bench.split(block, 0, 0, 1, -2); }, colours);
///     bench.undo();
///
/// After the split both parts of face 2 are red, and after the undo the whole of it is. All is found by comparing the solids that the commands touched,
/// as they were before, with what they are after (gwb_compare), so a `follow` costs as much as reading these, whatever else there is. Of the last command
/// became() tells afterwards.
#ifndef GWB_HISTORY_HPP
#define GWB_HISTORY_HPP
#include "gwb.hpp"
#include <map>

namespace gwb_session {

/// A number that is new or gone, and the one of which it was or became a part: 0 for none. With the births of both (gwb_born_change).
template <class Kind> struct Change {
    Kind id, other;
    std::uint64_t birth, other_birth;
};

/// What commands did to the numbers of a kind.
template <class Kind> struct ChangesOf {
    /// Those that are in use now and were not, rising; `other` is what each was split from.
    std::vector<Change<Kind>> made;
    /// Those that were in use and are not, rising; `other` is what each was joined to.
    std::vector<Change<Kind>> removed;
};

/// Something that is gone or isn't as it was, and another one that came of it, with their births (gwb_became).
template <class Kind> struct Heir {
    Kind old, made;
    std::uint64_t old_birth, made_birth;
};

/// What came of what isn't as it was, by the old ones.
struct Became {
    std::vector<Heir<Face>> faces;
    std::vector<Heir<Edge>> edges;
    std::vector<Heir<Vertex>> vertices;

    template <class Kind> [[nodiscard]] const std::vector<Heir<Kind>> &of() const
    {
        if constexpr (std::is_same_v<Kind, Face>)
            return faces;
        else if constexpr (std::is_same_v<Kind, Edge>)
            return edges;
        else
            return vertices;
    }
};

namespace history {

template <class Kind> std::vector<Heir<Kind>> heirs(const std::vector<gwb_became_row> &rows)
{
    std::vector<Heir<Kind>> found;
    for (const gwb_became_row &row : rows)
        if (row.kind == Kind::kind && row.old != 0)
            found.push_back({Kind(row.old), Kind(row.made), row.old_birth, row.made_birth});
    return found;
}

/// What gwb_became tells, or nothing where memory is refused or the workbench is closed.
inline std::optional<Became> became(gwb *g)
{
    gwb_became_row none{};
    const std::size_t count = gwb_became(g, &none, 0);
    if (count == SIZE_MAX)
        return std::nullopt;
    std::vector<gwb_became_row> rows(count + 1); // (so that it has an address)
    gwb_became(g, rows.data(), count);
    return Became{heirs<Face>(rows), heirs<Edge>(rows), heirs<Vertex>(rows)};
}

} // namespace history

/// What commands did to a model.
struct Changes {
    ChangesOf<Face> faces;
    ChangesOf<Edge> edges;
    Became became;
    /// How many commands could be undone before and after them.
    std::size_t from = 0, to = 0;

    template <class Kind> [[nodiscard]] const ChangesOf<Kind> &of() const
    {
        if constexpr (std::is_same_v<Kind, Face>)
            return faces;
        else
            return edges;
    }
};

/// What comes is watched until the end of the scope (gwb_watch_from). Such scopes may lie one in another.
class Watching {
public:
    explicit Watching(gwb *g) : g_(g), from_(gwb_depth(g)) { require(gwb_watch_from(g, &place_)); }
    Watching(const Watching &) = delete;
    Watching &operator=(const Watching &) = delete;
    ~Watching() { gwb_watch_to(g_, place_); }

    /// What happened since.
    [[nodiscard]] Changes changes() const
    {
        require(gwb_compare_from(g_, place_));
        return {changes_of<Face>(), changes_of<Edge>(), history::became(g_).value_or(Became()), from_, gwb_depth(g_)};
    }

private:
    static void require(gwb_kind answer)
    {
        if (answer == GWB_MEMORY)
#if defined(__cpp_exceptions)
            throw std::bad_alloc();
#else
            std::abort();
#endif
    }
    template <class Kind> [[nodiscard]] ChangesOf<Kind> changes_of() const { return {listed<Kind>(true), listed<Kind>(false)}; }
    template <class Kind> [[nodiscard]] std::vector<Change<Kind>> listed(bool are_made) const
    {
        gwb_born_change none{};
        std::vector<gwb_born_change> rows(gwb_compared_births(g_, Kind::kind, are_made, &none, 0) + 1); // (so that it has an address)
        std::vector<Change<Kind>> found(gwb_compared_births(g_, Kind::kind, are_made, rows.data(), rows.size()));
        std::transform(rows.begin(), rows.end() - 1, found.begin(), [](const gwb_born_change &row) {
            return Change<Kind>{Kind(row.number), Kind(row.other), row.birth, row.other_birth};
        });
        return found;
    }

    gwb *g_;
    std::size_t from_, place_ = 0;
};

/// The birth of what has a number, which tells it from what has that number later (gwb_birth): 0 where nothing has it, and where no birth is known, as before
/// the first Notes of the session.
template <class Policy, gwb_entity Kind> [[nodiscard]] std::uint64_t birth(const Commands<Policy> &bench, Id<Kind> id)
{
    return gwb_birth(bench.handle(), Kind, id.number());
}

/// Values on faces, on edges or on what else has a number. Each is of one thing, told by its birth: another one that has the number later hasn't it,
/// and where undo, redo or a draft brings the thing back, so does the value come back. Of faces and edges a part that was split off within follow() has a
/// copy of the value; of a copy of a solid that is what copied() gives. Where memory for births is refused, nothing is found any more.
template <class Kind, class Value> class Notes {
public:
    /// On what a session has from here on. Of the steps of a draft that is open nothing is known. std::bad_alloc where memory is refused.
    template <class Policy> explicit Notes(Commands<Policy> &bench) : bench_(bench.attempt()) { const Watching begun(bench_.handle()); }

    /// The value of what has the number, which is made where it has none.
    Value &operator[](Kind id) { return values_[birth(bench_, id)]; }
    /// The value of what has the number, where it has one.
    [[nodiscard]] const Value *find(Kind id) const
    {
        const std::uint64_t born = birth(bench_, id);
        const auto found = values_.find(born);
        return born != 0 && found != values_.end() ? &found->second : nullptr;
    }
    void erase(Kind id) { values_.erase(birth(bench_, id)); }
    /// All that have one, rising.
    [[nodiscard]] std::map<Kind, Value> all() const
    {
        std::map<Kind, Value> found;
        for (Kind id : bench_.template numbers<Kind>())
            if (const Value *value = find(id))
                found.emplace_hint(found.end(), id, *value);
        return found;
    }

    /// After commands that changed so much.
    void follow(const Changes &changes)
    {
        for (const Change<Kind> &made : changes.of<Kind>().made)
            if (const auto of = values_.find(made.other_birth); made.other_birth != 0 && of != values_.end())
                values_.emplace(made.birth, of->second);
    }
    /// After what came of things (became()): what came of one that has a value has a copy of it, unless it has one; no undo takes that back.
    void follow(const Became &became)
    {
        for (const Heir<Kind> &heir : became.of<Kind>())
            if (const auto of = values_.find(heir.old_birth); heir.old_birth != 0 && of != values_.end())
                values_.emplace(heir.made_birth, of->second);
    }

    /// The parts of a copy have the values of those that they are of (copy_solid of gwb_features.hpp).
    template <class Copy> void copied(const Copy &copy)
    {
        for (const auto &[id, value] : all())
            if (const Kind of = copy.of(id); of != Kind())
                (*this)[of] = value;
    }

private:
    Attempts bench_;
    std::map<std::uint64_t, Value> values_; // by births
};

/// What happened since it is watched, which notes follow.
template <class... AllNotes> Changes followed(const Watching &watching, AllNotes &...notes)
{
    Changes changes = watching.changes();
    (notes.follow(changes), ...);
    return changes;
}

/// Gives commands, and lets notes follow them, also those before one that throws.
template <class Policy, class Call, class... AllNotes> Changes follow(Commands<Policy> &bench, Call &&call, AllNotes &...notes)
{
    const Watching watching(bench.handle());
#if defined(__cpp_exceptions)
    try {
        std::forward<Call>(call)();
    } catch (...) {
        followed(watching, notes...);
        throw;
    }
#else
    std::forward<Call>(call)();
#endif
    return followed(watching, notes...);
}

/// What came of what by the last command that is held, such as a feature, also where nobody followed it (gwb_became), and notes follow that. It says nothing
/// while a draft is open. As it steps back and forth, it costs as much as reading the model twice, or where there are Notes, what the command touched.
template <class Policy, class... AllNotes> typename Policy::template Returned<Became> became(Commands<Policy> &bench, AllNotes &...notes)
{
    std::optional<Became> found = history::became(bench.handle());
    if (!found)
        return Policy::template failed<Became>("became", {bench.is_open() ? Problem::memory : Problem::closed});
    (notes.follow(*found), ...);
    return std::move(*found);
}

/// Takes the last command back, and says what that did. Notes need no such call: they follow births.
template <class Policy> typename Policy::template Returned<Changes> follow_undo(Commands<Policy> &bench)
{
    const Watching watching(bench.handle());
    const Result<void> done = bench.attempt().undo();
    return done ? watching.changes() : Policy::template failed<Changes>("undo", done.error());
}

/// Does the command again that was taken back last, and says what that did.
template <class Policy> typename Policy::template Returned<Changes> follow_redo(Commands<Policy> &bench)
{
    const Watching watching(bench.handle());
    const Result<void> done = bench.attempt().redo();
    return done ? watching.changes() : Policy::template failed<Changes>("redo", done.error());
}

} // namespace gwb_session
#endif
