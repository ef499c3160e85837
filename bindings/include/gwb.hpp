/// @file gwb.hpp
/// The Geometric WorkBench in process, for C++17: a session as a class, its commands as methods, numbers as types of their own.
///
///     using namespace gwb_session;
///     Workbench bench;
///     Solid block = bench.block({0, 0, 0}, {4, 4, 4});
///     for (Face face : bench.faces(block))
///         for (Edge edge : bench.edges_of(face))
///             std::cout << edge << '\n';
///
/// Commands, their arguments and their conditions are those of the script language (docs/SCRIPT.md). What isn't accepted is thrown, as an
/// exception of its condition (RefusedBy<GWB_WHY_NO_FACE>); `bench.attempt()` has the same calls with a Result in place of exceptions, and
/// Session is a workbench of only those, also for programs without exceptions (-fno-exceptions). What is to be linked, and what a thread
/// may do, is said in gwb.h.
#ifndef GWB_HPP
#define GWB_HPP
#if __cplusplus < 201703L
#error "gwb.hpp is written for C++17: compile with -std=c++17 or later"
#endif
#include "gwb_features.h"
#include <algorithm>
#include <array>
#include <atomic>
#include <charconv>
#include <cstddef>
#include <cstdint>
#include <exception>
#include <functional>
#include <initializer_list>
#include <iterator>
#include <memory>
#include <new>
#include <optional>
#include <stdexcept>
#include <string>
#include <string_view>
#include <type_traits>
#include <utility>
#include <vector>
#if __cplusplus >= 202002L && __has_include(<ranges>)
#include <ranges>
#endif

namespace gwb_session {

// ---- numbers

/// The number of a solid, a face, a loop, an edge or a vertex. One that nothing was given is 0, which nothing has.
template <gwb_entity Kind> class Id {
public:
    static constexpr gwb_entity kind = Kind;
    constexpr Id() = default;
    constexpr explicit Id(std::uint32_t number) : number_(number) {}
    [[nodiscard]] constexpr std::uint32_t number() const { return number_; }
    friend constexpr bool operator==(Id a, Id b) { return a.number_ == b.number_; }
    friend constexpr bool operator!=(Id a, Id b) { return a.number_ != b.number_; }
    friend constexpr bool operator<(Id a, Id b) { return a.number_ < b.number_; }
    friend constexpr bool operator>(Id a, Id b) { return a.number_ > b.number_; }
    friend constexpr bool operator<=(Id a, Id b) { return a.number_ <= b.number_; }
    friend constexpr bool operator>=(Id a, Id b) { return a.number_ >= b.number_; }
    /// Writes the number to a std::ostream.
    template <class Stream> friend auto operator<<(Stream &stream, Id id) -> decltype(stream << std::uint32_t())
    {
        return stream << id.number_;
    }

private:
    std::uint32_t number_ = 0;
};

using Solid = Id<GWB_SOLID>;
using Face = Id<GWB_FACE>;
using Loop = Id<GWB_LOOP>;
using Edge = Id<GWB_EDGE>;
using Vertex = Id<GWB_VERTEX>;
using Point = gwb_point;

/// One of the two half-edges of an edge: plus(edge) starts at the vertex that the edge was drawn from, minus(edge) at its other end.
class HalfEdge {
public:
    constexpr HalfEdge() = default;
    /// As the calls of gwb.h have it: the edge's number times 2, and 1 more for the edge's second.
    constexpr explicit HalfEdge(std::uint32_t code) : code_(code) {}
    [[nodiscard]] constexpr std::uint32_t code() const { return code_; }
    [[nodiscard]] constexpr Edge edge() const { return Edge(code_ / 2); }
    [[nodiscard]] constexpr bool is_second() const { return code_ % 2 != 0; }
    /// The other half-edge of its edge.
    [[nodiscard]] constexpr HalfEdge twin() const { return HalfEdge(code_ ^ 1u); }
    friend constexpr bool operator==(HalfEdge a, HalfEdge b) { return a.code_ == b.code_; }
    friend constexpr bool operator!=(HalfEdge a, HalfEdge b) { return a.code_ != b.code_; }
    friend constexpr bool operator<(HalfEdge a, HalfEdge b) { return a.code_ < b.code_; }
    /// Writes it as a script does, +7 or -7, to a std::ostream.
    template <class Stream> friend auto operator<<(Stream &stream, HalfEdge half_edge) -> decltype(stream << 'c')
    {
        return stream << (half_edge.is_second() ? '-' : '+') << half_edge.edge().number();
    }

private:
    std::uint32_t code_ = 0;
};

/// The first half-edge of an edge. Of an edge above GWB_GREATEST_EDGE it is that edge's, which no command takes.
constexpr HalfEdge plus(Edge edge) { return HalfEdge(2 * (edge.number() < GWB_GREATEST_EDGE ? edge.number() : GWB_GREATEST_EDGE)); }
/// The second half-edge of an edge, alike.
constexpr HalfEdge minus(Edge edge) { return plus(edge).twin(); }

/// Where an edge can be drawn from: the start of a half-edge, or the one corner of a loop that has a vertex and no edge.
class Corner {
public:
    constexpr Corner(HalfEdge half_edge) : code_(half_edge.code()) {}
    [[nodiscard]] constexpr std::uint32_t code() const { return code_; }

private:
    friend constexpr Corner lone(Loop loop);
    constexpr explicit Corner(std::uint32_t code) : code_(code) {}
    std::uint32_t code_;
};

/// The one corner of a loop that has a vertex and no edge. Of a loop above 2^31 - 1 it is that of 2^31 - 1, which no command takes.
constexpr Corner lone(Loop loop) { return Corner(GWB_LONE(loop.number())); }

/// A face: its solid and its outer loop.
struct FaceRow {
    Solid solid;
    Loop outer_loop;
};

/// An edge, by its vertices: where its first half-edge starts, and where its second one does.
struct EdgeRow {
    Vertex from, to;
};

/// The numbers from the first to the last; not each of them need be in use.
template <class Kind> struct Fresh {
    Kind first, last;
};

/// A wide number as one of 64 bits, where it fits.
[[nodiscard]] constexpr std::optional<std::int64_t> narrowed(gwb_wide number)
{
    const auto low = static_cast<std::int64_t>(number.low);
    return number.high == (low < 0 ? -1 : 0) ? std::optional(low) : std::nullopt;
}

/// Items of the caller that lie one after another: a list in braces, a std::vector, a std::array, in C++20 a std::span. It does not own
/// them, so it is for a parameter alone.
template <class Item> class Items {
public:
    Items(std::initializer_list<Item> items) : Items(items.begin(), items.size()) {}
    template <class Held,
              class = std::enable_if_t<std::is_convertible_v<decltype(std::data(std::declval<const Held &>())), const Item *>>>
    Items(const Held &held) : Items(std::data(held), std::size(held))
    {
    }
    // None is null, not even where there are no items.
    Items(const Item *data, std::size_t size) : data_(data != nullptr ? data : &nothing), size_(size) {}
    [[nodiscard]] const Item *data() const { return data_; }
    [[nodiscard]] std::size_t size() const { return size_; }
    [[nodiscard]] const Item *begin() const { return data_; }
    [[nodiscard]] const Item *end() const { return data_ + size_; }

private:
    static constexpr Item nothing{};
    const Item *data_;
    std::size_t size_;
};

// ---- why a call was not accepted

/// Why a call has no value.
enum class Problem {
    refused,  ///< a condition of the command is false
    fault,    ///< the line is no command
    memory,   ///< memory was refused; the call may be given again
    closed,   ///< the workbench was moved from, its handle was closed, or it is gone
    no_call,  ///< the arguments make no command: more than 64 points, or a part of no faces
    in_draft, ///< a draft is open, which has no undo, redo or second draft
    no_draft, ///< the draft has ended
    absent,   ///< the number is not in use
    changed,  ///< the model has changed since a walk over it began
    crossed,  ///< loops of the face cross or touch, so it has no triangles
    impossible, ///< a feature isn't possible (gwb_features.hpp): a Misfit
    stopped,  ///< the caller ended it (stop_by)
    version,  ///< the library that is linked is of another version than this header (GWB_VERSION)
};

/// What a feature met that isn't possible: all 0 where nothing is known of it. Where that was, hit() of the workbench says.
struct Hit {
    std::uint16_t cause = 0;  ///< enum gwb_cause
    std::uint16_t kind = 0;   ///< what the number is of: enum gwb_entity, or enum gwb_hit_kind
    std::uint32_t number = 0; ///< 0 where there is none
};

/// Why a call has no value, with its numbers. The model is as it was.
struct Failure {
    Problem problem = Problem::closed;
    std::uint32_t number = 0; ///< of the condition (gwb_names.h), of the fault or of the Misfit
    std::uint32_t value = 0;  ///< that goes with the condition, or the number that is not in use
    Hit hit{};                ///< what a feature met

    /// Whether this condition is false.
    [[nodiscard]] constexpr bool is(gwb_why why) const { return problem == Problem::refused && number == static_cast<std::uint32_t>(why); }
    /// Whether a feature isn't possible for this.
    [[nodiscard]] constexpr bool is(Misfit misfit) const { return problem == Problem::impossible && number == static_cast<std::uint32_t>(misfit); }
    /// The name of the condition or the Misfit; "" where it is none.
    [[nodiscard]] const char *name() const
    {
        if (problem == Problem::impossible)
            return misfit_name(static_cast<Misfit>(number));
        return problem == Problem::refused ? gwb_why_name(number) : "";
    }
    /// What it says, or the cause of the Misfit, in which X stands for the value, and Y for the number of what was met; "" where it is none.
    [[nodiscard]] const char *text() const
    {
        if (problem == Problem::impossible)
            return hit.cause != 0 ? gwb_cause_text(hit.cause) : gwb_misfit_text(number);
        return problem == Problem::refused ? gwb_why_text(number) : "";
    }
};

/// What a call gave: a value, or why there is none.
template <class T> class [[nodiscard]] Result {
public:
    Result(T value) : value_(std::move(value)) {}
    Result(Failure failure) : failure_(failure) {}
    /// Of a result whose value stands for one of this type, as a block for its solid.
    template <class Other, class = std::enable_if_t<std::is_convertible_v<const Other &, T>>>
    Result(const Result<Other> &other) : value_(other ? std::optional<T>(*other) : std::nullopt), failure_(other.error())
    {
    }
    [[nodiscard]] explicit operator bool() const { return value_.has_value(); }
    /// The value. Where there is none the program is terminated.
    [[nodiscard]] T &operator*() & { return *required(value_); }
    [[nodiscard]] const T &operator*() const & { return *required(value_); }
    /// Of a temporary the value itself, which lives as long as a loop over it.
    [[nodiscard]] T operator*() && { return std::move(*required(value_)); }
    [[nodiscard]] T *operator->() { return &*required(value_); }
    [[nodiscard]] const T *operator->() const { return &*required(value_); }
    /// The value, or this one where there is none.
    [[nodiscard]] T value_or(T other) const { return value_ ? *value_ : std::move(other); }
    /// Why there is none, where there is none.
    [[nodiscard]] const Failure &error() const { return failure_; }

private:
    template <class Held> static Held &required(Held &value)
    {
        if (!value)
            std::terminate();
        return value;
    }

    std::optional<T> value_;
    Failure failure_;
};

/// What a call gave that has no value: whether it was accepted.
template <> class [[nodiscard]] Result<void> {
public:
    Result() = default;
    Result(Failure failure) : is_accepted_(false), failure_(failure) {}
    [[nodiscard]] explicit operator bool() const { return is_accepted_; }
    [[nodiscard]] const Failure &error() const { return failure_; }

private:
    bool is_accepted_ = true;
    Failure failure_;
};

/// What calls give that throw nothing.
struct Results {
    template <class T> using Returned = Result<T>;
    template <class T> static Result<T> failed(std::string_view, Failure failure) { return failure; }
    template <class T> static Result<T> unmade(std::string_view, Failure failure, const gwb *) { return failure; }
    /// A range ends where its workbench is closed or has changed.
    static void ended(Failure) {}
};

#if defined(__cpp_exceptions)

/// A wide number as one of 64 bits. std::overflow_error where it does not fit.
inline std::int64_t narrow(gwb_wide number)
{
    if (auto low = narrowed(number))
        return *low;
    throw std::overflow_error("the number does not fit in 64 bits");
}

/// A command that was not accepted; nothing has changed. To throw one takes no memory but that of the exception.
class Complaint : public std::runtime_error {
public:
    /// What it says is a command, or the beginning of a line, a word and a number.
    Complaint(std::string_view command, std::string_view word, std::uint32_t number) : std::runtime_error("")
    {
        char *end = text_.data();
        for (std::string_view part : {command.substr(0, 100), std::string_view(": "), word, std::string_view(" ")})
            end = std::copy(part.begin(), part.end(), end);
        *std::to_chars(end, text_.data() + text_.size() - 1, number).ptr = '\0';
    }
    [[nodiscard]] const char *what() const noexcept override { return text_.data(); }

private:
    std::array<char, 160> text_;
};

/// A condition of the command is false: its number, its name and the value that goes with it.
class Refused : public Complaint {
public:
    Refused(std::string_view command, gwb_refusal refusal)
        : Complaint(command, gwb_why_name(refusal.number), refusal.value), refusal_(refusal)
    {
    }
    [[nodiscard]] std::uint32_t number() const { return refusal_.number; }
    [[nodiscard]] gwb_why why() const { return static_cast<gwb_why>(refusal_.number); }
    [[nodiscard]] std::uint32_t value() const { return refusal_.value; }
    [[nodiscard]] const char *name() const { return gwb_why_name(refusal_.number); }
    /// What the condition says, in which X stands for the value.
    [[nodiscard]] const char *text() const { return gwb_why_text(refusal_.number); }

private:
    gwb_refusal refusal_;
};

/// The same, for one condition: catch (const RefusedBy<GWB_WHY_NO_SOLID> &refused). gwb_names.h has all of them.
template <gwb_why Why> class RefusedBy : public Refused {
public:
    using Refused::Refused;
};

/// The line is no command: the number of the fault.
class Faulted : public Complaint {
public:
    Faulted(std::string_view line, std::uint32_t number) : Complaint(line, "fault", number), number_(number) {}
    [[nodiscard]] std::uint32_t number() const { return number_; }

private:
    std::uint32_t number_;
};

/// Loops of a face cross or touch, so it has no triangles (gwb_triangles.hpp): the face.
class Crossed : public Complaint {
public:
    Crossed(std::string_view command, std::uint32_t face)
        : Complaint(command, "loops cross or touch in face", face), face_(face)
    {
    }
    [[nodiscard]] Face face() const { return Face(face_); }

private:
    std::uint32_t face_;
};

/// A feature isn't possible: why, and the value that goes with it.
class Impossible : public Complaint {
public:
    Impossible(std::string_view feature, const Failure &failure, const gwb_hit_row &hit)
        : Complaint(feature, failure.name(), failure.value), failure_(failure), hit_(hit)
    {
    }
    [[nodiscard]] Misfit misfit() const { return static_cast<Misfit>(failure_.number); }
    [[nodiscard]] std::uint32_t value() const { return failure_.value; }
    /// What it met, and where.
    [[nodiscard]] const gwb_hit_row &hit() const { return hit_; }
    [[nodiscard]] const char *name() const { return failure_.name(); }
    /// What it says, in which X stands for the value, and Y for the number of what was met.
    [[nodiscard]] const char *text() const { return failure_.text(); }

private:
    Failure failure_;
    gwb_hit_row hit_;
};

/// A call that its caller had no right to make; nothing has changed.
class Misused : public std::logic_error {
public:
    using std::logic_error::logic_error;
};

/// The workbench was moved from, its handle was closed, or it is gone.
class Closed : public Misused {
public:
    Closed() : Misused("the workbench is closed") {}
};

/// The arguments make no command: more than 64 points, or a part of no faces.
class NoCall : public Misused {
public:
    explicit NoCall(std::string_view command) : Misused(std::string(command) + ": these arguments make no command") {}
};

/// A draft has no line, undo, redo or second draft.
class InDraft : public Misused {
public:
    explicit InDraft(std::string_view command)
        : Misused(std::string(command.substr(0, 100)) + ": a draft is open, which has no such call")
    {
    }
};

/// The draft has ended.
class NoDraft : public Misused {
public:
    explicit NoDraft(std::string_view command) : Misused(std::string(command) + ": there is no draft") {}
};

/// The caller ended what was under way (stop_by); nothing has changed.
class Stopped : public std::runtime_error {
public:
    Stopped() : std::runtime_error("the caller ended it") {}
};

/// The library that is linked is of another version than this header.
class OtherVersion : public std::runtime_error {
public:
    OtherVersion() : std::runtime_error("libgwb has version " + number(gwb_version()) + ", and gwb.hpp is of " + number(GWB_VERSION)) {}

private:
    static std::string number(std::uint32_t version)
    {
        return std::to_string(version / 10'000) + "." + std::to_string(version / 100 % 100) + "." + std::to_string(version % 100);
    }
};

/// The model has changed since a walk round a loop, a vertex or a face began.
class Changed : public Misused {
public:
    Changed() : Misused("the model has changed since the walk over it began") {}
};

/// What calls give that throw.
struct Throwing {
    template <class T> using Returned = T;

    /// Throws as few frames above the caller as it can: each of them costs as much as all that it does itself. Where nothing is returned, what
    /// throws is called last, and takes the place of this frame.
    template <class T> static T failed(std::string_view command, Failure failure)
    {
        if constexpr (std::is_void_v<T>) {
            return thrower(failure)(command, failure);
        } else {
            thrower(failure)(command, failure);
            std::terminate();
        }
    }

    /// The same of a feature of this handle, which still tells what that met.
    template <class T> static T unmade(std::string_view feature, Failure failure, const gwb *g)
    {
        if (failure.problem != Problem::impossible)
            return failed<T>(feature, failure);
        gwb_hit_row hit{};
        gwb_hit(g, &hit);
        throw Impossible(feature, failure, hit);
    }

    static void ended(Failure failure)
    {
        if (failure.problem != Problem::absent)
            failed<void>("a range", failure);
    }

private:
    using Thrower = void (*)(std::string_view, Failure);

    template <gwb_why Why> [[noreturn]] static void refuse_by(std::string_view command, Failure failure)
    {
        throw RefusedBy<Why>(command, gwb_refusal{failure.number, failure.value});
    }

    template <std::size_t... Before> static constexpr std::array<Thrower, sizeof...(Before)> throwers(std::index_sequence<Before...>)
    {
        return {refuse_by<static_cast<gwb_why>(Before + 1)>...};
    }

    /// What throws a failure: a refusal in the class of its condition. They are numbered from 1 on.
    static Thrower thrower(Failure failure)
    {
        static constexpr auto table = throwers(std::make_index_sequence<GWB_WHY_BAD_PART>());
        const bool is_known = failure.problem == Problem::refused && failure.number - 1 < table.size();
        return is_known ? table[failure.number - 1] : fail;
    }

    [[noreturn]] static void fail(std::string_view command, Failure failure)
    {
        switch (failure.problem) {
        case Problem::refused: throw Refused(command, {failure.number, failure.value}); // of a library that is newer than this
        case Problem::fault: throw Faulted(command, failure.number);
        case Problem::memory: throw std::bad_alloc();
        case Problem::no_call: throw NoCall(command);
        case Problem::in_draft: throw InDraft(command);
        case Problem::no_draft: throw NoDraft(command);
        case Problem::absent: throw std::out_of_range("there is no " + std::string(command) + " " + std::to_string(failure.value));
        case Problem::changed: throw Changed();
        case Problem::crossed: throw Crossed(command, failure.value);
        case Problem::impossible: throw Impossible(command, failure, {});
        case Problem::stopped: throw Stopped();
        case Problem::version: throw OtherVersion();
        case Problem::closed: break;
        }
        throw Closed();
    }
};

#endif // __cpp_exceptions

// ---- what workbenches, their drafts and their ranges share

/// How far a draft had come: Commands::mark(), Commands::back().
class Mark {
public:
    /// Where it begins.
    Mark() = default;
    /// How many steps it had.
    [[nodiscard]] std::size_t steps() const { return steps_; }

private:
    friend class State;
    /// For each kind the first and the last number, 0 where there is none.
    using Ranges = std::array<gwb_range, 5>;

    std::size_t steps_ = 0;
    Ranges made_{};           ///< by the steps until then
    std::uint64_t draft_ = 0; ///< which it is of: 0 of any
    std::size_t backs_ = 0;   ///< how often that had gone back
};

/// A session, shared by its workbench, the drafts and the ranges of it. It is closed as soon as the workbench is gone; what is left of it
/// says so.
class State {
public:
    gwb handle{};
    /// How many commands were accepted that may have changed the model.
    std::uint64_t changes = 0;
    /// The number of the draft that was opened last, which no other draft has.
    std::uint64_t draft = 0;

    State() = default;
    State(const State &) = delete;
    State &operator=(const State &) = delete;
    ~State() { gwb_close(&handle); }

    /// The fresh numbers of a kind: those that the last command made.
    [[nodiscard]] std::optional<gwb_range> fresh(gwb_entity kind) const
    {
        const gwb_range range = is_kept_ ? kept_[kind] : is_whole_ ? above(kind) : live(kind);
        return range.first != 0 ? std::optional(range) : std::nullopt;
    }

    /// Before a query, which makes the kernel forget what the last command made.
    void keep_fresh()
    {
        if (!is_kept_)
            kept_ = is_whole_ ? above() : live();
        is_kept_ = true;
        is_whole_ = false;
    }

    /// After a command with this answer.
    void follow(gwb_kind kind)
    {
        if (kind > GWB_MEMORY)
            return;
        is_kept_ = is_whole_ = false;
        if (kind == GWB_OK)
            changes++;
        if (kind == GWB_OK && is_drafting_)
            add(live());
    }

    /// The greatest number of a kind in use. It is sought from the one of the last time on.
    [[nodiscard]] std::uint32_t greatest(std::uint32_t kind)
    {
        std::uint32_t &number = greatest_[kind], found = 0;
        if (number == 0 || gwb_number_after(&handle, kind, number - 1, &found) != GWB_FOUND || found != number)
            return number = sought(kind);
        for (int more = 0; more < few; more++) {
            if (gwb_number_after(&handle, kind, number, &found) != GWB_FOUND)
                return number;
            number = found;
        }
        return number = sought(kind);
    }

    /// Before many commands that are one, or steps of the draft that is open.
    void begin_whole()
    {
        for (std::uint32_t kind = GWB_FACE; kind < whole_.size(); kind++)
            whole_[kind] = greatest(kind);
    }

    /// After them, where they were accepted.
    void end_whole()
    {
        changes++;
        is_kept_ = false;
        is_whole_ = true;
        if (is_drafting_)
            add(above());
    }

    /// After a draft was opened: its number.
    std::uint64_t begin_draft()
    {
        is_drafting_ = true;
        is_kept_ = is_whole_ = false;
        drafted_ = {};
        lowest_.clear();
        backs_ = 0;
        changes++;
        return draft = next_draft();
    }

    /// How far the draft that is open has come.
    [[nodiscard]] Mark mark(std::size_t steps) const
    {
        Mark mark;
        mark.steps_ = steps;
        mark.made_ = drafted_;
        mark.draft_ = draft;
        mark.backs_ = backs_;
        return mark;
    }

    /// Whether the draft that is open is that of a mark, and hasn't gone back before it since.
    [[nodiscard]] bool has(const Mark &mark) const
    {
        const auto later = std::find_if(lowest_.begin(), lowest_.end(), [&](const Lowest &back) { return back.number >= mark.backs_; });
        return mark.draft_ == 0 || (mark.draft_ == draft && (later == lowest_.end() || later->steps >= mark.steps_));
    }

    /// Before the steps since a mark are taken back: room to write that down.
    void reserve_back() { lowest_.reserve(lowest_.size() + 1); }

    /// After they were.
    void go_back(const Mark &mark)
    {
        while (!lowest_.empty() && lowest_.back().steps >= mark.steps_)
            lowest_.pop_back();
        lowest_.push_back({backs_++, mark.steps_});
        changes++;
        is_kept_ = is_whole_ = false;
        drafted_ = mark.made_;
    }

    /// After a draft has ended; where it was committed it has made what its steps made, and else the model is the one before it.
    void end_draft(bool is_committed)
    {
        is_drafting_ = is_whole_ = false;
        changes++;
        is_kept_ = is_committed;
        kept_ = drafted_;
    }

private:
    using Ranges = Mark::Ranges;

    [[nodiscard]] gwb_range live(gwb_entity kind) const
    {
        gwb_range range{0, 0};
        gwb_fresh(&handle, kind, &range);
        return range;
    }

    [[nodiscard]] Ranges live() const { return {gwb_range{0, 0}, live(GWB_FACE), live(GWB_LOOP), live(GWB_EDGE), live(GWB_VERTEX)}; }

    void add(const Ranges &step)
    {
        for (std::size_t kind = 0; kind < step.size(); kind++) {
            gwb_range &all = drafted_[kind];
            if (step[kind].first != 0)
                all = all.first == 0 ? step[kind] : gwb_range{std::min(all.first, step[kind].first), std::max(all.last, step[kind].last)};
        }
    }

    /// The numbers of a kind that commands made that were one.
    [[nodiscard]] gwb_range above(std::uint32_t kind) const
    {
        gwb_range range{0, 0};
        if (gwb_number_after(&handle, kind, whole_[kind], &range.first) == GWB_FOUND)
            range.last = sought(kind);
        return range;
    }
    [[nodiscard]] Ranges above() const { return {gwb_range{0, 0}, above(GWB_FACE), above(GWB_LOOP), above(GWB_EDGE), above(GWB_VERTEX)}; }

    [[nodiscard]] std::uint32_t sought(std::uint32_t kind) const { return static_cast<std::uint32_t>(gwb_greatest_number(&handle, kind)); }

    /// A number for a draft that none in the program has had.
    static std::uint64_t next_draft()
    {
        static std::atomic<std::uint64_t> drafts{0};
        return ++drafts;
    }

    /// That the draft went back so far, as the back of this number; later ones went less far.
    struct Lowest {
        std::size_t number, steps;
    };

    static constexpr int few = 8;
    bool is_kept_ = false, is_whole_ = false, is_drafting_ = false;
    Ranges kept_{}, drafted_{};
    std::array<std::uint32_t, 5> whole_{}; ///< the greatest numbers before commands that were one
    std::array<std::uint32_t, 5> greatest_{};
    std::size_t backs_ = 0;
    std::vector<Lowest> lowest_;
};

// ---- ranges

/// A range of what the readers of gwb.h find one after another, by a rule. It can be gone through as often as wanted. Its iterators stay
/// good as long as the workbench is there. Where that is closed or gone, a range throws Closed; where the model has changed since a walk
/// round a loop, a vertex or a face began, Changed. Without exceptions it ends there, and is_open() tells an end from a session that is closed.
template <class Policy, class Rule> class Range {
public:
    class iterator {
    public:
        using iterator_concept = std::forward_iterator_tag;
        using iterator_category = std::input_iterator_tag;
        using value_type = typename Rule::Value;
        using difference_type = std::ptrdiff_t;
        using pointer = void;
        using reference = value_type;

        iterator() = default;
        iterator(const State *state, Rule rule) : state_(state), rule_(rule), changes_(state->changes) { settle(rule_.begin(state->handle)); }
        value_type operator*() const { return rule_.value(); }
        iterator &operator++()
        {
            if (Rule::is_walk && state_->changes != changes_)
                end({Problem::changed});
            else
                settle(rule_.advance(state_->handle));
            return *this;
        }
        iterator operator++(int)
        {
            iterator before = *this;
            ++*this;
            return before;
        }
        friend bool operator==(const iterator &a, const iterator &b)
        {
            return a.state_ == b.state_ && (a.state_ == nullptr || a.rule_.value() == b.rule_.value());
        }
        friend bool operator!=(const iterator &a, const iterator &b) { return !(a == b); }

    private:
        void settle(std::uint32_t answer)
        {
            if (answer != GWB_FOUND)
                end({answer == GWB_CLOSED ? Problem::closed : Problem::absent});
        }
        void end(Failure failure)
        {
            state_ = nullptr;
            Policy::ended(failure);
        }

        const State *state_ = nullptr; // none: the end
        Rule rule_{};
        std::uint64_t changes_ = 0;
    };

    Range(std::shared_ptr<const State> state, Rule rule) : state_(std::move(state)), rule_(rule) {}
    [[nodiscard]] iterator begin() const { return iterator(state_.get(), rule_); }
    [[nodiscard]] iterator end() const { return {}; }
    [[nodiscard]] bool empty() const { return begin() == end(); }
    /// Whether its session is open.
    [[nodiscard]] bool is_open() const { return gwb_is_open(&state_->handle); }

private:
    std::shared_ptr<const State> state_;
    Rule rule_;
};

/// Numbers, rising: each is the least above the one before, up to the greatest that was in use when it began, so that what is made meanwhile isn't
/// among them.
template <class Kind> class Rising {
public:
    using Value = Kind;
    using After = std::uint32_t (*)(const gwb *, std::uint32_t, std::uint32_t, std::uint32_t *);
    static constexpr bool is_walk = false;

    Rising() = default;
    Rising(After after, std::uint32_t owner) : after_(after), owner_(owner) {}
    std::uint32_t begin(const gwb &g)
    {
        const std::uint32_t answer = after_(&g, owner_, number_, &number_);
        last_ = answer == GWB_FOUND ? gwb_greatest_number(&g, Kind::kind) : 0;
        return answer;
    }
    std::uint32_t advance(const gwb &g)
    {
        const std::uint32_t answer = after_(&g, owner_, number_, &number_);
        return answer == GWB_FOUND && number_ > last_ ? std::uint32_t{GWB_ABSENT} : answer;
    }
    Kind value() const { return Kind(number_); }

private:
    After after_ = nullptr;
    std::uint32_t owner_ = 0, number_ = 0;
    std::size_t last_ = 0; ///< the greatest number in use when it began
};

/// The half-edges of a loop in their order round it, from any of them on.
class RoundLoop {
public:
    using Value = HalfEdge;
    static constexpr bool is_walk = true;

    RoundLoop() = default;
    explicit RoundLoop(Loop loop) : loop_(loop) {}
    std::uint32_t begin(const gwb &g)
    {
        std::uint32_t answer = gwb_first_half_edge(&g, loop_.number(), &first_);
        at_ = first_;
        return answer;
    }
    std::uint32_t advance(const gwb &g)
    {
        std::uint32_t answer = gwb_next_half_edge(&g, at_, &at_);
        return answer == GWB_FOUND && at_ == first_ ? std::uint32_t{GWB_ABSENT} : answer;
    }
    HalfEdge value() const { return HalfEdge(at_); }

private:
    Loop loop_;
    std::uint32_t first_ = 0, at_ = 0;
};

/// The half-edges that start at a vertex, in their order round it.
class RoundVertex {
public:
    using Value = HalfEdge;
    static constexpr bool is_walk = true;

    RoundVertex() = default;
    /// From this half-edge on.
    explicit RoundVertex(HalfEdge first) : first_(first.code()) {}
    explicit RoundVertex(Vertex vertex) : vertex_(vertex) {}
    std::uint32_t begin(const gwb &g)
    {
        std::uint32_t answer = GWB_FOUND, loop = 0;
        answer = vertex_ == Vertex() ? gwb_half_edge_loop(&g, first_, &loop) : gwb_vertex_half_edge(&g, vertex_.number(), &first_);
        at_ = first_;
        return answer;
    }
    std::uint32_t advance(const gwb &g)
    {
        std::uint32_t answer = gwb_next_half_edge(&g, at_ ^ 1u, &at_);
        return answer == GWB_FOUND && at_ == first_ ? std::uint32_t{GWB_ABSENT} : answer;
    }
    HalfEdge value() const { return HalfEdge(at_); }

private:
    Vertex vertex_;
    std::uint32_t first_ = 0, at_ = 0;
};

/// The loops of a face: its outer loop, and then its rings, rising.
class LoopsOfFace {
public:
    using Value = Loop;
    static constexpr bool is_walk = true;

    LoopsOfFace() = default;
    explicit LoopsOfFace(Face face) : face_(face) {}
    std::uint32_t begin(const gwb &g)
    {
        gwb_face_row row{0, 0};
        std::uint32_t answer = gwb_face(&g, face_.number(), &row);
        at_ = row.outer_loop;
        return answer;
    }
    std::uint32_t advance(const gwb &g)
    {
        std::uint32_t answer = gwb_ring_after(&g, face_.number(), ring_, &ring_);
        at_ = ring_;
        return answer;
    }
    Loop value() const { return Loop(at_); }

private:
    Face face_;
    std::uint32_t ring_ = 0, at_ = 0;
};

/// The half-edges of all loops of a face, one loop after another.
class HalfEdgesOfFace {
public:
    using Value = HalfEdge;
    static constexpr bool is_walk = true;

    HalfEdgesOfFace() = default;
    explicit HalfEdgesOfFace(Face face) : loops_(face) {}
    std::uint32_t begin(const gwb &g) { return enter(g, loops_.begin(g)); }
    std::uint32_t advance(const gwb &g)
    {
        std::uint32_t answer = round_.advance(g);
        return answer == GWB_ABSENT ? enter(g, loops_.advance(g)) : answer;
    }
    HalfEdge value() const { return round_.value(); }

private:
    /// Goes into the loop where the loops are now, or the next one that has an edge.
    std::uint32_t enter(const gwb &g, std::uint32_t answer)
    {
        for (; answer == GWB_FOUND; answer = loops_.advance(g)) {
            round_ = RoundLoop(loops_.value());
            if (std::uint32_t first = round_.begin(g); first != GWB_ABSENT)
                return first;
        }
        return answer;
    }

    LoopsOfFace loops_;
    RoundLoop round_;
};

/// The edges of a face, each once, also where the face lies on both sides of it.
class EdgesOfFace {
public:
    using Value = Edge;
    static constexpr bool is_walk = true;

    EdgesOfFace() = default;
    explicit EdgesOfFace(Face face) : face_(face), half_edges_(face) {}
    std::uint32_t begin(const gwb &g) { return skip(g, half_edges_.begin(g)); }
    std::uint32_t advance(const gwb &g) { return skip(g, half_edges_.advance(g)); }
    Edge value() const { return half_edges_.value().edge(); }

private:
    /// Passes over second half-edges whose first one is of the face too.
    std::uint32_t skip(const gwb &g, std::uint32_t answer)
    {
        while (answer == GWB_FOUND && half_edges_.value().is_second() && is_here(g, half_edges_.value().twin()))
            answer = half_edges_.advance(g);
        return answer;
    }
    [[nodiscard]] bool is_here(const gwb &g, HalfEdge half_edge) const
    {
        std::uint32_t loop = 0, face = 0;
        return gwb_half_edge_loop(&g, half_edge.code(), &loop) == GWB_FOUND && gwb_loop(&g, loop, &face) == GWB_FOUND && Face(face) == face_;
    }

    Face face_;
    HalfEdgesOfFace half_edges_;
};

// ---- drafts

template <class Policy> class Commands;

/// A draft of a workbench's next command: the operators and larger commands given while it is open become one command when it is committed,
/// also where there were none. At the end of its scope it is abandoned, unless it was committed: then the workbench is as it was before,
/// what can be redone included. What is refused changes nothing and leaves it open. It may outlive its workbench, which is Closed for it
/// then.
///
///     Draft draft = bench.draft();
///     const Solid first = bench.block({0, 0, 0}, {4, 4, 4});
///     const Mark mark = bench.mark();
///     bench.split(first, 0, 0, 1, -2);
///     bench.back(mark); // without the split
///     draft.commit();
template <class Policy> class BasicDraft {
public:
    BasicDraft(BasicDraft &&other) noexcept : state_(std::exchange(other.state_, nullptr)), number_(other.number_) {}
    BasicDraft &operator=(BasicDraft &&) = delete;
    ~BasicDraft()
    {
        if (is_newest() && gwb_abandon(&state_->handle) == GWB_OK)
            state_->end_draft(false);
    }

    /// Its steps are one command from here on. NoDraft where it has ended.
    typename Policy::template Returned<void> commit() { return end("commit", gwb_commit, true); }
    /// Its steps are taken back. NoDraft where it has ended.
    typename Policy::template Returned<void> abandon() { return end("abandon", gwb_abandon, false); }

private:
    friend class Commands<Policy>;
    explicit BasicDraft(std::shared_ptr<State> state) : state_(std::move(state)), number_(state_->begin_draft()) {}

    /// Whether no draft of the workbench was opened after this one, so that a draft that is open is this one.
    [[nodiscard]] bool is_newest() const { return state_ != nullptr && state_->draft == number_; }

    typename Policy::template Returned<void> end(const char *command, gwb_kind (*call)(gwb *), bool is_committed)
    {
        gwb_kind kind = is_newest() ? call(&state_->handle) : GWB_NO_DRAFT;
        if (kind == GWB_OK)
            state_->end_draft(is_committed);
        state_ = nullptr;
        if (kind != GWB_OK)
            return Policy::template failed<void>(command, {kind == GWB_CLOSED ? Problem::closed : Problem::no_draft});
        return typename Policy::template Returned<void>();
    }

    std::shared_ptr<State> state_;
    std::uint64_t number_;
};

// ---- workbenches

/// What is made where mvfs chooses the numbers.
struct NewSolid {
    Solid solid;
    Face face;
    Loop loop;
    Vertex vertex;
};

/// What is made where mev chooses the numbers.
struct NewVertex {
    Edge edge;
    Vertex vertex;
};

/// What is made where mef chooses the numbers.
struct NewFace {
    Edge edge;
    Face face;
    Loop loop;
};

class Readings;

/// What block makes; it stands for its solid.
struct Block {
    Solid solid;
    Face top, bottom;          ///< where z is greatest, and least
    std::array<Face, 4> sides; ///< where y is least, x greatest, y greatest, x least
    operator Solid() const { return solid; }
};

/// What lamina makes; it stands for its solid.
struct Lamina {
    Solid solid;
    Face front, back; ///< round the first the points run counterclockwise as seen from outside
    operator Solid() const { return solid; }
};

/// The calls of a workbench. Where the Policy is Throwing they give their value, and throw RefusedBy where a condition is false,
/// std::bad_alloc where memory is refused. Where it is Results they give a Result, and throw only std::bad_alloc, if memory is refused for a
/// std::vector or a std::string that they make. Where a call is not accepted the model is as it was.
///
/// A call that makes something takes the numbers of what it makes, or none: then it takes the least that are above all in use, and returns
/// them.
///
/// All const methods, measures (plane, six_volumes, count, listing) among them, are readers in the sense of gwb.h, of which many may run at
/// once; they leave the last answer as it is.
///
/// While a draft is open, operators and larger commands, also as lines, are its steps, readers and measures speak of its model, and undo,
/// redo and a second draft are InDraft.
template <class Policy> class Commands {
public:
    template <class T> using Returned = typename Policy::template Returned<T>;
    template <class Rule> using RangeOf = Range<Policy, Rule>;
    using Draft = BasicDraft<Policy>;

    // Operators, their arguments in the order of a script's words. The new edge's first half-edge starts at the first corner.

    /// A new solid with one face, whose outer loop stands at one new vertex.
    Returned<void> mvfs(Solid solid, Face face, Loop loop, Vertex vertex, Point at)
    {
        return told("mvfs", gwb_mvfs(held(), solid.number(), face.number(), loop.number(), vertex.number(), at.x, at.y, at.z));
    }
    Returned<NewSolid> mvfs(Point at)
    {
        const NewSolid made{free<Solid>(), free<Face>(), free<Loop>(), free<Vertex>()};
        return with(made, "mvfs",
                    gwb_mvfs(held(), made.solid.number(), made.face.number(), made.loop.number(), made.vertex.number(), at.x, at.y, at.z));
    }
    /// The solid goes, with its one face, loop and vertex.
    Returned<void> kvfs(Solid solid) { return told("kvfs", gwb_kvfs(held(), solid.number())); }
    /// A new edge from the vertex of the corners to a new vertex. With one corner given twice it sticks out there; with two corners at one
    /// vertex, the half-edges from the first round to before the second start at the new vertex.
    Returned<void> mev(Corner corner, Corner other, Edge edge, Vertex vertex, Point at)
    {
        return told("mev", gwb_mev(held(), corner.code(), other.code(), edge.number(), vertex.number(), at.x, at.y, at.z));
    }
    Returned<NewVertex> mev(Corner corner, Corner other, Point at)
    {
        const NewVertex made{free<Edge>(), free<Vertex>()};
        return with(made, "mev", gwb_mev(held(), corner.code(), other.code(), made.edge.number(), made.vertex.number(), at.x, at.y, at.z));
    }
    /// The edge goes, and the vertex at the end of the half-edge; what else starts there starts where the half-edge does.
    Returned<void> kev(HalfEdge half_edge) { return told("kev", gwb_kev(held(), half_edge.code())); }
    /// A new edge across a face, between the vertices at which two half-edges of one loop start. The part from the first to before the
    /// second becomes the loop of the new face.
    Returned<void> mef(HalfEdge half_edge, HalfEdge other, Edge edge, Face face, Loop loop)
    {
        return told("mef", gwb_mef(held(), half_edge.code(), other.code(), edge.number(), face.number(), loop.number()));
    }
    Returned<NewFace> mef(HalfEdge half_edge, HalfEdge other)
    {
        const NewFace made{free<Edge>(), free<Face>(), free<Loop>()};
        return with(made, "mef", gwb_mef(held(), half_edge.code(), other.code(), made.edge.number(), made.face.number(), made.loop.number()));
    }
    /// The edge goes, and the face on its other side becomes part of the half-edge's own.
    Returned<void> kef(HalfEdge half_edge) { return told("kef", gwb_kef(held(), half_edge.code())); }
    /// The edge goes, which has one loop on both sides; the part after the half-edge is a new ring of the face.
    Returned<void> kemr(HalfEdge half_edge, Loop ring) { return told("kemr", gwb_kemr(held(), half_edge.code(), ring.number())); }
    Returned<Loop> kemr(HalfEdge half_edge)
    {
        const Loop ring = free<Loop>();
        return with(ring, "kemr", gwb_kemr(held(), half_edge.code(), ring.number()));
    }
    /// A new edge from the first corner to the second, whose loop is a ring of the same face and becomes part of the first one's.
    Returned<void> mekr(Corner corner, Corner other, Edge edge)
    {
        return told("mekr", gwb_mekr(held(), corner.code(), other.code(), edge.number()));
    }
    Returned<Edge> mekr(Corner corner, Corner other)
    {
        const Edge edge = free<Edge>();
        return with(edge, "mekr", gwb_mekr(held(), corner.code(), other.code(), edge.number()));
    }
    /// The second face goes, and its loop becomes a ring of the first.
    Returned<void> kfmrh(Face face, Face other) { return told("kfmrh", gwb_kfmrh(held(), face.number(), other.number())); }
    /// A ring becomes the outer loop of a new face of the same solid.
    Returned<void> mfkrh(Loop ring, Face face) { return told("mfkrh", gwb_mfkrh(held(), ring.number(), face.number())); }
    Returned<Face> mfkrh(Loop ring)
    {
        const Face face = free<Face>();
        return with(face, "mfkrh", gwb_mfkrh(held(), ring.number(), face.number()));
    }
    /// A ring becomes a ring of another face: `ringmv` with the word `in`.
    Returned<void> ring_in(Loop ring, Face face) { return told("ringmv", gwb_ringmv(held(), ring.number(), face.number(), 0)); }
    /// A ring becomes the outer loop of a face, whose old one becomes a ring of it: `ringmv` with the word `out`.
    Returned<void> ring_out(Loop ring, Face face) { return told("ringmv", gwb_ringmv(held(), ring.number(), face.number(), 1)); }

    // Three operators that no script has.

    /// A ring becomes the outer loop of its own face, whose old one becomes a ring of the face given.
    Returned<void> outer(Loop ring, Face face) { return told("outer", gwb_outer(held(), ring.number(), face.number())); }
    /// Two solids become the first.
    Returned<void> merge(Solid solid, Solid other) { return told("merge", gwb_merge(held(), solid.number(), other.number())); }
    /// Faces of a solid, their numbers rising, which share no edge with its others, become a new one. NoCall where there are no faces.
    Returned<void> part(Items<Face> faces, Solid solid)
    {
        std::vector<std::uint32_t> numbers;
        numbers.reserve(faces.size() + 1); // so that it has an address
        for (Face face : faces)
            numbers.push_back(face.number());
        return told("part", gwb_part(held(), numbers.data(), numbers.size(), solid.number()));
    }

    // Larger commands. Their faces, loops, edges and vertices are among fresh().

    /// A new solid of two faces through 3 to 64 points, one on either side. NoCall where there are more.
    Returned<void> lamina(Solid solid, Items<Point> points)
    {
        return told("lamina", gwb_lamina(held(), solid.number(), points.data(), points.size()));
    }
    Returned<Lamina> lamina(Items<Point> points)
    {
        const Solid solid = free<Solid>();
        const gwb_kind kind = gwb_lamina(held(), solid.number(), points.data(), points.size());
        std::uint32_t front = 0, back = 0;
        gwb_last_lamina(seen(), &front, &back);
        return with(Lamina{solid, Face(front), Face(back)}, "lamina", kind);
    }
    /// A new solid, the block with this lowest corner and edges along the axes as long as the sizes.
    Returned<void> block(Solid solid, Point corner, Point sizes)
    {
        return told("block", gwb_block(held(), solid.number(), corner.x, corner.y, corner.z, sizes.x, sizes.y, sizes.z));
    }
    Returned<Block> block(Point corner, Point sizes)
    {
        const Solid solid = free<Solid>();
        const gwb_kind kind = gwb_block(held(), solid.number(), corner.x, corner.y, corner.z, sizes.x, sizes.y, sizes.z);
        gwb_block_faces made{};
        gwb_last_block(seen(), &made);
        const std::array<Face, 4> sides = {Face(made.sides[0]), Face(made.sides[1]), Face(made.sides[2]), Face(made.sides[3])};
        return with(Block{solid, Face(made.top), Face(made.bottom), sides}, "block", kind);
    }
    /// The face moves by a vector, and a new face rises over each of its half-edges. Sweep a lamina's first face along its normal: against
    /// it the solid is inside out, and its volume negative.
    Returned<void> sweep(Face face, Point along) { return told("sweep", gwb_sweep(held(), face.number(), along.x, along.y, along.z)); }
    /// The two solids of the faces become one along them. The faces go through the same points in opposite directions.
    Returned<void> glue(Face face, Face other) { return told("glue", gwb_glue(held(), face.number(), other.number())); }
    /// What lies above the plane a x + b y + c z + d = 0, where the sum is greater than 0, becomes solid `above`. Where it is refused
    /// NotLattice, off_lattice of gwb_features.hpp says what would do.
    Returned<void> split(Solid solid, std::int64_t a, std::int64_t b, std::int64_t c, std::int64_t d, Solid above)
    {
        return told("split", gwb_split(held(), solid.number(), a, b, c, d, above.number()));
    }
    Returned<Solid> split(Solid solid, std::int64_t a, std::int64_t b, std::int64_t c, std::int64_t d)
    {
        const Solid above = free<Solid>();
        return with(above, "split", gwb_split(held(), solid.number(), a, b, c, d, above.number()));
    }

    /// Opens a draft of the next command.
    [[nodiscard]] Returned<Draft> draft()
    {
        gwb_kind kind = gwb_draft(held());
        if (kind == GWB_OK)
            return Draft(state_);
        follow(kind);
        return Policy::template failed<Draft>("draft", failure(kind));
    }

    /// How far the draft that is open has come, for back().
    [[nodiscard]] Returned<Mark> mark() const
    {
        const std::size_t steps = gwb_mark(seen());
        return steps != SIZE_MAX ? Returned<Mark>(state_->mark(steps)) : Policy::template failed<Mark>("mark", {Problem::closed});
    }
    /// Takes the draft's steps since a mark back, and leaves it open; Mark() is where it begins. NoDraft where none is open, or the mark is of
    /// another draft or of steps that were taken back.
    Returned<void> back(const Mark &mark)
    {
        if (state_ != nullptr && !state_->has(mark))
            return Policy::template failed<void>("back", {Problem::no_draft});
        if (state_ != nullptr)
            state_->reserve_back();
        const gwb_kind kind = gwb_back(held(), mark.steps());
        if (kind != GWB_OK)
            return Policy::template failed<void>("back", failure(kind));
        state_->go_back(mark);
        return Returned<void>();
    }

    Returned<void> undo() { return told("undo", gwb_undo(held())); }
    Returned<void> redo() { return told("redo", gwb_redo(held())); }
    /// How many commands can be undone: none while a draft is open.
    [[nodiscard]] Returned<std::size_t> depth() const { return sized(gwb_depth(seen())); }
    /// How many commands can be redone: none while a draft is open.
    [[nodiscard]] Returned<std::size_t> ahead() const { return sized(gwb_ahead(seen())); }

    // Measures.

    /// The plane of a face, and whether the face is flat.
    [[nodiscard]] Returned<gwb_plane> plane(Face face) const
    {
        gwb_plane plane{};
        gwb_refusal refusal{};
        return weighed("plane", gwb_read_plane(seen(), face.number(), &plane, &refusal), plane, refusal);
    }
    /// Six times the volume of a solid.
    [[nodiscard]] Returned<gwb_wide> six_volumes(Solid solid) const
    {
        gwb_wide volumes{};
        gwb_refusal refusal{};
        return weighed("volume", gwb_read_volume(seen(), solid.number(), &volumes, &refusal), volumes, refusal);
    }
    /// The vertices, edges, faces and rings of a solid.
    [[nodiscard]] Returned<gwb_counts> count(Solid solid) const
    {
        gwb_counts counts{};
        gwb_refusal refusal{};
        return weighed("count", gwb_read_counts(seen(), solid.number(), &counts, &refusal), counts, refusal);
    }
    /// The listing of the model, as the script language's `list` writes it.
    [[nodiscard]] Returned<std::string> listing() const
    {
        return text("list", gwb_read_listing);
    }

    // Numbers.

    /// The numbers of a kind that the last command made above all that were in use before it, up to the greatest in use: of a draft, the
    /// first and the last that its steps so made. Measures leave them as they are. None where there are none, and for solids, which a
    /// command names.
    template <class Kind> [[nodiscard]] Returned<std::optional<Fresh<Kind>>> fresh() const
    {
        using Found = std::optional<Fresh<Kind>>;
        if (!is_open())
            return Policy::template failed<Found>("fresh", {Problem::closed});
        std::optional<gwb_range> range = state_->fresh(Kind::kind);
        return range ? Found({Kind(range->first), Kind(range->last)}) : Found();
    }
    /// The greatest number of a kind in use, 0 where none is.
    template <class Kind> [[nodiscard]] Returned<Kind> greatest() const
    {
        std::size_t number = gwb_greatest_number(seen(), Kind::kind);
        return number == SIZE_MAX ? Policy::template failed<Kind>("greatest", {Problem::closed})
                                  : Returned<Kind>(Kind(static_cast<std::uint32_t>(number)));
    }
    /// The number above all of a kind in use.
    template <class Kind> [[nodiscard]] Returned<Kind> next_free() const
    {
        std::size_t number = gwb_greatest_number(seen(), Kind::kind);
        return number == SIZE_MAX ? Policy::template failed<Kind>("next_free", {Problem::closed})
                                  : Returned<Kind>(Kind(static_cast<std::uint32_t>(number) + 1));
    }

    // Ranges: empty where the owner is not there.

    /// The numbers of a kind in use, rising: bench.numbers<Edge>().
    template <class Kind> [[nodiscard]] RangeOf<Rising<Kind>> numbers() const { return range(Rising<Kind>(gwb_number_after, Kind::kind)); }
    /// The faces of a solid, rising.
    [[nodiscard]] RangeOf<Rising<Face>> faces(Solid solid) const { return range(Rising<Face>(gwb_face_after, solid.number())); }
    /// The rings of a face, rising.
    [[nodiscard]] RangeOf<Rising<Loop>> rings(Face face) const { return range(Rising<Loop>(gwb_ring_after, face.number())); }
    /// The outer loop of a face, and then its rings.
    [[nodiscard]] RangeOf<LoopsOfFace> loops_of(Face face) const { return range(LoopsOfFace(face)); }
    /// The half-edges of all loops of a face.
    [[nodiscard]] RangeOf<HalfEdgesOfFace> half_edges_of(Face face) const { return range(HalfEdgesOfFace(face)); }
    /// The edges of a face, each once.
    [[nodiscard]] RangeOf<EdgesOfFace> edges_of(Face face) const { return range(EdgesOfFace(face)); }
    /// The half-edges of a loop in their order round it, from any of them on.
    [[nodiscard]] RangeOf<RoundLoop> around(Loop loop) const { return range(RoundLoop(loop)); }
    /// The half-edges that start at a vertex, in their order round it, from any of them on. It looks for the first as gwb_vertex_half_edge
    /// does; where a half-edge is at hand, around(half_edge) needs no search.
    [[nodiscard]] RangeOf<RoundVertex> around(Vertex vertex) const { return range(RoundVertex(vertex)); }
    /// The half-edges that start where this one does, in their order round that vertex, from it on.
    [[nodiscard]] RangeOf<RoundVertex> around(HalfEdge half_edge) const { return range(RoundVertex(half_edge)); }

    /// The half-edges of a loop, from the least on: none where it has one vertex and no edge, or is not there.
    [[nodiscard]] Returned<std::vector<HalfEdge>> half_edges(Loop loop) const
    {
        std::vector<HalfEdge> found;
        if (!is_open())
            return Policy::template failed<std::vector<HalfEdge>>("half-edges", {Problem::closed});
        half_edges(loop, found);
        return found;
    }
    /// The same into a vector of the caller, whose room is used again.
    void half_edges(Loop loop, std::vector<HalfEdge> &found) const
    {
        found.clear();
        for (HalfEdge half_edge : around(loop))
            found.push_back(half_edge);
        std::rotate(found.begin(), std::min_element(found.begin(), found.end()), found.end());
    }

    // What is held of a number. Where it is not in use: std::out_of_range, or Problem::absent.

    [[nodiscard]] Returned<FaceRow> face(Face face) const
    {
        gwb_face_row row{};
        std::uint32_t answer = gwb_face(seen(), face.number(), &row);
        return found("face", face.number(), answer, FaceRow{Solid(row.solid), Loop(row.outer_loop)});
    }
    [[nodiscard]] Returned<EdgeRow> edge(Edge edge) const
    {
        gwb_edge_row row{};
        std::uint32_t answer = gwb_edge(seen(), edge.number(), &row);
        return found("edge", edge.number(), answer, EdgeRow{Vertex(row.from), Vertex(row.to)});
    }
    [[nodiscard]] Returned<Point> vertex(Vertex vertex) const
    {
        Point point{};
        std::uint32_t answer = gwb_vertex(seen(), vertex.number(), &point);
        return found("vertex", vertex.number(), answer, point);
    }
    /// The vertex of a loop that has one and no edge.
    [[nodiscard]] Returned<std::optional<Vertex>> lone_vertex(Loop loop) const
    {
        std::uint32_t vertex = 0, answer = gwb_lone_vertex(seen(), loop.number(), &vertex);
        return answer == GWB_CLOSED ? Policy::template failed<std::optional<Vertex>>("loop", {Problem::closed})
                                    : Returned<std::optional<Vertex>>(answer == GWB_FOUND ? std::optional(Vertex(vertex)) : std::nullopt);
    }

    // Neighbours, alike.

    /// The half-edge after another in its loop.
    [[nodiscard]] Returned<HalfEdge> next(HalfEdge half_edge) const
    {
        return neighbour<HalfEdge>(gwb_next_half_edge, "half-edge", half_edge.code());
    }
    /// The half-edge before another in its loop.
    [[nodiscard]] Returned<HalfEdge> previous(HalfEdge half_edge) const
    {
        return neighbour<HalfEdge>(gwb_previous_half_edge, "half-edge", half_edge.code());
    }
    /// The loop in which a half-edge stands.
    [[nodiscard]] Returned<Loop> loop_of(HalfEdge half_edge) const { return neighbour<Loop>(gwb_half_edge_loop, "half-edge", half_edge.code()); }
    /// The face of a loop.
    [[nodiscard]] Returned<Face> face_of(Loop loop) const { return neighbour<Face>(gwb_loop, "loop", loop.number()); }
    /// The face on whose side a half-edge stands.
    [[nodiscard]] Returned<Face> face_of(HalfEdge half_edge) const { return neighbour<Face>(face_at, "half-edge", half_edge.code()); }
    /// The vertex at which a half-edge starts.
    [[nodiscard]] Returned<Vertex> start_of(HalfEdge half_edge) const { return neighbour<Vertex>(start_at, "half-edge", half_edge.code()); }
    /// The vertex at which a half-edge ends.
    [[nodiscard]] Returned<Vertex> end_of(HalfEdge half_edge) const { return neighbour<Vertex>(start_at, "half-edge", half_edge.twin().code()); }
    /// The faces on both sides of an edge, that of its first half-edge first; they may be one.
    [[nodiscard]] Returned<std::array<Face, 2>> faces_of(Edge edge) const
    {
        std::uint32_t first = 0, second = 0, answer = face_at(seen(), plus(edge).code(), &first);
        if (answer == GWB_FOUND)
            answer = face_at(seen(), minus(edge).code(), &second);
        return found("edge", edge.number(), answer, std::array<Face, 2>{Face(first), Face(second)});
    }

    // All at once.

    /// The half-edges of a solid with their vertices, neighbours, loops and faces, as gwb_read_half_edges writes them.
    [[nodiscard]] Returned<std::vector<gwb_half_edge_row>> half_edge_rows(Solid solid) const
    {
        if (is_open() && solid == Solid()) // (for gwb_read_half_edges that would be all)
            return std::vector<gwb_half_edge_row>();
        return rows<gwb_half_edge_row>(
            [&](gwb_half_edge_row *at, std::size_t room) { return gwb_read_half_edges(seen(), solid.number(), at, room); });
    }
    /// Those of all solids.
    [[nodiscard]] Returned<std::vector<gwb_half_edge_row>> half_edge_rows() const
    {
        return rows<gwb_half_edge_row>([&](gwb_half_edge_row *at, std::size_t room) { return gwb_read_half_edges(seen(), 0, at, room); });
    }
    /// Those of a face, loop by loop.
    [[nodiscard]] Returned<std::vector<gwb_half_edge_row>> half_edge_rows(Face face) const
    {
        return rows<gwb_half_edge_row>(
            [&](gwb_half_edge_row *at, std::size_t room) { return gwb_half_edge_rows(seen(), face.number(), at, room); });
    }
    /// All vertices with their points.
    [[nodiscard]] Returned<std::vector<gwb_vertex_row>> vertex_rows() const
    {
        return rows<gwb_vertex_row>([&](gwb_vertex_row *at, std::size_t room) { return gwb_read_vertices(seen(), at, room); });
    }

    /// The triangles of a solid, as gwb_read_triangles writes them: a face that is bent, or whose loops cross or touch, has none. Refused: NoSolid.
    [[nodiscard]] Returned<std::vector<gwb_triangle_row>> triangle_rows(Solid solid) const
    {
        if (std::uint32_t first = 0; is_open() && gwb_face_after(seen(), solid.number(), 0, &first) != GWB_FOUND)
            return Policy::template failed<std::vector<gwb_triangle_row>>("triangles", {Problem::refused, GWB_WHY_NO_SOLID, solid.number()});
        std::size_t most = half_edge_count(solid);
        for (Face face : faces(solid))
            most += twice_the_rings(face);
        return triangles(most, [&](gwb_triangle_row *at, std::size_t room) { return gwb_read_triangles(seen(), solid.number(), at, room); });
    }
    /// Those of all solids.
    [[nodiscard]] Returned<std::vector<gwb_triangle_row>> triangle_rows() const
    {
        std::size_t most = half_edge_count(Solid());
        for (Face face : numbers<Face>())
            most += twice_the_rings(face);
        return triangles(most, [&](gwb_triangle_row *at, std::size_t room) { return gwb_read_triangles(seen(), 0, at, room); });
    }
    /// Those of one face.
    [[nodiscard]] Returned<std::vector<gwb_triangle_row>> triangle_rows(Face face) const
    {
        gwb_half_edge_row none{};
        const std::size_t most = gwb_half_edge_rows(seen(), face.number(), &none, 0) + twice_the_rings(face);
        return triangles(most, [&](gwb_triangle_row *at, std::size_t room) { return gwb_face_triangles(seen(), face.number(), at, room); });
    }

    // Text.

    /// Makes the model of a listing beside what is held, with its numbers: as one command, or as steps of the draft that is open. NoCall where
    /// it is no listing of a sound model.
    Returned<void> load(std::string_view listing)
    {
        if (state_ == nullptr)
            return Policy::template failed<void>("load", {Problem::closed});
        gwb_refusal refusal{};
        state_->begin_whole();
        const gwb_kind kind = gwb_load(held(), listing.empty() ? "" : listing.data(), listing.size(), &refusal);
        if (kind == GWB_OK) {
            state_->end_whole();
            return Returned<void>();
        }
        const Failure refused{Problem::refused, refusal.number, refusal.value};
        return Policy::template failed<void>("load", kind == GWB_REFUSED ? refused : failure(kind));
    }

    /// What a call of gwb_features.h gives with these arguments (gwb_features.hpp): `made` makes it of what was written. Where that takes memory that is
    /// refused, what was made is taken back.
    template <class Call, class Made, class... All> auto feature(const char *command, Call call, Made made, All... arguments) -> Returned<decltype(made())>
    {
        using Of = decltype(made());
        const Steps steps(held());
        if (state_ == nullptr || !steps.are_begun())
            return Policy::template failed<Of>(command, failure(steps.kind()));
        gwb_refusal why{};
        state_->begin_whole();
        const gwb_kind kind = call(held(), arguments..., &why);
        if (kind != GWB_OK)
            return Policy::template unmade<Of>(command, feature_failure(kind, why, true), seen());
        const auto keep = [&] { steps.keep(), state_->end_whole(); };
        if constexpr (std::is_void_v<Of>) {
            keep();
            return Returned<void>();
        } else {
            Returned<Of> found = made();
            keep();
            return found;
        }
    }

    /// Why an answer of this kind has no value; of a feature, also what it met.
    [[nodiscard]] Failure feature_failure(gwb_kind kind, const gwb_refusal &why, bool is_feature = false) const
    {
        if (kind != GWB_IMPOSSIBLE && kind != GWB_REFUSED)
            return failure(kind);
        Failure found{kind == GWB_IMPOSSIBLE ? Problem::impossible : Problem::refused, why.number, why.value};
        if (const auto met = is_feature ? hit() : std::nullopt)
            found.hit = {static_cast<std::uint16_t>(met->cause), static_cast<std::uint16_t>(met->kind), met->number};
        return found;
    }

    /// What the last feature met that was refused or isn't possible, and where, as gwb_hit says: nothing where that was made, or there was none.
    [[nodiscard]] std::optional<gwb_hit_row> hit() const
    {
        gwb_hit_row met{};
        return gwb_hit(seen(), &met) ? std::optional(met) : std::nullopt;
    }

    /// Gives the lines of a script one after another, up to the first that is not accepted: how many were given.
    Returned<std::size_t> run_lines(std::string_view script)
    {
        std::size_t given = 0;
        for (; !script.empty(); given++) {
            const std::size_t end = std::min(script.find('\n'), script.size());
            if (Result<gwb_kind> answer = attempt().run(script.substr(0, end)); !answer)
                return Policy::template failed<std::size_t>(script.substr(0, end), answer.error());
            script.remove_prefix(std::min(end + 1, script.size()));
        }
        return given;
    }

    /// Gives one line of the script language, without its newline: the kind of the answer. Faulted where the line is no command.
    Returned<gwb_kind> run(std::string_view line)
    {
        gwb_kind kind = gwb_line(asked(), line.empty() ? "" : line.data(), line.size());
        if (kind == GWB_OK || kind == GWB_REFUSED || kind == GWB_MEMORY)
            follow(kind);
        return measured(line, kind, kind);
    }

    /// The text of the last answer, its newline included.
    [[nodiscard]] Returned<std::string> reply() const { return text("reply", gwb_reply); }

    /// Whether it is open: not moved from, and not closed.
    [[nodiscard]] bool is_open() const { return gwb_is_open(seen()); }

    /// The same workbench, whose calls give a Result and throw nothing: `if (auto cut = bench.attempt().split(..); !cut) ..cut.error()..`.
    /// It is Closed once the workbench is gone.
    [[nodiscard]] Commands<Results> attempt() { return Commands<Results>(state_); }
    [[nodiscard]] Readings attempt() const;

    // Work that is ended, and what was accepted.

    /// From here on `stop` is asked whether what takes long is to end, as gwb_stop_by says: Stopped then. nullptr: nothing is asked.
    void stop_by(gwb_stop stop, void *user) { gwb_stop_by(held(), stop, user); }

    /// From here on what is accepted is recorded as lines of a script, for script(). NoCall where the workbench has done something already.
    Returned<void> record()
    {
        const gwb_kind kind = gwb_record(held());
        return kind == GWB_OK ? Returned<void>() : Policy::template failed<void>("record", failure(kind));
    }
    /// How many recorded commands are held, the draft that is open counted as one.
    [[nodiscard]] Returned<std::size_t> recorded() const { return sized(gwb_recorded(seen())); }
    /// The lines of recorded commands that are held, as gwb_script says: so many from this place on, or all.
    [[nodiscard]] Returned<std::string> script(std::size_t first = 0, std::size_t count = SIZE_MAX) const
    {
        char none = 0;
        const std::size_t length = gwb_script(seen(), first, count, &none, 0);
        if (length == SIZE_MAX)
            return Policy::template failed<std::string>("script", {Problem::closed});
        std::string lines(length, '\0');
        gwb_script(seen(), first, count, lines.data(), length);
        return lines;
    }

    /// A number that is another one whenever the model may have changed since.
    [[nodiscard]] std::uint64_t changes() const { return gwb_changes(seen()); }

    /// For the calls of gwb.h; that of a workbench that was moved from is closed. It stays where it is when the workbench is moved. What
    /// they do to a draft or to the model the ranges and drafts here don't notice.
    [[nodiscard]] gwb *handle() { return held(); }
    [[nodiscard]] const gwb *handle() const { return seen(); }

protected:
    template <class> friend class Commands;
    friend class Readings;

    /// Steps that are one command, or of the draft that is open. They are taken back at the end of the scope, unless they are kept.
    class Steps {
    public:
        explicit Steps(gwb *g) : g_(g), kind_(gwb_draft(g)), mark_(gwb_mark(g)) {}
        Steps(const Steps &) = delete;
        Steps &operator=(const Steps &) = delete;
        ~Steps()
        {
            if (kind_ == GWB_OK)
                gwb_abandon(g_);
            else if (kind_ == GWB_IN_DRAFT)
                gwb_back(g_, mark_);
        }
        [[nodiscard]] gwb_kind kind() const { return kind_; }
        [[nodiscard]] bool are_begun() const { return kind_ == GWB_OK || kind_ == GWB_IN_DRAFT; }
        void keep() const
        {
            if (kind_ == GWB_OK)
                gwb_commit(g_);
            kind_ = GWB_CLOSED;
        }

    private:
        gwb *g_;
        mutable gwb_kind kind_;
        std::size_t mark_;
    };

    Commands() = default;
    explicit Commands(std::shared_ptr<State> state) : state_(std::move(state)) {}

    /// Opens a session, in a heap of its own where one is given: false where memory is refused.
    [[nodiscard]] bool open(const gwb_heap *heap = nullptr)
    {
        state_ = std::make_shared<State>();
        return heap != nullptr ? gwb_open_in(&state_->handle, heap) : gwb_open(&state_->handle);
    }

    /// Whether the library that is linked has the calls of this header.
    [[nodiscard]] static bool is_of_version() { return gwb_version() / 10'000 == GWB_VERSION / 10'000; }

    /// Closes the session, if there is one. Its drafts and ranges are Closed from here on.
    void close()
    {
        if (state_ != nullptr)
            gwb_close(&state_->handle);
        state_ = nullptr;
    }

    void take(Commands &&other)
    {
        std::shared_ptr<State> taken = std::exchange(other.state_, nullptr);
        close();
        state_ = std::move(taken);
    }

private:
    [[nodiscard]] gwb *held() { return state_ != nullptr ? &state_->handle : &closed_; }
    [[nodiscard]] const gwb *seen() const { return state_ != nullptr ? &state_->handle : &closed_; }

    /// The handle for a query, which keeps its answer.
    [[nodiscard]] gwb *asked() const
    {
        if (state_ == nullptr)
            return &closed_;
        state_->keep_fresh();
        return &state_->handle;
    }

    void follow(gwb_kind kind)
    {
        if (state_ != nullptr)
            state_->follow(kind);
    }

    /// The number above all of a kind in use, which is out of range where no greater one is.
    template <class Kind> [[nodiscard]] Kind free() { return is_open() ? Kind(state_->greatest(Kind::kind) + 1) : Kind(); }

    /// Why an answer of this kind has no value.
    [[nodiscard]] Failure failure(gwb_kind kind) const
    {
        gwb_refusal refusal{};
        Failure failure;
        switch (kind) {
        case GWB_REFUSED: gwb_last_refusal(seen(), &refusal); return {Problem::refused, refusal.number, refusal.value};
        case GWB_FAULT: failure.problem = Problem::fault; gwb_last_fault(seen(), &failure.number); return failure;
        case GWB_MEMORY: return {Problem::memory};
        case GWB_NO_CALL: return {Problem::no_call};
        case GWB_IN_DRAFT: return {Problem::in_draft};
        case GWB_NO_DRAFT: return {Problem::no_draft};
        case GWB_STOPPED: return {Problem::stopped};
        default: return {Problem::closed};
        }
    }

    /// What a command says to the caller.
    Returned<void> told(std::string_view command, gwb_kind kind)
    {
        follow(kind);
        if (!gwb_succeeded(kind))
            return Policy::template failed<void>(command, failure(kind));
        return Returned<void>();
    }

    /// The same, of one that chose numbers.
    template <class T> Returned<T> with(const T &made, std::string_view command, gwb_kind kind)
    {
        follow(kind);
        return measured(command, kind, made);
    }

    /// What a query says to the caller.
    template <class T> Returned<T> measured(std::string_view command, gwb_kind kind, const T &value) const
    {
        return gwb_succeeded(kind) ? Returned<T>(value) : Policy::template failed<T>(command, failure(kind));
    }

    /// What a measure says to the caller.
    template <class T>
    Returned<T> weighed(std::string_view command, gwb_kind kind, const T &value, const gwb_refusal &refusal) const
    {
        const Failure refused{Problem::refused, refusal.number, refusal.value};
        return kind == GWB_REFUSED ? Policy::template failed<T>(command, refused) : measured(command, kind, value);
    }

    /// The text that a reader writes.
    Returned<std::string> text(std::string_view command, std::size_t (*write)(const gwb *, char *, std::size_t)) const
    {
        std::string text(256, '\0');
        std::size_t length = write(seen(), text.data(), text.size());
        if (length != SIZE_MAX && length > text.size()) {
            text.resize(length);
            length = write(seen(), text.data(), text.size());
        }
        if (length == SIZE_MAX)
            return Policy::template failed<std::string>(command, {gwb_is_open(seen()) ? Problem::memory : Problem::closed});
        text.resize(length);
        return text;
    }

    /// What a reader says to the caller.
    template <class T> Returned<T> found(const char *kind, std::uint32_t number, std::uint32_t answer, const T &value) const
    {
        if (answer == GWB_FOUND)
            return Returned<T>(value);
        return Policy::template failed<T>(kind, {answer == GWB_CLOSED ? Problem::closed : Problem::absent, 0, number});
    }

    template <class T>
    Returned<T> neighbour(std::uint32_t (*reader)(const gwb *, std::uint32_t, std::uint32_t *), const char *kind, std::uint32_t number) const
    {
        std::uint32_t found_number = 0, answer = reader(seen(), number, &found_number);
        return found(kind, number, answer, T(found_number));
    }

    static std::uint32_t face_at(const gwb *g, std::uint32_t half_edge, std::uint32_t *face)
    {
        std::uint32_t loop = 0, answer = gwb_half_edge_loop(g, half_edge, &loop);
        return answer == GWB_FOUND ? gwb_loop(g, loop, face) : answer;
    }

    static std::uint32_t start_at(const gwb *g, std::uint32_t half_edge, std::uint32_t *vertex)
    {
        gwb_edge_row row{};
        std::uint32_t answer = gwb_edge(g, half_edge / 2, &row);
        *vertex = half_edge % 2 == 0 ? row.from : row.to;
        return answer;
    }

    /// A size that a closed handle does not have.
    Returned<std::size_t> sized(std::size_t size) const
    {
        return size != SIZE_MAX ? Returned<std::size_t>(size) : Policy::template failed<std::size_t>("depth", {Problem::closed});
    }

    template <class Rule> RangeOf<Rule> range(Rule rule) const
    {
        if (!is_open())
            Policy::ended({Problem::closed});
        return RangeOf<Rule>(state_ != nullptr ? state_ : std::make_shared<const State>(), rule);
    }

    /// All triangles that a call writes, of which there are at most so many.
    template <class Write> Returned<std::vector<gwb_triangle_row>> triangles(std::size_t most, Write write) const
    {
        using Found = std::vector<gwb_triangle_row>;
        if (!is_open())
            return Policy::template failed<Found>("triangles", {Problem::closed});
        Found found(most + 1); // so that it has an address
        const std::size_t count = write(found.data(), most);
        if (count == SIZE_MAX)
            return Policy::template failed<Found>("triangles", {Problem::memory});
        found.resize(count);
        return found;
    }

    /// How many half-edges a solid has; for none given all.
    [[nodiscard]] std::size_t half_edge_count(Solid solid) const
    {
        gwb_half_edge_row none{};
        return gwb_read_half_edges(seen(), solid.number(), &none, 0);
    }

    [[nodiscard]] std::size_t twice_the_rings(Face face) const
    {
        std::size_t count = 0;
        for (std::uint32_t ring = 0; gwb_ring_after(seen(), face.number(), ring, &ring) == GWB_FOUND; count++) {
        }
        return 2 * count;
    }

    /// All rows that a call writes, which is given room for them first.
    template <class Row, class Write> Returned<std::vector<Row>> rows(Write write) const
    {
        Row nothing{};
        std::size_t count = write(&nothing, 0);
        if (count == SIZE_MAX)
            return Policy::template failed<std::vector<Row>>("rows", {Problem::closed});
        std::vector<Row> found(count);
        if (count != 0)
            write(found.data(), count);
        return found;
    }

    std::shared_ptr<State> state_;
    mutable gwb closed_{};
};

/// What has the calls of a workbench that give Results.
using Attempts = Commands<Results>;

/// Those of them that change nothing.
class Readings : private Commands<Results> {
public:
    using Commands::ahead, Commands::around, Commands::changes, Commands::count, Commands::depth, Commands::edge, Commands::edges_of, Commands::end_of,
        Commands::face, Commands::face_of, Commands::faces, Commands::faces_of, Commands::fresh, Commands::greatest, Commands::half_edge_rows,
        Commands::half_edges, Commands::half_edges_of, Commands::is_open, Commands::listing, Commands::lone_vertex, Commands::loop_of,
        Commands::loops_of, Commands::mark, Commands::next, Commands::next_free, Commands::numbers, Commands::plane, Commands::previous,
        Commands::recorded, Commands::reply, Commands::rings, Commands::script, Commands::six_volumes, Commands::start_of,
        Commands::triangle_rows, Commands::vertex, Commands::vertex_rows;

private:
    template <class> friend class Commands;
    explicit Readings(Commands<Results> calls) : Commands(std::move(calls)) {}
};

template <class Policy> Readings Commands<Policy>::attempt() const
{
    return Readings(Commands<Results>(state_));
}

/// A session whose calls give Results, closed at the end of its scope. It can be moved; one that was moved from is closed.
class Session : public Commands<Results> {
public:
    /// Opens a session that holds the empty model: Problem::memory where memory is refused.
    static Result<Session> opened() { return opened_in(nullptr); }
    /// The same in a heap of its own, which is there for as long as the session.
    static Result<Session> opened(const gwb_heap &heap) { return opened_in(&heap); }
    static Result<Session> opened(const gwb_heap &&) = delete; // which would be gone before the session
    Session(Session &&other) noexcept { take(std::move(other)); }
    Session &operator=(Session &&other) noexcept
    {
        take(std::move(other));
        return *this;
    }
    ~Session() { close(); }

private:
    Session() = default;
    static Result<Session> opened_in(const gwb_heap *heap)
    {
        Session session;
        if (!is_of_version())
            return Failure{Problem::version};
        if (!session.open(heap))
            return Failure{Problem::memory};
        return session;
    }
};

#if defined(__cpp_exceptions)

/// A session whose calls throw, closed at the end of its scope. It can be moved; one that was moved from is closed, and every method of it
/// throws Closed.
class Workbench : public Commands<Throwing> {
public:
    /// std::bad_alloc where memory is refused; OtherVersion.
    Workbench() : Workbench(nullptr) {}
    /// The same in a heap of its own, which is there for as long as the workbench. What is kept of it beside the kernel is not of that heap.
    explicit Workbench(const gwb_heap &heap) : Workbench(&heap) {}
    explicit Workbench(const gwb_heap &&) = delete; // which would be gone before the workbench
    Workbench(Workbench &&other) noexcept : Commands<Throwing>() { take(std::move(other)); }
    Workbench &operator=(Workbench &&other) noexcept
    {
        take(std::move(other));
        return *this;
    }
    ~Workbench() { close(); }

private:
    explicit Workbench(const gwb_heap *heap)
    {
        if (!is_of_version())
            throw OtherVersion();
        if (!open(heap))
            throw std::bad_alloc();
    }
};

using Draft = Workbench::Draft;

#endif // __cpp_exceptions

} // namespace gwb_session

template <gwb_entity Kind> struct std::hash<gwb_session::Id<Kind>> {
    std::size_t operator()(gwb_session::Id<Kind> id) const noexcept { return std::hash<std::uint32_t>()(id.number()); }
};

template <> struct std::hash<gwb_session::HalfEdge> {
    std::size_t operator()(gwb_session::HalfEdge half_edge) const noexcept { return std::hash<std::uint32_t>()(half_edge.code()); }
};

#if defined(__cpp_lib_ranges)
template <class Policy, class Rule> inline constexpr bool std::ranges::enable_borrowed_range<gwb_session::Range<Policy, Rule>> = true;
template <class Policy, class Rule> inline constexpr bool std::ranges::enable_view<gwb_session::Range<Policy, Rule>> = true;
#endif

#endif
