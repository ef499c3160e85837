/// @file throwing.hpp How a feature ends that isn't made. What it is refused for, or why it isn't possible, is thrown as a Failure: that takes no memory.
/// Its caller ends what takes long (gwb_stop_by).
#pragma once
#include "gwb.hpp"
extern "C" {
#include "beside.h"
}

namespace gwb_session {

/// What calls of a workbench give in features: their value. What isn't accepted is thrown. Numbers that callers give are in range when an operator comes
/// to them, so one out of range is a new one of which there are none left.
struct Failing {
    template <class T> using Returned = T;
    template <class T> [[noreturn]] static T failed(std::string_view, Failure failure)
    {
        throw failure.is(GWB_WHY_NUMBER_RANGE) ? Failure{Problem::refused, GWB_WHY_NUMBERS_SPENT, 0} : failure;
    }
    /// A range ends where there is nothing more.
    static void ended(Failure) {}
};

using Bench = Commands<Failing>;

/// A failure with all that gwb_hit tells of it.
struct FailureAt : Failure {
    FailureAt() = default;
    FailureAt(const Failure &failure) : Failure(failure), row{hit.cause, hit.kind, hit.number, {}, {}} {}
    FailureAt(const Failure &failure, const gwb_hit_row &met) : Failure(failure), row(met)
    {
        hit = {static_cast<std::uint16_t>(met.cause), static_cast<std::uint16_t>(met.kind), met.number};
    }

    gwb_hit_row row{};
};

/// Whether there is what a reader was asked for.
template <class T> bool has(const Result<T> &found) { return static_cast<bool>(found); }

/// What a call gives, or why it gives nothing.
template <class T> struct Tried {
    std::optional<T> made;
    FailureAt why;
};
template <class Call> auto tried(Call call) -> Tried<decltype(call())>
{
    try {
        return {call(), {}};
    } catch (const FailureAt &failure) {
        return {std::nullopt, failure};
    } catch (const Failure &failure) {
        return {std::nullopt, failure};
    }
}

/// Thrown where the caller ends a feature.
struct EndedByCaller {};

/// Throws EndedByCaller where the caller ends what this thread makes. What takes long calls it between its parts; not each call asks the caller.
void go_on();

} // namespace gwb_session
