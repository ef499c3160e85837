/// @file rows.hpp Solids as rows of numbers, as a listing has them.
#pragma once
#include "tables.hpp"

namespace gwb_session::rows {

struct FaceRow {
    std::uint32_t number, solid;
    std::size_t first, count; ///< its loops in `owned`, the outer one first
};

struct LoopRow {
    std::uint32_t number, lone; ///< its vertex, where it has no half-edges
    std::size_t first, count;   ///< its half-edges in `cycles`
};

struct EdgeRow {
    std::uint32_t number, from, to;
};

/// Rows come to rise by their numbers, which they mostly do already.
template <class Row> void sort(std::vector<Row> &rows)
{
    const auto rises = [](const Row &one, const Row &other) { return number_of(one) < number_of(other); };
    if (!std::is_sorted(rows.begin(), rows.end(), rises))
        std::sort(rows.begin(), rows.end(), rises);
}

/// No call is made of what doesn't hold.
inline void claim(bool holds)
{
    if (!holds)
        throw Failure{Problem::no_call};
}

/// Some numbers, each once, rising.
std::vector<std::uint32_t> rising(std::vector<std::uint32_t> numbers);

/// Solids. The numbers of each kind rise.
struct Rows {
    std::vector<std::uint32_t> solids;
    std::vector<FaceRow> faces;
    std::vector<LoopRow> loops;
    std::vector<EdgeRow> edges;
    std::vector<gwb_vertex_row> vertices;
    std::vector<std::uint32_t> owned;  ///< loops, by faces
    std::vector<std::uint32_t> cycles; ///< half-edges, by loops
};

/// Those of solids of a session. Refused: NoSolid.
Rows read(const Bench &bench, const std::vector<Solid> &solids);

/// Those of a listing (docs/SCRIPT.md). No call where the text is none.
Rows read(std::string_view listing);

/// Makes solids with their numbers in the draft that is open. Refused: the first of these numbers that is in use; NumberRange, where none is free for what
/// comes on the way and goes again. No call where they are no sound model.
void make(gwb *g, const Rows &rows);
/// The same as part of a feature. Refused: NumbersSpent.
void make(Bench &bench, const Rows &rows);

/// Takes solids away, of which these are the rows. Refused: NumbersSpent.
void take_away(Bench &bench, const Rows &rows);

} // namespace gwb_session::rows

namespace gwb_session {

/// Takes a solid away in the draft that is open. Refused: NoSolid.
inline void take_away(Bench &bench, Solid solid) { rows::take_away(bench, rows::read(bench, {solid})); }

} // namespace gwb_session
