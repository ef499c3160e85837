/// @file surroundings.hpp What is known of the solids of a model: their loops and the planes of their faces, by places. What was read of a solid for one
/// feature is known to the next ones, until another command comes.
#pragma once
#include "simple_outlines.hpp"
#include "tables.hpp"
#include <unordered_map>
#include <unordered_set>

namespace gwb_session::machining {

// ---- faces

inline Vector start_of(const Bench &bench, HalfEdge half) { return vector(bench.vertex(bench.start_of(half))); }
inline Side side_at(const Bench &bench, HalfEdge half) { return {start_of(bench, half), start_of(bench, half.twin()), half}; }

/// The sides of a loop; the vertex of a lone one, as a side of no length.
Cycle cycle_at(const Bench &bench, Loop loop);
/// Those of the loops of a face, the outer one first.
std::vector<Cycle> cycles_at(const Bench &bench, Face face);

// ---- what lies near

/// A normal within this fits, with heights above its plane, where faces are compared.
constexpr Wide steepest = Wide{farthest} * farthest;

/// Faces, rising, with some of the loops of each, rising.
using NearFaces = std::vector<std::pair<Face, std::vector<Loop>>>;

/// A loop of a face: its corners, or as soon as more is asked, its sides as a chain. None is known of one that has neither.
class KnownLoop {
public:
    struct Corner {
        std::array<std::int32_t, 3> at;
        HalfEdge half;
        [[nodiscard]] Vector vector() const { return {at[0], at[1], at[2]}; }
    };

    KnownLoop() = default;
    explicit KnownLoop(std::vector<Corner> corners);
    explicit KnownLoop(const Cycle &cycle) : chain_(std::make_unique<Chain>(cycle)), box_(chain_->box()) {}

    [[nodiscard]] bool is_known() const { return chain_ != nullptr || !corners_.empty(); }
    [[nodiscard]] const SmallBox &box() const { return box_; }
    [[nodiscard]] const Chain &chain() const;

private:
    mutable std::vector<Corner> corners_;
    mutable std::unique_ptr<const Chain> chain_;
    SmallBox box_;
};

/// The loops of a solid with their sides, by boxes, and the planes of its faces. Loops have many sides, of which a feature reads those near it.
class Surface {
public:
    Surface(const Bench &bench, Solid solid);

    /// Takes in a face that is new.
    void put(const Bench &bench, Face face);
    /// The same, of some of its loops, where the others are known, or of new rings of a face whose plane is known.
    void put(Face face, const std::vector<Loop> &loops, const std::vector<Cycle> &cycles);

    /// A face is gone, or lies elsewhere, and so do these loops.
    void forget(Face face, const std::vector<Loop> &loops);

    /// Takes in all of another solid, whose faces are this one's from now on.
    void take_in(Surface &&other);

    /// How many loops there are; a box around all; and whether all faces are flat, and none too steep to be compared.
    [[nodiscard]] std::size_t size() const { return size_; }
    [[nodiscard]] Box box() const { return box_of(box_); }
    [[nodiscard]] bool is_even() const { return uneven_.empty(); }

    /// The plane of a face, where that is plain and flat.
    [[nodiscard]] const Plane *plane(Face face) const;
    /// Such a face, so far as some of its loops tell.
    [[nodiscard]] Shape shape(Face face, const std::vector<Loop> &loops) const;
    [[nodiscard]] const Chain &chain(Loop loop) const { return loops_.at(loop).chain(); }
    [[nodiscard]] const SmallBox &box(Loop loop) const { return loops_.at(loop).box(); }

    /// The loops that meet a box, by faces; how many there are; those of one face.
    [[nodiscard]] NearFaces near(const Bench &bench, const Box &box) const;
    [[nodiscard]] std::size_t count_near(const Box &box) const { return boxes_.meeting(box).size(); }
    [[nodiscard]] std::vector<Loop> near(const Bench &bench, Face face, const Box &box) const;

    /// The points of an outline strictly inside a plain flat face, turned so that they run as a ring does; the first stays the first.
    [[nodiscard]] Path ring_path(const Bench &bench, Face face, const Path &path) const;

private:
    /// A plane, whose normal is reduced when it is asked for: none where that is zero.
    struct KnownPlane {
        mutable Plane plane{};
        mutable bool is_reduced = true;
    };
    void put(Loop loop, KnownLoop &&known);
    void put(Face face, const std::optional<KnownPlane> &plane);
    /// What isn't known any more goes.
    void drop_unknown();

    using LoopSide = std::pair<Loop, Side>;
    /// A face so far as it lies beside an outline in it, and its sides that the outline meets.
    [[nodiscard]] std::pair<Shape, std::vector<LoopSide>> beside_of(const Bench &bench, Face face, const Path &path) const;
    /// What an outline meets of a face: of the sides that it meets first one that it crosses.
    [[nodiscard]] gwb_hit_row met_by(const Bench &bench, Face face, const Shape &beside, const std::vector<LoopSide> &sides, const Path &path) const;

    Table<Loop, KnownLoop> loops_;
    Table<Face, KnownPlane> planes_;
    std::size_t size_ = 0; ///< of the loops that are known
    std::set<Face> uneven_;
    BoxIndex boxes_;
    SmallBox box_; ///< around what there ever was
    std::vector<gwb_half_edge_row> read_ = std::vector<gwb_half_edge_row>(8); ///< of a face, and room for others
};

/// What is kept with a session: what is known of the solids of its model, and what the last feature made.
class Surroundings {
public:
    /// Those of the model that a workbench holds, which are forgotten where it isn't the one that they are of.
    static Surroundings &of(const Bench &bench);

    /// The surface of a solid, which is read where it isn't known.
    const Surface &surface(const Bench &bench, Solid solid) { return surfaces_.try_emplace(solid, bench, solid).first->second; }

    /// Takes in what a command did to a solid, and that it did nothing else to the model.
    template <class Put> void follow(const Bench &bench, Solid solid, Put put)
    {
        changes = UINT64_MAX;
        put(surfaces_.at(solid));
        changes = beside_of(bench.handle())->changes;
    }

    /// Another solid has become a part of one, or is gone: to be called where that is followed.
    void join(Solid solid, Solid other)
    {
        surfaces_.at(solid).take_in(std::move(surfaces_.at(other)));
        surfaces_.erase(other);
    }
    void forget(Solid solid) { surfaces_.erase(solid); }

    Lists lists; ///< what the last feature made
    std::optional<gwb_hit_row> hit; ///< what it met, where it was refused
    std::uint64_t changes = UINT64_MAX; ///< after which what is known was read; the greatest where it is of no model

private:
    std::map<Solid, Surface> surfaces_;
};

/// Refuses a solid that isn't there: NoSolid.
void require_solid(const Bench &bench, Solid solid);

/// The solid of a face. Refused: NoFace.
Solid solid_of(const Bench &bench, Face face);

/// The plane of a face. Refused: NoFace, NotFlat.
Plane plane_of(const Bench &bench, Face face);

/// The face at one of the two sides of an edge: another one than this, where there is one. None of a lone vertex.
Face beyond(const Bench &bench, HalfEdge half, Face face);

} // namespace gwb_session::machining
