/// @file chains.hpp Sides that follow each other, as those of a loop, kept so that what lies near a place is found without reading all of them; and runs, which
/// stand for the far ones.
#pragma once
#include "sides.hpp"
#include <memory>

namespace gwb_session::machining {

/// Sides that follow each other, in blocks, of which each knows what is asked of all of its sides at once.
class Chain {
public:
    /// Of runs among the sides those that they stand for.
    explicit Chain(const std::vector<Side> &sides);

    [[nodiscard]] std::size_t size() const { return size_; }
    [[nodiscard]] const Box &box() const { return box_; }
    /// Twice the area that they go round, as a vector.
    [[nodiscard]] const Vector &area() const { return area_; }
    [[nodiscard]] const Side &first() const { return blocks_.front()->sides.front(); }
    [[nodiscard]] const Side &last() const { return blocks_.back()->sides.back(); }
    [[nodiscard]] const Side &least() const { return *least_; }

    [[nodiscard]] std::vector<Side> sides() const;
    /// Those whose boxes meet a box.
    [[nodiscard]] std::vector<Side> meeting(const Box &box) const;
    /// Those at which a plane may be passed, and of others at least one on each side of it where there are any.
    [[nodiscard]] std::vector<Side> beside(const Plane &plane) const;
    /// Whether a ray from a point of their plane along the first axis crosses an odd number of them: none where the point lies on one.
    [[nodiscard]] std::optional<bool> is_crossed(const ScaledPoint &point, Axes axes) const;
    /// All of a closed chain as one side, as long as it is there.
    [[nodiscard]] Side closed() const { return {first().start, first().start, run_from(first().half), this}; }

    /// A closed chain with runs in the place of what is far.
    struct Near {
        std::vector<Side> sides;
        std::vector<std::shared_ptr<const Chain>> runs;
    };
    /// The sides whose boxes meet a box, with the one before and behind each, and runs in the place of the others; all sides where these are few.
    [[nodiscard]] Near near(const Box &box) const;

private:
    struct Block {
        std::vector<Side> sides;
        Box box;
        Vector area;
        const Side *least;

        explicit Block(std::vector<Side> of);
        /// What is_crossed tells of its sides.
        [[nodiscard]] std::optional<bool> is_crossed(const ScaledPoint &point, Axes axes) const;
    };
    /// The places from one to before another: above the number of sides those from the first one on again.
    struct Stretch {
        std::size_t from, to;
    };
    /// Of a block at most so many sides. Of two next to each other at most one has less than half as many.
    static constexpr std::size_t most = 64;
    /// A chain of less than so many sides is near as a whole; a run has at least so many.
    static constexpr std::size_t many = 32, shortest = 8;

    Chain() = default;
    void put(const std::shared_ptr<const Block> &block);
    /// A side of a block that is made when there are enough, or a large one follows.
    void put(const Side &side);
    void end_block();
    void take(const std::shared_ptr<const Block> &block);
    void put_part(const Chain &of, const Stretch &stretch);
    [[nodiscard]] std::shared_ptr<const Chain> part(const Stretch &of) const;
    [[nodiscard]] std::vector<Stretch> far_from(const Box &box) const;

    std::vector<std::shared_ptr<const Block>> blocks_;
    std::vector<Side> open_; ///< of the block that isn't made yet
    std::size_t size_ = 0;
    Box box_;
    Vector area_{};
    const Side *least_ = nullptr;
};

inline Box box_of(const Side &side) { return side.run != nullptr ? side.run->box() : Box::between(side.start, side.end); }
/// The box around closed cycles, where each side ends at a start.
Box box_of(const std::vector<Side> &cycles);

/// Twice the area that the sides of cycles go round, as a vector.
Vector area_of(const std::vector<Side> &sides);

/// The ways in which a side leaves its start and comes to its end.
inline Vector way_out(const Side &side) { return side.run != nullptr ? side.run->first().way() : side.way(); }
inline Vector way_in(const Side &side) { return side.run != nullptr ? side.run->last().way() : side.way(); }
/// The least of what a side stands for.
inline const Side &least_of(const Side &side) { return side.run != nullptr ? side.run->least() : side; }
inline bool has_runs(const std::vector<Side> &sides) { return any(sides, [](const Side &side) { return side.run != nullptr; }); }
/// Sides with those that runs stand for.
inline std::vector<Side> without_runs(const std::vector<Side> &sides) { return has_runs(sides) ? Chain(sides).sides() : sides; }

/// What a ray from a point of a plane along the first axis does: whether it crosses an odd number of sides in it; none where the point lies on one.
std::optional<bool> is_crossed(const std::vector<Side> &sides, const ScaledPoint &point, Axes axes);

/// Where a point lies against cycles in its plane.
Place locate(const std::vector<Side> &cycles, const ScaledPoint &point, Axes axes);

} // namespace gwb_session::machining
