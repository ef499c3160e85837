#include "chains.hpp"

namespace gwb_session::machining {

namespace {

/// A coordinate times the scale of a point, which is mostly 1.
Wide scaled(Wide part, const ScaledPoint &point) { return point.scale == 1 ? part : part * point.scale; }

} // namespace

// ---- blocks

Chain::Block::Block(std::vector<Side> of)
    : sides(std::move(of)), box(box_of(sides[0])), area(area_of(sides)), least(&*std::min_element(sides.begin(), sides.end()))
{
    for (const Side &side : sides)
        box.take(box_of(side));
}

std::optional<bool> Chain::Block::is_crossed(const ScaledPoint &point, Axes axes) const
{
    const auto [x, y] = axes;
    const Wide level = point.at[y];
    if (scaled(box.low[y], point) > level || scaled(box.high[y], point) < level || scaled(box.high[x], point) < point.at[x])
        return false;
    if (scaled(box.low[x], point) > point.at[x]) // all of it lies before the point
        return (scaled(sides.front().start[y], point) > level) != (scaled(sides.back().end[y], point) > level);
    return machining::is_crossed(sides, point, axes);
}

// ---- what is put in

Chain::Chain(const std::vector<Side> &sides)
{
    if (has_runs(sides) || sides.size() > most)
        for (const Side &side : sides)
            if (side.run != nullptr)
                for (const auto &block : side.run->blocks_)
                    put(block);
            else
                put(side);
    else
        open_ = sides;
    end_block();
}

void Chain::put(const Side &side)
{
    open_.push_back(side);
    if (open_.size() == most)
        end_block();
}

void Chain::put(const std::shared_ptr<const Block> &block)
{
    if (2 * block->sides.size() < most) {
        for (const Side &side : block->sides)
            put(side);
        return;
    }
    end_block();
    take(block);
}

void Chain::end_block()
{
    if (!open_.empty())
        take(std::make_shared<const Block>(std::exchange(open_, {})));
}

void Chain::take(const std::shared_ptr<const Block> &block)
{
    if (blocks_.empty())
        box_ = block->box, least_ = block->least;
    blocks_.push_back(block);
    size_ += block->sides.size();
    box_.take(block->box);
    area_ = add(area_, block->area);
    least_ = *block->least < *least_ ? block->least : least_;
}

void Chain::put_part(const Chain &of, const Stretch &stretch)
{
    const auto [from, to] = stretch;
    std::size_t first = 0;
    for (const auto &block : of.blocks_) {
        const std::size_t last = first + block->sides.size();
        if (from <= first && last <= to)
            put(block);
        else
            for (std::size_t at = std::max(from, first); at < std::min(to, last); at++)
                put(block->sides[at - first]);
        first = last;
    }
}

// ---- what is asked

std::vector<Side> Chain::sides() const
{
    std::vector<Side> found;
    for (const auto &block : blocks_)
        append(found, block->sides);
    return found;
}

std::vector<Side> Chain::meeting(const Box &box) const
{
    std::vector<Side> found;
    for (const auto &block : blocks_)
        if (block->box.meets(box))
            append(found, filtered(block->sides, [&](const Side &side) { return box_of(side).meets(box); }));
    return found;
}

std::vector<Side> Chain::beside(const Plane &plane) const
{
    std::vector<Side> found;
    for (const auto &block : blocks_) {
        Vector low, high; // the corners of the box where the plane's height is the least, and the greatest
        for (std::size_t axis = 0; axis < 3; axis++)
            std::tie(low[axis], high[axis]) =
                plane.across[axis] < 0 ? std::tie(block->box.high[axis], block->box.low[axis]) : std::tie(block->box.low[axis], block->box.high[axis]);
        if (plane.height(low) > 0 || plane.height(high) < 0)
            found.push_back(block->sides.front());
        else
            append(found, block->sides);
    }
    return found;
}

std::optional<bool> Chain::is_crossed(const ScaledPoint &point, Axes axes) const
{
    bool is_odd = false;
    for (const auto &block : blocks_) {
        const std::optional<bool> passes = block->is_crossed(point, axes);
        if (!passes)
            return std::nullopt;
        is_odd = is_odd != *passes;
    }
    return is_odd;
}

// ---- what is near

std::vector<Chain::Stretch> Chain::far_from(const Box &box) const
{
    std::set<std::size_t> near;
    std::size_t first = 0;
    for (const auto &block : blocks_) {
        if (block->box.meets(box))
            for (std::size_t at = 0; at < block->sides.size(); at++)
                if (box_of(block->sides[at]).meets(box))
                    near.insert({(first + at + size_ - 1) % size_, first + at, (first + at + 1) % size_});
        first += block->sides.size();
    }
    if (near.empty())
        near = {0, 1, 2};
    std::vector<Stretch> found;
    for (auto at = near.begin(); at != near.end();) {
        const std::size_t from = *at + 1, to = ++at != near.end() ? *at : *near.begin() + size_;
        if (to >= from + shortest)
            found.push_back({from, to});
    }
    return found;
}

std::shared_ptr<const Chain> Chain::part(const Stretch &of) const
{
    const std::shared_ptr<Chain> found(new Chain());
    found->put_part(*this, {of.from, std::min(of.to, size_)});
    if (of.to > size_)
        found->put_part(*this, {0, of.to - size_});
    found->end_block();
    return found;
}

Chain::Near Chain::near(const Box &box) const
{
    const std::vector<Stretch> far = size_ < many ? std::vector<Stretch>() : far_from(box);
    if (far.empty())
        return {sides(), {}};
    Near found;
    std::size_t from = far.back().to > size_ ? far.back().to - size_ : 0;
    for (const Stretch &stretch : far) {
        append(found.sides, part({from, stretch.from})->sides());
        const Chain &run = *found.runs.emplace_back(part(stretch));
        found.sides.push_back({run.first().start, run.last().end, run_from(run.first().half), &run});
        from = stretch.to;
    }
    if (from < size_)
        append(found.sides, part({from, size_})->sides());
    return found;
}

// ---- of sides

Box box_of(const std::vector<Side> &cycles)
{
    Box box = box_of(cycles[0].start);
    for (const Side &side : cycles)
        box.take(side.run != nullptr ? box_of(side) : box_of(side.start));
    return box;
}

Vector area_of(const std::vector<Side> &sides)
{
    Vector sum{};
    for (const Side &side : sides)
        sum = add(sum, side.run != nullptr ? side.run->area() : cross(side.start, side.end));
    return sum;
}

std::optional<bool> is_crossed(const std::vector<Side> &sides, const ScaledPoint &point, Axes axes)
{
    bool is_odd = false;
    for (const Side &side : sides) {
        if (side.run != nullptr) {
            const std::optional<bool> passes = side.run->is_crossed(point, axes);
            if (!passes)
                return std::nullopt;
            is_odd = is_odd != *passes;
            continue;
        }
        const Wide start = scaled(side.start[axes[1]], point), end = scaled(side.end[axes[1]], point), level = point.at[axes[1]];
        if (std::min(start, end) > level || std::max(start, end) < level) // it lies beside the ray
            continue;
        if (side.holds(point, axes))
            return std::nullopt;
        if ((start > level) != (end > level) && (side.turn(point, axes) > 0) == (end > start))
            is_odd = !is_odd;
    }
    return is_odd;
}

Place locate(const std::vector<Side> &cycles, const ScaledPoint &point, Axes axes)
{
    const std::optional<bool> is_within = is_crossed(cycles, point, axes);
    return !is_within ? Place::on : *is_within ? Place::inside : Place::outside;
}

} // namespace gwb_session::machining
