#include "outlines.hpp"

namespace gwb_session::outlines {

namespace {

/// The least common multiple of the scales of points: the greatest value stands for all that are larger.
class Factor {
public:
    void take(const points::Points &points, Number point)
    {
        const Wide scale = points.scale(point), step = scale / greatest_divisor(value_, scale);
        value_ = step > greatest / value_ ? greatest : value_ * step;
        if (at_.scale == 0 && !points.is_fine(point))
            at_ = points.at(point);
    }
    void require_one() const
    {
        if (value_ != 1)
            throw impossible(Misfit::off_lattice, value_ <= UINT32_MAX ? static_cast<std::uint32_t>(value_) : 0,
                             at_.met_at(met(value_ <= UINT32_MAX ? GWB_CAUSE_CORNER_FRACTION : GWB_CAUSE_PAST_RANGE)));
    }

private:
    static constexpr Wide greatest = Wide{1} << 62;
    Wide value_ = 1;
    ScaledPoint at_{{}, 0}; ///< one of the points: none where the scale is 0
};

/// What bounds all faces of one name, as sides between whole points. A point that isn't whole is passed over where one side goes straight on there.
class Outline {
public:
    Outline(const Operands &all, const std::vector<const Bound *> &bounds) : all_(all), bounds_(bounds)
    {
        for (const Bound *bound : bounds) {
            if (!all.points.is_whole(bound->from))
                between_[bound->from].out.push_back(bound);
            if (!all.points.is_whole(bound->to))
                between_[bound->to].in.push_back(bound);
        }
    }

    void raise(Factor &factor) const
    {
        for (const auto &[point, ends] : between_)
            if (!ends.go_on_straight())
                factor.take(all_.points, point);
    }

    void put_regions(std::vector<Sheet> &found, const Failure &why)
    {
        for (const Bound *bound : bounds_)
            if (between_.count(bound->from) == 0)
                sides_.emplace_back(side_of(*bound), bound);
        require_one_far();
        const Bound &first = *bounds_[0];
        const Plane &plane = all_.sheet(first.owner).plane;
        if (is_as_it_was()) {
            found.push_back(all_.sheet(first.owner));
            return;
        }
        std::stable_sort(sides_.begin(), sides_.end(), starts_before);
        const Plane seen = first.is_turned ? plane.turned() : plane;
        for (const std::vector<Cycle> &cycles : regions_of(mapped(sides_, [](const Known &known) { return known.first; }), seen.across, why))
            found.push_back({Shape(seen, cycles), owners_of(cycles), {}});
    }

private:
    struct Ends {
        std::vector<const Bound *> in, out;
        [[nodiscard]] bool go_on_straight() const { return in.size() == 1 && out.size() == 1 && reduced(in[0]->way) == reduced(out[0]->way); }
    };

    /// A side, and the bound that it begins with.
    using Known = std::pair<Side, const Bound *>;
    static bool starts_before(const Known &one, const Known &other) { return one.first < other.first; }

    /// The bound that goes on from one, where its side does.
    [[nodiscard]] const Bound *after(const Bound &bound) const
    {
        const auto found = between_.find(bound.to);
        return found != between_.end() ? found->second.out[0] : nullptr;
    }

    [[nodiscard]] Side side_of(const Bound &first) const
    {
        const Bound *last = &first;
        HalfEdge half = first.half;
        while (const Bound *next = after(*last)) {
            last = next;
            half = half != HalfEdge() ? half : last->half;
        }
        return {all_.points.at(first.from).at, all_.points.at(last->to).at, half, is_run(half) ? all_.edge(half).side.run : nullptr};
    }

    /// The faces that a side is a part of: of each solid the first.
    [[nodiscard]] std::vector<Number> owners_of(const Bound *bound) const
    {
        std::vector<Number> owners;
        const auto take = [&](Number face) {
            if (!any(owners, [&](Number other) { return all_.faces[other].solid == all_.faces[face].solid; }))
                owners.push_back(face);
        };
        for (; bound != nullptr; bound = after(*bound)) {
            take(bound->owner);
            for (Number face : bound->others)
                take(face);
        }
        return owners;
    }

    /// Of runs of several faces some sides may go as seams.
    void require_one_far() const
    {
        std::set<Number> far;
        for (const Bound *bound : bounds_)
            if (is_run(bound->half))
                far.insert(bound->owner);
        require(far.size() <= 1, FarInTheWay());
    }

    /// Whether this is all of a face that stays.
    [[nodiscard]] bool is_as_it_was() const
    {
        const Bound &first = *bounds_[0];
        const std::vector<Side> &before = all_.sheet(first.owner).sides;
        if (first.is_turned || sides_.size() != before.size() || !all(bounds_, [&](const Bound *bound) { return bound->owner == first.owner; }))
            return false;
        constexpr std::size_t few = 16;
        std::vector<Side> now = mapped(sides_, [](const Known &known) { return known.first; });
        if (now.size() <= few)
            return all(before, [&](const Side &side) { return std::find(now.begin(), now.end(), side) != now.end(); });
        std::sort(now.begin(), now.end());
        return all(before, [&](const Side &side) { return std::binary_search(now.begin(), now.end(), side); });
    }

    /// The faces that cycles are parts of, rising.
    [[nodiscard]] std::vector<Face> owners_of(const std::vector<Cycle> &cycles) const
    {
        std::vector<Number> found;
        for (const Side &side : joined(cycles)) // (of sides that are alike the last one)
            append(found, owners_of(std::prev(std::upper_bound(sides_.begin(), sides_.end(), Known(side, nullptr), starts_before))->second));
        make_rise(found);
        return mapped(found, [&](Number face) { return all_.sheet(face).owners[0]; });
    }

    const Operands &all_;
    const std::vector<const Bound *> &bounds_;
    std::map<Number, Ends> between_; ///< points that aren't whole
    std::vector<Known> sides_;
};

/// The bounds of faces, in the order of the least face that each is a part of, where faces on both sides of seams became one.
std::vector<std::vector<const Bound *>> by_names(const Operands &all, const Bounds &bounds, Joins joins)
{
    JoinedSets<Number> names;
    for (const auto &[left, right] : bounds.seams)
        if (joins == Joins::all || all.faces[left.owner].solid != all.faces[right.owner].solid) {
            const auto [one, other] = std::minmax({names.name(left.owner), names.name(right.owner)});
            names.join(one, other);
        }
    std::vector<std::vector<const Bound *>> found(all.faces.size());
    for (const Bound &bound : bounds.kept)
        found[names.name(bound.owner)].push_back(&bound);
    for (const auto &[left, right] : bounds.seams)
        if (names.name(left.owner) != names.name(right.owner))
            for (const Bound *bound : {&left, &right})
                found[names.name(bound->owner)].push_back(bound);
    found.erase(std::remove_if(found.begin(), found.end(), [](const auto &named) { return named.empty(); }), found.end());
    return found;
}

} // namespace

std::vector<Sheet> regions(const Operands &all, const Bounds &bounds, Joins joins, const Failure &why)
{
    const auto named = by_names(all, bounds, joins);
    std::vector<Outline> outlines;
    Factor factor;
    for (const std::vector<const Bound *> &sides : named) {
        go_on();
        outlines.emplace_back(all, sides).raise(factor);
    }
    factor.require_one();
    std::vector<Sheet> found;
    for (Outline &outline : outlines) {
        go_on();
        outline.put_regions(found, why);
    }
    return found;
}

} // namespace gwb_session::outlines
