#include "exact.hpp"

namespace gwb_session::exact {

SmallBox::Corner SmallBox::corner(const Vector &at)
{
    constexpr Wide most = (Wide{1} << 30) - 1;
    static_assert(farthest <= most, "a box of points that are in range stays as it is");
    const auto part = [&](std::size_t axis) { return static_cast<std::int32_t>(std::clamp(at[axis], -most, most)); };
    return {part(0), part(1), part(2)};
}

// ---- halves

Halves::Halves(Rows rows) : rows_(std::move(rows)), around_(rows_.size())
{
    if (!rows_.empty())
        halve(all());
}

void Halves::halve(Part part)
{
    SmallBox around = rows_[part.first].box;
    for (std::size_t at = part.first; at < part.last; at++)
        around.take(rows_[at].box);
    around_[part.middle()] = around;
    if (part.is_small())
        return;
    std::size_t longest = 0;
    for (std::size_t axis : {1, 2})
        if (around.high[axis] - around.low[axis] > around.high[longest] - around.low[longest])
            longest = axis;
    const auto at = [&](std::size_t place) { return rows_.begin() + static_cast<std::ptrdiff_t>(place); };
    std::nth_element(at(part.first), at(part.middle()), at(part.last), [longest](const Row &one, const Row &other) {
        return std::int64_t{one.box.low[longest]} + one.box.high[longest] < std::int64_t{other.box.low[longest]} + other.box.high[longest];
    });
    for (const Part &half : part.halves())
        halve(half);
}

void Halves::put_meeting(Part part, const SmallBox &box, std::vector<std::size_t> &found) const
{
    if (rows_.empty() || !around_[part.middle()].meets(box))
        return;
    if (!part.is_small())
        for (const Part &half : part.halves())
            put_meeting(half, box, found);
    else
        for (std::size_t at = part.first; at < part.last; at++)
            if (rows_[at].box.meets(box))
                found.push_back(rows_[at].number);
}

void Halves::put_meeting(Part part, const Halves &others, Part beside, NumberPairs &found) const
{
    if (rows_.empty() || others.rows_.empty() || !around_[part.middle()].meets(others.around_[beside.middle()]))
        return;
    const bool is_greater = part.last - part.first > beside.last - beside.first;
    if (!part.is_small() && (is_greater || beside.is_small()))
        for (const Part &half : part.halves())
            put_meeting(half, others, beside, found);
    else if (!beside.is_small())
        for (const Part &half : beside.halves())
            put_meeting(part, others, half, found);
    else
        for (std::size_t at = part.first; at < part.last; at++)
            for (std::size_t other = beside.first; other < beside.last; other++)
                if (rows_[at].box.meets(others.rows_[other].box))
                    found.push_back({rows_[at].number, others.rows_[other].number});
}

bool Halves::take_away(Part part, const Row &row)
{
    if (rows_.empty() || !around_[part.middle()].holds(row.box))
        return false;
    const auto [one, other] = part.halves();
    if (!part.is_small())
        return take_away(one, row) || take_away(other, row);
    for (std::size_t at = part.first; at < part.last; at++)
        if (Row &own = rows_[at]; own.number == row.number && row.box.holds(own.box)) {
            own.box = SmallBox::nowhere();
            return true;
        }
    return false;
}

void Halves::put_rows(Rows &to) const
{
    std::copy_if(rows_.begin(), rows_.end(), std::back_inserter(to), [](const Row &row) { return row.box.low <= row.box.high; });
}

// ---- an index

void BoxIndex::drop() const
{
    if (leaving_.empty())
        return;
    const auto before = [](const Halves::Row &one, const Halves::Row &other) { return one.number < other.number; };
    std::sort(leaving_.begin(), leaving_.end(), before);
    const auto goes = [&](const Halves::Row &one) { return std::binary_search(leaving_.begin(), leaving_.end(), one, before); };
    fresh_.erase(std::remove_if(fresh_.begin(), fresh_.end(), goes), fresh_.end());
    for (const Halves::Row &row : leaving_)
        halves_.take_away(row);
    leaving_.clear();
}

void BoxIndex::put_rows(Halves::Rows &to) const
{
    drop();
    halves_.put_rows(to);
    to.insert(to.end(), fresh_.begin(), fresh_.end());
}

std::vector<std::size_t> BoxIndex::meeting(const SmallBox &box) const
{
    constexpr std::size_t to_halve = 96; // takes a row, against what it takes to look at one
    drop();
    looked_at_ += fresh_.size();
    if (looked_at_ > to_halve * (halves_.size() + fresh_.size())) {
        Halves::Rows all;
        put_rows(all);
        halves_ = Halves(std::move(all));
        fresh_.clear(), looked_at_ = 0;
    }
    std::vector<std::size_t> found;
    halves_.put_meeting(box, found);
    for (const Halves::Row &row : fresh_)
        if (row.box.meets(box))
            found.push_back(row.number);
    std::sort(found.begin(), found.end());
    return found;
}

NumberPairs pairs_meeting(const std::vector<SmallBox> &boxes, const std::vector<std::uint32_t> &owners)
{
    NumberPairs found;
    std::vector<Halves> before; // of one owner each
    BoxIndex around;            // each of these
    for (std::uint32_t at = 0; at < boxes.size();) {
        const std::uint32_t owner = owners[at];
        SmallBox own = boxes[at];
        Halves::Rows rows;
        for (; at < boxes.size() && owners[at] == owner; at++) {
            own.take(boxes[at]);
            rows.push_back({boxes[at], at});
        }
        const std::vector<std::size_t> met = around.meeting(own);
        around.put(own, before.size());
        before.emplace_back(std::move(rows));
        for (std::size_t other : met)
            before[other].put_meeting(before.back(), found);
    }
    return found;
}

} // namespace gwb_session::exact
