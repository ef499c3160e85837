/// @file tables.hpp Rows by numbers of a model, which mostly come one after another.
#pragma once
#include "solids.hpp"

namespace gwb_session {

/// By what a thing, or a row of one, is known.
constexpr std::uint32_t number_of(std::uint32_t number) { return number; }
constexpr std::uint32_t number_of(HalfEdge half) { return half.code(); }
constexpr std::uint32_t number_of(const gwb_vertex_row &row) { return row.vertex; }
template <gwb_entity Kind> constexpr std::uint32_t number_of(Id<Kind> thing) { return thing.number(); }
template <class Key, class Row> constexpr std::uint32_t number_of(const std::pair<Key, Row> &row) { return number_of(row.first); }
template <class Row> constexpr std::uint32_t number_of(const Row &row) { return row.number; }

/// The place of a number among things, or rows, that rise by theirs, mostly one by one: their count where it isn't there.
template <class Row> std::size_t place_of(const std::vector<Row> &rows, std::uint32_t number)
{
    const std::size_t likely = rows.empty() ? 0 : number - number_of(rows.front());
    if (likely < rows.size() && number_of(rows[likely]) == number)
        return likely;
    const auto found = std::lower_bound(rows.begin(), rows.end(), number, [](const Row &row, std::uint32_t least) { return number_of(row) < least; });
    return static_cast<std::size_t>((found != rows.end() && number_of(*found) == number ? found : rows.end()) - rows.begin());
}
template <class Thing> bool has(const std::vector<Thing> &rising, Thing thing) { return place_of(rising, number_of(thing)) != rising.size(); }
/// Things come to rise, each once.
template <class Thing> void make_rise(std::vector<Thing> &things)
{
    if (!std::is_sorted(things.begin(), things.end()))
        std::sort(things.begin(), things.end());
    things.erase(std::unique(things.begin(), things.end()), things.end());
}

/// Rows by their keys, which rise. Those that are put behind a greater one are sorted in when something is asked.
template <class Key, class Row> class Table {
public:
    using value_type = std::pair<Key, Row>;
    using const_iterator = typename std::vector<value_type>::const_iterator;

    /// A row of a key that has none.
    void put(Key key, Row row)
    {
        is_sorted_ = is_behind(key);
        sorted_ += is_sorted_ ? 1 : 0;
        rows_.emplace_back(key, std::move(row));
    }
    /// The row of a key: an empty one, where there is none.
    Row &operator[](Key key)
    {
        if (Row *found = is_behind(key) ? nullptr : find(key))
            return *found;
        put(key, Row());
        return rows_.back().second;
    }
    /// Takes in the rows of another one, of whose keys this has none.
    void take_in(Table other)
    {
        is_sorted_ = is_sorted_ && (other.rows_.empty() || (other.is_sorted_ && is_behind(other.rows_.front().first)));
        rows_.insert(rows_.end(), std::make_move_iterator(other.rows_.begin()), std::make_move_iterator(other.rows_.end()));
        sorted_ = is_sorted_ ? rows_.size() : sorted_;
    }
    /// Rows for which a test doesn't hold go.
    template <class Test> void keep(Test test)
    {
        settle();
        rows_.erase(std::remove_if(rows_.begin(), rows_.end(), [&](const value_type &row) { return !test(row); }), rows_.end());
        sorted_ = rows_.size();
    }

    [[nodiscard]] const Row *find(Key key) const
    {
        settle();
        for (std::size_t place : {last_, last_ + 1}) // (one is often asked for again, or the next one)
            if (place < rows_.size() && rows_[place].first == key)
                return &rows_[last_ = place].second;
        const std::size_t place = place_of(rows_, number_of(key));
        return place < rows_.size() ? &rows_[last_ = place].second : nullptr;
    }
    [[nodiscard]] Row *find(Key key) { return const_cast<Row *>(std::as_const(*this).find(key)); }
    [[nodiscard]] const Row &at(Key key) const { return *find(key); }
    [[nodiscard]] Row &at(Key key) { return *find(key); }
    [[nodiscard]] bool has(Key key) const { return find(key) != nullptr; }

    [[nodiscard]] std::size_t size() const { return rows_.size(); }
    [[nodiscard]] bool empty() const { return rows_.empty(); }
    [[nodiscard]] const_iterator begin() const { return settle(), rows_.begin(); }
    [[nodiscard]] const_iterator end() const { return settle(), rows_.end(); }
    friend bool operator==(const Table &a, const Table &b) { return a.settle(), b.settle(), a.rows_ == b.rows_; }

private:
    /// Whether a key is known to be greater than all that there are.
    [[nodiscard]] bool is_behind(Key key) const { return is_sorted_ && (rows_.empty() || rows_.back().first < key); }
    void settle() const
    {
        if (std::exchange(is_sorted_, true))
            return;
        const auto rises = [](const value_type &one, const value_type &other) { return one.first < other.first; };
        const auto middle = rows_.begin() + static_cast<std::ptrdiff_t>(sorted_);
        if (!std::is_sorted(middle, rows_.end(), rises))
            std::sort(middle, rows_.end(), rises);
        std::inplace_merge(rows_.begin(), middle, rows_.end(), rises);
        sorted_ = rows_.size();
    }

    mutable std::vector<value_type> rows_;
    mutable std::size_t sorted_ = 0; ///< so many rise
    mutable bool is_sorted_ = true;
    mutable std::size_t last_ = 0; ///< the place that was found last
};

} // namespace gwb_session
