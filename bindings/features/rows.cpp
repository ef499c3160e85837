#include "rows.hpp"
#include "surroundings.hpp"

namespace gwb_session::rows {

namespace {

// ---- of a session

/// The loops of faces, which are rows from then on.
void put_owned(const Bench &bench, Rows &rows)
{
    for (FaceRow &row : rows.faces) {
        go_on();
        row.first = rows.owned.size();
        for (Loop loop : bench.loops_of(Face(row.number)))
            rows.owned.push_back(loop.number());
        row.count = rows.owned.size() - row.first;
    }
    rows.loops = mapped(rows.owned, [](std::uint32_t loop) { return LoopRow{loop, 0, 0, 0}; });
    sort(rows.loops);
}

/// The half-edges of a loop come to others: how many.
std::size_t put_cycle(const gwb *g, std::uint32_t loop, std::vector<std::uint32_t> &cycles)
{
    constexpr std::size_t expected = 8;
    const std::size_t first = cycles.size();
    cycles.resize(first + expected);
    const std::size_t count = gwb_half_edges(g, loop, cycles.data() + first, expected);
    cycles.resize(first + count);
    if (count > expected)
        gwb_half_edges(g, loop, cycles.data() + first, count);
    return count;
}

/// The half-edges of loops: the vertices of lone ones.
std::vector<std::uint32_t> put_cycles(const Bench &bench, Rows &rows)
{
    std::vector<std::uint32_t> vertices;
    for (LoopRow &row : rows.loops) {
        go_on();
        row.first = rows.cycles.size();
        row.count = put_cycle(bench.handle(), row.number, rows.cycles);
        if (row.count == 0)
            vertices.push_back(row.lone = bench.lone_vertex(Loop(row.number))->number());
    }
    return vertices;
}

/// The edges of half-edges; their vertices come to others.
void put_edges(const Bench &bench, Rows &rows, std::vector<std::uint32_t> &vertices)
{
    vertices.reserve(rows.cycles.size() + vertices.size());
    for (std::uint32_t number : rising(mapped(rows.cycles, [](std::uint32_t half) { return half / 2; }))) {
        const auto [from, to] = bench.edge(Edge(number));
        rows.edges.push_back({number, from.number(), to.number()});
        vertices.insert(vertices.end(), {from.number(), to.number()});
    }
}

// ---- of a text

/// What is left to be read of a listing.
class Text {
public:
    explicit Text(std::string_view text) : left_(text) {}
    [[nodiscard]] bool is_read() const { return left_.empty(); }
    bool take(std::string_view word)
    {
        const bool is_next = left_.substr(0, word.size()) == word;
        left_.remove_prefix(is_next ? word.size() : 0);
        return is_next;
    }
    void expect(std::string_view word) { claim(take(word)); }

    /// A whole number up to the greatest coordinate, as it is written.
    std::int64_t integer()
    {
        const bool is_negative = take("-");
        std::size_t digits = 0;
        std::int64_t value = 0;
        for (; digits < std::min<std::size_t>(left_.size(), 10) && left_[digits] >= '0' && left_[digits] <= '9'; digits++)
            value = 10 * value + (left_[digits] - '0');
        claim(digits != 0 && value <= exact::farthest && (left_[0] != '0' || (digits == 1 && !is_negative)));
        left_.remove_prefix(digits);
        return is_negative ? -value : value;
    }
    std::uint32_t number()
    {
        const std::int64_t value = integer();
        claim(value >= 1 && value <= greatest_number);
        return static_cast<std::uint32_t>(value);
    }
    std::int64_t integer_after(std::string_view word) { return expect(word), integer(); }
    std::uint32_t number_after(std::string_view word) { return expect(word), number(); }

    /// Lines that begin with a word, as rows of which the numbers rise.
    template <class Row, class Read> void lines(std::string_view word, std::vector<Row> &rows, Read read)
    {
        while (take(word)) {
            const Row row = read();
            claim(rows.empty() || number_of(row) > number_of(rows.back()));
            rows.push_back(row);
            expect("\n");
        }
    }

private:
    std::string_view left_;
};

FaceRow face(Text &text, std::vector<std::uint32_t> &owned)
{
    FaceRow row{text.number(), text.number_after(" "), owned.size(), 0};
    while (text.take(" ")) {
        owned.push_back(text.number());
        claim(owned.size() < row.first + 3 || owned.back() > owned.end()[-2]); // rings rise
    }
    row.count = owned.size() - row.first;
    claim(row.count != 0);
    return row;
}

LoopRow loop(Text &text, std::vector<std::uint32_t> &cycles)
{
    LoopRow row{text.number(), 0, cycles.size(), 0};
    if (text.take(" at "))
        row.lone = text.number();
    while (text.take(" ")) {
        const bool is_second = !text.take("+");
        cycles.push_back(is_second ? 2 * text.number_after("-") + 1 : 2 * text.number());
        claim(cycles.back() >= cycles[row.first]);
    }
    row.count = cycles.size() - row.first;
    claim((row.count == 0) == (row.lone != 0));
    return row;
}

EdgeRow edge(Text &text)
{
    const EdgeRow row{text.number(), text.number_after(" "), text.number_after(" ")};
    claim(row.from != row.to);
    return row;
}

gwb_vertex_row vertex(Text &text)
{
    return {text.number(), {text.integer_after(" "), text.integer_after(" "), text.integer_after(" ")}};
}

} // namespace

std::vector<std::uint32_t> rising(std::vector<std::uint32_t> numbers)
{
    const auto [low, high] = std::minmax_element(numbers.begin(), numbers.end());
    // (those that lie close are ticked off, which takes less than to sort them)
    if (low == numbers.end() || *high - *low > 8 * numbers.size()) {
        std::sort(numbers.begin(), numbers.end());
        numbers.erase(std::unique(numbers.begin(), numbers.end()), numbers.end());
        return numbers;
    }
    const std::uint32_t least = *low;
    std::vector<bool> is_there(*high - least + 1);
    for (std::uint32_t number : numbers)
        is_there[number - least] = true;
    numbers.clear();
    for (std::uint32_t at = 0; at < is_there.size(); at++)
        if (is_there[at])
            numbers.push_back(least + at);
    return numbers;
}

Rows read(const Bench &bench, const std::vector<Solid> &solids)
{
    Rows rows;
    for (Solid solid : solids) {
        machining::require_solid(bench, solid);
        rows.solids.push_back(solid.number());
        for (Face face : bench.faces(solid))
            rows.faces.push_back({face.number(), solid.number(), 0, 0});
    }
    sort(rows.faces);
    put_owned(bench, rows);
    std::vector<std::uint32_t> vertices = put_cycles(bench, rows);
    put_edges(bench, rows, vertices);
    rows.vertices = mapped(rising(std::move(vertices)), [&](std::uint32_t vertex) { return gwb_vertex_row{vertex, bench.vertex(Vertex(vertex))}; });
    return rows;
}

Rows read(std::string_view listing)
{
    Rows rows;
    Text text(listing);
    claim(!listing.empty());
    if (!text.take("empty\n")) {
        text.lines("solid ", rows.solids, [&] { return text.number(); });
        text.lines("face ", rows.faces, [&] { return face(text, rows.owned); });
        text.lines("loop ", rows.loops, [&] { return loop(text, rows.cycles); });
        text.lines("edge ", rows.edges, [&] { return edge(text); });
        text.lines("vertex ", rows.vertices, [&] { return vertex(text); });
    }
    claim(text.is_read());
    return rows;
}

} // namespace gwb_session::rows
