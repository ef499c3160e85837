#include "off_lattice.hpp"
#include "cut_advice.hpp"
#include "integers.hpp"
#include "selection.hpp"
#include <cmath>
#include <limits>
#include <numeric>

namespace gwb_session::cutting {

namespace {

using namespace integers;

/// The offset of a plane lies within this.
constexpr Wide farthest_offset = 3 * Wide{farthest} * farthest;

/// How far along a side a plane meets it: 0 at its start, 1 at its end.
Fraction met(const Side &side, const Plane &plane)
{
    return Fraction::of(plane.height(side.start), plane.height(side.start) - plane.height(side.end));
}
/// Where a plane meets it.
EdgeCut cut_of(const Side &side, const Plane &plane)
{
    const ScaledPoint point = divided(side, plane.height(side.start), plane.height(side.end));
    const auto part = [&](std::size_t axis) { return Fraction::of(point.at[axis], point.scale); };
    return {side.half.edge(), {part(0), part(1), part(2)}};
}

/// The least number from 0 on that lies a multiple of the modulus from another one.
constexpr Wide rest(Wide number, Wide modulus) { return (number % modulus + modulus) % modulus; }

/// Offsets of planes of one normal, both ends among them: remainder + k modulus, whose modulus is 1 or more.
struct Offsets {
    Wide low, high, remainder = 0, modulus = 1;

    /// How far a fraction lies beside the ends, times its denominator.
    [[nodiscard]] Wide gap(const Fraction &offset) const
    {
        return std::max({low * offset.denominator - offset.numerator, offset.numerator - high * offset.denominator, Wide{0}});
    }

    /// Those among others too, by the Chinese remainder theorem: Euclid's algorithm tells how many times the modulus leave their greatest common divisor.
    [[nodiscard]] std::optional<Offsets> and_also(const Offsets &other) const
    {
        Wide shared = modulus, times = 1;
        for (Wide left = other.modulus, next = 0; left != 0;) {
            const Wide whole = shared / left;
            shared = std::exchange(left, shared % left);
            times = std::exchange(next, times - whole * next);
        }
        const Wide step = other.modulus / shared, apart = other.remainder - remainder;
        if (apart % shared != 0)
            return std::nullopt;
        return Offsets{low, high, rest(remainder + modulus * rest(apart / shared * times, step), modulus * step), modulus * step};
    }
};

/// Those at which planes meet whole points of an edge. One that isn't level has such at every so many; a level one is never cut.
Offsets span_of(const Vector &normal, const Side &side)
{
    const Wide first = -dot(normal, side.start), last = -dot(normal, side.end);
    const Wide step = first != last ? magnitude(last - first) / parts_of(side.way()) : 1;
    return {std::min(first, last), std::max(first, last), rest(first, step), step};
}

/// Those at which planes cut the same edges: the heights of vertices between the lowest and the highest, and the ranges between them that hold a whole
/// offset; the nearest first.
std::vector<Offsets> bands_of(const std::vector<Offsets> &spans, const Fraction &offset)
{
    std::set<Wide> levels;
    for (const Offsets &span : spans)
        levels.insert({span.low, span.high});
    std::vector<Offsets> bands;
    for (auto low = levels.begin(), high = std::next(low); high != levels.end(); low = high++) {
        if (*low + 1 < *high)
            bands.push_back({*low + 1, *high - 1});
        if (std::next(high) != levels.end())
            bands.push_back({*high, *high});
    }
    std::stable_sort(bands.begin(), bands.end(), [&](const Offsets &a, const Offsets &b) { return a.gap(offset) < b.gap(offset); });
    return bands;
}

/// The whole offsets beside a given one, below it and above, as near as the band allows, that all edges which are cut in the band may ask for.
std::vector<Offsets> asked_in(const Offsets &band, const Fraction &offset, const std::vector<Offsets> &spans)
{
    constexpr Wide wide_enough = Wide{1} << 62; // so that a band has two such numbers at most
    std::optional<Offsets> common = band;
    for (const Offsets &span : spans)
        if (common && span.low < band.low && band.high < span.high && common->modulus <= wide_enough)
            common = common->and_also(span);
    if (!common)
        return {};
    const Wide whole = (offset.numerator - rest(offset.numerator, offset.denominator)) / offset.denominator;
    const Wide next = std::min(band.high, std::max(band.low - 1, whole));
    const Wide below = next - rest(next - common->remainder, common->modulus), above = below + common->modulus;
    return filtered(std::vector<Offsets>{{below, below}, {above, above}}, [&](const Offsets &one) { return band.low <= one.low && one.high <= band.high; });
}

/// How often a loop passes through a plane, given on which side each of its corners lies; -1 where it only touches it somewhere.
int cut_places(const std::vector<int> &places)
{
    int count = 0;
    for (std::size_t at = 0; at < places.size(); at++) {
        const int before = places[(at + places.size() - 1) % places.size()], place = places[at], after = places[(at + 1) % places.size()];
        if (place == 0 && before * after >= 0)
            return -1;
        count += place == 0 || place * after < 0;
    }
    return count;
}

/// Whether a face with these loops, the outer one first, lies on one side of a plane, or can be cut by it.
bool is_drawn(const std::vector<Cycle> &loops, const Plane &plane)
{
    const auto place = [&](const Side &side) { return sign(plane.height(side.start)); };
    const std::vector<int> places = mapped(joined(loops), place);
    const auto [least, greatest] = std::minmax_element(places.begin(), places.end());
    if (*least >= 0 || *greatest <= 0)
        return true;
    const auto counts = mapped(loops, [&](const Cycle &loop) { return cut_places(mapped(loop, place)); });
    const bool is_touched = any(counts, [](int count) { return count < 0; }), are_all_cut = all(counts, [](int count) { return count != 0; });
    return counts[0] != 0 && !is_touched && (are_all_cut || std::accumulate(counts.begin(), counts.end(), 0) == 2);
}

/// The square of how far a cut moves: a part of an edge whose square length is this.
struct SquareMoved {
    Fraction way;
    Wide square;

    [[nodiscard]] double value() const { return way.value() * way.value() * static_cast<double>(square); }
    friend bool operator<(const SquareMoved &a, const SquareMoved &b)
    {
        const auto across = [](const SquareMoved &one, const SquareMoved &other) {
            return product_of(one.way.numerator, one.way.numerator) * product_of(other.way.denominator, other.way.denominator) * Int<2>(one.square);
        };
        return across(a, b) < across(b, a);
    }
};

/// Looks for planes near one that cuts a solid.
class NearPlanes {
public:
    NearPlanes(const Bench &bench, Solid solid, const Plane &plane) : plane_(plane)
    {
        faces_ = mapped(bench.faces(solid), [&](Face face) { return cycles_at(bench, face); });
        edges_ = mapped(selection::edges(bench, {solid.number(), {}, nullptr, nullptr}), [&](Edge edge) { return side_at(bench, plus(edge)); });
        const auto others = std::stable_partition(edges_.begin(), edges_.end(), [&](const Side &side) {
            return sign(plane.height(side.start)) * sign(plane.height(side.end)) < 0;
        });
        cuts_.assign(edges_.begin(), others);
    }

    [[nodiscard]] const std::vector<Side> &cuts() const { return cuts_; }
    /// How far a coordinate of the solid lies out at most.
    [[nodiscard]] Wide reach() const
    {
        const Box box = box_of(joined(joined(faces_)));
        return std::max(longest(box.low), longest(box.high));
    }

    /// The nearest plane with the same normal.
    [[nodiscard]] std::optional<gwb_near_plane> parallel() const
    {
        const Vector normal = reduced(plane_.across);
        const Fraction offset = Fraction::of(plane_.offset, parts_of(plane_.across));
        const auto spans = mapped(edges_, [&](const Side &side) { return span_of(normal, side); });
        std::optional<Offsets> best;
        for (const Offsets &band : bands_of(spans, offset)) {
            go_on();
            if (best && band.gap(offset) >= best->gap(offset))
                break;
            for (const Offsets &one : asked_in(band, offset, spans))
                if ((!best || one.gap(offset) < best->gap(offset)) && is_whole({normal, one.low}) && is_cuttable({normal, one.low}))
                    best = one;
        }
        return best ? std::optional(near({normal, best->low}, *square_moved({normal, best->low}), true)) : std::nullopt;
    }

    /// The nearest of those through whole points of three cut edges, nearest first; at most so many.
    [[nodiscard]] std::vector<gwb_near_plane> tilted(std::size_t most) const
    {
        struct Ranked {
            SquareMoved square;
            Wide size;
            Plane plane;
        };
        std::vector<Ranked> ranked;
        for (const Plane &plane : candidates()) {
            go_on();
            const auto &[a, b, c] = plane.across;
            if (const std::optional<SquareMoved> square = is_whole(plane) ? square_moved(plane) : std::nullopt)
                ranked.push_back({*square, magnitude(a) + magnitude(b) + magnitude(c) + magnitude(plane.offset), plane});
        }
        const auto is_nearer = [](const Ranked &a, const Ranked &b) { return std::tie(a.square, a.size) < std::tie(b.square, b.size); };
        std::stable_sort(ranked.begin(), ranked.end(), is_nearer);
        std::vector<gwb_near_plane> found;
        for (std::size_t at = 0; at < ranked.size() && found.size() < most; at++)
            if (is_cuttable(ranked[at].plane))
                found.push_back(near(ranked[at].plane, ranked[at].square, false));
        return found;
    }

private:
    /// Some of the cuts, that lie apart: each is the farthest from those before it.
    [[nodiscard]] std::vector<Side> spread() const
    {
        constexpr std::size_t most = 12;
        const auto value = [](const Fraction &part) { return part.value(); };
        const auto points = mapped(cuts_, [&](const Side &side) { return mapped(cut_of(side, plane_).point, value); });
        std::vector<double> gaps(cuts_.size(), std::numeric_limits<double>::infinity());
        std::vector<Side> found;
        while (found.size() < std::min(most, cuts_.size())) {
            const auto farthest_one = static_cast<std::size_t>(std::max_element(gaps.begin(), gaps.end()) - gaps.begin());
            found.push_back(cuts_[farthest_one]);
            for (std::size_t at = 0; at < gaps.size(); at++) {
                const auto square = [&](std::size_t axis) { return std::pow(points[at][axis] - points[farthest_one][axis], 2); };
                gaps[at] = std::min(gaps[at], square(0) + square(1) + square(2));
            }
            gaps[farthest_one] = -1;
        }
        return found;
    }

    /// The planes through whole points of three cut edges that lie apart, each once, looking the way of the plane but not parallel to it.
    [[nodiscard]] std::vector<Plane> candidates() const
    {
        const auto points = mapped(spread(), [&](const Side &side) { // next to where it is cut two on either side, its ends among them
            const Fraction way = met(side, plane_);
            const Wide parts = parts_of(side.way()), last = parts * way.numerator / way.denominator;
            Path beside;
            for (Wide place = std::max(Wide{0}, last - 1); place <= std::min(parts, last + 2); place++)
                beside.push_back(add(side.start, times(reduced(side.way()), place)));
            return beside;
        });
        std::vector<Plane> found;
        std::set<Plane> seen;
        for (std::size_t i = 0; i < points.size(); i++)
            for (std::size_t j = i + 1; j < points.size(); j++)
                for (std::size_t k = j + 1; k < points.size(); k++)
                    through_each(points[i], points[j], points[k], seen, found);
        return found;
    }

    void through_each(const Path &firsts, const Path &seconds, const Path &thirds, std::set<Plane> &seen, std::vector<Plane> &found) const
    {
        for (const Vector &first : firsts)
            for (const Vector &second : seconds)
                for (const Vector &third : thirds)
                    if (const std::optional<Plane> plane = through(first, second, third); plane && seen.insert(*plane).second)
                        found.push_back(*plane);
    }

    /// The plane through three points that looks the given way; none where they lie on a line, it is parallel, or out of range.
    [[nodiscard]] std::optional<Plane> through(const Vector &first, const Vector &second, const Vector &third) const
    {
        const Vector normal = reduced(cross(subtract(second, first), subtract(third, first)));
        const Wide way = dot(normal, plane_.across);
        const Plane plane = Plane::through(first, way > 0 ? normal : negative(normal));
        const bool is_near = longest(plane.across) <= farthest && magnitude(plane.offset) <= farthest_offset;
        return way != 0 && is_near && !are_parallel(normal, plane_.across) ? std::optional(plane) : std::nullopt;
    }

    /// Whether the plane parts the solid, crossing edges at whole points alone.
    [[nodiscard]] bool is_whole(const Plane &plane) const
    {
        bool is_above = false, is_below = false;
        for (const Side &side : edges_) {
            const Wide first = plane.height(side.start), last = plane.height(side.end);
            if (sign(first) * sign(last) < 0 && !divided(side, first, last).whole())
                return false;
            is_above = is_above || first > 0 || last > 0;
            is_below = is_below || first < 0 || last < 0;
        }
        return is_above && is_below;
    }

    /// Whether no face would be refused as touched or as cut too often (TouchedFace, CutOften).
    [[nodiscard]] bool is_cuttable(const Plane &plane) const
    {
        go_on();
        return all(faces_, [&](const std::vector<Cycle> &loops) { return is_drawn(loops, plane); });
    }

    /// The square of how far the plane moves the cut along an edge at most; none where it is parallel to one.
    [[nodiscard]] std::optional<SquareMoved> square_moved(const Plane &plane) const
    {
        SquareMoved most{Fraction(), 0};
        for (const Side &side : cuts_) {
            if (plane.height(side.start) == plane.height(side.end))
                return std::nullopt;
            const Fraction old = met(side, plane_), now = met(side, plane);
            const Fraction way = Fraction::of(now.numerator * old.denominator - old.numerator * now.denominator, old.denominator * now.denominator);
            most = std::max(most, SquareMoved{way, dot(side.way(), side.way())});
        }
        return most;
    }

    /// The plane with how far it moves the cut.
    static gwb_near_plane near(const Plane &plane, const SquareMoved &square, bool is_parallel)
    {
        const auto [a, b, c] = point(plane.across);
        const double moved = std::ceil(std::sqrt(square.value()) * 100 - 1e-9) / 100; // (less than what rounding adds is not rounded up)
        return {{a, b, c, static_cast<std::int64_t>(plane.offset)}, is_parallel, moved};
    }

    Plane plane_;
    std::vector<std::vector<Cycle>> faces_; ///< their loops
    std::vector<Side> edges_, cuts_;
};

/// The least number by which points must be multiplied to be whole: 0 where it passes 10^36.
Wide least_factor(const std::vector<EdgeCut> &cuts)
{
    constexpr Wide most = Wide{1'000'000'000'000'000'000} * 1'000'000'000'000'000'000;
    Wide factor = 1;
    for (const EdgeCut &cut : cuts)
        for (const Fraction &part : cut.point) {
            const Wide step = part.denominator / greatest_divisor(factor, part.denominator);
            if (step > most / factor)
                return 0;
            factor *= step;
        }
    return factor;
}

/// A comment, in which the values stand for X and Y.
std::string said(const char *text, const std::string &value = "", const std::string &other = "")
{
    std::string told = "# ";
    for (const char *letter = text; *letter != '\0'; letter++)
        told += *letter == 'X' ? value : *letter == 'Y' ? other : std::string(1, *letter);
    return told;
}

} // namespace

std::string Fraction::digits(Wide number)
{
    std::string text;
    for (Wide left = magnitude(number); left != 0 || text.empty(); left /= 10)
        text.insert(text.begin(), static_cast<char>('0' + static_cast<int>(left % 10)));
    return number < 0 ? "-" + text : text;
}

std::string OffLattice::advice(Solid above) const
{
    std::string text;
    const auto offer = [&](const std::string &comment, const gwb_cut_plane &by) {
        text += comment + ":\nsplit";
        for (std::int64_t number : {std::int64_t{solid.number()}, by.a, by.b, by.c, by.d, std::int64_t{above.number()}})
            text += ' ' + std::to_string(number);
        text += "\n";
    };
    for (const EdgeCut &cut : cuts)
        if (const auto &[x, y, z] = cut.point; !x.is_whole() || !y.is_whole() || !z.is_whole())
            text += said(advice::cut_at, std::to_string(cut.edge.number()), x.text() + " " + y.text() + " " + z.text()) + "\n";
    const std::string times = factor != 0 ? Fraction::digits(factor) : "more than 10^36";
    if (!fits)
        text += said(advice::past_range, times) + "\n";
    else if (factor != 1)
        offer(said(advice::scaled, times), {plane.a, plane.b, plane.c, static_cast<std::int64_t>(plane.d * factor)});
    if (factor != 1 && (near.empty() || !near.front().is_parallel))
        text += said(advice::no_parallel) + "\n";
    for (const gwb_near_plane &beside : near) {
        const auto hundredths = static_cast<std::int64_t>(beside.moved * 100 + 0.5);
        const std::string moved = std::to_string(hundredths / 100) + "." + std::to_string(100 + hundredths % 100).substr(1);
        offer(said(advice::moved, beside.is_parallel ? "parallel" : "tilted", moved), beside.plane);
    }
    return text;
}

OffLattice made(const Bench &bench, Solid solid, const gwb_cut_plane &row, std::size_t most)
{
    require_solid(bench, solid);
    const Plane plane = Plane::of(row);
    const std::array<Wide, 4> parts = {row.a, row.b, row.c, row.d};
    for (std::uint32_t at = 0; at < 4; at++)
        require(magnitude(parts[at]) <= (at < 3 ? Wide{farthest} : farthest_offset), refused(GWB_WHY_PLANE_RANGE, at + 1));
    const NearPlanes near(bench, solid, plane);
    OffLattice found{solid, row, mapped(near.cuts(), [&](const Side &side) { return cut_of(side, plane); }), 1, true, {}};
    const Wide factor = found.factor = least_factor(found.cuts);
    if (factor == 1)
        return found;
    found.fits = factor != 0 && factor <= farthest && near.reach() * factor <= farthest && magnitude(plane.offset) * factor <= farthest_offset;
    if (const std::optional<gwb_near_plane> parallel = near.parallel())
        found.near.push_back(*parallel);
    append(found.near, near.tilted(most));
    return found;
}

} // namespace gwb_session::cutting
