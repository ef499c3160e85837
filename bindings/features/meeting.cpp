#include "meeting.hpp"

namespace gwb_session::meeting {

namespace {

/// Whether a face lies beside a line before the other face's plane, and behind it.
using Halves = std::array<bool, 2>;

/// A point of the line at which a face has a corner, or a side passes.
struct Stop {
    Number point;
    std::uint32_t which;        ///< of the two faces
    Number edge;                ///< that passes: none at a corner
    std::array<Vector, 2> ways; ///< of what leads away from the line there before the other's plane, and behind it: zero where nothing does
};

/// A side that runs along the line, in the order of the points of that.
struct Along {
    Number from, to, edge;
    bool is_back; ///< whether the side runs the other way
};

/// Two faces on the line in which their planes meet. Of each, the sides that lead away from the line at its stops tell where it lies beside the line, from one
/// to the next: each such side changes it.
class Line {
public:
    Line(Operands &all, std::vector<Trace> &traces, const Pair &faces) : all_(all), traces_(traces), faces_(faces) {}

    void meet()
    {
        const std::uint32_t small = all_.sheet(faces_[0]).sides.size() <= all_.sheet(faces_[1]).sides.size() ? 0 : 1;
        for (std::uint32_t which : {small, 1 - small}) {
            const std::size_t before = stops_.size();
            put_stops(which);
            if (stops_.size() == before && !all_.is_large(faces_[which])) // (of a large one sides that aren't near may have some)
                return;
        }
        const auto comes_before = [&](const Stop &a, const Stop &b) { return all_.points.comes_before(a.point, b.point); };
        std::stable_sort(stops_.begin(), stops_.end(), comes_before);
        begin_ = 0, end_ = stops_.size();
        if (all_.is_large(faces_[0]) || all_.is_large(faces_[1]))
            begin_in_both();
        walk();
    }

private:
    // ---- what each face has on the line

    void put_stops(std::uint32_t which)
    {
        const Number face = faces_[which];
        all_.each_side_near(face, other(which).box, [&](std::size_t at) { put_stop(which, all_.sheet(face).sides[at], all_.faces[face], at); });
    }

    /// As the first face's normal, the other's and the line turn.
    [[nodiscard]] Vector product() const { return reduced(cross(all_.sheet(faces_[0]).plane.across, all_.sheet(faces_[1]).plane.across)); }

    [[nodiscard]] const Sheet &other(std::uint32_t which) const { return all_.sheet(faces_[1 - which]); }

    void put_stop(std::uint32_t which, const Side &side, const FlatFace &face, std::size_t at)
    {
        const Plane &plane = other(which).plane;
        const Wide before = plane.height(side.start), after = plane.height(side.end);
        const Number edge = face.edges[at], from = face.corners[at], to = face.nexts[at];
        const auto ways = [](const Vector &way, Wide up) { return up > 0 ? std::array{way, Vector{}} : std::array{Vector{}, way}; };
        if (before == 0 && after == 0) {
            const bool is_back = all_.points.comes_before(to, from);
            along_[which].push_back(is_back ? Along{to, from, edge, true} : Along{from, to, edge, false});
            stops_.push_back({from, which, none, {}});
        } else if (before == 0) {
            stops_.push_back({from, which, none, ways(side.way(), after)});
        } else if (after == 0) {
            stops_.push_back({to, which, none, ways(negative(side.way()), before)});
        } else if (sign(before) * sign(after) < 0) { // (reckoned as the edge runs, so that both of its faces say the same)
            const bool is_first = all_.edges[edge].from == from;
            const Vector up = after > 0 ? side.way() : negative(side.way());
            const Number point = is_first ? point_passed(edge, faces_[1 - which], before, after) : point_passed(edge, faces_[1 - which], after, before);
            stops_.push_back({point, which, edge, {up, negative(up)}});
        }
    }

    /// Where an edge passes the plane of a face, from which its ends lie so far: it is asked for by both faces of the edge.
    [[nodiscard]] Number point_passed(Number edge, Number face, Wide before, Wide after)
    {
        CutEdge &own = all_.edges[edge];
        const auto known = std::find_if(own.passed.begin(), own.passed.end(), [&](const auto &row) { return row.first == face; });
        if (known != own.passed.end())
            return known->second;
        return own.passed.emplace_back(face, all_.points.between(own.side, before, after)).second;
    }

    // ---- of large faces

    /// Of a large face the sides near the other face alone are read, so that only stops in the boxes of both count, which follow each other; and where each
    /// face lies before the first of these is found.
    void begin_in_both()
    {
        const Box &one = all_.sheet(faces_[0]).box, &two = all_.sheet(faces_[1]).box;
        const auto is_in_both = [&](const Stop &stop) { return all_.points.is_in(stop.point, one) && all_.points.is_in(stop.point, two); };
        const auto first = std::find_if(stops_.begin(), stops_.end(), is_in_both);
        const auto last = std::find_if(stops_.rbegin(), std::make_reverse_iterator(first), is_in_both).base();
        begin_ = static_cast<std::size_t>(first - stops_.begin()), end_ = static_cast<std::size_t>(last - stops_.begin());
        for (std::uint32_t which : {0U, 1U})
            if (begin_ != end_)
                in_[which] = all_.is_large(faces_[which]) ? found_before(which) : read_before(which);
    }

    /// Where a face lies before the first of those stops: by all of its stops before it.
    [[nodiscard]] Halves read_before(std::uint32_t which) const
    {
        Halves in{};
        for (std::size_t at = 0; at < begin_; at++)
            if (stops_[at].which == which)
                pass(stops_[at], in);
        return in;
    }

    /// The same, by a point after it that lies before the next one, and back from there; or where it lies at that stop, if there is no other one.
    [[nodiscard]] Halves found_before(std::uint32_t which)
    {
        const Number point = stops_[begin_].point;
        std::size_t next = begin_;
        while (next + 1 < end_ && stops_[next].point == point)
            next++;
        Halves in = found(which, point, stops_[next].point);
        for (std::size_t at = begin_; at < next && stops_[next].point != point; at++)
            if (stops_[at].which == which)
                pass(stops_[at], in);
        return in;
    }

    /// Where a face lies between two points that follow each other on the line, which may be one.
    [[nodiscard]] Halves found(std::uint32_t which, Number from, Number to)
    {
        Halves in{};
        bool is_along = false;
        const Vector turned = product();
        const bool is_left = negative(turned) < turned; // the first face's normal, the other's and the line turn left
        for (const Along &row : along_[which])
            if (covers(row, from, to)) {
                const bool is_before = row.is_back == (is_left == (which == 0)); // whether the face, which is on the left of its side, lies before the plane
                in[is_before ? 0 : 1] = is_along = true;
            }
        if (is_along)
            return in;
        const bool is_in = all_.locate(faces_[which], all_.points.at(from).between(all_.points.at(to))) == Place::inside;
        return {is_in, is_in};
    }

    [[nodiscard]] bool covers(const Along &row, Number from, Number to) const
    {
        return !all_.points.comes_before(from, row.from) && !all_.points.comes_before(row.to, to);
    }

    // ---- both faces along the line

    static void pass(const Stop &stop, Halves &in)
    {
        for (std::size_t half : {0, 1})
            in[half] = in[half] != !is_zero(stop.ways[half]);
    }

    void walk()
    {
        for (std::size_t first = begin_, last = begin_; first < end_; first = last) {
            while (last < end_ && stops_[last].point == stops_[first].point)
                last++;
            touch_at(first, last);
            for (std::size_t at = first; at < last; at++)
                pass(stops_[at], in_[stops_[at].which]);
            if (last < end_ && is_beside(0) && is_beside(1))
                put_trace(stops_[first].point, stops_[last].point);
        }
    }

    [[nodiscard]] bool is_beside(std::uint32_t which) const { return in_[which][0] || in_[which][1]; }

    /// The stops at one point: where both faces have it, each is touched there.
    void touch_at(std::size_t first, std::size_t last)
    {
        std::array<const Stop *, 2> here{};
        for (std::size_t at = first; at < last; at++)
            here[stops_[at].which] = &stops_[at];
        const auto has_it = [&](std::uint32_t which) { return here[which] != nullptr || is_beside(which); };
        if (has_it(0) && has_it(1))
            for (std::uint32_t which : {0U, 1U})
                touch(which, stops_[first].point, here[which]);
    }

    void touch(std::uint32_t which, Number point, const Stop *stop)
    {
        all_.faces[faces_[which]].is_met = true;
        Number edge = stop != nullptr ? stop->edge : none;
        if (stop == nullptr)
            for (const Along &row : along_[which])
                if (all_.points.comes_before(row.from, point) && all_.points.comes_before(point, row.to))
                    edge = row.edge;
        if (edge != none)
            all_.touch_edge(edge, point);
        else
            all_.touch_face(faces_[which], point, stop != nullptr);
    }

    /// Both faces have a part of the line: it lies within each that lies on both sides of it, else it is of an edge.
    void put_trace(Number from, Number to)
    {
        const Vector way = product();
        Trace found{from, to, std::max(way, negative(way)), {none, none}, none};
        for (std::uint32_t which : {0U, 1U})
            if (in_[which][0] && in_[which][1])
                found.faces[which] = faces_[which];
            else
                found.edge = edge_along(which, from, to);
        if (found.faces != std::array{none, none})
            traces_.push_back(found);
    }

    [[nodiscard]] Number edge_along(std::uint32_t which, Number from, Number to) const
    {
        const auto row = std::find_if(along_[which].begin(), along_[which].end(), [&](const Along &of) { return covers(of, from, to); });
        return row != along_[which].end() ? row->edge : none;
    }

    Operands &all_;
    std::vector<Trace> &traces_;
    Pair faces_;
    std::vector<Stop> stops_;
    std::array<std::vector<Along>, 2> along_;
    std::size_t begin_ = 0, end_ = 0; ///< of the stops that count
    std::array<Halves, 2> in_{};      ///< where each face lies
};

// ---- faces in one plane

/// Two sides in one plane: each is cut where the other one ends on it, or both cross.
void cut_in_plane(Operands &all, const Pair &faces, const std::array<std::size_t, 2> &places, Axes axes)
{
    std::array<const Side *, 2> sides{};
    std::array<Number, 2> edges{};
    for (std::size_t own : {0, 1}) {
        sides[own] = &all.sheet(faces[own]).sides[places[own]];
        edges[own] = all.faces[faces[own]].edges[places[own]];
    }
    for (std::size_t own : {0, 1}) {
        const FlatFace &face = all.faces[faces[own]];
        const std::array<std::pair<Number, Vector>, 2> ends = {
            std::pair(face.corners[places[own]], sides[own]->start), std::pair(face.nexts[places[own]], sides[own]->end)};
        for (const auto &[point, at] : ends)
            if (sides[1 - own]->holds({at}, axes)) {
                all.touch_edge(edges[1 - own], point);
                all.put_spot(face.solid, point, {Spot::corner});
            }
    }
    if (!sides[0]->crosses(*sides[1], axes))
        return;
    // (twice the area between the other side and a point, as it is seen along the third axis)
    const auto area = [&](const Vector &end) { return cross(sides[1]->way(), subtract(end, sides[1]->start))[3 - axes[0] - axes[1]]; };
    const Number point = all.points.between(*sides[0], area(sides[0]->start), area(sides[0]->end));
    for (Number edge : edges)
        all.touch_edge(edge, point);
}

/// Faces of one plane: their edges are cut where they meet.
void meet_in_plane(Operands &all, Pair faces)
{
    if (all.faces[faces[0]].edges.size() > all.faces[faces[1]].edges.size())
        std::swap(faces[0], faces[1]);
    const Sheet &one = all.sheet(faces[0]), &two = all.sheet(faces[1]);
    const Axes axes = flat_axes(one.plane.across);
    for (Number face : faces)
        all.faces[face].is_met = true;
    for (std::size_t at = 0; at < one.sides.size(); at++) {
        const Box box = box_of(one.sides[at]);
        if (one.sides[at].run != nullptr || !box.meets(two.box))
            continue;
        go_on();
        all.each_side_near(faces[1], box, [&](std::size_t beyond) {
            if (box.meets(box_of(two.sides[beyond])))
                cut_in_plane(all, faces, {at, beyond}, axes);
        });
    }
}

void meet(Operands &all, const Pair &faces, Meetings &found)
{
    const Plane &plane = all.sheet(faces[0]).plane;
    const Sheet &across = all.sheet(faces[1]);
    if (plane.across != across.plane.across && plane.across != negative(across.plane.across)) {
        Line(all, found.traces, faces).meet();
    } else if (plane.height(across.sides[0].start) == 0) {
        meet_in_plane(all, faces);
        found.in_plane.push_back(faces), found.in_plane.push_back({faces[1], faces[0]});
    }
}

} // namespace

Meetings meet(Operands &all)
{
    NumberPairs pairs = pairs_meeting(mapped(all.faces, [](const FlatFace &face) { return SmallBox(face.sheet->box); }),
                                      mapped(all.faces, [](const FlatFace &face) { return face.solid; }));
    std::sort(pairs.begin(), pairs.end());
    Meetings found;
    for (Number solid = all.count(); solid-- > 0;) { // (from the last one on)
        const auto is_before = [](const Pair &pair, Number face) { return pair[0] < face; };
        const auto first = std::lower_bound(pairs.begin(), pairs.end(), all.first_face(solid), is_before);
        std::for_each(first, std::lower_bound(first, pairs.end(), all.first_face(solid + 1), is_before), [&](const Pair &faces) {
            go_on();
            meet(all, faces, found);
        });
    }
    return found;
}

} // namespace gwb_session::meeting
