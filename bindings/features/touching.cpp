#include "touching.hpp"
#include "integers.hpp"

namespace gwb_session::touching {

namespace {

/// What lies round a point: ways along edges, which corners of faces join to fans. Along an edge two faces have a corner each.
class Fans {
public:
    /// A corner of a face, from one way to the other.
    void put_corner(const Vector &one, const Vector &other)
    {
        const std::size_t first = put(one), second = put(other);
        count_ -= sets_.name(first) != sets_.name(second) ? 1 : 0;
        sets_.join(first, second);
    }
    /// A face has the point within.
    void put_face() { count_++; }

    [[nodiscard]] bool are_several() const { return count_ > 1 || has_crowded_edge_; }

private:
    std::size_t put(const Vector &way)
    {
        const std::size_t place = place_of(way);
        if (place == corners_.size()) {
            count_++;
            corners_.push_back(0);
        }
        has_crowded_edge_ = ++corners_[place] > 2 || has_crowded_edge_;
        return place;
    }
    /// The place of a way among those that there are: of few it is found by looking at each.
    [[nodiscard]] std::size_t place_of(const Vector &way)
    {
        const auto is_same = [&](const Vector &other) { return is_zero(cross(way, other)) && dot(way, other) > 0; };
        if (const auto found = std::find_if(few_.begin(), few_.end(), is_same); found != few_.end())
            return static_cast<std::size_t>(found - few_.begin());
        if (few_.size() < most_few) {
            few_.push_back(way);
            return corners_.size();
        }
        return places_.try_emplace(reduced(way), corners_.size()).first->second;
    }

    static constexpr std::size_t most_few = 16;
    std::vector<Vector> few_;              ///< the first ways
    std::map<Vector, std::size_t> places_; ///< of the others, as short as they can be
    std::vector<std::size_t> corners_;     ///< along each way
    JoinedSets<std::size_t> sets_;         ///< of ways
    std::size_t count_ = 0;
    bool has_crowded_edge_ = false;
};

/// Faces that lie near points.
class Faces {
public:
    Faces(const std::vector<Sheet> &faces, const Box &box)
    {
        for (const Sheet &face : faces)
            if (face.box.meets(box))
                put(face, box);
    }

    /// Whether they touch themselves at a point, where they aren't all of one source.
    [[nodiscard]] bool touch_at(const ScaledPoint &point, const SourceOf &source_of) const
    {
        Fans fans;
        std::set<const Sheet *> here;
        const Box box = box_of(point);
        for (std::size_t at : by_boxes_.meeting(box))
            if (put_corner(*sides_[at].side, *sides_[at].following, point, fans))
                here.insert(sides_[at].face);
        for (std::size_t at : faces_by_boxes_.meeting(box))
            if (const Sheet &face = *faces_[at]; here.count(&face) == 0 && has_within(face, point)) {
                fans.put_face();
                here.insert(&face);
            }
        return fans.are_several() && !are_of_one(here, source_of);
    }

private:
    struct NearSide {
        const Sheet *face;
        const Side *side, *following;
    };

    void put(const Sheet &face, const Box &box)
    {
        faces_by_boxes_.put(face.box, faces_.size());
        faces_.push_back(&face);
        for (const Cycle &cycle : face.cycles)
            for (std::size_t at = 0; at < cycle.size(); at++)
                if (const Box own = box_of(cycle[at]); own.meets(box)) {
                    by_boxes_.put(own, sides_.size());
                    sides_.push_back({&face, &cycle[at], &cycle[(at + 1) % cycle.size()]});
                }
    }

    /// Puts in the corner of a face at a point where a side ends, or which that passes. Whether it has the point.
    static bool put_corner(const Side &side, const Side &following, const ScaledPoint &point, Fans &fans)
    {
        if (point.compare({side.end}) == 0) {
            fans.put_corner(negative(way_in(side)), way_out(following));
            return true;
        }
        const bool is_passed = side.run == nullptr && point.compare({side.start}) != 0 && side.has(point);
        if (is_passed)
            fans.put_corner(side.way(), negative(side.way()));
        return is_passed;
    }

    static bool has_within(const Sheet &face, const ScaledPoint &point)
    {
        return face.is_flat() && integers::side_of(face.plane, point) == 0 && face.locate(point) == Place::inside;
    }

    static bool are_of_one(const std::set<const Sheet *> &faces, const SourceOf &source_of)
    {
        const auto source = source_of(**faces.begin());
        return source && all(faces, [&](const Sheet *face) { return source_of(*face) == source; });
    }

    std::vector<const Sheet *> faces_;
    std::vector<NearSide> sides_;
    BoxIndex faces_by_boxes_, by_boxes_;
};

} // namespace

std::optional<ScaledPoint> touched(const std::vector<Sheet> &faces, std::vector<ScaledPoint> points, const SourceOf &source_of)
{
    if (points.empty())
        return std::nullopt;
    std::sort(points.begin(), points.end());
    const Faces near(faces, box_of(points));
    const auto found = std::find_if(points.begin(), points.end(), [&](const ScaledPoint &point) {
        go_on();
        return near.touch_at(point, source_of);
    });
    return found != points.end() ? std::optional(*found) : std::nullopt;
}

} // namespace gwb_session::touching
