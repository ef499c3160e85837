/// @file gwb_made.hpp What features are told and what they make, for C++17: for gwb_features.hpp, which has the features.
#ifndef GWB_MADE_HPP
#define GWB_MADE_HPP
#include "gwb.hpp"
#include "gwb_features.h"

namespace gwb_session {

/// Where points go: each axis to an axis, either way round, and then by a vector.
class Motion {
public:
    Motion() = default;
    explicit Motion(const gwb_motion &row) : row_(row) {}
    static Motion move(Point by) { return Motion(gwb_motion{{1, 2, 3}, by}); }
    /// By so many quarters about the axis through the origin (0 x, 1 y, 2 z): counterclockwise as seen from where it points.
    static Motion quarter_turns(unsigned axis, unsigned times = 1)
    {
        Motion quarter, motion;
        const unsigned first = (axis + 1) % 3, second = (axis + 2) % 3;
        quarter.row_.axes[first] = -static_cast<std::int32_t>(second + 1), quarter.row_.axes[second] = static_cast<std::int32_t>(first + 1);
        for (unsigned time = 0; time < times % 4; time++)
            motion = motion.then(quarter);
        return motion;
    }
    /// At the plane through the origin across an axis.
    static Motion mirror(unsigned axis)
    {
        Motion motion;
        motion.row_.axes[axis % 3] *= -1;
        return motion;
    }
    [[nodiscard]] Point operator()(Point point) const
    {
        const std::int64_t parts[] = {point.x, point.y, point.z};
        return {part(parts, row_.axes[0]) + row_.by.x, part(parts, row_.axes[1]) + row_.by.y, part(parts, row_.axes[2]) + row_.by.z};
    }
    /// This motion, and then another.
    [[nodiscard]] Motion then(const Motion &next) const
    {
        const auto &[x, y, z] = next.row_.axes;
        return Motion(gwb_motion{{part(row_.axes, x), part(row_.axes, y), part(row_.axes, z)}, next(row_.by)});
    }
    /// Whether left becomes right.
    [[nodiscard]] bool is_mirror() const
    {
        const bool is_even = from(row_.axes[1]) == (from(row_.axes[0]) + 1) % 3;
        return ((row_.axes[0] < 0) != ((row_.axes[1] < 0) != (row_.axes[2] < 0))) == is_even;
    }
    [[nodiscard]] const gwb_motion &row() const { return row_; }

private:
    static std::size_t from(std::int32_t axis) { return static_cast<std::size_t>(axis < 0 ? -axis : axis) - 1; }
    template <class Part> static Part part(const Part (&of)[3], std::int32_t axis) { return axis < 0 ? -of[from(axis)] : of[from(axis)]; }
    gwb_motion row_ = {{1, 2, 3}, {0, 0, 0}};
};

/// What profile makes: the face that was moved, the one that stayed, and for each point the side from it to the next.
struct Profile {
    Solid solid;
    Face far, base;
    std::vector<Face> sides;
};
/// What polyhedron makes: the first of its vertices and of its faces, which the others follow one by one.
struct Polyhedron {
    Solid solid;
    Vertex first_vertex;
    Face first_face;
};
/// What ring makes: the face inside the outline, the ring around it, and for each point the edge from it to the next, and the vertex there.
struct Ring {
    Face face;
    Loop loop;
    std::vector<Edge> edges;
    std::vector<Vertex> vertices;
};
/// What pocket and boss make: the floor or top, the ring in the face, and for each point the side from it to the next.
struct Pocket {
    Face face;
    Loop loop;
    std::vector<Face> sides;
};
/// What hole and drill make: the face that it ends in, the ring at its start, for each point the side from it to the next, and the points.
struct Hole {
    Face other;
    Loop loop;
    std::vector<Face> sides;
    std::vector<Point> points;
};
/// What a notch, slot, groove or shoulder leaves: its floor, none where it goes through, and its walls.
struct Notch {
    std::vector<Face> floor, walls;
};
/// What a pad is: its top, and its walls.
struct Pad {
    std::vector<Face> top, walls;
};

/// Faces that became one with others, or several, each with one that it went into.
using Merged = std::vector<std::pair<Face, Face>>;
/// What unite, subtract, intersect and join_faces make: the solid that stays, and what became of faces.
struct Merger {
    Solid solid;
    Merged merged;
    operator Solid() const { return solid; }
};

/// Two faces that cross or touch, and a point at which they do: coordinates times the scale.
struct Crossing {
    explicit Crossing(const gwb_crossing &row) : first(row.first), second(row.second), point{row.point[0], row.point[1], row.point[2]}, scale(row.scale) {}
    Face first, second;
    std::array<gwb_wide, 3> point;
    gwb_wide scale;
};

/// What split_solid and cut make: the solid above the plane, and the faces that close both parts.
struct Split {
    Solid above;
    std::vector<Face> lower_caps, upper_caps;
    operator Solid() const { return above; }
};

} // namespace gwb_session
#endif
