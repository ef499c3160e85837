#include "traces.hpp"

namespace gwb_session::traces {

namespace {

/// A trace within the face in which it is looked at, with the other face within which it lies.
struct Laid {
    Trace *trace;
    Number other;
};

/// The traces in one face.
class InFace {
public:
    InFace(Operands &all, Number face, const std::vector<Laid> &laid) : all_(all), face_(face), laid_(laid)
    {
        for (std::size_t at = 0; at < laid.size(); at++)
            boxes_.put(box_of(laid[at]), at);
    }

    void cut()
    {
        cut_at_points();
        for (std::size_t at = 0; at < laid_.size(); at++) {
            go_on();
            for (std::size_t other : boxes_.meeting(box_of(laid_[at])))
                if (other > at && solid(laid_[at]) != solid(laid_[other]))
                    cross_each_other(laid_[at], laid_[other]);
        }
    }

private:
    [[nodiscard]] Number solid(const Laid &one) const { return all_.faces[one.other].solid; }
    [[nodiscard]] const Plane &plane(const Laid &one) const { return all_.sheet(one.other).plane; }
    [[nodiscard]] Box box_of(const Laid &one) const
    {
        Box box = all_.points.box(one.trace->from);
        box.take(all_.points.box(one.trace->to));
        return box;
    }

    /// Those at which the face is touched, each of which lies in its plane.
    void cut_at_points()
    {
        std::vector<Number> &touched = all_.faces[face_].touched;
        std::sort(touched.begin(), touched.end());
        touched.erase(std::unique(touched.begin(), touched.end()), touched.end());
        for (Number point : touched)
            for (std::size_t at : boxes_.meeting(all_.points.box(point)))
                if (passes(laid_[at], point))
                    laid_[at].trace->stops.push_back(point);
    }

    [[nodiscard]] bool passes(const Laid &one, Number point) const
    {
        return side_of(plane(one), all_.points.at(point)) == 0 && all_.points.comes_before(one.trace->from, point) &&
               all_.points.comes_before(point, one.trace->to);
    }

    /// Two traces that pass through each other: that is where the face and the other two of them meet.
    void cross_each_other(const Laid &one, const Laid &two)
    {
        if (!passes_through(one, plane(two)) || !passes_through(two, plane(one)))
            return;
        const Number point = all_.points.of_planes(all_.sheet(face_).plane, plane(one), plane(two));
        one.trace->stops.push_back(point), two.trace->stops.push_back(point);
    }

    [[nodiscard]] bool passes_through(const Laid &one, const Plane &other) const
    {
        return side_of(other, all_.points.at(one.trace->from)) * side_of(other, all_.points.at(one.trace->to)) < 0;
    }

    Operands &all_;
    Number face_;
    const std::vector<Laid> &laid_;
    BoxIndex boxes_; ///< of the traces
};

} // namespace

void cut(Operands &all, std::vector<Trace> &traces)
{
    if (all.count() <= 2)
        return;
    std::map<Number, std::vector<Laid>> faces;
    for (Trace &trace : traces)
        if (trace.edge == none)
            for (std::size_t which : {0, 1})
                faces[trace.faces[which]].push_back({&trace, trace.faces[1 - which]});
    for (const auto &[face, laid] : faces)
        InFace(all, face, laid).cut();
}

} // namespace gwb_session::traces
