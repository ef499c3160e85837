#include "sectors.hpp"
#include "turns.hpp"

namespace gwb_session::sectors {

namespace {

/// A wing at a piece, with its normal, which is that of one on the right turned round: so it is turned as the wing is.
struct Turned {
    Vector normal;
    Wing wing;
    Number solid;
};

/// A face of what is made that ends at a piece.
struct Rim {
    Vector normal;
    Bound bound;
};

/// What lies round pieces, one after another.
class Round {
public:
    Round(const Operands &all, const Made &made, const Failure &why) : all_(all), made_(made), others_(all.count() - 1), why_(why) {}

    void put(const Piece &piece, Bounds &found)
    {
        turn(piece);
        if (turned_.size() == 1) { // the face beyond isn't there: it lies as this one does
            const bool is_made_before = made_.at(within_, others_);
            within_.put(turned_[0].solid, true);
            if (const bool is_made_behind = made_.at(within_, others_); is_made_behind != is_made_before)
                found.kept.push_back(bound(0, 1, turned_[0].wing.is_left == is_made_behind));
            return;
        }
        put_rims();
        if (rims_.size() > 2 && in_.size() > 1)
            throw touched();
        if (rims_.size() == 2 && turns::same_turn(rims_[0].normal, negative(rims_[1].normal), axes_)) {
            if (rims_[0].bound.owner != rims_[1].bound.owner)
                found.seams.push_back({std::move(rims_[0].bound), std::move(rims_[1].bound)});
            return;
        }
        for (Rim &rim : rims_)
            found.kept.push_back(std::move(rim.bound));
    }

private:
    /// A solid of which the piece has wings, and whether a place lies within.
    struct In {
        Number solid;
        bool is_within;
    };

    /// Sorts the wings at a piece by their turn, those of the first solid first.
    void turn(const Piece &piece)
    {
        piece_ = &piece, axes_ = flat_axes(piece.way), within_ = piece.within;
        turned_.clear(), in_.clear();
        for (const Wing &wing : piece.wings) {
            const FlatFace &face = all_.faces[wing.face];
            const Vector &across = face.sheet->plane.across;
            turned_.push_back({wing.is_left ? across : negative(across), wing, face.solid});
            if (!any(in_, [&](const In &in) { return in.solid == face.solid; }))
                in_.push_back({face.solid, false});
        }
        std::stable_sort(turned_.begin(), turned_.end(), [&](const Turned &a, const Turned &b) {
            const int order = turns::order(a.normal, b.normal, axes_);
            return order != 0 ? order < 0 : a.solid < b.solid;
        });
    }

    [[nodiscard]] bool &is_within(Number solid)
    {
        return std::find_if(in_.begin(), in_.end(), [&](const In &in) { return in.solid == solid; })->is_within;
    }

    /// The faces that are made here. The room behind a face on the left comes before it in the turn, that behind one on the right after it.
    void put_rims()
    {
        rims_.clear();
        for (const Turned &one : turned_) // (the last one of each solid tells what comes before the first)
            is_within(one.solid) = !one.wing.is_left;
        for (const In &in : in_)
            within_.put(in.solid, in.is_within);
        for (std::size_t first = 0, last = 0; first < turned_.size(); first = last) {
            const bool is_left = made_.at(within_, others_);
            for (; last < turned_.size() && turns::same_turn(turned_[first].normal, turned_[last].normal, axes_); last++)
                pass(turned_[last]);
            if (is_left != made_.at(within_, others_))
                rims_.push_back({turned_[first].normal, bound(first, last, is_left)});
        }
    }

    void pass(const Turned &one)
    {
        bool &is_in = is_within(one.solid);
        if (is_in != one.wing.is_left) // the solid touches itself here
            throw touched();
        is_in = !is_in;
        within_.pass(one.solid, is_in);
    }

    /// Why nothing is made, where something touches itself at the piece.
    [[nodiscard]] FailureAt touched() const { return all_.points.failed_between(why_, piece_->from, piece_->to); }

    /// The piece as the side of a face that is made of those wings, at one angle. What is made there has the least face's name, and of several in one plane
    /// looks as those do that bound it.
    [[nodiscard]] Bound bound(std::size_t first, std::size_t last, bool is_left) const
    {
        const Piece &piece = *piece_;
        Bound found{is_left ? piece.from : piece.to, is_left ? piece.to : piece.from, is_left ? piece.way : negative(piece.way), none, false,
                    half(first, last)};
        for (std::size_t at = first; at < last; at++) {
            const Wing &wing = turned_[at].wing;
            if (found.owner != none)
                found.others.push_back(std::max(wing.face, found.owner));
            if (wing.face < found.owner)
                found.owner = wing.face, found.is_turned = wing.is_left != is_left;
        }
        if (!is_left && found.half != HalfEdge())
            found.half = found.half.twin();
        return found;
    }

    /// The half-edge along the piece that is one of those wings': else of any, those of the first of them's solid first.
    [[nodiscard]] HalfEdge half(std::size_t first, std::size_t last) const
    {
        const auto has_half = [](const Turned &one) { return one.wing.half != HalfEdge(); };
        const auto own = std::find_if(turned_.begin() + static_cast<std::ptrdiff_t>(first), turned_.begin() + static_cast<std::ptrdiff_t>(last), has_half);
        if (own != turned_.begin() + static_cast<std::ptrdiff_t>(last))
            return own->wing.half;
        const auto of_solid = std::find_if(turned_.begin(), turned_.end(),
                                           [&](const Turned &one) { return has_half(one) && one.solid == turned_[first].solid; });
        const auto any_one = of_solid != turned_.end() ? of_solid : std::find_if(turned_.begin(), turned_.end(), has_half);
        return any_one != turned_.end() ? any_one->wing.half : HalfEdge();
    }

    const Operands &all_;
    const Made &made_;
    Number others_; ///< how many solids there are besides the first
    const Failure &why_;
    const Piece *piece_ = nullptr;
    Axes axes_{};
    Within within_;
    std::vector<Turned> turned_;
    std::vector<In> in_;
    std::vector<Rim> rims_;
};

} // namespace

Bounds turned_round(const Operands &all, const std::vector<Piece> &pieces, const Made &made, const Failure &why)
{
    Bounds found;
    Round round(all, made, why);
    for (const Piece &piece : pieces) {
        go_on();
        round.put(piece, found);
    }
    return found;
}

} // namespace gwb_session::sectors
