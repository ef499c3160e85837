#include "within.hpp"
#include "cones.hpp"
#include <numeric>

namespace gwb_session::within {

namespace {

/// Whether a piece that leads away from a point within a face lies within the solid: none where it leads along the face.
std::optional<bool> told_by_face(const Sheet &face, const Vector &away)
{
    const int up = sign_of_dot(face.plane.across, away);
    return up != 0 ? std::optional(up < 0) : std::nullopt;
}

/// The same of a point within an edge: none where it leads along the edge, or into one of its faces. The solid lies behind both faces, or where these turn
/// back, behind one of them.
std::optional<bool> told_by_edge(const Operands &all, const CutEdge &edge, const Vector &away)
{
    if (edge.left == none || edge.right == none)
        return std::nullopt;
    const Vector &left = all.sheet(edge.left).plane.across, &right = all.sheet(edge.right).plane.across;
    const int turn = sign_of_dot(edge.side.way(), cross(left, right)), one = sign_of_dot(left, away), other = sign_of_dot(right, away);
    if (turn == 0)
        return left == right ? told_by_face(all.sheet(edge.left), away) : std::nullopt;
    if (one == 0 || other == 0) // beyond an edge, along one of the faces' planes
        return one + other == turn ? std::optional(turn < 0) : std::nullopt;
    return turn > 0 ? one < 0 && other < 0 : one < 0 || other < 0;
}

std::optional<bool> told_at(const Operands &all, const Spot &spot, const Vector &away)
{
    switch (spot.what) {
    case Spot::face: return told_by_face(all.sheet(spot.number), away);
    case Spot::edge: return told_by_edge(all, all.edges[spot.number], away);
    default: return std::nullopt;
    }
}

/// The pieces of other solids, as to one: those that meet at points off that lie alike.
class Alone {
public:
    Alone(Operands &all, std::vector<Piece> &pieces, const Failure &why) : all_(all), pieces_(pieces), why_(why)
    {
        for (std::size_t at = 0; all.count() > 2 && at < pieces.size(); at++)
            by_boxes_.put(box_of(pieces[at]), at);
        for (const FlatFace &face : all.faces)
            if (!face.is_met && face.sheet->cycles.size() > 1)
                with_rings_.push_back(&face);
        known_.resize(pieces.size());
        first_.assign(all.points.count(), SIZE_MAX);
    }

    /// Tells of all pieces near a solid.
    void tell(Number solid, const IsWithin &is_within)
    {
        solid_ = solid;
        near_ = filtered(in_box(), [&](std::size_t at) { return !any(pieces_[at].wings, [&](const Wing &wing) { return solid_of(wing) == solid; }); });
        join_pieces();
        join_loops();
        join_behind();
        tell_sets([&](const Piece &piece) { return is_beyond(piece) ? std::optional(false) : told_at_ends(piece); });
        tell_sets([&](const Piece &piece) {
            const std::optional<ScaledPoint> point = point_off(piece);
            return point ? std::optional(is_within(solid, *point)) : std::nullopt;
        });
        tell_sets([&](const Piece &piece) { return told_by_corner(piece); });
        put_known();
    }

private:
    [[nodiscard]] Number solid_of(const Wing &wing) const { return all_.faces[wing.face].solid; }
    [[nodiscard]] Box box_of(const Piece &piece) const
    {
        Box box = all_.points.box(piece.from);
        box.take(all_.points.box(piece.to));
        return box;
    }

    /// The pieces in the box of the solid, and perhaps others.
    [[nodiscard]] std::vector<std::size_t> in_box() const
    {
        if (all_.count() > 2 && solid_ != 0)
            return by_boxes_.meeting(all_.box(solid_));
        std::vector<std::size_t> all(pieces_.size());
        std::iota(all.begin(), all.end(), std::size_t{0});
        return all;
    }
    /// Whether an end of a piece lies beyond that box.
    [[nodiscard]] bool is_beyond(const Piece &piece) const
    {
        const Box &box = all_.box(solid_);
        const auto is_out = [&](Number end) { return all_.points.is_fine(end) ? !all_.points.box(end).meets(box) : !all_.points.is_in(end, box); };
        return is_out(piece.from) || is_out(piece.to);
    }

    /// Tells of the sets of which nothing is known yet.
    template <class Told> void tell_sets(Told told)
    {
        for (std::size_t at : near_)
            if (std::optional<bool> &known = known_[sets_.name(at)]; !known)
                known = told(pieces_[at]);
    }

    [[nodiscard]] bool is_off(Number point) const { return all_.spot(solid_, point).what == Spot::nowhere; }

    void join_pieces()
    {
        for (std::size_t at : near_)
            for (Number end : {pieces_[at].from, pieces_[at].to})
                if (is_off(end)) {
                    first_[end] = first_[end] != SIZE_MAX ? first_[end] : at;
                    sets_.join(first_[end], at);
                }
    }

    /// The loops of a face that no other solid meets lie alike.
    void join_loops()
    {
        for (const FlatFace *face : with_rings_)
            if (const std::size_t first = first_[face->corners[0]]; first != SIZE_MAX)
                for (Number corner : face->corners)
                    if (first_[corner] != SIZE_MAX)
                        sets_.join(first, first_[corner]);
    }

    /// So do edges and corners of faces that lie as what is behind these does.
    void join_behind()
    {
        for (const auto &[edge, corner] : all_.behind())
            if (const std::size_t first = first_[all_.edges[edge].from]; first != SIZE_MAX && first_[corner] != SIZE_MAX)
                sets_.join(first, first_[corner]);
    }

    [[nodiscard]] std::optional<bool> told_at_ends(const Piece &piece) const
    {
        const std::optional<bool> told = told_at(all_, all_.spot(solid_, piece.from), piece.way);
        return told ? told : told_at(all_, all_.spot(solid_, piece.to), negative(piece.way));
    }

    /// A point of a piece off the solid: none where neither an end nor what lies between corners of that is one.
    [[nodiscard]] std::optional<ScaledPoint> point_off(const Piece &piece) const
    {
        go_on();
        const bool are_whole = all_.points.is_whole(piece.from) && all_.points.is_whole(piece.to);
        for (Number end : {piece.from, piece.to})
            if (all_.points.is_whole(end) && is_off(end))
                return all_.points.at(end);
        return are_whole ? std::optional(all_.points.at(piece.from).between(all_.points.at(piece.to))) : std::nullopt;
    }

    [[nodiscard]] bool told_by_corner(const Piece &piece) const
    {
        const bool is_first = all_.spot(solid_, piece.from).what == Spot::corner;
        const Number end = is_first ? piece.from : piece.to;
        if (is_first || all_.spot(solid_, end).what == Spot::corner)
            if (const std::optional<bool> told = cones::is_within(all_, solid_, end, is_first ? piece.way : negative(piece.way)))
                return *told;
        throw all_.points.failed_between(why_, end, end);
    }

    /// Writes down what is known of the pieces, and forgets it for the next solid.
    void put_known()
    {
        for (std::size_t at : near_)
            pieces_[at].within.put(solid_, *known_[sets_.name(at)]);
        for (std::size_t at : near_) {
            known_[at].reset();
            first_[pieces_[at].from] = first_[pieces_[at].to] = SIZE_MAX;
        }
        sets_ = {};
    }

    Operands &all_;
    std::vector<Piece> &pieces_;
    const Failure &why_;
    BoxIndex by_boxes_;                        ///< of more than two solids: pieces
    std::vector<const FlatFace *> with_rings_; ///< that no other solid meets
    Number solid_ = 0;
    std::vector<std::size_t> near_;            ///< pieces near the solid of which it has no wing
    JoinedSets<std::size_t> sets_;             ///< of pieces that lie alike
    std::vector<std::size_t> first_;           ///< piece at each point off the solid
    std::vector<std::optional<bool>> known_;   ///< by the names of sets
};

} // namespace

void tell(Operands &all, Pieces &pieces, const IsWithin &is_within, const Failure &why)
{
    Alone alone(all, pieces.all(), why);
    for (Number solid = 0; solid < all.count(); solid++)
        alone.tell(solid, is_within);
}

} // namespace gwb_session::within
