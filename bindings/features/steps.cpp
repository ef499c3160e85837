// Solids are taken apart by operators; their inverses, the last one first, make them with their very numbers. Rings become faces; edges between two faces go;
// leaves go; where no edge has either, one goes that opens a handle, and what it cuts off is a face. At last there are faces of one vertex. To find the steps
// takes time n log n.
//
// A part of a model keeps its rim: edges of which it has one half-edge, and others that stay. It comes down to one face for each outline there. Where these
// outlines are the same in two parts, the steps that take the first apart and those that make the second turn one into the other.
#include "steps.hpp"

namespace gwb_session::rows {

namespace {

enum class Way { makes, takes };

/// Thrown where the outlines aren't the same, or a face would have to go that stays.
struct OtherKind {};

void require_kind(bool holds)
{
    if (!holds)
        throw OtherKind();
}

/// Numbers that are free both in rows and in a session, for what is gone again at once: they rise from the greatest in use on, or where too few are above
/// that from 1 on.
class Spares {
public:
    Spares(const gwb *g, const Rows &rows)
        : g_(g), rows_(rows), faces_(last_used(GWB_FACE, rows.faces)), loops_(last_used(GWB_LOOP, rows.loops)), edges_(last_used(GWB_EDGE, rows.edges)),
          vertices_(last_used(GWB_VERTEX, rows.vertices))
    {
    }
    std::uint32_t face() { return faces_ = next(GWB_FACE, rows_.faces, faces_); }
    std::uint32_t loop() { return loops_ = next(GWB_LOOP, rows_.loops, loops_); }
    std::uint32_t edge() { return edges_ = next(GWB_EDGE, rows_.edges, edges_); }
    std::uint32_t vertex() { return vertices_ = next(GWB_VERTEX, rows_.vertices, vertices_); }

private:
    template <class Row> std::uint32_t last_used(gwb_entity kind, const std::vector<Row> &rows) const
    {
        const std::size_t greatest = std::max<std::size_t>(gwb_greatest_number(g_, kind), rows.empty() ? 0 : number_of(rows.back()));
        return greatest + rows_.loops.size() + rows_.edges.size() < greatest_number ? static_cast<std::uint32_t>(greatest) : 0;
    }
    template <class Row> std::uint32_t next(gwb_entity kind, const std::vector<Row> &rows, std::uint32_t number) const
    {
        std::uint32_t used = 0;
        do
            number++;
        while (number <= greatest_number &&
               (place_of(rows, number) < rows.size() || (gwb_number_after(g_, kind, number - 1, &used) == GWB_FOUND && used == number)));
        return number;
    }

    const gwb *g_;
    const Rows &rows_;
    std::uint32_t faces_, loops_, edges_, vertices_;
};

/// A loop, where `parent` is itself; else that of its parent.
struct Node {
    std::uint32_t parent, loop, face, solid;
};

/// A face of one vertex, which is what is left of a part of a solid.
struct Root {
    std::uint32_t solid, face, loop, vertex; ///< of that the place
};

/// What a part comes down to at an outline: a face and its loop; and where the outline begins.
struct Core {
    std::uint32_t face, loop;
    gwb_point point;
};

/// Cores by their outlines, each from its least half-edge on.
using Cores = std::map<std::vector<std::uint32_t>, Core>;

/// Faces in which rings go on the way, by their loops.
using RingFaces = std::map<std::uint32_t, std::uint32_t>;

/// Ways along edges from a rim, or where there is none from one vertex, to all others.
class Trees {
public:
    Trees(const std::vector<std::uint32_t> &starts, std::size_t vertices, const std::vector<std::uint32_t> &edges, const std::vector<std::uint32_t> &rim)
        : starts_(starts), ways_(vertices), is_reached_(vertices)
    {
        for (std::uint32_t side : {0U, 1U})
            for (std::uint32_t edge : edges)
                ways_[starts[2 * edge + side]].push_back(2 * edge + side);
        for (std::uint32_t half : rim)
            (void)reach(starts[half]);
        for (std::uint32_t half : rim)
            is_reached_[starts[half ^ 1]] = true;
        for (std::uint32_t edge : edges) {
            grow();
            (void)reach(starts[2 * edge]);
        }
        grow();
    }

    std::vector<std::uint32_t> halves; ///< each after the one that leads to its start: first ones where it can be helped

private:
    bool reach(std::uint32_t vertex)
    {
        if (is_reached_[vertex])
            return false;
        reached_.push_back(vertex);
        return is_reached_[vertex] = true;
    }
    void grow()
    {
        for (; grown_ < reached_.size(); grown_++)
            for (std::uint32_t half : ways_[reached_[grown_]])
                if (reach(starts_[half ^ 1]))
                    halves.push_back(half);
    }

    const std::vector<std::uint32_t> &starts_;
    std::vector<std::vector<std::uint32_t>> ways_; ///< half-edges by where they start
    std::vector<bool> is_reached_;
    std::vector<std::uint32_t> reached_;
    std::size_t grown_ = 0;
};

/// What becomes of rows: of whole solids nothing is kept. The half-edges of the edge at a place are twice that and 1 more; vertices are known by their places.
class Apart {
public:
    Apart(Spares &spares, const Rows &rows, Way way, RingFaces &ring_faces, const Kept *kept = nullptr)
        : rows_(rows), way_(way), spares_(spares), ring_faces_(ring_faces), kept_(kept), face_(spares_.face()), loop_(spares_.loop()), edge_(spares_.edge()),
          starts_(2 * rows.edges.size()), next_(starts_.size()), before_(starts_.size()), node_(starts_.size(), none), is_rim_(rows.edges.size()),
          is_of_tree_(rows.edges.size()), is_gone_(rows.edges.size()), is_met_(rows.vertices.size())
    {
        nodes_.reserve(rows.loops.size()), halves_.reserve(rows.cycles.size());
        steps.reserve(rows.loops.size() + rows.edges.size());
        put_edges();
        put_faces();
        kept_ != nullptr ? part_out() : whole_out();
    }

    Steps steps; ///< those that take, or those that make, the last one first
    Cores cores;

private:
    static constexpr std::uint32_t none = UINT32_MAX;

    void step(const Step &takes, const Step &makes) { steps.push_back(way_ == Way::takes ? takes : makes); }
    [[nodiscard]] std::uint32_t number(std::uint32_t half) const { return 2 * rows_.edges[half / 2].number + half % 2; }
    /// The same as operators name it, and what follows a half-edge.
    [[nodiscard]] std::uint32_t corner(std::uint32_t half) const { return first_of(HalfEdge(number(half))).code(); }
    [[nodiscard]] std::uint32_t corner_after(std::uint32_t half) const { return corner(next_[half]); }
    [[nodiscard]] bool is_kept(std::uint32_t face) const { return kept_ != nullptr && has(kept_->faces, face); }
    [[nodiscard]] Step mev(std::uint32_t corner, std::uint32_t edge, std::uint32_t place) const
    {
        const auto &[vertex, point] = rows_.vertices[place];
        return {Operator::mev, {corner, edge, vertex}, point};
    }
    template <class Row> static std::uint32_t place(const std::vector<Row> &rows, std::uint32_t number)
    {
        const std::size_t found = place_of(rows, number);
        claim(found < rows.size());
        return static_cast<std::uint32_t>(found);
    }

    void part_out()
    {
        put_rim();
        put_left();
        put_trees_last();
        edges_out();
        cores_out();
    }
    void whole_out()
    {
        put_left();
        edges_out();
        solids_out();
        claim(std::count(is_met_.begin(), is_met_.end(), true) == static_cast<std::ptrdiff_t>(is_met_.size()));
    }

    // ---- what rows have to be, so that they can be taken apart

    void put_edges()
    {
        for (std::uint32_t at = 0; at < rows_.edges.size(); at++) {
            starts_[2 * at] = place(rows_.vertices, rows_.edges[at].from);
            starts_[2 * at + 1] = place(rows_.vertices, rows_.edges[at].to);
        }
    }
    /// Each loop is of one face, and is a node.
    void put_faces()
    {
        for (const LoopRow &loop : rows_.loops)
            put_node({0, loop.number, 0, 0});
        claim(rows_.owned.size() == rows_.loops.size() && (kept_ != nullptr || rows_.cycles.size() == starts_.size()));
        std::for_each(rows_.faces.begin(), rows_.faces.end(), [&](const FaceRow &face) { put_face(face); });
    }
    void put_face(const FaceRow &face)
    {
        (void)place(rows_.solids, face.solid);
        for (std::size_t at = face.first; at < face.first + face.count; at++) {
            const std::uint32_t owned = place(rows_.loops, rows_.owned[at]);
            Node &node = nodes_[owned];
            claim(node.face == 0);
            node.face = face.number;
            node.solid = face.solid;
            if (at != face.first && (kept_ == nullptr || !has(kept_->rings, node.loop)))
                ring_out(node);
            if (const LoopRow &loop = rows_.loops[owned]; loop.count == 0)
                put_root(node, place(rows_.vertices, loop.lone));
            else
                put_cycle(loop, owned);
        }
    }
    /// The half-edges follow each other, each from where the one before it ends; each stands in one loop.
    void put_cycle(const LoopRow &loop, std::uint32_t node)
    {
        std::uint32_t half = half_at(loop.first + loop.count - 1);
        for (std::size_t at = loop.first; at < loop.first + loop.count; at++) {
            const std::uint32_t following = half_at(at);
            claim(node_[following] == none && starts_[following] == starts_[half ^ 1]);
            node_[following] = node;
            halves_.push_back(following);
            link(std::exchange(half, following), following);
        }
    }
    [[nodiscard]] std::uint32_t half_at(std::size_t at) const { return 2 * place(rows_.edges, rows_.cycles[at] / 2) + rows_.cycles[at] % 2; }

    /// Of a part edges are the rim that have a half-edge elsewhere, or stay.
    void put_rim()
    {
        for (std::uint32_t at = 0; at < rows_.edges.size(); at++)
            is_rim_[at] = node_[2 * at] == none || node_[2 * at + 1] == none || has(kept_->edges, rows_.edges[at].number);
    }
    /// The edges that are to go, by the faces of their first half-edges.
    void put_left()
    {
        left_.reserve(rows_.edges.size());
        for (std::uint32_t half : halves_)
            if (half % 2 == 0 && !is_rim_[half / 2])
                left_.push_back(half / 2);
    }
    /// Edges of trees come last, so that they have leaves when the others are gone.
    void put_trees_last()
    {
        const Trees trees(starts_, rows_.vertices.size(), left_, filtered(halves_, [&](std::uint32_t half) { return is_rim_[half / 2]; }));
        tree_.assign(trees.halves.rbegin(), trees.halves.rend());
        for (std::uint32_t half : tree_)
            is_of_tree_[half / 2] = true;
        std::stable_partition(left_.begin(), left_.end(), [&](std::uint32_t edge) { return !is_of_tree_[edge]; });
    }

    /// A vertex is made, once.
    void meet(std::uint32_t place)
    {
        claim(!is_met_[place]);
        is_met_[place] = true;
    }

    // ---- nodes

    std::uint32_t put_node(Node node)
    {
        node.parent = static_cast<std::uint32_t>(nodes_.size());
        nodes_.push_back(node);
        return node.parent;
    }
    void put_root(const Node &node, std::uint32_t vertex)
    {
        meet(vertex);
        roots_.push_back({node.solid, node.face, node.loop, vertex});
    }

    /// The node of the loop in which a half-edge stands now.
    Node &loop_at(std::uint32_t half)
    {
        std::uint32_t at = node_[half];
        while (nodes_[at].parent != at)
            at = nodes_[at].parent = nodes_[nodes_[at].parent].parent;
        return nodes_[at];
    }

    // ---- what goes

    /// A half-edge is followed by another.
    void link(std::uint32_t half, std::uint32_t following)
    {
        next_[half] = following;
        before_[following] = half;
    }
    /// An edge goes from between its neighbours.
    void unlink(std::uint32_t half)
    {
        for (std::uint32_t side : {half, half ^ 1})
            if (before_[side] != (side ^ 1))
                link(before_[side], next_[side ^ 1]);
        is_gone_[half / 2] = true;
    }

    /// A ring becomes the outer loop of a face of its own.
    void ring_out(Node &ring)
    {
        std::uint32_t &spare = ring_faces_[ring.loop];
        spare = spare != 0 ? spare : spares_.face();
        step({Operator::mfkrh, {ring.loop, spare}}, {Operator::kfmrh, {ring.face, spare}});
        ring.face = spare;
    }

    /// The edge of a half-edge goes. What makes it again begins where that starts: of a second one that is where it ends, so that a spare one is made first, in
    /// whose place it comes.
    template <class Makes> void edge_out(std::uint32_t half, const Step &takes, Makes makes)
    {
        const std::uint32_t edge = rows_.edges[half / 2].number;
        if (way_ == Way::takes) {
            steps.push_back(takes);
        } else if (half % 2 == 0) {
            steps.push_back(makes(edge));
        } else {
            steps.push_back({Operator::kef, {2 * edge_}});
            steps.push_back({Operator::mef, {2 * edge_ + 1, corner_after(half ^ 1), edge, face_, loop_}});
            steps.push_back(makes(edge_));
        }
        unlink(half);
    }

    /// An edge between two faces of a solid goes, and the face of its second half-edge; where that stays the other one.
    void face_out(std::uint32_t first)
    {
        const std::uint32_t half = is_kept(loop_at(first ^ 1).face) ? first ^ 1 : first;
        Node &stays = loop_at(half), &goes = loop_at(half ^ 1);
        claim(stays.solid == goes.solid);
        require_kind(!is_kept(goes.face));
        edge_out(half, {Operator::kef, {number(half)}},
                 [&](std::uint32_t edge) { return Step{Operator::mef, {corner_after(half ^ 1), corner_after(half), edge, goes.face, goes.loop}}; });
        goes.parent = stays.parent;
    }

    /// An edge goes whose half-edge ends at a leaf.
    void leaf_out(std::uint32_t half)
    {
        const std::uint32_t leaf = starts_[half ^ 1];
        meet(leaf);
        edge_out(half, {Operator::kev, {number(half)}}, [&](std::uint32_t edge) { return mev(corner_after(half ^ 1), edge, leaf); });
    }

    /// The last edge of a part goes: the vertex at which it starts is left.
    void last_out(std::uint32_t first)
    {
        const Node &loop = loop_at(first);
        put_root(loop, starts_[first]);
        meet(starts_[first + 1]);
        step({Operator::kev, {number(first)}}, mev(GWB_LONE(loop.loop), number(first) / 2, starts_[first + 1]));
        is_gone_[first / 2] = true;
    }

    /// The edge of a half-edge goes where that ends at a leaf, and so on back.
    void twig_out(std::uint32_t half)
    {
        while (!is_gone_[half / 2] && !is_rim_[half / 2] && next_[half] == (half ^ 1)) {
            const std::uint32_t before = before_[half];
            if (before == (half ^ 1))
                last_out(half & ~std::uint32_t{1});
            else
                leaf_out(half);
            half = before;
        }
    }

    /// Edges between two faces go.
    void faces_out()
    {
        for (std::uint32_t edge : left_)
            if (&loop_at(2 * edge) != &loop_at(2 * edge + 1))
                face_out(2 * edge);
    }
    /// Edges with a leaf at one end go, and those that have one then.
    void twigs_out()
    {
        for (std::uint32_t half : tree_)
            twig_out(half);
        for (std::uint32_t edge : kept_ == nullptr ? left_ : std::vector<std::uint32_t>()) {
            twig_out(2 * edge);
            twig_out(2 * edge + 1);
        }
    }
    void edges_out()
    {
        faces_out();
        twigs_out();
        left_ = filtered(left_, [&](std::uint32_t edge) { return !is_gone_[edge]; });
        if (!left_.empty())
            handles_out();
    }

    // ---- handles

    /// The half-edge behind which the shorter of the two parts lies into which an edge cuts its loop.
    [[nodiscard]] std::uint32_t before_shorter(std::uint32_t first) const
    {
        std::uint32_t one = next_[first], other = next_[first + 1];
        for (; one != first + 1 && other != first; other = next_[other])
            one = next_[one];
        return one == first + 1 ? first : first + 1;
    }

    /// An edge with one loop on both sides goes, and what lies behind it is the loop of a spare face: in a part what is no outline that its face keeps. It
    /// takes as long as the shorter of both parts.
    void handle_out(std::uint32_t first)
    {
        const Node whole = loop_at(first);
        const std::uint32_t cut = before_shorter(first), made = put_node(whole), spare = spares_.loop();
        bool is_own = false;
        for (std::uint32_t at = next_[cut]; at != (cut ^ 1); at = next_[at]) {
            node_[at] = made;
            is_own = is_own || is_of_outline(at, whole.face);
        }
        const std::uint32_t half = kept_ == nullptr ? first : is_own ? cut ^ 1 : cut;
        edge_out(half, {Operator::kemr, {number(half), spare}},
                 [&](std::uint32_t edge) { return Step{Operator::mekr, {corner_after(half ^ 1), corner_after(half), edge}}; });
        Node &ring = nodes_[cut == half ? made : whole.parent];
        ring.loop = spare;
        ring_out(ring);
    }
    /// Whether a half-edge is of the outline of a face in both parts.
    [[nodiscard]] bool is_of_outline(std::uint32_t half, std::uint32_t face) const
    {
        const std::uint32_t *found = kept_ != nullptr ? exact::look_up(kept_->outlines, number(half)) : nullptr;
        return found != nullptr && *found == face;
    }

    /// The places of half-edges in the loops of all edges left.
    [[nodiscard]] std::vector<std::uint32_t> places_round() const
    {
        std::vector<std::uint32_t> places(starts_.size(), none);
        for (std::uint32_t left = 0; left < 2 * left_.size(); left++)
            for (std::uint32_t at = 2 * left_[left / 2] + left % 2, place = 0; places[at] == none; at = next_[at])
                places[at] = place++;
        return places;
    }

    /// Of the edges left, those first that cut little off, as the model is made the faster then, one goes that opens a handle, then one that the two loops
    /// have between them, and so on; and those that have a leaf then.
    void handles_out()
    {
        const std::vector<std::uint32_t> places = places_round();
        auto reaches = mapped(left_, [&](std::uint32_t edge) {
            const auto [least, most] = std::minmax(places[2 * edge], places[2 * edge + 1]);
            return std::tuple(is_of_tree_[edge], most - least, edge);
        });
        std::sort(reaches.begin(), reaches.end());
        for (auto [is_of_tree, reach, edge] : reaches)
            if (!is_gone_[edge])
                last_edge_out(2 * edge);
    }
    void last_edge_out(std::uint32_t first)
    {
        const std::array<std::uint32_t, 2> before = {before_[first], before_[first + 1]};
        if (&loop_at(first) == &loop_at(first + 1))
            handle_out(first);
        else
            face_out(first);
        std::for_each(before.begin(), before.end(), [&](std::uint32_t half) { twig_out(half); });
    }

    // ---- faces that are left

    /// A face of one vertex goes: it grew from a corner of another one, by an edge that was cut again.
    void root_out(const Root &root, std::uint32_t face, std::uint32_t corner)
    {
        require_kind(!is_kept(root.face));
        step({Operator::kfmrh, {face, root.face}}, {Operator::mfkrh, {root.loop, root.face}});
        step({Operator::mekr, {corner, GWB_LONE(root.loop), edge_}}, {Operator::kemr, {2 * edge_, root.loop}});
        step({Operator::kev, {2 * edge_}}, mev(corner, edge_, root.vertex));
    }

    /// Half-edges of the rim that follow each other are the outline of a face by now, into which the faces of one vertex go.
    void cores_out()
    {
        std::vector<bool> is_seen(starts_.size());
        for (std::uint32_t first = 0; first < starts_.size(); first++)
            if (node_[first] != none && is_rim_[first / 2] && !is_seen[first] && !has(kept_->rings, loop_at(first).loop)) {
                std::vector<std::uint32_t> outline;
                for (std::uint32_t at = first; !is_seen[at]; at = next_[at]) {
                    is_seen[at] = true;
                    outline.push_back(number(at));
                }
                const Node &loop = loop_at(first); // (numbers rise by places, so that the least one is the first)
                cores.emplace(std::move(outline), Core{loop.face, loop.loop, rows_.vertices[starts_[first]].point});
            }
        require_kind(!cores.empty());
        const auto &[outline, core] = *cores.begin();
        for (const Root &root : roots_)
            root_out(root, core.face, first_of(HalfEdge(outline[0])).code());
    }

    /// All but the first of a solid go, from this place of `roots_` on, then the solid: where the next one begins.
    std::size_t solid_out(std::size_t at)
    {
        const Root stays = roots_[at];
        for (at++; at < roots_.size() && roots_[at].solid == stays.solid; at++)
            root_out(roots_[at], stays.face, GWB_LONE(stays.loop));
        const auto &[vertex, point] = rows_.vertices[stays.vertex];
        step({Operator::kvfs, {stays.solid}}, {Operator::mvfs, {stays.solid, stays.face, stays.loop, vertex}, point});
        return at;
    }
    void solids_out()
    {
        const auto key = [](const Root &root) { return std::pair(root.solid, root.face); };
        std::sort(roots_.begin(), roots_.end(), [&](const Root &one, const Root &other) { return key(one) < key(other); });
        std::size_t solids = 0;
        for (std::size_t at = 0; at < roots_.size(); solids++)
            at = solid_out(at);
        claim(solids == rows_.solids.size());
    }

    const Rows &rows_;
    Way way_;
    Spares &spares_;
    RingFaces &ring_faces_;
    const Kept *kept_;
    std::uint32_t face_, loop_, edge_; ///< spare ones for what is gone again at once
    std::vector<std::uint32_t> starts_, next_, before_, node_; ///< of each half-edge
    std::vector<bool> is_rim_, is_of_tree_, is_gone_, is_met_; ///< of each edge, and of each vertex
    std::vector<std::uint32_t> halves_, left_, tree_;          ///< half-edges by their faces; edges that aren't gone and don't stay; of a part its trees
    std::vector<Node> nodes_;
    std::vector<Root> roots_;
};

gwb_kind give(gwb *g, const Step &step)
{
    const auto &of = step.of;
    const gwb_point &at = step.point;
    switch (step.name) {
    case Operator::mvfs: return gwb_mvfs(g, of[0], of[1], of[2], of[3], at.x, at.y, at.z);
    case Operator::kvfs: return gwb_kvfs(g, of[0]);
    case Operator::mev: return gwb_mev(g, of[0], of[0], of[1], of[2], at.x, at.y, at.z);
    case Operator::kev: return gwb_kev(g, of[0]);
    case Operator::mef: return gwb_mef(g, of[0], of[1], of[2], of[3], of[4]);
    case Operator::kef: return gwb_kef(g, of[0]);
    case Operator::mekr: return gwb_mekr(g, of[0], of[1], of[2]);
    case Operator::kemr: return gwb_kemr(g, of[0], of[1]);
    case Operator::kfmrh: return gwb_kfmrh(g, of[0], of[1]);
    case Operator::mfkrh: return gwb_mfkrh(g, of[0], of[1]);
    default: return gwb_ringmv(g, of[0], of[1], 0);
    }
}

/// How many steps are made for each time that the caller is asked whether to stop.
constexpr std::size_t steps_a_stop = 64;

void give(gwb *g, const Steps &steps)
{
    for (std::size_t at = 0; at < steps.size(); at++) {
        if (at % steps_a_stop == 0 && is_stopped(g))
            throw EndedByCaller();
        const gwb_kind kind = give(g, steps[at]);
        gwb_refusal why{};
        if (kind == GWB_REFUSED && gwb_last_refusal(g, &why) == GWB_FOUND)
            throw Failure{Problem::refused, why.number, why.value};
        if (kind != GWB_OK)
            throw std::bad_alloc();
    }
}

/// The steps that make rows, or take them away.
Steps whole(const gwb *g, const Rows &rows, Way way)
{
    Spares spares(g, rows);
    RingFaces ring_faces;
    Steps steps = Apart(spares, rows, way, ring_faces).steps;
    if (way == Way::makes)
        std::reverse(steps.begin(), steps.end());
    return steps;
}

// ---- faces that get other numbers

/// Gives a face with an outline, and its loop, other numbers: a new one takes all of the loop but a spur, which goes with the rest.
void rename(std::uint32_t half, const gwb_point &at, std::uint32_t face, std::uint32_t loop, Spares &spares, Steps &steps)
{
    const std::uint32_t corner = first_of(HalfEdge(half)).code(), spur = spares.edge(), across = spares.edge();
    steps.push_back({Operator::mev, {corner, spur, spares.vertex()}, at});
    steps.push_back({Operator::mef, {corner, 2 * spur + 1, across, face, loop}});
    steps.push_back({Operator::kef, {2 * across + 1}});
    steps.push_back({Operator::kev, {2 * spur}});
}

/// What gives the faces of the outlines the numbers that they are to have, by spare ones where others are to have theirs.
Steps renamings(const Cores &old, const Cores &made, const Kept &kept, Spares &spares)
{
    std::set<std::uint32_t> faces, loops;
    for (const auto &[outline, core] : made)
        faces.insert(core.face), loops.insert(core.loop);
    Steps first, last;
    for (const auto &[outline, core] : old) {
        const Core *other = exact::look_up(made, outline);
        require_kind(other != nullptr);
        if (core.face == other->face && core.loop == other->loop)
            continue;
        require_kind(!has(kept.faces, core.face) && !has(kept.faces, other->face));
        if (faces.count(core.face) + loops.count(core.loop) != 0)
            rename(outline[0], core.point, spares.face(), spares.loop(), spares, first);
        rename(outline[0], core.point, other->face, other->loop, spares, last);
    }
    require_kind(old.size() == made.size());
    append(first, last);
    return first;
}

} // namespace

std::optional<Steps> between(const gwb *g, const Rows &old, const Rows &made, const Kept &kept)
{
    try {
        Spares spares(g, made);
        RingFaces ring_faces;
        Apart takes(spares, old, Way::takes, ring_faces, &kept);
        const Apart makes(spares, made, Way::makes, ring_faces, &kept);
        append(takes.steps, renamings(takes.cores, makes.cores, kept, spares));
        takes.steps.insert(takes.steps.end(), makes.steps.rbegin(), makes.steps.rend());
        return std::move(takes.steps);
    } catch (const OtherKind &) {
        return std::nullopt;
    }
}

void give(Bench &bench, const Steps &steps)
{
    try {
        give(bench.handle(), steps);
    } catch (const Failure &failure) {
        Failing::failed<void>("", failure);
    }
}

void make(gwb *g, const Rows &rows) { give(g, whole(g, rows, Way::makes)); }
void make(Bench &bench, const Rows &rows) { give(bench, whole(bench.handle(), rows, Way::makes)); }
void take_away(Bench &bench, const Rows &rows) { give(bench, whole(bench.handle(), rows, Way::takes)); }

} // namespace gwb_session::rows
