#include "untouched.hpp"

namespace gwb_session::untouched {

namespace {

SmallBox box_of(const Surface &surface, const std::vector<Loop> &loops)
{
    SmallBox found = surface.box(loops[0]);
    for (Loop loop : loops)
        found.take(surface.box(loop));
    return found;
}

/// The faces whose boxes meet those of other solids, or that have a loop which is wanted: of each solid by their places.
std::vector<std::vector<bool>> faces_met(const std::vector<NearSolid> &solids, const std::set<Loop> &wanted)
{
    std::vector<std::vector<bool>> found;
    std::vector<SmallBox> boxes;
    std::vector<std::uint32_t> owners, firsts;
    for (const NearSolid &solid : solids) {
        go_on();
        firsts.push_back(static_cast<std::uint32_t>(boxes.size()));
        for (const auto &[face, loops] : solid.faces)
            boxes.push_back(box_of(*solid.surface, loops));
        owners.resize(boxes.size(), static_cast<std::uint32_t>(found.size()));
        found.push_back(mapped(solid.faces, [&](const auto &near) { return any(near.second, [&](Loop loop) { return wanted.count(loop) != 0; }); }));
    }
    for (const auto &pair : pairs_meeting(boxes, owners))
        for (std::uint32_t at : pair)
            found[owners[at]][at - firsts[owners[at]]] = true;
    return found;
}

/// The faces of a solid near others that meet none of theirs, as many as hang together at once.
class Untouched {
public:
    Untouched(const Bench &bench, const NearSolid &solid, const std::vector<bool> &met, Alike &found)
        : bench_(bench), faces_(solid.faces), met_(met), is_seen_(met), found_(found)
    {
        for (std::size_t at = 0; at < faces_.size(); at++)
            if (!is_seen_[at])
                put_alike(at);
    }

private:
    /// Puts in the faces that hang together with one by edges of loops that are near.
    void put_alike(std::size_t first)
    {
        is_seen_[first] = true;
        const Vector corner = start_of(bench_, *bench_.half_edges(faces_[first].second[0]).begin());
        std::vector<std::size_t> places = {first};
        for (std::size_t at = 0; at < places.size(); at++) {
            go_on();
            for (Loop loop : faces_[places[at]].second)
                for (HalfEdge half : bench_.around(loop))
                    pass(half, corner, places);
        }
        auto faces = mapped(places, [&](std::size_t at) { return faces_[at].first; });
        faces.erase(faces.begin());
        append(found_.others, faces);
        found_.of.emplace_back(faces_[first].first, std::move(faces));
    }
    void pass(HalfEdge half, const Vector &corner, std::vector<std::size_t> &places)
    {
        const std::size_t beside = place_of(faces_, bench_.face_of(half.twin()).number());
        if (beside == faces_.size())
            return;
        if (met_[beside])
            found_.behind.emplace(half.edge(), corner);
        else if (!is_seen_[beside]) {
            is_seen_[beside] = true;
            places.push_back(beside);
        }
    }

    const Bench &bench_;
    const NearFaces &faces_;
    const std::vector<bool> &met_;
    std::vector<bool> is_seen_;
    Alike &found_;
};

} // namespace

Alike faces_alike(const Bench &bench, const std::vector<NearSolid> &solids, const std::set<Loop> &wanted)
{
    const std::vector<std::vector<bool>> met = faces_met(solids, wanted);
    Alike found;
    for (std::size_t at = 0; at < solids.size(); at++)
        if (solids[at].stays)
            Untouched(bench, solids[at], met[at], found);
    make_rise(found.others);
    return found;
}

} // namespace gwb_session::untouched
