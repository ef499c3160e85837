// The same by CGAL's Euler operators, where its headers are (Debian: libcgal-dev). CGAL has neither undo nor refusals, and no operator
// that cuts a block in two.
#include "library.h"
#if __has_include(<CGAL/Polyhedron_3.h>)
#include <CGAL/Polyhedron_3.h>
#include <CGAL/Simple_cartesian.h>

namespace {

using Kernel = CGAL::Simple_cartesian<double>;
using Point = Kernel::Point_3;
using Polyhedron = CGAL::Polyhedron_3<Kernel>;
using Half = Polyhedron::Halfedge_handle;

Polyhedron first, others;
Half divided, drawn[ITEMS], cut[ITEMS], before_drawn;

// The cube of CGAL's manual: a tetrahedron, three of whose edges are split, then two facets, with an edge split between.
Half cube(Polyhedron &blocks, double x)
{
    Half h = blocks.make_tetrahedron(Point(x + 4, 0, 0), Point(x, 0, 4), Point(x, 0, 0), Point(x, 4, 0));
    Half g = h->next()->opposite()->next();
    blocks.split_edge(h->next());
    blocks.split_edge(g->next());
    blocks.split_edge(g);
    h->next()->vertex()->point() = Point(x + 4, 0, 4);
    g->next()->vertex()->point() = Point(x, 4, 4);
    g->opposite()->vertex()->point() = Point(x + 4, 4, 0);
    Half f = blocks.split_facet(g->next(), g->next()->next()->next());
    Half e = blocks.split_edge(f);
    e->vertex()->point() = Point(x + 4, 4, 4);
    blocks.split_facet(e, f->next()->next());
    return h;
}

bool begin()
{
    divided = cube(first, 0);
    return true;
}

// A vertex in an edge where it starts, and an edge that leads there.
bool mev(std::uint32_t i)
{
    drawn[i] = first.split_edge(divided);
    drawn[i]->vertex()->point() = Point(i, 0, 9);
    return true;
}

// A triangle cut off the face in which the drawn edges lie, from where the first of them starts.
bool mef(std::uint32_t i)
{
    if (i == 0)
        before_drawn = drawn[0]->prev();
    cut[i] = first.split_facet(before_drawn, i + 1 < ITEMS ? drawn[i + 1] : i + 1 == ITEMS ? divided : divided->next());
    return true;
}

bool kef(std::uint32_t i)
{
    first.join_facet(cut[i]);
    return true;
}

bool kev(std::uint32_t i)
{
    first.join_vertex(drawn[i]->opposite());
    return true;
}

bool block(std::uint32_t i)
{
    cube(others, static_cast<double>(block_place(i)));
    return true;
}

void restore()
{
    others.clear();
}

} // namespace

const struct way cgal_way = {"CGAL " CGAL_VERSION_STR, begin, restore, mev, mef, kef, kev, block, nullptr, nullptr, nullptr, nullptr, nullptr, nullptr, nullptr,
                             nullptr};
#else
const struct way cgal_way = {};
#endif
