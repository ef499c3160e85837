/* A block is made, measured, cut in two and put back, its faces are walked by readers, and two operators become one command. */
#include "gwb.h"
#include "gwb_names.h"
#include <inttypes.h>
#include <stdio.h>
#include <stdlib.h>

/* Prints how a command was answered: by the name of the condition where it was refused. */
static void say(const gwb *g, const char *command, enum gwb_kind kind)
{
    gwb_refusal refusal;
    if (kind == GWB_OK)
        printf("%s: ok\n", command);
    else if (kind == GWB_REFUSED && gwb_last_refusal(g, &refusal) == GWB_FOUND)
        printf("%s: %s %" PRIu32 "\n", command, gwb_why_name(refusal.number), refusal.value);
    else {
        fprintf(stderr, "%s: %s\n", command, gwb_kind_text(kind));
        exit(1);
    }
}

/* The place of the least of some numbers. */
static size_t place_of_least(const uint32_t *numbers, size_t count)
{
    size_t least = 0;
    for (size_t i = 1; i < count; i++)
        if (numbers[i] < numbers[least])
            least = i;
    return least;
}

/* Prints the half-edges of a loop, or its one vertex: from the least on, where there is room for all. */
static void print_loop(const gwb *g, uint32_t loop)
{
    uint32_t vertex, half_edges[64];
    size_t room = sizeof half_edges / sizeof *half_edges, count = gwb_half_edges(g, loop, half_edges, room);
    size_t first = count > room ? 0 : place_of_least(half_edges, count);
    printf("  loop %" PRIu32, loop);
    if (gwb_lone_vertex(g, loop, &vertex) == GWB_FOUND)
        printf(" at %" PRIu32, vertex);
    for (size_t i = 0; i < count && i < room; i++) {
        uint32_t half_edge = half_edges[(first + i) % count];
        printf(" %c%" PRIu32, half_edge % 2 == 0 ? '+' : '-', half_edge / 2);
    }
    if (count > room)
        printf(" and %zu more", count - room);
    printf("\n");
}

/* Prints the faces of a solid with their loops. */
static void print_faces(const gwb *g, uint32_t solid)
{
    for (uint32_t face = 0; gwb_face_after(g, solid, face, &face) == GWB_FOUND;) {
        gwb_face_row row;
        gwb_face(g, face, &row);
        printf("face %" PRIu32 " of solid %" PRIu32 "\n", face, row.solid);
        print_loop(g, row.outer_loop);
        for (uint32_t ring = 0; gwb_ring_after(g, face, ring, &ring) == GWB_FOUND;)
            print_loop(g, ring);
    }
}

/* A number that fits in 64 bits. */
static int64_t narrow(gwb_wide number)
{
    return (int64_t)number.low;
}

/* Prints the volume of a solid. */
static void print_volume(gwb *g, uint32_t solid)
{
    gwb_wide six;
    if (gwb_volume(g, solid, &six) == GWB_VOLUME)
        printf("the volume of solid %" PRIu32 " is %" PRId64 "\n", solid, narrow(six) / 6);
}

/* Prints the plane of a face. */
static void print_plane(gwb *g, uint32_t face)
{
    gwb_plane plane;
    if (gwb_face_plane(g, face, &plane) == GWB_PLANE)
        printf("on face %" PRIu32 " %" PRId64 " x + %" PRId64 " y + %" PRId64 " z + %" PRId64 " is 0, and the face is %s\n", face,
               narrow(plane.a), narrow(plane.b), narrow(plane.c), narrow(plane.d), plane.flat ? "flat" : "bent");
}

/* Prints the highest vertex, and how many there are. */
static void print_vertices(const gwb *g)
{
    uint32_t count = 0, highest = 0;
    gwb_point point, top = {0, 0, INT64_MIN};
    for (uint32_t vertex = 0; gwb_number_after(g, GWB_VERTEX, vertex, &vertex) == GWB_FOUND; count++)
        if (gwb_vertex(g, vertex, &point) == GWB_FOUND && point.z > top.z) {
            top = point;
            highest = vertex;
        }
    printf("%" PRIu32 " vertices; the first of the highest is %" PRIu32 " at %" PRId64 " %" PRId64 " %" PRId64 "\n",
           count, highest, top.x, top.y, top.z);
}

/* Prints the faces on both sides of an edge. */
static void print_sides(const gwb *g, uint32_t edge)
{
    uint32_t sides[2] = {gwb_plus(edge), gwb_minus(edge)}, loop, face;
    printf("edge %" PRIu32 " is between the faces", edge);
    for (size_t i = 0; i < 2; i++)
        if (gwb_half_edge_loop(g, sides[i], &loop) == GWB_FOUND && gwb_loop(g, loop, &face) == GWB_FOUND)
            printf(" %" PRIu32, face);
    printf("\n");
}

/* Two operators as one command: an edge to the middle of face 1, which is cut off again, so that its end is a ring. */
static void add_ring(gwb *g)
{
    say(g, "draft", gwb_draft(g));
    say(g, "mev", gwb_mev(g, gwb_plus(9), gwb_plus(9), 14, 10, 2, 2, 4));
    say(g, "kemr", gwb_kemr(g, gwb_plus(14), 7));
    print_loop(g, 7);
    say(g, "commit", gwb_commit(g));
}

int main(void)
{
    gwb g = {0};
    gwb_range range;
    if (!gwb_open(&g))
        return 1;
    say(&g, "block", gwb_block(&g, 1, 0, 0, 0, 4, 4, 4));
    print_volume(&g, 1);
    say(&g, "split", gwb_split(&g, 1, 0, 0, 1, -2, 2));
    if (gwb_fresh(&g, GWB_FACE, &range) == GWB_FOUND)
        printf("the new faces are from %" PRIu32 " to %" PRIu32 "\n", range.first, range.last);
    print_volume(&g, 1);
    print_volume(&g, 2);
    print_faces(&g, 2);
    print_plane(&g, 15);
    print_vertices(&g);
    say(&g, "kvfs", gwb_kvfs(&g, 2));
    say(&g, "undo", gwb_undo(&g));
    printf("depth %zu, ahead %zu\n", gwb_depth(&g), gwb_ahead(&g));
    print_sides(&g, 7);
    /* an edge stands up from the corner at which the first half-edge of edge 7 starts */
    say(&g, "mev", gwb_mev(&g, gwb_plus(7), gwb_plus(7), 13, 9, 0, 0, 9));
    print_loop(&g, 1);
    add_ring(&g);
    printf("depth %zu\n", gwb_depth(&g));
    gwb_close(&g);
    return gwb_undo(&g) == GWB_CLOSED ? 0 : 1;
}
