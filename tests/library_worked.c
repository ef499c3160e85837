/* The calls of the library as they answer a caller who has too little room, too long a line or no session, and what only they tell: the last answer as
 * values, the faces of the last block or lamina, which kinds are answers. What each command does library_typed.c and library_cpp.cpp try, and
 * library_readers.py the readers. The last line counts. */
#include "checks.h"
#include "gwb.h"
#include <stdlib.h>
#include <string.h>

#define HOLDS(condition) check((condition), #condition)
#define COUNT(row) (sizeof(row) / sizeof *(row))

static gwb opened(void)
{
    gwb g = {0};
    HOLDS(gwb_open(&g));
    return g;
}

static uint32_t given(gwb *g, const char *line)
{
    return gwb_line(g, line, strlen(line));
}

/* A block cut in two: solid 2 is its upper part, whose cap is face 15. */
static gwb halved(void)
{
    gwb g = opened();
    HOLDS(given(&g, "block 1 0 0 0 4 4 4") == 1 && given(&g, "split 1 0 0 1 -2 2") == 1);
    return g;
}

static void answers_as_values(void)
{
    gwb g = halved();
    gwb_range faces = {0, 0};
    HOLDS(gwb_fresh(&g, GWB_FACE, &faces) == 1);
    HOLDS(faces.first == 7 && faces.last == 15);
    gwb_wide volume = {7, 7};
    HOLDS(given(&g, "volume 2") == 6);
    HOLDS(gwb_last_volume(&g, &volume) == 1);
    HOLDS(volume.high == 0 && volume.low == 192);
    gwb_plane plane = {{7, 7}, {7, 7}, {7, 7}, {7, 7}, 7};
    HOLDS(gwb_last_plane(&g, &plane) == 0);
    HOLDS(plane.flat == 7);
    HOLDS(given(&g, "plane 15") == 5);
    HOLDS(gwb_last_plane(&g, &plane) == 1);
    HOLDS(plane.a.high == 0 && plane.a.low == 0);
    HOLDS(plane.c.high == -1 && plane.c.low == UINT64_MAX - 31);
    HOLDS(plane.d.high == 0 && plane.d.low == 64);
    HOLDS(plane.flat == 1);
    gwb_refusal refusal = {0, 0};
    HOLDS(given(&g, "kvfs 2") == 2);
    HOLDS(gwb_last_refusal(&g, &refusal) == 1);
    HOLDS(refusal.number == 12 && refusal.value == 2);
    gwb_close(&g);
}

static int rising(const void *left, const void *right)
{
    uint32_t a = *(const uint32_t *)left, b = *(const uint32_t *)right;
    return (a > b) - (a < b);
}

static void too_little_room(void)
{
    gwb g = halved();
    gwb_face_row row = {0, 0};
    HOLDS(gwb_face(&g, 15, &row) == 1);
    HOLDS(row.solid == 2 && row.outer_loop == 15);
    uint32_t few[3] = {7, 7, 7}, many[5] = {7, 7, 7, 7, 7}, all[5] = {43, 45, 47, 49, 7};
    HOLDS(gwb_half_edges(&g, row.outer_loop, few, 3) == 4);
    HOLDS(gwb_half_edges(&g, row.outer_loop, many, 5) == 4);
    HOLDS(memcmp(few, many, sizeof few) == 0);
    qsort(many, 4, sizeof *many, rising);
    HOLDS(memcmp(many, all, sizeof all) == 0);
    HOLDS(gwb_half_edges(&g, 99, few, 3) == 0);
    gwb_half_edge_row one[2] = {{7, 7, 7, 7, 7}, {7, 7, 7, 7, 7}};
    HOLDS(gwb_half_edge_rows(&g, 15, one, 1) == 4);
    HOLDS(one[0].half_edge == few[0] && one[0].next == few[1] && one[0].loop == 15 && one[0].face == 15 && one[1].half_edge == 7);
    gwb_edge_row ends = {0, 0};
    HOLDS(gwb_edge(&g, few[0] / 2, &ends) == 1);
    HOLDS(one[0].start == (few[0] % 2 == 0 ? ends.from : ends.to));
    HOLDS(gwb_half_edge_rows(&g, 99, one, 1) == 0);
    char text[3] = {'.', '.', '.'};
    HOLDS(given(&g, "volume 1") == 6);
    HOLDS(gwb_reply(&g, text, sizeof text) == 11);
    HOLDS(memcmp(text, "vol", 3) == 0);
    gwb_close(&g);
}

/* A line may have 65,536 bytes. */
static void longest_line(void)
{
    static char comment[65537];
    memset(comment, '#', sizeof comment);
    gwb g = opened();
    uint32_t fault = 0;
    HOLDS(gwb_line(&g, comment, 65536) == 0);
    HOLDS(gwb_line(&g, comment, 65537) == 3);
    HOLDS(gwb_last_fault(&g, &fault) == 1);
    HOLDS(fault == 6);
    gwb_close(&g);
}

static void closed_handle(void)
{
    gwb g = opened();
    HOLDS(!gwb_open(&g));
    gwb_close(&g);
    uint32_t number = 7;
    HOLDS(given(&g, "list") == 9);
    HOLDS(gwb_number_after(&g, GWB_SOLID, 0, &number) == 9);
    HOLDS(gwb_last_fault(&g, &number) == 9);
    HOLDS(number == 7);
    HOLDS(gwb_half_edges(&g, 1, &number, 1) == SIZE_MAX);
    HOLDS(number == 7);
    gwb_half_edge_row row = {7, 7, 7, 7, 7};
    HOLDS(gwb_half_edge_rows(&g, 1, &row, 1) == SIZE_MAX);
    HOLDS(row.half_edge == 7);
    HOLDS(gwb_depth(&g) == SIZE_MAX);
    gwb_close(&g);
}

/* The corners of a triangle, and as many points as no polygon has. */
static const gwb_point CORNERS[3] = {{0, 0, 0}, {3, 0, 0}, {0, 3, 0}};
static const gwb_point TOO_MANY[65];

/* Laminas of three points, of two and of too many; the last answer stays where no call was made. */
static void typed_laminas(void)
{
    gwb g = opened();
    HOLDS(gwb_lamina(&g, 1, CORNERS, 3) == 1 && gwb_lamina(&g, 2, CORNERS, 2) == 2 && gwb_lamina(&g, 2, TOO_MANY, 65) == 10);
    gwb_refusal refusal = {0, 0};
    HOLDS(gwb_last_refusal(&g, &refusal) == 1);
    HOLDS(refusal.number == 28 && refusal.value == 2);
    gwb_close(&g);
}

/* Whether a face has this plane, of small numbers. */
static bool lies_on(const gwb *g, uint32_t face, int64_t a, int64_t b, int64_t c, int64_t d)
{
    gwb_plane plane;
    gwb_refusal refusal;
    return gwb_read_plane(g, face, &plane, &refusal) == 5 && (int64_t)plane.a.low == a && (int64_t)plane.b.low == b && (int64_t)plane.c.low == c &&
           (int64_t)plane.d.low == d;
}

/* The faces of the last block and of the last lamina, and what is told of them after another command. */
static void faces_of_the_last(void)
{
    static const gwb_point square[] = {{0, 0, 9}, {2, 0, 9}, {2, 2, 9}, {0, 2, 9}};
    gwb g = opened();
    gwb_block_faces block = {0, 0, {0, 0, 0, 0}};
    uint32_t front = 0, back = 0;
    HOLDS(gwb_last_block(&g, &block) == 0 && gwb_last_lamina(&g, &front, &back) == 0);
    HOLDS(gwb_block(&g, 1, 0, 0, 0, 2, 3, 5) == 1 && gwb_last_block(&g, &block) == 1);
    HOLDS(lies_on(&g, block.top, 0, 0, 12, -60) && lies_on(&g, block.bottom, 0, 0, -12, 0));
    HOLDS(lies_on(&g, block.sides[0], 0, -20, 0, 0) && lies_on(&g, block.sides[1], 30, 0, 0, -60));
    HOLDS(lies_on(&g, block.sides[2], 0, 20, 0, -60) && lies_on(&g, block.sides[3], -30, 0, 0, 0));
    HOLDS(gwb_lamina(&g, 2, square, 4) == 1 && gwb_last_lamina(&g, &front, &back) == 1);
    HOLDS(lies_on(&g, front, 0, 0, 8, -72) && lies_on(&g, back, 0, 0, -8, 72));
    HOLDS(gwb_last_block(&g, &block) == 1 && block.top == front);
    HOLDS(gwb_undo(&g) == 1 && gwb_last_block(&g, &block) == 0 && gwb_last_lamina(&g, &front, &back) == 0);
    gwb_close(&g);
    HOLDS(gwb_last_block(&g, &block) == 9 && gwb_last_lamina(&g, &front, &back) == 9);
}

/* Which kinds are answers that were asked for, and that each has a text. */
static void kinds_of_answers(void)
{
    const bool wanted[] = {true, true, false, false, false, true, true, true, true, false, false, false, false, false, false, false};
    for (unsigned kind = 0; kind < COUNT(wanted); kind++) {
        HOLDS(gwb_succeeded((enum gwb_kind)kind) == wanted[kind]);
        HOLDS((*gwb_kind_text((enum gwb_kind)kind) != '\0') == (kind <= GWB_STOPPED));
    }
}

int main(void)
{
    answers_as_values();
    too_little_room();
    longest_line();
    closed_handle();
    typed_laminas();
    faces_of_the_last();
    kinds_of_answers();
    return counted();
}
