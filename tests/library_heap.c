/* Heaps of a session's own (gwb_use_heap, gwb_open_in): a pool for each of two sessions. All blocks of a session lie in its pool and are
 * given back to it, also by calls that come while another heap is used, or from another thread; where a pool is full, memory is refused and
 * the session goes on, and a part is told its first false condition before. Drafts end, and undo, redo and questions are answered, without
 * memory. The last line is 'N passed, M failed'. */
#include "checks.h"
#include "gwb_names.h"
#include "heaps.h"
#include <pthread.h>
#include <stdio.h>
#include <stdlib.h>
#include <string.h>

static void try_two(void)
{
    struct requests first = {0}, second = {0};
    gwb_heap one = heap_of(&first), other = heap_of(&second);
    gwb g = {0}, h = {0}, plain = {0};
    check(gwb_use_heap(&one) == NULL && gwb_open(&g) && gwb_block(&g, 1, 0, 0, 0, 4, 4, 4) == GWB_OK, "a session in the first pool");
    check(gwb_use_heap(&other) == &one && gwb_open(&h) && gwb_block(&h, 1, 0, 0, 0, 4, 4, 4) == GWB_OK, "one in the second");
    check(first.live > 0 && second.live > 0, "blocks in both");
    check(gwb_use_heap(NULL) == &other && gwb_open(&plain), "one in neither");
    check(gwb_split(&g, 1, 0, 0, 1, -2, 2) == GWB_OK && gwb_split(&h, 1, 0, 0, 1, -2, 2) == GWB_OK, "commands while neither is in use");
    gwb_close(&h), gwb_close(&g), gwb_close(&plain);
    check(first.live == 0 && second.live == 0, "each block went back to where it came from");
}

/* Every call that takes memory, one after another. */
static bool give_all(gwb *g)
{
    static const gwb_point corners[] = {{2, 2, 4}, {3, 2, 4}, {3, 3, 4}};
    static const char *const lines[] = {"lamina 5 0 0 9 3 0 9 0 3 9", "sweep 7 0 0 1", "count 5", "list", "undo", "redo"};
    char text[4096];
    gwb_plane plane;
    gwb_wide volume;
    gwb_counts counts;
    bool is_well = gwb_block(g, 1, 0, 0, 0, 4, 4, 4) == GWB_OK;
    for (size_t i = 0; i < sizeof lines / sizeof *lines; i++)
        is_well = is_well && gwb_succeeded(gwb_line(g, lines[i], strlen(lines[i]))) && gwb_reply(g, text, sizeof text) <= sizeof text;
    is_well = is_well && gwb_draft(g) == GWB_OK && gwb_lamina(g, 6, corners, 3) == GWB_OK && gwb_merge(g, 1, 6) == GWB_OK;
    is_well = is_well && gwb_mev(g, gwb_plus(1), gwb_plus(1), 90, 90, 9, 9, 9) == GWB_OK && gwb_kemr(g, gwb_plus(90), 90) == GWB_OK;
    is_well = is_well && gwb_mfkrh(g, 90, 90) == GWB_OK && gwb_kfmrh(g, 1, 90) == GWB_OK && gwb_ringmv(g, 90, 2, 0) == GWB_OK;
    is_well = is_well && gwb_ringmv(g, 90, 1, 0) == GWB_OK && gwb_mekr(g, gwb_plus(9), gwb_lone(90), 91) == GWB_OK && gwb_kev(g, gwb_plus(91)) == GWB_OK && gwb_commit(g) == GWB_OK;
    is_well = is_well && gwb_block(g, 8, 20, 0, 0, 4, 4, 4) == GWB_OK && gwb_split(g, 8, 0, 0, 1, -2, 9) == GWB_OK;
    is_well = is_well && gwb_face_plane(g, 1, &plane) == GWB_PLANE && gwb_volume(g, 8, &volume) == GWB_VOLUME && gwb_count(g, 8, &counts) == GWB_COUNT;
    is_well = is_well && gwb_read_listing(g, text, sizeof text) <= sizeof text;
    return is_well && gwb_mvfs(g, 70, 70, 70, 70, 1, 1, 1) == GWB_OK && gwb_kvfs(g, 70) == GWB_OK;
}

static void *give_in_thread(void *g) { return give_all(g) ? g : NULL; }

/* All that a session takes is of the heap in which it was opened, which another thread uses no more. */
static void try_own(void)
{
    struct requests own = {0}, other = {.first_refused = 1, .refused = LONG_MAX};
    gwb_heap heap = heap_of(&own), full = heap_of(&other);
    gwb g = {0}, h = {0};
    pthread_t thread;
    void *given = NULL;
    check(gwb_open_in(&g, &heap) && gwb_open_in(&h, &heap) && gwb_use_heap(&full) == NULL, "two sessions in a heap");
    check(give_all(&g), "calls while another heap is used, which is full");
    check(pthread_create(&thread, NULL, give_in_thread, &h) == 0 && pthread_join(thread, &given) == 0 && given == &h, "and from another thread");
    check(other.made == 0 && gwb_use_heap(NULL) == &full, "nothing was asked of it");
    gwb_close(&g), gwb_close(&h);
    check(own.live == 0, "each block went back");
}

/* Refuses each request of a session in its turn. */
static void try_full(void)
{
    bool is_done = false, is_well = true;
    for (long most = 0; !is_done; most++) {
        struct requests pool = {.first_refused = most + 1, .refused = LONG_MAX};
        gwb_heap heap = heap_of(&pool);
        gwb g = {0};
        gwb_use_heap(&heap);
        bool is_open = gwb_open(&g);
        enum gwb_kind block = is_open ? gwb_block(&g, 1, 0, 0, 0, 4, 4, 4) : GWB_CLOSED;
        is_done = block == GWB_OK;
        is_well = is_well && (is_open ? is_done || block == GWB_MEMORY : !gwb_is_open(&g)) && (!is_open || gwb_depth(&g) == (is_done ? 1 : 0));
        refuse(&pool, 1, 0);
        is_well = is_well && (is_open || gwb_open(&g)) && (is_done || gwb_block(&g, 1, 0, 0, 0, 4, 4, 4) == GWB_OK);
        gwb_close(&g);
        is_well = is_well && pool.live == 0;
    }
    gwb_use_heap(NULL);
    check(is_well, "a pool that is full refuses, and the session goes on");
}

/* A new solid of 66 faces: a prism over 64 points of a parabola. */
static bool has_prism(gwb *g, uint32_t solid, int64_t x)
{
    gwb_point points[64];
    uint32_t front = 0, back = 0;
    for (int64_t i = 0; i < 64; i++)
        points[i] = (gwb_point){x + i, i * i, 0};
    return gwb_lamina(g, solid, points, 64) == GWB_OK && gwb_last_lamina(g, &front, &back) == GWB_FOUND && gwb_sweep(g, front, 0, 0, 5) == GWB_OK;
}

/* Parts off the faces from 1 to n while the pool is full. */
static enum gwb_kind part_without(gwb *g, struct requests *pool, uint32_t n, uint32_t solid)
{
    uint32_t faces[4000];
    for (uint32_t i = 0; i < n; i++)
        faces[i] = i + 1;
    refuse(pool, 1, LONG_MAX);
    enum gwb_kind kind = gwb_part(g, faces, n, solid);
    refuse(pool, 1, 0);
    return kind;
}

static bool is_refused(gwb *g, struct requests *pool, uint32_t n, uint32_t solid, enum gwb_why why, uint32_t value)
{
    gwb_refusal refusal = {0, 0};
    bool is_told = part_without(g, pool, n, solid) == GWB_REFUSED && gwb_last_refusal(g, &refusal) == GWB_FOUND;
    return is_told && refusal.number == why && refusal.value == value;
}

/* Faces that are parted off without memory for their list: the first false condition is named, as with memory; if none is false, it is memory. */
static void try_part(void)
{
    struct requests pool = {0};
    gwb_heap heap = heap_of(&pool);
    gwb g = {0};
    check(gwb_open_in(&g, &heap) && has_prism(&g, 1, 0) && has_prism(&g, 2, 100), "two solids of 66 faces");
    check(is_refused(&g, &pool, 4000, 0, GWB_WHY_NUMBER_RANGE, 0), "a number out of its range, without memory");
    check(is_refused(&g, &pool, 4000, 1, GWB_WHY_SOLID_TAKEN, 1), "a number that is taken");
    check(is_refused(&g, &pool, 4000, 3, GWB_WHY_NO_FACE, 133), "a face that isn't there");
    check(is_refused(&g, &pool, 132, 3, GWB_WHY_DIFFERENT_SOLIDS, 67), "faces of two solids");
    check(is_refused(&g, &pool, 66, 3, GWB_WHY_BAD_PART, 1), "all faces of the solid");
    check(is_refused(&g, &pool, 65, 3, GWB_WHY_BAD_PART, 1), "faces with an edge to another");
    check(gwb_merge(&g, 1, 2) == GWB_OK && part_without(&g, &pool, 66, 2) == GWB_MEMORY && gwb_depth(&g) == 5, "faces that could go, without memory");
    check(part_without(&g, &pool, 4000, 1) == GWB_REFUSED && gwb_depth(&g) == 5, "nothing has changed");
    gwb_close(&g);
    check(pool.live == 0, "each block of theirs went back");
}

/* Ending a draft, going back in it, undo, redo and questions ask for no memory, be it recorded and watched or not. */
static void try_without(bool is_followed)
{
    struct requests pool = {0};
    gwb_heap heap = heap_of(&pool);
    gwb g = {0};
    check(gwb_open_in(&g, &heap) && (!is_followed || (gwb_record(&g) == GWB_OK && gwb_watch(&g, true) == GWB_OK)), "a session");
    for (int way = 0; way < 2; way++) {
        check(gwb_draft(&g) == GWB_OK && gwb_block(&g, 1, 0, 0, 0, 4, 4, 4) == GWB_OK && gwb_split(&g, 1, 0, 0, 1, -2, 2) == GWB_OK, "steps");
        const long made = pool.made;
        check(gwb_back(&g, 20) == GWB_OK && gwb_back(&g, 13) == GWB_OK && pool.made == made, "going back asks for memory");
        check((way == 0 ? gwb_abandon(&g) : gwb_commit(&g)) == GWB_OK && pool.made == made, "ending a draft asks for memory");
    }
    const long made = pool.made;
    gwb_plane plane;
    gwb_wide volume;
    gwb_counts counts;
    check(gwb_undo(&g) == GWB_OK && gwb_redo(&g) == GWB_OK && pool.made == made, "undo or redo asks for memory");
    check(gwb_face_plane(&g, 1, &plane) == GWB_PLANE && gwb_volume(&g, 1, &volume) == GWB_VOLUME && gwb_count(&g, 1, &counts) == GWB_COUNT &&
              gwb_line(&g, "undo", 4) == GWB_OK && gwb_line(&g, "redo", 4) == GWB_OK && gwb_line(&g, "volume 1", 8) == GWB_VOLUME && pool.made == made,
          "a question or a line asks for memory");
    gwb_close(&g);
    check(pool.live == 0, "each block of a draft went back");
}

int main(void)
{
    try_without(false);
    try_without(true);
    try_two();
    try_own();
    try_full();
    try_part();
    return counted();
}
