/* Four threads that read one handle at once, as gwb.h allows it, and four that each go on with a session that another thread began. It
 * finds wrong values by itself, and what two threads write at once under helgrind. The last line is 'N passed, M failed'. */
#include "gwb.h"
#include <pthread.h>
#include <stdio.h>
#include <stdlib.h>

enum { THREADS = 4 };

static long rounds = 20000;

/* How often the readers of the block said something else than they should. */
static long wrong_reads(const gwb *g)
{
    long wrong = 0;
    gwb_point point;
    gwb_face_row face;
    uint32_t next, back, loop, few[4];
    char text[64], listing[2048];
    gwb_plane plane;
    gwb_wide volume;
    gwb_counts counts;
    gwb_refusal refusal;
    for (long i = 0; i < rounds; i++) {
        wrong += gwb_vertex(g, 5, &point) != GWB_FOUND || point.z != 4;
        wrong += gwb_face(g, 1, &face) != GWB_FOUND || face.outer_loop != 1;
        wrong += gwb_next_half_edge(g, gwb_plus(7), &next) != GWB_FOUND || gwb_previous_half_edge(g, next, &back) != GWB_FOUND ||
                 back != gwb_plus(7);
        wrong += gwb_half_edge_loop(g, next, &loop) != GWB_FOUND || loop != 1;
        wrong += gwb_half_edges(g, 1, few, 4) != 4 || gwb_depth(g) != 1 || gwb_reply(g, text, sizeof text) != 3;
        wrong += gwb_read_plane(g, 1, &plane, &refusal) != GWB_PLANE || plane.flat != 1;
        wrong += gwb_read_volume(g, 1, &volume, &refusal) != GWB_VOLUME || volume.low != 384;
        wrong += gwb_read_counts(g, 1, &counts, &refusal) != GWB_COUNT || counts.edges != 12;
        wrong += gwb_read_volume(g, 9, &volume, &refusal) != GWB_REFUSED || refusal.value != 9;
        wrong += i % 64 == 0 && gwb_read_listing(g, listing, sizeof listing) >= sizeof listing;
    }
    return wrong;
}

static void *read_block(void *g) { return (void *)wrong_reads(g); }

/* Goes on with a session, and closes it. */
static void *end_session(void *handle)
{
    gwb *g = handle;
    long wrong = gwb_undo(g) != GWB_OK || gwb_redo(g) != GWB_OK || gwb_block(g, 2, 9, 9, 9, 1, 1, 1) != GWB_OK || gwb_depth(g) != 2;
    gwb_close(g);
    return (void *)wrong;
}

/* How much is wrong in four threads that run at once, each with its argument. */
static long in_threads(void *(*run)(void *), void *const arguments[THREADS])
{
    pthread_t threads[THREADS];
    long wrong = 0;
    for (int i = 0; i < THREADS; i++)
        wrong += pthread_create(&threads[i], NULL, run, arguments[i]);
    for (int i = 0; i < THREADS; i++) {
        void *found = NULL;
        wrong += pthread_join(threads[i], &found) + (long)found;
    }
    return wrong;
}

int main(int count, char **words)
{
    gwb one = {0}, each[THREADS] = {{0}};
    void *const same[THREADS] = {&one, &one, &one, &one}, *const own[THREADS] = {&each[0], &each[1], &each[2], &each[3]};
    if (count > 1)
        rounds = atol(words[1]);
    bool is_ready = gwb_open(&one) && gwb_block(&one, 1, 0, 0, 0, 4, 4, 4) == GWB_OK;
    for (int i = 0; i < THREADS; i++)
        is_ready = is_ready && gwb_open(&each[i]) && gwb_block(&each[i], 1, 0, 0, 0, 4, 4, 4) == GWB_OK;
    long read = in_threads(read_block, same), moved = in_threads(end_session, own);
    gwb_close(&one);
    int failed = (read != 0) + (moved != 0) + !is_ready;
    printf("%ld wrong reads, %ld sessions that went wrong\n%d passed, %d failed\n", read, moved, 3 - failed, failed);
    return failed != 0;
}
