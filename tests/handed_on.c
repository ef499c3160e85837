/* A kernel of stubs under bindings/calls.c, for handed_on.py, which writes stubs.h: each export, and try_all, which gives each call once. */
#include "beside.h"
#include "heap.h"
#include <stdio.h>
#include <stdlib.h>
#include <string.h>

/* What a call is to hand on, and to which export. */
struct wanted {
    const char *name, *export;
    bool is_reader, takes_memory;
    size_t count;
    uint64_t arguments[12];
};

/* What the stubs note of the calls that they get, and what they answer. */
static const char *noted;
static int calls;
static uint64_t given[12];
static gwb seen; /* the handle, as the export got it */
static const gwb *seen_at;
static const gwb_heap *in_heap;
static uint64_t answer;

static char session;                 /* which an open handle holds */
static int64_t room_for[12][64];     /* what pointers lead to */
static const gwb_heap *of_thread;

static void note(const char *name, const gwb *g)
{
    noted = name;
    calls++;
    seen = *g;
    seen_at = g;
    in_heap = gwb_used.heap;
    memset(given, 0, sizeof given);
}

static void *take(void *user, size_t size) { (void)user; return malloc(size); }
static void *take_again(void *user, void *block, size_t size) { (void)user; return realloc(block, size); }
static void give_back(void *user, void *block) { (void)user; free(block); }
static const gwb_heap heap = {take, take_again, give_back, NULL};
void gwb_forget_features(struct beside *of) { (void)of; }

static bool is_same(const gwb *a, const gwb *b) { return a->is_open == b->is_open && a->held == b->held && a->beside == b->beside; }

/* What is wrong after a call for a handle, which was so before, or NULL. */
static const char *wrong(const struct wanted *call, const gwb *g, const gwb *before, uint64_t got)
{
    if (calls == 0 && !before->is_open && got == answer)
        return NULL;
    if (calls != 1)
        return calls == 0 ? "hands on to nothing" : "hands on more than once";
    if (strcmp(noted, call->export) != 0)
        return noted;
    if (memcmp(given, call->arguments, call->count * sizeof *given) != 0)
        return "hands on other arguments";
    if ((seen_at != g) != call->is_reader || !is_same(&seen, before))
        return "hands on another handle";
    if (!is_same(g, before))
        return "changes the handle";
    if (before->is_open && call->takes_memory && in_heap != &heap)
        return "is not in the heap of its session";
    if (gwb_used.heap != of_thread)
        return "leaves another heap";
    return got == answer ? NULL : "answers something else";
}

static void tell(const char *name, const char *state, const char *why)
{
    if (why != NULL)
        printf("%s: %s: %s\n", name, state, why);
}

enum state { CLOSED, OPEN, RECORDED };
static const char *const states[] = {"closed", "open", "recorded"};

/* A handle in a state. What is recorded has what the call needs: a command, which is undone before redo, and a draft where steps end. */
static gwb handle(enum state state, const char *call)
{
    gwb g = {0};
    answer = GWB_OK;
    if (state == CLOSED)
        return g;
    if (!gwb_open_in(&g, &heap) || (state == RECORDED && gwb_record(&g) != GWB_OK))
        abort();
    gwb_kvfs(&g, 1);
    if (strcmp(call, "gwb_redo") == 0)
        gwb_undo(&g);
    if (strcmp(call, "gwb_commit") == 0 || strcmp(call, "gwb_abandon") == 0 || strcmp(call, "gwb_back") == 0)
        gwb_draft(&g);
    return g;
}

#include "stubs.h"

/* One call of the kernel opens a session, in its heap, and one closes it. */
static void try_sessions(void)
{
    const gwb closed = {0};
    gwb g = closed;
    calls = 0;
    answer = false;
    tell("gwb_open", "refused", gwb_open_in(&g, &heap) || calls != 1 || !is_same(&g, &closed) ? "the handle has changed" : NULL);
    answer = true;
    tell("gwb_open", "closed", !gwb_open_in(&g, &heap) || calls != 2 || in_heap != &heap || g.held != &session ? "there is no session" : NULL);
    tell("gwb_open", "open", gwb_open(&g) || calls != 2 || g.held != &session ? "the session has changed" : NULL);
    gwb_close(&g);
    tell("gwb_close", "open", calls != 3 || strcmp(noted, "gwb_close") != 0 || !is_same(&g, &closed) ? "the handle is open" : NULL);
    gwb_close(&g);
    tell("gwb_close", "closed", calls != 3 || !is_same(&g, &closed) ? "the handle has changed" : NULL);
}

int main(void)
{
    static const uint64_t answers[] = {0, 1, 2, 4, 9, 11};
    of_thread = gwb_used.heap;
    try_sessions();
    try_all(CLOSED, GWB_CLOSED);
    for (size_t at = 0; at < sizeof answers / sizeof *answers; at++) {
        try_all(OPEN, answers[at]);
        try_all(RECORDED, answers[at]);
    }
    return 0;
}
