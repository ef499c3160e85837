/* Compares typed calls with lines: reads lines of a script, gives each to one handle as a line and to another as a typed call, where one
 * spells it, and compares kinds, refusals, fresh numbers, depths, texts, and from time to time the listings; and the version with the header's.
 * From time to time operators and larger commands are made steps of a draft of the second handle, as calls and as lines, some of them taken
 * back to a mark and given again: one that is committed is compared with the same steps as commands of their own, and one that is abandoned with the model before it.
 *
 *   tests/random_lines.py LINES | library_typed
 *
 * The last line is 'N typed, M as lines, D drafts: the same'; where the handles differ the line is named, and the status is 1. */
#include <inttypes.h>
#include <stdio.h>
#include <stdlib.h>
#include <string.h>

#include "gwb.h"

enum { MOST_POINTS = 64, MOST_WORDS = 3 + 3 * MOST_POINTS, LISTED_EVERY = 97, UNTYPED = 1000 };

/* What a line has: its words, read as they are asked for. */
typedef struct words {
    char *word[MOST_WORDS];
    int count;
    bool are_typed; /* no word was asked for that a typed call can't give */
} words;

static void fail(const char *what, const char *line)
{
    fprintf(stderr, "%s differs after: %.200s\n", what, line);
    exit(1);
}

static words words_of(char *line)
{
    words w = {.are_typed = true};
    char *rest = NULL;
    for (char *word = strtok_r(line, " \t\r", &rest); word != NULL && w.count < MOST_WORDS; word = strtok_r(NULL, " \t\r", &rest)) {
        w.word[w.count++] = word;
    }
    return w;
}

/* A whole number at the start of a text that ends with it, from least to most. */
static int64_t whole(words *w, const char *text, int64_t least, int64_t most)
{
    char *end = NULL;
    size_t digits = strspn(text + (*text == '-'), "0123456789");
    int64_t n = digits > 0 && digits <= 18 ? strtoll(text, &end, 10) : 0;
    w->are_typed = w->are_typed && end != NULL && *end == '\0' && least <= n && n <= most;
    return n;
}

static int64_t at(words *w, int i)
{
    return whole(w, w->word[i], INT64_MIN, INT64_MAX);
}

static uint32_t number(words *w, int i)
{
    return (uint32_t)whole(w, w->word[i], 0, UINT32_MAX);
}

static uint32_t half(words *w, int i)
{
    const char *word = w->word[i];
    w->are_typed = w->are_typed && (*word == '+' || *word == '-') && word[1] != '-';
    uint32_t edge = (uint32_t)whole(w, word + 1, 0, (1 << 30) - 1);
    return 2 * edge + (*word == '-');
}

static uint32_t corner(words *w, int i)
{
    return *w->word[i] == '@' ? gwb_lone((uint32_t)whole(w, w->word[i] + 1, 0, INT32_MAX)) : half(w, i);
}

/* 0 for `in`, 1 for `out`. */
static int64_t way(words *w, int i)
{
    bool is_out = strcmp(w->word[i], "out") == 0;
    w->are_typed = w->are_typed && (is_out || strcmp(w->word[i], "in") == 0);
    return is_out;
}

/* The kinds of words that a command takes: n a number, w a whole number, h a half-edge, c a corner, o `in` or `out`. */
static const struct {
    const char *name, *takes;
} COMMANDS[] = {{"mvfs", "nnnnwww"}, {"kvfs", "n"}, {"mev", "ccnnwww"}, {"kev", "h"}, {"mef", "hhnnn"}, {"kef", "h"}, {"kemr", "hn"},
    {"mekr", "ccn"}, {"kfmrh", "nn"}, {"mfkrh", "nn"}, {"ringmv", "nno"}, {"block", "nwwwwww"}, {"sweep", "nwww"}, {"glue", "nn"},
    {"split", "nwwwwn"}, {"undo", ""}, {"redo", ""}, {"plane", "n"}, {"volume", "n"}, {"count", "n"}};

/* A command of as many words as it has points; where in COMMANDS the operators end and the larger commands, and where the queries begin. */
enum { LAMINA = 100, OPERATORS = 11, CHANGES = 15, QUERIES = 17 };

static int64_t argument(words *w, char takes, int i)
{
    switch (takes) {
    case 'n': return number(w, i);
    case 'h': return half(w, i);
    case 'c': return corner(w, i);
    case 'o': return way(w, i);
    default: return at(w, i);
    }
}

/* The place of the command in COMMANDS whose words these are, and its arguments; -1 where there is none. */
static int command_of(words *w, int64_t *a)
{
    for (int c = 0; c < (int)(sizeof COMMANDS / sizeof *COMMANDS) && w->count > 0; c++) {
        int n = (int)strlen(COMMANDS[c].takes);
        if (strcmp(COMMANDS[c].name, w->word[0]) != 0 || w->count != n + 1) continue;
        for (int i = 0; i < n; i++) a[i] = argument(w, COMMANDS[c].takes[i], i + 1);
        return w->are_typed ? c : -1;
    }
    return -1;
}

/* A lamina, its solid and the coordinates of its points; -1 where it is none. */
static int lamina_of(words *w, int64_t *a)
{
    if (w->count < 2 || w->count == MOST_WORDS || (w->count - 2) % 3 != 0 || strcmp("lamina", w->word[0]) != 0) return -1;
    a[0] = number(w, 1);
    for (int i = 2; i < w->count; i++) a[i - 1] = at(w, i);
    return w->are_typed ? LAMINA : -1;
}

static bool same_wide(gwb_wide a, gwb_wide b)
{
    return a.high == b.high && a.low == b.low;
}

static bool same_plane(gwb_plane a, gwb_plane b)
{
    return same_wide(a.a, b.a) && same_wide(a.b, b.b) && same_wide(a.c, b.c) && same_wide(a.d, b.d) && a.flat == b.flat;
}

/* A reader that measures tells what the query did: its kind, and what was refused. */
static void same_measure(gwb *g, uint32_t read, uint32_t kind, gwb_refusal refusal, const char *line)
{
    gwb_refusal last = {7, 7};
    gwb_last_refusal(g, &last);
    if (read != kind || refusal.number != last.number || refusal.value != last.value) fail("the kind read", line);
}

/* Queries: what they write is what the reader of the last answer writes, and the one that measures. */
static uint32_t face_plane(gwb *g, uint32_t face)
{
    gwb_plane told = {.flat = 7}, last = {.flat = 7}, read = {.flat = 7};
    gwb_refusal refusal = {7, 7};
    uint32_t kind = gwb_face_plane(g, face, &told);
    gwb_last_plane(g, &last);
    same_measure(g, gwb_read_plane(g, face, &read, &refusal), kind, refusal, "plane");
    if (!same_plane(told, last) || !same_plane(told, read)) fail("the plane written", "plane");
    return kind;
}

static uint32_t volume(gwb *g, uint32_t solid)
{
    gwb_wide told = {7, 7}, last = {7, 7}, read = {7, 7};
    gwb_refusal refusal = {7, 7};
    uint32_t kind = gwb_volume(g, solid, &told);
    gwb_last_volume(g, &last);
    same_measure(g, gwb_read_volume(g, solid, &read, &refusal), kind, refusal, "volume");
    if (!same_wide(told, last) || !same_wide(told, read)) fail("the volume written", "volume");
    return kind;
}

static uint32_t count(gwb *g, uint32_t solid)
{
    gwb_counts told = {7, 7, 7, 7, 7}, last = {7, 7, 7, 7, 7}, read = {7, 7, 7, 7, 7};
    gwb_refusal refusal = {7, 7};
    uint32_t kind = gwb_count(g, solid, &told);
    gwb_last_counts(g, &last);
    same_measure(g, gwb_read_counts(g, solid, &read, &refusal), kind, refusal, "count");
    if (memcmp(&told, &last, sizeof told) != 0 || memcmp(&told, &read, sizeof told) != 0) fail("the counts written", "count");
    return kind;
}

static uint32_t lamina(gwb *g, uint32_t solid, const int64_t *coordinates, size_t n)
{
    gwb_point points[MOST_POINTS];
    for (size_t i = 0; i < n; i++) {
        points[i] = (gwb_point){coordinates[3 * i], coordinates[3 * i + 1], coordinates[3 * i + 2]};
    }
    return gwb_lamina(g, solid, points, n);
}

static uint32_t called(gwb *g, int command, const int64_t *a, int words)
{
    uint32_t n[8] = {0};
    for (int i = 0; i < 8; i++) n[i] = (uint32_t)a[i];
    switch (command) {
    case 0: return gwb_mvfs(g, n[0], n[1], n[2], n[3], a[4], a[5], a[6]);
    case 1: return gwb_kvfs(g, n[0]);
    case 2: return gwb_mev(g, n[0], n[1], n[2], n[3], a[4], a[5], a[6]);
    case 3: return gwb_kev(g, n[0]);
    case 4: return gwb_mef(g, n[0], n[1], n[2], n[3], n[4]);
    case 5: return gwb_kef(g, n[0]);
    case 6: return gwb_kemr(g, n[0], n[1]);
    case 7: return gwb_mekr(g, n[0], n[1], n[2]);
    case 8: return gwb_kfmrh(g, n[0], n[1]);
    case 9: return gwb_mfkrh(g, n[0], n[1]);
    case 10: return gwb_ringmv(g, n[0], n[1], n[2]);
    case 11: return gwb_block(g, n[0], a[1], a[2], a[3], a[4], a[5], a[6]);
    case 12: return gwb_sweep(g, n[0], a[1], a[2], a[3]);
    case 13: return gwb_glue(g, n[0], n[1]);
    case 14: return gwb_split(g, n[0], a[1], a[2], a[3], a[4], n[5]);
    case 15: return gwb_undo(g);
    case 16: return gwb_redo(g);
    case 17: return face_plane(g, n[0]);
    case 18: return volume(g, n[0]);
    case 19: return count(g, n[0]);
    case LAMINA: return lamina(g, n[0], a + 1, (size_t)(words - 2) / 3);
    default: return UNTYPED;
    }
}

/* Compares the texts of the last answers. */
static void same_replies(gwb *a, gwb *b, const char *line)
{
    static char mine[1 << 20], other[1 << 20];
    size_t n = gwb_reply(a, mine, sizeof mine), m = gwb_reply(b, other, sizeof other);
    if (n != m || n > sizeof mine || memcmp(mine, other, n) != 0) fail("the reply", line);
}

/* The fresh numbers of each kind. */
typedef struct fresh {
    gwb_range of[5];
} fresh;

static fresh fresh_of(const gwb *g)
{
    fresh found = {{{0, 0}}};
    for (uint32_t entity = GWB_FACE; entity <= GWB_VERTEX; entity++) gwb_fresh(g, entity, &found.of[entity]);
    return found;
}

static void same_fresh(fresh a, fresh b, const char *line)
{
    if (memcmp(&a, &b, sizeof a) != 0) fail("a fresh number", line);
}

static void same_values(const gwb *a, const gwb *b, const char *line)
{
    gwb_refusal mine = {0, 0}, other = {0, 0};
    uint32_t found = gwb_last_refusal(a, &mine);
    if (found != gwb_last_refusal(b, &other) || mine.number != other.number || mine.value != other.value) fail("the refusal", line);
    if (gwb_depth(a) != gwb_depth(b) || gwb_ahead(a) != gwb_ahead(b)) fail("a depth", line);
}

/* Compares the listings of the models, and what a reader of the first one writes. */
static void same_listings(gwb *a, gwb *b, const char *line)
{
    static char read[1 << 20], reply[1 << 20];
    size_t length = gwb_read_listing(a, read, sizeof read);
    gwb_line(a, "list", 4);
    gwb_line(b, "list", 4);
    same_replies(a, b, line);
    if (gwb_reply(a, reply, sizeof reply) != length || memcmp(read, reply, length) != 0) fail("the listing read", line);
}

/* A line that was read. */
typedef struct command {
    const char *line;
    size_t length;
    int place; /* in COMMANDS, or LAMINA; -1 where no typed call spells the line */
    int words;
    int64_t arguments[MOST_WORDS];
} command;

static command command_in(const char *line, size_t length)
{
    command c = {.line = line, .length = length};
    char *copy = strdup(line);
    words w = words_of(copy);
    c.place = lamina_of(&w, c.arguments);
    if (c.place < 0) c.place = command_of(&w, c.arguments);
    c.words = w.count;
    free(copy);
    return c;
}

static uint32_t as_line(gwb *g, const command *c)
{
    return gwb_line(g, c->line, c->length);
}

static uint32_t as_call(gwb *g, const command *c)
{
    return c->place < 0 ? as_line(g, c) : called(g, c->place, c->arguments, c->words);
}

enum { MOST_STEPS = 12, DRAFTED_EVERY = 150 };

/* The handle with typed calls and the one with lines, what was given to them, and the draft of the first one. */
typedef struct pair {
    gwb typed, lines;
    size_t calls, others, drafts, next_draft;
    bool is_open, is_alone; /* a draft is open; its steps are not given to the other handle */
    size_t depth, count, taken; /* before the draft, its steps, and those that are accepted */
    command steps[MOST_STEPS];
} pair;

static bool is_query(const command *c)
{
    return c->place >= QUERIES && c->place < LAMINA;
}

/* One command for both. A query by a typed call leaves the fresh numbers as they are, and by a line there are none. */
static void give(pair *p, const command *c)
{
    uint32_t wanted = as_line(&p->lines, c);
    fresh before = fresh_of(&p->typed);
    if (as_call(&p->typed, c) != wanted) fail("the kind", c->line);
    *(c->place < 0 ? &p->others : &p->calls) += 1;
    same_fresh(fresh_of(&p->typed), is_query(c) ? before : fresh_of(&p->lines), c->line);
    same_values(&p->typed, &p->lines, c->line);
    same_replies(&p->typed, &p->lines, c->line);
    if ((p->calls + p->others) % LISTED_EVERY == 0) same_listings(&p->typed, &p->lines, c->line);
}

/* Undoes or redoes so many commands. */
static void repeat(uint32_t (*move)(gwb *), gwb *g, size_t times)
{
    for (size_t i = 0; i < times; i++) {
        if (move(g) != GWB_OK) fail("an undo or a redo", "a draft");
    }
}

/* What a draft has not changes nothing, and so does what only a draft has. */
static void refuse_in_draft(gwb *g, const command *c)
{
    gwb_refusal before = {0, 0}, after = {0, 0};
    uint32_t found = gwb_last_refusal(g, &before);
    uint32_t told[] = {as_line(g, c), gwb_undo(g), gwb_redo(g), gwb_draft(g)};
    for (size_t i = 0; i < sizeof told / sizeof *told; i++) {
        if (told[i] != GWB_IN_DRAFT) fail("a call in a draft", c->line);
    }
    if (gwb_depth(g) != 0 || gwb_ahead(g) != 0) fail("a depth in a draft", c->line);
    if (gwb_last_refusal(g, &after) != found || before.number != after.number || before.value != after.value) fail("the last answer", c->line);
}

static void open_draft(pair *p)
{
    p->is_open = true;
    p->is_alone = p->drafts % 2 == 1;
    p->depth = gwb_depth(&p->typed);
    p->count = p->taken = 0;
    p->drafts += 1;
    if (gwb_commit(&p->typed) != GWB_NO_DRAFT || gwb_abandon(&p->typed) != GWB_NO_DRAFT) fail("a call of a draft", "none is open");
    if (gwb_back(&p->typed, 0) != GWB_NO_DRAFT || gwb_mark(&p->typed) != 0) fail("a mark", "none is open");
    if (gwb_draft(&p->typed) != GWB_OK) fail("the kind", "a draft");
}

/* A step of the draft, by turns a call and a line. */
static uint32_t as_step(gwb *g, size_t count, const command *c)
{
    return count % 2 == 0 ? as_call(g, c) : as_line(g, c);
}

/* A step of the draft, taken back and given again where it is the third of three. */
static uint32_t stepped(gwb *g, size_t count, const command *c)
{
    size_t mark = gwb_mark(g);
    uint32_t kind = as_step(g, count, c);
    if ((gwb_mark(g) > mark) != (kind == GWB_OK)) fail("the steps", c->line);
    if (count % 3 != 2) return kind;
    if (gwb_back(g, mark) != GWB_OK || gwb_mark(g) != mark) fail("a mark", c->line);
    if (as_step(g, count + 1, c) != kind) fail("the kind of a step given again", c->line);
    return kind;
}

/* A step of the draft, and, where it is not alone, the same command as a line of the other handle. */
static void step(pair *p, const command *c)
{
    uint32_t kind = stepped(&p->typed, p->count, c);
    if (!p->is_alone && as_line(&p->lines, c) != kind) fail("the kind of a step", c->line);
    p->taken += kind == GWB_OK;
    p->steps[p->count] = *c;
    p->steps[p->count].line = "a step";
    p->count += 1;
}

static void same_places(const char *when, pair *p)
{
    if (gwb_depth(&p->typed) != gwb_depth(&p->lines) || gwb_ahead(&p->typed) != gwb_ahead(&p->lines)) fail("a depth", when);
    same_listings(&p->typed, &p->lines, when);
}

/* Commits the draft: the same model by one command as by the steps, each a command of its own, there and back. Then the typed handle makes
 * these commands too, so that both have the same ones to undo. */
static void commit(pair *p)
{
    if (gwb_commit(&p->typed) != GWB_OK || gwb_commit(&p->typed) != GWB_NO_DRAFT) fail("a commit", "a draft");
    if (gwb_depth(&p->typed) != p->depth + 1 || gwb_ahead(&p->typed) != 0) fail("the depth", "a commit");
    same_listings(&p->typed, &p->lines, "a commit");
    repeat(gwb_undo, &p->typed, 1);
    repeat(gwb_undo, &p->lines, p->taken);
    same_listings(&p->typed, &p->lines, "an undone draft");
    repeat(gwb_redo, &p->typed, 1);
    repeat(gwb_redo, &p->lines, p->taken);
    same_listings(&p->typed, &p->lines, "a draft made again");
    repeat(gwb_undo, &p->typed, 1);
    for (size_t i = 0; i < p->count; i++) as_call(&p->typed, &p->steps[i]);
}

/* Ends the draft. One that is abandoned leaves no trace. */
static void end_draft(pair *p)
{
    p->is_open = false;
    p->next_draft = p->calls + p->others + DRAFTED_EVERY;
    if (!p->is_alone && p->taken > 0) {
        commit(p);
    } else if (gwb_abandon(&p->typed) != GWB_OK || gwb_abandon(&p->typed) != GWB_NO_DRAFT) {
        fail("an abandon", "a draft");
    }
    same_places("the end of a draft", p);
}

static bool is_operator(const command *c)
{
    return c->place >= 0 && c->place < OPERATORS;
}

/* Whether it is an operator or a larger command. */
static bool is_change(const command *c)
{
    return (c->place >= 0 && c->place < CHANGES) || c->place == LAMINA;
}

/* A query in a draft, by turns a call and a line, or a line that no call spells. The other handle has the same model, unless the draft is
 * alone. */
static void ask(pair *p, const command *c)
{
    uint32_t kind = as_step(&p->typed, p->count, c);
    if (kind == GWB_OK || kind == GWB_IN_DRAFT) fail("the kind in a draft", c->line);
    if (p->is_alone) return;
    if (kind != as_line(&p->lines, c)) fail("the kind in a draft", c->line);
    same_replies(&p->typed, &p->lines, c->line);
}

static bool is_move(const command *c)
{
    return c->place >= CHANGES && c->place < QUERIES;
}

static void hear(pair *p, const command *c)
{
    if (!p->is_open && is_operator(c) && p->calls + p->others >= p->next_draft) open_draft(p);
    if (!p->is_open) {
        give(p, c);
    } else if (is_change(c)) {
        step(p, c);
    } else if (is_move(c)) {
        refuse_in_draft(&p->typed, c);
    } else {
        ask(p, c);
    }
    if (p->is_open && p->count == MOST_STEPS) end_draft(p);
}

/* A draft without steps is a command, and one that is open when its handle is closed is given up. */
static void close_drafting(gwb *g)
{
    size_t depth = gwb_depth(g);
    if (gwb_draft(g) != GWB_OK || gwb_commit(g) != GWB_OK || gwb_depth(g) != depth + 1) fail("the depth", "an empty draft");
    if (gwb_draft(g) != GWB_OK || gwb_mvfs(g, 999, 999, 999, 999, 0, 0, 0) != GWB_OK) fail("a step", "the last draft");
    gwb_close(g);
    if (gwb_draft(g) != GWB_CLOSED || gwb_commit(g) != GWB_CLOSED || gwb_abandon(g) != GWB_CLOSED) fail("a closed handle", "a draft");
}

int main(void)
{
    static pair p;
    char *line = NULL;
    size_t room = 0;
    if (gwb_version() != GWB_VERSION) fail("the version", "none");
    if (!gwb_open(&p.typed) || !gwb_open(&p.lines)) return 2;
    for (ssize_t n; (n = getline(&line, &room, stdin)) > 0;) {
        n -= line[n - 1] == '\n';
        line[n] = '\0';
        command c = command_in(line, (size_t)n);
        hear(&p, &c);
    }
    free(line);
    if (p.is_open) end_draft(&p);
    close_drafting(&p.typed);
    gwb_close(&p.lines);
    printf("%zu typed, %zu as lines, %zu drafts: the same\n", p.calls, p.others, p.drafts);
    return p.calls > 0 && p.drafts > 1 ? 0 : 1;
}
