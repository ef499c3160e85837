/* A record of accepted commands: the bytes of their lines. */
#include "record.h"
#include "beside.h"
#include "commands.h"

/* As many digits as a number of 64 bits has, with its sign and a blank before it. */
enum { MOST_DIGITS = 21 };

/* A line of the draft: where it begins, and how many steps were there before it. */
struct line {
    size_t at, before;
};

struct record {
    struct commands kept; /* of char */
    struct list lines;    /* of struct line */
    size_t steps;         /* how many the draft has */
};

struct record *record_new(void)
{
    struct tried block = rattle_alloc(sizeof(struct record), 16);
    if (!block.ok)
        return NULL;
    struct record *r = block.at;
    *r = (struct record){.kept = NO_COMMANDS(char), .lines.size = sizeof(struct line)};
    return r;
}

void record_free(struct record *r)
{
    if (r == NULL)
        return;
    commands_free(&r->kept);
    list_free(&r->lines);
    rattle_dealloc(r);
}

/* Begins a line, with room for a word and so many parts of so many bytes, for its end, and for what is kept of it. */
static bool begin(struct record *r, size_t parts, size_t bytes)
{
    commands_begin(&r->kept);
    return parts <= SIZE_MAX / 2 / bytes && list_reserve(&r->kept.items, r->kept.call + MOST_DIGITS + parts * bytes + 1) &&
           list_reserve(&r->lines, r->lines.count + 1) && commands_reserve(&r->kept);
}

static char *text(const struct record *r) { return r->kept.items.items; }

static void put(struct record *r, char c) { text(r)[r->kept.items.count++] = c; }

static void put_bytes(struct record *r, const char *bytes, size_t n)
{
    memcpy(text(r) + r->kept.items.count, bytes, n);
    r->kept.items.count += n;
}

static void put_number(struct record *r, uint64_t number)
{
    char digits[MOST_DIGITS];
    size_t first = sizeof digits;
    do
        digits[--first] = (char)('0' + number % 10);
    while ((number /= 10) != 0);
    put_bytes(r, digits + first, sizeof digits - first);
}

static void put_coordinate(struct record *r, int64_t number)
{
    if (number < 0)
        put(r, '-');
    put_number(r, number < 0 ? 0 - (uint64_t)number : (uint64_t)number);
}

/* A half-edge, or the corner of a lone loop. */
static void put_corner(struct record *r, uint32_t code)
{
    put(r, code >= GWB_LONE(0) ? '@' : code % 2 == 0 ? '+' : '-');
    put_number(r, code >= GWB_LONE(0) ? code - GWB_LONE(0) : code / 2);
}

static void put_value(struct record *r, char form, int64_t value)
{
    put(r, ' ');
    switch (form) {
    case 'h': put_corner(r, (uint32_t)value); break;
    case 'n': put_number(r, (uint64_t)value); break;
    case 'w': value == 0 ? put_bytes(r, "in", 2) : put_bytes(r, "out", 3); break;
    default: put_coordinate(r, value);
    }
}

bool record_begin(struct record *r, const char *word, size_t values)
{
    if (!begin(r, values, MOST_DIGITS)) /* (the word is no longer than a number) */
        return false;
    put_bytes(r, word, strlen(word));
    return true;
}

void record_put(struct record *r, const char *form, const int64_t *values, size_t n)
{
    for (size_t at = 0; at < n; at++) {
        put_value(r, *form, values[at]);
        form += form[1] != '\0';
    }
}

void record_end(struct record *r) { put(r, '\n'); }

bool record_write(struct record *r, const char *word, const char *form, const int64_t *values, size_t n)
{
    if (!record_begin(r, word, n))
        return false;
    record_put(r, form, values, n);
    return record_end(r), true;
}

bool record_write_line(struct record *r, const char *line, size_t n)
{
    if (!begin(r, n, 1))
        return false;
    put_bytes(r, line, n);
    put(r, '\n');
    return true;
}

void record_keep(struct record *r, size_t steps)
{
    if (r->kept.is_drafting)
        list_add(&r->lines, &(struct line){r->kept.call, r->steps});
    r->steps = steps;
    commands_end(&r->kept, true);
}

void record_drop(struct record *r) { commands_end(&r->kept, false); }

bool record_reserve_draft(struct record *r) { return commands_reserve(&r->kept); }

void record_draft(struct record *r)
{
    commands_draft(&r->kept);
    r->lines.count = 0;
    r->steps = 0;
}

void record_commit(struct record *r) { commands_commit(&r->kept); }
void record_abandon(struct record *r) { commands_abandon(&r->kept); }

/* The last line, of a larger command of which some steps are left, is written in capitals, as no script has it. */
static void put_in_capitals(struct record *r, size_t from)
{
    for (size_t at = from; at < r->kept.items.count; at++)
        if (text(r)[at] >= 'a' && text(r)[at] <= 'z')
            text(r)[at] += 'A' - 'a';
}

void record_back(struct record *r, size_t steps)
{
    const struct line *lines = r->lines.items;
    size_t end = r->steps;
    if (steps >= r->steps)
        return;
    for (; r->lines.count > 0 && lines[r->lines.count - 1].before >= steps; r->lines.count--) {
        end = lines[r->lines.count - 1].before;
        r->kept.items.count = lines[r->lines.count - 1].at;
    }
    if (steps < end)
        put_in_capitals(r, lines[r->lines.count - 1].at);
    r->steps = steps;
}

const char *record_last(const struct record *r, size_t *n)
{
    const size_t from = commands_first(&r->kept, r->kept.held - 1);
    *n = commands_first(&r->kept, r->kept.held) - from;
    return text(r) + from;
}

void record_undo(struct record *r) { r->kept.held--; }
void record_redo(struct record *r) { r->kept.held++; }

/* ---- what is read of it */

size_t gwb_recorded(const gwb *g)
{
    if (!gwb_is_open(g))
        return SIZE_MAX;
    const struct record *r = beside_of(g)->record;
    return r != NULL ? r->kept.held + r->kept.is_drafting : 0;
}

/* A part of a text that is written into a buffer. */
struct writing {
    char *buf;
    size_t room, length;
};

static void write_text(struct writing *w, const struct record *r, size_t from, size_t to)
{
    const size_t bytes = from < to ? to - from : 0, left = w->room > w->length ? w->room - w->length : 0;
    if (bytes > 0 && left > 0)
        memcpy(w->buf + w->length, text(r) + from, bytes < left ? bytes : left);
    w->length += bytes;
}

size_t gwb_script(const gwb *g, size_t first, size_t n, char *buf, size_t room)
{
    struct writing w = {buf, room, 0};
    if (!gwb_is_open(g))
        return SIZE_MAX;
    const struct record *r = beside_of(g)->record;
    if (r == NULL)
        return 0;
    const struct commands *kept = &r->kept;
    const size_t end = first < SIZE_MAX - n ? first + n : SIZE_MAX;
    write_text(&w, r, commands_first(kept, first), commands_first(kept, end < kept->held ? end : kept->held));
    if (kept->is_drafting && first <= kept->held && end > kept->held)
        write_text(&w, r, kept->draft, kept->items.count);
    return w.length;
}
