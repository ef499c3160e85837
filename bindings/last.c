/* What came of what by the last command, also where nobody watched it. The model is read, the command taken back, the model read again, and the command
 * done again: neither takes memory nor can be refused, so that the session is as it was, with all that can be redone.
 *
 * Of a command that was watched it is known which solids it touched (watch.h), and the lines of one that was recorded name them, by their numbers or by
 * things that were there before, or that lines before made of such: only these are read. Nothing is kept of others, nor does the kernel tell what they touched:
 * so all solids are read at both times. Those that are the same are left out. */
#include "last.h"
#include "asked.h"
#include "record.h"
#include "watch.h"
#include "words.h"

enum gwb_kind kernel_gwb_undo(gwb *g);
enum gwb_kind kernel_gwb_redo(gwb *g);

void keep_became(struct beside *of, struct list *rows, bool is_well)
{
    if (!is_well) {
        list_free(rows);
        return;
    }
    if (of->became != NULL)
        rattle_dealloc(of->became);
    of->became = rows->items;
    of->became_count = rows->count;
    of->became_at = of->changes + 1;
}

/* Takes the last command back, or does it again, in the pages of the session; births go along where they are known. */
static void step(gwb *g, struct watch *w, bool is_back)
{
    const struct used before = gwb_used;
    gwb_used.pages = beside_of(g)->pages;
    is_back ? kernel_gwb_undo(g) : kernel_gwb_redo(g);
    gwb_used = before;
    if (w != NULL)
        watch_step(w, is_back);
}

/* Adds the solids that a recorded line names, as things are now, or 0 for all, where its word is of no script (record.h). False where memory is refused. */
static bool add_named(const gwb *g, const char *line, const char *end, struct list *solids)
{
    const struct word *word = word_of(line, (size_t)(end - line), WORDS);
    int64_t value;
    line = read_value(line, end, &value);
    for (const char *kind = word != NULL ? word->kinds : ""; *kind != '\0'; kind++) {
        while (line < end && is_blank(*line))
            line++;
        const bool is_lone = line < end && *line == '@';
        line = read_value(line, end, &value);
        const uint32_t solid = watch_solid_of(g, *kind, *kind != 'h' ? value : is_lone ? GWB_LONE(value) : gwb_plus((uint32_t)value));
        if (solid != 0 && !list_add(solids, &solid))
            return false;
    }
    return word != NULL || list_add(solids, &(uint32_t){0});
}

/* The same of all lines of a command. */
static bool add_all_named(const gwb *g, const char *lines, size_t n, struct list *solids)
{
    bool is_well = true;
    for (const char *line = lines, *next; is_well && line < lines + n; line = next) {
        next = (const char *)memchr(line, '\n', (size_t)(lines + n - line)) + 1;
        is_well = add_named(g, line, next - 1, solids);
    }
    return is_well;
}

/* Writes down the solids that the last command may have touched, as they are after it. */
static void write_named(gwb *g, struct asked *is)
{
    struct list solids = {.size = sizeof(uint32_t)};
    size_t n;
    const char *lines = record_last(beside_of(g)->record, &n);
    step(g, NULL, true);
    is->is_lost = !add_all_named(g, lines, n, &solids);
    step(g, NULL, false);
    for (size_t at = 0; at < solids.count; at++)
        asked_write(is, NULL, g, ((uint32_t *)solids.items)[at]);
    list_free(&solids);
}

/* The same of a command that was watched, recorded, or neither. */
static void write_touched(gwb *g, const struct watch *w, struct asked *is)
{
    if (w != NULL)
        watch_write_last(w, g, is);
    else if (beside_of(g)->record != NULL)
        write_named(g, is);
    else
        asked_write(is, NULL, g, 0);
}

/* Finds the rows of the last command: false where memory is refused. */
static bool find(gwb *g, struct list *rows)
{
    static const struct births unknown = NO_BIRTHS({0});
    struct watch *w = watch_of_last(g);
    const struct births *births = w != NULL ? watch_births(w) : &unknown;
    struct asked was = {NOTHING_WRITTEN}, is = {NOTHING_WRITTEN};
    write_touched(g, w, &is);
    step(g, w, true);
    asked_write_changed(&was, births, g, &is);
    step(g, w, false);
    asked_free(&is);
    const bool is_well = asked_compare(&was, births, g, NULL, rows);
    asked_free(&was);
    return is_well;
}

/* Finds them, of no command where none is held or a draft is open, in the heap of the session: false where memory is refused. */
static bool find_last(gwb *g)
{
    const struct used before = gwb_used;
    struct list rows = {.size = sizeof(gwb_became_row)};
    gwb_used = (struct used){beside_of(g)->heap, NULL};
    const bool is_well = gwb_depth(g) == 0 || find(g, &rows);
    keep_became(beside_of(g), &rows, is_well);
    gwb_used = before;
    return is_well;
}

size_t gwb_became(gwb *g, gwb_became_row *rows, size_t room)
{
    if (!gwb_is_open(g) || (beside_of(g)->became_at != beside_of(g)->changes + 1 && !find_last(g)))
        return SIZE_MAX;
    const size_t count = beside_of(g)->became_count;
    if (count > 0 && room > 0)
        memcpy(rows, beside_of(g)->became, (count < room ? count : room) * sizeof *rows);
    return count;
}
