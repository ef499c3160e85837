/* The journal: an array of steps, and lists of moved faces that grow and shrink with it. */
#include "journal.h"
#include <string.h>

static struct step *steps;
static size_t room, done, end, top;             /* `top` is where a larger command that is under way writes */
static size_t moved_room, moved_done;           /* the lists of moved faces that belong to the steps before `done` */

static struct step *new_step(size_t place)
{
    make_room(&steps, &room, place + 1, sizeof *steps);
    return &steps[place];
}

struct refusal act(const struct step *step)
{
    TRY(check(step));
    struct step *record = new_step(done);
    *record = *step;
    record->first = record->last = true;
    apply(record);
    end = ++done;
    ACCEPT;
}

void open_command(void)
{
    top = end;
}

void take(struct step step)
{
    struct step *record = new_step(top++);
    *record = step;
    record->first = record->last = false;
    apply(record);
    if (step.operator == MERGE || step.operator == PART)
        moved_done = step.move.from + step.move.count;
}

void settle_command(void)
{
    if (done < end) {
        memmove(&steps[done], &steps[end], (top - end) * sizeof *steps);
        top -= end - done;
        end = done;
    }
}

void close_command(void)
{
    steps[done].first = true;
    steps[top - 1].last = true;
    done = end = top;
}

void abandon_command(void)
{
    while (top > end)
        apply(&steps[--top]);
}

struct step move_step(enum operator operator, u32 solid, u32 other, u32 count, u32 **list)
{
    make_room(&moved_faces, &moved_room, moved_done + count, sizeof *moved_faces);
    *list = moved_faces + moved_done;
    return (struct step){ .operator = operator, .move = { solid, other, moved_done, count } };
}

bool undo(void)
{
    if (done == 0)
        return false;
    struct step *record;
    do {
        record = &steps[--done];
        apply(record);
        if (record->operator == MERGE || record->operator == PART)
            moved_done = record->move.from;
    } while (!record->first);
    return true;
}

bool redo(void)
{
    if (done == end)
        return false;
    struct step *record;
    do {
        record = &steps[done++];
        apply(record);
        if (record->operator == MERGE || record->operator == PART)
            moved_done = record->move.from + record->move.count;
    } while (!record->last);
    return true;
}
