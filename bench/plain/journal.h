/* The journal of commands: a record a step. A record before `done` holds the inverse of a step that was taken, one after it a step that can be
 * taken again, since a step that is carried out turns into its inverse. */
#ifndef JOURNAL_H
#define JOURNAL_H

#include "operators.h"

/* One operator as a command, where all its conditions hold; else nothing changes. */
struct refusal act(const struct step *step);

/* A larger command: `open_command`, `take` for each step, `close_command`. Until `settle_command` it can still be refused:
 * `abandon_command` restores the model, and the steps that can be redone stand. A step that moves faces comes after `settle_command`. */
void open_command(void);
void take(struct step step);
void settle_command(void);
void close_command(void);
void abandon_command(void);

/* MERGE or PART with room for `count` faces, which the caller writes to `*list` before the step is taken. */
struct step move_step(enum operator operator, u32 solid, u32 other, u32 count, u32 **list);

bool undo(void);
bool redo(void);

#endif
