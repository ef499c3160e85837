/* A record of accepted commands, as lines of a script (gwb_script). */
#ifndef GWB_RECORD_H
#define GWB_RECORD_H
#include "gwb.h"

struct record;

/* An empty record: NULL where memory is refused. */
struct record *record_new(void);
void record_free(struct record *r);

/* Before a call is made its line is written behind all others: false where memory is refused; then there is no line.
 * `form` says what the values are: 'n' numbers, 'h' half-edges and corners, 'x' coordinates, 'w' the word of a ringmv. Values past its end are
 * as its last. */
bool record_write(struct record *r, const char *word, const char *form, const int64_t *values, size_t n);
bool record_write_line(struct record *r, const char *line, size_t n);
/* The same by parts: the word, with room for so many values in all; some of these; the end of the line. */
bool record_begin(struct record *r, const char *word, size_t values);
void record_put(struct record *r, const char *form, const int64_t *values, size_t n);
void record_end(struct record *r);
/* After the call: the line is kept as a command, or as a step of the draft, which has so many steps now, or it is dropped. */
void record_keep(struct record *r, size_t steps);
void record_drop(struct record *r);

/* A draft was opened, for which room was taken before; its steps were made a command, were taken back, or were taken back down to so many. */
bool record_reserve_draft(struct record *r);
void record_draft(struct record *r);
void record_commit(struct record *r);
void record_abandon(struct record *r);
void record_back(struct record *r, size_t steps);

/* The lines of the last command that is held, outside of a draft. */
const char *record_last(const struct record *r, size_t *n);

void record_undo(struct record *r);
void record_redo(struct record *r);

#endif
