/* Which solids commands touch, what these were before, and births (gwb_watch). No call hangs on it: what memory is refused for is lost. */
#ifndef GWB_WATCH_H
#define GWB_WATCH_H
#include "gwb.h"

struct asked;
struct births;
struct watch;

/* The solid of a value of such a kind as follows: 0 where there is none. */
uint32_t watch_solid_of(const gwb *g, char kind, int64_t value);

/* Watches nothing yet: NULL where memory is refused. Of the steps of a draft that is open already nothing is known. */
struct watch *watch_new(bool is_drafting);
void watch_free(struct watch *w);

/* Before a call is made: it touches the solids of its values, which are what `kinds` says: 's' solids, 'f' faces, 'g' faces of which all may go, 'l' loops,
 * 'h' half-edges and corners, '_' nothing of the model; it makes solids 'S', faces 'F', loops 'L', edges 'E', vertices 'V', and '*' fresh numbers; on the
 * way '+' edges above all come and go. Or it touches any solid. */
void watch_touch(struct watch *w, const gwb *g, const char *kinds, const int64_t *values, size_t n);
void watch_touch_any(struct watch *w, const gwb *g, const char *kinds, const int64_t *values, size_t n);
/* After it: what it touched and made is kept as a command, or as a step of the draft, where it was accepted. */
void watch_end(struct watch *w, const gwb *g, bool is_accepted);

/* As beside.h says. */
void watch_begin_several(const gwb *g);
void watch_end_several(const gwb *g, bool is_accepted);
/* Within it: things of a kind have other numbers, each that of `pairs` which comes after its own. */
void watch_renumber(const gwb *g, uint32_t kind, const uint32_t *pairs, size_t n);

/* A draft was opened; its steps were made a command, or were taken back. */
void watch_draft(struct watch *w);
void watch_commit(struct watch *w);
void watch_abandon(struct watch *w, const gwb *g);
void watch_back(struct watch *w, const gwb *g, size_t mark);

/* Before steps of the draft are taken back, or an undo or a redo is given: the solids that these touch are noted. After it was accepted it is followed. */
void watch_see_draft(struct watch *w, const gwb *g);
void watch_see_undo(struct watch *w, const gwb *g);
void watch_see_redo(struct watch *w, const gwb *g);
void watch_undo(struct watch *w, const gwb *g);
void watch_redo(struct watch *w, const gwb *g);

/* The watch of a session, where all of the last command is known, or NULL. Without a call the solids that it touched are written down, and births are as
 * before it, or as after it again. */
struct watch *watch_of_last(const gwb *g);
const struct births *watch_births(const struct watch *w);
void watch_write_last(const struct watch *w, const gwb *g, struct asked *a);
void watch_step(struct watch *w, bool is_back);

#endif
