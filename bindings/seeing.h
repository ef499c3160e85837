/* What a call makes, and what is in use before it, for births. Of one operator alone that isn't asked, as it makes no number that is in use. Each is false
 * where memory is refused. */
#ifndef GWB_SEEING_H
#define GWB_SEEING_H
#include "births.h"

/* Before the call: what is in use of what a value of this kind (watch.h) names and the call may take; and what it makes of it. */
bool see_value(struct births *b, const gwb *g, char kind, uint32_t value);
bool see_made(struct births *b, char kind, uint32_t value);
/* After it: the fresh numbers; where it has spare edges, those of a split too, one for each vertex, which are in use again where gwb_back takes some of its
 * operators back. */
bool see_fresh(struct births *b, const gwb *g, bool has_spare);

#endif
