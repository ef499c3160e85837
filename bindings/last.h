/* What came of what, as gwb_became tells it. */
#ifndef GWB_LAST_H
#define GWB_LAST_H
#include "beside.h"
#include "lists.h"

/* What was found is told until the model changes: the rows (gwb_became_row) are taken over, or given back where that isn't well. */
void keep_became(struct beside *of, struct list *rows, bool is_well);
/* It is told no more. */
static inline void forget_became(struct beside *of) { of->became_at = 0; }

#endif
