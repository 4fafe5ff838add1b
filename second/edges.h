/* Cases with answers worked out by hand from documents 01 and 02: the edges, the whole case, and one or more for each open
 * place. */
#ifndef SECOND_EDGES_H
#define SECOND_EDGES_H

#include "sides.h"

/* Runs them all on one side, prints those that fail, and adds to the counts. */
void edges_run(const struct side *side, size_t *passed, size_t *failed);

#endif
