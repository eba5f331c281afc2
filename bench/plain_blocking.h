/* plain_blocking.h: blocking in plain C. Like plain_table.h it is compiled into each file that
 * needs it, plain.c, plain_own_cost.c, plain_past.c and plain_claims.c. */
#ifndef PLAIN_BLOCKING_H
#define PLAIN_BLOCKING_H

#include "plain_table.h"

/* Less urgent tasks block: those from the end on, which is where the group of task i ends. */
static uint32_t blocking(const struct tasks *tasks, const struct rows *rows, size_t i, size_t end)
{
    uint32_t longest = 0;

    for (size_t r = 0; r < rows->m; r++)
        if (rows->place[r] >= end && rows->ceiling[rows->semaphore[r]] >= tasks->priority[i]
            && rows->length[r] > longest)
            longest = rows->length[r];
    return longest;
}

#endif
