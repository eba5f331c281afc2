/* plain_demand.h: demand at one window in plain C, with a divide for each load; compiled with
 * -DSKIP_DIVIDE, without those that document 02's L2 does without. Like plain_table.h it is
 * compiled into each file that needs it, plain.c, plain_own_cost.c, plain_past.c and
 * plain_claims.c. */
#ifndef PLAIN_DEMAND_H
#define PLAIN_DEMAND_H

#include "plain_table.h"

/* n / d rounded up, for n of at least 1. */
static uint32_t divide_up(uint32_t n, uint32_t d)
{
#ifdef SKIP_DIVIDE
    if (n <= d)
        return 1;
#endif
    return (n - 1) / d + 1;
}

/* Adds what the tasks from place j on, up to the end, ask for in a window of at least 1 tick. */
static uint64_t add_loads(uint64_t sum, const struct tasks *tasks, size_t j, size_t end,
                          uint32_t window)
{
    for (; j < end; j++)
        sum += (uint64_t)divide_up(window + tasks->spread[j], tasks->T[j]) * tasks->C[j];
    return sum;
}

/* The demand of task i; base is C + B, and end is where the task's group ends. */
static uint64_t demand(const struct tasks *tasks, size_t i, size_t end, uint32_t base,
                       uint32_t window)
{
    uint64_t sum = add_loads(base, tasks, 0, i, window);

    return add_loads(sum, tasks, i + 1, end, window);
}

#endif
