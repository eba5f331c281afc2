/* plain_marks.h: the loads' marks in plain C, the method of our library. Like plain_table.h it is
 * compiled into each file that needs it: plain.c, plain_own_cost.c and plain_past.c, with
 * -DMARKS. */
#ifndef PLAIN_MARKS_H
#define PLAIN_MARKS_H

#include "plain_table.h"

/* A load's mark is the last window, raised by the greatest spread, for which the number of its
 * periods begun holds. */
enum { RAISE = MOST_TICKS };

static uint32_t first_mark(const struct tasks *tasks, size_t j)
{
    return tasks->T[j] + (RAISE - tasks->spread[j]);
}

static uint32_t least_first(const struct tasks *tasks)
{
    uint32_t least = UINT32_MAX;

    for (size_t j = 0; j < tasks->n; j++)
        if (first_mark(tasks, j) < least)
            least = first_mark(tasks, j);
    return least;
}

/* How far ahead of the window a pass looks for the least mark. */
static uint32_t look_ahead(uint32_t least)
{
    return least > RAISE ? least - RAISE : 0;
}

/* Each task before the end has begun one period; task i is none of its own loads. The 0 behind the
 * marks ends every search. */
static void set_first(const struct tasks *tasks, size_t i, size_t end, uint32_t *marks)
{
    for (size_t j = 0; j < end; j++)
        marks[j] = first_mark(tasks, j);
    marks[end] = 0;
    if (i < end)
        marks[i] = UINT32_MAX;
}

static size_t next_below(const uint32_t *marks, uint32_t least, size_t j)
{
    while (marks[j] >= least)
        j++;
    return j;
}

/* Moves the marks that the window has passed. It gives the sum, and the least mark, which is looked
 * for up to so many ticks ahead. */
static uint64_t pass(const struct tasks *tasks, size_t end, uint32_t window, uint32_t ahead,
                     uint64_t sum, uint32_t *marks, uint32_t *least)
{
    uint32_t lowest = window + ahead;

    for (size_t j = next_below(marks, lowest, 0); j < end; j = next_below(marks, lowest, j + 1)) {
        if (marks[j] < window) {
            uint32_t over = window - marks[j], begun = 1;

            if (over > tasks->T[j])
                begun = (over - 1) / tasks->T[j] + 1;
            sum += (uint64_t)begun * tasks->C[j];
            marks[j] += begun * tasks->T[j];
        }
        if (marks[j] < lowest)
            lowest = marks[j];
    }
    *least = lowest;
    return sum;
}

#endif
