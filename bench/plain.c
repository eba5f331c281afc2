/* plain.c: the analysis of document 01 and of document 02's L4 to L6 as one would write it in C,
 * without proofs: decoded once into local arrays, one divide for each load and round, and no
 * cleverness beyond that. Compiled with -DSKIP_DIVIDE it leaves out the divides that L2 does
 * without. Compiled with -DMARKS it keeps a mark for each load, as our library does.
 * plain_own_cost.c compiles it with OWN_COST, for L5's other start, and plain_past.c with PAST, for
 * L8. */
#include "plain.h"
#include "plain_blocking.h"
#include "plain_table.h"

#if defined PAST
#define ENTRY plain_analyse_past_period
#elif defined OWN_COST
#define ENTRY plain_analyse_from_own_cost
#else
#define ENTRY plain_analyse
#endif

/* In what follows, end is where the group of task i ends: the places before it have its priority or
 * a greater one. Less urgent tasks block, and all others but task i itself interfere (document 02,
 * L6). */

#ifdef MARKS
#include "plain_marks.h"
#else
#include "plain_demand.h"
#endif

#if defined PAST
/* The answer of task i is in plain_past.c. */
#elif defined MARKS

/* The answer of task i, and its rounds from that start; once is base and one cost of each load. */
static uint32_t respond(const struct tasks *tasks, size_t i, size_t end, uint32_t once,
                        uint32_t start, uint32_t least, uint32_t *rounds)
{
    uint32_t window = start, done = 1, answer = 0;
    uint32_t ahead = look_ahead(least);
    uint32_t marks[MOST_TASKS + 1];
    uint64_t sum = once;

    if (start + tasks->latest[i] > tasks->D[i]) {
        *rounds = 1;
        return 0;
    }
    if (start == once && start + RAISE <= least) {
        *rounds = 1;
        return start + tasks->latest[i];
    }
    set_first(tasks, i, end, marks);
    for (;; done++) {
        if (window + RAISE > least)
            sum = pass(tasks, end, window + RAISE, ahead, sum, marks, &least);
        if (sum + tasks->latest[i] > tasks->D[i])
            break;
        if (sum == window) {
            answer = window + tasks->latest[i];
            break;
        }
        window = (uint32_t)sum;
    }
    *rounds = done;
    return answer;
}

#else

/* The answer of task i, and its rounds from that start. */
static uint32_t respond(const struct tasks *tasks, size_t i, size_t end, uint32_t base,
                        uint32_t start, uint32_t *rounds)
{
    uint32_t window = start, done = 1, answer = 0;

    if (start + tasks->latest[i] <= tasks->D[i]) {
        for (;; done++) {
            uint64_t next = demand(tasks, i, end, base, window);

            if (next + tasks->latest[i] > tasks->D[i])
                break;
            if (next == window) {
                answer = window + tasks->latest[i];
                break;
            }
            window = (uint32_t)next;
        }
    }
    *rounds = done;
    return answer;
}

#endif

uint64_t ENTRY(const uint8_t *table, size_t table_len,
               uint32_t *answers, size_t answers_len,
               uint32_t *rounds, size_t rounds_len)
{
    struct tasks tasks;
    struct rows rows;
    size_t end = 0;
    uint32_t costs = 0; /* one of every task before the end */
#ifdef MARKS
    uint32_t least;
#endif
    uint64_t result = read_table(table, table_len, &tasks, &rows);

    if (result)
        return result;
    if (answers_len < tasks.n || rounds_len < tasks.n)
        return verdict(8, 0);
#ifdef PAST
    if (has_delay(&tasks))
        return verdict(11, 0);
#endif
#ifdef MARKS
    least = least_first(&tasks);
#endif

    for (size_t i = 0; i < tasks.n; i++) {
        uint32_t base, start;

        if (i == end) /* a group begins: where does it end? */
            do
                costs += tasks.C[end++];
            while (end < tasks.n && tasks.priority[end] == tasks.priority[i]);
        base = tasks.C[i] + blocking(&tasks, &rows, i, end);
#ifdef OWN_COST
        start = base;
#else
        start = base + costs - tasks.C[i];
#endif
#ifdef MARKS
        answers[i] = respond(&tasks, i, end, base + costs - tasks.C[i], start, least, &rounds[i]);
#else
        answers[i] = respond(&tasks, i, end, base, start, &rounds[i]);
#endif
        if (answers[i] == 0 && result == 0)
            result = verdict(LATE, i);
#ifdef PAST
        if (answers[i] == OPEN_WORD && result == 0)
            result = verdict(OPEN, i);
#endif
    }
    return result;
}
