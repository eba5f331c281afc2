/* plain_claims.c: the checker of claims of document 02, L7, as one would write it in C, without
 * proofs: one demand for each claim, with a divide for each load; compiled with -DSKIP_DIVIDE,
 * without those that L2 does without. */
#include "plain.h"
#include "plain_blocking.h"
#include "plain_demand.h"
#include "plain_table.h"

enum { FAILS = 255 };

/* Does the claim for task i pass? Its group ends at the end. */
static int passes(const struct tasks *tasks, const struct rows *rows, size_t i, size_t end,
                  uint32_t claim)
{
    uint32_t window, base;

    if (claim <= tasks->latest[i] || claim > tasks->D[i])
        return 0;
    window = claim - tasks->latest[i];
    base = tasks->C[i] + blocking(tasks, rows, i, end);
    return demand(tasks, i, end, base, window) <= window;
}

uint64_t plain_check_claims(const uint8_t *table, size_t table_len,
                            const uint32_t *claims, size_t claims_len)
{
    struct tasks tasks;
    struct rows rows;
    size_t end = 0;
    uint64_t result = read_table(table, table_len, &tasks, &rows);

    if (result)
        return result;
    if (claims_len != tasks.n)
        return verdict(10, 0);

    for (size_t i = 0; i < tasks.n; i++) {
        if (i == end) /* a group begins: where does it end? */
            do
                end++;
            while (end < tasks.n && tasks.priority[end] == tasks.priority[i]);
        if (!passes(&tasks, &rows, i, end, claims[i]))
            return verdict(FAILS, i);
    }
    return 0;
}
