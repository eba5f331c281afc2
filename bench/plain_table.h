/* plain_table.h: reading a table in plain C, decoded once into arrays. It is compiled into each of
 * plain.c, plain_own_cost.c, plain_past.c, plain_play.c and plain_claims.c, as if each stood
 * alone. */
#ifndef PLAIN_TABLE_H
#define PLAIN_TABLE_H

#include <stddef.h>
#include <stdint.h>

enum {
    MOST_TASKS = 200, /* of any version */
    MOST_ROWS = 64,
    MOST_SEMAPHORES = 16,
    MOST_TICKS = 1000000,
    HEADER_BYTES = 5,
    ROW_BYTES = 6,
    OPEN = 254,
    LATE = 255
};

/* Where each field begins: n and m in the table, the others in their record or row. Where the
 * delays begin is for the version to say. */
enum {
    N_AT = 3,
    M_AT = 4,
    PRIORITY_AT = 0,
    T_AT = 1,
    C_AT = 5,
    D_AT = 9,
    PLACE_AT = 0,
    SEMAPHORE_AT = 1,
    LENGTH_AT = 2
};

/* How many periods a deadline may span: 1, or what plain_past.c has said before (document 02, L8).
 * (As an argument of read_table it would change what gcc makes of the files in which it is 1.) */
#ifndef SPAN
#define SPAN 1
#endif

/* What the version decides. */
struct layout {
    size_t task_bytes, most_tasks;
    size_t earliest_at; /* 0 if a record has no earliest delay: it is 0 then */
    size_t latest_at;
};

struct tasks {
    size_t n;
    uint8_t priority[MOST_TASKS];
    uint32_t T[MOST_TASKS], C[MOST_TASKS], D[MOST_TASKS];
    uint32_t spread[MOST_TASKS], latest[MOST_TASKS]; /* spread is latest - earliest */
};

struct rows {
    size_t m;
    uint8_t place[MOST_ROWS], semaphore[MOST_ROWS];
    uint32_t length[MOST_ROWS];
    uint8_t ceiling[MOST_SEMAPHORES + 1];
};

static uint64_t verdict(uint32_t code, size_t place)
{
    return (uint64_t)code << 32 | (uint32_t)place;
}

static uint32_t big_endian_32(const uint8_t *at)
{
    return (uint32_t)at[0] << 24 | (uint32_t)at[1] << 16 | (uint32_t)at[2] << 8 | at[3];
}

/* Is it a known version? Version 1 has a jitter, which is the latest delay; version 3 has more tasks
 * than version 2 (document 02, L9). */
static int read_version(uint8_t version, struct layout *layout)
{
    switch (version) {
    case 1:
        layout->task_bytes = 17;
        layout->most_tasks = 32;
        layout->earliest_at = 0;
        layout->latest_at = 13;
        return 1;
    case 2:
        layout->task_bytes = 21;
        layout->most_tasks = 32;
        layout->earliest_at = 13;
        layout->latest_at = 17;
        return 1;
    case 3:
        layout->task_bytes = 21;
        layout->most_tasks = 200;
        layout->earliest_at = 13;
        layout->latest_at = 17;
        return 1;
    default:
        return 0;
    }
}

/* Where a record and a row begin in the table. */
static size_t task_at(const struct layout *layout, size_t i)
{
    return HEADER_BYTES + layout->task_bytes * i;
}

static size_t row_at(const struct layout *layout, size_t n, size_t r)
{
    return task_at(layout, n) + ROW_BYTES * r;
}

/* Refusals 1 to 4. */
static uint64_t read_header(const uint8_t *table, size_t length, struct layout *layout, size_t *n,
                            size_t *m)
{
    size_t stated;

    if (length < HEADER_BYTES)
        return verdict(1, 0);
    if (!read_version(table[0], layout))
        return verdict(2, 0);
    stated = (size_t)table[1] << 8 | table[2];
    *n = table[N_AT];
    *m = table[M_AT];
    if (*n < 1 || *n > layout->most_tasks)
        return verdict(3, N_AT);
    if (*m > MOST_ROWS)
        return verdict(3, M_AT);
    if (stated != length || row_at(layout, *n, *m) != length)
        return verdict(4, 0);
    return 0;
}

/* Refusals 5 and 6, record by record, at the byte of the first faulty field (document 02, L3). The
 * priority stands first and is tested last; it may be repeated but not rise (L6). */
static uint64_t read_tasks(const uint8_t *at, const struct layout *layout, struct tasks *tasks)
{
    uint8_t before = 255;

    for (size_t i = 0; i < tasks->n; i++, at += layout->task_bytes) {
        uint8_t priority = at[PRIORITY_AT];
        uint32_t T = big_endian_32(at + T_AT), C = big_endian_32(at + C_AT);
        uint32_t D = big_endian_32(at + D_AT);
        uint32_t earliest = layout->earliest_at ? big_endian_32(at + layout->earliest_at) : 0;
        uint32_t latest = big_endian_32(at + layout->latest_at);

        if (T < 1 || T > MOST_TICKS)
            return verdict(5, task_at(layout, i) + T_AT);
        if (C < 1 || C > MOST_TICKS)
            return verdict(5, task_at(layout, i) + C_AT);
        if (D < 1 || D > SPAN * T || (SPAN > 1 && D > MOST_TICKS))
            return verdict(5, task_at(layout, i) + D_AT);
        if (earliest > MOST_TICKS)
            return verdict(5, task_at(layout, i) + layout->earliest_at);
        if (latest > MOST_TICKS || earliest > latest)
            return verdict(5, task_at(layout, i) + layout->latest_at);
        if (priority == 0 || priority > before)
            return verdict(6, task_at(layout, i) + PRIORITY_AT);
        before = priority;
        tasks->priority[i] = priority;
        tasks->T[i] = T;
        tasks->C[i] = C;
        tasks->D[i] = D;
        tasks->spread[i] = latest - earliest;
        tasks->latest[i] = latest;
    }
    return 0;
}

/* Refusal 7, at the byte of the first faulty field, or at the row's first for its order; and the
 * semaphores' ceilings. */
static uint64_t read_rows(const uint8_t *at, const struct layout *layout,
                          const struct tasks *tasks, struct rows *rows)
{
    uint32_t before = 0;

    for (size_t s = 0; s <= MOST_SEMAPHORES; s++)
        rows->ceiling[s] = 0;
    for (size_t r = 0; r < rows->m; r++, at += ROW_BYTES) {
        uint8_t place = at[PLACE_AT], semaphore = at[SEMAPHORE_AT];
        uint32_t length = big_endian_32(at + LENGTH_AT);
        uint32_t order = (uint32_t)place << 8 | semaphore; /* at least 1 in a good row */

        if (place >= tasks->n)
            return verdict(7, row_at(layout, tasks->n, r) + PLACE_AT);
        if (semaphore < 1 || semaphore > MOST_SEMAPHORES)
            return verdict(7, row_at(layout, tasks->n, r) + SEMAPHORE_AT);
        if (length < 1 || length > tasks->C[place])
            return verdict(7, row_at(layout, tasks->n, r) + LENGTH_AT);
        if (order <= before)
            return verdict(7, row_at(layout, tasks->n, r));
        before = order;
        rows->place[r] = place;
        rows->semaphore[r] = semaphore;
        rows->length[r] = length;
        if (tasks->priority[place] > rows->ceiling[semaphore])
            rows->ceiling[semaphore] = tasks->priority[place];
    }
    return 0;
}

/* The whole table: refusals 1 to 7. */
static uint64_t read_table(const uint8_t *table, size_t length, struct tasks *tasks,
                           struct rows *rows)
{
    struct layout layout;
    uint64_t result = read_header(table, length, &layout, &tasks->n, &rows->m);

    if (result)
        return result;
    result = read_tasks(table + task_at(&layout, 0), &layout, tasks);
    if (result)
        return result;
    return read_rows(table + row_at(&layout, tasks->n, 0), &layout, tasks, rows);
}

/* A delay that is not 0; the earliest is no greater than the latest. (It is inline since not every
 * file calls it.) */
static inline int has_delay(const struct tasks *tasks)
{
    for (size_t i = 0; i < tasks->n; i++)
        if (tasks->latest[i])
            return 1;
    return 0;
}

#endif
