/* plain_play.c: the engine of document 02, L1 and L9, as one would write it in C, without proofs:
 * one playing for all tasks, tick by tick with a ready word for each 64 tasks, and a look at the
 * tasks of a word only in a tick at which one of them is due. Which task is served is looked for
 * only where a ready word has changed. */
#include "plain.h"
#include "plain_table.h"

/* Two tasks of one priority stand side by side. */
static int has_tie(const struct tasks *tasks)
{
    for (size_t i = 1; i < tasks->n; i++)
        if (tasks->priority[i] == tasks->priority[i - 1])
            return 1;
    return 0;
}

enum { WORD_TASKS = 64, MOST_WORDS = (MOST_TASKS + WORD_TASKS - 1) / WORD_TASKS };

/* What is left to do for each task and when it is next due; and for each word of tasks which of them
 * are ready, and when the first of them is next due. Only so many words are looked at as the tasks
 * need. */
struct state {
    size_t words;
    uint64_t left[MOST_TASKS];
    uint32_t due[MOST_TASKS];
    uint64_t ready[MOST_WORDS];
    uint32_t next[MOST_WORDS];
};

static void start(const struct tasks *tasks, struct state *state)
{
    state->words = (tasks->n + WORD_TASKS - 1) / WORD_TASKS;
    for (size_t i = 0; i < tasks->n; i++) {
        state->left[i] = 0;
        state->due[i] = 0;
    }
    for (size_t w = 0; w < state->words; w++) {
        state->ready[w] = 0;
        state->next[w] = 0;
    }
}

/* Releases the tasks of one word that are due. */
static void release_word(const struct tasks *tasks, size_t w, uint32_t at, struct state *state)
{
    size_t first = WORD_TASKS * w;
    size_t end = tasks->n - first < WORD_TASKS ? tasks->n : first + WORD_TASKS;
    uint64_t ready = state->ready[w];
    uint32_t next = UINT32_MAX;

    for (size_t i = first; i < end; i++) {
        uint32_t due = state->due[i];

        if (due == at) {
            due += tasks->T[i];
            state->due[i] = due;
            state->left[i] += tasks->C[i];
            ready |= (uint64_t)1 << i % WORD_TASKS;
        }
        if (due < next)
            next = due;
    }
    state->ready[w] = ready;
    state->next[w] = next;
}

/* Releases all tasks that are due; gives when the next one is. */
static uint32_t release(const struct tasks *tasks, uint32_t at, struct state *state)
{
    uint32_t next = UINT32_MAX;

    for (size_t w = 0; w < state->words; w++) {
        if (state->next[w] == at)
            release_word(tasks, w, at, state);
        if (state->next[w] < next)
            next = state->next[w];
    }
    return next;
}

/* The most urgent task that is ready, or MOST_TASKS if none is. */
static size_t most_urgent(const struct state *state)
{
    for (size_t w = 0; w < state->words; w++)
        if (state->ready[w])
            return WORD_TASKS * w + (size_t)__builtin_ctzll(state->ready[w]);
    return MOST_TASKS;
}

static uint32_t latest_deadline(const struct tasks *tasks)
{
    uint32_t last = 0;

    for (size_t i = 0; i < tasks->n; i++)
        if (tasks->D[i] > last)
            last = tasks->D[i];
    return last;
}

/* All tasks are released at tick 0 and then every T. The answers are 0 before. */
static void play_together(const struct tasks *tasks, uint32_t *answers)
{
    struct state state;
    uint32_t next = 0, last = latest_deadline(tasks);
    size_t serve = MOST_TASKS;

    start(tasks, &state);
    for (uint32_t at = 0; at < last; at++) {
        if (at == next) {
            next = release(tasks, at, &state);
            serve = most_urgent(&state);
        }
        if (--state.left[serve] == 0) {
            if (at < tasks->D[serve])
                answers[serve] = at + 1;
            state.ready[serve / WORD_TASKS] &= ~((uint64_t)1 << serve % WORD_TASKS);
            serve = most_urgent(&state);
            if (serve == MOST_TASKS)
                return;
        }
    }
}

uint64_t plain_play(const uint8_t *table, size_t table_len,
                    uint32_t *answers, size_t answers_len)
{
    struct tasks tasks;
    struct rows rows;
    uint64_t result = read_table(table, table_len, &tasks, &rows);

    if (result)
        return result;
    if (answers_len < tasks.n)
        return verdict(8, 0);
    if (rows.m || has_delay(&tasks) || has_tie(&tasks))
        return verdict(9, 0);

    for (size_t i = 0; i < tasks.n; i++)
        answers[i] = 0;
    play_together(&tasks, answers);
    for (size_t i = 0; i < tasks.n; i++)
        if (answers[i] == 0)
            return verdict(LATE, i);
    return 0;
}
