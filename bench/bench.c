/* bench TABLE REPEATS: makes one call on the same table that many times, so that a counting tool
 * can take the difference of two runs. It calls the analysis, from document 01's start if it is
 * built with -DOWN_COST, or the second analysis, of document 02's L8, if it is built with -DPAST,
 * or the engine if it is built with -DPLAY, or the checker of claims if it is built with -DCLAIMS;
 * that of the library if it is built with -DOURS, else that of plain C. Built with -DROUNDS it
 * prints the rounds of all tasks in one call, of the second analysis how many q they tried, 0 if
 * the table is refused.
 *
 * The claims are the answers, and for a late task its deadline; with -DTOO_FEW the last is left
 * out. */
#include <stdio.h>
#include <stdlib.h>

#ifdef CLAIMS
#include "plain.h" /* for the answers */
#endif

#ifdef OURS
#include "ulmerascio.h"
#define play ulmerascio_play
#define check_claims ulmerascio_check_claims
#if defined PAST
#define analyse ulmerascio_analyse_past_period
#elif defined OWN_COST
#define analyse ulmerascio_analyse_from_own_cost
#else
#define analyse ulmerascio_analyse
#endif
#else
#include "plain.h"
#define play plain_play
#define check_claims plain_check_claims
#if defined PAST
#define analyse plain_analyse_past_period
#elif defined OWN_COST
#define analyse plain_analyse_from_own_cost
#else
#define analyse plain_analyse
#endif
#endif

enum { MOST_BYTES = 4590, MOST_TASKS = 200 };

#ifdef TOO_FEW
enum { LEFT_OUT = 1 };
#else
enum { LEFT_OUT = 0 };
#endif

/* What the calls give goes here, so that none of them can be left out. */
static volatile uint64_t sink;

#ifdef ROUNDS
static unsigned long sum(const uint32_t *words, size_t count)
{
    unsigned long all = 0;

    for (size_t i = 0; i < count; i++)
        all += words[i];
    return all;
}
#endif

#ifdef CLAIMS
static uint32_t deadline_at(const uint8_t *table, size_t i)
{
    const uint8_t *at = table + 5 + (table[0] == 1 ? 17 : 21) * i + 9;

    return (uint32_t)at[0] << 24 | (uint32_t)at[1] << 16 | (uint32_t)at[2] << 8 | at[3];
}

/* The answers, with the deadline in place of a 0. (Where the table is refused, some bytes of it: no
 * claim is looked at then.) */
static void make_claims(const uint8_t *table, size_t length, uint32_t *claims, uint32_t *rounds,
                        size_t count)
{
    plain_analyse(table, length, claims, count, rounds, count);
    for (size_t i = 0; i < count; i++)
        if (claims[i] == 0)
            claims[i] = deadline_at(table, i);
}
#endif

int main(int count, char **words)
{
    static uint8_t table[MOST_BYTES];
    static uint32_t answers[MOST_TASKS], rounds[MOST_TASKS];
    size_t length, slice = MOST_TASKS;
    unsigned long repeats;
    FILE *file;

    if (count != 3 || !(file = fopen(words[1], "rb"))) {
        fprintf(stderr, "usage: bench TABLE REPEATS\n");
        return 2;
    }
    length = fread(table, 1, sizeof table, file);
    fclose(file);
    repeats = strtoul(words[2], NULL, 10);
    if (table[3] >= 1 && table[3] <= MOST_TASKS)
        slice = table[3];
#ifdef CLAIMS
    make_claims(table, length, answers, rounds, slice);
#endif
    for (unsigned long i = 0; i < repeats; i++) {
#if defined CLAIMS
        uint64_t verdict = check_claims(table, length, answers, slice - LEFT_OUT);
#elif defined PLAY
        uint64_t verdict = play(table, length, answers, slice);
#else
        uint64_t verdict = analyse(table, length, answers, slice, rounds, slice);
#endif

        sink = verdict + answers[slice - 1] + rounds[slice - 1];
    }
#ifdef ROUNDS
    printf("%lu\n", sum(rounds, slice));
#endif
    return 0;
}
