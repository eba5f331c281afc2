/* test_firmware TABLES CLAIMS: calls the library through its C header and compares it, word by
 * word, with the plain C analyses, the plain C engine and the plain C checker of claims
 * (bench/plain.h) on every entry of two files that "tests/reference.py make" wrote, the analysis
 * from both starts; and the engine, the checker and the second analysis with the analysis. The
 * second analysis gets every table that the analysis gets, and the tables of the first file with
 * longer deadlines too. The places of refusals and some rounds are also compared with what was
 * worked out by hand, and so are tables in which tasks share a priority, some claims, tables with
 * deadlines past the period, and tables of version 3. */
#include <stdio.h>
#include <stdlib.h>
#include <string.h>

#include "plain.h"
#include "tables.h"
#include "ulmerascio.h"

enum {
    LAST_LENGTH = 40,    /* of slices, where every length is tried */
    CLAIMS_HEADER = 3,   /* table length (2), number of claims (1) */
    MOST_CLAIMS = 255,
    MOST_EACH = 40,      /* tasks of a table, where each of them is tried */
    FEWEST_LISTS = 1000, /* the file with claims has more */
    WORKED_TABLES = 15,  /* the file begins with document 01's worked tables */
    FIFTH_TABLE = 4,
    LATE_TABLE = 10,
    SECTIONS_TABLE = 12,
    MANY_ROUNDS = 1000,
    MOST_TRIED = 64,
    MOST_TICKS = 1000000
};

typedef uint64_t engine(const uint8_t *, size_t, uint32_t *, size_t);

/* An analysis, ours and plain C's: from one of the two starts of the rounds (document 02, L5), of
 * which every cost is the default; and the second one (L8), which has the q tried for rounds. */
struct pair {
    const char *name;
    analysis *ours, *plain;
};

static const struct pair every_cost = {"from every cost", ulmerascio_analyse, plain_analyse};
static const struct pair own_cost = {"from own cost", ulmerascio_analyse_from_own_cost,
                                     plain_analyse_from_own_cost};
static const struct pair past_period = {"past the period", ulmerascio_analyse_past_period,
                                        plain_analyse_past_period};

static unsigned long calls, plays, taken, lists, passed;
static unsigned long overlaps, overlaps_taken, repeated, undecided; /* of the second analysis */

/* The codes that such a call may return. */
static int code_known(uint64_t verdict)
{
    uint64_t code = verdict / 4294967296u;

    return code <= 11 || code == 254 || code == 255;
}

/* How many delays a record has. */
static size_t delays_in(uint8_t version)
{
    return version == 1 ? 1 : 2;
}

static uint32_t word_at(const uint8_t *at)
{
    return (uint32_t)at[0] << 24 | (uint32_t)at[1] << 16 | (uint32_t)at[2] << 8 | at[3];
}

static uint32_t period_at(struct table table, size_t i)
{
    return word_at(table.bytes + record_at(table.bytes[0], i) + 1);
}

static uint32_t deadline_at(struct table table, size_t i)
{
    return word_at(table.bytes + record_at(table.bytes[0], i) + 9);
}

/* The latest delay, or J, ends a record. */
static uint32_t latest_at(struct table table, size_t i)
{
    return word_at(table.bytes + record_at(table.bytes[0], i + 1) - 4);
}

/* n, or 0 where it is missing. */
static size_t tasks_of(struct table table)
{
    return table.length > 3 ? table.bytes[3] : 0;
}

/* Can the place be that of such a verdict? A late or open task, or one whose claim fails, has a
 * number.
 * Refusals 3, 5, 6 and 7 point at the first byte of a field (document 02, L3): n or m; T, C, D or
 * J, at 1, 5, 9 or 13 in a record, and from version 2 on (L4) a delay at 13 or 17; the priority, at
 * 0 in it; one of the three at 0, 1 and 2 in a row. */
static int place_fits(struct table table, uint64_t verdict)
{
    size_t place = ulmerascio_place(verdict), n = tasks_of(table);
    uint8_t version = table.length > 0 ? table.bytes[0] : 1;
    size_t records = record_at(version, 0), rows = record_at(version, n);
    size_t in_record = (place - records) % (record_at(version, 1) - records);

    if (ulmerascio_is_late(verdict) || ulmerascio_is_open(verdict))
        return place < n;
    switch (ulmerascio_refusal(verdict)) {
    case 3:
        return place == 3 || place == 4;
    case 5:
        return place >= records && place < rows && in_record % 4 == 1;
    case 6:
        return place >= records && place < rows && in_record == 0;
    case 7:
        return place >= rows && place < table.length && (place - rows) % 6 <= 2;
    default:
        return place == 0;
    }
}

static void check_verdict(struct table table, uint64_t verdict)
{
    check_helpers(verdict);
    if (!code_known(verdict)) {
        printf("c: verdict %llx has a code that it cannot have\n", (unsigned long long)verdict);
        exit(1);
    }
    if (!place_fits(table, verdict)) {
        printf("c: verdict %llx has a place that it cannot have\n", (unsigned long long)verdict);
        exit(1);
    }
}

/* Calls both analyses of a pair; gives their outcome. */
static struct outcome compare_pair(const struct pair *pair, const char *what, size_t number,
                                   struct table table, size_t answers_len, size_t rounds_len)
{
    struct outcome ours, plain;
    size_t written;

    call(pair->ours, table, answers_len, rounds_len, &ours);
    call(pair->plain, table, answers_len, rounds_len, &plain);
    if (ours.verdict != plain.verdict || memcmp(ours.answers, plain.answers, sizeof ours.answers)
        || memcmp(ours.rounds, plain.rounds, sizeof ours.rounds)) {
        printf("c: %s %lu, %lu bytes, slices of %lu and %lu words, %s: verdict %llx, plain "
               "%llx\n", what, (unsigned long)number, (unsigned long)table.length,
               (unsigned long)answers_len, (unsigned long)rounds_len, pair->name,
               (unsigned long long)ours.verdict, (unsigned long long)plain.verdict);
        compare_slice("answers", ours.answers, plain.answers);
        compare_slice("rounds", ours.rounds, plain.rounds);
        exit(1);
    }
    check_verdict(table, ours.verdict);
    written = ulmerascio_is_refused(ours.verdict) ? 0 : table.bytes[3];
    check_stayed("answers", ours.answers, written);
    check_stayed("rounds", ours.rounds, written);
    return ours;
}

/* The start changes no verdict and no answer, and the default one takes no more rounds; said
 * without the plain analysis. */
static void compare_starts(const char *what, size_t number, const struct outcome *every,
                           const struct outcome *own)
{
    int fits = every->verdict == own->verdict
        && !memcmp(every->answers, own->answers, sizeof own->answers);

    for (size_t i = 0; i < GUARD + LONGEST_SLICE + GUARD; i++)
        fits = fits && every->rounds[i] <= own->rounds[i];
    if (!fits) {
        printf("c: %s %lu: the two starts do not fit: verdicts %llx and %llx\n", what,
               (unsigned long)number, (unsigned long long)every->verdict,
               (unsigned long long)own->verdict);
        compare_slice("answers", every->answers, own->answers);
        exit(1);
    }
}

/* Can these be the words of task i from the second analysis? With one q the answer is within the
 * period, with more it is past it; an open task has tried all. */
static int overlap_fits(struct table table, size_t i, uint32_t answer, uint32_t tried)
{
    uint32_t T = period_at(table, i), D = deadline_at(table, i);

    if (tried < 1 || tried > MOST_TRIED || (tried > 1 && D <= T))
        return 0;
    if (answer == ULMERASCIO_OPEN)
        return tried == MOST_TRIED;
    return answer == 0 || (answer <= D && (answer > T) == (tried > 1));
}

/* The verdict of the first task that is late or open, by its word. */
static uint64_t first_without(const uint32_t *answers, size_t n)
{
    for (size_t i = 0; i < n; i++)
        if (answers[i] == 0 || answers[i] == ULMERASCIO_OPEN)
            return (uint64_t)(answers[i] ? 254 : 255) << 32 | i;
    return 0;
}

/* What document 02's L8 says of one outcome of the second analysis, said without plain C. */
static int overlaps_fit(struct table table, const struct outcome *past)
{
    const uint32_t *answers = past->answers + GUARD, *tried = past->rounds + GUARD;
    size_t n = tasks_of(table);

    if (ulmerascio_is_refused(past->verdict))
        return 1;
    overlaps_taken++;
    for (size_t i = 0; i < n; i++) {
        if (!overlap_fits(table, i, answers[i], tried[i]) || latest_at(table, i))
            return 0;
        repeated += tried[i] > 1;
        undecided += answers[i] == ULMERASCIO_OPEN;
    }
    return past->verdict == first_without(answers, n);
}

static uint64_t deadline_refused(struct table table, size_t i)
{
    return ((uint64_t)ULMERASCIO_REFUSED_NUMBERS << 32) + record_at(table.bytes[0], i) + 9;
}

/* Does it fit the outcome of the analysis? Where each D is at most T, verdict and answers are the
 * same, and one q is tried for each task; but a table with a delay is refused with 11. Refusals are
 * the same, but for that of a D: where the second analysis takes the table, the analysis refuses
 * the first D above T. */
static int analyses_fit(struct table table, const struct outcome *past,
                        const struct outcome *analysed)
{
    size_t n = tasks_of(table);

    for (size_t i = 0; i < n; i++) {
        if (!ulmerascio_is_refused(past->verdict) && deadline_at(table, i) > period_at(table, i))
            return analysed->verdict == deadline_refused(table, i);
        if (analysed->verdict == deadline_refused(table, i))
            return ulmerascio_is_refused(past->verdict);
    }
    if (ulmerascio_is_refused(analysed->verdict))
        return past->verdict == analysed->verdict;
    for (size_t i = 0; i < n; i++)
        if (latest_at(table, i))
            return past->verdict == (uint64_t)ULMERASCIO_REFUSED_DELAYS << 32;
    for (size_t i = 0; i < n; i++)
        if (past->rounds[GUARD + i] != 1)
            return 0;
    return past->verdict == analysed->verdict
        && !memcmp(past->answers, analysed->answers, sizeof past->answers);
}

/* Calls both second analyses; gives their outcome. */
static struct outcome compare_past(const char *what, size_t number, struct table table,
                                   size_t answers_len, size_t tried_len)
{
    struct outcome past = compare_pair(&past_period, what, number, table, answers_len, tried_len);

    if (!overlaps_fit(table, &past)) {
        printf("c: %s %lu past the period: words that do not fit verdict %llx or each other\n",
               what, (unsigned long)number, (unsigned long long)past.verdict);
        exit(1);
    }
    overlaps++;
    return past;
}

/* From both starts, and the second analysis; gives the outcome from the default start. */
static struct outcome compare(const char *what, size_t number, struct table table,
                              size_t answers_len, size_t rounds_len)
{
    struct outcome every, own, past;

    every = compare_pair(&every_cost, what, number, table, answers_len, rounds_len);
    own = compare_pair(&own_cost, what, number, table, answers_len, rounds_len);
    compare_starts(what, number, &every, &own);
    calls += 2;
    past = compare_past(what, number, table, answers_len, rounds_len);
    if (!analyses_fit(table, &past, &every)) {
        printf("c: %s %lu: the second analysis does not fit: verdicts %llx and %llx\n", what,
               (unsigned long)number, (unsigned long long)past.verdict,
               (unsigned long long)every.verdict);
        compare_slice("answers", past.answers, every.answers);
        exit(1);
    }
    return every;
}

struct played {
    uint64_t verdict;
    uint32_t answers[GUARD + LONGEST_SLICE + GUARD];
};

static void call_engine(engine *play, struct table table, size_t answers_len,
                        struct played *played)
{
    for (size_t i = 0; i < GUARD + LONGEST_SLICE + GUARD; i++)
        played->answers[i] = FILLER;
    played->verdict = play(table.bytes, table.length, played->answers + GUARD, answers_len);
}

static void fail_play(const char *what, size_t number, size_t answers_len, uint64_t ours,
                      const char *other, uint64_t wanted)
{
    printf("c: %s %lu played with a slice of %lu words: verdict %llx, %s %llx\n", what,
           (unsigned long)number, (unsigned long)answers_len, (unsigned long long)ours, other,
           (unsigned long long)wanted);
}

/* Calls both engines, and our analysis where they take the table. */
static void compare_play(const char *what, size_t number, struct table table, size_t answers_len)
{
    struct played ours, plain;
    struct outcome analysed;

    call_engine(ulmerascio_play, table, answers_len, &ours);
    call_engine(plain_play, table, answers_len, &plain);
    if (ours.verdict != plain.verdict || memcmp(ours.answers, plain.answers, sizeof ours.answers)) {
        fail_play(what, number, answers_len, ours.verdict, "plain", plain.verdict);
        compare_slice("answers", ours.answers, plain.answers);
        exit(1);
    }
    check_verdict(table, ours.verdict);
    check_stayed("answers", ours.answers,
                 ulmerascio_is_refused(ours.verdict) ? 0 : table.bytes[3]);
    plays++;
    if (ulmerascio_is_refused(ours.verdict))
        return;
    taken++;
    call(ulmerascio_analyse, table, answers_len, LONGEST_SLICE, &analysed);
    if (ours.verdict != analysed.verdict
        || memcmp(ours.answers, analysed.answers, sizeof ours.answers)) {
        fail_play(what, number, answers_len, ours.verdict, "the analysis", analysed.verdict);
        compare_slice("answers", ours.answers, analysed.answers);
        exit(1);
    }
}

/* A list of claims for a table, in words that must stay. */
struct claims {
    uint32_t *words;
    size_t count;
};

/* What document 02's L7 says of a list, said without the plain checker. Refusals 1 to 7 are those
 * of the analysis with slices that have room, and come before 10. Each claim that passes is no less
 * than an answer that is not 0; and no such answer fails as a claim. */
static int claims_fit(uint64_t checked, struct claims claims, size_t n,
                      const struct outcome *analysed)
{
    const uint32_t *answers = analysed->answers + GUARD;
    size_t place = ulmerascio_place(checked), passing = ulmerascio_is_pass(checked) ? n : place;

    if (ulmerascio_is_refused(analysed->verdict))
        return checked == analysed->verdict;
    if (claims.count != n)
        return checked == (uint64_t)ULMERASCIO_REFUSED_CLAIMS << 32;
    if (ulmerascio_is_refused(checked))
        return 0;
    for (size_t i = 0; i < passing; i++)
        if (answers[i] == 0 || answers[i] > claims.words[i])
            return 0;
    if (ulmerascio_is_pass(checked))
        return ulmerascio_is_schedulable(analysed->verdict);
    return answers[place] == 0 || answers[place] != claims.words[place];
}

static void fail_claims(const char *what, size_t number, struct claims claims, uint64_t ours,
                        const char *other, uint64_t wanted)
{
    printf("c: %s %lu, %lu claims: %llx, %s %llx\n", what, (unsigned long)number,
           (unsigned long)claims.count, (unsigned long long)ours, other,
           (unsigned long long)wanted);
    for (size_t i = 0; i < claims.count && i < MOST_CLAIMS; i++)
        printf("c: claim %lu is %lu\n", (unsigned long)i, (unsigned long)claims.words[i]);
    exit(1);
}

/* Calls both checkers, and holds what they say to what our analysis said of the table. */
static uint64_t compare_claims(const char *what, size_t number, struct table table,
                               struct claims claims, const struct outcome *analysed)
{
    uint32_t before[MOST_CLAIMS];
    size_t kept = claims.count < MOST_CLAIMS ? claims.count : MOST_CLAIMS;
    uint64_t ours, plain;

    memcpy(before, claims.words, kept * sizeof before[0]);
    ours = ulmerascio_check_claims(table.bytes, table.length, claims.words, claims.count);
    if (memcmp(before, claims.words, kept * sizeof before[0]))
        fail_claims(what, number, claims, ours, "and claims changed by", ours);
    plain = plain_check_claims(table.bytes, table.length, claims.words, claims.count);
    if (ours != plain)
        fail_claims(what, number, claims, ours, "plain", plain);
    check_verdict(table, ours);
    if (!claims_fit(ours, claims, tasks_of(table), analysed))
        fail_claims(what, number, claims, ours, "the analysis", analysed->verdict);
    lists++;
    passed += (unsigned long)ulmerascio_is_pass(ours);
    return ours;
}

/* How a claim is made from the answer, which is 0 for a late task, and from the deadline. */
enum kind { ANSWER, TICK_MORE, TICK_LESS, ZERO, DEADLINE, PAST_DEADLINE, GREATEST, KINDS };

static uint32_t claim_of(enum kind kind, uint32_t answer, uint32_t deadline)
{
    switch (kind) {
    case ANSWER:
        return answer;
    case TICK_MORE:
        return answer + 1;
    case TICK_LESS:
        return answer ? answer - 1 : 0;
    case ZERO:
        return 0;
    case DEADLINE:
        return deadline;
    case PAST_DEADLINE:
        return deadline + 1;
    default:
        return UINT32_MAX;
    }
}

/* Each kind for all n tasks; then for one task alone, where the others have their answers: for each
 * task, or of many tasks for the last and one in 33 before it. */
static void try_kinds(const char *what, size_t number, struct table table, size_t n,
                      const struct outcome *analysed)
{
    const uint32_t *answers = analysed->answers + GUARD;
    uint32_t words[LONGEST_SLICE];
    size_t step = n > MOST_EACH ? 33 : 1;

    for (enum kind kind = ANSWER; kind < KINDS; kind++) {
        for (size_t i = 0; i < n; i++)
            words[i] = claim_of(kind, answers[i], deadline_at(table, i));
        compare_claims(what, number, table, (struct claims){words, n}, analysed);
    }
    for (size_t i = 0; i < n; i++)
        words[i] = answers[i];
    for (size_t i = (n - 1) % step; i < n; i += step) {
        for (enum kind kind = TICK_MORE; kind < KINDS; kind++) {
            words[i] = claim_of(kind, answers[i], deadline_at(table, i));
            compare_claims(what, number, table, (struct claims){words, n}, analysed);
        }
        words[i] = answers[i];
    }
}

/* No claim, one too few, as many as tasks, one too many, and more. The words are the answers, or
 * what stands there if the table is refused. */
static void try_counts(const char *what, size_t number, struct table table, size_t n,
                       struct outcome *analysed)
{
    size_t counts[] = {0, n ? n - 1 : 0, n, n + 1, LONGEST_SLICE};

    for (size_t k = 0; k < sizeof counts / sizeof counts[0]; k++)
        compare_claims(what, number, table, (struct claims){analysed->answers + GUARD, counts[k]},
                       analysed);
}

static void try_claims(const char *what, size_t number, struct table table)
{
    size_t n = tasks_of(table);
    struct outcome analysed;

    call(ulmerascio_analyse, table, LONGEST_SLICE, LONGEST_SLICE, &analysed);
    try_counts(what, number, table, n < LONGEST_SLICE ? n : 0, &analysed);
    if (!ulmerascio_is_refused(analysed.verdict))
        try_kinds(what, number, table, n, &analysed);
}

/* All slice lengths on a worked table; only those about n where a call takes many rounds. */
static void try_slice_lengths(size_t number, struct table table, const struct outcome *first)
{
    size_t n = table.bytes[3], last = LAST_LENGTH;

    for (size_t i = 0; i < n; i++)
        if (first->rounds[GUARD + i] > MANY_ROUNDS)
            last = n + 1;
    for (size_t answers_len = 0; answers_len <= last; answers_len++)
        for (size_t rounds_len = 0; rounds_len <= last; rounds_len++)
            compare("worked table", number, table, answers_len, rounds_len);
    for (size_t answers_len = 0; answers_len <= LAST_LENGTH; answers_len++)
        compare_play("worked table", number, table, answers_len);
}

/* The rounds of some tables from both starts, worked out by hand. */
struct counted {
    size_t number;
    uint32_t every[4], own[4];
};

static const struct counted worked_rounds[] = {
    {FIFTH_TABLE, {1, 1, 4}, {1, 2, 5}},
    {LATE_TABLE, {1, 1}, {1, 2}},
    {SECTIONS_TABLE, {1, 1, 2, 3}, {1, 2, 2, 4}},
    {WORKED_TABLES - 1, {1, 999999}, {1, 1000000}},
};

static void expect_rounds(const struct pair *pair, struct table table, const uint32_t *wanted)
{
    size_t n = table.bytes[3];
    struct outcome outcome;

    call(pair->ours, table, n, n, &outcome);
    for (size_t i = 0; i < n; i++)
        if (outcome.rounds[GUARD + i] != wanted[i]) {
            printf("c: rounds %s, worked out by hand:\n", pair->name);
            fail_word("rounds", GUARD + i, outcome.rounds[GUARD + i], wanted[i]);
        }
}

static void try_rounds(size_t number, struct table table)
{
    for (size_t i = 0; i < sizeof worked_rounds / sizeof worked_rounds[0]; i++)
        if (worked_rounds[i].number == number) {
            expect_rounds(&every_cost, table, worked_rounds[i].every);
            expect_rounds(&own_cost, table, worked_rounds[i].own);
        }
}

/* Two changes to a table, and the refusal that they bring. */
struct fault {
    struct {
        uint8_t at, to;
    } changes[2];
    uint32_t refusal, place;
};

/* Faults of the table with sections. Its 4 records begin at bytes 5, 22, 39 and 56, its 4 rows at
 * 73, 79, 85 and 91. A change of byte 0 to 1 changes nothing. */
static const struct fault faults[] = {
    {{{3, 33}, {0, 1}}, 3, 3},
    {{{4, 65}, {0, 1}}, 3, 4},
    {{{3, 0}, {4, 65}}, 3, 3},
    {{{26, 0}, {0, 1}}, 5, 23},   /* T is 0 */
    {{{23, 1}, {0, 1}}, 5, 23},   /* T is above 1,000,000 */
    {{{30, 0}, {0, 1}}, 5, 27},   /* C is 0 */
    {{{34, 21}, {0, 1}}, 5, 31},  /* D is T + 1 */
    {{{35, 1}, {0, 1}}, 5, 35},   /* J is above 1,000,000 */
    {{{22, 5}, {0, 1}}, 6, 22},   /* the priority rises above the record before */
    {{{22, 5}, {35, 1}}, 5, 35},  /* the priority is tested last */
    {{{22, 4}, {39, 5}}, 6, 39},  /* it rises after one that is repeated */
    {{{39, 3}, {56, 4}}, 6, 56},
    {{{39, 3}, {56, 0}}, 6, 56},  /* it is 0 after one that is repeated */
    {{{5, 0}, {26, 0}}, 6, 5},    /* but before the next record */
    {{{85, 4}, {0, 1}}, 7, 85},   /* the place is n */
    {{{86, 17}, {0, 1}}, 7, 86},  /* the semaphore is 17 */
    {{{90, 11}, {0, 1}}, 7, 87},  /* the length is C + 1 */
    {{{91, 2}, {0, 1}}, 7, 91},   /* out of order, at the row's first byte */
    {{{85, 1}, {90, 3}}, 7, 85},  /* as the row before it */
    {{{85, 1}, {0, 1}}, 7, 87},   /* the same with a length above C: the order is tested last */
    {{{91, 2}, {92, 0}}, 7, 92},  /* out of order, and the semaphore is 0 */
};

/* Document 01's jitter table, "With delays 10 and 10 on its first task" (document 02, L4). Its 2
 * records begin at bytes 5 and 26. */
static const uint8_t delays_table[] = {
    2, 0, 47, 2, 0,
    2, 0, 0, 0, 30, 0, 0, 0, 10, 0, 0, 0, 20, 0, 0, 0, 10, 0, 0, 0, 10,
    1, 0, 0, 3, 232, 0, 0, 0, 15, 0, 0, 0, 25, 0, 0, 0, 0, 0, 0, 0, 0,
};

/* The same with a row for each task, at bytes 47 and 53. */
static const uint8_t delays_and_rows[] = {
    2, 0, 59, 2, 2,
    2, 0, 0, 0, 30, 0, 0, 0, 10, 0, 0, 0, 20, 0, 0, 0, 10, 0, 0, 0, 10,
    1, 0, 0, 3, 232, 0, 0, 0, 15, 0, 0, 0, 25, 0, 0, 0, 0, 0, 0, 0, 0,
    0, 1, 0, 0, 0, 10,
    1, 1, 0, 0, 0, 15,
};

/* Faults of that. A change of byte 0 to 2 changes nothing. */
static const struct fault delay_faults[] = {
    {{{0, 0}, {0, 0}}, 2, 0},
    {{{0, 9}, {3, 33}}, 2, 0},
    {{{0, 1}, {0, 1}}, 4, 0},     /* in version 1 it would be shorter */
    {{{3, 33}, {0, 2}}, 3, 3},
    {{{4, 65}, {0, 2}}, 3, 4},
    {{{2, 60}, {0, 2}}, 4, 0},
    {{{4, 1}, {2, 53}}, 4, 0},
    {{{29, 0}, {30, 0}}, 5, 27},  /* T is 0 */
    {{{34, 0}, {0, 2}}, 5, 31},   /* C is 0 */
    {{{38, 0}, {0, 2}}, 5, 35},   /* D is 0 */
    {{{39, 1}, {0, 2}}, 5, 39},   /* the earliest delay is above 1,000,000 */
    {{{39, 1}, {43, 1}}, 5, 39},  /* both are */
    {{{43, 1}, {0, 2}}, 5, 43},   /* the latest alone is */
    {{{42, 1}, {43, 1}}, 5, 43},
    {{{42, 1}, {0, 2}}, 5, 43},   /* the earliest is 1, the latest 0 */
    {{{21, 11}, {0, 2}}, 5, 22},  /* the earliest is 11, the latest 10 */
    {{{38, 0}, {39, 1}}, 5, 35},  /* the delays are tested after D */
    {{{26, 3}, {0, 2}}, 6, 26},   /* the priority rises above the record before */
    {{{26, 3}, {42, 1}}, 5, 43},  /* the priority is tested last */
    {{{26, 0}, {0, 2}}, 6, 26},
    {{{5, 0}, {39, 1}}, 6, 5},    /* but before the next record */
    {{{53, 2}, {0, 2}}, 7, 53},   /* the place is n */
    {{{54, 17}, {0, 2}}, 7, 54},  /* the semaphore is 17 */
    {{{58, 16}, {0, 2}}, 7, 55},  /* the length is C + 1 */
    {{{53, 0}, {58, 10}}, 7, 53}, /* as the row before it */
};

/* The analysis and the engine, ours and plain C's, are to give this verdict; and the checkers where
 * the analysis refuses. */
static void expect(const char *what, size_t number, struct table table, uint64_t wanted)
{
    size_t length = ULMERASCIO_MOST_TASKS;
    struct outcome outcome = compare(what, number, table, length, length);
    struct played played;

    compare_play(what, number, table, length);
    call_engine(ulmerascio_play, table, length, &played);
    try_claims(what, number, table);
    if (outcome.verdict != wanted || played.verdict != wanted) {
        printf("c: %s %lu: verdict %llx, played %llx, not %llx\n", what, (unsigned long)number,
               (unsigned long long)outcome.verdict, (unsigned long long)played.verdict,
               (unsigned long long)wanted);
        exit(1);
    }
}

static void try_places(const char *what, struct table table, const struct fault *list,
                       size_t count)
{
    for (size_t i = 0; i < count; i++) {
        uint8_t *bytes = copy_bytes(table.bytes, table.length, table.length);

        for (size_t k = 0; k < 2; k++)
            bytes[list[i].changes[k].at] = list[i].changes[k].to;
        expect(what, i, (struct table){bytes, table.length},
               (uint64_t)list[i].refusal << 32 | list[i].place);
        free(bytes);
    }
}

/* The same table without delays, and with deadlines of 1 to 4 periods, for the second analysis: the
 * shift says which task has which. */
static void try_longer_deadlines(const char *what, size_t number, struct table table, size_t shift)
{
    uint8_t *bytes = copy_bytes(table.bytes, table.length, table.length);
    size_t n = bytes[3];

    for (size_t i = 0; i < n; i++) {
        uint8_t *end = bytes + record_at(bytes[0], i + 1);
        uint32_t deadline = period_at(table, i) * (uint32_t)((i + shift) % 4 + 1);
        uint8_t *at = write_word(bytes + record_at(bytes[0], i) + 9,
                                 deadline < MOST_TICKS ? deadline : MOST_TICKS);

        while (at < end)
            *at++ = 0;
    }
    compare_past(what, number, (struct table){bytes, table.length}, n, n);
    free(bytes);
}

/* A lent length that a 16-bit word cuts to the stated one is still not equal to it. */
static void try_far_too_long(size_t number, struct table table)
{
    size_t length = table.length + 65536;
    uint8_t *bytes = copy_bytes(table.bytes, table.length, length);

    expect("table longer by 65536", number, (struct table){bytes, length}, (uint64_t)4 << 32);
    free(bytes);
}

/* "With delays 10 and 10 on its first task, 01's jitter table gives 20 and 25." A constant delay
 * is one that the engine refuses. */
static void try_delays(void)
{
    static const uint32_t rounds[] = {1, 1}, own_rounds[] = {1, 2};
    struct table table = {delays_table, sizeof delays_table};
    struct outcome outcome = compare("table with delays", 0, table, 2, 2);
    struct played played;

    compare_play("table with delays", 0, table, 2);
    call_engine(ulmerascio_play, table, 2, &played);
    expect_rounds(&every_cost, table, rounds);
    expect_rounds(&own_cost, table, own_rounds);
    if (outcome.verdict != 0 || outcome.answers[GUARD] != 20 || outcome.answers[GUARD + 1] != 25
        || played.verdict != (uint64_t)9 << 32) {
        printf("c: the table with delays gets wrong answers\n");
        exit(1);
    }
    try_slice_lengths(0, table, &outcome);
    try_claims("table with delays", 0, table);
    try_far_too_long(0, table);
    try_places("fault of delays", (struct table){delays_and_rows, sizeof delays_and_rows},
               delay_faults, sizeof delay_faults / sizeof delay_faults[0]);
}

/* A task without delays. */
struct task {
    uint8_t priority;
    uint32_t T, C, D;
};

/* Writes a table of such tasks, without rows; gives its length. */
static size_t write_table(uint8_t *at, uint8_t version, const struct task *tasks, size_t n)
{
    size_t length = record_at(version, n);

    *at++ = version;
    *at++ = (uint8_t)(length / 256);
    *at++ = (uint8_t)(length % 256);
    *at++ = (uint8_t)n;
    *at++ = 0;
    for (size_t i = 0; i < n; i++) {
        *at++ = tasks[i].priority;
        at = write_word(at, tasks[i].T);
        at = write_word(at, tasks[i].C);
        at = write_word(at, tasks[i].D);
        for (size_t delays = delays_in(version); delays; delays--)
            at = write_word(at, 0);
    }
    return length;
}

/* Tasks that share a priority (document 02, L6), and what they get, worked out by hand. */
struct grouped {
    size_t n;
    struct task tasks[4];
    uint64_t verdict;
    uint32_t answers[4], rounds[4], own_rounds[4];
};

static const struct grouped grouped_tables[] = {
    /* the fifth table of document 01 with one priority for the last two: examples/groups.table */
    {3, {{2, 4, 1, 4}, {1, 6, 2, 6}, {1, 10, 3, 10}},
     ((uint64_t)255 << 32) + 1, {1, 0, 10}, {1, 1, 4}, {1, 2, 5}},
    {2, {{1, 2, 1, 2}, {1, 2, 1, 2}}, 0, {2, 2}, {1, 1}, {2, 2}},
    {2, {{255, 2, 1, 1}, {255, 2, 1, 2}}, (uint64_t)255 << 32, {0, 2}, {1, 1}, {1, 2}},
    /* source document 004, assignment 2.3 */
    {4, {{3, 20, 2, 6}, {2, 7, 3, 7}, {2, 14, 5, 13}, {1, 100, 4, 60}},
     ((uint64_t)255 << 32) + 1, {2, 0, 13, 54}, {1, 1, 2, 9}, {1, 1, 3, 10}},
    {4, {{2, 5, 1, 5}, {2, 7, 1, 7}, {2, 9, 1, 9}, {1, 30, 3, 30}},
     0, {3, 3, 3, 7}, {1, 1, 1, 2}, {2, 2, 2, 3}},
};

static void expect_verdict(const char *what, size_t number, uint64_t verdict, uint64_t wanted)
{
    if (verdict != wanted) {
        printf("c: %s %lu: verdict %llx, not %llx\n", what, (unsigned long)number,
               (unsigned long long)verdict, (unsigned long long)wanted);
        exit(1);
    }
}

static void expect_words(const char *slice, const uint32_t *words, const uint32_t *wanted, size_t n)
{
    for (size_t i = GUARD; i < GUARD + n; i++)
        if (words[i] != wanted[i - GUARD])
            fail_word(slice, i, words[i], wanted[i - GUARD]);
}

/* The engine, ours and plain C's, is to give this verdict. */
static void expect_played(const char *what, size_t number, struct table table, size_t answers_len,
                          uint64_t wanted)
{
    struct played played;

    compare_play(what, number, table, answers_len);
    call_engine(ulmerascio_play, table, answers_len, &played);
    if (played.verdict != wanted) {
        fail_play(what, number, answers_len, played.verdict, "not", wanted);
        exit(1);
    }
}

static void try_grouped(size_t number, const struct grouped *grouped, uint8_t version)
{
    static const char what[] = "table with groups";
    uint8_t bytes[5 + 4 * 21];
    size_t n = grouped->n;
    struct table table = {bytes, write_table(bytes, version, grouped->tasks, n)};
    struct outcome outcome = compare(what, number, table, n, n);

    expect_verdict(what, number, outcome.verdict, grouped->verdict);
    expect_words("answers", outcome.answers, grouped->answers, n);
    expect_rounds(&every_cost, table, grouped->rounds);
    expect_rounds(&own_cost, table, grouped->own_rounds);
    expect_played(what, number, table, n, (uint64_t)9 << 32);
    expect_played(what, number, table, n - 1, (uint64_t)8 << 32);
    try_slice_lengths(number, table, &outcome);
    try_claims(what, number, table);
}

/* 32 tasks, of which one has the priority of the one before: the analysis takes them, the engine
 * does not. A priority that rises there, or is 0, is refused at its byte. */
static void try_neighbours(size_t place, uint8_t version)
{
    uint8_t bytes[5 + 32 * 21];
    struct task tasks[32];
    struct table table;
    size_t at = record_at(version, place);

    for (size_t i = 0; i < 32; i++)
        tasks[i] = (struct task){(uint8_t)(100 - i), 1000 + (uint32_t)i, 1, 1000};
    table = (struct table){bytes, write_table(bytes, version, tasks, 32)};
    bytes[at] = tasks[place - 1].priority;
    if (compare("task with the priority before", place, table, 32, 32).verdict != 0) {
        printf("c: 32 tasks, number %lu as the one before: not schedulable\n",
               (unsigned long)place);
        exit(1);
    }
    expect_played("task with the priority before", place, table, 32, (uint64_t)9 << 32);
    expect_played("task with the priority before", place, table, 31, (uint64_t)8 << 32);
    try_claims("task with the priority before", place, table);
    bytes[at] = (uint8_t)(tasks[place - 1].priority + 1);
    expect("task with a risen priority", place, table, ((uint64_t)6 << 32) + at);
    bytes[at] = 0;
    expect("task with priority 0", place, table, ((uint64_t)6 << 32) + at);
}

static void try_groups(void)
{
    for (uint8_t version = 1; version <= 3; version++) {
        for (size_t i = 0; i < sizeof grouped_tables / sizeof grouped_tables[0]; i++)
            try_grouped(i, &grouped_tables[i], version);
        for (size_t place = 1; place < 32; place++)
            try_neighbours(place, version);
    }
}

/* Tables for the second analysis (document 02, L8), and what they get, worked out by hand. The
 * second task holds a semaphore of the first for that many ticks; with 0 there are no rows. */
struct overlapping {
    size_t n;
    struct task tasks[2];
    uint32_t held;
    uint64_t verdict;
    uint32_t answers[2], tried[2];
};

#define OPEN_AT(place) (((uint64_t)254 << 32) + (place))
#define LATE_AT(place) (((uint64_t)255 << 32) + (place))
#define DEADLINE_REFUSED (((uint64_t)5 << 32) + 14) /* that of the first task */

static const struct overlapping overlapping_tables[] = {
    /* "The example in 001 gives 10 and 15, its process 2 standing first." */
    {2, {{2, 20, 10, 20}, {1, 10, 5, 20}}, 0, 0, {10, 15}, {1, 2}},
    {1, {{1, 10, 14, 15}}, 0, LATE_AT(0), {0}, {2}},
    {1, {{1, 10, 14, 13}}, 0, LATE_AT(0), {0}, {1}},
    {1, {{1, 10, 6, 5}}, 0, LATE_AT(0), {0}, {1}},
    {1, {{1, 10, 10, 10}}, 0, 0, {10}, {1}},
    /* R is 33 + q */
    {1, {{1, 32, 33, 128}}, 0, OPEN_AT(0), {ULMERASCIO_OPEN}, {64}},
    /* R is 23 + q, and above 85 at the last q */
    {1, {{1, 22, 23, 85}}, 0, LATE_AT(0), {0}, {64}},
    {1, {{1, 22, 23, 86}}, 0, OPEN_AT(0), {ULMERASCIO_OPEN}, {64}},
    /* R is 2 for every q */
    {2, {{2, 1, 1, 4}, {1, 8, 1, 8}}, 1, OPEN_AT(0), {ULMERASCIO_OPEN, 0}, {64, 1}},
    /* R is 63 + 64 - q, and T at the last q; for the second task w is 65 + 63 * 65 */
    {2, {{2, 64, 63, 256}, {1, 1000000, 65, 1000000}}, 64, 0, {127, 4160}, {64, 1}},
    {2, {{2, 64, 63, 256}, {1, 1000000, 65, 1000000}}, 65, OPEN_AT(0), {ULMERASCIO_OPEN, 4160},
     {64, 1}},
    /* one priority */
    {2, {{1, 4, 2, 16}, {1, 6, 3, 24}}, 0, 0, {6, 7}, {3, 2}},
    {2, {{1, 4, 2, 5}, {1, 6, 3, 6}}, 0, LATE_AT(0), {0, 0}, {2, 1}},
    /* the second is open: the verdict says it only where the first is not late */
    {2, {{2, 100, 50, 49}, {1, 200, 101, 800}}, 0, LATE_AT(0), {0, ULMERASCIO_OPEN}, {1, 64}},
    {2, {{2, 100, 50, 50}, {1, 200, 101, 800}}, 0, OPEN_AT(1), {50, ULMERASCIO_OPEN}, {1, 64}},
    /* how long a deadline may be */
    {1, {{1, 1, 1, 4}}, 0, 0, {1}, {1}},
    {1, {{1, 1, 1, 5}}, 0, DEADLINE_REFUSED, {0}, {0}},
    {1, {{1, 1, 1, 0}}, 0, DEADLINE_REFUSED, {0}, {0}},
    {1, {{1, 249999, 1, 999996}}, 0, 0, {1}, {1}},
    {1, {{1, 249999, 1, 999997}}, 0, DEADLINE_REFUSED, {0}, {0}},
    {1, {{1, 250000, 1, 1000000}}, 0, 0, {1}, {1}},
    {1, {{1, 250000, 1, 1000001}}, 0, DEADLINE_REFUSED, {0}, {0}},
    {1, {{1, 1000000, 1000000, 1000000}}, 0, 0, {1000000}, {1}},
    {1, {{1, 1000000, 1, 1000001}}, 0, DEADLINE_REFUSED, {0}, {0}},
    {1, {{1, 1000000, 1, 4000000}}, 0, DEADLINE_REFUSED, {0}, {0}},
    {1, {{1, 1000000, 1, 4294967295u}}, 0, DEADLINE_REFUSED, {0}, {0}},
};

/* Adds two rows for semaphore 1: of the first task, for a tick, and of the second. */
static size_t add_rows(uint8_t *bytes, size_t length, uint32_t held)
{
    uint8_t *at = bytes + length;

    for (uint8_t place = 0; place < 2; place++) {
        *at++ = place;
        *at++ = 1;
        at = write_word(at, place ? held : 1);
    }
    bytes[2] = (uint8_t)(at - bytes);
    bytes[4] = 2;
    return bytes[2];
}

/* The second analysis is to give this verdict, and refusal 8 where a slice has no room; but a
 * deadline is refused before that. */
static void expect_past(const char *what, size_t number, struct table table, uint64_t wanted)
{
    size_t n = table.bytes[3], lengths[] = {0, n - 1, n, n + 1, LONGEST_SLICE};

    for (size_t i = 0; i < 5; i++)
        for (size_t j = 0; j < 5; j++) {
            int room = lengths[i] >= n && lengths[j] >= n;
            struct outcome past = compare_past(what, number, table, lengths[i], lengths[j]);

            expect_verdict(what, number, past.verdict,
                           room || wanted == DEADLINE_REFUSED ? wanted : (uint64_t)8 << 32);
        }
}

/* At last the table gets a delay, from version 2 on one that is always the same. */
static void try_overlapping(size_t number, const struct overlapping *overlapping, uint8_t version)
{
    static const char what[] = "table past the period";
    uint8_t bytes[5 + 2 * 21 + 2 * 6];
    struct table table = {bytes, write_table(bytes, version, overlapping->tasks, overlapping->n)};
    uint64_t wanted = overlapping->verdict;
    struct outcome past;
    size_t n = overlapping->n;

    if (overlapping->held)
        table.length = add_rows(bytes, table.length, overlapping->held);
    compare(what, number, table, n, n);
    expect_past(what, number, table, wanted);
    call(ulmerascio_analyse_past_period, table, n, n, &past);
    if (wanted != DEADLINE_REFUSED) {
        expect_words("answers", past.answers, overlapping->answers, n);
        expect_words("tried", past.rounds, overlapping->tried, n);
    }
    for (size_t delay = 0; delay < delays_in(version); delay++)
        bytes[record_at(version, n) - 4 * delay - 1] = 1;
    expect_past(what, number, table, wanted == DEADLINE_REFUSED ? wanted : (uint64_t)11 << 32);
}

static void try_overlaps(void)
{
    for (uint8_t version = 1; version <= 3; version++)
        for (size_t i = 0; i < sizeof overlapping_tables / sizeof overlapping_tables[0]; i++)
            try_overlapping(i, &overlapping_tables[i], version);
}

/* Claims for two tasks without delays, and what they get, worked out by hand. */
struct claimed {
    struct task tasks[2];
    uint32_t claims[3];
    size_t count;
    uint64_t wanted;
};

/* The demand of the second task is 2, and 2 for each job of the first. */
#define STEPPED {{2, 4, 2, 4}, {1, 10, 2, 10}}
/* The first may have to wait for the second too. */
#define EQUAL {{1, 4, 2, 4}, {1, 10, 2, 10}}

static const struct claimed claimed_tables[] = {
    {STEPPED, {2, 4}, 2, 0},
    {STEPPED, {2, 5}, 2, ((uint64_t)255 << 32) + 1}, /* at 5 a second job counts */
    {STEPPED, {2, 6}, 2, 0},
    {STEPPED, {4, 10}, 2, 0},
    {STEPPED, {2, 3}, 2, ((uint64_t)255 << 32) + 1},
    {STEPPED, {2, 11}, 2, ((uint64_t)255 << 32) + 1},
    {STEPPED, {1, 5}, 2, (uint64_t)255 << 32},
    {STEPPED, {5, 4}, 2, (uint64_t)255 << 32},
    {STEPPED, {2}, 1, (uint64_t)10 << 32},
    {STEPPED, {2, 4, 4}, 3, (uint64_t)10 << 32},
    {STEPPED, {0}, 0, (uint64_t)10 << 32},
    {EQUAL, {4, 4}, 2, 0},
    {EQUAL, {2, 4}, 2, (uint64_t)255 << 32},
    {EQUAL, {4, 5}, 2, ((uint64_t)255 << 32) + 1},
};

static void expect_claims(const char *what, size_t number, struct table table,
                          struct claims claims, uint64_t wanted)
{
    struct outcome analysed;
    uint64_t ours;

    call(ulmerascio_analyse, table, LONGEST_SLICE, LONGEST_SLICE, &analysed);
    ours = compare_claims(what, number, table, claims, &analysed);
    if (ours != wanted)
        fail_claims(what, number, claims, ours, "not", wanted);
}

static void try_claimed(size_t number, const struct claimed *claimed, uint8_t version)
{
    static const char what[] = "claims by hand";
    uint8_t bytes[5 + 2 * 21];
    struct table table = {bytes, write_table(bytes, version, claimed->tasks, 2)};
    struct claims claims = {calloc(claimed->count + 65536, sizeof(uint32_t)), claimed->count};

    if (!claims.words) {
        perror("memory");
        exit(1);
    }
    memcpy(claims.words, claimed->claims, claimed->count * sizeof claims.words[0]);
    expect_claims(what, number, table, claims, claimed->wanted);
    /* A number of claims that a byte or a 16-bit word cuts to the right one is still wrong. */
    claims.count = claimed->count + 256;
    expect_claims(what, number, table, claims, (uint64_t)10 << 32);
    claims.count = claimed->count + 65536;
    expect_claims(what, number, table, claims, (uint64_t)10 << 32);
    free(claims.words);
}

static void try_claims_by_hand(void)
{
    for (uint8_t version = 1; version <= 3; version++)
        for (size_t i = 0; i < sizeof claimed_tables / sizeof claimed_tables[0]; i++)
            try_claimed(i, &claimed_tables[i], version);
}

/* One entry of the file with claims; gives the byte behind it. */
static const uint8_t *try_claims_entry(size_t number, const uint8_t *at, const uint8_t *end)
{
    uint32_t words[MOST_CLAIMS];
    struct claims claims = {words, 0};
    struct outcome analysed;
    struct table table = {at + CLAIMS_HEADER, 0};

    if (end - at >= CLAIMS_HEADER) {
        table.length = (size_t)at[0] << 8 | at[1];
        claims.count = at[2];
    }
    if ((size_t)(end - at) < CLAIMS_HEADER + table.length + 4 * claims.count) {
        printf("c: claims %lu are cut short\n", (unsigned long)number);
        exit(1);
    }
    at = table.bytes + table.length;
    for (size_t i = 0; i < claims.count; i++, at += 4)
        words[i] = word_at(at);
    call(ulmerascio_analyse, table, LONGEST_SLICE, LONGEST_SLICE, &analysed);
    compare_claims("claims", number, table, claims, &analysed);
    return at;
}

static void try_claims_file(const char *name)
{
    size_t length, number = 0;
    uint8_t *data = read_file(name, &length);

    for (const uint8_t *at = data; at < data + length; number++)
        at = try_claims_entry(number, at, data + length);
    if (number <= FEWEST_LISTS) {
        printf("c: only %lu lists of claims\n", (unsigned long)number);
        exit(1);
    }
    free(data);
}

/* Its 1,061 or 4,589 bytes are taken, one less or more is refused; and every byte is changed once,
 * in version 3 the last and one in 23 before it. */
static void try_longest(uint8_t version)
{
    uint8_t *bytes = longest_table(version);
    struct table table = {bytes, longest_length(version)};
    size_t n = most_tasks(version), step = version == 3 ? 23 : 1;

    if (compare("longest table", version, table, n, n).verdict != 0) {
        printf("c: the longest table of version %d is not schedulable\n", version);
        exit(1);
    }
    expect("table a byte too short", version, (struct table){bytes, table.length - 1},
           (uint64_t)4 << 32);
    expect("table a byte too long", version, (struct table){bytes, table.length + 1},
           (uint64_t)4 << 32);
    write_length(bytes, table.length + 1);
    expect("table that says so", version, (struct table){bytes, table.length + 1},
           (uint64_t)4 << 32);
    write_length(bytes, table.length);
    for (size_t i = (table.length - 1) % step; i < table.length; i += step) {
        uint8_t old = bytes[i];

        bytes[i] = old ^ 0xFF;
        compare("longest table with another byte", i, table, n, n);
        compare_play("longest table with another byte", i, table, n);
        try_claims("longest table with another byte", i, table);
        bytes[i] = old;
    }
    free(bytes);
}

/* The same table with so many neighbours in one group, the last group with what is left; in version
 * 3 with 2, 27, 52 and so on. */
static void try_group_sizes(uint8_t version)
{
    uint8_t *bytes = longest_table(version);
    struct table table = {bytes, longest_length(version)};
    size_t n = most_tasks(version), step = version == 3 ? 25 : 1;

    for (size_t size = 2; size <= n; size += step) {
        for (size_t i = 0; i < n; i++)
            bytes[record_at(version, i)] = (uint8_t)(n - i / size);
        compare("longest table in groups", size, table, n, n);
        compare_play("longest table in groups", size, table, n);
        try_claims("longest table in groups", size, table);
    }
    free(bytes);
}

/* A change to the longest table of version 3, and the refusal that it brings. Record 199 begins at
 * byte 4184, row 63 at byte 4583. */
struct wide_fault {
    size_t at;
    uint8_t to;
    uint32_t refusal, place;
};

static const struct wide_fault wide_faults[] = {
    {0, 0, 2, 0},
    {0, 4, 2, 0},
    {0, 9, 2, 0},
    {0, 2, 3, 3},          /* version 2 has no 200 tasks */
    {0, 1, 3, 3},
    {3, 0, 3, 3},
    {3, 201, 3, 3},
    {3, 255, 3, 3},
    {4, 65, 3, 4},
    {3, 199, 4, 0},
    {4185, 1, 5, 4185},    /* T is above 1,000,000 */
    {4192, 0, 5, 4189},    /* C is 0 */
    {4196, 0xB0, 5, 4193}, /* D is T + 1 */
    {4197, 1, 5, 4197},    /* the earliest delay is above 1,000,000 */
    {4204, 4, 5, 4201},    /* the latest is below the earliest */
    {4201, 1, 5, 4201},    /* the latest is above 1,000,000 */
    {4184, 0, 6, 4184},
    {4184, 3, 6, 4184},    /* the priority rises above the record before */
    {4583, 200, 7, 4583},  /* the place is n */
    {4583, 255, 7, 4583},
    {4584, 17, 7, 4584},   /* the semaphore is 17 */
    {4588, 4, 7, 4585},    /* the length is C + 1 */
    {4588, 0, 7, 4585},
    {4583, 198, 7, 4583},  /* out of order */
    {4584, 1, 7, 4583},    /* as the row before it */
};

static void try_wide_faults(void)
{
    uint8_t *bytes = longest_table(3);

    for (size_t i = 0; i < sizeof wide_faults / sizeof wide_faults[0]; i++) {
        const struct wide_fault *fault = &wide_faults[i];
        uint8_t old = bytes[fault->at];

        bytes[fault->at] = fault->to;
        expect("fault of version 3", i, (struct table){bytes, longest_length(3)},
               (uint64_t)fault->refusal << 32 | fault->place);
        bytes[fault->at] = old;
    }
    free(bytes);
}

/* Writes a version 3 table of n tasks alike, with priorities n to 1. There is room for one task more
 * than there may be. */
static struct table wide_table(uint8_t *bytes, size_t n, uint32_t T, uint32_t C, uint32_t D)
{
    struct task tasks[ULMERASCIO_MOST_TASKS + 1];

    for (size_t i = 0; i < n; i++)
        tasks[i] = (struct task){(uint8_t)(n - i), T, C, D};
    return (struct table){bytes, write_table(bytes, 3, tasks, n)};
}

/* The numbers C, 2C, 3C and so on. */
static void count_up(uint32_t *words, size_t n, uint32_t C)
{
    for (size_t i = 0; i < n; i++)
        words[i] = C * (uint32_t)(i + 1);
}

/* Lists of n claims, of which the last is as it should be or one too small; of one too few, one too
 * many, and none. */
static void try_wide_claims(struct table table, size_t n)
{
    static const char what[] = "claims for version 3";
    uint32_t words[ULMERASCIO_MOST_TASKS + 1];

    count_up(words, n + 1, 1);
    expect_claims(what, n, table, (struct claims){words, n}, 0);
    expect_claims(what, n, table, (struct claims){words, n - 1}, (uint64_t)10 << 32);
    expect_claims(what, n, table, (struct claims){words, n + 1}, (uint64_t)10 << 32);
    expect_claims(what, n, table, (struct claims){words, 0}, (uint64_t)10 << 32);
    words[n - 1]--;
    expect_claims(what, n, table, (struct claims){words, n}, LATE_AT(n - 1));
}

/* n tasks of one tick each: the answers are 1 to n. Then the last one has a tick too few. */
static void try_counted(size_t n)
{
    static const char what[] = "table of version 3";
    uint8_t bytes[5 + 21 * (ULMERASCIO_MOST_TASKS + 1)];
    uint32_t answers[ULMERASCIO_MOST_TASKS], ones[ULMERASCIO_MOST_TASKS];
    struct table table = wide_table(bytes, n, 1000, 1, 1000);
    struct outcome outcome;

    count_up(answers, n, 1);
    for (size_t i = 0; i < n; i++)
        ones[i] = 1;
    outcome = compare(what, n, table, n, LONGEST_SLICE);
    expect_verdict(what, n, outcome.verdict, 0);
    expect_words("answers", outcome.answers, answers, n);
    expect_rounds(&every_cost, table, ones);
    expect_past(what, n, table, 0);
    expect_played(what, n, table, n, 0);
    expect_played(what, n, table, LONGEST_SLICE, 0);
    expect_played(what, n, table, n - 1, (uint64_t)8 << 32);
    expect_verdict(what, n, compare(what, n, table, n - 1, n).verdict, (uint64_t)8 << 32);
    expect_verdict(what, n, compare(what, n, table, n, n - 1).verdict, (uint64_t)8 << 32);
    try_wide_claims(table, n);
    if (n > 1) {
        write_word(bytes + record_at(3, n - 1) + 9, (uint32_t)n - 1);
        expect("last task too late", n, table, LATE_AT(n - 1));
    }
}

/* One task more than there may be, in each version; and 33 tasks as version 2 and 3. */
static void try_counts_of_versions(void)
{
    uint8_t bytes[5 + 21 * (ULMERASCIO_MOST_TASKS + 1)];
    struct table table = wide_table(bytes, ULMERASCIO_MOST_TASKS + 1, 1000, 1, 1000);

    expect("201 tasks", 3, table, ((uint64_t)3 << 32) + 3);
    for (size_t n = 32; n <= 33; n++) {
        table = wide_table(bytes, n, 1000, 1, 1000);
        expect("table of versions 2 and 3", n, table, 0);
        bytes[0] = 2;
        expect("table of versions 2 and 3", n, table, n == 32 ? 0 : ((uint64_t)3 << 32) + 3);
    }
}

/* 200 tasks with deadlines of four periods: together they take exactly one period. A tick less of it
 * leaves the last one open: "R is 498,750 + q". Then a delay. */
static void try_wide_overlaps(void)
{
    static const char what[] = "table of 200 tasks past the period";
    uint8_t bytes[5 + 21 * (ULMERASCIO_MOST_TASKS + 1)];
    uint32_t answers[ULMERASCIO_MOST_TASKS];
    struct table table = wide_table(bytes, 200, 250000, 1250, 1000000);
    struct outcome past;

    count_up(answers, 200, 1250);
    expect_past(what, 0, table, 0);
    call(ulmerascio_analyse_past_period, table, 200, 200, &past);
    expect_words("answers", past.answers, answers, 200);
    table = wide_table(bytes, 200, 249999, 1250, 999996);
    expect_past(what, 1, table, OPEN_AT(199));
    bytes[record_at(3, 200) - 1] = 1;
    expect_past(what, 2, table, (uint64_t)11 << 32);
}

static void try_wide(void)
{
    static const size_t counts[] = {1, 32, 33, 63, 64, 65, 128, 129, 192, 193, 199, 200};

    for (size_t i = 0; i < sizeof counts / sizeof counts[0]; i++)
        try_counted(counts[i]);
    try_counts_of_versions();
    try_wide_faults();
    try_wide_overlaps();
}

int main(int count, char **words)
{
    size_t length, at = 0, number = 0;
    uint8_t *data;

    if (count != 3) {
        fprintf(stderr, "usage: test_firmware TABLES CLAIMS\n");
        return 1;
    }
    data = read_file(words[1], &length);
    for (; at < length; number++) {
        struct outcome outcome;
        struct table table;
        struct entry entry;

        at = read_entry(data, length, at, number, &entry);
        table = entry.table;
        outcome = compare("entry", number, table, entry.answers_len, entry.rounds_len);
        compare_play("entry", number, table, entry.answers_len);
        try_claims("entry", number, table);
        if (!ulmerascio_is_refused(outcome.verdict))
            for (size_t shift = 0; shift < 4; shift++)
                try_longer_deadlines("entry with longer deadlines", number, table, shift);
        if (number < WORKED_TABLES) {
            try_slice_lengths(number, table, &outcome);
            try_rounds(number, table);
        }
        if (number == FIFTH_TABLE)
            try_far_too_long(number, table);
        if (number == SECTIONS_TABLE)
            try_places("fault", table, faults, sizeof faults / sizeof faults[0]);
    }
    if (number <= WORKED_TABLES) {
        printf("c: only %lu entries\n", (unsigned long)number);
        return 1;
    }
    free(data);
    try_delays();
    try_groups();
    for (uint8_t version = 2; version <= 3; version++) {
        try_longest(version);
        try_group_sizes(version);
    }
    try_overlaps();
    try_wide();
    try_claims_by_hand();
    try_claims_file(words[2]);
    printf("c: %lu calls agree; %lu plays, %lu of them not refused; %lu lists of claims, %lu of "
           "them pass; %lu calls past the period, %lu of them not refused, with %lu tasks that try "
           "more than one q, %lu of them open\n", calls, plays, taken, lists, passed, overlaps,
           overlaps_taken, repeated, undecided);
    return 0;
}
