/* test_intake TABLES: feeds tables to the library's intake (document 02, L11) in pieces of many
 * kinds, and compares what it gives at the end, the verdict and every word of both slices, with what
 * the library's own analysis gives for the whole bytes. Plain C's intake (bench/plain_intake.c) gets
 * the same calls. After each of them every byte of both stores, the bytes on both sides of them and
 * both fills are compared with a third store and fill, which this program keeps itself.
 *
 * The tables are those of the file, which "tests/reference.py make" wrote, and longer ones that are
 * made here. Each table of the file comes whole, in single bytes, in pieces of 64, in random pieces
 * with empty ones among them, and in two pieces, cut at every place. Behind an end the next table
 * comes without a begin. A table that is cut in two is ended each time, but one that takes many
 * rounds or has more than OFTEN_ENDED bytes only for every 101st cut and the last; for the others a
 * begin follows when the stores are compared. */
#include <stdio.h>
#include <stdlib.h>
#include <string.h>

#include "plain.h"
#include "tables.h"
#include "ulmerascio.h"

enum {
    STORE = ULMERASCIO_STORE_BYTES,
    LONGEST_STORE = STORE + 1000,
    MARGIN = 64,         /* bytes on both sides of a store, which must stay */
    HUGE_PIECE = 100000,
    MANY_ROUNDS = 300,   /* of all tasks together */
    OFTEN_ENDED = 400,
    CUTS_APART = 101,
    FEWEST_TABLES = 1000 /* the file has more */
};

/* What an intake is lent. */
struct lent {
    uint8_t memory[MARGIN + LONGEST_STORE + MARGIN];
    size_t fill;
};

static struct lent ours, plain, wanted;
static size_t store_len = STORE;

/* What is tried at the moment, for the message if it fails. */
static const char *what = "first begin";
static size_t number, cut;

static unsigned long taken, ended;

/* A table, or other bytes, and what the analysis says of all of them. */
struct input {
    struct table table;
    size_t answers_len, rounds_len;
    struct outcome whole;
};

/* ---- One call, of all three. */

static void fail(const char *which, unsigned long long is, unsigned long long should)
{
    printf("c: intake, %s %lu, cut at %lu: %s %llx, not %llx\n", what, (unsigned long)number,
           (unsigned long)cut, which, is, should);
    exit(1);
}

static void compare_lent(const struct lent *lent, const char *fill, const char *memory)
{
    if (lent->fill != wanted.fill)
        fail(fill, lent->fill, wanted.fill);
    if (!memcmp(lent->memory, wanted.memory, sizeof wanted.memory))
        return;
    for (size_t i = 0; i < sizeof wanted.memory; i++)
        if (lent->memory[i] != wanted.memory[i]) {
            printf("c: byte %ld of the store:\n", (long)i - MARGIN);
            fail(memory, lent->memory[i], wanted.memory[i]);
        }
}

static void compare_both(void)
{
    compare_lent(&ours, "our fill", "our byte");
    compare_lent(&plain, "plain C's fill", "plain C's byte");
}

static void begin(void)
{
    ulmerascio_intake_begin(&ours.fill);
    plain_intake_begin(&plain.fill);
    wanted.fill = 0;
    compare_both();
}

/* What is to be said of the store and the fill as they are. */
static uint32_t wanted_code(void)
{
    if (store_len < STORE)
        return ULMERASCIO_SHORT_STORE;
    return wanted.fill > STORE ? ULMERASCIO_WRONG_FILL : 0;
}

static void take(const uint8_t *piece, size_t piece_len)
{
    uint32_t code = wanted_code();
    uint32_t our_code = ulmerascio_intake_take(ours.memory + MARGIN, store_len, &ours.fill, piece,
                                               piece_len);
    uint32_t plain_code = plain_intake_take(plain.memory + MARGIN, store_len, &plain.fill, piece,
                                            piece_len);

    if (code == 0)
        for (size_t i = 0; i < piece_len && wanted.fill < STORE; i++)
            wanted.memory[MARGIN + wanted.fill++] = piece[i];
    if (our_code != code)
        fail("our code of a piece", our_code, code);
    if (plain_code != code)
        fail("plain C's code of a piece", plain_code, code);
    compare_both();
    taken++;
}

typedef uint64_t intake_end(const uint8_t *, size_t, size_t *, uint32_t *, size_t, uint32_t *,
                            size_t);

static void compare_end(intake_end *end, const char *whose, struct lent *lent, size_t answers_len,
                        size_t rounds_len, const struct outcome *whole)
{
    struct outcome outcome;
    int writes = ulmerascio_is_schedulable(whole->verdict) || ulmerascio_is_late(whole->verdict);
    size_t n = writes ? wanted.memory[MARGIN + 3] : 0;

    clear_outcome(&outcome);
    outcome.verdict = end(lent->memory + MARGIN, store_len, &lent->fill, outcome.answers + GUARD,
                          answers_len, outcome.rounds + GUARD, rounds_len);
    if (outcome.verdict != whole->verdict)
        fail(whose, outcome.verdict, whole->verdict);
    compare_slice("answers", outcome.answers, whole->answers);
    compare_slice("rounds", outcome.rounds, whole->rounds);
    check_stayed("answers", outcome.answers, n);
    check_stayed("rounds", outcome.rounds, n);
    check_helpers(outcome.verdict);
}

/* The end, which is to give this outcome, and leaves a fill of 0 unless the store is too short. */
static void end_as(size_t answers_len, size_t rounds_len, const struct outcome *whole)
{
    compare_end(ulmerascio_intake_end, "our verdict", &ours, answers_len, rounds_len, whole);
    compare_end(plain_intake_end, "plain C's verdict", &plain, answers_len, rounds_len, whole);
    if (store_len >= STORE)
        wanted.fill = 0;
    compare_both();
    ended++;
}

static void end(const struct input *input)
{
    end_as(input->answers_len, input->rounds_len, &input->whole);
}

/* The end where the store or the fill is wrong. */
static void end_wrong(uint64_t code)
{
    struct outcome nothing;

    clear_outcome(&nothing);
    nothing.verdict = code << 32;
    end_as(LONGEST_SLICE, LONGEST_SLICE, &nothing);
}

/* ---- Pieces. */

static struct input input_of(struct table table, size_t answers_len, size_t rounds_len)
{
    struct input input = {table, answers_len, rounds_len, {0}};

    call(ulmerascio_analyse, table, answers_len, rounds_len, &input.whole);
    return input;
}

/* A number below that one; the same ones at every run. */
static uint32_t draw(uint32_t below)
{
    static uint32_t state = 2463534242u;

    state ^= state << 13;
    state ^= state >> 17;
    state ^= state << 5;
    return state % below;
}

/* One in four is empty, and one in four a single byte. */
static size_t random_length(void)
{
    static const uint32_t most[] = {0, 1, 20, 900};
    uint32_t kind = draw(4);

    return kind < 2 ? most[kind] : draw(most[kind] + 1);
}

static void take_randomly(struct table table)
{
    size_t length;

    for (size_t at = 0; at < table.length; at += length) {
        length = random_length();
        if (length > table.length - at)
            length = table.length - at;
        take(table.bytes + at, length);
    }
    if (draw(2))
        take(table.bytes, 0);
}

static void take_equally(struct table table, size_t piece_len)
{
    for (size_t at = 0; at < table.length; at += piece_len)
        take(table.bytes + at, piece_len < table.length - at ? piece_len : table.length - at);
}

static void take_cut(struct table table, size_t at)
{
    take(table.bytes, at);
    take(table.bytes + at, table.length - at);
}

/* Whole, in single bytes, in pieces of 64, and in random ones. */
static void try_pieces(const struct input *input)
{
    take(input->table.bytes, input->table.length);
    end(input);
    take_equally(input->table, 1);
    end(input);
    take_equally(input->table, 64);
    end(input);
    take_randomly(input->table);
    end(input);
}

static int seldom_ended(const struct input *input)
{
    unsigned long rounds = 0;

    if (ulmerascio_is_refused(input->whole.verdict))
        return input->table.length > OFTEN_ENDED;
    for (size_t i = 0; i < input->table.bytes[3]; i++)
        rounds += input->whole.rounds[GUARD + i];
    return rounds > MANY_ROUNDS || input->table.length > OFTEN_ENDED;
}

/* In two pieces. */
static void try_cuts(const struct input *input)
{
    size_t length = input->table.length, apart = seldom_ended(input) ? CUTS_APART : 1;

    for (cut = 0; cut <= length; cut++) {
        take_cut(input->table, cut);
        if (cut % apart == 0 || cut == length)
            end(input);
        else
            begin();
    }
    cut = 0;
}

static void try_file(const char *name)
{
    size_t length, at = 0;
    uint8_t *data = read_file(name, &length);
    struct entry entry;

    what = "entry";
    for (number = 0; at < length; number++) {
        struct input input;

        at = read_entry(data, length, at, number, &entry);
        input = input_of(entry.table, entry.answers_len, entry.rounds_len);
        try_pieces(&input);
        try_cuts(&input);
    }
    if (number < FEWEST_TABLES) {
        printf("c: only %lu entries\n", (unsigned long)number);
        exit(1);
    }
    free(data);
}

/* ---- Longer inputs. */

static struct input whole_input(struct table table)
{
    return input_of(table, ULMERASCIO_MOST_TASKS, ULMERASCIO_MOST_TASKS);
}

/* In pieces of each kind; then cut in two, about where the store is full too. */
static void try_input(struct table table)
{
    static const size_t cuts[] = {0, 1, 5, 4588, 4589, 4590, 4591, 5000};
    struct input input = whole_input(table);

    try_pieces(&input);
    for (size_t i = 0; i < sizeof cuts / sizeof cuts[0] && cuts[i] <= table.length; i++) {
        cut = cuts[i];
        take_cut(table, cut);
        end(&input);
    }
    cut = 0;
}

/* The longest table of version 3 in room for so many bytes more, which are not 0. */
static uint8_t *longest_and_more(size_t more)
{
    uint8_t *longest = longest_table(3);
    uint8_t *bytes = copy_bytes(longest, longest_length(3), longest_length(3) + more);

    memset(bytes + longest_length(3), 0x5A, more);
    free(longest);
    return bytes;
}

/* The longest table, and bytes behind it: up to so many that a 16-bit word cuts the length to the
 * stated one. Then it says itself that it is a byte longer. */
static void try_longest(void)
{
    static const size_t more[] = {0, 1, 2, 64, 5000, 65536};
    uint8_t *bytes = longest_and_more(65536);
    size_t length = longest_length(3);

    what = "longest table and bytes behind it,";
    for (size_t i = 0; i < sizeof more / sizeof more[0]; i++) {
        number = more[i];
        try_input((struct table){bytes, length + more[i]});
    }
    what = "longest table that says it is a byte longer,";
    write_length(bytes, length + 1);
    try_input((struct table){bytes, length + 1});
    free(bytes);
}

/* Beginnings of the same bytes, of lengths about that of the store, and a huge one. */
static void try_lengths(const uint8_t *bytes)
{
    static const size_t lengths[] = {0,    1,    4,    5,    6,    4588, 4589,
                                     4590, 4591, 4592, 8191, 9180, HUGE_PIECE};

    for (size_t i = 0; i < sizeof lengths / sizeof lengths[0]; i++) {
        number = lengths[i];
        try_input((struct table){bytes, lengths[i]});
    }
}

/* With heads that are refused for something else than the length, too. */
static void try_heads(void)
{
    static const struct {
        uint8_t version, n, m;
    } heads[] = {{3, 200, 64}, {3, 199, 64}, {3, 201, 64}, {3, 200, 65}, {2, 200, 64}, {0, 200, 64}};
    uint8_t *bytes = longest_and_more(HUGE_PIECE);

    what = "beginning of bytes, of length";
    for (size_t i = 0; i < sizeof heads / sizeof heads[0]; i++) {
        bytes[0] = heads[i].version;
        bytes[3] = heads[i].n;
        bytes[4] = heads[i].m;
        try_lengths(bytes);
    }
    free(bytes);
}

/* ---- Nothing, slices that are too short, and stores that are longer than they need be. */

static void try_nothing(void)
{
    static const uint8_t none[1];
    struct input input = whole_input((struct table){none, 0});

    what = "nothing, empty pieces";
    if (input.whole.verdict != (uint64_t)ULMERASCIO_REFUSED_SHORT << 32)
        fail("the verdict", input.whole.verdict, (uint64_t)ULMERASCIO_REFUSED_SHORT << 32);
    for (number = 0; number < 3; number++) {
        for (size_t i = 0; i < number; i++)
            take(none, 0);
        end(&input);
    }
}

static void try_slices(void)
{
    uint8_t *longest = longest_table(3);
    struct table table = {longest, longest_length(3)};
    size_t n = most_tasks(3), lengths[] = {0, 1, n - 1, n, n + 1, LONGEST_SLICE};

    what = "slices, the first of";
    for (size_t i = 0; i < 6; i++)
        for (size_t j = 0; j < 6; j++) {
            struct input input = input_of(table, lengths[i], lengths[j]);

            number = lengths[i];
            take_cut(table, lengths[j]);
            end(&input);
        }
    free(longest);
}

static void try_long_stores(void)
{
    for (store_len = STORE; store_len < LONGEST_STORE; store_len += 499)
        try_longest();
    store_len = STORE;
}

/* ---- Stores and fills that are wrong. */

static void set_fill(size_t fill)
{
    ours.fill = plain.fill = wanted.fill = fill;
}

/* A store that is too short: nothing is changed, whatever the fill is. */
static void try_short_store(const uint8_t *bytes)
{
    static const size_t fills[] = {0, 1, 4589, 4590, 4591, SIZE_MAX};

    for (size_t i = 0; i < sizeof fills / sizeof fills[0]; i++) {
        set_fill(fills[i]);
        take(bytes, 0);
        take(bytes, 1);
        take(bytes, HUGE_PIECE);
        end_wrong(ULMERASCIO_SHORT_STORE);
    }
}

/* So nothing is lost: a table goes on where it was when the store is long enough again. */
static void try_short_stores(void)
{
    static const size_t lengths[] = {0, 1, 4588, 4589};
    uint8_t *bytes = longest_and_more(HUGE_PIECE);
    struct input input = whole_input((struct table){bytes, longest_length(3)});

    what = "store of length";
    for (size_t i = 0; i < sizeof lengths / sizeof lengths[0]; i++) {
        number = lengths[i];
        store_len = lengths[i];
        try_short_store(bytes);
        store_len = STORE;
        begin();
        take(bytes, 1000);
        store_len = lengths[i];
        take(bytes + 1000, 1000);
        end_wrong(ULMERASCIO_SHORT_STORE);
        store_len = STORE;
        take(bytes + 1000, input.table.length - 1000);
        end(&input);
    }
    free(bytes);
}

/* A fill that is wrong: a piece changes nothing, and the end makes it 0, or a begin does. */
static void try_wrong_fills(void)
{
    static const size_t fills[] = {4591, 4592, 65535, SIZE_MAX / 2, SIZE_MAX - 4589, SIZE_MAX};
    uint8_t *longest = longest_table(3);
    struct input input = whole_input((struct table){longest, longest_length(3)});

    what = "fill";
    for (size_t i = 0; i < sizeof fills / sizeof fills[0]; i++) {
        number = fills[i];
        set_fill(fills[i]);
        take(longest, 0);
        take(longest, input.table.length);
        end_wrong(ULMERASCIO_WRONG_FILL);
        take(longest, input.table.length);
        end(&input);
        set_fill(fills[i]);
        begin();
        take(longest, input.table.length);
        end(&input);
    }
    free(longest);
}

/* The greatest fill that is not: what stands in the store is then analysed, with 4,590 bytes. */
static void try_full_store(void)
{
    uint8_t *longest = longest_table(3);
    struct input input = whole_input((struct table){wanted.memory + MARGIN, STORE});

    what = "fill";
    number = STORE;
    set_fill(STORE);
    take(longest, 0);
    take(longest, 1);
    take(longest, longest_length(3));
    end(&input);
    free(longest);
}

/* ---- The other functions, which are given the store and the fill. */

/* The engine, with a slice that it does not have. */
static uint64_t play(const uint8_t *table, size_t table_len, uint32_t *answers, size_t answers_len,
                     uint32_t *rounds, size_t rounds_len)
{
    (void)rounds;
    (void)rounds_len;
    return ulmerascio_play(table, table_len, answers, answers_len);
}

/* The checker of claims, for which the claims are the first slice. */
static uint64_t check_claims(const uint8_t *table, size_t table_len, uint32_t *answers,
                             size_t answers_len, uint32_t *rounds, size_t rounds_len)
{
    (void)rounds;
    (void)rounds_len;
    for (size_t i = 0; i < answers_len; i++)
        answers[i] = 999;
    return ulmerascio_check_claims(table, table_len, answers, answers_len);
}

/* What is kept of the table gets what all of it gets. */
static void try_other(const char *name, analysis *other, struct table table)
{
    size_t n = most_tasks(3);
    struct outcome kept, whole;

    take_randomly(table);
    call(other, (struct table){ours.memory + MARGIN, ours.fill}, n, n, &kept);
    call(other, table, n, n, &whole);
    if (kept.verdict != whole.verdict)
        fail(name, kept.verdict, whole.verdict);
    compare_slice("answers", kept.answers, whole.answers);
    compare_slice("rounds", kept.rounds, whole.rounds);
    begin();
}

/* The longest table without delays, which the engine plays if it has no rows either, and bytes
 * behind it. */
static void try_others(uint8_t rows)
{
    static const size_t more[] = {0, 1, 2, 385, 386, 5000};
    uint8_t *bytes = longest_and_more(5000);
    size_t length = record_at(3, most_tasks(3)) + 6 * (size_t)rows;

    write_length(bytes, length);
    bytes[4] = rows;
    for (size_t i = 0; i < most_tasks(3); i++)
        memset(bytes + record_at(3, i) + 13, 0, 8);
    what = "other functions, bytes behind the table";
    for (size_t i = 0; i < sizeof more / sizeof more[0]; i++) {
        struct table table = {bytes, length + more[i]};

        number = more[i];
        try_other("from own cost", ulmerascio_analyse_from_own_cost, table);
        try_other("past the period", ulmerascio_analyse_past_period, table);
        try_other("played", play, table);
        try_other("claims", check_claims, table);
    }
    free(bytes);
}

/* So that a byte that is written where none should be is seen. */
static void paint(void)
{
    for (size_t i = 0; i < sizeof wanted.memory; i++)
        wanted.memory[i] = (uint8_t)(3 + 7 * i);
    ours = plain = wanted;
}

int main(int count, char **words)
{
    if (count != 2) {
        fprintf(stderr, "usage: test_intake TABLES\n");
        return 1;
    }
    paint();
    begin();
    try_file(words[1]);
    try_longest();
    try_heads();
    try_nothing();
    try_slices();
    try_long_stores();
    try_short_stores();
    try_wrong_fills();
    try_full_store();
    try_others(64);
    try_others(0);
    printf("c: intake: %lu pieces and %lu ends agree\n", taken, ended);
    return 0;
}
