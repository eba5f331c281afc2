/* plain_report.c: the program of a term's report (document 02, L10) as one would write it in C,
 * without proofs, to be linked with plain.c: it gathers the table at hand in a store, has
 * plain_analyse judge it, and puts its line into a buffer, which is written before the next read.
 * The bounds are worked out once, at the start, by floating point. */
#include <errno.h>
#include <math.h>
#include <stdio.h>
#include <string.h>
#include <unistd.h>

#include "plain.h"

enum {
    HEAD_BYTES = 5,
    MOST_BYTES = 4589, /* of a table within the rules */
    MOST_TASKS = 200,
    PIECE_BYTES = 4096,  /* of one read */
    LINES_BYTES = 65536, /* more than the lines of all tables that end in one piece take */
    LATE = 255
};

static const uint64_t LARGEST_MULTIPLE = 1000000000000;

static uint32_t bounds[MOST_TASKS + 1];

struct text {
    size_t end;
    char bytes[LINES_BYTES];
};

struct report {
    uint64_t schedulable, late, refused;
    /* Of the table at hand: the bytes that have come, how many it has, which is 5 until its head has
     * come, and how many of them are in the store. */
    size_t come, due, kept;
    uint8_t store[MOST_BYTES];
};

/* Liu and Layland's, in millionths, rounded down. No number before the rounding is so near a whole
 * one that floating point could be wrong; that of one task is exact. */
static void make_bounds(void)
{
    for (size_t n = 1; n <= MOST_TASKS; n++)
        bounds[n] = (uint32_t)(1e6 * (double)n * (exp2(1.0 / (double)n) - 1));
}

static uint32_t big_endian_32(const uint8_t *at)
{
    return (uint32_t)at[0] << 24 | (uint32_t)at[1] << 16 | (uint32_t)at[2] << 8 | at[3];
}

static size_t record_bytes(const uint8_t *table)
{
    return table[0] == 1 ? 17 : 21;
}

/* Each share is rounded up. */
static uint64_t utilisation(const uint8_t *table)
{
    const uint8_t *record = table + HEAD_BYTES;
    uint64_t sum = 0;

    for (size_t i = 0; i < table[3]; i++, record += record_bytes(table)) {
        uint64_t T = big_endian_32(record + 1), C = big_endian_32(record + 5);

        sum += (1000000 * C + T - 1) / T;
    }
    return sum;
}

static uint64_t common_divisor(uint64_t a, uint64_t b)
{
    while (b) {
        uint64_t rest = a % b;

        a = b;
        b = rest;
    }
    return a;
}

/* The least common multiple of the periods, or 0 where it is over. */
static uint64_t hyperperiod(const uint8_t *table)
{
    const uint8_t *record = table + HEAD_BYTES;
    uint64_t common = 1;

    for (size_t i = 0; i < table[3]; i++, record += record_bytes(table)) {
        uint64_t T = big_endian_32(record + 1);

        if (common == 1) {
            common = T;
            continue;
        }
        uint64_t rest = common % T;

        if (rest == 0)
            continue;
        common = common / common_divisor(T, rest) * T;
        if (common > LARGEST_MULTIPLE)
            return 0;
    }
    return common;
}

static void put_word(struct text *text, const char *word)
{
    size_t length = strlen(word);

    memcpy(text->bytes + text->end, word, length);
    text->end += length;
}

static void put_number(struct text *text, uint64_t number)
{
    char digits[20];
    size_t first = sizeof digits;

    do {
        digits[--first] = (char)('0' + number % 10);
        number /= 10;
    } while (number);
    memcpy(text->bytes + text->end, digits + first, sizeof digits - first);
    text->end += sizeof digits - first;
}

static void put_figures(struct text *lines, const uint8_t *table)
{
    uint64_t multiple = hyperperiod(table);

    put_word(lines, " utilisation ");
    put_number(lines, utilisation(table));
    put_word(lines, " bound ");
    put_number(lines, bounds[table[3]]);
    put_word(lines, " hyperperiod ");
    if (multiple)
        put_number(lines, multiple);
    else
        put_word(lines, "over");
}

/* The table at hand is whole. */
static void end_table(struct report *report, struct text *lines)
{
    uint32_t answers[MOST_TASKS], rounds[MOST_TASKS];
    uint64_t verdict = plain_analyse(report->store, report->kept, answers, MOST_TASKS, rounds,
                                     MOST_TASKS);
    uint32_t code = (uint32_t)(verdict >> 32);

    put_number(lines, report->schedulable + report->late + report->refused);
    if (code == 0) {
        put_word(lines, " schedulable");
        put_figures(lines, report->store);
        report->schedulable++;
    } else if (code == LATE) {
        put_word(lines, " late");
        put_figures(lines, report->store);
        report->late++;
    } else {
        put_word(lines, " refused ");
        put_number(lines, code);
        put_word(lines, " at ");
        put_number(lines, (uint32_t)verdict);
        report->refused++;
    }
    put_word(lines, "\n");
    report->come = 0;
    report->due = HEAD_BYTES;
    report->kept = 0;
}

/* Bytes of the table at hand; what has no room in the store is skipped. */
static void gather(struct report *report, const uint8_t *bytes, size_t count)
{
    size_t room = MOST_BYTES - report->kept, kept = count < room ? count : room;

    memcpy(report->store + report->kept, bytes, kept);
    report->kept += kept;
    report->come += count;
}

/* A piece of the file; answers 0 where a stated length below 5 closes the report. */
static int take_in(struct report *report, const uint8_t *piece, size_t count, struct text *lines)
{
    for (size_t used = 0, part; used < count; used += part) {
        part = report->due - report->come;
        if (part > count - used)
            part = count - used;
        gather(report, piece + used, part);
        if (report->come == HEAD_BYTES)
            report->due = (size_t)report->store[1] << 8 | report->store[2];
        if (report->due < report->come)
            return 0;
        if (report->due == report->come)
            end_table(report, lines);
    }
    return 1;
}

static int write_all(const struct text *text)
{
    for (size_t done = 0; done < text->end;) {
        ssize_t put = write(STDOUT_FILENO, text->bytes + done, text->end - done);

        if (put <= 0)
            return 0;
        done += (size_t)put;
    }
    return 1;
}

static void close_report(const struct report *report, struct text *text)
{
    text->end = 0;
    put_word(text, "schedulable ");
    put_number(text, report->schedulable);
    put_word(text, " late ");
    put_number(text, report->late);
    put_word(text, " refused ");
    put_number(text, report->refused);
    put_word(text, report->come ? "\nbroken\n" : "\n");
    write_all(text);
}

int main(void)
{
    static uint8_t piece[PIECE_BYTES];
    static struct text lines;
    static struct report report = {.due = HEAD_BYTES};
    int open = 1;

    make_bounds();
    while (open) {
        ssize_t got = read(STDIN_FILENO, piece, sizeof piece);

        if (got < 0) {
            fprintf(stderr, "the tables: %s\n", strerror(errno));
            return 0;
        }
        if (got == 0)
            break;
        lines.end = 0;
        open = take_in(&report, piece, (size_t)got, &lines);
        if (!write_all(&lines)) {
            fprintf(stderr, "the report: %s\n", strerror(errno));
            return 0;
        }
    }
    close_report(&report, &lines);
    return 0;
}
