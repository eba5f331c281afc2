/* stack TABLE..: prints for each entry of the libraries how many bytes of stack its calls on these
 * tables need, with the return address; where the tables are of different kinds, the deepest call
 * counts.
 *
 * An entry is called on a stack of its own, which is painted before. The deepest byte that has
 * changed is taken to be the end of what it needs: a frame is seen as far down as something is
 * written to it, or to the frame of a function that it calls. */
#define _XOPEN_SOURCE 600
#include <stdio.h>
#include <stdlib.h>
#include <string.h>
#include <ucontext.h>

#include "ulmerascio.h"

enum { STACK_BYTES = 1 << 20, MOST_BYTES = 65536, RETURN_ADDRESS = 8 };

/* What is lent to every call. */
static uint8_t table[MOST_BYTES];
static size_t length;
static uint32_t answers[ULMERASCIO_MOST_TASKS], rounds[ULMERASCIO_MOST_TASKS];
static uint8_t store[ULMERASCIO_STORE_BYTES];
static size_t fill;

/* What the calls give goes here, so that none of them can be left out. */
static volatile uint64_t sink;

static ucontext_t outside, inside;
static union {
    uint8_t bytes[STACK_BYTES];
    uint64_t aligned;
} stack;

__attribute__((noinline)) static uint64_t nothing(const uint8_t *bytes, size_t bytes_len)
{
    __asm__ volatile("" : : "r"(bytes), "r"(bytes_len));
    return 0;
}

static void call_nothing(void)
{
    sink = nothing(table, length);
}

static void call_analyse(void)
{
    sink = ulmerascio_analyse(table, length, answers, ULMERASCIO_MOST_TASKS, rounds,
                              ULMERASCIO_MOST_TASKS);
}

static void call_analyse_from_own_cost(void)
{
    sink = ulmerascio_analyse_from_own_cost(table, length, answers, ULMERASCIO_MOST_TASKS, rounds,
                                            ULMERASCIO_MOST_TASKS);
}

static void call_analyse_past_period(void)
{
    sink = ulmerascio_analyse_past_period(table, length, answers, ULMERASCIO_MOST_TASKS, rounds,
                                          ULMERASCIO_MOST_TASKS);
}

static void call_play(void)
{
    sink = ulmerascio_play(table, length, answers, ULMERASCIO_MOST_TASKS);
}

/* As many claims as tasks; each is the deadline, so that all of a table in time are looked at. */
static void call_check_claims(void)
{
    sink = ulmerascio_check_claims(table, length, answers, table[3]);
}

static void call_intake_begin(void)
{
    ulmerascio_intake_begin(&fill);
}

/* The whole table in one piece. */
static void call_intake_take(void)
{
    fill = 0;
    sink = ulmerascio_intake_take(store, sizeof store, &fill, table, length);
}

static void call_intake_end(void)
{
    fill = length;
    sink = ulmerascio_intake_end(store, sizeof store, &fill, answers, ULMERASCIO_MOST_TASKS, rounds,
                                 ULMERASCIO_MOST_TASKS);
}

static const struct entry {
    const char *name;
    void (*call)(void);
} entries[] = {
    {"ulmerascio_analyse", call_analyse},
    {"ulmerascio_analyse_from_own_cost", call_analyse_from_own_cost},
    {"ulmerascio_analyse_past_period", call_analyse_past_period},
    {"ulmerascio_play", call_play},
    {"ulmerascio_check_claims", call_check_claims},
    {"ulmerascio_intake_begin", call_intake_begin},
    {"ulmerascio_intake_take", call_intake_take},
    {"ulmerascio_intake_end", call_intake_end},
};

enum { ENTRIES = sizeof entries / sizeof entries[0] };

static void write_claims(void)
{
    size_t record = table[0] == 1 ? 17 : 21;

    for (size_t i = 0; i < table[3] && i < ULMERASCIO_MOST_TASKS; i++) {
        const uint8_t *at = table + 5 + record * i + 9;

        answers[i] = (uint32_t)at[0] << 24 | (uint32_t)at[1] << 16 | (uint32_t)at[2] << 8 | at[3];
    }
}

/* Calls on the stack, which is painted with that byte before. */
static void call_painted(void (*call)(void), int paint)
{
    memset(stack.bytes, paint, sizeof stack.bytes);
    if (getcontext(&inside)) {
        perror("stack");
        exit(1);
    }
    inside.uc_stack.ss_sp = stack.bytes;
    inside.uc_stack.ss_size = sizeof stack.bytes;
    inside.uc_link = &outside;
    makecontext(&inside, call, 0);
    if (swapcontext(&outside, &inside)) {
        perror("stack");
        exit(1);
    }
}

/* How much of the stack has changed. */
static size_t painted_depth(void (*call)(void), int paint)
{
    size_t at = 0;

    write_claims();
    call_painted(call, paint);
    while (at < sizeof stack.bytes && stack.bytes[at] == (uint8_t)paint)
        at++;
    if (at == 0) {
        fprintf(stderr, "stack: a call needs more than %d bytes\n", STACK_BYTES);
        exit(1);
    }
    return sizeof stack.bytes - at;
}

/* The same, whatever the byte that it leaves at its end. */
static size_t depth_of(void (*call)(void))
{
    size_t first = painted_depth(call, 0xA5), second = painted_depth(call, 0x5A);

    return first > second ? first : second;
}

static void read_table(const char *name)
{
    FILE *file = fopen(name, "rb");

    if (!file) {
        perror(name);
        exit(1);
    }
    length = fread(table, 1, sizeof table, file);
    fclose(file);
    memcpy(store, table, sizeof store);
}

int main(int count, char **words)
{
    size_t deepest[ENTRIES] = {0};

    if (count < 2) {
        fprintf(stderr, "usage: stack TABLE..\n");
        return 2;
    }
    for (int i = 1; i < count; i++) {
        size_t none;

        read_table(words[i]);
        none = depth_of(call_nothing) - RETURN_ADDRESS;
        for (size_t k = 0; k < ENTRIES; k++) {
            size_t depth = depth_of(entries[k].call) - none;

            if (depth > deepest[k])
                deepest[k] = depth;
        }
    }
    for (size_t k = 0; k < ENTRIES; k++)
        printf("%s %lu\n", entries[k].name, (unsigned long)deepest[k]);
    return 0;
}
