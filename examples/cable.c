/* cable.c: a table that comes over a cable, one byte at a time. May it be loaded?
 *
 * A device that is sent a table seldom gets it whole. This program keeps each byte when it comes,
 * with the library's intake, and answers when the table has ended. Its cable is standard input, and
 * where that ends, the table ends.
 *
 * In the project's folder, after ./library:
 *
 *     gcc -Itarget/c -o cable examples/cable.c target/c/libulmerascio.a
 *     ./cable < examples/fifth.table
 *
 * It prints a line for each task, with its longest response time in ticks, and then "schedulable" or
 * "late", or one line with the reason why the table is refused. The exit status is 0 if the table is
 * schedulable, 3 if a task is late, 4 if the table is refused, and 1 if there is no answer. */
#include <stdio.h>

#include "ulmerascio.h"

/* What has come of the table, and how many bytes that is. */
static uint8_t store[ULMERASCIO_STORE_BYTES];
static size_t fill;

/* What the analysis says of each task. */
static uint32_t answers[ULMERASCIO_MOST_TASKS], rounds[ULMERASCIO_MOST_TASKS];

/* Takes one byte after the other, up to the end. A cable that fails does not end a table: then 0 is
 * returned, and what has come is given up. */
static int receive_table(void)
{
    int got;

    ulmerascio_intake_begin(&fill);
    while ((got = getchar()) != EOF) {
        uint8_t byte = (uint8_t)got;

        /* What it returns need not be looked at: the end says if something is wrong. */
        ulmerascio_intake_take(store, sizeof store, &fill, &byte, 1);
    }
    return !ferror(stdin);
}

/* A table that is not refused has the number of its tasks in byte 3. */
static void print_answers(void)
{
    for (unsigned task = 0; task < store[3]; task++)
        if (answers[task])
            printf("%u response %lu\n", task, (unsigned long)answers[task]);
        else
            printf("%u late\n", task);
}

/* Prints what is said of the table; returns the exit status. */
static int print_verdict(uint64_t verdict)
{
    unsigned long place = ulmerascio_place(verdict);

    if (ulmerascio_is_refused(verdict)) {
        printf("refused %d at %lu\n", ulmerascio_refusal(verdict), place);
        return 4;
    }
    if (ulmerascio_is_wrong_use(verdict)) {
        fprintf(stderr, "cable: the store is too short, or nobody has begun\n");
        return 1;
    }
    print_answers();
    if (ulmerascio_is_schedulable(verdict)) {
        puts("schedulable");
        return 0;
    }
    printf("late %lu\n", place);
    return 3;
}

int main(void)
{
    if (!receive_table()) {
        perror("cable");
        return 1;
    }
    return print_verdict(ulmerascio_intake_end(store, sizeof store, &fill,
                                               answers, ULMERASCIO_MOST_TASKS,
                                               rounds, ULMERASCIO_MOST_TASKS));
}
