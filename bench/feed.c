/* feed BYTES PIECE FILL REPEATS: sets the fill of an intake (document 02, L11) to FILL and has it
 * take the bytes of a file, in pieces of PIECE bytes, that many times, so that a counting tool can
 * take the difference of two runs. If PIECE is 0, it ends the table in the file instead, of which
 * the intake has taken what it keeps. The intake is that of the library if it is built with -DOURS,
 * else that of plain C. */
#include <stdio.h>
#include <stdlib.h>
#include <string.h>

#ifdef OURS
#include "ulmerascio.h"
#define take ulmerascio_intake_take
#define end ulmerascio_intake_end
#else
#include "plain.h"
#define take plain_intake_take
#define end plain_intake_end
#endif

enum { STORE_BYTES = 4590, MOST_BYTES = 100000, MOST_TASKS = 200 };

static uint8_t bytes[MOST_BYTES], store[STORE_BYTES];
static size_t length, fill;

/* What the calls give goes here, so that none of them can be left out. */
static volatile uint64_t sink;

static void take_all(size_t piece)
{
    size_t at = 0;

    for (; length - at > piece; at += piece)
        sink = take(store, sizeof store, &fill, bytes + at, piece);
    sink = take(store, sizeof store, &fill, bytes + at, length - at);
}

static void end_table(void)
{
    static uint32_t answers[MOST_TASKS], rounds[MOST_TASKS];
    size_t slice = bytes[3] >= 1 && bytes[3] <= MOST_TASKS ? bytes[3] : MOST_TASKS;

    fill = length < STORE_BYTES ? length : STORE_BYTES;
    sink = end(store, sizeof store, &fill, answers, slice, rounds, slice);
}

int main(int count, char **words)
{
    size_t piece, at;
    unsigned long repeats;
    FILE *file;

    if (count != 5 || !(file = fopen(words[1], "rb"))) {
        fprintf(stderr, "usage: feed BYTES PIECE FILL REPEATS\n");
        return 2;
    }
    length = fread(bytes, 1, sizeof bytes, file);
    fclose(file);
    piece = strtoul(words[2], NULL, 10);
    at = strtoul(words[3], NULL, 10);
    repeats = strtoul(words[4], NULL, 10);
    memcpy(store, bytes, length < sizeof store ? length : sizeof store);
    for (unsigned long i = 0; i < repeats; i++) {
        fill = at;
        if (piece)
            take_all(piece);
        else
            end_table();
    }
    return 0;
}
