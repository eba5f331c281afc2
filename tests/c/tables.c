/* tables.c: see tables.h. */
#include "tables.h"

#include <stdio.h>
#include <stdlib.h>
#include <string.h>

#include "ulmerascio.h"

enum { ENTRY_HEADER = 4 }; /* table length (2), answers length (1), rounds length (1) */

/* ---- Calls. */

void clear_outcome(struct outcome *outcome)
{
    for (size_t i = 0; i < GUARD + LONGEST_SLICE + GUARD; i++)
        outcome->answers[i] = outcome->rounds[i] = FILLER;
}

void call(analysis *analyse, struct table table, size_t answers_len, size_t rounds_len,
          struct outcome *outcome)
{
    clear_outcome(outcome);
    outcome->verdict = analyse(table.bytes, table.length, outcome->answers + GUARD, answers_len,
                               outcome->rounds + GUARD, rounds_len);
}

void fail_word(const char *slice, size_t at, uint32_t ours, uint32_t wanted)
{
    printf("c: word %ld of the %s is %lu, not %lu\n", (long)at - GUARD, slice,
           (unsigned long)ours, (unsigned long)wanted);
    exit(1);
}

void compare_slice(const char *slice, const uint32_t *ours, const uint32_t *wanted)
{
    for (size_t i = 0; i < GUARD + LONGEST_SLICE + GUARD; i++)
        if (ours[i] != wanted[i])
            fail_word(slice, i, ours[i], wanted[i]);
}

void check_stayed(const char *slice, const uint32_t *words, size_t written)
{
    for (size_t i = 0; i < GUARD + LONGEST_SLICE + GUARD; i++)
        if ((i < GUARD || i >= GUARD + written) && words[i] != FILLER)
            fail_word(slice, i, words[i], FILLER);
}

static int helpers_agree(uint64_t verdict)
{
    uint64_t code = verdict / 4294967296u, place = verdict % 4294967296u;
    int refused = code >= 1 && code <= 11;

    return ulmerascio_is_schedulable(verdict) == (code == 0)
        && ulmerascio_is_late(verdict) == (code == 255)
        && ulmerascio_is_open(verdict) == (code == 254)
        && ulmerascio_is_pass(verdict) == (code == 0)
        && ulmerascio_is_fail(verdict) == (code == 255)
        && ulmerascio_is_wrong_use(verdict) == (code == 252 || code == 253)
        && ulmerascio_is_refused(verdict) == refused
        && ulmerascio_refusal(verdict) == (refused ? (int)code : 0)
        && ulmerascio_place(verdict) == place;
}

void check_helpers(uint64_t verdict)
{
    if (!helpers_agree(verdict)) {
        printf("c: the header takes verdict %llx apart wrongly\n", (unsigned long long)verdict);
        exit(1);
    }
}

/* ---- Tables of a file. */

uint8_t *read_file(const char *name, size_t *length)
{
    FILE *file = fopen(name, "rb");
    uint8_t *data = NULL;
    size_t room = 0, got;

    if (!file) {
        perror(name);
        exit(1);
    }
    *length = 0;
    do {
        room = room ? room * 2 : 65536;
        data = realloc(data, room);
        if (!data) {
            perror(name);
            exit(1);
        }
        got = fread(data + *length, 1, room - *length, file);
        *length += got;
    } while (*length == room);
    fclose(file);
    return data;
}

size_t read_entry(const uint8_t *data, size_t length, size_t at, size_t number,
                  struct entry *entry)
{
    if (length - at < ENTRY_HEADER) {
        printf("c: entry %lu is cut short\n", (unsigned long)number);
        exit(1);
    }
    entry->table.length = (size_t)data[at] << 8 | data[at + 1];
    entry->answers_len = data[at + 2];
    entry->rounds_len = data[at + 3];
    at += ENTRY_HEADER;
    if (length - at < entry->table.length || entry->answers_len > LONGEST_SLICE
        || entry->rounds_len > LONGEST_SLICE) {
        printf("c: entry %lu is broken\n", (unsigned long)number);
        exit(1);
    }
    entry->table.bytes = data + at;
    return at + entry->table.length;
}

/* ---- Tables that are made. */

size_t record_at(uint8_t version, size_t i)
{
    return 5 + (version == 1 ? 17 : 21) * i;
}

uint8_t *copy_bytes(const uint8_t *bytes, size_t length, size_t room)
{
    uint8_t *copy = calloc(room, 1);

    if (!copy) {
        perror("memory");
        exit(1);
    }
    memcpy(copy, bytes, length);
    return copy;
}

uint8_t *write_word(uint8_t *at, uint32_t word)
{
    for (int shift = 24; shift >= 0; shift -= 8)
        *at++ = (uint8_t)(word >> shift);
    return at;
}

void write_length(uint8_t *bytes, size_t length)
{
    bytes[1] = (uint8_t)(length / 256);
    bytes[2] = (uint8_t)(length % 256);
}

size_t most_tasks(uint8_t version)
{
    return version == 3 ? ULMERASCIO_MOST_TASKS : 32;
}

size_t longest_length(uint8_t version)
{
    return record_at(version, most_tasks(version)) + 6 * 64;
}

uint8_t *longest_table(uint8_t version)
{
    uint8_t n = (uint8_t)most_tasks(version), head[] = {version, 0, 0, n, 64};
    uint8_t *bytes = copy_bytes(head, sizeof head, longest_length(version) + 1);
    uint8_t *at = bytes + sizeof head;

    write_length(bytes, longest_length(version));
    for (uint32_t i = 0; i < n; i++) {
        *at++ = (uint8_t)(n - i);
        at = write_word(at, 1000 + i);
        at = write_word(at, 3);
        at = write_word(at, 1000 + i);
        at = write_word(at, 5);
        at = write_word(at, 5 + i);
    }
    for (uint32_t r = 0; r < 64; r++) {
        *at++ = (uint8_t)(n - 32 + r / 2);
        *at++ = r % 2 ? 16 : 1;
        at = write_word(at, 2 + r % 2);
    }
    return bytes;
}
