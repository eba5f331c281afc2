/* tables.h: what the tests of the library share: tables from a file and tables that are made, and
 * calls of an analysis with slices whose every word is looked at. */
#ifndef TABLES_H
#define TABLES_H

#include <stddef.h>
#include <stdint.h>

enum {
    LONGEST_SLICE = 255,
    GUARD = 8 /* words on both sides of a slice, which must stay */
};

/* Stands in every word before a call. */
#define FILLER 0xA5A5A5A5u

typedef uint64_t analysis(const uint8_t *, size_t, uint32_t *, size_t, uint32_t *, size_t);

struct table {
    const uint8_t *bytes;
    size_t length;
};

/* What a call returns and leaves, the guards too. */
struct outcome {
    uint64_t verdict;
    uint32_t answers[GUARD + LONGEST_SLICE + GUARD];
    uint32_t rounds[GUARD + LONGEST_SLICE + GUARD];
};

/* ---- Calls. */

/* Puts the filler into both slices. */
void clear_outcome(struct outcome *outcome);

void call(analysis *analyse, struct table table, size_t answers_len, size_t rounds_len,
          struct outcome *outcome);

/* Each of these ends the program where a word is another than wanted. */
void fail_word(const char *slice, size_t at, uint32_t ours, uint32_t wanted);
void compare_slice(const char *slice, const uint32_t *ours, const uint32_t *wanted);

/* Words past those that are written, and the guards, stay. */
void check_stayed(const char *slice, const uint32_t *words, size_t written);

/* The header's functions take the verdict apart as it is packed. */
void check_helpers(uint64_t verdict);

/* ---- Tables of a file. */

/* One entry of the file of tables that "tests/reference.py make" writes. */
struct entry {
    struct table table;
    size_t answers_len, rounds_len;
};

uint8_t *read_file(const char *name, size_t *length);

/* Reads the entry at a byte of the file; gives the byte behind it. */
size_t read_entry(const uint8_t *data, size_t length, size_t at, size_t number,
                  struct entry *entry);

/* ---- Tables that are made. */

/* Where the bytes of a table stand; a record has 17 bytes in version 1 and 21 in versions 2 and 3
 * (document 02, L4 and L9). */
size_t record_at(uint8_t version, size_t i);

/* A copy of the bytes in room for that many, the further ones 0. */
uint8_t *copy_bytes(const uint8_t *bytes, size_t length, size_t room);

/* Gives the byte behind the word. */
uint8_t *write_word(uint8_t *at, uint32_t word);

void write_length(uint8_t *bytes, size_t length);

/* How many tasks and bytes a table of version 2 or 3 may have. */
size_t most_tasks(uint8_t version);
size_t longest_length(uint8_t version);

/* Version 2 or 3 with the most tasks and 64 rows, two for each of the last 32 tasks, in room for one
 * byte more, which is 0. It is schedulable. */
uint8_t *longest_table(uint8_t version);

#endif
