/* plain.h: the analysis of document 01, the engine of document 02, L1, the checker of claims of its
 * L7, the second analysis of its L8 and the intake of its L11 in plain C, to test and to measure
 * against. All read tables of versions 1 to 3. */
#ifndef PLAIN_H
#define PLAIN_H

#include <stddef.h>
#include <stdint.h>

/* The verdict is code * 4294967296 + place: code 0 is schedulable, 1 to 8 refused with that
 * number, 255 late. Rounds start at the task's cost and blocking plus one cost of every other task
 * of equal or greater priority (document 02, L5 and L6). */
uint64_t plain_analyse(const uint8_t *table, size_t table_len,
                       uint32_t *answers, size_t answers_len,
                       uint32_t *rounds, size_t rounds_len);

/* The same, but for rounds: they start at the task's cost and blocking, as document 01 has it. */
uint64_t plain_analyse_from_own_cost(const uint8_t *table, size_t table_len,
                                     uint32_t *answers, size_t answers_len,
                                     uint32_t *rounds, size_t rounds_len);

/* The second analysis: deadlines may be up to four periods long, and delays are refused with 11.
 * The verdict is packed in the same way, and code 254 is open; the answer of an open task is
 * UINT32_MAX. The second slice gets how many q were tried. */
uint64_t plain_analyse_past_period(const uint8_t *table, size_t table_len,
                                   uint32_t *answers, size_t answers_len,
                                   uint32_t *tried, size_t tried_len);

/* The engine; the verdict is packed in the same way, and 9 is a refusal too. It refuses equal
 * priorities with that (document 02, L6). */
uint64_t plain_play(const uint8_t *table, size_t table_len,
                    uint32_t *answers, size_t answers_len);

/* The checker of claims; the answer is packed in the same way: code 0 is pass, 1 to 7 and 10
 * refused with that number, 255 fails, with the first place that does. */
uint64_t plain_check_claims(const uint8_t *table, size_t table_len,
                            const uint32_t *claims, size_t claims_len);

/* The intake, which keeps the first 4,590 bytes of a table that comes in pieces. A store of fewer
 * bytes gets 252, and nothing is changed; a fill above 4,590 gets 253. What the end returns is
 * packed in the same way, and is plain_analyse's but for these two. */
void plain_intake_begin(size_t *fill);
uint32_t plain_intake_take(uint8_t *store, size_t store_len, size_t *fill,
                           const uint8_t *piece, size_t piece_len);
uint64_t plain_intake_end(const uint8_t *store, size_t store_len, size_t *fill,
                          uint32_t *answers, size_t answers_len,
                          uint32_t *rounds, size_t rounds_len);

#endif
