/* plain_intake.c: the intake of document 02, L11, as one would write it in C, without proofs. It
 * ends a table by plain.c's plain_analyse, in whichever way that is compiled. */
#include <string.h>

#include "plain.h"

enum {
    STORE_BYTES = 4590, /* one more than the longest table, so that too long stays too long */
    SHORT_STORE = 252,
    WRONG_FILL = 253
};

void plain_intake_begin(size_t *fill)
{
    *fill = 0;
}

uint32_t plain_intake_take(uint8_t *store, size_t store_len, size_t *fill,
                           const uint8_t *piece, size_t piece_len)
{
    size_t room, taken;

    if (store_len < STORE_BYTES)
        return SHORT_STORE;
    if (*fill > STORE_BYTES)
        return WRONG_FILL;
    room = STORE_BYTES - *fill;
    taken = piece_len < room ? piece_len : room;
    memcpy(store + *fill, piece, taken);
    *fill += taken;
    return 0;
}

uint64_t plain_intake_end(const uint8_t *store, size_t store_len, size_t *fill,
                          uint32_t *answers, size_t answers_len,
                          uint32_t *rounds, size_t rounds_len)
{
    size_t length = *fill;

    if (store_len < STORE_BYTES)
        return (uint64_t)SHORT_STORE << 32;
    *fill = 0;
    if (length > STORE_BYTES)
        return (uint64_t)WRONG_FILL << 32;
    return plain_analyse(store, length, answers, answers_len, rounds, rounds_len);
}
