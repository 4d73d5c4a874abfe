/*
 * Boards with a stray access in one call, for the self-test: this drop calls
 * right_drop, the drop of the right board under another name. Answers and all
 * words up to the need are right.
 */
#include "session_board.h"

#include <string.h>

uint32_t right_drop(uint16_t message, uint16_t desk, uint16_t screen, uint8_t *table, size_t bytes);

/* Not static, so that the compiler keeps the stores to it. */
uint8_t board_drop_copy[1 << 16];

uint32_t board_drop(uint16_t message, uint16_t desk, uint16_t screen, uint8_t *table, size_t bytes)
{
    uint32_t answer = right_drop(message, desk, screen, table, bytes);
    volatile uint8_t *lent = table;
    if (board_number(answer) != BOARD_ACCEPTED)
        return answer;
    size_t need = 2 * board_need(lent[0], lent[2], lent[4]);
#if defined READS_PAST_THE_NEED
    if (need < bytes)
        (void)lent[need];
#elif defined WRITES_PAST_THE_NEED
    if (need < bytes)
        lent[need] ^= 1;
#elif defined COPIES_PAST_THE_TABLE
    memcpy(board_drop_copy, table, bytes + 1);
#elif defined WRITES_BEFORE_THE_TABLE
    lent[-1] ^= 1;
#endif
    (void)need;
    return answer;
}
