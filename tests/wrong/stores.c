/*
 * Wrong boards for the self-test: the right board, with a store outside the
 * footprint in one call. All but two store the old value, so that answers and
 * words stay right. Link with --wrap and the name of the call.
 */
#include "session_board.h"

#include <string.h>

enum { LIST = 13 };

static void rewrite(uint8_t *table, size_t byte)
{
    volatile uint8_t *lent = table;
    lent[byte] = lent[byte];
}

static size_t record_byte(const uint8_t *table, uint16_t desk, size_t word)
{
    size_t all = (size_t)table[0] * table[2];
    return 2 * (3 + table[4] + all + (desk - 1u) * (LIST + 2 * all + 1) + word);
}

static size_t places(const uint8_t *table)
{
    return 2 * (size_t)table[0] * table[2];
}

/* In the table of a ring. */
static size_t ring_byte(const uint8_t *table, uint16_t desk, size_t word)
{
    return record_byte(table, desk, word) + 2 * (desk - 1u);
}

static size_t beginning_byte(const uint8_t *table, uint16_t desk)
{
    return ring_byte(table, desk, LIST + places(table) + 1);
}

static size_t message_byte(const uint8_t *table, uint16_t desk)
{
    return record_byte(table, desk, LIST + places(table));
}

#if defined TAKE_REWRITES_THE_FIRST_WORD || defined TAKE_REWRITES_THE_NEXT_SCREEN
uint32_t __real_board_take(uint16_t message, uint16_t desk, uint16_t screen, uint16_t position,
                           uint8_t *table, size_t bytes);

uint32_t __wrap_board_take(uint16_t message, uint16_t desk, uint16_t screen, uint16_t position,
                           uint8_t *table, size_t bytes)
{
    uint32_t answer = __real_board_take(message, desk, screen, position, table, bytes);
    if (board_number(answer) == BOARD_ACCEPTED) {
        size_t shown = 3 + (size_t)table[4] + (desk - 1u) * (size_t)table[2] + screen - 1u;
#if defined TAKE_REWRITES_THE_FIRST_WORD
        (void)shown;
        rewrite(table, 0);
#else
        rewrite(table, 2 * shown + 2);
#endif
    }
    return answer;
}
#elif defined DROP_REFUSED_REWRITES_THE_LAST_BYTE || defined DROP_OF_NOTHING_REWRITES_THE_MESSAGE
uint32_t __real_board_drop(uint16_t message, uint16_t desk, uint16_t screen, uint8_t *table, size_t bytes);

uint32_t __wrap_board_drop(uint16_t message, uint16_t desk, uint16_t screen, uint8_t *table, size_t bytes)
{
    uint32_t answer = __real_board_drop(message, desk, screen, table, bytes);
#if defined DROP_REFUSED_REWRITES_THE_LAST_BYTE
    if (board_number(answer) != BOARD_ACCEPTED)
        rewrite(table, bytes - 1);
#else
    if (board_number(answer) == BOARD_SCREEN_EMPTY)
        rewrite(table, message_byte(table, desk));
#endif
    return answer;
}
#elif defined SWAP_OF_NONE_REWRITES_OWED || defined SWAP_REPEAT_REWRITES_THE_POSITION
uint32_t __real_board_swap(uint16_t message, uint16_t desk, uint16_t position, uint16_t session,
                           uint8_t *table, size_t bytes);

uint32_t __wrap_board_swap(uint16_t message, uint16_t desk, uint16_t position, uint16_t session,
                           uint8_t *table, size_t bytes)
{
    uint32_t answer = __real_board_swap(message, desk, position, session, table, bytes);
#if defined SWAP_OF_NONE_REWRITES_OWED
    if (answer == 0)
        rewrite(table, record_byte(table, desk, 0));
#else
    if (answer == session) /* accepted, and what was sent is what was there */
        rewrite(table, 2 * (3 + position - 1u));
#endif
    return answer;
}
#elif defined RETIRE_REWRITES_K
uint32_t __real_board_retire(uint16_t message, uint16_t desk, uint8_t *table, size_t bytes);

uint32_t __wrap_board_retire(uint16_t message, uint16_t desk, uint8_t *table, size_t bytes)
{
    uint32_t answer = __real_board_retire(message, desk, table, bytes);
    if (board_number(answer) == BOARD_ACCEPTED)
        rewrite(table, record_byte(table, desk, 1));
    return answer;
}
#elif defined COLLECT_REWRITES_OWED || defined COLLECT_WRITES_AND_RESTORES || \
    defined COLLECT_SENT_TWICE_REWRITES_THE_MESSAGE
uint32_t __real_board_collect(uint16_t message, uint16_t desk, uint8_t *table, size_t bytes);

uint32_t __wrap_board_collect(uint16_t message, uint16_t desk, uint8_t *table, size_t bytes)
{
    uint32_t answer = __real_board_collect(message, desk, table, bytes);
#if defined COLLECT_SENT_TWICE_REWRITES_THE_MESSAGE
    if (board_number(answer) == BOARD_OTHER_MESSAGE)
        rewrite(table, message_byte(table, desk) + 1);
#else
    if (board_number(answer) == BOARD_ACCEPTED) {
#if defined COLLECT_REWRITES_OWED
        rewrite(table, record_byte(table, desk, 0) + 1);
#else
        volatile uint8_t *position = table + 6;
        *position ^= 1;
        *position ^= 1;
#endif
    }
#endif
    return answer;
}
#elif defined OPEN_WRITES_BEHIND_THE_NEED
uint32_t __real_board_open(uint16_t desks, uint16_t screens, uint16_t positions, uint8_t *table, size_t bytes);

uint32_t __wrap_board_open(uint16_t desks, uint16_t screens, uint16_t positions, uint8_t *table, size_t bytes)
{
    uint32_t answer = __real_board_open(desks, screens, positions, table, bytes);
    if (board_number(answer) == BOARD_ACCEPTED)
        table[2 * board_need(desks, screens, positions)] = 0;
    return answer;
}
#elif defined RUN_REWRITES_A_REPLY_PAST_THE_RUN || defined RUN_REFUSED_CLEARS_THE_REPLIES || \
    defined RUN_REWRITES_THE_FIRST_WORD || defined RUN_OTHER_CODE_REWRITES_THE_MESSAGE || \
    defined RUN_REWRITES_A_STEP
enum { STEP_BYTES = 12, REPLY_BYTES = 4 };

uint32_t __real_board_run(const uint8_t *steps, size_t step_bytes, uint8_t *replies, size_t reply_bytes,
                          uint8_t *table, size_t bytes);

uint32_t __wrap_board_run(const uint8_t *steps, size_t step_bytes, uint8_t *replies, size_t reply_bytes,
                          uint8_t *table, size_t bytes)
{
    uint32_t answer = __real_board_run(steps, step_bytes, replies, reply_bytes, table, bytes);
    size_t count = step_bytes / STEP_BYTES;
#if defined RUN_REFUSED_CLEARS_THE_REPLIES
    for (size_t byte = 0; answer != 0 && byte < REPLY_BYTES * count && byte < reply_bytes; byte++)
        replies[byte] = 0;
#else
    if (answer != 0)
        return answer;
#if defined RUN_REWRITES_A_REPLY_PAST_THE_RUN
    if (reply_bytes > REPLY_BYTES * count)
        rewrite(replies, REPLY_BYTES * count);
#elif defined RUN_REWRITES_THE_FIRST_WORD
    (void)count;
    rewrite(table, 0);
#elif defined RUN_OTHER_CODE_REWRITES_THE_MESSAGE
    for (size_t i = 0; i < count; i++) {
        const uint8_t *step = steps + STEP_BYTES * i;
        uint16_t desk = (uint16_t)(step[4] | step[5] << 8);
        if (replies[REPLY_BYTES * i] == BOARD_NO_CODE && desk >= 1 && desk <= table[0])
            rewrite(table, message_byte(table, desk));
    }
#else
    if (count != 0)
        rewrite((uint8_t *)steps, STEP_BYTES * count - 1);
#endif
#endif
    return answer;
}
#elif defined TRAINING_OPEN_TOO_LARGE_REWRITES_THE_FIRST_WORD
uint32_t __real_training_open(uint16_t desks, uint16_t screens, uint16_t positions, uint8_t *table, size_t bytes);

uint32_t __wrap_training_open(uint16_t desks, uint16_t screens, uint16_t positions, uint8_t *table, size_t bytes)
{
    uint32_t answer = __real_training_open(desks, screens, positions, table, bytes);
    if (board_number(answer) == BOARD_OVER_LIMITS && bytes >= 2)
        rewrite(table, 0);
    return answer;
}
#elif defined TRAINING_SWAP_OVER_THE_LIMIT_REWRITES_THE_POSITION
uint32_t __real_training_swap(uint16_t message, uint16_t desk, uint16_t position, uint16_t session,
                              uint8_t *table, size_t bytes);

uint32_t __wrap_training_swap(uint16_t message, uint16_t desk, uint16_t position, uint16_t session,
                              uint8_t *table, size_t bytes)
{
    uint32_t answer = __real_training_swap(message, desk, position, session, table, bytes);
    if (board_number(answer) == BOARD_OVER_LIMITS)
        rewrite(table, 2 * (3 + position - 1u));
    return answer;
}
#elif defined RING_OPEN_WRITES_BEHIND_THE_NEED
uint32_t __real_ring_open(uint16_t desks, uint16_t screens, uint16_t positions, uint8_t *table, size_t bytes);

uint32_t __wrap_ring_open(uint16_t desks, uint16_t screens, uint16_t positions, uint8_t *table, size_t bytes)
{
    uint32_t answer = __real_ring_open(desks, screens, positions, table, bytes);
    if (board_number(answer) == BOARD_ACCEPTED)
        table[2 * ring_need(desks, screens, positions)] = 0;
    return answer;
}
#elif defined RING_TAKE_REWRITES_THE_BEGINNING
uint32_t __real_ring_take(uint16_t message, uint16_t desk, uint16_t screen, uint16_t position,
                          uint8_t *table, size_t bytes);

uint32_t __wrap_ring_take(uint16_t message, uint16_t desk, uint16_t screen, uint16_t position,
                          uint8_t *table, size_t bytes)
{
    uint32_t answer = __real_ring_take(message, desk, screen, position, table, bytes);
    if (board_number(answer) == BOARD_ACCEPTED)
        rewrite(table, beginning_byte(table, desk));
    return answer;
}
#elif defined RING_RETIRE_REWRITES_THE_BEGINNING || defined RING_RETIRE_REWRITES_THE_NEXT_PLACE
uint32_t __real_ring_retire(uint16_t message, uint16_t desk, uint8_t *table, size_t bytes);

uint32_t __wrap_ring_retire(uint16_t message, uint16_t desk, uint8_t *table, size_t bytes)
{
    uint32_t answer = __real_ring_retire(message, desk, table, bytes);
    if (board_number(answer) == BOARD_ACCEPTED) {
#if defined RING_RETIRE_REWRITES_THE_BEGINNING
        rewrite(table, beginning_byte(table, desk));
#else
        size_t used = 0;
        for (size_t count = 2; count <= 4; count++)
            used += table[ring_byte(table, desk, count)];
        rewrite(table, ring_byte(table, desk, LIST + (table[beginning_byte(table, desk)] + used) % places(table)));
#endif
    }
    return answer;
}
#elif defined RING_COLLECT_OF_NOTHING_REWRITES_THE_BEGINNING || defined RING_COLLECT_REWRITES_THE_LIST || \
    defined RING_COLLECT_REWRITES_THE_NEW_BEGINNING || defined RING_COLLECT_UNSOUND_REWRITES_THE_BEGINNING
uint32_t __real_ring_collect(uint16_t message, uint16_t desk, uint8_t *table, size_t bytes);

uint32_t __wrap_ring_collect(uint16_t message, uint16_t desk, uint8_t *table, size_t bytes)
{
    uint32_t answer = __real_ring_collect(message, desk, table, bytes);
#if defined RING_COLLECT_OF_NOTHING_REWRITES_THE_BEGINNING
    if (answer == 0)
        rewrite(table, beginning_byte(table, desk));
#elif defined RING_COLLECT_REWRITES_THE_LIST
    for (size_t place = 0; board_number(answer) == BOARD_ACCEPTED && place < places(table); place++)
        rewrite(table, ring_byte(table, desk, LIST + place));
#elif defined RING_COLLECT_REWRITES_THE_NEW_BEGINNING
    if (board_number(answer) == BOARD_ACCEPTED && board_session(answer) != 0)
        rewrite(table, ring_byte(table, desk, LIST + table[beginning_byte(table, desk)]));
#else
    static const uint8_t smallest[6] = {1, 0, 1, 0, 1, 0};
    if (board_number(answer) == BOARD_UNSOUND && bytes >= 2 * ring_need(1, 1, 1) && memcmp(table, smallest, 6) == 0)
        rewrite(table, beginning_byte(table, 1));
#endif
    return answer;
}
#endif
