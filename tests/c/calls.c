#include "calls.h"

#include <stdio.h>

const struct board boards[ROOMS] = {
    [HALL] = {board_open, board_take, board_drop, board_swap, board_retire, board_collect},
    [TRAINING] = {training_open, training_take, training_drop, training_swap, training_retire, training_collect},
    [RING] = {ring_open, ring_take, ring_drop, ring_swap, ring_retire, ring_collect},
};
const struct limits limits_of[ROOMS] = {
    [HALL] = {16, 4, 64, 65535}, [TRAINING] = {4, 1, 64, 999}, [RING] = {16, 4, 64, 65535}};
const char *const room_names[ROOMS] = {"board", "training", "ring"};
const char *const function_names[FUNCTIONS] = {"open", "take", "drop", "swap", "retire", "collect"};
static const int numbers_of[FUNCTIONS] = {3, 3, 2, 3, 1, 1}; /* without the message number */

uint32_t send_call(const struct call *call, uint8_t *table, size_t bytes)
{
    const struct board *board = &boards[call->room];
    uint16_t message = call->message;
    uint16_t a = call->numbers[0], b = call->numbers[1], c = call->numbers[2];
    switch (call->function) {
    case OPEN:
        return board->open(a, b, c, table, bytes);
    case TAKE:
        return board->take(message, a, b, c, table, bytes);
    case DROP:
        return board->drop(message, a, b, table, bytes);
    case SWAP:
        return board->swap(message, a, b, c, table, bytes);
    case RETIRE:
        return board->retire(message, a, table, bytes);
    default:
        return board->collect(message, a, table, bytes);
    }
}

void print_call(const struct call *call)
{
    printf("%s_%s", room_names[call->room], function_names[call->function]);
    if (call->function != OPEN)
        printf(" %u", call->message);
    for (int i = 0; i < numbers_of[call->function]; i++)
        printf(" %u", call->numbers[i]);
}
