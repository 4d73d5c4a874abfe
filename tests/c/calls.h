/* The calls as data: one type and one function for all of them. */
#ifndef CALLS_H
#define CALLS_H

#include "session_board.h"

/* Each room has all six functions, under names of its own. So has the second board of
 * the hall, with rings for lists; it counts as a third room here. The value of a step
 * is its code in a run. */
enum room { HALL, TRAINING, RING, ROOMS };
enum function { OPEN, TAKE, DROP, SWAP, RETIRE, COLLECT, FUNCTIONS };

/* A function of a room, its message number and its other numbers, in the order of
 * the header; the first of a step is its desk. Numbers that it does not have are
 * ignored, as is the message number of an opening. */
struct call {
    enum room room;
    enum function function;
    uint16_t message;
    uint16_t numbers[3];
};

/* The six calls of a room. */
struct board {
    uint32_t (*open)(uint16_t desks, uint16_t screens, uint16_t positions, uint8_t *table, size_t bytes);
    uint32_t (*take)(uint16_t message, uint16_t desk, uint16_t screen, uint16_t position,
                     uint8_t *table, size_t bytes);
    uint32_t (*drop)(uint16_t message, uint16_t desk, uint16_t screen, uint8_t *table, size_t bytes);
    uint32_t (*swap)(uint16_t message, uint16_t desk, uint16_t position, uint16_t session,
                     uint8_t *table, size_t bytes);
    uint32_t (*retire)(uint16_t message, uint16_t desk, uint8_t *table, size_t bytes);
    uint32_t (*collect)(uint16_t message, uint16_t desk, uint8_t *table, size_t bytes);
};

/* The largest numbers of a room, from documents 01 and 02. */
struct limits {
    uint16_t desks, screens, positions, sessions;
};

extern const struct board boards[ROOMS];
extern const struct limits limits_of[ROOMS];
extern const char *const room_names[ROOMS]; /* what the names of its calls begin with */
extern const char *const function_names[FUNCTIONS];

uint32_t send_call(const struct call *call, uint8_t *table, size_t bytes);

/* Prints the name and the numbers, as in "board_take 0 1 1 2". */
void print_call(const struct call *call);

#endif
