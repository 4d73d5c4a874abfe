/* Which reply numbers a call can give, how often it gave them, which swaps were
 * repeats, which calls had the last message number, what runs and their steps
 * replied, and a case as text. */
#ifndef TALLY_H
#define TALLY_H

#include "calls.h"

#include <stdbool.h>

enum { NUMBERS = BOARD_OTHER_MESSAGE + 1 };

/* By the questions that the header gives for each call. */
bool can_answer(const struct call *call, uint16_t number);

/* An accepted swap that replies what it was sent: the position held it already. */
bool is_repeat(const struct call *call, uint32_t answer);

/* An accepted step with the message number 65535: the next is 0. */
bool runs_on(const struct call *call, uint32_t answer);

void count_answer(const struct call *call, uint32_t answer);
void count_run(uint32_t answer);
void count_step(uint16_t code, uint32_t reply); /* of an accepted run */
void print_tally(void);

/* In the format of the comparison, which can run it again and shrink it. */
void print_case(unsigned align, const uint8_t *table, size_t bytes,
                const struct call *calls, size_t count);

/* The same of a run: where its steps, its replies and its table are, modulo 8, and
 * the bytes of each before the run. */
void print_run(const unsigned aligns[3], const uint8_t *of_steps, size_t step_bytes,
               const uint8_t *replies, size_t reply_bytes, const uint8_t *table, size_t bytes);

#endif
