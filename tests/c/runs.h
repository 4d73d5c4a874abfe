/* Runs: the words of their steps and replies, and what the steps do when they are
 * sent singly. */
#ifndef RUNS_H
#define RUNS_H

#include "layout.h"

enum { STEP_BYTES = 12, REPLY_BYTES = 4 };

struct step {
    uint16_t code, message, desk, screen, position, session;
};

/* The step of a call of the hall that is no opening. The words that its code lacks
 * are `unused`. */
struct step step_of(const struct call *call, uint16_t unused);

/* The answer of a step that is sent singly, or 17 if its code is not 1 to 5. */
uint32_t send_step(const struct step *step, uint8_t *table, size_t bytes);

void write_step(uint8_t *steps, size_t index, const struct step *step);

/* A reply, in the form of an answer. */
uint32_t read_reply(const uint8_t *replies, size_t index);

/* The footprint is kept for the first steps only. */
enum { MAX_STEPS = 20000, SHORT_RUN = 64, MAX_TABLE_BYTES = BOARD_MAX_BYTES + 8 };

/* Steps with their answers when they are sent singly, the table that they leave, and
 * the ranges of its bytes that the accepted ones may write. */
struct run {
    size_t count;
    struct step steps[MAX_STEPS];
    uint32_t answers[MAX_STEPS];
    uint8_t table[MAX_TABLE_BYTES];
    size_t bytes;
    size_t ranges;
    struct range footprint[MAX_RANGES * SHORT_RUN];
};

/* A run without steps, on this table. */
void begin_run(struct run *run, const uint8_t *table, size_t bytes);

/* Appends a step, and returns its answer. */
uint32_t add_step(struct run *run, const struct step *step);

#endif
