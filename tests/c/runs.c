#include "runs.h"

#include <string.h>

struct step step_of(const struct call *call, uint16_t unused)
{
    const uint16_t *numbers = call->numbers;
    struct step step = {(uint16_t)call->function, call->message, numbers[0], unused, unused, unused};
    if (call->function == TAKE || call->function == DROP)
        step.screen = numbers[1];
    if (call->function == TAKE)
        step.position = numbers[2];
    if (call->function == SWAP) {
        step.position = numbers[1];
        step.session = numbers[2];
    }
    return step;
}

static bool has_call(const struct step *step)
{
    return step->code >= TAKE && step->code <= COLLECT;
}

static struct call call_of(const struct step *step)
{
    struct call call = {HALL, (enum function)step->code, step->message, {step->desk, 0, 0}};
    if (call.function == TAKE || call.function == DROP)
        call.numbers[1] = step->screen;
    if (call.function == TAKE)
        call.numbers[2] = step->position;
    if (call.function == SWAP) {
        call.numbers[1] = step->position;
        call.numbers[2] = step->session;
    }
    return call;
}

uint32_t send_step(const struct step *step, uint8_t *table, size_t bytes)
{
    if (!has_call(step))
        return (uint32_t)BOARD_NO_CODE << 16;
    struct call call = call_of(step);
    return send_call(&call, table, bytes);
}

void write_step(uint8_t *steps, size_t index, const struct step *step)
{
    uint8_t *at = steps + index * STEP_BYTES;
    write_word(at, 0, step->code);
    write_word(at, 1, step->message);
    write_word(at, 2, step->desk);
    write_word(at, 3, step->screen);
    write_word(at, 4, step->position);
    write_word(at, 5, step->session);
}

uint32_t read_reply(const uint8_t *replies, size_t index)
{
    const uint8_t *at = replies + index * REPLY_BYTES;
    return (uint32_t)read_word(at, 0) << 16 | read_word(at, 1);
}

void begin_run(struct run *run, const uint8_t *table, size_t bytes)
{
    run->count = 0;
    run->ranges = 0;
    run->bytes = bytes;
    memcpy(run->table, table, bytes);
}

static void add_footprint(struct run *run, const struct step *step, const uint8_t *table)
{
    struct call call = call_of(step);
    struct footprint footprint = footprint_of(&call, table);
    for (size_t i = 0; i < footprint.count && run->count < SHORT_RUN; i++)
        run->footprint[run->ranges++] = footprint.ranges[i];
}

uint32_t add_step(struct run *run, const struct step *step)
{
    static uint8_t before[MAX_TABLE_BYTES];
    memcpy(before, run->table, run->bytes);
    uint32_t answer = send_step(step, run->table, run->bytes);
    if (board_number(answer) == BOARD_ACCEPTED)
        add_footprint(run, step, before);
    run->steps[run->count] = *step;
    run->answers[run->count++] = answer;
    return answer;
}
