#include "tally.h"

#include <stdio.h>

/* A bit for each reply number. */
static const unsigned answers[FUNCTIONS] = {
    [OPEN] = 1 << 0 | 1 << 1 | 1 << 2 | 1 << 3 | 1 << 4,
    [TAKE] = 1 << 0 | 1 << 5 | 1 << 6 | 1 << 23 | 1 << 7 | 1 << 8 | 1 << 9 | 1 << 10,
    [DROP] = 1 << 0 | 1 << 5 | 1 << 6 | 1 << 23 | 1 << 7 | 1 << 11,
    [SWAP] = 1 << 0 | 1 << 5 | 1 << 6 | 1 << 23 | 1 << 8 | 1 << 12,
    [RETIRE] = 1 << 0 | 1 << 5 | 1 << 6 | 1 << 23 | 1 << 13 | 1 << 14,
    [COLLECT] = 1 << 0 | 1 << 5 | 1 << 6 | 1 << 23,
};
/* Those that only the training room gives. */
static const unsigned training_answers[FUNCTIONS] = {[OPEN] = 1 << 22, [SWAP] = 1 << 22};

bool can_answer(const struct call *call, uint16_t number)
{
    unsigned of_call = answers[call->function];
    if (call->room == TRAINING)
        of_call |= training_answers[call->function];
    return number < NUMBERS && (of_call >> number & 1);
}

bool is_repeat(const struct call *call, uint32_t answer)
{
    return call->function == SWAP && board_number(answer) == BOARD_ACCEPTED &&
           board_session(answer) == call->numbers[2];
}

bool runs_on(const struct call *call, uint32_t answer)
{
    return call->function != OPEN && board_number(answer) == BOARD_ACCEPTED && call->message == 65535;
}

static unsigned long tally[ROOMS][NUMBERS][FUNCTIONS], with_session[ROOMS][FUNCTIONS], repeats[ROOMS][FUNCTIONS];
static unsigned long run_on[ROOMS][FUNCTIONS];
static unsigned long runs[NUMBERS], steps[NUMBERS][FUNCTIONS]; /* of runs; first those with another code */

void count_answer(const struct call *call, uint32_t answer)
{
    tally[call->room][board_number(answer)][call->function]++;
    with_session[call->room][call->function] += board_session(answer) != 0;
    repeats[call->room][call->function] += is_repeat(call, answer);
    run_on[call->room][call->function] += runs_on(call, answer);
}

void count_run(uint32_t answer)
{
    runs[board_number(answer)]++;
}

void count_step(uint16_t code, uint32_t reply)
{
    steps[board_number(reply)][code <= COLLECT ? code : 0]++;
}

static void print_row(const char *name, const unsigned long of[FUNCTIONS])
{
    printf("%-16s", name);
    for (int function = 0; function < FUNCTIONS; function++)
        of[function] ? printf("%12lu", of[function]) : printf("%12s", "-");
    printf("\n");
}

/* A row for each reply number; gives how many calls, or steps, were counted. */
static unsigned long print_numbers(const char *title, const char *first, const unsigned long of[NUMBERS][FUNCTIONS])
{
    unsigned long calls = 0;
    printf("%-16s%12s", title, first);
    for (int function = 1; function < FUNCTIONS; function++)
        printf("%12s", function_names[function]);
    printf("\n");
    for (int number = 0; number < NUMBERS; number++) {
        char name[12];
        bool is_of_sheets = number > BOARD_NO_ROOM && number < BOARD_OVER_LIMITS;
        if (is_of_sheets && number != BOARD_NO_CODE)
            continue;
        snprintf(name, sizeof name, "%d", number);
        print_row(name, of[number]);
        for (int function = 0; function < FUNCTIONS; function++)
            calls += of[number][function];
    }
    return calls;
}

/* How many calls of a room were counted. */
static unsigned long print_room(int room)
{
    unsigned long calls = print_numbers(room_names[room], function_names[OPEN], tally[room]);
    print_row("with session", with_session[room]);
    print_row("repeats", repeats[room]);
    print_row("65535 accepted", run_on[room]);
    printf("\n");
    return calls;
}

void print_tally(void)
{
    unsigned long calls = 0;
    printf("reply numbers:\n");
    for (int room = 0; room < ROOMS; room++)
        calls += print_room(room);
    unsigned long of_runs = print_numbers("steps of runs", "other", steps);
    unsigned long accepted = runs[BOARD_ACCEPTED], is_short = runs[BOARD_TABLE_SHORT], unsound = runs[BOARD_UNSOUND];
    printf("runs: %lu accepted, %lu with 4, %lu with 5\n\n", accepted, is_short, unsound);
    printf("fuzz_calls: %lu calls, %lu runs with %lu steps done\n", calls, accepted + is_short + unsound, of_runs);
    fflush(stdout);
}

static void print_bytes(const uint8_t *bytes, size_t count)
{
    for (size_t at = 0; at < count; at++)
        printf(" %02X", bytes[at]);
}

void print_case(unsigned align, const uint8_t *table, size_t bytes,
                const struct call *calls, size_t count)
{
    printf("compare --replay '%u |", align);
    print_bytes(table, bytes);
    for (size_t i = 0; i < count; i++) {
        printf("%s ", i == 0 ? " |" : ";");
        print_call(&calls[i]);
    }
    printf("'\n");
}

void print_run(const unsigned aligns[3], const uint8_t *of_steps, size_t step_bytes,
               const uint8_t *replies, size_t reply_bytes, const uint8_t *table, size_t bytes)
{
    printf("compare --replay 'board_run %u %u %u |", aligns[0], aligns[1], aligns[2]);
    print_bytes(of_steps, step_bytes);
    printf(" |");
    print_bytes(replies, reply_bytes);
    printf(" |");
    print_bytes(table, bytes);
    printf("'\n");
}
