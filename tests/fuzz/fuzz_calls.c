/*
 * Fuzzes the calls of both rooms and of the board with rings, and runs. An input is a
 * table and the calls made on it, one after the other:
 *
 *     place        1 byte    where in guarded memory the table is placed
 *     length       2 bytes   of the table, low byte first
 *     given        2 bytes   how many bytes of the table follow
 *     fill         1 byte    the value of the rest of it
 *     the bytes given
 *     calls to the end: 1 byte for the function, those of the training room after
 *     the hall's and then those of the rings, then three numbers, of one byte each, or of two if the function's
 *     byte has its top bit set. If it has the next bit set, a number before them says
 *     how far the message number is from the one that is due, else it is that one
 *
 * The function after those of the rings is a run:
 *
 *     places       1 byte    where its steps and its replies are placed
 *     length       1 byte    how many steps it has
 *     rest         1 byte    how many bytes are after the last step
 *     room         1 byte    how many bytes the reply table has more than the replies
 *                            need, as a signed number
 *     its steps: 1 byte for the code, which is in the next two bytes if the low six
 *     bits of this one are set; then four numbers, with the two top bits as in a call
 *     the bytes after the last step
 *
 * Lengths wrap, so that every input is valid. After each call the harness checks
 * what the header promises, first from the header alone, then against the
 * reference.
 */
#include "guarded_memory.h"
#include "layout.h"
#include "reference_in_c.h"
#include "runs.h"
#include "tally.h"

#include <sanitizer/asan_interface.h>
#include <stdio.h>
#include <stdlib.h>
#include <string.h>

enum { MAX_BYTES = RING_MAX_BYTES + 64 };

/* Of a run: the largest numbers of one byte. */
enum {
    MAX_LENGTH = 255,
    MAX_STEP_BYTES = MAX_LENGTH * STEP_BYTES + STEP_BYTES - 1,
    MAX_REPLY_BYTES = MAX_LENGTH * REPLY_BYTES + 127,
    OLD = 0xEE /* in a reply table before a run */
};

/* ---- reading an input ------------------------------------------------ */

static struct {
    const uint8_t *next;
    size_t left;
} input;

static uint8_t byte(void)
{
    if (input.left == 0)
        return 0;
    input.left--;
    return *input.next++;
}

static uint16_t two_bytes(void)
{
    uint16_t low = byte();
    return (uint16_t)(low | byte() << 8);
}

/* ---- the tables ------------------------------------------------------ */

static struct guarded_memory lent, reachable;
static uint8_t at_first[MAX_BYTES], before[MAX_BYTES], of_reference[MAX_BYTES];
static uint8_t *passed; /* the table, as the board gets it: NULL is allowed for no bytes */

static void read_table(void)
{
    unsigned place = byte() % PLACES;
    size_t bytes = two_bytes() % (MAX_BYTES + 1u);
    size_t given = two_bytes() % (bytes + 1);
    uint8_t fill = byte();
    place_table(&lent, place, bytes);
    for (size_t at = 0; at < bytes; at++)
        at_first[at] = at < given ? byte() : fill;
    memcpy(lent.table, at_first, bytes);
    memcpy(of_reference, at_first, bytes);
    passed = bytes == 0 && place == ALIGNED_0 ? NULL : lent.table;
}

/* The function of a call, or the code of a step, and how its numbers follow. */
struct first_byte {
    unsigned which;
    bool is_wide, is_other;
};

static struct first_byte next_first_byte(void)
{
    uint8_t first = byte();
    return (struct first_byte){first & 0x3F, first & 0x80, first & 0x40};
}

/* How far the message number is from the one that is due. */
static int next_distance(struct first_byte first)
{
    return !first.is_other ? 0 : first.is_wide ? two_bytes() : (int8_t)byte();
}

static uint16_t next_number(struct first_byte first)
{
    return first.is_wide ? two_bytes() : byte();
}

static bool is_run(struct first_byte first)
{
    return first.which % (ROOMS * FUNCTIONS + 1) == ROOMS * FUNCTIONS;
}

static struct call next_call(struct first_byte first)
{
    unsigned which = first.which % (ROOMS * FUNCTIONS + 1);
    struct call call = {.room = which / FUNCTIONS, .function = which % FUNCTIONS};
    int distance = next_distance(first);
    for (int i = 0; i < 3; i++)
        call.numbers[i] = next_number(first);
    if (call.function != OPEN)
        call.message = (uint16_t)(due_message(call.room, lent.table, lent.bytes, call.numbers[0]) + distance);
    return call;
}

/* ---- the tables of a run --------------------------------------------- */

static struct guarded_memory steps, replies, reachable_steps, reachable_replies;
static size_t length; /* of the run, in steps */
static uint8_t steps_before[MAX_STEP_BYTES], replies_of_reference[MAX_REPLY_BYTES];
/* What the archive's single calls reply and leave. */
static uint32_t singly_replied[MAX_LENGTH];
static uint8_t singly[MAX_BYTES];

/* A step that the table `singly` gets next. */
static struct step next_step(void)
{
    struct first_byte first = next_first_byte();
    struct step step = {.code = first.which == 0x3F ? two_bytes() : (uint16_t)first.which};
    int distance = next_distance(first);
    step.desk = next_number(first);
    step.screen = next_number(first);
    step.position = next_number(first);
    step.session = next_number(first);
    step.message = (uint16_t)(due_message(HALL, singly, lent.bytes, step.desk) + distance);
    return step;
}

/* Reads the steps of a run, and makes their calls on a copy of the table. */
static void read_run(void)
{
    unsigned places = byte();
    length = byte();
    size_t rest = byte() % STEP_BYTES;
    long room = (long)(length * REPLY_BYTES) + (int8_t)byte();
    place_table(&steps, places % PLACES, length * STEP_BYTES + rest);
    place_table(&replies, places / PLACES % PLACES, room < 0 ? 0 : (size_t)room);
    memset(replies.table, OLD, replies.bytes);
    memset(replies_of_reference, OLD, replies.bytes);
    memcpy(singly, lent.table, lent.bytes);
    for (size_t at = 0; at < length; at++) {
        struct step step = next_step();
        write_step(steps.table, at, &step);
        singly_replied[at] = send_step(&step, singly, lent.bytes);
    }
    for (size_t at = length * STEP_BYTES; at < steps.bytes; at++)
        steps.table[at] = byte();
    memcpy(steps_before, steps.table, steps.bytes);
}

/* The archive is not instrumented, so the address sanitizer does not see its
 * own accesses. It does see those of memcpy, memmove and memset, so the guard
 * bytes are poisoned while the archive runs. */
static void poison_guards(const struct guarded_memory *memory)
{
    size_t first = (size_t)(memory->table - memory->start), past = first + memory->bytes;
    ASAN_POISON_MEMORY_REGION(memory->start, first);
    ASAN_POISON_MEMORY_REGION(memory->start + past, memory->length - past);
}

static void unpoison_guards(const struct guarded_memory *memory)
{
    ASAN_UNPOISON_MEMORY_REGION(memory->start, memory->length);
}

/* The need in bytes of a hall, or all bytes of the table if there is no such
 * hall or the table is too short for it; the odd last byte is never needed. */
static size_t need_within(enum room room, const uint16_t hall[3], size_t bytes)
{
    size_t most = bytes - bytes % 2;
    if (hall[0] - 1u >= BOARD_MAX_DESKS || hall[1] - 1u >= BOARD_MAX_SCREENS ||
        hall[2] - 1u >= BOARD_MAX_POSITIONS)
        return most;
    size_t need = 2 * need_of(room, hall[0], hall[1], hall[2]);
    return need < most ? need : most;
}

/* How many bytes from the start a step or a run may access. */
static size_t reach_by_header(enum room room, const uint8_t *table, size_t bytes)
{
    uint16_t hall[3];
    if (bytes < sizeof hall)
        return bytes - bytes % 2;
    for (int i = 0; i < 3; i++)
        hall[i] = (uint16_t)(table[2 * i] | table[2 * i + 1] << 8);
    return need_within(room, hall, bytes);
}

/* How many bytes from the start a call may access. */
static size_t reach(const struct call *call, const uint8_t *table, size_t bytes)
{
    return call->function == OPEN ? need_within(call->room, call->numbers, bytes)
                                  : reach_by_header(call->room, table, bytes);
}

/* ---- what must hold -------------------------------------------------- */

static const struct call *calls;
static size_t calls_made;
static bool in_run;

static unsigned alignment(const struct guarded_memory *memory)
{
    return (uintptr_t)memory->table % 8;
}

static void require(bool good, const char *what)
{
    if (good)
        return;
    printf("\nFAILED: %s\n", what);
    if (in_run) {
        memset(replies.table, OLD, replies.bytes); /* as it was before the run */
        unsigned aligns[] = {alignment(&steps), alignment(&replies), alignment(&lent)};
        print_run(aligns, steps_before, steps.bytes, replies.table, replies.bytes, before, lent.bytes);
    } else {
        print_case(alignment(&lent), at_first, lent.bytes, calls, calls_made);
    }
    fflush(stdout);
    abort(); /* the fuzzer saves the input */
}

/* Of an accepted call. */
static void keeps_the_message_numbers(const struct call *call)
{
    for (uint16_t desk = 1; desk <= read_word(lent.table, 0); desk++) {
        uint16_t old = due_message(call->room, before, lent.bytes, desk);
        uint16_t now = due_message(call->room, lent.table, lent.bytes, desk);
        if (call->function == OPEN)
            require(now == 0, "an opening sets the message numbers to 0");
        else if (desk == call->numbers[0])
            require(old == call->message && now == (uint16_t)(old + 1),
                    "an accepted step has the message number that is due, and moves it on");
        else
            require(now == old, "an accepted step leaves the message numbers of other desks");
    }
}

/* Of an accepted call on a ring. */
static void keeps_the_beginnings(const struct call *call, uint32_t answer)
{
    for (uint16_t desk = 1; desk <= read_word(lent.table, 0); desk++) {
        uint16_t now = read_word(lent.table, beginning_index(lent.table, desk));
        if (call->function == OPEN) {
            require(now == 0, "an opening sets the beginnings to 0");
            continue;
        }
        size_t old = read_word(before, beginning_index(before, desk));
        bool hands_back = call->function == COLLECT && desk == call->numbers[0] && board_session(answer) != 0;
        require(now == (old + hands_back) % (2 * all_screens(before)),
                "a hand-back moves its desk's beginning by one place around, and nothing else moves one");
    }
}

static bool only_message_changed(enum room room, uint16_t desk)
{
    size_t message = 2 * message_index(room, before, desk), past = message + 2;
    return memcmp(before, lent.table, message) == 0 &&
           memcmp(before + past, lent.table + past, lent.bytes - past) == 0;
}

static void keeps_the_headers_promises(const struct call *call, uint32_t answer)
{
    size_t touched = reach(call, before, lent.bytes);
    require(can_answer(call, board_number(answer)), "a reply number of this call");
    require(guards_intact(&lent, lent.bytes), "nothing outside the table is written");
    require(memcmp(before + touched, lent.table + touched, lent.bytes - touched) == 0,
            "nothing past the need, and no odd last byte, is written");
    if (board_number(answer) != BOARD_ACCEPTED) {
        require(board_session(answer) == 0, "a refusal has session 0");
        require(memcmp(before, lent.table, lent.bytes) == 0, "a refusal leaves every byte");
    } else {
        /* No hall has a desk 0, so a sound table gives 6. */
        require(board_number(boards[call->room].collect(0, 0, passed, lent.bytes)) == BOARD_NO_DESK,
                "an accepted call leaves a sound table");
        keeps_the_message_numbers(call);
        if (call->room == RING)
            keeps_the_beginnings(call, answer);
    }
    if (is_repeat(call, answer))
        require(only_message_changed(call->room, call->numbers[0]), "a repeat leaves every other byte");
}

/* Makes the call again, with all bytes that it may not access on an inaccessible
 * page. */
static void reaches_no_further(const struct call *call, uint32_t answer)
{
    size_t touched = reach(call, before, lent.bytes);
    place_table(&reachable, AT_END, touched);
    memcpy(reachable.table, before, touched);
    uint32_t again = send_call(call, reachable.table, lent.bytes);
    require(again == answer, "the same call on the same bytes has the same answer");
    require(memcmp(reachable.table, lent.table, touched) == 0,
            "the same call on the same bytes writes the same");
}

static void agrees_with_the_reference(const struct call *call, uint32_t answer)
{
    uint32_t expected = reference_call((uint8_t)call->room, (uint8_t)call->function, call->message, call->numbers,
                                       of_reference, lent.bytes);
    require(answer == expected, "the answer of the reference");
    require(memcmp(of_reference, lent.table, lent.bytes) == 0, "the bytes of the reference");
}

/* ---- what must hold of a run ----------------------------------------- */

static bool all_old(const uint8_t *bytes, size_t first, size_t past)
{
    while (first < past && bytes[first] == OLD)
        first++;
    return first == past;
}

static void is_as_single_calls(void)
{
    for (size_t at = 0; at < length; at++)
        require(read_reply(replies.table, at) == singly_replied[at], "a step replies as its single call");
    require(memcmp(singly, lent.table, lent.bytes) == 0, "the bytes that single calls leave");
}

static void run_keeps_the_headers_promises(uint32_t answer)
{
    size_t touched = reach_by_header(HALL, before, lent.bytes);
    uint16_t number = board_number(answer);
    bool has_room = replies.bytes / REPLY_BYTES >= length, is_accepted = number == BOARD_ACCEPTED;
    /* No hall has a desk 0, so a sound table gives 6. */
    bool is_sound = board_number(board_collect(0, 0, passed, lent.bytes)) == BOARD_NO_DESK;
    require(guards_intact(&lent, lent.bytes) && guards_intact(&steps, steps.bytes) &&
                guards_intact(&replies, replies.bytes),
            "a run writes nothing outside its tables");
    require(memcmp(steps_before, steps.table, steps.bytes) == 0, "a run does not write its steps");
    require(board_session(answer) == 0, "the session of a run's answer is 0");
    require(number == (!has_room ? BOARD_TABLE_SHORT : !is_sound ? BOARD_UNSOUND : BOARD_ACCEPTED),
            "a run asks 4, then 5");
    require(all_old(replies.table, is_accepted ? length * REPLY_BYTES : 0, replies.bytes),
            "nothing past the replies is written, and none by a refused run");
    require(memcmp(before + touched, lent.table + touched, lent.bytes - touched) == 0,
            "a run writes nothing past the need, and no odd last byte");
    if (is_accepted)
        is_as_single_calls();
    else
        require(memcmp(before, lent.table, lent.bytes) == 0, "a refused run leaves every byte");
}

/* Makes the run again, with all bytes of the three tables that it may not access on
 * inaccessible pages. */
static void run_reaches_no_further(uint32_t answer)
{
    size_t touched = reach_by_header(HALL, before, lent.bytes), of_replies = length * REPLY_BYTES;
    if (of_replies > replies.bytes)
        of_replies = 0; /* 4 */
    place_table(&reachable, AT_END, touched);
    place_table(&reachable_steps, AT_END, length * STEP_BYTES);
    place_table(&reachable_replies, AT_END, of_replies);
    memcpy(reachable.table, before, touched);
    memcpy(reachable_steps.table, steps_before, length * STEP_BYTES);
    memset(reachable_replies.table, OLD, of_replies);
    uint32_t again = board_run(reachable_steps.table, steps.bytes, reachable_replies.table, replies.bytes,
                               reachable.table, lent.bytes);
    require(again == answer, "the same run on the same bytes has the same answer");
    require(memcmp(reachable.table, lent.table, touched) == 0 &&
                memcmp(reachable_replies.table, replies.table, of_replies) == 0,
            "the same run on the same bytes writes the same");
}

static void run_agrees_with_the_reference(uint32_t answer)
{
    uint32_t expected = reference_run(steps.table, steps.bytes, replies_of_reference, replies.bytes,
                                      of_reference, lent.bytes);
    require(answer == expected, "the reference's answer to a run");
    require(memcmp(replies_of_reference, replies.table, replies.bytes) == 0, "the replies of the reference");
    require(memcmp(of_reference, lent.table, lent.bytes) == 0, "the bytes of the reference after a run");
}

/* ---- the fuzzer's side ----------------------------------------------- */

/* The fuzzer keeps an input that raises one of these. */
__attribute__((section("__libfuzzer_extra_counters")))
static uint8_t this_input[ROOMS][FUNCTIONS][NUMBERS], this_input_runs[NUMBERS];
__attribute__((section("__libfuzzer_extra_counters")))
static uint8_t this_input_steps[FUNCTIONS][NUMBERS]; /* of runs; the first for other codes */
__attribute__((section("__libfuzzer_extra_counters")))
static uint8_t repeats_of_0, repeats_of_a_session, runs_on_to_0;

static void count_up(uint8_t *counter)
{
    *counter += *counter < 255;
}

int LLVMFuzzerInitialize(int *count, char ***arguments)
{
    (void)count, (void)arguments;
    lent = make_guarded_memory(MAX_BYTES);
    reachable = make_guarded_memory(MAX_BYTES);
    steps = make_guarded_memory(MAX_STEP_BYTES);
    reachable_steps = make_guarded_memory(MAX_STEP_BYTES);
    replies = make_guarded_memory(MAX_REPLY_BYTES);
    reachable_replies = make_guarded_memory(MAX_REPLY_BYTES);
    atexit(print_tally);
    return 0;
}

static void make_call(const struct call *call)
{
    poison_guards(&lent);
    uint32_t answer = send_call(call, passed, lent.bytes);
    unpoison_guards(&lent);
    keeps_the_headers_promises(call, answer);
    reaches_no_further(call, answer);
    agrees_with_the_reference(call, answer);
    count_up(&this_input[call->room][call->function][board_number(answer)]);
    if (is_repeat(call, answer))
        count_up(board_session(answer) == 0 ? &repeats_of_0 : &repeats_of_a_session);
    if (runs_on(call, answer))
        count_up(&runs_on_to_0);
    count_answer(call, answer);
}

static void make_run(void)
{
    struct guarded_memory *tables[] = {&lent, &steps, &replies};
    for (int i = 0; i < 3; i++)
        poison_guards(tables[i]);
    uint32_t answer = board_run(steps.table, steps.bytes, replies.table, replies.bytes, passed, lent.bytes);
    for (int i = 0; i < 3; i++)
        unpoison_guards(tables[i]);
    run_keeps_the_headers_promises(answer);
    run_reaches_no_further(answer);
    run_agrees_with_the_reference(answer);
    count_up(&this_input_runs[board_number(answer)]);
    count_run(answer);
    for (size_t at = 0; board_number(answer) == BOARD_ACCEPTED && at < length; at++) {
        uint16_t code = read_word(steps.table, 6 * at);
        uint32_t reply = read_reply(replies.table, at);
        count_up(&this_input_steps[code <= COLLECT ? code : 0][board_number(reply)]);
        count_step(code, reply);
    }
}

int LLVMFuzzerTestOneInput(const uint8_t *bytes, size_t count)
{
    static struct call made[1 << 14];
    input.next = bytes;
    input.left = count;
    calls = made;
    calls_made = 0;
    read_table();
    while (input.left > 0 && calls_made < sizeof made / sizeof *made) {
        struct first_byte first = next_first_byte();
        in_run = is_run(first);
        memcpy(before, lent.table, lent.bytes);
        if (in_run) {
            read_run();
            make_run();
            /* A run is printed alone, and so are the calls after it. */
            memcpy(at_first, lent.table, lent.bytes);
            calls_made = 0;
        } else {
            struct call *call = &made[calls_made++];
            *call = next_call(first);
            make_call(call);
        }
    }
    return 0;
}
