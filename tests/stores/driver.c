/*
 * Makes a few hundred calls for the trace of their stores, and prints for each
 * which bytes it may store to:
 *
 *     marker ADDRESS
 *     call NAME AND NUMBERS|HALL|LENT|LENT ..
 *
 * The driver stores to the marker just before and just after each call, in the
 * order of the lines. LENT is a table that the call is lent:
 *
 *     NAME ADDRESS FIRST PAST RANGE RANGE ..
 *
 * FIRST and PAST are the addresses of the memory around it. A range, FIRST-PAST, is
 * bytes of the table that the call may store to, from documents 01 and 02 and the
 * table's words before the call; a range that ends in '!' must be stored to.
 * These are all bytes of an opening, the desk's message number of an accepted step,
 * and the replies of an accepted run. A refusal has no ranges. The code below says
 * of each call whether it is accepted. A collect of a ring that hands a session back and
 * does nothing else, because all others are ready, is a turn: "ring_collect 0 1 (turn)".
 *
 * Each step of the hall is made as a single call and as a run of one step.
 */
#include "runs.h"

#include <stdio.h>
#include <stdlib.h>
#include <string.h>

enum { SPARE = 5, MARGIN = 64, PLACES = 16 };

static volatile unsigned marker;

/* The table between calls. Each call gets a copy, at another address. */
static uint8_t kept[RING_MAX_BYTES + SPARE];
static size_t lent_bytes;
static enum room room;
static uint16_t hall_desks, hall_screens, hall_positions;
static size_t calls;

static _Alignas(64) uint8_t memory[MARGIN + PLACES + RING_MAX_BYTES + SPARE + MARGIN];
static _Alignas(64) uint8_t step_memory[MARGIN + PLACES + SHORT_RUN * STEP_BYTES + SPARE + MARGIN];
static _Alignas(64) uint8_t reply_memory[MARGIN + PLACES + SHORT_RUN * REPLY_BYTES + SPARE + MARGIN];

static uint16_t word(size_t at)
{
    return read_word(kept, at);
}

static void set_word(size_t at, unsigned value)
{
    write_word(kept, at, value);
}

static size_t record(uint16_t desk)
{
    return record_index(room, kept, desk);
}

static void expect(bool good, const char *what)
{
    if (!good) {
        printf("wrong state: %s\n", what);
        exit(1);
    }
}

static void expect_number(uint16_t number, enum board_reply expected)
{
    if (number != expected) {
        printf("reply number %u where %u is right\n", number, expected);
        exit(1);
    }
}

/* ---- a call ----------------------------------------------------------- */

static void print_lent(const char *name, const uint8_t *lent, const uint8_t *first, size_t length)
{
    printf("|%s %zu %zu %zu", name, (size_t)lent, (size_t)first, (size_t)(first + length));
}

static void print_footprint(const struct call *call)
{
    struct footprint footprint = footprint_of(call, kept);
    for (size_t i = 0; i < footprint.count; i++)
        printf(" %zu-%zu%s", footprint.ranges[i].first, footprint.ranges[i].past, i + 1 == footprint.count ? "!" : "");
}

static bool is_turn(const struct call *call)
{
    if (call->room != RING || call->function != COLLECT)
        return false;
    size_t at = record(call->numbers[0]);
    return word(at + READY) != 0 && word(at + TESTED) == 0 && word(at + WAITING) == 0;
}

static void print_line(const struct call *call, const uint8_t *table, bool accepted)
{
    printf("call ");
    print_call(call);
    if (accepted && is_turn(call))
        printf(" (turn)");
    printf("|%u %u %u", hall_desks, hall_screens, hall_positions);
    print_lent("table", table, memory, sizeof memory);
    if (accepted)
        print_footprint(call);
    printf("\n");
}

/* Makes the call, which must get this reply number; returns its answer. */
static uint32_t make_single(const struct call *call, enum board_reply number)
{
    uint8_t *table = memory + MARGIN + calls % PLACES;
    memcpy(table, kept, lent_bytes);
    print_line(call, table, number == BOARD_ACCEPTED);
    marker = 1;
    uint32_t answer = send_call(call, table, lent_bytes);
    marker = 0;
    memcpy(kept, table, lent_bytes);
    calls++;
    expect_number(board_number(answer), number);
    return answer;
}

/* ---- a run ------------------------------------------------------------ */

static struct run run;

/* The footprint of the run, and again the message number of each accepted step. */
static void print_run_footprint(void)
{
    for (size_t i = 0; i < run.ranges; i++)
        printf(" %zu-%zu", run.footprint[i].first, run.footprint[i].past);
    for (size_t i = 0; i < run.count; i++) {
        if (board_number(run.answers[i]) != BOARD_ACCEPTED)
            continue;
        size_t message = 2 * message_index(HALL, kept, run.steps[i].desk);
        printf(" %zu-%zu!", message, message + 2);
    }
}

static void print_run_line(const uint8_t *steps, const uint8_t *replies, const uint8_t *table, bool accepted)
{
    printf("call board_run of %zu steps|%u %u %u", run.count, hall_desks, hall_screens, hall_positions);
    print_lent("steps", steps, step_memory, sizeof step_memory);
    print_lent("replies", replies, reply_memory, sizeof reply_memory);
    if (accepted && run.count != 0)
        printf(" 0-%zu!", REPLY_BYTES * run.count);
    print_lent("table", table, memory, sizeof memory);
    if (accepted)
        print_run_footprint();
    printf("\n");
}

static void expect_answers(const uint8_t *replies)
{
    for (size_t i = 0; i < run.count; i++)
        expect(read_reply(replies, i) == run.answers[i], "the replies of a run");
    expect(memcmp(kept, run.table, lent_bytes) == 0, "the table after a run");
}

/* Makes the run with so many left-over bytes behind its steps, and room for so many
 * bytes of replies. */
static void make_run(size_t left_over, size_t room, enum board_reply number)
{
    uint8_t *steps = step_memory + MARGIN + calls % 3, *replies = reply_memory + MARGIN + calls % 5;
    uint8_t *table = memory + MARGIN + calls % PLACES;
    for (size_t i = 0; i < run.count; i++)
        write_step(steps, i, &run.steps[i]);
    memcpy(table, kept, lent_bytes);
    print_run_line(steps, replies, table, number == BOARD_ACCEPTED);
    size_t bytes = STEP_BYTES * run.count + left_over;
    marker = 1;
    uint32_t answer = board_run(steps, bytes, replies, room, table, lent_bytes);
    marker = 0;
    memcpy(kept, table, lent_bytes);
    calls++;
    expect_number(board_number(answer), number);
    if (number == BOARD_ACCEPTED)
        expect_answers(replies);
}

/* A run of one step, on the table before its single call. */
static void make_run_of(const struct call *call, const uint8_t *table, uint32_t answer)
{
    struct step step = step_of(call, 0xEEEE);
    bool unsound = board_number(answer) == BOARD_UNSOUND;
    begin_run(&run, table, lent_bytes);
    memcpy(kept, table, lent_bytes);
    expect(add_step(&run, &step) == answer, "the same answer again");
    make_run(calls % STEP_BYTES, REPLY_BYTES + calls % SPARE, unsound ? BOARD_UNSOUND : BOARD_ACCEPTED);
}

/* ---- both ------------------------------------------------------------- */

/* Makes the call, and a step of the hall also as a run; returns its session. */
static uint16_t make(const struct call *call, enum board_reply number)
{
    static uint8_t before[sizeof kept];
    memcpy(before, kept, lent_bytes);
    uint32_t answer = make_single(call, number);
    if (call->room == HALL && call->function != OPEN)
        make_run_of(call, before, answer);
    return board_session(answer);
}

/* A call with the message number that is due. */
static uint16_t call(enum function function, uint16_t a, uint16_t b, uint16_t c, enum board_reply number)
{
    return make(&(struct call){room, function, due_message(room, kept, lent_bytes, a), {a, b, c}}, number);
}

/* ---- what is called --------------------------------------------------- */

static void openings(void)
{
    uint16_t desks = hall_desks, screens = hall_screens, positions = hall_positions;
    size_t need = 2 * need_of(room, desks, screens, positions);
    memset(kept, 0xEE, sizeof kept);
    lent_bytes = need + SPARE;
    call(OPEN, 0, screens, positions, BOARD_BAD_DESKS);
    call(OPEN, 17, screens, positions, BOARD_BAD_DESKS);
    call(OPEN, desks, 5, positions, BOARD_BAD_SCREENS);
    call(OPEN, desks, screens, 65, BOARD_BAD_POSITIONS);
    if (room == TRAINING) {
        call(OPEN, 5, screens, positions, BOARD_OVER_LIMITS);
        call(OPEN, desks, 2, positions, BOARD_OVER_LIMITS);
    }
    lent_bytes = need - 1;
    call(OPEN, desks, screens, positions, BOARD_TABLE_SHORT);
    lent_bytes = need;
    call(OPEN, desks, screens, positions, BOARD_ACCEPTED);
    memset(kept, 0xEE, sizeof kept);
    lent_bytes = need + SPARE;
    call(OPEN, desks, screens, positions, BOARD_ACCEPTED);
}

/* All five steps, with the numbers of a desk that is there. */
static void all_refused(uint16_t desk, enum board_reply number)
{
    call(TAKE, desk, 1, 1, number);
    call(DROP, desk, 1, 0, number);
    call(SWAP, desk, 1, 1, number);
    call(RETIRE, desk, 0, 0, number);
    call(COLLECT, desk, 0, 0, number);
}

/* A word with another value, for which the table is not sound. */
static void unsound(uint16_t desk, size_t at, unsigned value)
{
    uint16_t held = word(at);
    set_word(at, value);
    all_refused(desk, BOARD_UNSOUND);
    set_word(at, held);
}

/* All five steps with another number than the one that is due. */
static void other_message(uint16_t desk, uint16_t distance)
{
    uint16_t message = (uint16_t)(due_message(room, kept, lent_bytes, desk) + distance);
    for (int function = TAKE; function <= COLLECT; function++)
        make(&(struct call){room, (enum function)function, message, {desk, 1, 1}}, BOARD_OTHER_MESSAGE);
}

static void refusals(uint16_t desk)
{
    other_message(desk, 1);
    other_message(desk, 65535); /* the one before */
    other_message(desk, 256);
    all_refused(0, BOARD_NO_DESK);
    all_refused((uint16_t)(hall_desks + 1), BOARD_NO_DESK);
    call(TAKE, desk, 0, 1, BOARD_NO_SCREEN);
    call(DROP, desk, (uint16_t)(hall_screens + 1), 0, BOARD_NO_SCREEN);
    call(TAKE, desk, 1, 0, BOARD_NO_POSITION);
    call(SWAP, desk, (uint16_t)(hall_positions + 1), 1, BOARD_NO_POSITION);
    if (room == TRAINING)
        call(SWAP, desk, 1, 1000, BOARD_OVER_LIMITS);
    size_t last = record(hall_desks);
    unsound(desk, 0, limits_of[room].desks + 1u);
    unsound(desk, 1, limits_of[room].screens + 1u);
    unsound(desk, last + LIST + 2 * all_screens(kept) - 1, word(last + LIST + 2 * all_screens(kept) - 1) == 0);
    unsound(desk, last + SCANNED, word(last + TESTED) == 0 ? 2 : 3);
    unsound(desk, last + MARKS + 7, 0x8000);
    if (room == RING)
        unsound(desk, beginning_index(kept, hall_desks), (unsigned)(2 * all_screens(kept)));
    size_t bytes = lent_bytes;
    lent_bytes = 2 * need_of(room, hall_desks, hall_screens, hall_positions) - 1;
    all_refused(desk, BOARD_UNSOUND);
    lent_bytes = 5;
    all_refused(desk, BOARD_UNSOUND);
    lent_bytes = bytes;
}

/* Takes, drops, swaps and retires of a desk that has nothing yet. */
static void screens_and_positions(uint16_t desk)
{
    uint16_t screen = hall_screens, position = hall_positions;
    call(COLLECT, desk, 0, 0, BOARD_ACCEPTED);
    call(SWAP, desk, position, 0, BOARD_ACCEPTED); /* a repeat */
    call(TAKE, desk, screen, position, BOARD_POSITION_EMPTY);
    call(DROP, desk, screen, 0, BOARD_SCREEN_EMPTY);
    call(RETIRE, desk, 0, 0, BOARD_OWES_NOTHING);
    call(SWAP, desk, position, 300, BOARD_ACCEPTED);
    call(TAKE, desk, screen, position, BOARD_ACCEPTED);
    call(TAKE, desk, screen, position, BOARD_SCREEN_FULL);
    call(DROP, desk, screen, 0, BOARD_ACCEPTED);
    call(TAKE, desk, 1, position, BOARD_ACCEPTED);
    expect(call(SWAP, desk, position, 300, BOARD_ACCEPTED) == 300, "a repeat");
    call(RETIRE, desk, 0, 0, BOARD_OWES_NOTHING);
    call(SWAP, desk, position, 301, BOARD_ACCEPTED);
    call(SWAP, desk, 1, 7, BOARD_OWING);
    call(SWAP, desk, position, 301, BOARD_OWING); /* also for a repeat */
    if (room == TRAINING)
        call(SWAP, desk, position, 1000, BOARD_OVER_LIMITS);
    call(RETIRE, desk, 0, 0, BOARD_ACCEPTED);
    expect(call(SWAP, desk, position, 301, BOARD_ACCEPTED) == 301, "a repeat after the retire");
    call(SWAP, desk, position, 0, BOARD_ACCEPTED);
    call(SWAP, desk, position, 0, BOARD_OWING); /* also for a repeat */
    call(RETIRE, desk, 0, 0, BOARD_ACCEPTED);
    call(DROP, desk, 1, 0, BOARD_ACCEPTED);
}

/* A desk's list, all waiting, and nothing owed. Every third is the session 9; the
 * others are over the limit of the training room, which asks only swaps for it. The
 * message numbers are about to run on from 65535 to 0, and a ring begins at its last
 * place but one, so that it runs around the end. */
static void set_list(uint16_t desk, size_t used)
{
    size_t at = record(desk), places = 2 * all_screens(kept);
    memset(kept + 2 * at, 0, 2 * (LIST + places));
    set_word(message_index(room, kept, desk), 65535);
    if (room == RING)
        set_word(beginning_index(kept, desk), (unsigned)(places - 2));
    set_word(at + WAITING, (unsigned)used);
    for (size_t index = 0; index < used; index++)
        set_word(list_index(room, kept, desk, index), index % 3 == 0 ? 9 : 1000 + (unsigned)index);
}

/* Every screen shows 9, or none does. */
static void set_screens(uint16_t session)
{
    for (uint16_t desk = 1; desk <= hall_desks; desk++)
        for (uint16_t screen = 1; screen <= hall_screens; screen++)
            set_word(screen_index(kept, desk, screen), session);
}

/* A desk's list from full to empty: marks, a settling, and hand-backs. With
 * `steps`, steps in mid-reading too. */
static void readings(uint16_t desk, bool steps)
{
    size_t at = record(desk), all = all_screens(kept);
    set_list(desk, 2 * all);
    set_screens(9);
    set_word(at + OWED, 77);
    call(RETIRE, desk, 0, 0, BOARD_NO_ROOM);
    for (size_t reads = 2; reads < all; reads += 2) {
        call(COLLECT, desk, 0, 0, BOARD_ACCEPTED);
        expect(word(at + SCANNED) == reads && word(at + MARKS) != 0, "in mid-reading, with marks");
        if (steps && reads == 2)
            refusals(desk);
    }
    expect(call(COLLECT, desk, 0, 0, BOARD_ACCEPTED) != 0, "settled and handed back");
    expect(word(at + WAITING) != 0 && word(at + TESTED) == 0, "the marked ones wait again");
    call(RETIRE, desk, 0, 0, BOARD_ACCEPTED);
    set_screens(0);
    for (int collects = 0; collects < (all > 4 ? 2 : 1); collects++)
        call(COLLECT, desk, 0, 0, BOARD_ACCEPTED);
    if (all > 2) {
        expect(word(at + TESTED) != 0, "in mid-reading again");
        call(SWAP, desk, 1, 0, BOARD_ACCEPTED); /* a repeat */
        call(SWAP, desk, 1, 8, BOARD_ACCEPTED);
        expect(call(SWAP, desk, 1, 8, BOARD_ACCEPTED) == 8, "a repeat in mid-reading");
        call(TAKE, desk, 1, 1, BOARD_ACCEPTED);
        call(SWAP, desk, 1, 0, BOARD_ACCEPTED);
        call(RETIRE, desk, 0, 0, BOARD_ACCEPTED);
        call(DROP, desk, 1, 0, BOARD_ACCEPTED);
    }
    set_list(desk, 2);
    size_t back = 0;
    for (size_t collects = 0; collects < (all + 1) / 2 + 2; collects++)
        back += call(COLLECT, desk, 0, 0, BOARD_ACCEPTED) != 0;
    expect(back == 2 && word(at + READY) == 0, "handed back to the last");
}

/* Collects of a desk whose list is full, or has two sessions, all ready: each hands one
 * back, and nothing else is done. */
static void hand_backs(uint16_t desk)
{
    size_t at = record(desk);
    for (size_t used = 2 * all_screens(kept); used >= 2; used = used > 2 ? 2 : 0) {
        set_list(desk, used);
        set_word(at + WAITING, 0);
        set_word(at + READY, (unsigned)used);
        for (int collects = 0; collects < 2; collects++)
            expect(call(COLLECT, desk, 0, 0, BOARD_ACCEPTED) != 0, "handed back");
    }
}

/* Adds a step to the run, which must reply this number. */
static void add(enum function function, uint16_t desk, uint16_t b, uint16_t c, enum board_reply number)
{
    uint16_t message = due_message(HALL, run.table, lent_bytes, desk);
    struct step step = step_of(&(struct call){HALL, function, message, {desk, b, c}}, 0xEEEE);
    expect_number(board_number(add_step(&run, &step)), number);
}

static void add_code(uint16_t code, uint16_t desk)
{
    struct step step = {code, due_message(HALL, run.table, lent_bytes, desk), desk, 1, 1, 1};
    expect_number(board_number(add_step(&run, &step)), BOARD_NO_CODE);
}

/* Steps of a desk that owes nothing and whose list is full; only the first are
 * accepted. */
static void add_mixed_steps(uint16_t desk)
{
    add(SWAP, desk, 1, 8, BOARD_ACCEPTED);
    add(SWAP, desk, 1, 8, BOARD_ACCEPTED); /* a repeat */
    add(TAKE, desk, 1, 1, BOARD_ACCEPTED);
    add(SWAP, desk, 1, 0, BOARD_ACCEPTED);
    add_code(0, desk);
    add_code(257, desk);
    add(SWAP, desk, 1, 8, BOARD_OWING);
    add(RETIRE, desk, 0, 0, BOARD_NO_ROOM);
    add(TAKE, desk, 1, 1, BOARD_SCREEN_FULL);
    add(COLLECT, 0, 0, 0, BOARD_NO_DESK);
    add(TAKE, desk, 0, 1, BOARD_NO_SCREEN);
    add(SWAP, desk, 0, 1, BOARD_NO_POSITION);
}

static void refused_steps(uint16_t desk)
{
    begin_run(&run, kept, lent_bytes);
    add_code(0, desk);
    add(RETIRE, desk, 0, 0, BOARD_OWES_NOTHING);
    add(DROP, desk, 1, 0, BOARD_SCREEN_EMPTY);
    add_code(6, desk);
    add_code(65535, 0);
    make_run(11, REPLY_BYTES * run.count + SPARE, BOARD_ACCEPTED);
}

static void refused_runs(void)
{
    size_t exact = REPLY_BYTES * run.count, last = record(hall_desks) + MARKS + 7;
    make_run(0, exact - 1, BOARD_TABLE_SHORT);
    make_run(11, 0, BOARD_TABLE_SHORT);
    set_word(last, 0x8000);
    make_run(0, exact - 1, BOARD_TABLE_SHORT);
    make_run(0, exact, BOARD_UNSOUND);
    make_run(11, exact + SPARE, BOARD_UNSOUND);
    set_word(last, 0);
}

/* Runs of several steps: refused, with refused steps, and with accepted ones of which
 * the last empty the list. */
static void runs(uint16_t desk)
{
    set_screens(0);
    set_word(position_index(1), 0);
    set_list(desk, 2 * all_screens(kept));
    begin_run(&run, kept, lent_bytes);
    make_run(0, 0, BOARD_ACCEPTED);
    make_run(11, SPARE, BOARD_ACCEPTED);
    refused_steps(desk);
    begin_run(&run, kept, lent_bytes);
    add_mixed_steps(desk);
    refused_runs();
    make_run(0, REPLY_BYTES * run.count, BOARD_ACCEPTED);
    begin_run(&run, kept, lent_bytes);
    add(DROP, desk, 1, 0, BOARD_ACCEPTED);
    for (size_t collects = 0; collects < all_screens(kept) / 2 + 3; collects++)
        add(COLLECT, desk, 0, 0, BOARD_ACCEPTED);
    add(RETIRE, desk, 0, 0, BOARD_ACCEPTED);
    make_run(7, REPLY_BYTES * run.count + SPARE, BOARD_ACCEPTED);
}

static void hall(enum room of, uint16_t desks, uint16_t screens, uint16_t positions)
{
    room = of;
    hall_desks = desks, hall_screens = screens, hall_positions = positions;
    openings();
    screens_and_positions(desks);
    refusals(1);
    readings(desks, true);
    if (desks > 1) {
        screens_and_positions(1);
        readings((uint16_t)(desks / 2), false);
    }
    hand_backs(desks);
    if (room == HALL)
        runs(desks);
}

/* With the argument 'small', the smallest hall of each room alone; the board with rings
 * counts as a room. */
int main(int count, char **arguments)
{
    static char buffer[1 << 16];
    setvbuf(stdout, buffer, _IOFBF, sizeof buffer);
    printf("marker %zu\n", (size_t)&marker);
    hall(HALL, 1, 1, 1);
    hall(TRAINING, 1, 1, 1);
    hall(RING, 1, 1, 1);
    if (count < 2 || strcmp(arguments[1], "small") != 0) {
        hall(HALL, 6, 1, 12);
        hall(HALL, 16, 4, 64);
        hall(TRAINING, 4, 1, 12);
        hall(RING, 6, 1, 12);
        hall(RING, 16, 4, 64);
    }
    printf("done\n");
    return 0;
}
