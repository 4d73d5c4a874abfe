/*
 * A small host: one hall of 2 desks with 1 screen each, and 2 crane positions;
 * at the end, the whole shift again in one call, and a training room.
 *
 *     gcc -Iinclude examples/host.c build/libsession_board.a -o build/host_example
 *
 * It shows what the board is for. A session that is replaced at its crane is
 * not closed at once: an operator may still be steering by it. The board hands
 * its retirement back once the screens that took it there have dropped it. This
 * host reuses no number before it was handed back, so a session that is handed
 * back is nowhere else in the table, and may be closed at once. A command that
 * is given twice reuses no number: the position already holds its session.
 *
 * It also shows what message numbers are for. A desk's link may deliver a message
 * twice; the board does it once, and no session is lost.
 *
 * The host keeps a log of its steps. Replayed on a fresh table, the log gives the
 * same replies and the same table.
 */
#include "session_board.h"

#include <stdio.h>
#include <stdlib.h>
#include <string.h>

enum { DESKS = 2, SCREENS = 1, POSITIONS = 2, MAX_STEPS = 100 };

/* The host lends the board its memory. The board has none of its own, so this
 * table is the whole state of the hall. The size of the largest hall is always
 * enough; a host with little memory lends 2 * board_need(...) bytes. */
static uint8_t table[BOARD_MAX_BYTES];

/* The number that each desk's next message has. A desk counts only the messages that
 * were accepted; after 65535 comes 0. The opening sets the board's numbers to 0. */
static uint16_t next_message[BOARD_MAX_DESKS + 1];

/* The log: the words of each step, as board_run reads them, and of its reply. On
 * x86-64 these arrays have the low byte of each word first. */
static uint16_t steps[MAX_STEPS][BOARD_STEP_WORDS], replies[MAX_STEPS][BOARD_REPLY_WORDS];
static size_t logged;

/* The text of each refusal, for an operator. */
static const char *reason(uint16_t number)
{
    switch (number) {
    case BOARD_BAD_DESKS: return "a hall has 1 to 16 desks";
    case BOARD_BAD_SCREENS: return "a desk has 1 to 4 screens";
    case BOARD_BAD_POSITIONS: return "a hall has 1 to 64 positions";
    case BOARD_TABLE_SHORT: return "too short: the table for this hall, or that of a run's replies";
    case BOARD_UNSOUND: return "the table is damaged, or no hall was opened in it";
    case BOARD_NO_DESK: return "the hall has no such desk";
    case BOARD_NO_SCREEN: return "the desk has no such screen";
    case BOARD_NO_POSITION: return "the hall has no such position";
    case BOARD_SCREEN_FULL: return "the screen shows a session already";
    case BOARD_POSITION_EMPTY: return "the position holds no session";
    case BOARD_SCREEN_EMPTY: return "the screen shows nothing";
    case BOARD_OWING: return "the desk must first retire the session it owes";
    case BOARD_OWES_NOTHING: return "the desk owes no session";
    case BOARD_NO_ROOM: return "the desk's list is full; it must collect first";
    case BOARD_NO_CODE: return "no step has this code";
    case BOARD_OVER_LIMITS: return "a training room has 4 desks, 1 screen each, sessions to 999";
    case BOARD_OTHER_MESSAGE: return "the number is not that of the desk's next message";
    default: return "not a number of this board";
    }
}

/* A refusal changes nothing, so a host may report it and continue. Test only the
 * number: session 0 is also a valid result of an accepted call. */
static int accepted(uint32_t answer)
{
    uint16_t number = board_number(answer);
    if (number == BOARD_ACCEPTED)
        return 1;
    printf("refused (%u): %s\n", (unsigned)number, reason(number));
    return 0;
}

/* A message that is not accepted leaves its number to the next one. (This host loses
 * no answer. One that may lose some counts on after 23 too: the message was accepted
 * before.) */
static int done(uint16_t desk, uint32_t answer)
{
    if (!accepted(answer))
        return 0;
    next_message[desk]++;
    return 1;
}

/* Logs a step and its answer. Words that the step's code lacks may hold anything, so
 * they are 0 here. */
static void log_step(enum board_code code, uint16_t message, uint16_t desk, uint16_t screen, uint16_t position,
                     uint16_t session, uint32_t answer)
{
    const uint16_t step[] = {code, message, desk, screen, position, session};
    const uint16_t reply[] = {board_number(answer), board_session(answer)};
    if (logged == MAX_STEPS)
        exit(EXIT_FAILURE);
    memcpy(steps[logged], step, sizeof step);
    memcpy(replies[logged], reply, sizeof reply);
    logged++;
}

static void take(uint16_t desk, uint16_t screen, uint16_t position)
{
    printf("desk %u takes position %u: ", (unsigned)desk, (unsigned)position);
    uint16_t message = next_message[desk];
    uint32_t answer = board_take(message, desk, screen, position, table, sizeof table);
    log_step(BOARD_TAKE, message, desk, screen, position, 0, answer);
    if (done(desk, answer))
        printf("its screen shows session %u\n", (unsigned)board_session(answer));
}

static void drop(uint16_t desk, uint16_t screen)
{
    printf("desk %u drops its screen: ", (unsigned)desk);
    uint16_t message = next_message[desk];
    uint32_t answer = board_drop(message, desk, screen, table, sizeof table);
    log_step(BOARD_DROP, message, desk, screen, 0, 0, answer);
    if (done(desk, answer))
        printf("it no longer shows session %u\n", (unsigned)board_session(answer));
}

/* A swap and its retire belong together: the desk owes the session that it
 * replaced, and cannot swap again before it has retired it. A repeat replaces
 * nothing, so it has no retire. Its answer has the session that was sent. */
static void replace(uint16_t desk, uint16_t position, uint16_t session)
{
    printf("desk %u puts session %u at position %u: ", (unsigned)desk, (unsigned)session,
           (unsigned)position);
    uint16_t message = next_message[desk];
    uint32_t answer = board_swap(message, desk, position, session, table, sizeof table);
    log_step(BOARD_SWAP, message, desk, 0, position, session, answer);
    if (!done(desk, answer))
        return;
    uint16_t old = board_session(answer);
    if (old == session) {
        printf("nothing changes, it is there already\n");
        return;
    }
    if (old == 0) {
        printf("it was empty\n");
        return;
    }
    printf("session %u is replaced, ", (unsigned)old);
    message = next_message[desk];
    answer = board_retire(message, desk, table, sizeof table);
    log_step(BOARD_RETIRE, message, desk, 0, 0, 0, answer);
    if (done(desk, answer))
        printf("and retired\n");
}

/* A desk that collects at least once between two retires never runs out of
 * room. Each collect reads two more screens and hands back at most one
 * retirement. Because this host reuses no number, the session may then be
 * closed. */
static uint16_t collect(uint16_t desk)
{
    printf("desk %u collects: ", (unsigned)desk);
    uint16_t message = next_message[desk];
    uint32_t answer = board_collect(message, desk, table, sizeof table);
    log_step(BOARD_COLLECT, message, desk, 0, 0, 0, answer);
    if (!done(desk, answer))
        return 0;
    uint16_t session = board_session(answer);
    if (session == 0)
        printf("nothing is handed back yet\n");
    else
        printf("session %u is handed back and may be closed\n", (unsigned)session);
    return session;
}

/* The desk's last message, an accepted collect, is delivered again, with the number
 * that it had. Without message numbers the board would hand back one more session,
 * which nobody would close, because nobody waits for a second answer. 23 changes
 * nothing: the desk counts on from the first answer. */
static int delivered_again(uint16_t desk)
{
    uint16_t message = (uint16_t)(next_message[desk] - 1);
    printf("the same message of desk %u arrives again: ", (unsigned)desk);
    uint32_t answer = board_collect(message, desk, table, sizeof table);
    log_step(BOARD_COLLECT, message, desk, 0, 0, 0, answer);
    return !accepted(answer) && board_number(answer) == BOARD_OTHER_MESSAGE;
}

/* Replays the log on a fresh table. The run checks the table once, so this is faster
 * than single calls. It is accepted even if some of its steps are refused: each has
 * a reply of its own. */
static int replay(void)
{
    static uint8_t fresh[BOARD_MAX_BYTES];
    static uint16_t again[MAX_STEPS][BOARD_REPLY_WORDS];
    if (!accepted(board_open(DESKS, SCREENS, POSITIONS, fresh, sizeof fresh)) ||
        !accepted(board_run((const uint8_t *)steps, logged * sizeof *steps, (uint8_t *)again, logged * sizeof *again,
                            fresh, sizeof fresh)))
        return 0;
    for (size_t i = 0; i < logged; i++)
        if (again[i][0] != BOARD_ACCEPTED)
            printf("step %zu, of desk %u, is refused (%u): %s\n", i + 1, (unsigned)steps[i][2], (unsigned)again[i][0],
                   reason(again[i][0]));
    if (memcmp(again, replies, logged * sizeof *again) != 0 || memcmp(fresh, table, sizeof table) != 0)
        return 0;
    printf("%zu steps: the same replies, and the same table\n", logged);
    return 1;
}

/* A training room has the same calls, named training_ instead of board_, and
 * smaller limits; only board_run is for the hall alone. It gets a table of its own. */
static int lesson(void)
{
    static uint8_t room[BOARD_MAX_BYTES];
    if (!accepted(training_open(DESKS, SCREENS, POSITIONS, room, sizeof room)))
        return 0;
    printf("desk 1 puts session %d at position 1: ", TRAINING_MAX_SESSION + 1);
    if (accepted(training_swap(0, 1, 1, TRAINING_MAX_SESSION + 1, room, sizeof room)))
        return 0;
    printf("desk 1 puts session %d at position 1: ", TRAINING_MAX_SESSION);
    if (!accepted(training_swap(0, 1, 1, TRAINING_MAX_SESSION, room, sizeof room)))
        return 0;
    printf("it was empty\n");
    return 1;
}

int main(void)
{
    printf("A hall of %d desks with %d screen each and %d positions.\n", DESKS, SCREENS, POSITIONS);
    if (!accepted(board_open(DESKS, SCREENS, POSITIONS, table, sizeof table)))
        return EXIT_FAILURE;

    printf("\nThe cranes get their sessions, and an operator starts to steer.\n");
    replace(1, 1, 300);
    replace(1, 2, 400);
    take(2, 1, 1);

    printf("\nSession 300 is replaced while desk 2 still shows it.\n");
    replace(1, 1, 301);
    if (collect(1) != 0) /* a screen shows it, so it must not be handed back */
        return EXIT_FAILURE;

    printf("\nThe camera switch lost its link for a moment, and gives its last command again.\n");
    replace(1, 1, 301);

    printf("\nSession 400 is replaced too; nobody shows that one.\n");
    replace(1, 2, 401);
    if (collect(1) != 400)
        return EXIT_FAILURE;

    printf("\nDesk 2 drops session 300, and only now may it be closed.\n");
    drop(2, 1);
    if (collect(1) != 300)
        return EXIT_FAILURE;

    printf("\nTwo more sessions are replaced, and the link delivers a collect twice.\n");
    replace(1, 1, 302);
    replace(1, 2, 402);
    if (collect(1) != 301 || !delivered_again(1) || collect(1) != 401) /* none is lost */
        return EXIT_FAILURE;

    printf("\nSome steps that the board refuses.\n");
    take(2, 1, 3);
    drop(2, 1);
    take(3, 1, 1);

    printf("\nThe day goes on with the new sessions.\n");
    take(2, 1, 1);

    printf("\nThe shift is replayed from the log, in one call.\n");
    if (!replay())
        return EXIT_FAILURE;

    printf("\nIn a training room, sessions are at most %d.\n", TRAINING_MAX_SESSION);
    return lesson() ? EXIT_SUCCESS : EXIT_FAILURE;
}
