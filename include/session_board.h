/*
 * The session board: six calls on a table that the host lends, for the hall
 * (board_open to board_collect) and for a training room (training_open to
 * training_collect, at the end of this file). In the hall one more call does a
 * whole run of steps (board_run). A second board of the hall hands sessions back
 * in fewer stores (ring_open to ring_collect, also at the end).
 *
 * The table is bytes, two to a 16-bit word, low byte first; its length is given
 * in bytes. It may be at any address. A call reads the words up to the need of
 * the hall that the table's first three words give, and works in place: an
 * accepted step stores only to the words that its comment below names, and an
 * accepted opening only to the words up to the need of its hall. Words past the
 * need and an odd last byte are never accessed. The table must not be used by
 * anyone else during a call. It may be NULL only if its length is 0.
 *
 * Desk, screen and position numbers start at 1. Sessions are 1 to 65535, in a
 * training room 1 to 999; 0 means "none". Every call returns an answer,
 * whatever its numbers and bytes: the reply number times 65536, plus a session.
 * A refusal (reply number not 0) has session 0 and leaves every byte of the
 * table unchanged. Test board_number() to detect a refusal; session 0 is also a
 * valid result.
 *
 * Message numbers: every call but an opening carries a number, so that a message
 * that is delivered twice is done once. In a run each step carries one, and
 * counts as a call here. The table has for each desk its message number, which
 * its next call must carry: 0 after an opening, and one more after each accepted
 * call of the desk, from 65535 on to 0. A repeat (see board_swap) and a collect
 * that hands nothing back are accepted calls like any other; a refused call
 * leaves the number as it is. A call with another number is refused (23).
 *
 * Sending again: a desk sends one message at a time, and sends it again with the
 * same number until an answer arrives. If it is accepted, the next message has
 * the number after it. If it is refused with 23, it was accepted before: do not
 * send it again, and give the next message the number after it. 23 has no
 * session: if an answer may be lost on its way to the desk, the host must keep
 * it until the desk has it, above all the session of a collect, because the
 * board does not give it again.
 *
 * After any other refusal nothing was done, and the number is still due. But a
 * copy of the refused message may still be under way, and may be accepted when
 * it arrives. So send the same message again, or give its number to another one
 * only when no copy can arrive any more: otherwise the copy may be done in place
 * of the new message, which then gets 23.
 *
 * A message that arrives again after 65535 further accepted calls of its desk,
 * or after an opening, may count as new.
 *
 * The life of a session: a swap puts it at a position, and takes show it on
 * screens. A later swap to another session, or to none, replaces it there; the
 * desk of that swap owes it, and retires it. A collect of that desk hands this
 * retirement back once the screens that took the session there have dropped it.
 * If no screen shows the session from the retire on, it is handed back within 3
 * accepted collects of the desk for each screen of the hall.
 *
 * When a session may be closed: a hand-back gives back one retirement, and the
 * session may be at another position too, or may have been put back. Close it
 * once it is at no position, owed by no desk and on no desk's list: then no
 * screen shows it. A host that never puts a session that is still in the table,
 * so that it reuses no number before that number was handed back, may close a
 * session as soon as it is handed back. A repeat (see board_swap) puts nothing.
 *
 * The words of the table: the desks, the screens of a desk and the positions of
 * the hall; the session at each position; the session on each screen, desk by
 * desk; and a record for each desk. With S screens in the hall a record has 14 +
 * 2S words: the owed session; the number of screens read so far; the counts of
 * ready, tested and waiting sessions; 8 words of marks; a list of 2S places; and
 * the message number. With L positions that of desk d is word 3 + L + S + d * (14
 * + 2S) - 1, counted from 0.
 *
 * Tables of the former layout, without message numbers, cannot be used: open the
 * hall afresh. No call detects them reliably. Most are unsound (5) because they
 * are too short, but one with words to spare may pass as sound (with one desk,
 * one word is enough).
 *
 * The board keeps nothing between calls: the table is the whole state of the
 * hall. It uses no memory but the tables that it is lent and less than 1 KB of
 * stack, however long a run is. Its code has no divide instruction, and calls
 * only memcpy, memmove and memset of the C library. Make one call at a time on a
 * table. Link with libsession_board.a, which is for x86-64.
 */
#ifndef SESSION_BOARD_H
#define SESSION_BOARD_H

#include <stddef.h>
#include <stdint.h>

#ifdef __cplusplus
extern "C" {
#endif

#define BOARD_MAX_DESKS 16
#define BOARD_MAX_SCREENS 4 /* of one desk */
#define BOARD_MAX_POSITIONS 64
#define BOARD_MAX_SESSION 65535
#define BOARD_MAX_WORDS 2403 /* the need of the largest hall */
#define BOARD_MAX_BYTES (2 * BOARD_MAX_WORDS)

#define RING_MAX_WORDS 2419 /* the need of the largest hall, on the board with rings */
#define RING_MAX_BYTES (2 * RING_MAX_WORDS)

#define BOARD_STEP_WORDS 6  /* of a step in a run */
#define BOARD_REPLY_WORDS 2 /* of its reply */

#define TRAINING_MAX_DESKS 4
#define TRAINING_MAX_SCREENS 1 /* of one desk */
#define TRAINING_MAX_SESSION 999

/* The reply numbers. Each but the first means "no" to the question beside it. A
 * call asks the questions named in its comment below, in that order, and the
 * first "no" refuses it. */
enum board_reply {
    BOARD_ACCEPTED = 0,
    BOARD_BAD_DESKS = 1,       /* are the desks 1 to 16? */
    BOARD_BAD_SCREENS = 2,     /* are the screens of a desk 1 to 4? */
    BOARD_BAD_POSITIONS = 3,   /* are the positions 1 to 64? */
    BOARD_TABLE_SHORT = 4,     /* is the table at least as long as the need? Of a
                                  run: has the reply table two words for each
                                  step? */
    BOARD_UNSOUND = 5,         /* is the table sound? After an opening it is,
                                  unless the host truncates or changes it. */
    BOARD_NO_DESK = 6,         /* does the hall have this desk? */
    BOARD_NO_SCREEN = 7,       /* does the desk have this screen? */
    BOARD_NO_POSITION = 8,     /* does the hall have this position? */
    BOARD_SCREEN_FULL = 9,     /* does the screen show nothing? */
    BOARD_POSITION_EMPTY = 10, /* does the position hold a session? */
    BOARD_SCREEN_EMPTY = 11,   /* does the screen show a session? */
    BOARD_OWING = 12,          /* does the desk owe nothing? */
    BOARD_OWES_NOTHING = 13,   /* does the desk owe a session? */
    BOARD_NO_ROOM = 14,        /* are fewer than 2S places of its list used?
                                  S is the number of the hall's screens. */
    BOARD_NO_CODE = 17,        /* is the code of the step 1 to 5? Only a step of
                                  a run is answered 17. */
    BOARD_OVER_LIMITS = 22,    /* are the desks and the screens, or the session,
                                  within the limits of the training room? No
                                  call of the hall is answered 22. */
    BOARD_OTHER_MESSAGE = 23   /* does the call carry the desk's message number? */
};

/* The codes of the steps in a run. */
enum board_code {
    BOARD_TAKE = 1,
    BOARD_DROP = 2,
    BOARD_SWAP = 3,
    BOARD_RETIRE = 4,
    BOARD_COLLECT = 5
};

/* The need of a hall within the limits, in words: lend twice as many bytes. */
static inline size_t board_need(size_t desks, size_t screens, size_t positions)
{
    return 3 + positions + desks * screens + desks * (14 + 2 * desks * screens);
}

/* The same on the board with rings. */
static inline size_t ring_need(size_t desks, size_t screens, size_t positions)
{
    return board_need(desks, screens, positions) + desks;
}

static inline uint16_t board_number(uint32_t answer)
{
    return (uint16_t)(answer >> 16);
}

static inline uint16_t board_session(uint32_t answer)
{
    return (uint16_t)(answer & 0xFFFF);
}

/* Opens a hall; the answer has session 0. Asks 1, 2, 3, 4. Writes the hall's
 * three numbers and zeros up to the need, regardless of the old content. */
uint32_t board_open(uint16_t desks, uint16_t screens, uint16_t positions,
                    uint8_t *table, size_t bytes);

/* Shows the position's session on the screen; the answer has that session. Asks
 * 5, 6, 23, 7, 8, 9, 10. Writes the screen and the desk's message number. */
uint32_t board_take(uint16_t message, uint16_t desk, uint16_t screen, uint16_t position,
                    uint8_t *table, size_t bytes);

/* Empties the screen; the answer has the session that it showed. Asks 5, 6, 23,
 * 7, 11. Writes the screen and the desk's message number. */
uint32_t board_drop(uint16_t message, uint16_t desk, uint16_t screen,
                    uint8_t *table, size_t bytes);

/* Puts the given session at the position, or none for 0; the answer has the old
 * one. Asks 5, 6, 23, 8, 12. Writes the desk's message number. If this changes
 * the position, it also writes the position and, unless the old session is 0,
 * what the desk owes: the desk then owes the old session.
 *
 * A repeat is a swap to the session that is already at the position, or of 0
 * onto an empty position. It asks the same questions. Accepted, its answer has
 * what is there; it writes the message number alone, and nothing is owed for
 * it. So an accepted swap whose answer has the session that was sent was a
 * repeat: do not retire after it (a retire just after it gets 13).
 *
 * A camera switch may give its last command again, as a message of its own, when
 * its link was interrupted. If the first one was accepted and the desk owes for
 * it, the second gets 12 and changes nothing, and the retire's answer has the
 * replaced session. After the retire, or if nothing was owed, the second is a
 * repeat if the position still holds the session. If it does not, the second
 * puts the session back, which may still be in the table elsewhere. If the first
 * one was lost or refused, the second takes its place. */
uint32_t board_swap(uint16_t message, uint16_t desk, uint16_t position, uint16_t session,
                    uint8_t *table, size_t bytes);

/* Appends the owed session to the desk's list as waiting; the answer has that
 * session. Asks 5, 6, 23, 13, 14; a desk with an accepted collect between any
 * two of its retires never gets 14. Writes what the desk owes, its count of
 * waiting, the first unused place of its list and its message number. */
uint32_t board_retire(uint16_t message, uint16_t desk, uint8_t *table, size_t bytes);

/* Reads the next two screens of the hall, or the last one alone, to find out
 * which retired sessions of the desk's list are still shown; then hands back at
 * most one retirement. The answer has its session, or 0 if none is ready (see
 * "When a session may be closed" above). Asks 5, 6, 23. Writes the desk's number
 * of screens read, counts, marks, list and message number. */
uint32_t board_collect(uint16_t message, uint16_t desk, uint8_t *table, size_t bytes);

/* Does a run of steps of any kinds, for example those of a whole shift, each as
 * the call of its code would. The replies and the bytes of the table are those of
 * single calls one after another. But the table is checked for soundness once
 * for the run, not at each step.
 *
 * A step is six words: its code (enum board_code), message number, desk, screen,
 * position and session. Words that the call of its code does not have are
 * ignored. A reply is two words: reply number and session. Steps and replies are
 * bytes as in the table: two to a word, low byte first, at any address. On x86-64
 * an array of uint16_t has this form. At the end of the steps, fewer than six
 * words and an odd last byte are no step.
 *
 * Asks 4, 5, once for the run, and also if it has no steps. A refused run does no
 * step and writes nothing. An accepted run answers 0 with session 0, whatever its
 * steps reply: read the replies, one for each step in the same order. A reply has
 * the number and the session of the answer that the single call would get. A step
 * with a code outside 1 to 5 replies 17 with session 0, and is asked nothing
 * else. No step replies 5. A refused step, 17 included, writes its reply and
 * nothing else, so that the message number stays due; the run goes on.
 *
 * Writes two words of the replies for each step, and the words of the table that
 * the accepted steps write. The steps are only read. What is past the last whole
 * step, and past the last reply of the run, is never accessed.
 *
 * No two of the three tables may overlap. None may be used by anyone else during
 * the call, except that others may read the steps. Each may be NULL only if its
 * length is 0. */
uint32_t board_run(const uint8_t *steps, size_t step_bytes, uint8_t *replies, size_t reply_bytes,
                   uint8_t *table, size_t bytes);

/*
 * The training room: at most 4 desks with 1 screen each, and sessions up to 999.
 * Its positions are 1 to 64, as in the hall.
 *
 * Its tables have the layout of the hall's, and board_run has no counterpart.
 * Each call has the parameters of its counterpart, asks the same questions,
 * replies the same and writes the same words, except for these:
 *
 * training_open asks 1, 2, 3, 22, 4. 1, 2 and 3 are asked as in the hall, and 22
 * refuses more than 4 desks or more than 1 screen: 5 desks with 5 screens get 2,
 * and 5 desks with 1 screen get 22, on a table that is too short too.
 *
 * training_swap asks 5, 6, 23, 8, 22, 12. 22 refuses a session over 999, in a
 * repeat too.
 *
 * A table with more than 4 desks or more than 1 screen is unsound (5) for these
 * calls. Sessions over 999 in the table are not: a host that puts some there, or
 * uses the hall's calls on the same table, gets them in answers.
 */
uint32_t training_open(uint16_t desks, uint16_t screens, uint16_t positions,
                       uint8_t *table, size_t bytes);

uint32_t training_take(uint16_t message, uint16_t desk, uint16_t screen, uint16_t position,
                       uint8_t *table, size_t bytes);

uint32_t training_drop(uint16_t message, uint16_t desk, uint16_t screen,
                       uint8_t *table, size_t bytes);

uint32_t training_swap(uint16_t message, uint16_t desk, uint16_t position, uint16_t session,
                       uint8_t *table, size_t bytes);

uint32_t training_retire(uint16_t message, uint16_t desk, uint8_t *table, size_t bytes);

uint32_t training_collect(uint16_t message, uint16_t desk, uint8_t *table, size_t bytes);

/*
 * The board with rings: a second board of the hall, on tables of its own. On the
 * first board a collect that hands a session back moves the rest of the desk's list
 * up one place, up to 127 words. Here the list stays where it is, and the place at
 * which it begins moves on, from the last place around to the first.
 *
 * Each call has the parameters of its counterpart (board_open to board_collect),
 * asks the same questions in the same order and gives the same answers, with the
 * limits of the hall. board_run has no counterpart. Two things are different: the
 * words of a table, and those that a retire and a collect write.
 *
 * The words of the table: those of the first board, and one more in each record, the
 * last, behind the message number. This is the beginning, the place of the list,
 * from 0, that holds its first session. With S screens in the hall a record has 15 +
 * 2S words. With L positions the message number of desk d is word 3 + L + S + d * (15
 * + 2S) - 2, counted from 0, and its beginning is the word after it. The need is one
 * word more for each desk (ring_need). An opening sets every beginning to 0.
 *
 * The list has its sessions in the order of the first board, from the beginning on;
 * after the last of the 2S places comes the first. The marks count in this order too:
 * the first mark is of the first tested session, wherever it is. A table is sound (5)
 * if every beginning is less than 2S and the table is sound on the first board once
 * each list is read from its beginning. So the places that no session uses are 0,
 * also the one that a session has just left.
 *
 * Only a hand-back, that is a collect whose answer has a session, changes the
 * beginning, by one place. A retire leaves it, and so does a collect that hands
 * nothing back; an empty list keeps it. After an opening the beginning of a desk is
 * the number of its hand-backs, modulo 2S.
 *
 * A history of calls gets the answers that it would get from the first board, from an
 * opening on, or from any sound table here and the first board's table that has its
 * words, but each list read from its beginning, and no beginnings. After every call
 * the two tables agree in the same way.
 *
 * Do not mix the calls of the two boards on a table: no call detects the other board's
 * tables reliably. Most are unsound (5), but some pass as sound (here a first board's
 * table of one desk that has one word to spare, if this is 0).
 *
 * A refused call leaves every byte of the table unchanged, as on the first board.
 */

/* As board_open: asks 1, 2, 3, 4. The need asked by 4 is ring_need. Writes the hall's
 * three numbers and zeros up to this need. */
uint32_t ring_open(uint16_t desks, uint16_t screens, uint16_t positions,
                   uint8_t *table, size_t bytes);

/* As board_take: asks 5, 6, 23, 7, 8, 9, 10. Writes the screen and the desk's message
 * number. */
uint32_t ring_take(uint16_t message, uint16_t desk, uint16_t screen, uint16_t position,
                   uint8_t *table, size_t bytes);

/* As board_drop: asks 5, 6, 23, 7, 11. Writes the screen and the desk's message
 * number. */
uint32_t ring_drop(uint16_t message, uint16_t desk, uint16_t screen,
                   uint8_t *table, size_t bytes);

/* As board_swap: asks 5, 6, 23, 8, 12. Writes the desk's message number. If this
 * changes the position, it also writes the position and, unless the old session is 0,
 * what the desk owes. */
uint32_t ring_swap(uint16_t message, uint16_t desk, uint16_t position, uint16_t session,
                   uint8_t *table, size_t bytes);

/* As board_retire: asks 5, 6, 23, 13, 14. Writes what the desk owes, its count of
 * waiting, the first unused place after its list, around the end if need be, and its
 * message number. */
uint32_t ring_retire(uint16_t message, uint16_t desk, uint8_t *table, size_t bytes);

/* As board_collect: asks 5, 6, 23. Writes the desk's number of screens read, counts,
 * marks and message number. If it hands a session back, it also writes 0 to the place
 * that the session leaves, and the beginning. If it completes a reading of the screens
 * in which some session was marked, it also writes the places of the sessions that were
 * tested, to put the unmarked ones first. */
uint32_t ring_collect(uint16_t message, uint16_t desk, uint8_t *table, size_t bytes);

#ifdef __cplusplus
}
#endif

#endif
