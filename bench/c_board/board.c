/*
 * The session board in C, written for speed and from documents 01 and 02 alone:
 * the same questions in the same order, the same answers and bytes. It works on
 * the lent bytes in place, with SSE2, which every x86-64 has; words are low byte
 * first there, as in the table.
 *
 * CALL(name) is the name that a call gets, and ROOM_DESKS, ROOM_SCREENS and
 * ROOM_SESSIONS are the limits of its room: board_open and so on, and those of the
 * hall, if not said.
 *
 * Compile with -fno-builtin-memset: what gcc puts in memset's place is a 'rep
 * stos', which starts slowly.
 */
#include "session_board.h"

#include <emmintrin.h>
#include <stdbool.h>
#include <string.h>

#ifndef CALL
#define CALL(name) board_##name
#endif

#ifndef ROOM_DESKS
#define ROOM_DESKS BOARD_MAX_DESKS
#define ROOM_SCREENS BOARD_MAX_SCREENS
#define ROOM_SESSIONS BOARD_MAX_SESSION
#endif

/* The words of a desk's record. K are the screens read so far. Behind the list is
 * the desk's next message number. */
enum { OWED = 0, K = 1, READY = 2, TESTED = 3, WAITING = 4, MARKS = 5, LIST = 13 };

enum { HEADER = 3, LANES = 8 /* words of a vector */ };

#define LIKELY(yes) __builtin_expect(!!(yes), 1)

/* ---- words ------------------------------------------------------------ */

static inline unsigned get(const uint8_t *words, size_t at)
{
    uint16_t word;
    memcpy(&word, words + 2 * at, 2);
    return word;
}

static inline void set(uint8_t *words, size_t at, unsigned value)
{
    uint16_t word = (uint16_t)value;
    memcpy(words + 2 * at, &word, 2);
}

static inline uint64_t get4(const uint8_t *words, size_t at)
{
    uint64_t four;
    memcpy(&four, words + 2 * at, 8);
    return four;
}

static inline __m128i load(const uint8_t *words, size_t at)
{
    return _mm_loadu_si128((const __m128i *)(words + 2 * at));
}

static inline void store(uint8_t *words, size_t at, __m128i eight)
{
    _mm_storeu_si128((__m128i *)(words + 2 * at), eight);
}

static inline __m128i all_lanes(unsigned value)
{
    return _mm_set1_epi16((short)value);
}

/* Which lanes are not as a list has them: lane i is slot first + i, which is
 * not 0 up to `used` and 0 from there on; slots below 0 are none. */
static inline __m128i wrong_lanes(__m128i eight, long first, unsigned used)
{
    __m128i slot = _mm_add_epi16(all_lanes((unsigned)first), _mm_setr_epi16(0, 1, 2, 3, 4, 5, 6, 7));
    __m128i is_zero = _mm_cmpeq_epi16(eight, _mm_setzero_si128());
    __m128i is_unused = _mm_cmpgt_epi16(slot, all_lanes(used - 1));
    __m128i is_slot = _mm_cmpgt_epi16(slot, all_lanes(0xFFFF));
    return _mm_and_si128(_mm_xor_si128(is_zero, is_unused), is_slot);
}

static inline bool any_bit(__m128i eight)
{
    return _mm_movemask_epi8(_mm_cmpeq_epi8(eight, _mm_setzero_si128())) != 0xFFFF;
}

/* The ones of both, at most 128. */
static inline unsigned ones(uint64_t low, uint64_t high)
{
    const uint64_t twos = 0x5555555555555555, fours = 0x3333333333333333, eights = 0x0F0F0F0F0F0F0F0F;
    low -= low >> 1 & twos;
    high -= high >> 1 & twos;
    uint64_t bits = (low & fours) + (low >> 2 & fours) + (high & fours) + (high >> 2 & fours);
    bits = (bits & eights) + (bits >> 4 & eights);
    return (unsigned)(bits * 0x0101010101010101 >> 56);
}

/* ---- soundness -------------------------------------------------------- */

struct hall {
    unsigned desks, screens, positions;
    unsigned all;    /* S */
    unsigned places; /* of a list: 2S */
    size_t first_screen, first_record, width, need; /* in words */
};

static inline struct hall hall_of(unsigned desks, unsigned screens, unsigned positions)
{
    struct hall hall = {.desks = desks, .screens = screens, .positions = positions};
    hall.all = desks * screens;
    hall.places = 2 * hall.all;
    hall.first_screen = HEADER + positions;
    hall.first_record = hall.first_screen + hall.all;
    hall.width = LIST + hall.places + 1;
    hall.need = hall.first_record + desks * hall.width;
    return hall;
}

/* Marks only on tested places, and at most k of them. */
static inline bool sound_marks(uint64_t low, uint64_t high, unsigned tested, unsigned k)
{
    bool past = tested >= 64 ? tested < 128 && high >> (tested - 64) != 0 : high != 0 || low >> tested != 0;
    return !past && ones(low, high) <= k;
}

static inline __m128i or4(__m128i a, __m128i b, __m128i c, __m128i d)
{
    return _mm_or_si128(_mm_or_si128(a, b), _mm_or_si128(c, d));
}

/* Are there 0s among these eight words? */
static inline __m128i zeros(const uint8_t *list, unsigned at)
{
    return _mm_cmpeq_epi16(load(list, at), _mm_setzero_si128());
}

/* Used slots are not 0, unused ones are. Where the list is no whole number of
 * vectors, the last one ends where the list does, and begins before it. */
static inline bool sound_list(const uint8_t *list, unsigned used, unsigned places)
{
    __m128i wrong = _mm_setzero_si128();
    unsigned at = 0;
    for (; at + 4 * LANES <= used; at += 4 * LANES) {
        __m128i more = or4(zeros(list, at), zeros(list, at + LANES), zeros(list, at + 2 * LANES),
                           zeros(list, at + 3 * LANES));
        wrong = _mm_or_si128(wrong, more);
    }
    for (; at + LANES <= used; at += LANES)
        wrong = _mm_or_si128(wrong, zeros(list, at));
    if (at + LANES <= places) {
        wrong = _mm_or_si128(wrong, wrong_lanes(load(list, at), (long)at, used));
        at += LANES;
    }
    for (; at + 4 * LANES <= places; at += 4 * LANES) {
        __m128i more = or4(load(list, at), load(list, at + LANES), load(list, at + 2 * LANES),
                           load(list, at + 3 * LANES));
        wrong = _mm_or_si128(wrong, more);
    }
    for (; at + LANES <= places; at += LANES)
        wrong = _mm_or_si128(wrong, load(list, at));
    if (at < places)
        wrong = _mm_or_si128(wrong, wrong_lanes(load(list - 2 * LANES, places), (long)places - LANES, used));
    return !any_bit(wrong);
}

static inline bool sound_record(const uint8_t *record, const struct hall *hall)
{
    unsigned k = get(record, K), tested = get(record, TESTED);
    unsigned used = get(record, READY) + tested + get(record, WAITING);
    if (used > hall->places)
        return false;
    if (tested == 0 ? k != 0 : k % 2 != 0 || k < 2 || k >= hall->all)
        return false;
    uint64_t low = get4(record, MARKS), high = get4(record, MARKS + 4);
    if ((low | high) != 0 && !sound_marks(low, high, tested, k))
        return false;
    return sound_list(record + 2 * LIST, used, hall->places);
}

/* Is the table sound? Then the hall is that of its first words. */
static inline bool sound(const uint8_t *table, size_t bytes, struct hall *hall)
{
    if (bytes < 2 * HEADER)
        return false;
    unsigned desks = get(table, 0), screens = get(table, 1), positions = get(table, 2);
    if (desks - 1 >= ROOM_DESKS || screens - 1 >= ROOM_SCREENS || positions - 1 >= BOARD_MAX_POSITIONS)
        return false;
    *hall = hall_of(desks, screens, positions);
    if (bytes / 2 < hall->need)
        return false;
    const uint8_t *record = table + 2 * hall->first_record;
    for (unsigned desk = 0; desk < desks; desk++, record += 2 * hall->width)
        if (!LIKELY(sound_record(record, hall)))
            return false;
    return true;
}

/* ---- the calls -------------------------------------------------------- */

static inline uint32_t refused(enum board_reply number)
{
    return (uint32_t)number << 16;
}

static inline uint8_t *record_of(uint8_t *table, const struct hall *hall, unsigned desk)
{
    return table + 2 * (hall->first_record + (desk - 1) * hall->width);
}

static inline uint8_t *screen_of(uint8_t *table, const struct hall *hall, unsigned desk, unsigned screen)
{
    return table + 2 * (hall->first_screen + (desk - 1) * hall->screens + screen - 1);
}

static inline uint8_t *message_of(uint8_t *table, const struct hall *hall, unsigned desk)
{
    return record_of(table, hall, desk) + 2 * (LIST + hall->places);
}

/* Only an accepted call moves the number on. */
static inline uint32_t accepted(uint8_t *next, unsigned message, unsigned session)
{
    set(next, 0, message + 1);
    return session;
}

uint32_t CALL(open)(uint16_t desks, uint16_t screens, uint16_t positions, uint8_t *table, size_t bytes)
{
    if (desks - 1u >= BOARD_MAX_DESKS)
        return refused(BOARD_BAD_DESKS);
    if (screens - 1u >= BOARD_MAX_SCREENS)
        return refused(BOARD_BAD_SCREENS);
    if (positions - 1u >= BOARD_MAX_POSITIONS)
        return refused(BOARD_BAD_POSITIONS);
    if (desks > ROOM_DESKS || screens > ROOM_SCREENS)
        return refused(BOARD_OVER_LIMITS);
    size_t need = hall_of(desks, screens, positions).need;
    if (bytes / 2 < need)
        return refused(BOARD_TABLE_SHORT);
    memset(table, 0, 2 * need);
    set(table, 0, desks);
    set(table, 1, screens);
    set(table, 2, positions);
    return 0;
}

uint32_t CALL(take)(uint16_t message, uint16_t desk, uint16_t screen, uint16_t position,
                    uint8_t *table, size_t bytes)
{
    struct hall hall;
    if (!sound(table, bytes, &hall))
        return refused(BOARD_UNSOUND);
    if (desk - 1u >= hall.desks)
        return refused(BOARD_NO_DESK);
    uint8_t *next = message_of(table, &hall, desk);
    if (get(next, 0) != message)
        return refused(BOARD_OTHER_MESSAGE);
    if (screen - 1u >= hall.screens)
        return refused(BOARD_NO_SCREEN);
    if (position - 1u >= hall.positions)
        return refused(BOARD_NO_POSITION);
    uint8_t *shown = screen_of(table, &hall, desk, screen);
    if (get(shown, 0) != 0)
        return refused(BOARD_SCREEN_FULL);
    unsigned session = get(table, HEADER + position - 1u);
    if (session == 0)
        return refused(BOARD_POSITION_EMPTY);
    set(shown, 0, session);
    return accepted(next, message, session);
}

uint32_t CALL(drop)(uint16_t message, uint16_t desk, uint16_t screen, uint8_t *table, size_t bytes)
{
    struct hall hall;
    if (!sound(table, bytes, &hall))
        return refused(BOARD_UNSOUND);
    if (desk - 1u >= hall.desks)
        return refused(BOARD_NO_DESK);
    uint8_t *next = message_of(table, &hall, desk);
    if (get(next, 0) != message)
        return refused(BOARD_OTHER_MESSAGE);
    if (screen - 1u >= hall.screens)
        return refused(BOARD_NO_SCREEN);
    uint8_t *shown = screen_of(table, &hall, desk, screen);
    unsigned session = get(shown, 0);
    if (session == 0)
        return refused(BOARD_SCREEN_EMPTY);
    set(shown, 0, 0);
    return accepted(next, message, session);
}

uint32_t CALL(swap)(uint16_t message, uint16_t desk, uint16_t position, uint16_t session,
                    uint8_t *table, size_t bytes)
{
    struct hall hall;
    unsigned put = session;
    if (!sound(table, bytes, &hall))
        return refused(BOARD_UNSOUND);
    if (desk - 1u >= hall.desks)
        return refused(BOARD_NO_DESK);
    uint8_t *next = message_of(table, &hall, desk);
    if (get(next, 0) != message)
        return refused(BOARD_OTHER_MESSAGE);
    if (position - 1u >= hall.positions)
        return refused(BOARD_NO_POSITION);
    if (put > ROOM_SESSIONS)
        return refused(BOARD_OVER_LIMITS);
    uint8_t *record = record_of(table, &hall, desk);
    if (get(record, OWED) != 0)
        return refused(BOARD_OWING);
    unsigned old = get(table, HEADER + position - 1u);
    if (old == put) /* a repeat */
        return accepted(next, message, old);
    set(table, HEADER + position - 1u, put);
    if (old != 0)
        set(record, OWED, old);
    return accepted(next, message, old);
}

uint32_t CALL(retire)(uint16_t message, uint16_t desk, uint8_t *table, size_t bytes)
{
    struct hall hall;
    if (!sound(table, bytes, &hall))
        return refused(BOARD_UNSOUND);
    if (desk - 1u >= hall.desks)
        return refused(BOARD_NO_DESK);
    uint8_t *next = message_of(table, &hall, desk);
    if (get(next, 0) != message)
        return refused(BOARD_OTHER_MESSAGE);
    uint8_t *record = record_of(table, &hall, desk);
    unsigned owed = get(record, OWED), waiting = get(record, WAITING);
    if (owed == 0)
        return refused(BOARD_OWES_NOTHING);
    unsigned used = get(record, READY) + get(record, TESTED) + waiting;
    if (used >= hall.places)
        return refused(BOARD_NO_ROOM);
    set(record, LIST + used, owed);
    set(record, WAITING, waiting + 1);
    set(record, OWED, 0);
    return accepted(next, message, owed);
}

/* ---- collect ---------------------------------------------------------- */

/* A bit for each of the 16 words from `words` on that is `session`. Words from
 * `limit` on are not read, and their bits are anything; the 16 words before it
 * can be read. */
static inline unsigned equal16(const uint8_t *words, const uint8_t *limit, __m128i session)
{
    unsigned back = words + 32 > limit ? (unsigned)(words + 32 - limit) / 2 : 0;
    words -= 2 * back;
    __m128i first = _mm_cmpeq_epi16(load(words, 0), session);
    __m128i second = _mm_cmpeq_epi16(load(words, LANES), session);
    return (unsigned)_mm_movemask_epi8(_mm_packs_epi16(first, second)) >> back;
}

/* Marks the first unmarked tested place with this session, if there is one.
 * No used place is 0, so that an empty screen finds none. */
static inline void mark(uint8_t *record, unsigned ready, unsigned tested, unsigned session, const uint8_t *limit)
{
    const uint8_t *list = record + 2 * (LIST + ready);
    __m128i wanted = all_lanes(session);
    if (session == 0)
        return;
    for (unsigned at = 0; at < tested; at += 16) {
        unsigned marks = get(record, MARKS + at / 16);
        unsigned found = equal16(list + 2 * at, limit, wanted) & ~marks & 0xFFFF;
        if (tested - at < 16)
            found &= (1u << (tested - at)) - 1;
        if (found != 0) {
            set(record, MARKS + at / 16, marks | (found & -found));
            return;
        }
    }
}

/* The unmarked of the tested places go before the marked, each in their order;
 * the number of the marked. */
static inline unsigned part_marked(uint8_t *record, unsigned ready, unsigned tested)
{
    uint64_t low = get4(record, MARKS), high = get4(record, MARKS + 4);
    if ((low | high) == 0)
        return 0;
    uint8_t *list = record + 2 * (LIST + ready);
    uint16_t marked[BOARD_MAX_DESKS * BOARD_MAX_SCREENS + 1]; /* one more, written and not used */
    unsigned kept = 0;
    unsigned at = low != 0 ? (unsigned)__builtin_ctzll(low) : 64 + (unsigned)__builtin_ctzll(high);
    for (; at < tested; at++) {
        unsigned session = get(list, at);
        marked[kept] = (uint16_t)session;
        set(list, at - kept, session);
        kept += (unsigned)((at < 64 ? low >> at : high >> (at - 64)) & 1);
    }
    memcpy(list + 2 * (tested - kept), marked, 2 * kept);
    store(record, MARKS, _mm_setzero_si128());
    return kept;
}

/* The first leaves the list, the rest move up one place. Unused places are 0,
 * so that some may move along. */
static inline void move_up(uint8_t *list, unsigned used, unsigned places)
{
    unsigned at = 0;
    for (; at + 1 < used && at + 1 + LANES <= places; at += LANES)
        store(list, at, load(list, at + 1));
    for (; at + 1 < used; at++)
        set(list, at, get(list, at + 1));
    set(list, used - 1, 0);
}

uint32_t CALL(collect)(uint16_t message, uint16_t desk, uint8_t *table, size_t bytes)
{
    struct hall hall;
    if (!sound(table, bytes, &hall))
        return refused(BOARD_UNSOUND);
    if (desk - 1u >= hall.desks)
        return refused(BOARD_NO_DESK);
    uint8_t *next = message_of(table, &hall, desk);
    if (get(next, 0) != message)
        return refused(BOARD_OTHER_MESSAGE);
    uint8_t *record = record_of(table, &hall, desk);
    unsigned k = get(record, K), ready = get(record, READY);
    unsigned tested = get(record, TESTED), waiting = get(record, WAITING);
    unsigned used = ready + tested + waiting;
    if (used == 0)
        return accepted(next, message, 0);
    if (tested == 0) {
        tested = waiting;
        waiting = 0;
    }
    if (tested != 0) {
        const uint8_t *screens = table + 2 * hall.first_screen, *limit = table + 2 * hall.need;
        mark(record, ready, tested, get(screens, k++), limit);
        if (k < hall.all)
            mark(record, ready, tested, get(screens, k++), limit);
        if (k == hall.all) {
            unsigned kept = part_marked(record, ready, tested);
            ready += tested - kept;
            waiting += kept;
            tested = 0;
            k = 0;
        }
    }
    unsigned session = 0;
    if (ready != 0) {
        session = get(record, LIST);
        move_up(record + 2 * LIST, used, hall.places);
        ready--;
    }
    uint64_t numbers = k | (uint64_t)ready << 16 | (uint64_t)tested << 32 | (uint64_t)waiting << 48;
    memcpy(record + 2 * K, &numbers, 8);
    return accepted(next, message, session);
}

/* ---- the run ---------------------------------------------------------- */

static uint32_t step(const uint8_t *words, uint8_t *table, size_t bytes)
{
    uint16_t message = get(words, 1), desk = get(words, 2), screen = get(words, 3);
    uint16_t position = get(words, 4), session = get(words, 5);
    switch (get(words, 0)) {
    case BOARD_TAKE: return CALL(take)(message, desk, screen, position, table, bytes);
    case BOARD_DROP: return CALL(drop)(message, desk, screen, table, bytes);
    case BOARD_SWAP: return CALL(swap)(message, desk, position, session, table, bytes);
    case BOARD_RETIRE: return CALL(retire)(message, desk, table, bytes);
    case BOARD_COLLECT: return CALL(collect)(message, desk, table, bytes);
    default: return refused(BOARD_NO_CODE);
    }
}

/* By the single calls, so that the comparison has all calls; it is not timed. */
uint32_t CALL(run)(const uint8_t *steps, size_t step_bytes, uint8_t *replies, size_t reply_bytes,
                   uint8_t *table, size_t bytes)
{
    struct hall hall;
    size_t count = step_bytes / (2 * BOARD_STEP_WORDS);
    if (reply_bytes / (2 * BOARD_REPLY_WORDS) < count)
        return refused(BOARD_TABLE_SHORT);
    if (!sound(table, bytes, &hall))
        return refused(BOARD_UNSOUND);
    for (size_t i = 0; i < count; i++) {
        uint32_t answer = step(steps + 2 * BOARD_STEP_WORDS * i, table, bytes);
        set(replies, BOARD_REPLY_WORDS * i, board_number(answer));
        set(replies, BOARD_REPLY_WORDS * i + 1, board_session(answer));
    }
    return refused(BOARD_ACCEPTED);
}
