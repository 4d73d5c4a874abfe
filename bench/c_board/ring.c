/*
 * The board with rings, by the first board in C, so that the comparison has all
 * calls; it is not timed. A ring is read, each list from its beginning, as a table of
 * the first board, which gets the call, and is written back.
 */
#include "session_board.h"

#include <stdbool.h>
#include <string.h>

enum { HEADER = 3, LIST = 13 };

struct ring {
    uint8_t *table;
    size_t desks, places, records; /* the word of the first record */
    size_t first_bytes;
    uint8_t first[BOARD_MAX_BYTES]; /* as the first board has it */
};

static unsigned get(const uint8_t *words, size_t at)
{
    return words[2 * at] | (unsigned)words[2 * at + 1] << 8;
}

static void copy_words(uint8_t *to, size_t to_word, const uint8_t *from, size_t from_word, size_t words)
{
    memcpy(to + 2 * to_word, from + 2 * from_word, 2 * words);
}

/* The records of a desk, from 0, on both boards. */
static size_t record_of(const struct ring *ring, size_t desk)
{
    return ring->records + desk * (LIST + ring->places + 2);
}

static size_t first_record_of(const struct ring *ring, size_t desk)
{
    return ring->records + desk * (LIST + ring->places + 1);
}

static size_t beginning_of(const struct ring *ring, size_t desk)
{
    return record_of(ring, desk) + LIST + ring->places + 1;
}

/* Copies a desk's list to the first board, or back, from its beginning on. */
static void copy_list(struct ring *ring, size_t desk, bool back)
{
    size_t list = record_of(ring, desk) + LIST, of_first = first_record_of(ring, desk) + LIST;
    size_t beginning = get(ring->table, beginning_of(ring, desk)), before_end = ring->places - beginning;
    if (back) {
        copy_words(ring->table, list + beginning, ring->first, of_first, before_end);
        copy_words(ring->table, list, ring->first, of_first + before_end, beginning);
    } else {
        copy_words(ring->first, of_first, ring->table, list + beginning, before_end);
        copy_words(ring->first, of_first + before_end, ring->table, list, beginning);
    }
}

/* Reads the ring. False if it is too short, or a list begins at no place. */
static bool read_ring(struct ring *ring, uint8_t *table, size_t bytes)
{
    if (bytes < 2 * HEADER)
        return false;
    size_t desks = get(table, 0), screens = get(table, 1), positions = get(table, 2);
    if (desks - 1 >= BOARD_MAX_DESKS || screens - 1 >= BOARD_MAX_SCREENS || positions - 1 >= BOARD_MAX_POSITIONS ||
        bytes / 2 < ring_need(desks, screens, positions))
        return false;
    ring->table = table;
    ring->desks = desks;
    ring->places = 2 * desks * screens;
    ring->records = HEADER + positions + desks * screens;
    ring->first_bytes = 2 * board_need(desks, screens, positions);
    copy_words(ring->first, 0, table, 0, ring->records);
    for (size_t desk = 0; desk < desks; desk++) {
        size_t record = record_of(ring, desk), of_first = first_record_of(ring, desk);
        if (get(table, beginning_of(ring, desk)) >= ring->places)
            return false;
        copy_words(ring->first, of_first, table, record, LIST);
        copy_list(ring, desk, false);
        copy_words(ring->first, of_first + LIST + ring->places, table, record + LIST + ring->places, 1);
    }
    return true;
}

/* Writes the ring back; the desk of a hand-back, from 1, or 0, begins at the next place. */
static void write_ring(struct ring *ring, size_t handed_back)
{
    copy_words(ring->table, 0, ring->first, 0, ring->records);
    for (size_t desk = 0; desk < ring->desks; desk++) {
        size_t record = record_of(ring, desk), of_first = first_record_of(ring, desk);
        uint8_t *beginning = ring->table + 2 * beginning_of(ring, desk);
        if (desk + 1 == handed_back)
            *beginning = (uint8_t)((*beginning + 1u) % ring->places);
        copy_words(ring->table, record, ring->first, of_first, LIST);
        copy_list(ring, desk, true);
        copy_words(ring->table, record + LIST + ring->places, ring->first, of_first + LIST + ring->places, 1);
    }
}

static uint32_t written(struct ring *ring, uint32_t answer, size_t handed_back)
{
    if (board_number(answer) == BOARD_ACCEPTED)
        write_ring(ring, handed_back);
    return answer;
}

static const uint32_t unsound = (uint32_t)BOARD_UNSOUND << 16;

uint32_t ring_open(uint16_t desks, uint16_t screens, uint16_t positions, uint8_t *table, size_t bytes)
{
    uint8_t first[BOARD_MAX_BYTES];
    uint32_t answer = board_open(desks, screens, positions, first, sizeof first);
    if (board_number(answer) != BOARD_ACCEPTED)
        return answer;
    if (bytes / 2 < ring_need(desks, screens, positions))
        return (uint32_t)BOARD_TABLE_SHORT << 16;
    memset(table, 0, 2 * ring_need(desks, screens, positions));
    copy_words(table, 0, first, 0, HEADER);
    return answer;
}

uint32_t ring_take(uint16_t message, uint16_t desk, uint16_t screen, uint16_t position, uint8_t *table, size_t bytes)
{
    struct ring ring;
    if (!read_ring(&ring, table, bytes))
        return unsound;
    return written(&ring, board_take(message, desk, screen, position, ring.first, ring.first_bytes), 0);
}

uint32_t ring_drop(uint16_t message, uint16_t desk, uint16_t screen, uint8_t *table, size_t bytes)
{
    struct ring ring;
    if (!read_ring(&ring, table, bytes))
        return unsound;
    return written(&ring, board_drop(message, desk, screen, ring.first, ring.first_bytes), 0);
}

uint32_t ring_swap(uint16_t message, uint16_t desk, uint16_t position, uint16_t session, uint8_t *table, size_t bytes)
{
    struct ring ring;
    if (!read_ring(&ring, table, bytes))
        return unsound;
    return written(&ring, board_swap(message, desk, position, session, ring.first, ring.first_bytes), 0);
}

uint32_t ring_retire(uint16_t message, uint16_t desk, uint8_t *table, size_t bytes)
{
    struct ring ring;
    if (!read_ring(&ring, table, bytes))
        return unsound;
    return written(&ring, board_retire(message, desk, ring.first, ring.first_bytes), 0);
}

uint32_t ring_collect(uint16_t message, uint16_t desk, uint8_t *table, size_t bytes)
{
    struct ring ring;
    if (!read_ring(&ring, table, bytes))
        return unsound;
    uint32_t answer = board_collect(message, desk, ring.first, ring.first_bytes);
    return written(&ring, answer, board_session(answer) != 0 ? desk : 0);
}
