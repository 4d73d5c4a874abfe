/* The words of a table by the layout of documents 01 and 02, and the bytes that an
 * accepted call may write. Indices count words from the start of the table. */
#ifndef LAYOUT_H
#define LAYOUT_H

#include "calls.h"

#include <stdbool.h>

/* Offsets in a desk's record. Behind the list is the desk's next message number, and
 * in a ring, as its last word, the place at which the list begins. */
enum { OWED = 0, SCANNED = 1, READY = 2, TESTED = 3, WAITING = 4, MARKS = 5, LIST = 13 };

/* The need of a hall in words. */
size_t need_of(enum room room, size_t desks, size_t screens, size_t positions);

uint16_t read_word(const uint8_t *table, size_t index);
void write_word(uint8_t *table, size_t index, unsigned value);

/* These read the hall from the table's header. */
size_t all_screens(const uint8_t *table);
size_t position_index(uint16_t position);
size_t screen_index(const uint8_t *table, uint16_t desk, uint16_t screen);
size_t record_index(enum room room, const uint8_t *table, uint16_t desk);
size_t message_index(enum room room, const uint8_t *table, uint16_t desk);
size_t beginning_index(const uint8_t *table, uint16_t desk); /* of a ring */

/* The place of a list that has this index in the list's order, from 0. */
size_t list_index(enum room room, const uint8_t *table, uint16_t desk, size_t index);

/* The message number that is due from a desk, also where the table is not sound; 0
 * if its hall does not have the desk, or if it is too short for that. */
uint16_t due_message(enum room room, const uint8_t *table, size_t bytes, uint16_t desk);

/* Ranges of bytes of the table, the end excluded. */
enum { MAX_RANGES = 6 };

struct footprint {
    size_t count;
    struct range {
        size_t first, past;
    } ranges[MAX_RANGES];
};

/* What a call writes if it is accepted, given the table before the call. The last
 * range of a step is the desk's message number, and the only one of a swap to what is
 * already at the position. */
struct footprint footprint_of(const struct call *call, const uint8_t *table);
bool in_footprint(const struct footprint *footprint, size_t byte);

#endif
