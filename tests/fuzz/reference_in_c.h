/* The reference, as a C library: reference_in_c/src/lib.rs. */
#ifndef REFERENCE_IN_C_H
#define REFERENCE_IN_C_H

#include <stddef.h>
#include <stdint.h>

/* Rooms 0 to 2: the hall, the training room and the board with rings. Functions 0 to 5: open, take, drop,
 * swap, retire, collect. The message number and the other numbers that a function does
 * not have are ignored. */
uint32_t reference_call(uint8_t room, uint8_t function, uint16_t message, const uint16_t numbers[3],
                        uint8_t *table, size_t bytes);

/* A run of steps in the hall. */
uint32_t reference_run(const uint8_t *steps, size_t step_bytes, uint8_t *replies, size_t reply_bytes,
                       uint8_t *table, size_t bytes);

/* What a sheet program writes, valid until the next call. Programs 0 to 5: day_sheet,
 * day_sheet_2, training_sheet, shorten_sheet, to_edition_2, to_edition_1. */
const uint8_t *reference_output(uint8_t program, const uint8_t *sheet, size_t bytes, size_t *length);

#endif
