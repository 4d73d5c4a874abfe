/*
 * Memory for tables: guard bytes with known values between two inaccessible
 * pages. A stray write changes a guard byte; an access beyond the guard bytes
 * faults.
 */
#ifndef GUARDED_MEMORY_H
#define GUARDED_MEMORY_H

#include <stdbool.h>
#include <stddef.h>
#include <stdint.h>

struct guarded_memory {
    uint8_t *start;
    size_t length;         /* whole pages */
    const uint8_t *guards; /* the values of the guard bytes */
    uint8_t *table;
    size_t bytes; /* of the table */
};

/* Where a table is placed: directly behind the inaccessible page before,
 * directly in front of the one after, or at an address that is 0 to 7 modulo 8. */
enum { AT_START, AT_END, ALIGNED_0, PLACES = ALIGNED_0 + 8 };

/* Readable and writable bytes, a multiple of the page size, between two
 * inaccessible pages. Exits with status 2 if there is no memory. */
uint8_t *map_between_guard_pages(size_t length);

/* So many guard bytes: not 0, and no two neighbours alike. */
uint8_t *guard_bytes(size_t length);

/* For tables of up to this many bytes. */
struct guarded_memory make_guarded_memory(size_t max_bytes);

/* Restores all guard bytes, and places a table of this length among them. */
void place_table(struct guarded_memory *memory, unsigned place, size_t bytes);

/* Are all bytes still guard bytes, but for the first `writable` ones of the
 * table? */
bool guards_intact(const struct guarded_memory *memory, size_t writable);

#endif
