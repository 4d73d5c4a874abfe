#define _DEFAULT_SOURCE
#include "guarded_memory.h"

#include <stdio.h>
#include <stdlib.h>
#include <string.h>
#include <sys/mman.h>
#include <unistd.h>

enum { MARGIN = 64 };

static void out_of_memory(void)
{
    perror("no guarded memory");
    exit(2);
}

uint8_t *map_between_guard_pages(size_t length)
{
    size_t page = (size_t)sysconf(_SC_PAGESIZE);
    uint8_t *all = mmap(NULL, length + 2 * page, PROT_READ | PROT_WRITE, MAP_PRIVATE | MAP_ANONYMOUS, -1, 0);
    if (all == MAP_FAILED || mprotect(all, page, PROT_NONE) != 0 ||
        mprotect(all + page + length, page, PROT_NONE) != 0)
        out_of_memory();
    return all + page;
}

uint8_t *guard_bytes(size_t length)
{
    uint8_t *guards = malloc(length);
    if (guards == NULL)
        out_of_memory();
    for (size_t offset = 0; offset < length; offset++)
        guards[offset] = (uint8_t)(offset % 251 + 1);
    return guards;
}

struct guarded_memory make_guarded_memory(size_t max_bytes)
{
    size_t page = (size_t)sysconf(_SC_PAGESIZE);
    size_t length = (max_bytes + 2 * MARGIN + 8 + page - 1) / page * page;
    return (struct guarded_memory){
        .start = map_between_guard_pages(length), .length = length, .guards = guard_bytes(length)};
}

void place_table(struct guarded_memory *memory, unsigned place, size_t bytes)
{
    memcpy(memory->start, memory->guards, memory->length);
    if (place == AT_START)
        memory->table = memory->start;
    else if (place == AT_END)
        memory->table = memory->start + memory->length - bytes;
    else
        memory->table = memory->start + MARGIN + (place - ALIGNED_0);
    memory->bytes = bytes;
}

bool guards_intact(const struct guarded_memory *memory, size_t writable)
{
    size_t first = (size_t)(memory->table - memory->start), past = first + writable;
    return memcmp(memory->start, memory->guards, first) == 0 &&
           memcmp(memory->start + past, memory->guards + past, memory->length - past) == 0;
}
