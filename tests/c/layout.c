#include "layout.h"

enum { HEADER = 3 };

uint16_t read_word(const uint8_t *table, size_t index)
{
    return (uint16_t)(table[2 * index] | table[2 * index + 1] << 8);
}

void write_word(uint8_t *table, size_t index, unsigned value)
{
    table[2 * index] = (uint8_t)value;
    table[2 * index + 1] = (uint8_t)(value >> 8);
}

size_t all_screens(const uint8_t *table)
{
    return (size_t)read_word(table, 0) * read_word(table, 1);
}

size_t position_index(uint16_t position)
{
    return HEADER + (size_t)position - 1;
}

static size_t first_screen(const uint8_t *table)
{
    return HEADER + (size_t)read_word(table, 2);
}

size_t screen_index(const uint8_t *table, uint16_t desk, uint16_t screen)
{
    return first_screen(table) + (desk - 1u) * (size_t)read_word(table, 1) + screen - 1u;
}

size_t need_of(enum room room, size_t desks, size_t screens, size_t positions)
{
    return room == RING ? ring_need(desks, screens, positions) : board_need(desks, screens, positions);
}

static size_t places(const uint8_t *table)
{
    return 2 * all_screens(table);
}

size_t record_index(enum room room, const uint8_t *table, uint16_t desk)
{
    size_t behind = room == RING ? 2 : 1; /* the words behind the list */
    return first_screen(table) + all_screens(table) + (desk - 1u) * (LIST + places(table) + behind);
}

size_t message_index(enum room room, const uint8_t *table, uint16_t desk)
{
    return record_index(room, table, desk) + LIST + places(table);
}

size_t beginning_index(const uint8_t *table, uint16_t desk)
{
    return message_index(RING, table, desk) + 1;
}

size_t list_index(enum room room, const uint8_t *table, uint16_t desk, size_t index)
{
    size_t beginning = room == RING ? read_word(table, beginning_index(table, desk)) : 0;
    return record_index(room, table, desk) + LIST + (beginning + index) % places(table);
}

uint16_t due_message(enum room room, const uint8_t *table, size_t bytes, uint16_t desk)
{
    if (bytes < 2 * HEADER || read_word(table, 0) > BOARD_MAX_DESKS || read_word(table, 1) > BOARD_MAX_SCREENS ||
        read_word(table, 2) > BOARD_MAX_POSITIONS)
        return 0;
    if (desk == 0 || desk > read_word(table, 0) || message_index(room, table, desk) >= bytes / 2)
        return 0;
    return read_word(table, message_index(room, table, desk));
}

/* ---- footprints ------------------------------------------------------- */

static void add_words(struct footprint *footprint, size_t index, size_t words)
{
    footprint->ranges[footprint->count++] = (struct range){2 * index, 2 * (index + words)};
}

/* The places of a list from this index on, in its order: one range, or two around the
 * end of a ring. */
static void add_places(struct footprint *footprint, const uint8_t *table, uint16_t desk, size_t index, size_t count)
{
    size_t first = list_index(RING, table, desk, index);
    size_t past = record_index(RING, table, desk) + LIST + places(table), before_end = past - first;
    if (before_end > count)
        before_end = count;
    add_words(footprint, first, before_end);
    if (count > before_end)
        add_words(footprint, record_index(RING, table, desk) + LIST, count - before_end);
}

/* The list of a desk, and its reading. */
struct reading {
    size_t ready, tested, waiting, scanned;
    bool marked[2 * BOARD_MAX_DESKS * BOARD_MAX_SCREENS];
};

static struct reading reading_of(const uint8_t *table, uint16_t desk)
{
    size_t record = record_index(RING, table, desk);
    struct reading reading = {.ready = read_word(table, record + READY),
                              .tested = read_word(table, record + TESTED),
                              .waiting = read_word(table, record + WAITING),
                              .scanned = read_word(table, record + SCANNED)};
    for (size_t j = 0; j < reading.tested; j++)
        reading.marked[j] = read_word(table, record + MARKS + j / 16) >> j % 16 & 1;
    return reading;
}

/* Reads a screen: the first unmarked tested session that it shows is marked. */
static void read_screen(struct reading *reading, const uint8_t *table, uint16_t desk)
{
    uint16_t shown = read_word(table, first_screen(table) + reading->scanned++);
    for (size_t j = 0; j < reading->tested; j++)
        if (!reading->marked[j] && read_word(table, list_index(RING, table, desk, reading->ready + j)) == shown) {
            reading->marked[j] = true;
            return;
        }
}

/* Of a ring: what a collect writes beside the words before the list. Sessions that are
 * put into another order are between the ready and the waiting ones. */
static void add_collected(struct footprint *footprint, const uint8_t *table, uint16_t desk)
{
    struct reading reading = reading_of(table, desk);
    if (reading.tested == 0) {
        reading.tested = reading.waiting;
        reading.waiting = 0;
    }
    for (int screens = 0; screens < 2 && reading.tested != 0 && reading.scanned < all_screens(table); screens++)
        read_screen(&reading, table, desk);
    bool ends = reading.tested != 0 && reading.scanned == all_screens(table);
    size_t kept = 0;
    for (size_t j = 0; j < reading.tested; j++)
        kept += reading.marked[j];
    if (ends && kept != 0)
        add_places(footprint, table, desk, reading.ready, reading.tested);
    if (reading.ready != 0 || (ends && kept < reading.tested)) {
        add_places(footprint, table, desk, 0, 1);
        add_words(footprint, beginning_index(table, desk), 1);
    }
}

struct footprint footprint_of(const struct call *call, const uint8_t *table)
{
    struct footprint footprint = {0};
    const uint16_t *numbers = call->numbers;
    enum room room = call->room;
    if (call->function == OPEN) {
        add_words(&footprint, 0, need_of(room, numbers[0], numbers[1], numbers[2]));
        return footprint;
    }
    size_t record = record_index(room, table, numbers[0]);
    switch (call->function) {
    case TAKE:
    case DROP:
        add_words(&footprint, screen_index(table, numbers[0], numbers[1]), 1);
        break;
    case SWAP: {
        uint16_t old = read_word(table, position_index(numbers[1]));
        if (old == numbers[2])
            break; /* a repeat */
        add_words(&footprint, position_index(numbers[1]), 1);
        if (old != 0)
            add_words(&footprint, record + OWED, 1);
        break;
    }
    case RETIRE:
        add_words(&footprint, record + OWED, 1);
        add_words(&footprint, record + WAITING, 1);
        add_words(&footprint, list_index(room, table, numbers[0], read_word(table, record + READY) +
                                  read_word(table, record + TESTED) + read_word(table, record + WAITING)), 1);
        break;
    default:
        add_words(&footprint, record + SCANNED, LIST - SCANNED);
        if (room == RING)
            add_collected(&footprint, table, numbers[0]);
        else
            add_words(&footprint, record + LIST, places(table));
    }
    add_words(&footprint, message_index(room, table, numbers[0]), 1);
    return footprint;
}

bool in_footprint(const struct footprint *footprint, size_t byte)
{
    for (size_t i = 0; i < footprint->count; i++)
        if (footprint->ranges[i].first <= byte && byte < footprint->ranges[i].past)
            return true;
    return false;
}
