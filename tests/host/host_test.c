/*
 * Tests the session board as a C host calls it: over bytes, at any address,
 * with memory around the table that must stay unchanged.
 *
 * Every table is placed in guarded memory: a stray write changes a guard byte,
 * and a stray access beyond the guard bytes faults.
 *
 * Where asked for, each call is made again on copies of its table whose pages
 * are read-only, except those with a word of the call's footprint: this catches
 * a store to any other page, even one that changes nothing. A refusal has no
 * footprint, so that every page is read-only; that of a repeat is the desk's
 * message number alone.
 *
 * A step carries the message number that is due from its desk, if nothing else is
 * said. All of it is done in the hall, in the training room and on the board with
 * rings.
 *
 * Each step of the hall is also made as a run of one step. The steps of a run are
 * always on read-only pages.
 */
#define _DEFAULT_SOURCE
#include "guarded_memory.h"
#include "layout.h"
#include "runs.h"

#include <setjmp.h>
#include <signal.h>
#include <stdio.h>
#include <stdlib.h>
#include <string.h>
#include <sys/mman.h>
#include <ucontext.h>
#include <unistd.h>

/* ---- checks ---------------------------------------------------------- */

static const char *group = "start";
static unsigned long checks, failed, printed, checks_before;

static void check(bool good, const char *what)
{
    checks++;
    if (!good) {
        failed++;
        if (printed++ < 20)
            printf("FAILED in %s: %s\n", group, what);
    }
}

static void begin(const char *name)
{
    group = name;
    checks_before = checks;
}

static void end(void)
{
    printf("%s: %lu checks\n", group, checks - checks_before);
}

/* ---- random numbers -------------------------------------------------- */

static uint32_t random_state = 1;

static uint16_t random_word(void)
{
    random_state = random_state * 1664525u + 1013904223u;
    return (uint16_t)(random_state >> 16);
}

static uint8_t random_byte(void)
{
    return (uint8_t)(random_word() >> 8);
}

static bool one_in(unsigned many)
{
    return random_word() % many == 0;
}

/* A number from 1 to this one. */
static uint16_t random_up_to(uint16_t last)
{
    return (uint16_t)(1 + random_word() % last);
}

/* ---- the room -------------------------------------------------------- */

/* That of the calls, and its limits. */
static enum room room;
static const struct limits *limits;

static void enter(enum room which)
{
    room = which;
    limits = &limits_of[which];
}

/* ---- the lent table -------------------------------------------------- */

enum { SPARE = 3 };

static struct guarded_memory lent;
static size_t writable;     /* bytes of the table that the board may write; the rest is guarded */
static size_t bytes_passed; /* the length passed to the board */

static struct guarded_memory lent_steps, lent_replies; /* for a run */

static uint8_t before[RING_MAX_BYTES + SPARE]; /* a ring's table is the longest */

static void lend(int place, size_t bytes)
{
    place_table(&lent, (unsigned)place, bytes);
    writable = bytes;
    bytes_passed = bytes;
}

/* ---- read-only pages ------------------------------------------------- */

/* Enough for a table, or for the replies of a short run, on either side of the
 * boundary in the middle. */
enum { TABLE_PAGES = 4, REPLY_PAGES = 2, MAX_REPORTS = 2 /* of each call */ };

struct strip {
    uint8_t *start;
    size_t length;
    const uint8_t *guards;
};

static size_t page;
static struct strip table_strip, reply_strip;
static bool read_only; /* is each call made again on read-only pages? */

static struct strip make_strip(size_t pages)
{
    size_t length = pages * page;
    return (struct strip){map_between_guard_pages(length), length, guard_bytes(length)};
}

static void protect(uint8_t *start, size_t length, bool writable)
{
    if (mprotect(start, length, writable ? PROT_READ | PROT_WRITE : PROT_READ) != 0) {
        perror("host_test: mprotect");
        exit(2);
    }
}

/* Restores all guard bytes. Returns where to put bytes that have a page boundary
 * before this one of them, which may be one outside of them. */
static uint8_t *clear_strip(const struct strip *strip, long edge)
{
    protect(strip->start, strip->length, true);
    memcpy(strip->start, strip->guards, strip->length);
    return strip->start + (long)(strip->length / 2) - edge;
}

/* A page stays writable if a byte of the ranges is on it, for bytes at this
 * address. */
static void protect_all_but(const struct strip *strip, const uint8_t *at, const struct range *ranges, size_t count)
{
    for (uint8_t *start = strip->start; start < strip->start + strip->length; start += page) {
        bool written = false;
        for (size_t i = 0; i < count; i++)
            written = written || (at + ranges[i].first < start + page && at + ranges[i].past > start);
        if (!written)
            protect(start, page, false);
    }
}

/* Are all bytes but these still guard bytes? */
static bool strip_intact(const struct strip *strip, const uint8_t *at, size_t count)
{
    size_t first = (size_t)(at - strip->start), past = first + count;
    return memcmp(strip->start, strip->guards, first) == 0 &&
           memcmp(strip->start + past, strip->guards + past, strip->length - past) == 0;
}

/* ---- signals --------------------------------------------------------- */

/* While a call runs on read-only pages: where to continue after a store to one. */
static sigjmp_buf after_store;
static volatile sig_atomic_t store_expected;
static uint8_t *volatile stored_to;

static bool is_in(const uint8_t *address, const uint8_t *start, size_t length)
{
    return start <= address && address < start + length;
}

static bool may_be_read_only(const uint8_t *address)
{
    return is_in(address, table_strip.start, table_strip.length) ||
           is_in(address, reply_strip.start, reply_strip.length) ||
           is_in(address, lent_steps.start, lent_steps.length);
}

static void on_signal(int number, siginfo_t *info, void *context)
{
    (void)context;
    if (store_expected && number == SIGSEGV && may_be_read_only(info->si_addr)) {
        stored_to = info->si_addr;
        siglongjmp(after_store, 1);
    }
    /* The state of the program is unknown: report and exit. */
    printf("FAILED in %s: signal %d, an access outside the table?\n", group, number);
    fflush(stdout);
    _exit(1);
}

static void catch_signals(void)
{
    struct sigaction action = {.sa_sigaction = on_signal, .sa_flags = SA_SIGINFO};
    sigaction(SIGSEGV, &action, NULL);
    sigaction(SIGBUS, &action, NULL);
    sigaction(SIGABRT, &action, NULL);
}

/* ---- single calls on read-only pages --------------------------------- */

static unsigned long stray_stores[ROOMS][FUNCTIONS];

static void report_stray(const struct call *call, const uint8_t *table, long edge)
{
    checks++;
    failed++;
    if (stray_stores[call->room][call->function]++ >= MAX_REPORTS)
        return;
    printf("FAILED in %s: ", group);
    print_call(call);
    printf(", hall %u %u %u: a store to byte %ld of the table, on a page with no word of the footprint "
           "(table at offset %zu of a page, page boundary before byte %ld)\n",
           read_word(before, 0), read_word(before, 1), read_word(before, 2),
           (long)(stored_to - table), (size_t)(table - table_strip.start) % page, edge);
}

/* Makes the call again with a page boundary before this byte of its table. */
static void again_at(const struct call *call, uint32_t answer, const struct footprint *footprint, long edge)
{
    uint8_t *table = clear_strip(&table_strip, edge);
    memcpy(table, before, lent.bytes);
    protect_all_but(&table_strip, table, footprint->ranges, footprint->count);
    if (sigsetjmp(after_store, 1) != 0) {
        store_expected = false;
        report_stray(call, table, edge);
        return;
    }
    store_expected = true;
    uint32_t same = send_call(call, table, bytes_passed);
    store_expected = false;
    check(same == answer, "the same answer on read-only pages");
    check(memcmp(table, lent.table, lent.bytes) == 0, "the same table on read-only pages");
    check(strip_intact(&table_strip, table, lent.bytes), "nothing written around the table");
}

/* Makes the call again with a page boundary just before and just behind each
 * range of its footprint, and one byte to either side: there the table has an
 * odd address. With no footprint, the table is put at all eight alignments. */
static void again_on_read_only_pages(const struct call *call, uint32_t answer, const struct footprint *footprint)
{
    for (size_t i = 0; i < footprint->count; i++)
        for (long by = -1; by <= 1; by++) {
            again_at(call, answer, footprint, (long)footprint->ranges[i].first + by);
            again_at(call, answer, footprint, (long)footprint->ranges[i].past + by);
        }
    for (long by = 0; by < 8 && footprint->count == 0; by++)
        again_at(call, answer, footprint, (long)lent.bytes / 2 + by);
}

/* ---- runs, checked --------------------------------------------------- */

static struct run run;

/* The lengths passed to the board. Beyond what is lent they reach the inaccessible
 * page after it. */
static size_t step_bytes, reply_bytes;
static size_t steps_out_of_reach, replies_out_of_reach;

static unsigned long runs, stray_run_stores;

static uint32_t refusal(enum board_reply number)
{
    return (uint32_t)number << 16;
}

/* Lends the steps with so many left-over bytes behind them, read-only, and room for
 * so many bytes of replies. Each run has them at other places. */
static void lend_run(size_t left_over, size_t reply_room)
{
    bool at_end = steps_out_of_reach != 0 || replies_out_of_reach != 0;
    protect(lent_steps.start, lent_steps.length, true);
    place_table(&lent_steps, at_end ? AT_END : runs % PLACES, run.count * STEP_BYTES + left_over);
    place_table(&lent_replies, at_end ? AT_END : runs / PLACES % PLACES, reply_room);
    for (size_t i = 0; i < run.count; i++)
        write_step(lent_steps.table, i, &run.steps[i]);
    protect(lent_steps.start, lent_steps.length, false);
    step_bytes = lent_steps.bytes + steps_out_of_reach;
    reply_bytes = lent_replies.bytes + replies_out_of_reach;
    runs++;
}

static void report_stray_run(const uint8_t *replies, const uint8_t *table)
{
    const uint8_t *stored_in = table;
    const char *name = "table";
    checks++;
    failed++;
    if (is_in(stored_to, lent_steps.start, lent_steps.length))
        stored_in = lent_steps.table, name = "steps";
    else if (is_in(stored_to, reply_strip.start, reply_strip.length))
        stored_in = replies, name = "replies";
    if (stray_run_stores++ < MAX_REPORTS)
        printf("FAILED in %s: board_run of %zu steps, hall %u %u %u: a store to byte %ld of the %s, on a page with no "
               "word of the footprint\n", group, run.count, read_word(before, 0), read_word(before, 1),
               read_word(before, 2), (long)(stored_to - stored_in), name);
}

/* Sends the run. Returns false after a store to a read-only page. */
static bool attempt_run(uint8_t *replies, uint8_t *table, uint32_t *answer)
{
    if (sigsetjmp(after_store, 1) != 0) {
        store_expected = false;
        report_stray_run(replies, table);
        return false;
    }
    store_expected = true;
    *answer = board_run(lent_steps.table, step_bytes, replies, reply_bytes, table, bytes_passed);
    store_expected = false;
    return true;
}

/* How many replies a run with this answer writes. */
static size_t replied(uint32_t answer)
{
    return answer == BOARD_ACCEPTED ? run.count : 0;
}

static void check_tables(uint32_t answer, const uint8_t *replies, const uint8_t *table)
{
    bool same = true;
    for (size_t i = 0; i < replied(answer); i++)
        same = same && read_reply(replies, i) == run.answers[i];
    check(same, "the replies of single calls");
    if (answer == BOARD_ACCEPTED)
        check(memcmp(table, run.table, lent.bytes) == 0, "the table that single calls leave");
    else
        check(memcmp(table, before, lent.bytes) == 0, "a refused run leaves every byte");
}

/* Makes the run again with a page boundary before these bytes of its table and of its
 * replies. */
static void run_again_at(uint32_t answer, long table_edge, long reply_edge)
{
    const struct range written = {0, REPLY_BYTES * replied(answer)};
    uint32_t same;
    uint8_t *table = clear_strip(&table_strip, table_edge);
    uint8_t *replies = clear_strip(&reply_strip, reply_edge);
    memcpy(table, before, lent.bytes);
    protect_all_but(&table_strip, table, run.footprint, answer == BOARD_ACCEPTED ? run.ranges : 0);
    protect_all_but(&reply_strip, replies, &written, written.past != 0);
    if (!attempt_run(replies, table, &same))
        return;
    check(same == answer, "the same answer on read-only pages");
    check_tables(answer, replies, table);
    check(strip_intact(&table_strip, table, lent.bytes), "nothing written around the table");
    check(strip_intact(&reply_strip, replies, written.past), "nothing written around the run's replies");
}

/* Makes the run again with page boundaries as for a single call, and in turn with
 * one at the first reply, behind the last, and one byte to either side of these. */
static void run_again_on_read_only_pages(uint32_t answer)
{
    long past = (long)(REPLY_BYTES * replied(answer));
    const long reply_edges[] = {0, past, -1, past - 1, 1, past + 1};
    size_t count = answer == BOARD_ACCEPTED ? run.ranges : 0, made = 0;
    for (size_t i = 0; i < count; i++)
        for (long by = -1; by <= 1; by++) {
            run_again_at(answer, (long)run.footprint[i].first + by, reply_edges[made++ % 6]);
            run_again_at(answer, (long)run.footprint[i].past + by, reply_edges[made++ % 6]);
        }
    for (long by = 0; by < 8 && count == 0; by++)
        run_again_at(answer, (long)lent.bytes / 2 + by, reply_edges[made++ % 6]);
}

/* Makes the run on the lent table, and checks what holds of every run. */
static uint32_t perform_run(size_t left_over, size_t reply_room)
{
    uint32_t answer;
    lend_run(left_over, reply_room);
    memcpy(before, lent.table, lent.bytes);
    if (!attempt_run(lent_replies.table, lent.table, &answer))
        return UINT32_MAX;
    check(answer == BOARD_ACCEPTED || answer == refusal(BOARD_TABLE_SHORT) || answer == refusal(BOARD_UNSOUND),
          "an answer of a run, with session 0");
    check_tables(answer, lent_replies.table, lent.table);
    check(guards_intact(&lent, writable), "nothing written outside the table's need");
    check(guards_intact(&lent_replies, REPLY_BYTES * replied(answer)), "nothing written outside the run's replies");
    if (read_only)
        run_again_on_read_only_pages(answer);
    return answer;
}

/* A run of a step that was just made as a single call. */
static void perform_as_run(const struct call *call, uint32_t answer, const struct footprint *footprint)
{
    run.count = 1;
    run.steps[0] = step_of(call, random_word());
    run.answers[0] = answer;
    memcpy(run.table, lent.table, lent.bytes);
    run.ranges = footprint->count;
    memcpy(run.footprint, footprint->ranges, sizeof footprint->ranges);
    memcpy(lent.table, before, lent.bytes);
    uint32_t expected = board_number(answer) == BOARD_UNSOUND ? answer : BOARD_ACCEPTED;
    check(perform_run(runs % STEP_BYTES, REPLY_BYTES + runs % 6) == expected, "a run of the same step");
    memcpy(lent.table, run.table, lent.bytes);
}

/* ---- the calls, checked ---------------------------------------------- */

static bool only_footprint_changed(const struct footprint *footprint)
{
    for (size_t byte = 0; byte < lent.bytes; byte++)
        if (before[byte] != lent.table[byte] && !in_footprint(footprint, byte))
            return false;
    return true;
}

/* The reply numbers that calls have. */
static bool is_reply(const struct call *call, uint16_t number)
{
    if (number == BOARD_OVER_LIMITS)
        return call->room == TRAINING && (call->function == OPEN || call->function == SWAP);
    return number <= BOARD_NO_ROOM || (number == BOARD_OTHER_MESSAGE && call->function != OPEN);
}

static uint16_t due(uint16_t desk)
{
    return due_message(room, lent.table, lent.bytes, desk);
}

/* Makes a call on the lent table, and checks what holds of every call. */
static uint32_t perform(struct call call)
{
    struct footprint footprint = {0};
    memcpy(before, lent.table, lent.bytes);
    uint32_t answer = send_call(&call, lent.table, bytes_passed);
    check(is_reply(&call, board_number(answer)), "a reply number of the call");
    check(guards_intact(&lent, writable), "nothing written outside the table's need");
    if (board_number(answer) != BOARD_ACCEPTED) {
        check(board_session(answer) == 0, "a refusal has session 0");
        check(memcmp(before, lent.table, lent.bytes) == 0, "a refusal leaves every byte");
    } else {
        footprint = footprint_of(&call, before);
        check(only_footprint_changed(&footprint), "only the words of the call's footprint change");
        check(call.function == OPEN || due(call.numbers[0]) == (uint16_t)(call.message + 1),
              "an accepted step moves its desk's message number on");
    }
    if (read_only)
        again_on_read_only_pages(&call, answer, &footprint);
    if (call.room == HALL && call.function != OPEN)
        perform_as_run(&call, answer, &footprint);
    return answer;
}

static uint32_t open_hall(uint16_t desks, uint16_t screens, uint16_t positions)
{
    return perform((struct call){room, OPEN, 0, {desks, screens, positions}});
}

/* A step with the message number that is due. */
static uint32_t step(enum function function, uint16_t desk, uint16_t second, uint16_t third)
{
    return perform((struct call){room, function, due(desk), {desk, second, third}});
}

static uint32_t take(uint16_t desk, uint16_t screen, uint16_t position)
{
    return step(TAKE, desk, screen, position);
}

static uint32_t drop(uint16_t desk, uint16_t screen)
{
    return step(DROP, desk, screen, 0);
}

static uint32_t swap(uint16_t desk, uint16_t position, uint16_t session)
{
    return step(SWAP, desk, position, session);
}

static uint32_t retire(uint16_t desk)
{
    return step(RETIRE, desk, 0, 0);
}

static uint32_t collect(uint16_t desk)
{
    return step(COLLECT, desk, 0, 0);
}

static inline bool is_accepted(uint32_t answer)
{
    return board_number(answer) == BOARD_ACCEPTED;
}

static void accepts(uint32_t answer, uint16_t session, const char *what)
{
    check(answer == session, what);
}

static void refuses(uint32_t answer, enum board_reply number, const char *what)
{
    check(answer == (uint32_t)number << 16, what);
}

static uint16_t word(size_t at)
{
    return read_word(lent.table, at);
}

static void set_word(size_t at, uint16_t value)
{
    write_word(lent.table, at, value);
}

static size_t record(uint16_t desk)
{
    return record_index(room, lent.table, desk);
}

/* The session that has this index in the order of a desk's list. */
static uint16_t listed(uint16_t desk, size_t index)
{
    return word(list_index(room, lent.table, desk, index));
}

/* Has the last call, a step of this desk, changed its message number alone? */
static bool only_message_changed(uint16_t desk)
{
    size_t message = 2 * message_index(room, lent.table, desk), past = message + 2;
    return memcmp(before, lent.table, message) == 0 &&
           memcmp(before + past, lent.table + past, lent.bytes - past) == 0;
}

/* ---- the hall book --------------------------------------------------- */

static int book_place;
static size_t book_spare;
static size_t book_out_of_reach; /* passed beyond what is lent: on the inaccessible page after it */

/* A fresh hall, with some bytes past its need that stay guarded. */
static void hall(uint16_t desks, uint16_t screens, uint16_t positions)
{
    size_t need = 2 * need_of(room, desks, screens, positions);
    lend(book_place, need + book_spare);
    writable = need;
    bytes_passed = need + book_spare + book_out_of_reach;
    accepts(open_hall(desks, screens, positions), 0, "the opening");
    check(word(0) == desks && word(1) == screens && word(2) == positions, "the header");
    bool zeros = true;
    for (size_t at = 3; at < need / 2; at++)
        zeros = zeros && word(at) == 0;
    check(zeros, "zeros up to the need");
}

/* Puts a session at position 1, swaps it for none and retires it. */
static void wait_on_list(uint16_t desk, uint16_t session)
{
    accepts(swap(desk, 1, session), 0, "swap in");
    accepts(swap(desk, 1, 0), session, "swap out");
    accepts(retire(desk), session, "retire");
}

/* Puts a session at position 2 and takes it onto the desk's screen 1. */
static void show(uint16_t desk, uint16_t session)
{
    accepts(swap(desk, 2, session), 0, "swap in to show");
    accepts(take(desk, 1, 2), session, "take to show");
}

static void case_a(void)
{
    size_t need = room == RING ? 22 : 21;
    check(need_of(room, 1, 1, 1) == need, "A: need 21, or 22 with rings");
    lend(book_place, 2 * (need - 1));
    refuses(open_hall(1, 1, 1), BOARD_TABLE_SHORT, "A: a word less gives 4");
    hall(1, 1, 1);
}

static void case_b(void)
{
    check(board_need(16, 4, 64) == 2403 && ring_need(16, 4, 64) == 2419, "B: need 2403, or 2419 with rings");
    check(BOARD_MAX_WORDS == 2403 && BOARD_MAX_BYTES == 4806, "B: the header's numbers");
    check(RING_MAX_WORDS == 2419 && RING_MAX_BYTES == 4838, "B: the header's numbers for rings");
    hall(limits->desks, limits->screens, limits->positions);
    refuses(open_hall(17, 4, 64), BOARD_BAD_DESKS, "B: 17 desks give 1");
}

static void case_c(void)
{
    hall(1, 1, 1);
    accepts(swap(1, 1, 10), 0, "C: the first session comes");
    accepts(swap(1, 1, 20), 10, "C: first swap");
    accepts(retire(1), 10, "C: first retire");
    accepts(swap(1, 1, 30), 20, "C: second swap");
    accepts(retire(1), 20, "C: second retire");
    accepts(swap(1, 1, 40), 30, "C: third swap");
    refuses(retire(1), BOARD_NO_ROOM, "C: third retire gives 14");
}

static void case_d(void)
{
    hall(1, 1, 1);
    accepts(swap(1, 1, 300), 0, "D: step 1");
    accepts(take(1, 1, 1), 300, "D: step 2");
    accepts(swap(1, 1, 7), 300, "D: step 3");
    accepts(retire(1), 300, "D: step 4");
    accepts(collect(1), 0, "D: step 5");
    accepts(drop(1, 1), 300, "D: step 6");
    accepts(collect(1), 300, "D: step 7");
    refuses(retire(1), BOARD_OWES_NOTHING, "D: step 8");
}

static void case_e(void)
{
    hall(2, 1, 2);
    wait_on_list(1, 5);
    wait_on_list(1, 5);
    show(2, 5);
    accepts(collect(1), 5, "E: collect replies 5");
    size_t desk = record(1);
    check(word(desk + 2) == 0 && word(desk + 3) == 0, "E: none ready or tested");
    check(word(desk + 4) == 1, "E: one waits");
    check(listed(1, 0) == 5 && listed(1, 1) == 0, "E: and that is a 5");
}

static void case_f(void)
{
    hall(3, 1, 2);
    wait_on_list(1, 5);
    show(1, 5);
    accepts(collect(1), 0, "F: collect replies 0");
    accepts(drop(1, 1), 5, "F: drop");
    accepts(collect(1), 0, "F: then 0");
    accepts(collect(1), 0, "F: then 0 again");
    accepts(collect(1), 5, "F: then 5");
}

static void case_g(void)
{
    hall(3, 1, 2);
    wait_on_list(1, 5);
    accepts(collect(1), 0, "G: collect replies 0");
    wait_on_list(1, 6);
    accepts(collect(1), 5, "G: then 5");
    accepts(collect(1), 0, "G: then 0");
    accepts(collect(1), 6, "G: then 6");
}

static void case_h(void)
{
    hall(1, 1, 2);
    show(1, 5);
    refuses(take(1, 1, 1), BOARD_SCREEN_FULL, "H: a full screen and an empty position");
}

static void case_i(void)
{
    hall(1, 1, 1);
    accepts(collect(1), 0, "I: nothing to collect");
    check(only_message_changed(1), "I: nothing else written");
}

static void case_j(void)
{
    hall(1, 1, 1);
    accepts(swap(1, 1, 0), 0, "J: nothing for nothing");
    check(only_message_changed(1), "J: nothing else written");
    refuses(retire(1), BOARD_OWES_NOTHING, "J: nothing owed");
}

static void case_k(void)
{
    hall(1, 1, 1);
    accepts(swap(1, 1, 5), 0, "K: a session comes");
    accepts(swap(1, 1, 6), 5, "K: the first swap");
    refuses(swap(1, 1, 7), BOARD_OWING, "K: a second swap while owing");
}

static void case_m(void)
{
    hall(3, 1, 2);
    wait_on_list(1, 5);
    show(3, 5);
    accepts(collect(1), 0, "M: collect replies 0");
    accepts(drop(3, 1), 5, "M: desk 3 drops");
    accepts(collect(1), 5, "M: then 5");
}

static void hall_book(int place, size_t spare)
{
    book_place = place;
    book_spare = spare;
    case_a();
    case_b();
    case_c();
    case_d();
    case_e();
    case_f();
    case_g();
    case_h();
    case_i();
    case_j();
    case_k();
    case_m();
}

/* The last desk, screen, position and list place of the largest hall, and the
 * largest session. */
static void far_corner(int place)
{
    uint16_t desk = limits->desks, screen = limits->screens, position = limits->positions;
    uint16_t places = (uint16_t)(2 * desk * screen), reads = places / 4; /* collects, of two screens each */
    uint16_t largest = limits->sessions, first = (uint16_t)(largest - places);
    book_place = place;
    book_spare = 0;
    hall(desk, screen, position);
    for (uint16_t i = 0; i < places; i++)
        wait_on_list(desk, (uint16_t)(first + i));
    accepts(swap(desk, position, largest), 0, "the last position");
    accepts(take(desk, screen, position), largest, "the last screen");
    check(word(record(desk) + LIST + places - 1u) == largest - 1, "the last list place");
    accepts(swap(desk, position, 1), largest, "one more owed");
    refuses(retire(desk), BOARD_NO_ROOM, "no room for it");
    for (uint16_t i = 1; i < reads; i++)
        accepts(collect(desk), 0, "reading the hall");
    for (uint16_t i = 0; i < places; i++)
        accepts(collect(desk), (uint16_t)(first + i), "oldest first");
    accepts(retire(desk), largest, "now there is room");
    for (uint16_t i = 0; i < reads; i++)
        accepts(collect(desk), 0, "kept while it is shown");
    accepts(drop(desk, screen), largest, "dropped");
    for (uint16_t i = 1; i < reads; i++)
        accepts(collect(desk), 0, "reading the hall again");
    accepts(collect(desk), largest, "and back");
}

/* ---- any table ------------------------------------------------------- */

/* All five steps on a table that is not sound, with numbers good and bad. */
static void steps_refuse_with_5(void)
{
    static const uint16_t numbers[] = {0, 1, 2, 17, 65535};
    for (size_t i = 0; i < sizeof numbers / sizeof *numbers; i++) {
        uint16_t number = numbers[i];
        refuses(take(number, number, number), BOARD_UNSOUND, "take gives 5");
        refuses(drop(number, number), BOARD_UNSOUND, "drop gives 5");
        refuses(swap(number, number, number), BOARD_UNSOUND, "swap gives 5");
        refuses(retire(number), BOARD_UNSOUND, "retire gives 5");
        refuses(collect(number), BOARD_UNSOUND, "collect gives 5");
    }
    if (room == HALL) {
        run.count = 0;
        refuses(perform_run(0, 0), BOARD_UNSOUND, "a run without steps gives 5");
        refuses(perform_run(11, 5), BOARD_UNSOUND, "a run without steps gives 5");
    }
}

/* An open hall of 1, 1, 1 in tables of 0 to 50 bytes: too short, or longer. */
static void every_length(int place)
{
    static const uint8_t header[6] = {1, 0, 1, 0, 1, 0};
    for (size_t bytes = 0; bytes <= 50; bytes++) {
        lend(place, bytes);
        if (bytes / 2 < need_of(room, 1, 1, 1)) {
            refuses(open_hall(1, 1, 1), BOARD_TABLE_SHORT, "too short to open");
            refuses(open_hall(0, 1, 1), BOARD_BAD_DESKS, "1 is asked before 4");
            memset(lent.table, 0, bytes);
            memcpy(lent.table, header, bytes < 6 ? bytes : 6);
            steps_refuse_with_5();
        } else {
            writable = 2 * need_of(room, 1, 1, 1);
            accepts(open_hall(1, 1, 1), 0, "long enough to open");
            accepts(swap(1, 1, 9), 0, "a swap");
            accepts(take(1, 1, 1), 9, "a take");
            accepts(swap(1, 1, 8), 9, "another swap");
            accepts(retire(1), 9, "a retire");
            accepts(collect(1), 0, "a collect");
            accepts(drop(1, 1), 9, "a drop");
            accepts(collect(1), 9, "another collect");
        }
    }
}

static void no_table(void)
{
    const struct board *board = &boards[room];
    refuses(board->open(0, 0, 0, NULL, 0), BOARD_BAD_DESKS, "open gives 1");
    refuses(board->open(1, 5, 0, NULL, 0), BOARD_BAD_SCREENS, "open gives 2");
    refuses(board->open(1, 1, 65, NULL, 0), BOARD_BAD_POSITIONS, "open gives 3");
    refuses(board->open(1, 1, 1, NULL, 0), BOARD_TABLE_SHORT, "open gives 4");
    refuses(board->take(0, 1, 1, 1, NULL, 0), BOARD_UNSOUND, "take gives 5");
    refuses(board->drop(0, 1, 1, NULL, 0), BOARD_UNSOUND, "drop gives 5");
    refuses(board->swap(0, 1, 1, 1, NULL, 0), BOARD_UNSOUND, "swap gives 5");
    refuses(board->retire(0, 1, NULL, 0), BOARD_UNSOUND, "retire gives 5");
    refuses(board->collect(0, 1, NULL, 0), BOARD_UNSOUND, "collect gives 5");
}

enum filling { ZEROS, ONES, RANDOM, RANDOM_WITH_HEADER };

static void fill(enum filling with)
{
    for (size_t at = 0; at < lent.bytes; at++)
        lent.table[at] = with == ZEROS ? 0x00 : with == ONES ? 0xFF : random_byte();
    if (with == RANDOM && lent.bytes > 0)
        lent.table[0] = 17; /* more desks than a hall can have */
    if (with == RANDOM_WITH_HEADER && lent.bytes >= 6) {
        static const uint8_t header[6] = {2, 0, 1, 0, 2, 0};
        memcpy(lent.table, header, 6); /* the rest is read now, and is wrong */
    }
}

static void unopened(int place, enum filling with)
{
    static const size_t lengths[] = {0, 1, 2, 3, 5, 6, 7, 41, 42, 43, 44, 45, 50, 80, 81, 85, 86, 87,
                                     88, 89, 90, 91, 1000, BOARD_MAX_BYTES - 1, BOARD_MAX_BYTES};
    for (size_t i = 0; i < sizeof lengths / sizeof *lengths; i++) {
        lend(place, lengths[i]);
        fill(with);
        steps_refuse_with_5();
        refuses(open_hall(17, 1, 1), BOARD_BAD_DESKS, "open gives 1");
        refuses(open_hall(1, 5, 1), BOARD_BAD_SCREENS, "open gives 2");
        refuses(open_hall(1, 1, 65), BOARD_BAD_POSITIONS, "open gives 3");
        bool fits = lengths[i] / 2 >= need_of(room, 2, 1, 2);
        uint32_t answer = open_hall(2, 1, 2);
        check(answer == (fits ? 0 : (uint32_t)BOARD_TABLE_SHORT << 16), "open gives 0 or 4");
        if (fits) {
            size_t need = 2 * need_of(room, 2, 1, 2);
            check(memcmp(before + need, lent.table + need, lent.bytes - need) == 0,
                  "words past the need keep what they held");
            accepts(collect(2), 0, "and the hall is open");
        }
    }
}

/* ---- every answer ---------------------------------------------------- */

/* A desk's steps, refused with each of their numbers and accepted: its list
 * fills up, gets a mark, is settled, and is handed back to the last. */
static void every_answer(uint16_t desks, uint16_t screens, uint16_t positions, uint16_t desk)
{
    hall(desks, screens, positions);
    uint16_t all = (uint16_t)(desks * screens), session = 500;
    for (uint16_t i = 0; i < 2; i++) {
        uint16_t no_desk = i == 0 ? 0 : (uint16_t)(desks + 1), no_screen = i == 0 ? 0 : (uint16_t)(screens + 1);
        uint16_t no_position = i == 0 ? 0 : (uint16_t)(positions + 1);
        refuses(take(no_desk, 1, 1), BOARD_NO_DESK, "take gives 6");
        refuses(drop(no_desk, 1), BOARD_NO_DESK, "drop gives 6");
        refuses(swap(no_desk, 1, 1), BOARD_NO_DESK, "swap gives 6");
        refuses(retire(no_desk), BOARD_NO_DESK, "retire gives 6");
        refuses(collect(no_desk), BOARD_NO_DESK, "collect gives 6");
        refuses(take(desk, no_screen, 1), BOARD_NO_SCREEN, "take gives 7");
        refuses(drop(desk, no_screen), BOARD_NO_SCREEN, "drop gives 7");
        refuses(take(desk, 1, no_position), BOARD_NO_POSITION, "take gives 8");
        refuses(swap(desk, no_position, 1), BOARD_NO_POSITION, "swap gives 8");
    }
    accepts(collect(desk), 0, "nothing to collect");
    accepts(swap(desk, positions, 0), 0, "nothing for nothing");
    refuses(take(desk, screens, positions), BOARD_POSITION_EMPTY, "take gives 10");
    refuses(drop(desk, screens), BOARD_SCREEN_EMPTY, "drop gives 11");
    refuses(retire(desk), BOARD_OWES_NOTHING, "retire gives 13");
    accepts(swap(desk, positions, session), 0, "the first session");
    accepts(take(desk, screens, positions), session, "it is shown");
    refuses(take(desk, screens, positions), BOARD_SCREEN_FULL, "take gives 9");
    for (uint16_t used = 0; used < 2 * all; used++, session++) {
        accepts(swap(desk, positions, (uint16_t)(session + 1)), session, "the next session");
        refuses(swap(desk, positions, 1), BOARD_OWING, "swap gives 12");
        accepts(retire(desk), session, "the one before it waits");
    }
    accepts(swap(desk, positions, 0), session, "one more owed");
    refuses(retire(desk), BOARD_NO_ROOM, "retire gives 14");
    set_word(record(desk) + LIST, 0); /* a used place that is 0 */
    steps_refuse_with_5();
    set_word(record(desk) + LIST, 500);
    for (uint16_t reads = 2; reads < all; reads += 2)
        accepts(collect(desk), 0, "reading the hall");
    for (uint16_t back = 501; back < session; back++)
        accepts(collect(desk), back, "all but the one shown are back");
    accepts(drop(desk, screens), 500, "it is shown no more");
    accepts(retire(desk), session, "the last one waits");
    bool first_back = false, last_back = false;
    for (uint16_t collects = 0; collects < 3 * all; collects++) {
        uint16_t back = board_session(collect(desk));
        first_back = first_back || back == 500;
        last_back = last_back || back == session;
    }
    check(first_back && last_back, "both are back");
    accepts(collect(desk), 0, "nothing is left");
}

/* ---- repeats --------------------------------------------------------- */

static uint16_t held_at(uint16_t position)
{
    return word(position_index(position));
}

/* A desk that owes nothing swaps a position to what is there. */
static void repeat(uint16_t desk, uint16_t position)
{
    accepts(swap(desk, position, held_at(position)), held_at(position), "a repeat replies what is there");
    check(only_message_changed(desk), "a repeat leaves every other byte");
    refuses(retire(desk), BOARD_OWES_NOTHING, "a repeat owes nothing");
}

static void every_desk_repeats(uint16_t desks, uint16_t positions)
{
    for (uint16_t desk = 1; desk <= desks; desk++)
        for (uint16_t position = 1; position <= positions; position++)
            repeat(desk, position);
}

/* What is asked before the board looks at the position. */
static void repeats_refused(uint16_t desks, uint16_t positions, uint16_t desk)
{
    uint16_t held = held_at(positions);
    refuses(swap(0, positions, held), BOARD_NO_DESK, "6 also for a repeat");
    refuses(swap((uint16_t)(desks + 1), positions, held), BOARD_NO_DESK, "6 also for a repeat");
    refuses(swap(desk, 0, 0), BOARD_NO_POSITION, "8 also where nothing is put");
    refuses(swap(desk, (uint16_t)(positions + 1), 0), BOARD_NO_POSITION, "8 also where nothing is put");
    set_word(record(desks) + MARKS + 7, 0x8000);
    refuses(swap(desk, positions, held), BOARD_UNSOUND, "5 also for a repeat");
    set_word(record(desks) + MARKS + 7, 0);
}

/* The desk replaces what is at position 1. While it owes, its own repeats are
 * refused and those of the next desk are not. Once it has retired, its swap may
 * be sent again. */
static void sent_again(uint16_t desks, uint16_t positions, uint16_t desk, uint16_t session)
{
    uint16_t old = held_at(1), next = (uint16_t)(desk % desks + 1);
    accepts(swap(desk, 1, session), old, "another session");
    for (uint16_t position = 1; position <= positions; position++)
        refuses(swap(desk, position, held_at(position)), BOARD_OWING, "12 also for a repeat");
    if (next != desk)
        repeat(next, 1);
    accepts(retire(desk), old, "the replaced session is retired");
    repeat(desk, 1);
}

/* Repeats of none, of sessions (of which some are at two positions), while a
 * screen shows one, with a full list, and in mid-reading. */
static void repeats(uint16_t desks, uint16_t screens, uint16_t positions)
{
    uint16_t all = (uint16_t)(desks * screens), session = 500;
    hall(desks, screens, positions);
    every_desk_repeats(desks, positions);
    for (uint16_t position = 1; position <= positions; position++)
        accepts(swap(desks, position, position == positions ? limits->sessions : (uint16_t)(1 + position / 2)), 0,
                "a position's first session");
    every_desk_repeats(desks, positions);
    accepts(take(desks, screens, 1), held_at(1), "a screen shows it");
    for (uint16_t desk = 1; desk <= desks; desk++) {
        repeat(desk, 1);
        repeats_refused(desks, positions, desk);
        sent_again(desks, positions, desk, session++);
    }
    for (uint16_t used = 1; used < 2 * all; used++, session++) {
        uint16_t old = held_at(1);
        accepts(swap(1, 1, session), old, "one more session");
        accepts(retire(1), old, "one more on the list");
    }
    repeat(1, 1);
    check((board_session(collect(1)) == 0) == (all > 2), "in mid-reading if the hall is large enough");
    repeat(1, 1);
}

/* ---- message numbers ------------------------------------------------- */

static void set_due(uint16_t desk, uint16_t message)
{
    set_word(message_index(room, lent.table, desk), message);
}

/* A step with another number, near the one that is due or with a byte of it. */
static void other_numbers(enum function function, uint16_t desk, uint16_t second, uint16_t third)
{
    static const uint16_t distances[] = {65535, 1, 2, 255, 256, 257, 0x7F00, 0x8000, 0xFF00};
    uint16_t number = due(desk);
    for (size_t i = 0; i < sizeof distances / sizeof *distances; i++) {
        uint16_t message = (uint16_t)(number + distances[i]);
        refuses(perform((struct call){room, function, message, {desk, second, third}}), BOARD_OTHER_MESSAGE,
                "another number gives 23");
    }
}

/* A step that is answered thus, with its number only; accepted, it is then refused
 * as sent twice. */
static void numbered(enum function function, uint16_t desk, uint16_t second, uint16_t third, uint32_t answer)
{
    const struct call call = {room, function, due(desk), {desk, second, third}};
    other_numbers(function, desk, second, third);
    check(perform(call) == answer, "the answer to the number that is due");
    if (board_number(answer) == BOARD_ACCEPTED)
        refuses(perform(call), BOARD_OTHER_MESSAGE, "the same message again gives 23");
    else
        check(due(desk) == call.message, "the number is still due");
}

/* 23 is asked after 6 and before everything else. */
static void numbered_refusals(uint16_t desk)
{
    uint16_t desks = word(0), no_screen = (uint16_t)(word(1) + 1), no_position = (uint16_t)(word(2) + 1);
    for (enum function function = TAKE; function <= COLLECT; function++)
        for (uint16_t message = 0; message < 3; message++) {
            const struct call none = {room, function, message, {0, 1, 1}};
            const struct call past = {room, function, message, {(uint16_t)(desks + 1), 1, 1}};
            refuses(perform(none), BOARD_NO_DESK, "6 is asked before 23");
            refuses(perform(past), BOARD_NO_DESK, "6 is asked before 23");
        }
    numbered(TAKE, desk, no_screen, no_position, refusal(BOARD_NO_SCREEN));
    numbered(DROP, desk, no_screen, 0, refusal(BOARD_NO_SCREEN));
    numbered(TAKE, desk, 1, no_position, refusal(BOARD_NO_POSITION));
    numbered(SWAP, desk, no_position, 65535, refusal(BOARD_NO_POSITION));
    if (room == TRAINING)
        numbered(SWAP, desk, 1, 1000, refusal(BOARD_OVER_LIMITS));
    numbered(TAKE, desk, 1, 1, refusal(BOARD_POSITION_EMPTY));
    numbered(DROP, desk, 1, 0, refusal(BOARD_SCREEN_EMPTY));
    numbered(RETIRE, desk, 0, 0, refusal(BOARD_OWES_NOTHING));
}

/* All steps of a desk whose numbers start here; they run on from 65535 to 0. */
static void numbered_steps(uint16_t desks, uint16_t screens, uint16_t positions, uint16_t desk, uint16_t first)
{
    hall(desks, screens, positions);
    for (uint16_t other = 1; other <= desks; other++)
        set_due(other, (uint16_t)(other == desk ? first : first + other));
    numbered_refusals(desk);
    numbered(COLLECT, desk, 0, 0, 0);
    numbered(SWAP, desk, 1, 0, 0); /* a repeat */
    numbered(SWAP, desk, 1, 300, 0);
    numbered(SWAP, desk, 1, 300, 300); /* a repeat */
    numbered(TAKE, desk, 1, 1, 300);
    numbered(TAKE, desk, 1, 1, refusal(BOARD_SCREEN_FULL));
    numbered(SWAP, desk, 1, 301, 300);
    numbered(SWAP, desk, 1, 301, refusal(BOARD_OWING));
    numbered(RETIRE, desk, 0, 0, 300);
    numbered(DROP, desk, 1, 0, 300);
    for (uint16_t reads = 2; reads < desks * screens; reads += 2)
        numbered(COLLECT, desk, 0, 0, 0);
    numbered(COLLECT, desk, 0, 0, 300);
    for (uint16_t other = 1; other <= desks; other++)
        check(other == desk || due(other) == (uint16_t)(first + other), "other desks' numbers stay");
}

/* A collect that is sent twice hands back one session, and an opening begins again
 * with 0. */
static void twice(uint16_t desks)
{
    hall(desks, 1, 1);
    wait_on_list(desks, 5);
    wait_on_list(desks, 6);
    for (uint16_t reads = 2; reads < desks; reads += 2)
        accepts(collect(desks), 0, "reading the hall");
    numbered(COLLECT, desks, 0, 0, 5);
    numbered(COLLECT, desks, 0, 0, 6);
    set_word(record(desks) + WAITING, 1); /* unsound */
    for (uint16_t message = 0; message < 20; message++)
        refuses(perform((struct call){room, COLLECT, message, {desks, 0, 0}}), BOARD_UNSOUND, "5 is asked before 23");
    accepts(open_hall(desks, 1, 1), 0, "open again");
    for (uint16_t desk = 1; desk <= desks; desk++)
        accepts(perform((struct call){room, COLLECT, 0, {desk, 0, 0}}), 0, "number 0");
}

/* ---- runs ------------------------------------------------------------ */

/* The next run, on the lent table. */
static void new_run(void)
{
    begin_run(&run, lent.table, lent.bytes);
}

/* A step at this distance from the message number that is due. */
static uint32_t add_at(uint16_t distance, enum function function, uint16_t desk, uint16_t second, uint16_t third)
{
    uint16_t message = (uint16_t)(due_message(HALL, run.table, lent.bytes, desk) + distance);
    struct step step = step_of(&(struct call){HALL, function, message, {desk, second, third}}, random_word());
    return add_step(&run, &step);
}

static uint32_t add(enum function function, uint16_t desk, uint16_t second, uint16_t third)
{
    return add_at(0, function, desk, second, third);
}

/* A step with another code, whose other words would do for any step. */
static uint32_t add_code(uint16_t code, uint16_t desk)
{
    return add_step(&run, &(struct step){code, due_message(HALL, run.table, lent.bytes, desk), desk, 1, 1, 1});
}

static uint32_t perform_exact_run(void)
{
    return perform_run(0, REPLY_BYTES * run.count);
}

static void add_other_codes(uint16_t desk)
{
    static const uint16_t codes[] = {0, 6, 7, 13, 17, 255, 256, 257, 261, 0x0500, 0x8001, 65535};
    for (size_t i = 0; i < sizeof codes / sizeof *codes; i++)
        refuses(add_code(codes[i], desk), BOARD_NO_CODE, "a code outside 1 to 5 gives 17");
    refuses(add_code(6, 0), BOARD_NO_CODE, "17, not 6");
}

static void add_refusals(uint16_t desk)
{
    uint16_t no_desk = (uint16_t)(word(0) + 1), no_screen = (uint16_t)(word(1) + 1);
    uint16_t no_position = (uint16_t)(word(2) + 1);
    for (enum function function = TAKE; function <= COLLECT; function++) {
        refuses(add(function, no_desk, 1, 1), BOARD_NO_DESK, "6 in a run");
        refuses(add_at(1, function, desk, 1, 1), BOARD_OTHER_MESSAGE, "23 in a run");
        refuses(add_at(65535, function, desk, 1, 1), BOARD_OTHER_MESSAGE, "23 in a run");
    }
    refuses(add(TAKE, desk, no_screen, 1), BOARD_NO_SCREEN, "7 in a run");
    refuses(add(DROP, desk, 0, 1), BOARD_NO_SCREEN, "7 in a run");
    refuses(add(TAKE, desk, 1, 0), BOARD_NO_POSITION, "8 in a run");
    refuses(add(SWAP, desk, no_position, 1), BOARD_NO_POSITION, "8 in a run");
}

/* A desk's list, all waiting. The numbers of its messages are about to run on from
 * 65535 to 0. */
static void fill_list(uint16_t desk)
{
    size_t places = 2 * all_screens(lent.table);
    set_word(record(desk) + WAITING, (uint16_t)places);
    for (size_t i = 0; i < places; i++)
        set_word(record(desk) + LIST + i, (uint16_t)(i + 1));
    set_due(desk, 65533);
}

/* Every reply number of a step. */
static void add_every_reply(uint16_t desk)
{
    uint16_t screens = word(1), positions = word(2);
    bool collected = all_screens(lent.table) <= 2; /* by one collect */
    refuses(add(TAKE, desk, screens, positions), BOARD_POSITION_EMPTY, "10 in a run");
    refuses(add(DROP, desk, screens, 0), BOARD_SCREEN_EMPTY, "11 in a run");
    refuses(add(RETIRE, desk, 0, 0), BOARD_OWES_NOTHING, "13 in a run");
    accepts(add(SWAP, desk, positions, 0), 0, "a repeat in a run");
    accepts(add(SWAP, desk, positions, 500), 0, "a swap in a run");
    accepts(add(TAKE, desk, screens, positions), 500, "a take in a run");
    refuses(add(TAKE, desk, screens, positions), BOARD_SCREEN_FULL, "9 in a run");
    add_other_codes(desk);
    accepts(add(SWAP, desk, positions, 501), 500, "a swap that owes, in a run");
    refuses(add(SWAP, desk, positions, 501), BOARD_OWING, "12 in a run");
    refuses(add(RETIRE, desk, 0, 0), BOARD_NO_ROOM, "14 in a run");
    add_refusals(desk);
    accepts(add(DROP, desk, screens, 0), 500, "a drop in a run");
    accepts(add(COLLECT, desk, 0, 0), collected, "a collect in a run");
    check(add(RETIRE, desk, 0, 0) == (collected ? 500 : refusal(BOARD_NO_ROOM)), "a retire in a run");
}

static void hall_with_run(uint16_t desks, uint16_t screens, uint16_t positions, uint16_t desk)
{
    hall(desks, screens, positions);
    fill_list(desk);
    new_run();
    add_every_reply(desk);
}

/* The same steps on the table that they left. */
static void same_run(void)
{
    size_t steps = run.count;
    new_run();
    for (size_t i = 0; i < steps; i++)
        add_step(&run, &run.steps[i]);
}

/* A run with every reply, refused, accepted, and sent twice. */
static void every_reply(uint16_t desks, uint16_t screens, uint16_t positions, uint16_t desk)
{
    hall_with_run(desks, screens, positions, desk);
    size_t exact = REPLY_BYTES * run.count;
    refuses(perform_run(0, exact - 1), BOARD_TABLE_SHORT, "4, one byte is missing");
    refuses(perform_run(11, 0), BOARD_TABLE_SHORT, "4, there are no replies");
    set_word(record(desks) + MARKS + 7, 0x8000); /* unsound */
    refuses(perform_run(0, exact - 1), BOARD_TABLE_SHORT, "4 is asked before 5");
    refuses(perform_run(0, exact), BOARD_UNSOUND, "5 in place of any reply");
    set_word(record(desks) + MARKS + 7, 0);
    accepts(perform_run(11, exact + 7), 0, "accepted, whatever the steps reply");
    same_run();
    accepts(perform_exact_run(), 0, "the same run again");
}

/* Case D as one run. */
static void case_d_in_one_run(void)
{
    hall(1, 1, 1);
    new_run();
    accepts(add(SWAP, 1, 1, 300), 0, "D: step 1");
    accepts(add(TAKE, 1, 1, 1), 300, "D: step 2");
    accepts(add(SWAP, 1, 1, 7), 300, "D: step 3");
    accepts(add(RETIRE, 1, 0, 0), 300, "D: step 4");
    accepts(add(COLLECT, 1, 0, 0), 0, "D: step 5");
    accepts(add(DROP, 1, 1, 0), 300, "D: step 6");
    accepts(add(COLLECT, 1, 0, 0), 300, "D: step 7");
    refuses(add(RETIRE, 1, 0, 0), BOARD_OWES_NOTHING, "D: step 8");
    accepts(perform_exact_run(), 0, "D in one run");
}

/* Runs of one kind of step, all refused, or that change nothing but the numbers. */
static void runs_of_one_kind(void)
{
    for (enum function function = TAKE; function <= COLLECT; function++) {
        hall(3, 1, 2);
        new_run();
        for (uint16_t i = 0; i < 10; i++)
            add(function, 2, 1, 0);
        accepts(perform_exact_run(), 0, "a run of one kind");
    }
    hall(3, 1, 2);
    new_run();
    add_other_codes(3);
    accepts(perform_exact_run(), 0, "a run of other codes alone");
    check(memcmp(before, lent.table, lent.bytes) == 0, "other codes leave every byte of the table");
}

/* Runs of up to three steps in every length, with every length of the replies. */
static void every_run_length(void)
{
    static const struct step steps_of[] = {{3, 0, 1, 0, 1, 9}, {1, 1, 1, 1, 1, 0}, {2, 2, 1, 1, 0, 0}};
    for (size_t steps = 0; steps <= 3; steps++)
        for (size_t left_over = 0; left_over < STEP_BYTES; left_over++)
            for (size_t room = 0; room <= REPLY_BYTES * steps + 5; room++) {
                bool fits = room >= REPLY_BYTES * steps;
                hall(1, 1, 1);
                new_run();
                for (size_t i = 0; i < steps; i++)
                    accepts(add_step(&run, &steps_of[i]), i == 0 ? 0 : 9, "the steps");
                set_word(record(1) + READY, 1); /* unsound */
                refuses(perform_run(left_over, room), fits ? BOARD_UNSOUND : BOARD_TABLE_SHORT, "4, and then 5");
                set_word(record(1) + READY, 0);
                check(perform_run(left_over, room) == (fits ? 0 : refusal(BOARD_TABLE_SHORT)), "0 or 4");
            }
}

/* What is left over, and all but the run's replies, is on an inaccessible page. */
static void run_out_of_reach(size_t steps_beyond, size_t replies_beyond)
{
    steps_out_of_reach = steps_beyond;
    replies_out_of_reach = replies_beyond;
    case_d_in_one_run();
    hall_with_run(2, 1, 3, 2);
    accepts(perform_exact_run(), 0, "a run that is all within reach");
    new_run();
    accepts(perform_exact_run(), 0, "a run without steps");
    steps_out_of_reach = replies_out_of_reach = 0;
}

static void runs_without_tables(void)
{
    hall(1, 1, 1);
    new_run();
    add(COLLECT, 1, 0, 0);
    lend_run(0, REPLY_BYTES);
    uint8_t *steps = lent_steps.table, *replies = lent_replies.table, *table = lent.table;
    size_t bytes = lent.bytes;
    refuses(board_run(NULL, 0, NULL, 0, NULL, 0), BOARD_UNSOUND, "no table at all");
    refuses(board_run(steps, 12, replies, 4, NULL, 0), BOARD_UNSOUND, "no table of the board");
    refuses(board_run(steps, 12, NULL, 0, NULL, 0), BOARD_TABLE_SHORT, "no replies and no table");
    refuses(board_run(steps, 12, NULL, 0, table, bytes), BOARD_TABLE_SHORT, "no replies");
    refuses(board_run(steps, PTRDIFF_MAX, replies, 4, table, bytes), BOARD_TABLE_SHORT, "very many steps");
    accepts(board_run(NULL, 0, NULL, 0, table, bytes), 0, "no steps and no replies");
    accepts(board_run(NULL, 0, replies, 4, table, bytes), 0, "no steps");
    accepts(board_run(steps, 11, NULL, 0, table, bytes), 0, "no whole step and no replies");
    check(due(1) == 0 && guards_intact(&lent_replies, 0), "nothing done yet");
    accepts(board_run(steps, 12, replies, 4, table, bytes), 0, "one step");
    check(due(1) == 1, "done once");
}

/* ---- a shift --------------------------------------------------------- */

/* A number that is mostly there, and sometimes just beside. */
static uint16_t random_number(uint16_t last)
{
    return one_in(40) ? (uint16_t)(one_in(2) * (last + 1)) : random_up_to(last);
}

/* Mostly of the last desk. In the first half, hardly any collects: its list fills. */
static struct step random_step(size_t index, size_t steps)
{
    uint16_t desk = random_number(one_in(2) ? word(0) : random_up_to(word(0)));
    uint16_t code = random_up_to(index < steps / 2 && !one_in(50) ? 4 : 5);
    uint16_t message = due_message(HALL, run.table, lent.bytes, desk);
    return (struct step){
        .code = one_in(30) ? (uint16_t)(one_in(2) ? random_word() | 8 : code << 8) : code,
        .message = one_in(30) ? (uint16_t)(message + (one_in(2) ? -1 : random_up_to(300))) : message,
        .desk = desk,
        .screen = random_number(word(1)),
        .position = random_number(one_in(2) ? word(2) : 1),
        .session = one_in(10) ? 0 : one_in(2) ? random_up_to(9) : random_word(),
    };
}

/* The reply numbers of a step in a run. */
static const uint16_t step_replies[] = {0, 6, 7, 8, 9, 10, 11, 12, 13, 14, 17, 23};

static void generate_shift(size_t steps)
{
    bool occurs[BOARD_OTHER_MESSAGE + 1] = {0}, accepted[FUNCTIONS] = {0}, handed_back = false;
    new_run();
    for (size_t i = 0; i < steps; i++) {
        struct step step = random_step(i, steps);
        uint32_t answer = add_step(&run, &step);
        if (board_number(answer) <= BOARD_OTHER_MESSAGE)
            occurs[board_number(answer)] = true;
        if (board_number(answer) == BOARD_ACCEPTED)
            accepted[step.code] = true;
        handed_back = handed_back || (step.code == COLLECT && board_session(answer) != 0);
    }
    for (size_t i = 0; i < sizeof step_replies / sizeof *step_replies; i++)
        check(occurs[step_replies[i]], "every reply number occurs in the shift");
    for (int function = TAKE; function <= COLLECT; function++)
        check(accepted[function], "every step is accepted in the shift");
    check(handed_back, "a collect of the shift hands back");
}

/* The shift again, as runs of 0 to 40 steps. */
static void shift_in_pieces(void)
{
    memcpy(lent.table, before, lent.bytes);
    lend_run(0, REPLY_BYTES * run.count);
    for (size_t first = 0, steps; first < run.count; first += steps) {
        steps = random_word() % 41;
        if (steps > run.count - first)
            steps = run.count - first;
        accepts(board_run(lent_steps.table + STEP_BYTES * first, STEP_BYTES * steps,
                          lent_replies.table + REPLY_BYTES * first, REPLY_BYTES * steps, lent.table, bytes_passed),
                0, "a piece of the shift");
    }
    check_tables(BOARD_ACCEPTED, lent_replies.table, lent.table);
    check(guards_intact(&lent_replies, REPLY_BYTES * run.count), "nothing written outside the shift's replies");
}

static void shift(uint16_t desks, uint16_t screens, uint16_t positions)
{
    hall(desks, screens, positions);
    for (uint16_t desk = 1; desk <= desks; desk++)
        set_due(desk, (uint16_t)(65535 - 100 * (desk - 1)));
    generate_shift(MAX_STEPS);
    accepts(perform_exact_run(), 0, "a shift in one run");
    shift_in_pieces();
}

/* ---- over the limits of the training room ---------------------------- */

/* The hall opens a table that is too large for the training room, which then
 * refuses the same opening and every step. */
static void too_large(uint16_t desks, uint16_t screens, uint16_t positions)
{
    enter(HALL);
    hall(desks, screens, positions);
    enter(TRAINING);
    refuses(open_hall(desks, screens, positions), BOARD_OVER_LIMITS, "open gives 22");
    refuses(open_hall(17, screens, positions), BOARD_BAD_DESKS, "1 is asked before 22");
    refuses(open_hall(desks, 5, positions), BOARD_BAD_SCREENS, "2 is asked before 22");
    refuses(open_hall(desks, screens, 65), BOARD_BAD_POSITIONS, "3 is asked before 22");
    steps_refuse_with_5();
    lend(book_place, 2 * need_of(room, desks, screens, positions) - 1);
    refuses(open_hall(desks, screens, positions), BOARD_OVER_LIMITS, "22 is asked before 4");
    lend(book_place, 0);
    refuses(open_hall(desks, screens, positions), BOARD_OVER_LIMITS, "22 is asked before 4");
}

/* A session over the limit: a swap refuses it, and the rest of the board does not
 * ask. The host puts it into the table, once by a call of the hall. */
static void over_the_limit(uint16_t session)
{
    enter(TRAINING);
    hall(4, 1, 2);
    refuses(swap(5, 1, session), BOARD_NO_DESK, "6 is asked before 22");
    refuses(swap(1, 3, session), BOARD_NO_POSITION, "8 is asked before 22");
    refuses(swap(1, 1, session), BOARD_OVER_LIMITS, "swap gives 22");
    set_word(position_index(1), session);
    refuses(swap(1, 1, session), BOARD_OVER_LIMITS, "22 also for a repeat");
    accepts(take(2, 1, 1), session, "a take replies it");
    accepts(swap(2, 1, 0), session, "a swap replies it");
    refuses(swap(2, 1, session), BOARD_OVER_LIMITS, "22 is asked before 12");
    refuses(swap(2, 1, 999), BOARD_OWING, "12 for a session within the limit");
    accepts(retire(2), session, "a retire replies it");
    accepts(drop(2, 1), session, "a drop replies it");
    accepts(collect(2), 0, "reading the hall");
    accepts(collect(2), session, "a collect replies it");
    enter(HALL);
    accepts(swap(4, 2, session), 0, "the hall allows it");
    accepts(swap(4, 2, session), session, "also as a repeat");
    enter(TRAINING);
    refuses(swap(4, 2, session), BOARD_OVER_LIMITS, "22 also for that repeat");
    accepts(swap(4, 2, 999), session, "a swap replies it");
}

/* ---- rings ----------------------------------------------------------- */

static uint16_t beginning(uint16_t desk)
{
    return word(beginning_index(lent.table, desk));
}

static void set_beginning(uint16_t desk, uint16_t value)
{
    set_word(beginning_index(lent.table, desk), value);
}

static uint16_t places(void)
{
    return (uint16_t)(2 * all_screens(lent.table));
}

static void set_screens(uint16_t session)
{
    for (size_t i = 0; i < all_screens(lent.table); i++)
        set_word(screen_index(lent.table, 1, 1) + i, session);
}

/* A desk's list that begins here is filled by retires, is kept while the screens show
 * half of it, and is handed back to the last. */
static void around(uint16_t desks, uint16_t screens, uint16_t desk, uint16_t first)
{
    uint16_t all = (uint16_t)(desks * screens);
    hall(desks, screens, 1);
    set_beginning(desk, first);
    accepts(collect(desk), 0, "nothing on the list");
    for (uint16_t i = 0; i < places(); i++)
        wait_on_list(desk, (uint16_t)(i < all ? 9 : 1000 + i));
    check(word(record(desk) + LIST + first) == 9 && listed(desk, places() - 1u) == 1000 + places() - 1,
          "the list goes around the end");
    check(beginning(desk) == first, "a retire leaves the beginning");
    set_screens(9);
    for (uint16_t reads = 2; reads < all; reads += 2)
        accepts(collect(desk), 0, "reading the hall");
    check(beginning(desk) == first, "a reading leaves the beginning");
    for (uint16_t back = 1; back <= all; back++) {
        accepts(collect(desk), (uint16_t)(1000 + all + back - 1), "those not shown are back");
        check(beginning(desk) == (first + back) % places(), "each moves the beginning on");
        check(word(record(desk) + LIST + (first + back - 1u) % places()) == 0, "each leaves its place empty");
    }
    set_screens(0);
    for (uint16_t back = 0, collects = 0; back < all && collects < 4 * all; collects++)
        back += board_session(collect(desk)) == 9;
    check(beginning(desk) == first, "once around");
    accepts(collect(desk), 0, "nothing is left");
    check(only_message_changed(desk), "an empty list keeps its beginning");
}

/* A ring that begins at no place of its list, or at another place. */
static void wrong_beginnings(uint16_t desks, uint16_t screens, uint16_t desk)
{
    hall(desks, screens, 1);
    uint16_t wrong[] = {places(), (uint16_t)(places() + 1), 256, 0x8000, 65535};
    for (size_t i = 0; i < sizeof wrong / sizeof *wrong; i++) {
        set_beginning(desk, wrong[i]);
        steps_refuse_with_5();
    }
    set_beginning(desk, 0);
    wait_on_list(desk, 5);
    for (uint16_t other = 1; other < places(); other++) {
        set_beginning(desk, other);
        steps_refuse_with_5();
    }
    set_beginning(desk, 0);
    refuses(retire(desk), BOARD_OWES_NOTHING, "sound again");
}

/* The first board beside the ring, with its message numbers. */
static uint8_t first_board[BOARD_MAX_BYTES];
static size_t first_bytes;

/* Are the ring's words those of the first board, its lists read from their beginnings? */
static bool reads_as_first_board(void)
{
    bool same = memcmp(lent.table, first_board, 2 * record_index(HALL, first_board, 1)) == 0;
    for (uint16_t desk = 1; desk <= word(0); desk++) {
        const uint8_t *record_of_first = first_board + 2 * record_index(HALL, first_board, desk);
        same = same && memcmp(lent.table + 2 * record(desk), record_of_first, 2 * LIST) == 0;
        same = same && due(desk) == due_message(HALL, first_board, first_bytes, desk);
        for (size_t i = 0; i < places(); i++)
            same = same && listed(desk, i) == read_word(record_of_first, LIST + i);
    }
    return same;
}

/* A step that is mostly accepted, of a desk that is mostly the last. */
static struct call random_call(void)
{
    enum function function = (enum function)(one_in(3) ? COLLECT : random_up_to(COLLECT));
    uint16_t desk = one_in(4) ? random_up_to((uint16_t)(word(0) + 1)) : word(0);
    struct call call = {RING, function, due(desk), {desk, 1, 1}};
    call.numbers[1] = random_up_to(function == SWAP ? word(2) : word(1));
    call.numbers[2] = function == SWAP ? random_word() % 5 : random_up_to(word(2));
    if (one_in(50))
        call.message++;
    return call;
}

/* A history from an opening gets the answers of the first board, and a beginning counts
 * the hand-backs of its desk. */
static void beside_the_first_board(uint16_t desks, uint16_t screens, uint16_t positions, int steps)
{
    size_t handed_back[BOARD_MAX_DESKS + 1] = {0};
    hall(desks, screens, positions);
    first_bytes = 2 * board_need(desks, screens, positions);
    accepts(board_open(desks, screens, positions, first_board, first_bytes), 0, "the first board opens");
    for (int i = 0; i < steps; i++) {
        struct call call = random_call(), of_first = call;
        of_first.room = HALL;
        uint32_t answer = perform(call);
        check(send_call(&of_first, first_board, first_bytes) == answer, "the first board's answer");
        check(reads_as_first_board(), "the first board's table");
        if (call.function == COLLECT && is_accepted(answer) && answer != 0)
            handed_back[call.numbers[0]]++;
    }
    for (uint16_t desk = 1; desk <= desks; desk++)
        check(beginning(desk) == handed_back[desk] % places(), "the beginning counts hand-backs");
    check(handed_back[desks] > places() || steps < 2000, "once around");
}

/* ---- the stack ------------------------------------------------------- */

/* What the header says that a call takes at most. */
enum { STACK_SAID = 1024, STACK = 64 * 1024, UNTOUCHED = 0xA5 };

static uint16_t busy_desks, busy_screens, busy_positions;

/* Lists that fill up, and then collects that mark, settle and hand back. */
static void busy_hall(void)
{
    static uint8_t table[RING_MAX_BYTES];
    const struct board *board = &boards[room];
    size_t bytes = sizeof table;
    uint16_t message = 0;
    board->open(busy_desks, busy_screens, busy_positions, table, bytes);
    for (uint16_t session = 1; session <= 130; session++) {
        message += is_accepted(board->swap(message, 1, 1, session, table, bytes));
        message += is_accepted(board->swap(message, 1, 1, session, table, bytes)); /* a repeat */
        message += is_accepted(board->take(message, 1, 1, 1, table, bytes));
        message += is_accepted(board->swap(message, 1, 1, 0, table, bytes));
        message += is_accepted(board->retire(message, 1, table, bytes));
        if (session % 3 == 0)
            message += is_accepted(board->drop(message, 1, 1, table, bytes));
    }
    for (int collects = 0; collects < 400; collects++)
        message += is_accepted(board->collect(message, 1, table, bytes));
}

static void no_calls(void)
{
}

static size_t stack_of(void (*calls)(void))
{
    static uint8_t stack[STACK];
    static ucontext_t here, there;
    memset(stack, UNTOUCHED, sizeof stack);
    getcontext(&there);
    there.uc_stack.ss_sp = stack;
    there.uc_stack.ss_size = sizeof stack;
    there.uc_link = &here;
    makecontext(&there, calls, 0);
    swapcontext(&here, &there);
    size_t left = 0;
    while (left < sizeof stack && stack[left] == UNTOUCHED)
        left++;
    return sizeof stack - left;
}

/* The steps of a busy hall as one run, again and again. */
enum { BUSY_STEPS = 100000 };

static uint8_t busy_run_table[BOARD_MAX_BYTES], busy_replies[BUSY_STEPS * REPLY_BYTES];
static uint8_t busy_run_steps[BUSY_STEPS * STEP_BYTES];
static size_t busy_steps;

/* Adds a step of desk 1 with the message number that is due. */
static void add_busy(enum function function, uint16_t second, uint16_t third)
{
    if (busy_steps == BUSY_STEPS)
        return;
    uint16_t message = due_message(HALL, busy_run_table, sizeof busy_run_table, 1);
    struct step step = step_of(&(struct call){HALL, function, message, {1, second, third}}, 0);
    send_step(&step, busy_run_table, sizeof busy_run_table);
    write_step(busy_run_steps, busy_steps++, &step);
}

static void make_busy_run(void)
{
    busy_steps = 0;
    board_open(busy_desks, busy_screens, busy_positions, busy_run_table, sizeof busy_run_table);
    for (uint16_t session = 1; busy_steps < BUSY_STEPS; session++) {
        add_busy(SWAP, 1, session);
        add_busy(SWAP, 1, session); /* a repeat */
        add_busy(TAKE, 1, 1);
        add_busy(SWAP, 1, 0);
        add_busy(RETIRE, 0, 0);
        if (session % 3 == 0)
            add_busy(DROP, 1, 0);
        for (int collects = 0; collects < 400 && session % 130 == 0; collects++)
            add_busy(COLLECT, 0, 0);
    }
}

static void busy_run(void)
{
    board_open(busy_desks, busy_screens, busy_positions, busy_run_table, sizeof busy_run_table);
    board_run(busy_run_steps, busy_steps * STEP_BYTES, busy_replies, sizeof busy_replies, busy_run_table,
              sizeof busy_run_table);
}

static void stack_use_of_runs(uint16_t desks, uint16_t screens, uint16_t positions)
{
    static const size_t steps[] = {0, 1, 2000, BUSY_STEPS};
    size_t used[4];
    busy_desks = desks, busy_screens = screens, busy_positions = positions;
    make_busy_run();
    busy_run();
    for (size_t i = 0; i < 4; i++) {
        busy_steps = steps[i];
        used[i] = stack_of(busy_run) - stack_of(no_calls);
        check(used[i] <= STACK_SAID, "no more stack for a run than the header says");
    }
    check(used[3] == used[2], "no more stack for a long run");
}

static void stack_use(uint16_t desks, uint16_t screens, uint16_t positions)
{
    busy_desks = desks, busy_screens = screens, busy_positions = positions;
    busy_hall(); /* once before, so that the C library's functions are bound */
    check(stack_of(busy_hall) - stack_of(no_calls) <= STACK_SAID, "no more stack than the header says");
}

/* ---- all of it ------------------------------------------------------- */

static void hall_books(void)
{
    begin("hall book between guard bytes");
    hall_book(ALIGNED_0, 0);
    end();

    begin("hall book with spare bytes past the need");
    for (size_t spare = 1; spare <= SPARE; spare++)
        hall_book(ALIGNED_0, spare);
    end();

    begin("hall book against the page after");
    for (size_t spare = 0; spare <= SPARE; spare++)
        hall_book(AT_END, spare);
    far_corner(AT_END);
    end();

    begin("hall book with the words past the need out of reach");
    book_out_of_reach = RING_MAX_BYTES;
    hall_book(AT_END, 0);
    far_corner(AT_END);
    book_out_of_reach = 0;
    end();

    begin("hall book against the page before");
    for (size_t spare = 0; spare <= SPARE; spare++)
        hall_book(AT_START, spare);
    far_corner(AT_START);
    end();

    begin("hall book at every alignment");
    for (int align = 0; align < 8; align++)
        hall_book(ALIGNED_0 + align, 0);
    far_corner(ALIGNED_0 + 3);
    end();
}

static void every_answer_on_read_only_pages(void)
{
    begin("every answer, with all pages outside the footprint read-only");
    read_only = true;
    hall_book(ALIGNED_0, SPARE);
    far_corner(ALIGNED_0);
    every_answer(1, 1, 1, 1);
    every_answer(2, 1, 3, 2);
    if (room != TRAINING) {
        for (uint16_t desk = 1; desk <= 6; desk++)
            every_answer(6, 1, 12, desk);
        every_answer(3, 3, 1, 2);
        every_answer(16, 4, 64, 1);
        every_answer(16, 4, 64, 8);
        every_answer(16, 4, 64, 16);
    } else {
        for (uint16_t desk = 1; desk <= 4; desk++)
            every_answer(4, 1, 64, desk);
    }
    read_only = false;
    end();
}

static void repeats_on_read_only_pages(void)
{
    begin("repeats, with all pages but that of the message number read-only");
    read_only = true;
    for (int place = AT_START; place < PLACES; place++) {
        book_place = place;
        repeats(1, 1, 1);
        repeats(2, 1, 3);
    }
    if (room != TRAINING) {
        repeats(6, 1, 12);
        repeats(3, 3, 1);
    }
    repeats(limits->desks, limits->screens, limits->positions);
    read_only = false;
    end();
}

static void message_numbers_on_read_only_pages(void)
{
    static const uint16_t first[] = {0, 1, 255, 32767, 65525, 65530, 65534, 65535};
    begin("message numbers, with all pages outside the footprint read-only");
    read_only = true;
    for (size_t i = 0; i < sizeof first / sizeof *first; i++) {
        book_place = ALIGNED_0 + (int)i;
        numbered_steps(1, 1, 1, 1, first[i]);
        for (uint16_t desk = 1; desk <= 3; desk++)
            numbered_steps(3, 1, 2, desk, first[i]);
        numbered_steps(limits->desks, limits->screens, limits->positions, limits->desks, first[i]);
    }
    for (int place = AT_START; place < PLACES; place++) {
        book_place = place;
        twice(1);
        twice(3);
    }
    read_only = false;
    end();
}

static void runs_on_read_only_pages(void)
{
    begin("runs, with all pages outside the footprint read-only");
    check(BOARD_TAKE == 1 && BOARD_DROP == 2 && BOARD_SWAP == 3 && BOARD_RETIRE == 4 && BOARD_COLLECT == 5,
          "the header's codes");
    check(BOARD_STEP_WORDS == 6 && BOARD_REPLY_WORDS == 2 && BOARD_NO_CODE == 17, "the header's numbers");
    read_only = true;
    for (int place = AT_START; place < PLACES; place++) {
        book_place = place;
        book_spare = (size_t)place % (SPARE + 1);
        case_d_in_one_run();
        runs_of_one_kind();
        every_reply(1, 1, 1, 1);
        every_reply(2, 1, 3, 2);
    }
    every_reply(6, 1, 12, 4);
    every_reply(16, 4, 64, 1);
    every_reply(16, 4, 64, 16);
    book_spare = 0;
    every_run_length();
    read_only = false;
    end();
}

static void runs_at_every_place(void)
{
    begin("runs of every length");
    for (int place = AT_START; place < PLACES; place++) {
        book_place = place;
        every_run_length();
    }
    end();

    begin("runs with all that they need not access out of reach");
    for (size_t beyond = 1; beyond < STEP_BYTES; beyond++) {
        run_out_of_reach(beyond, beyond);
        run_out_of_reach(0, beyond);
        run_out_of_reach(beyond, 0);
    }
    run_out_of_reach(STEP_BYTES - 1, PTRDIFF_MAX - SHORT_RUN * REPLY_BYTES);
    end();

    begin("runs without tables, and with one that is too long");
    runs_without_tables();
    end();
}

static void shifts(void)
{
    struct guarded_memory short_steps = lent_steps, short_replies = lent_replies;
    lent_steps = make_guarded_memory(MAX_STEPS * STEP_BYTES);
    lent_replies = make_guarded_memory(MAX_STEPS * REPLY_BYTES);
    begin("a shift in one run");
    for (int place = AT_START; place <= ALIGNED_0 + 1; place++) {
        book_place = place;
        shift(1, 1, 1);
        shift(3, 1, 2);
        shift(16, 4, 64);
    }
    end();
    lent_steps = short_steps;
    lent_replies = short_replies;
}

static void rings(void)
{
    begin("rings from every beginning, with all pages outside the footprint read-only");
    read_only = true;
    for (int place = AT_START; place < PLACES; place++) {
        book_place = place;
        around(1, 1, 1, 0);
        around(1, 1, 1, 1);
        wrong_beginnings(1, 1, 1);
    }
    for (uint16_t first = 0; first < 6; first++)
        for (uint16_t desk = 1; desk <= 3; desk++)
            around(3, 1, desk, first);
    for (uint16_t first = 0; first < 128; first += 9)
        around(16, 4, (uint16_t)(first % 16 + 1), first);
    around(16, 4, 16, 127);
    wrong_beginnings(3, 1, 2);
    wrong_beginnings(16, 4, 16);
    beside_the_first_board(2, 1, 2, 500);
    read_only = false;
    end();

    begin("rings beside the first board");
    beside_the_first_board(1, 1, 1, 20000);
    beside_the_first_board(3, 1, 2, 20000);
    beside_the_first_board(6, 1, 12, 20000);
    beside_the_first_board(16, 4, 64, 20000);
    end();
}

static void over_the_limits(void)
{
    static const uint16_t sessions[] = {1000, 1001, 1023, 1024, 65535};
    begin("over the limits of the training room, with all pages outside the footprint read-only");
    check(TRAINING_MAX_DESKS == 4 && TRAINING_MAX_SCREENS == 1 && TRAINING_MAX_SESSION == 999, "the header's limits");
    read_only = true;
    for (int place = AT_START; place < PLACES; place++) {
        book_place = place;
        too_large(5, 1, 1);
        too_large(4, 2, 1);
        for (size_t i = 0; i < sizeof sessions / sizeof *sessions; i++)
            over_the_limit(sessions[i]);
    }
    too_large(1, 2, 64);
    too_large(5, 1, 64);
    too_large(16, 4, 64);
    read_only = false;
    end();
}

static void stack(void)
{
    begin("stack");
    stack_use(1, 1, 1);
    if (room != TRAINING)
        stack_use(6, 1, 12);
    stack_use(limits->desks, limits->screens, limits->positions);
    if (room == HALL) {
        stack_use_of_runs(1, 1, 1);
        stack_use_of_runs(6, 1, 12);
        stack_use_of_runs(16, 4, 64);
    }
    end();
}

static void any_table(void)
{
    begin("lengths from 0 to 50 bytes");
    for (int place = AT_START; place < PLACES; place++)
        every_length(place);
    end();

    begin("no table at all");
    no_table();
    end();

    begin("tables of 00, of FF and of random bytes");
    for (int place = AT_START; place < PLACES; place++)
        for (int with = ZEROS; with <= RANDOM_WITH_HEADER; with++)
            unopened(place, (enum filling)with);
    end();
}

int main(void)
{
    page = (size_t)sysconf(_SC_PAGESIZE);
    lent = make_guarded_memory(RING_MAX_BYTES);
    lent_steps = make_guarded_memory(SHORT_RUN * STEP_BYTES);
    lent_replies = make_guarded_memory(SHORT_RUN * REPLY_BYTES);
    table_strip = make_strip(TABLE_PAGES);
    reply_strip = make_strip(REPLY_PAGES);
    catch_signals();
    for (int which = HALL; which < ROOMS; which++) {
        enter((enum room)which);
        printf("%s_\n", room_names[which]);
        hall_books();
        every_answer_on_read_only_pages();
        repeats_on_read_only_pages();
        message_numbers_on_read_only_pages();
        if (room == HALL) {
            runs_on_read_only_pages();
            runs_at_every_place();
            shifts();
        }
        if (room == RING)
            rings();
        stack();
        any_table();
    }
    over_the_limits();
    printf("host_test: %lu checks, %lu failed\n", checks, failed);
    return failed != 0;
}
