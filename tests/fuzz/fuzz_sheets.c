/*
 * Fuzzes the sheet programs. An input is a sheet. The programs, in the folder that
 * PROGRAMS names, run on it, each in a separate process, and their output is
 * compared with that of the reference, which runs in this process. The reference
 * is instrumented and guides the fuzzer; the programs are not.
 */
#define _GNU_SOURCE
#include "reference_in_c.h"

#include <errno.h>
#include <fcntl.h>
#include <poll.h>
#include <signal.h>
#include <spawn.h>
#include <stdbool.h>
#include <stdio.h>
#include <stdlib.h>
#include <string.h>
#include <sys/mman.h>
#include <sys/resource.h>
#include <sys/syscall.h>
#include <sys/wait.h>
#include <unistd.h>

enum {
    MAX_MILLISECONDS = 10000, /* far more than any sheet needs */
    MAX_WRITTEN = 4 << 20,    /* three times the lines of the longest sheet */
    PIPE_BYTES = 1 << 20,
    NUMBERS = 23
};

static void require(bool good, const char *what)
{
    if (good)
        return;
    printf("\nFAILED: %s\n", what);
    fflush(stdout);
    abort(); /* the fuzzer saves the input */
}

/* A failure of the machine, not of the program. */
static void must(bool good, const char *what)
{
    if (good)
        return;
    perror(what);
    _exit(2);
}

/* ---- running a program ----------------------------------------------- */

static int output; /* a file in memory */
static uint8_t written[MAX_WRITTEN];
static const struct rlimit max_written = {MAX_WRITTEN, MAX_WRITTEN};

static int sheet_in_a_file(const uint8_t *sheet, size_t bytes)
{
    int file = memfd_create("sheet", MFD_CLOEXEC);
    must(file >= 0 && write(file, sheet, bytes) == (ssize_t)bytes, "a file for the sheet");
    must(lseek(file, 0, SEEK_SET) == 0, "a file for the sheet");
    return file;
}

/* In parts of `part` bytes. A packet-mode pipe delivers one part per read, which
 * catches a program that reads only once. */
static int sheet_in_a_pipe(const uint8_t *sheet, size_t bytes, size_t part, int flags)
{
    int ends[2];
    must(pipe2(ends, O_CLOEXEC | flags) == 0, "a pipe");
    must(fcntl(ends[1], F_SETPIPE_SZ, PIPE_BYTES) >= 0, "a pipe that holds a whole sheet");
    for (size_t at = 0; at < bytes; at += part) {
        size_t now = bytes - at < part ? bytes - at : part;
        must(write(ends[1], sheet + at, now) == (ssize_t)now, "a sheet into a pipe");
    }
    close(ends[1]);
    return ends[0];
}

/* Chosen by the length, so that an input is always delivered in the same way. */
static int sheet_to_read(const uint8_t *sheet, size_t bytes)
{
    switch (bytes % 3) {
    case 0:
        return sheet_in_a_file(sheet, bytes);
    case 1:
        return sheet_in_a_pipe(sheet, bytes, bytes, 0);
    default:
        return sheet_in_a_pipe(sheet, bytes, 1 + bytes / 64, O_DIRECT);
    }
}

static pid_t start(const char *program, int sheet)
{
    static char *no_environment[] = {NULL};
    char *arguments[] = {(char *)program, NULL};
    posix_spawn_file_actions_t files;
    pid_t child;
    posix_spawn_file_actions_init(&files);
    posix_spawn_file_actions_adddup2(&files, sheet, 0);
    posix_spawn_file_actions_adddup2(&files, output, 1);
    posix_spawn_file_actions_addopen(&files, 2, "/dev/null", O_WRONLY, 0);
    errno = posix_spawn(&child, program, &files, NULL, arguments, no_environment);
    must(errno == 0, program);
    prlimit(child, RLIMIT_FSIZE, &max_written, NULL); /* may fail: it may have ended already */
    posix_spawn_file_actions_destroy(&files);
    return child;
}

/* The fuzzer's timer may interrupt poll(); then it is called again. */
static bool ends_in_time(pid_t child)
{
    int found;
    struct pollfd ended = {(int)syscall(SYS_pidfd_open, child, 0), POLLIN, 0};
    must(ended.fd >= 0, "pidfd_open");
    do {
        found = poll(&ended, 1, MAX_MILLISECONDS);
    } while (found < 0 && errno == EINTR);
    close(ended.fd);
    return found == 1;
}

static void end_well(pid_t child)
{
    int status;
    bool in_time = ends_in_time(child);
    if (!in_time)
        kill(child, SIGKILL);
    while (waitpid(child, &status, 0) < 0)
        must(errno == EINTR, "waitpid");
    require(in_time, "the program ends in time");
    require(WIFEXITED(status) && WEXITSTATUS(status) == 0, "the program ends well");
}

/* How many bytes the program writes for a sheet. */
static size_t run(const char *program, const uint8_t *sheet, size_t bytes)
{
    must(ftruncate(output, 0) == 0 && lseek(output, 0, SEEK_SET) == 0, "a file for the output");
    int input = sheet_to_read(sheet, bytes);
    pid_t child = start(program, input);
    close(input);
    end_well(child);
    ssize_t length = pread(output, written, sizeof written, 0);
    must(length >= 0, "the output");
    return (size_t)length;
}

/* ---- the fuzzer's side ----------------------------------------------- */

/* The programs, in the order of reference_output. */
static struct program {
    const char *name;
    bool prints_lines;
    const char *right; /* what must hold of the output */
    char *path;
} programs[] = {
    {"day_sheet", true, "the lines of the reference", NULL},
    {"day_sheet_2", true, "the lines of the reference in edition 2", NULL},
    {"training_sheet", true, "the lines of the reference in the training room", NULL},
    {"shorten_sheet", false, "the shortest form of the reference", NULL},
    {"to_edition_2", false, "the edition 2 of the reference", NULL},
    {"to_edition_1", false, "the edition 1 of the reference", NULL},
};

enum { PROGRAMS = sizeof programs / sizeof programs[0] };

/* For a program that prints lines, those with each reply number; for another, the
 * sheets that are refused with it. Number 0 is that of the sheets that are not. */
static unsigned long sheets, counts[PROGRAMS][NUMBERS];

/* The fuzzer keeps an input that raises one of these. */
__attribute__((section("__libfuzzer_extra_counters")))
static uint8_t this_input[PROGRAMS * NUMBERS];

static void count(unsigned program, unsigned number)
{
    uint8_t *counter = &this_input[program * NUMBERS + number];
    counts[program][number]++;
    *counter += *counter < 255;
}

/* Each line but the last is record number, code, reply number, session. */
static void count_lines(unsigned program, const uint8_t *text, size_t length)
{
    int spaces = 0;
    unsigned number = 0;
    for (size_t at = 0; at < length && text[at] != 'e'; at++) {
        if (text[at] == '\n') {
            count(program, number);
            spaces = 0, number = 0;
        } else if (text[at] == ' ') {
            spaces++;
        } else if (spaces == 2) {
            number = 10 * number + (text[at] - '0');
        }
    }
}

/* A refusal is a line that starts with its number; no sheet starts with a digit. */
static void count_sheet(unsigned program, const uint8_t *text, size_t length)
{
    unsigned number = 0;
    for (size_t at = 0; at < length && '0' <= text[at] && text[at] <= '9'; at++)
        number = 10 * number + (text[at] - '0');
    count(program, number);
}

static void print_count(unsigned long count)
{
    count ? printf("%15lu", count) : printf("%15s", "-");
}

static void print_tally(void)
{
    printf("%-8s", "reply");
    for (int program = 0; program < PROGRAMS; program++)
        printf("%15s", programs[program].name);
    for (int number = 0; number < NUMBERS; number++) {
        printf("\n%-8d", number);
        for (int program = 0; program < PROGRAMS; program++)
            print_count(counts[program][number]);
    }
    printf("\nfuzz_sheets: %lu sheets\n", sheets);
    fflush(stdout);
}

int LLVMFuzzerInitialize(int *arguments, char ***names)
{
    (void)arguments, (void)names;
    const char *folder = getenv("PROGRAMS");
    if (folder == NULL) {
        fprintf(stderr, "fuzz_sheets: PROGRAMS must name the folder of the programs\n");
        exit(2);
    }
    for (int program = 0; program < PROGRAMS; program++)
        must(asprintf(&programs[program].path, "%s/%s", folder, programs[program].name) > 0, "memory");
    output = memfd_create("output", MFD_CLOEXEC);
    must(output >= 0, "a file for the output");
    atexit(print_tally);
    return 0;
}

int LLVMFuzzerTestOneInput(const uint8_t *sheet, size_t bytes)
{
    for (int program = 0; program < PROGRAMS; program++) {
        size_t expected_length, length;
        const uint8_t *expected = reference_output(program, sheet, bytes, &expected_length);
        length = run(programs[program].path, sheet, bytes);
        require(length == expected_length && memcmp(written, expected, length) == 0,
                programs[program].right);
        if (programs[program].prints_lines)
            count_lines(program, expected, expected_length);
        else
            count_sheet(program, expected, expected_length);
    }
    sheets++;
    return 0;
}
