/* Calls for the self-test of tests/divisions/archive.py: all but the first two divide,
 * each in its own way. */
#include <stdint.h>
#include <string.h>

/* A divide instruction, in a function of its own. */
static __attribute__((noinline)) uint32_t quotient(uint32_t a, uint32_t b)
{
    return a / b;
}

/* ---- these do not divide ------------------------------------------------ */

/* By a power of two: a shift and a mask. */
uint32_t by_16(uint32_t a, uint32_t b)
{
    return a / 16 + b % 16;
}

/* The C library moves bytes; nothing here reaches quotient(). */
uint32_t moves_bytes(uint32_t a, uint8_t *bytes)
{
    memset(bytes, 0, a);
    return a;
}

/* ---- these do ----------------------------------------------------------- */

uint32_t by_a_variable(uint32_t a, uint32_t b)
{
    return a / b;
}

uint16_t remainder_of_words(uint16_t a, uint16_t b)
{
    return a % b;
}

int64_t of_signed_numbers(int64_t a, int64_t b)
{
    return a / b;
}

double of_floats(double a, double b)
{
    return a / b;
}

long double of_long_floats(long double a, long double b)
{
    return a / b;
}

uint32_t in_a_callee(uint32_t a, uint32_t b)
{
    return quotient(a, b) + 1;
}

/* The last call is a jump. */
uint32_t by_a_jump(uint32_t a, uint32_t b)
{
    return quotient(a + 1, b);
}

/* By an address in a table. */
static uint32_t sum(uint32_t a, uint32_t b)
{
    return a + b;
}

static uint32_t (*const functions[])(uint32_t, uint32_t) = {sum, quotient};

uint32_t by_an_address(uint32_t a, uint32_t b)
{
    return functions[a & 1](a, b);
}

__attribute__((target("avx"))) double of_vectors(double a, double b)
{
    return a / b;
}

long double remainder_of_long_floats(long double a, long double b)
{
    __asm__("fprem" : "+t"(a) : "u"(b));
    return a;
}

/* By a number in memory, and with a prefix that changes nothing. */
uint32_t with_a_prefix(uint32_t a, uint32_t b)
{
    uint32_t high = 0;
    __asm__("ds; divl %2" : "+a"(a), "+d"(high) : "m"(b));
    return a;
}

/* 128 bits: the compiler calls its own library. */
unsigned __int128 by_a_library(unsigned __int128 a, unsigned __int128 b)
{
    return a / b;
}
