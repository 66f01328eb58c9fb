/* Measures how many bytes of stack one call of judge and one of load take.
 *
 *   (cd crates/tuneharbor && rt lib) && mkdir -p target
 *   cc -std=c99 -Wall -Wextra -Werror -Iinclude examples/stack.c crates/tuneharbor/out/libtuneharbor.a -o target/stack
 *   target/stack
 *
 * A call runs on a stack of its own, painted first (filled with one value): the
 * lowest byte that has changed says how deep the call went. It prints the most
 * that any of the cases below took, and fails where that is over
 * TUNEHARBOR_STACK or where a case is not answered as it should be. For x86-64,
 * glibc, and gcc or clang. */
#define _XOPEN_SOURCE 600
#include <inttypes.h>
#include <stdio.h>
#include <string.h>
#include <ucontext.h>

#include "tuneharbor.h"

typedef void judge_call(const uint8_t *, size_t, const uint8_t *, size_t, bool, uint64_t *);
typedef void load_call(const uint8_t *, size_t, const uint8_t *, size_t, bool, uint8_t *, size_t, uint64_t *);

/* What is passed. */
static uint8_t map[768];
static uint8_t table[1028];
static size_t table_len;
static bool low_first;
static uint8_t memory[63 * 16];
static uint64_t answer[7];

/* What is called: volatile, so that the same instruction calls the function and
 * its stand-in. */
static judge_call *volatile judge;
static load_call *volatile load;

/* ---- the painted stack */

static unsigned char stack[16384];
static ucontext_t here, there;

static void call_judge(void)
{
    judge(map, sizeof map, table, table_len, low_first, answer);
}

static void call_load(void)
{
    load(map, sizeof map, table, table_len, low_first, memory, sizeof memory, answer);
}

/* Makes a call on the stack in one paint, and answers the lowest byte that the
 * call changed. */
static const unsigned char *lowest_in(unsigned char paint, void (*call)(void))
{
    const unsigned char *byte = stack;

    memset(stack, paint, sizeof stack);
    getcontext(&there);
    there.uc_stack.ss_sp = stack;
    there.uc_stack.ss_size = sizeof stack;
    there.uc_link = &here;
    makecontext(&there, call, 0);
    swapcontext(&here, &there);
    while (*byte == paint)
        byte++;
    return byte;
}

/* The same in two paints, since a call may write a byte that is as painted. */
static const unsigned char *lowest(void (*call)(void))
{
    const unsigned char *one = lowest_in(0xA5, call);
    const unsigned char *other = lowest_in(0x5A, call);

    return one < other ? one : other;
}

/* ---- where a call begins */

/* Where the stack pointer stood before a call. A stand-in for the call finds it:
 * at its frame address are the caller's frame pointer and the return address,
 * and above them is where it stood. */
static const unsigned char *top;

static void judge_top(const uint8_t *m, size_t m_len, const uint8_t *t, size_t t_len, bool l, uint64_t *a)
{
    (void)m, (void)m_len, (void)t, (void)t_len, (void)l, (void)a;
    top = (const unsigned char *)__builtin_frame_address(0) + 2 * sizeof(void *);
}

static void load_top(const uint8_t *m, size_t m_len, const uint8_t *t, size_t t_len, bool l, uint8_t *b,
                     size_t b_len, uint64_t *a)
{
    (void)m, (void)m_len, (void)t, (void)t_len, (void)l, (void)b, (void)b_len, (void)a;
    top = (const unsigned char *)__builtin_frame_address(0) + 2 * sizeof(void *);
}

static size_t stack_of_judge(void)
{
    judge = judge_top;
    lowest(call_judge); /* sets top */
    judge = tuneharbor_judge;
    return (size_t)(top - lowest(call_judge));
}

static size_t stack_of_load(void)
{
    load = load_top;
    lowest(call_load); /* sets top */
    load = tuneharbor_load;
    return (size_t)(top - lowest(call_load));
}

/* ---- the cases */

/* 63 records of the map are permitted, and their addresses touch, in an order in
 * which no two neighbours of the map do. The table has two sections of 500 bytes,
 * which go through all of them. The cases differ in the kind of these records, in
 * the last record of the map, in the second section's address, and in the table's
 * length. */
static const struct {
    uint8_t kind;
    uint8_t last_kind;
    uint32_t last_first;
    uint32_t second;
    size_t table_len;
    uint64_t number;
} cases[] = {
    {1, 2, 0x00900000, 0x008001F4, 1024, 0},                       /* accepted */
    {1, 2, 0x00800100, 0x008001F4, 1024, TUNEHARBOR_NOT_OPEN},     /* a reserved address in the first section */
    {1, 2, 0x00800100, 0x008001F4, 1028, TUNEHARBOR_BYTES_AFTER},  /* and a fault of the form after it */
    {1, 2, 0x00900000, 0x008001F4, 1020, TUNEHARBOR_TABLE_CUT},
    {1, 7, 0x00900000, 0x008001F4, 1024, TUNEHARBOR_MAP_RECORD},
    {1, 2, 0x00900000, 0x008001F3, 1024, 0},                       /* an address that both sections have */
    {3, 2, 0x00900000, 0x008001F4, 1024, 0},                       /* the first, where each takes one write */
    {3, 2, 0x00900000, 0x008001F3, 1024, TUNEHARBOR_STORED_TWICE}, /* and an address that both have */
};

/* The four bytes of a word, the high one first. */
static void put_word(uint8_t *at, uint32_t word)
{
    at[0] = (uint8_t)(word >> 24);
    at[1] = (uint8_t)(word >> 16);
    at[2] = (uint8_t)(word >> 8);
    at[3] = (uint8_t)word;
}

/* The four bytes of a header word, in the table's byte order. */
static void put_header(uint8_t *at, uint32_t word)
{
    uint8_t high[4];
    size_t i;

    put_word(high, word);
    for (i = 0; i < 4; i++)
        at[i] = high[low_first ? 3 - i : i];
}

static void put_record(size_t index, uint8_t kind, uint32_t first)
{
    uint8_t *at = map + 12 * index;

    at[0] = 0x52;
    at[1] = 0x47;
    at[2] = kind;
    at[3] = 0;
    put_word(at + 4, first);
    put_word(at + 8, 16);
}

/* The most that a call takes in any of the cases and in either byte order, or 0
 * where one is not answered as it should be. */
static size_t most(size_t (*stack_of)(void))
{
    const size_t count = sizeof cases / sizeof cases[0];
    size_t i, n, record, used, highest = 0;

    for (n = 0; n < 2 * count; n++) {
        i = n % count;
        low_first = n >= count;
        put_header(table, 0x00800000);
        put_header(table + 4, 500);
        put_header(table + 8, 0x00800000);
        put_header(table + 512, 500);
        put_header(table + 516, cases[i].second);
        for (record = 0; record < 63; record++)
            put_record(record, cases[i].kind, 0x00800000 + 16 * (uint32_t)(record * 2 % 63));
        put_record(63, cases[i].last_kind, cases[i].last_first);
        table_len = cases[i].table_len;
        answer[0] = UINT64_MAX;
        used = stack_of();
        highest = used > highest ? used : highest;
        if (answer[0] != cases[i].number) {
            fprintf(stderr, "case %zu, %s first, is answered with %" PRIu64 ", not %" PRIu64 "\n", i,
                    low_first ? "low" : "high", answer[0], cases[i].number);
            return 0;
        }
    }
    return highest;
}

int main(void)
{
    const size_t judge_stack = most(stack_of_judge);
    const size_t load_stack = most(stack_of_load);

    if (judge_stack == 0 || load_stack == 0)
        return 1;
    printf("judge: %zu bytes of stack\nload: %zu bytes of stack\n", judge_stack, load_stack);
    if (judge_stack > TUNEHARBOR_STACK || load_stack > TUNEHARBOR_STACK) {
        fprintf(stderr, "that is over %d\n", TUNEHARBOR_STACK);
        return 1;
    }
    return 0;
}
