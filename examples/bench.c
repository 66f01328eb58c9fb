/* Judges, joins and loads two small tables, in both byte orders and where each
 * address takes one write, decodes two strap values, and prints what each call
 * answers.
 *
 *   (cd crates/tuneharbor && rt lib) && mkdir -p target
 *   cc -std=c99 -Wall -Wextra -Werror -Iinclude examples/bench.c crates/tuneharbor/out/libtuneharbor.a -o target/bench
 *
 * It must print examples/bench.expected. */
#include <inttypes.h>
#include <stdio.h>
#include <string.h>

#include "tuneharbor.h"

/* 16 permitted bytes from 0x00800000 on. */
static const uint8_t map[12] = {
    0x52, 0x47, 0x01, 0x00, 0x00, 0x80, 0x00, 0x00, 0x00, 0x00, 0x00, 0x10,
};

/* The same bytes, where each takes one write in a load. */
static const uint8_t map_once[12] = {
    0x52, 0x47, 0x03, 0x00, 0x00, 0x80, 0x00, 0x00, 0x00, 0x00, 0x00, 0x10,
};

/* Entry address, one section of 3 bytes with a pad byte, zero word. */
static const uint8_t table_p[20] = {
    0x00, 0x80, 0x00, 0x00, 0x00, 0x00, 0x00, 0x03, 0x00, 0x80,
    0x00, 0x02, 0xA1, 0xA2, 0xA3, 0x00, 0x00, 0x00, 0x00, 0x00,
};

/* Entry address, one section of 1 byte with three pad bytes, zero word. */
static const uint8_t table_q[20] = {
    0x00, 0x80, 0x00, 0x04, 0x00, 0x00, 0x00, 0x01, 0x00, 0x80,
    0x00, 0x04, 0xB7, 0x00, 0x00, 0x00, 0x00, 0x00, 0x00, 0x00,
};

/* The same two with the low byte of their header words first. */
static const uint8_t low_p[20] = {
    0x00, 0x00, 0x80, 0x00, 0x03, 0x00, 0x00, 0x00, 0x02, 0x00,
    0x80, 0x00, 0xA1, 0xA2, 0xA3, 0x00, 0x00, 0x00, 0x00, 0x00,
};

static const uint8_t low_q[20] = {
    0x04, 0x00, 0x80, 0x00, 0x01, 0x00, 0x00, 0x00, 0x04, 0x00,
    0x80, 0x00, 0xB7, 0x00, 0x00, 0x00, 0x00, 0x00, 0x00, 0x00,
};

static void print_table_answer(const char *what, const uint64_t answer[7])
{
    printf("%s: number %" PRIu64 ", place %" PRIu64 ", address %08" PRIX64
           ", entry %08" PRIX64 ", open %" PRIu64 ", sections %" PRIu64
           ", bytes %" PRIu64 "\n",
           what, answer[0], answer[1], answer[2], answer[3], answer[4],
           answer[5], answer[6]);
}

static void print_bytes(const char *what, const uint8_t *bytes, size_t len)
{
    size_t i;

    printf("%s:", what);
    for (i = 0; i < len; i++)
        printf(" %02X", (unsigned)bytes[i]);
    printf("\n");
}

static void judge(const char *what, const uint8_t *table, size_t table_len,
                  bool low_first)
{
    uint64_t answer[7];

    tuneharbor_judge(map, sizeof map, table, table_len, low_first, answer);
    print_table_answer(what, answer);
}

/* Loads into zeroed memory. */
static void load(const char *what, const uint8_t *table, size_t table_len,
                 bool low_first)
{
    uint64_t answer[7];
    uint8_t memory[16];

    memset(memory, 0, sizeof memory);
    tuneharbor_load(map, sizeof map, table, table_len, low_first, memory,
                    sizeof memory, answer);
    print_table_answer(what, answer);
    print_bytes("memory", memory, sizeof memory);
}

static void judge_once(const char *what, const uint8_t *table, size_t table_len)
{
    uint64_t answer[7];

    tuneharbor_judge(map_once, sizeof map_once, table, table_len, false, answer);
    print_table_answer(what, answer);
}

/* Loads into memory as it is, where each address takes one write. */
static void load_once(const char *what, const uint8_t *table, size_t table_len,
                      uint8_t memory[16])
{
    uint64_t answer[7];

    tuneharbor_load(map_once, sizeof map_once, table, table_len, false, memory,
                    16, answer);
    print_table_answer(what, answer);
    print_bytes("memory", memory, 16);
}

/* Joins two tables into 32 bytes, prints as many as the join has, and answers
 * how many these are. */
static size_t join(const char *what, const uint8_t *first, size_t first_len,
                   const uint8_t *second, size_t second_len, bool low_first,
                   uint8_t output[32])
{
    uint64_t answer[5];

    tuneharbor_join(first, first_len, second, second_len, low_first, output, 32,
                    answer);
    printf("%s: number %" PRIu64 ", place %" PRIu64 ", table %" PRIu64
           ", length %" PRIu64 ", sections %" PRIu64 "\n",
           what, answer[0], answer[1], answer[2], answer[3], answer[4]);
    print_bytes("output", output, (size_t)answer[3]);
    return (size_t)answer[3];
}

static void print_strap(const char *what, uint32_t value, const uint64_t answer[9])
{
    size_t i;

    printf("%s of strap %" PRIu32 ": number %" PRIu64 ", place %" PRIu64
           ", kind %" PRIu64 ", fields",
           what, value, answer[0], answer[1], answer[2]);
    for (i = 3; i < 9; i++)
        printf(" %" PRIu64, answer[i]);
    printf("\n");
}

/* A strap value through each strap call; it is compared with 160. */
static void strap(uint32_t value)
{
    uint64_t decoded[9];
    uint64_t answer[3];

    tuneharbor_strap_short(value, decoded);
    print_strap("short entry", value, decoded);
    tuneharbor_strap(value, true, decoded);
    print_strap("strict manner", value, decoded);
    tuneharbor_strap(value, false, decoded);
    print_strap("lenient manner", value, decoded);
    tuneharbor_strap_same(160, value, answer);
    printf("straps 160 and %" PRIu32 ": number %" PRIu64 ", place %" PRIu64
           ", same %" PRIu64 "\n",
           value, answer[0], answer[1], answer[2]);
    tuneharbor_strap_label(value, answer);
    printf("label of strap %" PRIu32 ": number %" PRIu64 ", place %" PRIu64
           ", label %" PRIu64 "\n",
           value, answer[0], answer[1], answer[2]);
}

int main(void)
{
    uint64_t answer[3];
    uint8_t output[32] = {0};
    uint8_t padded[20];
    uint8_t memory[16] = {0};
    size_t length;

    tuneharbor_map(map, sizeof map, answer);
    printf("map: number %" PRIu64 ", place %" PRIu64 ", sum %" PRIu64 "\n",
           answer[0], answer[1], answer[2]);

    judge("judge P", table_p, sizeof table_p, false);
    judge("judge Q", table_q, sizeof table_q, false);
    load("load P", table_p, sizeof table_p, false);

    length = join("join P and Q", table_p, sizeof table_p, table_q,
                  sizeof table_q, false, output);
    load("load P and Q", output, length, false);

    length = join("join Q and P", table_q, sizeof table_q, table_p,
                  sizeof table_p, false, output);
    load("load Q and P", output, length, false);

    /* A pad may hold anything: the answers are P's, and the join keeps the pad. */
    memcpy(padded, table_p, sizeof padded);
    padded[15] = 0x01;
    judge("judge P with pad byte 01", padded, sizeof padded, false);
    join("join Q and P with pad byte 01", table_q, sizeof table_q, padded,
         sizeof padded, false, output);
    load("load P with pad byte 01", padded, sizeof padded, false);

    /* But it has to be there: without it and the zero word P is cut short. */
    judge("judge P cut before its pad", table_p, 15, false);
    join("join Q and P cut before its pad", table_q, sizeof table_q, table_p,
         15, false, output);
    print_bytes("output as it was", output, sizeof output);
    load("load P cut before its pad", table_p, 15, false);

    /* The low byte first: the same answers and memory, and the join in that
     * order too. In the other order a size word counts more bytes than follow. */
    judge("judge P low first", low_p, sizeof low_p, true);
    load("load P low first", low_p, sizeof low_p, true);
    length = join("join P and Q low first", low_p, sizeof low_p, low_q,
                  sizeof low_q, true, output);
    load("load P and Q low first", output, length, true);
    judge("judge P low first as high first", low_p, sizeof low_p, false);
    judge("judge P as low first", table_p, sizeof table_p, true);
    join("join P with Q low first, as high first", table_p, sizeof table_p, low_q,
         sizeof low_q, false, output);

    /* Where each address takes one write: P and Q both store 0x00800004, which
     * two loads may and one may not. */
    tuneharbor_map(map_once, sizeof map_once, answer);
    printf("map of kind 3: number %" PRIu64 ", place %" PRIu64 ", sum %" PRIu64 "\n",
           answer[0], answer[1], answer[2]);
    load_once("load P, one write", table_p, sizeof table_p, memory);
    load_once("load Q after P, one write", table_q, sizeof table_q, memory);
    length = join("join Q and P once more", table_q, sizeof table_q, table_p,
                  sizeof table_p, false, output);
    judge_once("judge Q and P, one write", output, length);
    load_once("load Q and P, one write", output, length, memory);

    /* EMIF16 with wait; and the same with reserved bit 8 one, which is refused
     * unless lenient is named. The comparison and the label name it. */
    strap(160);
    strap(416);
    return 0;
}
