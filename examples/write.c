/* Writes tables P and Q of document 01 from lists of sections, joins them, and
 * puts the join on standard output, where a lister can read it.
 *
 *   (cd crates/tuneharbor && rt lib) && (cd crates/lister && rt run <stdin) && mkdir -p target
 *   cc -std=c99 -Wall -Wextra -Werror -Iinclude examples/write.c crates/tuneharbor/out/libtuneharbor.a -o target/write
 *   target/write | crates/lister/out/lister
 *
 * The lister must print examples/write.expected. With the argument p or q, that
 * table alone is put on standard output. A refusal is reported on standard
 * error, and the exit status is then not 0. */
#include <inttypes.h>
#include <stdio.h>
#include <string.h>

#include "tuneharbor.h"

/* The data of both tables: three bytes of P and one of Q. */
static const uint8_t data[] = {0xA1, 0xA2, 0xA3, 0xB7};

/* Table P: its entry, and of each section address, start in the data, size. */
static const uint32_t entry_p = 0x00800000;
static const tuneharbor_section list_p[] = {{0x00800002, 0, 3}};

/* Table Q. */
static const uint32_t entry_q = 0x00800004;
static const tuneharbor_section list_q[] = {{0x00800004, 3, 1}};

/* The byte order of the tables: true for the low byte first. */
static const bool low_first = false;

/* Room for the tables. */
static uint8_t table_p[256], table_q[256], joined[512];

#define COUNT(list) (sizeof(list) / sizeof(list)[0])

static void report(const char *what, const uint64_t answer[])
{
    fprintf(stderr, "%s: refusal %" PRIu64 ", place %" PRIu64 "\n", what,
            answer[0], answer[1]);
}

/* Writes a table, and answers its length, or 0 after a refusal. */
static size_t write_table(const char *what, uint32_t entry,
                          const tuneharbor_section *sections,
                          size_t sections_len, uint8_t *output,
                          size_t output_len)
{
    uint64_t answer[4];

    tuneharbor_write(entry, sections, sections_len, data, sizeof data,
                     low_first, output, output_len, answer);
    if (answer[0] != 0)
        report(what, answer);
    return (size_t)answer[2];
}

/* Puts a table on standard output, and answers the exit status. */
static int put(const uint8_t *table, size_t length)
{
    if (fwrite(table, 1, length, stdout) != length || fflush(stdout) != 0) {
        fprintf(stderr, "the table cannot be put on standard output\n");
        return 1;
    }
    return 0;
}

int main(int argc, char **argv)
{
    const char *which = argc > 1 ? argv[1] : "join";
    uint64_t answer[5];
    size_t length_p, length_q;

    length_p = write_table("table P", entry_p, list_p, COUNT(list_p), table_p,
                           sizeof table_p);
    length_q = write_table("table Q", entry_q, list_q, COUNT(list_q), table_q,
                           sizeof table_q);
    if (length_p == 0 || length_q == 0)
        return 1;
    if (strcmp(which, "p") == 0)
        return put(table_p, length_p);
    if (strcmp(which, "q") == 0)
        return put(table_q, length_q);

    tuneharbor_join(table_p, length_p, table_q, length_q, low_first, joined,
                    sizeof joined, answer);
    if (answer[0] != 0) {
        report("join of P and Q", answer);
        return 1;
    }
    return put(joined, (size_t)answer[3]);
}
