/* Says what stands at an address in two boot tables, an older and a newer file.
 *
 *   (cd crates/tuneharbor && rt lib) && mkdir -p target
 *   cc -std=c99 -Wall -Wextra -Werror -Iinclude examples/find.c crates/tuneharbor/out/libtuneharbor.a -o target/find
 *   target/find OLDER NEWER ADDRESS [low]
 *
 * ADDRESS is one to eight hexadecimal digits, without 0x; low says that the
 * header words have the low byte first. One line is printed: which table covers
 * the address, the offset of its byte in that file, and the bytes from there to
 * the end of the section's data, at most 16 of them and how many more there are;
 * or that neither table covers it; or the refusal. The exit status is 0 where a
 * table covers it, 1 where neither does, 2 after a refusal, and 3 where the
 * program was called otherwise, a file cannot be read or the line not printed. */
#include <inttypes.h>
#include <stdio.h>
#include <stdlib.h>
#include <string.h>

#include "tuneharbor.h"

/* A file is read up to one byte more than a table may have, which is refused. */
enum { ROOM = 16777216 + 1, SHOWN = 16 };

static uint8_t older[ROOM], newer[ROOM];
static const char *const names[] = {"neither", "older", "newer"};

/* Reads a file, and says whether that went well. */
static int read_table(const char *path, uint8_t *table, size_t *length)
{
    FILE *file = fopen(path, "rb");
    int well;

    if (file == NULL) {
        perror(path);
        return 0;
    }
    *length = fread(table, 1, ROOM, file);
    well = !ferror(file);
    if (!well)
        perror(path);
    fclose(file);
    return well;
}

/* Reads an address of up to eight hexadecimal digits. */
static int read_address(const char *text, uint32_t *address)
{
    size_t digits = strlen(text);

    if (digits == 0 || digits > 8 ||
        strspn(text, "0123456789abcdefABCDEF") != digits)
        return 0;
    *address = (uint32_t)strtoul(text, NULL, 16);
    return 1;
}

/* Prints the line for an answer, and gives the exit status for it. */
static int report(uint32_t address, const uint64_t answer[6])
{
    const uint8_t *part = (answer[2] == 2 ? newer : older) + answer[3];
    uint64_t i;

    if (answer[0] != 0) {
        printf("refused %" PRIu64 " at %" PRIu64 " of %s\n", answer[0],
               answer[1], names[answer[2]]);
        return 2;
    }
    printf("%08" PRIx32 " %s", address, names[answer[2]]);
    if (answer[2] == 0) {
        printf("\n");
        return 1;
    }
    printf(" %" PRIu64 ":", answer[3]);
    for (i = 0; i < answer[4] && i < SHOWN; i++)
        printf(" %02x", part[i]);
    if (i < answer[4])
        printf(" and %" PRIu64 " more", answer[4] - i);
    printf("\n");
    return 0;
}

int main(int argc, char **argv)
{
    size_t older_len, newer_len;
    uint64_t answer[6];
    uint32_t address;
    int status;
    bool low_first = argc == 5 && strcmp(argv[4], "low") == 0;

    if ((argc != 4 && !low_first) || !read_address(argv[3], &address)) {
        fprintf(stderr, "usage: find OLDER NEWER ADDRESS [low]\n");
        return 3;
    }
    if (!read_table(argv[1], older, &older_len) ||
        !read_table(argv[2], newer, &newer_len))
        return 3;

    tuneharbor_find(older, older_len, newer, newer_len, low_first, address,
                    answer);
    status = report(address, answer);
    if (fflush(stdout) != 0) {
        perror("standard output");
        return 3;
    }
    return status;
}
