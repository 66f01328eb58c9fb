/* Rescues a boot table that is cut or damaged.
 *
 *   (cd crates/tuneharbor && rt lib) && mkdir -p target
 *   cc -std=c99 -Wall -Wextra -Werror -Iinclude examples/rescue.c crates/tuneharbor/out/libtuneharbor.a -o target/rescue
 *   target/rescue [low] <CUT >RESCUED
 *
 * low says that the header words have the low byte first. The table of the
 * entry and the whole sections is put on standard output, and on standard error
 * one line: how many sections were kept, how many bytes were not used, and
 * whether the zero word was added or present; or the refusal, and then nothing
 * is put on standard output. The exit status is 0 where the table came back as
 * it was, 1 where it did not, 2 after a refusal, and 3 where the program was
 * called otherwise, or the table cannot be read or written. */
#include <inttypes.h>
#include <stdio.h>
#include <string.h>

#include "tuneharbor.h"

/* A table is read up to one byte more than it may have, which is refused; the
 * output is four bytes longer, and so has room for every result. */
enum { ROOM = 16777216 + 1 };

static uint8_t table[ROOM], rescued[ROOM + 4];

int main(int argc, char **argv)
{
    size_t length;
    uint64_t answer[6];
    bool low_first = argc == 2 && strcmp(argv[1], "low") == 0;

    if (argc != 1 && !low_first) {
        fprintf(stderr, "usage: rescue [low] <CUT >RESCUED\n");
        return 3;
    }
    length = fread(table, 1, sizeof table, stdin);
    if (ferror(stdin)) {
        perror("rescue");
        return 3;
    }
    tuneharbor_rescue(table, length, low_first, rescued, sizeof rescued, answer);
    if (answer[0] != 0) {
        fprintf(stderr, "refused %" PRIu64 " at %" PRIu64 "\n", answer[0], answer[1]);
        return 2;
    }
    length = (size_t)answer[2];
    if (fwrite(rescued, 1, length, stdout) != length || fflush(stdout) != 0) {
        perror("rescue");
        return 3;
    }
    fprintf(stderr, "kept %" PRIu64 ", not used %" PRIu64 ", zero word %s\n",
            answer[3], answer[4], answer[5] ? "added" : "present");
    return answer[4] != 0 || answer[5] != 0;
}
