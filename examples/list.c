/* Lists a column file: `list FILE`. Status 0: listed; 1: refused, with the number on standard error; 2: a file that can't be read, or a
 * text that can't be written.
 *
 *     cc list.c $(pkg-config --cflags --libs consensus) -o list */
#include <consensus.h>
#include <stdio.h>

/* One byte more than a file may have, so that a longer one is seen to be. */
static uint8_t file[65537];
static uint8_t text[CONSENSUS_LISTING_ROOM];

int main(int argc, char **argv) {
    if (argc != 2) {
        fprintf(stderr, "usage: list FILE\n");
        return 2;
    }
    FILE *input = fopen(argv[1], "rb");
    if (!input) {
        perror(argv[1]);
        return 2;
    }
    size_t length = fread(file, 1, sizeof file, input);
    if (ferror(input)) {
        perror(argv[1]);
        return 2;
    }
    fclose(input);

    uint64_t reply = consensus_listing(file, length, text, sizeof text);
    if (CONSENSUS_IS_REFUSED(reply)) {
        fprintf(stderr, "%s: refused by condition %d\n", argv[1], (int)reply);
        return 1;
    }
    if (fwrite(text, 1, CONSENSUS_LENGTH(reply), stdout) != CONSENSUS_LENGTH(reply) || fflush(stdout)) {
        perror("standard output");
        return 2;
    }
    return 0;
}
