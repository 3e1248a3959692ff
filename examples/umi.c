/* The consensus of UMI strings: `umi ACGT ACGT ACGA` prints the string and whether one differs from it.
 *
 *     cc umi.c $(pkg-config --cflags --libs consensus) -o umi */
#include <consensus.h>
#include <stdio.h>
#include <string.h>

int main(int argc, char **argv) {
    /* A string set: a count byte, then each string after its length byte. */
    static uint8_t set[1 + 255 * 256];
    size_t length = 1;
    if (argc > 256) {
        fprintf(stderr, "umi: at most 255 strings\n");
        return 2;
    }
    set[0] = (uint8_t)(argc - 1);
    for (int i = 1; i < argc; i++) {
        size_t n = strlen(argv[i]);
        if (n > 255) {
            fprintf(stderr, "umi: a string has at most 255 bytes\n");
            return 2;
        }
        set[length++] = (uint8_t)n;
        memcpy(set + length, argv[i], n);
        length += n;
    }

    uint8_t text[CONSENSUS_UMI_ROOM];
    uint64_t reply = consensus_umi(CONSENSUS_CONSENSUS, set, length, text, sizeof text);
    if (CONSENSUS_IS_REFUSED(reply)) {
        fprintf(stderr, "umi: refused by condition %d\n", (int)reply);
        /* By 7, 8 or 9: the cause is among the bytes that are not DNA. */
        for (int i = 1; i < argc; i++)
            for (size_t k = 0; argv[i][k]; k++)
                if (!consensus_is_dna_base((uint8_t)argv[i][k]))
                    fprintf(stderr, "umi: not DNA: string %d, byte %zu\n", i, k + 1);
        return 1;
    }
    printf("%.*s %s\n", (int)CONSENSUS_UMI_LENGTH(reply), (const char *)text, CONSENSUS_UMI_HAD_ERRORS(reply) ? "true" : "false");
    return 0;
}
