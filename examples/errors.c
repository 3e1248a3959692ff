/* The expected errors of a read, from its qualities as letters, ! for 0 and I for 40:
 *
 *     errors QUALITIES
 *
 * Prints how many qualities there are, and what their error probabilities add up to. */
#include <consensus.h>
#include <inttypes.h>
#include <stdio.h>
#include <string.h>

/* Up to so many qualities both bounds are exact. */
enum { MOST = 65535 };

int main(int count, char **words) {
    static uint8_t observations[2 * MOST];
    if (count != 2 || strlen(words[1]) > MOST) {
        fprintf(stderr, "usage: errors QUALITIES (at most %d letters)\n", MOST);
        return 2;
    }
    size_t many = strlen(words[1]);
    for (size_t i = 0; i < many; i++) {
        int letter = (unsigned char)words[1][i];
        if (letter < 33) {
            fprintf(stderr, "errors: letter %zu is no quality\n", i + 1);
            return 2;
        }
        observations[2 * i] = 'N'; /* the base does not matter */
        observations[2 * i + 1] = (uint8_t)(letter - 33);
    }
    uint64_t sum = consensus_error_sum(observations, 2 * many);
    printf("%zu qualities: %.9f expected errors; the exact sum is from %" PRIu64 " to %" PRIu64 " units of 2^-48\n", many,
           (double)sum / CONSENSUS_ERROR_ONE, sum, sum + many);
    return 0;
}
