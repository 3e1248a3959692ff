/* Calls each function of consensus.h once, with an answer that is known, so that a declaration that does not fit its function
 * shows. C99 and C++. */
#include <consensus.h>
#include <stdio.h>
#include <string.h>

static int failed;

static void hold(int right, const char *what) {
    if (!right) {
        fprintf(stderr, "call-each: %s\n", what);
        failed = 1;
    }
}

#define HOLD(fact) hold((fact) != 0, #fact)

/* A file with one column, A and A at 30, and the strings AC and AC. */
static const uint8_t file[] = {3, 45, 40, 0, 1, 0, 2, 0, 'A', 30, 'A', 30, 2, 2, 'A', 'C', 2, 'A', 'C'};
static const uint8_t strings[] = {2, 2, 'A', 'C', 2, 'A', 'C'};
/* A at 30, then a report. */
static const uint8_t script[] = {0, 'A', 30, 3, 0, 0};
static uint8_t out[CONSENSUS_LISTING_ROOM], again[CONSENSUS_LISTING_ROOM];

static void files(void) {
    uint64_t listing = consensus_listing(file, sizeof file, out, sizeof out);
    uint64_t list = consensus_list(file, sizeof file, again, sizeof again);
    HOLD(!CONSENSUS_IS_REFUSED(listing) && CONSENSUS_LENGTH(listing) == list && memcmp(out, again, list) == 0);
    HOLD(consensus_listing(file, sizeof file, out, 3) == CONSENSUS_BUFFER_TOO_SHORT);
    HOLD(consensus_listing(file, 2, out, sizeof out) == CONSENSUS_CUT_OFF);
    uint64_t records = consensus_records(file, sizeof file, out, sizeof out);
    HOLD(records == 256 + CONSENSUS_RECORD && out[0] == 'A' && out[4] == 2 && out[8] == 2 && out[24] == 0);
    HOLD(consensus_calls(file, sizeof file, 2) == 2 * (uint64_t)(out[0] + out[1]));
}

/* The same file, written by its parts: the settings (6 bytes), the column (6) and the strings (7). */
static void writers(void) {
    uint64_t writer = consensus_writer(), settings, column, set, finish;
    HOLD(!CONSENSUS_IS_REFUSED(writer) && consensus_written(writer) == 0 && consensus_written(13) == 0);
    memset(out, 7, 32);
    HOLD(consensus_write_column(writer, file + 6, 6, out, 32) == CONSENSUS_OUT_OF_TURN);
    HOLD(consensus_write_settings(writer, file, 6, out, 5) == CONSENSUS_NO_ROOM_FOR_PART && out[0] == 7);
    settings = consensus_write_settings(writer, file, 6, out, 32);
    HOLD(!CONSENSUS_IS_REFUSED(settings) && consensus_written(settings) == 6);
    HOLD(consensus_write_column(settings, file + 6, 5, out, 32) == CONSENSUS_CUT_OFF && out[6] == 7);
    column = consensus_write_column(settings, file + 6, 6, out, 32);
    set = consensus_write_strings(column, file + 12, 7, out, 32);
    HOLD(consensus_write_finish(column) == CONSENSUS_OUT_OF_TURN);
    finish = consensus_write_finish(set);
    HOLD(!CONSENSUS_IS_REFUSED(finish) && consensus_written(finish) == sizeof file);
    HOLD(memcmp(out, file, sizeof file) == 0 && out[sizeof file] == 7);
    HOLD(consensus_write_finish(finish) == CONSENSUS_OUT_OF_TURN && consensus_write_finish(0) == CONSENSUS_OUT_OF_TURN);
}

static void errors(void) {
    HOLD(consensus_error_entry(0) == CONSENSUS_ERROR_ONE && consensus_error_entry(94) == 112057 && consensus_error_entry(255) == 0);
    HOLD(consensus_error_sum(file + 8, 4) == 2 * consensus_error_entry(30) && consensus_error_sum(file + 8, 3) == 281474976710);
    HOLD(consensus_error_sums(file, sizeof file, out, CONSENSUS_ERROR_SUMS_ROOM) == 13 && memcmp(out, "562949953420\n", 13) == 0);
    HOLD(consensus_error_sums(file, 2, out, 10) == 10 && memcmp(out, "refused 2\n", 10) == 0);
    HOLD(consensus_error_sums(file, sizeof file, out, 12) == 0);
}

static void umis(void) {
    HOLD(consensus_is_dna_base('n') == 1 && consensus_is_dna_base('-') == 0 && consensus_is_dna_base(0xC1) == 0);
    uint64_t reply = consensus_umi(CONSENSUS_CONSENSUS, strings, sizeof strings, out, sizeof out);
    HOLD(CONSENSUS_UMI_LENGTH(reply) == 2 && !CONSENSUS_UMI_HAD_ERRORS(reply) && memcmp(out, "AC", 2) == 0);
    HOLD(!CONSENSUS_UMI_HAD_ERRORS_B(reply));
    HOLD(consensus_umi_caller(90, 90, 20, CONSENSUS_CONSENSUS, strings, sizeof strings, out, CONSENSUS_UMI_CALLER_ROOM) == reply);
    uint8_t sets[4 + sizeof strings] = {sizeof strings};
    memcpy(sets + 4, strings, sizeof strings);
    HOLD(consensus_umi_sets(90, 90, 20, CONSENSUS_CONSENSUS, sets, sizeof sets, out, sizeof out) == 8 + 2 + CONSENSUS_STATE);
}

static void builders(void) {
    uint64_t n = consensus_history(45, 40, CONSENSUS_FGBIO_COMPAT, script, sizeof script, out, sizeof out);
    HOLD(n == CONSENSUS_REPORT && out[88] == 'A');
    HOLD(consensus_history_by_value(45, 40, 0, script, sizeof script, again, sizeof again) == n && memcmp(out, again, n) == 0);
    HOLD(consensus_history_lent(45, 40, 0, script, sizeof script, again, sizeof again) == n && memcmp(out, again, n) == 0);
    HOLD(consensus_history_times(45, 40, 0, script, sizeof script, 1) > 0);
    uint8_t state[CONSENSUS_STATE];
    memcpy(state, out, sizeof state);
    HOLD(consensus_builder(45, 40, 0, state, sizeof state, script + 3, 3, again, sizeof again) == n && memcmp(out, again, 90) == 0);
    HOLD(consensus_observations(state, sizeof state, out, sizeof out) == CONSENSUS_OBSERVATIONS_ROOM && out[0] == 1);
    HOLD(consensus_tables(45, 40, out, sizeof out) == CONSENSUS_TABLES_ROOM);
}

static void numbers(void) {
    const double two[] = {-1.0, -1.0};
    HOLD(consensus_ln_prob_to_phred(consensus_phred_to_ln_error_prob(30)) == 30);
    HOLD(consensus_phred_to_ln_correct_prob(30) < 0 && consensus_log1pexp(0.0) > 0.69 && consensus_ln_one_minus_exp(-1.0) < 0);
    HOLD(consensus_ln_a_minus_b(-1.0, -2.0) < -1.0 && consensus_ln_error_prob_two_trials(-3.0, -3.0) > -3.0);
    HOLD(consensus_ln_sum_exp(-1.0, -1.0) == consensus_ln_sum_exp_array(two, 2));
    HOLD(consensus_ln_normalize(-1.0, -0.5) == -0.5 && consensus_ln_not(-1.0) < 0);
    HOLD(consensus_exp(0.0) == 1.0 && consensus_ln(1.0) == 0.0 && consensus_ln_1p(0.0) == 0.0 && consensus_exp_m1(0.0) == 0.0);
}

int main(void) {
    files();
    writers();
    errors();
    umis();
    builders();
    numbers();
    return failed;
}
