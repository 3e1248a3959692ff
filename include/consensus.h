/* consensus.h: the functions of libconsensus, for C99 and C++.
 *
 * Every function is proved to meet the contract above it (docs/PROOFS.md, 'What C and Rust link'). It returns for every argument,
 * reads only its inputs, writes only into OUT or FILE, keeps nothing between calls and takes no lock, so any number of threads may call
 * it. The caller must ensure, without any check here, that
 *
 *   - a pointer points to at least LENGTH elements; where LENGTH is 0 it may be any pointer except NULL;
 *   - OUT overlaps no input, and nothing else writes to either while the call runs;
 *   - the floating point unit rounds to nearest and keeps subnormal numbers, as it does when a program starts;
 *   - 64 KiB of stack are free (the most that was measured is 34 KB, in consensus_records);
 *   - the platform is x86-64 with the System V calling convention (Linux).
 *
 * An answer that does not fit OUT is not written at all. Bytes of OUT behind an answer are unchanged. Numbers in answers have
 * their low byte first. */
#ifndef CONSENSUS_H
#define CONSENSUS_H

#include <stddef.h>
#include <stdint.h>

#ifdef __cplusplus
extern "C" {
#endif

/* The conditions by which a file or a string set is refused (docs/FORMAT.md, 'What is refused'). */
enum consensus_refusal {
    CONSENSUS_TOO_LONG = 1,          /* more than 65,536 bytes */
    CONSENSUS_CUT_OFF = 2,           /* truncated, or trailing bytes */
    CONSENSUS_BAD_SETTINGS = 3,      /* not three settings, or a tie rule above 1 */
    CONSENSUS_ABSENT_QUALITY = 4,    /* a quality of 255 */
    CONSENSUS_NO_STRINGS = 5,
    CONSENSUS_LENGTHS_DIFFER = 6,
    CONSENSUS_NOT_ASCII = 7,         /* a byte of 128 or more */
    CONSENSUS_UNLIKE_FIRST = 8,      /* a non-DNA byte that differs from the first string's */
    CONSENSUS_MIXED = 9,             /* DNA and non-DNA in one column */
    CONSENSUS_BUFFER_TOO_SHORT = 10,
    CONSENSUS_FULL_BUILDER = 11,     /* a base, where 4,294,967,295 are already counted */
    CONSENSUS_NO_ROOM_FOR_PART = 12, /* a part of a file that is written, where the buffer ends before it */
    CONSENSUS_OUT_OF_TURN = 13       /* a step of writing out of turn, or by a number that is no writer's */
};

/* The tie rules, as files and scripts write them. */
enum consensus_tie_rule { CONSENSUS_FGBIO_COMPAT = 0, CONSENSUS_ULP_RELATIVE = 1 };

/* For a reply that is the number of a refusal, below 256, or else a writer or 256 + a length. */
#define CONSENSUS_IS_REFUSED(reply) ((reply) < 256)
#define CONSENSUS_LENGTH(reply) ((reply) - 256)

/* ---- column files ------------------------------------------------------------------------------------------------------ */

/* A buffer of this size holds every listing. */
#define CONSENSUS_LISTING_ROOM 2400000

/* The listing of a column file (docs/FORMAT.md) as text in OUT. Reply: below 256 the number of the refusal, 10 where OUT is too
 * short; else 256 + the text's length. The text does not end with a 0. */
uint64_t consensus_listing(const uint8_t *file, size_t file_length, uint8_t *out, size_t out_length);

/* The same as the program `listing` prints it: a refused file gives the text "refused N\n". Reply: the text's length, or 0 where
 * OUT is too short. */
uint64_t consensus_list(const uint8_t *file, size_t file_length, uint8_t *out, size_t out_length);

/* The same as numbers, CONSENSUS_RECORD bytes for each column: base, quality, two zeros, then depth, the counts of A, C, G and T,
 * and the number of ignored observations, in 4 bytes each. Depth is the sum of the four counts, as in the listing: ignored
 * observations, such as N, are not in it. Replies as consensus_listing does. A buffer of CONSENSUS_RECORDS_ROOM holds the records
 * of every file. */
#define CONSENSUS_RECORD 28
#define CONSENSUS_RECORDS_ROOM (28 * 32764)
uint64_t consensus_records(const uint8_t *file, size_t file_length, uint8_t *out, size_t out_length);

/* ---- column files written by parts ------------------------------------------------------------------------------------- */

/* A buffer of this size holds every column file. */
#define CONSENSUS_LONGEST_FILE 65536

/* A file is written by steps: the settings with the number of columns that are to come, that many columns, the string set, a
 * finish. The writer is a number that the caller keeps and does not take apart: consensus_writer() is a new one. Each step gets
 * the number and the buffer FILE as the step before left them. Its reply is below 256 the number of the refusal, and the caller
 * keeps the number that it had; else it is the writer afterwards. A refusal leaves FILE as it was, and the step may be tried again
 * with another part, or in a larger buffer that begins with the same bytes. Otherwise PART is put behind the bytes already written,
 * and no other byte of FILE changes.
 *
 * Refused, in this order: 13 where it is not the step's turn, or the number is no writer's; 1 where the bytes already written and
 * the part's are more than 65,536; 2 where the part's bytes are no such part, or more than one; 3 for other than three settings or
 * a tie rule above 1; 4 for a quality of 255; 12 where FILE ends before the part does. Strings are not tested by 7 to 9. */
uint64_t consensus_writer(void);

/* PART: the count byte 3, pre-UMI rate, post-UMI rate and tie rule, and the number of columns in two bytes. */
uint64_t consensus_write_settings(uint64_t writer, const uint8_t *part, size_t part_length, uint8_t *file, size_t file_length);

/* PART: the number of observations in two bytes, and then base and quality of each. */
uint64_t consensus_write_column(uint64_t writer, const uint8_t *part, size_t part_length, uint8_t *file, size_t file_length);

/* PART: a string set, a count byte and each string after its length byte. */
uint64_t consensus_write_strings(uint64_t writer, const uint8_t *part, size_t part_length, uint8_t *file, size_t file_length);

/* After the string set: FILE then begins with a whole column file, which consensus_list and the others read as the settings,
 * columns and strings of the accepted steps. */
uint64_t consensus_write_finish(uint64_t writer);

/* How many bytes of FILE are written, after the finish the file's length; 0 for a number that is no writer's. */
uint64_t consensus_written(uint64_t writer);

/* ---- expected errors --------------------------------------------------------------------------------------------------- */

/* The error probability of a quality byte, 10^(-q/10), in units of 2^-48 and rounded down: 2^48 for 0, 0 from 145 on. The byte is
 * taken as it is: 94 is not 93. */
#define CONSENSUS_ERROR_ONE 281474976710656
uint64_t consensus_error_entry(uint8_t quality);

/* The sum of these over observations, base and quality in turn; every quality counts, whatever the base, and a byte left over is
 * no observation. Up to 65,535 observations the sum, and the sum plus their number, are exact, and the exact probabilities times
 * 2^48 add up to a number between the two; for more of them the sum is modulo 2^64. */
uint64_t consensus_error_sum(const uint8_t *observations, size_t observations_length);

/* The error sums of a column file as the program `error_sums` prints them: for each column a line with its sum, in file order; a
 * file that is refused by conditions 1 to 4 gives the text "refused N\n". Conditions 7 to 9 are not tested. Reply: the text's
 * length; 0 where OUT is too short, and for a file without columns, whose text is empty. A buffer of CONSENSUS_ERROR_SUMS_ROOM
 * holds every text. */
#define CONSENSUS_ERROR_SUMS_ROOM 700000
uint64_t consensus_error_sums(const uint8_t *file, size_t file_length, uint8_t *out, size_t out_length);

/* ---- UMI strings ------------------------------------------------------------------------------------------------------- */

/* Whether a byte counts as DNA in a UMI string, as conditions 8 and 9 take it: 1 for A, C, G, T and N in either case, 0 for every
 * other byte. */
uint8_t consensus_is_dna_base(uint8_t b);

/* Which function of simple_umi.rs. */
enum consensus_umi_function {
    CONSENSUS_CALL_CONSENSUS = 0,
    CONSENSUS_CONSENSUS = 1,
    CONSENSUS_UMIS = 2,
    CONSENSUS_DUPLEX = 3
};

/* Buffers of these sizes hold every answer. */
#define CONSENSUS_UMI_ROOM 255
#define CONSENSUS_UMI_CALLER_ROOM (255 + 80)

/* Take a reply of 256 or more apart: the string's length; whether a string differs from it (for CONSENSUS_DUPLEX: /A's flag);
 * /B's flag. */
#define CONSENSUS_UMI_LENGTH(reply) (((reply) - 256) >> 2)
#define CONSENSUS_UMI_HAD_ERRORS(reply) ((int)((reply) & 1))
#define CONSENSUS_UMI_HAD_ERRORS_B(reply) ((int)((reply) >> 1 & 1))

/* The consensus of a string set (a count byte; each string after its length byte) at the default rates 90 and 90 and quality
 * 20. Reply: below 256 the number of the refusal, 10 where OUT is too short, 0 where WHICH is no function; else OUT has the
 * string, and the macros above take the reply apart. */
uint64_t consensus_umi(uint8_t which, const uint8_t *set, size_t set_length, uint8_t *out, size_t out_length);

/* The same by a new caller with these rates and this quality; WHICH is 0, 1 or 3. After the string OUT gets the 80 bytes of the
 * caller's builder afterwards, in the form of the first 80 bytes of a report (below). */
uint64_t consensus_umi_caller(uint8_t pre, uint8_t post, uint8_t quality, uint8_t which, const uint8_t *set, size_t set_length,
                              uint8_t *out, size_t out_length);

/* Several sets in turn by one caller. SETS holds them one after another, each after its length in four bytes. For each set OUT
 * gets the reply of consensus_umi_caller in eight bytes, the string (none where refused) and the builder's 80 bytes. Reply: the
 * number of bytes; 0, and nothing written, where a length reaches past the end, OUT is too short or WHICH is not 0, 1 or 3. */
uint64_t consensus_umi_sets(uint8_t pre, uint8_t post, uint8_t quality, uint8_t which, const uint8_t *sets, size_t sets_length,
                            uint8_t *out, size_t out_length);

/* ---- levels, logarithms and the elementary functions (phred.rs) -------------------------------------------------------- */

double consensus_phred_to_ln_error_prob(uint8_t q);
double consensus_phred_to_ln_correct_prob(uint8_t q);
uint8_t consensus_ln_prob_to_phred(double p);
double consensus_log1pexp(double x);
double consensus_ln_one_minus_exp(double x);
double consensus_ln_a_minus_b(double a, double b); /* NaN where b is the larger */
double consensus_ln_error_prob_two_trials(double p, double q);
double consensus_ln_sum_exp(double a, double b);
double consensus_ln_sum_exp_array(const double *values, size_t count);
double consensus_ln_normalize(double value, double norm);
double consensus_ln_not(double x);

double consensus_exp(double x);
double consensus_ln(double x);
double consensus_ln_1p(double x);
double consensus_exp_m1(double x);

/* ---- builders (base_builder.rs) ---------------------------------------------------------------------------------------- */

/* A script is a list of events of three bytes: 0 base quality: add; 1 _ _: reset; 2 rule _: set the tie rule; 3 _ _: report.
 *
 * A report has 91 bytes: four likelihoods and four compensations (bit patterns of 8 bytes, every NaN as 0x7ff8000000000000); four
 * counts of 4 bytes; the unanimous shortcut (1 if it replies, else 0; base; quality); the multibase shortcut (the same); call_full
 * (base, quality); call (base, quality); the number of events refused so far, at most 255. */
#define CONSENSUS_REPORT 91
#define CONSENSUS_STATE 80

/* The reports that a script asks for, on a new builder at these rates, under this rule. Reply: the number of bytes; 0, and
 * nothing written, where OUT is too short, the rule is above 1 or SCRIPT is not a script. */
uint64_t consensus_history(uint8_t pre, uint8_t post, uint8_t rule, const uint8_t *script, size_t script_length, uint8_t *out,
                           size_t out_length);

/* The same through the functions that take the builder and its tables by value, and through those that borrow the builder. */
uint64_t consensus_history_by_value(uint8_t pre, uint8_t post, uint8_t rule, const uint8_t *script, size_t script_length,
                                    uint8_t *out, size_t out_length);
uint64_t consensus_history_lent(uint8_t pre, uint8_t post, uint8_t rule, const uint8_t *script, size_t script_length,
                                uint8_t *out, size_t out_length);

/* The same from a builder of 80 given bytes: the first 80 of a report. */
uint64_t consensus_builder(uint8_t pre, uint8_t post, uint8_t rule, const uint8_t *state, size_t state_length,
                           const uint8_t *script, size_t script_length, uint8_t *out, size_t out_length);

/* For a builder of 80 given bytes: contributions, observations_for_base of the bytes 0 to 255, the counts of A, C, G and T, in 4
 * bytes each. Reply: 1,044; or 0, and nothing written, where the state is not 80 bytes or OUT is too short. */
#define CONSENSUS_OBSERVATIONS_ROOM 1044
uint64_t consensus_observations(const uint8_t *state, size_t state_length, uint8_t *out, size_t out_length);

/* The tables of two rates: correct, error_per_alt, thresholds, cerr_min, each as 94 bit patterns of 8 bytes, then cap in 8 bytes.
 * Reply: 3,016; or 0, and nothing written, where OUT is too short. */
#define CONSENSUS_TABLES_ROOM 3016
uint64_t consensus_tables(uint8_t pre, uint8_t post, uint8_t *out, size_t out_length);

/* ---- for timing -------------------------------------------------------------------------------------------------------- */

/* Calls every column of a file TIMES times with tables built once. Reply: the sum of all bases and qualities, modulo 2^64; 0 for a
 * file that is refused by conditions 1 to 4. Its strings are not tested. */
uint64_t consensus_calls(const uint8_t *file, size_t file_length, uint32_t times);

/* Runs a script TIMES times, each time on a new builder. In such a script event 3 is call and event 4 is call_full. Reply: the sum
 * of their bases and qualities, modulo 2^64; 0 where the rule is above 1 or SCRIPT is not such a script. */
uint64_t consensus_history_times(uint8_t pre, uint8_t post, uint8_t rule, const uint8_t *script, size_t script_length,
                                 uint32_t times);

#ifdef __cplusplus
}
#endif
#endif
