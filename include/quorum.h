/*
 * quorum.h: which bins do at least t of k runs hold?
 *
 * A bin is a number from 1 to 4294967295. A run is a rising list of bins, and
 * perhaps zeros before them. All runs lie one after another in `numbers`;
 * `ends[i]` is the place after the last number of run i, so `ends_len` is the
 * number of runs. Ends are ends and not offsets from 0: runs of 3, 4 and 2 numbers
 * have ends 3, 7, 9, and not 0, 3, 7. A run may be empty. Bit i of a 64-bit mask
 * names run i, bit 0 being the lowest.
 *
 * A 0 at the start of a run is the mark of a hit that could not be mapped, and a
 * run may begin with any number of them: {0, 0, 5} is read as {5}, and a run of
 * zeros alone as an empty one. They are no bins: they are passed over without a
 * probe, are never answers, and no certificate speaks of them. They are among the
 * `numbers`, and count in ends, in places and towards QUORUM_MAX_NUMBERS. A 0 after
 * another number of its run does not rise and is refusal 4. Beside its cost below, a
 * call reads some 2 * log2(z) numbers of a run that begins with z zeros, one number
 * if there are none, to find where its bins begin: once, whatever the questions.
 *
 * docs/SPECIFICATION.md says whole what each call does with any input.
 *
 * Calling: every function returns for every input, reads and writes only the
 * rows it is lent, and allocates nothing. It is re-entrant and keeps no state, so
 * it may be called from several threads at once on rows that no other call
 * writes to. A pointer is aligned for its type and never null, also where its
 * length is 0: the data() of an empty C++ vector may be null and must not be
 * passed as it is. No row written to may overlap another.
 *
 * Linking: `make lib` makes target/staticlib/libquorum.a, for x86-64
 * Linux. It uses memcpy and memset of the C library and nothing else:
 *
 *    cc -Iinclude program.c -Ltarget/staticlib -lquorum
 *
 * A certificate is a row of fields, each a one-byte tag, a two-byte length and
 * a body, numbers of several bytes having their lowest byte first:
 *
 *    tag 1, length 12: an answer: value (4 bytes), mask (8) of runs that hold it
 *    tag 2, length 16: a gap: first (4), last (4), mask (8) of runs with no
 *                      number from first to last
 *
 * It is true if its parts cover QUORUM_FIRST_BIN to QUORUM_LAST_BIN in order with
 * no hole and no overlap, each answer names at least `threshold` runs, each gap
 * names at least `ends_len - threshold + 1`, and what it says of each named run
 * holds. An answer that quorum_query writes names all the runs that hold it.
 * examples/query.c has a decoder of the fields to copy.
 *
 * A question may be about some of the runs, which a mask chooses. Its
 * certificate names no other run, and the number of chosen runs takes the place
 * of `ends_len`. Run i is bit i of every mask, whichever runs are chosen.
 *
 * A question about all runs may give each a weight from 1 to QUORUM_MAX_WEIGHT, and
 * want a weight in the place of `threshold`. Then a bin is an answer if the runs
 * that hold it weigh at least that much together, and a certificate is true if each
 * answer names runs that weigh at least that much and each gap leaves out runs that
 * weigh less. Without weights each run weighs 1. Weights never come with a mask.
 *
 * Two runs may be compared without a certificate and without an allowance:
 * quorum_pair writes the bins that both hold.
 *
 * The lines that a test reached are a run too: quorum_lcov_run reads one section
 * of an LCOV tracefile.
 */
#ifndef QUORUM_H
#define QUORUM_H

#include <stddef.h>
#include <stdint.h>

#ifdef __cplusplus
extern "C" {
#endif

/** The version. While the major number is 0, a higher minor one may change calls. */
#define QUORUM_VERSION_MAJOR 0
#define QUORUM_VERSION_MINOR 9
#define QUORUM_VERSION_PATCH 0

/**
 * The limits: runs, numbers of all runs together, a run's weight (1 is the least),
 * the first and the last bin.
 */
#define QUORUM_MAX_RUNS 64
#define QUORUM_MAX_NUMBERS 1048576
#define QUORUM_MAX_WEIGHT 255
#define QUORUM_FIRST_BIN 1u
#define QUORUM_LAST_BIN 4294967295u

/**
 * Room that is always enough for n numbers, with weights or without: with so many
 * answers and certificate bytes refusals 5 and 6 never occur. (Proved:
 * `room-enough`, `weighted-room-enough`.) Many questions in one call need at most
 * this for each of them. (Proved: `many-room-enough`.) quorum_query_alone needs at
 * most so many answers for the numbers of run 0, and so many bytes for those of the
 * other runs. (Proved: `alone-room-enough`.) quorum_pair needs at most so many
 * answers for the numbers of the shorter run. (Proved: `pair-room`.)
 */
#define QUORUM_ENOUGH_ANSWERS(n) ((size_t)(n))
#define QUORUM_ENOUGH_BYTES(n) (34 * (size_t)(n) + 19)

/** The result places that q questions in one call need: two for each. */
#define QUORUM_ENOUGH_RESULTS(q) (2 * (size_t)(q))

/**
 * An allowance of probes that is always enough, with weights or without:
 * 2 * 1048576 * 21. With it, or any larger one, refusal 7 never occurs. (Proved:
 * `always-enough`, `weighted-always-enough`.) So is 2 * n * b for n numbers in all,
 * b being the binary digits of n (`numbers-enough`, `weighted-numbers-enough`). Many
 * questions in one call need at most this for each of them. (Proved:
 * `many-always-enough`.) quorum_query_alone needs at most this too. (Proved:
 * `alone-always-enough`, `alone-numbers-enough`.)
 */
#define QUORUM_ENOUGH_PROBES 44040192u

/** The fields of a certificate: their tags, and their sizes with tag and length. */
#define QUORUM_TAG_ANSWER 1
#define QUORUM_TAG_GAP 2
#define QUORUM_ANSWER_SIZE 15
#define QUORUM_GAP_SIZE 19

/**
 * The refusals. 1 to 4 are the first checks of quorum_query and quorum_check, in
 * this order; 5 to 7 arise in quorum_query, whichever its walk meets first; 8 to
 * 11 in quorum_check, at the first wrong field. quorum_probe_bound has 1 and 3.
 * (12 is the program's: a line of its input cannot be read.)
 *
 * Calls that choose runs check the mask just before the threshold:
 * quorum_check_chosen has 1, 13, 2, 3 and 4 first, in this order, then 8 to 11;
 * quorum_probe_bound_chosen has 1, 13 and 3. quorum_query_many has 1, 3, 4 and 14
 * first, then 13 and 2 for each question before the next, and only then 5 to 7.
 *
 * quorum_query_alone has 1 to 4 first, in this order, the threshold being held
 * against the number of the other runs; then 6 and 7, whichever its walk meets first,
 * and 5 after the walk.
 *
 * Calls with weights check them just before the wanted weight:
 * quorum_query_weighted and quorum_check_weighted have 1, 17, 2, 3 and 4 first, in
 * this order, then 5 to 7 as quorum_query and 8 to 11 as quorum_check.
 *
 * quorum_pair has 1, 3 and 4 first, in this order, and then 5.
 *
 * quorum_lcov_run has 15, 4 and 5 in this order for each record, and 16 at the end
 * of the file.
 */
enum {
    QUORUM_ACCEPTED = 0,
    /** No runs or more than 64; for quorum_pair, not two. Place: ends_len. */
    QUORUM_BAD_RUN_COUNT = 1,
    /**
     * The threshold is 0 or above the number of runs, or of those chosen, or for
     * quorum_query_alone of all but run 0. Place: threshold; from quorum_query_many
     * the number of runs chosen. Or the wanted weight is 0 or above the weight of all
     * runs. Place: wanted.
     */
    QUORUM_BAD_THRESHOLD = 2,
    /**
     * An end is below the one before; place: its index. Else the last end is not
     * numbers_len, or is above 1,048,576; place: ends_len.
     */
    QUORUM_BAD_ENDS = 3,
    /**
     * A number is not above the one before it in its run, the comparison starting
     * at the run's first number that is not 0. Place: its index in the numbers;
     * from quorum_lcov_run its index in the run.
     */
    QUORUM_NOT_RISING = 4,
    /**
     * An answer is due and the answer buffer is full. The place of 5 to 7 is the
     * number of parts written, from quorum_query_many those of the question that
     * was stopped; at 5 of quorum_query_alone that is all of them. From quorum_pair:
     * place: the answers written. From quorum_lcov_run: a number is due and the row
     * is full; place: the count written.
     */
    QUORUM_ANSWERS_FULL = 5,
    /** A part is due and does not fit the certificate buffer. */
    QUORUM_CERTIFICATE_FULL = 6,
    /** A probe is due and the allowance is used up. */
    QUORUM_ALLOWANCE_SPENT = 7,
    /**
     * A field is cut short, its tag is unknown or its length is not the tag's.
     * The place of 8 to 11 is the offset of the field's tag.
     */
    QUORUM_BAD_FIELD = 8,
    /**
     * A part does not begin at the next uncovered bin (the first part at 1), its
     * last is below its first, or nothing is uncovered. Or, at the end, a bin is
     * still uncovered; place: the certificate's length.
     */
    QUORUM_NOT_COVERING = 9,
    /**
     * A part names a run that does not exist or is not chosen, or too few runs. With
     * weights: the runs that an answer names weigh less than wanted, or those that
     * a gap leaves out do not.
     */
    QUORUM_BAD_MASK = 10,
    /** A named run contradicts its part. */
    QUORUM_CONTRADICTED = 11,
    /**
     * A mask that is to choose runs is 0 or names a run that does not exist.
     * Place: 0; from quorum_query_many the question's index.
     */
    QUORUM_BAD_CHOICE = 13,
    /**
     * There are not as many thresholds as masks, or fewer than two result places
     * for each question. Place: masks_len.
     */
    QUORUM_BAD_ROWS = 14,
    /**
     * A line of the section begins with DA: and goes on with anything but digits
     * for a number from 1 to 4294967295, a comma, digits, and then a comma or its
     * end. Place: the offset of the line's first byte.
     */
    QUORUM_BAD_RECORD = 15,
    /**
     * The tracefile has no such section, or the section has no end_of_record.
     * Place: file_len.
     */
    QUORUM_NO_SECTION = 16,
    /**
     * There are not as many weights as runs; place: ends_len. Else a weight is 0 or
     * above 255; place: the index of the first such.
     */
    QUORUM_BAD_WEIGHTS = 17
};

/**
 * The places in the result rows. A row that has a refusal has it first, 0 if
 * there is none, and then its place, 0 if there is none.
 */
enum {
    QUORUM_REFUSAL = 0,
    QUORUM_PLACE = 1,

    QUORUM_QUERY_ANSWERS = 2,
    QUORUM_QUERY_PARTS = 3,
    QUORUM_QUERY_BYTES = 4,
    QUORUM_QUERY_DOUBLINGS = 5,
    QUORUM_QUERY_HALVINGS = 6,
    QUORUM_QUERY_ROW = 7,

    QUORUM_MANY_QUESTION = 2,
    QUORUM_MANY_ANSWERS = 3,
    QUORUM_MANY_PARTS = 4,
    QUORUM_MANY_BYTES = 5,
    QUORUM_MANY_DOUBLINGS = 6,
    QUORUM_MANY_HALVINGS = 7,
    QUORUM_MANY_ROW = 8,

    QUORUM_CHECK_ANSWERS = 2,
    QUORUM_CHECK_PARTS = 3,
    QUORUM_CHECK_ROW = 4,

    QUORUM_PAIR_ANSWERS = 2,
    QUORUM_PAIR_ROW = 3,

    QUORUM_BETWEEN_START = 0,
    QUORUM_BETWEEN_END = 1,
    QUORUM_BETWEEN_ROW = 2,

    QUORUM_BOUND_PROBES = 2,
    QUORUM_BOUND_ROW = 3,

    QUORUM_LCOV_WRITTEN = 2,
    QUORUM_LCOV_ROW = 3
};

/**
 * Write the bins that at least `threshold` runs hold to `answers`, rising, and
 * to `certificate` the parts that show them to be all.
 *
 * `result` receives refusal and place, then the answers, parts and certificate
 * bytes written and the doubling and the halving probes made. After refusals 5 to
 * 7 the whole parts and answers written before stand; 1 to 4 write nothing, and
 * their counts are 0. Later places of both buffers are unchanged, also of an
 * accepted query.
 *
 * The probes: a search jumps ahead in its run by doubling probes, 1, 2, 4 numbers
 * and so on, and then narrows down what its last jump passed over by halving
 * probes. Moving a run on by one or two numbers takes as many doublings at most
 * and no halving, by r numbers about log2(r) of each. So many doublings to a part
 * tell of long jumps: runs that lie far apart, or of which most is passed over.
 * Many halvings tell of jumps that went too far and had to be narrowed down.
 *
 * The allowance is held against the sum of both kinds. In a run whose number of
 * bins has b binary digits (no bins have 0) that sum is at most 2 * d * b, d being
 * the number of parts of any true certificate; quorum_probe_bound() adds these up.
 * If nothing is known of d, take QUORUM_ENOUGH_PROBES. After refusal 7 the sum is
 * the allowance: the probes of the search that was cut short are among them.
 *
 * Cost: one pass over the numbers for the first checks, then the probes, and the
 * writing of the certificate, which has the fewest parts of all true ones.
 *
 * Example: the bins in two of {2, 5, 9}, {5, 7, 9, 12} and {1, 9}.
 *
 *     uint32_t numbers[] = {2, 5, 9, 5, 7, 9, 12, 1, 9}, ends[] = {3, 7, 9};
 *     uint32_t answers[QUORUM_ENOUGH_ANSWERS(9)];
 *     uint8_t certificate[QUORUM_ENOUGH_BYTES(9)];
 *     uint64_t result[QUORUM_QUERY_ROW];
 *     quorum_query(numbers, 9, ends, 3, 2, QUORUM_ENOUGH_PROBES,
 *                  answers, 9, certificate, sizeof certificate, result);
 *     // result: 0, 0, 2, 6, 106, 3, 0; answers: 5, 9
 */
void quorum_query(const uint32_t *numbers, size_t numbers_len,
                  const uint32_t *ends, size_t ends_len, uint32_t threshold,
                  uint32_t allowance, uint32_t *answers, size_t answers_len,
                  uint8_t *certificate, size_t certificate_len,
                  uint64_t result[QUORUM_QUERY_ROW]);

/**
 * Write the bins that runs hold which together weigh at least `wanted` to
 * `answers`, rising, and to `certificate` the parts that show them to be all. Run i
 * weighs weights[i], from 1 to QUORUM_MAX_WEIGHT. With all weights 1 this is
 * quorum_query, in its row and in both buffers.
 *
 * `result` receives what it does from quorum_query. Refusals 1, 17, 2, 3 and 4
 * write nothing, and their counts are 0; 5 to 7, and what stands after them, are as
 * there.
 *
 * The allowance too is as there: in a run whose number of bins has b binary digits
 * there are at most 2 * d * b probes, d being the number of parts of any certificate
 * that is true for these weights, so quorum_probe_bound() serves these questions as
 * it is, and so does QUORUM_ENOUGH_PROBES.
 *
 * Cost: as quorum_query, and in each round the weights of the runs that stand
 * lowest are added up until they are enough, and then those of the runs that hold
 * the bin so found. What the runs that have a bin left weigh, by which the walk
 * ends, is carried from round to round and not added up anew. The certificate has
 * the fewest parts of all that are true for these weights.
 *
 * Example, after the one above: the first run counts for three and a weight of three
 * is wanted, so that it is enough by itself, and all of its bins are answers.
 *
 *     uint32_t weights[] = {3, 1, 1};
 *     uint32_t weighed_answers[QUORUM_ENOUGH_ANSWERS(9)];
 *     uint8_t weighed[QUORUM_ENOUGH_BYTES(9)];
 *     uint64_t weighed_result[QUORUM_QUERY_ROW];
 *     quorum_query_weighted(numbers, 9, ends, 3, weights, 3, 3,
 *                           QUORUM_ENOUGH_PROBES, weighed_answers, 9, weighed,
 *                           sizeof weighed, weighed_result);
 *     // weighed_result: 0, 0, 3, 7, 121, 2, 0; weighed_answers: 2, 5, 9
 */
void quorum_query_weighted(const uint32_t *numbers, size_t numbers_len,
                           const uint32_t *ends, size_t ends_len,
                           const uint32_t *weights, size_t weights_len,
                           uint32_t wanted, uint32_t allowance,
                           uint32_t *answers, size_t answers_len,
                           uint8_t *certificate, size_t certificate_len,
                           uint64_t result[QUORUM_QUERY_ROW]);

/**
 * Ask many questions about the same runs: question q is which bins at least
 * `thresholds[q]` of the runs that `masks[q]` chooses hold.
 *
 * The answers of the questions follow each other in `answers`, their
 * certificates in `certificate`; each certificate is the one that the chosen runs
 * alone would give, its masks in the numbering of all runs. For each question q
 * that is finished, results[2 * q] receives the answers and results[2 * q + 1]
 * the certificate bytes written so far in the whole call, so the certificate of
 * question q is from results[2 * q - 1], or from 0, up to results[2 * q + 1].
 *
 * `result` receives refusal and place, the index of the question that the refusal
 * belongs to (0 if there is none: 1, 3, 4, 14), then the answers, parts and bytes
 * written and the doubling and the halving probes made in the whole call. All
 * questions are checked before anything is written, and so are all runs, chosen or
 * not; the counts of these refusals are 0. After 5 to 7 what was written before
 * stands. Later places of the three rows are unchanged, also of an accepted call.
 * No questions are accepted.
 *
 * The allowance is for all probes of all questions, and is never refilled:
 * QUORUM_ENOUGH_PROBES for each question is always enough (for more than 97 of
 * them that is more than 32 bits hold), and so is the sum over the questions of
 * quorum_probe_bound_chosen() for the parts of any true certificate.
 *
 * Cost: one pass over the numbers, zeros at the start of runs among them, for the
 * first checks of all questions, then for each question the probes and the writing
 * of its certificate, as quorum_query.
 *
 * Example, after the one above: the bins in two of all three runs, those in both
 * of the first two, and those in the first or the last.
 *
 *     uint64_t masks[] = {7, 3, 5};
 *     uint32_t thresholds[] = {2, 2, 1};
 *     uint32_t many_answers[3 * QUORUM_ENOUGH_ANSWERS(9)];
 *     uint8_t certificates[3 * QUORUM_ENOUGH_BYTES(9)];
 *     uint64_t results[QUORUM_ENOUGH_RESULTS(3)], many[QUORUM_MANY_ROW];
 *     quorum_query_many(numbers, 9, ends, 3, masks, 3, thresholds, 3,
 *                       3 * QUORUM_ENOUGH_PROBES, many_answers, 27,
 *                       certificates, sizeof certificates, results, 6, many);
 *     // many: 0, 0, 0, 8, 18, 310, 5, 0; many_answers: 5, 9, 5, 9, 1, 2, 5, 9
 *     // results: 2, 106, 4, 193, 8, 310
 */
void quorum_query_many(const uint32_t *numbers, size_t numbers_len,
                       const uint32_t *ends, size_t ends_len,
                       const uint64_t *masks, size_t masks_len,
                       const uint32_t *thresholds, size_t thresholds_len,
                       uint32_t allowance, uint32_t *answers,
                       size_t answers_len, uint8_t *certificate,
                       size_t certificate_len, uint64_t *results,
                       size_t results_len, uint64_t result[QUORUM_MANY_ROW]);

/**
 * Write the bins of run 0 that fewer than `threshold` of the other runs hold to
 * `answers`, rising: what a new test, lent as run 0, found alone. They are its bins
 * that are no answer of the question about runs 1 to ends_len - 1.
 *
 * `certificate` receives the certificate of that question. Its answers are the bins
 * that at least `threshold` of the other runs hold; no mask has bit 0, and run i is
 * bit i. Where it is whole, after an accepted call and after 5, quorum_check_chosen
 * accepts it with a mask of all runs but run 0.
 *
 * `result` receives what it does from quorum_query: refusal and place, the answers,
 * parts and bytes written, the doubling and the halving probes made in the other
 * runs. Refusals 1 to 4 write nothing, and their counts are 0; a threshold above
 * ends_len - 1 is 2, so one run is always refused; 3 and 4 are for run 0 too.
 *
 * The answers are written after the walk of the other runs. After 6 and 7, which end
 * the walk, its first parts stand and there are no answers: their count is 0, and the
 * answer buffer is unchanged. After 5 the whole certificate stands, the place being
 * the number of its parts, and the answer buffer is full of the least answers. Later
 * places of both buffers are unchanged, also of an accepted call.
 *
 * The allowance is as of a question about the other runs, for reading run 0 is no
 * probe: in a run whose number of bins has b binary digits there are at most
 * 2 * d * b probes, d being the number of parts of any true certificate of the other
 * runs. quorum_probe_bound_chosen() with a mask of all runs but run 0 adds these up,
 * and QUORUM_ENOUGH_PROBES is always enough.
 *
 * Cost: one pass over the numbers for the first checks, then the probes and the
 * writing of the certificate as of a quorum_query about the other runs alone, and one
 * pass over the certificate, up to run 0's last bin, and run 0 together.
 *
 * Example: which bins of {2, 5, 8, 9} do fewer than two of {2, 5, 9},
 * {5, 7, 9, 12} and {1, 9} hold?
 *
 *     uint32_t tests[] = {2, 5, 8, 9, 2, 5, 9, 5, 7, 9, 12, 1, 9};
 *     uint32_t test_ends[] = {4, 7, 11, 13};
 *     uint32_t alone[QUORUM_ENOUGH_ANSWERS(13)];
 *     uint8_t of_others[QUORUM_ENOUGH_BYTES(13)];
 *     uint64_t alone_result[QUORUM_QUERY_ROW];
 *     quorum_query_alone(tests, 13, test_ends, 4, 2, QUORUM_ENOUGH_PROBES,
 *                        alone, 13, of_others, sizeof of_others, alone_result);
 *     // alone_result: 0, 0, 2, 6, 106, 3, 0; alone: 2, 8
 */
void quorum_query_alone(const uint32_t *numbers, size_t numbers_len,
                        const uint32_t *ends, size_t ends_len,
                        uint32_t threshold, uint32_t allowance,
                        uint32_t *answers, size_t answers_len,
                        uint8_t *certificate, size_t certificate_len,
                        uint64_t result[QUORUM_QUERY_ROW]);

/**
 * Write the bins that both of two runs hold to `answers`, rising. They are the
 * answers of quorum_query with a threshold of 2; there is no certificate and no
 * allowance.
 *
 * The runs are split by mutual partition: the middle number of the shorter one is
 * sought in the longer one by halving, and what lies below it in both, and then what
 * lies above it, is treated in the same manner. The order of the runs does not change
 * the answers.
 *
 * `result` receives refusal and place, and the answers written. Refusals 1, 3 and 4
 * write nothing, and their count is 0; any number of runs but two is 1. After 5 the
 * answer buffer is full of the least answers, the place being their number. After an
 * accepted call its later places are unchanged.
 *
 * There are at most as many answers as numbers in the shorter run: with room for so
 * many, or QUORUM_ENOUGH_ANSWERS of all numbers, 5 never occurs. (Proved: `few-found`,
 * `pair-room`.)
 *
 * Cost: one pass over the numbers for the first checks. Then, for m bins in the
 * shorter run and n in the longer one, at most m pivots are sought, each by at most b
 * comparisons, b being the binary digits of n, and one more tells whether it was found:
 * never more than m * (b + 1), and of the order of m * (1 + log2(n / m)). (Proved of
 * the way that is specified: `few-sought`, `sought-more`.) It nests no deeper than m has
 * binary digits, so at most 20 calls deep on the stack for QUORUM_MAX_NUMBERS numbers
 * in all.
 *
 * Example: what both of {2, 5, 9} and {5, 7, 9, 12} hold, which are the first two of
 * the runs above; then with room for one answer.
 *
 *     uint32_t both[QUORUM_ENOUGH_ANSWERS(3)];
 *     uint64_t pair[QUORUM_PAIR_ROW];
 *     quorum_pair(numbers, 7, ends, 2, both, 3, pair);
 *     // pair: 0, 0, 2; both: 5, 9
 *     quorum_pair(numbers, 7, ends, 2, both, 1, pair);
 *     // pair: 5, 1, 1; both: 5
 */
void quorum_pair(const uint32_t *numbers, size_t numbers_len,
                 const uint32_t *ends, size_t ends_len, uint32_t *answers,
                 size_t answers_len, uint64_t result[QUORUM_PAIR_ROW]);

/**
 * Decide whether a certificate is true for the runs and `threshold`, whoever
 * wrote it.
 *
 * `result` receives refusal and place, then the certificate's answers and parts,
 * both 0 on a refusal. Each field is settled before the next, so the refusal is
 * that of the first wrong one.
 *
 * A certificate that begins at bin 0 is refusal 9 at place 0, whoever wrote it, and
 * so is a stored one: nothing in it tells its age. Ask again for a new one.
 *
 * Cost: one pass over the numbers for the first checks, then at most
 * numbers + parts * runs steps.
 *
 * Example, after the one above:
 *
 *     uint64_t verdict[QUORUM_CHECK_ROW];
 *     quorum_check(numbers, 9, ends, 3, 2,
 *                  certificate, result[QUORUM_QUERY_BYTES], verdict);
 *     // verdict: 0, 0, 2, 6
 */
void quorum_check(const uint32_t *numbers, size_t numbers_len,
                  const uint32_t *ends, size_t ends_len, uint32_t threshold,
                  const uint8_t *certificate, size_t certificate_len,
                  uint64_t result[QUORUM_CHECK_ROW]);

/**
 * Decide whether a certificate is true for the runs that `mask` chooses and
 * `threshold`, whoever wrote it. It is judged by the chosen runs alone; a part
 * that names another run is refused as 10. With all runs chosen this is
 * quorum_check.
 *
 * `result` receives refusal and place, then the certificate's answers and parts,
 * both 0 on a refusal, as quorum_check. A certificate that begins at bin 0 is
 * refusal 9 at place 0 here too.
 *
 * Cost: one pass over the numbers for the first checks, then at most the numbers
 * of the chosen runs + parts * runs steps.
 *
 * Example, after those above: the certificate of the second question, and that of
 * the runs other than run 0.
 *
 *     quorum_check_chosen(numbers, 9, ends, 3, masks[1], thresholds[1],
 *                         certificates + results[1], results[3] - results[1],
 *                         verdict);
 *     // verdict: 0, 0, 2, 5
 *     quorum_check_chosen(tests, 13, test_ends, 4, 14, 2, of_others,
 *                         alone_result[QUORUM_QUERY_BYTES], verdict);
 *     // verdict: 0, 0, 2, 6
 */
void quorum_check_chosen(const uint32_t *numbers, size_t numbers_len,
                         const uint32_t *ends, size_t ends_len, uint64_t mask,
                         uint32_t threshold, const uint8_t *certificate,
                         size_t certificate_len,
                         uint64_t result[QUORUM_CHECK_ROW]);

/**
 * Decide whether a certificate is true for the runs, their weights and `wanted`,
 * whoever wrote it: each answer names runs that weigh at least that much, and each
 * gap leaves out runs that weigh less. One that is true for some weights may be false
 * for others. With all weights 1 this is quorum_check.
 *
 * `result` receives refusal and place, then the certificate's answers and parts,
 * both 0 on a refusal, as quorum_check. A certificate that begins at bin 0 is
 * refusal 9 at place 0 here too.
 *
 * Cost: as quorum_check, and at most one step more for each run that a part names.
 *
 * Example, after those above: the certificate of the question with weights; then
 * the same for a wanted weight of 4, for which run 0 alone, named by the second part,
 * is not enough.
 *
 *     quorum_check_weighted(numbers, 9, ends, 3, weights, 3, 3, weighed,
 *                           weighed_result[QUORUM_QUERY_BYTES], verdict);
 *     // verdict: 0, 0, 3, 7
 *     quorum_check_weighted(numbers, 9, ends, 3, weights, 3, 4, weighed,
 *                           weighed_result[QUORUM_QUERY_BYTES], verdict);
 *     // verdict: 10, 19, 0, 0
 */
void quorum_check_weighted(const uint32_t *numbers, size_t numbers_len,
                           const uint32_t *ends, size_t ends_len,
                           const uint32_t *weights, size_t weights_len,
                           uint32_t wanted, const uint8_t *certificate,
                           size_t certificate_len,
                           uint64_t result[QUORUM_CHECK_ROW]);

/**
 * Find the bins of one list from `first` to `last`, both included.
 *
 * `part` receives the place of the first of them and the place after the last:
 * list[part[0]] to list[part[1] - 1]. The two are equal if there are none, if
 * `first` is above `last` or if the list does not rise. Zeros at the start of the
 * list, any number of them, are passed over and never shown, whatever `first` is.
 * The list may have any length.
 *
 * Cost: one pass over the list and two searches.
 *
 * Example:
 *
 *     uint32_t list[] = {2, 5, 9};
 *     uint64_t part[QUORUM_BETWEEN_ROW];
 *     quorum_between(list, 3, 3, 9, part);
 *     // part: 1, 3
 *     uint32_t marked[] = {0, 0, 3, 5};
 *     quorum_between(marked, 4, 0, 3, part);
 *     // part: 2, 3
 */
void quorum_between(const uint32_t *list, size_t list_len, uint32_t first,
                    uint32_t last, uint64_t part[QUORUM_BETWEEN_ROW]);

/**
 * Sum up 2 * parts * (binary digits of the run's length) over the runs. If some
 * true certificate has so many parts, an allowance of this many probes is enough:
 * refusal 7 never occurs. That holds with weights too, of a certificate that is true
 * for these. A sum above QUORUM_ENOUGH_PROBES, which may not fit the 32 bits of an
 * allowance, can be cut down to that.
 *
 * The length is that of the numbers as lent, zeros at the start among them, for the
 * ends tell no more. So the sum may be above that over the runs' bins, and is
 * never below it.
 *
 * `result` receives refusal and place, and the bound, 0 on a refusal: 1 and 3 as
 * above, but for the numbers' length, which this call does not see.
 *
 * Cost: one pass over the ends.
 *
 * Example: runs of 3, 4 and 2 numbers, whose lengths have 2, 3 and 2 digits.
 *
 *     uint64_t bound[QUORUM_BOUND_ROW];
 *     quorum_probe_bound(ends, 3, 6, bound);
 *     // bound: 0, 0, 84
 */
void quorum_probe_bound(const uint32_t *ends, size_t ends_len, uint32_t parts,
                        uint64_t result[QUORUM_BOUND_ROW]);

/**
 * Sum up 2 * parts * (binary digits of the run's length) over the runs that `mask`
 * chooses. If some true certificate of the chosen runs has so many parts, a
 * question about them makes no more probes; an allowance of the sum over all
 * questions is enough for quorum_query_many, and one of this with all runs chosen but
 * run 0 for quorum_query_alone. The numbers are counted as lent. With all runs chosen
 * this is quorum_probe_bound.
 *
 * `result` receives refusal and place, and the bound, 0 on a refusal: 1, 13 and 3,
 * the last for the ends of all runs, chosen or not.
 *
 * Cost: one pass over the ends.
 *
 * Example: the first two of the runs above, whose lengths have 2 and 3 digits.
 *
 *     quorum_probe_bound_chosen(ends, 3, masks[1], 5, bound);
 *     // bound: 0, 0, 50
 */
void quorum_probe_bound_chosen(const uint32_t *ends, size_t ends_len,
                               uint64_t mask, uint32_t parts,
                               uint64_t result[QUORUM_BOUND_ROW]);

/**
 * Read one section of an LCOV tracefile as one run: write the line number of each
 * DA: record whose count is above 0 to `run`, in the order met.
 *
 * A section opens at a line that begins with SF: while none is open, and closes at
 * the next line that is exactly end_of_record; `section` is its index from 0.
 * Other sections, other records and a third value on a DA: line are passed over,
 * and the file is not read past the section's end. Lines end with byte 10, which
 * the last may lack. Byte 13 is a byte like any other, so end_of_record followed
 * by it closes nothing. Leading zeros are allowed, and a count may have any number
 * of digits.
 *
 * `result` receives refusal and place, and the count of numbers written, refused
 * or not. What was written stands; later places of `run` are unchanged, also of an
 * accepted call. For each record 15 is tested first, whatever its count; a count
 * of 0 is then left out, and only after that are 4 and 5 tested.
 *
 * A row of file_len / 7 numbers is always enough, and 5 then never occurs: a record
 * that gives a number has at least the seven bytes of DA:1,1 and its line end, and
 * the SF: line before it makes up for a line end that the last one lacks.
 *
 * The numbers written rise and are at least 1, after a refusal too, so a question
 * never refuses them as 4. There may be more of them than QUORUM_MAX_NUMBERS, the
 * most that a question takes for all its runs together; it refuses them as 3.
 *
 * Cost: one pass over the file up to the section's end; nothing is copied but the
 * numbers.
 *
 * Example: lines 1 and 3 of a.c were reached; there is no second section.
 *
 *     const char file[] =
 *         "SF:a.c\nDA:1,1\nDA:2,0\nDA:3,5,abc\nend_of_record\n";
 *     const size_t file_len = sizeof file - 1;
 *     uint32_t run[(sizeof file - 1) / 7];
 *     uint64_t reading[QUORUM_LCOV_ROW];
 *     quorum_lcov_run((const uint8_t *)file, file_len, 0, run, 6, reading);
 *     // reading: 0, 0, 2; run: 1, 3
 *     quorum_lcov_run((const uint8_t *)file, file_len, 1, run, 6, reading);
 *     // reading: 16, 46, 0
 */
void quorum_lcov_run(const uint8_t *file, size_t file_len, size_t section,
                     uint32_t *run, size_t run_len,
                     uint64_t result[QUORUM_LCOV_ROW]);

#ifdef __cplusplus
}
#endif

#endif
