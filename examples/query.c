/*
 * Asks which bins at least two of {2, 5, 9}, {5, 7, 9, 12} and {1, 9} hold, has
 * the certificate checked, and prints the results and the certificate's parts.
 * Then the same with the first run counting for three, and a weight of three wanted.
 * Then which bins of a new test, {2, 5, 8, 9}, fewer than two of the three hold.
 * Last which bins both of the first two hold, without a certificate.
 * It prints what is in expected.txt.
 *
 *     cc -Iinclude examples/query.c -Ltarget/staticlib -lquorum
 */
#include <inttypes.h>
#include <stdio.h>

#include "quorum.h"

/* A decoder of a certificate's parts, to copy. */

/** A part: an answer, whose value is both its first and its last bin, or a gap. */
typedef struct {
    int is_answer;
    uint32_t first;
    uint32_t last;
    uint64_t mask;
} part_t;

/** Returns the number in `count` bytes, lowest first. */
static uint64_t read_number(const uint8_t *bytes, int count) {
    uint64_t number = 0;
    while (count > 0) {
        number = number << 8 | bytes[--count];
    }
    return number;
}

/**
 * Reads the part whose field is at the front of `size` bytes. Returns the size
 * of the field, or 0 if it is cut short, its tag is unknown or its length is not
 * the tag's. Whether the part is true is for quorum_check to say.
 */
static size_t read_part(const uint8_t *bytes, size_t size, part_t *part) {
    size_t field_size;
    if (size < 3) {
        return 0;
    }
    part->is_answer = bytes[0] == QUORUM_TAG_ANSWER;
    if (!part->is_answer && bytes[0] != QUORUM_TAG_GAP) {
        return 0;
    }
    field_size = part->is_answer ? QUORUM_ANSWER_SIZE : QUORUM_GAP_SIZE;
    if (size < field_size || 3 + read_number(bytes + 1, 2) != field_size) {
        return 0;
    }
    part->first = (uint32_t)read_number(bytes + 3, 4);
    part->last = (uint32_t)read_number(bytes + (part->is_answer ? 3 : 7), 4);
    part->mask = read_number(bytes + field_size - 8, 8);
    return field_size;
}

/* The end of the decoder. */

static void print_part(const part_t *part) {
    if (part->is_answer) {
        printf("hit %" PRIu32 " %" PRIu64 "\n", part->first, part->mask);
    } else {
        printf("gap %" PRIu32 " %" PRIu32 " %" PRIu64 "\n", part->first,
               part->last, part->mask);
    }
}

/**
 * Prints a row of a question, or of a check or a pair, which have the first of its
 * places.
 */
static void print_row(const uint64_t *row, int count) {
    static const char *const names[QUORUM_QUERY_ROW] = {
        "refusal", "place",     "answers", "parts",
        "bytes",   "doublings", "halvings"};
    for (int i = 0; i < count; i++) {
        printf("%s %" PRIu64 "\n", names[i], row[i]);
    }
}

static void print_answers(const uint32_t *answers, uint64_t count) {
    for (uint64_t i = 0; i < count; i++) {
        printf("answer %" PRIu32 "\n", answers[i]);
    }
}

/**
 * Prints what a question wrote and the verdict on its certificate. Returns 0 if
 * both calls accepted.
 */
static int print_all(const uint64_t *result, const uint32_t *answers,
                     const uint8_t *certificate, const uint64_t *verdict) {
    size_t offset = 0, size;
    part_t part;

    print_row(result, QUORUM_QUERY_ROW);
    print_answers(answers, result[QUORUM_QUERY_ANSWERS]);
    while (offset < result[QUORUM_QUERY_BYTES]) {
        size = read_part(certificate + offset,
                         result[QUORUM_QUERY_BYTES] - offset, &part);
        if (size == 0) {
            return 1;
        }
        print_part(&part);
        offset += size;
    }
    print_row(verdict, QUORUM_CHECK_ROW);
    return result[QUORUM_REFUSAL] != QUORUM_ACCEPTED
        || verdict[QUORUM_REFUSAL] != QUORUM_ACCEPTED;
}

int main(void) {
    const uint32_t numbers[9] = {2, 5, 9, 5, 7, 9, 12, 1, 9};
    const uint32_t ends[3] = {3, 7, 9};
    const uint32_t weights[3] = {3, 1, 1};
    const uint32_t tests[13] = {2, 5, 8, 9, 2, 5, 9, 5, 7, 9, 12, 1, 9};
    const uint32_t test_ends[4] = {4, 7, 11, 13};
    const uint64_t all_but_run_0 = 14;
    uint32_t answers[QUORUM_ENOUGH_ANSWERS(13)];
    uint8_t certificate[QUORUM_ENOUGH_BYTES(13)];
    uint64_t result[QUORUM_QUERY_ROW], verdict[QUORUM_CHECK_ROW];
    uint64_t pair[QUORUM_PAIR_ROW];
    int failed;

    quorum_query(numbers, 9, ends, 3, 2, QUORUM_ENOUGH_PROBES, answers,
                 QUORUM_ENOUGH_ANSWERS(13), certificate, sizeof certificate,
                 result);
    quorum_check(numbers, 9, ends, 3, 2, certificate,
                 result[QUORUM_QUERY_BYTES], verdict);
    failed = print_all(result, answers, certificate, verdict);

    quorum_query_weighted(numbers, 9, ends, 3, weights, 3, 3,
                          QUORUM_ENOUGH_PROBES, answers,
                          QUORUM_ENOUGH_ANSWERS(13), certificate,
                          sizeof certificate, result);
    quorum_check_weighted(numbers, 9, ends, 3, weights, 3, 3, certificate,
                          result[QUORUM_QUERY_BYTES], verdict);
    failed |= print_all(result, answers, certificate, verdict);

    quorum_query_alone(tests, 13, test_ends, 4, 2, QUORUM_ENOUGH_PROBES,
                       answers, QUORUM_ENOUGH_ANSWERS(13), certificate,
                       sizeof certificate, result);
    quorum_check_chosen(tests, 13, test_ends, 4, all_but_run_0, 2, certificate,
                        result[QUORUM_QUERY_BYTES], verdict);
    failed |= print_all(result, answers, certificate, verdict);

    quorum_pair(numbers, 7, ends, 2, answers, QUORUM_ENOUGH_ANSWERS(13), pair);
    print_row(pair, QUORUM_PAIR_ROW);
    print_answers(answers, pair[QUORUM_PAIR_ANSWERS]);
    return failed || pair[QUORUM_REFUSAL] != QUORUM_ACCEPTED;
}
