/* A program in C that calls the library through its header: one row for each call, over fields of both sorts. It prints what
 * is wrong, and ends with status 0 if nothing is. tests/header.rs compiles and runs it, also as C++. */
#include "gobashe.h"

#include <stdio.h>
#include <string.h>

static int wrong;
static uint8_t answer[GOBASHE_ANSWER], work[GOBASHE_WORK];

static void is(const char *what, uint64_t found, uint64_t expected) {
    if (found != expected) {
        printf("%s: %llu, expected %llu\n", what, (unsigned long long)found, (unsigned long long)expected);
        wrong = 1;
    }
}

static void are(const char *what, const uint8_t *found, const uint8_t *expected, size_t n) {
    is(what, (uint64_t)memcmp(found, expected, n), 0);
}

/* The status, the complexity, the repeat length, the word, and the first two powers. */
static void rated(const char *what, gobashe_rating r, const uint64_t expected[6]) {
    const uint64_t found[6] = {r.status, r.complexity, r.repeat, r.word, r.powers[0], r.powers[1]};
    int i;
    for (i = 0; i < 6; i++) {
        is(what, found[i], expected[i]);
    }
    for (i = 2; i < 8; i++) {
        is(what, r.powers[i], 0);
    }
}

static void ratings(void) {
    const gobashe_field four = gobashe_binary(2, 3), two = gobashe_prime(2), aes = gobashe_binary(8, 27);
    const uint8_t x2[] = {2, 1}, one[] = {1, 1}, three[] = {1, 1, 1}, square[] = {3, 0, 1}, x3[] = {3, 1};
    const uint8_t period[] = {1, 0, 3, 0, 2, 0}, portion[] = {0, 1, 1}, powers[] = {1, 3, 5, 15};
    const gobashe_bytes factors[] = {{one, 2}, {three, 3}};
    const uint64_t uppers[] = {1, 1};
    const uint64_t period_figures[] = {0, 2, 6, 0, 2, 0}, set_figures[] = {0, 2, 3, 0, 0, 1};
    const uint64_t free_figures[] = {0, 1, 0, 1, 0, 0}, some_figures[] = {0, 2, 0, 2, 0, 0};
    const uint64_t refused[] = {GOBASHE_NOT_BINARY_FIELD, 0, 0, 0, 0, 0};
    rated("period", gobashe_rate_period(four, x2, 2, period, 6, answer, sizeof answer, work, sizeof work),
          period_figures);
    are("its polynomial", answer, square, 3);
    rated("set", gobashe_rate_set(two, factors, 2, uppers, 2, portion, 3, answer, sizeof answer, work, sizeof work),
          set_figures);
    are("its polynomial", answer, three, 3);
    rated("free", gobashe_rate_free(aes, powers, 4, answer, sizeof answer, work, sizeof work), free_figures);
    are("its polynomial", answer, x3, 2);
    rated("some", gobashe_rate_free(two, portion, 2, answer, sizeof answer, work, sizeof work), some_figures);
    rated("no field", gobashe_rate_free(gobashe_binary(0, 2), powers, 4, NULL, 0, NULL, 0), refused);
}

static void others(void) {
    const gobashe_field four = gobashe_binary(2, 3), aes = gobashe_binary(8, 27);
    const uint8_t x3[] = {3, 1}, quadratic[] = {2, 1, 1}, product[] = {1, 1, 1}, start[] = {1};
    const uint8_t continued[] = {9, 1, 3, 5, 15}, bits[] = {0, 0, 0, 1}, terms[] = {0, 3, 4};
    const uint8_t profile[] = {0, 0, 0, 1, 0, 2, 0, 0, 8, 2, 0, 0};
    const uint8_t file[] = {1, 0, 0, 0, 7, 9, 8, 27, 3, 3, 6, 5, 8};
    uint8_t buffer[] = {9, 9, 9, 9, 9}, entries[12];
    gobashe_entry entry = gobashe_find_entry(bits, 4, work, sizeof work);
    gobashe_found found = gobashe_record(file, sizeof file, 1);
    is("version", gobashe_version(), GOBASHE_VERSION);
    is("prime", gobashe_prime_in_range(251) && !gobashe_prime_in_range(253), 1);
    is("irreducible", gobashe_is_irreducible(four, quadratic, 3).yes, 1);
    is("reducible", gobashe_is_irreducible(four, product, 3).yes, 0);
    is("empty", gobashe_is_irreducible(four, NULL, 0).status, GOBASHE_COEFFICIENT_OUT_OF_RANGE);
    is("continuation", gobashe_continue_sequence(aes, x3, 2, start, 1, buffer, 5, 1), GOBASHE_OK);
    are("its terms", buffer, continued, 5);
    is("profile", gobashe_profile(four, terms, 3, entries, sizeof entries), GOBASHE_OK);
    are("its entries", entries, profile, 12);
    is("catalogue", gobashe_catalogue_entry(0) + gobashe_catalogue_entry(GOBASHE_CATALOGUE), 2);
    is("entry", entry.status == 0 && entry.entry == 3 && entry.power == 4, 1);
    is("record", found.status == 0 && found.kind == 9 && found.from == 6 && found.length == 2, 1);
    is("no file", gobashe_record(NULL, 0, 0).status, GOBASHE_FILE_CUT_SHORT);
    is("reasons", gobashe_reason(20) != NULL && gobashe_reason(21) == NULL, 1);
}

int main(void) {
    ratings();
    others();
    return wrong;
}
