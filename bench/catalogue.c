// The search of the catalogue beside 226 calls of the period way with its entries, in one run. Each line has the time of a
// search on a period, the time of the calls on the same period, and their ratio, and ends with what the search found.
#include "gobashe.h"
#include <stdio.h>
#include <stdlib.h>
#include <string.h>
#include <time.h>

#define ROUNDS 15

static uint8_t terms[GOBASHE_TERMS], answer[GOBASHE_ANSWER], work[GOBASHE_WORK];

// ---- the two sides

static gobashe_entry search(size_t n) { return gobashe_find_entry(terms, n, work, sizeof work); }

// the first entry that the period way rates, or 0, by asking it for every entry
static uint64_t by_calls(size_t n) {
    uint64_t first = 0;
    for (size_t i = 0; i < GOBASHE_CATALOGUE; i++) {
        uint64_t entry = gobashe_catalogue_entry(i);
        uint8_t factor[11];
        size_t count = 0;
        for (uint64_t rest = entry; rest; rest >>= 1) factor[count++] = rest & 1;
        gobashe_rating rating = gobashe_rate_period(gobashe_prime(2), factor, count, terms, n, answer, sizeof answer,
                                                    work, sizeof work);
        if (rating.status == 0 && first == 0) first = entry;
    }
    return first;
}

// ---- measurement

static double now(void) {
    struct timespec t;
    clock_gettime(CLOCK_MONOTONIC, &t);
    return t.tv_sec * 1e6 + t.tv_nsec / 1e3;
}

// The median of the ratios of the rounds, which take turns.
static int by_size(const void *a, const void *b) {
    double x = *(const double *)a, y = *(const double *)b;
    return (x > y) - (x < y);
}

static double median(double *values) {
    qsort(values, ROUNDS, sizeof *values, by_size);
    return values[ROUNDS / 2];
}

static void line(const char *what, size_t n) {
    double ours[ROUNDS], theirs[ROUNDS], ratios[ROUNDS];
    gobashe_entry found = {0, 0, 0};
    uint64_t first = 0;
    for (int k = 0; k < ROUNDS; k++) {
        double t0 = now();
        for (int i = 0; i < 8; i++) found = search(n);
        double t1 = now();
        first = by_calls(n);
        double t2 = now();
        ours[k] = (t1 - t0) / 8;
        theirs[k] = t2 - t1;
        ratios[k] = ours[k] / theirs[k];
    }
    if (first != found.entry) {
        fprintf(stderr, "%s: the search and the calls do not agree\n", what);
        exit(1);
    }
    printf("%-44s %9.1f %9.1f µs %7.3f  ", what, median(ours), median(theirs), median(ratios));
    if (found.status == 0) {
        printf("entry %llu, power %llu\n", (unsigned long long)found.entry, (unsigned long long)found.power);
    } else {
        printf("refused by %llu\n", (unsigned long long)found.status);
    }
}

// ---- the periods

static void random_terms(size_t n) {
    uint64_t state = 1;
    for (size_t i = 0; i < n; i++) {
        state = state * 6364136223846793005u + 1442695040888963407u;
        terms[i] = state >> 63;
    }
}

static void one_term(size_t n, size_t at) {
    memset(terms, 0, n);
    terms[at] = 1;
}

// the register of x^12 + x^6 + x^4 + x + 1, which has the period 4,095 and is no entry
static void register_terms(size_t n) {
    for (size_t i = 0; i < n; i++) {
        terms[i] = i < 12 ? i == 11 : terms[i - 12] ^ terms[i - 11] ^ terms[i - 8] ^ terms[i - 6];
    }
}

int main(void) {
    printf("%-44s %9s %9s    %7s\n", "period", "search", "226 calls", "ratio");
    random_terms(4095);
    line("4,095 random terms", 4095);
    register_terms(4095);
    line("4,095 terms of a register of degree 12", 4095);
    one_term(4095, 4094);
    line("4,095 terms, the last not 0", 4095);
    one_term(4095, 1000);
    line("4,095 terms, one in the midst not 0", 4095);
    random_terms(4094);
    line("4,094 random terms", 4094);
    random_terms(4032);
    line("4,032 random terms (w = 6)", 4032);
    random_terms(4096);
    line("4,096 random terms, always x + 1", 4096);
    return 0;
}
