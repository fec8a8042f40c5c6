// The leaves beside C in one run: sums of products and updates beside the loops that the C versions of the calls have,
// irreducibility, shortest periods, and orders.
// Each line has the time of the proved function, the time of the same work in C, and their ratio.
#include "gobashe.h"
#include "kernels.h"
#include "reference.h"
#include <stdio.h>
#include <stdlib.h>
#include <string.h>
#include <time.h>

// ---- the proved functions: a slice passes as its start and its length

uint8_t leaf_dot(uint64_t p, const uint8_t *c, size_t m, const uint8_t *s, size_t n);
void leaf_update(uint64_t p, uint8_t *a, size_t n, uint8_t c, const uint8_t *b, size_t m);
size_t leaf_shortest_period(const uint8_t *terms, size_t n);
size_t leaf_order(uint64_t p, const uint8_t *f, size_t n, size_t limit);

// ---- measurement

// the time of this thread, so that what others do on the same core is not counted
static double now(void) {
    struct timespec t;
    clock_gettime(CLOCK_THREAD_CPUTIME_ID, &t);
    return t.tv_sec * 1e9 + t.tv_nsec;
}

// The least time of a call, in nanoseconds, over several rounds that take turns: each side is run TIMES times a round.
#define ROUNDS 9
#define MEASURE(OURS, THEIRS, TIMES, A, B)                    \
    double A = 1e18, B = 1e18;                                \
    for (int round = 0; round < ROUNDS; round++) {            \
        double t0 = now();                                    \
        for (int k = 0; k < (TIMES); k++) { OURS; }           \
        double t1 = now();                                    \
        for (int k = 0; k < (TIMES); k++) { THEIRS; }         \
        double t2 = now();                                    \
        if ((t1 - t0) / (TIMES) < A) A = (t1 - t0) / (TIMES); \
        if ((t2 - t1) / (TIMES) < B) B = (t2 - t1) / (TIMES); \
    }

static void line(const char *what, double ours, double theirs, const char *unit) {
    printf("%-44s %10.3f %10.3f %-5s %6.2f\n", what, ours, theirs, unit, ours / theirs);
}

static void same(bool equal, const char *what) {
    if (!equal) {
        printf("%s: the two differ\n", what);
        exit(1);
    }
}

static uint64_t seed = 1;
static uint64_t below(uint64_t n) {
    seed = seed * 6364136223846793005ull + 1442695040888963407ull;
    return (seed >> 33) % n;
}

#define BYTES 16384

static void vectors(uint16_t p) {
    static uint8_t c[BYTES], s[BYTES], ours[BYTES], theirs[BYTES];
    char what[80];
    volatile uint8_t sink;
    for (int i = 0; i < BYTES; i++) {
        c[i] = below(p);
        s[i] = below(p);
    }
    same(leaf_dot(p, c, BYTES, s, BYTES) == dot(p, c, s, BYTES), "sum of products");
    same(leaf_dot(p, c, BYTES, s, BYTES) == dot_rows(p, c, s, BYTES), "sum of products");
    MEASURE(sink = leaf_dot(p, c, BYTES, s, BYTES), sink = dot(p, c, s, BYTES), 2000, a, b)
    snprintf(what, sizeof what, "sum of products modulo %d, C bytes", p);
    line(what, a / BYTES, b / BYTES, "ns");
    MEASURE(sink = leaf_dot(p, c, BYTES, s, BYTES), sink = dot_rows(p, c, s, BYTES), 2000, i, j)
    snprintf(what, sizeof what, "sum of products modulo %d, C best", p);
    line(what, i / BYTES, j / BYTES, "ns");
    (void)sink;

    uint8_t k = p - 1;
    memcpy(ours, c, BYTES);
    memcpy(theirs, c, BYTES);
    leaf_update(p, ours, BYTES, k, s, BYTES);
    update(p, theirs, k, s, BYTES);
    same(memcmp(ours, theirs, BYTES) == 0, "update");
    MEASURE(leaf_update(p, ours, BYTES, k, s, BYTES), update(p, theirs, k, s, BYTES), 500, d, e)
    snprintf(what, sizeof what, "update a + c*b modulo %d, C bytes", p);
    line(what, d / BYTES, e / BYTES, "ns");
    MEASURE(leaf_update(p, ours, BYTES, k, s, BYTES), c_update_by_division(p, theirs, k, s, BYTES), 100, g, h)
    snprintf(what, sizeof what, "update modulo %d, in C by a division", p);
    line(what, g / BYTES, h / BYTES, "ns");
}

// leaves an irreducible polynomial of this degree in f
static void choose_irreducible(uint32_t p, int d, uint8_t *f) {
    gobashe_answer said;
    do {
        for (int i = 0; i < d; i++) f[i] = below(p);
        f[d] = 1;
        said = gobashe_is_irreducible(gobashe_prime(p), f, d + 1);
        same(said.status == 0, "an accepted polynomial");
    } while (!said.yes);
}

// of an irreducible polynomial, so that no common divisor ends the test
static void irreducibility(uint32_t p, int d) {
    uint8_t f[33];
    char what[80];
    choose_irreducible(p, d, f);
    same(c_irreducible_ben_or(p, f, d), "irreducibility");
    volatile bool sink;
    MEASURE(sink = gobashe_is_irreducible(gobashe_prime(p), f, d + 1).yes, sink = c_irreducible_ben_or(p, f, d), 300, a,
            b)
    snprintf(what, sizeof what, "irreducible, degree %d over %d", d, p);
    line(what, a / 1e3, b / 1e3, "µs");
    (void)sink;
}

// n terms: random bits; zeros and then a one, which nearly repeat after every divisor of n; zeros
static void periods(size_t n) {
    static const char *const kinds[] = {"random", "0..01", "zero"};
    static uint8_t terms[4096];
    char what[80];
    volatile size_t sink;
    for (int kind = 0; kind < 3; kind++) {
        for (size_t i = 0; i < n; i++) terms[i] = kind == 0 ? below(2) : kind == 1 && i == n - 1;
        same(leaf_shortest_period(terms, n) == c_shortest_period(terms, n, n), "shortest period");
        MEASURE(sink = leaf_shortest_period(terms, n), sink = c_shortest_period(terms, n, n), 3000, a, b)
        snprintf(what, sizeof what, "shortest period, %zu terms, %s", n, kinds[kind]);
        line(what, a / 1e3, b / 1e3, "µs");
        (void)sink;
    }
}

// An irreducible polynomial whose order is beyond the limit. Both test first whether it is irreducible; then the proved
// function goes by the primes of p^d - 1, and the C version through the powers one by one, which takes longer.
static void order(uint32_t p, int d) {
    uint8_t f[33];
    char what[80];
    do choose_irreducible(p, d, f);
    while (c_order(p, f, d, 65536) != 0);
    same(leaf_order(p, f, d + 1, 65536) == 0, "an order");
    volatile size_t sink;
    MEASURE(sink = leaf_order(p, f, d + 1, 65536), sink = c_irreducible_ben_or(p, f, d) ? c_order(p, f, d, 65536) : 0, 3, a, b)
    snprintf(what, sizeof what, "order beyond 65,536, degree %d over %d", d, p);
    line(what, a / 1e3, b / 1e3, "µs");
    (void)sink;
}

int main(void) {
    printf("%-44s %10s %10s %-5s %6s\n", "per byte, or per call", "proved", "C", "", "ratio");
    vectors(2);
    vectors(251);
    irreducibility(2, 32);
    irreducibility(3, 21);
    irreducibility(5, 13);
    irreducibility(7, 11);
    irreducibility(251, 5);
    periods(4096);
    periods(3360);
    periods(4093);
    order(2, 17);
    order(2, 32);
    order(3, 21);
    order(251, 5);
    return 0;
}
