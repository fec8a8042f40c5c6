// Two libraries of the exported calls beside each other: beside FIRST.so SECOND.so ROUNDS SWAPPED KIND
// measures some thousand calls with monic input by both, in alternation, and writes a line for each: name, median and
// least time by the first, and by the second, in nanoseconds. Both must tell the same status and degree. A library
// has the calls of gobashe.h, or those of a tree from before it, which `before_calls` declares.
#define _GNU_SOURCE
#include "gobashe.h"
#include <dlfcn.h>
#include <stdarg.h>
#include <stdbool.h>
#include <stdint.h>
#include <stdio.h>
#include <stdlib.h>
#include <string.h>
#include <time.h>

// Functions `rater_…` of a prime p. The numbers of a set are eight bytes each, the least significant first.
typedef struct {
    uint64_t (*period)(uint64_t, const uint8_t *, size_t, const uint8_t *, size_t, uint8_t *, size_t, uint8_t *, size_t,
                       uint64_t *, uint64_t *, uint64_t *);
    uint64_t (*set)(uint64_t, const uint8_t *, size_t, const uint8_t *, size_t, const uint8_t *, size_t,
                    const uint8_t *, size_t, uint8_t *, size_t, uint8_t *, size_t, uint8_t *, size_t, uint64_t *,
                    uint64_t *);
    uint64_t (*sequence)(uint64_t, const uint8_t *, size_t, const uint8_t *, size_t, uint8_t *, size_t, size_t);
    uint64_t (*irreducible)(uint64_t, const uint8_t *, size_t, uint8_t *);
} before_calls;

typedef struct {
    __typeof__(&gobashe_rate_period) period;
    __typeof__(&gobashe_rate_set) set;
    __typeof__(&gobashe_continue_sequence) sequence;
    __typeof__(&gobashe_is_irreducible) irreducible;
    __typeof__(&gobashe_prime_in_range) prime;
    before_calls before;
} library;

enum kind { PERIOD, PORTION, SEQUENCE, IRREDUCIBLE, PRIME };

// One call. The factors stand one after another; of a sequence `start` is the number of starting terms.
typedef struct {
    enum kind kind;
    char name[96];
    unsigned p, factors, degree;
    uint8_t coefficients[4097];
    uint64_t lengths[8], uppers[8];
    size_t bytes, count, start;
    uint8_t terms[4096];
} job;

static job *jobs;
static size_t listed;
static uint8_t answer[4097], work[8192], powers[64], buffer[4096];
static library *known;
static const char *wanted;

static library load(const char *path) {
    void *handle = dlopen(path, RTLD_NOW | RTLD_LOCAL);
    if (handle == NULL) {
        fprintf(stderr, "beside: %s\n", dlerror());
        exit(2);
    }
    library l;
    *(void **)&l.period = dlsym(handle, "gobashe_rate_period");
    *(void **)&l.set = dlsym(handle, "gobashe_rate_set");
    *(void **)&l.sequence = dlsym(handle, "gobashe_continue_sequence");
    *(void **)&l.irreducible = dlsym(handle, "gobashe_is_irreducible");
    *(void **)&l.prime = dlsym(handle, l.period != NULL ? "gobashe_prime_in_range" : "rater_prime_in_range");
    *(void **)&l.before.period = dlsym(handle, "rater_rate_period");
    *(void **)&l.before.set = dlsym(handle, "rater_rate_with_factors");
    *(void **)&l.before.sequence = dlsym(handle, "rater_continue_sequence");
    *(void **)&l.before.irreducible = dlsym(handle, "rater_is_irreducible");
    int now = l.period != NULL && l.set != NULL && l.sequence != NULL && l.irreducible != NULL;
    int before = l.before.period != NULL && l.before.set != NULL && l.before.sequence != NULL &&
                 l.before.irreducible != NULL;
    if ((!now && !before) || l.prime == NULL) {
        fprintf(stderr, "beside: %s lacks a call\n", path);
        exit(2);
    }
    return l;
}

static int is_irreducible(const library *l, unsigned p, const uint8_t *f, size_t length, uint64_t *status) {
    uint8_t yes = 0;
    if (l->period == NULL) {
        *status = l->before.irreducible(p, f, length, &yes);
        return yes;
    }
    gobashe_answer said = l->irreducible(gobashe_prime(p), f, length);
    *status = said.status;
    return said.yes;
}

static uint64_t told(gobashe_rating r) { return 10000 * r.status + r.complexity; }

// What the call tells, as one number: its status and its degree, its last term, or its answer.
static uint64_t call_before(const before_calls *l, const job *j) {
    uint64_t a = 0, degree = 0, c = 0, status;
    switch (j->kind) {
    case PERIOD:
        status = l->period(j->p, j->coefficients, j->bytes, j->terms, j->count, answer, sizeof answer, work,
                           sizeof work, &a, &degree, &c);
        return 10000 * status + degree;
    case SEQUENCE:
        status = l->sequence(j->p, j->coefficients, j->bytes, j->terms, j->start, buffer, j->count, 0);
        return 10000 * status + buffer[j->count - 1];
    default:
        status = l->set(j->p, j->coefficients, j->bytes, (const uint8_t *)j->lengths, 8 * j->factors,
                        (const uint8_t *)j->uppers, 8 * j->factors, j->terms, j->count, answer, sizeof answer, work,
                        sizeof work, powers, sizeof powers, &degree, &c);
        return 10000 * status + degree;
    }
}

static uint64_t call(const library *l, const job *j) {
    uint64_t status, yes;
    if (j->kind == PRIME) return l->prime(j->p);
    if (j->kind == IRREDUCIBLE) {
        yes = is_irreducible(l, j->p, j->coefficients, j->bytes, &status);
        return 10000 * status + yes;
    }
    if (l->period == NULL) return call_before(&l->before, j);
    gobashe_field field = gobashe_prime(j->p);
    switch (j->kind) {
    case PERIOD:
        return told(l->period(field, j->coefficients, j->bytes, j->terms, j->count, answer, sizeof answer, work,
                              sizeof work));
    case SEQUENCE:
        status = l->sequence(field, j->coefficients, j->bytes, j->terms, j->start, buffer, j->count, 0);
        return 10000 * status + buffer[j->count - 1];
    default: {
        gobashe_bytes factors[8];
        for (size_t i = 0, at = 0; i < j->factors; at += j->lengths[i++])
            factors[i] = (gobashe_bytes){j->coefficients + at, j->lengths[i]};
        return told(l->set(field, factors, j->factors, j->uppers, j->factors, j->terms, j->count, answer,
                           sizeof answer, work, sizeof work));
    }
    }
}

// ---- the jobs, from one fixed seed

static uint64_t seed = 88172645463325252ull;
static unsigned below(unsigned n) {
    seed ^= seed << 13, seed ^= seed >> 7, seed ^= seed << 17;
    return (seed >> 11) % n;
}

static job *add(enum kind kind, unsigned p, const char *format, ...) {
    job *j;
    va_list words;
    jobs = realloc(jobs, (listed + 1) * sizeof *jobs);
    j = memset(&jobs[listed], 0, sizeof *jobs);
    j->kind = kind, j->p = p;
    va_start(words, format);
    vsnprintf(j->name, sizeof j->name, format, words);
    va_end(words);
    if (strncmp(j->name, wanted, strlen(wanted)) != 0) return NULL;
    listed++;
    return j;
}

// Whether 10 lets a factor of degree d pass.
static int in_range(unsigned p, unsigned d) {
    uint64_t power = 1;
    for (unsigned i = 0; i < d / 2; i++) power *= p;
    return d <= 32 && power <= 65536;
}

static void find_irreducible(unsigned p, unsigned d, uint8_t *f) {
    uint64_t status;
    do {
        for (unsigned i = 0; i < d; i++) f[i] = below(p);
        f[d] = 1;
    } while (!is_irreducible(known, p, f, d + 1, &status) || f[0] == 0);
}

static void add_factor(job *j, unsigned d, uint64_t upper) {
    int again = 1;
    while (again) {
        again = 0;
        find_irreducible(j->p, d, j->coefficients + j->bytes);
        for (size_t at = 0; at < j->bytes; at += d + 1)
            again |= memcmp(j->coefficients + at, j->coefficients + j->bytes, d + 1) == 0;
    }
    j->lengths[j->factors] = d + 1;
    j->uppers[j->factors++] = upper;
    j->bytes += d + 1;
    j->degree = d;
}

// Terms that the product of the factors, each to the power v, annihilates, from random ones on.
static void annihilated_terms(job *j, unsigned v) {
    static uint8_t g[8192], old[8192];
    size_t n = 0;
    memset(g, 0, sizeof g);
    g[0] = 1;
    for (unsigned i = 0; i < j->factors * v; i++) {
        const uint8_t *f = j->coefficients + i / v * (j->degree + 1);
        memcpy(old, g, sizeof g);
        memset(g, 0, sizeof g);
        for (size_t a = 0; a <= n; a++)
            for (unsigned b = 0; b <= j->degree; b++) g[a + b] = (g[a + b] + old[a] * f[b]) % j->p;
        n += j->degree;
    }
    for (size_t i = 0; i < j->count; i++) {
        unsigned sum = 0;
        for (size_t k = 0; i >= n && k < n; k++) sum += (j->p - g[k]) * j->terms[i - n + k];
        j->terms[i] = i < n ? below(j->p) : sum % j->p;
    }
}

static void random_terms(job *j) {
    for (size_t i = 0; i < j->count; i++) j->terms[i] = below(j->p);
}

// A portion with k factors of degree d to the upper power v, and as many terms more than they need.
static void add_portion(unsigned p, unsigned k, unsigned d, unsigned v, size_t more, const char *terms) {
    static const unsigned enough[] = {0, 1, 2, 3, 0, 5, 0, 0, 8};
    size_t total = k * d * v, n = more == 4096 ? 4096 : total + more;
    unsigned irreducibles = d == 1 ? p - 1 : d == 2 ? p * (p - 1) / 2 : d == 3 ? (p * p * p - p) / 3 : 8;
    if (!in_range(p, d) || total > 4096 || n > 4096 || irreducibles < enough[k]) return;
    if (p == 2 && d <= 5 && irreducibles < 2 * enough[k] && k > 1) return;
    if (n == total && (terms[0] == 'o' || terms[0] == 'r')) return;
    job *j = add(PORTION, p, "%s p %u factors %u degree %u upper %u terms %zu %s", k == 1 ? "portion" : "set", p,
                 k, d, v, n, terms);
    if (j == NULL) return;
    j->count = n;
    for (unsigned i = 0; i < k; i++) add_factor(j, d, v);
    if (strcmp(terms, "other") == 0) random_terms(j);
    else if (strcmp(terms, "zeros") != 0) annihilated_terms(j, strcmp(terms, "low") == 0 ? 1 : v);
    if (strcmp(terms, "refused at the end") == 0) j->terms[n - 1] = (j->terms[n - 1] + 1) % p;
}

static void add_portions(unsigned p, unsigned turn) {
    static const unsigned ks[] = {1, 2, 3, 5, 8}, ds[] = {1, 2, 3, 5, 8, 16, 21, 32};
    static const unsigned vs[] = {1, 2, 3, 4, 7, 9, 16, 30, 100};
    static const size_t more[] = {0, 1, 8, 40, 4096};
    static const char *const terms[] = {"other", "zeros", "low", "refused at the end"};
    for (unsigned a = 0; a < 5; a++)
        for (unsigned b = 0; b < 8; b++)
            for (unsigned c = 0; c < 9; c++)
                for (unsigned e = 0; e < 5; e++) {
                    if ((7 * a + 5 * b + 3 * c + e + turn) % 3 != 0) continue;
                    add_portion(p, ks[a], ds[b], vs[c], more[e], "whole");
                    add_portion(p, ks[a], ds[b], vs[c], more[e], terms[(a + b + c + e) % 4]);
                }
}

// A period of n terms with x − 1 for d = 1, else with an irreducible polynomial of degree d.
static void add_period(unsigned p, unsigned d, size_t n, const char *terms) {
    job *j = in_range(p, d) ? add(PERIOD, p, "period p %u degree %u terms %zu %s", p, d, n, terms) : NULL;
    if (j == NULL) return;
    j->count = n, j->bytes = d + 1;
    if (d == 1) j->coefficients[0] = p - 1, j->coefficients[1] = 1;
    else find_irreducible(p, d, j->coefficients);
    if (strcmp(terms, "other") == 0) random_terms(j);
    if (strcmp(terms, "ones") == 0) memset(j->terms, 1, n);
    if (strcmp(terms, "one at the end") == 0) j->terms[n - 1] = 1;
}

// A period of a register with a factor of degree d to the power p^w: the order of x times p^w terms, if these are few.
static void add_register(unsigned p, unsigned d, unsigned w) {
    uint8_t f[33], s[33];
    size_t order = 0, power = 1;
    for (unsigned i = 0; i < w; i++) power *= p;
    if (!in_range(p, d) || power > 4096) return;
    find_irreducible(p, d, f);
    memset(s, 0, sizeof s);
    s[0] = 1;
    do {
        unsigned top = s[d - 1];
        for (unsigned i = d; i-- > 0;) s[i] = ((i ? s[i - 1] : 0) + (p - f[i]) * top) % p;
        order++;
        top = s[0] == 1;
        for (unsigned i = 1; i < d; i++) top &= s[i] == 0;
        if (top) break;
    } while (order < 4097);
    if (order * power > 4096) return;
    job *j = add(PERIOD, p, "period p %u degree %u terms %zu of a register, power %zu", p, d, order * power, power);
    if (j == NULL) return;
    j->count = order * power, j->bytes = d + 1, j->factors = 1, j->degree = d;
    memcpy(j->coefficients, f, d + 1);
    annihilated_terms(j, power);
}

static void add_periods(unsigned p) {
    static const size_t ns[] = {1,   2,   3,   4,   6,   9,   12,  16,   27,   48,   64,   81,   96,   100,
                                125, 243, 256, 300, 343, 512, 625, 1000, 1024, 2048, 2187, 3125, 4000, 4096};
    static const char *const terms[] = {"other", "zeros", "ones", "one at the end"};
    for (unsigned i = 0; i < 28; i++)
        for (unsigned t = 0; t < 4; t++)
            for (unsigned d = 1; d <= 3; d++)
                if (d == 1 || (i + t + d) % 3 == 0) add_period(p, d, ns[i], terms[t]);
    for (unsigned d = 1; d <= 6; d++)
        for (unsigned w = 0; w <= 4; w++) add_register(p, d, w);
}

static void add_sequence(unsigned p, unsigned d, size_t n) {
    job *j = n < 1 ? NULL : add(SEQUENCE, p, "sequence p %u degree %u terms %zu", p, d, n);
    if (j == NULL) return;
    j->count = n, j->start = d, j->bytes = d + 1;
    for (unsigned i = 0; i < d; i++) j->coefficients[i] = below(p), j->terms[i] = below(p);
    j->coefficients[d] = 1;
}

// All degrees up to 9 and some beyond, with as many terms as the degree and up to three more, and with other numbers.
static void add_sequences(unsigned p) {
    static const unsigned ds[] = {0, 1, 2, 3, 4, 5, 6, 7, 8, 9, 12, 15, 16, 17, 32, 64, 200, 1000, 4000};
    static const size_t ns[] = {20, 50, 300, 4096};
    for (unsigned i = 0; i < 19; i++) {
        for (unsigned k = 0; k < 4; k++) add_sequence(p, ds[i], ns[k]);
        for (size_t k = 0; k < 4; k++)
            if (ds[i] + k != 20) add_sequence(p, ds[i], ds[i] + k);
    }
}

static void add_questions(unsigned p) {
    for (unsigned d = 1; d <= 32 && in_range(p, d); d++)
        for (int yes = 0; yes < 2; yes++) {
            uint8_t a[33], b[33];
            if (d == 1 && !yes) continue;
            job *j = add(IRREDUCIBLE, p, "irreducible p %u degree %u %s", p, d, yes ? "yes" : "no");
            if (j == NULL) continue;
            j->bytes = d + 1;
            if (yes) find_irreducible(p, d, j->coefficients);
            else {
                find_irreducible(p, d / 2, a);
                find_irreducible(p, d - d / 2, b);
                for (unsigned i = 0; i <= d / 2; i++)
                    for (unsigned k = 0; k <= d - d / 2; k++)
                        j->coefficients[i + k] = (j->coefficients[i + k] + a[i] * b[k]) % p;
            }
        }
}

// ---- measuring

static double now(void) {
    struct timespec t;
    clock_gettime(CLOCK_MONOTONIC, &t);
    return t.tv_sec * 1e9 + t.tv_nsec;
}

static int compare(const void *a, const void *b) {
    double x = *(const double *)a, y = *(const double *)b;
    return (x > y) - (x < y);
}

static void measure(library *both, const job *j, int rounds, int swapped) {
    double times[2][64], began = now();
    int calls = 0;
    static volatile uint64_t sink;
    if (call(&both[0], j) != call(&both[1], j)) {
        fprintf(stderr, "beside: the two tell different things of %s\n", j->name);
        exit(1);
    }
    while (calls < 3 || now() - began < 30000) sink += call(&both[0], j), calls++;
    calls = 40000 * calls / (now() - began) + 1;
    for (int r = 0; r < rounds; r++)
        for (int turn = 0; turn < 2; turn++) {
            int which = turn ^ (r & 1) ^ swapped;
            began = now();
            for (int i = 0; i < calls; i++) sink += call(&both[which], j);
            times[which][r] = (now() - began) / calls;
        }
    for (int i = 0; i < 2; i++) qsort(times[i], rounds, sizeof(double), compare);
    printf("%s\t%.2f\t%.2f\t%.2f\t%.2f\n", j->name, times[0][rounds / 2], times[0][0], times[1][rounds / 2],
           times[1][0]);
}

int main(int count, char **words) {
    static const unsigned primes[] = {2, 3, 5, 7, 13, 31, 61, 127, 251};
    if (count != 6) return 2;
    static library both[2];
    both[0] = load(words[1]), both[1] = load(words[2]);
    int rounds = atoi(words[3]) < 64 ? atoi(words[3]) : 64;
    known = &both[0];
    wanted = words[5];
    for (unsigned n = 0; n < 260; n++) add(PRIME, n, "prime %u", n);
    for (unsigned i = 0; i < 9; i++) {
        add_periods(primes[i]);
        add_portions(primes[i], i);
        add_sequences(primes[i]);
        add_questions(primes[i]);
    }
    for (size_t i = 0; i < listed; i++) measure(both, &jobs[i], rounds, atoi(words[4]));
    return 0;
}
