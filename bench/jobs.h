// What is measured: jobs, their answers, and those who do them.
#ifndef JOBS_H
#define JOBS_H
#include <stdbool.h>
#include <stddef.h>
#include <stdint.h>

#ifdef __cplusplus
extern "C" {
#endif

enum way { FREE, PERIOD, SET, IRREDUCIBLE, CONTINUE };

// One job. A set has one factor to eight, which stand one after the other, constants first. A continuation to `count`
// terms has its polynomial apart, and as many starting terms as the degree. The field is GF(p), or where `binary` is n
// GF(2^n), reduced by y^n and the bits of `low`; p is then 2^n. Jobs of one family take turns in a round; `compared`
// jobs are there for their answers, and not timed; one `beside` others is there for a ratio, without a profile.
typedef struct {
    const char *family;
    char name[100];
    enum way way;
    bool compared, beside;
    uint32_t p, binary, low;
    size_t count, factors, bytes;
    uint64_t lengths[8], uppers[8];
    uint8_t coefficients[8 * 33], terms[4096];
    uint8_t polynomial[4097];
    size_t degree;
} job;

// An answer: for a question its yes or no, for a rating a polynomial of the degree, constant first, and for a
// continuation its terms in the place of the polynomial.
typedef struct {
    uint64_t status;
    bool yes;
    size_t degree;
    uint8_t polynomial[4097];
    uint64_t powers[8];
    uint64_t repeat;
    uint8_t unique;
} answer;

// One who does jobs: `prepare` makes its own form of the input, or NULL for a job that it does not do; `run` is what is
// timed; `tell` writes down what the last run found.
typedef struct {
    const char *name;
    void *(*prepare)(const job *);
    void (*run)(void *);
    void (*tell)(void *, answer *);
    void (*finish)(void *);
} contestant;

// the rater, its C versions, and the peers by their two methods: a gcd, or the minimal polynomial of twice the terms
extern const contestant rater, plain, bytes, best;
// the rater of an earlier tree, where its library is at hand
extern const contestant before;
// the rater again: the whole profile of 4,096 terms that the free way rates
extern const contestant profile;
extern const contestant ntl, ntl_twice, flint, flint_twice, pari, pari_twice;

// all jobs, and how many they are
const job *all_jobs(size_t *count);

// the product of the factors to their upper powers, and its degree
size_t product_of_powers(const job *j, uint8_t *into);

// whether a polynomial annihilates the terms of a job, or their endless repetition
bool annihilates(const job *j, const uint8_t *f, size_t degree);
bool annihilates_period(const job *j, const uint8_t *f, size_t degree);

// the most bytes of stack that a call uses
size_t stack_used(void (*call)(void *), void *argument);

#ifdef __cplusplus
}
#endif
#endif
